// SPDX-License-Identifier: Apache-2.0
// A script's lines (docs/FORMATS.md), what wsched itself says of a pod and a node
// (docs/SCHEDULING.md), and the records that a rule is told.
"use strict";

const script = (() => {
    // The first fault of a line, as `wsched run` tells it.
    class Fault extends Error {
        constructor(line, text) {
            super(`line ${line}: ${text}`);
        }
    }
    class Bad extends Error {}
    const bad = (field) => new Bad(`2 BadField ${field}`), over = (field) => new Bad(`4 OverLimit ${field}`), quantity = (field) => new Bad(`3 Quantity ${field}`);

    const NAME = /^[A-Za-z0-9._/-]{1,63}$/, TEXT = /^[A-Za-z0-9._/-]{0,63}$/;
    const EFFECTS = { NoSchedule: 1, PreferNoSchedule: 2, NoExecute: 3 };
    const SUFFIXES = { k: 1e3, M: 1e6, G: 1e9, T: 1e12, Ki: 2 ** 10, Mi: 2 ** 20, Gi: 2 ** 30, Ti: 2 ** 40 };
    const MOST_CPU = 2 ** 30, MOST_MEMORY = 2 ** 44, MOST_PODS = 150_000, MOST_LINE = 65_536;
    const MARK = ["node.kubernetes.io/unschedulable", "", "NoSchedule"];

    // "Amounts": null where the text is none, or is above its limit.
    function thousandths(text) {
        const found = /^(\d{1,15})(?:\.(\d{1,3})|(m))?$/.exec(text);
        if (!found) return null;
        const value = found[3] ? Number(found[1]) : Number(found[1]) * 1000 + Number((found[2] ?? "").padEnd(3, "0"));
        return value <= MOST_CPU ? value : null;
    }
    function in_bytes(text) {
        const found = /^(\d{1,15})(k|M|G|T|Ki|Mi|Gi|Ti)?$/.exec(text);
        const value = found ? Number(found[1]) * (SUFFIXES[found[2]] ?? 1) : null;
        return value !== null && value <= MOST_MEMORY ? value : null;
    }

    // (JSON.parse rounds what is above 2^53, and reads 1.0 as a whole number)
    function whole(row, field, low, high, otherwise) {
        const it = row[field] === undefined ? otherwise : row[field];
        if (!Number.isInteger(it) || Object.is(it, -0)) throw bad(field);
        if (it < low || it > high) throw over(field);
        return it;
    }
    function name(row, field) {
        if (typeof row[field] !== "string" || !NAME.test(row[field])) throw bad(field);
        return row[field];
    }
    function amount(row, field) {
        if (typeof row[field] !== "string") throw bad(field);
        const value = (field === "cpu" ? thousandths : in_bytes)(row[field]);
        if (value === null) throw quantity(field);
        return value;
    }
    // An array of arrays of texts, of which `read` makes what is kept.
    function listed(row, field, most, width, read, least = 0) {
        const items = row[field] === undefined && least === 0 ? [] : row[field];
        if (!Array.isArray(items)) throw bad(field);
        if (items.length > most || items.length < least) throw over(field);
        return items.map((item, k) => {
            if (!Array.isArray(item) || item.length !== width || item.some((it) => typeof it !== "string")) throw bad(field);
            return read(item, items.slice(0, k));
        });
    }
    const containers = (row, field, least) => listed(row, field, 16, 2, ([cpu, memory]) => {
        const found = [thousandths(cpu), in_bytes(memory)];
        if (found.includes(null)) throw quantity(field);
        return found;
    }, least);
    const labels = (row) => listed(row, "labels", 32, 2, ([key, value], before) => {
        if (!NAME.test(key) || !TEXT.test(value) || before.some(([it]) => it === key)) throw bad("labels");
        return [key, value];
    });
    const taints = (row) => listed(row, "taints", 8, 3, ([key, value, effect], before) => {
        if (!NAME.test(key) || !TEXT.test(value) || !(effect in EFFECTS) || before.some((it) => it[0] === key && it[2] === effect)) throw bad("taints");
        return [key, value, effect];
    });
    const tolerations = (row) => listed(row, "tolerations", 16, 4, ([key, operator, value, effect]) => {
        const is_good = TEXT.test(key) && TEXT.test(value) && ["", "Equal", "Exists"].includes(operator) && (effect === "" || effect in EFFECTS);
        if (!is_good || (operator === "Exists" ? value !== "" : key === "")) throw bad("tolerations");
        return [key, operator, value, effect];
    });

    function node(row) {
        whole(row, "v", 1, 1e18);
        const it = { name: name(row, "name"), cpu: amount(row, "cpu"), memory: amount(row, "mem"), pods: whole(row, "pods", 0, MOST_PODS), labels: labels(row), taints: taints(row) };
        if (row.unschedulable !== undefined && typeof row.unschedulable !== "boolean") throw bad("unschedulable");
        return { ...it, is_marked: row.unschedulable === true };
    }
    function pod(row) {
        whole(row, "v", 1, 1e18);
        const it = { uid: name(row, "uid"), priority: whole(row, "priority", -(2 ** 31), 2 ** 31 - 1, 0) };
        const main = containers(row, "containers", 1), init = containers(row, "init", 0);
        const [cpu, memory] = [0, 1].map((k) => Math.max(main.reduce((sum, each) => sum + each[k], 0), ...init.map((each) => each[k])));
        Object.assign(it, { cpu, memory, labels: labels(row), tolerations: tolerations(row) });
        if (cpu > MOST_CPU || memory > MOST_MEMORY) throw quantity("containers");
        return it;
    }
    const READ = {
        node, pod,
        gone: (row) => ({ v: whole(row, "v", 1, 1e18), name: name(row, "name") }),
        bound: (row) => ({ v: whole(row, "v", 1, 1e18), uid: name(row, "uid"), node: name(row, "node"), cpu: amount(row, "cpu"), memory: amount(row, "mem") }),
        deleted: (row) => ({ v: whole(row, "v", 1, 1e18), uid: name(row, "uid") }),
        tick: (row) => whole(row, "at", 0, 1e15),
        cycle: () => null, dump: () => null,
        done: (row) => [name(row, "uid"), whole(row, "ticket", 1, 1e18)], forget: (row) => [name(row, "uid"), whole(row, "ticket", 1, 1e18)],
    };

    // The nodes, the pods that wait and those that have a place, as all lines together tell them;
    // versions and cycles don't count here.
    function read(text) {
        const state = { nodes: new Map(), pods: new Map(), places: new Map() };
        const take = {
            node: (it) => state.nodes.set(it.name, it), gone: (it) => state.nodes.delete(it.name), pod: (it) => state.pods.set(it.uid, it),
            bound: (it) => { state.places.set(it.uid, it); state.pods.delete(it.uid); }, deleted: (it) => { state.places.delete(it.uid); state.pods.delete(it.uid); },
        };
        text.split("\n").forEach((line, k) => {
            if (line === "") return;
            try {
                if (new TextEncoder().encode(line).length > MOST_LINE) throw over("op");
                const row = parsed(line), op = row?.op;
                if (typeof op !== "string" || !Object.hasOwn(READ, op)) throw bad("op");
                const it = READ[op](row);
                take[op]?.(it);
            } catch (why) {
                throw why instanceof Bad ? new Fault(k + 1, why.message) : why;
            }
        });
        return state;
    }
    function parsed(line) {
        try {
            return JSON.parse(line);
        } catch {
            throw new Bad("1 NotJson");
        }
    }

    const used = (state, on) => [...state.places.values()].filter((it) => it.node === on)
        .reduce(([cpu, memory, pods], it) => [cpu + it.cpu, memory + it.memory, pods + 1], [0, 0, 0]);
    const is_tolerated = (by, [key, value, effect]) => by.tolerations.some(([its, operator, wanted, of]) =>
        (its === key || its === "") && (operator === "Exists" || (its === key && wanted === value)) && (of === "" || of === effect));

    // What wsched says before any rule is asked: { why }, or { fit, soft } of a node that passes.
    function built_in(by, on, has) {
        if (on.is_marked && !is_tolerated(by, MARK)) return { why: "marked" };
        const keeps = on.taints.find((it) => it[2] !== "PreferNoSchedule" && !is_tolerated(by, it));
        if (keeps) return { why: `taint ${keeps[0]}=${keeps[1]}:${keeps[2]}` };
        const most = [on.cpu, on.memory, on.pods], asks = [by.cpu, by.memory, 1];
        const little = asks.findIndex((it, k) => it > 0 && has[k] + it > most[k]);
        if (little >= 0) return { why: `${["cpu", "memory", "pods"][little]} ${asks[little]} of ${Math.max(0, most[little] - has[little])}` };
        const [cpu, memory] = [0, 1].map((k) => (has[k] + asks[k] > most[k] || most[k] === 0 ? 0 : Math.floor(((most[k] - has[k] - asks[k]) * 100) / most[k])));
        return { fit: Math.floor((cpu + memory) / 2), soft: on.taints.filter((it) => it[2] === "PreferNoSchedule" && !is_tolerated(by, it)).length };
    }

    // Records ("Records" in docs/FORMATS.md).
    const little_endian = (value, size) => Array.from({ length: size }, (_, k) => Number((BigInt(value) >> BigInt(8 * k)) & 255n));
    const text_of = (it) => [it.length, ...new TextEncoder().encode(it)];
    const list_of = (items) => [items.length, ...items.flat()];
    const by_key = ([one], [other]) => (one < other ? -1 : 1);
    const labels_of = (it) => list_of([...it.labels].sort(by_key).map(([key, value]) => [...text_of(key), ...text_of(value)]));
    function records(by, on, has) {
        const pod_of = (uid) => [1, ...text_of(uid), ...little_endian(BigInt.asUintN(32, BigInt(by.priority)), 4), ...little_endian(by.cpu, 8), ...little_endian(by.memory, 8), ...labels_of(by)];
        const sizes = (there) => [[on.cpu, 8], [on.memory, 8], [on.pods, 4], [there[0], 8], [there[1], 8], [there[2], 4]].flatMap(([it, size]) => little_endian(it, size));
        const node_of = (there) => [2, ...text_of(on.name), on.is_marked ? 1 : 0, ...sizes(there), ...labels_of(on)];
        const a_pod = pod_of(by.uid), a_node = node_of(has);
        const tolerated = by.tolerations.map(([key, operator, value, effect]) => [...text_of(key), operator === "Exists" ? 2 : 1, ...text_of(value), EFFECTS[effect] ?? 0]);
        const tainted = on.taints.map(([key, value, effect]) => [...text_of(key), ...text_of(value), EFFECTS[effect]]);
        const made = { "sched.pod": [1, ...a_pod], "sched.node": [1, ...a_node], "sched2.pod": [2, ...a_pod, ...list_of(tolerated)], "sched2.node": [2, ...a_node, ...list_of(tainted)], "sched3.pod": [3, ...pod_of(""), ...list_of(tolerated)], "sched3.node": [3, ...node_of([0, 0, 0]), ...list_of(tainted)] };
        return Object.fromEntries(Object.entries(made).map(([key, bytes]) => [key, Uint8Array.from(bytes)]));
    }

    // Of each pod that waits, asked about alone, what is said of each node in the order of their
    // names, and where it would go: a cell has `line` as `wsched explain` writes it behind the
    // node's name, and what came of the calls.
    function decisions(state, instance, rule, weight, fuel) {
        const nodes = [...state.nodes.values()].sort((one, other) => (one.name < other.name ? -1 : 1));
        return [...state.pods.values()].map((by) => {
            const cells = nodes.map((on) => {
                const has = used(state, on.name), own = built_in(by, on, has);
                if (own.why) return { node: on.name, line: own.why, costs: {} };
                const found = wasm.verdict(instance, rule, records(by, on, has), fuel);
                return { node: on.name, ...own, ...found, line: found.said };
            });
            const most = Math.max(0, ...cells.map((it) => (it.score === undefined ? 0 : it.soft)));
            for (const it of cells.filter(({ score }) => score !== undefined)) {
                it.taints = most === 0 ? 100 : 100 - Math.floor((100 * it.soft) / most);
                it.total = it.fit + it.taints + weight * it.score;
                it.line = `total ${it.total} fit ${it.fit} taints ${it.taints} ${rule} ${weight} ${it.score}`;
            }
            const best = cells.reduce((found, it) => (it.total !== undefined && it.total > (found?.total ?? -1) ? it : found), null);
            return { pod: by.uid, cells, place: cells.some((it) => it.line.startsWith("error")) ? null : best?.node ?? null };
        });
    }

    return { read, decisions, Fault, NAME };
})();
