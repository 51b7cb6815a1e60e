// SPDX-License-Identifier: Apache-2.0
// The page: which rule, which lines, and the table of verdicts.
"use strict";

const by_id = (id) => document.getElementById(id);
const CODES = { 2: "unschedulable", 3: "unresolvable" };
const MOST_FUEL = 1_000_000;
const the = { module: null, rule: "" };

function element(tag, text, names = "") {
    const made = document.createElement(tag);
    made.textContent = text;
    made.className = names;
    return made;
}

// A setting that is a whole number in its bounds, else what stands at first.
function number(id, most, otherwise) {
    const value = Number(by_id(id).value);
    return Number.isInteger(value) && value >= 1 && value <= most ? value : otherwise;
}

function fuel_of(costs) {
    const said = Object.entries(costs).map(([kind, units]) => `${kind} ${units.toLocaleString("en")}`);
    return said.length > 0 ? `fuel: ${said.join(", ")}` : "";
}

function where(stack) {
    const named = stack.slice(0, 6).map(({ index, place }) => `${the.module.names.get(index) ?? `function ${index}`} at ${wasm.hex(place)}`);
    return named.length > 0 ? `in ${named.join(" < ")}${stack.length > 6 ? " < .." : ""}` : "";
}

// A cell of the table: its kind, and what stands in it.
function cell_of(it, is_place) {
    const cell = document.createElement("td");
    const add = (tag, text, names) => text && cell.append(element(tag, text, names));
    if (it.total !== undefined) {
        cell.className = "pass";
        add("b", String(it.total));
        add("span", `fit ${it.fit}, taints ${it.taints}, ${the.rule} ${it.score}`);
    } else if (it.line.startsWith("error")) {
        cell.className = "error";
        add("b", it.line.split(" ").slice(3).join(" "));
        add("span", where(it.stack ?? []));
    } else {
        cell.className = "reject";
        add("b", it.code ? `${CODES[it.code]} (${it.code})` : it.line);
        add("q", the.module.reasons[it.code] ?? "");
        add("span", it.code ? "" : "wsched itself");
    }
    add("span", fuel_of(it.costs));
    if (is_place) {
        cell.classList.add("place");
        add("span", "the pod goes here", "here");
    }
    return cell;
}

function draw() {
    by_id("fault").textContent = "";
    by_id("verdicts").replaceChildren();
    if (!the.module) return;
    const fuel = number("fuel", MOST_FUEL, 100_000);
    try {
        const state = script.read(by_id("script").value), instance = new wasm.Instance(the.module, fuel);
        const found = script.decisions(state, instance, the.rule, number("weight", 10, 1), fuel);
        const head = document.createElement("tr");
        head.append(element("th", "pod"), ...[...state.nodes.keys()].sort().map((name) => Object.assign(element("th", name), { scope: "col" })));
        const rows = found.map(({ pod, cells, place }) => {
            const row = document.createElement("tr");
            row.append(Object.assign(element("th", pod), { scope: "row" }), ...cells.map((it) => cell_of(it, it.node === place)));
            return row;
        });
        by_id("verdicts").append(head, ...rows);
        if (state.nodes.size === 0 || found.length === 0) by_id("fault").textContent = `There is no ${state.nodes.size === 0 ? "node" : "pod that waits"} in these lines.`;
    } catch (why) {
        if (!(why instanceof script.Fault || why instanceof wasm.Refused)) throw why;
        by_id("fault").textContent = why.message;
    }
}

function take(bytes, name) {
    the.module = null;
    the.rule = script.NAME.test(name) ? name : "rule";
    by_id("refused").textContent = "";
    by_id("about").textContent = "";
    try {
        the.module = wasm.read(bytes);
        const { calls, imports, reasons, ignored } = the.module;
        const words = Object.entries(reasons).map(([code, text]) => `of ${code} it says “${text}”`);
        const asks = [...new Set(imports.map((it) => it.name))].join(", ") || "nothing";
        by_id("about").textContent = [
            `${the.rule}: ${bytes.length.toLocaleString("en")} bytes`, Object.keys(calls).join(" and "), `asks for ${asks}`, ...words,
            ...ignored.map((it) => `ignored: the section ${it}`),
        ].join("; ");
    } catch (why) {
        if (!(why instanceof wasm.Refused)) throw why;
        by_id("refused").textContent = `${name}: ${why.message}`;
    }
    draw();
}

function pick() {
    const shipped = SHIPPED[by_id("rule").value];
    by_id("script").value = shipped.script;
    by_id("weight").value = shipped.weight;
    by_id("file").value = "";
    take(Uint8Array.from(atob(shipped.module), (letter) => letter.charCodeAt(0)), by_id("rule").value);
}

// Another line behind those that are there, with a name that none of them has.
function add(line) {
    const text = by_id("script").value.trimEnd();
    let count = 1;
    while (text.includes(`"new-${count}"`)) count += 1;
    by_id("script").value = `${text}\n${line(`new-${count}`)}\n`;
    draw();
}

by_id("rule").replaceChildren(...Object.keys(SHIPPED).map((it) => new Option(it, it)));
by_id("rule").addEventListener("change", pick);
for (const id of ["script", "fuel", "weight"]) by_id(id).addEventListener("input", draw);
by_id("file").addEventListener("change", async () => {
    const [file] = by_id("file").files;
    if (file) take(new Uint8Array(await file.arrayBuffer()), file.name.replace(/\.wasm$/, ""));
});
by_id("add-node").addEventListener("click", () => add((name) => `{"op":"node","v":1,"name":"${name}","cpu":"4","mem":"8Gi","pods":110,"labels":[],"taints":[]}`));
by_id("add-pod").addEventListener("click", () => add((name) => `{"op":"pod","v":1,"uid":"${name}","containers":[["100m","64Mi"]],"labels":[],"tolerations":[]}`));
pick();
