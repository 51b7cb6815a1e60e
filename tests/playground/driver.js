// SPDX-License-Identifier: Apache-2.0
// What the page's own scripts say of modules, scripts and lines, for a test to compare. Runs in
// node and in a browser.
"use strict";

const NAME = "m";
const bytes_of = (it) => Uint8Array.from(atob(it), (letter) => letter.charCodeAt(0));

// With one fuel: the lines of `wsched explain` of each pod and node, and the costs of the calls
// that end; or the refusal of an instance.
function with_fuel(module, state, weight, fuel) {
    try {
        const found = script.decisions(state, new wasm.Instance(module, fuel), NAME, weight, fuel);
        const cells = found.flatMap((it) => it.cells);
        const ended = cells.filter((it) => !it.line.endsWith(" exhausted")).flatMap((it) => Object.values(it.costs));
        return { lines: cells.map((it) => `  ${it.node} ${it.line}`), places: found.map((it) => it.place), costs: [...new Set(ended)].sort((a, b) => a - b) };
    } catch (why) {
        if (!(why instanceof wasm.Refused)) throw why;
        return { refused: why.text, costs: [] };
    }
}

// With plenty of fuel, and with each cost and one unit less: of all calls, or of the cheapest and
// the dearest.
function asked({ module, script: text, weight, most, has_all }) {
    const read = wasm.read(bytes_of(module)), state = script.read(text), plenty = with_fuel(read, state, weight, most);
    const costs = has_all ? plenty.costs : [plenty.costs.at(0), plenty.costs.at(-1)].filter((it) => it !== undefined);
    const fuels = [...new Set([...costs, ...costs.map((it) => it - 1)])].filter((it) => it > 0 && it < most);
    return [[most, plenty], ...fuels.map((fuel) => [fuel, with_fuel(read, state, weight, fuel)])].map(([fuel, said]) => ({ fuel, ...said }));
}

function refusal(module) {
    try {
        wasm.read(bytes_of(module));
        return "accepted";
    } catch (why) {
        if (!(why instanceof wasm.Refused)) throw why;
        return why.text;
    }
}

function fault(text) {
    try {
        script.read(text);
        return "";
    } catch (why) {
        if (!(why instanceof script.Fault)) throw why;
        return why.message;
    }
}

// The texts of the table's cells, a row for each pod, as the page shows them.
function shown() {
    const rows = [...document.querySelectorAll("#verdicts tr")];
    return rows.map((row) => [...row.children].map((cell) => [...(cell.children.length > 0 ? cell.children : [cell])].map((it) => it.textContent)));
}
function pages(rules, spoken) {
    const found = {};
    for (const rule of rules) {
        document.getElementById("rule").value = rule;
        document.getElementById("rule").dispatchEvent(new Event("change"));
        found[rule] = { rows: shown(), fault: document.getElementById("fault").textContent };
    }
    take(bytes_of(spoken), "spoken");
    found.spoken = { rows: shown(), about: document.getElementById("about").textContent };
    take(new Uint8Array([0, 1, 2, 3]), "none");
    found.none = { rows: shown(), refused: document.getElementById("refused").textContent };
    return found;
}

function driven(cases) {
    const found = { asked: cases.asked.map(asked), refusals: cases.modules.map(refusal), faults: cases.lines.map(fault) };
    return typeof document === "undefined" ? found : { ...found, pages: pages(cases.rules, cases.spoken) };
}
