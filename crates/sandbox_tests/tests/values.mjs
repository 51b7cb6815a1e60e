// Asks another engine, the one in `node`, for the values of the worked calls: it makes each call of
// `src/comparison/rows.rt` in the module of `src/comparison/worked_module.rt`, and tells where it gives
// another value or traps for another reason. What a call costs, how deep calls may go, and that a
// start function is given no record, is wsched's own, so those rows are passed over. Run in this
// crate's folder:
//
//     node tests/values.mjs

import { readFileSync } from "node:fs";

// The bytes of a byte string as the sources spell it.
const bytesOf = (text) => {
    const bytes = [];
    for (const [, hex, plain] of text.matchAll(/\\x([0-9A-F]{2})|\\0|([^\\])/g)) {
        bytes.push(hex !== undefined ? parseInt(hex, 16) : plain !== undefined ? plain.charCodeAt(0) : 0);
    }
    return bytes;
};

const source = readFileSync("src/comparison/worked_module.rt", "utf8");
const part = Object.fromEntries([...source.matchAll(/const (\w+): &\[u8\] =\s*b"(.*)";/g)].map(([, name, text]) => [name, bytesOf(text)]));
const size = (length) => [(length % 128) + 128, length >> 7];

function moduleAround(body, elements) {
    const own = [...part.LOCALS, ...body];
    const bodies = [5, ...size(own.length), ...own, ...part.SCORE, ...part.AFTER, ...part.DOWN, ...part.AT_START];
    return new Uint8Array([
        ...["HEADER", "TYPES", "IMPORTS", "FUNCTIONS", "TABLE", "MEMORY", "GLOBAL", "EXPORTS"].flatMap((name) => part[name]),
        ...(elements ? part.ELEMENTS : []),
        ...[10, ...size(bodies.length), ...bodies],
    ]);
}

const HOST_TRAP = "the record passes the end";

function instance(body, elements) {
    // The memory isn't exported, so the section is given one more export for it.
    const bytes = [...moduleAround(body, elements)];
    const exports = part.EXPORTS;
    const at = bytes.findIndex((_, i) => exports.every((b, j) => bytes[i + j] === b));
    bytes.splice(at, exports.length, 7, exports[1] + 4, 3, ...exports.slice(3), 1, 0x6d, 2, 0);
    const made = new WebAssembly.Instance(new WebAssembly.Module(new Uint8Array(bytes)), {
        sched: {
            pod: (at, limit) => {
                if (limit >>> 0 < 257) return 257;
                const memory = new Uint8Array(made.exports.m.buffer);
                if ((at >>> 0) + 257 > memory.length) throw new Error(HOST_TRAP);
                memory.fill(7, at >>> 0, (at >>> 0) + 257);
                return 257;
            },
        },
    });
    return made;
}

// The reason that the engine tells, by the number of the trap.
const reasons = [
    ["unreachable", 1], ["divide by zero", 2], ["remainder by zero", 2], ["divide result unrepresentable", 3],
    ["memory access out of bounds", 4], ["table index is out of bounds", 5], [HOST_TRAP, 9],
];

function outcome(body, elements) {
    const { exports } = instance(body, elements);
    try {
        return [0, exports.filter() >>> 0];
    } catch (error) {
        const found = reasons.find(([text]) => error.message.includes(text));
        return [found === undefined ? error.message : found[1], 0];
    }
}

const rows = readFileSync("src/comparison/rows.rt", "utf8");
let [asked, others] = [0, 0];
for (const [, table, text] of rows.matchAll(/pub const (\w+): &\[Row\] = &\[(.*?)\n\];/gs)) {
    for (const [, body, trap, value, cost] of text.matchAll(/\(\s*b"([^"]*)",\s*(\d+),\s*([\d_]+),\s*([\d_]+|NEVER),?\s*\)/g)) {
        if (cost === "NEVER" || trap === "8" || table === "START_CALLS") continue;
        const wanted = [Number(trap), Number(value.replaceAll("_", ""))];
        const [reason, given] = outcome(bytesOf(body), table === "ELEMENT_CALLS");
        asked += 1;
        // The engine tells an empty element and one of another type alike.
        const same = reason === wanted[0] || (/null function or function signature mismatch/.test(reason) && [6, 7].includes(wanted[0]));
        if (!same || given !== wanted[1]) {
            others += 1;
            console.log(table, body, "wanted", wanted, "but node", [reason, given]);
        }
    }
}
console.log(`${asked} calls asked, ${others} others`);
