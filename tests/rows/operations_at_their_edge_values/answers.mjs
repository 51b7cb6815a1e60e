// SPDX-License-Identifier: Apache-2.0
// Writes what another engine, the one in `node`, answers at each of the integer instructions, with
// edge values for its operands. Run in this folder:
//
//     node answers.mjs > answers
//
// A line `= TYPE TYPE.. > TYPE: OPCODE..` has the types of the operands and of the answer, and the
// opcodes; each line behind it has the operands, and then what each of these answers, or `!` and the
// number of the trap.
//
// For each instruction it spells, byte by byte, a function that runs it alone, and calls that
// function.

const I32 = 0x7f;
const I64 = 0x7e;

// Opcodes by WebAssembly Core 1.0, 5.4.5, and Core 2.0, 5.4.7. Each list starts at the opcode
// given.
const numbered = (first, names) => names.map((name, i) => [name, first + i]);
const relations = ["eq", "ne", "lt_s", "lt_u", "gt_s", "gt_u", "le_s", "le_u", "ge_s", "ge_u"];
const counts = ["clz", "ctz", "popcnt"];
const binaries = ["add", "sub", "mul", "div_s", "div_u", "rem_s", "rem_u", "and", "or", "xor", "shl", "shr_s", "shr_u", "rotl", "rotr"];
const extensions = { 32: ["extend8_s", "extend16_s"], 64: ["extend8_s", "extend16_s", "extend32_s"] };
const opcodes = {
    32: Object.fromEntries([["eqz", 0x45], ...numbered(0x46, relations), ...numbered(0x67, counts), ...numbered(0x6a, binaries), ...numbered(0xc0, extensions[32])]),
    64: Object.fromEntries([["eqz", 0x50], ...numbered(0x51, relations), ...numbered(0x79, counts), ...numbered(0x7c, binaries), ...numbered(0xc2, extensions[64])]),
};
const WRAP_I64 = 0xa7;
const EXTEND_I32_S = 0xac;
const EXTEND_I32_U = 0xad;

// A module whose one function, exported as "f", runs the instruction on its parameters. All sizes
// here are below 128.
function instruction(opcode, parameters, result) {
    const section = (id, bytes) => [id, bytes.length, ...bytes];
    const reads = parameters.flatMap((_, i) => [0x20, i]);
    const body = [0, ...reads, opcode, 0x0b];
    const bytes = [
        0x00, 0x61, 0x73, 0x6d, 0x01, 0x00, 0x00, 0x00,
        ...section(1, [1, 0x60, parameters.length, ...parameters, 1, result]),
        ...section(3, [1, 0]),
        ...section(7, [1, 1, 0x66, 0, 0]),
        ...section(10, [1, body.length, ...body]),
    ];
    const f = new WebAssembly.Instance(new WebAssembly.Module(new Uint8Array(bytes))).exports.f;
    const signed = (type, value) => (type === I32 ? Number(BigInt.asIntN(32, value)) : BigInt.asIntN(64, value));
    return (...values) => BigInt.asUintN(result === I32 ? 32 : 64, BigInt(f(...values.map((v, i) => signed(parameters[i], v)))));
}

// What the engine answers, or 0, and the number of the trap that it tells, or 0.
function outcome(run) {
    try {
        return [run(), 0];
    } catch (error) {
        if (/by zero/.test(error.message)) return [0n, 2];
        if (/unrepresentable/.test(error.message)) return [0n, 3];
        throw error;
    }
}

const edges = {
    32: [0n, 1n, 2n, 33n, 0x9e3779b9n, 0x7fffffffn, 0x80000000n, 0xffffffffn],
    64: [0n, 1n, 2n, 65n, 0x9e3779b97f4a7c15n, 0x7fffffffffffffffn, 0x8000000000000000n, 0xffffffffffffffffn],
};
// Both ends of each half of the lowest 8, 16 and 32 bits, alone and below others.
const narrow = [0n, 0x7fn, 0x80n, 0xffn, 0x7fffn, 0x8000n, 0xffffn, 0x01234500n, 0x01230000n, 0xfedcba80n, 0xfedc8000n, 0x7fffffffn, 0x80000000n, 0xffffffffn];
const extended = {
    32: narrow,
    64: [...narrow, 0x0123456789abcd00n, 0x123456789abc0000n, 0x0123456700000000n, 0xfedcba9876543280n, 0xfedcba9876548000n, 0xfedcba9880000000n, 0x7fffffffffffffffn, 0xffffffffffffffffn],
};

const lines = [];
const told = ([answer, trap]) => (trap ? `!${trap}` : `${answer}`);
const table = (parameters, result, names, rows) => {
    const run = names.map((code) => instruction(code, parameters, result));
    const named = (it) => (it === I32 ? "i32" : "i64");
    lines.push(`= ${parameters.map(named).join(" ")} > ${named(result)}: ${names.map((code) => code.toString(16)).join(" ")}`);
    for (const row of rows) lines.push(`${row.join(" ")}: ${run.map((f) => told(outcome(() => f(...row)))).join(" ")}`);
};

for (const width of [32, 64]) {
    const type = width === 32 ? I32 : I64;
    const codes = (names) => names.map((name) => opcodes[width][name]);
    const alone = edges[width].map((a) => [a]);
    const pairs = edges[width].flatMap((a) => edges[width].map((b) => [a, b]));
    table([type], type, codes(counts), alone);
    table([type], I32, codes(["eqz"]), alone);
    table([type, type], type, codes(binaries), pairs);
    table([type, type], I32, codes(relations), pairs);
    table([type], type, codes(extensions[width]), extended[width].map((a) => [a]));
}
// 33 bits too far, which are 1: examples of the standard's rules
table([I32, I32], I32, [opcodes[32].rotl, opcodes[32].shr_s], [[0x80000001n, 33n], [0xfffffff8n, 33n]]);
table([I64], I32, [WRAP_I64], [...edges[64], 4294967301n].map((a) => [a]));
table([I32], I64, [EXTEND_I32_S, EXTEND_I32_U], edges[32].map((a) => [a]));
console.log(lines.join("\n"));
