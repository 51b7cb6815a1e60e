// SPDX-License-Identifier: Apache-2.0
// Writes what another engine, the one in `node`, stores and loads. Run in this folder:
//
//     node answers.mjs > answers
//
// The first line has the opcodes of the loads. Each other one stores one value by one opcode at
// address 8 of a memory filled with 0x55: it has the opcode, the value, what is in the byte before
// then, and what each load gives from address 8.

// i64.store8, 16, 32 and i64.store, of an i64 each; and of an i32, whose stores are wrapped below.
const stores = [[0x3c, 0], [0x3d, 1], [0x3e, 2], [0x37, 3], [0x3a, 0], [0x3b, 1], [0x36, 2]];
const isOfI32 = (opcode) => opcode === 0x3a || opcode === 0x3b || opcode === 0x36;
const loads = [
    [0x28, 2], [0x29, 3], [0x2c, 0], [0x2d, 0], [0x2e, 1], [0x2f, 1],
    [0x30, 0], [0x31, 0], [0x32, 1], [0x33, 1], [0x34, 2], [0x35, 2],
];
const values = [0x8182838485868788n, 0x0102030405060708n, 0x7fff7fff7fff7fffn, 0xffffffff80008080n, 0x807fn];

const I32 = 0x7f, I64 = 0x7e;
const section = (id, bytes) => [id, bytes.length, ...bytes];
const vector = (items) => [items.length, ...items.flat()];

const resultOf = (opcode) => (opcode === 0x28 || (opcode >= 0x2c && opcode <= 0x2f) ? I32 : I64);
const types = [
    [0x60, ...vector([I32, I64]), ...vector([])],
    [0x60, ...vector([I32]), ...vector([I32])],
    [0x60, ...vector([I32]), ...vector([I64])],
];
const functions = [...stores.map(() => 0), ...loads.map(([opcode]) => (resultOf(opcode) === I32 ? 1 : 2))];
const wrap = (opcode) => (isOfI32(opcode) ? [0xa7] : []);
const bodies = [
    ...stores.map(([opcode, align]) => [0, 0x20, 0, 0x20, 1, ...wrap(opcode), opcode, align, 0, 0x0b]),
    ...loads.map(([opcode, align]) => [0, 0x20, 0, opcode, align, 0, 0x0b]),
];
const name = (text) => vector([...text].map((c) => c.charCodeAt(0)));
const exported = [
    ...functions.map((_, i) => [...name(`f${i}`), 0x00, i]),
    [...name('m'), 0x02, 0],
];
const code = vector(bodies.map((body) => [body.length, ...body]));
const exports_ = vector(exported);
const wide = (id, bytes) => [id, (bytes.length & 0x7f) | 0x80, bytes.length >> 7, ...bytes];
const module_ = new Uint8Array([
    0x00, 0x61, 0x73, 0x6d, 0x01, 0x00, 0x00, 0x00,
    ...section(1, vector(types)),
    ...section(3, vector(functions)),
    ...section(5, [1, 0, 1]),
    ...wide(7, exports_),
    ...wide(10, code),
]);
const { exports: instance } = new WebAssembly.Instance(new WebAssembly.Module(module_));
const bytes = new Uint8Array(instance.m.buffer);

const lines = [loads.map(([opcode]) => opcode.toString(16)).join(" ")];
for (const [i, [opcode]] of stores.entries()) {
    for (const value of values) {
        bytes.fill(0x55);
        instance[`f${i}`](8, value);
        const loaded = loads.map(([load], j) => {
            const got = instance[`f${stores.length + j}`](8);
            return resultOf(load) === I32 ? BigInt(got >>> 0) : BigInt.asUintN(64, got);
        });
        const stored = isOfI32(opcode) ? BigInt.asUintN(32, value) : value;
        lines.push([opcode.toString(16), stored, bytes[7], ...loaded].join(" "));
    }
}
console.log(lines.join("\n"));
