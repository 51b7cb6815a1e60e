// Writes the table of generated modules that `src/tests/generated.rt` holds: modules of the
// profile, and what another engine, the one in `node`, says of each. Run in this crate's folder,
// after which `rt fmt` lays the file out:
//
//     node tests/generated.mjs > src/tests/generated.rt
//
// A module's `filter` is made by chance out of blocks, loops, branches, calls, accesses and
// operations, with a fixed seed. Each loop counts a local of its own down at its head, and calls go
// to later functions alone, so that every call ends. Its `score` is always the same: a digest of
// the store, which tells what `filter` left. What a call costs is wsched's own, and so is how deep
// calls go, so `node` isn't asked for these.

const SEED = 20_261_123;
const MODULES = 200;

// A module may be so long, in bytes.
const LONGEST = 360;

const I32 = 0x7f;
const I64 = 0x7e;
const NOTHING = 0x40;

// Chance: a generator of 32 bits (mulberry32), and what is drawn from it.
let state = SEED;
function draw() {
    state = (state + 0x6d2b79f5) | 0;
    let mixed = Math.imul(state ^ (state >>> 15), state | 1);
    mixed ^= mixed + Math.imul(mixed ^ (mixed >>> 7), mixed | 61);
    return (mixed ^ (mixed >>> 14)) >>> 0;
}
const below = (limit) => draw() % limit;
const chance = (percent) => below(100) < percent;
const one = (choices) => choices[below(choices.length)];
const several = (most, make) => Array.from({ length: below(most + 1) }, make);

// The binary format (WebAssembly Core 1.0, 5.2 to 5.5).
function unsigned(number) {
    const bytes = [];
    for (let rest = number; ; rest = Math.floor(rest / 128)) {
        if (rest < 128) return [...bytes, rest];
        bytes.push((rest % 128) + 128);
    }
}
function signed(number) {
    const bytes = [];
    for (let rest = BigInt(number); ; rest >>= 7n) {
        const low = Number(rest & 127n);
        if (rest >= -64n && rest < 64n) return [...bytes, low];
        bytes.push(low + 128);
    }
}
const vector = (items) => [...unsigned(items.length), ...items.flat()];
const section = (number, bytes) => [number, ...unsigned(bytes.length), ...bytes];
const text = (word) => vector([...Buffer.from(word)].map((byte) => [byte]));
const constant = (type, number) => [type === I32 ? 0x41 : 0x42, ...signed(BigInt.asIntN(type === I32 ? 32 : 64, BigInt(number)))];
const limits = ({ least, most }) => (most === undefined ? [0, ...unsigned(least)] : [1, ...unsigned(least), ...unsigned(most)]);

const EDGES = {
    [I32]: [0n, 1n, -1n, 2n, 7n, 31n, 32n, 255n, 65_535n, 0x7fffffffn, -0x80000000n, 0x12345678n],
    [I64]: [0n, 1n, -1n, 2n, 63n, 64n, 255n, 0xffffffffn, 0x100000000n, 0x7fffffffffffffffn, -0x8000000000000000n, 0x123456789abcdefn],
};
function any_constant(type) {
    if (chance(50)) return constant(type, below(128) - 64);
    if (chance(70)) return constant(type, one(EDGES[type]));
    return constant(type, BigInt(draw()) * (type === I64 ? BigInt(draw()) : 1n));
}

// Opcodes, by the type that they take: the first and how many there are (5.4.5; sign extension:
// Core 2.0, 5.4.7).
const range = (first, count) => Array.from({ length: count }, (_, i) => first + i);
const UNARY = { [I32]: [...range(0x67, 3), ...range(0xc0, 2)], [I64]: [...range(0x79, 3), ...range(0xc2, 3)] };
const BINARY = { [I32]: [...range(0x6a, 3), ...range(0x71, 8)], [I64]: [...range(0x7c, 3), ...range(0x83, 8)] };
const DIVIDING = { [I32]: range(0x6d, 4), [I64]: range(0x7f, 4) };
const TEST = { [I32]: 0x45, [I64]: 0x50 };
const RELATION = { [I32]: range(0x46, 10), [I64]: range(0x51, 10) };
// Opcode, and the width in bytes as a power of 2.
const LOADS = {
    [I32]: [[0x28, 2], [0x2c, 0], [0x2d, 0], [0x2e, 1], [0x2f, 1]],
    [I64]: [[0x29, 3], [0x30, 0], [0x31, 0], [0x32, 1], [0x33, 1], [0x34, 2], [0x35, 2]],
};
const STORES = { [I32]: [[0x36, 2], [0x3a, 0], [0x3b, 1]], [I64]: [[0x37, 3], [0x3c, 0], [0x3d, 1], [0x3e, 2]] };

// The body of one function of a module: its labels, of which the last is the innermost, and its
// locals.
class Writer {
    constructor(module, index, type) {
        this.module = module;
        this.index = index;
        this.labels = [type.result];
        this.parameters = type.parameters;
        this.locals = [...type.parameters, ...several(2, () => one([I32, I64]))];
        this.free = this.locals.length;
        this.left = 10 + below(30);
        this.loops = 0;
    }

    // An expression that leaves one value of this type.
    value(type, depth) {
        this.left -= 1;
        if (depth <= 0 || this.left < 0) return this.leaf(type);
        const other = one([I32, I64]);
        const kinds = [
            [6, () => this.leaf(type)],
            [9, () => [...this.value(type, depth - 1), ...this.value(type, depth - 1), one(BINARY[type])]],
            [3, () => this.division(type, depth)],
            [2, () => [...this.value(type, depth - 1), one(UNARY[type])]],
            [3, () => this.told(type, depth)],
            [2, () => [...this.value(type, depth - 1), ...this.value(type, depth - 1), ...this.value(I32, depth - 1), 0x1b]],
            [4, () => this.block(type, depth)],
            [4, () => this.branching(type, depth)],
            [5, () => this.loop(type, depth)],
            [3, () => this.tee(type, depth)],
            [4, () => this.load(type, depth)],
            [4, () => this.call(type, depth)],
            [3, () => this.indirect(type, depth)],
            [2, () => this.carried(type, depth)],
            [1, () => this.leaving(depth, other)],
        ];
        return this.picked(kinds) ?? this.leaf(type);
    }

    // Instructions that leave nothing.
    statement(depth) {
        this.left -= 1;
        if (depth <= 0 || this.left < 0) return chance(50) ? [0x01] : [...this.leaf(one([I32, I64])), 0x1a];
        const type = one([I32, I64]);
        const kinds = [
            [6, () => this.set(type, depth)],
            [4, () => this.set_global(depth)],
            [7, () => this.store(type, depth)],
            [4, () => this.block(NOTHING, depth)],
            [4, () => this.branching(NOTHING, depth)],
            [7, () => this.loop(NOTHING, depth)],
            [3, () => this.call(NOTHING, depth)],
            [3, () => this.indirect(NOTHING, depth)],
            [3, () => this.carried(NOTHING, depth)],
            [2, () => [...this.value(type, depth - 1), 0x1a]],
            [1, () => this.grow(depth)],
            [1, () => this.leaving(depth, type)],
        ];
        return this.picked(kinds) ?? [0x01];
    }

    // One of several kinds, by weight; nothing where the module has no such thing.
    picked(kinds) {
        let at = below(kinds.reduce((sum, [weight]) => sum + weight, 0));
        for (const [weight, make] of kinds) {
            if (at < weight) return make();
            at -= weight;
        }
    }

    of(type, depth) {
        return type === NOTHING ? this.statement(depth) : this.value(type, depth);
    }

    leaf(type) {
        const locals = this.locals.flatMap((each, i) => (each === type ? [i] : []));
        const globals = this.module.globals.flatMap((each, i) => (each.type === type ? [i] : []));
        if (locals.length > 0 && chance(45)) return [0x20, ...unsigned(one(locals))];
        if (globals.length > 0 && chance(30)) return [0x23, ...unsigned(one(globals))];
        if (type === I32 && this.module.memory && chance(10)) return [0x3f, 0];
        return any_constant(type);
    }

    // A division, rarely by 0, and of the least value by -1 now and then.
    division(type, depth) {
        const opcode = one(DIVIDING[type]);
        if (chance(8)) return [...constant(type, type === I32 ? 1n << 31n : 1n << 63n), ...constant(type, -1), opcode];
        const divisor = this.value(type, depth - 1);
        const odd = chance(70) ? [...constant(type, 1), type === I32 ? 0x72 : 0x84] : [];
        return [...this.value(type, depth - 1), ...divisor, ...odd, opcode];
    }

    // What a test, a relation or a conversion tells.
    told(type, depth) {
        const from = one([I32, I64]);
        if (type === I64) return [...this.value(I32, depth - 1), one([0xac, 0xad])];
        if (chance(25)) return [...this.value(I64, depth - 1), 0xa7];
        if (chance(30)) return [...this.value(from, depth - 1), TEST[from]];
        return [...this.value(from, depth - 1), ...this.value(from, depth - 1), one(RELATION[from])];
    }

    inside(label, make) {
        this.labels.push(label);
        const bytes = make();
        this.labels.pop();
        return bytes;
    }

    body(type, depth) {
        return [...several(2, () => this.statement(depth - 1)).flat(), ...this.of(type, depth - 1)];
    }

    block(type, depth) {
        return [0x02, type, ...this.inside(type, () => this.body(type, depth)), 0x0b];
    }

    branching(type, depth) {
        const condition = this.value(I32, depth - 1);
        const arm = () => this.inside(type, () => this.body(type, depth));
        if (type === NOTHING && chance(50)) return [...condition, 0x04, type, ...arm(), 0x0b];
        return [...condition, 0x04, type, ...arm(), 0x05, ...arm(), 0x0b];
    }

    // A loop that a local of its own bounds, however often it is branched to.
    loop(type, depth) {
        if (this.loops >= 2) return this.block(type, depth);
        this.loops += 1;
        const counter = unsigned(this.own_local());
        const rounds = [...constant(I32, 2 + below(7)), 0x21, ...counter];
        const counted = [0x20, ...counter, ...constant(I32, 1), 0x6b, 0x22, ...counter, 0x45];
        const outer = this.inside(type, () =>
            this.inside(NOTHING, () => {
                const head = [...this.of_label(type, 0), ...counted, 0x0d, 1, ...(type === NOTHING ? [] : [0x1a])];
                const body = several(2, () => this.statement(depth - 1)).flat();
                const again = chance(75) ? [0x0c, 0] : this.of(type, depth - 1);
                return [...head, ...body, ...again];
            }),
        );
        this.loops -= 1;
        return [...rounds, 0x02, type, 0x03, type, ...outer, 0x0b, 0x0b];
    }

    own_local() {
        this.counters = (this.counters ?? 0) + 1;
        return this.free + this.counters - 1;
    }

    // The value that a label of this type carries, if any.
    of_label(type, depth) {
        return type === NOTHING ? [] : this.value(type, depth);
    }

    // A branch that is taken or isn't, from a label of this type.
    carried(type, depth) {
        const found = this.labels.flatMap((each, i) => (each === type ? [this.labels.length - 1 - i] : []));
        if (found.length === 0) return;
        return [...this.of_label(type, depth - 1), ...this.value(I32, depth - 1), 0x0d, ...unsigned(one(found))];
    }

    // Away from here, over operands.
    leaving(depth, type) {
        if (this.labels.length < 2 && chance(80)) return;
        const over = several(2, () => this.value(type, depth - 2)).flat();
        if (chance(4)) return [...over, 0x00];
        if (chance(15)) return [...over, ...this.of_label(this.labels[0], depth - 1), 0x0f];
        const label = below(this.labels.length);
        const carried = this.labels[this.labels.length - 1 - label];
        const operand = this.of_label(carried, depth - 1);
        if (chance(50)) return [...over, ...operand, 0x0c, ...unsigned(label)];
        const same = this.labels.flatMap((each, i) => (each === carried ? [this.labels.length - 1 - i] : []));
        const listed = vector(several(4, () => unsigned(one(same))));
        const index = chance(70) ? [...this.value(I32, depth - 1), ...constant(I32, 3), 0x71] : this.value(I32, depth - 1);
        return [...over, ...operand, ...index, 0x0e, ...listed, ...unsigned(one(same))];
    }

    settable(type) {
        return this.locals.flatMap((each, i) => (each === type ? [i] : []));
    }

    tee(type, depth) {
        const locals = this.settable(type);
        if (locals.length > 0) return [...this.value(type, depth - 1), 0x22, ...unsigned(one(locals))];
    }

    set(type, depth) {
        const locals = this.settable(type);
        if (locals.length > 0) return [...this.value(type, depth - 1), 0x21, ...unsigned(one(locals))];
    }

    set_global(depth) {
        const globals = this.module.globals.flatMap((each, i) => (each.mutable ? [i] : []));
        if (globals.length === 0) return;
        const at = one(globals);
        return [...this.value(this.module.globals[at].type, depth - 1), 0x24, ...unsigned(at)];
    }

    // An address that is mostly in bounds, and an alignment and offset.
    address(depth) {
        const mask = one([0xff, 0xfff, 0xffff]);
        if (chance(50)) return constant(I32, below(mask + 1));
        if (chance(80)) return [...this.value(I32, depth - 1), ...constant(I32, mask), 0x71];
        return this.value(I32, depth - 1);
    }

    offset(width) {
        const far = chance(3) ? 0xffffffff - below(70_000) : chance(10) ? below(140_000) : below(70);
        return [below(width + 1), ...unsigned(far)];
    }

    load(type, depth) {
        if (!this.module.memory) return;
        const [opcode, width] = one(LOADS[type]);
        return [...this.address(depth), opcode, ...this.offset(width)];
    }

    store(type, depth) {
        if (!this.module.memory) return;
        const [opcode, width] = one(STORES[type]);
        return [...this.address(depth), ...this.value(type, depth - 1), opcode, ...this.offset(width)];
    }

    grow(depth) {
        if (!this.module.memory) return;
        return [...constant(I32, one([0, 1, 1, 2, -1])), 0x40, 0, 0x1a];
    }

    arguments(type, depth) {
        return type.parameters.flatMap((each) => this.value(each, depth - 1));
    }

    // A call of a host function, or of a later function that isn't `score`.
    call(type, depth) {
        const { imports, functions } = this.module;
        if (type === I32 && imports.length > 0 && chance(50)) {
            const at = chance(40) ? constant(I32, below(65_000)) : chance(50) ? constant(I32, 65_536 - below(514)) : this.value(I32, depth - 1);
            return [...at, ...constant(I32, one([0, 256, 257, 300, 300, -1])), 0x10, ...unsigned(below(imports.length))];
        }
        const found = functions.flatMap((each, i) => (i > Math.max(this.index, 1) && each.type.result === type ? [i] : []));
        if (found.length === 0) return;
        const at = one(found);
        return [...this.arguments(functions[at].type, depth), 0x10, ...unsigned(imports.length + at)];
    }

    // A call of an element of the table, by functions that are in no table.
    indirect(type, depth) {
        const { table, types, first_in_table } = this.module;
        if (!table || this.index >= first_in_table) return;
        const found = types.flatMap((each, i) => (each.result === type ? [i] : []));
        if (found.length === 0) return;
        const at = one(found);
        const same = table.functions.flatMap((each, i) => (each !== null && this.module.functions[each].type.key === types[at].key ? [i] : []));
        const index =
            same.length > 0 && chance(75)
                ? constant(I32, table.offset + one(same))
                : chance(80)
                  ? constant(I32, below(table.least + 1))
                  : this.value(I32, depth - 1);
        return [...this.arguments(types[at], depth), ...index, 0x11, ...unsigned(at), 0];
    }

    // The whole of a function: its locals, and its body.
    written() {
        const depth = 3 + below(3);
        const result = this.labels[0];
        const statements = Array.from({ length: 1 + below(4) }, () => this.statement(depth)).flat();
        const body = [...statements, ...this.of(result, depth), 0x0b];
        const runs = [...this.locals.slice(this.parameters.length).map((type) => [1, type]), ...(this.counters ? [[...unsigned(this.counters), I32]] : [])];
        const bytes = [...vector(runs), ...body];
        return [...unsigned(bytes.length), ...bytes];
    }
}

// A digest of the store: each i64 of the memory, from the first on, then each global, then how many
// pages there are. The digest so far is turned left by 7, and the next joins it by xor. Four words
// a round.
function digest({ memory, globals }) {
    const join = (next) => [...constant(I64, 7), 0x89, ...next, 0x85];
    const words = [0, 8, 16, 24].flatMap((offset) => join([0x20, 0, 0x29, 3, offset]));
    const round = [0x20, 1, ...words, 0x21, 1, 0x20, 0, ...constant(I32, 32), 0x6a, 0x22, 0, 0x3f, 0, ...constant(I32, 16), 0x74, 0x49, 0x0d, 0];
    const looped = memory ? [0x3f, 0, 0x04, NOTHING, 0x03, NOTHING, ...round, 0x0b, 0x0b] : [];
    const values = globals.flatMap(({ type }, i) => join([0x23, ...unsigned(i), ...(type === I32 ? [0xad] : [])]));
    const pages = join(memory ? [0x3f, 0, 0xad] : constant(I64, 0));
    const bytes = [2, 1, I32, 1, I64, ...looped, 0x20, 1, ...values, ...pages, 0x0b];
    return [...unsigned(bytes.length), ...bytes];
}

const FUNCTION = 0x60;
const spelled = ({ parameters, result }) => [FUNCTION, ...vector(parameters.map((type) => [type])), ...(result === NOTHING ? [0] : [1, result])];
const typed = (parameters, result) => ({ parameters, result, key: `${parameters}:${result}` });

function module_by_chance() {
    const types = [typed([], I32), typed([], I64), typed([I32, I32], I32), ...several(3, () => typed(several(3, () => one([I32, I64])), one([NOTHING, I32, I64])))];
    if (chance(30)) types.push(one(types));
    const imports = chance(45) ? [one(["pod", "pod", "node"]), ...several(1, () => one(["pod", "node"]))] : [];
    // The function 0 of the module is `filter`, and 1 is `score`.
    const later = Array.from({ length: 1 + below(4) }, () => below(types.length));
    const functions = [0, 1, ...later].map((i) => ({ type: types[i], signature: i }));
    const first_in_table = 2 + below(later.length);
    const memory = chance(90) ? { least: chance(90) ? 1 : below(3), most: chance(70) ? 2 + below(2) : undefined } : undefined;
    const globals = several(4, () => one([I32, I64])).map((type) => ({ type, mutable: chance(85), first: any_constant(type) }));
    const members = functions.length - first_in_table;
    const table = chance(70) ? { offset: below(3), functions: Array.from({ length: 1 + below(4) }, () => first_in_table + below(members)) } : undefined;
    if (table) table.least = table.offset + table.functions.length + below(3);
    const module = { types, imports, functions, memory, globals, table, first_in_table };
    functions.forEach((each, i) => {
        each.body = i === 1 ? digest(module) : new Writer(module, i, each.type).written();
    });
    const data = memory && memory.least > 0 ? several(1, () => [0, ...constant(I32, below(65_000)), 0x0b, ...vector(several(12, () => [below(256)]))]) : [];
    module.bytes = [
        ...[0, 0x61, 0x73, 0x6d, 1, 0, 0, 0],
        ...section(1, vector(types.map(spelled))),
        ...(imports.length > 0 ? section(2, vector(imports.map((name) => [...text("sched"), ...text(name), 0, 2]))) : []),
        ...section(3, vector(functions.map(({ signature }) => unsigned(signature)))),
        ...(table ? section(4, vector([[0x70, ...limits({ least: table.least })]])) : []),
        ...(memory ? section(5, vector([limits(memory)])) : []),
        ...(globals.length > 0 ? section(6, vector(globals.map(({ type, mutable, first }) => [type, mutable ? 1 : 0, ...first, 0x0b]))) : []),
        ...section(7, vector([
            [...text("filter"), 0, ...unsigned(imports.length)],
            [...text("score"), 0, ...unsigned(imports.length + 1)],
            // exports that wsched passes over: for the engine that is asked
            ...(memory ? [[...text("m"), 2, 0]] : []),
            ...(table ? [[...text("t"), 1, 0]] : []),
        ])),
        ...(table ? section(9, vector([[0, ...constant(I32, table.offset), 0x0b, ...vector(table.functions.map((i) => unsigned(imports.length + i)))]])) : []),
        ...section(10, vector(functions.map(({ body }) => body))),
        ...(data.length > 0 ? section(11, vector(data)) : []),
    ];
    return module;
}

// What the engine says.
const HOST_TRAP = "the record passes the end";
const NO_RECORD = "no record";
const POD = new Uint8Array(257).fill(7);

const reasons = [
    ["unreachable", 1], ["divide by zero", 2], ["remainder by zero", 2], ["divide result unrepresentable", 3],
    ["memory access out of bounds", 4], ["table index is out of bounds", 5], [HOST_TRAP, 9], [NO_RECORD, 10],
];

function instance({ bytes }) {
    const made = new WebAssembly.Instance(new WebAssembly.Module(new Uint8Array(bytes)), {
        sched: {
            pod: (at, limit) => {
                if (limit >>> 0 < POD.length) return POD.length;
                const memory = new Uint8Array(made.exports.m?.buffer ?? 0);
                if ((at >>> 0) + POD.length > memory.length) throw new Error(HOST_TRAP);
                memory.set(POD, at >>> 0);
                return POD.length;
            },
            node: () => {
                throw new Error(NO_RECORD);
            },
        },
    });
    return made.exports;
}

// The number of the trap and a value, and the digest of the store behind the call. The engine grows
// a memory past wsched's limit of 32 pages, but no module here asks for so many.
function outcome(module) {
    const exports = instance(module);
    const [trap, value] = ended(exports);
    return { trap: trap === undefined ? empty_or_other(module) : trap, value, digest: BigInt.asUintN(64, exports.score()) };
}

function ended(exports) {
    try {
        return [0, exports.filter() >>> 0];
    } catch (error) {
        const found = reasons.find(([reason]) => error.message.includes(reason));
        if (found) return [found[1], 0];
        if (/null function or function signature mismatch/.test(error.message)) return [undefined, 0];
        throw error;
    }
}

// The engine tells an empty element (6) and one of another type (7) alike. It was empty where the
// call goes on once empty elements have a function of some type of the module.
function empty_or_other(module) {
    const to_fill = module.types.some((type) => {
        const exports = instance(module);
        const bytes = [0, 0x61, 0x73, 0x6d, 1, 0, 0, 0, ...section(1, vector([spelled(type)])), ...section(3, [1, 0]), ...section(7, vector([[...text("f"), 0, 0]])), ...section(10, vector([[3, 0, 0, 0x0b]]))];
        const { f } = new WebAssembly.Instance(new WebAssembly.Module(new Uint8Array(bytes))).exports;
        for (let i = 0; i < exports.t.length; i += 1) if (exports.t.get(i) === null) exports.t.set(i, f);
        return ended(exports)[0] === 1;
    });
    return to_fill ? 6 : 7;
}

// Bytes as the sources spell them.
const escaped = (byte) => `\\x${byte.toString(16).toUpperCase().padStart(2, "0")}`;
const is_plain = (byte) => byte >= 0x20 && byte < 0x7f && byte !== 0x22 && byte !== 0x5c;
const byte_text = (bytes) => bytes.map((byte) => (is_plain(byte) ? String.fromCharCode(byte) : escaped(byte))).join("");
const little_endian = (number, count) => Array.from({ length: count }, (_, i) => Number((BigInt(number) >> BigInt(8 * i)) & 255n));

const rows = [];
const traps = {};
while (rows.length < MODULES) {
    const module = module_by_chance();
    if (module.bytes.length > LONGEST) continue;
    const { trap, value, digest } = outcome(module);
    traps[trap] = (traps[trap] ?? 0) + 1;
    const head = [...little_endian(module.bytes.length, 2), trap, ...little_endian(value, 4), ...little_endian(digest, 8)];
    rows.push(`    ${head.map(escaped).join("")}${byte_text(module.bytes)}\\`);
}
console.log(`//! Made by \`tests/generated.mjs\`, which says how. The answers are those of the engine in \`node\`.

/// ${MODULES} modules, a line each: how many bytes it has, in two bytes with the lower first; the
/// number of the trap that its \`filter\` ends by, or 0; the value, in four bytes; what \`score\`
/// tells then of the store, in eight; and the module.
#[rattlefmt::skip]
pub const MODULES: &[u8] = b"\\`);
console.log(rows.join("\n"));
console.log('";');
console.error("modules by trap:", traps);
