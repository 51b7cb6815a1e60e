// SPDX-License-Identifier: Apache-2.0
// Writes modules into the folder that is named that ask for as much as they can of a validator,
// each of almost 1 MiB and of a quarter of that: NAME.wasm and NAME.quarter.wasm, and in shapes.txt
// a line for each NAME. All are within the binary format, and each has the function 0, `filter`,
// which gives 0; those that are refused are refused for their sizes, when all is typed.
import { writeFileSync } from "node:fs";
import { unsigned } from "../wbin/unsigned.mjs";

const FULL = 1_048_576;
const I32 = 0x7f;
const [CALL, CALL_INDIRECT, CONST, DROP, END, EMPTY] = [0x10, 0x11, 0x41, 0x1a, 0x0b, 0x40];
const [BLOCK, LOOP, IF, ELSE, BR, BR_IF, BR_TABLE, RETURN, UNREACHABLE] = [0x02, 0x03, 0x04, 0x05, 0x0c, 0x0d, 0x0e, 0x0f, 0x00];

const bytes = (...parts) => Buffer.concat(parts.flat().map((part) => (Buffer.isBuffer(part) ? part : Buffer.from([part]))));
const number = (n) => Buffer.from(unsigned(n));
const times = (count, ...parts) => {
  const one = bytes(...parts);
  return Buffer.alloc(Math.max(0, Math.floor(count)) * one.length, one);
};
// As many as have so many bytes.
const filling = (size, ...parts) => times(size / bytes(...parts).length, ...parts);
const sized = (contents) => bytes(number(contents.length), contents);
const vector = (items) => Buffer.concat([number(items.length), ...items]);
const many = (count, ...parts) => bytes(number(Math.floor(count)), times(count, ...parts));
const section = (id, contents) => bytes(id, sized(contents));
const takes = (count) => bytes(0x60, many(count, I32), 0);
const gives = (count) => bytes(0x60, many(count, I32), 1, I32);
const code = (locals, ...body) => sized(bytes(locals, ...body, END));
const plain = (...body) => code(number(0), ...body);
const export_of = (name, kind, index) => bytes(sized(Buffer.from(name)), kind, number(index));

// A module of these parts, whose types begin with those of `filter`, of the host's functions, and
// of the body that is tried, [] -> [].
const module = ({ types = [], imports = [], functions = [], tables = [], memory = false, globals = Buffer.from([0]), exports = [], elements = [], codes = [], data = Buffer.from([0]), all_types, all_functions, all_codes }) => {
  const first = imports.length;
  return bytes(
    Buffer.from([0x00, 0x61, 0x73, 0x6d, 0x01, 0x00, 0x00, 0x00]),
    section(1, all_types ?? vector([gives(0), gives(2), takes(0), ...types])),
    section(2, vector(imports)),
    section(3, all_functions ?? vector([number(0), ...functions.map(number)])),
    section(4, vector(tables)),
    section(5, vector(memory ? [bytes(0, 1)] : [])),
    section(6, globals),
    section(7, vector([export_of("filter", 0, first), ...exports])),
    section(9, vector(elements)),
    section(10, all_codes ?? vector([plain(CONST, 0), ...codes])),
    section(11, data),
  );
};
// With one body of [] -> [], or of another type.
const body = (...parts) => module({ functions: [2], codes: [plain(...parts)] });
const calling = (type, ...parts) =>
  module({ types: [type], functions: [2, 3], tables: [bytes(0x70, 0, 1)], codes: [plain(...parts), plain(UNREACHABLE)] });
const f = bytes(CALL, 2);
const through_table = bytes(CALL_INDIRECT, 3, 0);
const nested = (depth, opening, inside) => bytes(times(depth, opening), inside, times(depth, END));
const block = bytes(BLOCK, EMPTY);
const table = bytes(0x70, 0, 1);

const shapes = {
  // Calls of types with many parameters, where they can be reached and where they can't.
  call_unreached: (n) => calling(takes(n / 2), UNREACHABLE, filling(n / 2, f)),
  call_indirect_unreached: (n) => calling(takes(n / 2), UNREACHABLE, filling(n / 2, through_table)),
  call_of_1000_unreached: (n) => calling(takes(1000), UNREACHABLE, filling(n - 1200, f)),
  call_with_result_unreached: (n) => calling(gives(n / 2), UNREACHABLE, filling(n / 2, f)),
  call_and_drop_unreached: (n) => calling(gives(n / 2), UNREACHABLE, filling(n / 2, f, DROP)),
  call_above_one_operand_unreached: (n) => calling(takes(n / 2), UNREACHABLE, filling(n / 2, CONST, 0, f)),
  call_indirect_above_one_unreached: (n) => calling(takes(n / 2), UNREACHABLE, filling(n / 2, CONST, 0, through_table)),
  call_behind_a_branch: (n) => calling(takes(n / 2), filling(n / 2, block, BR, 0, f, END)),
  call_in_deep_unreached_blocks: (n) => calling(takes(n / 2), nested(250, bytes(block, UNREACHABLE, f), filling(n / 2 - 2000, f))),
  call_in_an_unreached_loop: (n) => calling(takes(n / 2), filling(n / 2, LOOP, EMPTY, BR, 0, f, f, END)),
  call_in_both_arms_unreached: (n) => calling(takes(n / 2), filling(n / 2, CONST, 0, IF, EMPTY, UNREACHABLE, f, ELSE, UNREACHABLE, f, END)),
  call_of_500_reached: (n) => calling(takes(500), filling(n - 800, times(500, CONST, 0), f)),
  one_call_of_many_reached: (n) => calling(takes(n / 3), filling(2 * (n / 3), CONST, 0), f),
  calls_of_an_import: (n) => module({
    imports: [bytes(sized(Buffer.from("sched")), sized(Buffer.from("pod")), 0, 1)], functions: [2],
    codes: [plain(filling(n - 200, CONST, 0, CONST, 0, CALL, 0, DROP))],
  }),
  // Blocks.
  blocks_in_a_row: (n) => body(filling(n - 100, block, END)),
  blocks_250_deep: (n) => body(filling(n - 1000, nested(250, block, bytes()))),
  loops_250_deep: (n) => body(filling(n - 1000, nested(250, bytes(LOOP, EMPTY), bytes()))),
  ifs_250_deep: (n) => body(filling(n - 1500, nested(250, bytes(CONST, 0, IF, EMPTY), bytes()))),
  ifs_with_else: (n) => body(filling(n - 100, CONST, 0, IF, EMPTY, ELSE, END)),
  ifs_with_else_unreached: (n) => body(UNREACHABLE, filling(n - 100, IF, EMPTY, ELSE, END)),
  blocks_with_results: (n) => body(filling(n - 100, BLOCK, I32, CONST, 0, END, DROP)),
  blocks_unreached: (n) => body(UNREACHABLE, filling(n - 100, block, END)),
  blocks_above_many_operands: (n) => body(filling(n / 2, CONST, 0), filling(n / 2 - 200, block, END), UNREACHABLE),
  unreached_above_many_operands: (n) => body(filling(n / 2, CONST, 0), filling(n / 2 - 200, block, UNREACHABLE, END), UNREACHABLE),
  sums_in_nested_blocks: (n) => body(CONST, 0, filling(n - 100, times(4, BLOCK, I32), CONST, 1, times(4, END), 0x6a), DROP),
  // Branches.
  one_table: (n) => body(CONST, 0, BR_TABLE, many(n - 200, 0), 0),
  one_table_unreached: (n) => body(UNREACHABLE, BR_TABLE, many(n - 200, 0), 0),
  tables_of_two: (n) => body(filling(n - 100, CONST, 0, BR_TABLE, 2, 0, 0, 0)),
  tables_unreached: (n) => body(UNREACHABLE, filling(n - 100, BR_TABLE, 0, 0)),
  table_from_250_deep: (n) => body(nested(250, block, bytes(CONST, 0, BR_TABLE, many((n - 1500) / 2, 250, 1), 250, 1))),
  tables_with_results: (n) => body(filling(n - 200, BLOCK, I32, CONST, 0, CONST, 0, BR_TABLE, many(100, 0), 0, END, DROP)),
  branches_if: (n) => body(filling(n - 100, CONST, 0, BR_IF, 0)),
  branches_unreached: (n) => body(filling(n - 100, BR, 0)),
  branches_from_250_deep: (n) => body(nested(250, block, filling(n - 1500, CONST, 0, BR_IF, 250, 1))),
  returns: (n) => body(filling(n - 100, RETURN)),
  // Locals and globals.
  groups_of_locals: (n) => module({ functions: [2], codes: [code(many((n - 200) / 2, 0, I32))] }),
  groups_of_locals_and_reads: (n) => module({
    functions: [2], codes: [code(bytes(number(Math.floor(n / 4)), times(Math.floor(n / 4) - 1, 0, I32), 1, I32), filling(n / 2 - 300, 0x20, 0, DROP))],
  }),
  parameters_and_reads: (n) => module({ types: [takes(n / 2)], functions: [3], codes: [plain(filling(n / 2 - 300, 0x20, number(n / 2 - 1), DROP))] }),
  globals_and_reads: (n) => module({
    functions: [2], globals: many(n / 10, I32, 1, CONST, 0, END), codes: [plain(filling(n / 2 - 300, 0x23, number(Math.floor(n / 10) - 1), DROP))],
  }),
  globals_set_unreached: (n) => module({ functions: [2], globals: many(1, I32, 1, CONST, 0, END), codes: [plain(UNREACHABLE, filling(n - 300, 0x24, 0))] }),
  // Sections.
  functions: (n) => module({
    all_functions: bytes(number(Math.floor(n / 4)), 0, times(Math.floor(n / 4) - 1, 2)),
    all_codes: bytes(number(Math.floor(n / 4)), plain(CONST, 0), times(Math.floor(n / 4) - 100, 2, 0, END), times(99, 2, 0, END)),
  }),
  types: (n) => module({ all_types: bytes(number(Math.floor(n / 3) - 100), gives(0), times(Math.floor(n / 3) - 101, takes(0))) }),
  types_of_1000: (n) => module({ types: Array(Math.floor(n / 1004) - 1).fill(takes(1000)) }),
  exports_of_short_names: (n) => module({ exports: Array.from({ length: Math.floor((n - 200) / 8) }, (_, i) => export_of(i.toString(36).padStart(5, "_"), 0, 0)) }),
  exports_of_long_names_alike: (n) => module({ exports: Array.from({ length: Math.floor((n - 200) / 1010) }, (_, i) => export_of("_".repeat(995) + i.toString().padStart(5, "0"), 0, 0)) }),
  exports_of_longest_names_alike: (n) => module({ exports: Array.from({ length: 16 }, (_, i) => export_of("_".repeat(Math.floor(n / 16) - 100) + i.toString(16), 0, 0)) }),
  data_segments: (n) => module({ memory: true, data: many((n - 200) / 5, 0, CONST, 0, END, 0) }),
  element_segments: (n) => module({ tables: [table], elements: Array(Math.floor((n - 200) / 5)).fill(bytes(0, CONST, 0, END, 0)) }),
  one_element_segment: (n) => module({ tables: [table], elements: [bytes(0, CONST, 0, END, many(n - 200, 0))] }),
};

const folder = process.argv[2];
for (const [name, shape] of Object.entries(shapes))
  for (const [size, file] of [[FULL, name], [FULL / 4, `${name}.quarter`]]) {
    const made = shape(size - 256);
    if (made.length > size)
      throw new Error(`${file} has ${made.length} bytes`);
    writeFileSync(`${folder}/${file}.wasm`, made);
  }
writeFileSync(`${folder}/shapes.txt`, Object.keys(shapes).map((name) => `${name}\n`).join(""));
console.error(`${Object.keys(shapes).length} shapes`);
