// SPDX-License-Identifier: Apache-2.0
// Writes modules of almost 1 MiB that ask for as much as they can of a decoder, into the folder
// that is named: many exports, one long list of labels, many functions, many runs of locals, many
// blocks. All are within the binary format.
import { writeFileSync } from "node:fs";
import { unsigned } from "./unsigned.mjs";

const header = [0x00, 0x61, 0x73, 0x6d, 0x01, 0x00, 0x00, 0x00];
const section = (id, contents) => Buffer.concat([Buffer.from([id, ...unsigned(contents.length)]), Buffer.from(contents)]);
const vector = (count, contents) => Buffer.concat([Buffer.from(unsigned(count)), contents]);
const repeated = (count, bytes) => Buffer.concat(Array(count).fill(Buffer.from(bytes)));
const one_body = (contents) => [section(1, [1, 0x60, 0, 0]), section(3, [1, 0]), section(10, vector(1, vector(contents.length, contents)))];
const write = (name, sections) => writeFileSync(`${process.argv[2]}/${name}.wasm`, Buffer.concat([Buffer.from(header), ...sections]));

write("exports", [section(7, vector(200_000, repeated(200_000, [0x02, 0x61, 0x62, 0x00, 0x00])))]);
write("labels", one_body(Buffer.concat([Buffer.from([0, 0x41, 0, 0x0e, ...unsigned(900_000)]), repeated(900_001, [0]), Buffer.from([0x0b])])));
write("functions", [
  section(1, [1, 0x60, 0, 0]),
  section(3, vector(200_000, repeated(200_000, [0]))),
  section(10, vector(200_000, repeated(200_000, [2, 0, 0x0b]))),
]);
write("locals", one_body(Buffer.concat([vector(300_000, repeated(300_000, [1, 0x7f])), Buffer.from([0x0b])])));
write("blocks", one_body(Buffer.concat([Buffer.from([0]), repeated(340_000, [0x02, 0x40, 0x0b]), Buffer.from([0x0b])])));
