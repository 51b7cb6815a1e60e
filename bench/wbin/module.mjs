// SPDX-License-Identifier: Apache-2.0
// Writes a module of almost 1 MiB to the file that is named: functions of about 200 bytes with
// locals, loops, branches, loads, stores and calls. It is valid, and within the integer
// instructions of the first edition.
import { writeFileSync } from "node:fs";
import { unsigned } from "./unsigned.mjs";

const LONGEST = 1_048_576;

const signed = (n) => {
  const bytes = [];
  while (n < -64 || n >= 64) {
    bytes.push((n & 127) | 128);
    n >>= 7;
  }
  return [...bytes, n & 127];
};
const sized = (bytes) => [...unsigned(bytes.length), ...bytes];
const section = (id, bytes) => [id, ...unsigned(bytes.length), ...bytes];

// A function of two i32 that gives one, with one more local.
const step = (i, k) => [
  0x20, 0x00, 0x41, ...signed((i * 31 + k * 7) % 5000), 0x6a, // local 0 plus a constant
  0x20, 0x01, 0x28, 0x02, ...unsigned((k * 64 + i) % 30000), // a load
  0x73, 0x22, 0x02, // exclusive or, kept in local 2
  0x41, 0x07, 0x71, 0x04, 0x40, // if some bit is set
  0x20, 0x01, 0x20, 0x02, 0x36, 0x02, ...unsigned((k * 128 + i) % 30000), 0x0b, // a store
];
const body = (i) => {
  const code = [0x01, 0x01, 0x7f, 0x03, 0x40];
  for (let k = 0; k < 6; k++) code.push(...step(i, k));
  code.push(0x20, 0x00, 0x41, 0x01, 0x6b, 0x22, 0x00, 0x0d, 0x00, 0x0b); // again, while local 0 isn't 0
  code.push(0x20, 0x02, 0x20, 0x01, 0x10, ...unsigned(Math.floor(i / 2)), 0x0b); // a call of another function
  return sized(code);
};

const bodies = [];
let length = 60;
for (;;) {
  const next = body(bodies.length);
  if (length + next.length + 1 > LONGEST) break;
  length += next.length + 1;
  bodies.push(next);
}
const count = unsigned(bodies.length);
const code = bodies.flat();
const bytes = [
  0x00, 0x61, 0x73, 0x6d, 0x01, 0x00, 0x00, 0x00,
  ...section(1, [0x01, 0x60, 0x02, 0x7f, 0x7f, 0x01, 0x7f]),
  ...section(3, count.concat(bodies.map(() => 0x00))),
  ...section(5, [0x01, 0x00, 0x01]),
];
const all = Buffer.concat([
  Buffer.from(bytes),
  Buffer.from([0x0a, ...unsigned(count.length + code.length), ...count]),
  Buffer.from(code),
]);
writeFileSync(process.argv[2], all);
