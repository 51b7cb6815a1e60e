// SPDX-License-Identifier: Apache-2.0
// The bytes of an unsigned number in LEB128 (WebAssembly Core 1.0, 5.2.2).
export const unsigned = (n) => {
  const bytes = [];
  while (n >= 128) {
    bytes.push((n % 128) + 128);
    n = Math.floor(n / 128);
  }
  return [...bytes, n];
};
