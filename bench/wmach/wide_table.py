# SPDX-License-Identifier: Apache-2.0
# Writes a module whose filter runs a br_table of 900,000 labels 100,000 times: python3
# wide_table.py FILE.
import sys

LABELS, TIMES = 900_000, 100_000


def number(n):
    out = b""
    while n > 127:
        out += bytes([n & 127 | 128])
        n >>= 7
    return out + bytes([n])


def signed(n):
    out = b""
    while not -64 <= n < 64:
        out += bytes([n & 127 | 128])
        n >>= 7
    return out + bytes([n & 127])


def section(kind, content):
    return bytes([kind]) + number(len(content)) + content


table = b"\x0e" + number(LABELS) + bytes(LABELS) + b"\x00"
count = b"\x20\x00\x41\x01\x6a\x22\x00\x41" + signed(TIMES) + b"\x49\x0d\x00"
body = b"\x01\x01\x7f" + b"\x03\x40\x02\x40\x20\x00" + table + b"\x0b" + count + b"\x0b\x20\x00\x0b"
module = b"\0asm\1\0\0\0" + section(1, b"\x01\x60\x00\x01\x7f") + section(3, b"\x01\x00")
module += section(7, b"\x01\x06filter\x00\x00") + section(10, b"\x01" + number(len(body)) + body)
open(sys.argv[1], "wb").write(module)
