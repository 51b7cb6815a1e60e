# SPDX-License-Identifier: Apache-2.0
"""A record of every line that wsched was told and has answered: gzip, written while it goes on, and whole after each write.

`gzip -dc FILE | wsched live WORD..` gives the answers that were given, byte for byte, by the words by which it was started. Where there is no
room for it, what is to be written is kept for a while, and the record goes on once there is room again, without a gap.
"""
from __future__ import annotations

import logging
import os
import pathlib
import struct
import time
import zlib
from typing import Callable

# (RFC 1952, 2.3: deflate, no flags, no time, an unknown system)
HEADER = bytes([0x1F, 0x8B, 8, 0, 0, 0, 0, 0, 0, 255])
# (RFC 1951, 3.2.4: a last block that stores nothing; it begins with a byte, since each flush ends
# with one)
LAST_BLOCK = b"\x01\x00\x00\xff\xff"
# How many bytes of lines are kept while they can't be written, as they are packed, and how often
# that is tried, in seconds.
KEPT, AGAIN = 2**26, 1.0
LOG = logging.getLogger("second-scheduler")


class Record:
    """Whatever is written ends with gzip's own ending, which the next write overwrites: so the file is whole at every moment, up to the
    last line that was answered, however the process ends, or to the last that there was room for."""

    def __init__(self, wanted: str, told: Callable[[str], None] = lambda why: None) -> None:
        """`told` is called when it can't be written, with why, and when it goes on, with nothing."""
        self.file, self.path = create(pathlib.Path(wanted))
        self.told = told
        self.packer = zlib.compressobj(6, zlib.DEFLATED, -zlib.MAX_WBITS)
        self.checksum = self.size = self.offset = 0
        # what couldn't be written yet, with the ending that stands in the file, since when that is
        # so, and when it is tried again
        self.unwritten, self.before, self.kept = list[bytes](), b"", 0
        self.since, self.next, self.is_ended = 0.0, 0.0, False
        self.put(HEADER, b"")

    def ending(self) -> bytes:
        return LAST_BLOCK + struct.pack("<II", self.checksum, self.size & 0xFFFFFFFF)

    def put(self, whole: bytes, before: bytes) -> None:
        """Writes behind what is there, whose ending was `before`. Raises OSError where it can't: then that is as it was."""
        data, at = memoryview(whole + self.ending()), self.offset
        try:
            while data:
                written = os.pwrite(self.file, data, at)
                data, at = data[written:], at + written
        except OSError:
            # (there was room for that much)
            os.pwrite(self.file, before, self.offset)
            os.ftruncate(self.file, self.offset + len(before))
            raise
        self.offset += len(whole)

    def write(self, lines: bytes) -> None:
        if self.is_ended:
            return
        if not self.unwritten:
            self.before = self.ending()
        self.checksum, self.size = zlib.crc32(lines, self.checksum), self.size + len(lines)
        some = self.packer.compress(lines) + self.packer.flush(zlib.Z_SYNC_FLUSH)
        self.unwritten.append(some)
        self.kept += len(some)
        if not self.since or time.monotonic() >= self.next:
            self.flush()
        if self.kept > KEPT:
            # (what is missing is in no record, and nothing behind it says what was decided by it)
            self.is_ended, self.unwritten, self.kept = True, [], 0
            LOG.error("the record %s ends here: it couldn't be written for so long that no more is kept", self.path)
            self.told("ended")

    def flush(self) -> None:
        """Writes what is kept, if it can be."""
        if self.is_ended or not self.unwritten:
            return
        try:
            self.put(b"".join(self.unwritten), self.before)
        except OSError as why:
            # (pods go on being placed, which is what this is for)
            if not self.since:
                LOG.error("the record %s stands still, and what is told now is kept: %s", self.path, why)
                self.told(f"stands still: {why}")
            self.since, self.next = self.since or time.monotonic(), time.monotonic() + AGAIN
            return
        if self.since:
            LOG.warning("the record %s goes on after %.0f s, without a gap", self.path, time.monotonic() - self.since)
            self.told("")
        self.unwritten, self.kept, self.since = [], 0, 0.0


def create(wanted: pathlib.Path) -> tuple[int, pathlib.Path]:
    """A file of this start's own: where there is one of the name already, the next free number is set before its suffixes."""
    suffixes = "".join(wanted.suffixes)
    stem = wanted.name[: len(wanted.name) - len(suffixes)]
    for number in range(1, 1_000_000):
        path = wanted if number == 1 else wanted.with_name(f"{stem}-{number}{suffixes}")
        try:
            return os.open(path, os.O_CREAT | os.O_EXCL | os.O_WRONLY | os.O_CLOEXEC, 0o644), path
        except FileExistsError:
            continue
    raise FileExistsError(f"there are too many records of the name {wanted}")
