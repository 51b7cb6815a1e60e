# SPDX-License-Identifier: Apache-2.0
"""`wsched translate` as a child: it is told nodes and pods as the API has them, and says what they come to as lines of a script."""
from __future__ import annotations

import itertools
import json
import logging
import os
import select
import subprocess
import threading
from typing import Iterable, Iterator, NamedTuple, Sequence

from api.pages import Json
from core.live import CoreFault
from state.heard import EVERYTHING, line_of, spell

__all__ = ["EVERYTHING", "Answer", "Json", "Size", "Translator", "as_json", "fields_of", "line_of", "size_of", "spell", "spelled", "words_of"]

LOG = logging.getLogger("second-scheduler")
# Thousandths of a core, and bytes.
Size = tuple[int, int]
# How many objects are told at once, of how many bytes unless it is one; how much is written or read
# at once, and for how long an answer may be waited for, in seconds.
AT_ONCE, BYTES_AT_ONCE, PIECE, PATIENCE = 500, 2**22, 65536, 15.0
# Of how many objects the answers are kept, of how many bytes in all, and of one. Most of what is
# heard is what was heard before but for what no line tells.
KEPT, KEPT_BYTES, KEPT_EACH = 4096, 2**24, 2**16
# How many reasons are kept of one object.
REASONS = 50


class Answer(NamedTuple):
    """An object's line, None where no line says it, and what was left out of it, or why it was. `is_whole`: all that it asks for is in the
    line. What else is left out of a bound pod's line is named as required."""

    line: Json | None
    left_out: tuple[str, ...]
    is_whole: bool = True


class Ended(Exception):
    """The child is no more, and why."""


def words_of(program: str, scheduler: str) -> list[str]:
    """By which it is started. Its own versions and the pods' uids are of no account here."""
    return [program, "translate", "--answers", "--by-uid", f"--scheduler={scheduler}"]


def batches(lines: Iterable[bytes]) -> Iterator[list[bytes]]:
    some, size = list[bytes](), 0
    for line in lines:
        if some and (len(some) >= AT_ONCE or size + len(line) > BYTES_AT_ONCE):
            yield some
            some, size = [], 0
        some.append(line)
        size += len(line)
    if some:
        yield some


class Translator:
    """The child, which any thread may ask. Where it has died it is started again, and asked the same anew."""

    def __init__(self, program: str, scheduler: str) -> None:
        self.words, self.lock = words_of(program, scheduler), threading.Lock()
        self.child: subprocess.Popen[bytes] | None = None
        self.kept: dict[bytes, Answer] = {}
        self.kept_bytes = 0

    def ask(self, things: Iterable[Json]) -> list[Answer]:
        """Of each object its answer, which is the same for equal ones."""
        found: list[Answer] = []
        for lines in batches(map(line_of, things)):
            with self.lock:
                new = [it for it in dict.fromkeys(lines) if it not in self.kept]
                answers = dict(zip(new, self.answers(new)))
                found += [answers[it] if it in answers else self.kept[it] for it in lines]
                self.keep(answers)
        return found

    def keep(self, answers: dict[bytes, Answer]) -> None:
        """(an answer takes some times as much as its line at most, and few are of one that long)"""
        for line, answer in answers.items():
            if len(line) <= KEPT_EACH:
                self.kept[line] = answer
                self.kept_bytes += len(line)
        while len(self.kept) > KEPT or self.kept_bytes > KEPT_BYTES:
            oldest = next(iter(self.kept))
            self.kept_bytes -= len(oldest)
            del self.kept[oldest]

    def answers(self, lines: Sequence[bytes]) -> list[Answer]:
        if not lines:
            return []
        try:
            return self.exchange(lines)
        except Ended as why:
            self.end()
            LOG.warning("wsched translate %s; it is started again", why)
        try:
            return self.exchange(lines)
        except Ended as why:
            self.end()
            raise CoreFault(f"wsched translate {why}, twice, when it was told the same {len(lines)} objects") from why

    def exchange(self, lines: Sequence[bytes]) -> list[Answer]:
        """Writes the lines and reads the answers meanwhile, so that neither side waits for the other before a full pipe."""
        self.child = child = self.child or begun(self.words)
        assert child.stdin and child.stdout
        told, heard = child.stdin.fileno(), child.stdout.fileno()
        unwritten, answers, rest = memoryview(b"".join(lines)), list[bytes](), list[bytes]()
        ready = select.poll()
        ready.register(told, select.POLLOUT)
        ready.register(heard, select.POLLIN)
        while len(answers) < len(lines):
            events = dict(ready.poll(1000 * PATIENCE))
            if not events:
                raise Ended(f"has said nothing for {PATIENCE:.0f} s")
            if told in events:
                unwritten = unwritten[written(told, unwritten[:PIECE]) :]
                if not unwritten:
                    ready.unregister(told)
            if heard in events:
                some = os.read(heard, PIECE)
                if not some:
                    raise Ended(f"ended with status {child.wait()}")
                rest.append(some)
                if b"\n" in some:
                    *whole, last = b"".join(rest).split(b"\n")
                    answers, rest = answers + whole, [last]
        if len(answers) > len(lines) or any(rest):
            raise Ended("says more than it is asked")
        return [*map(answer_of, answers)]

    def end(self) -> None:
        if self.child:
            self.child.kill()
            self.child.wait()
        self.child = None


def begun(words: Sequence[str]) -> subprocess.Popen[bytes]:
    """It has a session of its own, as wsched has, and ends when its input does."""
    try:
        child = subprocess.Popen(words, stdin=subprocess.PIPE, stdout=subprocess.PIPE, bufsize=0, start_new_session=True)
    except OSError as why:
        raise CoreFault(f"wsched {words[1]} can't be run: {why}") from why
    assert child.stdin
    # (a pipe that has room for a part is given that part)
    os.set_blocking(child.stdin.fileno(), False)
    return child


def written(told: int, piece: memoryview) -> int:
    """How much of it was: all where nobody reads it any more, of which the answers will end."""
    try:
        return os.write(told, piece)
    except BlockingIOError:
        return 0
    except BrokenPipeError:
        return len(piece)


def answer_of(line: bytes) -> Answer:
    try:
        said = json.loads(line)
        # (of what may be a pod on a node, and can't be counted, there is no word on a line)
        reasons = dict.fromkeys(said["uncounted"] if "uncounted" in said else said["left_out"])
        is_whole = "uncounted" not in said and all(it.startswith("required ") for it in reasons)
        more = (f"and {len(reasons) - REASONS} more",) if len(reasons) > REASONS else ()
        return Answer(None if "uncounted" in said else said["line"], (*itertools.islice(reasons, REASONS), *more), is_whole)
    except (ValueError, LookupError, TypeError, AttributeError) as why:
        raise Ended(f"says what is no answer ({why})") from why


# Lines.


def fields_of(line: Json) -> Json:
    """What stands in a line behind its version, and behind a pod's uid."""
    return {key: value for key, value in line.items() if key not in ("op", "v", "uid")}


def as_json(fields: Json) -> str:
    """The fields of a line, without the braces."""
    return spell(fields)[1:-1]


def read(cpu: str, memory: str) -> Size:
    """What `translate` spells: thousandths and bytes."""
    return int(cpu.removesuffix("m")), int(memory)


def size_of(line: Json) -> Size:
    """What a node has, or a pod asks for."""
    return read(*line["containers"][0]) if "containers" in line else read(line["cpu"], line["mem"])


def spelled(size: Size) -> str:
    """The fields of a line that say so."""
    return f'"cpu":"{size[0]}m","mem":"{size[1]}"'
