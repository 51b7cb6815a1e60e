# SPDX-License-Identifier: Apache-2.0
"""`wsched live` as a child: lines are written, and each has its answer (examples/live/README.md).

It is the main loop's alone. Lines are answered in their order, so what an answer is handed to knows all that was told before.
"""
from __future__ import annotations

import collections
import json
import os
import select
import subprocess
import time
from typing import Callable, NamedTuple, Sequence, TypeVar

from core.answers import LAST_OF_DUMP, Decision, Denied, Dump, Judged, Said, Shut, dump_of, judged_of, said_of, turn_of
from reporting.record import Record

A = TypeVar("A")
# How many lines and bytes are written at once, and how much is read or written at a time.
LINES, BYTES, PIECE = 200, 2**18, 65536
# For how long an answer may be waited for, in seconds: no cycle is so dear. And for how long before
# something else is done meanwhile, which takes about as long.
PATIENCE, MEANWHILE = 15.0, 0.02
# What the child's environment says besides, unless it says so already: glibc keeps as many freed pieces of
# each size at hand as a JSON text of some kB is made of, by which a list is read in three quarters of the time.
ENVIRONMENT = {"GLIBC_TUNABLES": "glibc.malloc.tcache_count=127"}


class CoreFault(Exception):
    """The child has ended, or says nothing."""


class Told(NamedTuple):
    """A line, what its answer is handed to, and how the last line of that begins; where nothing is said of it, the first that doesn't begin with
    two blanks is the last."""

    line: bytes
    then: Callable[[str], None]
    last: str


def reading(read: Callable[[str], A], then: Callable[[A], None]) -> Callable[[str], None]:
    """Hands on what an answer says."""

    def take(answer: str) -> None:
        try:
            said = read(answer)
        except ValueError as why:
            raise CoreFault(f"wsched says what is no answer: {answer[:1000]}") from why
        then(said)

    return take


def order(op: str, **fields: str) -> bytes:
    """`fields` are JSON already."""
    return ("".join([f'{{"op":"{op}"', *(f',"{key}":{value}' for key, value in fields.items())]) + "}\n").encode()


# A text as JSON.
quoted: Callable[[str], str] = json.JSONEncoder().encode


class Core:
    """The child, once it is started, and the lines that it is to be told. It has a session of its own: what a terminal or a service manager
    sends to all that belongs to this process isn't meant for it, which ends when its input does."""

    def __init__(self, words: list[str], beat: Callable[[], None], patience: float = PATIENCE) -> None:
        self.words, self.beat, self.patience = words, beat, patience
        self.child: subprocess.Popen[bytes] | None = None
        self.record: Record | None = None
        self.input = self.output = -1
        self.meanwhile: Callable[[], None] | None = None
        self.waiting: collections.deque[Told] = collections.deque()
        # how many bytes of them have been told since the last flush
        self.unsent = 0
        self.reads, self.both = select.poll(), select.poll()
        # what of the lines under way isn't written yet; the lines that were read and are no answer yet, and
        # what was read behind them
        self.unwritten = memoryview(b"")
        self.lines, self.rest = collections.deque[str](), b""

    def start(self, record: Record | None = None) -> None:
        environment, pipe = ENVIRONMENT | os.environ, subprocess.PIPE
        self.child = child = subprocess.Popen(self.words, stdin=pipe, stdout=pipe, bufsize=0, start_new_session=True, env=environment)
        assert child.stdin and child.stdout
        self.input, self.output, self.record = child.stdin.fileno(), child.stdout.fileno(), record
        # (a pipe that has room for a part is given that part)
        os.set_blocking(self.input, False)
        for it in (self.reads, self.both):
            it.register(self.output, select.POLLIN)
        self.both.register(self.input, select.POLLOUT)

    def tell(self, line: bytes, then: Callable[[str], None], last: str = "") -> None:
        """Has a line, which ends with its newline, written at the next flush, and its answer handed on as it is."""
        self.waiting.append(Told(line, then, last))
        self.unsent += len(line)

    def say(self, line: bytes, then: Callable[[Said], None]) -> None:
        """The same of a line that tells something."""
        self.tell(line, reading(said_of, then))

    def cycle(self, then: Callable[[Decision | Denied | Shut | None], None]) -> None:
        self.tell(order("cycle"), reading(turn_of, then))

    def explain(self, uid: str, then: Callable[[Judged], None]) -> None:
        self.tell(order("explain", uid=quoted(uid)), reading(judged_of, then))

    def dump(self, then: Callable[[Dump], None]) -> None:
        self.tell(order("dump"), reading(dump_of, then), LAST_OF_DUMP)

    def flush(self, meanwhile: Callable[[], None] | None = None) -> None:
        """Writes what is to be told. `meanwhile` is called again and again while an answer is waited for: what it tells is written behind
        what was told before."""
        self.meanwhile, self.unsent = meanwhile, 0
        while self.waiting:
            some, size = [self.waiting.popleft()], 0
            while self.waiting and len(some) < LINES and size + len(self.waiting[0].line) < BYTES:
                size += len(self.waiting[0].line)
                some.append(self.waiting.popleft())
            self.exchange(some)

    def exchange(self, some: Sequence[Told]) -> None:
        lines = b"".join(it.line for it in some)
        self.unwritten = memoryview(lines)
        self.write()
        if not self.record:
            for it in some:
                it.then(self.answer(it))
            return
        # what was answered is in the record before anything is made of it
        answers = [self.answer(it) for it in some]
        self.record.write(lines)
        for it, answer in zip(some, answers):
            it.then(answer)

    def write(self) -> None:
        """Writes what there is room for. (Where nobody reads it any more the answers will end.)"""
        try:
            while self.unwritten:
                self.unwritten = self.unwritten[os.write(self.input, self.unwritten[:PIECE]) :]
        except BlockingIOError:
            pass
        except BrokenPipeError:
            self.unwritten = memoryview(b"")

    def answer(self, told: Told) -> str:
        said = list[str]()
        while not said or (not said[-1].startswith(told.last) if told.last else said[-1].startswith("  ")):
            if not self.lines:
                self.more(told)
            said.append(self.lines.popleft())
            if len(said) == 1 and said[0].startswith("faulty "):
                break
        self.beat()
        return said[0] if len(said) == 1 else "\n".join(said)

    def more(self, told: Told) -> None:
        """Reads until there is a whole line, and writes meanwhile."""
        deadline = time.monotonic() + self.patience
        while not self.lines:
            left = deadline - time.monotonic()
            if left <= 0:
                self.kill()
                raise CoreFault(f"wsched live has said nothing for {self.patience:.0f} s, at {shown(told)}")
            events = dict((self.both if self.unwritten else self.reads).poll(1000 * (min(left, MEANWHILE) if self.meanwhile else left)))
            if self.input in events:
                self.write()
            if self.output in events:
                self.read(told)
            elif not events and self.meanwhile:
                self.meanwhile()

    def read(self, told: Told) -> None:
        some = os.read(self.output, PIECE)
        if not some:
            assert self.child
            raise CoreFault(f"wsched live ended with status {self.child.wait()} at {shown(told)}")
        *lines, self.rest = (self.rest + some).split(b"\n")
        self.lines.extend(it.decode(errors="replace") for it in lines)

    def kill(self) -> None:
        if self.child:
            self.child.kill()

    def end(self) -> int:
        """Ends its input, and waits for its status."""
        assert self.child and self.child.stdin
        if self.record:
            self.record.flush()
        self.child.stdin.close()
        try:
            return self.child.wait(PATIENCE)
        except subprocess.TimeoutExpired as late:
            self.kill()
            raise CoreFault(f"wsched live hasn't ended within {PATIENCE:.0f} s of its input") from late


def shown(told: Told) -> str:
    return told.line[:100].decode(errors="replace").rstrip("\n")


def command(program: str, scheduler: str, workers: int, labels: Sequence[str] | None, specs: Sequence[str]) -> list[str]:
    """`labels` are those that rules read, where that is known: else what has more than a row has room for is left out."""
    named = [] if labels is None else [f"--labels={','.join(labels) or NO_LABELS}"]
    return [program, "live", f"--scheduler={scheduler}", *named, "--workers", str(workers), *specs]


# A label that nobody reads: where one is named, what has more labels than a row is told all the same.
NO_LABELS = "none"


def try_on_nothing(words: list[str]) -> str | None:
    """Runs wsched on nothing, so that a plugin that can't be read or is refused, or a word that it doesn't know, is known before anything
    depends on it. Gives what is wrong."""
    try:
        no, heard = subprocess.DEVNULL, subprocess.PIPE
        tried = subprocess.run(words, stdin=no, stdout=no, stderr=heard, text=True, timeout=60, start_new_session=True, check=False)
    except subprocess.TimeoutExpired:
        return "it hasn't ended within 60 s"
    except OSError as why:
        return f"it can't be run: {why}"
    if tried.returncode == 0:
        return None
    return tried.stderr.strip() or f"it ended with status {tried.returncode}"
