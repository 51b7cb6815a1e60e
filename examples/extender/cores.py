# SPDX-License-Identifier: Apache-2.0
"""`wsched run` as children, each with a share of the nodes: what is known of the nodes is told to
them, and they are asked what the rules say.

A node is one child's, since a child has room for 1,000. One that has ended, or says nothing for
too long, is ended and begun anew, and told again what is known. Whoever calls holds `lock`.
"""
from __future__ import annotations

import collections
import functools
import hashlib
import itertools
import logging
import os
import threading
import time
from typing import Any, Callable, Iterable, Iterator

from core.answers import LAST_OF_JUDGED, Refused, refusal_of
from core.live import Core, CoreFault, Told, quoted, reading
from tools.translating import Size, spelled
from tools.wasm_sections import module_of

from questions import Row

LOG = logging.getLogger("second-scheduler")
# How many nodes one has room for, and how many pods on them.
NODES, PLACES = 1000, 150_000
# Few enough bytes that a pipe takes them all.
BYTES = 32768
# So many bytes are told at once; fewer are, before the next question or within a second, by one
# write, since each wakes a child, which takes this process's core where all are busy.
MUCH = 4096
# Of how many kinds of pods it is kept what was said last, and by how many characters at a time that
# is compared with what is said.
KINDS, BLOCK = 16, 2048
# For how long an answer may be waited for, in seconds, beside what the fuel of all calls can take;
# and what a unit of fuel takes on a slow machine.
PATIENCE, UNIT = 4.0, 5e-9


class Said(dict[str, str]):
    """Of each node what its line says behind its name. `hosts` are its parts of a prioritize's
    answer, where somebody has made them; those of `like`, another answer, are the same but for the
    nodes that are `new`."""

    has_faults = False
    # a filter's last answer by it, and a prioritize's that is ready, for which names as they are
    # spelled
    filtered: Any = None
    scored: tuple[str, Any] = "", None
    hosts: dict[str, str] | None = None
    like: Said | None = None
    new: Iterable[str] = ()

    @functools.cached_property
    def passing(self) -> frozenset[str]:
        """The nodes that pass."""
        return frozenset(name for name, what in self.items() if what.startswith("total "))

    def changed(self, new: Said) -> Said:
        """With what is new of some nodes of these."""
        said = Said(self)
        said.update(new)
        if self.hosts is not None:
            said.like, said.new = self, new
        return said


def nothing() -> None:
    """(whoever asks waits for the answer)"""


def passed_over(_: object) -> None:
    """For an answer that says nothing new."""


def command(program: str, workers: int, specs: list[str]) -> list[str]:
    """By which a child is started."""
    return [program, "run", "--workers", str(workers), *specs]


class Piped(Core):
    """A child that is told without a wait for its answers, as long as few bytes have none: those
    that a pipe takes though nobody reads it, so that no write ever waits."""

    def __init__(self, words: list[str], patience: float) -> None:
        super().__init__(words, nothing, patience)
        self.unheard: collections.deque[Told] = collections.deque()
        self.unheard_bytes = self.unsent_bytes = 0

    def ask(self, line: str, then: Callable[[str], None], last: str = "") -> None:
        self.tell(line.encode() + b"\n", then, last)
        self.unsent_bytes += len(self.waiting[-1].line)

    def step(self, line: str, then: Callable[[Refused | None], None]) -> None:
        self.ask(line, reading(refusal_of, then))

    def send(self) -> None:
        """Writes what is to be told. Raises CoreFault where answers are due and don't come."""
        self.unsent_bytes = 0
        while self.waiting:
            if self.unheard_bytes + len(self.waiting[0].line) > BYTES:
                self.hear()
            some: list[bytes] = []
            while self.waiting and (
                not some or self.unheard_bytes + len(self.waiting[0].line) <= BYTES
            ):
                self.unheard.append(it := self.waiting.popleft())
                self.unheard_bytes += len(it.line)
                some.append(it.line)
            self.unwritten = memoryview(b"".join([self.unwritten, *some]))
            self.write()

    def hear(self) -> None:
        """Waits for the answers that there are none of yet."""
        while self.unheard:
            it = self.unheard.popleft()
            self.unheard_bytes -= len(it.line)
            it.then(self.answer(it))

    def flush(self, meanwhile: Callable[[], None] | None = None) -> None:
        self.send()
        self.hear()


class Asking:
    """A question, and what each child that has answered by now says."""

    def __init__(self, row: Row, filters_alone: bool) -> None:
        self.line, self.kind = row.line(filters_alone), (filters_alone, row.fields)
        self.answers: dict[Share, str] = {}
        self.said: Said | None = None

    def put(self, share: Share) -> None:
        """Has a child asked at its next `send`."""
        if share.core:
            share.core.ask(
                self.line, functools.partial(self.answers.__setitem__, share), LAST_OF_JUDGED
            )


class Share:
    """One child, the nodes that are its own, and how many pods are on them. `core` is None while
    it can't be started, and `why` says why."""

    def __init__(self) -> None:
        self.core: Piped | None = None
        self.why, self.version, self.places = "it isn't started yet", 0, 0
        self.names: set[str] = set()
        # what was said last of some kinds of pods, as text and as read
        self.last: collections.OrderedDict[tuple[bool, str], tuple[str, Said]]
        self.last = collections.OrderedDict()

    def read(self, asking: Asking) -> Said:
        """Of each node what its line says. (A thousand at each question, of which most say of such
        a pod what they said before: so these aren't read again.)"""
        lines = asking.answers[self].rpartition(f"\n{LAST_OF_JUDGED}")[0]
        before, said = self.last.get(asking.kind, ("", Said()))
        if lines != before:
            new = changed_lines(before, lines)
            said = said_by(lines.split("\n")) if new is None else said.changed(said_by(new))
            said.has_faults = " error plugin " in lines
        self.last[asking.kind] = lines, said
        self.last.move_to_end(asking.kind)
        if len(self.last) > KINDS:
            self.last.popitem(last=False)
        return said


class Cores:
    """All of them, and what they know."""

    def __init__(
        self, program: str, workers: int, specs: list[str], again: Callable[[str], None]
    ) -> None:
        """`again` is told of each that is begun anew, and why."""
        self.words, self.again = command(program, workers, specs), again
        self.lock = threading.Lock()
        self.patience = PATIENCE + 2 * NODES * UNIT * sum(2 * int(it.split(":")[2]) for it in specs)
        self.shares: list[Share] = [Share()]
        # (one that is begun anew reads them again: what others say mustn't be of other rules)
        self.specs, self.modules = specs, digests(specs)
        # each node's row and whose it is; the pods on each node, known or not; and where each pod
        # is
        self.rows: dict[str, str] = {}
        self.whose: dict[str, Share] = {}
        self.on: dict[str, dict[str, Size]] = {}
        self.at: dict[str, str] = {}
        # how often something has changed, how often a node, and how many lines were refused
        self.changes = self.row_changes = self.refused = 0
        self.began, self.spent_before = time.monotonic(), 0.0

    # What is told.

    def set_node(self, name: str, row: str) -> None:
        if self.rows.get(name) == row:
            return
        self.changes += 1
        self.row_changes += 1
        self.rows[name] = row
        share = self.whose.get(name)
        if share:
            self.tell(share, f'"op":"node",{{v}},{row}')
            return
        self.settle_in(name)

    def settle_in(self, name: str) -> None:
        """Gives a node to a child that has room for it and the pods on it, and tells that one of
        both."""
        pods = self.on.get(name, {})
        share = next(
            (it for it in self.shares if len(it.names) < NODES and it.places + len(pods) <= PLACES),
            None,
        )
        if not share:
            share = Share()
            self.shares.append(share)
            self.start(share)
        self.whose[name] = share
        share.names.add(name)
        share.places += len(pods)
        for line in self.lines_of(name):
            self.tell(share, line)

    def lines_of(self, name: str) -> Iterator[str]:
        """A node, and the pods on it, without braces and version."""
        yield f'"op":"node",{{v}},{self.rows[name]}'
        for uid, size in self.on.get(name, {}).items():
            yield bound(uid, name, size)

    def drop_node(self, name: str) -> None:
        if self.rows.pop(name, None) is not None:
            self.changes += 1
            self.row_changes += 1
            self.leave(name)

    def leave(self, name: str) -> None:
        """Takes a node from the child that has it."""
        share = self.whose.pop(name)
        share.names.discard(name)
        share.places -= len(self.on.get(name, ()))
        for uid in self.on.get(name, ()):
            self.tell(share, gone(uid))
        self.tell(share, f'"op":"gone",{{v}},"name":{quoted(name)}')

    def set_pod(self, uid: str, name: str, size: Size) -> None:
        """A pod is on a node."""
        if self.at.get(uid) == name and self.on[name][uid] == size:
            return
        if self.at.get(uid, name) != name:
            self.drop_pod(uid)
        self.changes += 1
        share, is_new = self.whose.get(name), uid not in self.at
        moves = share is not None and is_new and share.places >= PLACES
        if moves:
            LOG.info("node %s is another wsched's now: one has room for %d pods", name, PLACES)
            self.leave(name)
        self.at[uid] = name
        self.on.setdefault(name, {})[uid] = size
        if moves:
            self.settle_in(name)
        elif share:
            share.places += is_new
            self.tell(share, bound(uid, name, size))

    def drop_pod(self, uid: str) -> None:
        name = self.at.pop(uid, None)
        if name is None:
            return
        self.changes += 1
        del self.on[name][uid]
        if not self.on[name]:
            del self.on[name]
        share = self.whose.get(name)
        if share:
            share.places -= 1
            self.tell(share, gone(uid))

    def tell(self, share: Share, line: str) -> None:
        """Has it told at the next `settle`."""
        if share.core:
            share.version += 1
            text = line.replace("{v}", f'"v":{share.version}', 1)
            share.core.step(f"{{{text}}}", functools.partial(self.answered, text))

    def answered(self, line: str, refused: Refused | None) -> None:
        if refused:
            self.refused += 1
            LOG.error("wsched answers %s to %s", refused, line)

    def settle(self, least: int = MUCH) -> None:
        """Writes what is to be told, where it is as much; one that doesn't answer, where answers
        are due, is begun anew."""
        for it in self.shares:
            try:
                if it.core and it.core.unsent_bytes >= least:
                    it.core.send()
            except CoreFault as why:
                self.begin_anew(it, why)

    # What is asked.

    def ask(self, row: Row, filters_alone: bool) -> Asking:
        """Asks all children at once what the rules say of each node, or what their filters alone
        do, and waits for none."""
        asking = Asking(row, filters_alone)
        for it in self.shares:
            asking.put(it)
        self.settle(0)
        return asking

    def heard(self, asking: Asking) -> Said:
        """What they say. Raises CoreFault where one can't be asked, and not when it is begun anew
        either."""
        if asking.said is None:
            for it in self.shares:
                self.wait_for(it, asking)
            asking.said = together([it.read(asking) for it in self.shares])
        return asking.said

    def judge(self, row: Row, filters_alone: bool = False) -> Said:
        return self.heard(self.ask(row, filters_alone))

    def wait_for(self, share: Share, asking: Asking) -> None:
        """Waits for one child's answer; where there is none it is begun anew, and asked again."""
        for _ in range(2):
            if not share.core:
                break
            try:
                share.core.hear()
                if share not in asking.answers:
                    # (it was begun anew since it was asked)
                    asking.put(share)
                    share.core.flush()
                return
            except CoreFault as why:
                self.begin_anew(share, why)
        raise CoreFault(f"wsched isn't heard: {share.why}")

    # Beginning, ending.

    def begin_anew(self, share: Share, why: CoreFault) -> None:
        text = str(why).partition(", at {")[0].partition(" at {")[0]
        LOG.warning(
            "%s; it is begun anew with %d nodes and %d pods", text, len(share.names), share.places
        )
        self.again(text)
        self.end(share)
        share.why = text
        self.start(share)

    def start(self, share: Share) -> None:
        """Starts it, and tells it what is known of its nodes."""
        try:
            share.core, share.version = Piped(self.words, self.patience), 0
            share.core.start()
            self.tick(share.core)
            for name in share.names:
                for line in self.lines_of(name):
                    self.tell(share, line)
            share.core.flush()
            if digests(self.specs) != self.modules:
                raise CoreFault("a rule's module isn't what it was: start the extender anew")
        except (CoreFault, OSError) as why:
            self.end(share)
            share.why = str(why).partition(", at {")[0].partition(" at {")[0]
            LOG.error("wsched isn't started: %s", share.why)

    def end(self, share: Share) -> None:
        core, share.core = share.core, None
        if core and core.child:
            self.spent_before += spent(core.child.pid)
            core.kill()
            core.child.wait()
            for it in (core.child.stdin, core.child.stdout):
                if it:
                    it.close()

    def poke(self) -> None:
        """Notices those that hang or have ended though nobody asks, and tries again to start those
        that couldn't be."""
        for it in self.shares:
            if not it.core:
                self.start(it)
                continue
            self.tick(it.core)
            try:
                it.core.flush()
            except CoreFault as why:
                self.begin_anew(it, why)

    def tick(self, core: Piped) -> None:
        """(what has an answer, and changes nothing)"""
        now = int(1000 * (time.monotonic() - self.began))
        core.step(f'{{"op":"tick","at":{now}}}', passed_over)

    def why_not(self) -> str:
        """Why not all can be asked; empty where they can."""
        return next((it.why for it in self.shares if not it.core), "")

    def seconds(self) -> float:
        """How much processor time they have taken."""
        children = [it.core.child for it in self.shares if it.core]
        return self.spent_before + sum(spent(it.pid) for it in children if it)


def digests(specs: list[str]) -> list[str]:
    """Of the rules' modules, as they are now."""
    return [hashlib.sha256(module_of(it)).hexdigest() for it in specs]


def bound(uid: str, name: str, size: Size) -> str:
    return f'"op":"bound",{{v}},"uid":{quoted(uid)},"node":{quoted(name)},{spelled(size)}'


def gone(uid: str) -> str:
    return f'"op":"deleted",{{v}},"uid":{quoted(uid)}'


def together(parts: list[Said]) -> Said:
    if len(parts) == 1:
        return parts[0]
    said = Said(itertools.chain.from_iterable(it.items() for it in parts))
    said.has_faults = any(it.has_faults for it in parts)
    return said


def said_by(lines: Iterable[str]) -> Said:
    """(two blanks stand before a name)"""
    return Said((line[2:].partition(" ")[::2]) for line in lines if line)


def changed_lines(before: str, after: str) -> list[str] | None:
    """Those of the lines that are other ones than before; None where it isn't plain that the others
    are as they were, and all of the same nodes."""
    at, found = 0, list[str]()
    while at < len(after) == len(before):
        if before[at : at + BLOCK] == after[at : at + BLOCK]:
            at += BLOCK
            continue
        first, last = after.rfind("\n", 0, at) + 1, after.find("\n", at + BLOCK)
        last = len(after) if last < 0 else last
        old, new = before[first:last].split("\n"), after[first:last].split("\n")
        if before[last : last + 1] != after[last : last + 1] or [*map(name_of, old)] != [
            *map(name_of, new)
        ]:
            return None
        found += [line for line, was in zip(new, old) if line != was]
        at = last + 1
    return found if len(after) == len(before) else None


def name_of(line: str) -> str:
    return line[2:].partition(" ")[0]


def spent(pid: int) -> float:
    """The processor seconds of a process so far."""
    try:
        with open(f"/proc/{pid}/stat", encoding="ascii") as file:
            ticks = sum(map(int, file.read().rpartition(")")[2].split()[11:13]))
            return ticks / os.sysconf("SC_CLK_TCK")
    except OSError:
        return 0.0
