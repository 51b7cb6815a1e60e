# SPDX-License-Identifier: Apache-2.0
"""What stands between the server and the machine: lists, watches, posts and reads of one instance after another.

It has four duties: it tells each kind's objects in the server's order and leaves none out; it posts each bind once; it gives answers as
they were given; and it says that a time is over only once it is. Else it is as late and as unlucky as the steps have it, each of which is
given two numbers to choose by; one for which there is no occasion is none."""
from __future__ import annotations

import dataclasses
from typing import Callable, Sequence, TypeVar

from laws import History, check
from lines import (KINDS, NOTHING, Amounts, Answer, Bind, Deaf, Full, Gone, Hears, Line, Listed, Lists, Output, Past, Read, Thing, Told, WasRead)
from machine import Machine
from server import LIMIT, Event, Post, Rules, Server

T = TypeVar("T")
Make = Callable[[int, bool], Machine]


@dataclasses.dataclass
class Stream:
    """One kind's lists and watches. `at` is the version up to which all has been told, None where a list has to tell it; `rest` what a
    list hasn't told yet, and `of` that list's version."""

    kind: str
    at: int | None = None
    is_open: bool = False
    rest: list[Thing] | None = None
    of: int = 0
    # where a watch might go on that a list was begun for; whether a list has begun and not ended
    before: int | None = None
    is_begun: bool = False


@dataclasses.dataclass
class Asked:
    """A read under way, and what the server has said."""

    read: Read
    said: tuple[str, str] | None = None


def pick(some: Sequence[T], which: int) -> T | None:
    return some[which % len(some)] if some else None


def line_of(kind: str, event: Event) -> Line:
    return Gone(kind, event.thing.name, event.version) if event.is_gone else Told(event.thing)


class Transport:
    """`make` makes the machine of each instance. Where the cluster alone matters, laws 1 to 4 aren't looked at."""

    def __init__(self, rules: Rules, make: Make, cluster_alone: bool = False) -> None:
        self.server, self.make, self.cluster_alone = Server(rules), make, cluster_alone
        self.lines: list[tuple[Line, list[Output]]] = []
        self.notes: list[str] = []
        self.is_left_out = self.was_past = False
        self.begin()

    def begin(self) -> None:
        """An instance starts: it knows nothing, and what the one before has posted is under way."""
        rules = self.server.rules
        self.machine, self.history = self.make(rules.most, rules.tests_versions), History(rules.most)
        self.is_left_out = False
        self.streams = {it: Stream(it) for it in KINDS}
        self.reads: list[Asked] = []
        self.posts: dict[int, Post] = {}
        self.lost: set[int] = set()
        self.started, self.was_past = self.server.now, False

    def tell(self, line: Line) -> None:
        outputs = self.machine.take(line)
        self.lines.append((line, outputs))
        room = {it.ticket: self.room_of(it) for it in outputs if isinstance(it, Bind)}
        if self.cluster_alone:
            self.history.add(line, outputs)
        else:
            check(self.history, line, outputs, self.machine)
        for it in outputs:
            if isinstance(it, Bind):
                self.posts[it.ticket] = self.server.post(it, room[it.ticket])
            elif isinstance(it, Read):
                self.reads.append(Asked(it))
            self.is_left_out = self.is_left_out or isinstance(it, Full)

    def room_of(self, bind: Bind) -> Amounts:
        node = self.history.nodes.get(bind.node)
        return node.room if node and node.room else NOTHING

    # The transport's steps: lists and watches.

    def do_list(self, one: int, _: int) -> None:
        """A list begins, also where one has begun, or where there was no need of it."""
        stream = self.streams[KINDS[one % 2]]
        stream.before = stream.at if stream.at is not None else stream.before
        stream.at, stream.is_open, stream.rest, stream.of = None, False, self.server.listed(stream.kind), self.server.version
        stream.is_begun = True
        self.tell(Lists(stream.kind))

    def do_page(self, one: int, two: int) -> None:
        """Some of its items, and its end where there is no more. A list that is too old ends in the midst."""
        stream = self.streams[KINDS[one % 2]]
        if stream.rest is None:
            return
        for _ in range(two % 4 + 1):
            if not stream.rest:
                stream.rest, stream.at, stream.is_begun = None, stream.of, False
                self.tell(Listed(stream.kind))
                return
            self.tell(Told(stream.rest.pop(0)))

    def do_cut(self, one: int, two: int) -> None:
        stream = self.streams[KINDS[one % 2]]
        if stream.rest is not None:
            stream.rest = None
            stream.at = stream.before if self.server.rules.retells and two % 2 else None

    def do_open(self, one: int, two: int) -> None:
        """A watch goes on where all was told up to: but for one whose beginning is gone, which has to list."""
        stream = self.streams[KINDS[one % 2]]
        if stream.at is None or stream.is_open:
            return
        if stream.at < self.server.compacted and self.server.events_after(stream.kind, stream.at):
            stream.at = None
            return
        if self.server.rules.retells and two % 4 == 1:
            stream.at = max(self.server.compacted, stream.at - two // 4 % 8)
        stream.is_open = True
        self.tell(Hears(stream.kind))

    def do_shut(self, one: int, _: int) -> None:
        stream = self.streams[KINDS[one % 2]]
        if stream.is_open:
            stream.is_open = False
            self.tell(Deaf(stream.kind))

    def do_event(self, one: int, two: int) -> None:
        stream = self.streams[KINDS[one % 2]]
        for _ in range(two % 3 + 1):
            if not stream.is_open or stream.at is None:
                return
            events = self.server.events_after(stream.kind, stream.at)
            if not events:
                # (a bookmark)
                stream.at = self.server.version
                return
            stream.at = events[0].version
            self.tell(line_of(stream.kind, events[0]))

    def do_hear(self, one: int, two: int) -> None:
        """All that there is of a kind, as a good day has it: a list where one is needed, a watch, and all events."""
        stream = self.streams[KINDS[one % 2]]
        if stream.rest is None and (stream.at is None or stream.is_begun):
            self.do_list(one, two)
        while stream.rest is not None:
            self.do_page(one, 3)
        self.do_open(one, 0)
        if stream.is_open:
            while stream.at is not None and self.server.events_after(stream.kind, stream.at):
                self.do_event(one, two)
        elif stream.at is None:
            self.do_hear(one, two)

    # Binds and reads.

    def do_answer(self, one: int, two: int) -> None:
        """The server's answer, or none: one is lost, or is waited for no longer."""
        it = pick([it for it in self.posts.values() if it.is_awaited], one)
        if not it:
            return
        it.is_awaited = False
        is_lost = two % 4 == 0
        if not is_lost and it.became == "travels":
            self.server.handle(it)
        if is_lost or it.became == "never":
            self.lost.add(it.bind.ticket)
            self.tell(Answer(it.bind.ticket, "lost"))
        else:
            is_good = it.became == "done" and not (self.server.rules.posts_twice and two // 4 % 4 == 0)
            self.tell(Answer(it.bind.ticket, "created" if is_good else "refused"))

    def do_over(self, one: int, _: int) -> None:
        """The server's time for a lost one has passed."""
        ticket = pick([it for it in sorted(self.lost) if self.server.now - self.posts[it].sent >= LIMIT], one)
        if ticket:
            self.lost.discard(ticket)
            self.tell(Answer(ticket, "over"))

    def do_serve(self, one: int, _: int) -> None:
        """The server reads a pod, or moves its version. (What says its answer may take its time.)"""
        it = pick([it for it in self.reads if not it.said], one)
        if it:
            there = self.server.pods.get(it.read.name)
            if there and it.read.fences and there.uid == it.read.uid and not there.node:
                self.server.set_pod(there)
            pod = self.server.pods.get(it.read.name)
            it.said = ("gone", "") if not pod or pod.uid != it.read.uid else ("on", pod.node) if pod.node else ("waits", "")

    def do_read(self, one: int, _: int) -> None:
        it = pick([it for it in self.reads if it.said], one)
        if it and it.said:
            self.reads.remove(it)
            self.tell(WasRead(it.read.ask, *it.said))

    def do_past(self, _: int, __: int) -> None:
        """The server's time has passed since the start, or no bind was under way then."""
        is_none = not any(it.became == "travels" and it not in self.posts.values() for it in self.server.posts)
        if not self.was_past and (is_none or self.server.now - self.started >= LIMIT):
            self.was_past = True
            self.tell(Past())
