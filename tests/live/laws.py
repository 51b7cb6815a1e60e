# SPDX-License-Identifier: Apache-2.0
"""The laws, by the history alone: by the lines that were told and their answers, and of the fifth by the server's own objects.

What was last said of one name, what became of one bind, and whether a kind is heard are each a function of what they were before a line,
and of that line. None of the machine's tables is read, but for what it says is used of a node and which pods it would try next.
"""
from __future__ import annotations

from typing import Iterator, NamedTuple, Protocol

from lines import (KINDS, NODES, NOTHING, PODS, Amounts, Answer, Aside, Bind, Cycle, Deaf, Fails, Full, Gone, Hears, Idle, Line, Listed, Lists, Node,
                   Offered, Output, Past, Pod, Read, Shut, Tick, Told, WasRead, fits, plus)
from server import Server


# The lines that say nothing of any pod, node or bind.
SILENT = (Lists, Deaf, Hears, Past, Cycle, Tick)


class Broken(Exception):
    """A law doesn't hold."""


class Counts(Protocol):
    """What the machine shows of itself."""

    used: dict[str, Amounts]
    queue: set[str]


class Word(NamedTuple):
    """What was last said of the pod of a name."""

    pod: Pod
    is_aside: bool = False


class Ticket(NamedTuple):
    """A bind that isn't settled: whether it may still be done, and whether a read that was asked for since it can't is under way."""

    bind: Bind
    is_past: bool = False
    is_asked: bool = False


class History:
    """What a list of lines with their answers says, to whoever reads it from the first to the last."""

    def __init__(self, most: int) -> None:
        self.most = most
        self.is_short = self.began_short = False
        self.words: dict[str, Word | None] = {}
        self.nodes: dict[str, Node | None] = {}
        self.tickets: dict[int, Ticket] = {}
        self.reads: dict[int, tuple[int, bool]] = {}
        self.named: dict[str, set[str] | None] = {PODS: None, NODES: None}
        self.heard = {PODS: False, NODES: False}
        self.was_listed = {PODS: False, NODES: False}
        self.is_past = self.began_past = self.is_clear = False

    def add(self, line: Line, outputs: list[Output]) -> None:
        """One line more, and its answer."""
        if isinstance(line, Told) and isinstance(line.thing, Pod) and line.thing.node and self.is_full(line):
            self.is_short = self.began_short = True
        if not isinstance(line, SILENT):
            names, nodes = {*self.words}, {*self.nodes}
            if isinstance(line, Told):
                (names if isinstance(line.thing, Pod) else nodes).add(line.thing.name)
            self.words = {it: self.word_after(self.words.get(it), it, line) for it in names}
            self.nodes = {it: self.node_after(self.nodes.get(it), it, line) for it in nodes}
            self.tickets = {ticket: after for ticket, it in self.tickets.items() if (after := self.ticket_after(it, line))}
        self.hear(line)
        if isinstance(line, WasRead):
            self.reads.pop(line.ask, None)
        for it in outputs:
            if isinstance(it, Bind):
                self.tickets[it.ticket] = Ticket(it)
            elif isinstance(it, Read) and it.ticket in self.tickets:
                ticket = self.tickets[it.ticket]
                self.reads[it.ask] = it.ticket, ticket.is_past or it.fences
                self.tickets[it.ticket] = ticket._replace(is_asked=ticket.is_past)

    def is_full(self, line: Line) -> bool:
        """Whether the line is of a pod that there is no room to know."""
        if not isinstance(line, Told) or not isinstance(line.thing, Pod) or self.words.get(line.thing.name):
            return False
        return len(self.words) - [*self.words.values()].count(None) >= self.most

    # Of one name.

    def word_after(self, word: Word | None, name: str, line: Line) -> Word | None:
        if isinstance(line, Told):
            is_said = isinstance(line.thing, Pod) and line.thing.name == name and not self.is_full(line)
            return told_word(word, line.thing) if is_said and isinstance(line.thing, Pod) else word
        if not word or isinstance(line, (Gone, Listed)) and self.takes(line, PODS, name, word.pod.version):
            return None
        return self.word_by_answer(word, name, line)

    def word_by_answer(self, word: Word, name: str, line: Line) -> Word:
        match line:
            case Answer(number, "created"):
                return self.on_by(word, number, None)
            case WasRead(ask, what, node) if what != "waits" and ask in self.reads:
                return self.on_by(word, self.reads[ask][0], node if what == "on" else "")
            case Aside(aside, uid) | Offered(aside, uid) if aside == name and uid == word.pod.uid:
                return word._replace(is_aside=isinstance(line, Aside))
        return word

    def on_by(self, word: Word, number: int, node: str | None) -> Word:
        """By an answer of its bind: it is on the node that was asked for, or on this one, or nowhere."""
        ticket = self.tickets.get(number)
        if not ticket or ticket.bind.name != word.pod.name:
            return word
        if node == "":
            return word._replace(is_aside=True)
        return word._replace(pod=word.pod._replace(node=node or ticket.bind.node, asks=ticket.bind.asks))

    def takes(self, line: Gone | Listed, kind: str, name: str, version: int) -> bool:
        """Whether the line says that what was told at this version is gone."""
        if isinstance(line, Listed):
            return line.kind == kind and not self.is_named(kind, name)
        return line.kind == kind and line.name == name and line.version > version

    def is_named(self, kind: str, name: str) -> bool:
        """By the list that ends, or where none does."""
        named = self.named[kind]
        return named is None or name in named

    def node_after(self, node: Node | None, name: str, line: Line) -> Node | None:
        if isinstance(line, Told) and isinstance(line.thing, Node) and line.thing.name == name:
            return node if node and line.thing.version <= node.version else line.thing
        return None if node and isinstance(line, (Gone, Listed)) and self.takes(line, NODES, name, node.version) else node

    # Of one bind.

    def ticket_after(self, it: Ticket, line: Line) -> Ticket | None:
        word = self.words[it.bind.name]
        if not word or word.pod.uid != it.bind.uid or word.pod.node:
            return None
        match line:
            case Answer(number, what) if number == it.bind.ticket and what in ("refused", "over"):
                return it._replace(is_past=True)
            case WasRead(ask, what) if ask in self.reads and self.reads[ask][0] == it.bind.ticket:
                if what == "gone" or self.reads[ask][1]:
                    return None
        return it

    # Of a kind.

    def hear(self, line: Line) -> None:
        match line:
            case Told(thing):
                named = self.named[PODS if isinstance(thing, Pod) else NODES]
                if named is not None:
                    named.add(thing.name)
            case Gone(kind, name, _):
                if self.named[kind] is not None:
                    self.named[kind] = {*(self.named[kind] or ())} - {name}
            case Lists(kind):
                self.named[kind], self.heard[kind] = set(), False
                if kind == PODS:
                    self.began_past, self.began_short = self.is_past, False
            case Listed(kind):
                if self.named[kind] is not None:
                    self.named[kind], self.heard[kind], self.was_listed[kind] = None, True, True
                    self.is_clear = self.is_clear or kind == PODS and self.began_past
                    self.is_short = self.began_short if kind == PODS else self.is_short
            case Deaf(kind):
                self.heard[kind] = False
            case Hears(kind):
                self.heard[kind] = self.was_listed[kind] and self.named[kind] is None
            case Past():
                self.is_past = True

    # What follows.

    def is_open(self) -> bool:
        return self.is_clear and not self.is_short and all(self.heard[it] for it in KINDS)

    def counts(self) -> dict[str, Amounts]:
        """Of each node what was told to stand there, and the open binds to it."""
        some = [(it.pod.node, it.pod.counts) for it in self.words.values() if it and it.pod.node]
        some += [(it.bind.node, it.bind.asks) for it in self.tickets.values()]
        counts: dict[str, Amounts] = {}
        for node, more in some:
            counts[node] = plus(counts.get(node, NOTHING), more)
        return counts

    def waiting(self) -> Iterator[Pod]:
        """The pods that are to be tried."""
        bound = {it.bind.name for it in self.tickets.values()}
        for word in self.words.values():
            waits = word and word.pod.is_ours and not word.pod.node and word.pod.asks
            if word and waits and not word.is_aside and word.pod.name not in bound:
                yield word.pod

    def has_room(self, node: Node | None, pod: Pod) -> bool:
        return bool(node and node.room and pod.asks and fits(pod.asks, self.counts().get(node.name, NOTHING), node.room))


def told_word(word: Word | None, pod: Pod) -> Word | None:
    if word and pod.version <= word.pod.version:
        return word
    if not word or word.pod.uid != pod.uid:
        return Word(pod)
    return word if word.pod.node and not pod.node else word._replace(pod=pod)


def check(history: History, line: Line, outputs: list[Output], machine: Counts) -> None:
    """Laws 1 to 4, of a line and its answer, and of the history up to it."""
    check_answer(history, line, outputs)
    history.add(line, outputs)
    counts, used = history.counts(), {node: it for node, it in machine.used.items() if it != NOTHING}
    if counts != used:
        raise Broken(f"1: {used} is thought to be used, and was told {counts}")
    bound = [it.bind.name for it in history.tickets.values()]
    law(len(bound) == len({*bound}), "3: a pod has two open binds")
    law({it.name for it in history.waiting()} <= machine.queue, "4: a pod waits, and isn't to be tried")
    law(all(it.is_asked for it in history.tickets.values() if it.is_past), "4: what became of a bind isn't asked")


def check_answer(history: History, line: Line, outputs: list[Output]) -> None:
    """Law 2, both ways: what is bound may be, and what isn't can't."""
    law(any(isinstance(it, Full) for it in outputs) == history.is_full(line), "4: it isn't said whether there is room to know the pod")
    said = [it for it in outputs if not isinstance(it, (Read, Full))]
    law(len(said) == isinstance(line, Cycle), "2: a cycle has one answer, and nothing else has one")
    for it in said:
        waiting, is_open = {pod.name: pod for pod in history.waiting()}, history.is_open()
        law(is_open != isinstance(it, Shut), "2: it is shut though all is heard, or not though it isn't")
        match it:
            case Idle():
                law(not waiting, "2: nothing is tried, and some wait")
            case Fails(name, uid):
                law(name in waiting and waiting[name].uid == uid, "2: what is tried may not be")
                law(not any(history.has_room(node, waiting[name]) for node in history.nodes.values()), "2: there is room, and it isn't given")
            case Bind():
                pod = waiting.get(it.name)
                law(pod is not None and pod[1:4] == (it.uid, it.version, it.asks), "2: what is bound may not be")
                law(pod is not None and history.has_room(history.nodes.get(it.node), pod), "2: a pod is bound where there is no room")


def check_cluster(server: Server) -> None:
    """Law 5: no node has more on it than it has room for. Where room may become less: than it was told to have when the bind was asked
    for that was asked for last of those that were done."""
    for node, room in server.rooms.items():
        used = server.used(node)
        if server.rules.rooms_fall:
            if node not in server.filled:
                continue
            room = server.filled[node][1]
        if not fits(NOTHING, used, room):
            raise Broken(f"5: on {node} stand {used}, and it has {room}")


def law(holds: bool, why: str) -> None:
    if not holds:
        raise Broken(why)
