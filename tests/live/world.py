# SPDX-License-Identifier: Apache-2.0
"""A cluster in which whatever may happen happens, by a list of steps; and how it ends."""
from __future__ import annotations

from typing import NamedTuple

from laws import check_cluster, law
from lines import NOTHING, Amounts, Aside, Cycle, Offered, Tick, fits
from server import FAR
from transport import Transport, pick

PODS_NAMES, NODE_NAMES = ("a", "b", "c", "d", "e", "f"), ("m", "n")
# What pods ask for, and nodes have.
SIZES: tuple[Amounts, ...] = ((1, 1, 1), (2, 1, 1), (1, 3, 1), (3, 2, 1))
ROOMS: tuple[Amounts, ...] = ((3, 3, 1), (4, 4, 2), (6, 6, 4), (5, 9, 9))


class Step(NamedTuple):
    """One, and what it chooses by."""

    name: str
    one: int = 0
    two: int = 0


class World(Transport):
    """All steps, and what each does."""

    def do(self, step: Step) -> None:
        getattr(self, f"do_{step.name}")(step.one, step.two)
        if self.server.version != self.checked:
            self.checked = self.server.version
            check_cluster(self.server)

    checked = 0

    # The cluster's own steps.

    def do_make(self, one: int, two: int) -> None:
        """A pod that waits: ours mostly."""
        if name := pick([it for it in PODS_NAMES if it not in self.server.pods], one):
            self.server.make_pod(name, SIZES[two % 4], two // 4 % 8 != 0, two // 32 % 10 != 0)

    def do_born(self, one: int, two: int) -> None:
        """A pod that others have put on a node: on ours only before the first start, or where they may at any time."""
        name = pick([it for it in PODS_NAMES if it not in self.server.pods], one)
        if not name:
            return
        node, asks = (*NODE_NAMES, FAR)[two % 3], SIZES[two // 3 % 4]
        may = self.server.rules.others_bind or not self.lines
        if node != FAR and not (may and node in self.server.rooms and fits(asks, self.server.used(node), self.server.rooms[node])):
            node = FAR
        self.server.make_pod(name, asks, two // 12 % 4 != 0, two // 48 % 2 == 0, node)

    def do_bound(self, one: int, _: int) -> None:
        """Others bind a pod elsewhere."""
        if pod := pick([it for it in self.server.pods.values() if not it.node], one):
            self.server.set_pod(pod._replace(node=FAR))

    def do_remove(self, one: int, _: int) -> None:
        if name := pick([*self.server.pods], one):
            self.server.remove_pod(name)

    def do_again(self, one: int, two: int) -> None:
        """A pod goes, and another has its name at once."""
        if name := pick([*self.server.pods], one):
            self.server.remove_pod(name)
            self.server.make_pod(name, SIZES[two % 4], True, True)

    def do_touch(self, one: int, two: int) -> None:
        """A pod changes, in what it asks for too where it may, and in whether it is to be bound."""
        pod = pick([*self.server.pods.values()], one)
        if pod and pod.asks and not pod.node and self.server.rules.asks_grow and two % 2:
            pod = pod._replace(asks=SIZES[two // 2 % 4])
            self.server.asks[pod.uid] = SIZES[two // 2 % 4]
        if pod and not pod.node and two // 8 % 4 == 0:
            pod = pod._replace(is_ours=not pod.is_ours)
        if pod:
            self.server.set_pod(pod)

    def do_node(self, one: int, two: int) -> None:
        """A node is made, or made anew, or changes."""
        name, room = NODE_NAMES[one % 2], ROOMS[two % 4]
        had = self.server.rooms.get(name)
        if had and not self.server.rules.rooms_fall:
            room = max(had[0], room[0]), max(had[1], room[1]), max(had[2], room[2])
        self.server.set_node(name, room, two // 4 % 16 != 0, two // 64 % 2 == 0)

    def do_no_node(self, one: int, _: int) -> None:
        if name := pick([*self.server.nodes], one):
            self.server.remove_node(name)

    def do_compact(self, _: int, __: int) -> None:
        self.server.compacted = self.server.version

    def do_land(self, one: int, _: int) -> None:
        if it := pick([it for it in self.server.posts if it.became == "travels"], one):
            self.server.handle(it)

    def do_pass(self, one: int, _: int) -> None:
        self.server.pass_time(1 + one % 40)
        self.tell(Tick(self.server.now))

    def do_next(self, one: int, two: int) -> None:
        """Whatever is due of the binds and reads that are under way."""
        due = ["answer"] * any(it.is_awaited for it in self.posts.values()) + ["over", "pass"] * bool(self.lost)
        due += ["serve"] * any(not it.said for it in self.reads) + ["read"] * any(it.said for it in self.reads)
        if name := pick(due, two):
            self.do(Step(name, 39 if name == "pass" else one, two // 4))

    # What is tried.

    def do_cycle(self, one: int, two: int) -> None:
        self.tell(Cycle(one, two))

    def do_try(self, one: int, two: int) -> None:
        """What makes a bind likely: where no pod is known that waits, some are made, and all is heard; and then one is tried."""
        if not any(True for _ in self.history.waiting()):
            for it in range(1 + two % 3):
                self.do_make(one + it, two // 3)
            self.do_hear(0, 0)
        if two % 2:
            self.do_hear(1, 0)
        self.do_cycle(one, two)

    def do_aside(self, one: int, _: int) -> None:
        if word := pick([it for _, it in sorted(self.history.words.items()) if it and not it.pod.node], one):
            self.tell(Aside(word.pod.name, word.pod.uid))

    def do_offer(self, one: int, _: int) -> None:
        if word := pick([it for _, it in sorted(self.history.words.items()) if it and it.is_aside], one):
            self.tell(Offered(word.pod.name, word.pod.uid))

    def do_restart(self, _: int, __: int) -> None:
        self.notes.append(f"restart before line {len(self.lines)}")
        self.begin()

    # The end.

    def settle(self) -> None:
        """The cluster changes no more, all is heard and answered, and what can be bound is: then what is known is what there is."""
        for _ in range(12):
            bound = len(self.server.posts)
            self.hear_all()
            for ask in range(len(self.history.words)):
                self.do(Step("cycle", ask))
            if len(self.server.posts) == bound and not self.history.tickets and not self.is_left_out:
                break
        self.check_settled()

    def hear_all(self) -> None:
        for it in [it for it in self.server.posts if it.became == "travels"]:
            self.server.handle(it)
            check_cluster(self.server)
        while any(it.is_awaited for it in self.posts.values()):
            self.do(Step("answer", 0, 5))
        self.do(Step("pass", 39))
        self.do(Step("pass", 39))
        while self.lost:
            self.do(Step("over"))
        self.do(Step("past"))
        if not self.history.is_clear or self.is_left_out:
            self.is_left_out = False
            self.do(Step("list", 0))
        while self.reads:
            self.do(Step("serve"))
            self.do(Step("read"))
        for kind in range(2):
            self.do(Step("hear", kind))

    def check_settled(self) -> None:
        """Law 6."""
        law(not self.machine.opens, "6: a bind is open for ever")
        if len(self.server.pods) > self.server.rules.most:
            return
        law(not self.machine.is_shut(), "6: it is shut for ever")
        law(self.machine.pods.keys() == self.server.pods.keys(), "6: what is gone is known for ever, or what is there isn't")
        for node in self.machine.used.keys() | self.server.rooms.keys():
            counts, there = self.server.counts(node), self.server.nodes.get(node)
            law(counts == self.machine.used.get(node, NOTHING), "6: a node is thought for ever to have used what it hasn't")
            for pod in self.history.waiting():
                law(not (there and there.room and pod.asks and fits(pod.asks, counts, there.room)), "6: a pod waits for ever though there is room")
