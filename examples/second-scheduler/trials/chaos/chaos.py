# SPDX-License-Identifier: Apache-2.0
"""All at once, for minutes: watches shut, binds held back, answers lost, pods of others, cordons, namesakes, nodes made anew, and kills.

What is held against a bind is what its scheduler could know when it was sent: what happened later, or shortly before, is nobody's fault.
"""
import collections
import dataclasses
import os
import random
import signal
import threading
import time
from fractions import Fraction
from typing import Any, Callable, Iterator, Optional

from trials.fixtures.server import CUT, RESET, Asked
from trials.fixtures.site import Scheduler, Site
from trials.fixtures.store import Change, Thing
from trials.fixtures.watcher import quantity

# For how many minutes, and how much later than something happens a bind may be sent that doesn't
# know of it, in seconds: a watch may be shut for two.
MINUTES, MAY = float(os.environ.get("CHAOS_MINUTES", "2")), 3.0
NODES, MOST = 8, 60


class Chaos:
    """What goes wrong, in a thread of its own, and what was done of each kind."""

    def __init__(self, site: Site, seed: int) -> None:
        self.site, self.dice, self.counts = site, random.Random(seed), collections.Counter[str]()
        self.stop, self.names, self.shut_until = threading.Event(), 0, 0.0
        self.shut: tuple[str, ...] = ()
        self.lock = threading.Lock()
        self.killed: list[float] = []
        self.steps: list[tuple[int, Callable[[], None]]] = [
            (40, self.come), (14, self.go), (8, self.foreign), (4, self.cordon), (4, self.uncordon), (6, self.namesake), (2, self.anew), (4, self.shut_some),
            (1, self.kill),
        ]
        site.server.refuse = self.refuse

    def did(self, what: str) -> None:
        """Counts it."""
        with self.lock:
            self.counts[what] += 1

    def refuse(self, asked: Asked) -> Optional[tuple[int, str]]:
        """Refuses watches while they are shut, holds some binds back, and loses the answers of others."""
        if asked.verb == "watch" and asked.what in self.shut and time.monotonic() < self.shut_until:
            return 429, "too many requests"
        if asked.what != "pods/binding":
            return None
        with self.lock:
            chance, seconds = self.dice.random(), self.dice.choice([1, 4, 20, 34, 50])
        if chance < 0.04:
            self.did(f"held for {seconds} s")
            time.sleep(seconds)
        elif chance < 0.08:
            self.did("answers lost")
            self.site.server.done_without_answer(asked)
            return 504, "request did not complete within the allotted timeout"
        elif chance < 0.12:
            self.did("refused with 503")
            return 503, "not now"
        return None

    def go_on(self, seconds: float) -> None:
        """Until that is over."""
        end = time.monotonic() + seconds
        what = [step for many, step in self.steps for _ in range(many)]
        while time.monotonic() < end:
            try:
                self.dice.choice(what)()
            except Exception as why:  # pylint: disable=broad-except
                # (it went meanwhile)
                self.did(f"not done: {type(why).__name__}")
            time.sleep(self.dice.uniform(0.02, 0.2))
        self.shut = ()

    # What happens.

    def pods(self, waits: Optional[bool] = None) -> list[Thing]:
        """Those that are there."""
        return [it for it in self.site.store.all("pods") if waits is None or waits == ("nodeName" not in it["spec"])]

    def come(self) -> None:
        """A pod to be placed."""
        if len(self.pods()) < MOST:
            self.names += 1
            self.site.pod(f"pod-{self.names}", cpu=f"{self.dice.randrange(100, 900, 50)}m", memory="1Mi")
            self.did("pods")

    def go(self) -> None:
        """A pod goes, wherever it is."""
        self.site.delete_pod(self.dice.choice(self.pods())["metadata"]["name"])
        self.did("gone")

    def foreign(self) -> None:
        """A pod of another's on a node."""
        self.names += 1
        node = self.dice.choice(self.site.store.all("nodes"))["metadata"]["name"]
        self.site.pod(f"foreign-{self.names}", cpu=f"{self.dice.randrange(100, 600, 50)}m", memory="1Mi", on=node, scheduler="default-scheduler")
        self.did("foreign pods")

    def mark(self, is_marked: bool) -> None:
        """A node is cordoned, or no more."""

        def change(node: Thing) -> None:
            node["spec"]["unschedulable"] = is_marked

        self.site.store.change("nodes", self.dice.choice(self.site.store.all("nodes"))["metadata"]["name"], change)

    def cordon(self) -> None:
        """A node is cordoned."""
        self.mark(True)
        self.did("cordons")

    def uncordon(self) -> None:
        """A node is used again."""
        self.mark(False)

    def namesake(self) -> None:
        """A pod that waits goes, and another comes under its name."""
        name = self.dice.choice(self.pods(waits=True))["metadata"]["name"]
        with self.site.store.changed:
            self.site.delete_pod(name)
            self.site.pod(name, cpu=f"{self.dice.randrange(100, 900, 50)}m", memory="1Mi")
        self.did("namesakes")

    def anew(self) -> None:
        """A node goes with its pods, and comes anew with other room."""
        name = self.dice.choice(self.site.store.all("nodes"))["metadata"]["name"]
        self.site.delete_node(name)
        for it in self.pods(waits=False):
            if it["spec"]["nodeName"] == name:
                self.site.delete_pod(it["metadata"]["name"])
        time.sleep(0.2)
        self.site.node(name, cpu=self.dice.choice(["2", "4"]))
        self.did("nodes anew")

    def shut_some(self) -> None:
        """Watches break, and those of a kind are refused for a while."""
        self.shut = self.dice.choice([("nodes",), ("pods",), ("nodes", "pods"), ()])
        self.shut_until = time.monotonic() + self.dice.choice([0.5, 3.0, 8.0])
        self.site.server.break_watches(self.dice.choice([RESET, CUT, "gone"]))
        self.did("watches shut")

    def kill(self) -> None:
        """The scheduler is killed, and started again."""
        self.did("kills")
        it = self.site.schedulers.pop()
        it.end(signal.SIGKILL)
        self.killed.append(time.monotonic())
        start(self.site, f"again-{len(self.killed)}")


def start(site: Site, name: str) -> Scheduler:
    """One that schedules."""
    return site.start(*site.listening(), name=name)


# What is looked at afterwards.


@dataclasses.dataclass
class Place:
    """A pod on a node: what it takes, and when it came."""

    cpu: Fraction
    when: float


class Look:
    """The changes in their order, and what mustn't be."""

    def __init__(self, site: Site, killed: list[float]) -> None:
        self.rooms: dict[str, list[tuple[float, Fraction]]] = {}
        self.marked: dict[str, list[tuple[float, bool]]] = {}
        self.on: dict[str, dict[str, Place]] = collections.defaultdict(dict)
        self.where: dict[str, str] = {}
        self.wrong, self.bound, self.killed = list[str](), 0, killed
        self.sent = {(it.body["metadata"]["uid"], it.body["target"]["name"]): it.when for it in site.server.all("create", "pods/binding")}
        for it in site.store.since(0, kept=False):
            if it.kind == "nodes":
                self.node(it)
            elif it.kind == "pods":
                self.pod(it)

    def node(self, it: Change) -> None:
        """A node comes, changes or goes."""
        has = it.after["status"]["allocatable"]["cpu"] if it.after else "0"
        self.rooms.setdefault(it.key, []).append((it.when, quantity(has)))
        self.marked.setdefault(it.key, []).append((it.when, bool(it.after and it.after["spec"].get("unschedulable"))))

    def pod(self, it: Change) -> None:
        """A pod comes, is bound, or goes."""
        uid, node = it.told["metadata"]["uid"], (it.after or {"spec": {}})["spec"].get("nodeName")
        was = self.where.get(uid)
        if was and it.after and node != was:
            self.wrong.append(f"{it.key} moved from {was} to {node}")
        if was and node != was:
            self.on[was].pop(uid, None)
            del self.where[uid]
        if node and not was:
            self.where[uid] = node
            cpu = quantity(it.told["spec"]["containers"][0]["resources"]["requests"]["cpu"])
            self.on[node][uid] = Place(cpu, it.when)
            if it.before:
                self.bound += 1
                self.wrong += self.against(it, uid, node)

    def against(self, it: Change, uid: str, node: str) -> Iterator[str]:
        """What its scheduler could know, and the bind goes against."""
        sent = self.sent.get((uid, node))
        if sent is None:
            yield f"{it.key} was bound to {node} by nobody"
            return
        if any(sent < when < it.when for when in self.killed):
            # (one that was killed when its bind was held back leaves nobody who knows of it: to
            # those that follow it is another's pod)
            return
        known = sent - MAY
        used = sum((its.cpu for pod, its in self.on[node].items() if its.when <= known or pod == uid), Fraction(0))
        room = max(has for when, has in self.at(self.rooms[node], known, it.when))
        if used > room:
            yield f"{node} is over its room with {it.key}: {float(used)} of {float(room)}, {it.when - sent:.1f} s after that was sent"
        if all(is_marked for _, is_marked in self.at(self.marked[node], known, it.when)):
            yield f"{it.key} was bound to {node}, which was cordoned for {sent - self.marked[node][-1][0]:.1f} s when that was sent"

    @staticmethod
    def at(changes: "list[tuple[float, Any]]", since: float, until: float) -> "list[tuple[float, Any]]":
        """What was so at any time between."""
        before = [it for it in changes if it[0] <= since][-1:]
        return before + [it for it in changes if since < it[0] <= until]


def chaos(site: Site) -> str:
    """For two minutes (CHAOS_MINUTES) watches are shut, binds held back for up to 50 s, answers lost, pods of others come, nodes are cordoned and made
    anew, pods go and come under their names, and the scheduler is killed: no bind fills a node over the room that could be known, none goes to a node
    that was known to be cordoned, and no pod moves."""
    for i in range(NODES):
        site.node(f"node-{i}", cpu="4")
    site.server.tests_version = False
    it, seed = start(site, "first"), int(os.environ.get("CHAOS_SEED", time.time()))
    site.pod("before", cpu="10m")
    site.wait(lambda: site.place("before"), 30, "it binds")
    mess = Chaos(site, seed)
    mess.go_on(60 * MINUTES)
    # (what is held back has come by then, and what was in doubt is known)
    time.sleep(80)
    look = Look(site, mess.killed)
    shown = f"seed {seed}: {', '.join(f'{n} {what}' for what, n in sorted(mess.counts.items()))}; {look.bound} bound"
    assert not look.wrong, f"{len(look.wrong)} wrong: {'; '.join(look.wrong[:3])}; {shown}"
    assert look.bound > 20 * MINUTES, f"it hardly binds: {shown}"
    site.server.refuse = lambda asked: None
    site.node("roomy", cpu="64", pods=500)
    site.wait(lambda: not mess.pods(waits=True), 120, f"every pod is bound in the end: {len(mess.pods(waits=True))} wait; {it.log()[-200:]}")
    return shown


TRIALS = [chaos]
