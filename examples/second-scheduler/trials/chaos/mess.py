# SPDX-License-Identifier: Apache-2.0
"""What goes wrong in a long trial, all at once and for hours, beside a stub or a real API server: see `long_chaos`."""
import collections
import os
import random
import signal
import threading
import time
from typing import Callable, Optional

from trials.chaos.judging import SETTLED, Clock, cpu_of
from trials.chaos.sides import PRIORITIES, Side
from trials.fixtures.between import GONE, Between, Fate
from trials.fixtures.server import CUT, RESET, SILENT, Asked
from trials.fixtures.site import Scheduler, children
from trials.fixtures.store import Change, Thing

# How many pods there are at once, besides those that stand on nodes of their own: for so many seconds
# as many as have room, then more.
SOME, MANY, TURN = 90, 150, 240.0
LEASE, REST = "kube-system/wsched", "75"
STANDS, FOREIGN, STANDING = "standing-", "foreign-", "full-"
# For how long a bind may be held back, in seconds.
HOLDS = (1, 4, 20, 34, 50, 62, 70)
# How long it is between two kills, lists and the like, in seconds, in the mean and at least.
PAUSE, LEAST = float(os.environ.get("CHAOS_PAUSE", "200")), 45.0
# For how long no bind goes wrong before an end at which none is in doubt, in seconds.
CALM = 110.0
# How likely one comes at a time while a scheduler rests, or lists.
UNHEARD = 0.0004
# What the client's log says.
UNGIVEN = "didn't give the lease back"
SAID = {
    UNGIVEN: "rests", "the lease is lost": "leases lost", "the ledger says": "binds not granted", " nodes, ": "first lists", "listing anew": "lists anew",
    "Traceback": "tracebacks",
}
NOT_NOW, TOO_MANY = (503, "not now"), (429, "too many requests")


class There:
    """What there is by now, but for what stands: nodes and pods by their names."""

    def __init__(self, side: Side) -> None:
        self.side, self.seen = side, 0
        self.nodes, self.pods, self.standing = dict[str, Thing](), dict[str, Thing](), dict[str, str]()

    def follow(self) -> None:
        """Up to now."""
        for it in self.side.changes(self.seen):
            self.seen += 1
            self.hear(it)

    def hear(self, it: Change) -> None:
        """One change."""
        name = it.key.rpartition("/")[2]
        if it.kind == "pods" and name.startswith(STANDS):
            self.standing[name] = it.told["spec"]["nodeName"]
            if it.after is None:
                del self.standing[name]
            return
        if it.kind not in ("nodes", "pods") or name.startswith(STANDING):
            return
        kept = self.nodes if it.kind == "nodes" else self.pods
        kept.pop(name, None)
        if it.after:
            kept[name] = it.after

    def some(self, waits: Optional[bool] = None) -> list[str]:
        """The pods that wait, or don't."""
        return [name for name, it in self.pods.items() if waits is None or waits == ("nodeName" not in it["spec"])]


class Program:
    """The scheduler that runs, and those that ran before it."""

    def __init__(self, side: Side, words: list[str], env: dict[str, str]) -> None:
        self.side, self.env, self.many = side, env, 0
        config = side.folder / "relay.kubeconfig"
        config.write_text(side.between.kubeconfig(side.token), encoding="utf-8")
        self.words = [*words, "--kubeconfig", str(config), "--lease", LEASE, "--rest", REST]
        # how the one before ended, and the logs of those before
        self.behind, self.logs = "", list[tuple[str, str]]()
        self.it: Scheduler
        self.start("")

    def start(self, behind: str) -> None:
        """Starts one at once; says how the one before it ended."""
        if self.many:
            self.logs.append((self.behind, self.it.log()))
        self.many, self.behind = self.many + 1, behind
        self.it = Scheduler(self.side.folder, f"client-{self.many}", self.words, self.env)

    def counts(self) -> "collections.Counter[str]":
        """What the logs say."""
        counts = collections.Counter[str]()
        for behind, log in [*self.logs, (self.behind, self.it.log())]:
            if behind and " nodes, " in log:
                rested = UNGIVEN in log.partition(" nodes, ")[0]
                counts[f"{'rested' if rested else 'began at once'} behind {behind}"] += 1
            for text, what in SAID.items():
                counts[what] += log.count(text)
        return counts


class Mess:
    """What goes wrong, in a thread of its own, and what was done of each kind."""

    def __init__(self, side: Side, program: Program, clock: Clock, dice: random.Random, rooms: dict[str, int]) -> None:
        self.side, self.program, self.clock, self.dice, self.rooms = side, program, clock, dice, rooms
        self.between: Between = side.between
        self.counts, self.lock = collections.Counter[str](), threading.Lock()
        self.there, self.names = There(side), 0
        self.shut: tuple[str, ...] = ()
        self.shut_until = self.hold_next = 0.0
        # when the client is to be ended, where no bind goes wrong until then
        self.calm_until = 0.0
        self.held = threading.Event()
        self.killed, self.wrong = list[float](), list[str]()
        self.is_over, self.stop = False, threading.Event()
        self.steps: list[tuple[int, Callable[[], None]]] = [
            (240, self.come), (120, self.go), (24, self.finish), (42, self.foreign), (24, self.cordon), (30, self.uncordon), (42, self.namesake),
            (10, self.anew), (3, self.keep_back), (1, self.shut_some), (20, self.change_standing),
        ]
        self.heavy: list[Callable[[], None]] = [
            self.kill, self.kill_held, self.kill_held, self.kill_core, self.end_well, self.calm_down, self.list_anew,
            *([self.kill_server] * 2 if side.has_server else []),
        ]
        self.between.fate = self.fate

    def did(self, what: str) -> None:
        """Counts it."""
        with self.lock:
            self.counts[what] += 1

    # What becomes of requests.

    def fate(self, asked: Asked) -> Fate:
        """Refuses watches while they are shut, changes something between two pages of a list, and has binds come late or their answers lost."""
        if self.is_over:
            return Fate()
        if asked.verb == "watch" and asked.what in self.shut and time.monotonic() < self.shut_until:
            return Fate(refuse=TOO_MANY)
        if asked.verb == "list" and asked.what == "pods" and "limit" in asked.query:
            return self.page("continue" in asked.query)
        return self.of_bind() if asked.what == "pods/binding" and not self.calm_until else Fate()

    def page(self, is_further: bool) -> Fate:
        """A page of a list."""
        if not is_further:
            self.did("lists of pods")
            return Fate()
        self.did("pages behind a change")
        try:
            self.change_standing()
        except Exception as why:  # pylint: disable=broad-except
            self.did(f"not done: {type(why).__name__}")
        with self.lock:
            chance = self.dice.random()
        if chance < 0.004:
            self.did("continue tokens expired")
            return Fate(refuse=(410, "The provided continue parameter is too old to display a consistent list result."))
        return Fate()

    def of_bind(self) -> Fate:
        """A bind."""
        with self.lock:
            chance, seconds = self.dice.random(), self.dice.choice(HOLDS)
            forced, self.hold_next = self.hold_next, 0.0
        if forced:
            seconds, chance = int(forced), 0.0
            self.held.set()
        some: list[tuple[float, str, Fate]] = [
            (0.05, f"held for {seconds} s", Fate(hold=seconds)),
            (0.06, "answers lost by 504", Fate(lose="504")),
            (0.07, "answers lost by a reset", Fate(lose=RESET)),
            (0.08, "answers that never came", Fate(lose=SILENT)),
            (0.09, "reset and not done", Fate(is_cut=True)),
            (0.105, "refused with 503", Fate(refuse=NOT_NOW)),
            (0.12, "refused with 429", Fate(refuse=TOO_MANY)),
        ]
        for below, what, fate in some:
            if chance < below:
                self.did(what)
                return fate
        return Fate()

    # On and on.

    def go_on(self, end: float) -> None:
        """Until then, or until it is to stop."""
        what = [step for many, step in self.steps for _ in range(many)]
        heavy = time.monotonic() + LEAST
        queue: list[Callable[[], None]] = []
        was_heard = True
        while time.monotonic() < end and not self.stop.is_set():
            is_heard = self.between.is_heard(time.monotonic(), SETTLED)
            if self.calm_until:
                if time.monotonic() >= self.calm_until:
                    self.attempt(self.end_calm)
            elif time.monotonic() >= heavy and (is_heard or was_heard and self.dice.random() < UNHEARD):
                # (each kind as often as any other; no two in one rest)
                queue, was_heard = queue or self.dice.sample(self.heavy, len(self.heavy)), is_heard
                self.attempt(queue.pop())
                heavy = time.monotonic() + LEAST + self.dice.expovariate(1 / (PAUSE - LEAST))
            self.attempt(self.dice.choice(what))
            time.sleep(self.dice.uniform(0.03, 0.22))
            if not self.program.it.runs():
                self.wrong.append(f"client {self.program.many} ended by itself: {self.program.it.log()[-300:]}")
                self.killed.append(time.monotonic())
                self.program.start("an end by itself")
        self.is_over, self.shut = True, ()

    def attempt(self, what: Callable[[], None]) -> None:
        """Does something, if it can be done."""
        try:
            self.there.follow()
            what()
        except Exception as why:  # pylint: disable=broad-except
            # (it went meanwhile)
            self.did(f"not done: {type(why).__name__}")

    def cpu(self) -> int:
        """What a pod asks for."""
        return self.dice.randrange(100, 950, 50)

    def come(self) -> None:
        """A pod to be placed."""
        if len(self.there.pods) < (MANY if time.monotonic() % (2 * TURN) < TURN else SOME):
            self.names += 1
            self.side.make_pod(f"pod-{self.names}", self.cpu(), priority=self.dice.choice(PRIORITIES))
            self.did("pods")

    def go(self) -> None:
        """A pod goes, wherever it is."""
        self.side.delete_pod(self.dice.choice(self.there.some()))
        self.did("gone")

    def finish(self) -> None:
        """A pod that has a node ends, and goes later."""
        self.side.end_pod(self.dice.choice(self.there.some(waits=False)))
        self.did("ended")

    def foreign(self) -> None:
        """A pod of another's on a node that isn't one's own."""
        self.names += 1
        node = self.dice.choice([it for it in self.there.nodes if it not in self.rooms])
        self.side.make_pod(f"{FOREIGN}{self.names}", self.dice.randrange(100, 600, 50), node, "default-scheduler")
        self.did("foreign pods")

    def cordon(self) -> None:
        """A node is cordoned."""
        self.side.mark(self.dice.choice([*self.there.nodes]), True)
        self.did("cordons")

    def uncordon(self) -> None:
        """A node is used again."""
        self.side.mark(self.dice.choice([name for name, it in self.there.nodes.items() if it["spec"].get("unschedulable")]), False)

    def namesake(self) -> None:
        """A pod that waits goes, and another comes under its name, which asks for more."""
        name = self.dice.choice([it for it in self.there.some(waits=True) if cpu_of(self.there.pods[it]) < 2000])
        more = cpu_of(self.there.pods[name]) + self.dice.randrange(50, 350, 50)
        self.side.delete_pod(name)
        self.side.make_pod(name, more, priority=self.dice.choice(PRIORITIES))
        self.did("namesakes")

    def anew(self) -> None:
        """A node goes with its pods, and comes anew: with the same room, or another."""
        name = self.dice.choice([*self.there.nodes])
        self.side.delete_node(name)
        self.there.follow()
        for pod, it in list(self.there.pods.items()):
            if it["spec"].get("nodeName") == name:
                self.side.delete_pod(pod)
        time.sleep(0.2)
        self.side.make_node(name, 4000 if name in self.rooms else self.dice.choice([2000, 4000]), self.rooms.get(name, 110))
        self.did("nodes anew")

    def change_standing(self) -> None:
        """A pod of those that stand goes, and another comes in its place."""
        with self.lock:
            name, node = self.dice.choice([*self.there.standing.items()]) if self.there.standing else ("", "")
            self.there.standing.pop(name, None)
            self.names += 1
            number = self.names
        if name:
            self.side.delete_pod(name)
            self.side.make_pod(f"{STANDS}again-{number}", 10, node, "default-scheduler")
            self.did("standing pods changed")

    # Watches.

    def keep_back(self) -> None:
        """What happens to a kind is told later, the other's at once."""
        self.clock.keep_back(self.dice.choice(["nodes", "pods"]), self.dice.choice([0.5, 2.0, 5.0, 8.0]))
        self.did("kept back by kind")

    def shut_some(self) -> None:
        """Watches break, and those of a kind are refused for a while."""
        self.shut = self.dice.choice([("nodes",), ("pods",), ("nodes", "pods"), ()])
        self.shut_until = time.monotonic() + self.dice.choice([0.5, 3.0, 8.0])
        self.between.break_watches(self.dice.choice([RESET, CUT]))
        self.did("watches shut")

    def list_anew(self) -> None:
        """What the watches would go on from isn't there any more."""
        self.between.break_watches(GONE)
        self.did("watches gone")

    # Kills.

    def kill(self) -> None:
        """The client is killed, and a new one started at once."""
        self.did("kills of the client")
        self.killed.append(time.monotonic())
        self.program.it.end(signal.SIGKILL)
        self.program.start("a kill")

    def kill_held(self) -> None:
        """The same in the midst of a bind that is held for long."""
        self.held.clear()
        self.hold_next = self.dice.choice([34, 50, 62, 70])
        if self.held.wait(20):
            time.sleep(self.dice.uniform(0.1, 5))
            self.did("of these kills with a bind held")
            self.kill()
        self.hold_next = 0.0

    def kill_core(self) -> None:
        """`wsched live` is killed."""
        self.kill_child(self.program.it.wsched(), "kills of wsched")

    def kill_child(self, pid: int, what: str) -> None:
        """A child of the client is killed: it ends, and a new one is started at once."""
        assert pid in children(self.program.it.pid)
        self.did(what)
        self.killed.append(time.monotonic())
        os.kill(pid, signal.SIGKILL)
        status = self.program.it.wait(20)
        if not status:
            self.wrong.append(f"{what}: it ended with status {status}")
            self.program.it.end(signal.SIGKILL)
        self.program.start("a child's kill")

    def end_well(self) -> None:
        """The client is ended in good order, and a new one started."""
        self.did("good ends")
        self.killed.append(time.monotonic())
        status = self.program.it.end(patience=40)
        if status != 0:
            self.wrong.append(f"a good end has status {status}")
        self.program.start("a good end")

    def calm_down(self) -> None:
        """The same when nothing is under way, so that the Lease is given back: no bind goes wrong until then."""
        self.calm_until = time.monotonic() + CALM

    def end_calm(self) -> None:
        """And then."""
        self.calm_until = 0.0
        self.end_well()

    def kill_server(self) -> None:
        """The API server is killed, and started anew."""
        self.did("kills of the API server")
        self.side.kill_server(self.dice.choice([0.0, 3.0, 12.0]))
