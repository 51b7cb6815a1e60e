# SPDX-License-Identifier: Apache-2.0
"""Chaos for hours, beside the stub or a real API server, with one judge of both histories.

    CHAOS_MINUTES=120 CHAOS_SEED=1 CHAOS_PODS=20000 examples/second-scheduler/try long_chaos stub|real

What goes wrong is in `mess`: kills of the client and of its children, and of the API server; watches shut, gone and late by kind; binds held for up to
70 s, refused, reset, done without an answer; namesakes, pods of others, cordons, nodes made anew; and lists of thousands of pods in pages, with
a change between any two. What mustn't be is in `judging`.
"""
import collections
import os
import pathlib
import random
import signal
import threading
import time
import traceback
from typing import Callable, Optional

from trials.chaos.judging import Clock, Judge, cpu_of
from trials.chaos.mess import STANDING, STANDS, Mess, Program
from trials.chaos.sides import RealSide, Side, StubSide
from trials.fixtures import cluster
from trials.fixtures.between import KINDS
from trials.fixtures.site import Programs, Site

# Nodes of one's own, by how many pods they have room for; and those that others use too.
OWN = {f"own-{i}": 110 if i % 3 else 6 for i in range(6)}
SHARED = [f"shared-{i}" for i in range(4)]
# What stands: so many pods of 10m on each of these nodes, which have room for just as many.
A_NODE = 400
# How much later than it happens something is judged, in seconds: what became of a bind is noted by
# then.
BEHIND = 6.0


def minutes() -> float:
    """For how long."""
    return float(os.environ.get("CHAOS_MINUTES", "2"))


class Run:
    """One run."""

    def __init__(self, side: Side, programs: Programs) -> None:
        self.side, self.seed = side, int(os.environ.get("CHAOS_SEED", time.time()))
        stand = int(os.environ.get("CHAOS_PODS", "20000"))
        for name, pods in OWN.items():
            side.make_node(name, 4000, pods)
        for name in SHARED:
            side.make_node(name, 4000, 110)
        full = [f"{STANDING}{i}" for i in range(-(-stand // A_NODE))]
        for i, name in enumerate(full):
            many = min(A_NODE, stand - i * A_NODE)
            side.make_node(name, 10 * many, many)
        side.stand([(f"{STANDS}{i}", full[i // A_NODE]) for i in range(stand)], 10)
        env = {key: value for key, value in os.environ.items() if not key.startswith("KUBERNETES_")} | {"PYTHONDONTWRITEBYTECODE": "1"}
        words = [str(programs.client / "second_scheduler.py"), "--wsched", programs.wsched]
        self.program = Program(side, words, env)
        self.clock = Clock(side.between)
        self.mess = Mess(side, self.program, self.clock, random.Random(self.seed), OWN)
        self.judge, self.judged = Judge(self.clock, frozenset([*OWN, *full]), self.mess.killed), 0
        self.began = self.said = time.monotonic()
        self.thread: Optional[threading.Thread] = None

    def follow(self, seconds: float) -> None:
        """Judges what happens, for so long."""
        end = time.monotonic() + seconds
        while time.monotonic() < end:
            self.clock.sample()
            self.hear(time.monotonic() - BEHIND)
            if time.monotonic() >= self.said + 60:
                self.said += 60
                print(f"{(time.monotonic() - self.began) / 60:.0f} min: {self.shown()}", flush=True)
                if self.wrong():
                    self.keep()
            time.sleep(0.25)

    def hear(self, until: float) -> None:
        """Judges what happened up to then."""
        for it in self.side.changes(self.judged):
            if it.when > until:
                break
            self.judged += 1
            try:
                self.judge.hear(it)
            except (AssertionError, LookupError, ValueError, TypeError):
                # (what can't be judged isn't right either)
                self.judge.wrong.append(f"{it.key}: {traceback.format_exc()}")
        self.judge.look(until)

    def keep(self) -> None:
        """Writes what happened into a file, for who looks at what was wrong."""
        with open(self.side.folder / "history", "w", encoding="utf-8") as file:
            for it in self.side.changes(0):
                if it.kind in KINDS and STANDS not in it.key and STANDING not in it.key:
                    pod = it.told["spec"].get("nodeName"), it.told["metadata"]["uid"], (it.told.get("status") or {}).get("phase")
                    asked = cpu_of(it.told) if it.kind == "pods" else (it.told.get("status", {}).get("allocatable"), it.told["spec"])
                    print(f"{it.when:.3f} {it.version} {it.kind} {it.key} {'gone' if it.after is None else 'is'} {pod} {asked}", file=file)
            for sent in self.side.between.binds:
                print(f"{sent.sent:.3f} {sent}", file=file)
            print(f"killed {self.mess.killed}; late {self.clock.late}; {self.wrong()}", file=file)

    def wrong(self) -> list[str]:
        """What mustn't be."""
        return self.mess.wrong + self.judge.wrong

    def shown(self) -> str:
        """What was seen."""
        counts = collections.Counter(self.mess.counts) + self.judge.counts + self.program.counts()
        said = ", ".join(f"{n} {what}" for what, n in sorted(counts.items()))
        it = self.judge
        heard = 100 * self.clock.heard[-1] / max(1.0, self.clock.times[-1] - self.clock.times[0])
        said += f"; {it.latest:.0f} s the latest bind; with room the longest wait {it.longest:.0f} s, {it.longest_heard:.0f} of them heard; heard {heard:.0f} %"
        return f"seed {self.seed}, {len(it.waits)} wait, {len(self.wrong())} wrong {self.wrong()[:3]}; {said}"

    def end(self) -> None:
        """Ends the mess, and the scheduler that it has started last."""
        self.mess.stop.set()
        if self.thread:
            self.thread.join(180)
        self.program.it.end(signal.SIGKILL)

    def all(self) -> str:
        """All of it: the mess, what is under way behind it, and room for all."""
        self.thread = threading.Thread(target=self.mess.go_on, args=(time.monotonic() + 60 * minutes(),), daemon=True)
        self.thread.start()
        while self.thread.is_alive():
            self.follow(1)
        assert self.mess.is_over, f"the mess ended by a fault: {self.shown()}"
        # (what is held back has come by then, and what was in doubt is known)
        self.follow(100)
        self.side.make_node("roomy", 64000, 500)
        end = time.monotonic() + 200
        while self.judge.waits and time.monotonic() < end:
            self.follow(2)
        bound, wrong = self.judge.counts["bound"], self.wrong()
        assert not wrong, f"{len(wrong)} wrong: {'; '.join(wrong[:5])}; {self.shown()}"
        assert not self.judge.waits, f"{len(self.judge.waits)} wait though there is room: {[*self.judge.waits.values()][:5]}; {self.shown()}"
        assert bound > 5 * minutes(), f"it hardly binds: {self.shown()}"
        assert self.program.it.runs() and not self.program.counts()["tracebacks"], f"the client ended, or has a traceback: {self.shown()}"
        return self.shown()


def beside_stub(folder: pathlib.Path, programs: Programs) -> str:
    """Chaos beside the stub."""
    site = Site(folder, programs)
    side = StubSide(site)
    return ended(side, programs, site.close)


def beside_real(folder: pathlib.Path, programs: Programs) -> str:
    """Chaos beside a real API server."""
    missing = cluster.missing()
    assert not missing, f"{', '.join(missing)} isn't there"
    site = cluster.Cluster(folder, programs, audited=False)
    try:
        side = RealSide(site)
    except BaseException:
        site.end_all()
        raise
    return ended(side, programs, site.end_all)


def ended(side: Side, programs: Programs, close: Callable[[], None]) -> str:
    """A run, and the end of all that was started."""
    run = None
    try:
        run = Run(side, programs)
        return run.all()
    finally:
        if run:
            run.end()
        side.close()
        close()


RUNS: dict[str, Callable[[pathlib.Path, Programs], str]] = {"stub": beside_stub, "real": beside_real}
