# SPDX-License-Identifier: Apache-2.0
"""The loop: what the cluster says is told to wsched, cycles are asked for while pods wait, and each bind that it grants is sent."""
from __future__ import annotations

import argparse
import collections
import functools
import logging
import os
import queue
import threading
import time
from typing import Any, Callable

from api.binding import Bind, Binders
from api.calls import Calls
from api.listening import Listening
from api.watch import QUIET
from core.answers import Decision, Denied, Dump, Erred, Nowhere, Placed, Shut
from core.explaining import Explaining
from core.live import MEANWHILE, PATIENCE, Core, command, order
from core.verdicts import is_of_rules, said_of_no_node
from reporting.health import Health
from reporting.itself import Itself
from reporting.metrics import Metrics
from reporting.telling import Telling
from state.affinity import NodeLabels
from state.binds import UNDER_WAY, Binds, End
from state.desk import Desk
from state.newest import Inbox, Meant, Newest
from state.pods import Pod

LOG = logging.getLogger("second-scheduler")
# How many cycles are asked for at once at most, and for how long they are, in seconds, before the
# cluster is heard again.
CYCLES, SLICE = 64, 0.1
# How many bytes are heard at most before they are told.
MUCH = 2**20
# What a unit of fuel takes on a slow machine, in seconds.
UNIT = 5e-9
# By kube-scheduler's names what a decision came to; any other is an error.
RESULTS = {Placed.word: "scheduled", Nowhere.word: "unschedulable"}
# How often it is asked how many places there are, and how often all is listed anew, in seconds: at a list's
# end it is known whether an event was lost.
COUNT, LIST = 30.0, 3600.0


class Scheduler:
    """One that schedules: `run` begins to list and watch, and goes on until `stopping` is set. `may_write` says whether no other may schedule by
    now."""

    def __init__(self, given: argparse.Namespace, calls: Calls, metrics: Metrics, health: Health, may_write: Callable[[], bool]) -> None:
        self.given, self.metrics, self.health = given, metrics, health
        self.inbox = Inbox()
        self.stopping, self.is_audit_asked = threading.Event(), False
        self.counts: collections.Counter[str] = collections.Counter()
        # how many are asked for at once now, how long the dearest took of late, and the fuel that a
        # node may take
        self.cycles, self.dearest = 1, 0.0
        self.fuel = sum(2 * int(it.split(":")[2]) for it in given.spec)
        self.began, self.last = time.monotonic(), 0.0
        self.itself = Itself(given)
        self.core = Core(words_of(given), health.beat)
        self.share = given.share
        whose = f" of share {self.share}" if self.share.count > 1 else ""
        self.whose = whose
        # up to which change of a node the main loop has heard
        self.heard = 0
        pods: dict[str, Pod] = {}
        self.newest = Newest(self.inbox, pods, lambda: self.listening.is_deaf() or not may_write())
        self.telling = Telling(calls.way, given.scheduler, given.dry_run, metrics, self.newest.waits)
        self.binds = Binds(self.core, Binders(calls, given.binders, self.newest), metrics, self.was_bound)
        labels = NodeLabels(given.settings, given.read_labels, bool(given.node_affinity))
        self.desk = Desk(self.core, self.telling, metrics, labels, pods, self.share)
        self.explaining = Explaining(self.desk.explain, self.telling, whose, given.reasons)
        self.listening = Listening(given, calls, metrics, self.newest, labels)

    def start(self) -> None:
        """Starts the child and the threads: those last that list and watch."""
        self.core.start(self.itself.record())
        # (whoever had the Lease before has nothing under way any more: `second_scheduler` has waited
        # for that)
        self.core.say(order("rested"), lambda said: None)
        self.health.watch_over(self.kill)
        self.telling.start()
        self.binds.binders.start()
        self.listening.start()
        self.health.unheard = self.listening.unheard

    def kill(self) -> None:
        """Ends what it has started. (It ends with its input too, but one that hangs.)"""
        self.core.kill()

    def may_be_followed(self) -> bool:
        """Whether nothing is under way at its end, and nothing was given up that may still be done: so the next need wait for nothing."""
        return not self.binds.there and not self.binds.is_cut_short

    # Decisions.

    def can_decide(self) -> bool:
        is_deaf = self.listening.look()
        return self.desk.has_work and not is_deaf and self.binds.under_way() < UNDER_WAY and not self.stopping.is_set()

    def ask_for_cycles(self) -> None:
        """Asks for cycles for a tenth of a second: no more at once than take about that long, be the rules quick or slow."""
        began = last = self.last = time.monotonic()
        while self.can_decide() and last - began < SLICE:
            before = self.counts["decided"]
            self.desk.changed.clear()
            for _ in range(min(self.cycles, UNDER_WAY - self.binds.under_way())):
                # (what moves behind this line isn't known to this decision)
                self.core.cycle(functools.partial(self.decided, self.desk.waiting.moves, self.heard))
            self.core.flush(functools.partial(self.hear_some, 0.0, MEANWHILE))
            now = time.monotonic()
            decided = self.counts["decided"] - before
            if decided:
                self.desk.waiting.decided(decided, now - last)
                self.dearest = max((now - last) / decided, 0.98 * self.dearest)
                self.cycles = max(1, min(2 * self.cycles, self.most_cycles(), int(SLICE / self.dearest)))
            last = now

    def most_cycles(self) -> int:
        """How many cycles may be asked for at once. They are answered together: so few that the dearest that there can be, though all
        before were cheap, are answered long before wsched is held to hang."""
        longest = self.fuel * len(self.desk.nodes) * UNIT
        return min(CYCLES, max(1, int(PATIENCE / 3 / longest))) if longest else CYCLES

    def decided(self, moved: int, known: int, decision: Decision | Denied | Shut | None) -> None:
        if decision is None or isinstance(decision, Shut):
            # (what was heard meanwhile is told next)
            self.desk.has_work = bool(self.core.waiting) and decision is None
            if decision and not self.desk.full.isdisjoint({"pod"}):
                self.metrics.trouble.not_granted.labels(decision.value).inc()
            return
        turn, self.last = self.last, time.monotonic()
        self.counts["decided"] += 1
        self.counts[decision.word] += 1
        pod = self.desk.pods.get(decision.uid)
        if isinstance(decision, Denied):
            self.denied(pod, decision)
            return
        self.metrics.attempts.labels(self.given.scheduler, RESULTS.get(decision.word, "error")).inc()
        if isinstance(decision, Placed):
            self.placed(pod, decision, known, turn)
        elif pod is None or pod.wait is None or not pod.is_told:
            # (one that has changed or went while this was decided is told anew, or no longer)
            pass
        elif isinstance(decision, Nowhere):
            is_all = self.share.has_gone_round(time.time() - pod.wait.created)
            self.desk.failed(pod, moved)
            counts = decision.counts
            self.telling.failed(pod, said_of_no_node(counts, whose=self.whose), is_of_rules=is_of_rules(counts), is_all=is_all)
        elif isinstance(decision, Erred):
            self.desk.failed(pod, -1)
            self.telling.failed(pod, f"plugin {decision.rule} says nothing of node {decision.node}: {decision.cause}", "SchedulerError")
        else:
            self.desk.failed(pod, -1)
            self.metrics.refused.labels("place").inc()
            self.telling.failed(pod, f"its place was refused: {decision.number} {decision.name}", "SchedulerError")

    def denied(self, pod: Pod | None, it: Denied) -> None:
        LOG.warning("pod %s isn't bound to %s: the ledger says: %s", pod or it.uid, it.node, it.why)
        self.metrics.trouble.not_granted.labels(it.reason).inc()
        if pod and pod.wait and pod.is_told:
            self.desk.failed(pod, -1)

    def placed(self, pod: Pod | None, it: Placed, known: int, turn: float) -> None:
        if pod is None or pod.wait is None:
            # (it went, or has a node: that is told next, and ends the bind)
            return
        is_wanted = pod.is_told and it.node not in self.desk.changed
        self.desk.placed(pod, it.node, it.ticket)
        if self.given.dry_run:
            print(f"would bind {pod} to {it.node}", flush=True)
            return
        bind = Bind(Meant(pod, self.newest.version(pod), it.node, self.newest.uid_of(it.node), known), it.ticket, turn)
        if is_wanted:
            self.binds.begin(bind)
        else:
            # (it was decided by what the pod or the node was before)
            self.binds.dont_send(bind)

    def was_bound(self, bind: Bind, how: End, is_sent: bool) -> None:
        self.counts["bound" if how is End.BOUND else "not bound"] += 1
        if not is_sent:
            self.metrics.not_posted.inc()
        else:
            self.metrics.binding.observe(bind.seconds)
        if how is End.BOUND:
            self.metrics.e2e.labels(self.given.scheduler, "scheduled").observe(time.monotonic() - bind.turn)
            self.telling.scheduled(bind.pod, bind.node)
            self.desk.bound(bind.pod)
        else:
            self.metrics.not_bound.inc()
            self.desk.not_bound(bind.pod, is_there=how is End.WAITS)
        self.desk.has_work = True

    # On and on.

    def hear(self, kind: str, word: str, what: Any) -> None:
        if kind == "heard":
            self.heard = what
        elif kind == "bind":
            self.binds.answered(what)
        elif kind == "found":
            self.binds.found(what)
        elif word in ("list", "listed", "hears", "deaf"):
            self.desk.hear_word(kind, word, what)
        else:
            self.inbox.taken(what)
            if kind == "node":
                self.desk.hear_node(what)
            else:
                self.binds.heard(what)
                self.desk.hear_pod(what)

    def hear_some(self, until: float, most: float) -> None:
        """Takes what is in the inbox, for no longer than `most` seconds, and waits for something until then."""
        end = None
        try:
            while self.core.unsent < MUCH and (end is None or time.monotonic() < end):
                self.hear(*self.inbox.get(timeout=max(0.0, until - time.monotonic())))
                until = 0.0
                end = end or time.monotonic() + most
        except queue.Empty:
            pass

    def take(self, until: float) -> None:
        self.hear_some(until, SLICE)
        self.core.flush()
        self.health.beat()

    def tick(self) -> None:
        now = time.monotonic()
        self.core.tell(order("tick", at=str(int(1000 * (now - self.began)))), lambda answer: None)
        self.core.flush()
        self.desk.has_work = True
        self.desk.try_short()
        self.itself.tell(self.desk, self.telling, self.metrics)
        it = self.metrics
        for turn, count in self.desk.waiting.pending(now).items():
            it.pending.labels(turn).set(count)
        it.nodes.set(len(self.desk.nodes))
        it.under_way.set(self.binds.under_way())
        it.left_out.labels("node").set(len(self.desk.unsaid))
        it.left_out.labels("pod").set(len(self.desk.alone))
        it.unread.set(len(self.desk.unread))
        it.aside.set(len(self.desk.aside))
        for watch in self.listening.watches:
            it.trouble.shut.labels(watch.ears.kind).set(watch.shut_for(now))

    def count_places(self, dump: Dump) -> None:
        self.metrics.places.labels("bound").set(dump.bound)
        self.metrics.places.labels("assumed").set(dump.assumed)

    def look_at_lists(self, now: float) -> None:
        """Has a kind listed anew where something had no room and may have some now, and all every hour, or as asked for by a signal."""
        is_asked, self.is_audit_asked = self.is_audit_asked, False
        for it in self.listening.told:
            began = self.desk.began.get(it.kind, now)
            if is_asked or now >= began + LIST or self.desk.wants_list(it.kind, now):
                it.again.set()

    def run(self) -> int:
        self.start()
        while self.desk.listed != {"node", "pod"} and not self.stopping.is_set():
            self.take(time.monotonic() + 0.2)
        self.health.is_listed = True
        LOG.info("%d nodes, %d pods that wait", len(self.desk.nodes), len(self.desk.pods))
        ticks = counts = time.monotonic()
        while not self.stopping.is_set():
            now = time.monotonic()
            if now >= counts or self.is_audit_asked:
                counts = now + COUNT
                self.core.dump(self.count_places)
            if now >= ticks:
                ticks = now + 1
                self.look_at_lists(now)
                self.tick()
            self.binds.tick(now)
            self.explaining.tick(len(self.desk.nodes), self.desk.waiting.cost)
            self.desk.feed(now)
            self.core.flush()
            self.ask_for_cycles()
            self.telling.tick()
            # (with more to decide, only what is there already is taken)
            until = min(ticks, self.binds.next(), now + QUIET if self.listening.is_behind else self.desk.waiting.next_wake(now))
            self.take(0.0 if self.can_decide() else until)
        return self.end()

    def end(self) -> int:
        # binds under way are waited for, so that their events and answers are told, and then the
        # events
        end = time.monotonic() + 10
        self.binds.cut_short()
        while self.binds.under_way() and time.monotonic() < end:
            self.take(time.monotonic() + 0.1)
        self.telling.end(max(0.5, end - time.monotonic()))
        self.health.beat()
        status = self.core.end()
        LOG.info("ended: %s; wsched's status %s", dict(self.counts), status)
        return status


def words_of(given: argparse.Namespace) -> list[str]:
    """By which wsched is started. Where a rule doesn't say which labels it reads, none may give way."""
    labels = None if given.read_labels.silent else sorted(given.read_labels.keys)
    return command(given.wsched, given.scheduler, given.workers, labels, given.spec)


def end_process(status: int) -> None:
    """Without waiting for threads, of which each may be in a call."""
    logging.shutdown()
    os._exit(status)
