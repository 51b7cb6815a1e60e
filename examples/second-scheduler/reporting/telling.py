# SPDX-License-Identifier: Apache-2.0
"""What people and other programs are told at the API server: events, and the condition PodScheduled of pods without a node.

With measure: of a pod and reason at most one write in 30 seconds; the same message is counted up by a patch, after 10 minutes and again
for as long as it lasts; and where there is more to tell than a hundred things a second, the rest waits.
"""
from __future__ import annotations

import concurrent.futures
import functools
import heapq
import itertools
import json
import logging
import queue
import threading
import time
from typing import Any, Callable

from api.calls import AWAY, Refused, message as message_of
from api.posting import Answer, Posts, Request, texts
from api.way import JSON, PATCH, Way
from reporting.metrics import Metrics
from state.pods import Pod

LOG = logging.getLogger("second-scheduler")
# Seconds between two writes of one thing, and after which the same is said again.
BETWEEN, AGAIN = 30.0, 600.0
# How many things are told in a second, and at once where little was told before: an API server has
# more to do.
RATE, BURST = 100.0, 300.0
# How many writes may wait, by how many threads those are made that are several requests, on how
# many connections, and how long a request may take, in seconds.
ROOM, WRITERS, LINES, PATIENCE = 2000, 4, 8, 10.0
# The same of what is told of pods that are bound: many may wait, and few are written at once, so
# that the API server has time for binds.
MANY, FEW = 20000, 2
Json = dict[str, Any]
Key = tuple[str, str]


class Said:
    """One thing that is told of one object, for as long as it lasts."""

    def __init__(self, about: Json, reason: str) -> None:
        self.about, self.reason = about, reason
        self.wanted = self.said = ""
        # whether the rules that rejected a pod are to be named before it is written, whether
        # somebody is finding that out, and the text that names them
        self.is_of_rules = self.is_asked = False
        self.named: str | None = None
        # as it stands there
        self.text = ""
        # how often since the last write, when that was, and when the next is due
        self.times, self.at, self.timer = 0, float("-inf"), float("inf")
        # the event that stands there, and its count
        self.event: str | None = None
        self.counted = 0
        # the reason and message of the condition: as it is to be, as it was last asked for, and as
        # it is
        self.condition: tuple[str, str] | None = None
        self.asked_condition: tuple[str, str] | None = None
        self.is_condition: tuple[str, str] | None = None
        # whether the condition alone is to be written, since it couldn't be when the event was
        self.is_rest = False

    def due(self) -> float:
        is_same = self.wanted == self.said and self.condition in (None, self.asked_condition)
        return self.at + (AGAIN if is_same else BETWEEN)


def about_pod(pod: Pod) -> Json:
    return {"apiVersion": "v1", "kind": "Pod", "namespace": pod.namespace, "name": pod.name, "uid": pod.uid}


def about_node(name: str, uid: str) -> Json:
    # (events of what has no namespace stand in `default`)
    return {"apiVersion": "v1", "kind": "Node", "namespace": "default", "name": name, "uid": uid}


def about_itself(lease: tuple[str, str] | None) -> Json:
    """What an event is of that is of the scheduler itself: the Lease of its replicas, or where there is none the namespace `default`."""
    if lease:
        return {"apiVersion": "coordination.k8s.io/v1", "kind": "Lease", "namespace": lease[0], "name": lease[1], "uid": ""}
    return {"apiVersion": "v1", "kind": "Namespace", "namespace": "default", "name": "default", "uid": ""}


@functools.lru_cache(maxsize=1)
def spelled(second: int) -> str:
    return time.strftime("%Y-%m-%dT%H:%M:%SZ", time.gmtime(second))


def stamp() -> str:
    return spelled(int(time.time()))


class Telling:
    """All that is told. Its calls are made by the main loop alone; writes are made by threads of its own. `waits` says of a pod, by its
    namespace and name and its uid, in which version it waits for a node, by the newest that was heard, and nothing where it doesn't."""

    def __init__(self, way: Way, scheduler: str, is_silent: bool, metrics: Metrics, waits: Callable[[str, str], str]) -> None:
        self.waits = waits
        self.posts, self.scheduler, self.is_silent, self.metrics = Posts(way, LINES, "events"), scheduler, is_silent, metrics
        self.writers, self.room = concurrent.futures.ThreadPoolExecutor(WRITERS, "event"), threading.Semaphore(ROOM)
        self.notes, self.many = Posts(way, FEW, "scheduled"), threading.Semaphore(MANY)
        self.things: dict[Key, Said] = {}
        self.timers: list[tuple[float, int, Key, Said]] = []
        # what is due, and whose rules aren't known yet
        self.asked: dict[Key, None] = {}
        self.unwritten: queue.SimpleQueue[tuple[Key, Said]] = queue.SimpleQueue()
        self.unconditioned: queue.SimpleQueue[tuple[Key, Said]] = queue.SimpleQueue()
        self.count = itertools.count()
        # how many things may be told now, and since when
        self.tokens, self.counted = BURST, time.monotonic()
        # when the log last told of a write that failed
        self.warned = float("-inf")

    def start(self) -> None:
        self.posts.start()
        self.notes.start()

    # What is to be told.

    def failed(
        self,
        pod: Pod,
        message: str,
        reason: str = "Unschedulable",
        known: tuple[str, str] | None = None,
        *,
        is_of_rules: bool = False,
        is_all: bool = True,
    ) -> None:
        """No node was found for the pod, or none is looked for. `known` is what its condition says already: that a pod is gated the API
        server says itself, and it stays. `is_of_rules`: a rule rejected some node, and which did is found out before it is written. Where
        not all nodes were looked at, there is an event, and no condition yet."""
        condition = known if known and known[0] == "SchedulingGated" else (reason, message)
        said = self.say(about_pod(pod), (pod.uid, "FailedScheduling"), message, condition if is_all else None)
        if said:
            said.is_of_rules = is_of_rules
            said.is_condition = said.is_condition or known

    def unexplained(self, most: int) -> list[str]:
        """Hands over the uids of pods whose event is due, and whose rules are to be found out now: of no more than may be told now."""
        some = [*itertools.islice(self.asked, min(most, int(self.tokens)))]
        for key in some:
            del self.asked[key]
        return [uid for uid, _ in some]

    def explained(self, uid: str, message: str | None) -> None:
        """A message that names the rules, or None where nothing more is known."""
        key = (uid, "FailedScheduling")
        said = self.things.get(key)
        if not said or not said.is_asked:
            return
        said.is_asked = False
        if said.is_of_rules:
            said.named = message or said.wanted
            self.set_timer(key, said, max(said.due(), time.monotonic()))

    def warn(self, about: Json, reason: str, message: str) -> None:
        self.say(about, (about["uid"], reason), message)

    def done(self, uid: str, reason: str = "FailedScheduling") -> None:
        self.things.pop((uid, reason), None)
        self.asked.pop((uid, reason), None)

    def scheduled(self, pod: Pod, node: str) -> None:
        self.once(about_pod(pod), "Normal", "Scheduled", f"Successfully assigned {pod} to {node}")

    def say(self, about: Json, key: Key, message: str, condition: tuple[str, str] | None = None) -> Said | None:
        if self.is_silent:
            return None
        said = self.things.get(key)
        if not said:
            said = self.things[key] = Said(about, key[1])
        said.wanted, said.condition = message, condition
        said.times += 1
        self.set_timer(key, said, max(said.due(), time.monotonic()))
        return said

    def set_timer(self, key: Key, said: Said, when: float) -> None:
        if when < said.timer:
            said.timer = when
            heapq.heappush(self.timers, (when, next(self.count), key, said))

    def tick(self) -> None:
        """Writes what is due."""
        now = time.monotonic()
        self.tokens, self.counted = min(BURST, self.tokens + RATE * (now - self.counted)), now
        while not self.unwritten.empty():
            key, said = self.unwritten.get()
            said.said, said.text, said.at = "", "", now
            self.set_timer(key, said, now + BETWEEN)
        while not self.unconditioned.empty():
            key, said = self.unconditioned.get()
            said.asked_condition, said.is_rest = None, True
            self.set_timer(key, said, now + BETWEEN)
        while self.timers and self.timers[0][0] <= now:
            when, _, key, said = self.timers[0]
            is_due = self.things.get(key) is said and said.timer == when
            is_unnamed = is_due and said.is_of_rules and said.named is None
            # (it is its turn once there is room)
            if is_due and not is_unnamed and (self.tokens < 1 or not self.room.acquire(blocking=False)):
                return
            heapq.heappop(self.timers)
            if is_due:
                said.timer = float("inf")
            if is_unnamed and not said.is_asked:
                said.is_asked, self.asked[key] = True, None
            elif is_due and not is_unnamed:
                self.tokens -= 1
                self.write(key, said, now)

    def write(self, key: Key, said: Said, now: float) -> None:
        message = said.named if said.is_of_rules and said.named else said.wanted
        is_same, said.text, said.named = message == said.text, message, None
        is_rest, said.is_rest = said.is_rest and is_same, False
        said.said, said.at = said.wanted, now
        # (what lasts is said again, though nothing has happened)
        said.times = max(said.times, 1)
        times, said.times = said.times, 0
        self.set_timer(key, said, now + AGAIN)
        condition = said.condition
        said.asked_condition = condition or said.asked_condition
        if condition and message != said.wanted:
            condition = condition[0], message

        def go() -> None:
            # (who may not write the one may be allowed the other)
            fault: BaseException | None = None
            try:
                if condition and condition != said.is_condition:
                    if self.patch_condition(said.about, condition, said.is_condition is None):
                        said.is_condition = condition
                    else:
                        self.unconditioned.put((key, said))
            except AWAY as why:
                fault = why
            if is_rest:
                pass
            elif not is_same or not said.event or not self.count_up(said, times):
                said.event, said.counted = self.create_event(said.about, "Warning", said.reason, message), 1
            if fault:
                raise fault

        self.submit(go, lambda: self.unwritten.put((key, said)))

    def once(self, about: Json, kind: str, reason: str, message: str) -> None:
        """What is told once, as often as pods are bound: no thread waits for its answer."""
        if self.is_silent:
            return
        if not self.many.acquire(blocking=False):
            self.metrics.untold.inc()
            return
        path, body = self.event(about, kind, reason, message)
        self.notes.send(Request("POST", path, body, JSON, PATIENCE, self.answered))

    # Writes, in threads of their own.

    def answered(self, answer: Answer) -> None:
        self.many.release()
        if not answer.is_good:
            self.failed_to_write(answer.fault)

    def failed_to_write(self, why: BaseException) -> bool:
        """False where nobody is to be told any more: the pod is gone, or another has its name and so another uid, which 409 or 422 says."""
        if getattr(why, "status", None) in (404, 409, 422):
            return False
        self.metrics.untold.inc()
        if time.monotonic() > self.warned + BETWEEN:
            self.warned = time.monotonic()
            LOG.warning("an event or a condition can't be written: %s", message_of(why))
        return True

    def submit(self, go: Callable[[], object], failed: Callable[[], None]) -> None:
        """Has it written, in the room that was acquired for it."""

        def one() -> None:
            try:
                go()
            except (*AWAY, ValueError, KeyError) as why:
                if self.failed_to_write(why):
                    failed()
            finally:
                self.room.release()

        self.writers.submit(one)

    def event(self, about: Json, kind: str, reason: str, message: str) -> tuple[str, bytes]:
        """Where it is created, and what."""
        now, meta = stamp(), {"generateName": f"{about['name']}.", "namespace": about["namespace"]}
        said = {"type": kind, "reason": reason, "message": message[:1024], "firstTimestamp": now, "lastTimestamp": now}
        parts = f'"metadata":{texts(meta)},"involvedObject":{texts(about)},"source":{texts({"component": self.scheduler})}'
        return f"/api/v1/namespaces/{about['namespace']}/events", f'{{{parts},"count":1,{texts(said)[1:]}'.encode()

    def create_event(self, about: Json, kind: str, reason: str, message: str) -> str:
        """Gives its name."""
        return str(json.loads(self.posts.ask("POST", *self.event(about, kind, reason, message)))["metadata"]["name"])

    def patch(self, path: str, body: Json) -> None:
        self.posts.ask("PATCH", f"/api/v1/namespaces/{path}", json.dumps(body).encode(), PATCH, PATIENCE)

    def count_up(self, said: Said, times: int) -> bool:
        """Counts up the event that says the same. False where it is no longer there."""
        body = {"count": said.counted + times, "lastTimestamp": stamp()}
        try:
            self.patch(f"{said.about['namespace']}/events/{said.event}", body)
        except Refused as why:
            if why.status == 404:
                return False
            raise
        said.counted += times
        return True

    def patch_condition(self, about: Json, said: tuple[str, str], is_new: bool) -> bool:
        """False where the pod doesn't wait by what is known, or is another by now: one that has a node isn't said to have none."""
        version = self.waits(f"{about['namespace']}/{about['name']}", about["uid"])
        if not version:
            return False
        condition = {"type": "PodScheduled", "status": "False", "reason": said[0], "message": said[1]}
        # (the moment is that at which the status changed, and not that of another message)
        condition |= {"lastTransitionTime": stamp()} if is_new else {}
        # (with the uid and the version: another pod of that name is refused, and so is one that was
        # bound meanwhile)
        body = {"metadata": {"uid": about["uid"], "resourceVersion": version}, "status": {"conditions": [condition]}}
        try:
            self.patch(f"{about['namespace']}/pods/{about['name']}/status", body)
        except Refused as why:
            if why.status == 409:
                return False
            raise
        return True

    def end(self, patience: float) -> None:
        """Waits until what is to be written has been, for so many seconds."""
        end = time.monotonic() + patience
        for room in [self.room] * ROOM + [self.many] * MANY:
            # (whoever has all of the room knows that nobody writes any more)
            if not room.acquire(timeout=max(0.0, end - time.monotonic())):
                return
