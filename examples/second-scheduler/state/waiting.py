# SPDX-License-Identifier: Apache-2.0
"""The pods that wait for a node: which of them the desk knows, and whose turn it is.

The desk tries every pod that has failed whenever something changes, and thousands that fit nowhere would keep the new ones from their
turn. So few that have failed stay in it: of highest priority, and the oldest of these. The others wait outside and are told anew in turn,
for a part of the time that is bounded. Priorities hold among all: none that is due is passed over for one of a lower priority.
"""
from __future__ import annotations

import heapq
import itertools
from typing import Any

from state.heard import Waits
from state.pods import Pod, Turn, Wait
from state.share import ALONE, Share
from state.turns import Turns

# How many that have failed stay in the desk at most, how many it is told at once to be tried, and
# how many of higher priority besides.
KEPT, AT_ONCE, MOST = 200, 1000, 5000
# How long it may take to try all that stay, in seconds, so that fewer stay where decisions are
# dear: whatever moves has the desk try them anew, and they are older than the new ones.
ROUND = 1.0
# For how long one turn of those outside lasts, in seconds; as long a pause is behind it.
PORTION = 0.05
# The desk's own times: the first and the longest rest of a pod that has failed, and after how long
# it is tried though nothing has changed.
FIRST_REST, LONGEST_REST, FORGOTTEN = 1.0, 10.0, 300.0
OUTSIDE = (Turn.RESTING, Turn.STILL, Turn.DUE)


def wait_of(pod: Pod) -> Wait:
    assert pod.wait
    return pod.wait


class Line:
    """A heap of pods in one turn. What has gone on to another meanwhile is passed over."""

    def __init__(self, turn: Turn) -> None:
        self.turn, self.heap = turn, list[tuple[Any, int, Pod]]()

    def push(self, key: Any, pod: Pod) -> None:
        heapq.heappush(self.heap, (key, wait_of(pod).stamp, pod))

    def first(self) -> Pod | None:
        while self.heap:
            _, stamp, pod = self.heap[0]
            if pod.wait and pod.wait.stamp == stamp and pod.wait.turn == self.turn:
                return pod
            heapq.heappop(self.heap)
        return None


class Waiting:
    """All that wait. `moves` counts what may have made room."""

    def __init__(self, share: Share = ALONE) -> None:
        self.turns = Turns(share)
        self.moves = self.moved = 0
        self.of: dict[Turn, dict[Pod, None]] = {turn: {} for turn in Turn}
        self.new, self.due, self.resting = Line(Turn.NEW), Line(Turn.DUE), Line(Turn.RESTING)
        self.count = itertools.count(1)
        # seconds that a decision takes, in the mean of late
        self.cost = 0.0
        # the lowest priority that was told because it was its turn
        self.lowest_told = 0
        # those outside that have their turn, how many more may, when that began and when the next
        # may begin
        self.again: set[Pod] = set()
        self.portion, self.began, self.next_turn = 0, 0.0, 0.0

    def set(self, pod: Pod, turn: Turn | None) -> None:
        wait = wait_of(pod)
        if wait.turn:
            self.of[wait.turn].pop(pod, None)
        wait.turn, wait.stamp = turn, next(self.count)
        if turn:
            self.of[turn][pod] = None

    def in_desk(self) -> int:
        return len(self.of[Turn.TRYING]) + len(self.of[Turn.KEPT])

    def outside(self) -> int:
        return sum(len(self.of[it]) for it in OUTSIDE)

    # What becomes of a pod.

    def add(self, pod: Pod, line: bytes, heard: Waits, now: float) -> None:
        pod.wait = Wait(line, heard, next(self.count))
        if len(self.of[Turn.NEW]) >= AT_ONCE:
            pod.wait.pack()
        self.turns.begin(pod, pod.wait, now)
        if pod.wait.is_ours:
            self.make_new(pod)
        else:
            self.set(pod, Turn.AWAY)

    def make_new(self, pod: Pod) -> None:
        self.set(pod, Turn.NEW)
        self.new.push((-wait_of(pod).priority, wait_of(pod).arrival), pod)

    def take_turns(self, now: float) -> list[Pod]:
        """Of several instances that share all pods, which is to place one changes with the time. Gives those that the desk is to lose."""
        lost: list[Pod] = []
        for pod in self.turns.changed(now):
            wait = wait_of(pod)
            if not wait.is_ours:
                self.leave(pod, now)
                lost += [pod] if wait.turn in (Turn.TRYING, Turn.KEPT) else []
                self.set(pod, Turn.AWAY)
            elif wait.attempts:
                self.make_due(pod)
            else:
                self.make_new(pod)
        return lost

    def drop(self, pod: Pod, now: float) -> None:
        if pod.wait:
            self.leave(pod, now)
            self.set(pod, None)
            pod.wait = None

    def leave(self, pod: Pod, now: float) -> None:
        """Of those that have their turn, the last ends it."""
        if pod in self.again:
            self.again.discard(pod)
            if not self.again:
                self.portion, self.next_turn = 0, now + (now - self.began)

    def placed(self, pod: Pod, now: float) -> None:
        self.leave(pod, now)
        self.set(pod, Turn.BINDING)

    def failed(self, pod: Pod, moved: int, now: float) -> None:
        """It was tried, after so many moves, and is in the desk."""
        self.leave(pod, now)
        wait = wait_of(pod)
        wait.pack()
        wait.attempts, wait.moved, wait.tried = wait.attempts + 1, moved, next(self.count)
        # the part of the time that those outside take is bounded, however many and dear they are
        rest = max(min(FIRST_REST * 2 ** min(wait.attempts - 1, 10), LONGEST_REST), 2 * self.cost * self.outside())
        wait.until = now + rest
        self.set(pod, Turn.KEPT)

    def trim(self) -> list[Pod]:
        """Those that the desk is to lose, so that few of those that have failed stay in it: from now on they wait outside."""
        kept, most = self.of[Turn.KEPT], max(1, min(KEPT, int(ROUND / max(self.cost, 1e-6))))
        if len(kept) <= most:
            return []
        lost = sorted(kept, key=lambda it: (-wait_of(it).priority, wait_of(it).arrival))[most:]
        for pod in lost:
            self.rest(pod)
        return lost

    def refused(self, pod: Pod, now: float) -> None:
        """The desk has no room for it."""
        self.leave(pod, now)
        wait_of(pod).moved, wait_of(pod).until = -1, now + FIRST_REST
        self.rest(pod)

    def rest(self, pod: Pod) -> None:
        self.set(pod, Turn.RESTING)
        self.resting.push(wait_of(pod).until, pod)

    # Whose turn it is.

    def wake(self, now: float) -> None:
        while (pod := self.resting.first()) and wait_of(pod).until <= now:
            self.set(pod, Turn.STILL)
            if wait_of(pod).moved < self.moves:
                self.make_due(pod)
        still = self.of[Turn.STILL]
        if self.moved != self.moves:
            self.moved = self.moves
            for pod in [*still]:
                self.make_due(pod)
        while still and wait_of(oldest := next(iter(still))).until + FORGOTTEN <= now:
            self.make_due(oldest)

    def make_due(self, pod: Pod) -> None:
        self.set(pod, Turn.DUE)
        self.due.push((-wait_of(pod).priority, wait_of(pod).tried), pod)

    def feed(self, now: float) -> list[Pod]:
        """Those that the desk is to be told now, which are being tried from now on."""
        self.wake(now)
        told: list[Pod] = []
        new, due = self.new.first(), self.due.first()
        lowest = min((wait_of(it).priority for turn in (Turn.TRYING, Turn.KEPT) for it in self.of[turn]), default=None) if due else None
        while (new or due) and self.in_desk() < MOST:
            if due and (not new or wait_of(due).priority > wait_of(new).priority):
                pod, priority = due, wait_of(due).priority
                if not new and (lowest is None or priority <= lowest) and not self.has_portion(pod, now):
                    break
            else:
                assert new
                pod, priority = new, wait_of(new).priority
                if len(self.of[Turn.TRYING]) >= AT_ONCE and priority <= self.lowest_told:
                    break
            self.lowest_told = priority if len(self.of[Turn.TRYING]) < AT_ONCE else self.lowest_told
            self.set(pod, Turn.TRYING)
            told.append(pod)
            new, due = self.new.first(), self.due.first()
        return told

    def has_portion(self, pod: Pod, now: float) -> bool:
        """Whether one of those outside may be tried that goes before nobody."""
        if not self.again and not self.portion and now >= self.next_turn:
            self.portion, self.began = max(1, min(int(PORTION / max(self.cost, 1e-6)), AT_ONCE)), now
        if not self.portion:
            return False
        self.portion -= 1
        self.again.add(pod)
        return True

    def next_wake(self, now: float) -> float:
        """When there may be something to tell, if nothing happens before."""
        if self.due.first() and not self.again:
            return max(now, self.next_turn)
        first = self.resting.first()
        return min(wait_of(first).until if first else now + 60.0, self.turns.next())

    def decided(self, count: int, seconds: float) -> None:
        """So many decisions took so long."""
        self.cost += (seconds / count - self.cost) * min(1.0, count / 50)

    def pending(self, now: float) -> dict[str, int]:
        """How many wait, by kube-scheduler's names of its queues."""
        resting = sum(1 for it in self.of[Turn.KEPT] if wait_of(it).until > now)
        return {
            "active": sum(len(self.of[it]) for it in (Turn.NEW, Turn.TRYING, Turn.DUE)),
            "backoff": resting + len(self.of[Turn.RESTING]),
            "unschedulable": len(self.of[Turn.KEPT]) - resting + len(self.of[Turn.STILL]),
            "away": len(self.of[Turn.AWAY]),
        }
