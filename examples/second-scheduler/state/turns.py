# SPDX-License-Identifier: Apache-2.0
"""When the turn of each pod that waits begins or ends at this instance."""
from __future__ import annotations

import heapq
import itertools
import time

from state.pods import Pod, Turn, Wait
from state.share import Share

# How long a bind that is under way when its pod's turn ends is waited for at a time.
AGAIN = 1.0


class Turns:
    """When the turn of each pod that waits begins or ends here."""

    def __init__(self, share: Share) -> None:
        self.share = share
        self.heap: list[tuple[float, int, Pod, Wait]] = []
        self.count = itertools.count()

    def begin(self, pod: Pod, wait: Wait, now: float) -> None:
        """From now on it is known whose turn it is."""
        if self.share.count == 1:
            return
        wait.is_ours, left = self.share.turn(pod.uid, time.time() - wait.created)
        self.note(pod, wait, now + left)

    def note(self, pod: Pod, wait: Wait, when: float) -> None:
        heapq.heappush(self.heap, (when, next(self.count), pod, wait))

    def changed(self, now: float) -> list[Pod]:
        """The pods whose turn has begun or ended."""
        found: list[Pod] = []
        while self.heap and self.heap[0][0] <= now:
            _, _, pod, wait = heapq.heappop(self.heap)
            if pod.wait is not wait:
                continue
            if wait.turn is Turn.BINDING:
                # (what is decided stays so)
                self.note(pod, wait, now + AGAIN)
                continue
            was_ours = wait.is_ours
            self.begin(pod, wait, now)
            if wait.is_ours != was_ours:
                found.append(pod)
        return found

    def next(self) -> float:
        return self.heap[0][0] if self.heap else float("inf")
