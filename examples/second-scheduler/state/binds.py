# SPDX-License-Identifier: Apache-2.0
"""The binds under way, from the ledger's grant to the end that it knows.

A bind that had no good answer is over once a read says what became of the pod, by a read that the ledger asked for: at once where the bind
was refused, and where nothing says that it isn't done, once the server's time for it is over. Until then it counts on its node.
"""
from __future__ import annotations

import enum
import functools
import heapq
import itertools
import logging
import time
from typing import Callable, NamedTuple

from api.binding import Answered, Bind, Binders, Found, Outcome, node_of
from api.posting import FIRST_PAUSE
from core.answers import Said, Word
from core.live import Core, order, quoted
from reporting.metrics import Metrics
from state.heard import PodHeard, item_line, within

LOG = logging.getLogger("second-scheduler")
# How many places may wait for their bind: a decision waits for none.
UNDER_WAY = 512
# The longest pause between two reads of a pod, in seconds.
LONGEST_PAUSE = 10.0


class End(enum.Enum):
    """What a pod is whose bind has an end."""

    BOUND = "on the node"
    WAITS = "without a node"
    ELSE = "gone, or on another node"


class Doubt(NamedTuple):
    """A bind that had no good answer. `until` is up to when it may still be done, 0 where the API server said that it wasn't."""

    bind: Bind
    until: float
    pause: float = FIRST_PAUSE


class Binds:
    """`ended` is told of each that has an end: how, and whether the bind was sent."""

    def __init__(self, core: Core, binders: Binders, metrics: Metrics, ended: Callable[[Bind, End, bool], None]) -> None:
        self.core, self.binders, self.metrics, self.ended = core, binders, metrics, ended
        # those that have no end, by their pods' uids, with the outcome that is known; and the doubts of them
        self.there: dict[str, tuple[Bind, Outcome | None]] = {}
        self.doubts: dict[str, Doubt] = {}
        self.later, self.count = list[tuple[float, int, Doubt]](), itertools.count()
        # those that nobody waits for any more, though it isn't known what became of them
        self.given_up = set[str]()
        self.is_cut_short = False

    def under_way(self) -> int:
        return len(self.there) - len(self.given_up)

    def begin(self, bind: Bind) -> None:
        self.there[bind.pod.uid] = bind, None
        self.binders.bind(bind)

    def dont_send(self, bind: Bind) -> None:
        """The ledger has granted it, and it isn't wanted."""
        self.there[bind.pod.uid] = bind, None
        self.answered(Answered(bind, Outcome.UNWANTED))

    def is_this(self, bind: Bind) -> bool:
        known = self.there.get(bind.pod.uid)
        return known is not None and known[0].ticket == bind.ticket

    def answered(self, it: Answered) -> None:
        bind = it.bind
        if not self.is_this(bind):
            return
        self.there[bind.pod.uid] = bind, it.outcome
        if it.outcome is Outcome.CREATED:
            self.core.say(self.answer(bind, "created"), self.was_told)
            self.end(bind, End.BOUND)
            return
        self.metrics.trouble.doubts.inc()
        doubt = Doubt(bind, it.until)
        self.doubts[bind.pod.uid] = doubt
        if it.outcome is Outcome.LOST:
            self.put_off(doubt, it.until)
        else:
            self.ask(doubt)

    def answer(self, bind: Bind, outcome: str) -> bytes:
        return order("answer", uid=quoted(bind.pod.uid), ticket=str(bind.ticket), **{"is": quoted(outcome)})

    def was_told(self, _: Said) -> None:
        """(whether it was told before says nothing)"""

    # Doubts.

    def put_off(self, doubt: Doubt, when: float) -> None:
        heapq.heappush(self.later, (when, next(self.count), doubt))

    def tick(self, now: float) -> None:
        while self.later and self.later[0][0] <= now:
            _, _, doubt = heapq.heappop(self.later)
            if self.doubts.get(doubt.bind.pod.uid) == doubt:
                self.ask(doubt)

    def next(self) -> float:
        return self.later[0][0] if self.later else float("inf")

    def ask(self, doubt: Doubt) -> None:
        """Tells the ledger that nothing can be done of it any more."""
        outcome = "over" if doubt.until else "refused"
        self.core.say(self.answer(doubt.bind, outcome), functools.partial(self.is_to_be_read, doubt))

    def is_to_be_read(self, doubt: Doubt, said: Said) -> None:
        if said.word is Word.READ:
            self.binders.look_up(doubt.bind, is_fenced=bool(doubt.until))
        elif self.is_this(doubt.bind):
            # (its end was told meanwhile)
            self.end(doubt.bind, End.ELSE)

    def found(self, it: Found) -> None:
        doubt = self.doubts.get(it.bind.pod.uid)
        if doubt is None or not self.is_this(it.bind):
            return
        if it.is_answered:
            pod, line = it.pod, b"null"
            if pod:
                line = within("MODIFIED", pod.thing, item_line("MODIFIED", "Pod", pod))
            gave = line.decode().rstrip("\n")
            read = order("read", uid=quoted(it.bind.pod.uid), ticket=str(it.bind.ticket), gave=gave)
            self.core.say(read, functools.partial(self.was_read, it))
            return
        if it.is_hidden and it.bind.pod.uid not in self.given_up:
            LOG.error("pod %s: what became of its bind to %s can't be asked for, so it isn't tried again", it.bind.pod, it.bind.node)
            self.give_up(it.bind)
        again = doubt._replace(pause=min(2 * doubt.pause, LONGEST_PAUSE))
        self.doubts[it.bind.pod.uid] = again
        self.put_off(again, time.monotonic() + doubt.pause)

    def give_up(self, bind: Bind) -> None:
        """Nobody waits for it any more. (The right to read it may come.)"""
        self.given_up.add(bind.pod.uid)
        self.metrics.trouble.doubts.dec()
        self.metrics.not_bound.inc()

    def was_read(self, it: Found, _: Said) -> None:
        if self.is_this(it.bind):
            node = node_of(it.bind.pod, it.pod)
            self.end(it.bind, End.WAITS if node == "" else End.BOUND if node == it.bind.node else End.ELSE)

    # Ends.

    def heard(self, it: PodHeard) -> None:
        """A pod stands on a node, or went: a bind of it that had no good answer is over by that."""
        if it.uid in self.doubts and (it.is_gone or it.node):
            bind, _ = self.there[it.uid]
            self.end(bind, End.BOUND if it.node == bind.node and not it.is_gone else End.ELSE)

    def end(self, bind: Bind, how: End) -> None:
        _, outcome = self.there.pop(bind.pod.uid)
        is_known, is_given_up = self.doubts.pop(bind.pod.uid, None) is None, bind.pod.uid in self.given_up
        self.given_up.discard(bind.pod.uid)
        if not is_known and not is_given_up:
            self.metrics.trouble.doubts.dec()
        self.ended(bind, how, outcome is not Outcome.UNWANTED)

    def cut_short(self) -> None:
        """The process ends: what isn't known by now may still be done."""
        for doubt in self.doubts.values():
            self.is_cut_short = self.is_cut_short or doubt.until > 0
            self.binders.look_up(doubt.bind, is_fenced=False)
