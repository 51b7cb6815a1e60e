# SPDX-License-Identifier: Apache-2.0
"""The answers to kube-scheduler's requests: what is known, what the rules say of that, and how old
it is."""
from __future__ import annotations

import collections
import functools
import logging
import threading
import time
from typing import Callable, NamedTuple

from api.watch import DEAF
from core.live import CoreFault

from answers import LARGE, Counts, Filtered, Maps, Scored, Words, fault, faulty, filtered
from cores import Asking, Cores, Said, nothing
from counting import Counting
from knowing import Knowing
from questions import Bad, Question, Row, Rows, Untold, read

LOG = logging.getLogger("second-scheduler")
# Of how many questions of pods, or of kinds of pods, the answers are kept, and how often it is
# looked whether all is well, in seconds.
KEPT, LOOK = 64, 1.0
# For how long a filter and a prioritize are answered by what was said before pods came or went, in
# seconds: kube-scheduler itself has one picture of the cluster for both, and where pods are bound
# quickly the one before is told of between the two. And for how long behind a prioritize a filter
# asks for the next one's scores too.
FILTER, PRIORITIZE, AHEAD = 0.0, 1.0, 60.0
# For how long nobody may have looked, in seconds, before this process is held to do nothing.
SILENCE = 60.0
# The least seconds between two lines of the log that say the same kind of thing.
SELDOM = 10.0


class Reply(NamedTuple):
    """A status and a body; `result` is how it is counted, `age` for how many seconds nothing has
    been heard, and `then` what is done once it is sent."""

    status: int
    body: bytes
    result: str = "answered"
    age: float = 0.0
    then: Callable[[], None] = nothing


class Kept(NamedTuple):
    """What was asked, what had changed by then, of all and of nodes' rows alone, and when it was.
    """

    asking: Asking
    changes: int
    rows: int
    when: float


class Ways(NamedTuple):
    """`rejects`: a node of which nothing can be said is rejected alone. `max_stale`: for how many
    seconds nothing may have been heard. No rule that has a filter reads uids and what is used where
    `steady_filters` is set, and no rule at all where `steady` is."""

    rejects: bool
    max_stale: float | None
    steady_filters: bool
    steady: bool
    maps: Maps = Maps()


class UnderWay:
    """How many requests have come and aren't answered."""

    def __init__(self) -> None:
        self.lock, self.count = threading.Lock(), 0

    def __enter__(self) -> None:
        with self.lock:
            self.count += 1

    def __exit__(self, *_: object) -> None:
        with self.lock:
            self.count -= 1


class Unknown(Exception):
    """Too little is known to answer, and why."""


class Service:
    """Each call may come from any thread."""

    def __init__(
        self, cores: Cores, rows: Rows, words: Words, counting: Counting, ways: Ways
    ) -> None:
        self.cores, self.rows, self.words, self.counting = cores, rows, words, counting
        self.ways = ways
        self.knowing: Knowing | None = None
        self.kept: collections.OrderedDict[tuple[bool, Row], Kept] = collections.OrderedDict()
        self.looked, self.logged = time.monotonic(), dict[str, float]()
        # until when a filter asks ahead
        self.ahead = 0.0
        self.under_way, self.stopping = UnderWay(), False
        self.verbs: dict[str, Callable[[bytes], Reply]] = {
            "/filter": self.filter,
            "/prioritize": self.prioritize,
        }

    # Requests.

    def filter(self, body: bytes) -> Reply:
        try:
            asked = read(body, self.rows.kept)
            self.look_at_age()
            row = self.rows.row(asked)
            said = self.said(row, True, FILTER)
            answer = self.answered(asked, said)
        except Bad as why:
            return Reply(400, fault(str(why)), "refused")
        except (Untold, Unknown, CoreFault) as why:
            return self.no_answer(200, str(why))
        if answer.found.faults and not self.ways.rejects:
            self.counting.count(answer.found.counts)
            return self.no_answer(200, faulty(answer.found))
        then = functools.partial(self.behind, row, answer)
        return Reply(200, answer.body, "answered", self.age(), then)

    def behind(self, row: Row, answer: Filtered) -> None:
        """What is done once a filter's answer is sent."""
        self.counting.count(answer.found.counts)
        # (wsched works while kube-scheduler does, which asks about one node no more)
        if len(answer.found.passed) > 1 and time.monotonic() < self.ahead:
            self.ask_ahead(row, answer)

    def prioritize(self, body: bytes) -> Reply:
        """(it has no field for an error, and a status that is none of success has all nodes alike)
        """
        try:
            asked = read(body, self.rows.kept)
            self.look_at_age()
            self.ahead = time.monotonic() + AHEAD
            row = self.rows.row(asked)
            found = self.scored(asked, self.said(row, False, PRIORITIZE))
            self.tell_faults(found.faults)
            return Reply(200, found.body, age=self.age())
        except Bad as why:
            return Reply(400, fault(str(why)), "refused")
        except (Untold, Unknown, CoreFault) as why:
            return self.no_answer(503, str(why))

    def seldom(self, form: str, *what: object) -> None:
        """Logs."""
        now = time.monotonic()
        if now >= self.logged.get(form, -SELDOM) + SELDOM:
            self.logged[form] = now
            LOG.warning(form, *what)

    def no_answer(self, status: int, why: str) -> Reply:
        self.seldom("no answer: %s", why)
        return Reply(status, fault(f"wsched: {why}"), "error", self.age())

    def tell_faults(self, faults: Counts) -> None:
        """(a prioritize has no field for them)"""
        for (rule, cause), count in faults.items():
            self.counting.score_faults.labels(rule).inc(count)
            self.seldom("scores: rule %s says nothing of %d nodes: %s", rule, count, cause)

    def said(self, row: Row, filters_alone: bool, fresh: float) -> Said:
        """What the rules, or their filters alone, say of each node for this pod: as it was said
        before, where nothing has changed since that they read, or but for pods that came or went in
        so many seconds. Raises CoreFault."""
        with self.cores.lock:
            key = self.key(row, filters_alone)
            kept = self.good(key, fresh)
            if kept:
                self.kept.move_to_end(key)
                self.counting.kept.inc()
            else:
                kept = self.ask(key, row)
            try:
                return self.cores.heard(kept.asking)
            except CoreFault:
                del self.kept[key]
                raise

    def ask_ahead(self, row: Row, answer: Filtered) -> None:
        """Asks wsched for the scores, and has what a prioritize of the nodes that passed will be
        answered."""
        with self.cores.lock:
            key = self.key(row, False)
            kept = self.good(key, FILTER) or self.ask(key, row)
            try:
                said = self.cores.heard(kept.asking)
            except CoreFault:
                # (the prioritize tries again, and tells it)
                return
        if answer.passed:
            self.words.make_ready(answer.found.passed, answer.passed, said)

    def is_steady(self, filters_alone: bool) -> bool:
        return self.ways.steady_filters if filters_alone else self.ways.steady

    def key(self, row: Row, filters_alone: bool) -> tuple[bool, Row]:
        """Under which an answer is kept."""
        return filters_alone, row._replace(uid="") if self.is_steady(filters_alone) else row

    def good(self, key: tuple[bool, Row], fresh: float) -> Kept | None:
        """What is kept, where that is what would be said now, as far as that matters."""
        kept = self.kept.get(key)
        if not kept or kept.rows != self.cores.row_changes:
            return None
        is_same = self.is_steady(key[0]) or kept.changes == self.cores.changes
        return kept if is_same or time.monotonic() < kept.when + fresh else None

    def ask(self, key: tuple[bool, Row], row: Row) -> Kept:
        asking, now = self.cores.ask(row, key[0]), time.monotonic()
        self.kept[key] = kept = Kept(asking, self.cores.changes, self.cores.row_changes, now)
        self.kept.move_to_end(key)
        if len(self.kept) > KEPT:
            self.kept.popitem(last=False)
        return kept

    def answered(self, asked: Question, said: Said) -> Filtered:
        """What a filter is answered; as it was answered last where the same nodes were asked about,
        in whatever order, and all of them are said."""
        assert self.knowing
        last: Filtered | None = said.filtered
        if last and asked.nodes is None and asked.is_of(last.asked):
            return last
        found = self.words.sort(asked.names, said, self.knowing.nodes.unsaid)
        answer = filtered(frozenset(asked.names), found, asked.nodes, self.ways.maps)
        if asked.nodes is None and not found.strange and len(answer.body) <= LARGE:
            said.filtered = answer
        return answer

    def scored(self, asked: Question, said: Said) -> Scored:
        """What a prioritize is answered; as was made ready for the same names, where it was."""
        spelled, ready = said.scored
        answer: Scored = (
            ready
            if ready and asked.spelled and spelled == asked.spelled.names
            else self.words.scores(asked.names, said)
        )
        return answer

    # How old what is known is.

    def age(self) -> float:
        return self.knowing.age() if self.knowing else 0.0

    def look_at_age(self) -> None:
        """Raises Unknown."""
        if not self.knowing or not self.knowing.is_listed():
            raise Unknown("nodes and pods aren't listed yet")
        most = self.ways.max_stale
        if most is not None and (why := self.knowing.silence(most)):
            raise Unknown(f"{why}, and --max-stale is {most:g}")

    # Whether all is well.

    def is_live(self) -> bool:
        return time.monotonic() - self.looked < SILENCE

    def is_ready(self) -> bool:
        return not self.why_not_ready()

    def why_not_ready(self) -> str:
        if not self.is_live():
            return "nobody has looked whether all is well"
        if self.stopping:
            return "it is being ended"
        if not self.knowing or not self.knowing.is_listed():
            return "not listed yet"
        why = self.cores.why_not()
        return f"wsched isn't heard: {why}" if why else self.knowing.silence(DEAF)

    def watch_over(self) -> None:
        """In a thread of its own: what hangs or has ended is noticed though nobody asks."""
        threading.Thread(target=self.go, daemon=True, name="look").start()

    def go(self) -> None:
        unheard = ""
        while True:
            time.sleep(LOOK)
            with self.cores.lock:
                self.cores.poke()
            self.looked = time.monotonic()
            if self.knowing and self.knowing.is_listed():
                before, unheard = unheard, self.knowing.silence(DEAF)
                if unheard and not before:
                    LOG.warning("%s: answers are of what was known before", unheard)
                elif before and not unheard:
                    LOG.info("the cluster is heard")
