# SPDX-License-Identifier: Apache-2.0
"""What is counted, in Prometheus' form."""
from __future__ import annotations

import functools
from typing import Callable, Mapping

from prometheus_client import CollectorRegistry, Counter, Gauge, Histogram, generate_latest

from reporting.metrics import SECONDS

VERDICTS = "Verdicts of filters on nodes: that all rules pass it, or what a rule answers."
REQUEST, CORE = (
    "Seconds from a request's first byte to its answer's last.",
    "wsched's processor time, which is what rules and their fuel take.",
)


class Counting:
    """Each is named for what it counts."""

    def __init__(self) -> None:
        self.registry = it = CollectorRegistry()
        self.requests = Counter(
            "wsched_extender_requests_total",
            "Requests, and how they were answered.",
            ["verb", "result"],
            registry=it,
        )
        self.seconds = Histogram(
            "wsched_extender_request_seconds", REQUEST, ["verb"], buckets=SECONDS, registry=it
        )
        self.verdicts = Counter(
            "wsched_extender_verdicts_total", VERDICTS, ["rule", "answer"], registry=it
        )
        self.score_faults = Counter(
            "wsched_extender_score_faults_total",
            "Nodes that a prioritize gave 0 since a rule said nothing of them.",
            ["rule"],
            registry=it,
        )
        self.kept = Counter(
            "wsched_extender_kept_answers_total",
            "Requests that were answered by what was kept of the one before.",
            registry=it,
        )
        self.begun = Counter(
            "wsched_extender_begun_anew_total",
            "How often a wsched that hung or ended was begun anew.",
            registry=it,
        )
        self.lists = Counter("wsched_lists_total", "Whole lists.", ["kind"], registry=it)
        self.breaks = Counter(
            "wsched_watch_failures_total",
            "Lists and watches that were refused or broke.",
            ["kind"],
            registry=it,
        )
        self.shut = Gauge(
            "wsched_watch_shut_seconds",
            "For how long nothing has been heard of a kind, 0 while its watch is open.",
            ["kind"],
            registry=it,
        )
        self.refused = Gauge(
            "wsched_extender_lines_refused",
            "Lines of nodes and pods that wsched refused.",
            registry=it,
        )
        self.nodes = Gauge("wsched_nodes", "Nodes that wsched is told of.", registry=it)
        self.left_out = Gauge(
            "wsched_left_out", "Nodes that no line can say as they are.", ["kind"], registry=it
        )
        self.places = Gauge("wsched_places", "Pods on nodes.", ["state"], registry=it)
        self.core_seconds = Gauge("wsched_extender_core_seconds", CORE, registry=it)
        for kind in ("node", "pod"):
            self.lists.labels(kind)
            self.breaks.labels(kind)
            self.shut.labels(kind)
        for verb in ("filter", "prioritize"):
            self.seconds.labels(verb)
            for result in ("answered", "error", "refused"):
                self.requests.labels(verb, result)
        self.look: Callable[[], None] = lambda: None
        # (to look up a counter by its labels takes longer than to count)
        self.requests_of = functools.cache(self.requests.labels)
        self.seconds_of = functools.cache(self.seconds.labels)
        self.verdicts_of = functools.cache(self.verdicts.labels)

    def count(self, verdicts: Mapping[tuple[str, str], int]) -> None:
        for (rule, answer), count in verdicts.items():
            self.verdicts_of(rule, answer).inc(count)

    def answer(self, verb: str, result: str, seconds: float) -> None:
        self.requests_of(verb, result).inc()
        self.seconds_of(verb).observe(seconds)

    def text(self) -> bytes:
        self.look()
        return bytes(generate_latest(self.registry))
