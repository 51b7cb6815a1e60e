# SPDX-License-Identifier: Apache-2.0
"""What is counted, in Prometheus' form: by kube-scheduler's names where the meaning is the same."""
from __future__ import annotations

import os

# (each counter would have a series of its own for the moment at which it was made)
os.environ.setdefault("PROMETHEUS_DISABLE_CREATED_SERIES", "True")
from prometheus_client import CollectorRegistry, Counter, Gauge, Histogram, generate_latest  # noqa: E402 pylint: disable=wrong-import-position

SECONDS = [0.001 * 2**k for k in range(15)]


class Trouble:
    """What isn't as it should be, while it is so: nothing heard, nobody answering, no room for the record, and pods that count for less."""

    def __init__(self, registry: CollectorRegistry) -> None:
        it = registry
        self.shut = Gauge("wsched_watch_shut_seconds", "For how long nothing has been heard of a kind, 0 while its watch is open.", ["kind"], registry=it)
        self.doubts = Gauge("wsched_binds_in_doubt", "Binds without a good answer, whose pods are looked up.", registry=it)
        self.unrecorded = Gauge("wsched_record_stands_still", "1 where the record can't be written.", registry=it)
        self.list_audits = Counter("wsched_list_audits_total", "Lists, each of which shows whether its watch has told of all.", registry=it)
        self.not_granted = Counter("wsched_binds_not_granted_total", "Binds that the ledger denied.", ["answer"], registry=it)
        self.full = Counter("wsched_ledger_full_total", "What the ledger had no room for.", ["kind"], registry=it)
        self.list_differences = Gauge("wsched_list_differences", "Objects of the last list that its watch should have told of.", registry=it)
        for kind in ("node", "pod"):
            self.shut.labels(kind)
            self.full.labels(kind)
        for answer in ("shut", "not-waiting", "NoNode", "NoRoom", "Full"):
            self.not_granted.labels(answer)


class Metrics:
    """Each is named for what it counts."""

    def __init__(self, scheduler: str) -> None:
        self.registry = it = CollectorRegistry()
        self.attempts = Counter("scheduler_schedule_attempts_total", "Attempts to place a pod.", ["profile", "result"], registry=it)
        self.pending = Gauge("scheduler_pending_pods", "Pods that wait for a node, inside the desk and outside.", ["queue"], registry=it)
        self.e2e = Histogram(
            "scheduler_e2e_scheduling_duration_seconds", "From a pod's turn to the end of its bind.", ["profile", "result"], buckets=SECONDS, registry=it
        )
        self.binding = Histogram("scheduler_binding_duration_seconds", "A bind, with whatever was asked about it.", buckets=SECONDS, registry=it)
        self.nodes = Gauge("wsched_nodes", "Nodes that are used.", registry=it)
        self.places = Gauge("wsched_places", "Pods with a place in the desk.", ["state"], registry=it)
        self.under_way = Gauge("wsched_binds_under_way", "Binds that have no answer yet.", registry=it)
        self.not_bound = Counter("wsched_binds_failed_total", "Binds that came to nothing.", registry=it)
        why = "Binds not asked for: pod or node have changed or are gone, or nothing is heard."
        self.not_posted = Counter("wsched_binds_not_posted_total", why, registry=it)
        self.left_out = Gauge("wsched_left_out", "Nodes that no line can say, and own pods that are left alone.", ["kind"], registry=it)
        self.unread = Gauge("wsched_pods_not_read", "Pods that have a node, and amounts that can't be read, which count as the most.", registry=it)
        self.refused = Counter("wsched_refused_for_room_total", "What the desk had no room for.", ["kind"], registry=it)
        self.aside = Gauge("wsched_nodes_without_room", "Nodes that aren't used, since the desk has no room for them or their pods.", registry=it)
        self.handed_on = Counter("wsched_handed_on_total", "Pods in the desk that became another instance's to place.", registry=it)
        self.lists = Counter("wsched_lists_total", "Whole lists.", ["kind"], registry=it)
        self.breaks = Counter("wsched_watch_failures_total", "Lists and watches that were refused or broke.", ["kind"], registry=it)
        self.untold = Counter("wsched_events_dropped_total", "Events and conditions put off: too many waited, or the API server refused.", registry=it)
        self.trouble = Trouble(it)
        self.leader = Gauge("wsched_leader", "1 where this replica schedules.", registry=it)
        for result in ("scheduled", "unschedulable", "error"):
            self.attempts.labels(scheduler, result)
        for kind in ("node", "place", "queue"):
            self.refused.labels(kind)
        for kind in ("node", "pod"):
            self.left_out.labels(kind)
            self.lists.labels(kind)
            self.breaks.labels(kind)

    def text(self) -> bytes:
        return bytes(generate_latest(self.registry))
