# SPDX-License-Identifier: Apache-2.0
"""What is told of the scheduler itself: that its record stands still, or that it has no node."""
from __future__ import annotations

import argparse
import logging

from reporting.metrics import Metrics
from reporting.record import Record
from reporting.telling import Telling, about_itself
from state.desk import Desk

LOG = logging.getLogger("second-scheduler")
STILL, NONE = "RecordStandsStill", "NoNodes"


class Itself:
    """Each is told by the log, an event and a metric when it becomes so, and no more when it isn't."""

    def __init__(self, given: argparse.Namespace) -> None:
        self.given = given
        # what is to be told of the record, and whether it was told that there is no node
        self.why_still: str | None = None
        self.has_no_nodes = False

    def record(self) -> Record | None:
        if not self.given.record:
            return None
        record = Record(self.given.record, self.stands)
        LOG.info("the record is %s", record.path)
        return record

    def stands(self, why: str) -> None:
        """(in the midst of an exchange with wsched: it is told at the next tick)"""
        self.why_still = why

    def tell(self, desk: Desk, telling: Telling, metrics: Metrics) -> None:
        why, self.why_still = self.why_still, None
        if why:
            telling.warn(about_itself(self.given.lease), STILL, f"the record {self.given.record} {why}")
        elif why is not None:
            telling.done("", STILL)
        if why is not None:
            metrics.trouble.unrecorded.set(1 if why else 0)
        self.tell_nodes(not (desk.nodes or desk.aside or desk.unsaid), telling)

    def tell_nodes(self, has_none: bool, telling: Telling) -> None:
        had_none, self.has_no_nodes = self.has_no_nodes, has_none
        if has_none and not had_none:
            why = f"no node is used: none has the labels {self.given.nodes}" if self.given.nodes else "no node is used: there are none"
            LOG.warning("%s", why)
            telling.warn(about_itself(self.given.lease), NONE, why)
        elif had_none and not has_none:
            telling.done("", NONE)
