# SPDX-License-Identifier: Apache-2.0
"""The watches of all that is read of the cluster, and whether what they hear is new enough to decide by."""
from __future__ import annotations

import argparse
import logging
import time

from api.calls import Calls
from api.watch import PHASES, Watched
from reporting.metrics import Metrics
from state.affinity import NodeLabels
from state.claims import ClaimHearing, Claims, VolumeHearing
from state.heard import Reader
from state.hearing import NodeHearing, PodHearing
from state.newest import Newest

LOG = logging.getLogger("second-scheduler")


class Listening:
    """`is_behind` is the main loop's: whether something that happened hasn't got there, as far as it can know."""

    def __init__(self, given: argparse.Namespace, calls: Calls, metrics: Metrics, newest: Newest, labels: NodeLabels) -> None:
        self.inbox, self.watches, self.is_behind = newest.inbox, list[Watched](), True
        only = {"labelSelector": given.nodes} if given.nodes else {}
        claims = Claims(is_told=bool(given.node_affinity))
        reader = Reader(given.scheduler, given.share, given.read_labels, claims.there)
        nodes, pods = NodeHearing(metrics, newest, given.share, labels), PodHearing(metrics, newest, reader, claims)
        # those of which wsched is told
        self.told = (nodes, pods)
        if given.node_affinity:
            self.watches.append(Watched(calls, "/api/v1/persistentvolumes", VolumeHearing(claims, metrics)))
            self.watches.append(Watched(calls, "/api/v1/persistentvolumeclaims", ClaimHearing(claims, metrics)))
        self.watches.append(Watched(calls, "/api/v1/nodes", nodes, **only))
        self.watches.append(Watched(calls, "/api/v1/pods", pods, fieldSelector=PHASES))

    def start(self) -> None:
        for it in self.watches:
            it.start()

    def unheard(self) -> list[str]:
        """The kinds of which more may have happened than was heard."""
        now = time.monotonic()
        return [it.ears.kind for it in self.watches if it.is_deaf(now)]

    def is_deaf(self) -> bool:
        """Whether what was heard is older than it may be, or hasn't got to the main loop."""
        return self.is_behind or bool(self.unheard())

    def look(self) -> bool:
        """Whether nothing may be decided now. (With an empty inbox all has got to the main loop that was heard before.)"""
        unheard, was_behind = self.unheard(), self.is_behind
        self.is_behind = bool(unheard) or (was_behind and not self.inbox.empty())
        if self.is_behind and not was_behind:
            LOG.warning("nothing is decided: nothing is heard of any %s", ", of any ".join(unheard))
        elif was_behind and not self.is_behind:
            LOG.info("the cluster is heard")
        return self.is_behind
