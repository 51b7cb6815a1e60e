# SPDX-License-Identifier: Apache-2.0
"""A script as `wsched explain` answers it: of each decision the pod, and the nodes as they were then."""
from __future__ import annotations

import collections
import json
from typing import Iterator, NamedTuple

from .machine import Records
from .records import NOTHING, Row, Size, asked, node_records, pod_records

# An assumed place whose bind was reported done goes with the first tick so many milliseconds later.
EXPIRES = 30_000
# How many lines a dump has behind those of the nodes.
DUMP_ENDS_WITH = "clock "


class Asked(NamedTuple):
    """A pod and a node that the plugins were asked about: their records, and the words of the answer, as `total 191 fit 91 ..`."""

    pod: str
    node: str
    records: Records
    said: list[str]


class _Place(NamedTuple):
    """Where a pod is, what it asks for, and the moment at which its bind was reported done."""

    node: str
    size: Size
    done: int | None


class _State:
    """What the script's accepted lines have told so far."""

    def __init__(self) -> None:
        self.nodes: dict[str, Row] = {}
        self.pods: dict[str, Row] = {}
        self.places: dict[str, _Place] = {}
        self.clock = 0

    def used(self, node: str, without: str) -> Size:
        return sum((it.size for uid, it in self.places.items() if it.node == node and uid != without), NOTHING)

    def take(self, row: Row, answer: str) -> None:
        """An accepted line."""
        kind = row["op"]
        if kind == "node":
            self.nodes[row["name"]] = row
        elif kind == "gone":
            self.nodes.pop(row["name"], None)
        elif kind == "pod":
            self.pods[row["uid"]] = row
        elif kind == "bound":
            self.places[row["uid"]] = _Place(row["node"], asked(row), None)
        elif kind in ("deleted", "forget"):
            self.places.pop(row["uid"], None)
        elif kind == "done":
            self.places[row["uid"]] = self.places[row["uid"]]._replace(done=self.clock)
        elif kind == "tick":
            self.clock = row["at"]
            self.places = {uid: it for uid, it in self.places.items() if it.done is None or self.clock - it.done < EXPIRES}
        elif kind == "cycle" and " total " in answer:
            uid, _, node = answer.split(" ")[:3]
            self.places[uid] = _Place(node, asked(self.pods[uid]), None)


def followed(script: str, explained: str) -> Iterator[Asked]:
    """Each pod and node that plugins were asked about, in the order of the answers. What the built-in filters reject isn't among them,
    nor what was asked of the rules alone."""
    state, answers = _State(), collections.deque(explained.splitlines())
    for line in script.split("\n"):
        if not line:
            continue
        row, answer, told = json.loads(line), answers.popleft(), []
        while answer.startswith("  "):
            told.append(answer.split())
            answer = answers.popleft()
        while row["op"] == "dump" and not answer.startswith(DUMP_ENDS_WITH):
            answer = answers.popleft()
        if row["op"] == "judge":
            continue
        uid = answer.split(" ")[0]
        for node, *said in told:
            if said[0] in ("total", "plugin", "error"):
                records = {**pod_records(state.pods[uid]), **node_records(state.nodes[node], state.used(node, uid))}
                yield Asked(uid, node, records, said)
        if not answer.startswith("refused "):
            state.take(row, answer)
