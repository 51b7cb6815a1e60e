# SPDX-License-Identifier: Apache-2.0
"""What a plugin is told of a pod and a node: records of all versions, from rows of a script ("Script lines" and "Records" in docs/FORMATS.md)."""
from __future__ import annotations

import struct
from typing import Any, NamedTuple

from .machine import Records

Row = dict[str, Any]
_SUFFIXES = {"": 1, "k": 10**3, "M": 10**6, "G": 10**9, "T": 10**12, "Ki": 2**10, "Mi": 2**20, "Gi": 2**30, "Ti": 2**40}
_EFFECTS = {"": 0, "NoSchedule": 1, "PreferNoSchedule": 2, "NoExecute": 3}


class Size(NamedTuple):
    """CPU in thousandths of a core, memory in bytes, and pods."""

    cpu: int
    memory: int
    pods: int

    def __add__(self, other: tuple[Any, ...]) -> Size:
        return Size(*(mine + its for mine, its in zip(self, other, strict=True)))


NOTHING = Size(0, 0, 0)


def thousandths(amount: str) -> int:
    """`2`, `0.5` or `500m`."""
    if amount.endswith("m"):
        return int(amount[:-1])
    whole, _, part = amount.partition(".")
    return int(whole) * 1000 + int((part + "000")[:3])


def size_in_bytes(amount: str) -> int:
    """`1024` or `64Mi`."""
    digits = amount.rstrip("kMGTi")
    return int(digits) * _SUFFIXES[amount[len(digits):]]


def asked(row: Row) -> Size:
    """What a pod asks for as a whole, by its line `pod` or `bound`."""
    if row["op"] == "bound":
        return Size(thousandths(row["cpu"]), size_in_bytes(row["mem"]), 1)
    inits = row.get("init", [])

    def most(column: int) -> int:
        count = (thousandths, size_in_bytes)[column]
        return max(sum(count(it[column]) for it in row["containers"]), max((count(it[column]) for it in inits), default=0))
    return Size(most(0), most(1), 1)


def _text(text: str) -> bytes:
    return bytes([len(text)]) + text.encode()


def _listed(items: list[bytes]) -> bytes:
    return bytes([len(items)]) + b"".join(items)


def _labels(row: Row) -> bytes:
    def by_key(label: list[str]) -> bytes:
        return label[0].encode()
    return _listed([_text(key) + _text(value) for key, value in sorted(row.get("labels", []), key=by_key)])


def pod_records(row: Row) -> Records:
    """Of a line `pod`."""
    size = asked(row)

    def body(uid: str) -> bytes:
        return b"\1" + _text(uid) + struct.pack("<iQQ", row.get("priority", 0), size.cpu, size.memory) + _labels(row)
    tolerations = [_text(key) + bytes([2 if operator == "Exists" else 1]) + _text(value) + bytes([_EFFECTS[effect]])
                   for key, operator, value, effect in row.get("tolerations", [])]
    return {("sched", "pod"): b"\1" + body(row["uid"]), ("sched2", "pod"): b"\2" + body(row["uid"]) + _listed(tolerations),
            ("sched3", "pod"): b"\3" + body("") + _listed(tolerations)}


def node_records(row: Row, used: Size) -> Records:
    """Of a line `node`, and what the pods ask for that are placed there, without the one that is decided on."""
    def body(there: Size) -> bytes:
        return b"\2" + _text(row["name"]) + bytes([row.get("unschedulable", False)]) + struct.pack(
            "<QQIQQI", thousandths(row["cpu"]), size_in_bytes(row["mem"]), row["pods"], *there) + _labels(row)
    taints = [_text(key) + _text(value) + bytes([_EFFECTS[effect]]) for key, value, effect in row.get("taints", [])]
    return {("sched", "node"): b"\1" + body(used), ("sched2", "node"): b"\2" + body(used) + _listed(taints),
            ("sched3", "node"): b"\3" + body(NOTHING) + _listed(taints)}
