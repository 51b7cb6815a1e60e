# SPDX-License-Identifier: Apache-2.0
"""The steps of the desk of `wsched live`, as a script of `wsched run`: what that desk is told when a line is told, by the definitions of
crates/live_desk/specs, of which `Steps` has the names.

A line's answer says what was taken; what the answers leave open, as whether an old word of a pod offers it anew, is known by what is kept
here of each pod and node.
"""
from __future__ import annotations

import dataclasses
import enum
import json
from typing import Any, NamedTuple

Json = dict[str, Any]
# How many pods the desk has to place at most.
ROOM = 10_000
ENDED = ("Succeeded", "Failed")
spell = json.JSONEncoder(separators=(",", ":")).encode


class Line(NamedTuple):
    """A line that was told, where it can be read; the last line of its answer; and the script's line that its object gives by `translate`."""

    thing: Json
    answer: str
    row: Json | None

    @property
    def word(self) -> str:
        return self.answer.partition(" ")[0]

    @property
    def object(self) -> Json:
        """Of an event of a watch the object, of a read what it gave."""
        inner: Json | None = self.thing.get("object")
        return self.thing if inner is None else inner

    @property
    def op(self) -> str:
        """Of the script's line."""
        return str(self.row["op"]) if self.row else ""

    @property
    def version(self) -> int:
        return int(self.object["metadata"]["resourceVersion"])

    @property
    def called(self) -> str:
        """By which people know a pod."""
        meta = self.object["metadata"]
        return f"{meta.get('namespace') or 'default'}/{meta.get('name') or meta['uid']}"

    @property
    def shows_waiting(self) -> bool:
        """Whether its pod is there, and has no node."""
        if self.thing is not self.object and self.thing.get("type") == "DELETED":
            return False
        status, spec = self.object.get("status"), self.object.get("spec")
        has_ended = isinstance(status, dict) and status.get("phase") in ENDED
        return not has_ended and isinstance(spec, dict) and not spec.get("nodeName")


class Stage(enum.Enum):
    """Where a pod stands: a bind of it is open where it was asked for."""

    WAITS = enum.auto()
    ASKED = enum.auto()
    STANDS = enum.auto()


@dataclasses.dataclass
class Known:
    """What is known of a pod: as of which version, and how many lists had begun when it was told; what it asks for, until it stands; and on
    which node a bind of it was asked for."""

    version: int
    listed: int
    stage: Stage
    asks: list[str]
    node: str = ""
    is_withheld: bool = False


@dataclasses.dataclass
class Offered:
    """A pod that the desk has to place, by which row, and the desk's own ticket of a bind of it that was asked for."""

    row: Json
    ticket: int | None = None


class Steps:
    """Lines in their order, and what the desk is told of each. `amiss` counts lines that tell of binds which these answers didn't grant."""

    def __init__(self) -> None:
        self.pods: dict[str, Known] = {}
        # of each node how many lists of nodes had begun when it was told
        self.nodes: dict[str, int] = {}
        self.lists = {"pods": 0, "nodes": 0}
        self.offered: dict[str, Offered] = {}
        # the desk's last version and ticket, and of each ticket of the ledger whose bind it is
        self.version = self.tickets = 0
        self.binds: dict[int, str] = {}
        self.amiss = 0
        self.script: list[str] = []

    def of(self, line: Line) -> list[str]:
        """The script's lines of this one."""
        self.script = []
        if line.thing.get("op") == "cycle":
            self.cycle(line.answer)
        elif line.thing.get("op") == "dump" and line.word != "faulty":
            self.step("dump")
        elif line.word not in ("faulty", "full", "nothing"):
            if "op" in line.thing:
                self.of_order(line)
            else:
                self.of_object(line)
        return self.script

    # ---- the desk

    def step(self, op: str, **fields: Any) -> None:
        self.script.append(spell({"op": op, **fields}))

    def tells(self, op: str, **fields: Any) -> None:
        self.version += 1
        self.step(op, v=self.version, **fields)

    def pod_gone(self, uid: str, **more: Any) -> None:
        self.offered.pop(uid, None)
        self.tells("deleted", uid=uid, **more)

    def pod_outside(self, uid: str) -> None:
        """(what reads the script is told that the pod isn't gone)"""
        self.pod_gone(uid, outside=True)

    def pod_bound(self, uid: str, node: str, cpu: str, memory: str) -> None:
        self.offered.pop(uid, None)
        self.tells("bound", uid=uid, node=node, cpu=cpu, mem=memory)

    def offer(self, uid: str, line: Line) -> None:
        """One that the desk has by the same row stays as it is, and one by another row comes anew."""
        assert line.row
        row = {key: value for key, value in line.row.items() if key not in ("op", "v", "uid")}
        before = self.offered.get(uid)
        if before and before.row == row:
            return
        if before:
            self.pod_outside(uid)
        if len(self.offered) < ROOM:
            self.tells("pod", uid=uid, called=line.called, **row)
            if line.word != "left-out":
                self.offered[uid] = Offered(row)

    def given_back(self, uid: str) -> None:
        """A bind comes to nothing: the desk tries its own choice again, and has no other's."""
        it = self.offered.get(uid)
        if it and it.ticket:
            self.step("forget", uid=uid, ticket=it.ticket)
            it.ticket = None
        else:
            self.pod_gone(uid)

    # ---- objects

    def of_object(self, line: Line) -> None:
        is_old = line.word == "old"
        if line.op == "node":
            self.node(line, is_old)
        elif line.op == "gone":
            self.node_goes(line, is_old)
        elif line.op == "pod":
            self.pending(line)
        else:
            self.pod(line, is_old)

    def node(self, line: Line, is_old: bool) -> None:
        assert line.row
        self.nodes[line.row["name"]] = self.lists["nodes"]
        if not is_old:
            self.tells(**{key: value for key, value in line.row.items() if key != "v"})

    def node_goes(self, line: Line, is_old: bool) -> None:
        assert line.row
        if not is_old:
            self.node_gone(line.row["name"])

    def node_gone(self, name: str) -> None:
        del self.nodes[name]
        self.tells("gone", name=name)

    def pending(self, line: Line) -> None:
        """A pod waits, with its row: the desk has it to place where that is the newest that is known of it."""
        assert line.row
        uid, version, lists, (asks,) = line.row["uid"], line.version, self.lists["pods"], line.row["containers"]
        known = self.pods.setdefault(uid, Known(version, lists, Stage.WAITS, asks))
        known.listed = lists
        if version > known.version:
            known.version, known.is_withheld = version, False
            known.asks = asks if known.stage is Stage.WAITS else known.asks
        if known.stage is Stage.WAITS and (known.version, known.asks) == (version, asks):
            self.offer(uid, line)

    def pod(self, line: Line, is_old: bool) -> None:
        """A pod that stands, is gone, or waits and isn't to be placed: no line of a script says that of one that was listed."""
        uid = line.row["uid"] if line.row else line.object["metadata"]["uid"]
        known = self.pods.get(uid)
        if is_old:
            if known:
                known.listed = self.lists["pods"]
        elif line.op == "bound":
            self.stands(line, uid, self.lists["pods"])
        elif known and known.stage is not Stage.WAITS and line.shows_waiting:
            known.version, known.listed, known.is_withheld = line.version, self.lists["pods"], known.stage is Stage.ASKED
        else:
            self.gone(uid)

    def stands(self, line: Line, uid: str, listed: int) -> None:
        assert line.row
        known, node = self.pods.get(uid), line.row["node"]
        self.amiss += bool(known and known.node not in ("", node))
        self.pods[uid] = Known(line.version, listed, Stage.STANDS, [])
        self.pod_bound(uid, node, line.row["cpu"], line.row["mem"])

    def gone(self, uid: str) -> None:
        del self.pods[uid]
        self.pod_gone(uid)

    # ---- orders

    def of_order(self, line: Line) -> None:
        op, thing = line.thing["op"], line.thing
        if op == "tick":
            self.step("tick", at=thing["at"])
        elif op == "list":
            self.lists[thing["of"]] += 1
        elif op == "listed" and line.word == "told":
            self.left_out(thing["of"])
        elif op == "aside" and line.word == "told":
            self.aside(thing["uid"])
        elif op == "bind" and line.word == "granted":
            self.bind(thing["uid"], thing["node"], int(line.answer.split(" ")[1]))
        elif op in ("answer", "read"):
            self.amiss += self.binds.get(thing["ticket"]) != thing["uid"]
            if op == "read" and line.word == "told":
                self.read(thing["uid"], line._replace(thing=thing["gave"] or {}))

    def left_out(self, kind: str) -> None:
        """A list ended: what it left out goes, in the order of the names' bytes."""
        if kind == "nodes":
            for name in sorted(it for it, listed in self.nodes.items() if listed != self.lists[kind]):
                self.node_gone(name)
        else:
            for uid in sorted(it for it, known in self.pods.items() if known.listed != self.lists[kind]):
                self.gone(uid)

    def aside(self, uid: str) -> None:
        self.pod_outside(uid)

    def bind(self, uid: str, node: str, ticket: int) -> None:
        """A bind that the desk didn't choose: its pod counts where it may come to stand."""
        self.asked(uid, node, ticket)
        self.pod_bound(uid, node, *self.pods[uid].asks)

    def asked(self, uid: str, node: str, ticket: int) -> None:
        self.pods[uid].stage, self.pods[uid].node = Stage.ASKED, node
        self.binds[ticket] = uid

    def cycle(self, answer: str) -> None:
        """The desk gives each choice a ticket, also one whose bind the ledger denies, which is given back."""
        if answer == "shut":
            return
        self.step("cycle")
        words = answer.split(" ")
        if words[1::2] == ["on", "total", "ticket"]:
            self.tickets += 1
            self.asked(words[0], words[2], int(words[6]))
            self.offered[words[0]].ticket = self.tickets
        elif (words[0], *words[2:3]) == ("denied", "on"):
            self.tickets += 1
            self.step("forget", uid=words[1], ticket=self.tickets)

    def read(self, uid: str, line: Line) -> None:
        """A read settled a bind: the pod stands, or waits and is tried again, or is gone, as one is whose name another has by now."""
        known = self.pods[uid]
        of = line.row["uid"] if line.row else line.object.get("metadata", {}).get("uid")
        if of == uid and line.op == "bound":
            self.stands(line, uid, known.listed)
        elif of == uid and not known.is_withheld and (line.op == "pod" or line.shows_waiting):
            known.stage, known.node = Stage.WAITS, ""
            self.given_back(uid)
        else:
            self.gone(uid)
