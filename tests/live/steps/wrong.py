# SPDX-License-Identifier: Apache-2.0
"""Steps that are wrong in one thing each."""
from __future__ import annotations

from tools.steps import Line, Offered, Stage, Steps


class Kept(Steps):
    """A pod that is put aside is still one to place."""

    def aside(self, uid: str) -> None:
        pass


class UnsweptNodes(Steps):
    """A node that a list leaves out stays."""

    def left_out(self, kind: str) -> None:
        if kind == "pods":
            super().left_out(kind)


class UnsweptPods(Steps):
    """A pod that a list leaves out stays."""

    def left_out(self, kind: str) -> None:
        if kind == "nodes":
            super().left_out(kind)


class Sweeping(Steps):
    """An old word doesn't say that a list has its pod."""

    def pod(self, line: Line, is_old: bool) -> None:
        if not is_old:
            super().pod(line, is_old)


class Unforgotten(Steps):
    """A choice whose bind came to nothing isn't given back."""

    def given_back(self, uid: str) -> None:
        it = self.offered.get(uid)
        if it and it.ticket:
            it.ticket = None
        else:
            super().given_back(uid)


class Clinging(Steps):
    """Another's choice whose bind came to nothing still counts."""

    def given_back(self, uid: str) -> None:
        if uid in self.offered:
            super().given_back(uid)


class Ledgers(Steps):
    """A choice is given back by the ledger's ticket."""

    def cycle(self, answer: str) -> None:
        super().cycle(answer)
        words = answer.split(" ")
        if words[1:2] == ["on"]:
            self.offered[words[0]].ticket = int(words[-1])


class Anew(Steps):
    """A pod that is told again by the same row comes anew."""

    def offer(self, uid: str, line: Line) -> None:
        if uid in self.offered:
            self.pod_outside(uid)
        super().offer(uid, line)


class Rigid(Steps):
    """A pod keeps the row by which it came first."""

    def offer(self, uid: str, line: Line) -> None:
        if uid not in self.offered:
            super().offer(uid, line)


class Ungone(Steps):
    """A pod with another row isn't told as gone before."""

    def pod_outside(self, uid: str) -> None:
        self.offered.pop(uid, None)


class Newest(Steps):
    """A pod that was put aside isn't one to place where it is told by an old word that is the newest."""

    def pending(self, line: Line) -> None:
        if line.word != "old":
            super().pending(line)
        elif line.row and line.row["uid"] in self.pods:
            self.pods[line.row["uid"]].listed = self.lists["pods"]


class Ageless(Steps):
    """An old word of a pod is as good as a new one."""

    def pending(self, line: Line) -> None:
        assert line.row
        uid = line.row["uid"]
        known = self.pods.get(uid)
        super().pending(line)
        if known and known.stage is Stage.WAITS and line.version < known.version:
            self.offer(uid, line)


class Unasked(Steps):
    """A pod is one to place whatever its version asked for first."""

    def pending(self, line: Line) -> None:
        assert line.row
        known = self.pods.get(line.row["uid"])
        if known and known.stage is Stage.WAITS and known.version == line.version:
            known.asks = line.row["containers"][0]
        super().pending(line)


class Busy(Steps):
    """A cycle is one also where no bind may be asked for."""

    def cycle(self, answer: str) -> None:
        if answer == "shut":
            self.step("cycle")
        super().cycle(answer)


class Unbound(Steps):
    """Another's bind counts nowhere."""

    def bind(self, uid: str, node: str, ticket: int) -> None:
        self.asked(uid, node, ticket)
        self.pod_gone(uid)


class Withholding(Steps):
    """A pod that isn't to be placed any more loses a bind that is open."""

    def pod(self, line: Line, is_old: bool) -> None:
        uid = line.row["uid"] if line.row else line.object["metadata"]["uid"]
        known = self.pods.get(uid)
        super().pod(line, is_old)
        if not is_old and known and known.is_withheld:
            self.pod_gone(uid)


class Willing(Steps):
    """A pod that isn't to be placed any more is tried again once its bind came to nothing."""

    def read(self, uid: str, line: Line) -> None:
        self.pods[uid].is_withheld = False
        super().read(uid, line)


class Offering(Steps):
    """A pod that waits and isn't to be placed is still placed."""

    def gone(self, uid: str) -> None:
        known = self.pods[uid]
        if known.stage is Stage.WAITS:
            del self.pods[uid]
        else:
            super().gone(uid)


class Unmoved(Steps):
    """A read that finds the pod on a node says nothing."""

    def read(self, uid: str, line: Line) -> None:
        had = self.script
        super().read(uid, line)
        if line.op == "bound":
            self.script = had[:0]


class Timeless(Steps):
    """The clock stands."""

    def of_order(self, line: Line) -> None:
        if line.thing["op"] != "tick":
            super().of_order(line)


class Wordy(Steps):
    """What isn't taken is told all the same."""

    def node(self, line: Line, is_old: bool) -> None:
        super().node(line, False)


class Namesake(Steps):
    """A read of another pod of its name says of the pod that it waits."""

    def read(self, uid: str, line: Line) -> None:
        if line.row and line.op == "pod":
            line = line._replace(row=line.row | {"uid": uid})
        super().read(uid, line)


class Restless(Steps):
    """A pod whose bind came to nothing comes anew."""

    def given_back(self, uid: str) -> None:
        it = self.offered.get(uid)
        if it and it.ticket:
            self.pod_gone(uid)
            self.tells("pod", uid=uid, **it.row)
            self.offered[uid] = Offered(it.row)
        else:
            super().given_back(uid)


WRONG = (
    Kept, UnsweptNodes, UnsweptPods, Sweeping, Unforgotten, Clinging, Ledgers, Anew, Rigid, Ungone, Newest, Ageless, Unasked, Busy, Unbound, Withholding,
    Willing, Offering, Unmoved, Timeless, Wordy, Namesake, Restless,
)  # fmt: skip
