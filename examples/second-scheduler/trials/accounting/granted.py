# SPDX-License-Identifier: Apache-2.0
"""What `wsched live` is told of objects, by the client's own reading of them, and how a bind ends."""
import itertools
import json

from trials.fixtures.site import Site
from trials.fixtures.store import Thing


class Told:
    """A `wsched live` that is told by a trial what a watch tells, of a node `a` of a core."""

    def __init__(self, site: Site, share: str = "1/1", has_affinity: bool = True) -> None:
        # pylint: disable=import-outside-toplevel
        from api.pages import Item
        from core import live
        from state import affinity, heard, rule_labels
        from state.share import words

        self.live, self.heard, self.item = live, heard, Item
        self.core = live.Core(live.command(site.programs.wsched, "wsched", 1, [], []), lambda: None)
        self.core.start()
        self.share, self.labels = words(share), affinity.NodeLabels()
        self.reader = heard.Reader("wsched", self.share, rule_labels.Named(), affinity.Volumes({}, {}) if has_affinity else None)
        self.versions = itertools.count(1)
        self.said("rested")
        self.lists("nodes", [self.node("a")])
        self.lists("pods", [])

    def answer(self, line: bytes) -> str:
        """What a line is answered."""
        said = list[str]()
        self.core.tell(line, said.append)
        self.core.flush()
        return said[0]

    def said(self, op: str, **fields: object) -> str:
        """What an order is answered."""
        return self.answer(self.live.order(op, **{key: json.dumps(value) for key, value in fields.items()}))

    def meta(self, name: str, **more: object) -> Thing:
        """What an object says of itself."""
        return {"name": name, "namespace": "default", "uid": name, "resourceVersion": str(next(self.versions)), **more}

    def node(self, name: str) -> Thing:
        """A node of a core, as an item of a list."""
        return {"metadata": self.meta(name), "spec": {}, "status": {"allocatable": {"cpu": "1", "memory": "8Gi", "pods": "110"}}}

    def pod(self, name: str, cpu: str, on: str = "", labels: int = 0, **spec: object) -> Thing:
        """A pod, as an event has it."""
        container = {"name": "c", "command": ["x"], "resources": {"requests": {"cpu": cpu}}}
        meta = self.meta(name, labels={f"label-{i}": "x" for i in range(labels)})
        place = {"nodeName": on} if on else {}
        whole: Thing = {"schedulerName": "wsched", "containers": [container], **place, **spec}
        return {"kind": "Pod", "metadata": meta, "spec": whole, "status": {"phase": "Pending"}}

    def lists(self, of: str, nodes: "list[Thing]") -> None:
        """A list of nodes, or of no pods, and a watch that is open behind it."""
        self.said("list", of=of)
        for it in filter(lambda it: self.share.has_node(it["metadata"]["name"]), nodes):
            line = self.heard.item_line("ADDED", "Node", self.item(it, json.dumps(it)))
            self.answer(self.heard.node_heard("ADDED", it, line, self.labels).line)
        self.said("listed", of=of)
        self.said("hears", of=of)

    def hears(self, kind: str, thing: Thing) -> str:
        """An event of the watch of pods."""
        line = json.dumps({"type": kind, "object": thing}).encode() + b"\n"
        return self.answer(self.reader.pod(kind, thing, line).line)

    def asks(self, uid: str, node: str = "a") -> str:
        """A bind is asked for: the answer, in a word where it is granted."""
        said = self.said("bind", uid=uid, node=node)
        return "granted" if said.startswith("granted ") else said

    def ticket(self, uid: str) -> int:
        """A bind is asked for: its ticket."""
        return int(self.said("bind", uid=uid, node="a").removeprefix("granted "))

    def ends(self, uid: str, ticket: int, outcome: str) -> bool:
        """A bind is answered so: whether its pod is to be read."""
        return self.answer(self.live.order("answer", uid=json.dumps(uid), ticket=str(ticket), **{"is": json.dumps(outcome)})) == "read"

    def was_read(self, uid: str, ticket: int, pod: "Thing | None") -> None:
        """What a read gave."""
        self.said("read", uid=uid, ticket=ticket, gave=pod and {"type": "MODIFIED", "object": pod})

    def end(self) -> None:
        """It has gone on until now."""
        assert self.core.end() == 0


def ledger_told(site: Site) -> str:
    """A pod counts as it is told, also one that is long, one that is longer than any line as everything on its node, and one on another
    instance's node not at all; one that waits with 40 labels, a selector and a claim is granted where a rule is told of these."""
    it = Told(site)
    it.hears("ADDED", it.pod("there", "300m", on="a"))
    it.hears("ADDED", it.pod("big", "800m"))
    claim = {"name": "v", "persistentVolumeClaim": {"claimName": "v"}}
    it.hears("ADDED", it.pod("asks", "100m", labels=40, nodeSelector={"pool": "b"}, volumes=[claim]))
    assert (it.asks("big"), it.asks("asks"), it.asks("asks"), it.asks("asks", "b")) == ("refused 6 NoRoom", "granted", "not-waiting", "not-waiting")
    # (half of its command, which counts for nothing, is too long already)
    it.hears("ADDED", it.pod("long", "500m", on="a", initContainers=[{"name": "i", "command": [600_000 * "é"]}]))
    it.hears("ADDED", it.pod("fits", "100m"))
    it.hears("ADDED", it.pod("not", "50m"))
    assert (it.asks("fits"), it.asks("not")) == ("granted", "refused 6 NoRoom")
    it.hears("DELETED", it.pod("long", "500m", on="a"))
    assert it.asks("not") == "granted"
    it.end()
    it = Told(site)
    whole = [{"name": f"{i:0100}", "whenUnsatisfiable": f"{i:0100}"} for i in range(12_000)]
    it.hears("ADDED", it.pod("waits-long", "10m", topologySpreadConstraints=whole))
    it.hears("ADDED", it.pod("small", "10m"))
    it.hears("ADDED", it.pod("other", "10m"))
    assert (it.asks("waits-long"), it.asks("small")) == ("not-waiting", "granted")
    it.hears("ADDED", it.pod("longest", "10m", on="a", topologySpreadConstraints=whole))
    assert it.asks("other") == "refused 6 NoRoom"
    it.end()
    it = Told(site, has_affinity=False)
    it.hears("ADDED", it.pod("asks", "100m", nodeSelector={"pool": "b"}))
    assert it.asks("asks") == "not-waiting"
    it.end()
    # (of two instances the first has the node `a`, and the second `d`)
    it = Told(site, "2/2")
    it.lists("nodes", [it.node("a"), it.node("d")])
    for name in ("first", "second"):
        it.hears("ADDED", it.pod(name, "900m"))
    assert it.asks("first", "a") == "refused 5 NoNode"
    it.hears("MODIFIED", it.pod("first", "900m", on="a"))
    assert (it.asks("first", "d"), it.asks("second", "d")) == ("not-waiting", "granted")
    it.end()
    return "counted as told, and granted where there is room"


def ledger_answers(site: Site) -> str:
    """A bind without a good answer is over once a read says how it ended: not before the server's time is over or it refused, and a read
    that nobody asked for ends none. One that was answered well is over once the pod is told with its node."""
    it = Told(site)
    pods = [it.pod(name, "600m") for name in ("first", "second")]
    for pod in pods:
        it.hears("ADDED", pod)
    ticket = it.ticket("first")
    it.was_read("first", ticket, pods[0])
    assert (it.asks("first"), it.asks("second")) == ("not-waiting", "refused 6 NoRoom")
    assert it.ends("first", ticket, "over") and it.asks("second") == "refused 6 NoRoom"
    it.was_read("first", ticket, pods[0])
    assert it.asks("second") == "granted" and it.asks("first") == "refused 6 NoRoom"
    # of another pod by that name, and of none, the one is gone
    for gave in (it.pod("anew", "600m"), None):
        it.hears("ADDED", it.pod("third", "100m"))
        ticket = it.ticket("third")
        assert ticket and it.ends("third", ticket, "refused")
        it.was_read("third", ticket, gave)
        assert it.asks("third") == "not-waiting"
    it.hears("ADDED", it.pod("fourth", "300m"))
    ticket = it.ticket("fourth")
    assert ticket and not it.ends("fourth", ticket, "created") and not it.ends("fourth", ticket, "over")
    it.hears("MODIFIED", it.pod("fourth", "300m", on="a"))
    it.hears("DELETED", it.pod("fourth", "300m", on="a"))
    it.hears("ADDED", it.pod("fifth", "400m"))
    assert it.asks("fifth") == "granted"
    it.said("deaf", of="pods")
    it.hears("ADDED", it.pod("sixth", "0"))
    assert it.asks("sixth") == "shut"
    it.end()
    return "each bind was over when it was known how it ended"


TRIALS = [ledger_told, ledger_answers]
