# SPDX-License-Identifier: Apache-2.0
"""What is heard of an object: the line that `wsched live` is told, and what the client itself goes by.

The line has the object as it came, but where that is too long to be read, or says less than it has to, as an item of a list, which says no kind.
What a pod asks of nodes' labels, and what a site's settings are, is told to rules by labels beside the object's own.
"""
from __future__ import annotations

import datetime
import json
import sys
from typing import Any, NamedTuple

from api.pages import Item, Json
from state import affinity
from state.affinity import LABELS, Asked, NodeLabels, Volumes
from state.rule_labels import KEY, Named
from state.share import Share

ENDED = ("Succeeded", "Failed")
# The most bytes of an object that is told, so that a line has room for it and an order around it: one
# of more than 2 MiB isn't read, may be a pod on a node, and shuts the ledger.
LONGEST = 2**21 - 8192
# Thousandths of a core, and bytes: more than any node has, as which that counts which can't be known
# to be less.
EVERYTHING = 2**30, 2**44
# What is long in a container, and doesn't matter to what it asks for.
OF_CONTAINERS = frozenset(["env", "envFrom", "command", "args", "volumeMounts", "livenessProbe", "readinessProbe", "startupProbe", "lifecycle"])
CONTAINERS = ("containers", "initContainers", "ephemeralContainers")
# What is told of a pod's metadata at least.
OF_POD = ("name", "namespace", "uid", "resourceVersion", "deletionTimestamp")
spell = json.JSONEncoder(separators=(",", ":"), check_circular=False, ensure_ascii=False).encode
spell_in_ascii = json.JSONEncoder(separators=(",", ":"), check_circular=False).encode


class NodeHeard(NamedTuple):
    """`mark` is one number for all that matters of the node; `labels` are its own, and `is_labelled` says that others are told beside them."""

    event: str
    name: str
    uid: str
    line: bytes
    mark: int = 0
    # whether a watch that has come so far has told of it as it is
    is_due: bool = False
    labels: Json = {}
    is_labelled: bool = False


class Waits(NamedTuple):
    """What is heard of a pod of one's own that has no node. `mark` is one number for all that matters of it."""

    priority: int
    # when it was made, by the API server's clock, in seconds
    created: float
    is_leaving: bool
    mark: int
    # the reason and the message of its condition PodScheduled, where that is False
    unscheduled: tuple[str, str] | None
    # the labels of nodes that it asks for; what isn't told of those, and why nothing of it is, where
    # that is known here
    keys: frozenset[str] = frozenset()
    left_out: tuple[str, ...] = ()
    why: tuple[str, ...] = ()


class PodHeard(NamedTuple):
    """`is_gone`: it takes nothing of a node of one's own, and never will. `is_news`: that it stands on its node may not have been told before."""

    event: str
    uid: str
    namespace: str
    name: str
    version: str
    node: str
    line: bytes
    is_gone: bool
    is_news: bool
    is_due: bool = False
    # whether its line stands for it, as it is too long itself
    is_stand_in: bool = False
    waits: Waits | None = None

    @property
    def key(self) -> str:
        return f"{self.namespace}/{self.name}"


class Own(NamedTuple):
    """What a pod asks of nodes' labels, those of its own that are told of it, and those that gave way."""

    asks: Asked = Asked()
    labels: Json = {}
    gone: tuple[str, ...] = ()


def line_of(thing: Json) -> bytes:
    """An object as a line. (A text that is half of a character, which no API server tells, has no bytes of its own.)"""
    try:
        return spell(thing).encode() + b"\n"
    except UnicodeEncodeError:
        return spell_in_ascii(thing).encode() + b"\n"


def event_line(event: str, thing: Json) -> bytes:
    return line_of({"type": event, "object": thing})


def item_line(event: str, kind: str, item: Item) -> bytes:
    """An item of a list, which says no kind, or an object, as an event."""
    if "\n" in item.text or not item.text.startswith('{"'):
        return event_line(event, {**item.thing, "kind": kind})
    its = "" if "kind" in item.thing else f'"kind":"{kind}",'
    return f'{{"type":"{event}","object":{{{its}{item.text[1:]}}}\n'.encode()


def beside(line: bytes, labels: Json) -> bytes:
    """What a line tells, with these labels beside the object's own."""
    return b'{"op":"told","event":' + line.rstrip(b"\n") + b',"labels":' + spell(labels).encode() + b"}\n"


def is_due(meta: Json, came: int) -> bool:
    """Whether a watch that has come to this version has told of the object as it is."""
    version = meta.get("resourceVersion") or ""
    return version.isdecimal() and int(version) <= came


# Nodes.


def node_heard(event: str, node: Json, line: bytes, labels: NodeLabels, came: int = 0) -> NodeHeard:
    meta = node["metadata"]
    name, has = sys.intern(meta["name"]), meta.get("labels") or {}
    short: Json = {"kind": "Node", "metadata": {key: meta[key] for key in ("name", "resourceVersion") if key in meta}}
    allocatable, spec = (node.get("status") or {}).get("allocatable"), node.get("spec") or {}
    told: Json = {**short, "spec": {key: spec[key] for key in ("taints", "unschedulable") if key in spec}, "status": {"allocatable": allocatable}}
    mark = hash(spell([told["spec"], allocatable, has]))
    if len(line) > LONGEST:
        line = event_line(event, {**told, "metadata": {**short["metadata"], "labels": has}})
        # (one that can't be read isn't used)
        line = line if len(line) <= LONGEST else event_line("DELETED", short)
    return NodeHeard(event, name, meta.get("uid") or name, line, mark, is_due(meta, came), has, labels.are_told(has))


def node_line(it: NodeHeard, labels: NodeLabels) -> bytes | str:
    """Its line as it is to be told now: of many labels those stay that are asked for. Or why there is none: one would give way that a rule may read."""
    if not it.is_labelled or it.event == "DELETED":
        return it.line
    return labels.why_not([key for key in it.labels if KEY.fullmatch(key)]) or beside(it.line, labels.beside(it.labels))


def node_gone(name: str) -> bytes:
    """That it isn't used."""
    return event_line("DELETED", {"kind": "Node", "metadata": {"name": name, "resourceVersion": "1"}})


# Pods.


class Reader:
    """Reads pods as they are heard, for a scheduler's name. `there` is None where no rule is asked about selectors, affinity and volumes."""

    def __init__(self, scheduler: str, share: Share, named: Named, there: Volumes | None) -> None:
        self.scheduler, self.share, self.named, self.there = scheduler, share, named, there

    def pod(self, event: str, pod: Json, line: bytes, came: int = 0) -> PodHeard:
        """A pod on another instance's node is gone: no bind from here can be done to it any more."""
        meta, spec, status = pod["metadata"], pod["spec"], pod.get("status") or {}
        who = meta["uid"], sys.intern(meta["namespace"]), meta["name"], meta.get("resourceVersion") or ""
        node = sys.intern(spec.get("nodeName") or "")
        if event == "DELETED" or status.get("phase") in ENDED:
            return PodHeard(event, *who, node, within(event, pod, line), True, False)
        if node and not self.share.has_node(node):
            return PodHeard(event, *who, node, event_line("DELETED", {"kind": "Pod", "metadata": named_by(pod)}), True, False)
        due = is_due(meta, came)
        if node:
            # (a kubelet that has it says when it began)
            told = within(event, pod, line)
            return PodHeard(event, *who, node, told, False, event == "ADDED" or not status.get("startTime"), due, told.endswith(STANDS_IN))
        if (spec.get("schedulerName") or "default-scheduler") != self.scheduler:
            return PodHeard(event, *who, "", within(event, pod, line), False, False, due)
        asks = affinity.asked(pod, self.there) if self.there else Asked()
        told = within(event, pod, line)
        if self.there is not None and asks_of_nodes(pod):
            told = beside(told, dict(asks.entries))
        return PodHeard(event, *who, "", told, False, False, due, waits=waits_of(pod, with_labels(pod, asks, self.named).asks))


def waits_of(pod: Json, asks: Asked) -> Waits:
    meta, spec = pod["metadata"], pod["spec"]
    is_leaving = bool(meta.get("deletionTimestamp"))
    mark = hash(spell([spec, meta.get("labels"), is_leaving, asks.entries, asks.why]))
    priority = spec.get("priority") or 0
    return Waits(priority, created_at(meta), is_leaving, mark, unscheduled(pod), asks.keys, asks.left_out, asks.why)


def with_labels(pod: Json, asks: Asked, named: Named) -> Own:
    """Which of its labels are told of a pod that waits. Those that no row can say at all no rule can read."""
    labels = {} if pod["spec"].get("nodeName") else pod["metadata"].get("labels") or {}
    room = LABELS - len(asks.entries)
    if len(labels) <= room:
        return Own(asks, labels)
    can = sorted(it for it in labels if KEY.fullmatch(it))
    chosen = named.chosen(can, room)
    if not chosen:
        return Own(asks._replace(why=(*asks.why, named.why(len(can), room, can[room:]))))
    told, gone = chosen
    gone = sorted([*gone, *(labels.keys() - set(can))])
    return Own(asks, {it: labels[it] for it in told}, tuple(f"label {it}" for it in gone))


def within(event: str, pod: Json, line: bytes) -> bytes:
    """Its line, or where that is too long, one without what counts for nothing; or one that counts as everything on its node, or isn't to be bound."""
    if len(line) <= LONGEST:
        return line
    told = event_line(event, cut(pod))
    return told if len(told) <= LONGEST else event_line(event, stand_in(pod))


def named_by(pod: Json) -> Json:
    return {key: pod["metadata"][key] for key in OF_POD if key in pod["metadata"]}


def asks_of_nodes(pod: Json) -> bool:
    spec = pod["spec"]
    return bool(spec.get("nodeSelector") or spec.get("affinity") or any(affinity.claim_of(pod, it) for it in spec.get("volumes") or []))


def without(thing: Any, keys: frozenset[str]) -> Any:
    """(whatever else stands there than an object is for `wsched` to judge)"""
    return {key: value for key, value in thing.items() if key not in keys} if isinstance(thing, dict) else thing


def cut(pod: Json) -> Json:
    """A pod without its annotations, who manages its fields, and what its containers run. One that has a node has its volumes, and each has one of its
    own name, with the token of its account; of another the labels may be read."""
    has_node = bool(pod["spec"].get("nodeName"))
    spec = without(pod["spec"], frozenset(["volumes"] if has_node else []))
    labels = {} if has_node else {"labels": pod["metadata"].get("labels")}
    if isinstance(spec.get("volumes"), list):
        spec["volumes"] = [it for it in spec["volumes"] if "projected" not in it]
    for some in CONTAINERS:
        if isinstance(spec.get(some), list):
            spec[some] = [without(it, OF_CONTAINERS) for it in spec[some]]
    return {**pod, "kind": "Pod", "metadata": {**named_by(pod), **labels}, "spec": spec}


MOST = [{"name": "c", "resources": {"requests": {"cpu": f"{EVERYTHING[0]}m", "memory": str(EVERYTHING[1])}}}]
# How the line ends that stands for a pod on a node.
STANDS_IN = f'"containers":{spell(MOST)}}}}}}}\n'.encode()


def stand_in(pod: Json) -> Json:
    """For a pod that is too long all the same: it counts as everything on its node, or isn't to be bound."""
    node = pod["spec"].get("nodeName")
    on_node = {"nodeName": node, "containers": MOST}
    return {"kind": "Pod", "metadata": named_by(pod), "spec": on_node if node else {"schedulingGates": [{"name": "long"}]}}


def unscheduled(pod: Json) -> tuple[str, str] | None:
    for it in (pod.get("status") or {}).get("conditions") or []:
        if it.get("type") == "PodScheduled" and it.get("status") == "False":
            return it.get("reason") or "", it.get("message") or ""
    return None


def created_at(meta: Json) -> float:
    """(an API server always says it)"""
    text = meta.get("creationTimestamp")
    return datetime.datetime.fromisoformat(text.replace("Z", "+00:00")).timestamp() if text else 0.0
