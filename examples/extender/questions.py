# SPDX-License-Identifier: Apache-2.0
"""What kube-scheduler asks of an extender, and the pod of a question as a row that rules are asked
about.

Its JSON has Go's names: `Pod`, and `NodeNames`, or whole `Nodes` where the scheduler isn't told
that the extender keeps them.
"""
from __future__ import annotations

import functools
import json
import re
from typing import Any, Iterator, Mapping, NamedTuple, Sequence

from state.affinity import Asked
from state.rule_labels import KEY, Named
from state.heard import with_labels
from tools.seeing import held_by
from tools.translating import EVERYTHING, Answer, Json, Size, Translator, as_json, fields_of, size_of

# The scheduler's name in what `translate` is asked, and what a script can say as a uid.
WHO, UID = "extender", re.compile(r"[A-Za-z0-9._/-]{1,63}")
# How many tolerations a row has room for.
TOLERATIONS = 16
# How kube-scheduler spells a question about names: the pod begins with what is of that one alone.
# A text that is so has no sign that JSON spells otherwise.
POD, NAMES, PLAIN = '{"Pod":', ',"Nodes":null,"NodeNames":', r"[ !#-\[\]-~]*"
OWN = re.compile(
    rf'{{"metadata":{{"name":"{PLAIN}",(?:"generateName":"{PLAIN}",)?"namespace":"{PLAIN}",'
    rf'"uid":"(?P<uid>{PLAIN})","resourceVersion":"{PLAIN}","creationTimestamp":"{PLAIN}",'
)
# How large a body is looked at so, which has no whole nodes. Of how many pods unlike each other the
# rows are kept, by the text behind that, where it isn't longer.
USUAL, ROWS, EACH = 2**20, 256, 2**16


class Bad(Exception):
    """A request that can't be read, and why."""


class Untold(Exception):
    """A pod that no row says as it is, and why."""


class Row(NamedTuple):
    """A pod's uid, and the fields of its line behind that, as JSON."""

    uid: str
    fields: str

    def line(self, filters_alone: bool) -> str:
        """By which it is asked what the rules say, or what their filters alone do."""
        more = ',"filters":true' if filters_alone else ""
        return f'{{"op":"judge","v":1,"uid":"{self.uid}",{self.fields}{more}}}'


class Spelled(NamedTuple):
    """A question's text that is spelled as usual, and its parts: the pod, its uid, what stands
    behind all that is of this pod alone, and the names."""

    body: bytes
    pod: str
    uid: str
    rest: str
    names: str


class Question:
    """A pod, the names of the nodes that it is about, and these nodes, where they were handed
    over. Of a text that is spelled as usual the pod isn't read where its row is known, and the
    names where somebody asks for them."""

    def __init__(self, pod: Json, names: list[str], nodes: list[Json] | None = None) -> None:
        self.pod, self.own, self.nodes = pod, names, nodes
        self.spelled: Spelled | None = None
        self.row: Row | None = None

    @functools.cached_property
    def names(self) -> list[str]:
        """Raises Bad."""
        if not self.spelled:
            return self.own
        try:
            return names_in(parsed(self.spelled.names))
        except Bad:
            # (which says what is wrong with the whole)
            read_whole(self.spelled.body)
        raise Bad("the body has a member twice")

    def is_of(self, names: frozenset[str]) -> bool:
        """Whether it is about just these, which have no sign that JSON spells otherwise."""
        if not self.spelled:
            return names == frozenset(self.own)
        text = self.spelled.names
        if not text.startswith('["') or not text.endswith('"]'):
            return False
        each = text[2:-2].split('","')
        return len(each) == len(names) and names == frozenset(each)


def parsed(body: str | bytes) -> Any:
    """Raises Bad."""
    try:
        return json.loads(body)
    except (ValueError, RecursionError) as why:
        raise Bad(f"the body is no JSON: {why}") from why


def spelled(body: bytes) -> Spelled | None:
    """None where it isn't spelled as usual."""
    try:
        text = body.decode() if len(body) <= USUAL else ""
    except UnicodeDecodeError:
        return None
    at = text.rfind(NAMES)
    if at < 0 or not text.startswith(POD) or not text.endswith("]}"):
        return None
    pod, names = text[len(POD) : at], text[at + len(NAMES) : -1]
    own = OWN.match(pod)
    return Spelled(body, pod, own["uid"], pod[own.end() :], names) if own else None


def read(body: bytes, rows: Mapping[str, str]) -> Question:
    """`rows` are the fields of pods' rows that are known. Raises Bad."""
    if usual := spelled(body):
        fields = rows.get(usual.rest)
        try:
            # (where pod and names are whole values, the body is just such an object)
            asked = Question({} if fields else checked(parsed(usual.pod)), [])
        except Bad:
            return read_whole(body)
        asked.spelled = usual
        asked.row = Row(uid_in(usual.uid), fields) if fields else None
        return asked
    return read_whole(body)


def read_whole(body: bytes) -> Question:
    asked = parsed(body)
    pod = checked(of_type(asked, dict, "the body").get("Pod"))
    names = asked.get("NodeNames")
    if names is not None:
        return Question(pod, names_in(names))
    if asked.get("Nodes") is None:
        raise Bad("it has neither NodeNames nor Nodes")
    nodes = of_type(asked["Nodes"], dict, "Nodes").get("items") or []
    try:
        return Question(
            pod, [of_type(it["metadata"]["name"], str, "a node's name") for it in nodes], nodes
        )
    except (TypeError, LookupError) as why:
        raise Bad("Nodes.items has what is no node with a name") from why


def uid_in(said: Any) -> str:
    """As a script can say it."""
    return said if isinstance(said, str) and UID.fullmatch(said) else "a-pod"


def checked(pod: Any) -> Json:
    """Raises Bad."""
    of_type(pod, dict, "Pod")
    for part in ("metadata", "spec"):
        of_type(pod.get(part), dict, f"Pod.{part}")
    labels = pod["metadata"].get("labels") or {}
    if any(not isinstance(it, str) for it in of_type(labels, dict, "Pod.metadata.labels").values()):
        raise Bad("Pod.metadata.labels has a value that is no text")
    known: Json = pod
    return known


def names_in(what: Any) -> list[str]:
    """(by what tells it soonest.) Raises Bad."""
    try:
        "".join(what)
    except TypeError:
        what = None
    if not isinstance(what, list):
        raise Bad("NodeNames is no array of texts")
    return what


def of_type(what: Any, kind: type, called: str) -> Any:
    if not isinstance(what, kind):
        raise Bad(f"{called} is no {'object' if kind is dict else 'text'}")
    return what


class Rows:
    """By `wsched translate`, which any thread may ask; equal pods are asked about once."""

    def __init__(self, program: str, named: Named) -> None:
        self.program, self.named, self.translator = program, named, Translator(program, WHO)
        # rows' fields by the text that they are made of
        self.kept: dict[str, str] = {}

    def row(self, asked: Question) -> Row:
        """What rules are told of its pod. Raises Untold, or CoreFault."""
        if asked.row:
            return asked.row
        row = Row(uid_in(asked.pod["metadata"].get("uid")), self.fields(asked.pod))
        usual = asked.spelled
        if usual and len(usual.rest) <= EACH and uid_in(usual.uid) == row.uid:
            if len(self.kept) >= ROWS:
                self.kept.clear()
            self.kept[usual.rest] = row.fields
        return row

    def fields(self, pod: Json) -> str:
        """Its labels, tolerations and priority, and what it asks for."""
        meta, spec = pod["metadata"], pod["spec"]
        own = with_labels({"metadata": meta, "spec": {}}, Asked(), self.named)
        if own.asks.why:
            raise Untold(", ".join(own.asks.why))
        sized, said = self.translator.ask([placed(pod), waiting(spec, own.labels)])
        if sized.line is None or said.line is None:
            raise Untold(", ".join((*sized.left_out, *said.left_out)) or "no row says it")
        if why := [*left_out(said, len(spec.get("tolerations") or []))]:
            raise Untold(", ".join(why))
        fields = fields_of(said.line)
        del fields["containers"]
        cpu, memory = size_of(sized.line)
        return f'"containers":[["{cpu}m","{memory}"]],{as_json(fields)}'

    def sizes(self, pods: Sequence[Json]) -> list[Size]:
        """What pods on nodes take of these; one that can't be read takes all."""
        return [
            size_of(it.line) if it.line else EVERYTHING
            for it in self.translator.ask(map(placed, pods))
        ]


def left_out(said: Answer, tolerations: int) -> Iterator[str]:
    """What of a pod gave way in its row, or couldn't be read, though a rule may read it."""
    assert said.line
    for it in said.left_out:
        kind, _, what = it.partition(" ")
        if kind == "label" and KEY.fullmatch(what):
            yield f"a value that no row says, of the {it}"
    if len(said.line["tolerations"]) == TOLERATIONS < tolerations:
        yield f"{tolerations} tolerations, of which {TOLERATIONS} have room"


def placed(pod: Json) -> Json:
    """The pod on a node, without what doesn't matter to what it takes there, so that it is equal
    to its like: of such a one it is always said what it asks for, or holds, whatever else it has.
    """
    spec = pod["spec"]
    kept = {key: spec[key] for key in ("overhead", "resources") if spec.get(key)}
    for key in ("containers", "initContainers"):
        if spec.get(key):
            kept[key] = (
                [*map(only_resources, spec[key])] if isinstance(spec[key], list) else spec[key]
            )
    said = {"kind": "Pod", "metadata": {"uid": "a-pod"}, "spec": {"nodeName": "a-node", **kept}}
    held = held_by(pod) if spec.get("nodeName") else {}
    return {**said, "status": held} if held else said


def only_resources(container: Any) -> Any:
    if not isinstance(container, dict):
        return container
    # (what a status says is of a container by its name)
    return {
        key: container[key] for key in ("name", "resources", "restartPolicy") if container.get(key)
    }


def waiting(spec: Json, labels: Json) -> Json:
    """The pod as if it asked for nothing, and had nothing that rules aren't told of."""
    bare = {"schedulerName": WHO, "containers": [{"name": "c"}]} | {
        key: spec[key] for key in ("priority", "tolerations") if spec.get(key)
    }
    return {
        "kind": "Pod",
        "metadata": {"uid": "a-pod", **({"labels": labels} if labels else {})},
        "spec": bare,
    }
