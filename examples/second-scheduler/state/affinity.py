# SPDX-License-Identifier: Apache-2.0
"""What a pod asks of its node's labels and name, as the labels of its row that the plugin node_affinity reads.

That is its node selector, its node affinity, and the node affinity of the volumes that its claims are bound to. docs/NODE-AFFINITY.md
has the spelling and the limits.
"""
import re
from collections.abc import Iterable, Iterator, Mapping, Sequence
from typing import Any, NamedTuple

from state.rule_labels import Named

Manifest = Mapping[str, Any]
Row = list[str]
# Labels of a row, bytes of a text, and the bytes of a key behind `/NN/`.
LABELS, TEXT, KEY = 32, 63, 59
MOST = 2**63 - 1
REQUIRED, PREFERRED = "requiredDuringSchedulingIgnoredDuringExecution", "preferredDuringSchedulingIgnoredDuringExecution"
# What Kubernetes takes as a label's value, and what a script can say of a node's name.
VALUE = re.compile(r"([A-Za-z0-9]([A-Za-z0-9_.-]{0,61}[A-Za-z0-9])?)?")
NAME = re.compile(r"[A-Za-z0-9._-]{1,63}")
# A volume that has one of these is where its value says, or in one of the places that stand there
# between `__`.
PLACES = ("topology.kubernetes.io/zone", "topology.kubernetes.io/region", "failure-domain.beta.kubernetes.io/zone", "failure-domain.beta.kubernetes.io/region")


class Requirement(NamedTuple):
    """`where` is a label's key behind a slash, or `.metadata.name`."""

    where: str
    operator: str
    values: tuple[str, ...]


Term = tuple[Requirement, ...]


class Alone(Exception):
    """A pod is left alone, and this is why."""


class Asked(NamedTuple):
    """What is told of a pod: its entries, the node labels that they name, and what was left out of them. Where there is a `why`,
    it can't be told, and the rest is empty."""

    entries: tuple[tuple[str, str], ...] = ()
    keys: frozenset[str] = frozenset()
    left_out: tuple[str, ...] = ()
    why: tuple[str, ...] = ()


class Volumes(NamedTuple):
    """The claims by namespace and name, and the volumes by name, as the API has them."""

    claims: Mapping[tuple[str, str], Manifest]
    volumes: Mapping[str, Manifest]


def asked(pod: Manifest, there: Volumes) -> Asked:
    """What a pod asks for. Other demands of it are none of this module's."""
    try:
        selectors = [node_selector(pod), *claimed(pod, there)]
        affinity = node_affinity(pod)
        if affinity.get(REQUIRED):
            selectors.append(list(terms(affinity[REQUIRED])))
        required = list(requirements(selectors))
        wished = list(preferred(affinity.get(PREFERRED) or []))
        entries = spelled(required)
    except Alone as reason:
        return Asked(why=(str(reason),))
    try:
        return Asked(spelled(required + wished), keys_of(required + wished))
    except Alone as reason:
        # (it can do without what it only prefers)
        left_out = (f"preferred node affinity ({reason})",)
        return Asked(entries, keys_of(required), left_out)


def without(pod: Manifest) -> dict[str, Any]:
    """The pod, as if it asked for nothing of what is told so."""
    spec = {key: value for key, value in pod["spec"].items() if key != "nodeSelector"}
    if spec.get("affinity"):
        spec["affinity"] = {key: value for key, value in spec["affinity"].items() if key != "nodeAffinity"}
    if spec.get("volumes"):
        spec["volumes"] = [it for it in spec["volumes"] if not claim_of(pod, it)]
    return {**pod, "spec": spec}


# What the manifests say.


def node_affinity(pod: Manifest) -> Manifest:
    return (pod["spec"].get("affinity") or {}).get("nodeAffinity") or {}


def node_selector(pod: Manifest) -> list[Term]:
    return [tuple(Requirement(f"/{key}", "In", (value,)) for key, value in sorted((pod["spec"].get("nodeSelector") or {}).items()))]


def terms(selector: Manifest) -> Iterator[Term]:
    """The terms that may match a node. One without requirements matches none, nor does one with a value that isn't a label's."""
    for term in selector.get("nodeSelectorTerms") or []:
        read = term_of(term)
        if read:
            yield read


def term_of(term: Manifest) -> Term | None:
    """A term's requirements; None where one of them can't be read, so that the term matches nothing."""
    rows = [expression(it) for it in term.get("matchExpressions") or []] + [field(it) for it in term.get("matchFields") or []]
    found = tuple(it for it in rows if it)
    return found if len(found) == len(rows) else None


def expression(said: Manifest) -> Requirement | None:
    operator, values = said["operator"], tuple(said.get("values") or ())
    if operator in ("In", "NotIn"):
        readable = bool(values) and all(VALUE.fullmatch(it) for it in values)
    elif operator in ("Gt", "Lt"):
        readable = len(values) == 1 and re.fullmatch("[0-9]{1,63}", values[0]) is not None and int(values[0]) <= MOST
        values = (str(int(values[0])),) if readable else ()
    else:
        readable = operator in ("Exists", "DoesNotExist") and not values
    return Requirement(f"/{said['key']}", operator, tuple(dict.fromkeys(values))) if readable else None


def field(said: Manifest) -> Requirement | None:
    values = tuple(said.get("values") or ())
    if said["key"] != "metadata.name" or said["operator"] not in ("In", "NotIn") or len(values) != 1:
        return None
    if not NAME.fullmatch(values[0]):
        raise Alone(f"a node's name that no script can say, {values[0][:80]}")
    return Requirement(".metadata.name", said["operator"], values)


def preferred(wished: Iterable[Manifest]) -> Iterator[tuple[str, str, Term]]:
    for wish in wished:
        weight, term = wish["weight"], term_of(wish["preference"])
        if term is None:
            raise Alone("preferred node affinity with a value that no label has")
        # (an empty preference counts for nothing)
        if weight and term:
            yield "prefer", str(weight), term


# The volumes.


def claim_of(pod: Manifest, volume: Manifest) -> str | None:
    if "persistentVolumeClaim" in volume:
        return str(volume["persistentVolumeClaim"]["claimName"])
    return f"{pod['metadata']['name']}-{volume['name']}" if "ephemeral" in volume else None


def claimed(pod: Manifest, there: Volumes) -> Iterator[list[Term]]:
    """Of each volume that a claim of the pod is bound to the terms of which one must hold."""
    for one in pod["spec"].get("volumes") or []:
        name = claim_of(pod, one)
        if name is None:
            continue
        what = f"volume {one['name']}: the claim {name}"
        claim = there.claims.get((pod["metadata"].get("namespace") or "default", name))
        if claim is None:
            raise Alone(f"{what} isn't there")
        owners = claim["metadata"].get("ownerReferences") or []
        if "ephemeral" in one and not any(it.get("controller") and it["uid"] == pod["metadata"]["uid"] for it in owners):
            raise Alone(f"{what} isn't its own")
        if claim["metadata"].get("deletionTimestamp"):
            raise Alone(f"{what} is being deleted")
        if "ReadWriteOncePod" in (claim["spec"].get("accessModes") or []):
            raise Alone(f"{what} is for one pod at a time")
        volume = claim["spec"].get("volumeName")
        if not volume or "pv.kubernetes.io/bind-completed" not in (claim["metadata"].get("annotations") or {}):
            raise Alone(f"{what} isn't bound yet")
        if volume not in there.volumes:
            raise Alone(f"{what} is bound to {volume}, which isn't there")
        yield from places(there.volumes[volume])


def places(volume: Manifest) -> Iterator[list[Term]]:
    labels = volume["metadata"].get("labels") or {}
    for key in PLACES:
        if key in labels:
            yield [(Requirement(f"/{key}", "In", tuple(dict.fromkeys(labels[key].split("__")))),)]
    required = (volume["spec"].get("nodeAffinity") or {}).get("required")
    if required:
        yield list(terms(required))


# The spelling.

Part = tuple[str, str, Term]


def requirements(selectors: Iterable[list[Term]]) -> Iterator[Part]:
    """What must hold of each selector, of which one term must hold: those of a single one in front, told once."""
    given = list(selectors)
    yield "", "", tuple(dict.fromkeys(it for terms_of in given if len(terms_of) == 1 for it in terms_of[0]))
    for terms_of in given:
        if not terms_of:
            # an alternative without requirements, which nothing matches
            yield "either", "", ()
        elif len(terms_of) > 1:
            yield from (("or" if k else "either", "", term) for k, term in enumerate(terms_of))


def spelled(parts: Iterable[Part]) -> tuple[tuple[str, str], ...]:
    rows: list[tuple[str, str]] = []
    for word, value, term in parts:
        rows += [(f".{word}", value)] if word else []
        for it in term:
            if len(it.where) > KEY + 1:
                raise Alone(f"a node label with a key of more than {KEY} bytes, {it.where[1:]}")
            rows += [(".more" if k else it.where, text) for k, text in enumerate(texts(it))]
    if len(rows) > LABELS:
        raise Alone(f"node selectors and affinity of {len(rows)} entries, and there is room for {LABELS}")
    return tuple((f"/{k:02}{where}", text) for k, (where, text) in enumerate(rows))


def texts(one: Requirement) -> Iterator[str]:
    """An operator and its values with slashes between them, in as many texts as that takes."""
    text = one.operator
    for value in one.values:
        if len(text) + 1 + len(value) > TEXT:
            yield text
            text = value
        else:
            text += f"/{value}"
    yield text


def keys_of(parts: Iterable[Part]) -> frozenset[str]:
    return frozenset(it.where[1:] for _, _, term in parts for it in term if it.where[0] == "/")


# Rows.


def with_own(entries: Sequence[tuple[str, str]], own: Sequence[Row]) -> tuple[list[Row], list[str]]:
    """A pod's labels: its entries, and as many of its own as there is room for; and what gave way."""
    room = LABELS - len(entries)
    return [*([key, value] for key, value in entries), *own[:room]], [f"label {key}" for key, _ in own[room:]]


class NodeLabels:
    """Which labels of nodes the waiting pods ask for. They stay in each node's row, so there are no more at a time than a row has
    room for beside the site's settings, which are labels of each node too, and beside those that the site's rules read. `changes` counts
    how often others were asked for."""

    def __init__(self, settings: Sequence[tuple[str, str]] = (), named: Named = Named(), is_asked: bool = False):
        """`is_asked`: pods may ask for some."""
        self.settings, self.named, self.is_asked, self.asking, self.changes = [*settings], named, is_asked, dict[str, set[str]](), 0

    def are_told(self, has: Mapping[str, str]) -> bool:
        """Whether labels are told beside a node's own."""
        return bool(self.settings) or (self.is_asked and len(has) > LABELS)

    def beside(self, has: Mapping[str, str]) -> dict[str, str]:
        """Those that are told beside a node's own: the settings, and in front of its others those that waiting pods ask for."""
        return {**dict(self.settings), **{it: has[it] for it in self.asking if it in has}}

    def take(self, uid: str, keys: frozenset[str]) -> str | None:
        """Keeps these labels for a pod, or says why there is no room for them. A label that nobody asks for any more stays until
        its room is wanted, so that rows needn't be told anew for each pod."""
        self.give_back(uid)
        # (one that rules read is in each row anyway)
        more = len(keys | self.asking.keys() | self.named.keys) + len(self.settings) - LABELS
        idle = [it for it, pods in self.asking.items() if not pods and it not in keys and it not in self.named.keys]
        if more > len(idle):
            return f"other pods ask for so many node labels that there is no room for {', '.join(sorted(keys - self.asking.keys()))}"
        for it in idle[: max(0, more)]:
            del self.asking[it]
        self.changes += bool(more > 0 or keys - self.asking.keys())
        for it in keys:
            self.asking.setdefault(it, set()).add(uid)
        return None

    def give_back(self, uid: str) -> None:
        for pods in self.asking.values():
            pods.discard(uid)

    def kept(self, own: Sequence[Row]) -> tuple[list[Row], list[str]]:
        """A node's labels: the settings, those that rules read or that are asked for, and as many others as there is room for; and what gave way."""
        room = LABELS - len(self.settings)
        first = sorted(own, key=lambda it: (it[0] not in self.named.keys, it[0] not in self.asking))
        return [*([key, value] for key, value in self.settings), *sorted(first[:room])], [f"label {key}" for key, _ in first[room:]]

    def why_not(self, keys: Sequence[str]) -> str | None:
        """Why a node with these labels isn't used: where one would give way that a rule may read."""
        room = LABELS - len(self.settings)
        return None if self.named.chosen(keys, room) else self.named.why(len(keys), room, sorted(keys)[room:])
