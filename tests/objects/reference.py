# SPDX-License-Identifier: Apache-2.0
"""What an object of the Kubernetes API comes to as a line of a script, by the API's reference and docs/FORMATS.md alone.

Quantities are fractions, by the grammar of the reference's "Quantity"; what a pod needs is the most of all its moments, by the pages "Init
Containers", "Sidecar Containers" and "Pod Overhead", and what it holds is the most of its spec and its status, by "Resize CPU and Memory
Resources assigned to Containers". It knows nothing of how wsched reads them, and is as plain as it can be.
"""
from __future__ import annotations

import math
import re
from fractions import Fraction
from typing import Any, Iterator, NamedTuple

Json = dict[str, Any]
# Thousandths of a core, bytes and pods: the most that a line can say.
MOST = {"cpu": 2**30, "memory": 2**44, "pods": 150_000}
UNITS = {"cpu": 1000, "memory": 1, "pods": 1}
LABELS, TAINTS, TOLERATIONS = 32, 8, 16
NAME, TEXT = re.compile(r"[A-Za-z0-9._/-]{1,63}"), re.compile(r"[A-Za-z0-9._/-]{0,63}")
# (an exponent has two digits at most behind its zeros, but of nothing: docs/DECISIONS.md)
QUANTITY = re.compile(r"([+-]?)(?:([0-9]+)\.?([0-9]*)|\.([0-9]+))(?:([numkMGTPE]?)|([KMGTPE])i|[eE]([+-]?)([0-9]+))", re.ASCII)
TENS = {"n": -9, "u": -6, "m": -3, "": 0, "k": 3, "M": 6, "G": 9, "T": 12, "P": 15, "E": 18}
EFFECTS = ("NoSchedule", "PreferNoSchedule", "NoExecute")
# Volumes that tie a pod to no node.
FREE = {"name", "configMap", "secret", "emptyDir", "hostPath", "projected", "downwardAPI", "csi", "nfs", "image"}
MUST, MAY = "requiredDuringSchedulingIgnoredDuringExecution", "preferredDuringSchedulingIgnoredDuringExecution"
KINDS = (("nodeAffinity", "node affinity"), ("podAffinity", "pod affinity"), ("podAntiAffinity", "pod anti-affinity"))
# Fields of a pod's spec that are told, or that tie it to no node ("PodSpec" in the reference).
KNOWN = set(
    """activeDeadlineSeconds affinity automountServiceAccountToken containers dnsConfig dnsPolicy enableServiceLinks ephemeralContainers
    hostAliases hostIPC hostNetwork hostPID hostUsers hostname hostnameOverride imagePullSecrets initContainers nodeName nodeSelector os overhead
    preemptionPolicy priority priorityClassName readinessGates resourceClaims resources restartPolicy runtimeClassName schedulerName
    schedulingGates securityContext serviceAccount serviceAccountName setHostnameAsFQDN shareProcessNamespace subdomain
    terminationGracePeriodSeconds tolerations topologySpreadConstraints volumes""".split()
)
# How an entry of what was left out may name an amount: the words differ by why it was refused.
AMOUNT = "an amount"
STATUSES = ("containerStatuses", "initContainerStatuses")
HELD = "what its status says that it holds"


class Unsaid(Exception):
    """No line says the object, and these are why."""


class Uncounted(Exception):
    """It may be a pod on a node, and no line can count it."""


class Told(NamedTuple):
    """The line's object without its version, with amounts as whole numbers and all that may be absent, or None; what was left out; and
    whether it may be a pod on a node that can't be counted."""

    line: Json | None
    left_out: list[str]
    uncounted: bool = False


# Amounts.


def worth(text: object) -> Fraction | None:
    """A quantity, exactly; None of what is none, and of what has too great an exponent."""
    found = QUANTITY.fullmatch(text) if isinstance(text, str) else None
    if not found:
        return None
    sign, whole, part, only, ten, two, minus, exponent = found.groups()
    part = only if whole is None else part
    value = Fraction(int((whole or "") + part), 10 ** len(part))
    if value and exponent and len(exponent.lstrip("0")) > 2:
        return None
    if two:
        value *= 2 ** (10 * "KMGTPE".index(two) + 10)
    elif value:
        value *= Fraction(10) ** (int(minus + exponent) if exponent else TENS[ten or ""])
    return -value if sign == "-" else value


def amount(text: object, what: str, up: bool) -> int | None:
    """In the line's unit, rounded up or down; None where no line can say it. What is there may be told as less."""
    value = worth(text)
    if value is None or value < 0:
        return None
    size = (math.ceil if up else math.floor)(value * UNITS[what])
    return size if size <= MOST[what] else None if up else MOST[what]


class Asked:
    """Reads what is asked for: what can't be read is the most that a line can say, and is noted."""

    def __init__(self) -> None:
        self.unread = False

    def most(self) -> dict[str, int]:
        """All that a line can say."""
        self.unread = True
        return {what: MOST[what] for what in ("cpu", "memory")}

    def read(self, text: object, what: str) -> int:
        """An amount."""
        size = amount("0" if text is None else text, what, up=True)
        self.unread |= size is None
        return MOST[what] if size is None else size

    def amounts(self, value: Any, otherwise: Any = None) -> dict[str, int]:
        """What amounts say, and others where they say nothing; an absent one is 0."""
        if not all(it is None or isinstance(it, dict) for it in (value, otherwise)):
            return self.most()
        first, second = value or {}, otherwise or {}
        return {what: self.read(second.get(what) if first.get(what) is None else first[what], what) for what in ("cpu", "memory")}

    def of(self, resources: Any) -> dict[str, int]:
        """What resources say: requests, and the limit where there is none."""
        if resources is None:
            return {"cpu": 0, "memory": 0}
        return self.amounts(resources.get("requests"), resources.get("limits")) if isinstance(resources, dict) else self.most()

    def held(self, status: Any) -> dict[str, int]:
        """What a status says that is held: set aside, or in force."""
        if not isinstance(status, dict):
            return self.most()
        resources = {} if status.get("resources") is None else status["resources"]
        force = self.amounts(resources.get("requests")) if isinstance(resources, dict) else self.most()
        return larger(self.amounts(status.get("allocatedResources")), force)


def larger(one: dict[str, int], other: dict[str, int]) -> dict[str, int]:
    """The more of both, of each."""
    return {what: max(size, other[what]) for what, size in one.items()}


def listed(where: Any, key: str) -> list[Any] | None:
    """What an object lists, nothing where it is absent, and None where it is no list."""
    found = where.get(key)
    return [] if found is None else found if isinstance(found, list) else None


class Container(NamedTuple):
    """What one counts for."""

    size: dict[str, int]
    goes_on: bool


def spelled(where: Any, key: str) -> str:
    """A text, or nothing."""
    found = where.get(key) if isinstance(where, dict) else None
    return found if isinstance(found, str) else ""


def containers(spec: Json, key: str, asked: Asked, statuses: list[Any] | None, held: Asked) -> list[Container]:
    """Those of a kind, each with what it asks or holds."""
    found, made = listed(spec, key), []
    if found is None:
        asked.unread = True
        return [Container(dict(MOST), True)]
    for it in found:
        size = asked.of(it.get("resources")) if isinstance(it, dict) else asked.most()
        for status in statuses or []:
            if spelled(status, "name") in (spelled(it, "name"), ""):
                size = larger(size, held.held(status))
        policy = it.get("restartPolicy") if isinstance(it, dict) else None
        asked.unread |= policy is not None and not isinstance(policy, str)
        made.append(Container(size, policy is not None and (not isinstance(policy, str) or policy == "Always")))
    if statuses is None:
        held.unread = True
        return [Container(dict(MOST), True)]
    for status in statuses:
        held.held(status)
    return made


def needed(spec: Json, asked: Asked, stands: Json | None = None, held: Asked | None = None) -> dict[str, int]:
    """What a pod needs at the moment when it needs most; what it holds as well, where it stands on a node."""
    held, status = held or Asked(), None if stands is None else stands.get("status")
    statuses = [listed({} if status is None else status, it) if isinstance(status, (dict, type(None))) else None for it in STATUSES]
    running = containers(spec, "containers", asked, statuses[0], held) or [Container(asked.most(), True)]
    init = containers(spec, "initContainers", asked, statuses[1], held)
    overhead = asked.amounts(spec.get("overhead"))
    whole = {"cpu": 0, "memory": 0}
    if stands is not None:
        whole = larger(asked.of(spec.get("resources")), whole if status is None else held.held(status))
    found = {}
    for what in ("cpu", "memory"):
        moments, beside = [whole[what]], 0
        for one in init:
            moments.append(beside + one.size[what])
            beside += one.size[what] if one.goes_on else 0
        moments.append(beside + sum(it.size[what] for it in running))
        found[what] = max(moments) + overhead[what]
    return found


# Nodes.


def labels_of(meta: Json, named: list[str], left_out: list[str]) -> list[list[str]]:
    """Those that are named and the first of the others by their keys, 32 at most of those that a line can say."""
    found = sorted((meta.get("labels") or {}).items(), key=lambda it: it[0].encode())
    if len(found) > LABELS and not named:
        raise Unsaid("more labels than a row has")
    kept: list[list[str]] = []
    for is_first in (True, False):
        for key, value in found:
            if (key in named) is not is_first:
                continue
            if NAME.fullmatch(key) and isinstance(value, str) and TEXT.fullmatch(value) and len(kept) < LABELS:
                kept.append([key, value])
            elif is_first:
                raise Unsaid("a label that is named")
            else:
                left_out.append(f"label {key}")
    return kept


def taints_of(spec: Json) -> list[list[str]]:
    """All of them, or none can be said."""
    taints = [[it["key"], it.get("value") or "", it["effect"]] for it in spec.get("taints") or []]
    is_good = all(NAME.fullmatch(key) and TEXT.fullmatch(value) and effect in EFFECTS for key, value, effect in taints)
    if not is_good or len(taints) > TAINTS or len({(key, effect) for key, _, effect in taints}) < len(taints):
        raise Unsaid("taints")
    return taints


def node(thing: Json, named: list[str]) -> Told:
    """A node's row."""
    meta, spec, has = thing["metadata"], thing.get("spec") or {}, thing["status"].get("allocatable") or {}
    if not NAME.fullmatch(meta["name"]):
        raise Unsaid("its name")
    room = {what: amount("0" if has.get(what) is None else has[what], what, up=False) for what in MOST}
    if None in room.values():
        raise Unsaid(AMOUNT)
    line = {"op": "node", "name": meta["name"], "cpu": room["cpu"], "mem": room["memory"], "pods": room["pods"], "taints": taints_of(spec)}
    left_out: list[str] = []
    return Told(line | {"unschedulable": bool(spec.get("unschedulable")), "labels": labels_of(meta, named, left_out)}, left_out)


# Pods.


def called(meta: Json, by_uid: bool) -> str:
    """Its name in the script."""
    name = "" if by_uid else f"{meta.get('namespace') or 'default'}/{meta['name']}"
    if not NAME.fullmatch(name):
        name = meta["uid"]
    if not NAME.fullmatch(name):
        raise Unsaid("its uid")
    return name


def affinity(spec: Json, kind: str, part: str) -> Any:
    """A part of its affinity, or nothing."""
    found = spec
    for key in ("affinity", kind):
        found = found.get(key) or {}
        if not isinstance(found, dict):
            return None
    return found.get(part)


def is_odd_affinity(spec: Json) -> bool:
    """Whether it has anything but the three kinds, each of two parts."""
    found = spec.get("affinity")
    if found is None or not isinstance(found, dict):
        return found is not None
    kinds = {it for it, _ in KINDS}
    return any(key not in kinds or value is not None and (not isinstance(value, dict) or bool(set(value) - {MUST, MAY})) for key, value in found.items())


def bound(thing: Json, spec: Json, by_uid: bool) -> Told:
    """Where it runs: it counts there whatever it asks for."""
    asked, held = Asked(), Asked()
    sizes = needed(spec, asked, thing, held)
    if not NAME.fullmatch(spec["nodeName"]):
        raise Unsaid("its node's name")
    is_over = not spec.get("resources") and any(size > MOST[it] for it, size in needed(spec, Asked()).items())
    left_out = [AMOUNT] if asked.unread or is_over else []
    left_out += [HELD] if held.unread else []
    left_out += ["required pod anti-affinity"] if affinity(spec, "podAntiAffinity", MUST) else []
    cpu, memory = (min(sizes[it], MOST[it]) for it in ("cpu", "memory"))
    try:
        uid = called(thing["metadata"], by_uid)
    except Unsaid as why:
        raise Uncounted from why
    return Told({"op": "bound", "uid": uid, "node": spec["nodeName"], "cpu": cpu, "mem": memory}, left_out)


def others(amounts: Any, but: Any = None) -> Iterator[str]:
    """Resources beyond CPU and memory of which there is something, but those that others have."""
    if isinstance(amounts, dict):
        for key, size in amounts.items():
            if key not in ("cpu", "memory") and key not in (but if isinstance(but, dict) else {}) and worth(size) != 0:
                yield f"resource {key}"


def demands(meta: Json, spec: Json) -> Iterator[str]:
    """What it can't do without, and no line says."""
    if spec.get("nodeSelector"):
        yield "node selector"
    for kind, what in KINDS:
        if affinity(spec, kind, MUST):
            yield f"required {what}"
    if is_odd_affinity(spec):
        yield "affinity"
    if any(it.get("whenUnsatisfiable") != "ScheduleAnyway" for it in spec.get("topologySpreadConstraints") or []):
        yield "required topology spread"
    if spec.get("schedulingGates"):
        yield "scheduling gates"
    if spec.get("resourceClaims"):
        yield "resource claims"
    yield from (f"volume {it['name']}" for it in spec.get("volumes") or [] if set(it) - FREE)
    for one in [*(listed(spec, "containers") or []), *(listed(spec, "initContainers") or [])]:
        if isinstance(one, dict):
            yield from (f"host port {it['hostPort']}" for it in one.get("ports") or [] if it.get("hostPort"))
            resources = one["resources"] if isinstance(one.get("resources"), dict) else {}
            for part in ("requests", "limits"):
                yield from ["a fault"] if not isinstance(resources.get(part, {}) or {}, dict) else []
            yield from others(resources.get("requests"))
            yield from others(resources.get("limits"), resources.get("requests"))
    yield from others(spec.get("overhead"))
    yield from (f"field {it}" for it in spec if it not in KNOWN and spec[it] not in (None, [], {}))
    if meta.get("deletionTimestamp"):
        yield "it is being deleted"


def wishes(spec: Json) -> Iterator[str]:
    """What it can do without."""
    for kind, what in KINDS:
        if affinity(spec, kind, MAY):
            yield f"preferred {what}"
    if any(it.get("whenUnsatisfiable") == "ScheduleAnyway" for it in spec.get("topologySpreadConstraints") or []):
        yield "preferred topology spread"


def tolerations_of(spec: Json, left_out: list[str]) -> list[list[str]]:
    """The first 16 of those that a line can say."""
    kept: list[list[str]] = []
    for it in spec.get("tolerations") or []:
        key, value, effect = it.get("key") or "", it.get("value") or "", it.get("effect") or ""
        operator = it.get("operator") or "Equal"
        is_good = bool(TEXT.fullmatch(key) and TEXT.fullmatch(value)) and effect in ("", *EFFECTS)
        is_good &= (operator == "Equal" and key != "") or (operator == "Exists" and value == "")
        if is_good and len(kept) < TOLERATIONS:
            kept.append([key, operator, value, effect])
        else:
            left_out.append(f"toleration of {key}")
    return kept


class Site(NamedTuple):
    """How objects are told."""

    scheduler: str = "default-scheduler"
    by_uid: bool = False
    labels: tuple[str, ...] = ()


def waiting(meta: Json, spec: Json, site: Site) -> Told:
    """What it asks for, as one container."""
    asked = Asked()
    sizes = needed(spec, asked)
    whose = "default-scheduler" if spec.get("schedulerName") is None else spec["schedulerName"]
    why = [f"it is for the scheduler {whose}"] if whose != site.scheduler else []
    why += demands(meta, spec)
    if asked.unread or any(size > MOST[it] for it, size in sizes.items()):
        why.append(AMOUNT)
    if spec.get("resources"):
        why.append("resources of the whole pod")
    if why:
        raise Unsaid(*why)
    left_out = [*wishes(spec)]
    line = {"op": "pod", "uid": called(meta, site.by_uid), "priority": spec.get("priority") or 0, "containers": [[sizes["cpu"], sizes["memory"]]]}
    labels = labels_of(meta, [*site.labels], left_out)
    return Told(line | {"labels": labels, "tolerations": tolerations_of(spec, left_out)}, left_out)


def pod(thing: Json, site: Site) -> Told:
    """A pod's line."""
    if isinstance(thing.get("status"), dict) and thing["status"].get("phase") in ("Succeeded", "Failed"):
        raise Unsaid()
    spec = thing.get("spec")
    if not isinstance(spec, dict) or not isinstance(spec.get("nodeName"), (str, type(None))):
        raise Uncounted
    if spec.get("nodeName"):
        return bound(thing, spec, site.by_uid)
    return waiting(thing["metadata"], spec, site)


# Both, and what a watch says of them.


def kind_of(thing: Any) -> str:
    """Its kind, by its shape where it says none: `Node`, `Pod` or another, which are of the API's own group."""
    if not isinstance(thing, dict):
        raise Uncounted
    kind, version = thing.get("kind"), "v1" if thing.get("apiVersion") is None else thing["apiVersion"]
    if kind is None:
        spec, status = (thing[it] if isinstance(thing.get(it), dict) else {} for it in ("spec", "status"))
        if isinstance(spec.get("containers"), list) and isinstance(status.get("phase"), str):
            return "Pod"
        if isinstance(status.get("nodeInfo"), dict) and isinstance(status.get("allocatable"), dict):
            return "Node"
        raise Uncounted
    if not isinstance(kind, str) or not isinstance(version, str):
        raise Uncounted
    return kind if version == "v1" else f"{version} {kind}"


def said(thing: Json, kind: str, site: Site) -> Told:
    """Of an object."""
    if kind == "Node":
        return node(thing, [*site.labels])
    if kind == "Pod":
        return pod(thing, site)
    if thing.get("items") is not None:
        raise Uncounted
    return Told(None, ["a fault"])


def gone(kind: str, thing: Json, by_uid: bool) -> Told:
    """Of one that is gone, or is told no more."""
    if kind == "Pod":
        return Told({"op": "deleted", "uid": called(thing["metadata"], by_uid)}, [])
    name = thing["metadata"]["name"]
    if not NAME.fullmatch(name):
        raise Unsaid("its name")
    return Told({"op": "gone", "name": name}, [])


def translated(it: Any, site: Site = Site()) -> Told:
    """Of an object, or of an event about one."""
    is_event = isinstance(it, dict) and it.get("object") is not None
    event, thing = (it.get("type"), it["object"]) if is_event else ("ADDED", it)
    if event == "BOOKMARK":
        return Told(None, [])
    try:
        if event not in ("ADDED", "MODIFIED", "DELETED"):
            raise Uncounted
        kind = kind_of(thing)
        if event == "DELETED" and kind in ("Node", "Pod"):
            return gone(kind, thing, site.by_uid)
        return said(thing, kind, site)
    except Uncounted:
        return Told(None, ["a fault"], True)
    except Unsaid as why:
        left_out = [*map(str, why.args)]
    try:
        # (whoever has told of it before, as it was, is to tell that it is so no more)
        return Told(gone(kind, thing, site.by_uid).line if event == "MODIFIED" else None, left_out)
    except Unsaid:
        return Told(None, left_out)
