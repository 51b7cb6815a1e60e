# SPDX-License-Identifier: Apache-2.0
"""A cluster as kubectl tells it, read as the second scheduler reads it: nodes, the pods that they have, and those that wait."""
from __future__ import annotations

import argparse
import collections
import json
import subprocess
from typing import Any, Iterable

from tools.program import WSCHED, Script, Untold, quoted
from tools.rules import Rules
from tools.seeing import Reader, SeenNode, SeenPod
from tools.translating import spelled

from state.affinity import NodeLabels, Volumes
from state.rule_labels import read_by

Json = dict[str, Any]
Objects = dict[str, list[Json]]


def kubectl(*asked: str) -> list[Json]:
    try:
        done = subprocess.run(["kubectl", "get", *asked, "-o", "json"], capture_output=True, text=True, check=False)
    except OSError as why:
        raise Untold(f"kubectl: {why}") from why
    if done.returncode:
        raise Untold(done.stderr.strip())
    return list(json.loads(done.stdout)["items"])


def given_words(said: argparse.ArgumentParser) -> argparse.Namespace:
    """What a program's words come to, with those by which it is told where its objects are."""
    said.add_argument("--from", dest="file", metavar="FILE")
    said.add_argument("--nodes", metavar="SELECTOR")
    given = said.parse_intermixed_args()
    if given.file and given.nodes:
        said.error("--nodes asks kubectl, and --from doesn't")
    return given


def objects(file: str | None, selector: str | None, with_volumes: bool) -> Objects:
    """By their kinds what is in a file that `kubectl get nodes,pods --all-namespaces -o json` wrote (with ,pv,pvc where volumes matter); or
    what it says now, of the nodes that the selector takes."""
    if file:
        items = listed(file)
    else:
        items = kubectl("nodes", *(["-l", selector] if selector else []))
        items += kubectl("pods,pv,pvc" if with_volumes else "pods", "--all-namespaces")
    found = collections.defaultdict(list)
    for it in items:
        if it["kind"] == "Pod":
            # (an API server says both; a list that was written by hand may say neither)
            meta = it["metadata"]
            meta.setdefault("namespace", "default")
            meta.setdefault("uid", f"{meta['namespace']}/{meta['name']}")
        found[it["kind"]].append(it)
    return found


def listed(file: str) -> list[Json]:
    try:
        with open(file, "rb") as it:
            said = json.load(it)
    except OSError as why:
        raise Untold(f"{file}: {why.strerror}") from why
    except ValueError as why:
        raise Untold(f"{file}: this is no JSON, as `kubectl get .. -o json` writes it: {why}") from why
    items = said.get("items") if isinstance(said, dict) else None
    if not isinstance(items, list) or not all(isinstance(it, dict) and "kind" in it and "metadata" in it for it in items):
        raise Untold(f"{file}: this is no list of objects, as `kubectl get nodes,pods --all-namespaces -o json` writes it")
    return items


def key_of(pod: Json) -> tuple[str, str]:
    return pod["metadata"].get("namespace") or "default", pod["metadata"]["name"]


class Cluster:
    """What is there, as a script can say it. `waiting` has the pods of this scheduler that have no node, those first that are tried first;
    `alone` says of those of them that no script can tell why. `left_out` has the nodes that none can tell, and `unread` the pods on nodes of
    which not all can be read, so that they count for more than they may ask."""

    def __init__(self, found: Objects, scheduler: str, rules: Rules) -> None:
        claims = {key_of(it): it for it in found["PersistentVolumeClaim"]}
        there = Volumes(claims, {it["metadata"]["name"]: it for it in found["PersistentVolume"]}) if rules.tells_affinity else None
        named = read_by(rules.specs, None, "node_affinity")
        reader = Reader(WSCHED, scheduler, named)
        self.pods = pods = [*reader.pods(found["Pod"], there).values()]
        self.waiting = sorted((it for it in pods if not it.node), key=lambda it: (-it.priority, it.created, it.uid))
        self.alone = {it.uid: ", ".join(it.left_out) for it in self.waiting if it.row is None}
        labels = NodeLabels(rules.labels, named)
        for pod in self.waiting:
            if pod.row is not None and (why := labels.take(pod.uid, pod.keys)):
                self.alone[pod.uid] = why
        nodes = reader.nodes(found["Node"], labels)
        self.nodes = {it.name: it for it in nodes if it.row}
        self.left_out = [it for it in nodes if not it.row]
        self.bound = [it for it in pods if it.node in self.nodes]
        self.unread = [it for it in self.bound if not it.is_whole]
        reader.translator.end()

    @property
    def told(self) -> list[SeenPod]:
        """The pods that wait and can be told."""
        return [it for it in self.waiting if it.uid not in self.alone]

    def script(self) -> Script:
        """The nodes, and the pods on them."""
        script = Script()
        for node in self.nodes.values():
            script.event("node", str(node.row))
        for pod in self.bound:
            tell_bound(script, pod, str(pod.node))
        return script


def tell_bound(script: Script, pod: SeenPod, node: str) -> int:
    return script.event("bound", f'"uid":{quoted(pod.uid)},"node":{quoted(node)},{spelled(pod.size)}')


def tell_waiting(script: Script, pod: SeenPod) -> int:
    # (the program passes over the key `called`; a page of the run shows it)
    return script.event("pod", f'"uid":{quoted(pod.uid)},"called":{quoted(pod.key)},{pod.row}')


def names(nodes: Iterable[SeenNode]) -> list[str]:
    """Nodes that can't be told, each with what no script can say of it."""
    return [f"{it.name} ({', '.join(it.left_out)})" for it in nodes]
