# SPDX-License-Identifier: Apache-2.0
"""Beside a real API server, what a cluster does to itself: pods that end, that go and come anew, nodes that are drained and made anew."""
import random
import time
from typing import Any, Callable

from trials.fixtures.cluster import Cluster, Refused, manifest
from trials.fixtures.fleet import Trial, some_nodes, some_pods
from trials.fixtures.site import MIB

SECONDS = 40.0


def tenth(name: str, memory: str, **spec: Any) -> "dict[str, Any]":
    """A pod that asks for memory in so many words."""
    requests = {"cpu": "10m", "memory": memory}
    spec = {"schedulerName": "wsched", "containers": [{"name": "c", "image": "x", "resources": {"requests": requests}}]} | spec
    return {"apiVersion": "v1", "kind": "Pod", "metadata": {"name": name}, "spec": spec}


def amounts_kept(site: Cluster) -> str:
    """Nine bound pods of 0.1Gi, as the API server keeps them, on a node of 1Gi: one of 512Mi isn't bound, one of 100Mi is."""
    node = {"cpu": 4000, "memory": 1024 * MIB, "pods": 110, "labels": {}, "taints": [], "marked": False}
    trial, pods = Trial(site, {"small": node}, {}), "/api/v1/namespaces/default/pods"
    for i in range(9):
        kept = site.ask("POST", pods, tenth(f"tenth-{i}", "0.1Gi", nodeName="small"))
    trial.schedule(rule=None)
    site.ask("POST", pods, tenth("half", "512Mi"))
    trial.wait_for(lambda: any(it["involvedObject"]["name"] == "half" for it in site.events()), 30)
    site.ask("POST", pods, tenth("last", "100Mi"))
    trial.wait_for(lambda: site.places().get("last"), 20)
    assert site.places()["half"] is None, "one of 512Mi is on a node where 921.6 of 1024 MiB are in use"
    said = trial.watched(made=9)
    trial.end()
    return f"0.1Gi is kept as {kept['spec']['containers'][0]['resources']['requests']['memory']}; {said}"


class Churn:
    """Changes a cluster for some time. The node under a drain has no pod that was bound after the mark was told."""

    def __init__(self, trial: Trial) -> None:
        self.trial, self.site, self.dice, self.counts = trial, trial.site, random.Random(9), dict[str, int]()

    def some(self, wanted: bool, most: int) -> list[str]:
        """Pods that have a node, or wait."""
        found = [name for name, node in self.site.places().items() if bool(node) == wanted]
        return self.dice.sample(found, min(most, len(found)))

    def did(self, what: str, times: int = 1) -> None:
        """Counts what was done."""
        self.counts[what] = self.counts.get(what, 0) + times

    def make(self, names: "list[str]") -> None:
        """Makes pods, of their known sizes."""
        self.site.make_pods({it: self.trial.pods[it] for it in names})
        self.did("made", len(names))

    def finish(self) -> None:
        """Some pods end well."""
        for name in self.some(True, 10):
            pod = self.site.ask("GET", f"/api/v1/namespaces/default/pods/{name}")
            pod["status"]["phase"] = "Succeeded"
            self.site.ask("PUT", f"/api/v1/namespaces/default/pods/{name}/status", pod)
            self.did("ended")

    def anew(self) -> None:
        """Some pods go, and come anew under their names at once: with another size, so that one isn't taken for the other."""
        for name in self.some(False, 6) + self.some(True, 6):
            self.site.delete_pods([name])
            self.trial.pods[name] = self.trial.pods[name] | {"cpu": self.dice.choice([100, 900, 1900])}
            self.site.ask("POST", "/api/v1/namespaces/default/pods", manifest(name, self.trial.pods[name]))
            self.did("anew")

    def drain(self) -> None:
        """A node is marked, its pods go, it goes, and comes anew."""
        name = self.dice.choice([*self.trial.nodes])
        node = self.site.ask("GET", f"/api/v1/nodes/{name}")
        node["spec"]["unschedulable"] = True
        self.site.ask("PUT", f"/api/v1/nodes/{name}", node)
        self.site.delete_pods([pod for pod, on in self.site.places().items() if on == name])
        self.site.ask("DELETE", f"/api/v1/nodes/{name}")
        self.did("drained")
        time.sleep(0.5)
        self.site.make_nodes({name: self.trial.nodes[name]})


def churning(site: Cluster) -> str:
    """For 40 s pods are made, end, go and come anew under their names, and nodes are drained, go and come anew: at no time a node is over
    its room by more than binds of namesakes can explain, and no pod moves."""
    nodes = {name: node | {"marked": False} for name, node in some_nodes(60)}
    trial = Trial(site, nodes, {name: pod | {"selects": {}} for name, pod in some_pods(1200, "c")})
    trial.schedule()
    churn, names, end = Churn(trial), [*trial.pods], time.monotonic() + SECONDS
    turn = 0
    while time.monotonic() < end:
        churn.make(names[40 * turn:40 * (turn + 1)])
        steps: list[Callable[[], None]] = [churn.finish, churn.anew, churn.drain]
        for what in steps:
            try:
                what()
            except Refused:
                # (bound, ended or gone meanwhile)
                churn.did("refused")
        turn += 1
    time.sleep(3)
    trial.wait_for(lambda: trial.ears.watcher().bound >= 100, 30)
    seen = trial.ears.watcher()
    trial.ears.stop.set()
    trial.end()
    over = [it for it in seen.wrong if "over its room" in it]
    # (a pod under bind when its node goes may be bound to where no node is)
    other = [it for it in seen.wrong if "over its room" not in it and "isn't there" not in it]
    shown = f"{churn.counts}; {seen.bound} binds watched, {len(over)} of them over a node's room"
    assert not other and len(over) <= 2, f"{shown}; {(other + over)[:3]}"
    return shown


TRIALS = [amounts_kept, churning]
