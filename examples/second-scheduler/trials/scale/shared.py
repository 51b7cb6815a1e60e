# SPDX-License-Identifier: Apache-2.0
"""Three instances that share 3,000 nodes: pods bound a second beside kube-scheduler, and 20,000 pods of which a third finds too little room."""
import collections
import http.client
import itertools
import json
import os
import random
import ssl
import threading
import time
from typing import Iterable, Optional

from trials.fixtures import cluster
from trials.fixtures.fleet import Trial, some_pods, used, wrong
from trials.fixtures.site import GIB, MIB
from trials.fixtures.store import Thing
from trials.fixtures.watcher import Watcher
from trials.scale.shares import COUNT, names_of, owner
from trials.scale.speed import taken, told

# How many pods kube-scheduler is given, for each that the instances are given for their speed.
PART = 10


class Seen:
    """A watch of the pods: when each was bound, and by the nodes' owners how many."""

    def __init__(self, site: cluster.Cluster) -> None:
        self.watcher, self.when = Watcher(), dict[str, float]()
        for it in site.ask("GET", "/api/v1/nodes")["items"]:
            self.watcher.hear_node(it, False)
        self.version = site.ask("GET", "/api/v1/namespaces/default/pods?limit=1")["metadata"]["resourceVersion"]
        self.line = http.client.HTTPSConnection("127.0.0.1", cluster.API, context=ssl._create_unverified_context(), timeout=600)  # pylint: disable=protected-access
        self.line.request("GET", f"/api/v1/namespaces/default/pods?watch=true&resourceVersion={self.version}", None, {"Authorization": "Bearer admintoken"})
        self.answer, self.stop = self.line.getresponse(), threading.Event()
        self.thread = threading.Thread(target=self.go, daemon=True)
        self.thread.start()

    def go(self) -> None:
        """Until it is ended."""
        while not self.stop.is_set():
            text = self.answer.readline()
            if not text:
                return
            event = json.loads(text)
            self.watcher.hear_pod(event["object"], event["type"] == "DELETED")
            name = event["object"]["metadata"]["name"]
            if event["object"]["spec"].get("nodeName") and name not in self.when:
                self.when[name] = time.monotonic()

    def wait(self, count: int, patience: float) -> None:
        """Waits for so many binds."""
        end = time.monotonic() + patience
        while len(self.when) < count:
            assert time.monotonic() < end, f"{len(self.when)} of {count} are bound after {patience:.0f} s"
            time.sleep(0.05)

    def rate(self) -> float:
        """Pods a second, from the first to the last."""
        times = sorted(self.when.values())
        return (len(times) - 1) / (times[-1] - times[0])

    def end(self) -> None:
        """Watches no more."""
        self.stop.set()


def sized(pods: Iterable[tuple[str, Thing]]) -> dict[str, Thing]:
    """Pods of 100 to 500 thousandths of a core that may be anywhere."""
    return {name: pod | {"selects": {}, "labels": {"app": "x"}, "tolerates": [], "cpu": 100 + pod["cpu"] % 400} for name, pod in pods}


def start(trial: Trial, index: int) -> None:
    """One instance."""
    trial.schedule("--share", f"{index}/{COUNT}", rule=None, name=f"share-{index}")


def turn(site: cluster.Cluster, trial: Trial, who: str, pods: int) -> float:
    """One scheduler's turn: pods a second."""
    ours = who == "wsched"
    programs = [f"share-{index}" for index in range(1, COUNT + 1)] if ours else ["kube-scheduler"]
    made = sized(some_pods(pods, "q", "wsched" if ours else "default-scheduler"))
    site.make_pods(made)
    seen, began, before = Seen(site), time.monotonic(), taken(site)
    for index in range(1, COUNT + 1) if ours else ():
        start(trial, index)
    if not ours:
        site.start_kube_scheduler()
    seen.wait(len(made), 600)
    events = told(site, len(made))
    took = taken(site, *(site.own[it].pid for it in programs))
    for name in programs:
        site.end(name)
    seen.end()
    assert not seen.watcher.wrong, seen.watcher.wrong[:3]
    site.delete_pods(made)
    site.empty("namespaces/default/events")
    spent = " ".join(f"{1000 * (b - a) / len(made):.2f}" for a, b in zip(before, took))
    print(f"{who}: {len(made)} pods, {seen.rate():.0f} a second, all {max(seen.when.values()) - began:.0f} s after the start; "
          f"ms a pod of all that schedule, of their children, of the API server: {spent}; {events} events; load {os.getloadavg()[0]:.1f}", flush=True)
    return seen.rate()


def quick(site: cluster.Cluster, trial: Trial, pods: int, turns: int) -> None:
    """Pods a second beside kube-scheduler, in turns, where every share has room."""
    rates = [(turn(site, trial, "wsched", pods), turn(site, trial, "kube-scheduler", pods // PART)) for _ in range(turns)]
    times = max(it[0] for it in rates) / max(it[1] for it in rates)
    print(f"{len(trial.nodes)} nodes, {COUNT} instances: {times:.1f} times kube-scheduler", flush=True)


def crowd(site: cluster.Cluster, trial: Trial, pods: int) -> None:
    """Share 1 has room for few; instance 2 is killed when a third is bound, and started again 20 s later. One pod in a hundred fits nowhere."""
    trial.pods = sized(some_pods(pods, "c"))
    for name in [*trial.pods][50::100]:
        trial.pods[name]["cpu"] = 100_000
    fit = sum(1 for it in trial.pods.values() if it["cpu"] < 100_000)
    seen, began = Seen(site), time.monotonic()
    for index in range(1, COUNT + 1):
        start(trial, index)
    making = threading.Thread(target=site.make_pods, args=(trial.pods,))
    making.start()
    seen.wait(fit // 3, 600)
    site.end("share-2", 9)
    killed = len(seen.when)
    time.sleep(20)
    start(trial, 2)
    print(f"share 2 was killed at {killed} binds, and started again 20 s later, at {len(seen.when)}", flush=True)
    making.join()
    seen.wait(fit, 900)
    took = time.monotonic() - began
    time.sleep(10)
    seen.end()
    print(f"{pods} pods, {fit} of which fit somewhere: {took:.0f} s after the first was asked for {looked_at(trial, seen, fit)}; load {os.getloadavg()[0]:.1f}")
    for index in range(1, COUNT + 1):
        trial.end(f"share-{index}")


def looked_at(trial: Trial, seen: Seen, fit: int) -> str:
    """What became of all of them."""
    places: dict[str, Optional[str]] = trial.site.places()
    assert not seen.watcher.wrong, seen.watcher.wrong[:3]
    assert not list(wrong(trial.nodes, trial.pods, places))
    waiting = [name for name, node in places.items() if not node]
    assert all(trial.pods[name]["cpu"] == 100_000 for name in waiting) and len(waiting) == len(trial.pods) - fit, len(waiting)
    assert seen.watcher.bound == fit, seen.watcher.bound
    homes, sums = collections.Counter(owner(node) for node in places.values() if node), used(trial.pods, places)
    first = [name for name in trial.nodes if owner(name) == 1]
    full = sum(1 for name in first if sums[name][2] == trial.nodes[name]["pods"])
    return (f"all of these were bound once, by share {dict(sorted(homes.items()))}; {full} of {len(first)} nodes of share 1 are full; "
            "no node was over its room, no pod moved")


def shared(site: cluster.Cluster, nodes: int = 3000, pods: int = 20000, quick_pods: int = 6000, turns: int = 2) -> int:
    """The speed first, then the crowd."""
    dice, each = random.Random(5), nodes // COUNT
    names = [*itertools.chain(*(names_of(index, COUNT, each) for index in range(1, COUNT + 1)))]
    roomy = {"cpu": 8000, "memory": 32 * GIB, "pods": 110, "labels": {}, "taints": [], "marked": False}
    dice.shuffle(names)
    try:
        site.start()
        trial = Trial(site, {name: roomy for name in names}, {})
        trial.ears.stop.set()
        quick(site, trial, quick_pods, turns)
        few = {"cpu": 1000, "memory": 2048 * MIB, "pods": 1}
        for it in site.ask("GET", "/api/v1/nodes")["items"]:
            name = it["metadata"]["name"]
            if owner(name) == 1:
                trial.nodes[name] = roomy | few
                site.size_node(it, trial.nodes[name])
        crowd(site, trial, pods)
    finally:
        site.end_all()
    return 0
