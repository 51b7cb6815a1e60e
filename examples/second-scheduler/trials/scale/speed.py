# SPDX-License-Identifier: Apache-2.0
"""How many pods are bound a second, by wsched and by kube-scheduler in turn, and the processor time that each takes; of the client also where it goes."""
import collections
import functools
import http.client
import json
import os
import ssl
import subprocess
import sys
import time
from typing import Callable, NamedTuple

from trials.fixtures import cluster
from trials.fixtures.fleet import Trial, some_nodes, some_pods
from trials.fixtures.site import GIB, RULE, TOP, children, spent

Start = Callable[[], subprocess.Popen[bytes]]
PLUGINS = f"{TOP}/examples/plugins"
# Who binds in turn: kube-scheduler, and the client with other words.
THEIRS, OURS = "kube-scheduler", "wsched"
WORDS: dict[str, list[str]] = {
    OURS: [],
    f"{OURS} with keep_region": [RULE],
    f"{OURS} with node_affinity and least_pods": ["--node-affinity", "1", "--plugins", PLUGINS, f"least_pods:1:100000:{PLUGINS}/least_pods.wasm"],
}
# The client, which writes at its end for how many seconds each of its threads has had a processor,
# and its main thread before it begins.
BY_THREAD = """
import json, sys, threading, time
sys.path.insert(0, {folder!r})
sys.argv = sys.argv[1:]
import second_scheduler
spent, end, begun = {{}}, second_scheduler.end_process, second_scheduler.Scheduler
def begin(*given):
    spent["start"] = time.thread_time()
    return begun(*given)
def told(status):
    for it in threading.enumerate():
        spent[it.name] = time.clock_gettime(time.pthread_getcpuclockid(it.ident))
    with open({file!r}, "w", encoding="utf-8") as file:
        json.dump(spent, file)
    end(status)
second_scheduler.end_process, second_scheduler.Scheduler = told, begin
second_scheduler.main()
"""
WHAT = {"start": "its start", "MainThread": "the loop", "pod": "pods heard", "node": "nodes heard", "binds": "binds", "events": "events", "scheduled": "events"}


class Run(NamedTuple):
    """Pods a second from the first bind to the last, and milliseconds of processor time a pod, of the scheduler, of what it has started and of
    the API server with etcd: between the same, and from its start until all events are told."""

    rate: float
    binding: list[float]
    whole: list[float]
    events: int

    def __str__(self) -> str:
        takes = "; ".join(f"{when} {ms[0]:.2f} ms a pod, its child {ms[1]:.2f}, the API server {ms[2]:.2f}"
                         for when, ms in (("while it binds", self.binding), ("in all", self.whole)))
        return f"{self.rate:.0f} pods a second; {takes}; {self.events} events; load {os.getloadavg()[0]:.1f}"


def speed(site: cluster.Cluster, nodes: int = 1000, pods: int = 3000, turns: int = 2, workers: int = 1) -> int:
    """Pods bound a second, from the first to the last that a watch tells, with all pods made before a scheduler starts."""
    fleet = {name: it | {"taints": [], "marked": False, "pods": 110, "memory": 32 * GIB} for name, it in some_nodes(nodes, cpu=8000)}
    try:
        site.start()
        trial = Trial(site, fleet, {})
        trial.ears.stop.set()
        found = collections.defaultdict(list)
        for _ in range(turns):
            for who in (THEIRS, *WORDS):
                ours = who != THEIRS
                made = {it: pod | {"selects": {}, "cpu": 100 + pod["cpu"] % 400} for it, pod in some_pods(pods, "s", OURS if ours else "default-scheduler")}
                site.make_pods(made)
                run = watched(site, pods, starter(trial, who, workers) if ours else site.start_kube_scheduler)
                site.end(OURS if ours else THEIRS)
                site.delete_pods(made)
                site.empty("namespaces/default/events")
                found[who].append(run.rate)
                print(f"{who}: {run}{by_thread(site, pods) if ours else ''}", flush=True)
        best = {who: max(rates) for who, rates in found.items()}
        for who in WORDS:
            print(f"{nodes} nodes, {pods} pods: {who} {best[who] / best[THEIRS]:.1f} times kube-scheduler")
    finally:
        site.end_all()
    return 0


def starter(trial: Trial, who: str, workers: int) -> Start:
    """Starts the client with what tells of its threads."""
    code = BY_THREAD.format(folder=str(trial.site.programs.client), file=str(trial.site.folder / "by_thread.json"))
    own = [sys.executable, "-c", code, "second_scheduler.py"]
    return functools.partial(trial.schedule, "--workers", str(workers), *WORDS[who], rule=None, words=own)


def by_thread(site: cluster.Cluster, pods: int) -> str:
    """Where the client's own time went, in ms a pod."""
    took: dict[str, float] = json.loads((site.folder / "by_thread.json").read_text(encoding="utf-8"))
    took["MainThread"] -= took["start"]
    sums = dict.fromkeys([*WHAT.values(), "the rest"], 0.0)
    for name, seconds in took.items():
        sums[WHAT.get(name, "the rest")] += 1000 * seconds / pods
    return f"; its threads: {', '.join(f'{what} {ms:.2f}' for what, ms in sums.items())}"


def watched(site: cluster.Cluster, count: int, start: Start) -> Run:
    """Starts a scheduler, and watches what it binds."""
    version = site.ask("GET", "/api/v1/namespaces/default/pods?limit=1")["metadata"]["resourceVersion"]
    line = http.client.HTTPSConnection("127.0.0.1", cluster.API, context=ssl._create_unverified_context(), timeout=300)  # pylint: disable=protected-access
    line.request("GET", f"/api/v1/namespaces/default/pods?watch=true&resourceVersion={version}", None, {"Authorization": "Bearer admintoken"})
    answer, bound, times = line.getresponse(), set[str](), list[float]()
    server = sum(spent(site.own[it].pid) for it in ("api", "etcd"))
    child, takes = start(), [[0.0, 0.0, server]]
    while len(bound) < count:
        pod = json.loads(answer.readline())["object"]
        if pod["spec"].get("nodeName") and pod["metadata"]["name"] not in bound:
            bound.add(pod["metadata"]["name"])
            times.append(time.monotonic())
            if len(bound) in (1, count):
                takes.append(taken(site, child.pid))
    line.close()
    events = told(site, count)
    takes.append(taken(site, child.pid))
    binding, whole = ([1000 * (b - a) / count for a, b in zip(takes[since], takes[until])] for since, until in ((1, 2), (0, 3)))
    return Run((count - 1) / (times[-1] - times[0]), binding, whole, events)


def taken(site: cluster.Cluster, *pids: int) -> list[float]:
    """The processor seconds of processes so far, of what they have started, and of the API server with etcd."""
    return [sum(map(spent, pids)), sum(spent(child) for pid in pids for child in children(pid)), sum(spent(site.own[it].pid) for it in ("api", "etcd"))]


def told(site: cluster.Cluster, count: int, patience: float = 15) -> int:
    """Waits for so many events, and for no longer than that after the last of them: what there is to tell comes behind the binds."""
    events, changed = 0, time.monotonic()
    while events < count and time.monotonic() < changed + patience:
        listed = site.ask("GET", "/api/v1/namespaces/default/events?limit=1")
        now = len(listed["items"]) + (listed["metadata"].get("remainingItemCount") or 0)
        if now != events:
            events, changed = now, time.monotonic()
        time.sleep(0.5)
    return events
