# SPDX-License-Identifier: Apache-2.0
"""Thousands of pods that fit nowhere by a dear rule: new ones get their turn all the same, and priorities hold among all that wait."""
import os
import random
import threading
import time

from trials.accounting.audit import relayed
from trials.fixtures.site import REGION, RULE, Site, seconds_of, seconds_of_line, whom
from trials.fixtures.store import Thing
from trials.reporting.metrics import scraped, value

WAITING, MANY, DEAR, RUNNING, NEW, SMALL, BIG = 9000, 12000, 1000, 400, 3, 1200, 300


def how_many_nodes(site: Site, seconds: float = 0.002) -> int:
    """As many nodes, up to a thousand, as the rule is asked about in so long: a build that isn't optimized takes longer."""
    node: Thing = {"op": "node", "cpu": "4", "mem": "8Gi", "pods": 9, "labels": [[REGION, "us-east-1"]]}
    pod: Thing = {"op": "pod", "containers": [["1m", "1Mi"]], "labels": [["data-class", "personal"]]}
    lines = [{**node, "v": i + 1, "name": f"n{i}"} for i in range(50)]
    waits = [{**pod, "v": i + 51, "uid": f"u{i}"} for i in range(20)]
    cycles: list[Thing] = [{"op": "cycle"} for _ in waits]
    spent = [seconds_of(site.programs, RULE, it) for it in (lines + waits, lines + waits + cycles)]
    a_call = max(spent[1] - spent[0], 1e-6) / (20 * 50)
    return max(20, min(1000, int(seconds / a_call)))


def first_turns(site: Site, waiting: int = WAITING) -> float:
    """Waits until each of those that wait has been tried once, for as long as some are that weren't: the seconds that it took."""
    began, tried, answers = time.monotonic(), set[bytes](), open(site.folder / "answered", "rb")
    with answers:
        while len(tried) < waiting:
            before = len(tried)
            for _ in range(20):
                time.sleep(1)
                tried |= {line.partition(b" ")[0] for line in answers if b" unschedulable " in line}
            assert time.monotonic() - began < 900, f"{waiting - len(tried)} of {waiting} weren't tried once in 900 s"
            assert len(tried) > before, f"{waiting - before} of {waiting} weren't tried once in {time.monotonic() - began:.0f} s, and others again and again"
    return time.monotonic() - began


def deleting(site: Site, pods: int, stop: threading.Event) -> None:
    """Deletes a pod that runs, twice a second."""
    for i in range(pods):
        if stop.wait(0.5):
            return
        site.delete_pod(f"runs-{i}")


def new_ones(site: Site) -> str:
    """Makes new pods, one after another, and tells how long each waited."""
    waited: list[float] = []
    for i in range(NEW):
        site.pod(f"new-{i}")
        before = [round(it, 1) for it in waited]
        waited.append(site.wait(lambda i=i: site.place(f"new-{i}"), 30, f"new pod {i + 1} of {NEW} is bound (before it: {before} s)"))  # type: ignore[misc]
    return f"new pods waited {', '.join(f'{it:.1f}' for it in waited)} s"


def make(site: Site, nodes: int, waiting: int) -> None:
    """Nodes, the pods that run there, and those that the rule keeps away from all."""
    for i in range(nodes):
        site.node(f"node-{i:04}", labels={REGION: "us-east-1"})
    for i in range(RUNNING):
        site.pod(f"runs-{i}", cpu="10m", memory="1Mi", on=f"node-{i % nodes:04}", scheduler="default-scheduler")
    for i in range(waiting):
        site.pod(f"waits-{i}", labels={"data-class": "personal"})


def starving(site: Site) -> str:
    """9,000 pods that a rule keeps away from all nodes, by some ms each, and a pod deleted twice a second: three new pods are each bound within 30 s."""
    nodes, stop = how_many_nodes(site), threading.Event()
    make(site, nodes, WAITING)
    site.start(rule=RULE, wsched=relayed(site))
    threading.Thread(target=deleting, args=(site, RUNNING, stop), daemon=True).start()
    try:
        site.wait(lambda: len(site.server.watches) >= 2, 60, "all are listed, and both kinds watched")
        first = first_turns(site)
        said = f"{nodes} nodes; each had its first turn within {first:.0f} s; {new_ones(site)}"
    finally:
        stop.set()
    return f"{said}; load {os.getloadavg()[0]:.0f}; {site.check()}"


def starving_dear(site: Site) -> str:
    """1,000 such pods where a decision takes up to 75 ms, so that a round of 200 would take longer than any of them rests: new pods are bound within 30 s."""
    nodes, few, stop = how_many_nodes(site, 0.075), 10, threading.Event()
    # (with few nodes each has its first turn soon)
    make(site, few, DEAR)
    site.start(rule=RULE, wsched=relayed(site))
    try:
        site.wait(lambda: len(site.server.watches) >= 2, 60, "all are listed, and both kinds watched")
        first_turns(site, DEAR)
        for i in range(few, nodes):
            site.node(f"node-{i:04}", labels={REGION: "us-east-1"})
        threading.Thread(target=deleting, args=(site, RUNNING, stop), daemon=True).start()
        time.sleep(40)
        said = new_ones(site)
    finally:
        stop.set()
    return f"{nodes} nodes; {said}; load {os.getloadavg()[0]:.0f}; {site.check()}"


def starving_many(site: Site) -> str:
    """12,000 pods that fit nowhere, more than wsched's queue takes: each is tried and none refused, new pods are each bound within 30 s, and one that
    waits outside has its place once there is a node for it, when all have had their turn again."""
    for i in range(10):
        site.node(f"node-{i}", cpu="8")
    for i in range(MANY):
        site.pod(f"waits-{i}", cpu="100")
    site.pod("last", cpu="50")
    site.start(*site.listening(), wsched=relayed(site))
    site.wait(lambda: len(site.server.watches) >= 2, 90, "all are listed, and both kinds watched")
    first = first_turns(site, MANY + 1)
    said = new_ones(site)
    refused = value(scraped(site), "wsched_refused_for_room_total", kind="queue")
    assert refused == 0, f"{refused:.0f} were refused for want of room"
    site.node("big", cpu="60")
    # (it was tried last, and those outside have half of the time)
    waited = site.wait(lambda: site.place("last"), 60 + 4 * first, "the one that fits on the new node is bound")
    said = f"first turns within {first:.0f} s; {said}; one that fits on a new node was bound after {waited:.1f} s"
    return f"{said}; load {os.getloadavg()[0]:.0f}; {site.check()}"


def priorities(site: Site) -> str:
    """1,200 pods of other priorities wait for a full node, behind 300 of higher priority that fit nowhere; five times a place is free: it goes to
    the pod of highest priority of those that fit."""
    site.node("full", cpu="64", memory="64Gi", pods=5)
    for i in range(5):
        site.pod(f"runs-{i}", on="full", scheduler="default-scheduler")
    ranks = random.Random(11).sample(range(1, 100_000), SMALL)
    for i, rank in enumerate(ranks):
        site.pod(f"waits-{i}", priority=rank)
        if i < BIG:
            site.pod(f"big-{i}", priority=200_000 + i, cpu="100")
    site.start()
    tried = 60 + 3 * 1500 * seconds_of_line(site.programs) * 10
    site.wait(lambda: len({whom(it)["name"] for it in site.events(reason="FailedScheduling")}) >= SMALL + BIG, tried, "each has been tried")
    order = sorted(range(SMALL), key=lambda i: -ranks[i])
    for turn in range(5):
        # the longest backoff of a pod that has failed is 10 s, in which it isn't tried; and 1,500
        # are tried in a second or two
        time.sleep(13)
        site.delete_pod(f"runs-{turn}")
        site.wait(lambda turn=turn: len(site.watcher().binds) > turn, 20, "a pod is bound where a place is free")  # type: ignore[misc]
        uids = {it["metadata"]["uid"]: it["metadata"]["name"] for it in site.store.all("pods")}
        first, want = uids[site.watcher().binds[turn][0]], f"waits-{order[turn]}"
        assert first == want, f"place {turn + 1} went to {first} of priority {ranks[int(first[6:])]}, and {want} of {ranks[order[turn]]} waits"
    return f"five places went to the five of highest priority of {SMALL:,} that fit; {site.check()}"


TRIALS = [starving, starving_many, starving_dear, priorities]
