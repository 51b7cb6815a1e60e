# SPDX-License-Identifier: Apache-2.0
"""Several instances under one scheduler name (--share): each has its nodes, and a pod goes round until one has room for it."""
import itertools
import os
import sys
import time

from typing import Iterator

from state.share import PERIOD, Share
from trials.fixtures.site import Scheduler, Site, whom
from trials.fixtures.store import Change

COUNT = 3
SHIFTED = """
import sys, time
sys.path.insert(0, {folder!r})
sys.argv = sys.argv[1:]
import second_scheduler
from state import turns
class Shifted:
    @staticmethod
    def time():
        return time.time() + {seconds}
turns.time = Shifted
second_scheduler.main()
"""


def names_of(index: int, count: int, many: int) -> "list[str]":
    """So many names of nodes that fall to an instance."""
    mine = Share(index, count)
    return [*itertools.islice(filter(mine.has_node, (f"node-{i:05}" for i in itertools.count())), many)]


def instance(site: Site, index: int, again: str = "") -> Scheduler:
    """One of three."""
    return site.start("--share", f"{index}/{COUNT}", "--lease", "kube-system/wsched", name=f"share-{index}{again}")


def shares(site: Site) -> str:
    """Three instances by one Lease's words, a third of whose nodes have room for six pods: each of 60 pods is bound once, by the instance whose
    turn it is; one that fits nowhere is told of by each, and has its condition once it has gone round."""
    for index in range(1, COUNT + 1):
        for name in names_of(index, COUNT, 6):
            site.node(name, cpu="4", pods=1 if index == 1 else 110)
    # (as an API server says it, in whole seconds)
    made = float(int(time.time()))
    for i in range(60):
        site.pod(f"pod-{i}", created=made)
    site.pod("big", cpu="100", created=made)
    for index in range(1, COUNT + 1):
        instance(site, index)
    site.wait(lambda: site.placed() == 60, 2 * PERIOD + 40, "all pods are bound")
    homes = [0] * COUNT
    for age, uid, node in binds(site, made):
        # (a bind takes its time)
        turns = {Share(index, COUNT).turn(uid, age - late)[0] * index for index in range(1, COUNT + 1) for late in (0, 1, 5)}
        assert owner(node) in turns, f"{uid} was bound to {node}, one of {owner(node)}'s, at the age of {age:.1f} s, when it was the turn of {turns - {0}}"
        homes[owner(node) - 1] += 1
    assert homes[0] == 6, homes
    every = {f"{index}/{COUNT}" for index in range(1, COUNT + 1)}
    told = "each has told of the big one"
    site.wait(lambda: {it["message"].partition("share ")[2][:3] for it in site.events(about="big")} == every, COUNT * PERIOD + 20, told)
    age = conditions(site, made, "default/big")
    leases = sorted(it["metadata"]["name"] for it in site.store.all("leases"))
    assert leases == [f"wsched-{index}-of-{COUNT}" for index in range(1, COUNT + 1)], leases
    last = max(it[0] for it in binds(site, made))
    return f"bound by share: {homes}, the last {last:.0f} s old; the big one's condition came after {age:.0f} s; {site.check()}"


def owner(node: str) -> int:
    """Whose it is."""
    return next(index for index in range(1, COUNT + 1) if Share(index, COUNT).has_node(node))


def changes(site: Site, made: float) -> Iterator[tuple[float, Change]]:
    """What has changed of the pods, and how long after they were made."""
    shift = time.time() - time.monotonic()
    return ((it.when + shift - made, it) for it in site.store.since(0, kept=False) if it.kind == "pods" and it.before and it.after)


def binds(site: Site, made: float) -> "list[tuple[float, str, str]]":
    """The binds: how old the pod was, its uid, and the node."""
    found = []
    for age, it in changes(site, made):
        assert it.before and it.after
        if it.after["spec"].get("nodeName") and not it.before["spec"].get("nodeName"):
            found.append((age, it.after["metadata"]["uid"], it.after["spec"]["nodeName"]))
    return found


def conditions(site: Site, made: float, key: str) -> float:
    """How old a pod was that fits nowhere when that became its condition: no less than all turns but one take."""
    ages = [age for age, it in changes(site, made) if it.key == key and it.after and it.after["status"].get("conditions")]
    assert ages and min(ages) >= (COUNT - 1) * PERIOD - 1, ages
    return min(ages)


def share_killed(site: Site) -> str:
    """Of three instances one is killed: its pods are bound by the others in their turn, and by it once it is there again."""
    for index in range(1, COUNT + 1):
        for name in names_of(index, COUNT, 4):
            site.node(name, cpu="4")
    running = {index: instance(site, index) for index in range(1, COUNT + 1)}
    site.wait(lambda: site.server.count("watch", "pods") >= COUNT, 30, "all watch")
    killed = running[2]
    killed.end(9)
    site.schedulers.remove(killed)
    for i in range(30):
        site.pod(f"pod-{i}", created=time.time())
    theirs = sum(1 for it in site.store.all("pods") if Share(2, COUNT).is_first(it["metadata"]["uid"]))
    took = site.wait(lambda: site.placed() == 30, PERIOD + 20, "all are bound, though one is away")
    assert took > PERIOD / 2, f"those of the one that is away were bound after {took:.0f} s"
    back = instance(site, 2, "-again")
    # (it has the Lease once that of the one that was killed has run out)
    site.wait(lambda: " nodes, " in back.log(), 45, "it has listed all again")
    later = [site.pod(f"later-{i}", created=time.time()) for i in range(12)]
    again = site.wait(lambda: site.placed() == 42, PERIOD - 5, "the next are bound, each in its first turn")
    astray = [it["metadata"]["name"] for it in later if Share(2, COUNT).is_first(it["metadata"]["uid"])
              and not Share(2, COUNT).has_node(site.place(it["metadata"]["name"]) or "")]
    assert not astray, astray
    return f"{theirs} of 30 pods were its own to place first: all bound after {took:.0f} s, and 12 more {again:.1f} s after it was back; {site.check()}"


def share_clocks(site: Site) -> str:
    """Two instances whose clocks are 30 s apart, so that both hold the same turns for their own: each pod is bound once, and no room is lost by it."""
    for index in (1, 2):
        for name in names_of(index, 2, 4):
            site.node(name, cpu="4", pods=110)
    site.server.bind_takes = 0.02
    code = SHIFTED.format(folder=str(site.programs.client), seconds=PERIOD)
    site.start("--share", "1/2", *site.listening(), name="right")
    site.start("--share", "2/2", name="ahead", words=[sys.executable, "-c", code, "second_scheduler.py"])
    site.wait(lambda: site.server.count("watch", "pods") >= 2, 30, "both watch")
    for i in range(40):
        site.pod(f"pod-{i}", created=time.time())
    site.wait(lambda: site.placed() == 40, PERIOD + 20, "all are bound")
    asked = site.server.all("create", "pods/binding")
    refused = sum(1 for it in asked if it.status == 409)
    time.sleep(3)
    for it in site.schedulers:
        os.kill(it.pid, 10)
    time.sleep(2)
    assert not [it for it in site.events() if whom(it).get("kind") == "Node"], "an audit found a difference"
    assert refused, "no bind was refused: the clocks made no difference"
    assert sum(1 for it in asked if it.status == 201) == 40
    return f"40 pods, {len(asked)} binds asked for, {refused} refused, no audit found a difference; {site.check()}"


TRIALS = [shares, share_killed, share_clocks]
