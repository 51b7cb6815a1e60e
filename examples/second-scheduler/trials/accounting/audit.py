# SPDX-License-Identifier: Apache-2.0
"""The audit of a watch by lists: no difference while all is well, and an event that is lost is found and told."""
import os
import signal
import time

from trials.fixtures.site import HERE, Site, whom
from trials.reporting.metrics import scraped, value


def relayed(site: Site) -> str:
    """A program that stands before wsched and loses the events that have a text of the file `lost`."""
    (site.folder / "lost").write_text("", encoding="utf-8")
    program = site.folder / "relay"
    relay = HERE / "trials/fixtures/relay.py"
    program.write_text(f'#!/bin/sh\nexec "{relay}" "{site.programs.wsched}" "{site.folder}" "$@"\n', encoding="utf-8")
    program.chmod(0o755)
    return str(program)


def lose(site: Site, name: str, node: str, cpu: str) -> None:
    """A pod that runs on a node, and whose event is lost."""
    with site.store.changed:
        uid = site.pod(name, cpu=cpu, on=node, scheduler="default-scheduler")["metadata"]["uid"]
        with open(site.folder / "lost", "a", encoding="utf-8") as lost:
            lost.write(f"{uid}\n")


def differences(site: Site) -> "list[str]":
    """Whom the events are of that tell of a list that has what its watch didn't tell."""
    return [str(whom(it)["name"]) for it in site.events(reason="ListDifference")]


def audit(site: Site) -> str:
    """An event of a pod that runs is lost on its way: at the end of the next list, which SIGUSR1 asks for, the log, an event of the pod and a metric say so,
    and the pod counts. One that was told makes no difference."""
    site.node("a", cpu="4")
    site.pod("first")
    it = site.start(*site.listening(), wsched=relayed(site))
    site.wait(lambda: site.place("first"), 20, "it binds")
    lose(site, "lost", "a", "3500m")
    site.pod("told", cpu="10m", on="a", scheduler="default-scheduler")
    site.pod("small", cpu="10m")
    site.wait(lambda: site.place("small"), 20, "a pod is bound")
    lists, began = site.server.count("list", "pods"), time.monotonic()
    os.kill(it.pid, signal.SIGUSR1)
    time.sleep(2)
    # (its watch is ended at its next event)
    site.pod("next", cpu="10m")
    site.wait(lambda: site.server.count("list", "pods") > lists, 30, "pods are listed anew")
    asked = site.wait(lambda: differences(site), 20, f"an event of the pod: {it.log()[-300:]}")
    assert differences(site) == ["lost"], differences(site)
    assert value(scraped(site), "wsched_list_differences") == 1 and "pod default/lost" in it.log()
    site.pod("large", cpu="600m")
    site.wait(lambda: site.events(about="large", reason="FailedScheduling"), 20, "the pod counts by now")
    assert it.runs() and site.place("large") is None and time.monotonic() - began < 90
    return f"told {asked:.1f} s after the list; {site.check()}"


def audit_quiet(site: Site) -> str:
    """While pods come, are bound, end and go for 20 s, with lists asked for each second and slow binds: no difference is ever found."""
    for i in range(10):
        site.node(f"node-{i}", cpu="4")
    site.server.bind_takes = 0.2
    it = site.start(*site.listening())
    site.wait(lambda: len(site.server.watches) >= 2, 20, "it watches")
    for turn in range(20):
        for i in range(15):
            site.pod(f"pod-{turn}-{i}", cpu="300m")
        for i in range(15):
            if turn > 2:
                site.delete_pod(f"pod-{turn - 3}-{i}")
        if turn == 10:
            site.store.delete("nodes", "node-9")
        if turn == 14:
            site.node("node-9", cpu="2")
        os.kill(it.pid, signal.SIGUSR1)
        time.sleep(1)
        assert it.runs(), f"it ended with status {it.wait(0)}"
        found = scraped(site)
        assert value(found, "wsched_list_differences") == 0, it.log()[-500:]
    audits = value(found, "wsched_list_audits_total")
    assert audits >= 6 and not differences(site), f"{audits} lists, {differences(site)}"
    # (what is decided when a node goes may still be bound to it)
    seen = site.watcher()
    wrong = [each for each in seen.wrong if "isn't there" not in each]
    assert not wrong, wrong[:3]
    return f"{audits:.0f} lists without a difference; {seen.bound} bound, no node over its room, no pod moved"


TRIALS = [audit, audit_quiet]
