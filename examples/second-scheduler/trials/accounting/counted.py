# SPDX-License-Identifier: Apache-2.0
"""Pods on nodes that are hard to count: long ones, and those of which no line can say what they ask for. None counts as less than it is."""
import time

from trials.fixtures.site import Scheduler, Site, peak_of, whom
from trials.fixtures.store import Thing
from trials.reporting.metrics import scraped, value

# Half of what a line may have, where each character has two bytes, and six as JSON may spell it in
# ASCII.
LETTERS = 600_000
# How many long pods there are, and how much more memory the client may have with them, in MiB.
LONG, MOST = 60, 40


def with_init(name: str, memory: str, command: str) -> Thing:
    """The containers of a pod whose init container has a long command."""
    requests = {"resources": {"requests": {"cpu": "10m", "memory": memory}}}
    first = {"name": "first", "image": "x", "command": ["echo", command]}
    return {"containers": [{"name": name, "image": "x", **requests}], "initContainers": [first]}


def waits(site: Site, it: Scheduler) -> None:
    """A pod comes that has no room beside what is there, and it is said to have none; another is bound elsewhere."""
    site.pod("small", memory="512Mi")
    site.node("other", memory="256Mi")
    site.pod("fits", memory="128Mi")
    site.wait(lambda: site.place("fits"), 30, f"a pod that fits is bound: {it.log()[-200:]}")
    site.wait(lambda: site.place("small") or site.events(about="small", reason="FailedScheduling"), 30, "a word about the pod that waits")
    assert site.place("fits") == "other" and site.place("small") is None, f"bound beside what isn't counted: {site.watcher().wrong}"


def counted_long(site: Site) -> str:
    """A pod on a node with an init container of a command of 600,000 times `é`, which is left out of what wsched is told, counts for what it
    asks for; 60 of them take little memory of the client."""
    site.node("one", memory="1Gi")
    it = site.start(*site.listening())
    site.pod("first", memory="1Mi")
    site.wait(lambda: site.place("first"), 20, "it binds")
    site.pod("long", on="one", scheduler="default-scheduler", spec=with_init("c", "900Mi", LETTERS * "é"))
    waits(site, it)
    before = peak_of(it.pid)
    for i in range(1, LONG):
        site.pod(f"long-{i}", on="one", scheduler="default-scheduler", spec=with_init("c", "1Mi", f"{i}" + LETTERS * "é"))
    site.wait(lambda: places(site) == LONG + 2, 60, "all are heard of")
    more = peak_of(it.pid) - before
    assert value(scraped(site), "wsched_pods_not_read") == 0
    assert more <= MOST, f"the client had {before} MiB, and {more} more with {LONG} such pods"
    return f"the client had {before} MiB with one, and {more} more with {LONG}; {site.check()}"


def places(site: Site) -> float:
    """How many pods have a place, as wsched is asked each 30 s."""
    time.sleep(1)
    return value(scraped(site), "wsched_places", state="bound")


def counted_whole(site: Site) -> str:
    """A pod on a node that is longer than any line may be, by what can't be left out, counts as everything there is, and a metric, an event and the log say
    so. It is told no more once the pod is read."""
    some = [{"topologyKey": f"{i:0100}", "whenUnsatisfiable": f"{i:0100}"} for i in range(12_000)]
    site.node("one", memory="1Gi", cpu="4")
    site.pod("long", memory="1Mi", on="one", scheduler="default-scheduler", spec={"topologySpreadConstraints": some})
    it = site.start(*site.listening())
    waits(site, it)
    site.wait(lambda: value(scraped(site), "wsched_pods_not_read") == 1, 10, "a metric tells of it")
    told = [event for event in site.events(about="long") if event["reason"] == "NotCounted"]
    assert len(told) == 1 and whom(told[0])["name"] == "long", told
    assert "default/long" in it.log() and "Traceback" not in it.log()

    def shorter(pod: Thing) -> None:
        pod["spec"].pop("topologySpreadConstraints")

    site.store.change("pods", "default/long", shorter)
    site.wait(lambda: site.place("small") == "one", 30, "the pod that waits is bound once it counts for what it asks for")
    site.wait(lambda: value(scraped(site), "wsched_pods_not_read") == 0, 10, "the metric tells no more of it")
    return f"{told[0]['message'][:120]}; {site.check()}"


def counted_shrunk(site: Site) -> str:
    """What the status of a pod on a node says of what it holds counts too, since it may be more than the pod asks for by now."""
    site.node("one", cpu="16")
    site.pod("shrunk", cpu="1", on="one", scheduler="default-scheduler")
    status = {"name": "c", "allocatedResources": {"cpu": "8", "memory": "4Gi"}, "resources": {"requests": {"cpu": "8"}}, "imageID": "x"}

    def holds(it: Thing) -> None:
        it["status"]["containerStatuses"] = [status, {"name": "other", "imageID": "y"}]

    site.store.change("pods", "default/shrunk", holds)
    it = site.start()
    site.pod("waits", cpu="7")
    site.wait(lambda: site.place("waits"), 20, "a pod of 7 cores is bound beside one that holds 8 of 16")
    site.pod("other", cpu="2")
    site.wait(lambda: site.place("other") or site.events(about="other", reason="FailedScheduling"), 20, f"a word about one of 2: {it.log()[-200:]}")
    assert site.place("other") is None, "it is bound where 15 of 16 cores are held"
    return site.check()


TRIALS = [counted_long, counted_whole, counted_shrunk]
