# SPDX-License-Identifier: Apache-2.0
"""Watches that are shut for a while: nothing is decided and nothing bound meanwhile, nor before what happened is heard as a whole."""
import time
from typing import Callable, Optional

from trials.fixtures.server import RESET, Asked
from trials.fixtures.site import Site
from trials.fixtures.store import Thing
from trials.reporting.metrics import got, scraped, value

# For how long the watches are refused, and for how long a client may go on by what it has heard, in
# seconds: with what is under way.
SHUT, MAY = 12.0, 3.0
WATCHES = 2


def refusing(what: str) -> Callable[[Asked], Optional[tuple[int, str]]]:
    """Refuses the watches of a kind."""
    return lambda asked: (429, "too many requests") if asked.verb == "watch" and asked.what == what else None


def settled(site: Site, *more: str) -> None:
    """A scheduler runs, has both watches, and has bound a pod."""
    site.start(*site.listening(), *more)
    site.pod("first", cpu="10m")
    site.wait(lambda: site.place("first") and len(site.server.watches) >= WATCHES, 20, "it watches, and binds")


def shut(site: Site, what: str) -> float:
    """From now on watches of a kind are refused, and the others opened again: when that was."""
    site.server.refuse = refusing(what)
    site.server.break_watches(RESET)
    return time.monotonic()


def marked(node: Thing) -> None:
    """Nothing is to be placed there."""
    node["spec"]["unschedulable"] = True


def deaf(site: Site) -> str:
    """Watches of nodes are refused for 12 s, while nodes are cordoned or made anew with a core and pods come: no bind is asked for once that has
    lasted 2 s, it isn't ready and says of what it hears nothing, and afterwards each pod is bound where it may be."""
    for i in range(4):
        site.node(f"node-{i}", cpu="4")
    settled(site)
    began, made = shut(site, "nodes"), 0
    for i in range(4):
        if i % 2:
            site.delete_node(f"node-{i}")
            site.node(f"node-{i}", cpu="1")
        else:
            site.store.change("nodes", f"node-{i}", marked)
    while time.monotonic() < began + SHUT:
        site.pod(f"pod-{made}", cpu="190m")
        made += 1
        time.sleep(1)
    late = [it for it in site.server.all("create", "pods/binding") if it.when > began + MAY]
    assert not late, f"{len(late)} binds were asked for while nodes weren't heard of, the last after {late[-1].when - began:.1f} s"
    status, why = got(site, "/readyz")
    assert status == 503 and "node" in why, f"/readyz said {status}: {why}"
    lasted = value(scraped(site), "wsched_watch_shut_seconds", kind="node")
    assert lasted > SHUT - 3, f"the metric says {lasted:.1f} s"
    assert value(scraped(site), "wsched_watch_shut_seconds", kind="pod") == 0
    site.server.refuse = lambda asked: None
    site.node("new", cpu="4")
    took = site.wait(lambda: site.placed() > made, 30, "all are bound once nodes are heard of")
    assert got(site, "/readyz")[0] == 200
    astray = [it.body["target"]["name"] for it in site.server.all("create", "pods/binding") if it.when > began + MAY]
    assert not {"node-0", "node-2"} & set(astray), f"bound to a node that was cordoned: {astray}"
    return f"{made} pods came, none bound after {MAY:.0f} s; all were {took:.1f} s after it could hear; {site.check()}"


def deaf_behind(site: Site) -> str:
    """While watches of pods are refused, all that runs goes and others take its place on every node but one: a pod that waits is bound when all of
    that is heard, and to that one."""
    for i in range(200):
        site.node(f"node-{i:03}", cpu="1")
        site.pod(f"runs-{i}", cpu="900m", on=f"node-{i:03}", scheduler="default-scheduler")
    settled(site)
    site.pod("waits", cpu="600m")
    site.wait(lambda: site.events(about="waits", reason="FailedScheduling"), 20, "the pod fits nowhere")
    shut(site, "pods")
    for i in range(200):
        site.delete_pod(f"runs-{i}")
    for i in range(200):
        if i != 150:
            site.pod(f"other-{i}", cpu="900m", on=f"node-{i:03}", scheduler="default-scheduler")
    time.sleep(4)
    site.server.refuse = lambda asked: None
    took = site.wait(lambda: site.place("waits"), 40, "the pod that waits is bound")
    assert site.place("waits") == "node-150", f"bound to {site.place('waits')}: {site.watcher().wrong[:1]}"
    return f"bound {took:.1f} s after pods could be heard of; {site.check()}"


def retry_after(site: Site) -> str:
    """Watches are refused with 429 and Retry-After: 5: no watch is asked for sooner than that, and the pauses of two kinds aren't the same."""
    site.node("a")
    settled(site)
    site.server.retry_after = 5
    site.server.refuse = lambda asked: (429, "too many requests") if asked.verb == "watch" else None
    site.server.break_watches(RESET)
    began = time.monotonic()
    time.sleep(18)
    site.server.refuse = lambda asked: None
    gaps = {}
    for what in ("nodes", "pods"):
        when = [it.when for it in site.server.all("watch", what, began)]
        gaps[what] = [b - a for a, b in zip(when, when[1:])]
        assert gaps[what] and min(gaps[what]) >= 5, f"watches of {what} were asked for again after {gaps[what]} s"
    assert all(abs(a - b) > 0.01 for a, b in zip(*gaps.values())), gaps
    site.pod("second")
    site.wait(lambda: site.place("second"), 30, "a pod is bound when watches are answered again")
    return f"pauses: {', '.join(f'{what} ' + ' '.join(f'{it:.1f}' for it in some) for what, some in gaps.items())} s; {site.check()}"


TRIALS = [deaf, deaf_behind, retry_after]
