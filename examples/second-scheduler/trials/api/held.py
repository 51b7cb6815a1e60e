# SPDX-License-Identifier: Apache-2.0
"""Binds that come late: a place is kept for as long as its bind may still be done, and given back so that none that comes later is."""
import sys
import time

from trials.fixtures.server import Asked
from trials.fixtures.site import Site
from trials.fixtures.store import Thing
from trials.reporting.metrics import scraped, value

# For how long a place is kept from the sending of its bind on, in seconds, where that is given up
# after 30.
LANDS = 90.0
# How it is started so that a bind lands, or doesn't, within seconds.
HURRIED = """
import sys
sys.path.insert(0, {folder!r})
sys.argv = sys.argv[1:]
from api import binding
binding.LANDS = binding.LASTS = 3.0
import second_scheduler
second_scheduler.main()
"""


class Held:
    """Holds the first binds of some pods back, for so many seconds, and passes them on then."""

    def __init__(self, seconds: float, *names: str) -> None:
        self.seconds, self.names, self.when = seconds, {f"default/{it}" for it in names}, dict[str, float]()

    def __call__(self, asked: Asked) -> None:
        if asked.what == "pods/binding" and asked.key in self.names and asked.key not in self.when:
            self.when[asked.key] = asked.when
            time.sleep(self.seconds)


def settled(site: Site) -> None:
    """A scheduler runs, and has bound a pod; the API server tests no version, as those up to 1.20 don't."""
    site.start(*site.listening())
    site.pod("before", cpu="10m")
    site.wait(lambda: site.place("before"), 20, "it binds")
    site.server.tests_version = False


def hold_first(site: Site, seconds: float) -> None:
    """A node of a core, and the bind of a pod of 600m that is held back for so long."""
    site.node("a", cpu="1")
    settled(site)
    site.server.refuse = Held(seconds, "first")
    site.pod("first", cpu="600m")
    site.wait(lambda: site.server.count("create", "pods/binding") == 2, 20, "the bind is under way")


def held(site: Site) -> str:
    """A bind is held back for 36 s and then done: its place is kept meanwhile, so a second pod that has room only without it isn't bound."""
    hold_first(site, 36)
    site.pod("second", cpu="600m")
    time.sleep(33)
    assert value(scraped(site), "wsched_binds_in_doubt") == 1
    took = site.wait(lambda: site.place("first"), 10, "the bind that was held is done")
    site.wait(lambda: value(scraped(site), "wsched_binds_in_doubt") == 0, 20, "it is known to be done")
    time.sleep(5)
    assert site.place("second") is None, f"both are on the node: {site.watcher().wrong}"
    return f"done {33 + took:.0f} s after it was sent, and the second pod waits; {site.check()}"


def held_listed(site: Site) -> str:
    """The same for 12 s, in which all is listed anew, twice: the pod whose bind is held is told with the others of the list, so its place is kept."""
    hold_first(site, 12)
    for turn in range(2):
        lists = site.server.count("list", "pods")
        site.store.compact()
        site.server.break_watches("gone")
        anew = "all is listed anew"
        site.wait(lambda lists=lists: site.server.count("list", "pods") > lists and len(site.server.watches) >= 2, 20, anew)  # type: ignore[misc]
        site.pod(f"second-{turn}", cpu="600m")
        site.wait(lambda turn=turn: site.events(about=f"second-{turn}", reason="FailedScheduling"), 20, "a word about a second pod")  # type: ignore[misc]
    took = site.wait(lambda: site.place("first"), 20, "the bind that was held is done")
    time.sleep(3)
    assert site.placed() == 2, f"another is on the node: {site.watcher().wrong}"
    return f"done {took:.1f} s later, and the others wait; {site.check()}"


def held_fenced(site: Site) -> str:
    """A bind is held back for 110 s: 90 s after it was sent the pod's version is moved, then its place is given back and the pod placed again; what
    comes late is refused."""
    site.node("a", cpu="1")
    settled(site)
    site.server.tests_version = True
    hold = Held(110, "first")
    site.server.refuse = hold
    site.pod("first", cpu="600m")
    site.wait(lambda: hold.when, 20, "the bind is under way")
    sent = hold.when["default/first"]
    # (the node is to be another's when the place is given back)
    site.node("b", cpu="1")
    site.wait(lambda: site.place("first"), LANDS + 30, "the pod is placed again")
    binds = [it for it in site.server.all("create", "pods/binding") if it.key == "default/first"]
    fences = [it.when for it in site.server.all("patch", "pods/status") if it.key == "default/first" and sent + 1 < it.when < binds[-1].when]
    assert len(binds) == 2 and fences, f"{len(binds)} binds, fences after {[f'{it - sent:.0f} s' for it in fences]}"
    assert binds[1].when - sent > LANDS and fences[0] - sent >= LANDS, f"tried again {binds[1].when - sent:.1f} s after the bind was sent"
    site.wait(lambda: binds[0].status, 60, "the bind that was held is answered")
    assert binds[0].status == 409, f"the bind that came late was answered with {binds[0].status}"
    return f"fenced after {fences[0] - sent:.1f} s, placed again after {binds[1].when - sent:.1f} s, and the first refused then; {site.check()}"


def refused_late(site: Site) -> str:
    """Binds are refused with 500, 502, 503 and 504, three times each, none of which says that nothing is done: with a client that gives binds 3 s
    to be done in, each place is kept so long, and each pod is bound when it is tried again. One is done in spite of its 504."""
    site.node("a", cpu="64")
    site.start(words=[sys.executable, "-c", HURRIED.format(folder=str(site.programs.client)), "second_scheduler.py"])
    site.pod("before", cpu="10m")
    site.wait(lambda: site.place("before"), 20, "it binds")
    statuses, seen = (500, 502, 503, 504), dict[str, list[float]]()

    def bound(pod: Thing) -> None:
        pod["spec"]["nodeName"] = "a"

    def refuse(asked: Asked) -> "tuple[int, str] | None":
        if asked.what != "pods/binding" or asked.key == "default/before":
            return None
        when = seen.setdefault(asked.key, [])
        when.append(asked.when)
        if asked.key == "default/done":
            site.store.change("pods", asked.key, bound)
            return 504, "request did not complete within the allotted timeout"
        return (int(asked.key[-3:]), "it may be done or not") if len(when) <= 3 else None

    site.server.refuse = refuse
    for status in statuses:
        site.pod(f"of-{status}")
    site.pod("done")
    site.wait(lambda: all(site.place(f"of-{status}") for status in statuses), 60, "all are bound in the end")
    time.sleep(5)
    gaps = [b - a for when in seen.values() for a, b in zip(when, when[1:])]
    assert len(gaps) == 12 and min(gaps) >= 3.0, f"tried again after {min(gaps):.1f} s"
    assert len(seen["default/done"]) == 1, "the one that was done was bound again"
    return f"{len(gaps)} refused, tried again after {min(gaps):.1f} s at the earliest; {site.check()}"


def hidden(site: Site) -> str:
    """Pods may not be read by their names, and binds are refused, one with 409, one with 503: each pod is listed by its name instead, the log says which
    right is missing, and both are bound when they are tried again, the second after the 3 s in which its bind may be done."""
    site.node("a", cpu="64")
    it = site.start(words=[sys.executable, "-c", HURRIED.format(folder=str(site.programs.client)), "second_scheduler.py"])
    site.pod("before", cpu="10m")
    site.wait(lambda: site.place("before"), 20, "it binds")
    seen = dict[str, list[float]]()

    def refuse(asked: Asked) -> "tuple[int, str] | None":
        if (asked.verb, asked.what) == ("get", "pods"):
            return 403, 'User "x" cannot get resource "pods"'
        if asked.what == "pods/binding" and asked.key != "default/before":
            seen.setdefault(asked.key, []).append(asked.when)
            return (int(asked.key[-3:]), "not now") if len(seen[asked.key]) == 1 else None
        return None

    site.server.refuse = refuse
    for status in (409, 503):
        site.pod(f"of-{status}")
    site.wait(lambda: site.place("of-409") and site.place("of-503"), 30, "both are bound")
    late = seen["default/of-503"][1] - seen["default/of-503"][0]
    assert late >= 3.0, f"the place of one that might be done was given back after {late:.1f} s"
    assert 'cannot get resource "pods"' in it.log()
    listed = {asked.query.get("fieldSelector") for asked in site.server.all("list", "pods")}
    assert {"metadata.name=of-409", "metadata.name=of-503"} <= listed, listed
    return f"tried again after {late:.1f} s; {site.check()}"


def hidden_whole(site: Site) -> str:
    """Pods may neither be read nor listed by their names: a pod whose bind was refused with 503 isn't tried again, since nobody knows how that ended, and the
    log says so. Others are bound."""
    site.node("a", cpu="64")
    it = site.start(*site.listening(), words=[sys.executable, "-c", HURRIED.format(folder=str(site.programs.client)), "second_scheduler.py"])
    site.pod("before", cpu="10m")
    site.wait(lambda: site.place("before"), 20, "it binds")
    seen = list[float]()

    def refuse(asked: Asked) -> "tuple[int, str] | None":
        if asked.what == "pods" and (asked.verb == "get" or "metadata.name" in asked.query.get("fieldSelector", "")):
            return 403, 'User "x" cannot get resource "pods"'
        if asked.what == "pods/binding" and asked.key == "default/of-503":
            seen.append(asked.when)
            return 503, "not now"
        return None

    site.server.refuse = refuse
    site.pod("of-503")
    site.wait(lambda: "of-503: what became of its bind" in it.log(), 30, "the log says that nobody knows how it ended")
    site.wait(lambda: value(scraped(site), "wsched_binds_under_way") == 0, 10, "nobody waits for it")
    site.pod("other")
    site.wait(lambda: site.place("other"), 20, "another pod is bound")
    time.sleep(3)
    assert len(seen) == 1, it.log()[-300:]
    return f"{len(seen)} bind of it was asked for; {site.check()}"


def hidden_briefly(site: Site) -> str:
    """Pods may neither be read nor listed by their names for 6 s, as where an API server has just been started and hasn't read its roles yet, when it is
    to be known what became of a bind that was refused with 503, and of one with 409: both pods are bound when that is known."""
    site.node("a", cpu="64")
    site.start(words=[sys.executable, "-c", HURRIED.format(folder=str(site.programs.client)), "second_scheduler.py"])
    site.pod("before", cpu="10m")
    site.wait(lambda: site.place("before"), 20, "it binds")
    seen, hides = dict[str, list[float]](), time.monotonic() + 6.0

    def refuse(asked: Asked) -> "tuple[int, str] | None":
        if time.monotonic() < hides and asked.what == "pods" and (asked.verb == "get" or "metadata.name" in asked.query.get("fieldSelector", "")):
            return 403, 'User "x" cannot get resource "pods"'
        if asked.what == "pods/binding":
            seen.setdefault(asked.key, []).append(asked.when)
            return (int(asked.key[-3:]), "not now") if len(seen[asked.key]) == 1 else None
        return None

    site.server.refuse = refuse
    for status in (409, 503):
        site.pod(f"of-{status}")
    took = site.wait(lambda: site.place("of-409") and site.place("of-503"), 40, f"both are bound: {site.schedulers[0].log()[-400:]}")
    return f"both bound after {took:.1f} s; {site.check()}"


TRIALS = [hidden, hidden_briefly, hidden_whole, held, held_listed, held_fenced, refused_late]
