# SPDX-License-Identifier: Apache-2.0
"""Watches that are refused, that end, break or go silent, and the version that they have lost: how often everything is listed."""
import time

from trials.fixtures.server import CUT, RESET, SILENT, Asked
from trials.fixtures.site import Site, wait_for

SECONDS = 15.0


def settled(site: Site, name: str) -> None:
    """A scheduler runs, has both watches, and has bound a pod."""
    site.node("a")
    site.start()
    site.pod(name)
    wait_for(lambda: site.place(name) and len(site.server.watches) >= 2, 20, "it watches, and binds")


def counted(site: Site, since: float) -> dict[str, tuple[int, int]]:
    """The lists and the watches of each kind since then."""
    return {what: (site.server.count("list", what, since), site.server.count("watch", what, since)) for what in ("nodes", "pods")}


def refused(site: Site, status: int) -> str:
    """Watches are refused for 15 s, and then no longer."""
    settled(site, "first")

    def refuse(asked: Asked) -> "tuple[int, str] | None":
        return (status, f"watches are refused with {status}") if asked.verb == "watch" else None

    site.server.refuse = refuse
    site.server.break_watches(RESET)
    began = time.monotonic()
    time.sleep(SECONDS)
    counts = counted(site, began)
    site.server.refuse = lambda asked: None
    site.pod("second")
    taken = wait_for(lambda: site.place("second"), 15, "a pod is bound when watches are answered again")
    for what, (lists, watches) in counts.items():
        assert lists <= 1 and watches <= 12, f"{what} were listed {lists} times and watched {watches} times in {SECONDS:.0f} s of {status}"
    return f"lists and watches in {SECONDS:.0f} s: {counts}; bound {taken:.1f} s later; {site.check()}"


def watch_403(site: Site) -> str:
    """Watches refused with 403 for 15 s: at most one list and 12 watches of each kind; afterwards a new pod is bound within 15 s."""
    return refused(site, 403)


def watch_429(site: Site) -> str:
    """The same with 429, which asks for patience."""
    return refused(site, 429)


def watch_500(site: Site) -> str:
    """The same with 500."""
    return refused(site, 500)


def watch_ends(site: Site) -> str:
    """Watches that end as soon as they are opened, for 15 s: at most one list and 12 watches of each kind; pods are bound meanwhile."""
    settled(site, "first")
    site.server.watch_lasts = 0.0
    site.server.break_watches(CUT)
    began = time.monotonic()
    time.sleep(SECONDS)
    counts = counted(site, began)
    site.server.watch_lasts = 120.0
    site.pod("second")
    taken = wait_for(lambda: site.place("second"), 15, "a pod is bound when watches stay open again")
    for what, (lists, watches) in counts.items():
        assert lists <= 1 and watches <= 12, f"{what} were listed {lists} times and watched {watches} times in {SECONDS:.0f} s"
    return f"lists and watches in {SECONDS:.0f} s: {counts}; bound {taken:.1f} s later; {site.check()}"


def watch_breaks(site: Site) -> str:
    """Watches broken by a reset, and in the midst of a line, with changes meanwhile: taken up at the version where they ended, no list."""
    settled(site, "first")
    since, last = time.monotonic(), ""
    for round_, how in enumerate([RESET, CUT, RESET, CUT]):
        version, began = site.store.version(), time.monotonic()
        site.server.break_watches(how)
        # both happen while nobody may be watching
        last = f"pod-{round_}"
        site.pod(last)
        wait_for(lambda name=last: site.place(name), 15, f"a pod that came while the watch was broken ({how}) is bound")  # type: ignore[misc]
        again = [it for what in ("nodes", "pods") for it in site.server.all("watch", what, began)]
        lists = sum(site.server.count("list", what, began) for what in ("nodes", "pods"))
        assert lists == 0, f"{lists} lists when the watches were broken ({how})"
        wait_for(lambda: len(site.server.watches) >= 2, 15, "both watches are open again")
        old = [it.query.get("resourceVersion") for it in again if int(it.query.get("resourceVersion") or 0) > version + 1]
        assert not old, f"a watch was taken up at {old}, and had been told up to {version} at most"
    return f"lists and watches after 4 breaks: {counted(site, since)}; {site.check()}"


def watch_gone(site: Site) -> str:
    """The version is no longer kept (410 in the watch, and as its status), and things went meanwhile: one list of each kind, and no more."""
    settled(site, "first")
    site.node("b", pods=0)
    shown = []
    for how in ("gone", RESET):
        since = time.monotonic()
        site.server.break_watches(how)
        site.delete_pod("first")
        site.store.compact()
        site.pod("first")
        wait_for(lambda: site.place("first"), 20, "a pod that came while nobody watched is bound")
        wait_for(lambda: len(site.server.watches) >= 2, 15, "both watches are open again")
        time.sleep(2)
        counts = counted(site, since)
        assert all(1 <= lists <= 2 and watches <= 5 for lists, watches in counts.values()), f"lists and watches after 410 ({how}): {counts}"
        shown.append(counts)
    return f"lists and watches after 410: {shown}; {site.check()}"


def half_open(site: Site) -> str:
    """The other end of the watches is gone without a word (as a machine that lost its power): they are opened anew within 45 s."""
    settled(site, "first")
    # (what the client acknowledges late would be answered with a reset, as no machine without power
    # answers)
    time.sleep(1)
    began = time.monotonic()
    site.server.break_watches(SILENT)
    site.pod("second")
    taken = wait_for(lambda: site.place("second"), 45, "a pod is bound that came when the watches had gone silent")
    assert taken > 2, f"the pod was heard of after {taken:.1f} s: the client was told that the connections were gone"
    assert all(lists == 0 for lists, _ in counted(site, began).values()), f"everything was listed: {counted(site, began)}"
    return f"heard again after {taken:.1f} s, without a list; {site.check()}"


def away(site: Site) -> str:
    """Lists are refused with 500 at the start for 10 s: at most 12 of each kind, and afterwards all goes on within 15 s."""
    site.node("a")
    site.pod("first")
    site.server.refuse = lambda asked: (500, "not yet") if asked.verb == "list" else None
    began = time.monotonic()
    site.start()
    time.sleep(10)
    counts = counted(site, began)
    site.server.refuse = lambda asked: None
    taken = wait_for(lambda: site.place("first"), 15, "the pod is bound")
    assert all(lists <= 12 for lists, _ in counts.values()), counts
    return f"lists and watches in 10 s: {counts}; bound {taken:.1f} s later; {site.check()}"


TRIALS = [watch_403, watch_429, watch_500, watch_ends, watch_breaks, watch_gone, half_open, away]
