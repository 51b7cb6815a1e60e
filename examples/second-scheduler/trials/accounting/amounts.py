# SPDX-License-Identifier: Apache-2.0
"""Amounts that are no whole number of bytes or of thousandths of a core: what is asked for is rounded up, what there is down."""
from trials.fixtures.site import Site, wait_for, whom

# as the API server keeps 0.1Gi, and as a node may say what it has
TENTH, NODE = "107374182400m", "7134698291200m"


def amounts_bound(site: Site) -> str:
    """Nine bound pods of 0.1Gi (107374182400m) fill a node of 1Gi: one of 512Mi isn't bound there, and one of 100Mi is."""
    site.node("small", memory="1Gi")
    for i in range(9):
        site.pod(f"tenth-{i}", memory=TENTH, on="small", scheduler="default-scheduler")
    site.pod("half", memory="512Mi")
    site.start()
    wait_for(lambda: site.place("half") or site.events(about="half", reason="FailedScheduling"), 20, "a word about the pod of 512Mi")
    assert site.place("half") is None, f"a pod of 512Mi was bound to a node of 1024 MiB where 921.6 MiB were in use: {site.watcher().wrong[0]}"
    site.pod("last", memory="100Mi")
    wait_for(lambda: site.place("last"), 20, "a pod of 100Mi is placed where 102.4 MiB are left")
    return site.check()


def amounts_waiting(site: Site) -> str:
    """Pods of 0.1Gi that wait are placed, as many as there is room for, and a node with 7134698291200m of memory is used."""
    site.node("odd", memory=NODE)
    for i in range(70):
        site.pod(f"tenth-{i}", memory=TENTH, cpu="10m")
    site.start()
    # 7134698291 bytes have room for 66 of 107374183
    wait_for(lambda: site.placed() >= 66, 20, f"66 pods of 0.1Gi on a node of {NODE}: {site.placed()} are bound")
    wait_for(lambda: len({whom(it)["name"] for it in site.events(reason="FailedScheduling")}) >= 4, 20, "the other four are said to fit nowhere")
    assert site.placed() == 66, site.placed()
    return site.check()


def amounts_cpu(site: Site) -> str:
    """CPU finer than a thousandth of a core: 1500u asks for 2m, a node of 3999u has 3m, so one such pod goes there and no second."""
    site.node("fine", cpu="3999u")
    site.pod("a", cpu="1500u")
    site.start()
    wait_for(lambda: site.place("a"), 15, "the first pod is placed")
    site.pod("b", cpu="1500u")
    wait_for(lambda: site.place("b") or site.events(about="b", reason="FailedScheduling"), 15, "a word about the second pod")
    assert site.place("b") is None, "two pods of 2m are on a node of 3m"
    return site.check()


def amounts_unread(site: Site) -> str:
    """A bound pod whose amounts no line can say counts as the most that a line can, so nothing is bound beside it, and the log names it."""
    site.node("one", memory="16Ti")
    site.pod("giant", memory="64Ti", on="one", scheduler="default-scheduler")
    site.pod("small")
    scheduler = site.start()
    wait_for(lambda: site.place("small") or site.events(about="small", reason="FailedScheduling"), 15, "a word about the pod that waits")
    assert site.place("small") is None, "a second pod is on a node that has no memory left"
    said = [it for it in scheduler.log().splitlines() if "default/giant" in it]
    assert said, "the log doesn't name the pod that can't be read"
    return f"{site.check()}; told: {said[0][24:140]}"


TRIALS = [amounts_bound, amounts_waiting, amounts_cpu, amounts_unread]
