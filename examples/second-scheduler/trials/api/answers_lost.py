# SPDX-License-Identifier: Apache-2.0
"""Binds and events whose answers don't come, or are no good ones: each bind ends with what became of it, and none is lost."""
import time

from trials.fixtures.server import Asked
from trials.fixtures.site import Site
from trials.fixtures.store import Thing

def on(pod: Thing, node: str) -> None:
    """A pod has a node."""
    pod["spec"]["nodeName"] = node


def settled(site: Site) -> None:
    """A scheduler runs and has bound a pod, so its connections are there."""
    site.node("a", cpu="64")
    site.start()
    site.pod("first")
    site.wait(lambda: site.place("first") and site.events(about="first"), 20, "it binds, and says so")


def bind_refused(site: Site) -> str:
    """Binds are refused with 400, 401, 403, 409, 410, 422 and 429, three times each: each pod is asked for, and bound when it is tried again. (What
    5xx says is `refused_late`'s.)"""
    settled(site)
    statuses, times, seen = (400, 401, 403, 409, 410, 422, 429), 3, dict[int, int]()

    def refuse(asked: Asked) -> "tuple[int, str] | None":
        if asked.what != "pods/binding":
            return None
        for status in statuses:
            if asked.key == f"default/of-{status}" and seen.get(status, 0) < times:
                seen[status] = seen.get(status, 0) + 1
                return status, f"refused with {status}"
        return None

    site.server.refuse = refuse
    for status in statuses:
        site.pod(f"of-{status}")
    took = site.wait(lambda: all(site.place(f"of-{status}") for status in statuses), 60, "all are bound in the end")
    assert seen == {status: times for status in statuses}, seen
    asked = {it.key for it in site.server.all("get", "pods")}
    assert asked == {f"default/of-{status}" for status in statuses}, asked
    log = site.schedulers[0].log()
    assert all(f"refused with {status}" in log for status in statuses), "the log doesn't say why"
    return f"{sum(seen.values())} refused, all bound after {took:.0f} s; {site.check()}"


def bind_unanswered(site: Site) -> str:
    """Some binds are made, others not, and neither is answered within 30 s: each pod that isn't bound is asked for and tried again once a bind can't be done
    any more; new pods are bound meanwhile."""
    settled(site)
    silent, done = [f"default/silent-{i}" for i in range(4)], set[str]()

    def refuse(asked: Asked) -> "tuple[int, str] | None":
        if asked.what == "pods/binding" and asked.key in silent and asked.key not in done:
            done.add(asked.key)
            if asked.key[-1] in "01":
                site.store.change("pods", asked.key, lambda pod: on(pod, asked.body["target"]["name"]))
            time.sleep(34)
            return 500, "too late"
        return None

    site.server.refuse = refuse
    began = time.monotonic()
    for i in range(4):
        site.pod(f"silent-{i}")
    site.wait(lambda: len(done) == 4, 20, "four binds have no answer")
    site.pod("new")
    new = site.wait(lambda: site.place("new"), 10, "a new pod is bound meanwhile")
    site.wait(lambda: site.placed() == 6, 125, "those that weren't bound are tried again")
    taken = time.monotonic() - began
    assert taken > 90, f"they were bound after {taken:.0f} s"
    asked = {it.key for it in site.server.all("get", "pods")}
    # (that the others are bound their watch has told)
    assert asked == set(silent[2:]), asked
    assert site.server.count("create", "pods/binding") == 1 + 4 + 1 + 2
    return f"a new pod was bound after {new:.1f} s, the two that weren't after {taken:.0f} s; {site.check()}"


def keep_alive_ends(site: Site) -> str:
    """The API server ends each connection with its answer, or a while after it: no bind is lost, and no pod has to be asked for."""
    settled(site)
    site.server.closes = True
    for i in range(40):
        site.pod(f"closed-{i}")
    site.wait(lambda: site.placed() == 41 and len(site.events(reason="Scheduled")) == 41, 30, "all are bound, and told")
    site.server.closes = False
    for turn in range(5):
        site.server.close_idle()
        time.sleep(0.5)
        for i in range(8):
            site.pod(f"idle-{turn}-{i}")
        site.wait(lambda turn=turn: site.placed() == 41 + 8 * (turn + 1), 20, "all are bound")  # type: ignore[misc]
    asked = site.server.count("get", "pods")
    assert asked == 0, f"{asked} pods were asked for"
    return f"80 binds, none asked for; {site.check()}"


def token_renewed(site: Site) -> str:
    """A kubeconfig whose token is made by a program and ends after seconds: binds and events bear a new one, without a list or a lost bind."""
    site.node("a", cpu="64")
    config = site.exec_kubeconfig(seconds=4)
    site.start(config=config)
    bearers = set[str]()
    for turn in range(5):
        site.pod(f"pod-{turn}")
        site.wait(lambda turn=turn: site.place(f"pod-{turn}") and site.events(about=f"pod-{turn}"), 20, "it is bound, and told")  # type: ignore[misc]
        bearers |= {it.bearer for it in site.server.all("create", "pods/binding")}
        time.sleep(3)
    told = {it.bearer for it in site.server.all("create", "events")}
    assert len(bearers) >= 3 and len(told) >= 3, (bearers, told)
    return f"{len(bearers)} tokens in 5 binds; {site.check()}"


TRIALS = [bind_refused, bind_unanswered, keep_alive_ends, token_renewed]
