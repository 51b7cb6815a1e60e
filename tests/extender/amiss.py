# SPDX-License-Identifier: Apache-2.0
"""Trials of the extender where something is amiss: a wsched that hangs or ends, a watch that is
away, lists that aren't there yet."""
import collections
import concurrent.futures
import functools
import itertools
import random
import signal
import time
from typing import Callable

from trials.fixtures.answers import merge
from trials.fixtures.server import CUT, RESET
from trials.fixtures.site import PATIENCE, REGION, Site, wait_for

from caller import EUROPE, KEEP, PERSONAL, PREFER, Caller, Running, check, pod
from stubbed import some_nodes


def hung(site: Site) -> str:
    """wsched is killed, and stopped: the next question is answered, by one that was begun anew and
    told what is known; while nobody asks it is noticed too, and told by log and metric. The
    program is away: not ready, an `Error`, and well again when it is back."""
    nodes = some_nodes(site, 30)
    program = site.folder / "wsched"
    program.symlink_to(site.programs.wsched)
    running, used = Running(site, KEEP, PREFER, wsched=str(program)).ready(), dict.fromkeys(
        nodes, 0
    )
    site.pod("on", on="node-0000", scheduler="other")
    used["node-0000"] = 1
    time.sleep(0.5)
    taken = []
    for how, count in ((signal.SIGKILL, 1), (signal.SIGSTOP, 2)):
        running.kill_core(how)
        began = time.monotonic()
        check(running, pod(f"asked-{count}", PERSONAL), nodes, used, [*nodes])
        taken.append(time.monotonic() - began)
        assert (
            running.begun_anew() == count and taken[-1] < 10 * PATIENCE
        ), f"begun anew {running.begun_anew():.0f} times, {taken} s"
    running.kill_core(signal.SIGKILL)
    wait_for(lambda: running.begun_anew() == 3, 5, "it is noticed though nobody asks")
    running.kill_core(signal.SIGSTOP)
    wait_for(lambda: running.begun_anew() == 4, 15, "one that hangs is noticed too")
    # (more than a pipe takes, on nodes that have room for it)
    running.kill_core(signal.SIGSTOP)
    for i in range(1000):
        on = f"node-{2 + 3 * (i % 10):04}"
        site.pod(f"more-{i}", on=on, scheduler="other")
        used[on] += 1
    wait_for(lambda: running.begun_anew() == 5, 15, "it is though many pods come meanwhile")
    running.wait_for_places(1001)
    check(running, pod("asked-5", PERSONAL), nodes, used, [*nodes])
    program.unlink()
    running.kill_core(signal.SIGKILL)
    wait_for(lambda: running.caller.get("/readyz")[0] == 503, 10, "it isn't ready")
    error = running.error(pod("asked-3"), [*nodes])
    assert "wsched isn't heard" in error and running.caller.get("/healthz")[0] == 200, error
    program.symlink_to(site.programs.wsched)
    running.ready(10)
    check(running, pod("asked-4", PERSONAL), nodes, used, [*nodes])
    assert "it is begun anew with 30 nodes and 1 pods" in running.it.log(), running.it.log()
    assert running.caller.metrics()["wsched_extender_lines_refused"] == 0
    return f"answered {taken[0]:.1f} s after a kill, and {taken[1]:.1f} s after a stop; {error}"


def chaos(site: Site) -> str:
    """For 20 s 8 callers ask, while wsched is killed and stopped, watches break, and pods and
    labels that no rule reads come and go: each answer is the right one, or an `Error`, and at the
    end all is well."""
    nodes = some_nodes(site, 100)
    running = Running(site, KEEP, PREFER).ready()
    europe = [name for name, it in nodes.items() if it["labels"][REGION] == EUROPE]
    until, counts, dice = time.monotonic() + 20, collections.Counter[str](), random.Random(5)

    def one_caller(number: int) -> None:
        own = Caller(running.port)
        for i in itertools.count():
            if time.monotonic() > until:
                return
            labels = PERSONAL if i % 2 else {}
            status, said = own.ask("filter", pod(f"of-{number}-{i}", labels), [*nodes])
            error = said.get("Error", "")
            assert status == 200 and (not error or "isn't heard" in error), f"{status} {said}"
            counts["error" if error else "right"] += 1
            if not error:
                assert sorted(said["NodeNames"]) == (europe if labels else sorted(nodes))

    with concurrent.futures.ThreadPoolExecutor(8) as some:
        asking = [some.submit(one_caller, i) for i in range(8)]
        for i in itertools.count():
            if time.monotonic() > until:
                break
            name = dice.choice([*nodes])
            counts[what := dice.choice(("SIGKILL", "SIGSTOP", "watch", "pod", "pod", "label"))] += 1
            if what.startswith("SIG") and running.cores():
                running.kill_core(getattr(signal, what))
            elif what == "watch":
                site.server.break_watches(dice.choice([RESET, CUT]))
            elif what == "pod":
                site.pod(f"on-{i}", on=name, scheduler="other")
            elif what == "label":
                change = functools.partial(merge, patch={"metadata": {"labels": {"n": str(i)}}})
                site.store.change("nodes", name, change)
            time.sleep(dice.random())
        for it in asking:
            it.result(60)
    running.ready(30)
    used = collections.Counter(it["spec"].get("nodeName", "") for it in site.store.all("pods"))
    running.wait_for_places(sum(used.values()))
    check(running, pod("last", {**PERSONAL, "wished-zone": "a"}), nodes, used, [*nodes])
    assert counts["right"] > 50 and running.caller.metrics()["wsched_extender_lines_refused"] == 0
    return ", ".join(f"{what} {count}" for what, count in counts.items())


def not_ready(running: Running) -> None:
    """Waits until it isn't."""
    wait_for(lambda: running.caller.get("/readyz")[0] == 503, 10, "it isn't ready")


def away(site: Site) -> str:
    """A watch that is away: not ready within some seconds, answers of what was known, which say
    for how long nothing was heard; with --max-stale they are errors then. When the API server
    answers again all is well."""
    site.node("a", labels={REGION: EUROPE})
    running, strict = (
        Running(site, KEEP).ready(),
        Running(site, KEEP, "--max-stale", "4", name="strict").ready(),
    )
    one, both = pod("one", PERSONAL), (running, strict)
    assert (
        running.filter(one, ["a"])["NodeNames"] == ["a"]
        and "wsched-unheard-seconds" not in running.caller.headers
    )
    site.server.refuse = (
        lambda asked: (503, "the API server is away") if asked.what == "nodes" else None
    )
    site.server.break_watches(RESET)
    began = time.monotonic()
    for it in both:
        not_ready(it)
    noticed, why = time.monotonic() - began, running.caller.get("/readyz")[1]
    assert (
        "nothing has been heard of any node" in why and running.caller.get("/healthz")[0] == 200
    ), why
    wait_for(lambda: strict.filter(one, ["a"]).get("Error"), 10, "what is known is too old")
    error = strict.error(one, ["a"])
    assert "nothing has been heard of any node for" in error and "--max-stale is 4" in error, error
    assert strict.caller.ask("prioritize", one, ["a"])[0] == 503
    assert (
        running.filter(one, ["a"])["NodeNames"] == ["a"]
        and float(running.caller.headers["wsched-unheard-seconds"]) >= 4
    )
    assert running.caller.metrics()['wsched_watch_shut_seconds{kind="node"}'] >= 4
    site.node("b", labels={REGION: EUROPE})
    site.server.refuse = lambda asked: None
    for it in both:
        it.ready(30)
        wait_for(functools.partial(it.passes, one, ["a", "b"]), 5, "what happened is known")
    return f"not ready after {noticed:.1f} s; {error}"


def unlisted(site: Site) -> str:
    """Before nodes and pods are listed it isn't ready, and says so to who asks."""
    site.node("a")
    site.server.refuse = lambda asked: (503, "not yet") if asked.what == "pods" else None
    running = Running(site, KEEP)
    wait_for(lambda: running.caller.get("/healthz")[0] == 200, 20, "it listens")
    assert running.caller.get("/readyz") == (503, "not listed yet\n")
    error = running.error(pod("one"), ["a"])
    assert (
        "aren't listed yet" in error
        and running.caller.ask("prioritize", pod("one"), ["a"])[0] == 503
    )
    site.server.refuse = lambda asked: None
    running.ready()
    assert running.filter(pod("one"), ["a"])["NodeNames"] == ["a"]
    return error


TRIALS: list[Callable[[Site], str]] = [hung, chaos, away, unlisted]
