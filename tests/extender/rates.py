# SPDX-License-Identifier: Apache-2.0
"""How many pods a stock kube-scheduler binds a second with and without the extender, and the
processor time that it takes."""
import collections
import json
import os
import subprocess
import time
from typing import Any, Optional

from trials.fixtures.cluster import API
from trials.fixtures.site import children, command, spent

from beside import PODS, Ours, some_nodes
from caller import KEEP, PERSONAL, PREFER, Caller


def speed(site: Ours, count: int = 1000, pods: int = 300, turns: int = 2) -> None:
    """Pods bound a second from the first to the last, with kube-scheduler alone, with both verbs,
    and with a filter alone, in turns; and the processor time that the extender, its wsched and its
    translate take a request."""
    site.make_nodes(some_nodes(count))
    rates: collections.defaultdict[str, list[float]] = collections.defaultdict(list)
    for _ in range(turns):
        for who, words in (("alone", ()), ("both", (KEEP, PREFER)), ("filter", (KEEP,))):
            caller = site.extend(*words) if words else None
            before = taken(site, caller)
            rates[who].append(
                bound_a_second(
                    site, caller, pods, **({"prioritizeVerb": None} if who == "filter" else {})
                )
            )
            after = taken(site, caller)
            requests = after.pop("requests", 0) - before.get("requests", 0)
            took = ", ".join(
                f"{name} {1000 * (ms - before[name]) / requests:.2f}" for name, ms in after.items()
            )
            if caller:
                site.stop("extender")
            print(
                f"{count} nodes, {who}: {rates[who][-1]:.0f} pods a second, "
                f"load {os.getloadavg()[0]:.1f}; ms a request: {took}",
                flush=True,
            )
    means = {who: sum(it) / turns for who, it in rates.items()}
    print(
        f"{count} nodes: both verbs {means['both'] / means['alone']:.2f}, "
        f"filter alone {means['filter'] / means['alone']:.2f}"
    )


def taken(site: Ours, caller: Optional[Caller]) -> dict[str, float]:
    """The processor seconds of an extender and of its children so far, and how many requests it
    has had."""
    if not caller:
        return {}
    first, found = site.own["extender"].pid, caller.metrics()
    own = {
        next(word for word in ("run", "translate") if word in command(it)): spent(it)
        for it in children(first)
    }
    return {
        "extender": spent(first),
        **own,
        "requests": sum(
            it for name, it in found.items() if name.startswith("wsched_extender_requests_total")
        ),
    }


def bound_a_second(site: Ours, caller: Optional[Caller], pods: int, **more: Any) -> float:
    """Makes pods, half of them one region's, has them bound, and takes them away."""
    labels = [PERSONAL if caller and i % 2 else {"app": "x"} for i in range(pods)]
    site.make_all({f"speed-{i}": (it, {}) for i, it in enumerate(labels)})
    version = site.ask("GET", f"{PODS}?limit=1")["metadata"]["resourceVersion"]
    watch = subprocess.Popen(
        [
            "curl",
            "-sSNk",
            "-H",
            "Authorization: Bearer admintoken",
            f"https://127.0.0.1:{API}{PODS}?watch=true&resourceVersion={version}",
        ],
        stdout=subprocess.PIPE,
    )
    assert watch.stdout
    site.schedule(caller, **more)
    times, seen = list[float](), set[str]()
    while len(seen) < pods:
        pod = json.loads(watch.stdout.readline())["object"]
        if pod["spec"].get("nodeName") and pod["metadata"]["name"] not in seen:
            seen.add(pod["metadata"]["name"])
            times.append(time.monotonic())
    watch.kill()
    watch.wait()
    site.stop("kube-scheduler")
    site.delete_pods(seen)
    return (pods - 1) / (times[-1] - times[0])
