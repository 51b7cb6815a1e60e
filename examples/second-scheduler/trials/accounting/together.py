# SPDX-License-Identifier: Apache-2.0
"""Two schedulers at once: what happens on the same nodes, and that nodes of its own prevent it."""
import re
import time

from trials.fixtures.site import TOP, Site, wait_for

NODES, EACH = 40, 60


def two(site: Site, is_apart: bool) -> int:
    """40 nodes with room for 80 pods, 60 pods for each of two schedulers at once; gives how many were bound."""
    for i in range(NODES):
        site.node(f"node-{i:02}", cpu="2", labels={"pool": "ab"[i % 2]})
    site.server.bind_takes = 0.02
    for it in "ab":
        site.start("--scheduler", f"wsched-{it}", *(["--nodes", f"pool={it}"] if is_apart else []), name=it)
    wait_for(lambda: site.server.count("watch", "pods") >= 2, 20, "both watch")
    time.sleep(1)
    for i in range(EACH):
        for it in "ab":
            site.pod(f"{it}-{i:02}", cpu="1", scheduler=f"wsched-{it}")
    wait_for(lambda: site.placed() >= 80, 30, f"80 are bound: {site.placed()}")
    time.sleep(3)
    return site.placed()


def together(site: Site) -> str:
    """On the same nodes, 40 with room for 80 pods, 60 pods for each of two: how many nodes come over their room, for the page."""
    bound = two(site, is_apart=False)
    seen = site.watcher()
    moved = [it for it in seen.wrong if "over its room" not in it]
    assert not moved, moved[:3]
    return f"{bound} of 120 pods bound where there is room for 80; {len(seen.over)} of 40 nodes over their room"


def apart(site: Site) -> str:
    """The same with nodes of its own for each (--nodes): 80 bound, no node over its room, none on the other's nodes."""
    bound = two(site, is_apart=True)
    assert bound == 80, bound
    placed = {it["metadata"]["name"]: it["spec"]["nodeName"] for it in site.store.all("pods") if it["spec"].get("nodeName")}
    astray = [name for name, node in placed.items() if name[0] != "ab"[int(node[5:]) % 2]]
    assert not astray, astray
    return site.check()


def advice(site: Site) -> str:
    """deploy.yaml gives it nodes of its own (--nodes), and the page's commands do."""
    deploy = (site.programs.client / "deploy.yaml").read_text(encoding="utf-8")
    args = next(iter(re.findall(r"^ *args: (.*(?:\n {12,}.*)*)", deploy, re.M)), "")
    assert "--nodes" in args, f"deploy.yaml's args have no --nodes: {args[:100]}"
    page = (TOP / "docs/OPERATING.md").read_text(encoding="utf-8")
    commands = [it for it in page.splitlines() if it.startswith("    ") and "second_scheduler.py" in it]
    assert any("--nodes" in it for it in commands), "no command of the page has --nodes"
    return f"args {args.strip()[:100]}; {sum('--nodes' in it for it in commands)} of {len(commands)} commands; {TOP.name}"


TRIALS = [together, apart, advice]
