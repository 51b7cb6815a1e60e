# SPDX-License-Identifier: Apache-2.0
"""More nodes than wsched has room for, and more places: it goes on, says so, and fills no node over its room."""
import json
import time

from trials.fixtures.site import MIB, Site, seconds_of_line, wait_for, whom
from trials.fixtures.store import Bulk, Thing
from trials.reporting.metrics import scraped, value

PLACES = 150_000


def of_nodes(site: Site) -> list[Thing]:
    """The events that are of a node."""
    return [it for it in site.events() if whom(it).get("kind") == "Node"]


def nodes_1001(site: Site) -> str:
    """1,003 nodes: three events of nodes, a metric, and pods are bound; a pod on a node that isn't used is counted once that is used."""
    for i in range(1003):
        site.node(f"node-{i:04}", cpu="1", pods=2)
    for i in range(1000, 1003):
        site.pod(f"there-{i}", cpu="800m", on=f"node-{i}", scheduler="default-scheduler")
    site.pod("first")
    it, patience = site.start(*site.listening()), 30 + 6000 * seconds_of_line(site.programs)
    wait_for(lambda: site.place("first") or not it.runs(), patience, "a pod is bound")
    wait_for(lambda: len(of_nodes(site)) >= 3, 30, f"three nodes are without room, and as many have an event: {len(of_nodes(site))}")
    found = scraped(site)
    assert value(found, "wsched_nodes_without_room") == 3 and value(found, "wsched_nodes") == 1000, f"metrics: {found}"
    # of three nodes that go, the desk has room for three others: whatever is bound there then fits
    # beside what runs there
    left = {whom(it)["name"] for it in of_nodes(site)}
    for i in range(3):
        site.store.delete("nodes", f"node-{i:04}")
    wait_for(lambda: value(scraped(site), "wsched_nodes_without_room") == 0, 45, "the three are used once three others went")
    assert site.place("first") not in left
    return f"{len(left)} events, as: {of_nodes(site)[0]['message'][:100]}; {site.check()}"


def places_150000(site: Site) -> str:
    """150,100 placed pods: it doesn't end, and nothing is bound, since the ledger has no room for each, as the log and a metric say.
    Once 200 of them went, all are listed anew, and a pod that waits is bound."""
    names = ["left", "right", "empty"]
    for name in names:
        site.node(name, cpu="1000", memory="15Ti", pods=100_000)
    model = {
        "kind": "Pod", "apiVersion": "v1",
        "metadata": {"name": "pod-@@@@@@", "namespace": "default", "uid": "uid-@@@@@@", "resourceVersion": "1"},
        "spec": {"nodeName": "NODE", "containers": [{"name": "c", "resources": {"requests": {"cpu": "1m", "memory": str(MIB)}}}]},
        "status": {"phase": "Running"},
    }
    text = json.dumps(model)

    def make(i: int) -> bytes:
        return text.replace("@@@@@@", f"{i:06}").replace("NODE", names[i % 2]).encode()

    site.store.bulk["pods"] = Bulk(PLACES + 100, make)
    it, patience = site.start(*site.listening()), 90 + 3 * PLACES * seconds_of_line(site.programs)
    wait_for(lambda: not it.runs() or len(site.server.watches) >= 2, patience, "all are listed")
    site.pod("waits")
    wait_for(lambda: not it.runs() or value(scraped(site), "wsched_binds_not_granted_total", answer="shut") > 0, patience, "nothing may be bound")
    assert it.runs(), f"it ended with status {it.wait(0)}: {it.log().strip().splitlines()[-1][:200]}"
    left_out = value(scraped(site), "wsched_ledger_full_total", kind="pod")
    assert left_out == 100, f"{left_out:.0f} pods had no room"
    assert "the ledger has no room for more pods" in it.log() and site.place("waits") is None
    site.store.bulk["pods"] = Bulk(PLACES - 100, make)
    began, turns = time.monotonic(), 0
    while site.server.count("list", "pods") < 2 and time.monotonic() < began + patience:
        # (that some went is told by their events)
        turns += 1
        site.pod(f"goes-{turns}", on="left")
        site.delete_pod(f"goes-{turns}")
        time.sleep(1)
    wait_for(lambda: not it.runs() or len(site.server.watches) >= 2, patience, "all are listed anew")
    site.pod("second")
    took = site.wait(lambda: site.place("second"), patience, "a pod that waits is bound once there is room for all")
    return f"{left_out:.0f} pods had no room; the pod was bound {took:.0f} s after the second list, on {site.place('second')}"


TRIALS = [nodes_1001, places_150000]
