# SPDX-License-Identifier: Apache-2.0
"""examples/why asks kubectl of a real API server: what it says of a pod is what becomes of that pod."""
import os
import re
import subprocess

from trials.fixtures.cluster import Cluster
from trials.fixtures.fleet import Trial
from trials.fixtures.site import GIB, HERE, REGION, RULE, TOP
from trials.fixtures.store import Thing

RULES = [f"node_affinity:2:500000:{TOP}/examples/plugins/node_affinity.wasm", RULE]


def asked(site: Cluster, pod: str, *more: str) -> tuple[int, str]:
    """What `why` says of a pod, by kubectl, and its status."""
    env = os.environ | {"KUBECONFIG": str(site.folder / "admin.kubeconfig"), "WSCHED": site.programs.wsched}
    ran = subprocess.run([str(HERE.parent / "why"), *more, pod, *RULES], capture_output=True, text=True, env=env, check=False)
    return ran.returncode, ran.stdout + ran.stderr


# What a pod selects, its labels and the CPU that it asks for; what is said of it, and the numbers
# of the nodes that would take it.
KINDS: dict[str, tuple[Thing, Thing, str, str, set[int]]] = {
    "plain": ({}, {}, "100m", "1 marked unschedulable (node-7)", {0, 1, 2, 3, 4, 5, 6}),
    "zone-a": ({"zone": "a"}, {}, "100m", "node_affinity: 3 for good (node-1, node-3, node-5)", {0, 2, 4, 6}),
    "europe": ({"zone": "a"}, {"data-class": "personal"}, "100m", "keep_region: 2 for ", {2, 6}),
    "large": ({}, {}, "5", "7 cpu: 5000m asked, at most 4000m free", set()),
    "nowhere": ({"zone": "c"}, {}, "100m", "none of 8 nodes would take it", set()),
}


def said_before(site: Cluster) -> None:
    """What is said of each while it waits."""
    for name, (*_, want, takers) in KINDS.items():
        status, said = asked(site, name)
        named = {int(it) for it in re.findall(r"node-(\d) \(total", said)}
        found = re.search(r"(\d+) would take it", said)
        assert status == (0 if takers else 1) and want in said, f"{name}: {status} {said}"
        assert named <= takers and int(found[1] if found else 0) == len(takers), f"{name}: {said}"
    status, said = asked(site, "zone-a", "--nodes", "zone=b")
    assert status == 1 and "none of 4 nodes would take it" in said, said
    status, said = asked(site, "nobody")
    assert status == 2 and "there is no pod nobody in default" in said, said


def why(site: Cluster) -> str:
    """examples/why through kubectl: of pods that wait it names the nodes that would take them and what keeps the others away, and a scheduler
    that is started then binds each to one of these, or to none."""
    node: Thing = {"cpu": 4000, "memory": 8 * GIB, "pods": 110, "taints": []}
    labels = [{"zone": "ab"[i % 2], REGION: ["us-east-1", "eu-central-1"][i // 2 % 2]} for i in range(8)]
    trial = Trial(site, {f"node-{i}": node | {"labels": labels[i], "marked": i == 7} for i in range(8)}, {})
    for name, (selects, its, cpu, *_) in KINDS.items():
        spec = {"schedulerName": "wsched", "nodeSelector": selects, "containers": [{"name": "c", "image": "x", "resources": {"requests": {"cpu": cpu}}}]}
        site.ask("POST", "/api/v1/namespaces/default/pods", {"apiVersion": "v1", "kind": "Pod", "metadata": {"name": name, "labels": its}, "spec": spec})
    said_before(site)
    trial.schedule("--node-affinity", "2")
    trial.wait_for(lambda: trial.bound() >= 3 and {it["involvedObject"]["name"] for it in site.events()} >= set(KINDS), 60)
    places = site.places()
    for name, (*_, takers) in KINDS.items():
        on = places[name]
        assert int(on[5:]) in takers if on else not takers, f"{name} is on {on}, and {takers} would take it"
    assert asked(site, "europe") == (0, f"it runs on {places['europe']}\n")
    trial.ears.stop.set()
    trial.end()
    return f"{len(KINDS)} pods: what was said came so; {sum(bool(it) for it in places.values())} of them bound"


TRIALS = [why]
