#!/usr/bin/env python3
# SPDX-License-Identifier: Apache-2.0
"""Writes what a site sends: its nodes, and then PODS pods of its deployments, each with a cycle behind it.

    site_script.py [PODS [SEED [SITE]]]

`usual` is a site with 1,000 nodes of 20 labels and 50 deployments. A fifth of these is personal (keep_region), half of them wish for a zone
(prefer_zone), and a fifth have two requirements of their nodes' labels (node_affinity). Pods of one deployment come some at a time. No rule
was made with the others in mind: in `many` there are more deployments than a kit keeps, and rules that read what is used of a node; in
`choosy` each pod has six requirements of a node with 32 labels; and in `tainted` a third of the nodes has taints that are tolerated by half
of the deployments.
"""
import json
import random
import sys
from typing import NamedTuple


class Site(NamedTuple):
    """How many nodes there are, of how many labels of the company's own beside the cloud's ten, and of how many deployments pods are;
    the rules, and what is special."""

    nodes: int
    labels: int
    kinds: int
    rules: list[str]
    requires: int = 2
    taints: bool = False


SITES = {
    "usual": Site(1_000, 10, 50, ["keep_region", "prefer_zone", "node_affinity"]),
    "many": Site(400, 4, 120, ["spare_memory", "least_pods", "keep_region"]),
    "choosy": Site(1_000, 22, 30, ["node_affinity", "keep_off_spot"], requires=6),
    "tainted": Site(600, 10, 40, ["keep_off_spot", "prefer_zone"], taints=True),
}


def nodes(site):
    """Lines of nodes in three sizes, six zones and two regions, whose labels are a cloud's and a company's."""
    for n in range(site.nodes):
        size, cpu, memory = [("", 16, 64), ("x", 32, 128), ("2x", 64, 256)][n % 3]
        labels = {
            "beta.kubernetes.io/arch": "amd64",
            "beta.kubernetes.io/os": "linux",
            "disk": "ssd" if n % 2 else "nvme",
            "kubernetes.io/arch": "amd64",
            "kubernetes.io/hostname": f"node-{n:04}",
            "kubernetes.io/os": "linux",
            "node.kubernetes.io/instance-type": f"m5.{size}large",
            "pool": f"p{n % 5}",
            "topology.kubernetes.io/region": "eu-central-1" if n % 4 else "us-east-1",
            "topology.kubernetes.io/zone": f"z{n % 6}",
        }
        labels |= {f"example.com/team-{k}": f"v{n % (k + 2)}" for k in range(site.labels)}
        taints = [[["spot", "", "PreferNoSchedule"], ["batch", "only", "NoSchedule"]][n // 3 % 2]] if site.taints and n % 3 == 0 else []
        yield line(op="node", v=n + 1, name=f"node-{n:04}", cpu=str(cpu), mem=f"{memory}Gi", pods=110, labels=pairs(labels), taints=taints)


def kinds(site, chance):
    """What the pods of each deployment have in common."""
    for k in range(site.kinds):
        labels = {"app": f"app-{k}", "pod-template-hash": f"{chance.getrandbits(40):010x}", "tier": chance.choice(["front", "back", "batch"])}
        if k % 5 == 0:
            labels["data-class"] = "personal"
        if k % 2 == 0:
            labels["wished-zone"] = f"z{chance.randrange(6)}"
        if site.requires == 2 and k % 5 == 1:
            labels |= {"/00/disk": "In/ssd", "/01/pool": f"NotIn/p{chance.randrange(5)}"}
        elif site.requires > 2:
            labels |= {f"/{at:02}/example.com/team-{at}": f"NotIn/v{chance.randrange(at + 2)}" for at in range(site.requires)}
        asks = [chance.choice(["50m", "100m", "250m", "500m", "1"]), chance.choice(["64Mi", "128Mi", "256Mi", "512Mi", "1Gi"])]
        tolerations = [["spot", "Exists", "", ""], ["batch", "Equal", "only", ""]] if site.taints and k % 2 else []
        yield {"priority": chance.choice([0, 0, 0, 10]), "containers": [asks], "labels": pairs(labels), "tolerations": tolerations}


def pods(site, count, seed=1):
    """Lines of pods, behind the nodes' in their versions."""
    chance = random.Random(seed)
    there, made = [*kinds(site, chance)], 0
    while made < count:
        kind = chance.choice(there)
        for _ in range(min(count - made, chance.choice([1, 2, 3, 5, 10, 30]))):
            uid = f"{chance.getrandbits(32):08x}-d9cb-469f-a165-{made:012x}"
            yield line(op="pod", v=site.nodes + 1 + made, uid=uid, **kind)
            made += 1


def pairs(labels):
    """Labels as a line has them, in the order of their keys."""
    return sorted([key, value] for key, value in labels.items())


def line(**fields):
    return json.dumps(fields, separators=(",", ":"))


def main(count="10000", seed="1", name="usual"):
    site = SITES[name]
    for it in nodes(site):
        print(it)
    for it in pods(site, int(count), int(seed)):
        print(f'{it}\n{{"op":"cycle"}}')


if __name__ == "__main__":
    main(*sys.argv[1:])
