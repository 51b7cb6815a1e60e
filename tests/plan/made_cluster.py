# SPDX-License-Identifier: Apache-2.0
"""A made cluster as `kubectl get nodes,pods --all-namespaces -o json` prints one: zones, pools, taints, selectors, affinity, odd amounts,
pods that have ended, and node names as clouds give them where there are many."""
from __future__ import annotations

import random
from typing import Any

Json = dict[str, Any]
ZONES = ["eu-central-1a", "eu-central-1b", "eu-central-1c"]
APPS = ["checkout", "cart", "search", "ledger", "mail", "img", "auth", "crm"]
POOLS = ["general"] * 6 + ["spot", "gpu", "arm", "infra"]
TAINTS = {
    "spot": [{"key": "spot", "value": "true", "effect": "NoSchedule"}],
    "gpu": [{"key": "nvidia.com/gpu", "effect": "NoSchedule"}],
    "infra": [{"key": "infra", "effect": "PreferNoSchedule"}],
}
CPUS, MEMORIES = ["50m", "100m", "250m", "0.5", "1", "2"], ["64Mi", "128Mi", "0.1Gi", "512Mi", "1Gi", "1500M", "107374182400m"]
NOT_READY = {"key": "node.kubernetes.io/not-ready", "operator": "Exists", "effect": "NoExecute", "tolerationSeconds": 300}


class MadeCluster:
    """The same of the same seed."""

    def __init__(self, nodes: int, pods: int, seed: int) -> None:
        self.dice = random.Random(seed)
        self.names: list[str] = []
        # thousandths of a core that are free
        self.free: dict[str, float] = {}
        self.items = [self.node(k, nodes) for k in range(nodes)]
        self.items += [self.pod(k) for k in range(pods)]

    @property
    def listed(self) -> Json:
        return {"apiVersion": "v1", "kind": "List", "metadata": {"resourceVersion": ""}, "items": self.items}

    def meta(self, name: str, **more: Any) -> Json:
        uid = f"{self.dice.getrandbits(32):08x}-0000-4000-8000-{self.dice.getrandbits(48):012x}"
        made = f"2026-11-{self.dice.randrange(10, 26)}T{self.dice.randrange(24):02}:00:00Z"
        return {"name": name, "uid": uid, "resourceVersion": str(self.dice.randrange(10**6)), "creationTimestamp": made, **more}

    def node(self, k: int, of: int) -> Json:
        pool, cores = self.dice.choice(POOLS), self.dice.choice([4, 8, 16, 32])
        name = f"ip-10-{k // 250}-{k % 250}-{self.dice.randrange(255)}.eu-central-1.compute.internal" if of > 100 else f"{pool}-{k:03}"
        self.names.append(name)
        self.free[name] = cores * 1000 - 90
        labels = {
            "kubernetes.io/arch": "arm64" if pool == "arm" else "amd64",
            "kubernetes.io/hostname": name,
            "topology.kubernetes.io/zone": ZONES[k % 3],
            "topology.kubernetes.io/region": "eu-central-1",
            "node.kubernetes.io/instance-type": f"m7.{cores}",
            "pool": pool,
        }
        spec: Json = {"podCIDR": "10.0.0.0/24", "taints": [*TAINTS.get(pool, [])]}
        if self.dice.random() < 0.02:
            spec["unschedulable"] = True
            spec["taints"].append({"key": "node.kubernetes.io/unschedulable", "effect": "NoSchedule"})
        room = {"cpu": f"{cores * 1000 - 90}m", "memory": f"{cores * 4 * 1024 * 1024 - 600000}Ki", "pods": "110", "ephemeral-storage": "95491281146"}
        status = {"allocatable": room, "capacity": room, "conditions": [{"type": "Ready", "status": "True"}]}
        return {"apiVersion": "v1", "kind": "Node", "metadata": self.meta(name, labels=labels), "spec": spec, "status": status}

    def pod(self, k: int) -> Json:
        dice = self.dice
        app, bound, turn = dice.choice(APPS), dice.random() < 0.8, dice.random()
        labels = {"app": app, "pod-template-hash": f"{dice.getrandbits(32):08x}", **({"data-class": "personal"} if app == "crm" else {})}
        spec: Json = {"schedulerName": "default-scheduler", "priority": dice.choice([0, 0, 0, 1000]), "tolerations": [NOT_READY]}
        spec["containers"] = [
            {"name": f"c{it}", "image": f"registry/{app}:1", "resources": {"requests": {"cpu": dice.choice(CPUS), "memory": dice.choice(MEMORIES)}}}
            for it in range(dice.choice([1, 1, 2]))
        ]
        if turn < 0.1:
            del spec["containers"][0]["resources"]
        if bound:
            spec["nodeName"] = self.place(spec)
        else:
            self.ask_more(spec, app, turn)
        phase = "Pending" if not bound else "Succeeded" if dice.random() < 0.05 else "Running"
        meta = self.meta(f"{app}-{dice.getrandbits(32):08x}-{k:05}", namespace=dice.choice(["shop", "infra", "batch"]), labels=labels)
        return {"apiVersion": "v1", "kind": "Pod", "metadata": meta, "spec": spec, "status": {"phase": phase}}

    def place(self, spec: Json) -> str:
        """Some node, and mostly one that has room: on a few there is more than that."""
        asked = [it.get("resources", {}).get("requests", {}).get("cpu", "0") for it in spec["containers"]]
        size = sum(float(it.removesuffix("m")) * (1 if it.endswith("m") else 1000) for it in asked)
        tried = [self.dice.choice(self.names) for _ in range(4)]
        name = next((it for it in tried if self.free[it] >= size), tried[0])
        self.free[name] -= size
        return name

    def ask_more(self, spec: Json, app: str, turn: float) -> None:
        """What some of the pods that wait ask for besides."""
        required = "requiredDuringSchedulingIgnoredDuringExecution"
        if turn > 0.9:
            spec["nodeSelector"] = {"pool": self.dice.choice(["gpu", "arm", "general"])}
        elif turn > 0.85:
            zones = {"key": "topology.kubernetes.io/zone", "operator": "In", "values": ZONES[:2]}
            spec["affinity"] = {"nodeAffinity": {required: {"nodeSelectorTerms": [{"matchExpressions": [zones]}]}}}
        elif turn > 0.82:
            apart = {"topologyKey": "kubernetes.io/hostname", "labelSelector": {"matchLabels": {"app": app}}}
            spec["affinity"] = {"podAntiAffinity": {required: [apart]}}
        elif turn > 0.8:
            spec["containers"][0]["resources"] = {"requests": {"cpu": "64", "memory": "1Gi"}}
        elif turn > 0.78:
            spec["tolerations"] = [NOT_READY, {"key": "spot", "operator": "Exists"}]
