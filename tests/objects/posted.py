# SPDX-License-Identifier: Apache-2.0
"""Random nodes and pods that an API server takes, spelled as oddly as it takes them: amounts of the whole grammar, texts with every letter
that JSON may escape, labels and tolerations at their limits, and fields that it doesn't know."""
from __future__ import annotations

import json
import string
from typing import Any, Callable

import reference
from made import ZEROS, Made
from reference import Json

# What a text may have that is spelled in more than one way, or in many bytes.
LETTERS = ["<", ">", "&", '"', "\\", "/", "\t", "\n", "\r", "\b", "\x01", "\x1f", "\x7f", "\u2028", "\u2029", "ü", "€", "\U0001f680", "a", " ", "{", "]"]
INNER = string.ascii_letters + string.digits
MUST, MAY = reference.MUST, reference.MAY
# Priorities and overheads are those of objects that are made first.
PRIORITIES = {"low": -5, "high": 1000, "most": 10**9}
OVERHEADS = {"small": {"cpu": "1e-003", "memory": "+.5Ki"}, "large": {"cpu": "0.250", "memory": "120e+006"}, "cpu": {"cpu": "1E0"}}
# Fields that this API server doesn't know, and drops.
LATER: list[Json] = [{"schedulingGates": [{"name": "g"}]}, {"resources": {"requests": {"cpu": "1"}}}, {"podGroup": "a"}, {"hostUsers": False}]


class Posted:
    """Makes them one by one: the same of the same seed."""

    def __init__(self, seed: int) -> None:
        self.made = Made(seed)
        self.dice, self.some, self.count = self.made.dice, self.made.some, 0

    # How they are spelled.

    def spelled(self, thing: Any) -> str:
        """A value as JSON, with more escapes and spaces than it needs."""
        space = self.dice.choice(["", "", " ", "\n\t"])
        if isinstance(thing, dict):
            items = [*thing.items()]
            self.dice.shuffle(items)
            return "{" + ",".join(f"{space}{self.text(key)}{space}:{self.spelled(value)}" for key, value in items) + "}"
        if isinstance(thing, list):
            return f"[{space}" + f",{space}".join(map(self.spelled, thing)) + "]"
        return self.text(thing) if isinstance(thing, str) else json.dumps(thing)

    def text(self, it: str) -> str:
        """A text, of which any letter may be escaped."""
        # (an API server reads an amount's bytes as they stand)
        if len(it) > 1000 or reference.worth(it) is not None:
            return json.dumps(it, ensure_ascii=False)
        letters = [json.dumps(one, ensure_ascii=self.dice.random() < 0.3)[1:-1] for one in it]
        return '"' + "".join(f"\\u{ord(one):04x}" if ord(one) < 2**16 and self.dice.random() < 0.02 else said for one, said in zip(it, letters)) + '"'

    # Amounts, names and texts.

    def amount(self, what: str, most: float) -> str:
        """One that is no less than nothing; of pods a whole number."""
        while True:
            found = self.dice.choice(ZEROS) if self.dice.random() < 0.1 else self.made.amount(what, most)
            worth = reference.worth(found)
            if worth is not None and 0 <= worth < 2**62 and (what != "pods" or worth.denominator == 1):
                return str(found)

    def amounts(self) -> Json:
        """Of CPU and memory, each perhaps."""
        return {what: self.amount(what, most) for what, most in (("cpu", 4), ("memory", 2**32)) if self.dice.random() < 0.8}

    def name(self, prefix: str) -> str:
        """One that no other has; some are as long as may be."""
        self.count += 1
        name = f"{prefix}-{self.count}"
        return name + (f".{'x' * self.dice.choice([40, 60, 63])}" if self.dice.random() < 0.05 else "")

    def word(self, longest: int = 63) -> str:
        """As the value of a label, or the name in its key."""
        size = self.dice.choice([1, 2, 8, 20, longest - 1, longest])
        inner = "".join(self.dice.choice(INNER + "-_.") for _ in range(size))
        return self.dice.choice(INNER) + inner[1:-1] + (self.dice.choice(INNER) if size > 1 else "")

    def key(self) -> str:
        """A label's key, with a prefix or without."""
        return self.dice.choice(["example.com/", "a.b/", "x" * 50 + ".example.com/", *[""] * 12]) + self.word()

    def labels(self) -> Json:
        """Few, or more than a row takes."""
        count = self.dice.choice([31, 32, 33, 45]) if self.dice.random() < 0.1 else self.dice.randrange(4)
        made = {self.key(): self.some(0.9, self.word, "") for _ in range(count)}
        return made | {key: self.some(0.9, self.word, "") for key in ("zone", "first", "data-class") if self.dice.random() < 0.3}

    def odd_text(self, longest: int = 40) -> str:
        """Of any letters."""
        return "".join(self.dice.choice(LETTERS) for _ in range(self.dice.randrange(longest)))

    def meta(self, prefix: str) -> Json:
        """What every object has."""
        return {"name": self.name(prefix), "labels": self.labels(), "annotations": {self.key(): self.odd_text() for _ in range(self.dice.randrange(3))}}

    # Nodes.

    def node(self) -> Json:
        """A node, with what it has."""
        has = {what: self.amount(what, most) for what, most in (("cpu", 256), ("memory", 2**41))}
        has["pods"] = self.some(0.3, lambda: self.amount("pods", 1000), "110")
        has |= self.some(0.3, lambda: {"ephemeral-storage": "100Gi", "hugepages-2Mi": "0", "nvidia.com/gpu": self.dice.choice(["0", "4"])}, {})
        effects = ("NoSchedule", "PreferNoSchedule", "NoExecute")
        taints = [{"key": self.key(), "effect": self.dice.choice(effects)} for _ in range(self.dice.choice([0, 0, 1, 8, 9]))]
        taints = [it | self.some(0.5, lambda: {"value": self.word()}, {}) for it in taints]
        spec = {"taints": taints, "unschedulable": self.dice.random() < 0.2}
        return {"apiVersion": "v1", "kind": "Node", "metadata": self.meta("node"), "spec": spec, "status": {"allocatable": has, "capacity": has}}

    # Pods.

    def container(self, kind: str) -> Json:
        """What it asks for, and what else it may have."""
        resources: Json = {"requests": self.amounts()}
        if self.dice.random() < 0.05:
            other = self.dice.choice(["example.com/gpu", "ephemeral-storage", "hugepages-2Mi"])
            many = self.dice.choice(["0", "2Mi"]) if other == "hugepages-2Mi" else self.dice.choice(["0", "1e0", "2"])
            resources["requests"]["memory"] = "1Gi"
            resources["requests"][other] = many
            resources["limits"] = {other: many}
        made: Json = {"name": f"{kind}-{self.dice.randrange(10**9)}", "image": "x", "resources": resources}
        made["args"] = [self.odd_text(200) for _ in range(self.dice.randrange(3))]
        made["env"] = [{"name": f"E{i}", "value": self.odd_text()} for i in range(self.dice.randrange(3))]
        ports: list[Json] = [{"containerPort": 80, "hostPort": self.dice.choice([80, 0])}] if self.dice.random() < 0.1 else []
        return made | {"ports": ports}

    def affinity(self) -> Json:
        """Some of its kinds, or empty ones."""
        term = {"matchExpressions": [{"key": "zone", "operator": "In", "values": [self.word()]}]}
        of_pods = {"topologyKey": "zone", "labelSelector": {"matchLabels": {"a": "b"}}}
        made: Json = {}
        if self.dice.random() < 0.4:
            made["nodeAffinity"] = {MAY: [{"weight": 1, "preference": term}]} | self.some(0.3, lambda: {MUST: {"nodeSelectorTerms": [term]}}, {})
        for kind in ("podAffinity", "podAntiAffinity"):
            if self.dice.random() < 0.3:
                made[kind] = self.dice.choice([{}, {MAY: [{"weight": 1, "podAffinityTerm": of_pods}]}, {MUST: [of_pods]}])
        return made

    def volume(self) -> Json:
        """One that is tied to no node, mostly."""
        free: list[Json] = [{"emptyDir": {}}, {"configMap": {"name": "c"}}, {"hostPath": {"path": "/a<b>"}}, {"nfs": {"server": "s", "path": "/"}}]
        tied: list[Json] = [{"persistentVolumeClaim": {"claimName": "c"}}, {"awsElasticBlockStore": {"volumeID": "v"}}]
        return {"name": f"v-{self.dice.randrange(10**9)}", **self.dice.choice(tied if self.dice.random() < 0.05 else free)}

    def toleration(self) -> Json:
        """One of a taint, or of all."""
        made: Json = {"key": self.key(), "operator": self.dice.choice(["Equal", "Exists"])}
        made |= {"value": self.word()} if made["operator"] == "Equal" else {}
        made |= self.some(0.6, lambda: {"effect": self.dice.choice(["NoSchedule", "PreferNoSchedule"])}, {})
        return made if self.dice.random() < 0.95 else {"operator": "Exists"}

    def pod(self, nodes: list[str]) -> Json:
        """A pod that has a node, or waits."""
        dice, some = self.dice, self.some
        spec: Json = {"containers": [self.container("c") for _ in range(dice.choice([1, 1, 2, 5]))]}
        spec |= some(0.3, lambda: {"initContainers": [self.container("i") for _ in range(dice.choice([1, 2]))]}, {})
        spec |= some(0.5, lambda: {"nodeName": dice.choice(nodes)}, {})
        spec |= some(0.2, lambda: {"priorityClassName": dice.choice([*PRIORITIES])}, {})
        spec |= some(0.15, lambda: {"runtimeClassName": dice.choice([*OVERHEADS])}, {})
        spec |= some(0.3, lambda: {"volumes": [self.volume() for _ in range(dice.randrange(3))]}, {})
        spec |= some(0.1, lambda: {"affinity": self.affinity()}, {})
        spec |= some(0.05, lambda: {"nodeSelector": {"zone": self.word()}}, {})
        spec |= some(0.1, lambda: {"schedulerName": "other"}, {})
        spec |= some(0.1, lambda: {"hostname": "h", "subdomain": "s", "dnsPolicy": "Default", "shareProcessNamespace": True}, {})
        spec |= some(0.1, lambda: dice.choice(LATER), {})
        whens: Callable[[], str] = lambda: dice.choice(["ScheduleAnyway", "DoNotSchedule"])
        spec |= some(0.05, lambda: {"topologySpreadConstraints": [{"maxSkew": 1, "topologyKey": "zone", "whenUnsatisfiable": whens()}]}, {})
        spec["tolerations"] = [self.toleration() for _ in range(dice.choice([14, 15, 16, 20]) if dice.random() < 0.05 else dice.choice([0, 1]))]
        meta = self.meta("pod") | some(0.3, lambda: {"finalizers": ["example.com/wait"]}, {})
        return {"apiVersion": "v1", "kind": "Pod", "metadata": meta, "spec": spec}

    def status(self, pod: Json) -> Json:
        """What is said of a pod that runs: with what its containers hold, which this API server doesn't know."""
        spec = pod["spec"]
        said: Json = {"phase": self.dice.choice(["Running", "Running", "Pending", "Succeeded", "Failed"]), "message": self.odd_text()}
        held = {"allocatedResources": {"cpu": "1e003"}, "resources": {"requests": {"memory": "1Ti"}}}
        for key, where in (("containers", "containerStatuses"), ("initContainers", "initContainerStatuses")):
            rest = {"image": "x", "imageID": "", "ready": True, "restartCount": 0}
            said[where] = [{"name": it["name"], **rest, **self.some(0.5, lambda: held, {})} for it in spec.get(key) or []]
        return said
