# SPDX-License-Identifier: Apache-2.0
"""Random nodes and pods as the API may have them, and some as it never would: amounts of the whole grammar, whatever a pod may ask for, and
names and labels that no script can say."""
from __future__ import annotations

import random
from decimal import Decimal
from typing import Any, Callable

Json = dict[str, Any]
SCALES = {"n": "1e-9", "u": "1e-6", "m": "1e-3", "": "1", "k": "1e3", "M": "1e6", "G": "1e9", "T": "1e12", "P": "1e15", "E": "1e18"}
SCALES |= {f"{it}i": str(1024 ** (k + 1)) for k, it in enumerate("KMGTPE")}
# Amounts at the limits, and texts and values that are none.
EDGES = {
    "cpu": ["1073741.824", "1073741824m", "1073741824000u", "1073741824001u", "1073741824001e-6", "1073742", "0", "-0", "1n", "+1e-9", "1e-99", "1E99"],
    "memory": ["16Ti", "16384Gi", "17592186044416", "17592186044416001m", "17592186044417", "0.1Gi", "107374182400m", "1Ei", "16P", ".001", "0m", "1e-99"],
    "pods": ["150000", "150001", "149999999m", "150k", "0.15M", "110", "0", "-0", "110.9", "1e3"],
}
NONE = ["", ".", "+", "-", "1 ", " 1", "1.2.3", "--1", "1KiB", "e5", "1e", "1e+", "1e1.5", "0x10", "1,5", "１", "Ki", "1K", "1g", "1mi", "NaN", "inf"]
NONE += ["1e100", "-1", "-1m", "-.5", "1e-100", "1e0100"]
# Exponents as an API server writes them back, since it keeps them as they were given.
ZEROS = ["1e003", "1e+009", "1e-003", "5E0000000002", "0e100", "0e-100", "1e00", "+9", "9."]
NO_TEXTS: list[Any] = [5, 1.5, True, [], {}, "1\n"]
LETTERS, ODD = "abcxyz0189-_.", ["ü", " ", "=", ":", "\\", '"', "\u2028", "\x7f", ",", "~"]


class Made:
    """Makes them one by one: the same of the same seed."""

    def __init__(self, seed: int) -> None:
        self.dice, self.count = random.Random(seed), 0

    def some(self, chance: float, what: Callable[[], Any], otherwise: Any) -> Any:
        """Something, or else."""
        return what() if self.dice.random() < chance else otherwise

    # Amounts.

    def amount(self, what: str, most: float) -> Any:
        """One of a kind that is mostly up to `most` units, spelled in any way."""
        turn = self.dice.random()
        if turn < 0.004:
            return self.dice.choice(NO_TEXTS if turn < 0.0005 else NONE)
        if turn < 0.012:
            return self.dice.choice(EDGES[what])
        if turn < 0.02:
            return self.dice.choice(ZEROS)
        size = Decimal(most) * Decimal(10) ** Decimal(self.dice.uniform(-6, 0.02))
        suffix = self.dice.choice([*SCALES, "", "", "m", "Mi", "Gi"])
        scale = Decimal(SCALES[suffix])
        if self.dice.random() < 0.1:
            power = self.dice.randrange(-20, 21)
            suffix, scale = f"{self.dice.choice('eE')}{self.dice.choice(['', '+']) if power >= 0 else ''}{power}", Decimal(10) ** power
        return self.number(size / scale) + suffix

    def number(self, value: Decimal) -> str:
        """With as many digits behind the point as may be, and signs and zeros that say nothing."""
        text = f"{value:.{self.dice.choice([0, 0, 1, 3, 9, 30])}f}"
        whole, _, part = text.partition(".")
        if part and self.dice.random() < 0.3:
            part = part.rstrip("0")
        whole = self.dice.choice(["", "", "", "", "+"]) + self.dice.choice(["", "", "", "0", "000"]) + whole
        if part and whole.strip("+0") == "" and self.dice.random() < 0.5:
            return f"{'+' * ('+' in whole)}.{part}"
        return f"{whole}.{part}" if part or self.dice.random() < 0.1 else whole

    def amounts(self, chance: float = 0.8) -> Json:
        """Of CPU and memory, each perhaps."""
        found = {"cpu": self.some(chance, lambda: self.amount("cpu", 64), None), "memory": self.some(chance, lambda: self.amount("memory", 2**38), None)}
        return {key: value for key, value in found.items() if value is not None or self.dice.random() < 0.01}

    # Names and labels.

    def name(self, longest: int = 20) -> str:
        """Of a script's letters."""
        self.count += 1
        return "".join(self.dice.choice(LETTERS) for _ in range(self.dice.randrange(1, longest))) + f"-{self.count}"

    def odd(self, chance: float, longest: int) -> str:
        """As a name, but sometimes empty, too long, or with a letter that no script has."""
        turn = self.dice.random()
        if turn > chance:
            return self.name(longest)
        return self.dice.choice(["", "x" * 63, "x" * 64, "x" * 253, self.name() + self.dice.choice(ODD), "/", "a/b"])

    def labels(self) -> Json:
        """Few, or more than a row takes."""
        count = self.dice.choice([0, 1, 3, 8, 31, 32, 33, 45]) if self.dice.random() < 0.3 else self.dice.randrange(4)
        made = {self.odd(0.03, 40): self.odd(0.06, 30) for _ in range(count)}
        made |= {key: self.odd(0.03, 30) for key in ("zone", "first", "data-class") if self.dice.random() < 0.3}
        return {key: self.some(0.003, lambda: self.dice.choice(NO_TEXTS[:4]), value) for key, value in made.items()}

    def meta(self, name: str, **more: Any) -> Json:
        """What every object has."""
        self.count += 1
        meta = {"name": name, "uid": f"00000000-0000-4000-8000-{self.count:012}", "labels": self.some(0.95, self.labels, None), "annotations": {"a": "b" * 20}}
        return meta | more

    # Nodes.

    def node(self) -> Json:
        """A node, ready or not."""
        has = {"cpu": self.amount("cpu", 256), "memory": self.amount("memory", 2**41), "pods": self.some(0.3, lambda: self.amount("pods", 1000), "110")}
        has = {key: value for key, value in has.items() if self.dice.random() > 0.02}
        has |= self.some(0.3, lambda: {"ephemeral-storage": "100Gi", "hugepages-2Mi": "0", "nvidia.com/gpu": self.dice.choice(["0", "4"])}, {})
        spec: Json = {"taints": [self.taint() for _ in range(self.dice.choice([0, 0, 0, 1, 2, 8, 9]))]}
        if spec["taints"] and self.dice.random() < 0.03:
            spec["taints"].append(self.dice.choice([{**spec["taints"][0], "value": "other"}, {"key": "k", "effect": "Never"}]))
        spec["unschedulable"] = self.dice.choice([True, False, None])
        status = {"allocatable": self.some(0.97, lambda: has, None), "capacity": has, "conditions": [{"type": "Ready", "status": "True"}]}
        return {"kind": "Node", "metadata": self.meta(self.odd(0.05, 40)), "spec": self.some(0.9, lambda: spec, {}), "status": status}

    def taint(self) -> Json:
        """One, with a value or without."""
        made = {"key": self.odd(0.02, 30), "effect": self.dice.choice(["NoSchedule", "PreferNoSchedule", "NoExecute"])}
        return made | dict(self.some(0.5, lambda: {"value": self.odd(0.02, 30)}, {}))

    # Pods.

    def container(self) -> Json:
        """What it asks for, with a port or not."""
        resources: Json = {"requests": self.amounts(), "limits": self.amounts(0.3)}
        resources = {key: value for key, value in resources.items() if self.dice.random() < 0.8}
        if self.dice.random() < 0.02:
            other = self.dice.choice(["ephemeral-storage", "nvidia.com/gpu", "hugepages-2Mi"])
            resources.setdefault(self.dice.choice(["requests", "limits"]), {})[other] = self.dice.choice(["1", "0", "0Mi", "0e5"])
        made: Json = {"name": self.name(), "image": "x", "resources": self.some(0.9, lambda: resources, None)}
        made["ports"] = [self.port() for _ in range(self.dice.randrange(3))]
        return made

    def port(self) -> Json:
        """A port, seldom of the node itself."""
        return {"containerPort": 80} | dict(self.some(0.03, lambda: {"hostPort": self.dice.choice([0, 80, 8080])}, {}))

    def init(self) -> Json:
        """An init container, of which some go on running."""
        return self.container() | dict(self.some(0.4, lambda: {"restartPolicy": self.dice.choice(["Always", "Always", "OnFailure"])}, {}))

    def toleration(self) -> Json:
        """One of a taint, or of all."""
        made: Json = {"key": self.odd(0.02, 30), "operator": self.dice.choice(["Equal", "Exists", None]), "value": ""}
        made["effect"] = self.dice.choice(["", None, "NoSchedule", "NoExecute"])
        if made["operator"] != "Exists":
            made["value"] = self.odd(0.02, 30)
        if self.dice.random() < 0.02:
            made |= self.dice.choice([{"key": ""}, {"operator": "Gt"}, {"value": "v", "operator": "Exists"}, {"effect": "Never"}])
        return {key: value for key, value in made.items() if value not in (None, "") or self.dice.random() < 0.2}

    def term(self) -> Json:
        """Of a selector."""
        return {"matchExpressions": [{"key": "zone", "operator": "In", "values": ["a"]}]}

    def affinity(self) -> Json:
        """Some of its kinds, or empty ones."""
        must, may = "requiredDuringSchedulingIgnoredDuringExecution", "preferredDuringSchedulingIgnoredDuringExecution"
        made: Json = {}
        if self.dice.random() < 0.4:
            made["nodeAffinity"] = {may: [{"weight": 1, "preference": self.term()}]} | self.some(0.3, lambda: {must: {"nodeSelectorTerms": [self.term()]}}, {})
        for kind in ("podAffinity", "podAntiAffinity"):
            if self.dice.random() < 0.4:
                made[kind] = {may: self.dice.choice([[], [{"weight": 1}]]), must: self.dice.choice([[], [], None, [{"topologyKey": "zone"}]])}
        return made

    def volume(self) -> Json:
        """One that is tied to no node, mostly."""
        kind = self.dice.choice(["configMap", "secret", "emptyDir", "hostPath", "projected", "downwardAPI", "csi", "nfs", "image"])
        tied = self.dice.choice(["persistentVolumeClaim", "ephemeral", "awsElasticBlockStore", "iscsi"])
        return {"name": self.name(), self.some(0.03, lambda: tied, kind): {}}

    def pod(self, nodes: list[Json]) -> Json:
        """A pod that runs, waits or has ended."""
        dice = self.dice
        spec = self.spec() | self.some(0.3, lambda: {"schedulerName": dice.choice(["default-scheduler", "default-scheduler", "", "other"])}, {})
        spec |= self.some(0.5, lambda: {"nodeName": dice.choice(["", *(it["metadata"]["name"] for it in dice.choices(nodes, k=2))])}, {})
        name = self.some(0.05, lambda: "p" * dice.choice([50, 60, 61, 62, 63, 100]), self.name())
        meta = self.meta(name, namespace=dice.choice(["shop", "batch", "a-namespace-with-a-long-name"]))
        meta |= self.some(0.02, lambda: {"deletionTimestamp": dice.choice([None, "2026-11-26T08:00:00Z"])}, {})
        phase = dice.choice(["Running", "Pending", "Pending", "Succeeded", "Failed"]) if dice.random() < 0.3 else "Pending"
        status: Json = self.some(0.95, lambda: {"phase": phase}, {})
        status |= self.some(0.3, lambda: self.resized(spec), {})
        return {"kind": "Pod", "metadata": meta, "spec": spec, "status": status}

    def spec(self) -> Json:
        """What it asks for."""
        dice = self.dice
        spec: Json = {"containers": [self.container() for _ in range(dice.choice([1, 1, 1, 2, 3, 20] if dice.random() < 0.2 else [1, 1, 2]))]}
        spec |= self.some(0.3, lambda: {"initContainers": [self.init() for _ in range(dice.choice([0, 1, 1, 2, 4, 18]))]}, {})
        spec |= self.some(0.1, lambda: {"overhead": self.amounts() | self.some(0.05, lambda: {"example.com/x": dice.choice(["1", "0"])}, {})}, {})
        spec |= self.some(0.5, lambda: {"serviceAccountName": "default", "dnsPolicy": "ClusterFirst", "terminationGracePeriodSeconds": 30}, {})
        spec |= self.some(0.02, lambda: {"resources": dice.choice([{}, {"requests": self.amounts()}, {"limits": self.amounts()}])}, {})
        spec |= self.some(0.03, lambda: {"nodeSelector": dice.choice([{}, {"zone": "a"}])}, {})
        spec |= self.some(0.15, lambda: {"affinity": self.some(0.9, self.affinity, {})}, {})
        spec |= self.some(0.06, lambda: {"topologySpreadConstraints": [self.spread() for _ in range(dice.randrange(3))]}, {})
        spec |= self.some(0.02, lambda: {"schedulingGates": dice.choice([[], [{"name": "g"}]])}, {})
        spec |= self.some(0.02, lambda: {"resourceClaims": dice.choice([[], [{"name": "c"}]])}, {})
        spec |= self.some(0.5, lambda: {"volumes": [self.volume() for _ in range(dice.randrange(3))]}, {})
        many = dice.choice([1, 2, 3, 16, 17, 20]) if dice.random() < 0.1 else dice.choice([0, 2])
        spec |= self.some(0.5, lambda: {"tolerations": [self.toleration() for _ in range(many)]}, {})
        return spec | dict(self.some(0.3, lambda: {"priority": dice.choice([0, None, 1000, -5, 2**31 - 1, -(2**31)])}, {}))

    def spread(self) -> Json:
        """A constraint of topology spread."""
        return {"maxSkew": 1} | dict(self.some(0.8, lambda: {"whenUnsatisfiable": self.dice.choice(["ScheduleAnyway", "ScheduleAnyway", "DoNotSchedule"])}, {}))

    def event(self, thing: Json) -> Json:
        """One that a watch tells of an object, and seldom one that it never would."""
        types = ["ADDED", "MODIFIED", "MODIFIED", "DELETED", "BOOKMARK"]
        return {"type": self.some(0.005, lambda: self.dice.choice(["ERROR", "", None, 5]), self.dice.choice(types)), "object": thing}

    # What an API never has, and what other APIs have.

    def resized(self, spec: Json) -> Json:
        """What a status says that containers hold."""
        def status(one: Json) -> Json:
            said = {"name": one["name"], "allocatedResources": self.some(0.8, lambda: self.amounts(0.8), None)}
            return said | dict(self.some(0.6, lambda: {"resources": self.some(0.9, lambda: {"requests": self.amounts(), "limits": self.amounts(0.3)}, {})}, {}))

        keys = (("containers", "containerStatuses"), ("initContainers", "initContainerStatuses"))
        found: Json = {said: [status(it) for it in spec.get(key) or [] if self.dice.random() < 0.9] for key, said in keys}
        for said in found.values():
            self.dice.shuffle(said)
        found |= self.some(0.1, lambda: {"allocatedResources": self.amounts(), "resources": {"requests": self.amounts()}}, {})
        return found | dict(self.some(0.02, lambda: {self.dice.choice([said for _, said in keys]): self.dice.choice(["x", {}, [5], [{"name": 5}], None])}, {}))

    def odd_shape(self, thing: Json) -> Json:
        """A pod, and seldom one of a raw list, of another API, or with a value of another type."""
        if self.dice.random() > 0.05:
            return thing
        return self.dice.choice([self.raw, self.of_another, self.odd_spec, self.odd_spec])(thing)

    def raw(self, thing: Json) -> Json:
        """As a raw list has it."""
        return {key: value for key, value in thing.items() if key != "kind"}

    def of_another(self, thing: Json) -> Json:
        """Of another kind or another API, or of none."""
        versions: list[Any] = ["v1", "v1", "example.com/v1", 5, None]
        kinds: list[Any] = ["List", "Deployment", 5, None, "pod"]
        if self.dice.random() < 0.6:
            return thing | {"apiVersion": self.dice.choice(versions)}
        return thing | {"kind": self.dice.choice(kinds)} | dict(self.some(0.5, lambda: {"items": []}, {}))

    def odd_spec(self, thing: Json) -> Json:
        """With a spec as no API has it, or as a later one may."""
        spec, other = thing["spec"], self.dice.choice(["x", ["8Gi"], 5])
        one = self.dice.choice([{"resources": other}, {"resources": {"requests": other}}, {"resources": {"limits": other}}])
        later: list[Json] = [{"affinity": {"gangAffinity": {}}}, {"podGroup": "a"}, {"later": []}, {"os": {}}]
        listed = [{"containers": it} for it in ([one], [one, *spec["containers"]], ["x"], [], None, "x")]
        odd = [*later, *listed, {"affinity": "zone a"}, {"affinity": {"nodeAffinity": 5}}, {"nodeName": 5}, {"nodeName": ["a"]}, {"nodeName": {}}]
        none: list[Any] = [None, "x", [], 5]
        return thing | {"spec": self.dice.choice(none) if self.dice.random() < 0.1 else spec | self.dice.choice(odd)}
