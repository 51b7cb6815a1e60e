# SPDX-License-Identifier: Apache-2.0
"""Random nodes and pods as the API has them, and what Kubernetes says of a pod and a node.

The evaluator goes by the page "Assigning Pods to Nodes" and the API's own words on NodeSelectorTerm and PreferredSchedulingTerm.
It reads the manifests, and knows nothing of how wsched is told of them.
"""
import re

IN_ALL = 43
REQUIRED, PREFERRED = "requiredDuringSchedulingIgnoredDuringExecution", "preferredDuringSchedulingIgnoredDuringExecution"
LABEL_VALUE = re.compile("([A-Za-z0-9]([A-Za-z0-9_.-]{0,61}[A-Za-z0-9])?)?")


class NoSelector(Exception):
    """A requirement that Kubernetes makes no selector of."""


# What Kubernetes says.


def integer(text):
    return int(text) if re.fullmatch("[0-9]+", text) and int(text) < 2**63 else None


def requirement(labels, said):
    key, operator, values = said["key"], said["operator"], said.get("values") or []
    if any(not LABEL_VALUE.fullmatch(it) for it in values):
        raise NoSelector
    if operator in ("Gt", "Lt") and integer(values[0]) is None:
        raise NoSelector
    if operator == "NotIn":
        return key not in labels or labels[key] not in values
    if operator == "DoesNotExist":
        return key not in labels
    if key not in labels:
        return False
    own = integer(labels[key])
    return {
        "In": lambda: labels[key] in values,
        "Exists": lambda: True,
        "Gt": lambda: own is not None and own > integer(values[0]),
        "Lt": lambda: own is not None and own < integer(values[0]),
    }[operator]()


def field(name, said):
    return (name in said["values"]) == (said["operator"] == "In")


def term(node, said):
    expressions, fields = said.get("matchExpressions") or [], said.get("matchFields") or []
    if not expressions and not fields:
        return False
    labels = node["metadata"]["labels"]
    # (each is read, since one that is no selector counts wherever it stands)
    return all([requirement(labels, it) for it in expressions]) and all([field(node["metadata"]["name"], it) for it in fields])


def one_term(node, selector):
    for it in selector["nodeSelectorTerms"]:
        try:
            if term(node, it):
                return True
        except NoSelector:
            pass
    return False


def verdict(pod, node, volumes=()):
    """None where the node is no place for the pod, else the score."""
    labels, spec = node["metadata"]["labels"], pod["spec"]
    affinity = (spec.get("affinity") or {}).get("nodeAffinity") or {}
    if any(labels.get(key) != value for key, value in (spec.get("nodeSelector") or {}).items()):
        return None
    if affinity.get(REQUIRED) and not one_term(node, affinity[REQUIRED]):
        return None
    if not all(one_term(node, it["spec"]["nodeAffinity"]["required"]) for it in volumes):
        return None
    wishes = [it for it in affinity.get(PREFERRED) or [] if it["preference"].get("matchExpressions") or it["preference"].get("matchFields")]
    matched = sum(it["weight"] for it in wishes if term(node, it["preference"]))
    return 100 * matched // sum(it["weight"] for it in wishes) if wishes else 0


# What there is.


class Made:
    """Nodes of labels from a pool, and pods that ask for such."""

    def __init__(self, dice, nodes, longest=63):
        self.dice = dice
        spell = lambda n: "".join(dice.choice("abcxyz019.-_") for _ in range(n - 2)).join("ab")
        # (keys of which many begin alike, some as long as a script takes and some longer than an
        # entry does)
        self.keys = ["disk", "arch", "gpu", "cores", "zone", "topology.kubernetes.io/zone", "kubernetes.io/hostname", "a", "metadata.name"]
        self.keys += [f"example.com/{spell(dice.choice([3, 8, 20, 40, 46, 47]))}" for _ in range(44)]
        self.keys += [f"example.com/{spell(50)}" for _ in range(2)]
        self.keys = [it for it in self.keys if len(it) <= longest]
        self.values = {key: [*{dice.choice(["", "a", "b", "ssd", "nvme", "7", "16", "64", "007", "9223372036854775807", "9223372036854775808", spell(63), spell(62), spell(58), "true"]) for _ in range(5)}] for key in self.keys}
        self.nodes = [self.node(f"node-{k}") for k in range(nodes)]
        self.new_season()

    def new_season(self):
        """The keys that most pods ask for from now on, about as many as there is room for at a time."""
        self.usual = set(self.dice.sample(self.keys, 24))

    def node(self, name):
        keys = self.dice.sample(self.keys, self.dice.randrange(IN_ALL + 1))
        return {"metadata": {"name": name, "labels": {key: self.dice.choice(self.values[key]) for key in keys}}}

    def expression(self, near):
        """Mostly one that the node `near` meets, or other nodes of its kind."""
        dice, labels = self.dice, near["metadata"]["labels"]
        usual = [it for it in labels if it in self.usual]
        key = dice.choice(usual) if usual and dice.random() < 0.7 else dice.choice([*sorted(self.usual)])
        if dice.random() < 0.003:
            key = dice.choice(self.keys)
        operator = dice.choice(["In", "In", "In", "NotIn", "NotIn", "Exists", "DoesNotExist", "Gt", "Lt"])
        if operator in ("Exists", "DoesNotExist"):
            return {"key": key, "operator": operator}
        if operator in ("Gt", "Lt"):
            value = dice.choice(["0", "7", "15", "0016", "63", "9223372036854775806", "9223372036854775807"] + ["9223372036854775808", "1e3"] * (dice.random() < 0.1))
            return {"key": key, "operator": operator, "values": [value]}
        values = dice.choices(self.values[key], k=dice.choice([1, 1, 2, 3]))
        if operator == "In" and key in labels and dice.random() < 0.6:
            values.append(labels[key])
        values += [f"v{it}" for it in range(dice.choice([0, 0, 0, 0, 0, 12, 60]))]
        if dice.random() < 0.02:
            values.append(dice.choice(["-no", "a b", "x" * 64, "a/b"]))
        dice.shuffle(values)
        return {"key": key, "operator": operator, "values": values}

    def term(self, near, fields=True):
        dice = self.dice
        said = {"matchExpressions": [self.expression(near) for _ in range(dice.choice([0, 1, 1, 2, 3]))]}
        if fields and dice.random() < 0.1:
            name = near["metadata"]["name"] if dice.random() < 0.5 else dice.choice(self.nodes)["metadata"]["name"]
            said["matchFields"] = [{"key": "metadata.name", "operator": dice.choice(["In", "NotIn"]), "values": [name]}]
        return said

    def required(self, fields=True):
        return {"nodeSelectorTerms": [self.term(self.dice.choice(self.nodes), fields) for _ in range(self.dice.choice([1, 1, 2, 4]))]}

    def pod(self, name):
        dice, near, spec, affinity = self.dice, self.dice.choice(self.nodes), {}, {}
        labels = {key: value for key, value in near["metadata"]["labels"].items() if key in self.usual or dice.random() < 0.002}
        if dice.random() < 0.4:
            spec["nodeSelector"] = {key: labels[key] if dice.random() < 0.9 else "other" for key in dice.sample([*labels], min(len(labels), dice.choice([1, 1, 2])))}
        if dice.random() < 0.6:
            affinity[REQUIRED] = self.required()
        if dice.random() < 0.5:
            affinity[PREFERRED] = [{"weight": dice.randrange(1, 101), "preference": self.sound(lambda: self.term(dice.choice(self.nodes)))} for _ in range(dice.randrange(1, 6))]
        if affinity:
            spec["affinity"] = {"nodeAffinity": affinity}
        own = {f"own-{k}": "x" for k in range(dice.choice([0, 2, 8, 40]))}
        return {"metadata": {"name": name, "namespace": "default", "uid": name, "labels": own}, "spec": spec}

    def sound(self, make):
        """(what Kubernetes makes no selector of isn't wished for: it errs of such a pod)"""
        while True:
            made = make()
            try:
                term(self.nodes[0], made)
                return made
            except NoSelector:
                pass

    def claims(self, pod):
        """Gives a pod up to two claims: the pod's volumes, by their names."""
        volumes = {}
        for k in range(self.dice.choice([0, 0, 0, 1, 2])):
            volume = f"{pod['metadata']['name']}-{k}"
            volumes[volume] = {"metadata": {"name": volume}, "spec": {"nodeAffinity": {"required": self.required(fields=False)}}}
            pod["spec"].setdefault("volumes", []).append({"name": f"v{k}", "persistentVolumeClaim": {"claimName": volume}})
        return volumes
