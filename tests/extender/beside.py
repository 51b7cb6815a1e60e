# SPDX-License-Identifier: Apache-2.0
"""Trials of the extender beside a real API server and a stock kube-scheduler."""
import collections
import json
import os
import pathlib
import re
import signal
import subprocess
import time
from typing import Any, Callable, Iterable, Iterator, Mapping, Optional, Sequence

from trials.api.certificates import certificate
from trials.fixtures import cluster
from trials.fixtures.cluster import Cluster, kubeconfig
from trials.fixtures.sections import section, without_sections
from trials.fixtures.site import REGION, TOP, children, command, wait_for
from trials.fixtures.store import Thing

from caller import (
    EUROPE,
    EXTENDER,
    KEEP,
    PERSONAL,
    PLUGINS,
    PREFER,
    REASON,
    ZONE,
    Caller,
    free_port,
    with_record,
)
from modules import FOREVER, UNREACHABLE, answering, rule

ACCOUNT = "system:serviceaccount:kube-system:wsched-extender"
TOKENS = f"""admintoken,admin,admin,"system:masters"
extendertoken,{ACCOUNT},extender,"system:serviceaccounts,system:serviceaccounts:kube-system"
"""
PODS = "/api/v1/namespaces/default/pods"
HOST = "kubernetes.io/hostname"


class Ours(Cluster):
    """An API server with the account of the extender's deploy.yaml, and a stock kube-scheduler
    that asks an extender."""

    def start(self) -> None:
        """(what else the account asks for than its two kinds is refused, and in the audit log)"""
        self.write("tokens.csv", TOKENS)
        self.write(
            "policy.json",
            (self.folder / "policy.json")
            .read_text(encoding="utf-8")
            .replace(cluster.ACCOUNT, ACCOUNT),
        )
        self.write("extender.kubeconfig", json.dumps(kubeconfig("extendertoken")))
        super().start()

    def extend(
        self,
        *words: str,
        port: Optional[int] = None,
        authority: Optional[str] = None,
        wsched: Optional[str] = None,
    ) -> Caller:
        """Starts an extender, and waits until it is ready."""
        port = port or free_port()
        own = [
            "--kubeconfig",
            self.folder / "extender.kubeconfig",
            "--wsched",
            wsched or self.programs.wsched,
            "--listen",
            f"127.0.0.1:{port}",
        ]
        self.run("extender", EXTENDER / "extender.py", *own, *words)
        caller = Caller(port, authority)
        wait_for(
            lambda: self.alive("extender") and caller.get("/readyz")[0] == 200,
            60,
            "the extender is ready",
        )
        return caller

    def alive(self, name: str) -> bool:
        """Whether it runs."""
        assert (
            self.own[name].poll() is None
        ), f"{name} has ended: {(self.folder / f'{name}.log').read_text(encoding='utf-8')[-300:]}"
        return True

    def schedule(self, caller: Optional[Caller], **more: Any) -> None:
        """Starts kube-scheduler, whose stanza says this besides."""
        config: Thing = json.loads((self.folder / "scheduler.json").read_text(encoding="utf-8"))
        if caller:
            scheme = "https" if caller.authority else "http"
            stanza = {
                "urlPrefix": f"{scheme}://127.0.0.1:{caller.port}",
                "filterVerb": "filter",
                "prioritizeVerb": "prioritize",
                "weight": 1,
            }
            stanza |= {"nodeCacheCapable": True, "ignorable": False, "httpTimeout": "5s"}
            stanza |= (
                {"enableHTTPS": True, "tlsConfig": {"caFile": caller.authority}}
                if caller.authority
                else {}
            )
            config["extenders"] = [
                {key: value for key, value in (stanza | more).items() if value is not None}
            ]
        self.write("stock.json", json.dumps(config))
        words = [
            "--config",
            self.folder / "stock.json",
            "--bind-address=127.0.0.1",
            "--secure-port=0",
        ]
        self.run("kube-scheduler", cluster.HOME / "bin/kube-scheduler", *words)

    def stop(self, *names: str) -> None:
        """Ends these."""
        for it in names:
            self.end(it)

    def make(self, name: str, labels: Thing, **spec: Any) -> None:
        """A pod in `default`."""
        self.make_all({name: (labels, spec)})

    def make_all(self, pods: Mapping[str, tuple[Thing, Thing]]) -> None:
        """Pods with these labels and specs."""
        asks = {"requests": {"cpu": "10m", "memory": "1Mi"}}
        bare: Thing = {"containers": [{"name": "c", "image": "x", "resources": asks}]}
        kind = {"apiVersion": "v1", "kind": "Pod"}
        self.ask_all(
            (
                "POST",
                PODS,
                {**kind, "metadata": {"name": it, "labels": labels}, "spec": bare | spec},
            )
            for it, (labels, spec) in pods.items()
        )

    def move(self, what: str, name: str = "node-0000", labels: Optional[Thing] = None) -> None:
        """A node's labels change."""
        node = self.ask("GET", f"/api/v1/nodes/{name}")
        node["metadata"]["labels"] |= {"moved": what, **(labels or {})}
        self.ask("PUT", f"/api/v1/nodes/{name}", node)

    def message(self, name: str) -> str:
        """What its condition says why it has no node; empty where nothing does."""
        pod = self.ask("GET", f"{PODS}/{name}")
        found = [
            it
            for it in (pod.get("status") or {}).get("conditions") or []
            if it["type"] == "PodScheduled" and it["status"] == "False"
        ]
        return str(found[0].get("message") or "") if found else ""

    def said(self, name: str, patience: float = 30) -> str:
        """Waits for that."""
        wait_for(lambda: self.message(name) or self.place(name), patience, f"a word of {name}")
        assert not self.place(name), f"{name} is on {self.place(name)}"
        return self.message(name)

    def place(self, name: str) -> Optional[str]:
        """Its node."""
        return self.places()[name]

    def bound(self) -> int:
        """How many pods have a node."""
        return sum(1 for it in self.places().values() if it)

    def wait_for_bound(self, count: int, patience: float = 60) -> None:
        """Waits until so many have, while the extender runs."""

        def are() -> bool:
            return ("extender" not in self.own or self.alive("extender")) and self.bound() == count

        wait_for(are, patience, f"{count} are bound")


def some_nodes(count: int) -> dict[str, Thing]:
    """Nodes in two regions and four zones; some have a taint, some are marked unschedulable."""
    found = dict[str, Thing]()
    for i in range(count):
        labels = {
            REGION: EUROPE if i % 2 else "us-east-1",
            ZONE: "abcd"[i // 2 % 4],
            HOST: f"node-{i:04}",
            "pool": "xy"[i // 8 % 2],
        }
        found[f"node-{i:04}"] = {
            "cpu": 16000,
            "memory": 64 << 30,
            "pods": 110,
            "labels": labels,
            "taints": ["database"] * (i % 25 == 24),
            "marked": i % 50 == 7,
        }
    return found


def some_pods(count: int) -> Iterator[tuple[str, Thing, Thing]]:
    """Pods with all that the rule knows nothing of, half of them one region's: names, labels, and
    specs."""
    for i in range(count):
        kind, is_personal = ("spread", "apart", "ports", "selects", "plain")[i % 5], i // 5 % 2 == 0
        labels = {
            "kind": kind,
            "group": f"{kind}-{i // 100}-{is_personal}",
            **(PERSONAL if is_personal else {}),
        }
        same = {"matchLabels": {"group": labels["group"]}}
        kinds: dict[str, Thing] = {
            "spread": {
                "topologySpreadConstraints": [
                    {
                        "maxSkew": 1,
                        "topologyKey": ZONE,
                        "whenUnsatisfiable": "DoNotSchedule",
                        "labelSelector": same,
                    }
                ]
            },
            "apart": {
                "affinity": {
                    "podAntiAffinity": {
                        "requiredDuringSchedulingIgnoredDuringExecution": [
                            {"topologyKey": HOST, "labelSelector": same}
                        ]
                    }
                }
            },
            "ports": {
                "containers": [
                    {
                        "name": "c",
                        "image": "x",
                        "ports": [{"containerPort": 80, "hostPort": 8000 + i // 100}],
                    }
                ]
            },
            "selects": {
                "nodeSelector": {"pool": "xy"[i // 10 % 2]},
                "tolerations": [{"key": "database", "operator": "Exists"}],
            },
            "plain": {},
        }
        spec = kinds[kind]
        # (a few can be nowhere: the rule and the selector leave no node)
        if kind == "selects" and is_personal and i % 100 == 53:
            spec["nodeSelector"] = {REGION: "us-east-1"}
        yield f"pod-{i:03}", labels, spec


def takers(nodes: Mapping[str, Thing], labels: Thing, spec: Thing) -> set[str]:
    """The nodes that may have a pod by the manifests and the rule, whatever runs there."""
    wanted = spec.get("nodeSelector") or {}

    def may(node: Thing) -> bool:
        has: Thing = node["labels"]
        is_free = not node["marked"] and (spec.get("tolerations") or not node["taints"])
        return (
            bool(is_free)
            and wanted.items() <= has.items()
            and (labels.get("data-class") != "personal" or has[REGION] == EUROPE)
        )

    return {name for name, it in nodes.items() if may(it)}


def wrong(
    nodes: Mapping[str, Thing],
    pods: Mapping[str, tuple[Thing, Thing]],
    places: Mapping[str, Optional[str]],
) -> Iterator[str]:
    """Pod by pod: what is nowhere and may be somewhere, or is where it may not be; and what is
    together that is to be apart, or uneven."""
    apart: collections.Counter[tuple[str, str]] = collections.Counter()
    spread: collections.defaultdict[str, collections.Counter[str]] = collections.defaultdict(
        collections.Counter
    )
    for name, (labels, spec) in pods.items():
        on, may = places[name], takers(nodes, labels, spec)
        if on is None and may:
            yield f"{name} waits, and {len(may)} nodes may have it"
        if on is None:
            continue
        if on not in may:
            yield f"{name} is on {on}"
        if labels["kind"] == "spread":
            spread[labels["group"]][nodes[on]["labels"][ZONE]] += 1
        ports = [
            f"port {it['hostPort']}" for it in spec.get("containers", [{}])[0].get("ports", [])
        ]
        for it in [labels["group"]] if labels["kind"] == "apart" else ports:
            apart[on, it] += 1
    yield from (
        f"{on} has {count} pods of {what}" for (on, what), count in apart.items() if count > 1
    )
    for group, zones in spread.items():
        if max(zones.values()) - min(zones[it] for it in "abcd") > 1:
            yield f"{group} is spread so: {dict(zones)}"


def with_cycles(lines: Sequence[Thing]) -> Iterator[Thing]:
    """What was told, with a cycle of each pod in place of the question about it."""
    version = 0
    for it in lines:
        version += 2
        if it["op"] == "judge":
            # (a pod that has its place by now isn't told twice)
            uid = f"asked/{version}"
            told: list[Thing] = [
                it | {"op": "pod", "v": version, "uid": uid},
                {"op": "cycle"},
                {"op": "deleted", "v": version + 1, "uid": uid},
            ]
            yield from told
        elif it["op"] != "tick":
            yield it | {"v": version}


def answers(
    site: Ours, word: str, lines: Iterable[Thing], specs: Sequence[str]
) -> list[dict[str, list[str]]]:
    """Of each question or cycle what is said of each node."""
    text = "".join(f"{json.dumps(it)}\n" for it in lines)
    said = subprocess.run(
        [site.programs.wsched, word, *specs], input=text, capture_output=True, text=True, check=True
    ).stdout
    found, nodes = list[dict[str, list[str]]](), dict[str, list[str]]()
    for line in said.splitlines():
        first, *words = line.split()
        if line.startswith("  "):
            nodes[first] = words
        elif line not in ("ok", "idle") and first != "refused":
            found.append(nodes)
            nodes = {}
    return found


def as_explained(site: Ours, *specs: str) -> int:
    """The record of what was told, told to `explain`, with a cycle of each pod that was asked
    about: where wsched's own filters let a node pass, it says what was answered, but for scores
    where filters alone were asked. Gives how many verdicts were compared."""
    lines = [
        json.loads(line) for line in (site.folder / "told").read_text(encoding="utf-8").splitlines()
    ]
    judged, explained, compared = (
        answers(site, "run", lines, specs),
        answers(site, "explain", with_cycles(lines), specs),
        0,
    )
    assert len(judged) == len(explained) >= 1, (len(judged), len(explained))
    alone = [it.get("filters", False) for it in lines if it["op"] == "judge"]
    for is_alone, one, other in zip(alone, judged, explained, strict=True):
        assert one.keys() == other.keys()
        for node, words in one.items():
            # (behind a total stand wsched's own scores, and the rules')
            mine, told = (
                words[2:] if words[0] == "total" else words,
                other[node][6:] if other[node][0] == "total" else other[node],
            )
            if is_alone and words[0] == "total":
                told[2::3] = ["0"] * len(told[2::3])
            if other[node][0] in ("total", "plugin", "error"):
                assert mine == told, f"{node}: {words}, and explain says {other[node]}"
                compared += 1
    return compared


def all_kinds(site: Ours) -> str:
    """500 pods with affinity, spread, ports and selectors, half of them one region's, on 200
    nodes: each is bound where the scheduler and the rule allow it, and those that no node may have
    wait, and say by which rule; the record of what wsched was told, told to `wsched explain`,
    gives the same verdicts."""
    nodes = some_nodes(200)
    site.make_nodes(nodes)
    caller = site.extend(KEEP, PREFER, wsched=with_record(site.folder, site.programs.wsched))
    site.schedule(caller)
    pods = {name: (labels, spec) for name, labels, spec in some_pods(500)}
    site.make_all(pods)
    nowhere = sum(
        (spec.get("nodeSelector") or {}).get(REGION) == "us-east-1" for _, spec in pods.values()
    )
    wait_for(
        lambda: site.alive("extender") and site.bound() == 500 - nowhere,
        120,
        "all are bound that may be",
    )
    waits = next(
        name for name, (_, spec) in pods.items() if REGION in (spec.get("nodeSelector") or {})
    )
    said = site.said(waits)
    assert REASON in said, said
    bad = [*wrong(nodes, pods, site.places())]
    assert not bad, f"{len(bad)} wrong: {'; '.join(bad[:3])}"
    seen = caller.metrics()
    asked = seen['wsched_extender_requests_total{result="answered",verb="filter"}']
    assert seen['wsched_extender_requests_total{result="error",verb="filter"}'] == 0
    site.stop("kube-scheduler", "extender")
    compared = as_explained(site, KEEP, PREFER)
    assert compared > 10000, compared
    site.clear()
    return (
        f"{asked:.0f} filters, {nowhere} pods wait; {compared} verdicts as explain has them; {said}"
    )


def rights(site: Ours) -> str:
    """The account of deploy.yaml: all that the extender has asked for so far was granted, and it
    may do nothing else."""
    asked = {
        (it["verb"], it["objectRef"]["resource"], it["responseStatus"]["code"])
        for it in site.audit()
        if "objectRef" in it and "responseStatus" in it
    }
    assert (
        asked <= {(verb, what, 200) for verb in ("list", "watch") for what in ("nodes", "pods")}
        and len(asked) == 4
    ), asked
    status, said = site.kubectl("auth", "can-i", "--list", user="extender")
    own = sorted(line.split()[0] for line in said.splitlines() if "[list watch]" in line)
    assert status == 0 and own == ["nodes", "pods"], said
    others = {line.split()[-1] for line in said.splitlines()[1:] if not line.split()[0] in own} - {
        "[get]",
        "[create]",
    }
    assert not others, said
    return "list and watch of nodes and pods"


def misbehaving(site: Ours) -> str:
    """Rules that trap and that never end hold pods up, by an event that names the rule, the cause
    and a node; with --on-error=reject-node the nodes are rejected. A reason with percent signs is
    told whole by condition and event."""
    site.make_nodes(some_nodes(4))
    shown = []
    for name, body, cause in (
        ("traps", UNREACHABLE, "trap 1 Unreachable"),
        ("endless", FOREVER, "exhausted"),
    ):
        for word, want in (
            ("error", f"node node-0000: rule {name} says nothing: {cause}; and 3 nodes more"),
            ("reject-node", f"rule {name} says nothing: {cause}"),
        ):
            site.schedule(site.extend("--on-error", word, rule(site.folder, name, body)))
            site.make(f"{name}-{word}", {})
            said = site.said(f"{name}-{word}")
            shown.append(said)
            assert want in said, said
            site.stop("kube-scheduler", "extender")
            site.delete_pods(site.places())
    more = section("wsched.reason.2", "100% of %s".encode())
    site.schedule(site.extend(rule(site.folder, "percent", answering(2), more)))
    site.make("percent", {})
    whole = "4 node(s) were rejected by percent (100\uff05 of \uff05s)"
    assert whole in site.said("percent"), site.said("percent")
    wait_for(
        lambda: [it for it in site.events() if it["involvedObject"]["name"] == "percent"],
        20,
        "an event",
    )
    event = [it for it in site.events() if it["involvedObject"]["name"] == "percent"][0]["message"]
    assert whole in event, event
    site.stop("kube-scheduler", "extender")
    site.clear()
    return f"{shown[0]} / {shown[1]} / {event}"


def evading(site: Ours) -> str:
    """A pod of 41 labels, and a rule that doesn't say which it reads: the pod waits, and its event
    says why; with --labels it's placed as the rule says."""
    silent = site.folder / "silent.wasm"
    silent.write_bytes(without_sections((PLUGINS / "keep_region.wasm").read_bytes()))
    word = f"keep_region:1:100000:{silent}"
    site.make_nodes(some_nodes(4))
    site.schedule(site.extend(word))
    labels = {**{f"a{i:02}": "x" for i in range(40)}, **PERSONAL}
    site.make("evades", labels)
    said = site.said("evades")
    assert "41 labels" in said and "keep_region" in said and "--labels" in said, said
    site.stop("kube-scheduler", "extender")
    site.schedule(site.extend(word, "--labels", f"data-class,{REGION}"))
    for i in range(10):
        site.make(f"knows-{i}", labels)
    wait_for(lambda: site.bound() >= 10, 60, "all are bound")
    places = site.places()
    assert all(not on or int(on[5:]) % 2 for on in places.values()), places
    site.stop("kube-scheduler", "extender")
    site.clear()
    return said


def in_the_midst(site: Ours) -> str:
    """200 pods, half of them one region's, and the extender is killed and started again, hangs for
    a while, and has its wsched killed in the midst: all are bound at the end, and none outside.
    One that is `ignorable` and down is passed over, and the rule isn't kept."""
    nodes = some_nodes(50)
    site.make_nodes(nodes)
    caller = site.extend(KEEP, PREFER)
    site.schedule(caller, httpTimeout="2s")

    def some(first: int) -> None:
        for i in range(first, first + 50):
            site.make(f"pod-{i}", PERSONAL if i % 2 else {})

    some(0)
    wait_for(site.bound, 30, "some are bound")
    os.kill(
        next(it for it in children(site.own["extender"].pid) if "run" in command(it)),
        signal.SIGKILL,
    )
    some(50)
    wait_for(lambda: site.bound() == 100, 60, "those are bound behind a wsched that was begun anew")
    site.end("extender", signal.SIGKILL)
    some(100)
    refused = site.said("pod-149")
    assert "connection refused" in refused and f"127.0.0.1:{caller.port}/filter" in refused, refused
    caller = site.extend(KEEP, PREFER, port=caller.port)
    began = time.monotonic()
    # (whatever moves in the cluster has all that wait tried again; else they wait for more than a
    # minute)
    site.move("1")
    wait_for(lambda: site.bound() == 150, 100, "those that waited are bound")
    back = time.monotonic() - began
    os.kill(site.own["extender"].pid, signal.SIGSTOP)
    site.make("hangs", PERSONAL)
    late = site.said("hangs")
    assert "Client.Timeout exceeded" in late or "deadline exceeded" in late, late
    os.kill(site.own["extender"].pid, signal.SIGCONT)
    some(150)
    site.move("2")
    wait_for(lambda: site.bound() == 201, 100, "all are bound")
    outside = [
        name
        for name, on in site.places().items()
        if on and name != "hangs" and int(name[4:]) % 2 and nodes[on]["labels"][REGION] != EUROPE
    ]
    assert not outside, outside
    site.stop("kube-scheduler", "extender")
    site.schedule(caller, ignorable=True)
    for i in range(300, 320):
        site.make(f"pod-{i}", PERSONAL)
    wait_for(lambda: site.bound() == 221, 30, "they are bound without it")
    passed_over = {f"pod-{i}" for i in range(300, 320)}
    outside = [
        name
        for name, on in site.places().items()
        if name in passed_over and on and nodes[on]["labels"][REGION] != EUROPE
    ]
    assert outside, "an ignorable extender that is down is passed over"
    site.stop("kube-scheduler")
    site.clear()
    shown = f"bound {back:.1f} s after it was back; ignorable: {len(outside)} of 20 outside"
    return f"{refused[:120]} / {late[:160]} / {shown}"


def by_tls(site: Ours) -> str:
    """kube-scheduler asks by TLS and shows a certificate, by one that is renewed under its feet,
    and by one of a name that its stanza gives: all pods are bound, and none outside."""
    site.make_nodes(some_nodes(20))
    name = "wsched-extender.kube-system.svc"
    every = [certificate(site.folder, it) for it in ("first", "second")]
    every.append(certificate(site.folder, "third", f"DNS:{name}"))
    authorities, own = site.folder / "all.pem", [site.folder / f"own.{it}" for it in ("crt", "key")]
    authorities.write_bytes(b"".join(pathlib.Path(it[0]).read_bytes() for it in every))

    def put(pair: tuple[str, str]) -> None:
        time.sleep(1)
        for there, it in zip(own, pair):
            there.write_bytes(pathlib.Path(it).read_bytes())

    def bind(first: int) -> None:
        site.make_all({f"pod-{i}": (PERSONAL, {}) for i in range(first, first + 20)})
        site.wait_for_bound(first + 20)

    put(every[0])
    client = certificate(site.folder, "client")
    words = ["--tls-cert", str(own[0]), "--tls-key", str(own[1]), "--client-ca", client[0], KEEP]
    caller = site.extend(*words, authority=str(authorities))
    tls = {"caFile": str(authorities), "certFile": client[0], "keyFile": client[1]}
    site.schedule(caller, tlsConfig=tls)
    bind(0)
    put(every[1])
    bind(20)
    site.stop("kube-scheduler")
    site.schedule(caller, tlsConfig=tls)
    bind(40)
    put(every[2])
    site.stop("kube-scheduler")
    site.schedule(caller, tlsConfig=tls | {"serverName": name})
    bind(60)
    assert all(on and int(on[5:]) % 2 for on in site.places().values())
    site.stop("kube-scheduler", "extender")
    site.clear()
    return "80 pods by three certificates, one of another name"


def whole_nodes(site: Ours) -> str:
    """1,000 nodes: 300 pods by names, and 20 by whole nodes, which kube-scheduler hands over where
    `nodeCacheCapable` is false; none is outside."""
    nodes = some_nodes(1000)
    site.make_nodes(nodes)
    caller, shown = site.extend(KEEP, PREFER), []
    for by_names, count in ((True, 300), (False, 20)):
        site.schedule(caller, nodeCacheCapable=by_names)
        before, began = site.bound(), time.monotonic()
        names = [f"pod-{by_names}-{i}".lower() for i in range(count)]
        site.make_all({it: (PERSONAL if i % 2 else {}, {}) for i, it in enumerate(names)})
        site.wait_for_bound(before + count, 120)
        shown.append(f"{count} pods in {time.monotonic() - began:.1f} s")
        site.stop("kube-scheduler")
    labels = {
        it["metadata"]["name"]: it["metadata"].get("labels")
        for it in site.ask("GET", PODS)["items"]
    }
    outside = [
        name
        for name, on in site.places().items()
        if labels[name] and on and nodes[on]["labels"][REGION] != EUROPE
    ]
    assert not outside, outside
    site.stop("extender")
    site.clear()
    return ", then by whole nodes ".join(shown)


def page(site: Ours) -> str:
    """The commands of the extender's README.md, each as it stands there: from a stock
    kube-scheduler to the first rejected pod, and on to deploy.yaml."""
    site.make_nodes(
        {it: node | {"marked": False, "taints": []} for it, node in some_nodes(3).items()}
    )
    for i in range(3):
        site.move("1", f"node-{i:04}", {REGION: "us-east-1"})
    at, own = site.folder / "clone", site.folder / "bin"
    (at / "crates/wsched/out").mkdir(parents=True)
    own.mkdir()
    (at / "examples").symlink_to(TOP / "examples")
    (at / "crates/wsched/out/wsched").symlink_to(site.programs.wsched)
    stock = own / "kube-scheduler"
    more = "--bind-address=127.0.0.1 --secure-port=0 --port=20251"
    text = f'#!/bin/sh\nexec {cluster.HOME}/bin/kube-scheduler "$@" {more}\n'
    stock.write_text(text, encoding="utf-8")
    stock.chmod(0o755)
    text = (EXTENDER / "README.md").read_text(encoding="utf-8")
    blocks = re.findall(r"^```sh\n(.*?)^```$", text, re.M | re.S)
    assert len(blocks) == 6, len(blocks)
    env = os.environ | {"KUBECONFIG": str(site.folder / "admin.kubeconfig")}
    env["PATH"] = f"{own}:{env['PATH']}"
    words, script = ["bash", "-e", "-o", "pipefail"], "\necho == >&2\n".join(blocks)
    began = time.monotonic()
    with open(site.folder / "page.log", "wb") as log:
        shell = subprocess.Popen(
            words,
            cwd=at,
            env=env,
            stdin=subprocess.PIPE,
            stdout=log,
            stderr=log,
            start_new_session=True,
        )
        try:
            shell.communicate(script.encode(), timeout=120)
        finally:
            # (what it has left in the background is of its session)
            os.killpg(shell.pid, signal.SIGTERM)
    said = (site.folder / "page.log").read_text(encoding="utf-8").split("==\n")
    assert shell.returncode == 0 and len(said) == 6, said
    assert said[1] == "ok", said[1]
    assert json.loads(said[2].splitlines()[-1])["FailedNodes"] == {"node-0000": REASON}, said[2]
    assert f"0/3 nodes are available: 3 {REASON}." in said[4], said[4]
    assert re.fullmatch(r"10\.0\.0\.\d+", said[5].splitlines()[-1]), said[5]
    for it in ("secret", "deployment", "service"):
        site.kubectl("delete", "-n", "kube-system", it, "wsched-extender")
    site.clear()
    return f"{time.monotonic() - began:.0f} s; {said[2].splitlines()[-1][:200]}"


TRIALS: list[Callable[[Ours], str]] = [
    page,
    all_kinds,
    misbehaving,
    evading,
    in_the_midst,
    by_tls,
    whole_nodes,
    rights,
]
