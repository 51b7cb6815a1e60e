# SPDX-License-Identifier: Apache-2.0
"""The trials beside a real API server (kube-apiserver 1.20.2 with etcd): nodes too few for the pods, until each that waits fits nowhere."""
import json
import random
import re
import signal
import threading
import time
from typing import Callable

from trials.fixtures import cluster
from trials.fixtures.cluster import Cluster
from trials.fixtures.fleet import Trial, some_nodes, some_pods, wrong
from trials.fixtures.site import GIB, RULE
from trials.fixtures.store import Thing
from trials.reporting.record import places_in, replayed


def plain(site: Cluster) -> str:
    """A cluster at rest: every pod that may be placed is, once, and the events say so."""
    trial = Trial(site, some_nodes(200), some_pods(1500, "p"))
    trial.schedule()
    site.make_pods(trial.pods)
    said = [trial.settle()]
    trial.wait_for(lambda: sum(1 for it in site.events() if it["reason"] == "Scheduled") == trial.bound(), 30)
    waiting = [name for name, node in site.places().items() if not node and not trial.pods[name]["selects"]]

    def failed() -> dict[str, str]:
        return {it["involvedObject"]["name"]: it["message"] for it in site.events() if it["reason"] == "FailedScheduling"}

    # (what has changed since its first event is said 30 s later at the earliest)
    trial.wait_for(lambda: set(waiting) <= set(failed()), 40)
    messages = failed()
    for name in waiting:
        message = messages[name]
        assert re.match(r"0/200 nodes are available: \d", message), f"{name}: {message}"
        assert sum(int(it) for it in re.findall(r"(?:: |, )(\d+) ", message)) == 200, message
    said += [trial.once(), trial.watched(), f"{trial.bound()} events Scheduled, {len(waiting)} pods that wait say why: {messages[waiting[0]]}"]
    trial.end()
    return "; ".join(said)


def dry_run(site: Cluster) -> str:
    """--dry-run says what it would bind, and writes nothing."""
    trial = Trial(site, some_nodes(200), some_pods(300, "d"))
    site.make_pods(trial.pods)
    out = site.folder / "dry-run.out"
    with open(out, "wb") as said:
        trial.schedule("--dry-run", stdout=said)
        trial.wait_for(lambda: len(out.read_text(encoding="utf-8").splitlines()) >= 294)
        trial.end()
    would = re.findall(r"^would bind default/(\S+) to (\S+)$", out.read_text(encoding="utf-8"), re.M)
    assert not list(wrong(trial.nodes, trial.pods, dict(would)))
    assert trial.bound() == 0 and not site.events() and not trial.binds()
    return f"{len(would)} places told, none bound, no event written"


def recorded(trial: Trial, *names: str) -> str:
    """Each bind that was watched is a decision that the records replay, and each record is whole."""
    decided: set[tuple[str, str]] = set()
    for name in names:
        file = trial.site.folder / f"{name}.jsonl.gz"
        decided |= set(places_in(replayed(trial.site.programs.wsched, file, RULE)))
    binds = trial.ears.watcher().binds
    missing = [it for it in binds if it not in decided]
    assert not missing, f"{len(missing)} of {len(binds)} binds are in no record: {missing[:2]}"
    return f"{len(names)} records, whole, replayed: each of {len(binds)} binds was decided so"


def recording(site: Cluster, name: str) -> list[str]:
    """The words for a record of this name, of which there is none yet."""
    file = site.folder / f"{name}.jsonl.gz"
    file.unlink(missing_ok=True)
    return ["--record", str(file)]


def restart(site: Cluster) -> str:
    """The API server is killed while pods are bound, and started again, twice: once for longer than an assumed place stays."""
    trial = Trial(site, some_nodes(200), some_pods(1500, "r"))
    site.make_pods(trial.pods)
    trial.schedule(*recording(site, "restart"))
    for part, away in ((300, 35), (700, 2)):
        trial.wait_for(lambda part=part: trial.bound() >= part)  # type: ignore[misc]
        site.end("api", signal.SIGKILL)
        time.sleep(away)
        site.start_api()
    said = [trial.settle(), trial.once(lost=40), trial.watched()]
    trial.end()
    return "; ".join([*said, recorded(trial, "restart")])


def deletions(site: Cluster) -> str:
    """Pods are deleted while others are bound: waiting ones, bound ones, those under bind; others get their room."""
    trial = Trial(site, some_nodes(200), some_pods(1500, "x"))
    trial.schedule()
    making = threading.Thread(target=site.make_pods, args=(trial.pods,))
    making.start()
    dice, deleted = random.Random(3), 0
    while making.is_alive() or deleted < 400:
        there = [it for it in site.places() if it not in trial.gone]
        some = dice.sample(there, min(25, len(there)))
        trial.gone |= set(some)
        site.delete_pods(some)
        deleted += len(some)
    making.join()
    trial.pods = {name: pod for name, pod in trial.pods.items() if name not in trial.gone}
    trial.gone = set()
    said = [f"{deleted} deleted", trial.settle(), trial.once(), trial.watched()]
    trial.end()
    return "; ".join(said)


def beside(site: Cluster) -> str:
    """kube-scheduler runs beside it, on the same nodes, for pods of its own. Neither knows what the other has just decided, so
    there is room for all here."""
    ours, theirs = dict(some_pods(750, "o", most=800)), dict(some_pods(750, "k", "default-scheduler", most=800, seed=4))
    roomy = {name: node | {"memory": 64 * GIB, "pods": 110} for name, node in some_nodes(200, cpu=16000)}
    trial = Trial(site, roomy, ours | theirs)
    site.start_kube_scheduler()
    try:
        trial.schedule()
        site.make_pods({name: pod for two in zip(ours.items(), theirs.items()) for name, pod in two})
        said = [trial.settle(), trial.once(), trial.watched()]
        trial.end()
    finally:
        site.end("kube-scheduler")
    return "; ".join(said)


def tight(site: Cluster) -> str:
    """kube-scheduler beside it on 40 nodes with room for 80 pods, 60 pods for each at once: how many nodes come over their room, for the page."""
    nodes = {f"node-{i:02}": {"cpu": 2000, "memory": 8 * GIB, "pods": 110, "labels": {"pool": "a"}, "taints": [], "marked": False} for i in range(40)}
    pod = {"cpu": 1000, "memory": 2**26, "labels": {}, "tolerates": [], "selects": {}}
    trial = Trial(site, nodes, {f"{who[0]}-{i:02}": pod | {"scheduler": who} for i in range(60) for who in ("wsched", "default-scheduler")})
    site.start_kube_scheduler()
    try:
        trial.schedule(rule=None)
        time.sleep(6)
        site.make_pods(trial.pods)
        trial.wait_for(lambda: trial.bound() >= 80, 60)
        time.sleep(5)
        trial.end()
    finally:
        site.end("kube-scheduler")
    bound = trial.bound()
    trial.wait_for(lambda: trial.ears.watcher().bound >= bound, 30)
    seen = trial.ears.watcher()
    trial.ears.stop.set()
    assert not [it for it in seen.wrong if "over its room" not in it], seen.wrong[:3]
    return f"{bound} of 120 pods bound where there is room for 80, {len(seen.over)} of 40 nodes over their room"


def pools(site: Cluster) -> str:
    """Two instances, each with nodes and a scheduler name of its own."""
    trial = Trial(site, some_nodes(200), dict(some_pods(750, "a", "wsched-a")) | dict(some_pods(750, "b", "wsched-b", seed=5)))
    for pool in "ab":
        trial.schedule("--nodes", f"pool={pool}", "--scheduler", f"wsched-{pool}", name=f"wsched-{pool}")
    site.make_pods(trial.pods)
    said = [trial.settle({"wsched-a": "a", "wsched-b": "b"}), trial.once(), trial.watched()]
    astray = [name for name, node in site.places().items() if node and trial.nodes[node]["labels"]["pool"] != name[0]]
    assert not astray, astray
    for pool in "ab":
        trial.end(f"wsched-{pool}")
    return "; ".join(said)


def leader(site: Cluster) -> str:
    """Two replicas share a Lease. The one that has it is killed while it binds; the other waits until it has run out, and goes on.
    Then that one is ended, and the next has the Lease at once. Their records replay to what was bound."""
    trial = Trial(site, some_nodes(200), some_pods(1500, "l"))
    replicas: dict[str, str] = {}

    def start(name: str) -> None:
        replicas[str(trial.schedule("--lease", "kube-system/wsched", *recording(site, name), name=name).pid)] = name

    def holder() -> "str | None":
        try:
            lease = site.ask("GET", "/apis/coordination.k8s.io/v1/namespaces/kube-system/leases/wsched")
        except cluster.Refused:
            return None
        return replicas.get((lease["spec"].get("holderIdentity") or "").rpartition("_")[2])

    start("replica-1")
    start("replica-2")
    trial.wait_for(holder)
    first, pods = holder() or "", [*trial.pods.items()]
    site.make_pods(dict(pods[:750]))
    trial.wait_for(lambda: trial.bound() >= 300)
    site.end(first, signal.SIGKILL)
    killed, when = trial.bound(), time.monotonic()
    # (however quick the first was, the other has something to do)
    site.make_pods(dict(pods[750:]))
    trial.wait_for(lambda: holder() not in (None, first), 60)
    taken = time.monotonic() - when
    said = [f"{first} was killed at {killed} binds, and the other had the Lease {taken:.0f} s later", trial.settle(), trial.once(lost=20), trial.watched()]
    start("replica-3")
    trial.wait_for(lambda: "is a follower" in (site.folder / "replica-3.log").read_text(encoding="utf-8"))
    other = holder() or ""
    trial.end(other)
    when = time.monotonic()
    trial.wait_for(lambda: holder() == "replica-3", 12)
    said.append(f"the other was ended, and a third had the Lease {time.monotonic() - when:.0f} s later")
    trial.end("replica-3")
    return "; ".join([*said, recorded(trial, first, other)])


def claimed(site: Cluster) -> None:
    """With --node-affinity and a Lease, by the account of deploy.yaml: a pod goes where its selector says, and one where its volume is."""
    nodes = {f"node-{it}": {"cpu": 4000, "memory": 8 * GIB, "pods": 110, "labels": {"zone": it}, "taints": [], "marked": False} for it in "ab"}
    trial, claims, storage = Trial(site, nodes, {}), "/api/v1/namespaces/default/persistentvolumeclaims", {"storage": "1Gi"}
    zone = {"required": {"nodeSelectorTerms": [{"matchExpressions": [{"key": "zone", "operator": "In", "values": ["b"]}]}]}}
    volume = {"capacity": storage, "accessModes": ["ReadWriteOnce"], "hostPath": {"path": "/x"}, "nodeAffinity": zone}
    site.ask("POST", "/api/v1/persistentvolumes", {"apiVersion": "v1", "kind": "PersistentVolume", "metadata": {"name": "data"}, "spec": volume})
    meta = {"name": "data", "annotations": {"pv.kubernetes.io/bind-completed": "yes"}}
    claim = {"accessModes": ["ReadWriteOnce"], "volumeName": "data", "resources": {"requests": storage}, "storageClassName": ""}
    site.ask("POST", claims, {"apiVersion": "v1", "kind": "PersistentVolumeClaim", "metadata": meta, "spec": claim})
    trial.schedule("--node-affinity", "2", "--lease", "kube-system/wsched", rule=None)
    pods: dict[str, Thing] = {
        "selects": {"nodeSelector": {"zone": "a"}},
        "claims": {"volumes": [{"name": "v", "persistentVolumeClaim": {"claimName": "data"}}]},
        "waits": {"nodeSelector": {"zone": "c"}},
    }
    for name, more in pods.items():
        spec = {"schedulerName": "wsched", "containers": [{"name": "c", "image": "x"}], **more}
        site.ask("POST", "/api/v1/namespaces/default/pods", {"apiVersion": "v1", "kind": "Pod", "metadata": {"name": name}, "spec": spec})
    trial.wait_for(lambda: trial.bound() >= 2 and any(it["involvedObject"]["name"] == "waits" for it in site.events()), 60)
    trial.ears.stop.set()
    trial.end()
    assert site.places() == {"selects": "node-a", "claims": "node-b", "waits": None}, site.places()


# What only some runs ask for, and when.
SELDOM = {("get", "pods"): "where a bind had no answer", ("patch", "events"): "after 10 minutes of the same message"}


def rights(site: Cluster) -> str:
    """Runs after the others: deploy.yaml is taken by the API server, and its rights are those that were used, no more and no less, with
    those of volumes, which --node-affinity alone needs."""
    status, said = site.kubectl("apply", "--dry-run=server", "-f", str(site.programs.client / "deploy.yaml"))
    assert status == 0 and len(said.splitlines()) >= 6, said
    claimed(site)
    given: set[tuple[str, str]] = set()
    asked: set[tuple[str, str]] = set()
    refused: set[tuple[str, str]] = set()
    for kind in ("clusterrole", "role"):
        where = [] if kind == "clusterrole" else ["-n", "kube-system"]
        for rule in json.loads(site.kubectl("get", kind, "wsched", "-o", "json", *where)[1])["rules"]:
            given |= {(verb, what) for verb in rule["verbs"] for what in rule["resources"]}
    for it in site.audit():
        about = it.get("objectRef") or {}
        if "resource" in about:
            right = (it["verb"], "/".join(filter(None, (about["resource"], about.get("subresource")))))
            (refused if it.get("responseStatus", {}).get("code") == 403 else asked).add(right)
    # (an API server that has just been started refuses everything until it has read the roles)
    assert asked | refused <= given and refused <= asked, f"asked for, not given: {(asked | refused) - given}"
    unused = given - asked
    assert unused <= SELDOM.keys(), f"given, never asked for: {sorted(unused - SELDOM.keys())}"
    why = "; ".join(f"{' '.join(it)} is asked for {SELDOM[it]}" for it in sorted(unused))
    return f"dry run: {', '.join(said.splitlines())}; used {len(asked)} of {len(given)} rights; {why or 'none was never used'}"


TRIALS: list[Callable[[Cluster], str]] = [plain, dry_run, restart, deletions, beside, tight, pools, leader]
