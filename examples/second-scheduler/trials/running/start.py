# SPDX-License-Identifier: Apache-2.0
"""What is wrong from the start is told at the start: a plugin, a kubeconfig, a word; and which right is missing."""
import datetime
import json
import sys
import time

from trials.fixtures.server import Asked
from trials.fixtures.site import PATIENCE, Scheduler, Site, wait_for

LEASE = "kube-system/wsched"
# A client that makes its scheduler, says which threads and children there are then, and ends.
MADE = """
import os, sys, threading
sys.path.insert(0, {folder!r})
sys.argv = sys.argv[1:]
import second_scheduler
given = second_scheduler.words()
replica = second_scheduler.Replica(given)
made = second_scheduler.Scheduler(given, replica.calls, replica.metrics, replica.health, replica.may_write)
with open(f"/proc/self/task/{{os.getpid()}}/children", encoding="ascii") as children:
    print(*[it.name for it in threading.enumerate()], *children)
"""


def ends(it: Scheduler, patience: float, *said: str) -> int:
    """It ends in that time with a status that isn't 0, says these texts, and has no traceback."""
    status, log = it.wait(PATIENCE * patience), it.log()
    assert status is not None, f"it hasn't ended within {patience:.0f} s"
    assert status != 0, "it ended with status 0"
    assert "Traceback" not in log, f"a traceback: {log.strip().splitlines()[-1][:200]}"
    for text in said:
        assert text in log, f"it doesn't say {text!r}: {log.strip()[-300:]}"
    return status


def typo(site: Site) -> str:
    """A plugin's file that isn't there, a module that is refused, a weight of 11: each ends it within 10 s, before it has the Lease."""
    site.node("a")
    bad = site.folder / "bad.wasm"
    bad.write_bytes(b"\0asm\1\0\0\0\1")
    statuses = []
    rules = {
        "missing": (f"rule:1:1000:{site.folder}/no.wasm", "rule"),
        "refused": (f"rule:1:1000:{bad}", "refused decode"),
        "weight": (f"rule:11:1000:{bad}", "WEIGHT"),
    }
    for name, (rule, said) in rules.items():
        statuses.append(ends(site.start("--lease", LEASE, name=name, rule=rule), 10, said))
        assert not site.server.all("create", "leases"), f"{name}: it took the Lease before it knew"
    return f"statuses {statuses}, no Lease taken"


def typo_follower(site: Site) -> str:
    """The same beside a leader: it ends within 10 s, and not only once it leads."""
    site.node("a")
    now = datetime.datetime.now(datetime.timezone.utc)
    spec = {"holderIdentity": "another", "leaseDurationSeconds": 3600, "leaseTransitions": 0}
    spec |= {it: now.strftime("%Y-%m-%dT%H:%M:%S.000000Z") for it in ("acquireTime", "renewTime")}
    meta = {"name": "wsched", "namespace": "kube-system"}
    site.store.make("leases", {"kind": "Lease", "apiVersion": "coordination.k8s.io/v1", "metadata": meta, "spec": spec})
    status = ends(site.start("--lease", LEASE, rule=f"rule:1:1000:{site.folder}/no.wasm"), 10, "rule")
    return f"status {status} while another leads"


def no_kubeconfig(site: Site) -> str:
    """A kubeconfig that isn't there, and one that is none: ended within 10 s with a line that names it, and no traceback."""
    nonsense = site.folder / "nonsense"
    nonsense.write_text(json.dumps({"kind": "Config"}), encoding="utf-8")
    missing = str(site.folder / "no-such-file")
    statuses = [ends(site.start(name="missing", config=missing), 10, missing), ends(site.start(name="nonsense", config=str(nonsense)), 10)]
    return f"statuses {statuses}"


def bad_lease(site: Site) -> str:
    """--lease without a slash, or with an empty part, is bad words: status 2 and the usage, within 10 s."""
    words = ("wsched", "/wsched", "kube-system/")
    statuses = [ends(site.start("--lease", word, name=f"word-{i}"), 10, "usage:", "--lease") for i, word in enumerate(words)]
    assert statuses == [2, 2, 2], statuses
    return "statuses 2, with the usage"


def missing_right(site: Site) -> str:
    """The API server's own message is logged, which names the right that is missing: of a list, a watch, a bind and an event."""
    site.node("a")
    refused = {it: f'cannot {it.split()[0]} resource "{it.split()[1]}"' for it in ("list nodes", "watch pods", "create pods/binding")}
    shown: list[str] = []
    for what, right in refused.items():
        message = f'User "system:serviceaccount:kube-system:wsched" {right} in API group "" at the cluster scope'

        def refuse(asked: Asked, what: str = what, message: str = message) -> "tuple[int, str] | None":
            return (403, message) if f"{asked.verb} {asked.what}" == what else None

        site.server.refuse = refuse
        # (what an earlier one has bound is no more to be bound)
        site.pod(f"for-{len(shown)}")
        it = site.start(name=what.replace(" ", "-").replace("/", "-"))
        wait_for(lambda it=it, right=right: right in it.log() or not it.runs(), 15, f"the log names the right when `{what}` is refused")  # type: ignore[misc]
        assert "Traceback" not in it.log()
        it.end()
        shown.append(what)
    return f"named: {', '.join(shown)}"


def made(site: Site) -> str:
    """A scheduler that is made, and not run, has begun nothing: no thread, no child, no request and no record."""
    code, record = MADE.format(folder=str(site.programs.client)), site.folder / "record.gz"
    it = site.start("--record", str(record), words=[sys.executable, "-c", code, "second_scheduler.py"])
    status, said = it.wait(PATIENCE * 20), it.out_file.read_text(encoding="utf-8").split()
    assert status == 0 and said == ["MainThread"], f"status {status}, {said}: {it.log()[-300:]}"
    assert not record.exists() and not site.server.asked, "it has begun"
    return "the main thread alone"


def no_nodes(site: Site) -> str:
    """--nodes that no node has: the log and an event of the Lease say so, once, and no more once there is one."""
    site.node("a", labels={"pool": "a"})
    it = site.start("--nodes", "pool=b", "--lease", LEASE)

    def told() -> "list[str]":
        return [event["message"] for event in site.store.all("events") if event["reason"] == "NoNodes"]

    site.wait(told, 30, "an event says that no node is used")
    assert "pool=b" in told()[0] and it.log().count("no node is used") == 1, told()
    site.node("b", labels={"pool": "b"})
    site.pod("first")
    site.wait(lambda: site.place("first") == "b", 20, "it is bound once there is a node")
    # (what is so for less than a second isn't looked at)
    time.sleep(3)
    site.delete_node("b")
    site.wait(lambda: it.log().count("no node is used") == 2, 20, "it is told again")
    return f"{told()[0]}; {site.check()}"


TRIALS = [made, no_nodes, typo, typo_follower, no_kubeconfig, bad_lease, missing_right]
