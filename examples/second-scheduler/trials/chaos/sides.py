# SPDX-License-Identifier: Apache-2.0
"""What a long trial does to a cluster, by one set of calls: of the stub, and of a real API server, whose history is read from its etcd.

Either stands behind a relay of `between`, and binds a pod by its uid, as API servers from 1.21 on do. None tests a pod's version.
"""
import base64
import concurrent.futures
import http.client
import json
import pathlib
import signal
import threading
import time
from typing import Optional, Protocol, Sequence

from trials.fixtures import cluster
from trials.fixtures.between import Between
from trials.fixtures.server import Asked
from trials.fixtures.site import Site
from trials.fixtures.store import Change, Thing

# The trial's own ways to a store: nodes are "minions" there, and whatever stands between them and the
# pods is passed over.
FIRST, LAST = "/registry/minions/", "/registry/pods0"
# What priorities pods have.
PRIORITIES = (0, 10, 100)
KIND_OF = {"minions": "nodes", "pods": "pods"}


class Side(Protocol):
    """An API server behind a relay, and what is done to it."""

    name: str
    between: Between
    folder: pathlib.Path
    token: str
    has_server: bool

    def changes(self, since: int) -> Sequence[Change]:
        """Every change of a node or pod in the API server's order, from this one on."""

    def make_node(self, name: str, cpu: int, pods: int) -> None:
        """Makes a node that is ready, of so many thousandths of a core."""

    def make_pod(self, name: str, cpu: int, on: str = "", scheduler: str = "wsched", priority: int = 0) -> None:
        """Makes a pod of `default`, of one of the priorities below."""

    def delete_pod(self, name: str) -> None:
        """Takes a pod away at once."""

    def delete_node(self, name: str) -> None:
        """Takes a node away."""

    def end_pod(self, name: str) -> None:
        """A pod has ended well."""

    def mark(self, name: str, is_marked: bool) -> None:
        """A node is cordoned, or no more."""

    def kill_server(self, away: float) -> None:
        """Kills the API server, and starts it again after so many seconds."""

    def stand(self, names: Sequence[tuple[str, str]], cpu: int) -> None:
        """Makes many pods of another scheduler's: their names and nodes."""

    def close(self) -> None:
        """Ends all that was started."""


class StubSide:
    """The stub. (Its own deletions and binds are under one lock.)"""

    name, token, has_server = "stub", "token", False

    def __init__(self, site: Site) -> None:
        self.site, self.folder = site, site.folder
        self.between = Between(site.server.port, is_tls=False)
        site.server.tests_version = False

    def changes(self, since: int) -> Sequence[Change]:
        """(see Side)"""
        with self.site.store.changed:
            return self.site.store.changes[since:]

    def make_node(self, name: str, cpu: int, pods: int) -> None:
        """(see Side)"""
        self.site.node(name, cpu=f"{cpu}m", pods=pods)

    def make_pod(self, name: str, cpu: int, on: str = "", scheduler: str = "wsched", priority: int = 0) -> None:
        """(see Side)"""
        place: dict[str, str] = {"on": on} if on else {}
        self.site.pod(name, cpu=f"{cpu}m", memory="1Mi", scheduler=scheduler, priority=priority, **place)

    def delete_pod(self, name: str) -> None:
        """(see Side)"""
        self.site.delete_pod(name)

    def delete_node(self, name: str) -> None:
        """(see Side)"""
        self.site.delete_node(name)

    def end_pod(self, name: str) -> None:
        """(see Side)"""

        def change(pod: Thing) -> None:
            pod["status"]["phase"] = "Succeeded"

        self.site.store.change("pods", f"default/{name}", change)

    def mark(self, name: str, is_marked: bool) -> None:
        """(see Side)"""

        def change(node: Thing) -> None:
            node["spec"]["unschedulable"] = is_marked

        self.site.store.change("nodes", name, change)

    def kill_server(self, away: float) -> None:
        """(the stub is never away)"""

    def stand(self, names: Sequence[tuple[str, str]], cpu: int) -> None:
        """(see Side)"""
        for name, node in names:
            self.make_pod(name, cpu, node, "default-scheduler")

    def close(self) -> None:
        """(see Side)"""
        self.between.end()


class Ears:
    """Hears every change from etcd, which has each in its order however often the API server is started anew."""

    def __init__(self) -> None:
        self.heard, self.things, self.revision = list[Change](), dict[str, Thing](), 0
        threading.Thread(target=self.go, daemon=True).start()

    def go(self) -> None:
        """Watches, and takes the watch up where it ended."""
        first, last = (base64.b64encode(it.encode()).decode() for it in (FIRST, LAST))
        while True:
            line = http.client.HTTPConnection("127.0.0.1", cluster.ETCD)
            try:
                asked = {"create_request": {"key": first, "range_end": last, "start_revision": str(self.revision + 1)}}
                line.request("POST", "/v3/watch", json.dumps(asked), {"Content-Type": "application/json"})
                answer = line.getresponse()
                for text in iter(answer.readline, b""):
                    for event in json.loads(text)["result"].get("events", []):
                        self.hear(event)
            except (OSError, http.client.HTTPException):
                time.sleep(0.2)
            finally:
                line.close()

    def hear(self, event: Thing) -> None:
        """An event of etcd's, of which each has a revision of its own."""
        kept = event["kv"]
        words = base64.b64decode(kept["key"]).decode().split("/")[2:]
        self.revision = max(self.revision, int(kept["mod_revision"]))
        if words[0] not in KIND_OF:
            return
        key, kind = "/".join(words[1:]), KIND_OF[words[0]]
        before = self.things.pop(f"{kind}/{key}", None)
        after = short(json.loads(base64.b64decode(kept["value"]))) if event.get("type") != "DELETE" else None
        if after:
            self.things[f"{kind}/{key}"] = after
        told = after or before
        assert told, f"{key} went, and was never there"
        self.heard.append(Change(int(kept["mod_revision"]), kind, key, before, after, told, time.monotonic()))


def short(thing: Thing) -> Thing:
    """What is looked at of an object."""
    kept = {"metadata": ("name", "uid"), "spec": ("nodeName", "schedulerName", "containers", "unschedulable"), "status": ("phase", "allocatable")}
    return {part: {key: value for key, value in thing.get(part, {}).items() if key in keys} for part, keys in kept.items()}


class RealSide:
    """kube-apiserver, which is told to keep its objects as JSON, so that the trial can read them in etcd."""

    name, token, has_server = "real", "wschedtoken", True

    def __init__(self, site: cluster.Cluster) -> None:
        self.site, self.folder = site, site.folder
        site.more["storage-media-type"] = "application/json"
        site.start()
        self.ears = Ears()
        self.between = Between(cluster.API, is_tls=True)
        self.between.test = self.test
        for it in filter(None, PRIORITIES):
            body = {"apiVersion": "scheduling.k8s.io/v1", "kind": "PriorityClass", "metadata": {"name": f"priority-{it}"}, "value": it}
            site.ask("POST", "/apis/scheduling.k8s.io/v1/priorityclasses", body)

    def test(self, asked: Asked) -> Optional[tuple[int, str]]:
        """Refuses a bind of another uid, as API servers from 1.21 on do."""
        try:
            pod = self.site.ask("GET", f"/api/v1/namespaces/default/pods/{asked.key.partition('/')[2]}")
        except cluster.Refused:
            # (it says so itself)
            return None
        uid, there = asked.body["metadata"].get("uid"), pod["metadata"]["uid"]
        return (409, f"Precondition failed: UID in precondition: {uid}, UID in object meta: {there}") if uid and uid != there else None

    def changes(self, since: int) -> Sequence[Change]:
        """(see Side)"""
        return self.ears.heard[since:]

    def make_node(self, name: str, cpu: int, pods: int) -> None:
        """(see Side)"""
        self.site.make_nodes({name: {"cpu": cpu, "memory": 8 << 30, "pods": pods, "labels": {}, "taints": [], "marked": False}})

    def make_pod(self, name: str, cpu: int, on: str = "", scheduler: str = "wsched", priority: int = 0) -> None:
        """(see Side)"""
        self.site.ask("POST", "/api/v1/namespaces/default/pods", pod_of(name, cpu, on, scheduler, priority))

    def delete_pod(self, name: str) -> None:
        """(see Side)"""
        with self.between.lock:
            self.site.ask("DELETE", f"/api/v1/namespaces/default/pods/{name}", {"gracePeriodSeconds": 0})

    def delete_node(self, name: str) -> None:
        """(see Side)"""
        self.site.ask("DELETE", f"/api/v1/nodes/{name}")

    def end_pod(self, name: str) -> None:
        """(see Side)"""
        pod = self.site.ask("GET", f"/api/v1/namespaces/default/pods/{name}")
        pod["status"]["phase"] = "Succeeded"
        self.site.ask("PUT", f"/api/v1/namespaces/default/pods/{name}/status", pod)

    def mark(self, name: str, is_marked: bool) -> None:
        """(see Side)"""
        node = self.site.ask("GET", f"/api/v1/nodes/{name}")
        node["spec"]["unschedulable"] = is_marked
        self.site.ask("PUT", f"/api/v1/nodes/{name}", node)

    def kill_server(self, away: float) -> None:
        """(see Side)"""
        self.site.end("api", signal.SIGKILL)
        time.sleep(away)
        while True:
            try:
                return self.site.start_api()
            except AssertionError:
                # (on a busy machine it takes longer than that)
                self.site.end("api", signal.SIGKILL)

    def stand(self, names: Sequence[tuple[str, str]], cpu: int) -> None:
        """(see Side)"""
        with concurrent.futures.ThreadPoolExecutor(8) as some:
            list(some.map(lambda it: self.make_pod(it[0], cpu, it[1], "default-scheduler"), names))

    def close(self) -> None:
        """(see Side)"""
        self.between.end()


def pod_of(name: str, cpu: int, on: str, scheduler: str, priority: int) -> Thing:
    """A pod as it is asked for."""
    requests = {"cpu": f"{cpu}m", "memory": "1Mi"}
    spec: Thing = {"schedulerName": scheduler, "containers": [{"name": "c", "image": "x", "resources": {"requests": requests}}]}
    spec |= {"nodeName": on} if on else {}
    spec |= {"priorityClassName": f"priority-{priority}"} if priority else {}
    return {"apiVersion": "v1", "kind": "Pod", "metadata": {"name": name}, "spec": spec}
