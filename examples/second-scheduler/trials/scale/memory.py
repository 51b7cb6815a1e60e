# SPDX-License-Identifier: Apache-2.0
"""The memory of a cluster with many placed pods, each of some 4 kB as the API server tells them."""
import json
import os

from trials.fixtures.site import Scheduler, Site, children, peak_of, seconds_of_line, spent, wait_for
from trials.fixtures.store import Bulk, Thing

NODES = 100


def placed_pod() -> Thing:
    """A pod of 4 kB that runs, with what the API server keeps of one: who manages its fields, its volumes, what it reports."""
    fields: Thing = {f'k:{{"name":"FIELD_{i}"}}': {".": {}, "f:name": {}, "f:value": {}} for i in range(8)}
    managed = [{
        "manager": who, "operation": "Update", "apiVersion": "v1", "time": "2026-01-01T00:00:00Z", "fieldsType": "FieldsV1",
        "fieldsV1": {"f:spec": {"f:containers": {'k:{"name":"main"}': {".": {}, "f:env": fields, "f:image": {}, "f:resources": {}}}}},
    } for who in ("kube-controller-manager", "kubelet")]
    env = [{"name": f"FIELD_{i}", "value": f"a value of some length, {i}"} for i in range(8)]
    conditions = [{"type": it, "status": "True", "lastProbeTime": None, "lastTransitionTime": "2026-01-01T00:00:00Z"}
                  for it in ("Initialized", "Ready", "ContainersReady", "PodScheduled")]
    container = {
        "name": "main", "image": "registry.example/team/service:1.2.3", "env": env, "imagePullPolicy": "IfNotPresent",
        "resources": {"limits": {"memory": "128Mi"}, "requests": {"cpu": "10m", "memory": "64Mi"}},
        "volumeMounts": [{"name": "token", "readOnly": True, "mountPath": "/var/run/secrets/kubernetes.io/serviceaccount"}],
        "terminationMessagePath": "/dev/termination-log", "terminationMessagePolicy": "File",
    }
    spec = {
        "volumes": [{"name": "token", "secret": {"secretName": "token-abcde", "defaultMode": 420}}], "containers": [container],
        "restartPolicy": "Always", "terminationGracePeriodSeconds": 30, "dnsPolicy": "ClusterFirst", "serviceAccountName": "default",
        "nodeName": "node-@@@@", "securityContext": {}, "schedulerName": "default-scheduler", "priority": 0, "enableServiceLinks": True,
        "tolerations": [{"key": f"node.kubernetes.io/{it}", "operator": "Exists", "effect": "NoExecute", "tolerationSeconds": 300}
                        for it in ("not-ready", "unreachable")],
    }
    meta = {
        "name": "service-@@@@@@", "generateName": "service-", "namespace": "default", "uid": "00000000-0000-4000-9000-000000@@@@@@",
        "resourceVersion": "1", "creationTimestamp": "2026-01-01T00:00:00Z", "managedFields": managed,
        "labels": {"app": "service", "team": "one", "pod-template-hash": "5d4f8c7b9"},
        "annotations": {"example.org/checksum": "0123456789abcdef0123456789abcdef"},
    }
    status = {
        "phase": "Running", "conditions": conditions, "hostIP": "10.0.0.1", "podIP": "10.1.0.1", "startTime": "2026-01-01T00:00:00Z",
        "containerStatuses": [{"name": "main", "ready": True, "restartCount": 0, "image": container["image"], "started": True,
                               "state": {"running": {"startedAt": "2026-01-01T00:00:00Z"}}, "lastState": {}}],
        "qosClass": "Burstable",
    }
    return {"kind": "Pod", "apiVersion": "v1", "metadata": meta, "spec": spec, "status": status}


def many(site: Site, count: int) -> int:
    """Has so many pods placed, of which the stub keeps none; gives the bytes of one."""
    for i in range(NODES):
        site.node(f"node-{i:04}", cpu="500", memory="8Ti", pods=10000, labels={"pool": "a", "zone": f"z{i % 3}"})
    model = json.dumps(placed_pod())

    def make(i: int) -> bytes:
        return model.replace("@@@@@@", f"{i:06}").replace("@@@@", f"{i % NODES:04}").encode()

    site.store.bulk["pods"] = Bulk(count, make)
    return len(make(0))


def measured(site: Site, count: int, most: int) -> str:
    """Starts a scheduler beside so many placed pods, and tells the most memory that it had when a pod that waits was bound."""
    size, patience = many(site, count), 60 + count / 200 + 3 * count * seconds_of_line(site.programs)
    it: Scheduler = site.start()

    def listed() -> bool:
        taken = peak_of(it.pid)
        assert taken <= 2 * most, f"the client alone has {taken} MiB, and not all of {count} pods are listed"
        return len(site.server.watches) >= 2 or not it.runs()

    wait_for(listed, patience, f"{count} pods are listed, and both kinds watched")
    site.pod("waits")
    took = wait_for(lambda: not it.runs() or site.place("waits"), patience, "a pod that waits is bound")
    assert it.runs(), f"it ended with status {it.wait(0)}: {it.log()[-300:]}"
    peak = it.peak()
    all_ = sum(peak.values())
    assert all_ <= most, f"{count} placed pods of {size} bytes take {all_} MiB ({peak}), and not {most} at most"
    seconds = f"processor time {spent(it.pid):.1f} s of the client, {sum(map(spent, children(it.pid))):.1f} of wsched"
    ended = f"the pod was bound {took:.1f} s later; load {os.getloadavg()[0]:.0f}"
    return f"{count} placed pods of {size} bytes: {all_} MiB at most ({peak}); {seconds}; {ended}"


def memory(site: Site) -> str:
    """15,000 placed pods of 4 kB: the client and its wsched together never had more than 80 MiB."""
    return measured(site, 15_000, 80)


def memory_whole(site: Site) -> str:
    """149,990 placed pods of 4 kB, ten less than there is room for: the client and its wsched together never had more than 150 MiB."""
    return measured(site, 149_990, 150)


TRIALS = [memory, memory_whole]
