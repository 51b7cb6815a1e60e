# SPDX-License-Identifier: Apache-2.0
"""generate.py NODES PODS: the objects of a cluster of this size, one a line, as `kubectl get nodes,pods --all-namespaces -o json` and
`jq -c '.items[]'` would tell them: a pod has some 4 kB. Of ten pods eight run, one waits, and one in fifty each is for another scheduler or
has a disk of a node; amounts and labels are spelled as in real ones."""
import json
import random
import sys

nodes, pods = int(sys.argv[1]), int(sys.argv[2])
dice = random.Random(7)
for i in range(nodes):
    labels = {f"l{k}.example.com/x": f"v{dice.randrange(5)}" for k in range(10)} | {"kubernetes.io/hostname": f"node-{i:04}"}
    has = {"cpu": dice.choice(["8", "16", "7910m"]), "memory": dice.choice(["16Gi", "32Gi", "64Gi", "65789340Ki", "131072Mi"]), "pods": "110", "ephemeral-storage": "100Gi"}
    taints = {"taints": [{"key": "dedicated", "effect": "NoSchedule"}]} if i % 20 == 0 else {}
    images = [{"names": [f"registry.example/team/service-{k}@sha256:{'0123456789abcdef' * 4}"], "sizeBytes": 123456789 + k} for k in range(20)]
    status = {"allocatable": has, "capacity": has, "conditions": [{"type": "Ready", "status": "True", "reason": "KubeletReady"}], "images": images}
    print(json.dumps({"apiVersion": "v1", "kind": "Node", "metadata": {"name": f"node-{i:04}", "labels": labels}, "spec": taints, "status": status}))

tolerations = [{"key": f"node.kubernetes.io/{it}", "operator": "Exists", "effect": "NoExecute", "tolerationSeconds": 300} for it in ("not-ready", "unreachable")]
env = [{"name": f"FIELD_{k}", "value": f"a value of some length, {k}"} for k in range(8)]
fields = {f'k:{{"name":"FIELD_{k}"}}': {".": {}, "f:name": {}, "f:value": {}} for k in range(8)}
of_spec = {"f:spec": {"f:containers": {'k:{"name":"main"}': {".": {}, "f:env": fields, "f:image": {}, "f:resources": {}}}}}
managed = [{"manager": it, "operation": "Update", "apiVersion": "v1", "time": "2026-01-01T00:00:00Z", "fieldsType": "FieldsV1", "fieldsV1": of_spec} for it in ("kube-controller-manager", "kubelet")]
mount = [{"name": "t", "readOnly": True, "mountPath": "/var/run/secrets/kubernetes.io/serviceaccount"}]
conditions = [{"type": it, "status": "True", "lastProbeTime": None, "lastTransitionTime": "2026-01-01T00:00:00Z"} for it in ("Initialized", "Ready", "ContainersReady", "PodScheduled")]
for i in range(pods):
    asks = [{"cpu": dice.choice(["100m", "250m", "0.5", "1", "2", "1500m", "10m"]), "memory": dice.choice(["64Mi", "128Mi", "1Gi", "512M", "200000Ki", "1.5Gi"])} for _ in range(dice.choice([1, 1, 2]))]
    containers = [{"name": f"c{k}", "image": "registry.example/team/service:1.2.3", "env": env, "resources": {"requests": it, "limits": {"memory": "2Gi"}}, "volumeMounts": mount} for k, it in enumerate(asks)]
    spec = {"containers": containers, "tolerations": tolerations, "volumes": [{"name": "t", "projected": {"defaultMode": 420}}], "restartPolicy": "Always", "serviceAccountName": "default"}
    spec["schedulerName"] = "other" if i % 50 == 9 else "default-scheduler"
    if i % 10 < 8:
        spec["nodeName"] = f"node-{dice.randrange(nodes):04}"
    elif i % 50 == 19:
        spec["volumes"].append({"name": "d", "awsElasticBlockStore": {"volumeID": "x"}})
    labels = {"app": f"a{i % 50}", "pod-template-hash": f"h{i % 200}", "app.kubernetes.io/name": f"n{i % 40}"}
    meta = {"name": f"pod-{i}", "namespace": f"ns-{i % 30}", "uid": f"00000000-0000-0000-0000-{i:012}", "creationTimestamp": "2026-01-01T00:00:00Z", "labels": labels, "managedFields": managed}
    status = {"phase": "Running" if "nodeName" in spec else "Pending", "conditions": conditions, "hostIP": "10.0.0.1", "podIP": "10.1.0.1", "qosClass": "Burstable"}
    print(json.dumps({"apiVersion": "v1", "kind": "Pod", "metadata": meta, "spec": spec, "status": status}))
