# SPDX-License-Identifier: Apache-2.0
"""deploy.yaml: its words start two replicas whose probes are answered as a kubelet asks for them."""
import os
import pathlib
import re
import signal
import time
from typing import Any

import yaml

from trials.fixtures.site import TOP, Scheduler, Site, alive, wait_for
from trials.fixtures.store import Thing
from trials.reporting.metrics import got

HERE = "/usr/share/wsched/examples/plugins"


def deployment(site: Site) -> tuple[Thing, Thing]:
    """The pod's spec, and its container."""
    every: list[Thing] = [*yaml.safe_load_all((site.programs.client / "deploy.yaml").read_text(encoding="utf-8"))]
    spec = next(it for it in every if it["kind"] == "Deployment")["spec"]["template"]["spec"]
    return spec, spec["containers"][0]


def replica(site: Site, words: list[str], name: str) -> tuple[Scheduler, str]:
    """One that is started by the container's words, with a port of its own, and where it listens."""
    listen = site.listening()[1]
    mine = [listen if it == ":10259" else it.replace(HERE, f"{TOP}/examples/plugins") for it in words]
    return site.start(*mine, name=name), listen


def probe(site: Site, where: str, of: Thing) -> int:
    """The status of its answer, 0 where there is none."""
    site.listens = int(where.rpartition(":")[2])
    return got(site, of["httpGet"]["path"])[0]


def apart(spec: Thing, container: Thing) -> None:
    """What the manifest says of the replicas, beside their words."""
    terms: Any = spec["affinity"]["podAntiAffinity"]["requiredDuringSchedulingIgnoredDuringExecution"]
    assert [it["topologyKey"] for it in terms] == ["kubernetes.io/hostname"], terms
    assert spec["priorityClassName"] == "system-cluster-critical"
    # what an end may take: a decision, binds under way, wsched's own end, and the Lease
    assert spec["terminationGracePeriodSeconds"] >= 15 + 10 + 15 + 8
    ports = {it["name"]: it["containerPort"] for it in container["ports"]}
    words = container["args"]
    for it in ("livenessProbe", "readinessProbe"):
        port = container[it]["httpGet"]["port"]
        assert words[words.index("--listen") + 1] == f":{ports[port]}", f"{it} asks {port}"
    assert container["securityContext"]["readOnlyRootFilesystem"] and "--record" not in words
    rule = next(it for it in words if re.match(r"\w+:\d+:\d+:", it))
    assert pathlib.Path(rule.rpartition(":")[2].replace(HERE, f"{TOP}/examples/plugins")).exists(), rule


def deploy_rolls(site: Site) -> str:
    """deploy.yaml rolls out where two nodes alone may have its replicas, which are kept apart; and what the level `restricted` of the pod security
    standards asks for stands there."""
    every: list[Thing] = [*yaml.safe_load_all((site.programs.client / "deploy.yaml").read_text(encoding="utf-8"))]
    of = next(it for it in every if it["kind"] == "Deployment")["spec"]
    rolling = of.get("strategy", {}).get("rollingUpdate", {})
    assert of["replicas"] == 2 and (rolling.get("maxSurge"), rolling.get("maxUnavailable")) == (0, 1), rolling
    spec, container = deployment(site)
    has: Thing = (spec.get("securityContext") or {}) | container["securityContext"]
    assert has["runAsNonRoot"] is True and has["runAsUser"] > 0 and has["allowPrivilegeEscalation"] is False, has
    assert has["capabilities"] == {"drop": ["ALL"]} and has.get("seccompProfile") == {"type": "RuntimeDefault"}, has
    assert not {"hostNetwork", "hostPID", "hostIPC"} & spec.keys() and "hostPort" not in str(container["ports"]) and not spec.get("volumes")
    return "maxSurge 0, maxUnavailable 1; runAsNonRoot, no escalation, no capability, seccompProfile RuntimeDefault, nothing of the host's"


def deploy(site: Site) -> str:
    """The words of deploy.yaml start two replicas: both are live and ready, the leader binds on its own nodes, and once its wsched hangs its liveness
    probe fails and the other leads; the probes ask the port that is served, and the manifest keeps the replicas apart."""
    spec, container = deployment(site)
    apart(spec, container)
    live, ready = container["livenessProbe"], container["readinessProbe"]
    taint = {"key": "wsched", "value": "own", "effect": "NoSchedule"}
    site.node("own", labels={"wsched": "own"}, taints=[taint])
    site.node("other", cpu="64")
    tolerates: Thing = {"tolerations": [{"key": "wsched", "operator": "Exists"}]}
    site.pod("first", spec=tolerates)
    one, where = replica(site, container["args"], "one")
    # (a kubelet asks from this moment on)
    time.sleep(min(3, live["initialDelaySeconds"]))
    wait_for(lambda: probe(site, where, ready) == 200, 30, "the first is ready")
    assert probe(site, where, live) == 200
    wait_for(lambda: site.place("first") == "own", 20, "the leader binds on its own node")
    other, there = replica(site, container["args"], "other")
    wait_for(lambda: probe(site, there, ready) == 200, 30, "the follower is ready")
    assert probe(site, there, live) == 200
    core, began = one.wsched(), time.monotonic()
    try:
        os.kill(core, signal.SIGSTOP)
        wait_for(lambda: probe(site, where, live) != 200, 25, "the liveness probe of the one that hangs fails")
        failed = time.monotonic() - began
        site.pod("second", spec=tolerates)
        wait_for(lambda: site.place("second") == "own", 45, "the other leads, and binds")
    finally:
        if alive(core):
            os.kill(core, signal.SIGKILL)
    assert probe(site, there, live) == probe(site, there, ready) == 200 and other.runs()
    return f"the probe failed {failed:.1f} s after the stop, and the other had bound {time.monotonic() - began:.1f} s after it; {site.check()}"


TRIALS = [deploy, deploy_rolls]
