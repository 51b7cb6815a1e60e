# SPDX-License-Identifier: Apache-2.0
"""Trials of how the extender begins and ends: its words, its manifest and its unit, and signals."""
import concurrent.futures
import http.client
import signal
import time
from typing import Callable

import yaml

from trials.fixtures.site import PATIENCE, REGION, Site, alive, children, wait_for
from trials.fixtures.store import Thing

from caller import (
    EUROPE,
    EXTENDER,
    KEEP,
    PERSONAL,
    PLUGINS,
    REASON,
    Caller,
    Running,
    pod,
    with_record,
)
from stubbed import some_nodes


def deploy(site: Site) -> str:
    """deploy.yaml: its words start one whose probes are answered; its account may list and watch
    nodes and pods and nothing else; what the level `restricted` of the pod security standards asks
    for stands there, and the unit's words start one too."""
    every: list[Thing] = [
        *yaml.safe_load_all((EXTENDER / "deploy.yaml").read_text(encoding="utf-8"))
    ]
    of = {it["kind"]: it for it in every}
    own = [{"apiGroups": [""], "resources": ["nodes", "pods"], "verbs": ["list", "watch"]}]
    assert of["ClusterRole"]["rules"] == own and "Role" not in of, of["ClusterRole"]
    spec = of["Deployment"]["spec"]["template"]["spec"]
    container = spec["containers"][0]
    has = container["securityContext"]
    assert (
        has["runAsNonRoot"]
        and has["runAsUser"] > 0
        and has["readOnlyRootFilesystem"]
        and has["allowPrivilegeEscalation"] is False
    ), has
    assert has["capabilities"] == {"drop": ["ALL"]} and has["seccompProfile"] == {
        "type": "RuntimeDefault"
    }, has
    rolling = of["Deployment"]["spec"]["strategy"]["rollingUpdate"]
    assert of["Deployment"]["spec"]["replicas"] == 2 and (
        rolling["maxSurge"],
        rolling["maxUnavailable"],
    ) == (0, 1), rolling
    assert (
        of["Service"]["spec"]["selector"]
        == of["Deployment"]["spec"]["template"]["metadata"]["labels"]
    )
    site.node("a", labels={REGION: EUROPE})
    default = (
        (EXTENDER / "wsched-extender.default")
        .read_text(encoding="utf-8")
        .partition('OPTIONS="')[2]
        .partition('"')[0]
        .split()
    )
    for name, words in (("container", container["args"]), ("unit", default)):
        # (it has a port of its own, and no certificate)
        mine = [
            it
            for at, it in enumerate(words)
            if not {*words[max(0, at - 1) : at + 1]} & {"--listen", "--tls-cert", "--tls-key"}
        ]
        running = Running(
            site,
            *(it.replace("/usr/share/wsched/examples/plugins", str(PLUGINS)) for it in mine),
            name=name,
        ).ready()
        assert running.filter(pod("one", PERSONAL), ["a"])["NodeNames"] == ["a"]
        for it in ("livenessProbe", "readinessProbe"):
            assert running.caller.get(container[it]["httpGet"]["path"])[0] == 200, it
            assert container[it]["httpGet"]["port"] == container["ports"][0]["name"]
    # (its version is told to everyone)
    verbs = {(it.verb, it.what) for it in site.server.asked if it.what}
    assert verbs == {
        (verb, what) for verb in ("list", "watch") for what in ("nodes", "pods")
    }, verbs
    unit = (EXTENDER / "wsched-extender.service").read_text(encoding="utf-8")
    assert "KillMode=mixed\n" in unit and "Restart=always\n" in unit and "DynamicUser=yes\n" in unit
    return "its words, probes and rights; restricted"


def settled(site: Site) -> str:
    """Rules and settings in a file, as for the second scheduler: each node's row has the settings
    as labels."""
    file = site.folder / "rules.yaml"
    file.write_text(
        f"settings: {{tier: gold}}\nrules:\n- file: {PLUGINS}/keep_region.wasm\n", encoding="utf-8"
    )
    site.node("a", labels={REGION: "us-east-1"})
    program = with_record(site.folder, site.programs.wsched)
    running = Running(site, "--rules", str(file), wsched=program).ready()
    assert running.filter(pod("one", PERSONAL), ["a"])["FailedNodes"] == {"a": REASON}
    told = (site.folder / "told").read_text(encoding="utf-8")
    assert '["/cfg/tier","gold"]' in told and told.count('"op":"node"') == 1, told
    return "a setting, and a rule"


def changed(site: Site) -> str:
    """A rule's file is another than it was when wsched has to be begun anew: it isn't, and says
    so, since the rules would be others by half."""
    module = site.folder / "keep.wasm"
    module.write_bytes((PLUGINS / "keep_region.wasm").read_bytes())
    site.node("a", labels={REGION: EUROPE})
    running = Running(site, f"keep_region:1:100000:{module}").ready()
    module.write_bytes((PLUGINS / "keep_off_spot.wasm").read_bytes())
    assert running.filter(pod("one", PERSONAL), ["a"])["NodeNames"] == ["a"]
    running.kill_core()
    wait_for(lambda: running.caller.get("/readyz")[0] == 503, 10, "it isn't ready")
    error = running.error(pod("two"), ["a"])
    assert "a rule's module isn't what it was: start the extender anew" in error, error
    module.write_bytes((PLUGINS / "keep_region.wasm").read_bytes())
    running.ready()
    assert running.filter(pod("three"), ["a"])["NodeNames"] == ["a"]
    return error


def stopped(site: Site) -> str:
    """SIGTERM while 16 callers ask: each question has a whole answer, or nobody listens any more.
    """
    nodes = some_nodes(site, 500)
    running = Running(site, KEEP).ready()
    answered, cut = [0] * 16, list[str]()

    def one_caller(number: int) -> None:
        own = Caller(running.port)
        while True:
            try:
                own.connect().connect()
            except OSError:
                return
            try:
                status, said = own.ask("filter", pod(f"of-{number}-{answered[number]}"), [*nodes])
                assert status == 200 and len(said["NodeNames"]) == len(nodes)
                answered[number] += 1
            except (OSError, http.client.HTTPException, AssertionError) as why:
                cut.append(repr(why))
            own.close()

    with concurrent.futures.ThreadPoolExecutor(16) as some:
        asking = [some.submit(one_caller, i) for i in range(16)]
        try:
            wait_for(lambda: min(answered) >= 3, 30, "all have answers")
        finally:
            # (they ask until nobody listens)
            running.it.child.send_signal(signal.SIGTERM)
        for it in asking:
            it.result(20)
    status = running.it.wait(10)
    site.schedulers.remove(running.it)
    # (whom nobody had begun to hear when it ended)
    assert (
        status == 0
        and len(cut) <= 16
        and not [it for it in cut if "Assert" in it or "Incomplete" in it]
    ), cut
    return f"{sum(answered)} answers, {len(cut)} were never heard"


def ended(site: Site) -> str:
    """SIGTERM ends it with status 0 and leaves no child; words that can't be followed end it with
    2 or 1, and why."""
    site.node("a")
    running = Running(site, KEEP).ready()
    own = children(running.it.pid)
    assert running.filter(pod("one"), ["a"])["NodeNames"] == ["a"]
    running.it.child.send_signal(signal.SIGTERM)
    status = running.it.wait(10)
    time.sleep(0.5)
    assert status == 0 and not any(alive(it) for it in own), f"status {status}"
    site.schedulers.remove(running.it)
    bad: dict[str, tuple[list[str], str]] = {
        "no rule": ([], "no rule is named"),
        "no module": (["x:1:1000:/nowhere"], "plugin x"),
        "affinity": ([f"node_affinity:1:500000:{PLUGINS}/node_affinity.wasm"], "itself"),
        "key": ([KEEP, "--tls-key", "x"], "--tls-cert"),
        "certificate": ([KEEP, "--tls-cert", "/nowhere"], "No such file"),
        "stale": ([KEEP, "--max-stale", "-1"], "max-stale"),
        "error": ([KEEP, "--on-error", "pass"], "on-error"),
    }
    for name, (words, why) in bad.items():
        it = site.start(
            "--listen",
            f"127.0.0.1:{running.port}",
            *words,
            name=name.replace(" ", "-"),
            words=[str(EXTENDER / "extender.py")],
        )
        site.schedulers.remove(it)
        status = it.wait(30 * PATIENCE)
        it.end()
        assert status in (1, 2) and why in it.log(), f"{name}: {status} {it.log()}"
    return f"status 0; {len(bad)} bad words are told"


TRIALS: list[Callable[[Site], str]] = [deploy, settled, changed, stopped, ended]
