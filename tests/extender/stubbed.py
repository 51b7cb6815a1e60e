# SPDX-License-Identifier: Apache-2.0
"""Trials of the extender beside a stub of an API server."""
import concurrent.futures
import functools
import json
import os
import pathlib
import random
import signal
import socket
import ssl
import subprocess
import time
from typing import Callable, Iterator

from trials.api.certificates import certificate
from trials.fixtures.answers import merge
from trials.fixtures.sections import labels as labels_read, section, without_sections
from trials.fixtures.site import PATIENCE, REGION, Site, wait_for
from trials.fixtures.store import Thing

import cores
from questions import Row

from caller import (
    EUROPE,
    KEEP,
    PERSONAL,
    PLUGINS,
    PREFER,
    SPARE,
    REASON,
    UNKNOWN,
    ZONE,
    Caller,
    Running,
    check,
    pod,
    with_record,
)
from modules import FOREVER, UNREACHABLE, answering, rule, score

# Labels that sort before those that rules read.
MANY = {f"a{i:02}": "x" for i in range(40)}


def some_nodes(site: Site, count: int) -> dict[str, Thing]:
    """Nodes in two regions and three zones, of several sizes, with room for all that is asked."""
    found = {}
    for i in range(count):
        labels = {REGION: EUROPE if i % 2 else "us-east-1", ZONE: "abc"[i % 3], "number": str(i)}
        node: Thing = {"labels": labels, "pods": [20, 110, 250][i % 3]}
        site.node(name := f"node-{i:04}", cpu="64", memory="256Gi", **node)
        found[name] = node
    return found


def some_pods(count: int, seed: int = 1) -> Iterator[Thing]:
    """Pods that ask for all kinds of things that are kube-scheduler's to see to; half of them are
    one region's."""
    dice = random.Random(seed)
    spread = {
        "maxSkew": 1,
        "topologyKey": ZONE,
        "whenUnsatisfiable": "DoNotSchedule",
        "labelSelector": {"matchLabels": {"app": "x"}},
    }
    anti = {
        "podAntiAffinity": {
            "requiredDuringSchedulingIgnoredDuringExecution": [
                {"topologyKey": ZONE, "labelSelector": spread["labelSelector"]}
            ]
        }
    }
    kinds: list[Thing] = [
        {},
        {"affinity": anti},
        {"topologySpreadConstraints": [spread]},
        {"nodeSelector": {"pool": "a"}},
        {"priority": 7},
        {
            "containers": [
                {"name": f"c{i}", "ports": [{"hostPort": 8080, "containerPort": 80}]}
                for i in range(20)
            ]
        },
        {"volumes": [{"name": "v", "persistentVolumeClaim": {"claimName": "v"}}]},
        {"schedulingGates": [{"name": "g"}], "resourceClaims": [{"name": "r"}]},
        {
            "initContainers": [
                {
                    "name": "s",
                    "restartPolicy": "Always",
                    "resources": {"requests": {"cpu": "1", "example.com/gpu": "2"}},
                }
            ],
            "overhead": {"cpu": "1"},
        },
        {
            "tolerations": [
                {"key": "k", "operator": "Exists", "effect": "NoExecute", "tolerationSeconds": 300}
            ],
            "hostNetwork": True,
            "newInTheApi": {"x": 1},
        },
    ]
    for i in range(count):
        labels = {
            "app": "x",
            **(PERSONAL if i % 2 else {}),
            **({"wished-zone": dice.choice("abc")} if dice.random() < 0.5 else {}),
        }
        yield pod(f"asked-{i}", labels, **kinds[i % len(kinds)])


def verdicts(site: Site) -> str:
    """60 nodes and 120 pods that ask for whatever there is, half of them one region's: each is
    answered as the rules are, written down once more; by names, of some of the nodes, and of whole
    nodes, which are judged as the watch has them; a node that nobody knows is rejected by name."""
    nodes = some_nodes(site, 60)
    used = {name: i % 7 for i, name in enumerate(nodes)}
    for name, count in used.items():
        for i in range(count):
            site.pod(f"on-{name}-{i}", on=name, scheduler="default-scheduler")
    running = Running(site, KEEP, PREFER).ready()
    dice = random.Random(2)
    for one in some_pods(120):
        check(running, one, nodes, used, dice.sample(sorted(nodes), dice.randrange(1, 60)))
    one, names = pod("one", PERSONAL), [*nodes][:6]
    handed: list[Thing] = [
        {"metadata": {"name": name, "labels": {REGION: EUROPE}}, "spec": {}, "status": {"x": "ÿ"}}
        for name in [*names, "nobody's"]
    ]
    status, said = running.caller.ask("filter", one, (), handed)
    may = [it for it in names if nodes[it]["labels"][REGION] == EUROPE]
    assert (
        status == 200
        and said["Nodes"]["items"] == [it for it in handed if it["metadata"]["name"] in may]
        and "NodeNames" not in said
    ), said
    assert said["FailedNodes"] == {it: REASON for it in names if it not in may} | {
        "nobody's": UNKNOWN
    }, said["FailedNodes"]
    assert running.scores(one, [*names, 'no "name\n'])['no "name\n'] == 0
    said = running.filter(pod("other"), [*names, 'no "name\n'])
    assert (
        sorted(said["NodeNames"]) == names
        and said["FailedNodes"] == {'no "name\n': UNKNOWN}
        and not said["FailedAndUnresolvableNodes"]
    ), said
    assert (
        running.filter(one, [])
        == {"NodeNames": [], "FailedNodes": {}, "FailedAndUnresolvableNodes": {}}
        and running.scores(one, []) == {}
    )
    return "120 pods by both verbs, by names and by whole nodes"


def watched(site: Site) -> str:
    """What counts is what the watches tell: a node's new label, a pod that comes to a node, ends,
    or goes, and a node that goes and comes again."""
    nodes = some_nodes(site, 6)
    running, used = Running(site, KEEP, PREFER).ready(), dict.fromkeys(nodes, 0)
    first, ones = [*nodes][0], [pod("personal", PERSONAL), pod("open", {"wished-zone": "a"})]

    def soon() -> None:
        """Within a moment the answers are those of what is so now."""
        end = time.monotonic() + 5 * PATIENCE
        while True:
            try:
                for it in ones:
                    check(running, it, nodes, used, [*nodes])
                return
            except AssertionError:
                if time.monotonic() > end:
                    raise

    soon()
    site.store.change("nodes", first, lambda it: merge(it["metadata"]["labels"], {REGION: EUROPE}))
    nodes[first]["labels"][REGION] = EUROPE
    soon()
    for i in range(5):
        site.pod(f"on-{i}", on=first, scheduler="other")
        used[first] += 1
        soon()
    site.store.change(
        "pods", "default/on-0", lambda it: merge(it["status"], {"phase": "Succeeded"})
    )
    site.delete_pod("on-1")
    used[first] -= 2
    soon()
    site.delete_node(first)
    wait_for(
        lambda: running.filter(ones[0], [first])["FailedNodes"] == {first: UNKNOWN}, 5, "it is gone"
    )
    site.node(first, **nodes[first])
    soon()
    site.pod("waits", labels={"wished-zone": "a"})
    assert (
        site.server.all("list", "pods")[0].query["fieldSelector"].startswith("spec.nodeName!=")
    ), "pods that wait are listed"
    soon()
    return "a label, pods that come, end and go, a node that goes and comes"


def faults(site: Site) -> str:
    """A rule that traps and one that never ends: `Error` names rule, cause and node; with
    --on-error=reject-node that node alone is rejected. A reason with a percent sign is no format.
    """
    site.node("a", cpu="64")
    trap, loop = rule(site.folder, "trap", UNREACHABLE), rule(site.folder, "loop", FOREVER)
    running = Running(site, KEEP, trap, name="trap").ready()
    site.node("b", labels={REGION: EUROPE})
    wait_for(lambda: running.filter(pod("one", PERSONAL), ["b"]).get("Error"), 5, "b is known")
    error = running.error(pod("one"), ["a", "b"])
    assert (
        error == "wsched: node a: rule trap says nothing: trap 1 Unreachable; and 1 nodes more"
    ), error
    # (keep_region rejects a before the other is asked)
    assert running.filter(pod("one", PERSONAL), ["a"])["FailedNodes"] == {"a": REASON}
    assert running.scores(pod("one"), ["a", "b"]) == {"a": 0, "b": 0}
    looping = Running(site, loop, "--on-error=reject-node", name="loop").ready()
    said = looping.filter(pod("one"), ["a", "b", "c"])
    assert said["FailedNodes"] == {
        "a": "rule loop says nothing: exhausted",
        "b": "rule loop says nothing: exhausted",
        "c": UNKNOWN,
    }, said
    percent = rule(
        site.folder,
        "percent",
        answering(2),
        section("wsched.reason.2", "100% of nodes %s".encode()),
    )
    said = Running(site, percent, name="percent").ready().filter(pod("one"), ["a"])
    assert (
        said["FailedNodes"]
        == {"a": "node(s) were rejected by percent (100\uff05 of nodes \uff05s)"}
        and not said["FailedAndUnresolvableNodes"]
    ), said
    seen = running.caller.metrics()
    assert (
        seen['wsched_extender_verdicts_total{answer="error",rule="trap"}'] >= 2
        and seen['wsched_extender_requests_total{result="error",verb="filter"}'] >= 2
    )
    return error


def holes(site: Site) -> str:
    """A pod, or a node, of more labels than a row has room for: `Error` by name, unless the labels
    that rules read are named, by a word or by the rule itself; with --on-error=reject-node such a
    node alone is rejected. So is a pod of more tolerations than there is room for."""
    silent = site.folder / "silent.wasm"
    silent.write_bytes(without_sections((PLUGINS / "keep_region.wasm").read_bytes()))
    word = f"keep_region:1:100000:{silent}"
    site.node("us", labels={REGION: "us-east-1"})
    evades = pod("evades", {**MANY, **PERSONAL})
    running = Running(site, word, name="silent").ready()
    error = running.error(evades, ["us"])
    assert "41 labels" in error and "keep_region" in error and "data-class" in error, error
    assert running.filter(pod("other"), ["us"])["NodeNames"] == ["us"]
    many = pod("many", tolerations=[{"key": f"k{i}", "operator": "Exists"} for i in range(17)])
    assert "17 tolerations, of which 16 have room" in running.error(many, ["us"])
    status, said = running.caller.ask("prioritize", evades, ["us"])
    assert status == 503 and "41 labels" in said["Error"], said
    site.node("wide", labels={**MANY, REGION: "us-east-1"})
    wait_for(
        lambda: "node wide: 41 labels" in running.error(pod("other", PERSONAL), ["us", "wide"]),
        5,
        "a node of many labels is an error by name",
    )
    rejects = Running(site, word, "--on-error=reject-node", name="rejects").ready()
    said = rejects.filter(pod("other"), ["us", "wide"])
    assert (
        said["NodeNames"] == ["us"]
        and "41 labels" in said["FailedNodes"]["wide"]
        and "wide" not in said["FailedNodes"]["wide"]
    ), said
    assert "41 labels" in rejects.error(
        evades, ["us"]
    ), "no row says the pod as it is, so no node may have it"
    named = silent.with_name("named.wasm")
    named.write_bytes(silent.read_bytes() + labels_read("data-class", REGION))
    for name, words in (
        ("word", [word, "--labels", f"data-class,{REGION}"]),
        ("section", [f"keep_region:1:100000:{named}"]),
    ):
        knows = Running(site, *words, name=name).ready()
        assert sorted(knows.filter(evades, ["us", "wide"])["FailedNodes"]) == ["us", "wide"], name
        assert knows.filter(pod("many", MANY), ["us", "wide"])["NodeNames"] == ["us", "wide"], name
    return error


def wrong_bodies() -> dict[str, str]:
    """Bodies, and a part of what each is refused for, nothing where it isn't."""
    wrong = {
        "{": "the body is no JSON",
        "[]": "the body is no object",
        "{}": "Pod is no object",
        '{"Pod":{"metadata":{}}}': "Pod.spec is no object",
        '{"Pod":{"metadata":{},"spec":{}}}': "neither NodeNames nor Nodes",
        '{"Pod":{"metadata":{},"spec":{}},"NodeNames":"a"}': "NodeNames",
        '{"Pod":{"metadata":{},"spec":{}},"NodeNames":[1]}': "NodeNames",
        '{"Pod":{"metadata":{"labels":{"a":1}},"spec":{}},"NodeNames":[]}': "no text",
        '{"Pod":{"metadata":{},"spec":{}},"Nodes":{"items":[{}]}}': "Nodes.items",
        "[" * 100000: "the body is no JSON",
        '{"Pod":{"metadata":[]}}': "metadata",
        '{"Pod":{"metadata":{},"spec":{"containers":7}},"NodeNames":[]}': "",
    }
    # (and as kube-scheduler spells it, behind an empty list that is kept)
    start = json.dumps({"Pod": pod("one")}, separators=(",", ":"))[:-1]
    wrong[f'{start},"Nodes":null,"NodeNames":[]}}'] = ""
    wrong |= {
        f'{start},"Nodes":null,"NodeNames":{names}}}': why
        for names, why in (
            ("[1]", "NodeNames is no array of texts"),
            ("[x]", "the body is no JSON"),
            ('["a",]', "the body is no JSON"),
            ('["a""b"]', "the body is no JSON"),
            ('["a\\"]', "the body is no JSON"),
            ('["a\\u0062"]', ""),
            ('["a"],"NodeNames":["b"]', "a member twice"),
        )
    }
    wrong |= {
        f'{start[:-1]},"Nodes":null,"NodeNames":["a"]}}}}': "neither NodeNames nor Nodes",
        f'{start[:-2]},"Nodes":null,"NodeNames":["a"]}}': "the body is no JSON",
        '{"Pod":[],"Nodes":null,"NodeNames":["a"]}': "Pod is no object",
    }
    return wrong


def bodies(site: Site) -> str:
    """What is no request: 400 with the reason for a bad body, 411 without its length, 413 above 64
    MiB, 404 and 405; the connection goes on where it can."""
    site.node("a")
    running = Running(site, KEEP).ready()
    good = json.dumps({"Pod": pod("one"), "NodeNames": ["a"]})
    for body, why in wrong_bodies().items():
        status, said = running.caller.send("POST", "/filter", body)
        assert status == (400 if why else 200) and why in json.loads(said).get(
            "Error", ""
        ), f"{body[:60]}: {status} {said}"
        line = running.caller.line
        assert (
            running.caller.send("POST", "/filter", good)[0] == 200 and running.caller.line is line
        ), "the connection ended"
    for method, path, status in (
        ("POST", "/bind", 404),
        ("GET", "/filter", 404),
        ("PUT", "/filter", 405),
        ("POST", "/", 404),
    ):
        assert (
            running.caller.send(method, path, good if method == "POST" else None)[0] == status
        ), path
        running.caller.close()
    for head, status in (
        (f"Content-Length: {2**26 + 1}", 413),
        ("Transfer-Encoding: chunked", 411),
        ("X: y", 411),
        ("Content-Length: -1", 411),
        ("bad", 400),
        ("Content-Length: " + "9" * 30, 413),
    ):
        with socket.create_connection(("127.0.0.1", running.port), 10) as raw:
            raw.sendall(f"POST /filter HTTP/1.1\r\nHost: x\r\n{head}\r\n\r\n".encode())
            told = raw.makefile("rb").read().decode()
            assert (
                told.startswith(f"HTTP/1.1 {status} ") and "Connection: close" in told
            ), f"{head}: {told}"
    large = json.dumps({"Pod": pod("one") | {"more": "x" * (2**26 - 5000)}, "NodeNames": ["a"]})
    assert len(large) < 2**26 and json.loads(running.caller.send("POST", "/filter", large)[1])[
        "NodeNames"
    ] == ["a"]
    with socket.create_connection(("127.0.0.1", running.port), 10) as raw:
        raw.sendall(b"POST /filter HTTP/1.1\r\nContent-Length: 100\r\n\r\n{")
    assert running.filter(pod("one"), ["a"])["NodeNames"] == ["a"]
    refused = running.caller.metrics()[
        'wsched_extender_requests_total{result="refused",verb="filter"}'
    ]
    return f"{len(wrong_bodies())} bodies and 6 heads: {refused:.0f} requests refused"


def at_once(site: Site) -> str:
    """32 callers at once, each with 20 questions of its own, while pods come to nodes: every
    answer is the right one."""
    nodes = some_nodes(site, 200)
    running = Running(site, KEEP, PREFER).ready()

    def one_caller(number: int) -> int:
        own = Caller(running.port)
        for i in range(20):
            labels = PERSONAL if (i + number) % 2 else {}
            status, said = own.ask("filter", pod(f"of-{number}-{i}", labels), [*nodes])
            may = [
                it for it, node in nodes.items() if not labels or node["labels"][REGION] == EUROPE
            ]
            assert status == 200 and sorted(said["NodeNames"]) == may, f"{number}: {status}"
            if i % 5 == 0:
                site.pod(f"on-{number}-{i}", on=[*nodes][number], scheduler="other")
        return 20

    began = time.monotonic()
    with concurrent.futures.ThreadPoolExecutor(32) as some:
        count = sum(some.map(one_caller, range(32)))
    took, load = time.monotonic() - began, os.getloadavg()[0]
    return f"{count} questions of 32 callers in {took:.1f} s, load {load:.0f}"


def secure(site: Site) -> str:
    """Behind TLS: asked by its certificate, and by a renewed one without a restart; whoever speaks
    none isn't answered."""
    site.node("a")
    first, second = (certificate(site.folder, it) for it in ("first", "second"))
    files = [site.folder / f"own.{it}" for it in ("crt", "key")]

    def put(both: "tuple[str, str]") -> None:
        for there, it in zip(files, both):
            there.write_bytes(open(it, "rb").read())

    put(first)
    running = Running(
        site, "--tls-cert", str(files[0]), "--tls-key", str(files[1]), KEEP, authority=first[0]
    ).ready()
    assert running.filter(pod("one"), ["a"])["NodeNames"] == ["a"]
    assert Caller(running.port).get("/readyz")[0] == 0, "it answers without TLS"
    time.sleep(1)
    put(second)
    assert running.filter(pod("two"), ["a"])["NodeNames"] == [
        "a"
    ], "a connection that was there ends"
    running.caller.close()
    try:
        running.caller.ask("filter", pod("three"), ["a"])
        raise AssertionError("the old certificate is still shown")
    except ssl.SSLError:
        pass
    renewed = Caller(running.port, second[0])
    assert renewed.ask("filter", pod("four"), ["a"])[1]["NodeNames"] == ["a"]
    # (half of it is written: who asks is answered by the one before)
    files[1].write_text("none", encoding="utf-8")
    renewed.close()
    assert renewed.ask("filter", pod("five"), ["a"])[1]["NodeNames"] == ["a"]
    return "a certificate was renewed, and its key spoiled, without a restart"


def mutual(site: Site) -> str:
    """Whoever asks has to show a certificate of the authority that is named; probes and metrics
    need none."""
    site.node("a")
    own, known, other = (certificate(site.folder, it) for it in ("own", "known", "other"))
    words = ["--tls-cert", own[0], "--tls-key", own[1], "--client-ca", known[0], KEEP]
    running = Running(site, *words, authority=own[0]).ready()
    status, said = running.caller.ask("filter", pod("one"), ["a"])
    assert status == 401 and "certificate" in said["Error"], f"{status} {said}"
    running.caller.close()
    assert running.caller.get("/healthz")[0] == running.caller.get("/metrics")[0] == 200
    asker = Caller(running.port, own[0], known)
    assert asker.ask("filter", pod("one"), ["a"])[1]["NodeNames"] == ["a"]
    try:
        Caller(running.port, own[0], other).ask("filter", pod("one"), ["a"])
        raise AssertionError("another authority's certificate is taken")
    except OSError:
        pass
    assert asker.ask("filter", pod("two"), ["a"])[1]["NodeNames"] == ["a"]
    return "401 without, an end of TLS with another's"


def kept(site: Site) -> str:
    """Once a prioritize has come a filter asks for scores too, and the prioritize behind it is
    answered by these, also where a pod came to a node between them; after a node's change, and some
    time later, it asks anew; and so does a filter after each change."""
    nodes = some_nodes(site, 20)
    running, used, one = (
        Running(site, PREFER).ready(),
        dict.fromkeys(nodes, 0),
        pod("one", {"wished-zone": "a"}),
    )

    def count() -> float:
        return running.caller.metrics()["wsched_extender_kept_answers_total"]

    def come(name: str) -> None:
        site.pod(name, on="node-0000", scheduler="other")
        used["node-0000"] += 1
        wait_for(
            lambda: running.caller.metrics()['wsched_places{state="bound"}'] == used["node-0000"],
            5,
            "the pod is known",
        )

    check(running, one, nodes, used, [*nodes])
    assert count() == 0
    come("on-0")
    check(running, one, nodes, used, [*nodes])
    assert count() == 2, "a filter was asked again, or a prioritize was"
    come("on-1")
    before, began = running.scores(one, [*nodes]), time.monotonic()
    if began + 0.5 > time.monotonic():
        assert before["node-0000"] == (50 + 50 * 18 // 20) // 10 and count() == 3
    time.sleep(1.1)
    assert running.scores(one, [*nodes])["node-0000"] == (50 + 50 * 17 // 20) // 10
    site.store.change("nodes", "node-0001", lambda it: merge(it["metadata"]["labels"], {ZONE: "a"}))
    nodes["node-0001"]["labels"][ZONE] = "a"
    wait_for(
        lambda: running.scores(one, [*nodes])["node-0001"] >= 5,
        0.8,
        "a node's change counts at once",
    )
    check(running, pod("two", {"wished-zone": "a"}), nodes, used, [*nodes])
    return "scores are asked at the filter"


def steady(site: Site) -> str:
    """Where no rule that has a filter reads uids and what is used, a filter asks about equal pods
    once, whatever pods come and go, until a node changes; where one does, it asks about each."""
    nodes = some_nodes(site, 20)
    europe = [name for name, it in nodes.items() if it["labels"][REGION] == EUROPE]
    for name, words, hits in (
        ("no rule", [KEEP], 4),
        ("a score", [KEEP, PREFER], 4),
        ("a filter", [KEEP, SPARE], 0),
    ):
        running = Running(site, *words, name=name.replace(" ", "-")).ready()
        before = running.caller.metrics()['wsched_places{state="bound"}']
        for i in range(5):
            site.pod(f"on-{before + i}", on="node-0000", scheduler="other")
            running.wait_for_places(before + i + 1)
            said = running.filter(pod(f"asked-{i}", PERSONAL), [*nodes])
            assert sorted(said["NodeNames"]) == europe, said
        running.scores(pod("asked-4", PERSONAL), europe)
        count = running.caller.metrics()["wsched_extender_kept_answers_total"]
        assert count == hits, f"where {name} reads what is used {count} were kept"
        for region in (EUROPE, "us-east-1"):
            change = functools.partial(merge, patch={"metadata": {"labels": {REGION: region}}})
            site.store.change("nodes", "node-0000", change)
            wants = {"node-0000"} if region == EUROPE else set()
            running.wait_for_passing(pod("asked-5", PERSONAL), ["node-0000"], wants)
    return "four of five equal pods by what was kept"


def versions(site: Site) -> str:
    """A code 3 stands where the kube-schedulers beside the API server look for it; code 2 and a
    node that nobody knows always in the one map."""
    site.node("us", labels={REGION: "us-east-1"})
    later = rule(site.folder, "later", answering(2))
    final, others = {"us": REASON}, {"nobody's": UNKNOWN}
    for minor, failed, unresolvable in (
        ("", {**final, **others}, final),
        ("20+", {**final, **others}, {}),
        ("21", {**final, **others}, final),
        ("24", others, final),
    ):
        site.server.minor = minor
        running = Running(site, KEEP, later, name=f"beside-{minor}").ready()
        said = running.filter(pod("one", PERSONAL), ["us", "nobody's"])
        assert said["FailedNodes"] == failed, said
        assert said["FailedAndUnresolvableNodes"] == unresolvable, said
        said = running.filter(pod("two"), ["us"])
        assert [*said["FailedNodes"]] == ["us"] and not said["FailedAndUnresolvableNodes"], said
    return "four versions"


def questions(folder: pathlib.Path) -> list[tuple[str, bool]]:
    """Of each question that wsched was asked the pod's uid, and whether it was of filters alone;
    that by which the extender tries it is none."""
    lines = (folder / "told").read_text(encoding="utf-8").split("\n")[:-1]
    told = [it for it in map(json.loads, lines) if it["op"] == "judge" and it["uid"] != "a-pod"]
    return [(it["uid"], it.get("filters", False)) for it in told]


def alone(site: Site) -> str:
    """A filter asks filters alone: a score that traps holds no pod up, and its nodes get 0, which
    the metrics tell. Scores are asked ahead once a prioritize has come, of a pod for which several
    nodes pass; a wsched that ends between both verbs is asked again."""
    some_nodes(site, 4)
    one, other = site.folder / "one", site.folder / "other"
    one.mkdir()
    other.mkdir()
    bad = score(site.folder, "bad", UNREACHABLE)
    running = Running(site, KEEP, bad, wsched=with_record(one, site.programs.wsched)).ready()
    names, asked = [f"node-{i:04}" for i in range(4)], [pod(f"pod-{i}") for i in range(4)]
    uids = [it["metadata"]["uid"] for it in asked]

    def wait_for_questions(folder: pathlib.Path, wanted: list[tuple[str, bool]]) -> None:
        """(what writes the record hands a line on before it writes it)"""
        wait_for(lambda: questions(folder) == wanted, 5, f"{wanted} and no others")

    assert running.passes(asked[0], names)
    told = [(uids[0], True)]
    wait_for_questions(one, told)
    assert running.scores(asked[0], names) == dict.fromkeys(names, 0)
    told.append((uids[0], False))
    wait_for_questions(one, told)
    assert running.caller.metrics()['wsched_extender_score_faults_total{rule="bad"}'] == 4
    # (all of these are equal)
    assert running.passes(asked[1], names) and (uids[1], True) not in questions(one)
    wsched = with_record(other, site.programs.wsched)
    running = Running(site, KEEP, PREFER, name="prefers", wsched=wsched).ready()
    running.scores(asked[0], names)
    told = [(uids[0], False), (uids[1], True), (uids[1], False)]
    assert running.passes(asked[1], names)
    wait_for_questions(other, told)
    running.scores(asked[1], names)
    assert running.passes(asked[2], names[:1])
    running.kill_core(signal.SIGSTOP)
    assert running.passes(asked[3], names)
    running.kill_core()
    assert [*running.scores(asked[3], names).values()] == [4, 4, 4, 4]
    assert running.begun_anew() == 1
    assert uids[2] not in {uid for uid, _ in questions(other)}
    return f"{len(told)} questions, as they were to be"


def shares(site: Site) -> str:
    """2,300 nodes, of which one wsched has room for 1,000: three have them, each node is answered
    of; also when one of the three was killed."""
    nodes = some_nodes(site, 2300)
    running = Running(site, KEEP, PREFER).ready(120)
    assert len(running.cores()) == 3, running.cores()
    for i in range(2):
        said = running.filter(pod(f"one-{i}", PERSONAL), [*nodes])
        assert not said.get("Error") and sorted(said["NodeNames"]) == [
            name for name, it in nodes.items() if it["labels"][REGION] == EUROPE
        ]
        os.kill(running.cores()[i], signal.SIGKILL)
    for name in [*nodes][:1500]:
        site.delete_node(name)
    wait_for(lambda: running.caller.metrics()["wsched_nodes"] == 800, 30, "the nodes are gone")
    for i in range(1000):
        site.node(f"new-{i:04}", labels={REGION: EUROPE})
    wait_for(lambda: running.caller.metrics()["wsched_nodes"] == 1800, 60, "others are there")
    assert (
        len(
            running.filter(pod("last", PERSONAL), [f"new-{i:04}" for i in range(1000)])["NodeNames"]
        )
        == 1000
    )
    assert (
        running.caller.metrics()["wsched_extender_lines_refused"] == 0 and len(running.cores()) == 3
    )
    return f"three have them; begun anew {running.begun_anew():.0f} times"


def by_explain(site: Site, uids: set[str]) -> dict[str, dict[str, list[str]]]:
    """What `wsched explain` says of each node for each of these pods, behind what was told."""
    record = site.folder / "told"

    def is_whole() -> bool:
        """(what writes the record hands a line on before it writes it)"""
        text = record.read_text(encoding="utf-8")
        return text.endswith("\n") and all(f'"{uid}"' in text for uid in uids)

    wait_for(is_whole, 10, "the record of all questions")
    lines = [json.loads(line) for line in record.read_text(encoding="utf-8").splitlines()]
    script, version = [it for it in lines if it["op"] in ("node", "bound", "gone", "deleted")], max(
        it.get("v", 0) for it in lines
    )
    for it in lines:
        if it["op"] == "judge" and it["uid"] in uids:
            version += 2
            script += [
                it | {"op": "pod", "v": version - 1},
                {"op": "cycle"},
                {"op": "deleted", "v": version, "uid": it["uid"]},
            ]
    words, text = [site.programs.wsched, "explain", KEEP, PREFER], "".join(
        f"{json.dumps(it)}\n" for it in script
    )
    found, nodes = dict[str, dict[str, list[str]]](), dict[str, list[str]]()
    for line in subprocess.run(
        words, input=text, capture_output=True, text=True, check=True
    ).stdout.splitlines():
        name, *what = line.split()
        if line.startswith("  "):
            nodes[name] = what
        elif nodes:
            found[name], nodes = nodes, {}
    return found


def dumped(own: cores.Cores) -> Iterator[tuple[str, list[int]]]:
    """What all wsched have as used of each node: CPU, memory and pods."""
    for it in own.shares:
        told: list[str] = []
        assert it.core
        it.core.ask('{"op":"dump"}', told.append, "clock ")
        it.core.flush()
        for line in told[0].splitlines():
            first, *words = line.split()
            if first == "node":
                yield words[0], [int(words[at].partition("/")[0]) for at in (2, 4, 6)]


class There:
    """What there is, written down once more: each node's zone, and where each pod is, and how
    large."""

    def __init__(self) -> None:
        self.zones: dict[str, str] = {}
        self.pods: dict[str, tuple[str, tuple[int, int]]] = {}

    def used(self, name: str) -> list[int]:
        """Of a node: CPU, memory and pods."""
        sizes = [size for on, size in self.pods.values() if on == name]
        return [sum(it[0] for it in sizes), sum(it[1] for it in sizes), len(sizes)]

    def change(self, own: cores.Cores, dice: random.Random) -> None:
        """A node or a pod comes, changes or goes."""
        node, uid, zone = f"n{dice.randrange(14)}", f"u{dice.randrange(50)}", dice.choice("ab")
        what = dice.choice(("node", "gone", "pod", "pod", "pod", "deleted"))
        if what == "node":
            room = f'"cpu":"99","mem":"1Ti","pods":30,"labels":[["{ZONE}","{zone}"]]'
            own.set_node(node, f'"name":"{node}",{room}')
            self.zones[node] = zone
        elif what == "gone" and dice.random() < 0.3:
            own.drop_node(node)
            self.zones.pop(node, None)
        elif what == "pod":
            size = (dice.randrange(2, 9), dice.randrange(9))
            own.set_pod(uid, node, size)
            self.pods[uid] = node, size
        elif what == "deleted":
            own.drop_pod(uid)
            self.pods.pop(uid, None)


def moved(site: Site) -> str:
    """Where few nodes and pods have room in one wsched: nodes and pods come, change and go by
    chance, and after some each wsched has as used what there is, has no more than its room, and
    answers by that; no line is refused."""
    cores.NODES, cores.PLACES, cores.BLOCK = 4, 9, 16
    own = cores.Cores(site.programs.wsched, 1, [PREFER], lambda why: None)
    own.start(own.shares[0])
    row = Row("asked", '"containers":[["1m","1"]],"labels":[["wished-zone","a"]]')
    there, dice, most = There(), random.Random(7), 0
    for _ in range(100):
        for _ in range(8):
            there.change(own, dice)
        said, used = own.judge(row), {name: there.used(name) for name in there.zones}
        assert dict(dumped(own)) == used, "others are used"
        wanted = {it: 50 * (there.zones[it] == "a") + 50 * (29 - used[it][2]) // 30 for it in used}
        assert {name: int(it.split()[-1]) for name, it in said.items()} == wanted, said
        assert own.refused == 0
        for it in own.shares:
            assert it.places == sum(used[name][2] for name in it.names), "another count"
            assert len(it.names) <= 4 and (it.places <= 9 or len(it.names) == 1), "no room"
        most = max(most, sum(bool(it.names) for it in own.shares))
    for it in own.shares:
        own.end(it)
    assert most >= 3, most
    return f"100 looks, {own.changes} changes, up to {most} at once"


def explained(site: Site) -> str:
    """What was told to wsched, told to `wsched explain` with a cycle of each pod: where its own
    filters let a node pass, the verdicts are the same."""
    nodes = some_nodes(site, 40)
    for i in range(60):
        site.pod(f"on-{i}", on=f"node-{i % 40:04}", scheduler="other")
    running = Running(
        site, KEEP, PREFER, wsched=with_record(site.folder, site.programs.wsched)
    ).ready()
    answers = {
        it["metadata"]["uid"]: (running.filter(it, [*nodes]), running.scores(it, [*nodes]))
        for it in some_pods(40, seed=3)
    }
    told = by_explain(site, {*answers})
    for uid, (found, scores) in answers.items():
        assert told[uid].keys() == nodes.keys()
        for node, words in told[uid].items():
            assert (node in found["NodeNames"]) == (words[0] == "total") and words[0] in (
                "total",
                "plugin",
            ), f"{uid} on {node}: {words}"
            assert scores[node] == (
                int(words[-1]) * 10 // 100 if words[0] == "total" else 0
            ), f"{uid} on {node}: {words}, {scores[node]}"
    return f"{len(answers) * len(nodes)} verdicts and scores"


TRIALS: list[Callable[[Site], str]] = [
    verdicts,
    watched,
    faults,
    holes,
    bodies,
    at_once,
    secure,
    mutual,
    kept,
    steady,
    alone,
    versions,
    shares,
    moved,
    explained,
]
