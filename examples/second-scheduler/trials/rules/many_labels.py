# SPDX-License-Identifier: Apache-2.0
"""Pods and nodes with more labels than a row has room for: none that a rule reads gives way, and rows are told anew only where others are asked for."""
import pathlib
import time

from trials.accounting.audit import relayed
from trials.fixtures.sections import labels as labels_read, without_sections
from trials.fixtures.site import REGION, TOP, Site, spent

# How many nodes there are, each with so many labels, and how many pods that ask for two of these.
NODES, LABELS, PODS = 300, 41, 100
# Labels that sort before the one that the rule keep_region reads.
BEFORE = {f"a{i:02}": "x" for i in range(40)}
PERSONAL = {"data-class": "personal"}
PLUGINS = str(TOP / "examples/plugins")


def selectors(site: Site) -> str:
    """300 nodes of 41 labels, and 100 pods that ask for two of them: they take the client at most four times the processor time of as many that ask for
    none, and no node's row is told for each pod."""
    labels = {f"label-{i:02}": "x" for i in range(LABELS)}
    for i in range(NODES):
        site.node(f"node-{i:03}", labels=labels)
    it = site.start("--node-affinity", "2", "--plugins", PLUGINS, wsched=relayed(site))
    for i in range(3):
        site.pod(f"first-{i}", spec={"nodeSelector": {f"label-{38 + i}": "x"}})
    site.wait(lambda: site.placed() == 3, 30, "it binds")
    took: list[float] = []
    for turn, keys in enumerate(((), ("label-38", "label-39"))):
        before = spent(it.pid)
        for i in range(PODS):
            site.pod(f"pod-{turn}-{i}", spec={"nodeSelector": {keys[i % 2]: "x"}} if keys else {})
        site.wait(lambda turn=turn: site.placed() == PODS * (turn + 1) + 3, 120, "all are bound")  # type: ignore[misc]
        took.append(1000 * (spent(it.pid) - before) / PODS)
    lines = (site.folder / "told").read_text(encoding="utf-8").splitlines()
    told = sum(1 for line in lines if '"kind":"Node"' in line.replace(": ", ":") and '"DELETED"' not in line)
    shown = f"{took[0]:.1f} ms of the client's processor time a pod without a selector, {took[1]:.1f} with one, {told} rows told"
    assert took[1] <= 4 * took[0] and NODES <= told <= NODES * 4, shown
    return f"{shown}; {site.check()}"


def said(site: Site, name: str) -> str:
    """Waits for what is said of a pod that isn't bound, and gives that."""
    site.wait(lambda: site.place(name) or site.events(about=name, reason="FailedScheduling"), 30, f"a word about {name}")
    assert site.place(name) is None, f"{name} is on {site.place(name)}, where its rule doesn't let it"
    return str(site.events(about=name, reason="FailedScheduling")[0]["message"])


def evading(site: Site) -> str:
    """A rule keeps personal data in a region, and doesn't say which labels it reads: a pod with 40 labels that sort before the one that it reads is left
    alone, and told of by name, and a node with 40 isn't used; with --labels both are as the rule says."""
    rule = pathlib.Path(PLUGINS) / "keep_region.wasm"
    silent = site.folder / "silent.wasm"
    silent.write_bytes(without_sections(rule.read_bytes()))
    site.node("us", labels={REGION: "us-east-1"})
    site.pod("evades", labels={**BEFORE, **PERSONAL})
    it = site.start(rule=f"keep_region:1:100000:{silent}")
    message = said(site, "evades")
    assert "labels" in message and "keep_region" in message and "data-class" in message, message
    site.node("many", cpu="8", labels={**BEFORE, REGION: "eu-central-1"})
    time.sleep(2)
    site.pod("other", cpu="6")
    said(site, "other")
    assert "node many" in it.log(), "the log doesn't name the node that isn't used"
    it.end()
    site.schedulers.remove(it)
    site.start("--labels", f"data-class,{REGION}", rule=f"keep_region:1:100000:{silent}", name="named")
    site.wait(lambda: site.place("evades") and site.place("other"), 30, "both are bound")
    assert site.place("evades") == "many", f"personal data are on {site.place('evades')}"
    return f"{message[:160]}; {site.check()}"


def section(site: Site) -> str:
    """The same where the rule's module names what it reads: such a pod is placed where the rule lets it, and a node is used; what is dropped is told."""
    rule = pathlib.Path(PLUGINS) / "keep_region.wasm"
    silent = site.folder / "silent.wasm"
    silent.write_bytes(without_sections(rule.read_bytes()))
    named = site.folder / "named.wasm"
    named.write_bytes(silent.read_bytes() + labels_read("data-class", REGION))
    site.node("us", labels={REGION: "us-east-1"})
    site.pod("evades", labels={**BEFORE, **PERSONAL})
    site.pod("free", labels=BEFORE)
    it = site.start(rule=f"keep_region:1:100000:{named}")
    said(site, "evades")
    site.wait(lambda: site.place("free"), 20, "one that is no personal pod is bound")
    site.node("eu", labels={**BEFORE, REGION: "eu-central-1"})
    site.wait(lambda: site.place("evades"), 30, "it is bound where it may be")
    assert site.place("evades") == "eu"
    assert "label a39" in it.log(), "the log doesn't say what was dropped"
    return site.check()


TRIALS = [selectors, evading, section]
