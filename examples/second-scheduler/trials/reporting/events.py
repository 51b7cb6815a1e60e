# SPDX-License-Identifier: Apache-2.0
"""What people see of a pod: the event that says why it has no node, the condition PodScheduled, and both with measure."""
import sys
import time
from typing import Optional

from trials.fixtures.sections import section
from trials.fixtures.server import Asked
from trials.fixtures.site import REGION, RULE, TOP, Site
from trials.fixtures.store import Thing

# the client, with the time after which the same is said again cut from ten minutes to some seconds
HURRIED = """
import sys
sys.path.insert(0, {folder!r})
sys.argv = sys.argv[1:]
import second_scheduler
from reporting import telling
telling.BETWEEN, telling.AGAIN = 3.0, 8.0
second_scheduler.main()
"""


def condition(site: Site, name: str) -> Optional[Thing]:
    """A pod's condition PodScheduled."""
    found = [it for it in site.store.get("pods", f"default/{name}")["status"].get("conditions") or [] if it["type"] == "PodScheduled"]
    return found[0] if found else None


def left_alone(site: Site) -> str:
    """Pods that are left alone have an event FailedScheduling that names what isn't known, and the condition PodScheduled=False."""
    site.node("a", labels={"pool": "a"})
    must = {"nodeSelectorTerms": [{"matchExpressions": [{"key": "pool", "operator": "In", "values": ["a"]}]}]}
    alone = {
        "selects": ({"nodeSelector": {"pool": "a"}}, "node selector"),
        "affine": ({"affinity": {"nodeAffinity": {"requiredDuringSchedulingIgnoredDuringExecution": must}}}, "node affinity"),
        "claims": ({"volumes": [{"name": "data", "persistentVolumeClaim": {"claimName": "data"}}]}, "volume data"),
        "gated": ({"schedulingGates": [{"name": "example.org/wait"}]}, "scheduling gates"),
    }
    for name, (spec, _) in alone.items():
        site.pod(name, spec=spec)
    site.start()
    shown = ""
    for name, (_, what) in alone.items():
        site.wait(lambda name=name: site.events(about=name, reason="FailedScheduling"), 20, f"an event of {name}, which has {what}")  # type: ignore[misc]
        message = site.events(about=name, reason="FailedScheduling")[0]["message"]
        assert what in message, f"{name}: {message}"
        shown = shown or message
        site.wait(lambda name=name: condition(site, name), 20, f"a condition of the pod {name}")  # type: ignore[misc]
        it = condition(site, name) or {}
        assert it["status"] == "False" and (it["reason"] == "Unschedulable" or name == "gated"), f"{name}: {it}"
    return f"{len(alone)} kinds, as: {shown[:100]}"


def conditions(site: Site) -> str:
    """Every pod without a node has PodScheduled=False, Unschedulable, with the event's message; one that is bound then has not."""
    site.node("a", cpu="1")
    site.pod("runs", cpu="800m", on="a", scheduler="default-scheduler")
    for i in range(3):
        site.pod(f"waits-{i}", cpu="300m")
    site.pod("ours-not", cpu="300m", scheduler="default-scheduler")
    site.start()
    for i in range(3):
        site.wait(lambda i=i: condition(site, f"waits-{i}"), 20, f"a condition of the pod waits-{i}")  # type: ignore[misc]
        it = condition(site, f"waits-{i}") or {}
        assert (it["status"], it["reason"]) == ("False", "Unschedulable") and "Insufficient cpu" in it["message"], it
        assert it.get("lastTransitionTime"), it
    assert condition(site, "ours-not") is None, "a pod of another scheduler has a condition"
    site.delete_pod("runs")
    site.wait(lambda: all(site.place(f"waits-{i}") for i in range(3)), 20, "all three are bound when there is room")
    time.sleep(2)
    assert all((condition(site, f"waits-{i}") or {}).get("status") == "True" for i in range(3)), "PodScheduled=False of a pod that is bound"
    return site.check()


def conditions_late(site: Site) -> str:
    """The condition of a pod that fits nowhere is held back on its way, and meanwhile there is room and the pod is bound: it isn't said of a pod that has
    a node that it has none. One whose version moved for another reason has its condition once the next is due."""
    site.node("a", cpu="1")
    site.pod("runs", cpu="900m", on="a", scheduler="default-scheduler")
    held = list[str]()

    def hold(asked: Asked) -> None:
        if asked.what == "pods/status" and asked.key not in held:
            held.append(asked.key)
            time.sleep(6)

    site.server.refuse = hold
    site.start()
    site.pod("waits", cpu="500m")
    site.wait(lambda: held, 30, "its condition is on its way")
    site.delete_pod("runs")
    site.wait(lambda: site.place("waits"), 5, "it is bound when there is room")
    time.sleep(8)
    assert (condition(site, "waits") or {}).get("status") == "True", f"PodScheduled=False of a pod that is bound: {condition(site, 'waits')}"
    site.pod("big", cpu="2")
    site.wait(lambda: len(held) == 2, 30, "the condition of the next is on its way")

    def labelled(pod: Thing) -> None:
        pod["metadata"]["labels"] = {"a": "b"}

    site.store.change("pods", "default/big", labelled)
    site.wait(lambda: condition(site, "big"), 60, "it has its condition in the end")
    return site.check()


def writes(site: Site, name: str) -> list[float]:
    """When events of a pod were made or counted up."""
    names = {it["metadata"]["name"] for it in site.events(about=name)}
    made = [it.when for it in site.server.all("create", "events") if it.body["involvedObject"]["name"] == name]
    return sorted(made + [it.when for it in site.server.all("patch", "events") if it.key.rpartition("/")[2] in names])


def measure(site: Site) -> str:
    """A pod fits nowhere while a node comes each second, so that its message changes: no two writes of its event within 29 s, in 40 s."""
    site.node("node-0", cpu="100m")
    site.pod("waits", cpu="2")
    site.start()
    site.wait(lambda: site.events(about="waits"), 20, "an event of the pod")
    for i in range(40):
        site.node(f"node-{i + 1}", cpu="100m")
        time.sleep(1)
    when = writes(site, "waits")
    gaps = [b - a for a, b in zip(when, when[1:])]
    assert all(it > 29 for it in gaps), f"{len(when)} writes of one pod's event in 40 s, as little as {min(gaps):.1f} s apart"
    assert len(when) >= 2, "what changed wasn't said after 30 s"
    return f"{len(when)} writes, {', '.join(f'{it:.0f}' for it in gaps)} s apart"


def counted_up(site: Site) -> str:
    """The same message isn't a second event: once its time has come, the one that stands there is counted up by a patch, again and again."""
    site.node("a", cpu="1")
    site.pod("waits", cpu="2")
    code = HURRIED.format(folder=str(site.programs.client))
    site.start(words=[sys.executable, "-c", code, "second_scheduler.py"])
    site.wait(lambda: len(site.server.all("patch", "events")) >= 2, 45, "the event is counted up twice")
    events = site.events(about="waits")
    assert len(events) == 1 and events[0]["count"] >= 3, f"{len(events)} events: {[it.get('count') for it in events]}"
    when = writes(site, "waits")
    # (after 8 s as the client has it; one that was late at the stub has the next sooner behind it)
    assert all(b - a > 5 for a, b in zip(when, when[1:])), when
    return f"one event, its count {events[0]['count']}"


def few_events(site: Site) -> str:
    """2,000 pods that fit nowhere: each has its event and its condition within 90 s, and none has two events."""
    site.node("a", cpu="1")
    for i in range(2000):
        site.pod(f"waits-{i}", cpu="2")
    site.start()
    names = [f"waits-{i}" for i in range(2000)]
    taken = site.wait(lambda: len(site.events()) >= 2000 and all(condition(site, it) for it in names), 90, "each has an event and a condition")
    assert len(site.events()) == 2000, len(site.events())
    return f"2,000 events and conditions after {taken:.0f} s"


# What the two rules say of their rejections.
BY_REGION = "rejected by keep_region for good (pods labelled data-class=personal run in the region eu-central-1 alone)"
BY_AFFINITY = "rejected by node_affinity for good (the node isn't what the pod's node selector, its node affinity or its volumes ask for)"
# What is asked for by pods that fit none of nine nodes, and what is said of them: wsched's own
# filters come first, then the rules in order.
REJECTED: dict[str, tuple[Thing, Thing, str, str]] = {
    "personal": ({"data-class": "personal"}, {}, "2", f"3 Insufficient cpu, 6 node(s) were {BY_REGION}"),
    "selects": ({}, {"zone": "b"}, "100m", f"9 node(s) were {BY_AFFINITY}"),
    "both": (
        {"data-class": "personal"}, {"disk": "ssd"}, "2",
        f"3 Insufficient cpu, 4 node(s) were {BY_REGION}, 2 node(s) were {BY_AFFINITY}",
    ),
}


def make_rejected(site: Site) -> None:
    """Six nodes elsewhere, of which four have the disk, three small ones in the region, and a pod of each kind."""
    for i in range(6):
        site.node(f"us-{i}", labels={REGION: "us-east-1", "disk": "ssd" if i < 4 else "hdd"})
    for i in range(3):
        site.node(f"eu-{i}", cpu="1", labels={REGION: "eu-central-1", "zone": "a"})
    for name, (labels, selects, cpu, _) in REJECTED.items():
        site.pod(name, cpu=cpu, labels=labels, spec={"nodeSelector": selects})


def said_of(site: Site, name: str) -> list[str]:
    """The messages of a pod's events."""
    return [it["message"] for it in site.events(about=name, reason="FailedScheduling")]


def by_rules(site: Site) -> str:
    """The event of a pod that rules reject names each of them with how many nodes it rejected and why, as its module says, and so does its
    condition."""
    make_rejected(site)
    site.start("--node-affinity", "2", "--plugins", str(TOP / "examples/plugins"), rule=RULE)
    for name, (*_, why) in REJECTED.items():
        site.wait(lambda name=name: said_of(site, name) and condition(site, name), 30, f"an event of {name}")  # type: ignore[misc]
        message = f"0/9 nodes are available: {why}."
        assert said_of(site, name) == [message], said_of(site, name)
        assert (condition(site, name) or {}).get("message") == message, condition(site, name)
    # (nothing is said twice, though each was tried again by now)
    time.sleep(5)
    assert len(site.events(reason="FailedScheduling")) == len(REJECTED), site.events()
    return f"{len(REJECTED)} pods, as: {said_of(site, 'both')[0]}"


# Rules, and the reason that each module has: six as long as may be, one that is longer, and one
# that is no text.
LONG = "\u00fc" * 100
REASONS = {**{f"rule-{i}": LONG.encode() for i in range(6)}, "longer": b"x" * 201, "no-text": b"no \xff"}


def keeps_off(digit: int) -> bytes:
    """A module whose filter rejects the nodes of names of six letters that end in a digit: (select (i32.const 3) (i32.const 0) (i32.eq
    (i32.load8_u (i32.const 8)) (i32.const DIGIT))), once the node's record stands at 0."""
    head = "0061736d01000000010b0260027f7f017f6000017f020e01057363686564046e6f64650000030201010503010001071302066d656d6f727902000666696c7465720001"
    return bytes.fromhex(f"{head}0a1a01180041004180c00010001a4103410041082d000041{ord(str(digit)):02x}461b0b")


def reasons(site: Site) -> str:
    """Six rules with reasons of 200 bytes, one with a longer and one with one that is no UTF-8: the event tells how many nodes each rejects, of
    what they say as much as has room in 1,024 bytes, each whole or not at all, and nothing of the last two, which the log names."""
    specs = []
    for i, (name, reason) in enumerate(REASONS.items()):
        site.node(f"node-{i}")
        file = site.folder / f"{name}.wasm"
        file.write_bytes(keeps_off(i) + section("wsched.reason.3", reason))
        specs.append(f"{name}:1:1000:{file}")
    site.pod("rejected")
    it = site.start(*specs)
    site.wait(lambda: said_of(site, "rejected"), 30, "an event of the pod")
    message = said_of(site, "rejected")[0]
    assert all(f"1 node(s) were rejected by {name} for good" in message for name in REASONS), message
    told, room = message.count(f" ({LONG})"), 1024 - len(message.encode())
    assert told and 0 <= room < len(f" ({LONG})".encode()) and message.count("(") == told + len(REASONS), f"{told} reasons, {room} bytes left: {message}"
    for name, why in (("longer", "201 bytes"), ("no-text", "UTF-8")):
        assert any(name in line and why in line for line in it.log().splitlines()), f"the log doesn't tell of the reason of {name}"
    return f"{len(REASONS)} rules named, {told} with their reasons, in {len(message.encode())} bytes"


def many_rejected(site: Site) -> str:
    """400 pods that a rule rejects on each of 300 nodes: each has an event that names it within 90 s, and new pods that fit are bound
    meanwhile."""
    for i in range(300):
        site.node(f"node-{i:03}", labels={"zone": "a"})
    for i in range(400):
        site.pod(f"waits-{i}", spec={"nodeSelector": {"zone": "b"}})
    site.start("--node-affinity", "2", "--plugins", str(TOP / "examples/plugins"))
    began, waited = time.monotonic(), list[float]()
    while len(site.events(reason="FailedScheduling")) < 400 or len(waited) < 3:
        site.pod(f"fits-{len(waited)}")
        waited.append(site.wait(lambda: site.place(f"fits-{len(waited)}"), 60, "a new pod is bound"))
        assert time.monotonic() < began + 90, f"{len(site.events(reason='FailedScheduling'))} events in 90 s"
    told = {it["message"] for it in site.events(reason="FailedScheduling")}
    assert told == {f"0/300 nodes are available: 300 node(s) were {BY_AFFINITY}."}, [*told][:3]
    return f"400 events after {time.monotonic() - began:.0f} s; {len(waited)} new pods meanwhile waited {max(waited):.1f} s at most"


TRIALS = [left_alone, conditions, conditions_late, measure, counted_up, few_events, by_rules, reasons, many_rejected]
