# SPDX-License-Identifier: Apache-2.0
"""What happens while wsched decides: it is heard at once, and no bind is made by a decision that didn't know of it."""
import time

from trials.accounting.audit import relayed
from trials.fixtures.site import REGION, RULE, Scheduler, Site, wait_for
from trials.fixtures.store import Thing

# For how long a decision is held back, in seconds, and when in that time something happens.
SLOW, THEN = 2.0, 0.5
REGIONS = ("us-east-1", "eu-central-1")


def begun(site: Site) -> Scheduler:
    """A node in either region, and a scheduler whose decisions for a node take two seconds."""
    for region in REGIONS:
        site.node(region, cpu="4", labels={REGION: region})
    program = relayed(site)
    (site.folder / "slow").write_text(str(SLOW), encoding="ascii")
    it = site.start(*site.listening(), rule=RULE, wsched=program)
    site.wait(lambda: len(site.server.watches) >= 2, 20, "it watches")
    time.sleep(1)
    return it


def decided(site: Site, pod: Thing) -> str:
    """Waits until wsched has decided on a pod, and the decision is held back: the node."""
    begins, file = f"{pod['metadata']['uid']} on ", site.folder / "answered"

    def found() -> list[str]:
        return [line.split()[2] for line in file.read_text(encoding="utf-8").splitlines() if line.startswith(begins)]

    wait_for(found, 20, "wsched decides")
    time.sleep(THEN)
    return found()[-1]


def labelled(site: Site, name: str, data_class: str) -> None:
    """A pod's data are of that class from now on."""

    def change(pod: Thing) -> None:
        pod["metadata"]["labels"] = {"data-class": data_class}

    site.store.change("pods", f"default/{name}", change)


def cordoned(node: Thing) -> None:
    """No pod is to be placed there."""
    node["spec"]["unschedulable"] = True


def smaller(node: Thing) -> None:
    """It has no room for a pod of a core."""
    node["status"]["allocatable"]["cpu"] = "500m"


def pods_change(site: Site) -> str:
    """While wsched decides on a pod, it gets a label by which a rule keeps it away from the node, goes, or is made anew under its name as one that
    fits nowhere: none is bound by that decision."""
    begun(site)
    # (the other region holds no such data)
    site.delete_node("eu-central-1")
    node = decided(site, site.pod("labelled"))
    labelled(site, "labelled", "personal")
    time.sleep(2 * SLOW)
    assert site.place("labelled") is None, f"bound to {node} by a decision that didn't know its label"
    decided(site, site.pod("gone"))
    site.delete_pod("gone")
    decided(site, site.pod("anew"))
    site.delete_pod("anew")
    site.pod("anew", cpu="100")
    time.sleep(2 * SLOW)
    posted = site.server.count("create", "pods/binding")
    assert posted == 0, f"{posted} binds were asked for"
    labelled(site, "labelled", "public")
    site.wait(lambda: site.place("labelled"), 20, "it is bound once it may be")
    return f"of three decisions none was bound, and the pod that was labelled once it might be; {site.check()}"


def nodes_change(site: Site) -> str:
    """While wsched decides, the node that it chooses is cordoned, has less room, or goes: the pod is bound to another."""
    it = begun(site)
    said = []
    for what in ("cordoned", "smaller", "gone"):
        node = decided(site, site.pod(what, cpu="1"))
        if what == "gone":
            site.delete_node(node)
        else:
            site.store.change("nodes", node, cordoned if what == "cordoned" else smaller)
        waited = site.wait(lambda what=what: site.place(what), 4 * SLOW + 10, f"the pod is bound: {it.log()[-200:]}")  # type: ignore[misc]
        assert site.place(what) != node, f"{what}: bound to {node} by a decision that didn't know of it"
        said.append(f"{what} {waited:.1f} s")
        site.delete_pod(what)
        if what != "gone":
            site.delete_node(node)
        site.node(node, cpu="4", labels={REGION: node})
        time.sleep(1)
    refused = site.server.count("create", "pods/binding") - site.watcher().bound
    assert refused == 0, f"{refused} binds were asked for in vain"
    return f"bound to the other node after: {', '.join(said)}; {site.check()}"


def foreign(site: Site) -> str:
    """While wsched decides on a pod of 600m, a pod of 600m comes to the node of a core that it chooses, or one that is there grows by so much: the
    pod is bound to the other node."""
    for name in ("left", "right"):
        site.node(name, cpu="1")
        site.pod(f"small-{name}", cpu="100m", on=name, scheduler="default-scheduler")
    program = relayed(site)
    (site.folder / "slow").write_text(str(SLOW), encoding="ascii")
    site.start(*site.listening(), wsched=program)
    site.wait(lambda: len(site.server.watches) >= 2, 20, "it watches")
    time.sleep(1)

    def grown(pod: Thing) -> None:
        pod["spec"]["containers"][0]["resources"]["requests"]["cpu"] = "700m"

    for what in ("comes", "grows"):
        node = decided(site, site.pod(what, cpu="600m"))
        if what == "comes":
            site.pod("foreign", cpu="600m", on=node, scheduler="default-scheduler")
        else:
            site.store.change("pods", f"default/small-{node}", grown)
        site.wait(lambda what=what: site.place(what), 4 * SLOW + 10, "the pod is bound")  # type: ignore[misc]
        assert site.place(what) != node, f"{what}: bound to {node} by a decision that didn't know of it: {site.watcher().wrong}"
        site.delete_pod(what)
        if what == "comes":
            site.delete_pod("foreign")
        time.sleep(1)
    return f"bound to the other node, whether one came or grew; {site.check()}"


def foreign_queued(site: Site) -> str:
    """A bind waits for its turn behind another that takes 3 s, when a pod comes to its node: it isn't asked for, and the pod is bound to the other."""
    for name in ("left", "right", "third"):
        site.node(name, cpu="1")
    site.start("--binders", "1", wsched=relayed(site))
    site.pod("before", cpu="900m")
    site.wait(lambda: site.place("before"), 20, "it binds")
    site.server.bind_takes = 3.0
    first = site.pod("first", cpu="600m")
    decided(site, first)
    node = decided(site, site.pod("second", cpu="600m"))
    site.pod("foreign", cpu="600m", on=node, scheduler="default-scheduler")
    posted = len(site.server.all("create", "pods/binding"))
    assert posted == 2, f"{posted} binds were asked for"
    site.delete_pod("before")
    site.wait(lambda: site.place("second"), 20, "the second is bound")
    assert site.place("second") != node, f"bound to {node}: {site.watcher().wrong}"
    return f"bound to {site.place('second')} and not to {node}; {site.check()}"


TRIALS = [pods_change, nodes_change, foreign, foreign_queued]
