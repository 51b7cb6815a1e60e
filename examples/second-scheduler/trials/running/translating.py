# SPDX-License-Identifier: Apache-2.0
"""`wsched translate`: what it says of objects."""
import json
import subprocess

from trials.fixtures.site import Site


def translate_told(site: Site) -> str:
    """The word itself, of an object, of events and of what is none: a line each, in order, as soon as it was asked."""
    site.node("odd", memory="7134698291200m", cpu="3999u")
    site.pod("bound", memory="107374182400m", cpu="1500u", on="odd")
    site.pod("waits", memory="107374182400m", cpu="1500u")
    words = [site.programs.wsched, "translate", "--scheduler", "wsched"]
    child = subprocess.Popen(words, stdin=subprocess.PIPE, stdout=subprocess.PIPE, text=True)  # pylint: disable=consider-using-with
    assert child.stdin and child.stdout

    def asked(thing: object) -> "dict[str, object]":
        assert child.stdin and child.stdout
        child.stdin.write(f"{json.dumps(thing)}\n")
        child.stdin.flush()
        line = child.stdout.readline()
        return dict(json.loads(line)) if line.strip() else {}

    bound, waits = (site.store.get("pods", f"default/{name}") for name in ("bound", "waits"))
    node = asked(site.store.get("nodes", "odd"))
    assert (node["v"], node["cpu"], node["mem"]) == (1, "3m", "7134698291"), node
    place = asked({"type": "ADDED", "object": bound})
    assert (place["v"], place["uid"], place["cpu"], place["mem"]) == (2, "default/bound", "2m", "107374183"), place
    assert not asked({"type": "BOOKMARK", "object": {"kind": "Pod", "metadata": {"resourceVersion": "7"}}})
    pod = asked(waits)
    assert (pod["v"], pod["containers"]) == (3, [["2m", "107374183"]]), pod
    ended = asked({"type": "MODIFIED", "object": {**bound, "status": {"phase": "Succeeded"}}})
    assert ended == {"op": "deleted", "v": 4, "uid": "default/bound"}, ended
    child.stdin.close()
    assert child.wait(10) == 0
    return "a node, a bound pod, a bookmark, one that waits and one that has ended: rounded down, up and up, each answered before the next was asked"


TRIALS = [translate_told]
