# SPDX-License-Identifier: Apache-2.0
"""The second scheduler with its rules in a file."""
from trials.fixtures.site import REGION, TOP, Site


def ruled(site: Site) -> str:
    """Rules, settings and node affinity from one file: a pod goes where its selector and keep_region let it, and the event of one that can't go
    anywhere names the rule."""
    file, plugins = site.folder / "rules.yaml", TOP / "examples/plugins"
    file.write_text(f"node_affinity: 2\nsettings: {{tier: gold}}\nrules:\n- file: {plugins}/keep_region.wasm\n", encoding="utf-8")
    for i in range(4):
        site.node(f"node-{i}", labels={REGION: ["us-east-1", "eu-central-1"][i % 2], "zone": "ab"[i // 2]})
    small = {"containers": [{"name": "c", "image": "x"}]}
    site.pod("zone-b", spec={**small, "nodeSelector": {"zone": "b"}}, labels={"data-class": "personal"})
    site.pod("gold", spec={**small, "nodeSelector": {"/cfg/tier": "gold"}})
    site.pod("zone-c", spec={**small, "nodeSelector": {"zone": "c"}})
    site.start("--rules", str(file))
    site.wait(lambda: site.placed() >= 2 and site.events(about="zone-c", reason="FailedScheduling"), 60, "two pods are bound")
    assert site.place("zone-b") == "node-3" and site.place("gold"), f"{site.place('zone-b')}, {site.place('gold')}"
    message = site.events(about="zone-c", reason="FailedScheduling")[0]["message"]
    assert "rejected by node_affinity for good" in message, message
    return site.check()


TRIALS = [ruled]
