# SPDX-License-Identifier: Apache-2.0
"""examples/what-if: one record by two sets of rules."""
import os
import re
import signal
import subprocess
import time

from trials.fixtures.site import REGION, RULE, TOP, Site
from trials.reporting.record import churn


def compared(site: Site, *words: str) -> str:
    """What it prints."""
    program = site.programs.client.parent / "what-if"
    assert program.exists(), f"{program} isn't there"
    env = os.environ | {"WSCHED": site.programs.wsched}
    ran = subprocess.run([str(program), *words], capture_output=True, text=True, env=env, check=False)
    assert ran.returncode == 0, f"status {ran.returncode}: {ran.stderr.strip()[-300:]}"
    return ran.stdout


def what_if(site: Site) -> str:
    """A script whose answers are known by both sets of rules: which pods went elsewhere, and how full the nodes became."""
    said = compared(site, str(TOP / "examples/plugins/keep_region.jsonl"), "--", RULE)
    for line in ("  crm-0 lab-1 -> de-2", "  crm-1 us-1 -> de-1", "  web-0 de-2 -> lab-1"):
        assert line in said.splitlines(), f"no line {line!r} in: {said}"
    # crm-1 asks for 3.5 of the 4 cores of de-1, and of the 8 of us-1
    assert re.search(r"^  de-1 cpu 0\.0 -> 87\.5 .*pods 0 -> 1$", said, re.M) and re.search(r"^  us-1 cpu 43\.8 -> 0\.0 .*pods 1 -> 0$", said, re.M), said
    same = compared(site, str(TOP / "examples/plugins/keep_region.jsonl"), RULE, "--", RULE)
    assert "pods that went elsewhere: 0" in same and "nodes that are used otherwise: 0" in same, same
    return "three pods elsewhere, two nodes otherwise, as reckoned by hand; and none by the same rules"


def what_if_recorded(site: Site) -> str:
    """A record of a run without rules: by the same rules nothing changes, and by keep_region its pods are all in the region."""
    for i in range(8):
        site.node(f"node-{i}", cpu="16", labels={REGION: "eu-central-1" if i % 2 else "us-east-1"})
    file = site.folder / "run.jsonl.gz"
    it = site.start("--record", str(file))
    site.wait(lambda: len(site.server.watches) >= 2, 20, "it watches")
    churn(site, 6)
    time.sleep(2)
    it.end(signal.SIGTERM)
    site.schedulers.remove(it)
    same, other = compared(site, str(file), "--"), compared(site, str(file), "--", RULE)
    assert "pods that went elsewhere: 0" in same and "nodes that are used otherwise: 0" in same, same[:600]
    moved = re.findall(r"^  default/(\S+) (\S+) -> (\S+)$", other.partition("pods that went elsewhere")[2], re.M)
    assert moved, other[:600]
    personal = [(name, to) for name, _, to in moved if int(name.rpartition("-")[2]) % 4 == 0]
    assert personal and all(to == "late" or int(to[5:]) % 2 for _, to in personal), personal[:5]
    return f"by the same rules nothing else; by keep_region {len(moved)} pods elsewhere, of them {len(personal)} personal, all in the region"


TRIALS = [what_if, what_if_recorded]
