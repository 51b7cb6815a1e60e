# SPDX-License-Identifier: Apache-2.0
"""What a terminal and a service manager send: it ends in good order, and wsched with it."""
import os
import re
import signal
import time
from typing import Callable

from trials.fixtures.site import TOP, Scheduler, Site, alive, wait_for


def ended_well(site: Site, send: Callable[[Scheduler], None]) -> str:
    """A signal comes while binds are under way, each of which takes a second: they are waited for, and the status is 0."""
    site.node("a")
    site.pod("first")
    it = site.start()
    wait_for(lambda: site.place("first") and site.events(about="first"), 20, "it binds, and says so")
    core, site.server.bind_takes = it.wsched(), 1.0
    for i in range(6):
        site.pod(f"next-{i}")
    wait_for(lambda: site.server.count("create", "pods/binding") >= 7, 10, "six binds are under way")
    began = time.monotonic()
    send(it)
    status = it.wait(20)
    taken = time.monotonic() - began
    assert status is not None, "it hasn't ended within 20 s"
    said = {name["involvedObject"]["name"] for name in site.events(reason="Scheduled")}
    time.sleep(0.2)
    assert status == 0, f"it ended with status {status} after {taken:.1f} s: {it.log().strip().splitlines()[-1][:200]}"
    assert len(said) == 7, f"events `Scheduled` of {len(said)} of 7 bound pods when it had ended"
    assert not alive(core), "its wsched still runs"
    return f"status 0 after {taken:.1f} s; {site.check()}"


def ctrl_c(site: Site) -> str:
    """SIGINT to its whole process group, as Ctrl-C sends it, while six binds are under way: they are waited for, status 0, no child left."""
    return ended_well(site, lambda it: os.killpg(it.pid, signal.SIGINT))


def sigterm_group(site: Site) -> str:
    """SIGTERM to its whole process group: the same."""
    return ended_well(site, lambda it: os.killpg(it.pid, signal.SIGTERM))


def sigterm(site: Site) -> str:
    """SIGTERM to the process alone, as KillMode=mixed sends it: the same."""
    return ended_well(site, lambda it: os.kill(it.pid, signal.SIGTERM))


def sighup(site: Site) -> str:
    """SIGHUP to its whole process group, as a terminal sends it that is closed: the same."""
    return ended_well(site, lambda it: os.killpg(it.pid, signal.SIGHUP))


def unit(site: Site) -> str:
    """A systemd unit beside the client says KillMode=mixed: its default sends SIGTERM to wsched too, which would end first."""
    units = sorted(site.programs.client.glob("*.service"))
    assert units, f"no unit file in {site.programs.client}"
    text = units[0].read_text(encoding="utf-8")
    assert re.search(r"^KillMode=mixed$", text, re.M), f"{units[0].name} doesn't say KillMode=mixed"
    assert re.search(r"^Restart=(always|on-failure)$", text, re.M), f"{units[0].name} doesn't start it again when it ends by a fault"
    return f"{units[0].relative_to(TOP) if units[0].is_relative_to(TOP) else units[0].name}: KillMode=mixed"


TRIALS = [ctrl_c, sigterm_group, sigterm, sighup, unit]
