# SPDX-License-Identifier: Apache-2.0
"""A core that hangs: the process ends, so that its Lease runs out and another replica has it."""
import json
import os
import signal
import sys
import time

from trials.fixtures.site import Site, alive, wait_for

LEASE = "kube-system/wsched"
# A client whose main loop does nothing for as long as a file is there.
STUCK = """
import os, sys, time
sys.path.insert(0, {folder!r})
sys.argv = sys.argv[1:]
import scheduler, second_scheduler
tick = scheduler.Scheduler.tick
def stuck(self):
    while os.path.exists({file!r}):
        time.sleep(0.1)
    tick(self)
scheduler.Scheduler.tick = stuck
second_scheduler.main()
"""


def holder(site: Site) -> str:
    """The process that has the Lease, by its identity; empty where nobody has."""
    found = [it["spec"].get("holderIdentity") or "" for it in site.store.all("leases")]
    return found[0].rpartition("_")[2] if found else ""


def hang(site: Site) -> str:
    """wsched is stopped (SIGSTOP): the process ends within 20 s, leaves no child, and the other replica has the Lease and binds."""
    site.node("a")
    site.pod("first")
    one = site.start("--lease", LEASE, name="one")
    wait_for(lambda: site.place("first"), 20, "the first replica binds")
    assert holder(site) == str(one.pid), json.dumps(site.store.all("leases"))
    other = site.start("--lease", LEASE, name="other")
    core = one.wsched()
    os.kill(core, signal.SIGSTOP)
    began = time.monotonic()
    site.pod("second")
    try:
        wait_for(lambda: not one.runs(), 25, f"the replica whose wsched hangs ends; it runs, and its Lease is renewed, after {time.monotonic() - began:.0f} s")
        ended = time.monotonic() - began
        assert one.wait(0) != 0, "it ended with status 0"
        left = alive(core)
        wait_for(lambda: holder(site) == str(other.pid), 25, "the other replica has the Lease")
        wait_for(lambda: site.place("second"), 20, "the other replica binds the pod that waits")
        taken = time.monotonic() - began
        assert not left, f"its wsched (stopped) was still there when it had ended, {ended:.0f} s after it hung"
    finally:
        if alive(core):
            os.kill(core, signal.SIGKILL)
    return f"ended after {ended:.1f} s with status {one.wait(0)}; the pod was bound by the other {taken:.1f} s after the stop; {site.check()}"


def hang_alone(site: Site) -> str:
    """The same without a Lease: the process ends within 20 s, with a status that isn't 0, so that whoever started it starts it again."""
    site.node("a")
    site.pod("first")
    one = site.start()
    wait_for(lambda: site.place("first"), 20, "it binds")
    core, began = one.wsched(), time.monotonic()
    os.kill(core, signal.SIGSTOP)
    try:
        wait_for(lambda: not one.runs(), 25, "it ends")
    finally:
        if alive(core):
            os.kill(core, signal.SIGKILL)
    assert one.wait(0) != 0
    return f"ended after {time.monotonic() - began:.1f} s with status {one.wait(0)}"


def hang_loop(site: Site) -> str:
    """The main loop does nothing, while watches and the Lease go on: the process ends within 20 s, leaves no child, and the other replica binds."""
    site.node("a")
    site.pod("first")
    file = site.folder / "stuck"
    code = STUCK.format(folder=str(site.programs.client), file=str(file))
    one = site.start("--lease", LEASE, name="one", words=[sys.executable, "-c", code, "second_scheduler.py"])
    wait_for(lambda: site.place("first"), 20, "the first replica binds")
    site.start("--lease", LEASE, name="other")
    core, began = one.wsched(), time.monotonic()
    file.touch()
    # (it ticks each second)
    time.sleep(1.5)
    site.pod("second")
    wait_for(lambda: not one.runs(), 25, "the replica whose loop does nothing ends")
    ended = time.monotonic() - began
    assert one.wait(0) != 0, "it ended with status 0"
    wait_for(lambda: not alive(core), 1, "its wsched ends with it")
    assert site.place("second") is None, "it bound a pod meanwhile"
    wait_for(lambda: site.place("second"), 45, "the other replica binds the pod that waits")
    return f"ended after {ended:.1f} s with status {one.wait(0)}; bound by the other {time.monotonic() - began:.1f} s after the stop; {site.check()}"


def slow_is_no_hang(site: Site) -> str:
    """A wsched that is stopped for 5 s at a time is no hang: the process goes on, and binds."""
    site.node("a")
    one = site.start()
    site.pod("first")
    wait_for(lambda: site.place("first"), 20, "it binds")
    core = one.wsched()
    for name in ("second", "third"):
        os.kill(core, signal.SIGSTOP)
        site.pod(name)
        time.sleep(5)
        os.kill(core, signal.SIGCONT)
        site.wait(lambda name=name: site.place(name), 10, f"{name} is bound when it goes on")  # type: ignore[misc]
    assert one.runs()
    return site.check()


TRIALS = [hang, hang_alone, hang_loop, slow_is_no_hang]
