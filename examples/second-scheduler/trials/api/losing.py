# SPDX-License-Identifier: Apache-2.0
"""The Lease: who has it writes its name there, ends its work at once where another's stands, and follows anew."""
import os
import re
import signal
import time

from trials.api.held import Held
from trials.fixtures.site import Scheduler, Site
from trials.fixtures.store import Thing

LEASE, KEY = "kube-system/wsched", "kube-system/wsched"
# For how long a Lease is good, in seconds.
GOOD = 15.0


def holder(site: Site) -> str:
    """Who has it."""
    found = site.store.things.get("leases", {}).get(KEY)
    return str((found or {"spec": {}})["spec"].get("holderIdentity") or "")


def led(site: Site) -> Scheduler:
    """One that leads, and has bound a pod."""
    site.node("a")
    it = site.start("--lease", LEASE, *site.listening())
    site.pod("first")
    site.wait(lambda: site.place("first"), 30, "it binds")
    return it


def taken(spec: Thing) -> None:
    """Another has it."""
    spec["spec"]["holderIdentity"] = "another"


def lease_taken(site: Site) -> str:
    """Another's name stands in the Lease: within 5 s nothing more is bound, the process follows anew with a name of its own, and leads again once the
    other hasn't renewed it for 15 s; it leaves no process behind."""
    it = led(site)
    name, core = holder(site), it.wsched()
    assert re.search(r"_[0-9a-f]{16}_\d+$", name), f"its name has no random part: {name}"
    site.store.change("leases", KEY, taken)
    began = time.monotonic()
    time.sleep(5)
    site.pod("second")
    time.sleep(3)
    assert site.place("second") is None, "it bound a pod when another had the Lease"
    assert it.runs(), f"it ended with status {it.wait(0)}"
    site.wait(lambda: site.place("second"), 2 * GOOD + 20, "it leads again, and binds")
    took = time.monotonic() - began
    assert took > GOOD - 1, f"it led {took:.1f} s after the other had taken it"
    assert holder(site) not in (name, "another") and not os.path.exists(f"/proc/{core}/exe"), "its wsched of before is still there"
    return f"led again after {took:.0f} s in the same process; {site.check()}"


def lease_unrenewed(site: Site) -> str:
    """The Lease can't be renewed for 20 s: within 11 s nothing more is bound, and afterwards the same process leads again, with status 0 at its end."""
    it = led(site)
    site.server.refuse = lambda asked: (500, "not now") if asked.what == "leases" else None
    time.sleep(12)
    site.pod("second")
    time.sleep(8)
    assert site.place("second") is None and it.runs(), f"bound to {site.place('second')}, or ended with status {it.wait(0)}"
    site.server.refuse = lambda asked: None
    took = site.wait(lambda: site.place("second"), 40, "it leads again")
    assert it.end() == 0, "it ended with another status than 0"
    site.schedulers.remove(it)
    return f"led again {took:.0f} s after that; {site.check()}"


def lease_asleep(site: Site) -> str:
    """A process is stopped for 20 s while a bind waits for its turn, and another takes the Lease: no bind is sent once it goes on."""
    site.node("a", cpu="64")
    it = site.start("--lease", LEASE, "--binders", "1")
    site.pod("first")
    site.wait(lambda: site.place("first"), 30, "it binds")
    site.server.bind_takes = 1.0
    for i in range(12):
        site.pod(f"next-{i}")
    site.wait(lambda: site.server.count("create", "pods/binding") >= 2, 10, "binds are under way")
    os.kill(it.pid, signal.SIGSTOP)
    try:
        site.store.change("leases", KEY, taken)
        time.sleep(20)
        since = time.monotonic()
    finally:
        os.kill(it.pid, signal.SIGCONT)
    time.sleep(5)
    late = site.server.count("create", "pods/binding", since)
    assert late == 0, f"{late} binds were sent by one that had slept through the end of its Lease"
    return site.check()


def lease_quiet(site: Site) -> str:
    """A quiet leader and its follower log nothing of renewals: at most one line each in 20 s."""
    led(site)
    site.start("--lease", LEASE, name="follower")
    site.wait(lambda: "is a follower" in site.schedulers[1].log(), 20, "the other follows")
    time.sleep(3)
    before = [it.log() for it in site.schedulers]
    time.sleep(20)
    quiet = [it.log()[len(said):].splitlines() for it, said in zip(site.schedulers, before)]
    assert max(map(len, quiet)) <= 1, quiet
    return f"{' and '.join(str(len(it)) for it in quiet)} lines in 20 s; {site.check()}"


def lease_late(site: Site) -> str:
    """A leader is killed while a bind of its is held back for 25 s, which is done all the same. The next has the Lease after 15 s and lists nothing for
    20 more: so it counts that pod, and none of higher priority has its room. One that ends in good order is followed at once."""
    site.node("a", cpu="1")
    one = site.start("--lease", LEASE, "--rest", "20", name="one")
    site.pod("before", cpu="10m")
    site.wait(lambda: site.place("before"), 30, "it binds")
    site.server.tests_version = False
    hold = Held(25, "first")
    site.server.refuse = hold
    site.pod("first", cpu="600m")
    site.wait(lambda: hold.when, 20, "the bind is under way")
    one.end(signal.SIGKILL)
    site.schedulers.remove(one)
    site.pod("second", cpu="600m", priority=10)
    other = site.start("--lease", LEASE, "--rest", "20", name="other")
    site.wait(lambda: site.place("first"), 40, "the bind that was held is done")
    assert site.place("second") is None, "the other gave its room to another pod"
    site.pod("third", cpu="10m")
    rested = site.wait(lambda: site.place("third"), 60, "the other leads")
    assert "didn't give the lease back" in other.log(), "the log says nothing of it"
    assert site.place("second") is None, f"both are on the node: {site.watcher().wrong}"
    assert other.end() == 0
    site.schedulers.remove(other)
    site.pod("fourth", cpu="10m")
    site.start("--lease", LEASE, name="last")
    took = site.wait(lambda: site.place("fourth"), 20, "one that follows in good order binds at once")
    return f"led {rested:.0f} s after the bind was done, and {took:.1f} s after a good end; {site.check()}"


TRIALS = [lease_taken, lease_unrenewed, lease_asleep, lease_quiet, lease_late]
