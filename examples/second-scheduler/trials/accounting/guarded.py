# SPDX-License-Identifier: Apache-2.0
"""Clients with a bug in what they look at themselves: without their own tests binds are sent in vain, and no node gets more than it has room for."""
import os
import random
import signal
import sys
import time

from trials.fixtures.site import Scheduler, Site, wait_for
from trials.reporting.metrics import scraped, value
from trials.running.start import ends

# How a client is started that has a bug.
PLANTED = """
import sys
sys.path.insert(0, {folder!r})
sys.argv = sys.argv[1:]
{bug}
import second_scheduler
second_scheduler.main()
"""
# Whatever was decided is sent, whatever was heard since; and decided though a watch is shut.
UNTESTED = """
from api import listening
from state import newest
newest.Newest.may_bind = lambda self, meant: True
listening.Listening.look = lambda self: False
"""
# Each pod is told twice, its older word behind the newer one.
CONFUSED = """
from state import desk
tell, before = desk.Desk.tell_pod, dict()
def twice(self, pod, wait, line):
    tell(self, pod, wait, line)
    self.core.say(before.get(pod.uid, line), lambda said: None)
    before[pod.uid] = line
desk.Desk.tell_pod = twice
"""
# The first bind that is granted isn't wanted any more.
UNWANTED = """
from state import newest
may_bind, asked = newest.Newest.may_bind, []
def unwanted(self, meant):
    asked.append(meant)
    return len(asked) != 1 and may_bind(self, meant)
newest.Newest.may_bind = unwanted
"""


def planted(site: Site, bug: str, *more: str, name: str = "scheduler") -> Scheduler:
    """A client with a bug, which watches."""
    code = PLANTED.format(folder=str(site.programs.client), bug=bug)
    it = site.start(*site.listening(), *more, words=[sys.executable, "-c", code, "second_scheduler.py"], name=name)
    site.wait(lambda: len(site.server.watches) >= 2, 20, "it watches")
    return it


def churned(site: Site, bug: str) -> str:
    """Plays 20 s in which pods of all sizes come and go, nodes too, watches break, and a third of the binds has no good answer."""
    dice, names = random.Random(3), list[str]()
    for i in range(5):
        site.node(f"node-{i}", cpu="2")
    it = planted(site, bug)
    site.server.refuse = lambda asked: (503, "not now") if asked.what == "pods/binding" and dice.random() < 0.1 else None
    for turn in range(80):
        for i in range(3):
            names.append(f"pod-{turn}-{i}")
            site.pod(names[-1], cpu=f"{dice.choice([100, 300, 700, 1500])}m")
        while len(names) > 40:
            site.delete_pod(names.pop(dice.randrange(len(names))))
        if turn % 20 == 10:
            site.server.break_watches(dice.choice(["reset", "cut"]))
        time.sleep(0.25)
    seen = site.watcher()
    assert it.runs() and "Traceback" not in it.log(), it.log()[-300:]
    wrong = [why for why in seen.wrong if "isn't there" not in why]
    assert not wrong and seen.bound > 50, f"{seen.bound} bound, {wrong[:3]}"
    return f"{seen.bound} bound of {80 * 3}, no node over its room"


def guard_untested(site: Site) -> str:
    """A client that sends whatever was decided, and decides though it doesn't hear: what wsched grants is right all the same."""
    return churned(site, UNTESTED)


def guard_confused(site: Site) -> str:
    """A client that tells pods twice, and old words of them behind new ones."""
    return churned(site, CONFUSED)


def guard_unwanted(site: Site) -> str:
    """A bind that was granted isn't wanted any more, as where the Lease was lost meanwhile: it isn't sent, the ledger is told that it won't be done, and the
    pod is bound when it is tried again."""
    site.node("a", cpu="1")
    it = planted(site, UNWANTED)
    site.pod("first", cpu="600m")
    took = site.wait(lambda: site.place("first"), 30, f"it is bound: {it.log()[-200:]}")
    posted, read = site.server.count("create", "pods/binding"), site.server.count("get", "pods")
    assert (posted, read) == (1, 1), f"{posted} binds were sent, and {read} pods read"
    assert value(scraped(site), "wsched_binds_not_posted_total") == 1
    return f"bound {took:.1f} s later, by one bind, behind one read; {site.check()}"


def guard_ends(site: Site) -> str:
    """`wsched live` is killed: the process ends within 3 s, with a status that isn't 0, without a traceback, and binds nothing more. A program without that
    word is told at the start."""
    site.node("a")
    it = site.start(name="killed")
    site.pod("first")
    wait_for(lambda: site.place("first"), 20, "it binds")
    began = time.monotonic()
    os.kill(it.wsched(), signal.SIGKILL)
    site.pod("second")
    status = ends(it, 3, "wsched live")
    assert site.place("second") is None, "it bound a pod"
    said = [f"status {status} after {time.monotonic() - began:.1f} s"]
    program = site.folder / "program"
    program.write_text(f'#!/bin/sh\n[ "$1" = live ] && exit 2\nexec "{site.programs.wsched}" "$@"\n', encoding="utf-8")
    program.chmod(0o755)
    said.append(f"without the word: status {ends(site.start(name='old', wsched=str(program)), 15, 'wsched live')}")
    return f"{'; '.join(said)}; {site.check()}"


TRIALS = [guard_untested, guard_confused, guard_unwanted, guard_ends]
