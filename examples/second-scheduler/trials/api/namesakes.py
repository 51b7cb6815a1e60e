# SPDX-License-Identifier: Apache-2.0
"""Pods that are deleted and made anew under their names between decision and bind, beside an API server that doesn't test the uid."""
import random
import threading
import time

from trials.fixtures.server import Asked
from trials.fixtures.site import Site, wait_for

SECONDS, NODES, NAMES = 20.0, 5, 60


class Churn:
    """Makes pods anew under their names, small and big ones in turn, and notes when each went."""

    def __init__(self, site: Site) -> None:
        self.site, self.dice, self.gone, self.late = site, random.Random(7), dict[str, float](), list[float]()
        self.stop = threading.Event()
        self.thread = threading.Thread(target=self.go, daemon=True)
        for i in range(NAMES):
            self.make(i)

    def make(self, i: int) -> None:
        """A pod of a core, or of a tenth."""
        self.site.pod(f"name-{i}", cpu=self.dice.choice(["100m", "1"]))

    def go(self) -> None:
        """Some forty pods a second."""
        while not self.stop.wait(0.025):
            i = self.dice.randrange(NAMES)
            with self.site.store.changed:
                self.gone[self.site.store.there("pods", f"default/name-{i}")["metadata"]["uid"]] = time.monotonic()
                self.site.delete_pod(f"name-{i}")
                self.make(i)

    def note(self, asked: Asked) -> None:
        """Notes for how many seconds the pod of a bind has been gone; refuses nothing."""
        if asked.what == "pods/binding":
            went = self.gone.get(asked.body["metadata"].get("uid", ""))
            if went is not None:
                self.late.append(asked.when - went)


def namesakes(site: Site) -> str:
    """For 20 s pods go and come under their names, with one binder: no bind is posted of a pod that has been gone for more than a second."""
    for i in range(NODES):
        site.node(f"node-{i}", cpu="4")
    site.server.tests_uid = site.server.tests_version = False
    site.server.bind_takes = 0.05
    churn = Churn(site)
    site.server.refuse = churn.note
    site.start("--binders", "1")
    wait_for(lambda: site.placed() > 5, 20, "it binds")
    churn.thread.start()
    time.sleep(SECONDS)
    churn.stop.set()
    churn.thread.join()
    posted, seen = site.server.count("create", "pods/binding"), site.watcher()
    known = [it for it in churn.late if it > 1.0]
    shown = f"{posted} binds posted, {len(churn.late)} of pods that were gone, {len(known)} of them for more than 1 s "
    shown += f"(at most {max(churn.late, default=0):.1f} s); {len(seen.wrong)} times a node over its room"
    assert not known, shown
    assert len(seen.wrong) <= 5, shown
    return shown


TRIALS = [namesakes]
