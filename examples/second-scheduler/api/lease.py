# SPDX-License-Identifier: Apache-2.0
"""A Lease that replicas share, so that one of them schedules: whoever has written its name there last, and goes on to.

How long another has had it is reckoned by this machine's own clock, from when a change of it was read; the times that stand in it are for
people.
"""
from __future__ import annotations

import argparse
import datetime
import json
import logging
import os
import random
import secrets
import socket
import time
from typing import Callable

from api.calls import AWAY, Calls, Refused, message
from api.pages import Json

LOG = logging.getLogger("second-scheduler")
# For how long a replica has the Lease once it has renewed it, within which time it has to renew it,
# how often it tries, and for how long the API server may say nothing, in seconds.
SECONDS, DEADLINE, RETRY, PATIENCE = 15, 10, 2, 2
# How a request of it may end, or an answer that is no Lease.
FAULTS = (*AWAY, ValueError, LookupError, TypeError)


def name_of(text: str) -> tuple[str, str]:
    """NAMESPACE/NAME."""
    namespace, slash, name = text.partition("/")
    if not namespace or not slash or not name or "/" in name:
        raise argparse.ArgumentTypeError(f"{text!r} is no NAMESPACE/NAME")
    return namespace, name


def clock() -> float:
    """Seconds that nobody sets, and that go on while the machine sleeps."""
    return time.clock_gettime(time.CLOCK_BOOTTIME)


def stamp() -> str:
    """(with its microseconds, as the API takes it)"""
    return datetime.datetime.now(datetime.timezone.utc).strftime("%Y-%m-%dT%H:%M:%S.%fZ")


def spec_of(lease: Json | None) -> Json:
    return dict((lease or {}).get("spec") or {})


class Lease:
    """No call of it raises."""

    def __init__(self, namespace: str, name: str, calls: Calls) -> None:
        self.namespace, self.name, self.calls = namespace, name, calls
        self.path = f"/apis/coordination.k8s.io/v1/namespaces/{namespace}/leases"
        # (processes of several machines or containers may have one number, and one name)
        self.identity = f"{socket.gethostname()}_{secrets.token_hex(8)}_{os.getpid()}"
        # what was read last, and since when it has been so; who has it by that
        self.read: Json = {}
        self.since, self.holder = 0.0, ""
        # when it was renewed last, and what was said last of a failure
        self.renewed, self.fault = float("-inf"), ""
        # who had it before, where that one didn't give it back
        self.before = ""

    def follow(self) -> None:
        """Returns once this one has it."""
        LOG.info("%s is a follower of %s/%s", self.identity, self.namespace, self.name)
        while not self.take():
            time.sleep(RETRY * random.uniform(1.0, 1.2))
        LOG.info("%s has the lease %s/%s", self.identity, self.namespace, self.name)

    def keep(self, lost: Callable[[str], None]) -> None:
        """Renews it again and again, until that can't be done or another has it."""
        while True:
            time.sleep(RETRY)
            if self.take():
                continue
            if self.holder not in ("", self.identity):
                return lost(f"{self.holder} has it")
            if clock() - self.renewed >= DEADLINE:
                return lost(f"it couldn't be renewed for {DEADLINE} s")

    def is_held(self) -> bool:
        """Whether no other can have it yet, also where this process or its machine has been asleep."""
        return clock() - self.renewed < SECONDS - 1

    def guard(self, lost: Callable[[str], None]) -> None:
        """A renewal that hangs, or a process that was asleep, may be past the time of its Lease."""
        while self.is_held():
            time.sleep(0.5)
        lost("its time is over")

    def take(self) -> bool:
        """Takes or renews it, where no other has it."""
        began = clock()
        try:
            there = self.there()
            if there and self.is_others(spec_of(there)):
                return False
            self.write(there)
        except FAULTS as why:
            self.failed(message(why))
            return False
        self.renewed, self.fault, self.holder = began, "", self.identity
        return True

    def there(self) -> Json | None:
        """As it is, None where it isn't there."""
        try:
            return dict(json.loads(self.calls.get(f"{self.path}/{self.name}", PATIENCE)))
        except Refused as why:
            if why.status != 404:
                raise
            return None

    def is_others(self, spec: Json) -> bool:
        if spec != self.read:
            self.read, self.since = spec, clock()
        self.holder = spec.get("holderIdentity") or ""
        return self.holder not in ("", self.identity) and clock() < self.since + (spec.get("leaseDurationSeconds") or SECONDS)

    def write(self, there: Json | None) -> None:
        """With the version that was read: of two that take it at once, one is refused."""
        had = spec_of(there)
        before, now = had.get("holderIdentity") or "", stamp()
        is_new = before != self.identity
        if is_new:
            self.before = before
        spec = {
            "holderIdentity": self.identity,
            "leaseDurationSeconds": SECONDS,
            "acquireTime": now if is_new else had.get("acquireTime"),
            "renewTime": now,
            "leaseTransitions": (had.get("leaseTransitions") or 0) + (1 if there and is_new else 0),
        }
        if there:
            self.put({**there, "spec": spec})
        else:
            meta = {"name": self.name, "namespace": self.namespace}
            lease = {"apiVersion": "coordination.k8s.io/v1", "kind": "Lease", "metadata": meta, "spec": spec}
            self.calls.ask("POST", self.path, json.dumps(lease).encode(), patience=PATIENCE)

    def put(self, lease: Json) -> None:
        self.calls.ask("PUT", f"{self.path}/{self.name}", json.dumps(lease).encode(), patience=PATIENCE)

    def failed(self, why: str) -> None:
        """(each once, and not each time that it is tried)"""
        if why != self.fault:
            LOG.warning("lease %s/%s: %s", self.namespace, self.name, why)
        self.fault = why

    def release(self) -> None:
        """Gives it back at a clean end: so another needn't wait until it has run out, and knows that no bind is under way."""
        try:
            there = self.there()
            if there and spec_of(there).get("holderIdentity") == self.identity:
                self.put({**there, "spec": {**spec_of(there), "holderIdentity": ""}})
        except FAULTS as why:
            self.failed(message(why))
