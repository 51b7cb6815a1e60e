# SPDX-License-Identifier: Apache-2.0
"""Binds: each is sent once, and has an answer, whatever the API server does; and what a pod is whose bind had no good one."""
from __future__ import annotations

import concurrent.futures
import enum
import functools
import json
import logging
import time
from typing import NamedTuple, Sequence

from api.calls import AWAY, Calls, Refused, message
from api.pages import Item, Json, Page
from api.posting import UNWANTED, Answer, Posts, Request, texts
from api.way import JSON, PATCH
from state.newest import Meant, Newest
from state.pods import Pod

LOG = logging.getLogger("second-scheduler")
# How long a bind may take at the API server, in seconds, before the pod is asked what became of it.
PATIENCE = 30.0
# For how long after a bind was sent it may still be done, in seconds, though nobody answers, and for
# how long after its connection was reset: an API server gives a request 60 seconds, and whatever
# stands before it may have held it back.
LANDS, LASTS = 75.0, 60.0


class Bind(NamedTuple):
    """A bind, and the ledger's ticket of it. `turn` is when the pod had its turn, `seconds` how long the bind took."""

    meant: Meant
    ticket: int
    turn: float
    seconds: float = 0.0

    @property
    def pod(self) -> Pod:
        return self.meant.pod

    @property
    def node(self) -> str:
        return self.meant.node


class Outcome(enum.Enum):
    """How a bind was answered."""

    CREATED = "created"
    REFUSED = "refused"
    # (no answer says that it isn't done)
    LOST = "lost"
    # (it wasn't sent)
    UNWANTED = "not wanted"


class Answered(NamedTuple):
    """`until` is up to when it may still be done."""

    bind: Bind
    outcome: Outcome
    until: float = 0.0


class Found(NamedTuple):
    """What a read gave of a pod's name: whether it was answered, and what is there. `is_hidden`: it may not be read."""

    bind: Bind
    is_answered: bool
    pod: Item | None = None
    is_hidden: bool = False


class Binders:
    """Those that bind, so many at once, and those that read what became of binds. Each answer goes into the inbox, as `("bind", .., Answered)` and
    `("found", .., Found)`."""

    def __init__(self, calls: Calls, count: int, newest: Newest) -> None:
        self.calls, self.newest, self.inbox = calls, newest, newest.inbox
        self.posts = Posts(calls.way, count, "binds", self.may_send)
        self.lookers = concurrent.futures.ThreadPoolExecutor(count, "look-up")
        self.warned = False

    def start(self) -> None:
        self.posts.start()

    def bind(self, bind: Bind) -> None:
        pod, meta = bind.pod, {"name": bind.pod.name, "namespace": bind.pod.namespace, "uid": bind.pod.uid}
        if bind.meant.version:
            # (API servers from 1.21 on bind no pod that has changed, and so none that was fenced)
            meta["resourceVersion"] = bind.meant.version
        target = {"apiVersion": "v1", "kind": "Node", "name": bind.node}
        body = f'{{"metadata":{texts(meta)},"target":{texts(target)}}}'.encode()
        self.posts.send(Request("POST", f"{path_of(pod)}/binding", body, JSON, PATIENCE, functools.partial(self.answered, bind), bind))

    def may_send(self, requests: Sequence[Request]) -> Sequence[bool]:
        """(in the thread of the posts) Which are still wanted: these are sent at once, and once."""
        return [self.newest.may_bind(it.about.meant) for it in requests]

    def answered(self, bind: Bind, answer: Answer) -> None:
        """(in the thread of the posts)"""
        now, bind = time.monotonic(), bind._replace(seconds=answer.seconds)
        if answer.is_good:
            said = Answered(bind, Outcome.CREATED)
        elif answer.status == UNWANTED:
            # an API server up to 1.20 would bind whatever has its name now
            LOG.info("pod %s isn't bound to %s: one of them has changed or is gone, or the cluster isn't heard", bind.pod, bind.node)
            said = Answered(bind, Outcome.UNWANTED)
        else:
            LOG.warning("pod %s can't be bound to %s: %s", bind.pod, bind.node, message(answer.fault))
            # (what an API server answers for want of time, or one before it that gets no answer,
            # says nothing of what is done yet)
            is_refused, sent = 400 <= answer.status < 500, now - answer.seconds
            said = Answered(bind, Outcome.REFUSED) if is_refused else Answered(bind, Outcome.LOST, max(sent + LANDS, now + LASTS))
        self.newest.ended(bind.pod.uid, ("bind", "", said))

    def look_up(self, bind: Bind, is_fenced: bool) -> None:
        """Has the pod read, from now on. `is_fenced`: where it has no node its version is moved first, so that API servers from 1.21 on refuse a bind that
        comes later still."""
        self.lookers.submit(self.find, bind, is_fenced)

    def find(self, bind: Bind, is_fenced: bool) -> None:
        """(in a thread of the lookers)"""
        try:
            found = self.found(bind, is_fenced)
        except Exception:  # pylint: disable=broad-except
            # (its place would be kept for ever)
            LOG.exception("pod %s: what became of its bind isn't known", bind.pod)
            found = Found(bind, False)
        self.inbox.put(("found", "", found))

    def found(self, bind: Bind, is_fenced: bool) -> Found:
        """(Each is read from the store: no version is asked for.)"""
        try:
            pod = self.read(bind.pod)
            if is_fenced and waits(bind.pod, pod):
                assert pod
                if not self.fence(bind, pod.thing):
                    return Found(bind, False)
                pod = self.read(bind.pod)
            return Found(bind, True, pod)
        except Refused as other:
            if other.status in (401, 403):
                self.warn(other)
            return Found(bind, False, is_hidden=other.status == 403)
        except (*AWAY, ValueError, LookupError, TypeError):
            return Found(bind, False)

    def read(self, pod: Pod) -> Item | None:
        """What has the pod's name, None where nothing has. Without the right to read it by its name it is listed by it."""
        try:
            text = self.calls.get(path_of(pod)).decode().rstrip("\n")
            return Item(dict(json.loads(text)), text)
        except Refused as other:
            if other.status == 404:
                return None
            if other.status != 403:
                raise
            self.warn(other)
        page = Page(self.calls.get(f"/api/v1/namespaces/{pod.namespace}/pods", fieldSelector=f"metadata.name={pod.name}"))
        return next(page.items(), None)

    def fence(self, bind: Bind, pod: Json) -> bool:
        """Moves the version of a pod that has no node, so that a bind that comes late is refused where that is tested. False where the pod has
        changed meanwhile, or nobody answers."""
        now = time.strftime("%Y-%m-%dT%H:%M:%SZ", time.gmtime())
        why = f"a bind to {bind.node} had no answer, and the pod is tried again"
        condition = {"type": "PodScheduled", "status": "False", "reason": "SchedulerError", "message": why, "lastProbeTime": now, "lastTransitionTime": now}
        meta = {"uid": bind.pod.uid, "resourceVersion": pod["metadata"].get("resourceVersion")}
        body = {"metadata": meta, "status": {"conditions": [condition]}}
        try:
            self.calls.ask("PATCH", f"{path_of(bind.pod)}/status", json.dumps(body).encode(), PATCH)
            return True
        except Refused as other:
            if other.status in (401, 403):
                self.warn(other)
            # (without the right to it the time that has passed has to do; one that went isn't bound
            # any more)
            return 400 <= other.status < 500 and other.status not in (401, 409, 429)
        except AWAY:
            return False

    def warn(self, why: Refused) -> None:
        if not self.warned:
            self.warned = True
            LOG.error("what became of a bind without an answer can't be looked up: %s", message(why))


def path_of(pod: Pod) -> str:
    return f"/api/v1/namespaces/{pod.namespace}/pods/{pod.name}"


def waits(pod: Pod, there: Item | None) -> bool:
    """Whether what has the pod's name is the pod, without a node."""
    return node_of(pod, there) == ""


def node_of(pod: Pod, there: Item | None) -> str | None:
    """The pod's node by what has its name, empty where it has none; None where that is another."""
    if there is None or there.thing["metadata"]["uid"] != pod.uid:
        return None
    return str(there.thing["spec"].get("nodeName") or "")
