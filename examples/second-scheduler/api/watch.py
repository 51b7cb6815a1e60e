# SPDX-License-Identifier: Apache-2.0
"""Keeps one kind of object listed and watched, and hands on what it hears, each in the API server's order.

A watch that ends, however it does, is taken up where it ended: only where the API server no longer has that (410) is everything listed
anew. Of each object only what is read of it is kept. While a kind isn't heard of, whoever decides is told so: it knows less than there is.
"""
from __future__ import annotations

import collections
import http.client
import json
import logging
import os
import random
import threading
import time
from typing import Iterable, Iterator, Sequence

from api.calls import AWAY, Calls, Refused, asked_pause, message
from api.pages import Item, Json, Page

LOG = logging.getLogger("second-scheduler")
# How many objects of a list are asked for at once, and for how long such a page may say nothing, in
# seconds. Pods that have ended take no room.
PAGE, PATIENCE, PHASES = 500, 60.0, "status.phase!=Succeeded,status.phase!=Failed"
# For how long a watch is asked for, in seconds, at least and at most, so that those of several
# clients don't end together; and how long one that says nothing is waited for: an API server has a
# bookmark each minute. (A machine that is gone is seen sooner, by `way`.)
SHORTEST_WATCH, LONGEST_WATCH, SILENT = 300, 600, 120
# A watch that has held so long is a good one; after any other there is a pause, each twice the one
# before, and each shortened at random by up to a half, so that several clients don't come back
# together.
HELD, FIRST_PAUSE, LONGEST_PAUSE = 5.0, 0.5, 10.0
# For how long a kind may not be heard of, in seconds, before nothing more is decided. Once it is
# heard again it has told what happened meanwhile when it has said nothing for so long, or has been
# open for so long.
DEAF, QUIET, CAUGHT_UP = 2.0, 0.5, 5.0
GONE = 410


class Expired(Exception):
    """The API server no longer has what came after the version."""


class Ears:
    """What hears of a kind of object, in the thread of its watch: each list and each event as it stands there, in the API server's order."""

    kind = ""

    def begins(self) -> None:
        """A list is asked for next."""

    def items(self, items: Iterable[Item]) -> None:
        """A page of it."""

    def ends(self) -> None:
        """It was whole."""

    def event(self, event: str, thing: Json, line: bytes) -> None:
        """An event that is of an object: its type, the object, and the line that has both."""

    def came_to(self, version: str) -> None:
        """All is told up to this version, by a list or by a watch."""

    def opened(self) -> None:
        """A watch goes on from where the last one or the list ended."""

    def shut(self) -> None:
        """It goes on no longer."""

    def failed(self) -> None:
        """A list or a watch was refused, or broke."""

    def wants_list(self) -> bool:
        """Whether all is to be listed anew."""
        return False


class Things(Ears):
    """What hears of objects, of a page of a list at once, and after each list of the keys of all that there are."""

    def __init__(self) -> None:
        self.keys = set[str]()

    def key(self, thing: Json) -> str:
        raise NotImplementedError

    def hear(self, event: str, things: Sequence[Json]) -> None:
        raise NotImplementedError

    def listed(self, keys: set[str]) -> None:
        raise NotImplementedError

    def begins(self) -> None:
        self.keys = set()

    def items(self, items: Iterable[Item]) -> None:
        things = [it.thing for it in items]
        self.keys |= set(map(self.key, things))
        self.hear("MODIFIED", things)

    def ends(self) -> None:
        keys, self.keys = self.keys, set()
        self.listed(keys)

    def event(self, event: str, thing: Json, line: bytes) -> None:
        self.hear(event, [thing])


class Watched:
    """One kind of object, in a thread of its own once it is started. `only` are the selectors, as a query has them."""

    def __init__(self, calls: Calls, path: str, ears: Ears, **only: str) -> None:
        self.calls, self.path, self.ears, self.only = calls, path, ears, only
        self.version: str | None = None
        self.pause = self.opened = 0.0
        # since when it is shut, None while it is open; whether it may not have told yet what
        # happened while it was shut, whether something is being heard just now, and when that ended
        self.shut: float | None = time.monotonic()
        self.is_behind = self.is_hearing = False
        self.heard, self.lock = 0.0, threading.Lock()

    def start(self) -> None:
        threading.Thread(target=self.go, daemon=True, name=self.ears.kind).start()

    def go(self) -> None:
        try:
            while True:
                self.once()
        # without this thread nothing more would be heard, and nobody would know
        except Exception:  # pylint: disable=broad-except
            LOG.exception("%s: nothing more can be heard", self.ears.kind)
        os._exit(1)

    def once(self) -> None:
        """Lists where there is no version to go on from, and watches until that ends; then the pause that is due."""
        self.opened, why, was_kept, asked = 0.0, "the watch ended at once", self.version is not None, 0.0
        try:
            if self.version is None:
                self.list()
            self.watch()
        except Expired as gone:
            self.version, why = None, str(gone)
        # (ValueError: an answer that was cut off is no JSON)
        except (*AWAY, ValueError) as other:
            if isinstance(other, Refused) and other.status == GONE:
                self.version = None
            why, asked = message(other), asked_pause(other)
        if self.opened and time.monotonic() - self.opened >= HELD:
            self.pause = 0.0
            return
        self.ears.failed()
        if was_kept and self.version is None:
            # (after a list of just now the pause is due all the same)
            LOG.warning("%s: %s; listing anew", self.ears.kind, why)
            return
        pause = max(self.pause * random.uniform(0.5, 1.0), asked * random.uniform(1.0, 1.25))
        LOG.warning("%s: %s; again in %.1f s", self.ears.kind, why, pause)
        time.sleep(pause)
        self.pause = min(max(FIRST_PAUSE, 2 * self.pause), LONGEST_PAUSE)

    def list(self) -> None:
        self.ears.begins()
        meta = self.page(None)
        while more := meta.get("continue"):
            meta = self.page(more)
        self.ears.ends()
        self.come_to(meta["resourceVersion"])

    def page(self, start: str | None) -> Json:
        """Has a page heard, and gives the list's metadata: each page is free again before the next is asked for."""
        page = Page(self.calls.get(self.path, PATIENCE, **self.only, limit=str(PAGE), **({"continue": start} if start else {})))
        items = page.items()
        self.ears.items(items)
        # (what is left of it is read, and so what stands behind it)
        collections.deque(items, maxlen=0)
        return page.meta

    def watch(self) -> None:
        asked = {"watch": "true", "resourceVersion": self.version or "", "allowWatchBookmarks": "true"}
        asked |= {"timeoutSeconds": str(random.randint(SHORTEST_WATCH, LONGEST_WATCH))}
        with self.calls.watch(self.path, self.only | asked, SILENT) as answer:
            self.is_open()
            try:
                for line in lines_of(answer):
                    self.is_hearing = True
                    self.take(line, json.loads(line))
                    self.heard, self.is_hearing = time.monotonic(), False
            finally:
                self.shut, self.is_hearing = time.monotonic(), False
                self.ears.shut()

    def take(self, line: bytes, event: Json) -> None:
        thing = event["object"]
        if event["type"] == "ERROR":
            if thing.get("code") == GONE:
                raise Expired(thing.get("message"))
            raise ValueError(f"the watch ended: {thing.get('message')}")
        if event["type"] != "BOOKMARK":
            self.ears.event(event["type"], thing, line)
        self.come_to(thing["metadata"]["resourceVersion"])
        if self.ears.wants_list():
            raise Expired("all is to be listed anew")

    def come_to(self, version: str) -> None:
        self.version = version
        self.ears.came_to(version)

    # For whoever decides.

    def is_open(self) -> None:
        """What happened while it was shut comes now."""
        self.ears.opened()
        now = time.monotonic()
        with self.lock:
            self.is_behind = self.is_behind or self.shut_for(now) > DEAF
            self.opened, self.heard, self.shut = now, now, None

    def shut_for(self, now: float) -> float:
        """For how many seconds nothing has been heard."""
        shut = self.shut
        return 0.0 if shut is None else now - shut

    def is_deaf(self, now: float) -> bool:
        """Whether more has happened by now than was heard, as far as that can be known: what was heard is on its way to whoever decides."""
        with self.lock:
            if self.shut is not None:
                return self.is_behind or now - self.shut > DEAF
            is_quiet = not self.is_hearing and now - self.heard >= QUIET
            if is_quiet or now - self.opened >= CAUGHT_UP:
                self.is_behind = False
            return self.is_behind


def lines_of(answer: http.client.HTTPResponse) -> Iterator[bytes]:
    rest: list[bytes] = []
    while some := answer.read1(1 << 16):
        rest.append(some)
        if b"\n" in some:
            *lines, last = b"".join(rest).split(b"\n")
            rest = [last]
            yield from (it for it in lines if it)
