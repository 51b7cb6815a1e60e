# SPDX-License-Identifier: Apache-2.0
"""Requests that write, by a few connections that are kept: one thread has all of them, so no request waits for a thread's turn.

A request has one answer, which is handed on in that thread. One that was sent and not answered ends with no answer: nobody knows what
became of it. One that wasn't sent waits for as long as no connection can be made.
"""
from __future__ import annotations

import collections
import concurrent.futures
import http.client
import logging
import os
import queue
import selectors
import socket
import ssl
import threading
import time
from typing import Any, Callable, Mapping, NamedTuple, Sequence

from api.calls import Refused
from api.way import JSON, Way, answer_in
from core.live import quoted

LOG = logging.getLogger("second-scheduler")
# Between two tries to connect there is a pause, in seconds, each twice the one before. How many are
# made at once.
FIRST_PAUSE, LONGEST_PAUSE, OPENERS = 0.2, 5.0, 4
# The statuses of an answer that never came, and of a request that was no longer wanted when it had
# its turn.
NONE, UNWANTED = 0, -1


class Answer(NamedTuple):
    """`status` is HTTP's, or one of the two above; `data` is the body, or why there is none; `seconds` since it was sent."""

    status: int
    data: bytes
    seconds: float = 0.0

    @property
    def is_good(self) -> bool:
        return 200 <= self.status < 300

    @property
    def fault(self) -> Exception:
        """What `Calls` would raise."""
        if self.status == NONE:
            return ConnectionError(self.data.decode(errors="replace"))
        return Refused(self.status, http.client.responses.get(self.status, ""), self.data)


class Request(NamedTuple):
    """`patience` is how long it may take once it is sent, in seconds; `about` is whoever's that sends it."""

    method: str
    path: str
    body: bytes
    form: str
    patience: float
    then: Callable[[Answer], None]
    about: Any = None


class Line:
    """A connection, and the request that is on it."""

    def __init__(self, sock: socket.socket) -> None:
        self.sock, self.request = sock, Request("", "", b"", "", 0.0, lambda answer: None)
        self.is_busy, self.unsent, self.read, self.began = False, b"", b"", 0.0


def texts(fields: Mapping[str, str]) -> str:
    """An object of texts as JSON: what is written as often as pods are bound is spelled by it, in half of the time. (No key has a quote in it.)"""
    return "{" + ",".join([f'"{key}":{quoted(value)}' for key, value in fields.items()]) + "}"


def all_of_them(some: Sequence[Request]) -> Sequence[bool]:
    return [True] * len(some)


class Posts:
    """The thread, its connections and the requests that wait for one. `send` and `ask` may be called by any other thread. `wanted` says of each
    request whether it is to be sent, at the moment at which it is."""

    def __init__(self, way: Way, most: int, name: str, wanted: Callable[[Sequence[Request]], Sequence[bool]] = all_of_them) -> None:
        self.way, self.most, self.name, self.wanted = way, most, name, wanted
        self.asked: queue.SimpleQueue[Request] = queue.SimpleQueue()
        self.opened: queue.SimpleQueue[socket.socket | Exception] = queue.SimpleQueue()
        self.waiting: collections.deque[Request] = collections.deque()
        # by which TLS connections are made
        self.tls = way.tls
        self.lines: set[Line] = set()
        self.idle: list[Line] = []
        self.opening, self.pause, self.may_open = 0, 0.0, 0.0
        self.openers = concurrent.futures.ThreadPoolExecutor(min(most, OPENERS), f"{name}-opener")
        self.selector = selectors.DefaultSelector()
        self.bell, self.heard = socket.socketpair()
        self.bell.setblocking(False)
        self.is_awake = False
        self.selector.register(self.heard, selectors.EVENT_READ, None)

    def start(self) -> None:
        threading.Thread(target=self.go, daemon=True, name=self.name).start()

    # For others.

    def send(self, request: Request) -> None:
        self.asked.put(request)
        self.ring()

    def ask(self, method: str, path: str, body: bytes, form: str = JSON, patience: float = 10.0) -> bytes:
        """Waits for the answer, and raises what `Calls` would where it is no good one."""
        answers: queue.SimpleQueue[Answer] = queue.SimpleQueue()
        self.send(Request(method, path, body, form, patience, answers.put))
        answer = answers.get()
        if not answer.is_good:
            raise answer.fault
        return answer.data

    def ring(self) -> None:
        # (whoever sees that it is awake has put something where it looks before it sleeps)
        if not self.is_awake:
            try:
                self.bell.send(b"!")
            except BlockingIOError:
                # (it has been rung often enough)
                pass

    # The thread.

    def go(self) -> None:
        try:
            while True:
                self.once()
        except Exception:  # pylint: disable=broad-except
            # without this thread nothing more would be written, and nobody would know
            LOG.exception("%s: nothing more can be written", self.name)
            os._exit(1)

    def once(self) -> None:
        self.is_awake = False
        has_more = not self.asked.empty() or not self.opened.empty()
        ready = self.selector.select(0.0 if has_more else 0.5)
        self.is_awake = True
        for key, _ in ready:
            if key.data:
                self.serve(key.data)
            else:
                self.heard.recv(4096)
        while not self.opened.empty():
            self.take(self.opened.get())
        while not self.asked.empty():
            self.waiting.append(self.asked.get())
        now = time.monotonic()
        for line in [it for it in self.lines if it.is_busy and now > it.began + it.request.patience]:
            self.lose(line, f"no answer within {line.request.patience:.0f} s")
        self.begin_some(now)

    def begin_some(self, now: float) -> None:
        if self.tls is not self.way.tls:
            self.tls = self.way.tls
            for line in [it for it in self.idle if not self.way.has(it.sock)]:
                self.close(line)
        while self.waiting and self.idle:
            some = [self.waiting.popleft() for _ in range(min(len(self.waiting), len(self.idle)))]
            for request, is_wanted in zip(some, self.wanted(some)):
                if is_wanted:
                    self.begin(self.idle.pop(), request)
                else:
                    request.then(Answer(UNWANTED, b""))
        if now >= self.may_open:
            for _ in range(min(len(self.waiting), self.most - len(self.lines)) - self.opening):
                self.opening += 1
                self.openers.submit(self.open)

    def open(self) -> None:
        """(in a thread of the openers)"""
        try:
            self.opened.put(self.way.connect())
        except (OSError, http.client.HTTPException) as why:
            self.opened.put(why)
        except BaseException as why:  # pylint: disable=broad-except
            self.opened.put(ConnectionError(f"{type(why).__name__}: {why}"))
        self.ring()

    def take(self, made: socket.socket | Exception) -> None:
        self.opening -= 1
        now = time.monotonic()
        if isinstance(made, socket.socket):
            self.pause, line = 0.0, Line(made)
            self.lines.add(line)
            self.idle.append(line)
            self.selector.register(made, selectors.EVENT_READ, line)
        elif now >= self.may_open:
            # (of several that fail together, one tells)
            self.pause = min(max(FIRST_PAUSE, 2 * self.pause), LONGEST_PAUSE)
            self.may_open = now + self.pause
            LOG.warning("%s: no connection to the API server: %s; again in %.1f s", self.name, made, self.pause)

    def begin(self, line: Line, request: Request) -> None:
        line.request, line.is_busy, line.began = request, True, time.monotonic()
        line.unsent = self.way.request(request.method, request.path, request.body, request.form)
        try:
            self.write(line)
        except OSError as why:
            self.lose(line, str(why))

    def write(self, line: Line) -> None:
        """Sends what it can: what is left is sent once there is room."""
        try:
            while line.unsent:
                line.unsent = line.unsent[line.sock.send(line.unsent) :]
            wanted = selectors.EVENT_READ
        except (ssl.SSLWantWriteError, ssl.SSLWantReadError, BlockingIOError):
            wanted = selectors.EVENT_READ | selectors.EVENT_WRITE
        if self.selector.get_key(line.sock).events != wanted:
            self.selector.modify(line.sock, wanted, line)

    def serve(self, line: Line) -> None:
        """Takes what has come, and hands on an answer that is whole."""
        try:
            if line.unsent:
                self.write(line)
            while True:
                some = line.sock.recv(65536)
                line.read += some
                answer = answer_in(line.read) if line.is_busy else None
                if answer:
                    return self.answered(line, answer)
                if not some or not line.is_busy:
                    # (nobody says anything on a connection that is idle, but that it ends)
                    return self.lose(line, "the connection was closed")
        except (ssl.SSLWantReadError, ssl.SSLWantWriteError, BlockingIOError):
            return None
        except (OSError, ValueError) as why:
            return self.lose(line, str(why))

    def answered(self, line: Line, answer: tuple[int, bytes, bool]) -> None:
        status, data, stays = answer
        request, line.is_busy, line.read = line.request, False, b""
        if status == 401:
            # (a certificate is the connection's)
            self.way.refused()
        if stays and not line.unsent and status != 401:
            self.idle.append(line)
        else:
            self.close(line)
        request.then(Answer(status, data, time.monotonic() - line.began))

    def lose(self, line: Line, why: str) -> None:
        was_busy, line.is_busy = line.is_busy, False
        self.close(line)
        if was_busy:
            line.request.then(Answer(NONE, why.encode(), time.monotonic() - line.began))

    def close(self, line: Line) -> None:
        self.selector.unregister(line.sock)
        self.lines.discard(line)
        if line in self.idle:
            self.idle.remove(line)
        line.sock.close()
