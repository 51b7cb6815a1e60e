# SPDX-License-Identifier: Apache-2.0
"""kube-scheduler's requests as they come over a connection: read, answered and counted. It keeps
its connection, and asks the next by the same."""
from __future__ import annotations

import contextlib
import http
import io
import json
import logging
import socket
import ssl
import struct
import threading
import time
from typing import Any, Callable, Mapping

from reporting.serving import Answer

from counting import Counting
from service import Reply, Service

LOG = logging.getLogger("second-scheduler")
# The largest body that is read, and how many of more than so many bytes are read and answered at
# once.
LARGEST, LARGE, LARGE_AT_ONCE = 2**26, 2**20, 2
# How long a line and how many fields a head may have; how many heads are known again, and up to
# what length: those of one caller differ in a body's length at most.
LINE, FIELDS, HEADS, HEAD = 65536, 100, 256, 1024
# How much of an answer the kernel takes without waiting for who reads it.
AT_ONCE = 2**20
# For how long a connection may have no request, and one that has begun to come may say nothing, in
# seconds.
IDLE, SILENT = 600.0, 30
# What mustn't stand twice in a head.
ONCE = ("content-length", "transfer-encoding")
Verb = Callable[[bytes], Reply]
LARGE_ONES = threading.BoundedSemaphore(LARGE_AT_ONCE)


class Heard(io.RawIOBase):
    """What comes over a connection, which says nothing for SILENT seconds at most, or for IDLE
    while no request has begun."""

    def __init__(self, connection: socket.socket) -> None:
        self.connection, self.is_idle = connection, True

    def readable(self) -> bool:
        return True

    def readinto(self, buffer: Any) -> int:
        until = time.monotonic() + IDLE
        while True:
            try:
                return self.connection.recv_into(buffer)
            except (TimeoutError, BlockingIOError):
                if not self.is_idle or time.monotonic() >= until:
                    raise


class Asked(Answer):
    """One connection. (What http.server does with a head takes longer than all else here, so a
    POST's is read by this.)"""

    timeout = SILENT
    disable_nagle_algorithm = True
    # (a request of 1,000 names is few reads, by a buffer of its own)
    rbufsize = 0
    service: Service
    counting: Counting
    words: list[str]
    fields: Mapping[str, str]
    began, close_connection = 0.0, False
    requestline = request_version = command = ""
    raw_requestline = b""
    # request lines and fields of heads that came before
    heads: dict[bytes, tuple[list[str], Mapping[str, str]]] = {}

    def setup(self) -> None:
        self.request.setsockopt(socket.SOL_SOCKET, socket.SO_SNDBUF, AT_ONCE)
        super().setup()
        self.rfile.close()
        self.heard = Heard(self.connection)
        self.rfile = self.buffer = io.BufferedReader(self.heard, 2**18)
        if not self.certificate:
            # (by the kernel, where Python asks before each read and each write whether it can)
            self.connection.settimeout(None)
            for it in (socket.SO_RCVTIMEO, socket.SO_SNDTIMEO):
                self.connection.setsockopt(socket.SOL_SOCKET, it, struct.pack("ll", SILENT, 0))

    def handle_one_request(self) -> None:
        try:
            self.heard.is_idle = True
            come = self.buffer.peek(1)
            self.began, self.heard.is_idle = time.perf_counter(), False
            head = come[: come.find(b"\r\n\r\n", 0, HEAD) + 4]
            if known := self.heads.get(head):
                self.rfile.read(len(head))
                self.words, self.fields = known
                self.post()
                return
            self.raw_requestline = self.rfile.readline(LINE + 1)
            if self.raw_requestline.startswith(b"POST "):
                self.post_behind(head)
            elif self.raw_requestline:
                self.get()
            else:
                self.close_connection = True
        except (TimeoutError, BlockingIOError):
            self.close_connection = True

    def get(self) -> None:
        """As for whoever asks for metrics and health."""
        if len(self.raw_requestline) > LINE:
            self.send_error(http.HTTPStatus.REQUEST_URI_TOO_LONG)
        elif self.parse_request():
            if self.headers.get("Content-Length", "0") != "0":
                # (nobody reads it)
                self.close_connection = True
            if self.command == "GET":
                self.do_GET()
            else:
                self.close_connection = True
                self.answer(refused(405, "GET and POST alone are answered"))
        self.wfile.flush()

    def post_behind(self, head: bytes) -> None:
        """`head` is what is to be read, where that has come as a whole."""
        self.words = self.raw_requestline.decode("latin-1").split()
        if len(self.words) != 3 or not self.head():
            self.close_connection = True
            self.answer(refused(400, "the head is none of HTTP/1.1"))
            return
        if head.endswith(b"\r\n\r\n") and head.count(b"\n") == head.count(b"\r\n"):
            if len(self.heads) >= HEADS:
                self.heads.clear()
            self.heads[head] = self.words, self.fields
        self.post()

    def post(self) -> None:
        answer, is_last = self.service.verbs.get(self.words[1]), self.words[2] != "HTTP/1.1"
        is_last = is_last or self.fields.get("connection", "").lower() == "close"
        self.close_connection = is_last or self.service.stopping
        size, said = self.size()
        if not self.is_known():
            said = refused(401, "who asks must show a certificate")
        if said:
            # (what follows isn't read)
            self.close_connection = True
            self.answer(said)
        else:
            one: Any = LARGE_ONES if size > LARGE else contextlib.nullcontext()
            with self.service.under_way, one:
                said = self.answered(answer, size)
        if answer:
            self.counting.answer(self.words[1][1:], said.result, time.perf_counter() - self.began)
        said.then()

    def is_known(self) -> bool:
        """Whether the other end has shown a certificate that is asked for."""
        if not self.files.authority:
            return True
        return isinstance(self.connection, ssl.SSLSocket) and bool(self.connection.getpeercert())

    def head(self) -> bool:
        """Reads the fields."""
        fields: dict[str, str] = {}
        for _ in range(FIELDS):
            line = self.rfile.readline(LINE + 1)
            if line in (b"\r\n", b"\n"):
                self.fields = fields
                return True
            name, colon, value = line.decode("latin-1").partition(":")
            name = name.lower()
            if not colon or not line.endswith(b"\n") or (name in fields and name in ONCE):
                return False
            fields[name] = value.strip()
        return False

    def size(self) -> tuple[int, Reply | None]:
        """Of the body, or why it isn't read."""
        text = self.fields.get("content-length", "")
        if "transfer-encoding" in self.fields or not text.isdecimal():
            return 0, refused(411, "a body is read where Content-Length says how long it is")
        if len(text) > 20 or int(text) > LARGEST:
            return 0, refused(413, f"a body of {text[:20]} bytes, and at most {LARGEST} are read")
        return int(text), None

    def answered(self, answer: Verb | None, size: int) -> Reply:
        if self.fields.get("expect", "").lower() == "100-continue":
            self.connection.sendall(b"HTTP/1.1 100 Continue\r\n\r\n")
        body = self.rfile.read(size)
        if len(body) < size:
            self.close_connection = True
            return refused(400, "the body ended too early")
        try:
            said = answer(body) if answer else self.no_verb()
        except Exception:  # pylint: disable=broad-except
            # (a pod that is held up must be told of, and the connection goes on)
            LOG.exception("a request wasn't answered by a fault of this program's own")
            said = refused(500, "a fault of the extender's own, which its log has")
        self.answer(said)
        return said

    def no_verb(self) -> Reply:
        return refused(404, f"there are {' and '.join(self.service.verbs)}")

    def answer(self, said: Reply) -> None:
        more = f"Wsched-Unheard-Seconds: {said.age:.1f}\r\n" if said.age else ""
        more += "Connection: close\r\n" if self.close_connection else ""
        head = f"HTTP/1.1 {said.status} {http.HTTPStatus(said.status).phrase}\r\n"
        head += f"Content-Type: application/json\r\nContent-Length: {len(said.body)}\r\n{more}\r\n"
        self.connection.sendall(head.encode("latin-1") + said.body)


def refused(status: int, why: str) -> Reply:
    return Reply(status, json.dumps({"Error": why}).encode(), "refused")
