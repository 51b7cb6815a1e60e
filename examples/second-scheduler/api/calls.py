# SPDX-License-Identifier: Apache-2.0
"""Requests whose answers a thread waits for: lists, watches, the Lease, and reads of single objects. Each goes by a connection of `way`'s, which is
kept where it can be."""
from __future__ import annotations

import collections
import contextlib
import http.client
import json
import select
import socket
import urllib.parse
from typing import Any, Iterator, Mapping

from api.way import CONNECT, JSON, Way

# For how long an answer may say nothing, in seconds. The longest pause that an API server may ask for.
PATIENCE, LONGEST_ASKED = 30.0, 60.0


class Refused(Exception):
    """An answer that is no good one."""

    def __init__(self, status: int, reason: str, body: bytes = b"", headers: Any = None) -> None:
        super().__init__(f"{status} {reason}")
        self.status, self.reason, self.body, self.headers = status, reason, body, headers


# What a request to the API server may end with when it is away, or has another opinion.
AWAY = (Refused, http.client.HTTPException, OSError)


def message(why: BaseException) -> str:
    """What the API server says of a request that it refuses, which names a right that is missing; of another fault its first line."""
    if isinstance(why, Refused):
        try:
            return f"{why.status} {json.loads(why.body)['message']}"
        except (TypeError, ValueError, KeyError):
            return f"{why.status} {why.reason}"
    return str(why).split("\n", maxsplit=1)[0]


def asked_pause(why: BaseException) -> float:
    """For how many seconds the API server asks to be left alone (RFC 9110, 10.2.3), where it does."""
    text = str((getattr(why, "headers", None) or {}).get("Retry-After", ""))
    return min(float(text), LONGEST_ASKED) if text.isdecimal() else 0.0


class Calls:
    """Any thread may call. What a call raises is in AWAY."""

    def __init__(self, way: Way) -> None:
        self.way, self.idle = way, collections.deque[socket.socket]()

    def get(self, path: str, patience: float = PATIENCE, **query: str) -> bytes:
        return self.ask("GET", f"{path}?{urllib.parse.urlencode(query)}" if query else path, patience=patience)

    def ask(self, method: str, path: str, body: bytes = b"", form: str = JSON, patience: float = PATIENCE) -> bytes:
        with self.answered(method, path, body, form, patience) as answer:
            return answer.read()

    @contextlib.contextmanager
    def watch(self, path: str, query: Mapping[str, str], patience: float) -> Iterator[http.client.HTTPResponse]:
        """An answer that is read while it comes."""
        with self.answered("GET", f"{path}?{urllib.parse.urlencode(query)}", b"", JSON, patience) as answer:
            yield answer

    @contextlib.contextmanager
    def answered(self, method: str, path: str, body: bytes, form: str, patience: float) -> Iterator[http.client.HTTPResponse]:
        sock = self.line(min(CONNECT, patience))
        answer = http.client.HTTPResponse(sock, method=method)
        is_kept = False
        try:
            sock.settimeout(patience)
            sock.sendall(self.way.request(method, path, body, form))
            answer.begin()
            if not 200 <= answer.status < 300:
                said = answer.read()
                is_kept = not answer.will_close
                raise Refused(answer.status, answer.reason, said, answer.headers)
            yield answer
            is_kept = answer.isclosed() and not answer.will_close
        except Refused as why:
            if why.status == 401:
                # (a certificate is the connection's)
                is_kept = False
                self.way.refused()
            raise
        finally:
            answer.close()
            if is_kept:
                self.idle.append(sock)
            else:
                sock.close()

    def line(self, patience: float) -> socket.socket:
        """A connection that nobody else has. One that is idle and can be read has ended."""
        while self.idle:
            with contextlib.suppress(IndexError):
                sock = self.idle.pop()
                poll = select.poll()
                poll.register(sock, select.POLLIN)
                if self.way.has(sock) and not poll.poll(0):
                    return sock
                sock.close()
        return self.way.connect(patience)
