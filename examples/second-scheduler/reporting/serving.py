# SPDX-License-Identifier: Apache-2.0
"""Metrics and health over HTTP, or over TLS: /metrics, /healthz, /livez and /readyz.

Probes are answered to everyone, since a kubelet has no token; /metrics is to those that bear the token, where there is one.
"""
from __future__ import annotations

import argparse
import hmac
import http.server
import logging
import os
import socket
import ssl
import threading
from typing import Any, NamedTuple, Protocol

LOG = logging.getLogger("second-scheduler")
FORM = "text/plain; version=0.0.4; charset=utf-8"


def address(text: str) -> tuple[str, int]:
    """HOST:PORT, or :PORT for all addresses of this machine."""
    host, _, port = text.rpartition(":")
    if not port.isdecimal() or int(port) > 65535 or ":" not in text:
        raise argparse.ArgumentTypeError(f"{text!r} is no HOST:PORT")
    return host.strip("[]"), int(port)


class Files(NamedTuple):
    """A certificate and its key, who may read the metrics, and whose certificates callers may show: each a file, or None."""

    cert: str | None = None
    key: str | None = None
    token: str | None = None
    authority: str | None = None


class Certificate:
    """What TLS says who this is. Files that have been renewed are read again."""

    def __init__(self, files: Files) -> None:
        self.files, self.times = files, (0.0, 0.0, 0.0)
        self.tls = self.read()

    def read(self) -> ssl.SSLContext:
        """Raises OSError or ssl.SSLError, which is one, where the files are none of a certificate and its key."""
        assert self.files.cert
        tls = ssl.SSLContext(ssl.PROTOCOL_TLS_SERVER)
        tls.minimum_version = ssl.TLSVersion.TLSv1_2
        tls.load_cert_chain(self.files.cert, self.files.key)
        if self.files.authority:
            # (a kubelet's probes have none)
            tls.load_verify_locations(self.files.authority)
            tls.verify_mode = ssl.CERT_OPTIONAL
        self.times = self.written()
        return tls

    def written(self) -> tuple[float, float, float]:
        cert, key, authority = self.files.cert, self.files.key, self.files.authority
        assert cert
        return os.stat(cert).st_mtime, os.stat(key or cert).st_mtime, os.stat(authority or cert).st_mtime

    def newest(self) -> ssl.SSLContext:
        try:
            if self.written() != self.times:
                self.tls = self.read()
        except OSError as why:
            # (half of it may be written)
            LOG.warning("the certificate of --listen stays as it was: %s", why)
        return self.tls


def token_in(file: str | None) -> str:
    """What stands in the file now, without blanks around it; nothing where there is no file."""
    if not file:
        return ""
    with open(file, encoding="utf-8") as it:
        return it.read().strip()


class Told(Protocol):
    """What is counted."""

    def text(self) -> bytes: ...


class Well(Protocol):
    """Whether this process does what it is for, and why it doesn't."""

    def is_live(self) -> bool: ...

    def is_ready(self) -> bool: ...

    def why_not_ready(self) -> str: ...


class Answer(http.server.BaseHTTPRequestHandler):
    """One connection. `serve` gives it what it tells of."""

    protocol_version = "HTTP/1.1"
    timeout = 30
    certificate: Certificate | None
    files: Files
    health: Well
    metrics: Told

    def setup(self) -> None:
        if self.certificate:
            # (in the thread of this request: one that says nothing keeps no other waiting)
            self.request.settimeout(self.timeout)
            self.request = self.certificate.newest().wrap_socket(self.request, server_side=True)
        super().setup()

    def may_read(self) -> bool:
        if not self.files.token:
            return True
        try:
            wanted = f"Bearer {token_in(self.files.token)}"
        except (OSError, ValueError) as why:
            LOG.warning("the token of --listen can't be read: %s", why)
            return False
        return hmac.compare_digest((self.headers.get("Authorization") or "").encode(), wanted.encode())

    def do_GET(self) -> None:  # pylint: disable=invalid-name
        path = self.path.partition("?")[0]
        if path == "/metrics" and not self.may_read():
            return self.say(401, b"who are you?\n", more={"WWW-Authenticate": "Bearer"})
        if path == "/metrics":
            return self.say(200, self.metrics.text(), FORM)
        if path in ("/healthz", "/livez"):
            return self.say_whether(self.health.is_live(), "the main loop does nothing")
        if path == "/readyz":
            return self.say_whether(self.health.is_ready(), self.health.why_not_ready())
        return self.say(404, b"not found\n")

    def say_whether(self, is_well: bool, why: str) -> None:
        self.say(200 if is_well else 503, b"ok" if is_well else why.encode() + b"\n")

    def say(self, status: int, body: bytes, form: str = "text/plain; charset=utf-8", more: dict[str, str] | None = None) -> None:
        self.send_response(status)
        for name, value in (more or {}).items():
            self.send_header(name, value)
        self.send_header("Content-Type", form)
        self.send_header("Content-Length", str(len(body)))
        self.end_headers()
        self.wfile.write(body)

    def log_message(self, format: str, *args: object) -> None:  # pylint: disable=redefined-builtin
        LOG.debug(format, *args)


def serve(where: tuple[str, int], health: Well, metrics: Told, files: Files = Files(), answer: type[Answer] = Answer) -> http.server.ThreadingHTTPServer:
    """Raises OSError where it can't be: for the address, the certificate or the token."""
    if files.token and not token_in(files.token):
        raise OSError(f"{files.token} has no token")
    certificate = Certificate(files) if files.cert else None
    told = type(answer.__name__, (answer,), {"certificate": certificate, "files": files, "health": health, "metrics": metrics})

    class Server(http.server.ThreadingHTTPServer):
        """Where no host is named, it listens on all addresses of both kinds."""

        daemon_threads = True
        request_queue_size = 128
        address_family = socket.AF_INET6 if ":" in where[0] or (not where[0] and socket.has_dualstack_ipv6()) else socket.AF_INET

        def handle_error(self, request: Any, client_address: Any) -> None:
            """(whoever speaks no TLS, or ends in the midst)"""
            LOG.debug("%s was not answered", client_address, exc_info=True)

        def server_bind(self) -> None:
            if self.address_family == socket.AF_INET6:
                self.socket.setsockopt(socket.IPPROTO_IPV6, socket.IPV6_V6ONLY, 0 if not where[0] else 1)
            super().server_bind()

    server = Server(where, told)
    threading.Thread(target=server.serve_forever, daemon=True, name="listen").start()
    return server
