# SPDX-License-Identifier: Apache-2.0
"""The way to the API server: what is known of where it is and who this is, as sockets and bytes.

The official client's own calls cost some 1.3 ms of processor time each, most of it for headers, validation and objects, and its models take
50 MiB; so all requests go by connections of this module's instead.
"""
from __future__ import annotations

import base64
import contextlib
import http.client
import logging
import os
import socket
import ssl
import struct
import threading
import time
import urllib.parse
import urllib.request
from typing import Iterator

from api.account import Account, Settings

LOG = logging.getLogger("second-scheduler")
JSON, PATCH = "application/json", "application/strategic-merge-patch+json"
# For how long connecting may take, in seconds, and after how long a connection whose other end says
# nothing is given up: one that is idle by the system's own probes, one with a request by its
# acknowledgements.
CONNECT, IDLE, PROBE, PROBES, UNHEARD = 5.0, 15, 5, 3, 15_000
# (Linux's number, which the types of some versions lack)
TCP_USER_TIMEOUT = 18
# So a machine that is gone is seen within 30 seconds, also by a watch that has nothing to say.
OPTIONS = [
    (socket.IPPROTO_TCP, socket.TCP_NODELAY, 1),
    (socket.SOL_SOCKET, socket.SO_KEEPALIVE, 1),
    (socket.IPPROTO_TCP, socket.TCP_KEEPIDLE, IDLE),
    (socket.IPPROTO_TCP, socket.TCP_KEEPINTVL, PROBE),
    (socket.IPPROTO_TCP, socket.TCP_KEEPCNT, PROBES),
    (socket.IPPROTO_TCP, TCP_USER_TIMEOUT, UNHEARD),
]
# However such a connection ends here, it is reset: nothing that it hasn't carried yet comes later.
RESET = struct.pack("ii", 1, 0)
# How long after it was read what somebody is known by may be read anew, in seconds, where a request was
# refused by it or it couldn't be read; and how soon where it ends.
AGAIN, SOON = 10.0, 1.0


class NoWay(Exception):
    """Settings that this can't follow."""


class Way:
    """To one API server. Who this is is read anew in time once it is started."""

    def __init__(self, account: Account, settings: Settings) -> None:
        self.account, self.settings = account, settings
        to = urllib.parse.urlsplit(settings.host)
        self.is_tls = to.scheme == "https"
        self.host, self.port, self.path = to.hostname or "", to.port or (443 if self.is_tls else 80), to.path.rstrip("/")
        self.tls = tls_of(settings) if self.is_tls else None
        # (what is authenticated: another name than the one that is called may be)
        other = settings.assert_hostname if isinstance(settings.assert_hostname, str) else ""
        self.name = settings.tls_server_name or other or self.host
        self.proxy = proxy_of(settings, self.host)
        if self.proxy and not self.is_tls:
            raise NoWay(f"requests can't go by the proxy {settings.proxy} to an API server without TLS: NO_PROXY names what goes without")
        self.fields, self.is_refused, self.fault = self.own_fields(settings), threading.Event(), ""

    def start(self) -> None:
        threading.Thread(target=self.keep, daemon=True, name="account").start()

    def refused(self) -> None:
        """The API server doesn't know who this is (401)."""
        self.is_refused.set()

    def keep(self) -> None:
        """Reads who this is when it ends, or was refused, or couldn't be read."""
        while True:
            began, lasts = time.monotonic(), AGAIN if self.fault else self.settings.lasts
            if self.is_refused.wait(None if lasts is None else max(lasts, SOON)):
                time.sleep(max(0.0, began + AGAIN - time.monotonic()))
            try:
                self.take(self.account())
                self.fault = ""
            except Exception as why:  # pylint: disable=broad-except
                # (whatever it is, it is tried again)
                if str(why) != self.fault:
                    LOG.warning("who this is stays as it was read before: %s", why)
                self.fault = str(why) or type(why).__name__
            self.is_refused.clear()

    def take(self, settings: Settings) -> None:
        """Raises OSError or ValueError, and leaves all as it was, where they can't be used."""
        if settings.host != self.settings.host:
            raise ValueError(f"the API server {settings.host} is another than {self.settings.host}")
        if self.settings.says_who and not settings.says_who:
            raise ValueError("nobody says it any more")
        tls = tls_of(settings) if self.is_tls and settings.of_tls != self.settings.of_tls else self.tls
        self.settings, self.tls, self.fields = settings, tls, self.own_fields(settings)

    def has(self, sock: socket.socket) -> bool:
        """Whether a connection is as it would be made now: a certificate is shown at its beginning alone."""
        return getattr(sock, "context", None) is self.tls

    def connect(self, patience: float = CONNECT) -> socket.socket:
        """A connection that blocks no more, once it is there. Raises OSError or http.client.HTTPException."""
        if self.proxy:
            sock = self.through(self.proxy, patience)
        else:
            sock = socket.create_connection((self.host, self.port), patience)
        try:
            for level, what, value in OPTIONS:
                sock.setsockopt(level, what, value)
            sock.setsockopt(socket.SOL_SOCKET, socket.SO_LINGER, RESET)
            if self.tls:
                sock = self.tls.wrap_socket(sock, server_hostname=self.name)
            sock.setblocking(False)
        except BaseException:
            sock.close()
            raise
        return sock

    def through(self, proxy: urllib.parse.SplitResult, patience: float) -> socket.socket:
        """A tunnel of the proxy's (RFC 9110, 9.3.6)."""
        line = http.client.HTTPConnection(proxy.hostname or "", proxy.port or 80, timeout=patience)
        said = self.settings.proxy_headers or {}
        if proxy.username:
            name = f"{urllib.parse.unquote(proxy.username)}:{urllib.parse.unquote(proxy.password or '')}"
            said = {"Proxy-Authorization": f"Basic {base64.b64encode(name.encode()).decode()}", **said}
        line.set_tunnel(self.host, self.port, said)
        line.connect()
        sock: socket.socket = line.sock
        return sock

    def request(self, method: str, path: str, body: bytes, form: str) -> bytes:
        """A request as it is sent."""
        has = f"Content-Type: {form}\r\nContent-Length: {len(body)}\r\n" if body else ""
        return f"{method} {self.path}{path} HTTP/1.1\r\n{has}".encode("latin-1") + self.fields + body

    def own_fields(self, settings: Settings) -> bytes:
        """What each request says alike, with the end of its head. Raises ValueError for what no field can say."""
        host = f"[{self.host}]" if ":" in self.host else self.host
        fields = {"Host": f"{host}:{self.port}", "User-Agent": "second-scheduler", "Accept": JSON, **settings.headers}
        if any(it in f"{key}{value}" for key, value in fields.items() for it in "\r\n\0"):
            raise ValueError("a token of several lines")
        return "".join(f"{key}: {value}\r\n" for key, value in fields.items()).encode("latin-1") + b"\r\n"


def way_by(account: Account) -> Way:
    """Raises NoAccount, or NoWay where what it says can't be followed."""
    settings = account()
    try:
        return Way(account, settings)
    except (NoWay, OSError, ValueError) as why:
        raise NoWay(f"no way to the API server {settings.host}: {why}") from why


@contextlib.contextmanager
def filed(text: str) -> Iterator[str]:
    """A file of this text for those that read files alone: no folder has it, so it goes with this process at the latest."""
    handle = os.memfd_create("filed")
    try:
        os.write(handle, text.encode("latin-1"))
        yield f"/proc/self/fd/{handle}"
    finally:
        os.close(handle)


def tls_of(settings: Settings) -> ssl.SSLContext:
    tls = ssl.SSLContext(ssl.PROTOCOL_TLS_CLIENT)
    tls.minimum_version = ssl.TLSVersion.TLSv1_2
    if settings.assert_hostname is False:
        tls.check_hostname = False
    if not settings.is_verified:
        tls.check_hostname, tls.verify_mode = False, ssl.CERT_NONE
    elif settings.authority:
        with filed(settings.authority) as authority:
            tls.load_verify_locations(authority)
    else:
        tls.load_default_certs()
    if settings.certificate:
        with filed(settings.certificate) as certificate, filed(settings.key or settings.certificate) as key:
            tls.load_cert_chain(certificate, key)
    return tls


def proxy_of(settings: Settings, host: str) -> urllib.parse.SplitResult | None:
    """The proxy that the official client's calls would take, if any."""
    if not settings.proxy:
        return None
    without = settings.no_proxy
    if without and urllib.request.proxy_bypass_environment(host, {"no": without}):  # type: ignore[attr-defined]
        return None
    proxy = urllib.parse.urlsplit(str(settings.proxy))
    if proxy.scheme != "http":
        raise NoWay(f"requests can't go by the proxy {settings.proxy}: only by one of http://")
    return proxy


def answer_in(read: bytes) -> tuple[int, bytes, bool] | None:
    """The first answer in what was read (RFC 9112), or None where it isn't whole: its status and body, and whether the connection stays.
    Raises ValueError for what is none."""
    head, end, rest = read.partition(b"\r\n\r\n")
    if not end:
        return None
    first, *lines = head.lower().split(b"\r\n")
    version, _, status = first.partition(b" ")
    if not version.startswith(b"http/1."):
        raise ValueError(f"no answer of HTTP/1: {first[:40]!r}")
    number = int(status[:3])
    if number < 200:
        return answer_in(rest)
    fields = {name: value for name, _, value in [it.partition(b":") for it in lines]}
    stays = fields.get(b"connection", b"keep-alive" if version == b"http/1.1" else b"close").strip() != b"close"
    if number in (204, 304):
        return number, b"", stays
    if fields.get(b"transfer-encoding", b"").strip() == b"chunked":
        body = chunks_in(rest)
        return None if body is None else (number, body, stays)
    size = int(fields[b"content-length"]) if b"content-length" in fields else None
    if size is None:
        raise ValueError("an answer that doesn't say where it ends")
    return (number, rest[:size], stays) if len(rest) >= size else None


def chunks_in(rest: bytes) -> bytes | None:
    """A body in chunks (RFC 9112, 7.1), or None where the last isn't there yet."""
    found: list[bytes] = []
    while True:
        size, end, rest = rest.partition(b"\r\n")
        if not end:
            return None
        length = int(size.partition(b";")[0], 16)
        if length == 0:
            # (fields may follow, and an empty line ends it)
            return b"".join(found) if rest.startswith(b"\r\n") or b"\r\n\r\n" in rest else None
        if len(rest) < length + 2:
            return None
        found.append(rest[:length])
        rest = rest[length + 2 :]
