# SPDX-License-Identifier: Apache-2.0
"""Where the API server is, and who this is: by the account of the pod that this runs in, or by a kubeconfig.

Both are read anew while this runs, since tokens and certificates end.
"""
from __future__ import annotations

import contextlib
import json
import os
import pathlib
import signal
import subprocess
import sys
import time
from typing import Any, Callable, NamedTuple

# The files of a pod's account, and how often they are read, in seconds.
FILES, EACH = pathlib.Path("/var/run/secrets/kubernetes.io/serviceaccount"), 60.0
# How long before its end a token is renewed, in seconds, but not before half of its time; for how long
# whoever makes one is waited for, and then for its end.
BEFORE, PATIENCE, END = 300.0, 60.0, 2.0


class NoAccount(Exception):
    """Nobody says where the API server is, or who this is, and why."""


class Settings(NamedTuple):
    """`authority`, `certificate` and `key` are PEM, each byte a character; `lasts` is after how many seconds all is to be read anew, if ever."""

    host: str
    is_verified: bool = True
    authority: str | None = None
    certificate: str | None = None
    key: str | None = None
    assert_hostname: bool | str | None = None
    tls_server_name: str | None = None
    proxy: str | None = None
    no_proxy: str | None = None
    proxy_headers: dict[str, str] | None = None
    headers: dict[str, str] = {}
    lasts: float | None = None

    @property
    def of_tls(self) -> tuple[object, ...]:
        return self.is_verified, self.authority, self.certificate, self.key, self.assert_hostname

    @property
    def says_who(self) -> bool:
        return bool(self.headers or self.certificate)


# Whoever says it: raises NoAccount.
Account = Callable[[], Settings]


def of_pod() -> Settings:
    """By the pod's environment and files, as the official client reads them."""
    host, port = (os.environ.get(f"KUBERNETES_SERVICE_{it}") or "" for it in ("HOST", "PORT"))
    try:
        token, authority = ((FILES / it).read_text(encoding="latin-1") for it in ("token", "ca.crt"))
    except OSError as why:
        raise NoAccount(f"no way to the API server by the account of this pod: {why}") from why
    if not (port and token.strip() and authority):
        raise NoAccount("no way to the API server by the account of this pod: its port, token or ca.crt says nothing")
    where = f"https://[{host}]:{port}" if ":" in host else f"https://{host}:{port}"
    return Settings(where, authority=authority, headers={"authorization": f"Bearer {token.strip()}"}, lasts=EACH)


class OfKubeconfig:
    """By a kubeconfig, which `official` reads."""

    def __init__(self, file: str | None) -> None:
        self.file, self.context = file, ""
        self.where = file or os.environ.get("KUBECONFIG") or "the usual kubeconfig, ~/.kube/config"

    def __call__(self) -> Settings:
        said = self.said()
        if "wrong" in said:
            raise NoAccount(f"no way to the API server by {self.where}: {said['wrong']}")
        # (whoever makes another context the current one doesn't mean this process)
        self.context, expires = said.pop("context"), said.pop("expires")
        return Settings(**said, lasts=lasts(expires))

    def said(self) -> dict[str, Any]:
        words = [sys.executable, "-P", str(pathlib.Path(__file__).with_name("official.py")), self.file or "", self.context]
        # (what a terminal sends to all that belongs to this process isn't meant for it)
        child = subprocess.Popen(words, stdout=subprocess.PIPE, start_new_session=True)
        try:
            told = child.communicate(timeout=PATIENCE)[0]
            return dict(json.loads(told))
        except subprocess.TimeoutExpired as late:
            raise NoAccount(f"no way to the API server by {self.where}: nothing was said within {PATIENCE:.0f} s") from late
        except ValueError as why:
            raise NoAccount(f"no way to the API server by {self.where}: the official client ended with status {child.returncode}") from why
        finally:
            end(child)


def end(child: subprocess.Popen[bytes]) -> None:
    """Ends what reads a kubeconfig, and the plugin that it has started, where they haven't ended."""
    for how in (signal.SIGTERM, signal.SIGKILL):
        if child.returncode is None:
            with contextlib.suppress(subprocess.TimeoutExpired, ProcessLookupError):
                os.killpg(child.pid, how)
                child.wait(END)


def lasts(expires: float | None) -> float | None:
    """For how long what ends at this time of the day is taken."""
    left = 0.0 if expires is None else expires - time.time()
    return max(left / 2, left - BEFORE) if left > 0 else None


def account_by(kubeconfig: str | None) -> Account:
    if not kubeconfig and os.environ.get("KUBERNETES_SERVICE_HOST"):
        return of_pod
    return OfKubeconfig(kubeconfig)
