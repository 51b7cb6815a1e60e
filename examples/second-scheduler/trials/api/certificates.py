# SPDX-License-Identifier: Apache-2.0
"""An API server behind TLS, which asks for a certificate too, and behind a proxy: binds and events go where lists and watches go."""
import http.server
import json
import os
import pathlib
import socket
import ssl
import subprocess
import threading
import time
from typing import Optional

from trials.fixtures.site import Site

# The official client that reads the kubeconfig, but with a proxy, as later ones than Debian's find it.
PROXIED = """
from kubernetes import client
made = client.Configuration.__init__
def with_proxy(self, *given, **named):
    made(self, *given, **named)
    self.proxy = {proxy!r}
client.Configuration.__init__ = with_proxy
"""


class Proxy(http.server.BaseHTTPRequestHandler):
    """Makes tunnels, and counts them."""

    tunnels: "list[str]" = []

    def do_CONNECT(self) -> None:  # pylint: disable=invalid-name
        """Hands bytes on, both ways, until one side ends."""
        self.tunnels.append(self.path)
        host, _, port = self.path.rpartition(":")
        there = socket.create_connection((host, int(port)))
        self.send_response(200)
        self.end_headers()
        threading.Thread(target=relay, args=(there, self.connection), daemon=True).start()
        relay(self.connection, there)

    def log_message(self, format: str, *args: object) -> None:  # pylint: disable=redefined-builtin
        """Nothing is logged."""


def relay(one: socket.socket, other: socket.socket) -> None:
    """Hands on what one says."""
    try:
        while some := one.recv(65536):
            other.sendall(some)
        other.shutdown(socket.SHUT_WR)
    except OSError:
        pass


def certificate(folder: pathlib.Path, name: str, whose: str = "IP:127.0.0.1") -> tuple[str, str]:
    """A certificate of its own authority, for 127.0.0.1 or another, and its key."""
    files = [str(folder / f"{name}.{it}") for it in ("crt", "key")]
    how = ["-newkey", "ec", "-pkeyopt", "ec_paramgen_curve:prime256v1", "-nodes", "-days", "2", "-subj", f"/CN={name}"]
    words = ["openssl", "req", "-x509", *how, "-addext", f"subjectAltName={whose}"]
    subprocess.run([*words, "-out", files[0], "-keyout", files[1]], check=True, stderr=subprocess.DEVNULL)
    return files[0], files[1]


def behind_tls(site: Site, *clients: str) -> "dict[str, tuple[str, str]]":
    """Has the stub speak TLS, and ask for a certificate of one of these, where there are any."""
    both = {it: certificate(site.folder, it) for it in ("server", *clients)}
    tls = ssl.SSLContext(ssl.PROTOCOL_TLS_SERVER)
    tls.load_cert_chain(*both["server"])
    for it in clients:
        tls.load_verify_locations(both[it][0])
        tls.verify_mode = ssl.CERT_REQUIRED
    # (each connection's own thread shakes hands, so that none waits for another)
    site.server.listener.socket = tls.wrap_socket(site.server.listener.socket, server_side=True, do_handshake_on_connect=False)
    return both


def config(site: Site, name: str, authority: str, own: "Optional[tuple[str, str]]") -> str:
    """A kubeconfig that believes this authority, and shows this certificate."""
    said = json.loads(site.kubeconfig.read_text(encoding="utf-8"))
    said["clusters"][0]["cluster"] = {"server": f"https://127.0.0.1:{site.server.port}", "certificate-authority": authority}
    said["users"][0]["user"] = {"client-certificate": own[0], "client-key": own[1]} if own else {"token": "token"}
    file = site.folder / f"{name}-kubeconfig"
    file.write_text(json.dumps(said), encoding="utf-8")
    return str(file)


def certificates(site: Site) -> str:
    """TLS with a certificate on both sides: pods are bound and told of. By another authority, or without a certificate, nothing is asked for."""
    both = behind_tls(site, "client")
    site.node("a", cpu="64")
    for i in range(30):
        site.pod(f"pod-{i}")
    bad = {"another": config(site, "another", both["client"][0], both["client"]), "none": config(site, "none", both["server"][0], None)}
    refused = [site.start(config=file, name=name) for name, file in bad.items()]
    time.sleep(6)
    assert not site.server.asked, site.server.asked[:3]
    for it in refused:
        it.end()
        site.schedulers.remove(it)
    site.start(config=config(site, "good", both["server"][0], both["client"]), name="good")
    site.wait(lambda: site.placed() == 30 and len(site.events(reason="Scheduled")) == 30, 30, "all are bound, and told")
    return f"nothing asked without the right certificates; {site.check()}"


def proxied(site: Site) -> str:
    """A proxy of http:// to an API server behind TLS: binds and events go through its tunnels, as lists and watches do."""
    both, proxy = behind_tls(site, "client"), http.server.ThreadingHTTPServer(("127.0.0.1", 0), Proxy)
    threading.Thread(target=proxy.serve_forever, daemon=True).start()
    site.node("a", cpu="64")
    for i in range(30):
        site.pod(f"pod-{i}")
    (site.folder / "sitecustomize.py").write_text(PROXIED.format(proxy=f"http://127.0.0.1:{proxy.server_address[1]}"), encoding="utf-8")
    file = config(site, "proxied", both["server"][0], both["client"])
    site.start(config=file, words=["/usr/bin/env", f"PYTHONPATH={site.folder}", str(site.programs.client / "second_scheduler.py")])
    site.wait(lambda: site.placed() == 30 and len(site.events(reason="Scheduled")) == 30, 30, "all are bound, and told")
    proxy.shutdown()
    assert site.server.taken == len(Proxy.tunnels), (site.server.taken, len(Proxy.tunnels))
    return f"{len(Proxy.tunnels)} tunnels, load {os.getloadavg()[0]:.0f}; {site.check()}"


TRIALS = [certificates, proxied]
