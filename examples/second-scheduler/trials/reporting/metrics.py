# SPDX-License-Identifier: Apache-2.0
"""Metrics and health, by a scrape."""
import os
import signal
import socket
import ssl
import time
import urllib.error
import urllib.request
from typing import Any

from prometheus_client.parser import text_string_to_metric_families

from trials.api.certificates import certificate
from trials.fixtures.site import Site, whom
from trials.running.start import ends

Found = dict[tuple[str, tuple[tuple[str, str], ...]], float]


def got(site: Site, path: str) -> tuple[int, str]:
    """The status and the text of an answer; 0 where there is none."""
    try:
        with urllib.request.urlopen(f"http://127.0.0.1:{site.listens}{path}", timeout=10) as answer:
            return answer.status, answer.read().decode()
    except urllib.error.HTTPError as why:
        return why.code, why.read().decode()
    except OSError:
        return 0, ""


def scraped(site: Site) -> Found:
    """Each sample by its name and labels."""
    status, text = got(site, "/metrics")
    assert status == 200, f"/metrics is answered with {status}"
    families: Any = text_string_to_metric_families(text)  # type: ignore[no-untyped-call]
    return {(it.name, tuple(sorted(it.labels.items()))): it.value for family in families for it in family.samples}


def value(found: Found, name: str, **labels: str) -> float:
    """The sum of a metric over all samples that have these labels."""
    some = [number for (called, has), number in found.items() if called == name and labels.items() <= dict(has).items()]
    assert some, f"no metric {name} {labels}"
    return sum(some)


def metrics(site: Site) -> str:
    """A scrape tells what was done: attempts by result, pods that wait by queue, binds and how long they took, nodes, places, left out."""
    site.node("a", cpu="1")
    site.node("b", cpu="1", labels={"pool": "b"})
    site.pod("elsewhere", cpu="500m", on="a", scheduler="default-scheduler")
    for i in range(5):
        site.pod(f"fits-{i}", cpu="100m")
    for i in range(3):
        site.pod(f"big-{i}", cpu="2")
    for i in range(2):
        site.pod(f"alone-{i}", spec={"nodeSelector": {"pool": "b"}})
    site.start(*site.listening())
    site.wait(lambda: site.placed() == 6 and len({whom(it)["name"] for it in site.events(reason="FailedScheduling")}) >= 3, 30, "five are bound, three told")

    def told() -> bool:
        found = scraped(site)
        return value(found, "scheduler_binding_duration_seconds_count") == 5 and value(found, "wsched_places", state="bound") == 6

    site.wait(told, 40, "five binds are counted, and six places")
    found = scraped(site)
    assert value(found, "scheduler_schedule_attempts_total", result="scheduled") == 5, found
    assert value(found, "scheduler_schedule_attempts_total", result="unschedulable") >= 3, found
    assert value(found, "scheduler_pending_pods") == 3, found
    assert value(found, "scheduler_e2e_scheduling_duration_seconds_count", result="scheduled") == 5, found
    assert value(found, "wsched_nodes") == 2 and value(found, "wsched_binds_under_way") == 0, found
    assert value(found, "wsched_left_out", kind="pod") == 2 and value(found, "wsched_refused_for_room_total") == 0, found
    for queue in ("active", "backoff", "unschedulable"):
        value(found, "scheduler_pending_pods", queue=queue)
    return f"{len(found)} samples; {site.check()}"


def health(site: Site) -> str:
    """/healthz and /livez are 200, /readyz is 503 until all is listed and 200 then, also of a follower; no answer once wsched has hung."""
    site.node("a")
    site.server.refuse = lambda asked: (500, "not yet") if asked.verb == "list" else None
    it = site.start("--lease", "kube-system/wsched", *site.listening())
    site.wait(lambda: got(site, "/healthz")[0] == 200, 20, "/healthz is answered with 200")
    site.wait(lambda: site.server.count("list", "pods") >= 2, 20, "it leads, and tries to list")
    statuses = {path: got(site, path)[0] for path in ("/livez", "/readyz", "/healthz", "/nothing")}
    assert statuses == {"/livez": 200, "/readyz": 503, "/healthz": 200, "/nothing": 404}, f"before all is listed: {statuses}"
    site.server.refuse = lambda asked: None
    site.wait(lambda: got(site, "/readyz")[0] == 200, 20, "/readyz is 200 once all is listed")
    leading = site.listens
    follower = site.start("--lease", "kube-system/wsched", *site.listening(), name="follower")
    site.wait(lambda: got(site, "/readyz")[0] == 200, 20, "/readyz of a follower is 200")
    assert value(scraped(site), "wsched_leader") == 0
    follower.end()
    site.schedulers.remove(follower)
    site.listens = leading
    assert value(scraped(site), "wsched_leader") == 1
    core, began = it.wsched(), time.monotonic()
    os.kill(core, signal.SIGSTOP)
    seen = {200}
    while it.runs() and time.monotonic() < began + 25:
        seen.add(got(site, "/healthz")[0])
        time.sleep(0.1)
    assert not it.runs(), "it still runs 25 s after its wsched was stopped"
    assert seen <= {0, 200, 503}, seen
    return f"before the lists {statuses}; it ended {time.monotonic() - began:.1f} s after wsched was stopped, and answered {sorted(seen)} till then"


def asked_by_tls(site: Site, cert: str, path: str, token: str = "") -> tuple[int, str]:
    """The same by TLS, with this certificate alone to be trusted."""
    trusting = ssl.create_default_context(cafile=cert)
    request = urllib.request.Request(f"https://127.0.0.1:{site.listens}{path}", headers={"Authorization": f"Bearer {token}"} if token else {})
    try:
        with urllib.request.urlopen(request, timeout=10, context=trusting) as answer:
            return answer.status, answer.read().decode()
    except urllib.error.HTTPError as why:
        return why.code, why.read().decode()
    except OSError:
        return 0, ""


def tls(site: Site) -> str:
    """--tls-cert, --tls-key and --token-file: probes are answered by TLS to all, /metrics to those that bear the token alone; one that says nothing keeps
    nobody waiting, and a certificate and a token that are renewed are those that count from then on. Files that are none are told at the start."""
    site.node("a")
    (cert, key), token = certificate(site.folder, "listen"), site.folder / "token"
    token.write_text("secret\n", encoding="utf-8")
    words = ["--tls-cert", cert, "--tls-key", key, "--token-file", str(token)]
    it = site.start(*site.listening(), *words)
    site.wait(lambda: asked_by_tls(site, cert, "/readyz")[0] == 200, 30, "it is ready, by TLS")
    silent = socket.create_connection(("127.0.0.1", site.listens))
    statuses = [asked_by_tls(site, cert, "/metrics", bears)[0] for bears in ("", "other", "secret")]
    assert statuses == [401, 401, 200], statuses
    assert got(site, "/livez")[0] == 0, "it is answered without TLS"
    token.write_text("new", encoding="utf-8")
    assert [asked_by_tls(site, cert, "/metrics", bears)[0] for bears in ("secret", "new")] == [401, 200]
    other = certificate(site.folder, "renewed")
    for old, new in zip((cert, key), other):
        os.replace(new, old)
    site.wait(lambda: asked_by_tls(site, cert, "/livez")[0] == 200, 10, "it has the certificate that was renewed")
    silent.close()
    assert it.runs() and "Traceback" not in it.log()
    it.end()
    site.schedulers.remove(it)
    bad = {"no-cert": ["--tls-cert", str(token)], "no-token": ["--token-file", "/no"]}
    told = [ends(site.start(*site.listening(), *some, name=name), 15, "--listen") for name, some in bad.items()]
    return f"/metrics without a token, with another, with it: {statuses}; files that are none: statuses {told}"


TRIALS = [metrics, health, tls]
