# SPDX-License-Identifier: Apache-2.0
"""What a trial of the extender has: the extender beside a stub of an API server or a real one, a
caller that asks as kube-scheduler does, and the shipped rules keep_region and prefer_zone written
down once more, by which answers are judged."""
import http.client
import json
import os
import pathlib
import signal
import socket
import ssl
from typing import Any, Mapping, Optional, Sequence

from trials.fixtures.site import REGION, TOP, Scheduler, Site, children, command, wait_for
from trials.fixtures.store import Thing

EXTENDER = TOP / "examples/extender"
PLUGINS = TOP / "examples/plugins"
ZONE, EUROPE = "topology.kubernetes.io/zone", "eu-central-1"
KEEP, PREFER, SPARE = (
    f"{it}:1:100000:{PLUGINS}/{it}.wasm" for it in ("keep_region", "prefer_zone", "spare_memory")
)
PERSONAL = {"data-class": "personal"}
REASON = (
    "node(s) were rejected by keep_region for good (pods labelled data-class=personal run in the "
    "region eu-central-1 alone)"
)
UNKNOWN = "node(s) weren't known to wsched"


def free_port() -> int:
    """A port that is free just now."""
    with socket.socket() as it:
        it.bind(("127.0.0.1", 0))
        port: int = it.getsockname()[1]
        return port


def with_record(folder: pathlib.Path, wsched: str) -> str:
    """A program that stands before wsched, and writes what `run` is told to the file `told`."""
    program, told = folder / "tee", folder / "told"
    told.write_text("", encoding="utf-8")
    tee = f'exec {wsched} "$@" < <(exec tee -a {told})'
    text = f'#!/bin/bash\nif [ "$1" = run ]; then {tee}; fi\nexec {wsched} "$@"\n'
    program.write_text(text, encoding="utf-8")
    program.chmod(0o755)
    return str(program)


class Caller:
    """Asks one extender, by a connection that it keeps."""

    def __init__(
        self, port: int, authority: Optional[str] = None, own: "Optional[tuple[str, str]]" = None
    ) -> None:
        """By TLS where an authority is named, with a certificate of its own where it has one."""
        self.port, self.authority, self.own = port, authority, own
        self.line: Optional[http.client.HTTPConnection] = None
        self.headers: Mapping[str, str] = {}

    def connect(self) -> http.client.HTTPConnection:
        """The connection."""
        if self.line is None:
            if self.authority:
                tls = ssl.create_default_context(cafile=self.authority)
                if self.own:
                    tls.load_cert_chain(*self.own)
                self.line = http.client.HTTPSConnection(
                    "127.0.0.1", self.port, timeout=60, context=tls
                )
            else:
                self.line = http.client.HTTPConnection("127.0.0.1", self.port, timeout=60)
        return self.line

    def close(self) -> None:
        """The next request goes by a new one."""
        if self.line:
            self.line.close()
        self.line = None

    def send(self, method: str, path: str, body: Any = None, **headers: str) -> tuple[int, str]:
        """A status, and a body as it is."""
        line = self.connect()
        try:
            line.request(method, path, body, headers)
            answer = line.getresponse()
            said = answer.read()
        except (OSError, http.client.HTTPException):
            self.close()
            raise
        self.headers = {name.lower(): value for name, value in answer.getheaders()}
        return answer.status, said.decode()

    def get(self, path: str) -> tuple[int, str]:
        """A status, 0 where nobody answers, and a body."""
        try:
            return self.send("GET", path)
        except (OSError, http.client.HTTPException):
            return 0, ""

    def ask(
        self, verb: str, one: Thing, names: Sequence[str], nodes: Optional[Sequence[Thing]] = None
    ) -> tuple[int, Any]:
        """A question as kube-scheduler spells it; with whole nodes where they are given."""
        asked = {
            "Pod": one,
            "Nodes": None if nodes is None else {"metadata": {}, "items": nodes},
            "NodeNames": names if nodes is None else None,
        }
        body = json.dumps(asked, separators=(",", ":"))
        status, said = self.send("POST", f"/{verb}", body, **{"Content-Type": "application/json"})
        return status, json.loads(said)

    def metrics(self) -> dict[str, float]:
        """Each sample by its name and labels."""
        status, said = self.get("/metrics")
        assert status == 200, f"/metrics answers {status}"
        return {
            line.rpartition(" ")[0]: float(line.rpartition(" ")[2])
            for line in said.splitlines()
            if not line.startswith("#")
        }


class Running:
    """An extender that runs, and who asks it."""

    def __init__(
        self,
        site: Site,
        *words: str,
        name: str = "extender",
        authority: Optional[str] = None,
        **other: Optional[str],
    ) -> None:
        self.site, self.port = site, free_port()
        program = other.get("program") or str(EXTENDER / "extender.py")
        own = ["--listen", f"127.0.0.1:{self.port}", *words]
        self.it: Scheduler = site.start(
            *own, name=name, words=[program], wsched=other.get("wsched"), config=other.get("config")
        )
        self.caller = Caller(self.port, authority)

    def ready(self, patience: float = 30) -> "Running":
        """Waits until it is."""
        self.site.wait(lambda: self.caller.get("/readyz")[0] == 200, patience, "it is ready")
        return self

    def cores(self) -> list[int]:
        """The processes of its wsched run."""
        found = [pid for pid in children(self.it.pid) if "run" in command(pid)]
        self.it.known |= set(found)
        return found

    def kill_core(self, how: int = signal.SIGKILL) -> None:
        """Ends a wsched run, or stops it."""
        os.kill(self.cores()[-1], how)

    def filter(self, one: Thing, names: Sequence[str]) -> Thing:
        """A good answer to a filter."""
        status, said = self.caller.ask("filter", one, names)
        assert status == 200 and isinstance(said, dict), f"{status} {said}"
        return said

    def passes(self, one: Thing, names: Sequence[str]) -> bool:
        """Whether all of these nodes pass."""
        return self.filter(one, names).get("NodeNames") == names

    def error(self, one: Thing, names: Sequence[str]) -> str:
        """The `Error` of a filter's answer, as kube-scheduler tells it; empty where there is none.
        """
        error = str(self.filter(one, names).get("Error", ""))
        assert "%" not in error.replace("%%", ""), f"a format's percent sign in {error}"
        return error.replace("%%", "%")

    def scores(self, one: Thing, names: Sequence[str]) -> dict[str, int]:
        """A good answer to a prioritize."""
        status, said = self.caller.ask("prioritize", one, names)
        assert status == 200 and isinstance(said, list), f"{status} {said}"
        found = {it["Host"]: it["Score"] for it in said}
        assert len(found) == len(said) and sorted(found) == sorted(
            {*names}
        ), "other hosts than were asked about"
        return found

    def wait_for_passing(self, one: Thing, names: Sequence[str], wants: "set[str]") -> None:
        """Waits until these pass of those that are named."""
        wait_for(lambda: {*self.filter(one, names)["NodeNames"]} == wants, 5, f"{wants} pass")

    def wait_for_places(self, count: float) -> None:
        """Waits until it knows of so many pods on nodes."""
        places = 'wsched_places{state="bound"}'
        wait_for(lambda: self.caller.metrics()[places] == count, 5, f"{count:.0f} are known")

    def begun_anew(self) -> float:
        """How often a wsched was."""
        return self.caller.metrics()["wsched_extender_begun_anew_total"]


def pod(name: str, labels: Optional[Thing] = None, **spec: Any) -> Thing:
    """A pod as kube-scheduler hands it over."""
    container = {
        "name": "c",
        "image": "x",
        "resources": {"requests": {"cpu": "100m", "memory": "64Mi"}},
    }
    meta = {
        "name": name,
        "namespace": "default",
        "uid": f"uid-of-{name}",
        "resourceVersion": "7",
        "creationTimestamp": "2026-11-01T00:00:00Z",
        "labels": labels or {},
    }
    return {
        "metadata": meta,
        "spec": {"containers": [container], "schedulerName": "default-scheduler", **spec},
        "status": {"phase": "Pending"},
    }


# The rules once more.


def passes(one: Thing, node: Thing) -> bool:
    """keep_region."""
    return bool(
        one["metadata"]["labels"].get("data-class") != "personal"
        or node["labels"].get(REGION) == EUROPE
    )


def score(one: Thing, node: Thing, used: int) -> int:
    """prefer_zone, of a node with so many pods."""
    wish = one["metadata"]["labels"].get("wished-zone")
    there = wish is not None and wish == node["labels"].get(ZONE)
    room = int(node["pods"])
    return (50 if there else 0) + 50 * (room - used - 1) // room


def check(
    running: Running,
    one: Thing,
    nodes: Mapping[str, Thing],
    used: Mapping[str, int],
    names: Sequence[str],
) -> None:
    """Both verbs answer as the rules do. `nodes` have labels and room for pods, and `used` how
    many pods there are."""
    said = running.filter(one, names)
    assert not said.get("Error"), said["Error"]
    may = [it for it in names if passes(one, nodes[it])]
    assert sorted(said["NodeNames"]) == sorted(may), f"{one['metadata']}: other nodes pass than may"
    assert (
        said["FailedNodes"]
        == said["FailedAndUnresolvableNodes"]
        == {it: REASON for it in names if it not in may}
    ), said
    wanted = {it: score(one, nodes[it], used.get(it, 0)) * 10 // 100 for it in may}
    assert running.scores(one, may) == wanted, f"{one['metadata']}: other scores"
