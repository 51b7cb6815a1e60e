# SPDX-License-Identifier: Apache-2.0
"""Who the client is, while it runs: tokens and certificates that are renewed, refused or can't be had, and what is left of a key on the disk."""
import base64
import itertools
import json
import os
import pathlib
import sys
import time
from typing import Optional

from trials.api.certificates import behind_tls, config
from trials.fixtures.server import Asked
from trials.fixtures.site import Scheduler, Site, alive, wait_for
from trials.running.start import ends

# How a client is started in what it takes for a pod, whose account stands in a folder, and is read so often.
IN_A_POD = """
import os, pathlib, sys
sys.path.insert(0, {folder!r})
at = sys.argv.index("--kubeconfig")
sys.argv = sys.argv[1:at] + sys.argv[at + 2:]
os.environ |= {{"KUBERNETES_SERVICE_HOST": "127.0.0.1", "KUBERNETES_SERVICE_PORT": "{port}"}}
from api import account
account.FILES, account.EACH = pathlib.Path({account!r}), {each}
import second_scheduler
second_scheduler.main()
"""
# How one is started that waits for 2 s for a plugin.
IMPATIENT = """
import sys
sys.path.insert(0, {folder!r})
sys.argv = sys.argv[1:]
from api import account
account.PATIENCE = 2.0
import second_scheduler
second_scheduler.main()
"""
# A plugin that tells the token which stands in a file, or fails where none does, and notes when it was asked.
PLUGIN = """#!/bin/sh
date +%s.%N >> "{folder}/runs"
token=$(cat "{folder}/token") || exit 1
echo '{{"kind":"ExecCredential","apiVersion":"client.authentication.k8s.io/v1beta1","status":{{"token":"'$token'"}}}}'
"""


class Wanted:
    """The server answers those alone that bear one of these tokens, or show the certificate of one of these names."""

    def __init__(self, site: Site, *names: str) -> None:
        self.names, site.server.refuse = {*names}, self

    def __call__(self, asked: Asked) -> "Optional[tuple[int, str]]":
        is_known = (asked.shown or asked.bearer.removeprefix("Bearer ")) in self.names
        return None if is_known else (401, "Unauthorized")


def put(file: pathlib.Path, text: str) -> None:
    """Another file takes its place at once, as a kubelet does it."""
    new = file.with_name(f".{file.name}")
    new.write_text(text, encoding="utf-8")
    new.replace(file)


def plugged(site: Site, code: str) -> str:
    """A kubeconfig with this plugin."""
    program, file = site.folder / "plugin", site.folder / "plugged"
    program.write_text(code, encoding="utf-8")
    program.chmod(0o755)
    said = json.loads(site.kubeconfig.read_text(encoding="utf-8"))
    said["users"][0]["user"] = {"exec": {"apiVersion": "client.authentication.k8s.io/v1beta1", "command": str(program)}}
    file.write_text(json.dumps(said), encoding="utf-8")
    return str(file)


def bound(site: Site, name: str, patience: float = 20) -> float:
    """A pod is made, bound and told of."""
    site.pod(name)
    return site.wait(lambda: site.place(name) and site.events(about=name), patience, f"{name} is bound, and told")


def token_refused(site: Site) -> str:
    """A token without an end is refused with 401: the plugin is asked at once, and then each 10 s at most. While it fails the old token is borne on; with
    another all goes on in the same process, and nothing is listed."""
    site.node("a", cpu="64")
    put(site.folder / "token", "one")
    wanted = Wanted(site, "one")
    it = site.start(config=plugged(site, PLUGIN.format(folder=site.folder)))
    bound(site, "first")
    began, wanted.names = time.monotonic(), {"two"}
    (site.folder / "token").unlink()
    site.server.break_watches("reset")
    site.pod("second")
    runs = site.folder / "runs"
    site.wait(lambda: len(runs.read_text(encoding="utf-8").split()) >= 3, 40, "the plugin is asked twice more")
    put(site.folder / "token", "two")
    took = site.wait(lambda: site.place("second") and len(site.server.watches) >= 2, 40, "all goes on by the new token")
    when = [*map(float, runs.read_text(encoding="utf-8").split())]
    gaps = [b - a for a, b in zip(when[1:], when[2:])]
    assert min(gaps) >= 9.9, f"the plugin was asked again after {min(gaps):.1f} s"
    bearers = {asked.bearer for asked in site.server.asked if asked.when > began}
    assert bearers == {"Bearer one", "Bearer two"}, bearers
    assert sum(site.server.count("list", what) for what in ("nodes", "pods")) == 2 and "stays as it was read before" in it.log(), it.log()[-500:]
    return f"asked after {', '.join(f'{gap:.1f}' for gap in gaps)} s, and bound {took:.1f} s after there was a token; {site.check()}"


def kubeconfig_changed(site: Site) -> str:
    """A kubeconfig is written anew, with another token, and with another context as the current one: the token of the first context is borne once the old
    one was refused. One that names another API server is not followed."""
    site.node("a", cpu="64")
    wanted, said = Wanted(site, "token"), json.loads(site.kubeconfig.read_text(encoding="utf-8"))
    it = site.start()
    bound(site, "first")
    said["users"] += [{"name": "other", "user": {"token": "other"}}]
    said["clusters"] += [{"name": "other", "cluster": {"server": "http://127.0.0.1:1"}}]
    said["contexts"] += [{"name": "other", "context": {"cluster": "other", "user": "other"}}]
    said |= {"current-context": "other"}
    said["users"][0]["user"] = {"token": "two"}
    wanted.names = {"two"}
    put(site.kubeconfig, json.dumps(said))
    took = bound(site, "second", 40)
    wanted.names = {"three"}
    said["clusters"][0]["cluster"] = {"server": "http://127.0.0.1:1"}
    said["users"][0]["user"] = {"token": "three"}
    put(site.kubeconfig, json.dumps(said))
    site.pod("third")
    site.wait(lambda: "is another than" in it.log(), 40, "the log says that it names another")
    assert not [asked for asked in site.server.asked if asked.bearer not in ("Bearer token", "Bearer two")] and not site.place("third")
    return f"bound {took:.1f} s after the change; {site.check()}"


def in_a_pod(site: Site, name: str, each: float) -> Scheduler:
    """One that runs in a pod, as it takes it."""
    code = IN_A_POD.format(folder=str(site.programs.client), port=site.server.port, account=str(site.folder), each=each)
    return site.start(name=name, words=[sys.executable, "-c", code, "second_scheduler.py"])


def token_file(site: Site) -> str:
    """In a pod, whose token's file is renewed: the new token is borne once the file is read again, though the old one would do; and where that is refused
    before, if only of an event, it is read within 10 s. Without its files it ends with a line that names them."""
    put(site.folder / "token", "one\n")
    ends(in_a_pod(site, "without", 60), 10, "ca.crt")
    site.schedulers.clear()
    put(site.folder / "ca.crt", pathlib.Path(behind_tls(site)["server"][0]).read_text(encoding="utf-8"))
    site.node("a", cpu="64")
    wanted, names = Wanted(site, "one", "two"), itertools.count()
    it = in_a_pod(site, "often", 1.0)
    bound(site, "before")
    assert {asked.bearer for asked in site.server.asked} == {"Bearer one"}
    put(site.folder / "token", "two\n")

    def is_borne() -> bool:
        bound(site, f"pod-{next(names)}")
        return site.server.asked[-1].bearer == "Bearer two"

    wait_for(is_borne, 10, "the new token is borne")
    assert not [asked for asked in site.server.asked if asked.status == 401]
    it.end()
    site.schedulers.remove(it)
    in_a_pod(site, "seldom", 60)
    bound(site, "after")
    put(site.folder / "token", "three\n")
    wanted.names = {"three"}
    # (binds have a thread of their own, and so have events: these are refused alone)
    site.server.refuse = lambda asked: wanted(asked) if asked.what == "events" else None
    refused = time.monotonic()

    def is_told() -> bool:
        name = f"pod-{next(names)}"
        site.pod(name)
        site.wait(lambda: site.place(name), 20, "it is bound")
        time.sleep(0.5)
        return bool(site.events(about=name))

    wait_for(is_told, 20, "events are told by the new token")
    return f"borne by each request, and {time.monotonic() - refused:.1f} s after it was refused; {site.check()}"


def certificate_renewed(site: Site) -> str:
    """A kubeconfig's certificate, as data, is another by now, and the old one is refused with 401: each connection from then on shows the new one, whose
    names are those in it. No file is left of its keys, nor of those before."""
    both, kept = behind_tls(site, "first", "second"), site.folder / "tmp"
    kept.mkdir()
    file = pathlib.Path(config(site, "data", both["server"][0], both["first"]))

    def shows(name: str) -> str:
        said = json.loads(file.read_text(encoding="utf-8"))
        certificate, key = (base64.b64encode(pathlib.Path(it).read_bytes()).decode() for it in both[name])
        said["users"][0]["user"] = {"client-certificate-data": certificate, "client-key-data": key}
        said["clusters"][0]["cluster"] |= {"certificate-authority-data": base64.b64encode(pathlib.Path(both["server"][0]).read_bytes()).decode()}
        return json.dumps(said)

    put(file, shows("first"))
    site.node("a", cpu="64")
    wanted = Wanted(site, "first")
    it = site.start(config=str(file), words=["/usr/bin/env", f"TMPDIR={kept}", str(site.programs.client / "second_scheduler.py")])
    for i in range(8):
        bound(site, f"before-{i}")
    held = [os.readlink(link) for link in pathlib.Path(f"/proc/{it.pid}/fd").iterdir()]
    assert not [*kept.iterdir()] and not [name for name in held if "memfd" in name or str(kept) in name], (held, [*kept.iterdir()])
    put(file, shows("second"))
    wanted.names = {"second"}
    site.server.break_watches("reset")
    took = bound(site, "after", 40)
    since = time.monotonic()
    for i in range(8):
        bound(site, f"after-{i}")
    names = {asked.shown for asked in site.server.asked if asked.when > since}
    assert names == {"second"} and not [*kept.iterdir()], (names, [*kept.iterdir()])
    return f"bound {took:.1f} s after the change, no file left; {site.check()}"


def plugin_hangs(site: Site) -> str:
    """A plugin that says nothing is waited for in vain: it is ended, and so is the client, with a line that names the kubeconfig."""
    file = plugged(site, f'#!/bin/sh\necho $$ > "{site.folder}/pid"\nexec sleep 300\n')
    code = IMPATIENT.format(folder=str(site.programs.client))
    status = ends(site.start(config=file, words=[sys.executable, "-c", code, "second_scheduler.py"]), 15, file, "nothing was said within 2 s")
    pid = int((site.folder / "pid").read_text(encoding="utf-8"))
    wait_for(lambda: not alive(pid), 2, "the plugin has ended")
    return f"status {status}, and no plugin left"


TRIALS = [token_refused, kubeconfig_changed, token_file, certificate_renewed, plugin_hangs]
