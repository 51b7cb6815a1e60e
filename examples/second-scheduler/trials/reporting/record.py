# SPDX-License-Identifier: Apache-2.0
"""The record: what wsched was told, from which `wsched live` gives every answer that it gave, however the process ended."""
import gzip
import json
import os
import pathlib
import re
import resource
import shutil
import signal
import subprocess
import time

from trials.accounting.audit import relayed
from trials.fixtures.site import REGION, RULE, TOP, Site
from trials.reporting.metrics import scraped, value

PLACE = re.compile(r"(\S+) on (\S+) total \d+ ticket \d+")
DATA = re.compile(r'<script id="data" type="application/json">(.*?)</script>\s*<script>(.*?)^class Run ', re.S | re.M)
# What examples/report/report.html makes of a run, with each dump of which it says otherwise, and
# how much it has at the end.
DRAWN = """
const { script, output } = JSON.parse(require("fs").readFileSync(0, "utf8")).runs[0], state = new State();
let dumps = 0;
for (const step of paired(script, output)) {
  state.step(step);
  dumps += step.dumped.length > 0;
  const other = contradicted(state, step.dumped);
  if (other) throw new Error(`line ${step.number}: ${other}`);
}
console.log(dumps, state.bound + state.assumed);
"""


def churn(site: Site, turns: int) -> None:
    """Pods come and go, nodes too."""
    for turn in range(turns):
        for i in range(12):
            site.pod(f"pod-{turn}-{i}", cpu="300m", labels={"data-class": "personal"} if i % 4 == 0 else {}, priority=i % 3)
        if turn > 1:
            for i in range(10):
                site.delete_pod(f"pod-{turn - 2}-{i}")
        if turn == 3 and "late" not in site.store.things["nodes"]:
            site.node("late", cpu="4", labels={REGION: "eu-central-1"})
        time.sleep(0.5)


def words_by(program: str, *specs: str) -> "list[str]":
    """By which the client starts wsched with these rules."""
    # pylint: disable=import-outside-toplevel
    from core import live
    from state import rule_labels

    return list(live.command(program, "wsched", 1, sorted(rule_labels.read_by(specs, [], "").keys), specs))


def replayed(program: str, file: pathlib.Path, *specs: str) -> str:
    """What wsched answers to a record; the record is whole, as gzip tests it."""
    tested = subprocess.run(["gzip", "-t", str(file)], capture_output=True, text=True, check=False)
    assert tested.returncode == 0, f"{file.name} isn't whole: {tested.stderr.strip()}"
    ran = subprocess.run(words_by(program, *specs), input=gzip.decompress(file.read_bytes()), capture_output=True, check=False)
    assert ran.returncode == 0, f"the record can't be replayed: {ran.stderr.decode()[:200]}"
    return ran.stdout.decode()


def script_of(site: Site, file: pathlib.Path, rule: str) -> str:
    """What the desk was told of a record's lines, as a script."""
    labels = next(it for it in words_by(site.programs.wsched, rule) if it.startswith("--labels="))
    env = os.environ | {"WSCHED": site.programs.wsched}
    made = subprocess.run([str(TOP / "examples/live/steps"), labels, str(file), rule], capture_output=True, text=True, env=env, check=False)
    assert made.returncode == 0 and not made.stderr, f"status {made.returncode}: {made.stderr[-300:]}"
    return made.stdout


def places_in(answers: str) -> list[tuple[str, str]]:
    """The decisions for a node, in their order: the pod's uid, and the node."""
    return [(it[1], it[2]) for it in map(PLACE.fullmatch, answers.splitlines()) if it]


def kept(site: Site, how: int, name: str) -> str:
    """A run with a record that ends so: the replay is byte for byte what wsched answered, and its places are those that were bound."""
    file, program = site.folder / f"{name}.jsonl.gz", relayed(site)
    before = len(site.watcher().binds)
    for at in ("told", "answered"):
        (site.folder / at).unlink(missing_ok=True)
    since = time.monotonic()
    it = site.start("--record", str(file), wsched=program, rule=RULE, name=name)
    # (the watches of one that was killed may not have been seen to be gone)
    site.wait(lambda: all(site.server.count("watch", what, since) for what in ("nodes", "pods")), 30, "it watches")
    churn(site, 8)
    site.server.bind_takes = 0.2
    for i in range(8):
        site.pod(f"last-{name}-{i}", cpu="50m")
    time.sleep(0.1)
    it.end(how)
    site.schedulers.remove(it)
    site.server.bind_takes = 0.0
    # (what was posted before it was killed may still be bound)
    time.sleep(1)
    answers, heard = replayed(site.programs.wsched, file, RULE), (site.folder / "answered").read_text(encoding="utf-8")
    assert heard.startswith(answers), f"the replay's {len(answers)} bytes aren't the beginning of the {len(heard)} that wsched answered"
    lost = len(heard.splitlines()) - len(answers.splitlines())
    assert lost <= (200 if how == signal.SIGKILL else 0), f"{lost} answered lines aren't in the record"
    bound = site.watcher().binds[before:]
    missing = [one for one in bound if one not in places_in(answers)]
    assert not missing, f"{len(missing)} of {len(bound)} binds aren't in the replay: {missing[:2]}"
    assert len(bound) >= 50, f"only {len(bound)} were bound"
    shown = f"{len(answers.splitlines())} answers replayed byte for byte, {lost} behind the record's end"
    return f"{shown}; {len(bound)} binds, each in it; {file.stat().st_size} bytes"


def record(site: Site) -> str:
    """--record of a run that is ended by SIGTERM: the replay is byte for byte what wsched answered, and its places are those that were bound."""
    for i in range(8):
        site.node(f"node-{i}", cpu="4", labels={REGION: "eu-central-1" if i % 2 else "us-east-1"})
    return kept(site, signal.SIGTERM, "ended")


def record_killed(site: Site) -> str:
    """The same of one that is killed (SIGKILL) in the midst of binds, three times: each start has a record of its own, and each is whole."""
    for i in range(20):
        site.node(f"node-{i}", cpu="32", labels={REGION: "eu-central-1" if i % 2 else "us-east-1"})
    shown = []
    for i in range(3):
        shown.append(kept(site, signal.SIGKILL, f"killed-{i}"))
        for pod in site.store.all("pods"):
            site.delete_pod(pod["metadata"]["name"])
    return "; ".join(shown)


def record_again(site: Site) -> str:
    """Two starts with the same word --record have two files, of which the first stays as it was."""
    site.node("a")
    file = site.folder / "again.jsonl.gz"
    for name in ("one", "two"):
        it = site.start("--record", str(file), name=name)
        site.pod(name)
        site.wait(lambda name=name: site.place(name), 20, "it binds")  # type: ignore[misc]
        it.end()
        site.schedulers.remove(it)
    found = sorted(site.folder.glob("again*"))
    assert len(found) == 2, [it.name for it in found]
    uids = [site.store.get("pods", f"default/{name}")["metadata"]["uid"] for name in ("one", "two")]
    said = []
    for each in found:
        said.append(replayed(site.programs.wsched, each))
    assert sorted(uid for it in said for uid, _ in places_in(it)) == uids, said
    return ", ".join(it.name for it in found)


def record_drawn(site: Site) -> str:
    """examples/report draws a record, by what `explain` says of it: the page has both as they are, and (by node, where that is there) what it makes
    of them is what each audit's dump says."""
    for i in range(4):
        site.node(f"node-{i}", cpu="4", labels={REGION: "eu-central-1" if i % 2 else "us-east-1"})
    file = site.folder / "drawn.jsonl.gz"
    it = site.start("--record", str(file), rule=RULE)
    site.wait(lambda: len(site.server.watches) >= 2, 20, "it watches")
    for _ in range(3):
        churn(site, 3)
        it.child.send_signal(signal.SIGUSR1)
        time.sleep(1)
        for pod in site.store.all("pods"):
            site.delete_pod(pod["metadata"]["name"])
    it.end()
    script = script_of(site, file, RULE)
    output = subprocess.run([site.programs.wsched, "explain", RULE], input=script, capture_output=True, text=True, check=True).stdout
    return f"{len(places_in(output))} places, {drawn(site, script, output)}"


def drawn(site: Site, script: str, output: str) -> str:
    """Makes the page, and has its own reading of a run say of each dump what it has."""
    for name, text in (("script", script), ("output", output)):
        (site.folder / name).write_text(text, encoding="utf-8")
    made = [str(TOP / "examples/report/make"), str(site.folder / "script"), str(site.folder / "output")]
    page = subprocess.run(made, capture_output=True, text=True, check=True).stdout
    found = DATA.search(page)
    assert found, "the page has no data"
    has = json.loads(found[1])["runs"]
    assert [(it["script"], it["output"]) for it in has] == [(script, output)], "the page hasn't what it was given"
    node = shutil.which("node")
    if not node:
        return f"a page of {len(page)} bytes; node isn't there"
    ran = subprocess.run([node, "-e", found[2] + DRAWN], input=found[1], capture_output=True, text=True, check=False)
    assert ran.returncode == 0, ran.stderr.strip()[-400:]
    dumps = int(ran.stdout.split()[0])
    assert dumps >= 3, f"{dumps} dumps"
    return f"a page of {len(page)} bytes, which has what {dumps} dumps say"


def record_full(site: Site) -> str:
    """There is no more room for the record, while pods are placed: a metric, an event and the log say so; when there is room again it goes on, and
    replays to every bind that was made."""
    site.node("a", cpu="64", pods=1000)
    file = site.folder / "full.jsonl.gz"
    it = site.start("--record", str(file), *site.listening(), name="full")

    def placed(name: str, count: int) -> None:
        before = site.placed()
        for i in range(count):
            site.pod(f"{name}-{i}", cpu="10m", memory="1Mi")
        site.wait(lambda: site.placed() == before + count, 60, f"pods {name} are bound")

    placed("first", 100)
    # (the log, which has no room either, is shorter)
    resource.prlimit(it.pid, resource.RLIMIT_FSIZE, (file.stat().st_size + 300, resource.RLIM_INFINITY))
    placed("unwritten", 100)
    site.wait(lambda: value(scraped(site), "wsched_record_stands_still") == 1, 20, "a metric says that it stands still")
    site.wait(lambda: [one for one in site.store.all("events") if one["reason"] == "RecordStandsStill"], 20, "an event says so")
    whole = subprocess.run(["gzip", "-t", str(file)], check=False).returncode
    assert whole == 0, "it isn't whole while there is no room"
    placed("more", 50)
    resource.prlimit(it.pid, resource.RLIMIT_FSIZE, (resource.RLIM_INFINITY, resource.RLIM_INFINITY))
    site.wait(lambda: value(scraped(site), "wsched_record_stands_still") == 0, 20, "it goes on")
    placed("last", 10)
    assert it.end() == 0
    site.schedulers.remove(it)
    bound = {uid for uid, _ in site.watcher().binds}
    missing = bound - {uid for uid, _ in places_in(replayed(site.programs.wsched, file))}
    assert len(bound) == 260 and not missing, f"{len(missing)} of {len(bound)} binds aren't in the record"
    return f"{len(bound)} binds, each in it; {site.check()}"


TRIALS = [record_full, record, record_killed, record_again, record_drawn]
