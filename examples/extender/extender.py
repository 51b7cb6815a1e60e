#!/usr/bin/python3
# SPDX-License-Identifier: Apache-2.0
"""wsched's rules behind a kube-scheduler: an extender that answers which nodes a pod may have, and
how good they are.

It lists and watches nodes and pods, tells `wsched run` of them, and answers kube-scheduler's POST
/filter and /prioritize by what the rules say, as the plugins that are named say it:
NAME:WEIGHT:FUEL:FILE. The README.md beside this says how to use it.
"""
from __future__ import annotations

import argparse
import gc
import itertools
import json
import logging
import os
import pathlib
import signal
import sys
import threading
import time
from typing import Any

HERE = pathlib.Path(__file__).resolve().parent
# (what it shares with the second scheduler stands there, and what reads rules beside both)
sys.path += [str(HERE.parent / "second-scheduler"), str(HERE.parent)]

# pylint: disable=wrong-import-position
from tools import rules
from tools.translating import words_of
from tools.wasm_sections import has_filter, has_score, is_steady, module_of, reasons_by_name

import signals
import site_settings
from api.account import NoAccount, account_by
from api.calls import AWAY, Calls, message
from api.way import NoWay, way_by
from core.live import CoreFault, try_on_nothing
from reporting import serving
from second_scheduler import log_to_standard_error
from state import rule_labels
from state.affinity import NodeLabels

from answers import Maps, Words, maps_beside
from asked import Asked
from cores import Cores, command, digests
from counting import Counting
from knowing import Knowing
from questions import WHO, Row, Rows
from service import Service, Ways

LOG = logging.getLogger("second-scheduler")
# For how long requests under way are waited for at the end, in seconds.
PATIENCE = 5.0
# A rule that reads what kube-scheduler sees to itself.
AFFINITY = "node_affinity"


def words() -> argparse.Namespace:
    said = argparse.ArgumentParser(
        prog="extender.py", description=(__doc__ or "").split("\n", maxsplit=1)[0]
    )
    said.add_argument(
        "spec", nargs="*", help="plugins, as `wsched run` takes them: NAME:WEIGHT:FUEL:FILE"
    )
    said.add_argument(
        "--listen",
        type=serving.address,
        default=("127.0.0.1", 8888),
        metavar="[HOST]:PORT",
        help="where it is asked; else 127.0.0.1:8888",
    )
    said.add_argument(
        "--on-error",
        choices=("error", "reject-node"),
        default="error",
        help="where a rule says nothing of a node, or a label that it may read has no room in the "
        "node's row: the pod waits, or that node is rejected",
    )
    said.add_argument(
        "--max-stale",
        type=seconds,
        metavar="SECONDS",
        help="nothing is answered by what was heard longer ago; else it is, however old",
    )
    said.add_argument("--wsched", default="wsched", help="the program")
    said.add_argument("--workers", type=int, default=1, help="how many workers each wsched has")
    said.add_argument(
        "--kubeconfig", help="a file; else the account of the pod, else the usual one"
    )
    said.add_argument(
        "--rules",
        metavar="FILE",
        help="a file of rules and settings (its form: examples/tools/rules.py), before the SPECs",
    )
    said.add_argument(
        "--settings",
        metavar="FILE",
        help="settings of the rules, as lines NAME=VALUE: labels /cfg/NAME of each node's row",
    )
    said.add_argument(
        "--labels",
        type=rule_labels.words,
        metavar="KEY,..",
        help="the labels that rules read beside those that their modules name: none of these gives "
        "way where a pod or a node has more than a row has room for",
    )
    said.add_argument(
        "--tls-cert",
        metavar="FILE",
        help="be asked by TLS, with this certificate, and what it is signed by behind it (PEM)",
    )
    said.add_argument(
        "--tls-key",
        metavar="FILE",
        help="the certificate's key, where it doesn't stand in the same file",
    )
    said.add_argument(
        "--client-ca",
        metavar="FILE",
        help="who asks must show a certificate of these authorities (PEM); probes and /metrics "
        "need none",
    )
    said.add_argument(
        "--token-file",
        metavar="FILE",
        help="/metrics is for those alone that bear the token that stands there",
    )
    said.add_argument("--verbose", action="store_true")
    given = said.parse_args()
    if (given.tls_key or given.client_ca) and not given.tls_cert:
        said.error("argument --tls-key, --client-ca: without --tls-cert")
    try:
        by = rules.given_by(given)
    except rules.BadRules as why:
        said.error(f"argument --rules: {why}")
    except (OSError, ValueError, site_settings.BadSetting) as why:
        said.error(f"argument --settings: {why}")
    if by.tells_affinity:
        said.error(
            f"the rule {AFFINITY} reads what a second scheduler tells: kube-scheduler sees to "
            "selectors and affinity itself"
        )
    if not by.specs:
        said.error("no rule is named, by a SPEC or by --rules")
    given.spec, given.settings = [*by.specs], [*by.labels]
    given.named = rule_labels.read_by(by.specs, by.keys, "")
    return given


def seconds(text: str) -> float:
    value = float(text)
    if not 0 <= value < 10**6:
        raise argparse.ArgumentTypeError(f"{text} are no seconds")
    return value


def words_for(specs: list[str]) -> Words:
    """How the rules' answers are told, by what their modules say."""
    scoring = [it.split(":") for it in specs if has_score(module_of(it))]
    weights = {name: int(weight) for name, weight, *_ in scoring}
    LOG.info(
        "rules with a score: %s",
        ", ".join(weights) or "none, so there is no need of prioritizeVerb",
    )
    return Words(reasons_by_name(specs), weights)


def maps_of(calls: Calls) -> Maps:
    """As the API server's version has it; both where it doesn't tell that."""
    try:
        said = json.loads(calls.get("/version", 5.0))
        return maps_beside(int("".join(itertools.takewhile(str.isdecimal, said["minor"]))))
    except (*AWAY, ValueError, LookupError, TypeError) as why:
        LOG.info("the API server's version isn't known: %s", message(why))
        return Maps()


def begin(given: argparse.Namespace, calls: Calls) -> tuple[Service, Any]:
    """The cores, what is known, who answers, and who listens. Raises CoreFault."""
    counting = Counting()
    cores = Cores(given.wsched, given.workers, given.spec, lambda why: counting.begun.inc())
    with cores.lock:
        cores.start(cores.shares[0])
        # (a program that doesn't know the word would be begun anew at each question)
        cores.judge(Row("a-pod", '"containers":[["0m","0"]]'), filters_alone=True)
    rows = Rows(given.wsched, given.named)
    modules = [module_of(it) for it in given.spec]
    filters = [it for it in modules if not it or has_filter(it)]
    steady, all_steady = all(map(is_steady, filters)), all(map(is_steady, modules))
    rejects = given.on_error == "reject-node"
    ways = Ways(rejects, given.max_stale, steady, all_steady, maps_of(calls))
    service = Service(cores, rows, words_for(given.spec), counting, ways)
    if digests(given.spec) != cores.modules:
        raise CoreFault("a rule's module was changed meanwhile")
    answer = type("Asked", (Asked,), {"service": service, "counting": counting})
    server = serving.serve(
        given.listen,
        service,
        counting,
        serving.Files(given.tls_cert, given.tls_key, given.token_file, given.client_ca),
        answer,
    )
    service.knowing = Knowing(
        calls, cores, rows, NodeLabels(given.settings, given.named), counting
    )
    service.knowing.start()
    service.watch_over()
    return service, server


def end(service: Service, server: Any) -> None:
    """Nobody new is listened to, and requests under way have their answers."""
    service.stopping, until = True, time.monotonic() + PATIENCE
    LOG.info("it ends")
    server.shutdown()
    server.server_close()
    while service.under_way.count and time.monotonic() < until:
        time.sleep(0.01)
    if service.cores.lock.acquire(timeout=PATIENCE):  # pylint: disable=consider-using-with
        for it in service.cores.shares:
            service.cores.end(it)
    logging.shutdown()
    os._exit(0)


def main() -> None:
    given = words()
    sys.setswitchinterval(0.0002)
    log_to_standard_error(given.verbose)
    for it in (command(given.wsched, given.workers, given.spec), words_of(given.wsched, WHO)):
        if wrong := try_on_nothing(it):
            sys.exit(f"extender.py: wsched {it[1]}: {wrong}")
    stop = threading.Event()
    signals.hear({it: stop.set for it in (signal.SIGTERM, signal.SIGINT, signal.SIGHUP)})
    try:
        way = way_by(account_by(given.kubeconfig))
        way.start()
        service, server = begin(given, Calls(way))
    except (NoAccount, NoWay, CoreFault) as why:
        sys.exit(f"extender.py: {why}")
    except OSError as why:
        sys.exit(f"extender.py: --listen: {why}")
    LOG.info(
        "asked at %s:%d%s",
        given.listen[0] or "*",
        given.listen[1],
        " by TLS" if given.tls_cert else "",
    )
    # (what is there by now stays)
    gc.freeze()
    stop.wait()
    end(service, server)


if __name__ == "__main__":
    main()
