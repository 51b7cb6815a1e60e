#!/usr/bin/python3
# SPDX-License-Identifier: Apache-2.0
"""A second scheduler for a cluster: what stands beside `wsched live` so that it schedules pods of a real API server.

It lists and watches nodes and pods, hands on to wsched what it is told, asks for a cycle while pods wait, sends each bind that wsched
grants, and tells it what became of it. It takes the pods whose `spec.schedulerName` is its own. Credentials come as
everywhere: a kubeconfig, or the account of the pod that it runs in. docs/OPERATING.md says how to use it.
"""
from __future__ import annotations

import argparse
import dataclasses
import logging
import os
import pathlib
import signal
import sys
import threading

sys.path.append(str(pathlib.Path(__file__).resolve().parent.parent))

# pylint: disable=wrong-import-position
from tools import rules
from tools.wasm_sections import reasons_by_name

import signals
import site_settings
from api import lease
from api.account import NoAccount, account_by
from api.binding import LANDS
from api.calls import Calls
from api.way import NoWay, way_by
from core.live import CoreFault, try_on_nothing
from reporting import serving
from reporting.health import Health
from reporting.metrics import Metrics
from scheduler import Scheduler, end_process, words_of
from state import rule_labels, share

LOG = logging.getLogger("second-scheduler")
# The rule that --node-affinity asks, and the fuel of its calls: enough for any pod and node.
RULE, FUEL = "node_affinity", 500000


def words() -> argparse.Namespace:
    said = argparse.ArgumentParser(prog="second_scheduler.py", description=(__doc__ or "").split("\n", maxsplit=1)[0])
    said.add_argument("spec", nargs="*", help="plugins, as `wsched run` takes them: NAME:WEIGHT:FUEL:FILE")
    said.add_argument("--scheduler", default="wsched", help="the schedulerName whose pods are taken")
    said.add_argument("--wsched", default="wsched", help="the program")
    said.add_argument("--workers", type=int, default=1, help="how many workers share a decision")
    said.add_argument("--binders", type=int, default=16, help="how many binds may be under way at once")
    said.add_argument("--nodes", help="a label selector: only these nodes are used")
    said.add_argument(
        "--share",
        type=share.words,
        default=share.ALONE,
        metavar="I/N",
        help="instance I of N that have one scheduler name: the nodes whose names fall to it, or those of --nodes, and each pod in its turn",
    )
    said.add_argument("--kubeconfig", help="a file; else the account of the pod, else the usual one")
    said.add_argument("--dry-run", action="store_true", help="print what would be bound, and write nothing to the cluster")
    said.add_argument(
        "--node-affinity",
        type=int,
        choices=range(1, 11),
        metavar="WEIGHT",
        help="tell selectors, node affinity and volumes' zones, and ask the rule node_affinity, whose score counts WEIGHT times",
    )
    said.add_argument("--plugins", metavar="FOLDER", help="where node_affinity.wasm is; else in the folder `plugins` beside this program's own")
    said.add_argument("--settings", metavar="FILE", help="settings of the rules, as lines NAME=VALUE: labels /cfg/NAME of each node's row")
    said.add_argument("--rules", metavar="FILE", help="rules, settings and node affinity in a file (examples/tools/rules.py has its form), before the SPECs")
    said.add_argument(
        "--labels",
        type=rule_labels.words,
        metavar="KEY,..",
        help="the labels that rules read, of which none gives way where a pod or a node has more than a row has room for; others than modules name",
    )
    said.add_argument("--lease", type=lease.name_of, metavar="NAMESPACE/NAME", help="a Lease that replicas share: only the one that holds it schedules")
    said.add_argument(
        "--rest",
        type=float,
        default=LANDS,
        metavar="SECONDS",
        help="for how long nothing is listed and bound once another had the Lease and didn't give it back: a bind of its may still be done",
    )
    said.add_argument("--listen", type=serving.address, metavar="[HOST]:PORT", help="serve /metrics, /healthz, /livez and /readyz there")
    said.add_argument("--tls-cert", metavar="FILE", help="serve them by TLS with this certificate, and what it is signed by behind it (PEM)")
    said.add_argument("--tls-key", metavar="FILE", help="the certificate's key, where it doesn't stand in the same file")
    said.add_argument("--token-file", metavar="FILE", help="/metrics is for those alone that bear the token that stands there")
    said.add_argument("--record", metavar="FILE", help="write every line that wsched is told and has answered to this file, compressed by gzip")
    said.add_argument("--verbose", action="store_true")
    given = said.parse_args()
    if given.binders < 1:
        said.error("argument --binders: at least 1")
    if given.tls_key and not given.tls_cert:
        said.error("argument --tls-key: without --tls-cert")
    if (given.tls_cert or given.token_file) and not given.listen:
        said.error("argument --tls-cert, --token-file: without --listen")
    given.share = dataclasses.replace(given.share, is_by_name=not given.nodes)
    if given.node_affinity:
        # the rule and what is told for it come together, so that no pod is told without the rule
        # being asked
        folder = pathlib.Path(given.plugins) if given.plugins else pathlib.Path(__file__).resolve().parent.parent / "plugins"
        given.spec = [f"{RULE}:{given.node_affinity}:{FUEL}:{folder / RULE}.wasm", *given.spec]
    try:
        by = rules.given_by(given)
    except rules.BadRules as why:
        said.error(f"argument --rules: {why}")
    except (OSError, ValueError, site_settings.BadSetting) as why:
        said.error(f"argument --settings: {why}")
    given.spec, given.settings = [*by.specs], [*by.labels]
    if given.rules and by.tells_affinity:
        given.node_affinity = True
    given.read_labels = rule_labels.read_by(given.spec, by.keys, RULE if given.node_affinity else "")
    # (as they are now: wsched reads the modules once as well)
    given.reasons = reasons_by_name(given.spec)
    return given


def log_to_standard_error(is_verbose: bool) -> None:
    logging.basicConfig(level=logging.DEBUG if is_verbose else logging.INFO, format="%(asctime)s %(message)s", force=True)


class Replica:
    """This process: it schedules at once, or once it has the Lease."""

    def __init__(self, given: argparse.Namespace) -> None:
        self.given = given
        try:
            self.way = way_by(account_by(given.kubeconfig))
        except (NoAccount, NoWay) as why:
            sys.exit(f"second_scheduler.py: {why}")
        self.calls = Calls(self.way)
        self.health, self.metrics, self.stop = Health(), Metrics(given.scheduler), threading.Event()
        self.running: Scheduler | None = None
        self.lease: lease.Lease | None = None

    def start(self) -> None:
        """From now on signals are heard, and probes and scrapes answered."""
        signals.hear({signal.SIGTERM: self.end, signal.SIGINT: self.end, signal.SIGHUP: self.end, signal.SIGUSR1: self.audit})
        given = self.given
        self.way.start()
        if given.listen:
            try:
                serving.serve(given.listen, self.health, self.metrics, serving.Files(given.tls_cert, given.tls_key, given.token_file))
            except OSError as why:
                sys.exit(f"second_scheduler.py: --listen: {why}")

    def end(self) -> None:
        self.stop.set()
        if self.running:
            self.running.stopping.set()

    def audit(self) -> None:
        # (a follower has nothing to audit)
        if self.running:
            self.running.is_audit_asked = True

    def lead(self) -> None:
        status = 1
        try:
            self.metrics.leader.set(1)
            self.health.lead()
            self.running = Scheduler(self.given, self.calls, self.metrics, self.health, self.may_write)
            if self.stop.is_set():
                self.running.stopping.set()
            status = self.running.run()
            if self.lease and self.running.may_be_followed():
                self.lease.release()
        except (CoreFault, OSError) as why:
            LOG.error("%s", why)
        except Exception:  # pylint: disable=broad-except
            # the other threads would go on, and keep the lease
            LOG.exception("ended by a fault of its own")
        end_process(status)

    def may_write(self) -> bool:
        """Whether no other may schedule yet."""
        return not self.lease or self.lease.is_held()

    def lost(self, why: str) -> None:
        """Another may schedule now, so nothing more is bound, and this one follows anew: as a new process would, but that nobody has to start it
        again, and waits longer each time."""
        LOG.warning("the lease is lost: %s", why)
        if self.stop.is_set():
            end_process(0)
        if self.running:
            # (the input of the other children ends with this program)
            self.running.kill()
        logging.shutdown()
        try:
            os.execv(sys.executable, sys.orig_argv)
        finally:
            os._exit(1)

    def end_follower(self) -> None:
        self.stop.wait()
        if not self.running:
            end_process(0)

    def follow(self) -> None:
        namespace, name = self.given.lease
        self.lease = lease.Lease(namespace, name + self.given.share.suffix, self.calls)
        # a follower ends at once
        threading.Thread(target=self.end_follower, daemon=True).start()
        self.lease.follow()
        for keeps in (self.lease.keep, self.lease.guard):
            threading.Thread(target=keeps, args=(self.lost,), daemon=True).start()
        if self.lease.before and not self.given.dry_run:
            # (what is listed after this has all that the other had asked for: a watch may be late)
            rest = self.given.rest
            LOG.warning("%s didn't give the lease back: nothing is listed for %g s, in which a bind of its may still be done", self.lease.before, rest)
            self.stop.wait(rest)
        self.lead()


def reap() -> None:
    """What this process had started before it lost its lease."""
    try:
        while os.waitpid(-1, os.WNOHANG)[0]:
            pass
    except ChildProcessError:
        pass


def main() -> None:
    given = words()
    reap()
    # (the loop shares the interpreter with those that bind and tell, and after each answer of
    # wsched it waits for its turn)
    sys.setswitchinterval(0.001)
    log_to_standard_error(given.verbose)
    # (before anything depends on it: a replica that follows would find it out only once it leads)
    if wrong := try_on_nothing(words_of(given)):
        sys.exit(f"second_scheduler.py: wsched live: {wrong}")
    if given.record and not os.access(os.path.dirname(given.record) or ".", os.W_OK | os.X_OK):
        sys.exit(f"second_scheduler.py: --record: nothing can be written beside {given.record}")
    replica = Replica(given)
    replica.start()
    if given.lease:
        replica.follow()
    else:
        replica.lead()


if __name__ == "__main__":
    main()
