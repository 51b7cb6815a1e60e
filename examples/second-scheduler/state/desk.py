# SPDX-License-Identifier: Apache-2.0
"""What `wsched live` is told of the cluster, in the order in which it is heard; and the pods of one's own that wait, and whose turn it is.

What counts on a node is known to wsched alone: here only those pods are kept that have no node yet.
"""
from __future__ import annotations

import functools
import logging
import sys
import time
from typing import Callable

from core.answers import Judged, Said, Word
from core.live import Core, order, quoted
from reporting.metrics import Metrics
from reporting.telling import Telling, about_node, about_pod
from state.affinity import NodeLabels
from state.heard import NodeHeard, PodHeard, Waits
from state.nodes import Nodes
from state.pods import Pod, Turn, Wait
from state.share import ALONE, Share

LOG = logging.getLogger("second-scheduler")
# For how long a kind isn't listed again for want of room, in seconds.
AGAIN = 30.0
KINDS = {"node": "nodes", "pod": "pods"}


class Desk(Nodes):
    """`pods` are those of one's own that wait, by their uids, also while a bind of them is under way, and after it until that is heard."""

    def __init__(self, core: Core, telling: Telling, metrics: Metrics, labels: NodeLabels, pods: dict[str, Pod], share: Share = ALONE) -> None:
        super().__init__(core, telling, metrics, labels, share)
        self.pods = pods
        # the pods that ask for more labels of nodes than there is room for
        self.short: dict[Pod, PodHeard] = {}
        # what was heard of pods while they were under bind
        self.newest: dict[str, PodHeard] = {}
        # own pods that are left alone, by what matters of them, and those with a node that can't be read as
        # a whole
        self.alone: dict[Pod, int] = {}
        self.unread = set[str]()
        # those of them that the list that goes on hasn't named yet
        self.unseen = set[str]()
        self.listed: set[str] = set()
        # the kinds of which something had no room, those of which something went since, and when each was
        # listed last
        self.full, self.has_gone, self.began = set[str](), set[str](), dict[str, float]()
        # whom the list that goes on tells of as its watch should have
        self.missed = set[str]()

    # Lists and watches.

    def hear_word(self, kind: str, word: str, named: set[str] | None) -> None:
        """A list begins or has ended, or a watch is shut or open."""
        if word == "list":
            self.full.discard(kind)
            self.has_gone.discard(kind)
            self.began[kind] = time.monotonic()
            self.missed = set()
            self.unseen = set(self.unread) if kind == "pod" else self.unseen
        self.core.say(order(word, of=quoted(KINDS[kind])), functools.partial(self.word_answered, kind, word))
        if named is None:
            return
        if kind == "node":
            self.hear_nodes(named)
        else:
            # (those that it names on a node have been told)
            for uid in [uid for uid in self.pods if uid not in named]:
                self.lose_pod(uid)
            for uid in self.unseen:
                self.read_all_of(uid)

    def word_answered(self, kind: str, word: str, said: Said) -> None:
        self.has_work = True
        if word == "listed":
            if said.word is not Word.TOLD:
                LOG.error("the ledger answers the end of a list of %ss by: %s", kind, said)
            self.listed.add(kind)
            self.metrics.trouble.list_audits.inc()
            self.metrics.trouble.list_differences.set(len(self.missed))

    def wants_list(self, kind: str, now: float) -> bool:
        """Whether something that had no room may have some now."""
        return kind in self.full and kind in self.has_gone and now >= self.began.get(kind, 0.0) + AGAIN

    def has_no_room(self, kind: str) -> None:
        self.metrics.trouble.full.labels(kind).inc()
        if kind not in self.full:
            what = "nothing is bound until a list of them has ended in which each had room" if kind == "pod" else "the others aren't used"
            LOG.error("the ledger has no room for more %ss: %s", kind, what)
        self.full.add(kind)

    def look_missed(self, who: str, about: dict[str, object], said: Said) -> None:
        """A list names what a watch that had come further hasn't told: an event was lost on the way."""
        if said.word is Word.TOLD and who not in self.missed:
            self.missed.add(who)
            why = f"audit: a list tells {who} as its watch, which had come further, never did"
            LOG.error("%s", why)
            self.telling.warn(about, "ListDifference", why)

    def node_answered(self, it: NodeHeard, said: Said) -> None:
        if it.is_due and "node" not in self.full:
            self.look_missed(f"node {it.name}", about_node(it.name, it.uid), said)
        if said.word is Word.FULL:
            self.has_no_room("node")
        super().node_answered(it, said)

    def node_went(self, _: Said) -> None:
        super().node_went(_)
        self.has_gone.add("node")

    # Pods.

    def hear_pod(self, it: PodHeard) -> None:
        if it.is_gone:
            self.core.say(it.line, self.pod_went)
            self.lose_pod(it.uid)
            self.read_all_of(it.uid)
        elif it.node:
            if (pod := self.pods.get(it.uid)) and pod.place != it.node:
                self.changed.add(it.node)
            self.core.say(it.line, functools.partial(self.stands_answered, it))
        elif it.waits:
            self.hear_waiting(it, it.waits)

    def pod_went(self, said: Said) -> None:
        self.has_work = True
        if said.word is Word.TOLD:
            self.waiting.moves += 1
        self.has_gone.add("pod")

    def stands_answered(self, it: PodHeard, said: Said) -> None:
        if it.is_due and "pod" not in self.full:
            self.look_missed(f"pod {it.key}", about_pod(Pod(it.namespace, it.name, it.uid)), said)
        if said.word is Word.FULL:
            # (it isn't counted at all, and nothing is bound until it is)
            self.has_no_room("pod")
            if said.left_out:
                LOG.error("pod %s can't be read: %s", it.key, ", ".join(said.left_out))
        else:
            self.look_unread(it, said)
        self.lose_pod(it.uid)
        if it.node in self.nodes:
            self.has_work = True

    def look_unread(self, it: PodHeard, said: Said) -> None:
        """What is left out of a pod that stands on a node is named as required where it counts for all that it asks for."""
        self.unseen.discard(it.uid)
        left_out = ("an object of more than 2 MiB",) if it.is_stand_in else said.left_out
        if said.word in (Word.TOLD, Word.OLD) and all(why.startswith("required ") for why in left_out):
            if it.uid in self.unread:
                self.try_again()
            self.read_all_of(it.uid)
            return
        if it.uid not in self.unread and said.word is not Word.NOTHING:
            self.unread.add(it.uid)
            why = f"not all that the pod asks for can be read, and it counts on {it.node} as the most there can be: {', '.join(left_out)}"
            LOG.error("pod %s: %s", it.key, why)
            self.telling.warn(about_pod(Pod(it.namespace, it.name, it.uid)), "NotCounted", why)

    def try_again(self) -> None:
        """There is room that wsched doesn't try again by itself: a pod on a node counts for less."""
        self.waiting.moves += 1
        for pod in [*self.waiting.of[Turn.KEPT]]:
            if pod.wait and pod.is_told:
                self.untell(pod)
                self.tell_pod(pod, pod.wait, pod.wait.line)

    def read_all_of(self, uid: str) -> None:
        if uid in self.unread:
            self.unread.discard(uid)
            self.telling.done(uid, "NotCounted")

    def lose_pod(self, uid: str) -> None:
        """It has a node, or went."""
        pod = self.pods.pop(uid, None)
        self.newest.pop(uid, None)
        if pod:
            self.waiting.drop(pod, time.monotonic())
            self.short.pop(pod, None)
            self.alone.pop(pod, None)
            self.labels.give_back(uid)
            self.noted.pop(f"pod {pod}", None)
            self.telling.done(uid)

    # Pods that wait.

    def hear_waiting(self, it: PodHeard, heard: Waits) -> None:
        pod = self.pods.get(it.uid)
        if pod is None:
            pod = self.pods[it.uid] = Pod(it.namespace, it.name, it.uid)
        if pod.ticket is not None:
            # what was said before its bind may come late, and what comes behind it counts once that has failed.
            # (It is told all the same: what a list doesn't name is gone, with its bind.)
            self.newest[it.uid] = it
            self.core.say(it.line, self.was_told)
            return
        wait = pod.wait
        if (wait and wait.heard.mark == heard.mark) or self.alone.get(pod) == heard.mark:
            self.hear_again(pod, it, heard)
            return
        self.short.pop(pod, None)
        changes = self.labels.changes
        why = heard.why or self.asks_too_much(pod, it, heard)
        if self.labels.changes != changes:
            self.tell_labels()
        self.untell(pod)
        self.waiting.drop(pod, time.monotonic())
        if why:
            self.leave_alone(pod, heard, why)
            return
        self.waiting.add(pod, it.line, heard, time.monotonic())

    def hear_again(self, pod: Pod, it: PodHeard, heard: Waits) -> None:
        """Nothing has changed of it that matters but its version."""
        if pod.wait:
            pod.wait.line, pod.wait.heard = it.line, heard
            if pod.is_told:
                self.tell_pod(pod, pod.wait, it.line)

    def asks_too_much(self, pod: Pod, it: PodHeard, heard: Waits) -> tuple[str, ...]:
        why = self.labels.take(pod.uid, heard.keys)
        if why:
            self.short[pod] = it
        return (why,) if why else ()

    def leave_alone(self, pod: Pod, heard: Waits, why: tuple[str, ...]) -> None:
        self.note(f"pod {pod}", False, why)
        self.alone[pod] = heard.mark
        if not heard.is_leaving and self.share.is_first(pod.uid):
            self.telling.failed(pod, f"left alone, since this scheduler doesn't know: {', '.join(why)}", known=heard.unscheduled)

    def try_short(self) -> None:
        """Those that asked for too many labels of nodes, once others have their place."""
        for pod, it in [*self.short.items()]:
            self.alone.pop(pod, None)
            if it.waits:
                self.hear_waiting(it, it.waits)

    def feed(self, now: float) -> None:
        """Tells of the pods whose turn it is. No cycle is under way now, so none that the desk loses here can have its place meanwhile."""
        handed_on = self.waiting.take_turns(now)
        self.metrics.handed_on.inc(len(handed_on))
        for pod in handed_on + self.waiting.trim():
            self.untell(pod)
        for pod in self.waiting.feed(now):
            assert pod.wait
            self.tell_pod(pod, pod.wait, pod.wait.line)

    def tell_pod(self, pod: Pod, wait: Wait, line: bytes) -> None:
        pod.is_told = True
        self.core.say(line, functools.partial(self.pod_answered, pod, wait))

    def pod_answered(self, pod: Pod, wait: Wait, said: Said) -> None:
        self.has_work = True
        if pod.wait is not wait or pod.ticket is not None:
            return
        pod.is_known = pod.is_known or said.word is Word.TOLD
        if said.word is Word.WITHHELD or (said.word is Word.OLD and not pod.is_known):
            self.withheld(pod, wait, said.left_out)
        elif said.word in (Word.LEFT_OUT, Word.FULL):
            LOG.warning("pod %s waits outside: %s", pod, said)
            pod.is_told = False
            self.metrics.refused.labels("queue").inc()
            if wait.turn in (Turn.TRYING, Turn.KEPT):
                self.waiting.refused(pod, time.monotonic())
        else:
            if pod in self.alone:
                del self.alone[pod]
                self.telling.done(pod.uid)
            self.note(f"pod {pod}", True, (*wait.heard.left_out, *said.left_out))

    def withheld(self, pod: Pod, wait: Wait, why: tuple[str, ...]) -> None:
        """It is none to place, as it was told."""
        pod.is_known = pod.is_told = False
        self.waiting.drop(pod, time.monotonic())
        self.labels.give_back(pod.uid)
        self.leave_alone(pod, wait.heard, why)

    def untell(self, pod: Pod) -> None:
        """Has the desk put the pod aside."""
        if pod.is_told:
            pod.is_told = False
            self.core.say(order("aside", uid=quoted(pod.uid)), self.was_told)

    def was_told(self, _: Said) -> None:
        self.has_work = True

    def explain(self, uid: str, then: Callable[[Judged], None]) -> None:
        """What is said of each node for a pod that waits. One that waits outside is told for as long as that takes."""
        pod = self.pods.get(uid)
        if pod is None or pod.wait is None or pod.ticket is not None:
            then(Judged(None))
            return
        if not pod.is_told:
            self.core.say(pod.wait.line, self.was_told)
        self.core.explain(uid, then)
        if not pod.is_told:
            self.core.say(order("aside", uid=quoted(uid)), self.was_told)

    # Their places.

    def placed(self, pod: Pod, node: str, ticket: int) -> None:
        pod.place, pod.ticket = sys.intern(node), ticket
        self.waiting.placed(pod, time.monotonic())

    def failed(self, pod: Pod, moved: int) -> None:
        self.waiting.failed(pod, moved, time.monotonic())

    def bound(self, pod: Pod) -> None:
        """The API server's answer says so, as its watch will: until then whatever is heard of it as one that waits was said before."""
        if self.pods.get(pod.uid) is pod:
            self.waiting.drop(pod, time.monotonic())
            self.labels.give_back(pod.uid)
            self.telling.done(pod.uid)

    def not_bound(self, pod: Pod, is_there: bool) -> None:
        """A bind has come to nothing, as wsched knows: it has the pod to place again, by what it was told of it first, unless that is gone."""
        if self.pods.get(pod.uid) is not pod:
            return
        if not is_there:
            self.lose_pod(pod.uid)
            return
        pod.place = pod.ticket = None
        self.waiting.moves += 1
        if pod.wait:
            self.failed(pod, -1)
            self.tell_pod(pod, pod.wait, pod.wait.line)
        it = self.newest.pop(pod.uid, None)
        if it and it.waits:
            self.hear_waiting(it, it.waits)
