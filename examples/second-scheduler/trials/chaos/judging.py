# SPDX-License-Identifier: Apache-2.0
"""Judges a history in the API server's own order: no node over its room, no pod bound twice, moved, bound by nobody, or passed over.

What a scheduler has done itself is held against it always. What others did is, where it could know of it when it sent the bind.
"""
import bisect
import collections
import dataclasses
import time
from typing import Iterator, Optional, TypeVar

from trials.fixtures.between import KINDS, MOST, Between, Sent
from trials.fixtures.store import Change, Thing
from trials.fixtures.watcher import quantity

# How much later than something is told a bind may be sent that doesn't know of it, in seconds.
MAY = 3.0
# For how long a bind without a good answer counts as one that may still be done: from its sending on,
# from when the client was answered or gave it up, and until the client has looked what became of it.
LANDS, LASTS, LOOKS, PATIENCE = 75.0, 60.0, 12.0, 30.0
# Within how many seconds a pod is bound for which there is room on a node all the while: as the clock
# goes, with kills in between, which cost a Lease's time and a rest each; and of the time in which a
# scheduler has heard everything for so long.
WAITS, HEARD_WAITS, SETTLED = 400.0, 60.0, 7.0
Room = tuple[int, int]
It = TypeVar("It")


@dataclasses.dataclass
class Place:
    """A pod on a node: what it takes, and when it came."""

    cpu: int
    when: float
    is_own: bool


class Clock:
    """When everything was heard, and when what was kept back of a kind was told."""

    def __init__(self, between: Between) -> None:
        self.between = between
        self.times, self.heard = [time.monotonic()], [0.0]
        self.late: dict[str, list[tuple[float, float]]] = {it: [] for it in KINDS}

    def sample(self) -> None:
        """(several times a second)"""
        now = time.monotonic()
        is_heard = self.between.is_heard(now, SETTLED)
        self.heard.append(self.heard[-1] + (now - self.times[-1] if is_heard else 0.0))
        self.times.append(now)

    def heard_by(self, when: float) -> float:
        """For how many seconds everything has been heard by then."""
        return self.heard[max(0, bisect.bisect_right(self.times, when) - 1)]

    def keep_back(self, kind: str, seconds: float) -> None:
        """From now on nothing is told of a kind."""
        now = time.monotonic()
        self.late[kind].append((now, now + seconds))
        self.between.late[kind] = now + seconds

    def is_late(self, it: Change) -> bool:
        """Whether a watch that was open told a change late, though it wasn't kept back; this is noted like that."""
        told, since = self.between.told.get((it.kind, it.version), (0.0, 0.0))
        if not told or since > it.when or told < it.when + 1.0:
            return False
        is_own = any(began - 0.5 <= it.when < ends + 0.5 for began, ends in self.late[it.kind][-200:])
        self.late[it.kind].append((it.when, told))
        return not is_own

    def known(self, kind: str, sent: float) -> float:
        """Up to when every change of a kind could be known when a bind was sent. What is kept back anew before it was told stays untold, and so
        does what happened while no watch was open, where that which tells of it is kept back from its beginning."""
        late = self.late[kind][-200:]
        began = [since for since, ends in late if since <= sent < ends + MAY]
        if not began:
            return sent - MAY
        first = min(began)
        while earlier := [since for since, ends in late if since < first <= ends]:
            first = min(earlier)
        return min(sent - MAY, self.between.told_until(kind, first) - 0.5)


class Judge:
    """Hears the changes one by one, some seconds after they happened. `strict` names nodes that have the same room always, and no pod of others."""

    def __init__(self, clock: Clock, strict: "frozenset[str]", killed: list[float]) -> None:
        self.clock, self.between, self.strict, self.killed = clock, clock.between, strict, killed
        self.rooms: dict[str, list[tuple[float, Room]]] = {}
        self.marked: dict[str, list[tuple[float, bool]]] = {}
        self.there: dict[str, tuple[Room, bool]] = {}
        self.on: dict[str, dict[str, Place]] = collections.defaultdict(dict)
        self.sums: dict[str, list[int]] = collections.defaultdict(lambda: [0, 0])
        self.where: dict[str, str] = {}
        # of each pod that waits: what it takes, and since when it has had room
        self.waits: dict[str, tuple[str, int]] = {}
        self.since: dict[str, tuple[float, float]] = {}
        # the binds that may still be done, and of each pod the last; and how many were looked at
        self.open, self.last, self.taken = list[Sent](), dict[str, Sent](), 0
        self.wrong, self.counts = list[str](), collections.Counter[str]()
        self.longest, self.longest_heard, self.latest = 0.0, 0.0, 0.0

    def hear(self, it: Change) -> None:
        """One change."""
        if self.clock.is_late(it):
            self.counts["told more than a second late by the server itself"] += 1
        if it.kind == "nodes":
            self.node(it)
        elif it.kind == "pods":
            self.pod(it)
        self.look(it.when)

    def node(self, it: Change) -> None:
        """A node comes, changes or goes."""
        has = (it.after or {"status": {}})["status"].get("allocatable") or {}
        room = int(1000 * quantity(has.get("cpu", "0"))), int(has.get("pods", "0"))
        self.rooms.setdefault(it.key, []).append((it.when, room))
        is_marked = bool(it.after and it.after["spec"].get("unschedulable"))
        self.marked.setdefault(it.key, []).append((it.when, is_marked))
        self.there.pop(it.key, None)
        if it.after and room[0]:
            self.there[it.key] = room, is_marked

    def pod(self, it: Change) -> None:
        """A pod comes, is bound, ends or goes."""
        uid, there, was = it.told["metadata"]["uid"], it.after, self.where.get(it.told["metadata"]["uid"])
        is_ended = there is None or (there.get("status") or {}).get("phase") in ("Succeeded", "Failed")
        node = None if there is None else there["spec"].get("nodeName")
        before = (it.before or {"spec": {}})["spec"].get("nodeName")
        if before and there and node != before:
            self.wrong.append(f"{it.key} moved from {before} to {node}")
        if was and (is_ended or node != was):
            self.leave(uid, was)
        if is_ended or node:
            self.waits.pop(uid, None)
            self.since.pop(uid, None)
        is_own, cpu = it.told["spec"]["schedulerName"] == "wsched", cpu_of(it.told)
        if node and not was and not is_ended:
            self.come(uid, node, Place(cpu, it.when, is_own))
            if it.before and not before:
                self.bound(it, uid, node)
        elif node and not before and it.before:
            self.bound(it, uid, node)
        elif not node and not is_ended and is_own:
            self.waits[uid] = it.key, cpu

    def come(self, uid: str, node: str, place: Place) -> None:
        """A pod is on a node."""
        self.where[uid], self.on[node][uid] = node, place
        self.sums[node] = [self.sums[node][0] + place.cpu, self.sums[node][1] + 1]

    def leave(self, uid: str, node: str) -> None:
        """And no more."""
        place = self.on[node].pop(uid)
        del self.where[uid]
        self.sums[node] = [self.sums[node][0] - place.cpu, self.sums[node][1] - 1]

    # Binds.

    def bound(self, it: Change, uid: str, node: str) -> None:
        """A bind was done."""
        self.counts["bound"] += 1
        sent = self.sent(uid, node, it.when)
        if sent is None:
            self.wrong.append(f"{it.key} was bound to {node} by nobody")
            return
        if sent.is_landed:
            self.wrong.append(f"{it.key} was bound to {node} twice by one bind")
        sent.is_landed = True
        late = it.when - sent.sent
        self.latest = max(self.latest, late)
        if late > LANDS:
            # (no server gives a request so long)
            self.counts["done too late to be held against anybody"] += 1
            return
        if any(sent.sent < when < it.when for when in self.killed):
            self.counts["done behind a kill"] += 1
        if late > 10:
            self.counts["done more than 10 s late"] += 1
        self.wrong += self.against(it, sent, node)

    def sent(self, uid: str, node: str, when: float) -> Optional[Sent]:
        """The bind that was done: one that was answered so, or one whose answer nobody has heard."""
        some = [it for it in self.between.binds[-3000:] if it.uid == uid and it.node == node and it.passed and it.passed <= when + 0.5]
        good = [it for it in some if it.status == 201] or [it for it in some if not it.status]
        return good[-1] if good else None

    def against(self, it: Change, sent: Sent, node: str) -> Iterator[str]:
        """What its scheduler could know, and the bind goes against."""
        on, how = self.on[node], f"{it.when - sent.sent:.1f} s after that was sent"
        pods, nodes = (self.clock.known(kind, sent.sent) for kind in ("pods", "nodes"))
        some = [its for its in on.values() if its.is_own or node in self.strict or its.when <= pods]
        used, rooms = (sum(its.cpu for its in some), len(some)), within(self.rooms.get(node, []), nodes, it.when)
        # (a node of the same room always has it also while it is made anew)
        room = max((has for _, has in (self.rooms.get(node, []) if node in self.strict else rooms)), default=(0, 0))
        if used[0] > room[0] or used[1] > room[1]:
            yield f"{node} is over its room with {it.key}: {used} of {room}, {how}"
        if self.sums[node][0] > room[0] or self.sums[node][1] > room[1]:
            self.counts["over by what nobody could know"] += 1
        marks = within(self.marked.get(node, []), nodes, it.when)
        if marks and all(is_marked for _, is_marked in marks):
            yield f"{it.key} was bound to {node}, which was known to be cordoned when that was sent"

    # Pods that wait.

    def look(self, now: float) -> None:
        """Notes of each pod that waits whether there is room for it."""
        binds = self.between.binds
        while self.taken < len(binds) and binds[self.taken].sent <= now:
            self.asked(binds[self.taken])
            self.taken += 1
        self.open = [it for it in self.open if not it.is_landed and now < until(it, now)]
        sent, free = {it.uid for it in self.open}, self.free()
        heard = self.clock.heard_by(now)
        for uid, (key, cpu) in self.waits.items():
            if uid in sent or not any(cpu <= it for it in free):
                self.since.pop(uid, None)
                continue
            since, heard_since = self.since.setdefault(uid, (now, heard))
            self.longest, self.longest_heard = max(self.longest, now - since), max(self.longest_heard, heard - heard_since)
            if now - since > WAITS or heard - heard_since > HEARD_WAITS:
                self.wrong.append(f"{key} had room for {now - since:.0f} s, {heard - heard_since:.0f} of them with a scheduler that hears, and waits")
                self.since[uid] = now, heard

    def asked(self, it: Sent) -> None:
        """A bind was sent: no earlier one of its pod may have been done, or may still be."""
        last = self.last.get(it.uid)
        if last and not (last.answered and last.answered <= it.sent and 400 <= last.told < 500) and (it.sent < last.sent + MOST or last.told == 201):
            self.wrong.append(f"{it.key} was to be bound again {it.sent - last.sent:.1f} s after a bind that was answered with {last.told}")
        self.last[it.uid] = it
        self.open.append(it)

    def free(self) -> list[int]:
        """What is free of each node that may be used, where a pod more has room: what may still be bound counts."""
        taken = collections.Counter[str]()
        many = collections.Counter[str]()
        for it in self.open:
            found = self.waits.get(it.uid)
            taken[it.node] += found[1] if found else 0
            many[it.node] += 1
        free = list[int]()
        for name, (room, is_marked) in self.there.items():
            if not is_marked and self.sums[name][1] + many[name] < room[1]:
                free.append(room[0] - self.sums[name][0] - taken[name])
        return free


def until(it: Sent, now: float) -> float:
    """Up to when a bind that wasn't done may be taken to be under way by its client."""
    if it.answered and 400 <= it.told < 500:
        return it.answered + MAY
    return max(it.sent + LANDS, min(it.answered or now, it.sent + PATIENCE) + LASTS) + LOOKS


def within(changes: "list[tuple[float, It]]", since: float, when: float) -> "list[tuple[float, It]]":
    """What was so at any time between."""
    before = [it for it in changes if it[0] <= since][-1:]
    return [*before, *(it for it in changes if since < it[0] <= when)]


def cpu_of(pod: Thing) -> int:
    """What a pod of one container asks for, in thousandths of a core."""
    return int(1000 * quantity(pod["spec"]["containers"][0]["resources"]["requests"]["cpu"]))
