# SPDX-License-Identifier: Apache-2.0
"""Lines that no transport tells, in any order: laws 1 to 4 are about whatever is told."""
from __future__ import annotations

import random

from laws import Broken, History, check
from lines import (KINDS, NODES, PODS, Amounts, Answer, Aside, Cycle, Deaf, Gone, Hears, Line, Listed, Lists, Node, Offered, Past, Pod, Told, WasRead)
from transport import Make

NAMES, NODE_NAMES, UIDS = ("a", "b", "c"), ("m", "n"), ("1", "2", "3")
ASKS: tuple[Amounts | None, ...] = ((1, 1, 1), (2, 1, 1), (3, 2, 1), None)
ROOMS: tuple[Amounts | None, ...] = ((3, 3, 1), (6, 6, 4), None)
ANSWERS, READS = ("created", "refused", "lost", "over"), ("waits", "gone", "on")
AWAKE: list[Line] = [Past(), Lists(NODES), Told(Node("m", "1", 1, ROOMS[1])), Told(Node("n", "1", 1, ROOMS[1])), Listed(NODES), Lists(PODS), Listed(PODS)]


def any_line(dice: random.Random) -> Line:
    name, uid, version, kind, number = dice.choice(NAMES), dice.choice(UIDS), dice.randrange(1, 14), dice.choice(KINDS), dice.randrange(1, 6)
    what = dice.randrange(15)
    if what < 4:
        node = dice.choice(NODE_NAMES) if what == 0 else None
        return Told(Pod(name, uid, version, dice.choice(ASKS), node, dice.random() < 0.9))
    if what == 4:
        return Told(Node(dice.choice(NODE_NAMES), uid, version, dice.choice(ROOMS)))
    if what < 7:
        return WasRead(number, dice.choice(READS), dice.choice(NODE_NAMES))
    some: tuple[Line, ...] = (
        Lists(kind), Listed(kind), Gone(kind, name if kind == PODS else dice.choice(NODE_NAMES), version), Deaf(kind), Hears(kind), Past(),
        Answer(number, dice.choice(ANSWERS)), Aside(name, uid), Offered(name, uid), Cycle(dice.randrange(9), dice.randrange(9)),
    )
    return dice.choice(some) if what < 12 else some[-1]


def broken_by_any(dice: random.Random, make: Make) -> str | None:
    """The law that some lines break, if they do any."""
    most, fences = dice.choice((2, 3, 100)), dice.random() < 0.3
    machine, history = make(most, fences), History(most)
    lines = AWAKE if dice.random() < 0.8 else []
    for line in [*lines, *(any_line(dice) for _ in range(60))]:
        try:
            check(history, line, machine.take(line), machine)
        except (Broken, LookupError) as why:
            return f"{why!r} by {line}"
    return None
