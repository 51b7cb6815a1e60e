# SPDX-License-Identifier: Apache-2.0
"""Histories by chance, and the short one that a long one that breaks a law has in it."""
from __future__ import annotations

import random
from typing import Callable

from laws import Broken
from server import Rules
from transport import Make
from world import Step, World

# How often each step is taken.
WEIGHTS = {
    "make": 14, "born": 1, "bound": 1, "remove": 8, "again": 3, "touch": 3, "node": 2, "no_node": 1, "compact": 1, "land": 6, "pass": 5,
    "list": 1, "page": 4, "cut": 1, "open": 3, "shut": 1, "event": 10, "hear": 12,
    "answer": 6, "over": 4, "serve": 4, "read": 4, "next": 24, "past": 3, "cycle": 8, "try": 14, "aside": 1, "offer": 2, "restart": 1,
}
NAMES, LENGTHS = [*WEIGHTS], (20, 40, 80, 120)
# How a history begins, mostly: so that most of it is spent with an instance that may bind.
AWAKE = [Step("hear", 1), Step("past"), Step("hear", 0)]
LATER = [Step("pass", 39), Step("pass", 39), *AWAKE]


def history(dice: random.Random) -> list[Step]:
    """(in each some steps are frequent and others left out: so that what is rare in most is common in one)"""
    length, weights = dice.choice(LENGTHS), [it * dice.choice((0, 1, 1, 4)) for it in WEIGHTS.values()]
    for it in ("make", "next", "try"):
        weights[NAMES.index(it)] += 4
    steps = [Step("node", it, 4 + dice.randrange(4)) for it in range(dice.randrange(1, 3))]
    if dice.random() < 0.3:
        # one node, with room for one pod
        steps, weights[NAMES.index("node")] = [Step("node", 0, 4)], 0
    steps += [Step("born", dice.randrange(64), dice.randrange(1024)) for _ in range(dice.randrange(3))]
    if dice.random() < 0.9:
        steps += AWAKE
    for name in dice.choices(NAMES, weights, k=length):
        steps.append(Step(name, dice.randrange(64), dice.randrange(1024)))
        if name == "restart" and dice.random() < 0.8:
            steps += (AWAKE, LATER)[dice.randrange(2)]
    return steps


def broken(
    steps: list[Step], rules: Rules, make: Make, cluster_alone: bool = False, counted: list[int] | None = None
) -> tuple[str, World] | None:
    """The law that it breaks, if it does any. `counted` gets how many lines were told, and binds posted."""
    world = World(rules, make, cluster_alone)
    try:
        for it in steps:
            world.do(it)
        world.settle()
    except Broken as why:
        return str(why), world
    except LookupError as why:
        return f"0: a line has no answer: {why!r}", world
    if counted is not None:
        counted += [len(world.lines), len(world.server.posts)]
    return None


def shortest(steps: list[Step], is_wrong: Callable[[list[Step]], bool]) -> list[Step]:
    """What is left when no step can be left out, and no number be 0."""
    size = len(steps) // 2
    while size:
        at = 0
        while at < len(steps):
            fewer = steps[:at] + steps[at + size :]
            if is_wrong(fewer):
                steps = fewer
            else:
                at += size
        size //= 2
    for at, it in enumerate([*steps]):
        for simpler in (it._replace(one=0, two=0), it._replace(two=0), it._replace(one=0)):
            tried = steps[:at] + [simpler] + steps[at + 1 :]
            if simpler != it and is_wrong(tried):
                steps = tried
                break
    return steps
