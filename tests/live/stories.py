# SPDX-License-Identifier: Apache-2.0
"""Short histories, made by hand, over each of which one wrong machine fills a node over its room, or the right one does where a premise
doesn't hold. On the node m is room for one pod, mostly, and the pods a and b wait."""
from __future__ import annotations

from typing import NamedTuple

import wrong
from machine import Machine
from server import Rules
from transport import Make
from world import Step

# Steps, by what they do here.
NODE, ROOMY = Step("node", 0, 4), Step("node", 0, 5)
POD, LARGE = Step("make", 0, 36), Step("make", 0, 39)
NODES, PODS, PAST = Step("hear", 1), Step("hear", 0), Step("past")
AWAKE = [NODES, PAST, PODS]
BIND, OTHER = Step("cycle", 0), Step("cycle", 1)
CHANGES, LANDS, ONE_EVENT = Step("touch", 0), Step("land"), Step("event", 0, 0)
CREATED, LOST, REFUSED = Step("answer", 0, 5), Step("answer", 0, 0), Step("answer", 0, 1)
MINUTE = [Step("pass", 39), Step("pass", 39)]
OVER, SERVED, READ = Step("over"), Step("serve"), Step("read")
BOUND = [NODE, POD, POD, *AWAKE, BIND]


class Story(NamedTuple):
    """What is told, by whom it is told wrongly, and what the server does."""

    what: str
    make: Make
    steps: list[Step]
    rules: Rules = Rules()


STORIES = (
    Story("no answer came, and the bind was done", wrong.LostForgotten, [*BOUND, LANDS, LOST, OTHER]),
    Story("the time is over, the bind was done, and the watch is late", wrong.OverForgotten, [*BOUND, LANDS, LOST, *MINUTE, OVER, OTHER]),
    Story("a bind that was done is refused when it is posted again", wrong.RefusedForgotten, [*BOUND, LANDS, REFUSED, OTHER]),
    Story("and the watch tells what was before it", wrong.RefusedByWatch, [*BOUND, CHANGES, LANDS, REFUSED, ONE_EVENT, OTHER]),
    Story("a read before the time is over says nothing", wrong.AnyRead, [*BOUND, LOST, SERVED, READ, OTHER]),
    Story("also where its answer comes after", wrong.EarlyRead, [*BOUND, LOST, SERVED, LANDS, *MINUTE, OVER, READ, OTHER]),
    Story("a fence holds nothing off where no version is tested", wrong.FencesAlways, [*BOUND, LOST, SERVED, READ, OTHER]),
    Story("the watch tells what was before the bind that has an answer", wrong.LateWaits, [*BOUND, CHANGES, LANDS, CREATED, ONE_EVENT, OTHER]),
    Story("the watch is late by more than 30 seconds", wrong.DoneExpires, [*BOUND, LANDS, CREATED, Step("pass", 39), OTHER]),
    Story("a pod is taken aside under bind", wrong.AsideFrees, [*BOUND, Step("aside"), BIND]),
    Story("a pod changes under bind", wrong.ChangeFrees, [*BOUND, CHANGES, ONE_EVENT, OTHER]),
    Story("a watch begins with what was before a namesake", wrong.NoVersions,
          [NODE, POD, *AWAKE, Step("again", 0, 36), POD, PODS, BIND, LANDS, CREATED, Step("shut"), Step("open", 0, 29), ONE_EVENT, OTHER]),
    Story("an instance starts with a bind under way", wrong.AtOnce, [*BOUND, Step("restart"), NODES, PODS, OTHER]),
    Story("it is done while that waits, and the watch is late", wrong.PastAlone, [*BOUND, Step("restart"), NODES, PODS, LANDS, *MINUTE, PAST, OTHER]),
    Story("or the list that has ended since is of before", wrong.PastAtEnd,
          [*BOUND, Step("restart"), NODES, Step("list"), LANDS, *MINUTE, PAST, Step("page", 0, 3), OTHER]),
    Story("a list names a pod that hasn't changed", wrong.LateNames, [*BOUND, LANDS, CREATED, PODS, Step("list"), PODS, POD, PODS, BIND]),
    Story("a server up to 1.20 binds a namesake", Machine, [*BOUND, Step("again", 0, 36), PODS, OTHER], Rules(tests_uids=False)),
    Story("what a pod asks for grows under bind", Machine, [ROOMY, POD, LARGE, *AWAKE, BIND, Step("touch", 0, 7), BIND], Rules(asks_grow=True)),
    Story("others put a pod there", Machine, [*BOUND, Step("born", 0, 12)], Rules(others_bind=True)),
)
