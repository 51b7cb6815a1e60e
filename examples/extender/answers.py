# SPDX-License-Identifier: Apache-2.0
"""What kube-scheduler is answered, of what wsched says of each node.

Of a filter: which nodes pass, and of each other why. Of a prioritize: 0 to 10 for each node.
"""
from __future__ import annotations

import collections
import functools
import itertools
from typing import Iterable, Mapping, NamedTuple, Sequence

from core.answers import Failed, OfNode, Passes, Rejected, of_node
from core.verdicts import Reasons, rejected_by
from tools.translating import Json, spell

from cores import NODES, Said

# What kube-scheduler takes at most ("MaxExtenderPriority"), and what a rule's score is at most.
HIGHEST, SCORE = 10, 100
# What is said of a node that wsched doesn't know; no reason names a node, since equal ones are
# counted together.
UNKNOWN = "node(s) weren't known to wsched"
# What stands for a percent sign in a reason: an event's text is a format to kube-scheduler, and a
# condition's isn't, so neither has one.
PERCENT = "\N{FULLWIDTH PERCENT SIGN}"
# The first version whose kube-scheduler knows FailedAndUnresolvableNodes, and one beside whose API
# server each does.
FIRST, KNOWN = 21, 24
# Up to how many bytes an answer is kept as it is sent.
LARGE = 2**18
# How many nodes there are of a rule and its answer.
Counts = dict[tuple[str, str], int]


def verdict(said: str) -> OfNode | None:
    """Of what stands behind a node's name, None where nothing does."""
    return of_node(said) if said else None


def counted_as(it: OfNode | None) -> tuple[str, str]:
    """The rule that keeps a node away, if any, and what it answers."""
    if isinstance(it, Rejected):
        return it.rule, str(it.code)
    if isinstance(it, Failed):
        return it.rule, "error"
    return "", "pass" if it else "unknown"


Groups = dict[str, list[str]]


class Sorted(NamedTuple):
    """The nodes that pass; by why they don't all others, by why those of code 3, and by why those
    of which nothing can be said. Names in `strange` may be any text; all others are those that a
    script can say."""

    passed: list[str]
    failed: Groups
    final: Groups
    faults: Groups
    strange: dict[str, str]
    counts: Counts


class Filtered(NamedTuple):
    """What a filter is answered about these nodes, and how the names that pass are spelled, where
    it is of names."""

    asked: frozenset[str]
    found: Sorted
    body: bytes
    passed: str


class Scored(NamedTuple):
    """What a prioritize is answered, and of how many nodes which rule says nothing."""

    body: bytes
    faults: Counts


class Maps(NamedTuple):
    """Where a rule's code 3 stands, which no eviction changes: in FailedNodes, which every
    kube-scheduler reads, and in FailedAndUnresolvableNodes, which those before 1.21 pass over and
    others prefer. (A thousand reasons are some 100 kB that it has to read.)"""

    failed: bool = True
    unresolvable: bool = True


def maps_beside(minor: int) -> Maps:
    """Beside an API server of version 1.MINOR, than which no kube-scheduler is newer, nor more than
    a version older."""
    return Maps(minor < KNOWN, minor >= FIRST)


class Words:
    """How rules' answers are told, with what they say of themselves; and how their scores count."""

    def __init__(self, reasons: Reasons, weights: Mapping[str, int]) -> None:
        """`weights` are those of the rules that have a score."""
        self.reasons, self.weights, self.most = reasons, weights, sum(weights.values()) * SCORE
        self.score = functools.lru_cache(maxsize=65536)(self.score_of)

    def why(self, it: Rejected | Failed) -> str:
        if isinstance(it, Failed):
            return f"rule {it.rule} says nothing: {it.cause}"
        reason = self.reasons.get(it.rule, {}).get(it.code, "").replace("%", PERCENT)
        return rejected_by(it) + (f" ({reason})" if reason else "")

    def score_of(self, said: str) -> int:
        """The weighted mean of the scores, as a part of HIGHEST and rounded down; 0 where a node
        doesn't pass."""
        if not self.most:
            return 0
        it = verdict(said)
        scores = it.scores if isinstance(it, Passes) else ()
        sums = (weight * score for rule, weight, score in scores if rule in self.weights)
        return sum(sums) * HIGHEST // self.most

    def sort(self, names: Sequence[str], said: Said, unsaid: Mapping[str, str]) -> Sorted:
        """`unsaid` are the nodes that no row says as they are, and why."""
        is_passing = said.passing.__contains__
        found = Sorted([*filter(is_passing, names)], {}, {}, {}, {}, {})
        if found.passed:
            found.counts[counted_as(Passes(0))] = len(found.passed)
        if len(found.passed) == len(names):
            return found
        for what, some in grouped(itertools.filterfalse(is_passing, names), said).items():
            it = verdict(what)
            key = counted_as(it)
            found.counts[key] = found.counts.get(key, 0) + len(some)
            if not isinstance(it, (Rejected, Failed)):
                found.strange.update((name, unsaid.get(name, UNKNOWN)) for name in some)
                for name in [it for it in some if it in unsaid]:
                    found.faults.setdefault(unsaid[name], []).append(name)
            else:
                why = self.why(it)
                found.failed.setdefault(why, []).extend(some)
                if isinstance(it, Failed):
                    found.faults.setdefault(why, []).extend(some)
                elif it.is_for_good:
                    found.final.setdefault(why, []).extend(some)
        return found

    def host(self, name: str, what: str) -> str:
        return f'{{"Host":"{name}","Score":{self.score(what)}}}'

    def hosts(self, said: Said) -> dict[str, str]:
        """Of each node its part of a prioritize's answer, which is kept where it isn't large.
        (Several threads may make it.)"""
        hosts, like = said.hosts, said.like
        if hosts is None:
            known = (like.hosts if like else None) or {}
            new = said.new if known else said
            hosts = known | {name: self.host(name, said[name]) for name in new}
            if len(hosts) <= NODES:
                said.hosts, said.like = hosts, None
        return hosts

    def make_ready(self, names: Sequence[str], spelled: str, said: Said) -> None:
        """Has what a prioritize of these names is answered, if it isn't large; and where each node
        has the score that it had before, that is what it was."""
        like = said.like
        if like and like.hosts and like.scored[0] == spelled and not like.has_faults:
            before = map(like.hosts.get, said.new)
            if not said.has_faults and [*before] == [self.host(it, said[it]) for it in said.new]:
                said.hosts, said.scored, said.like = like.hosts, like.scored, None
                return
        found = self.scores(names, said)
        if len(found.body) <= LARGE:
            said.scored = spelled, found

    def scores(self, names: Sequence[str], said: Said) -> Scored:
        hosts = self.hosts(said)
        faults: Counts = {}
        if not hosts.keys() >= {*names}:
            # (what isn't known may have any name)
            strange = [it for it in names if it not in hosts]
            hosts = hosts | {it: self.host(spell(it)[1:-1], "") for it in strange}
        for name in names if said.has_faults else ():
            it = verdict(said.get(name, ""))
            if isinstance(it, Failed):
                faults[it.rule, it.cause] = faults.get((it.rule, it.cause), 0) + 1
        return Scored(f"[{','.join(map(hosts.__getitem__, names))}]".encode(), faults)


def grouped(names: Iterable[str], said: Mapping[str, str]) -> Groups:
    """The names by what is said of them; by nothing those of which nothing is said."""
    groups: collections.defaultdict[str, list[str]] = collections.defaultdict(list)
    for name in names:
        groups[said.get(name, "")].append(name)
    return groups


def by_name(groups: Groups, strange: Mapping[str, str]) -> str:
    """As an object of JSON: of each name why."""
    parts = []
    for why, names in groups.items():
        said = spell(why)
        parts.append('"' + f'":{said},"'.join(names) + f'":{said}')
    parts += [f"{spell(name)}:{spell(why)}" for name, why in strange.items()]
    return f"{{{','.join(parts)}}}"


def filtered(
    asked: frozenset[str], found: Sorted, nodes: Sequence[Json] | None, maps: Maps
) -> Filtered:
    """What a filter is answered; of nodes that were handed over those that pass are handed back."""
    named = ""
    if nodes is None:
        # (as kube-scheduler spells them when it asks for their scores)
        named = '["' + '","'.join(found.passed) + '"]' if found.passed else "[]"
        passed = f'"NodeNames":{named}'
    else:
        names = {*found.passed}
        handed = [it for it in nodes if it["metadata"]["name"] in names]
        passed = f'"Nodes":{spell({"items": handed})}'
    others = {why: names for why, names in found.failed.items() if why not in found.final}
    failed = by_name(found.failed if maps.failed else others, found.strange)
    final = by_name(found.final if maps.unresolvable else {}, {})
    body = f'{{{passed},"FailedNodes":{failed},"FailedAndUnresolvableNodes":{final}}}'
    return Filtered(asked, found, body.encode(), named)


def fault(why: str) -> bytes:
    """An `Error`, which kube-scheduler takes for a format (fmt.Errorf)."""
    return spell({"Error": why.replace("%", "%%")}).encode()


def faulty(found: Sorted) -> str:
    """Of the nodes of which nothing can be said the first by name (so that the same is said each
    time), and how many others there are."""
    name, why = min((min(names), why) for why, names in found.faults.items())
    count = sum(map(len, found.faults.values()))
    return f"node {name}: {why}" + (f"; and {count - 1} nodes more" if count > 1 else "")
