# SPDX-License-Identifier: Apache-2.0
"""Which labels of pods and nodes the site's rules read: a row has room for some, and those that a rule reads mustn't give way.

A rule's module names them in a custom section, which examples/tools reads, and `--labels` names them for all rules. Whoever may make pods
may give them labels that sort before all others: where a rule doesn't say which it reads, one with more than a row has room for is left alone.
"""
from __future__ import annotations

import argparse
import logging
import re
from typing import NamedTuple, Sequence

LOG = logging.getLogger("second-scheduler")
# What a row can say as a label's key.
KEY = re.compile(r"[A-Za-z0-9._/-]{1,63}")


class Named(NamedTuple):
    """The keys that rules read, and the rules that don't say which."""

    keys: frozenset[str] = frozenset()
    silent: tuple[str, ...] = ()

    def why(self, many: int, room: int, gone: Sequence[str]) -> str:
        """Why one whose labels would give way is left alone, or isn't used."""
        some = ", ".join(sorted(gone)[:10]) + (", .." if len(gone) > 10 else "")
        if self.silent:
            rules = ", ".join(self.silent)
            return f"{many} labels, of which {room} have room, and {rules} may read any of them (--labels names those that are read): {some}"
        return f"more labels that rules read than there is room for: {some}"

    def chosen(self, keys: Sequence[str], room: int) -> tuple[list[str], list[str]] | None:
        """Of an object's keys those that are told, and those that give way; None where one that a rule may read would have to."""
        if len(keys) <= room:
            return [*keys], []
        first = [it for it in keys if it in self.keys]
        if self.silent or len(first) > room:
            return None
        told = {*first, *[it for it in sorted(keys) if it not in self.keys][: room - len(first)]}
        return [it for it in keys if it in told], sorted(it for it in keys if it not in told)


def read_by(specs: Sequence[str], named: Sequence[str] | None, is_ours: str) -> Named:
    """What the rules of these words read; `named` are the keys of --labels, if there were any. What the rule `is_ours` reads is known anyway."""
    said, silent = set(named or ()), list[str]()
    for spec in specs:
        name = spec.partition(":")[0]
        its = named_by(spec)
        if its is not None:
            said |= {*its}
        elif name != is_ours and named is None:
            silent.append(name)
    return Named(frozenset(said), tuple(silent))


def named_by(spec: str) -> Sequence[str] | None:
    """The keys that the module of a word NAME:WEIGHT:FUEL:FILE names, None where it names none."""
    # (whoever reads no module needs no tools beside this folder)
    from tools.wasm_sections import of_spec  # pylint: disable=import-outside-toplevel

    said = of_spec(spec)
    for fault in said.faults:
        LOG.warning("rule %s: %s", spec.partition(":")[0], fault)
    return said.labels


def words(text: str) -> list[str]:
    """KEY,.. of --labels."""
    keys = text.split(",")
    for it in keys:
        if not KEY.fullmatch(it):
            raise argparse.ArgumentTypeError(f"{it!r} is no label's key of 1 to 63 bytes")
    return keys
