# SPDX-License-Identifier: Apache-2.0
"""The program, and a script that it is told."""
from __future__ import annotations

import json
import os
import pathlib
import subprocess
from typing import Iterator, NamedTuple, Sequence

from core.answers import LAST_OF_DUMP, OfNode, is_of_node, node_and_said

WSCHED = os.environ.get("WSCHED") or str(pathlib.Path(__file__).resolve().parent.parent.parent / "crates/wsched/out/wsched")


spell = json.JSONEncoder().encode


class Untold(Exception):
    """Something can't be said, and why."""


class Answer(NamedTuple):
    """What was answered to a line: of a dump all of its lines, and before a cycle's what `explain` says of each node."""

    said: list[str]
    nodes: dict[str, OfNode]


def ran(words: Sequence[str], told: str) -> str:
    """What the program writes, where all is well."""
    try:
        done = subprocess.run([WSCHED, *words], input=told, capture_output=True, text=True, check=False)
    except OSError as why:
        raise Untold(f"{WSCHED} can't be run: {why}") from why
    if done.returncode:
        raise Untold(done.stderr.strip() or f"wsched ended with status {done.returncode}")
    return done.stdout


class Script:
    """Lines, each with its version where it has one."""

    def __init__(self) -> None:
        self.lines: list[str] = []
        self.dumps: set[int] = set()
        self.version = 0
        # what was written when it was run last
        self.output = ""

    def event(self, op: str, fields: str) -> int:
        """Adds a watch event, whose fields behind the version are JSON; and gives the number of its answer."""
        self.version += 1
        self.lines.append(f'{{"op":"{op}","v":{self.version},{fields}}}')
        return len(self.lines) - 1

    def tick(self, at: int) -> int:
        self.lines.append(f'{{"op":"tick","at":{at}}}')
        return len(self.lines) - 1

    def cycle(self) -> int:
        self.lines.append('{"op":"cycle"}')
        return len(self.lines) - 1

    def dump(self) -> int:
        self.dumps.add(len(self.lines))
        self.lines.append('{"op":"dump"}')
        return len(self.lines) - 1

    def answers(self, what: str, specs: Sequence[str]) -> list[Answer]:
        """Of each line its answer, by `run` or by `explain`."""
        self.output = ran([what, "--", *specs], self.text)
        return [*self.paired(iter(self.output.splitlines()))]

    @property
    def text(self) -> str:
        return "\n".join(self.lines) + "\n"

    def paired(self, output: Iterator[str]) -> Iterator[Answer]:
        for k in range(len(self.lines)):
            nodes: dict[str, OfNode] = {}
            line = next_of(output)
            while is_of_node(line):
                name, of_it = node_and_said(line)
                nodes[name] = of_it
                line = next_of(output)
            said = [line]
            while k in self.dumps and not said[-1].startswith(LAST_OF_DUMP):
                said.append(next_of(output))
            yield Answer(said, nodes)


def next_of(output: Iterator[str]) -> str:
    line = next(output, "")
    if not line:
        raise Untold("wsched says less than it is asked")
    return line


def quoted(text: str) -> str:
    return spell(text)
