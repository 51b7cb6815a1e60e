# SPDX-License-Identifier: Apache-2.0
"""What the program says of a module, a script and a fuel, and the script that generated modules are asked about."""
from __future__ import annotations

import pathlib
import subprocess
import sys
from typing import NamedTuple

TOP = pathlib.Path(__file__).resolve().parent.parent.parent
sys.path.insert(0, str(TOP / "examples/tools"))

# pylint: disable=wrong-import-position
from evaluator.decisions import Asked, followed
from evaluator.machine import Instance, Refused, verdict
from evaluator.module import Module, read

# A plugin's name in the program's words.
NAME = "m"
# Two nodes and three pods, each asked about alone; of both versions' fields something, and of
# records some that are longer than 256 bytes.
LONG = ",".join(f'["example.com/label-{k:02}","{"v" * (3 * k)}"]' for k in range(14))
SCRIPT = "\n".join([
    '{"op":"node","v":1,"name":"a","cpu":"4","mem":"8Gi","pods":110}',
    f'{{"op":"node","v":2,"name":"node-b","cpu":"16","mem":"64Gi","pods":250,"labels":[{LONG}],"taints":[["spot","yes","PreferNoSchedule"]]}}',
    '{"op":"bound","v":3,"uid":"x","node":"node-b","cpu":"1500m","mem":"3Gi"}',
    *(f'{{"op":"pod","v":{version},{pod}}}\n{{"op":"cycle"}}\n{{"op":"deleted","v":{version + 1},"uid":"{uid}"}}'
      for version, uid, pod in ((4, "p", '"uid":"p","containers":[["100m","64Mi"]]'),
                                (6, "web/q", f'"uid":"web/q","priority":-7,"containers":[["1","1Gi"]],"labels":[{LONG}]'),
                                (8, "r", '"uid":"r","containers":[["0","0"]],"tolerations":[["spot","Exists","",""],["","Exists","","NoExecute"]]')))])


class Tried(NamedTuple):
    """A module in a file, and a script."""

    file: pathlib.Path
    module: Module
    script: str


class Said(NamedTuple):
    """The program's refusal of an instance, if it refuses; else each pod and node with what it says of them."""

    refusal: str
    asked: list[Asked]

    @property
    def answers(self) -> list[str]:
        """The plugin's part of each line of `explain`, or the refusal."""
        if self.refusal:
            return [self.refusal]
        return [f"score {it.said[-1]}" if it.said[0] == "total" else " ".join(it.said) for it in self.asked]


def module_of(data: bytes) -> Module:
    """It, read."""
    return read(data)


def program_says(program: str, tried: Tried, fuel: int) -> Said:
    done = subprocess.run([program, "explain", f"{NAME}:1:{fuel}:{tried.file}"], input=tried.script, capture_output=True, text=True, check=False)
    if done.returncode:
        return Said(done.stderr.strip().removeprefix(f"wsched: plugin {NAME}: refused instance "), [])
    return Said("", [*followed(tried.script, done.stdout)])


def evaluator_says(tried: Tried, asked: list[Asked], fuel: int) -> list[str]:
    """The same, of the pods and nodes that the program was asked about."""
    try:
        instance = Instance(tried.module, fuel)
    except Refused as why:
        return [str(why)]
    return [verdict(instance, NAME, it.records, fuel) for it in asked]


def costs(tried: Tried, asked: list[Asked], most: int) -> list[int]:
    """What the calls cost that end within so much, in rising order."""
    try:
        instance = Instance(tried.module, most)
    except Refused as why:
        return [why.outcome.cost] if why.outcome else []
    outcomes = [instance.call(export, it.records, most) for it in asked for export in ("filter", "score") if export in instance.exports]
    return sorted({it.cost for it in outcomes if str(it.stop) != "exhausted"})
