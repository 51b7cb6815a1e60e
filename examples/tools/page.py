# SPDX-License-Identifier: Apache-2.0
"""The page that draws runs: examples/report/report.html with their scripts and outputs in it."""
from __future__ import annotations

import json
import pathlib
from typing import Any, NamedTuple, Sequence

from tools.wasm_sections import of_spec

TEMPLATE = pathlib.Path(__file__).resolve().parent.parent / "report/report.html"
PLACE = '<script id="data" type="application/json">null</script>'
Json = dict[str, Any]


class Run(NamedTuple):
    """What the page is told of a run; of each rule its name, weight, fuel and reasons, and None where it isn't known which these were."""

    name: str
    script: str
    output: str
    rules: list[Json] | None


def run_of(name: str, script: str, output: str, specs: Sequence[str] | None) -> Run:
    return Run(name, script, output, None if specs is None else [*map(rule_of, specs)])


def rule_of(spec: str) -> Json:
    """What a word NAME:WEIGHT:FUEL:FILE says of a rule, and what that says of its rejections."""
    parts = spec.split(":", maxsplit=3)
    if len(parts) < 4 or not parts[1].isdecimal() or not parts[2].isdecimal():
        raise ValueError(f"{spec} is no rule: NAME:WEIGHT:FUEL:FILE")
    return {"name": parts[0], "weight": int(parts[1]), "fuel": int(parts[2]), "reasons": of_spec(spec).reasons}


def page(runs: Sequence[Run]) -> str:
    # "<" is spelled so that no text of a script can end the element that it stands in
    data = json.dumps({"runs": [it._asdict() for it in runs]}).replace("<", "\\u003c")
    before, mark, after = TEMPLATE.read_text(encoding="utf-8").partition(PLACE)
    if not mark:
        raise ValueError(f"{TEMPLATE} has no place for data")
    return before + mark.replace("null", data) + after
