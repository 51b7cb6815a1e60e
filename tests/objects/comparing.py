# SPDX-License-Identifier: Apache-2.0
"""What `wsched translate` says of objects beside what the API's reference says of them, object by object."""
from __future__ import annotations

import collections
import json
import re
import subprocess
import sys
import time
from typing import Iterable

import reference
from reference import Json, Site, Told

# The most bytes of a line that is read.
LONGEST = 2**21
# What an entry begins with that has a name behind it, and what others there are. All else is a
# fault of the object.
NAMED = ("label ", "resource ", "volume ", "toleration of ", "host port ", "it is for the scheduler ", "field ")
PLAIN = re.compile(r"[A-Za-z0-9._/-]*")
FAULT = "a fault"
WHOLE = {f"{how} {what}" for how in ("required", "preferred") for what in ("node affinity", "pod affinity", "pod anti-affinity", "topology spread")}
WHOLE |= {"node selector", "scheduling gates", "resource claims", "it is being deleted", "affinity", reference.HELD}


def named(entry: str) -> str:
    """An entry; a name that isn't of a script's letters may be spelled in any way."""
    for word in NAMED:
        if entry.startswith(word):
            return entry if PLAIN.fullmatch(entry, len(word)) else f"{word}?"
    return entry if entry in WHOLE else FAULT


def sizes(cpu: str, memory: str) -> list[int]:
    """What a line's amounts are in thousandths of a core and bytes."""
    return [int((reference.worth(cpu) or 0) * 1000), int(reference.worth(memory) or 0)]


def in_numbers(line: Json | None) -> Json | None:
    """A line with amounts as whole numbers, and without its version."""
    if line is None:
        return None
    found = {key: value for key, value in line.items() if key != "v"}
    if "cpu" in found:
        found["cpu"], found["mem"] = sizes(found["cpu"], found["mem"])
    if "containers" in found:
        found["containers"] = [sizes(*it) for it in found["containers"]]
    return found


def differs(want: Told, said: Json) -> str | None:
    """What is otherwise than it should be."""
    if want.uncounted or "uncounted" in said:
        is_same = want.uncounted and set(said) == {"uncounted"} and len(said["uncounted"]) == 1
        return None if is_same else f"{said}, where it {'may' if want.uncounted else 'can not'} be a pod on a node that can't be counted"
    line, left_out = in_numbers(said["line"]), {named(it) for it in said["left_out"]}
    expected = {named(it) for it in want.left_out}
    if line != want.line:
        return f"line {line}, and not {want.line}"
    # (of a row that can't be said the first fault is enough, and of one that is kept back nobody
    # looks for a fault)
    is_row = want.line and want.line["op"] in ("node", "pod", "bound")
    is_enough = not is_row and expected - {FAULT} <= left_out <= expected and (left_out or not expected)
    if left_out != expected and not is_enough:
        return f"left out {sorted(left_out)}, and not {sorted(expected)}"
    return None


def spelled(things: Iterable[Json]) -> list[bytes]:
    """Objects as lines."""
    return [json.dumps(it).encode() for it in things]


def translated(program: str, lines: Iterable[bytes], *words: str) -> list[str]:
    """What the program writes."""
    told = b"".join(it + b"\n" for it in lines)
    return subprocess.run([program, "translate", *words], input=told, capture_output=True, check=True).stdout.decode().splitlines()


def site_of(words: tuple[str, ...]) -> Site:
    """How they ask for objects to be told."""
    behind = dict(zip(words, words[1:]))
    labels = tuple(behind["--labels"].split(",")) if "--labels" in behind else ()
    return Site(behind.get("--scheduler", "default-scheduler"), "--by-uid" in words, labels)


def otherwise(want: Told, said: Json, version: int) -> str | None:
    """What is otherwise than it should be, the version too, where there is a line."""
    line = said.get("line")
    return differs(want, said) or (f"version {line['v']}, and not {version}" if line and line["v"] != version else None)


def wanted(line: bytes, site: Site) -> Told:
    """What a line comes to: one that is too long may be a pod on a node."""
    return Told(None, ["a fault"], True) if len(line) > LONGEST else reference.translated(json.loads(line), site)


def compare(program: str, what: str, lines: list[bytes], *words: str) -> int:
    """How many differ; the first of these are shown."""
    began, counts, wrong, version = time.monotonic(), collections.Counter[str](), 0, 0
    answers = translated(program, lines, "--answers", *words)
    took = f"{time.monotonic() - began:.1f} s"
    if len(answers) != len(lines):
        print(f"{what}: {len(answers)} answers of {len(lines)} objects", file=sys.stderr)
        return 1
    for line, answer in zip(lines, answers):
        said, want = json.loads(answer), wanted(line, site_of(words))
        version += said.get("line") is not None
        why = otherwise(want, said, version)
        counts["uncounted" if want.uncounted else "none" if want.line is None else want.line["op"]] += 1
        wrong += why is not None
        if why and wrong <= 5:
            print(f"{what}: {why}: {line[:5000].decode()}", file=sys.stderr)
    print(f"{what}: {len(lines)} objects, {wrong} differ; {', '.join(f'{n} {it}' for it, n in counts.most_common())}; {took}")
    return wrong
