# SPDX-License-Identifier: Apache-2.0
"""What was recorded: a script of `wsched run`, or the lines that `wsched live` was told, which give one. Both may be gzip, and both may have
been cut off behind any line.
"""
from __future__ import annotations

import argparse
import contextlib
import gzip
import itertools
import json
import shutil
import subprocess
import sys
import tempfile
from typing import IO, Iterator, NamedTuple, Sequence

from tools.program import WSCHED, Untold
from tools.steps import Json, Line, Steps, spell
from state import affinity

ONLY_SCRIPT = frozenset(["node", "gone", "pod", "bound", "deleted", "done", "forget", "judge"])
# (ticks, cycles and dumps are of both)
ONLY_LIVE = frozenset(["list", "listed", "deaf", "hears", "rested", "aside", "bind", "answer", "read", "explain", "told"])
PIECE = 1 << 20


class Words(NamedTuple):
    """By which `wsched live` was told the lines."""

    specs: Sequence[str] = ()
    scheduler: str = "wsched"
    labels: str | None = None

    @property
    def of_objects(self) -> list[str]:
        return [f"--scheduler={self.scheduler}", *([] if self.labels is None else [f"--labels={self.labels}"])]


def add_words(said: argparse.ArgumentParser) -> None:
    said.add_argument("--scheduler", metavar="NAME", default="wsched")
    said.add_argument("--labels", metavar="KEY,..")


def script_lines(file: str, by: Words) -> Iterator[str]:
    """The script that a file is, or gives, line by line; `-` is standard input. OSError, EOFError, zlib.error: it can't be read; Untold: it gives
    none."""
    with plain(file) as lines:
        if told_to(lines) == "live":
            yield from steps_of(lines, by)
        else:
            yield from (it.decode().rstrip("\n") for it in lines)


@contextlib.contextmanager
def plain(file: str) -> Iterator[IO[bytes]]:
    """The lines of a file as they are now, which can be read again."""
    with contextlib.ExitStack() as opened:
        source = sys.stdin.buffer if file == "-" else opened.enter_context(open(file, "rb"))
        lines = opened.enter_context(tempfile.TemporaryFile())
        shutil.copyfileobj(source, lines, PIECE)
        lines.seek(0)
        if lines.read(2) == b"\x1f\x8b":
            lines.seek(0)
            lines = unpacked(lines, opened.enter_context(tempfile.TemporaryFile()))
        lines.seek(0)
        yield lines


def unpacked(packed: IO[bytes], lines: IO[bytes]) -> IO[bytes]:
    """(of one that ends early, as where a disk was full, the whole lines)"""
    with gzip.open(packed) as it:
        try:
            while some := it.read1(PIECE):
                lines.write(some)
        except EOFError:
            lines.truncate(end_of_lines(lines))
    return lines


def end_of_lines(lines: IO[bytes]) -> int:
    end = lines.tell()
    while end:
        start = max(0, end - PIECE)
        lines.seek(start)
        if found := lines.read(end - start).rfind(b"\n") + 1:
            return start + found
        end = start
    return 0


def told_to(lines: IO[bytes]) -> str:
    """`live` or `run`, by the first line that only one of them is told; neither where there is none."""
    found = next(filter(None, map(of_line, lines)), "")
    lines.seek(0)
    return found


def of_line(line: bytes) -> str:
    thing = parsed(line)
    if thing is None:
        return "" if line.isspace() else "run"
    op = thing.get("op")
    return "live" if "op" not in thing or op in ONLY_LIVE else "run" if op in ONLY_SCRIPT else ""


def parsed(line: bytes) -> Json | None:
    """The JSON object that it is."""
    try:
        thing = json.loads(line.decode())
    except (ValueError, RecursionError):
        return None
    return thing if isinstance(thing, dict) else None


# ---- the lines that `wsched live` was told


def steps_of(lines: IO[bytes], by: Words) -> Iterator[str]:
    """The steps of its desk. Where the lines tell of binds that weren't granted here, this is said on standard error: they were told by other
    words."""
    steps = Steps()
    for number, line in enumerate(answered(lines, by), 1):
        try:
            yield from steps.of(line)
        except (LookupError, TypeError, ValueError, AttributeError) as why:
            raise Untold(f"line {number} is answered by {line.answer!r}, which can't be ({why!r})") from why
    if steps.amiss:
        print(f"{steps.amiss} lines tell of binds that these rules don't decide: were they told by others, or of another scheduler?", file=sys.stderr)


def answered(lines: IO[bytes], by: Words) -> Iterator[Line]:
    """Each line with its answer."""
    with tempfile.TemporaryFile() as objects, tempfile.TemporaryFile() as answers, tempfile.TemporaryFile() as rows:
        lines.seek(0)
        objects.writelines(object_in(it, parsed(it)) for it in lines)
        run_over(lines, ["live", *by.of_objects, "--", *by.specs], answers)
        run_over(objects, ["translate", "--by-uid", "--answers", *by.of_objects], rows)
        for line in lines:
            thing = parsed(line)
            answer = answer_to(thing, answers)
            row = json.loads(next_of(rows)).get("line") if object_in(line, thing) else None
            if told := told_in(thing):
                thing, row = told.event, told.in_row(row)
            yield Line(thing or {}, answer, row)


class Told(NamedTuple):
    """An object, or an event, that is told with labels beside its own."""

    event: Json
    labels: Json

    @property
    def bare(self) -> Json:
        """What else it says: its pod asks nothing more of nodes' labels and of claims, and its own labels under these keys give way."""
        inner: Json = self.event.get("object", self.event)
        meta, spec = inner["metadata"], inner.get("spec") or {}
        own = {key: value for key, value in (meta.get("labels") or {}).items() if key not in self.labels}
        thing: Json = {**inner, "spec": spec, "metadata": {**meta, "labels": own}}
        thing = thing if spec.get("nodeName") else affinity.without(thing)
        return {**self.event, "object": thing} if "object" in self.event else thing

    def in_row(self, row: Json | None) -> Json | None:
        """Its row has them before all others."""
        if row is None or "labels" not in row:
            return row
        return {**row, "labels": [*([key, value] for key, value in sorted(self.labels.items())), *row["labels"]][: affinity.LABELS]}


def told_in(thing: Json | None) -> Told | None:
    if thing is None or thing.get("op") != "told":
        return None
    event, labels = thing.get("event"), thing.get("labels")
    return Told(event, labels) if isinstance(event, dict) and isinstance(labels, dict) else None


def object_in(line: bytes, thing: Json | None) -> bytes:
    """The object of the API that it tells, as a line; nothing where there is none."""
    if thing is None:
        return b""
    if "op" not in thing:
        return line.rstrip(b"\n") + b"\n"
    if told := told_in(thing):
        return f"{spell(told.bare)}\n".encode()
    gave = thing.get("gave")
    return f"{spell(gave)}\n".encode() if thing["op"] == "read" and isinstance(gave, dict) else b""


def run_over(lines: IO[bytes], words: list[str], output: IO[bytes]) -> None:
    lines.flush()
    lines.seek(0)
    try:
        done = subprocess.run([WSCHED, *words], stdin=lines, stdout=output, stderr=subprocess.PIPE, check=False)
    except OSError as why:
        raise Untold(f"{WSCHED} can't be run: {why}") from why
    if done.returncode:
        raise Untold(done.stderr.decode(errors="replace").strip() or f"wsched {words[0]} ended with status {done.returncode}")
    for it in (lines, output):
        it.seek(0)


def answer_to(thing: Json | None, answers: IO[bytes]) -> str:
    """The last line of it: an explanation's others begin with two blanks, and a dump ends with the clock."""
    is_dump = thing is not None and thing.get("op") == "dump"
    texts = map(next_of, itertools.repeat(answers))
    return next(it for it in texts if not it.startswith("  ") and (not is_dump or it.startswith(("clock ", "faulty "))))


def next_of(lines: IO[bytes]) -> str:
    line = lines.readline()
    if not line.endswith(b"\n"):
        raise Untold("wsched says less than it is asked")
    return line.decode().rstrip("\n")
