# SPDX-License-Identifier: Apache-2.0
"""Times a program's storm and its run, and prints a table.

    measure.py PROGRAM FOLDER ROUNDS

FOLDER has the script `watched`, and `with_cycles`, the same with a cycle for each of its pods. Reading the script is timed with the
rest, and so is the making of the desk.
"""
import os
import re
import subprocess
import sys
import time

PODS = 10_000


def timed(program, words, path):
    """How long it takes by the clock, its most memory in MiB, and what it writes."""
    with open(path, "rb") as source:
        start = time.perf_counter()
        process = subprocess.Popen([program, *words], stdin=source, stdout=subprocess.PIPE)
        out = process.stdout.read()
        _, status, usage = os.wait4(process.pid, 0)
        took = time.perf_counter() - start
    if status != 0:
        sys.exit(f"the program ended with {status}")
    return took, usage.ru_maxrss / 1024, out


def least(program, words, path, rounds, is_right):
    """The least time of so many, with its memory."""
    times = []
    for _ in range(rounds):
        took, memory, out = timed(program, words, path)
        if not is_right(out):
            sys.exit(f"not what was to come: {out[-300:]!r}")
        times.append((took, memory))
    return min(times)


def is_audited(out):
    """Each pod has a place or waits out a backoff, and the audit said yes."""
    placed = int(re.search(rb"assumed (\d+)", out)[1])
    failed = int(re.search(rb"backoff (\d+)", out)[1])
    return placed + failed == PODS and out.endswith(b"audit ok\n")


def all_placed(out):
    return out.count(b" on node-") == PODS


def refused(program, path, cycles):
    """How many places were refused since another cycle had taken the room. Binds don't fail here and no time goes by, so just
    these pods wait out a backoff in the end."""
    _, _, out = timed(program, ["storm", "--cycles", str(cycles), "--binders", "4"], path)
    if not is_audited(out):
        sys.exit(f"not what was to come: {out[-300:]!r}")
    return int(re.search(rb"backoff (\d+)", out)[1])


def row(what, time_and_memory):
    took, memory = time_and_memory
    print(f"| {what} | {PODS / took:,.0f} pods a second | {memory:.0f} MiB |", flush=True)


def main(program, folder, rounds):
    watched = os.path.join(folder, "watched")
    with_cycles = os.path.join(folder, "with_cycles")
    for cycles in (1, 2, 4):
        words = ["storm", "--cycles", str(cycles), "--binders", "4", "--flaky"]
        row(f"a storm by {cycles} cycle threads and 4 binders", least(program, words, watched, rounds, is_audited))
        counts = [refused(program, watched, cycles) for _ in range(rounds)]
        print(f"| places refused of {PODS:,} | {min(counts)} to {max(counts)} | |", flush=True)
    row("a run on one thread", least(program, ["run"], with_cycles, rounds, all_placed))


if __name__ == "__main__":
    main(sys.argv[1], sys.argv[2], int(sys.argv[3]))
