# SPDX-License-Identifier: Apache-2.0
"""Times a program `wsched run` by scripts that generate.py makes, and prints a table.

    measure.py PROGRAM FOLDER [ROUNDS [OTHER]]
    measure.py --site PROGRAM ROUNDS [OTHER]
    measure.py --sites PROGRAM ROUNDS

FOLDER has the plugin loop.wasm, and room for scripts. OTHER is another build of the program, whose cycles by one worker are compared
with PROGRAM's; with --site a site's with rules that ship are, and nothing else; with --sites whole runs of several sites.

A span is a number of cycles that are handed to the program at once, when it has answered everything before; it answers once it
has done them all. So a span is the reading of its lines, the cycles, and the writing of their answers, and nothing else. It is
timed in the processor time of the program's thread, and by the clock where there are several. Spans are short, and the least of
many is told, so that one of them runs undisturbed beside other work.
"""
import contextlib
import os
import resource
import subprocess
import sys
import threading
import time

import generate
import site_script

NODES = 1_000
PLUGINS = os.path.join(os.path.dirname(os.path.abspath(__file__)), "../../examples/plugins")
# The rules of a site: each alone, and all of them.
SITES = [["keep_region"], ["node_affinity"], ["prefer_zone"], ["keep_region", "prefer_zone", "node_affinity"]]

CYCLE = b'{"op":"cycle"}'


class Run:
    """A program that runs, is handed lines and waited for."""

    def __init__(self, program, words, lines):
        self.process = subprocess.Popen(
            [program, "run", *words], stdin=subprocess.PIPE, stdout=subprocess.PIPE, bufsize=0
        )
        lines = [line.encode() for line in lines]
        for at in range(0, len(lines), 500):
            self.ask(lines[at : at + 500])

    def __enter__(self):
        return self

    def __exit__(self, *_):
        self.process.stdin.close()
        self.process.stdout.read()
        if self.process.wait() != 0:
            sys.exit(f"the program ended with {self.process.returncode}")

    def ask(self, lines):
        """Hands lines over and waits for an answer to each."""
        self.process.stdin.write(b"\n".join(lines) + b"\n")
        wanted, said = len(lines), []
        while wanted > 0:
            some = os.read(self.process.stdout.fileno(), 1 << 20)
            if not some:
                sys.exit("the program ended too early")
            wanted -= some.count(b"\n")
            said.append(some)
        return b"".join(said)

    def used(self):
        """The processor time of the program's first thread, once it waits for more."""
        with open(f"/proc/{self.process.pid}/schedstat") as it:
            before = it.read()
        while True:
            time.sleep(0.0002)
            with open(f"/proc/{self.process.pid}/schedstat") as it:
                after = it.read()
            if after == before:
                return int(after.split()[0]) / 1e9
            before = after

    def span(self, cycles):
        """How long so many cycles take, each of which must place its pod, by the clock and in processor time."""
        before, start = self.used(), time.perf_counter()
        said = self.ask([CYCLE] * cycles)
        took = time.perf_counter() - start
        if said.count(b" on node-") != cycles:
            sys.exit(f"a pod was not placed: {said[:200]!r}")
        return took, self.used() - before


class Times:
    """Times of one thing."""

    def __init__(self):
        self.all = []

    def add(self, time_of_one):
        self.all.append(time_of_one)

    def least(self):
        return min(self.all)

    def median(self):
        return sorted(self.all)[len(self.all) // 2]

    def __str__(self):
        return f"{self.least() * 1e6:.1f} µs, median {self.median() * 1e6:.1f}"


def spans(times, program, words, placed, pods, length):
    """Adds the processor time of a cycle for each span of so many, until all of so many pods are placed."""
    spans_of(times, program, words, generate.script(NODES, placed, pods, 0), pods, length)


def spans_of(times, program, words, lines, pods, length):
    """The same of a script of one's own, in which so many pods wait."""
    with Run(program, words, lines) as run:
        for _ in range(pods // length):
            times.add(run.span(length)[1] / length)


def rules(names):
    return [f"{it}:1:500000:{PLUGINS}/{it}.wasm" for it in names]


def site_lines(pods, site=site_script.SITES["usual"]):
    return [*site_script.nodes(site), *site_script.pods(site, pods)]


def whole(program, path):
    """How long a script takes from the start of the process to its end, by the clock and in processor time."""
    before = resource.getrusage(resource.RUSAGE_CHILDREN)
    with open(path, "rb") as source:
        start = time.perf_counter()
        subprocess.run([program, "run"], stdin=source, stdout=subprocess.DEVNULL, check=True)
        took = time.perf_counter() - start
    after = resource.getrusage(resource.RUSAGE_CHILDREN)
    return took, after.ru_utime + after.ru_stime - before.ru_utime - before.ru_stime


def least_whole(program, folder, placed, pods, cycles, rounds):
    """The least time of a script, by the clock and in processor time."""
    path = os.path.join(folder, "script")
    with open(path, "w") as out:
        out.writelines(line + "\n" for line in generate.script(NODES, placed, pods, cycles))
    took, used = zip(*(whole(program, path) for _ in range(rounds)))
    os.remove(path)
    return min(took), min(used)


def row(what, figure, target=""):
    print(f"| {what} | {figure} | {target} |", flush=True)


def decisions(program, folder, rounds):
    """Cycles without plugins, with few and with many pods placed."""
    few, many = Times(), Times()
    for _ in range(rounds):
        spans(few, program, [], 0, 5_000, 100)
        spans(many, program, [], 140_000, 5_000, 100)
    row("a cycle over 1,000 nodes without plugins", f"{few}", "150 µs")
    row("the same with 140,000 pods placed", f"{many}")
    row("the second to the first", f"{many.least() / few.least():.2f}, median {many.median() / few.median():.2f}", "1.3")
    cycles = 5_000
    for name, placed in (("", 0), (" with 140,000 pods placed", 140_000)):
        without = least_whole(program, folder, placed, cycles, 0, rounds)[1]
        with_them = least_whole(program, folder, placed, cycles, cycles, rounds)[1]
        row(f"a script's processor time with 5,000 cycles less that without them, for each{name}", f"{(with_them - without) / cycles * 1e6:.1f} µs")


def one_run(program, folder, rounds):
    """10,000 pods, each cycled once."""
    took, used = least_whole(program, folder, 0, 10_000, 10_000, rounds)
    row("21,000 lines: 1,000 nodes, 10,000 pods, as many cycles", f"{took:.2f} s, {21_000 / took:,.0f} lines a second; processor {used:.2f} s")
    thousands = [Times() for _ in range(10)]
    for _ in range(rounds):
        with Run(program, [], generate.script(NODES, 0, 10_000, 0)) as run:
            for times in thousands:
                for _ in range(10):
                    times.add(run.span(100)[1] / 100)
    row("a cycle among the first 1,000", f"{thousands[0]}")
    row("a cycle among the last 1,000", f"{thousands[-1]}")


def at_once(program, words, runs, cycles):
    """How long a cycle takes in each of so many runs at once, by the clock."""
    with contextlib.ExitStack() as stack:
        all_runs = [
            stack.enter_context(Run(program, words, generate.script(NODES, 0, cycles, 0))) for _ in range(runs)
        ]
        threads = [threading.Thread(target=run.ask, args=([CYCLE] * cycles,)) for run in all_runs]
        start = time.perf_counter()
        for thread in threads:
            thread.start()
        for thread in threads:
            thread.join()
        return (time.perf_counter() - start) / cycles


def workers(program, folder, rounds):
    """A plugin of 10,000 fuel a node, with one worker and with more, and beside four runs of one worker each."""
    plugin = f"loop:1:100000:{folder}/loop.wasm"
    least, apart = {}, Times()
    for _ in range(rounds):
        for count in (1, 2, 4):
            with Run(program, ["--workers", str(count), plugin], generate.script(NODES, 0, 20, 0)) as run:
                took = min(run.span(1)[0] for _ in range(20))
            least[count] = min(took, least.get(count, took))
        apart.add(at_once(program, [plugin], 4, 20))
    for count, took in least.items():
        more = f", {least[1] / took:.2f} times as fast as one" if count > 1 else ""
        row(f"a cycle with a plugin of 10,000 fuel a node, by the clock, workers: {count}", f"{took * 1e3:.1f} ms{more}")
    row("a cycle of four such runs at once, each of one worker", f"{apart.least() * 1e3:.1f} ms, {4 * least[1] / apart.least():.2f} times one run's work")
    row("the work of four workers to that of four runs at once", f"{apart.least() / (4 * least[4]):.2f}", "0.9")


def few_nodes(program, _folder, rounds):
    """Cycles without plugins by one worker and by four."""
    one, four = Times(), Times()
    for _ in range(rounds):
        for times, words in ((one, []), (four, ["--workers", "4"])):
            with Run(program, words, generate.script(NODES, 0, 5_000, 0)) as run:
                for _ in range(50):
                    times.add(run.span(100)[0] / 100)
    row("a cycle over 1,000 nodes without plugins by one worker, by the clock", f"{one}")
    row("the same by four workers", f"{four}", f"{one.least() * 1e6 + 5:.1f} µs")


def beside(program, other, rounds):
    """Cycles without plugins by one worker of two builds of the program, in turn."""
    this, that = Times(), Times()
    for _ in range(rounds):
        spans(this, program, [], 0, 5_000, 100)
        spans(that, other, [], 0, 5_000, 100)
    row("a cycle over 1,000 nodes without plugins by one worker", f"{this}")
    compared(this, that)


def compared(this, that):
    row("the same by the other build", f"{that}")
    row("the first to the second", f"{this.least() / that.least():.2f}, median {this.median() / that.median():.2f}", "1.0")


def sites(program, _folder, rounds, other=None):
    """What rules that ship cost a site, in turn with another build where there is one. The mean of all pods is told, since a rule does much
    for few of them and nothing for others."""
    pods = 500
    found = {(build, tuple(names)): Times() for build in (program, other) if build for names in ([], *SITES)}
    for _ in range(rounds):
        for (build, names), times in found.items():
            spans_of(times, build, rules(names), site_lines(pods), pods, pods)
    without = found[program, ()]
    for names in ([], *SITES):
        times = found[program, tuple(names)]
        more = f"; {(times.least() - without.least()) / NODES * 1e6:.2f} µs a node for the rule" if len(names) == 1 else ""
        row(f"a pod of a site of 1,000 nodes and 50 deployments, rules: {', '.join(names) or 'none'}", f"{times}{more}", "120 µs" if len(names) > 1 else "")
        if other:
            compared(times, found[other, tuple(names)])


def other_sites(program, _folder, rounds):
    """A pod of 10,000 at sites that nobody had in mind: the processor time of a whole run by the rules, and of one without."""
    for name, site in site_script.SITES.items():
        lines = [*site_lines(10_000, site)]
        text = "".join(f"{it}\n" + ('{"op":"cycle"}\n' if it.startswith('{"op":"pod"') else "") for it in lines).encode()
        least = [min(used(program, words, text) for _ in range(rounds)) for words in (rules(site.rules), [])]
        what = f"a pod of 10,000 at the site {name}: {site.nodes} nodes, {site.kinds} deployments, by {', '.join(site.rules)}"
        row(what, f"{least[0] / 10:.3f} ms; without rules {least[1] / 10:.3f}")


def used(program, words, text):
    """The processor time of a run, in seconds."""
    before = resource.getrusage(resource.RUSAGE_CHILDREN)
    subprocess.run([program, "run", *words], input=text, stdout=subprocess.DEVNULL, check=True)
    after = resource.getrusage(resource.RUSAGE_CHILDREN)
    return after.ru_utime + after.ru_stime - before.ru_utime - before.ru_stime


def main():
    print("| What | Figure | Target |\n|---|---|---|")
    if sys.argv[1] == "--site":
        program, rounds, *other = sys.argv[2:]
        sites(program, None, int(rounds), *other)
        return
    if sys.argv[1] == "--sites":
        other_sites(sys.argv[2], None, int(sys.argv[3]))
        return
    program, folder = sys.argv[1:3]
    rounds = int(sys.argv[3]) if len(sys.argv) > 3 else 5
    if len(sys.argv) > 4:
        beside(program, sys.argv[4], rounds)
    for figure in (decisions, one_run, workers, few_nodes, sites):
        figure(program, folder, rounds)
        print(f"load of the machine: {', '.join(f'{load:.1f}' for load in os.getloadavg())}", file=sys.stderr)


main()
