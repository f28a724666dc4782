#!/usr/bin/env python3
"""Measures what commits and audits of a domain take, on one processor, on two and on all.

usage: versions.py PROGRAM SCRIPT [SCRIPT ..]

PROGRAM is the built program. Each SCRIPT has a domain's `lsp` lines, a commit, and edits with their commits. A line is
printed for each: the first commit until its answer is there, over the reading before it; how much faster two processors
and all of them make it; `audit full` after it, over what goes before; and the edits with their commits and questions.

Where other work takes processors, the least run on one and the least run on four are not of one machine. So the runs on
one processor, on two and on all take turns, and what more processors gain is told by medians. Beside it stands how long
as many programs at once take, one a processor, of what one alone takes: so much of the gain the machine itself withholds.

Where the variable PEER names a second implementation's program, which tells the times of its phases with `--time`, the
ratios to its times for distances and cases, for printing, and for the edits stand in brackets. The variable RUNS says how
often each is run (9 if it says nothing), and EDITS whether the edits are run (not at 0).
"""

import concurrent.futures
import os
import pathlib
import re
import statistics
import subprocess
import sys
import tempfile
import time

RUNS = int(os.environ.get("RUNS", "9"))
EDITS = os.environ.get("EDITS", "1") != "0"
PEER = os.environ.get("PEER")
PROCESSORS = sorted(os.sched_getaffinity(0))
OVERLOAD = 0x04


def cleared(line):
    """The line with the overload bit (ISO 10589, 9.9) of its PDU cleared: the domains were made when a commit refused it."""
    octets = bytearray(bytes.fromhex(line.split()[1]))
    octets[26] &= ~OVERLOAD
    return f"lsp {octets.hex()}"


class Script:
    """Lines in a file, so that a run begins with all of them there."""

    def __init__(self, lines):
        self.file = tempfile.NamedTemporaryFile()
        self.file.write("".join(line + "\n" for line in lines).encode())
        self.file.flush()

    def open(self):
        return open(self.file.name, "rb")


class Program:
    """A program that runs scripts, on the processors that it is told."""

    def __init__(self, path):
        self.path = path

    def command(self, processors):
        return ["taskset", "-c", ",".join(map(str, processors)), self.path, "run"]

    def answers(self, script):
        """How many bytes it answers."""
        with script.open() as given:
            return len(subprocess.run(self.command(PROCESSORS), stdin=given, stdout=subprocess.PIPE, check=False).stdout)

    def to_answers(self, script, wanted, processors):
        """How long it takes until all answers are there, without its end, when it gives its memory back."""
        with script.open() as given:
            start = time.perf_counter()
            with subprocess.Popen(self.command(processors), stdin=given, stdout=subprocess.PIPE) as run:
                run.stdout.read(wanted)
                return 1000 * (time.perf_counter() - start)

    def to_end(self, script, processors):
        with script.open() as given:
            start = time.perf_counter()
            subprocess.run(self.command(processors), stdin=given, stdout=subprocess.DEVNULL, check=False)
            return 1000 * (time.perf_counter() - start)

    def at_once(self, script, wanted):
        """How long each of several programs takes, one a processor, while the others run: the first and the last run of
        each may have been without them."""
        def several(processor):
            return [self.to_answers(script, wanted, [processor]) for _ in range(4)][1:-1]

        with concurrent.futures.ThreadPoolExecutor(len(PROCESSORS)) as pool:
            return [one for times in pool.map(several, PROCESSORS) for one in times]


class Commit:
    """The times of a first commit, until its answer is there."""

    def __init__(self, program, opening):
        reading, committing = Script(opening), Script(opening + ["commit"])
        read, answered = program.answers(reading), program.answers(committing)
        self.counts = sorted({1, 2, len(PROCESSORS)})
        self.times = {count: [] for count in self.counts}
        self.reading, self.together = [], []
        for _ in range(RUNS):
            self.reading.append(program.to_answers(reading, read, PROCESSORS))
            for count in self.counts:
                self.times[count].append(program.to_answers(committing, answered, PROCESSORS[:count]))
            self.together += program.at_once(committing, answered)

    def least(self, count):
        return min(self.times[count]) - min(self.reading)

    def middle(self, times):
        return statistics.median(times) - statistics.median(self.reading)

    def gain(self, count):
        return self.middle(self.times[1]) / self.middle(self.times[count])

    def withheld(self):
        return self.middle(self.together) / self.middle(self.times[1])


def peer_phases(lines, count):
    """The least times of a second implementation's phases: distances and cases, printing, and all."""
    script = Script(lines)
    threads = ["--threads", str(count)]
    command = ["taskset", "-c", ",".join(map(str, PROCESSORS[:count])), PEER, "run", "--rules", "overload", "--eager", *threads, "--time"]
    least = [float("inf")] * 3
    for _ in range(RUNS):
        with script.open() as given:
            run = subprocess.run(command, stdin=given, stdout=subprocess.DEVNULL, stderr=subprocess.PIPE, check=False)
        found = re.search(r"trees ([\d.]+) cases ([\d.]+) .*print ([\d.]+) .*total ([\d.]+)", run.stderr.decode())
        trees, cases, printing, total = map(float, found.groups())
        least = [min(pair) for pair in zip(least, (trees + cases, printing, total))]
    return least


def over(program, shorter, longer, processors, runs=RUNS):
    """How much longer the one script takes than the other: the least runs, which take turns."""
    short, long = Script(shorter), Script(longer)
    pairs = [(program.to_end(short, processors), program.to_end(long, processors)) for _ in range(runs)]
    return min(pair[1] for pair in pairs) - min(pair[0] for pair in pairs)


def shown(mine, theirs):
    return f"{mine:.1f} ms" + (f" ({mine / theirs:.1f})" if theirs else "")


def measure(program, script):
    lines = [cleared(line) if line.startswith("lsp ") else line for line in script.read_text().splitlines()]
    first = lines.index("commit")
    opening, edits = lines[:first], [line for line in lines[first + 1 :] if not line.startswith("audit")]
    committed, audited, edited = opening + ["commit"], opening + ["commit", "audit full"], opening + ["commit"] + edits
    commit = Commit(program, opening)
    solving, printing, _ = peer_phases(audited, 1) if PEER else (None, None, None)
    said = [f"first commit {shown(commit.least(1), solving)}"]
    said += [f"{commit.gain(count):.2f} times as fast on {count}" for count in commit.counts[1:]]
    said.append(f"{len(PROCESSORS)} at once take {commit.withheld():.2f} of one")
    said.append(f"audit full {shown(over(program, committed, audited, PROCESSORS), printing)}")
    for count in (1, len(PROCESSORS)) if EDITS else ():
        theirs = peer_phases(edited, count)[2] - peer_phases(committed, count)[2] if PEER else None
        said.append(f"edits on {count} {shown(over(program, committed, edited, PROCESSORS[:count], 2), theirs)}")
    print(f"{script.stem}: " + ", ".join(said), flush=True)


def main():
    program = Program(sys.argv[1])
    for script in sys.argv[2:]:
        measure(program, pathlib.Path(script))


if __name__ == "__main__":
    main()
