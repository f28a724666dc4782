#!/usr/bin/env python3
"""Measures what commits cost the processor and the memory, which other work on the machine changes less than the clock.

usage: commits.py PROGRAM SCRIPT [SCRIPT ..]

PROGRAM is the built program. Each SCRIPT has a domain's `lsp` lines, a commit, and edits with their commits; other lines
are left out. Two lines are printed for each: of a whole run up to the first commit, and of an edit with its commit in the
mean over all of them, on one processor. They tell the processor time (user and system, the least of RUNS runs, 9 if that
variable says nothing), the instructions where `valgrind` is installed (of the first FEW edits, 5 if that variable says
nothing), and the largest memory of the run.

Where the variable PEER names a second implementation's program, the ratio to its processor time stands in brackets. Both
programs take turns.
"""

import os
import pathlib
import re
import shutil
import subprocess
import sys
import tempfile
import threading

RUNS = int(os.environ.get("RUNS", "9"))
FEW = int(os.environ.get("FEW", "5"))
PEER = os.environ.get("PEER")
PEER_FLAGS = ["--rules", "all", "--eager", "--threads", "1"]
PROCESSOR = str(max(os.sched_getaffinity(0)))
EDITS = ("lsp", "cost", "down", "up", "depth", "drop")


def parts(script):
    """The lines up to the first commit, and those of each edit up to its commit."""
    lines = [line for line in script.read_text().splitlines() if line.split() and line.split()[0] in (*EDITS, "commit")]
    first = lines.index("commit") + 1
    batches, batch = [], []
    for line in lines[first:]:
        batch.append(line)
        if line == "commit":
            batches.append(batch)
            batch = []
    return lines[:first], batches


def text(lines):
    return "".join(line + "\n" for line in lines).encode()


def time(command, lines):
    """The processor time in milliseconds of a run on these lines."""
    with tempfile.TemporaryFile() as given:
        given.write(text(lines))
        given.seek(0)
        words = ["taskset", "-c", PROCESSOR, *command]
        process = subprocess.Popen(words, stdin=given, stdout=subprocess.DEVNULL)
        _, _, usage = os.wait4(process.pid, 0)
    return 1000 * (usage.ru_utime + usage.ru_stime)


def memory(command, lines):
    """The largest memory in MiB of a run on these lines, read once all answers are there and before it ends: what the
    system tells afterwards counts the memory of the process that began it too."""
    answers = len(subprocess.run(command, input=text(lines), stdout=subprocess.PIPE, check=False).stdout)
    with subprocess.Popen(command, stdin=subprocess.PIPE, stdout=subprocess.PIPE) as process:
        writer = threading.Thread(target=lambda: (process.stdin.write(text(lines)), process.stdin.flush()))
        writer.start()
        process.stdout.read(answers)
        writer.join()
        status = pathlib.Path(f"/proc/{process.pid}/status").read_text()
        process.stdin.close()
    return int(re.search(r"VmHWM:\s+(\d+)", status)[1]) / 1024


def instructions(command, lines):
    """How many million instructions a run on these lines takes, or None without `valgrind`."""
    if not shutil.which("valgrind"):
        return None
    with tempfile.TemporaryFile() as given, tempfile.NamedTemporaryFile() as counted:
        given.write(text(lines))
        given.seek(0)
        words = ["valgrind", "--tool=callgrind", f"--callgrind-out-file={counted.name}", *command]
        said = subprocess.run(["taskset", "-c", PROCESSOR, *words], stdin=given, stdout=subprocess.DEVNULL,
                              stderr=subprocess.PIPE, check=False)
    return int(re.search(rb"Collected : (\d+)", said.stderr)[1]) / 1e6


def shown(name, mine, theirs, count, most):
    ratio = f" ({mine / theirs:.1f})" if theirs else ""
    counted = f", {count:.1f} million instructions" if count is not None else ""
    return f"  {name}: {mine:.2f} ms{ratio}{counted}, {most:.0f} MiB at most"


def measure(program, script):
    opening, batches = parts(script)
    whole, few = (opening + sum(some, []) for some in (batches, batches[:FEW]))
    mine = [program, "run"]
    commands = [mine] + ([[PEER, "run", *PEER_FLAGS]] if PEER else [])
    least = {}
    for _ in range(RUNS):
        for at, command in enumerate(commands):
            for name, lines in ("first", opening), ("whole", whole):
                took = time(command, lines)
                least[at, name] = min(least.get((at, name), took), took)
    first = [least[at, "first"] for at in range(len(commands))]
    each = [(least[at, "whole"] - least[at, "first"]) / max(len(batches), 1) for at in range(len(commands))]
    count, more = instructions(mine, opening), instructions(mine, few)
    mean = None if count is None else (more - count) / max(len(batches[:FEW]), 1)
    print(f"{script.stem}:")
    print(shown("up to the first commit", first[0], first[1:] and first[1], count, memory(mine, opening)))
    print(shown(f"each of {len(batches)} edits", each[0], each[1:] and each[1], mean, memory(mine, whole)), flush=True)


def main():
    for script in sys.argv[2:]:
        measure(sys.argv[1], pathlib.Path(script))


if __name__ == "__main__":
    main()
