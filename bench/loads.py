#!/usr/bin/env python3
"""Measures what `load W 4` takes at the limits, for each number of forwarders W from 1 to 8.

usage: loads.py PROGRAM [RUNS]

PROGRAM is the built program. A domain of 256 nodes and 2,048 links is committed, and asked for its loads by so many
forwarders, again and again: 261,120 packets each time, where each node reaches each other. The time of the same lines
without the `load` lines is taken off. The answers have to be the same for each W.

Where other work takes processors, the least run with one forwarder and the least with four are not of one machine. So
the runs with each W take turns, RUNS times (5 if it isn't given), and what more forwarders gain is told by medians; the
least times stand beside them. A time has the answer of 2,049 lines in it, which one thread writes.
"""

import random
import statistics
import subprocess
import sys
import time

import scripts

FORWARDERS = range(1, 9)
CHOICES = 4
TIMES = 40


def script(lines, forwarders, times):
    """The domain, its commit, and so many lines that ask for its loads."""
    return "".join(f"{line}\n" for line in lines + ["commit"] + [f"load {forwarders} {CHOICES}"] * times).encode()


def run(program, text):
    """How long a run takes, and what it answers."""
    start = time.perf_counter()
    done = subprocess.run([program, "run"], input=text, stdout=subprocess.PIPE, check=False)
    took = time.perf_counter() - start
    if done.returncode != 0:
        sys.exit(f"the program ends with status {done.returncode}")
    return took, done.stdout


def check(program, lines):
    """Says how many packets there are, where all numbers of forwarders give the same answer."""
    answers = {run(program, script(lines, forwarders, 1))[1] for forwarders in FORWARDERS}
    if len(answers) != 1:
        sys.exit("the answers differ by the number of forwarders")
    print(answers.pop().decode().splitlines()[-1])


def main():
    program = sys.argv[1]
    runs = int(sys.argv[2]) if len(sys.argv) > 2 else 5
    lines, _ = scripts.domain(random.Random("domain"))
    check(program, lines)
    took = {forwarders: [] for forwarders in FORWARDERS}
    for _ in range(runs):
        before, _ = run(program, script(lines, 1, 0))
        for forwarders in FORWARDERS:
            whole, _ = run(program, script(lines, forwarders, TIMES))
            took[forwarders].append(1000 * (whole - before) / TIMES)
    alone = statistics.median(took[1])
    for forwarders, times in took.items():
        middle = statistics.median(times)
        gain = f"{alone / middle:.2f} times as fast as one"
        print(f"{forwarders} forwarders: {middle:.1f} ms (least {min(times):.1f}), {gain}")


if __name__ == "__main__":
    main()
