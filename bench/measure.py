#!/usr/bin/env python3
"""Runs programs on scripts in turn, and prints for each the least time of several runs, and the ratios.

usage: measure.py SCRIPTS RUNS NAME=COMMAND [NAME=COMMAND]

Each command takes a script on standard input. Ratios are of the first program to the second. The answers of both are
compared first, and each script has to be answered with status 0: a refused line would make the times say little.
"""

import pathlib
import shlex
import subprocess
import sys
import time


def answers(command, script):
    with script.open("rb") as given:
        run = subprocess.run(command, stdin=given, stdout=subprocess.PIPE, check=False)
    return run.returncode, run.stdout


def seconds(command, script):
    with script.open("rb") as given:
        start = time.perf_counter()
        subprocess.run(command, stdin=given, stdout=subprocess.DEVNULL, check=False)
        return time.perf_counter() - start


def first_difference(one, other):
    lines = zip(one.splitlines(), other.splitlines())
    for number, (mine, theirs) in enumerate(lines, 1):
        if mine != theirs:
            return f"answer {number}: {mine[:80]!r} and {theirs[:80]!r}"
    return f"{len(one)} and {len(other)} bytes of answers"


def agree(programs, script):
    """Says whether all programs answer the script whole and alike, and what is wrong otherwise."""
    found = {name: answers(command, script) for name, command in programs.items()}
    fine = True
    for name, (status, _) in found.items():
        if status != 0:
            print(f"{script.stem}: {name} ends with status {status}")
            fine = False
    outputs = [output for _, output in found.values()]
    for output in outputs[1:]:
        if output != outputs[0]:
            print(f"{script.stem}: the answers differ, {first_difference(outputs[0], output)}")
            fine = False
    return fine


def main():
    folder, runs = pathlib.Path(sys.argv[1]), int(sys.argv[2])
    programs = {}
    for argument in sys.argv[3:]:
        name, command = argument.split("=", 1)
        programs[name] = shlex.split(command)
    names = list(programs)
    ratio = f"{names[0]}/{names[1]}" if len(names) > 1 else ""
    print(f"{'script':<12}" + "".join(f"{name + ' ms':>12}" for name in names) + f"{ratio:>12}")
    fine = True
    for script in sorted(folder.glob("*.script")):
        fine = agree(programs, script) and fine
        least = {name: float("inf") for name in names}
        for _ in range(runs):
            for name, command in programs.items():
                least[name] = min(least[name], seconds(command, script))
        shown = "".join(f"{1000 * least[name]:>12.1f}" for name in names)
        if len(names) > 1:
            shown += f"{least[names[0]] / least[names[1]]:>12.2f}"
        print(f"{script.stem:<12}{shown}")
    return 0 if fine else 1


if __name__ == "__main__":
    sys.exit(main())
