#!/usr/bin/env python3
"""Runs the gate, or a part of it, and prints how much processor time its proofs took, crate by crate.

usage: proofs.py [ARGUMENT ..]

The arguments are those of `rt ci`: none for the whole gate, names of crates, or --anew, since what an earlier run passed
isn't proved again. It is to be run at the top of the repository. While the gate runs, the prover's processes are looked at
twice a second; what one takes in its last half second isn't seen. The time is that of the processors, whatever else runs.
A crate's proofs and its must-fail edits stand apart. The gate's own lines go to standard error.
"""

import collections
import os
import pathlib
import subprocess
import sys
import time

PROVER = b"rattle"
PAUSE = 0.5


def word_after(words, name):
    """The word behind this one, or nothing."""
    return words[words.index(name) + 1].decode() if name in words[:-1] else ""


def read_stat(process):
    """The process that began this one, and the processor time of this one and of those that it waited for."""
    fields = (process / "stat").read_text().rpartition(")")[2].split()
    ticks = sum(int(field) for field in fields[11:15])
    return fields[1], ticks / os.sysconf("SC_CLK_TCK")


def provers():
    """The prover's processes, by number: which began it, its crate, whether it tries an edit, and its time so far."""
    found = {}
    for process in pathlib.Path("/proc").iterdir():
        if not process.name.isdigit():
            continue
        try:
            words = (process / "cmdline").read_bytes().split(b"\0")
            crate = word_after(words, b"--crate-name")
            if not crate or os.path.basename(words[0]) != PROVER:
                continue
            edit = "rt-edit" in os.readlink(process / "cwd")
            found[process.name] = (*read_stat(process), crate, edit)
        except OSError:
            # It ended meanwhile.
            continue
    return found


def run(arguments):
    """The time of each process of the gate, by its number, crate and whether it tried an edit; and the gate's status."""
    times = {}
    gate = subprocess.Popen(["rt", "ci", *arguments], stdout=sys.stderr)
    while gate.poll() is None:
        found = provers()
        for number, (parent, spent, crate, edit) in found.items():
            # What the prover's own helpers take is in its time.
            if parent not in found:
                times[number, crate, edit] = spent
        time.sleep(PAUSE)
    return times, gate.returncode


def main():
    times, status = run(sys.argv[1:])
    proofs, edits = collections.Counter(), collections.Counter()
    for (_, crate, edit), spent in times.items():
        (edits if edit else proofs)[crate] += spent
    crates = sorted({*proofs, *edits}, key=lambda crate: -(proofs[crate] + edits[crate]))
    print(f"{'crate':20} {'proofs':>8} {'edits':>8}")
    for crate in crates:
        print(f"{crate:20} {proofs[crate]:7.0f}s {edits[crate]:7.0f}s")
    print(f"{'all':20} {sum(proofs.values()):7.0f}s {sum(edits.values()):7.0f}s")
    return status


if __name__ == "__main__":
    sys.exit(main())
