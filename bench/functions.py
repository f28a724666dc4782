#!/usr/bin/env python3
"""Prints how long the prover took for each function of a crate, the longest first.

usage: functions.py CRATE [COUNT]

It is to be run at the top of the repository, after a check of the crate from nothing on one processor:

    cd crates/CRATE && rm -rf out/incremental && rt check --jobs 1

A check writes a file when it is done with a part of a function: its statement, its code (`Lts`), its goals, its proof. So
what lies between two files is the time of the second. After a check that took some of its work from an earlier one, only
what was checked anew has a time. The seconds are those of a clock, so other work on the machine adds to them.
"""

import collections
import os
import pathlib
import re
import sys

SHOWN = 20


def written(folder):
    """When each file below the folder was written, with its name, in order of time."""
    files = [path for path in folder.rglob("*.oantt")]
    return sorted((path.stat().st_mtime, path.name) for path in files)


def parts_of(name):
    """The function or file of definitions of which such a file holds a part, and which part."""
    inside = re.sub(r"^Rattle-(\w+-proofs\.)?|(\.decls)?\.oantt$", "", name)
    whole, _, part = inside.rpartition(".")
    return whole or part, part


def main():
    if len(sys.argv) not in (2, 3):
        sys.exit(__doc__)
    crate, count = sys.argv[1], int(sys.argv[2]) if len(sys.argv) > 2 else SHOWN
    files = written(pathlib.Path("crates", crate, "out", "incremental"))
    if not files:
        sys.exit(f"no check of {crate} left anything: see the head of this file")
    functions, parts = collections.Counter(), collections.defaultdict(collections.Counter)
    for (before, _), (after, name) in zip(files, files[1:]):
        function, part = parts_of(name)
        functions[function] += after - before
        parts[function][part] += after - before
    print(f"{files[-1][0] - files[0][0]:8.1f}s in all")
    for function, seconds in functions.most_common(count):
        most = ", ".join(f"{part} {spent:.1f}" for part, spent in parts[function].most_common(3))
        print(f"{seconds:8.1f}s {function} ({most})")


if __name__ == "__main__":
    main()
