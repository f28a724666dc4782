#!/usr/bin/env python3
"""Counts the instructions of a verdict on a certificate, beside those of a search for distances.

usage: certificates.py PROGRAM [COUNT]

PROGRAM is the built program. A domain of 256 nodes and 2,048 links is committed, and the certificates of COUNT of its
repairs (100 if it isn't given) are asked for and given back. Instructions are counted by valgrind, so that other work on
the machine doesn't matter, on one processor. What a verdict takes is what the whole run takes more with the lines
`proof done` than without. A verdict tests every row of its certificate by the links; a search gives one row.
"""

import os
import pathlib
import random
import subprocess
import sys
import tempfile

import scripts
from searches import instructions

NODES = 256


def text_of(lines):
    return "".join(f"{line}\n" for line in lines).encode()


def answers(program, lines):
    done = subprocess.run([program, "run"], input=text_of(lines), stdout=subprocess.PIPE, check=False)
    return done.stdout.decode().splitlines()


def questions(program, domain, count):
    """`prove` lines for repairs that were drawn, with the same draws each time."""
    found = [line.split() for line in answers(program, domain + ["audit full"]) if " via " in line]
    asked = []
    for words in random.Random("certificates").sample(found, count):
        ends, place = words[2].split("#")
        start, end = ends.split(">")
        asked.append(f"prove {words[1]} {start} {end} {place} {words[4]}")
    return asked


def main():
    program = sys.argv[1]
    count = int(sys.argv[2]) if len(sys.argv) > 2 else 100
    lines, _ = scripts.domain(random.Random("domain"))
    domain = lines + ["commit"]
    asked = questions(program, domain, count)
    given = [line for line in answers(program, domain + asked) if line.startswith("proof ")]
    told = answers(program, domain + given)
    accepted = sum(line.startswith("accepted ") for line in told)
    if accepted != count:
        sys.exit(f"{count - accepted} certificates aren't accepted")
    rows = sum(line.startswith("proof row") for line in given) / count
    os.sched_setaffinity(0, {min(os.sched_getaffinity(0))})
    command = [program, "run"]
    with tempfile.TemporaryDirectory() as folder:
        work = pathlib.Path(folder)
        search = instructions(work, command, text_of(domain), "dijkstra::row") / NODES
        whole = instructions(work, command, text_of(domain + given), "PROGRAM TOTALS")
        kept = [line for line in given if not line.startswith("proof done")]
        verdict = (whole - instructions(work, command, text_of(domain + kept), "PROGRAM TOTALS")) / count
    print(f"{count} certificates of {rows:.1f} rows: {verdict:,.0f} instructions a verdict, {search:,.0f} a search")
    print(f"a verdict takes {verdict / search:.2f} of a search, and {verdict / rows / search:.2f} for each row")


if __name__ == "__main__":
    main()
