#!/usr/bin/env python3
"""Measures what the net of a commit costs, by commits that the last of the domain's rules refuses.

usage: nets.py PROGRAM

A domain of 256 nodes and 2,048 links is committed; then, again and again, the PDUs of two nodes are staged with a link more,
and the commit is refused: the program makes the net as far as the last rule, which counts links, and nothing of what a
version holds besides. The time of the same lines with `drop` in place of `commit` is taken off.
"""

import random
import subprocess
import sys
import time

import scripts

COMMITS = 400
RUNS = 5


def seconds(program, lines):
    text = ("\n".join(lines) + "\n").encode()
    least = float("inf")
    for _ in range(RUNS):
        start = time.perf_counter()
        subprocess.run([program, "run"], input=text, stdout=subprocess.DEVNULL, check=False)
        least = min(least, time.perf_counter() - start)
    return least


def with_link(lines, node, other):
    """The line of a newer PDU of the node, which has a link to the other node besides."""
    body = bytes.fromhex(lines[node - 1].split()[1])[27:]
    newer = bytearray(scripts.pdu(node, body + scripts.rich_reach(other, 1, scripts.LINKS)))
    newer[20:24] = (2).to_bytes(4, "big")
    return f"lsp {newer.hex()}"


def main():
    # Without node indices no destination is affected, so that the first commit takes little.
    scripts.prefix = lambda number: b""
    lines, chosen = scripts.domain(random.Random("domain"))
    other = next(node for node in range(2, scripts.NODES + 1) if (1, node) not in chosen)
    edits = [with_link(lines, 1, other), with_link(lines, other, 1)]
    refused = seconds(sys.argv[1], lines + ["commit"] + [*edits, "commit"] * COMMITS)
    dropped = seconds(sys.argv[1], lines + ["commit"] + [*edits, "drop"] * COMMITS)
    print(f"{1000 * (refused - dropped) / COMMITS:.2f} ms for each net")


if __name__ == "__main__":
    main()
