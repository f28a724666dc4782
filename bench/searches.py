#!/usr/bin/env python3
"""Counts the instructions of a search for distances, beside those of a plain C++ program on the same graph.

usage: searches.py PROGRAM [SCRIPT ..]

PROGRAM is the built program. Each SCRIPT begins with a domain's `lsp` lines; its other lines are left out. With no SCRIPT,
domains of 64, 128 and 256 nodes with 8 links a node are measured, which shows how a search grows. Instructions are counted
by valgrind, so that other work on the machine doesn't matter. A commit makes one search for each node. Prefixes are taken
out of the PDUs: without node indices no destination is affected, so that no case needs a search. So are overload bits, which
a commit refuses.
"""

import pathlib
import subprocess
import sys
import tempfile

import scripts

MAXIMUM_METRIC = 0xFFFFFF
PREFIXES, LINKS = 135, 22
OVERLOAD = 0x04


def tlvs(octets):
    """The types and values of a PDU's TLVs."""
    at = 27
    while at + 2 <= len(octets):
        end = at + 2 + octets[at + 1]
        yield octets[at], octets[at + 2 : end]
        at = end


def bare(octets):
    """The PDU without prefixes, and with its overload bit (ISO 10589, 9.9) cleared."""
    body = b"".join(scripts.tlv(kind, value) for kind, value in tlvs(octets) if kind != PREFIXES)
    return octets[:8] + (27 + len(body)).to_bytes(2, "big") + octets[10:26] + bytes([octets[26] & ~OVERLOAD]) + body


def links_of(octets):
    """The neighbours and metrics that a PDU announces."""
    for kind, value in tlvs(octets):
        at = 0
        while kind == LINKS and at + 11 <= len(value):
            yield value[at : at + 6], int.from_bytes(value[at + 7 : at + 10], "big")
            at += 11 + value[at + 10]


def graph_of(pdus):
    """The links that are announced both ways, as numbers."""
    announced = {octets[12:18]: list(links_of(octets)) for octets in pdus}
    number = {system: place for place, system in enumerate(sorted(announced))}
    return len(number), [
        (number[system], number[other], metric)
        for system, ends in announced.items()
        for other, metric in ends
        if other in number and metric < MAXIMUM_METRIC and any(back == system for back, _ in announced[other])
    ]


def instructions(work, command, text, function):
    """The instructions of all calls of the function."""
    counts = work / "counts"
    run = ["valgrind", "--tool=callgrind", f"--callgrind-out-file={counts}", *command]
    subprocess.run(run, input=text, stdout=subprocess.DEVNULL, stderr=subprocess.DEVNULL, check=False)
    listed = subprocess.run(["callgrind_annotate", "--inclusive=yes", str(counts)], capture_output=True, check=True)
    for line in listed.stdout.decode().splitlines():
        if function in line:
            return int(line.split()[0].replace(",", ""))
    sys.exit(f"{function} isn't among what was counted")


def measure(name, program, plain, work, pdus):
    nodes, links = graph_of(pdus)
    script = "".join(f"lsp {bare(octets).hex()}\n" for octets in pdus) + "commit\n"
    graph = f"{nodes} {len(links)}\n" + "".join(f"{a} {b} {m}\n" for a, b, m in links)
    mine = instructions(work, [program, "run"], script.encode(), "dijkstra::row") / nodes
    theirs = instructions(work, [plain], graph.encode(), "search(") / nodes
    print(f"{name}: {nodes} nodes, {len(links)} links: {mine:,.0f} instructions a search, {theirs:,.0f} in C++, ratio {mine / theirs:.2f}")


def main():
    program = sys.argv[1]
    with tempfile.TemporaryDirectory() as folder:
        work = pathlib.Path(folder)
        plain = str(work / "dijkstra")
        source = pathlib.Path(__file__).with_name("dijkstra.cpp")
        subprocess.run(["g++", "-O2", "-std=c++17", "-o", plain, str(source)], check=True)
        for path in sys.argv[2:]:
            lines = pathlib.Path(path).read_text(encoding="ascii").splitlines()
            pdus = [bytes.fromhex(line.split()[1]) for line in lines if line.startswith("lsp ")]
            measure(pathlib.Path(path).stem, program, plain, work, pdus[: len({pdu[12:18] for pdu in pdus})])
        for nodes in (64, 128, 256) if not sys.argv[2:] else ():
            lines = scripts.churn(nodes, 8 * nodes, 0)
            measure("random", program, plain, work, [bytes.fromhex(line.split()[1]) for line in lines if line != "commit"])


if __name__ == "__main__":
    main()
