#!/usr/bin/env python3
"""Looks for the scripts that cost most: what a line costs at the limits, and how much memory a script holds.

usage: worst.py PROGRAM [NAME ..]

Each candidate is some lines at first, and one or two lines that are said again and again. A line is printed for each (or
for those that are named): what one more time costs, as the difference between many times and none, divided by their
number; how often these lines fit into a script of 33,554,432 bytes, or how often a commit may be accepted; what that
script would take at this rate; and the most memory that was held. Candidates that fill the memory are run whole.

What is answered is thrown away. A program gets 8 GiB of address space; where it doesn't end with status 0 or 1, its status
stands in place of the time.

This is for developers, and no part of the gate.
"""

import collections
import pathlib
import random
import sys
import tempfile
import time

import floods
import scripts
from scripts import octets, tlv

MOST_BYTES = 33_554_432
MOST_COMMITS = 65_535
MOST_STAGED = 4_096
LONGEST_PDU = 65_535

# Again: what is said at first, and then so many times; a number in the place of {} makes each time another.
Candidate = collections.namedtuple("Candidate", "first again times most")


def system(number):
    return scripts.system_id(number)


def fitting(first, again):
    """How often the lines fit into a script behind the first ones."""
    return (MOST_BYTES - sum(len(line) + 1 for line in first)) // sum(len(line) + 1 for line in again)


def repeated(first, again, times, most=None):
    fit = fitting(first, again)
    return Candidate(first, again, times, fit if most is None else min(fit, most))


def spread():
    """A domain at the limits with chords at random, and a group for each pair."""
    lines, pairs = scripts.domain(random.Random("domain"))
    return lines + ["commit"], pairs


def grouped(protected, nodes=256, pairs=1024):
    """A router with so many links to all others, parallel ones among them, that share one group, and one link outside; the
    others stand in a ring with chords, so that what the group cuts off is repaired along other links."""
    rng = random.Random("grouped")
    bodies = {node: scripts.capability(node) + scripts.prefix(node) for node in range(1, nodes + 1)}
    chosen = [(1, 2 + at % (nodes - 2), 10, 1) for at in range(protected)] + [(1, nodes, 1000, None)]
    chosen += [(node, node + 1, rng.randint(1, 50), None) for node in range(2, nodes)]
    while len(chosen) < pairs:
        low, high = sorted(rng.sample(range(2, nodes + 1), 2))
        chosen.append((low, high, rng.randint(50, 1000), None))
    for number, (low, high, metric, group) in enumerate(chosen, 1):
        for node, other in ((low, high), (high, low)):
            bodies[node] += scripts.rich_reach(other, metric, number)
        if group is not None:
            bodies[low] += scripts.risk(high, number, group)
    lines = [line for node, body in bodies.items() for line in split(node, body)]
    return lines + ["commit"], chosen


def tied(idle=500, chain=251):
    """A router with links of one group to all nodes of a chain, by which ways along the chain have equal cost, so that many
    nodes are tried as waypoints in vain, and before these so many links of the group to four others, which each try tests."""
    top, middle = 6, chain // 2
    ends = [(1, 2 + at % 4, 1000, 1000, 1) for at in range(idle)]
    for place in range(chain):
        out, back = (place - middle, 1000) if place > middle else (1000, max(1, middle - place))
        ends.append((1, top + place, out, back, 1))
    ends += [(top + place, top + place + 1, 1, 1, None) for place in range(chain - 1)] + [(1, top, 300, 300, None)]
    bodies = {node: scripts.capability(node) + scripts.prefix(node) for node in range(1, top + chain)}
    for number, (low, high, out, back, group) in enumerate(ends, 1):
        bodies[low] += scripts.rich_reach(high, out, number) + (scripts.risk(high, number, group) if group else b"")
        bodies[high] += scripts.rich_reach(low, back, number)
    return [line for node, body in bodies.items() for line in split(node, body)] + ["commit"]


def split(node, body):
    """The lines of a router's PDUs, as many as its TLVs need."""
    pieces, at = [b""], 0
    while at < len(body):
        end = at + 2 + body[at + 1]
        if len(pieces[-1]) + end - at > LONGEST_PDU - 27:
            pieces.append(b"")
        pieces[-1] += body[at:end]
        at = end
    for fragment, piece in enumerate(pieces):
        yield line_of(node, 0, fragment, 1, piece)


def line_of(node, pseudonode, fragment, sequence, body):
    whole = bytearray(scripts.pdu(node, body))
    whole[18:20] = bytes([pseudonode, fragment])
    whole[20:24] = octets(sequence, 4)
    return f"lsp {whole.hex()}"


def filled(unit):
    """As many PDUs as a script may have, of as many of these TLVs as fit, each under a name of its own, and a commit."""
    body = unit * ((LONGEST_PDU - 27) // len(unit))
    lines, size = [], len("commit\n")
    while True:
        line = line_of(1 + len(lines) // 256, 1, len(lines) % 256, 1, body)
        size += len(line) + 1
        if size > MOST_BYTES:
            return Candidate(lines + ["commit"], [], 0, 0)
        lines.append(line)


def noted(pdus=252):
    """One link of two routers, which so many PDUs say to be in as many groups as they can."""
    ends = {node: scripts.capability(node) + scripts.rich_reach(3 - node, 10, 1) for node in (1, 2)}
    lines = [line_of(node, 0, 0, 1, body) for node, body in ends.items()]
    each = (LONGEST_PDU - 27) // 255
    for pdu in range(pdus):
        groups = range(pdu * each * 59, (pdu + 1) * each * 59)
        lines.append(line_of(1, 0, 1 + pdu, 1, b"".join(floods.risks(2, 1, groups))))
    return Candidate(lines + ["commit"], [], 0, 0)


def announced(pdus):
    """One link that a router announces again and again, and commits that are refused for it, each after another PDU."""
    body = tlv(22, (octets(2, 6) + bytes([0]) + octets(10, 3) + bytes([0])) * 23) * 254
    back = tlv(22, octets(1, 6) + bytes([0]) + octets(10, 3) + bytes([0]))
    lines = [line_of(1, 0, 0, 1, scripts.capability(1))]
    lines += [line_of(1, 0, fragment, 1, body) for fragment in range(1, 1 + pdus)]
    lines.append(line_of(2, 0, 0, 1, scripts.capability(2) + back))
    other = line_of(3, 0, 0, 0, scripts.capability(3))
    at = len("lsp ") + 2 * 20
    return lines, [other[:at] + "{:08x}" + other[at + 8 :], "commit"]


def candidates():
    lines, pairs = spread()
    low, high = pairs[len(pairs) // 2]
    edit = [f"cost {system(low)} {system(high)} 1 {{}}", "commit"]
    yield "commits", repeated(lines, edit, 10, MOST_COMMITS)
    yield "empty-commits", repeated(lines, ["commit"], 20_000, MOST_COMMITS)
    yield "audit-full", repeated(lines, ["audit full"], 10)
    yield "audit", repeated(lines, ["audit"], 10_000)
    yield "watch", repeated(lines, ["watch 8 16", "join"], 200)
    yield "spaces", repeated(lines, [f"spaces risk {system(low)} {system(high)} 1 {system(200)}"], 2_000)
    yield "walk", repeated(lines, [f"walk {system(1)} {system(128)} 7"], 20_000)
    for protected in (100, 400, 700):
        lines, chosen = grouped(protected)
        edit = [f"cost {system(255)} {system(256)} 1 {{}}", "commit"]
        yield f"grouped-{protected}", repeated(lines, edit, 2, MOST_COMMITS)
        yield f"spaces-{protected}", repeated(lines, [f"spaces risk {system(1)} {system(2)} 1 {system(200)}"], 20)
        yield f"full-{protected}", repeated(lines, ["audit full"], 5)
    lines = tied()
    yield "tied", repeated(lines, [f"cost {system(1)} {system(2)} 1 {{}}", "commit"], 2, MOST_COMMITS)
    yield "spaces-tied", repeated(lines, [f"spaces risk {system(1)} {system(200)} 1 {system(201)}"], 20)
    lines, again = announced(100)
    yield "announced", repeated(lines, again, 10)
    yield "announced-all", Candidate(announced(253)[0] + ["commit"], [], 0, 0)
    yield "names", filled(tlv(137, b""))
    yield "short-names", filled(tlv(137, b"x"))
    yield "prefixes", filled(tlv(135, bytes(5) * 51))
    yield "neighbours", filled(tlv(22, bytes(11) * 23))
    yield "capabilities", filled(tlv(242, bytes(5)))
    yield "groups", filled(tlv(138, bytes(20)))
    yield "notes", noted()
    yield "unknown", filled(tlv(200, bytes(255)))


def said(candidate, times):
    lines = list(candidate.first)
    for time_ in range(times):
        lines += [line.format(1 + time_) for line in candidate.again]
    return "".join(line + "\n" for line in lines)


def seconds(command, script):
    """The status and the time of a run."""
    start = time.perf_counter()
    status = floods.started(command, script).wait()
    return status, time.perf_counter() - start


def measured(command, folder, candidate):
    few, many = folder / "few.script", folder / "many.script"
    few.write_text(said(candidate, 0))
    many.write_text(said(candidate, candidate.times))
    status, most = floods.memory(command, many)
    if status not in (0, 1):
        return f"status {status}"
    _, first = seconds(command, few)
    if not candidate.times:
        return f"{first:>9.2f} s whole{'':>34} {most:>7.0f} MiB"
    _, whole = seconds(command, many)
    each = max(0.0, whole - first) / candidate.times
    hours = each * candidate.most / 3600
    return f"{1000 * each:>9.3f} ms each, {candidate.most:>9} times: {hours:>9.1f} hours {most:>7.0f} MiB"


def main():
    if len(sys.argv) < 2:
        sys.exit("usage: worst.py PROGRAM [NAME ..]")
    command, named = [sys.argv[1], "run"], sys.argv[2:]
    with tempfile.TemporaryDirectory() as folder:
        for name, candidate in candidates():
            if not named or name in named:
                print(f"{name:<14} {measured(command, pathlib.Path(folder), candidate)}", flush=True)


if __name__ == "__main__":
    main()
