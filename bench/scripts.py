#!/usr/bin/env python3
"""Writes the scripts that are measured: the same ones each time.

usage: scripts.py FOLDER

feeds.script     33,554,432 line feeds, the most bytes that a script may have
distances.script 256 link-state PDUs with 2,048 links in all, `commit`, and 65,000 `dist` lines
reading.script   the PDUs of a domain of 256 nodes and 2,048 links with identifiers, SIDs and risk groups, again and again
longest.script   PDUs of 65,535 octets drawn at random, in lines of 131,074 bytes, up to the most bytes of a script
commits.script   the same domain, and 10 times an edit of one metric with its commit
"""

import pathlib
import random
import sys

NODES = 256
LINKS = 2048
QUESTIONS = 65_000
COMMITS = 10
MOST_BYTES = 33_554_432

# An entry of TLV 22 without sub-TLVs has 11 octets (RFC 5305, 3), and a TLV at most 255.
ENTRIES_OF_A_TLV = 255 // 11


def octets(value, count):
    return value.to_bytes(count, "big")


def tlv(kind, value):
    assert len(value) <= 255
    return bytes([kind, len(value)]) + value


def system_id(number):
    """The system id of node `number` as text."""
    digits = f"{number:012x}"
    return ".".join((digits[:4], digits[4:8], digits[8:]))


def capability(number):
    """TLV 242 with an SRGB of 8,000 labels from 16000 (RFC 7981, 2; RFC 8667, 3.1)."""
    srgb = bytes([0x80]) + octets(8000, 3) + bytes([1, 3]) + octets(16000, 3)
    return tlv(242, octets(0x0A000000 + number, 4) + bytes([0]) + tlv(2, srgb))


def reach(neighbours):
    """TLVs 22 with one entry for each neighbour and metric."""
    entries = [octets(other, 6) + bytes([0]) + octets(metric, 3) + bytes([0]) for other, metric in neighbours]
    runs = [entries[at : at + ENTRIES_OF_A_TLV] for at in range(0, len(entries), ENTRIES_OF_A_TLV)]
    return b"".join(tlv(22, b"".join(run)) for run in runs)


def pdu(number, body):
    """The link-state PDU of a node (ISO 10589, 9.9), without a checksum."""
    head = bytes([0x83, 27, 1, 0, 20, 1, 0, 0]) + octets(27 + len(body), 2) + octets(1200, 2)
    head += octets(number, 6) + bytes([0, 0]) + octets(1, 4) + octets(0, 2) + bytes([3])
    return head + body


def rich_reach(other, metric, number):
    """TLV 22 with one entry: link identifiers (RFC 5307, 1.1) and an Adj-SID (RFC 8667, 2.2.1)."""
    subs = tlv(4, octets(number, 4) * 2) + tlv(31, bytes([0x30, 0]) + octets(24000 + number, 3))
    return tlv(22, octets(other, 6) + bytes([0]) + octets(metric, 3) + bytes([len(subs)]) + subs)


def risk(other, number, group):
    """TLV 138 with one group of an unnumbered link (RFC 5307, 1.4)."""
    return tlv(138, octets(other, 6) + bytes([0, 0]) + octets(number, 4) * 2 + octets(group, 4))


def prefix(number):
    """TLV 135 with one prefix of 32 bits and a Prefix-SID (RFC 5305, 4; RFC 8667, 2.1)."""
    sid = tlv(3, bytes([0x40, 0]) + octets(number, 4))
    return tlv(135, octets(0, 4) + bytes([0x60]) + octets(0x0A000000 + number, 4) + bytes([len(sid)]) + sid)


def pairs(rng, nodes=NODES, links=LINKS):
    """A ring of all nodes, and chords at random: all pairs differ, so that each link has a key of its own."""
    chosen = {(node, node + 1) for node in range(1, nodes)} | {(1, nodes)}
    while len(chosen) < links // 2:
        low, high = sorted(rng.sample(range(1, nodes + 1), 2))
        chosen.add((low, high))
    return sorted(chosen)


def distances():
    rng = random.Random("distances")
    neighbours = {node: [] for node in range(1, NODES + 1)}
    for low, high in pairs(rng):
        neighbours[low].append((high, rng.randint(1, 1000)))
        neighbours[high].append((low, rng.randint(1, 1000)))
    lines = [f"lsp {pdu(node, capability(node) + reach(neighbours[node])).hex()}" for node in neighbours]
    lines.append("commit")
    for _ in range(QUESTIONS):
        lines.append(f"dist {system_id(rng.randint(1, NODES))} {system_id(rng.randint(1, NODES))}")
    return "".join(line + "\n" for line in lines)


def domain(rng, nodes=NODES, links=LINKS):
    """The lines of the PDUs of a domain, and its pairs."""
    bodies = {node: capability(node) + prefix(node) for node in range(1, nodes + 1)}
    risks = {node: b"" for node in bodies}
    chosen = pairs(rng, nodes, links)
    for number, (low, high) in enumerate(chosen, 1):
        metric, group = rng.randint(1, 1000), rng.randint(1, 64)
        for node, other in ((low, high), (high, low)):
            bodies[node] += rich_reach(other, metric, number)
            risks[node] += risk(other, number, group)
    return [f"lsp {pdu(node, bodies[node] + risks[node]).hex()}" for node in bodies], chosen


def reading():
    lines, _ = domain(random.Random("domain"))
    text = "".join(line + "\n" for line in lines + ["drop"])
    return text * (MOST_BYTES // len(text))


def longest():
    rng = random.Random("longest")
    sizes = [255] * 254 + [65_535 - 27 - 254 * 257 - 2]
    body = b"".join(tlv(200, rng.randbytes(size)) for size in sizes)
    text = f"lsp {pdu(1, body).hex()}\ndrop\n"
    return text * (MOST_BYTES // len(text))


def churn(nodes, links, edits):
    """The lines of a domain, and edits of one metric, each with its commit."""
    rng = random.Random("commits")
    lines, chosen = domain(random.Random("domain"), nodes, links)
    lines.append("commit")
    for _ in range(edits):
        low, high = rng.choice(chosen)
        lines += [f"cost {system_id(low)} {system_id(high)} 1 {rng.randint(1, 1000)}", "commit"]
    return lines


def commits():
    return "".join(line + "\n" for line in churn(NODES, LINKS, COMMITS))


def main():
    folder = pathlib.Path(sys.argv[1])
    folder.mkdir(parents=True, exist_ok=True)
    (folder / "feeds.script").write_bytes(b"\n" * MOST_BYTES)
    (folder / "distances.script").write_text(distances())
    (folder / "reading.script").write_text(reading())
    (folder / "longest.script").write_text(longest())
    (folder / "commits.script").write_text(commits())


if __name__ == "__main__":
    main()
