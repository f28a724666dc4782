#!/usr/bin/env python3
"""Writes a script of hostile link-state PDUs: what a router would flood, changed, cut, spliced, or drawn at random.

usage: hostile.py SCRIPT SEED COUNT

SCRIPT has `lsp` lines, as examples/frr_mesh9.script has; each PDU that is written begins as one of them. COUNT lines `lsp`
are written, a `commit` in the middle of every 500 of them, and a `drop` at their end. The answers are for comparing with
those of an independent program:

    python3 bench/hostile.py examples/frr_mesh9.script 1 30000 >script
    build/tilfa run <script >answers; python3 "$MODEL/compare_answers.py" --rules overload --status $? script answers

This is for developers, and no part of the gate.
"""

import random
import sys

HEADER = 27

# The types of TLVs that are read, more often than others, and of sub-TLVs.
KINDS = [1, 2, 22, 22, 22, 22, 135, 135, 135, 137, 137, 138, 138, 138, 242, 242, 222, 238, 149]
SUB_KINDS = [2, 3, 4, 6, 8, 23, 31, 31, 3, 9, 19]

# Flags of SIDs, with the V and the L flag alike and unlike.
SID_FLAGS = [0x40, 0x4C, 0x30, 0x00, 0x08, 0x80, 0x70]

draw = random.Random()


def octets(count):
    """That many random octets."""
    return bytes(draw.getrandbits(8) for _ in range(count))


def about(length, often):
    """Mostly the length, and else one that is a little wrong, in one octet."""
    wrong = [min(255, length + 1), max(0, length - 1)]
    return bytes([draw.choice([min(255, length)] * often + wrong)])


def ranges():
    """Label ranges behind their flags, some of another form."""
    some = draw.choice([1, 1, 2, 3])
    return b"\xc0" + b"".join(
        octets(3) + bytes([draw.choice([1, 1, 1, 2]), draw.choice([3, 3, 3, 4])]) + octets(3) for _ in range(some)
    )


def sub_tlv():
    """A sub-TLV, mostly with a value of a known form."""
    kind = draw.choice(SUB_KINDS)
    value = octets(draw.choice([0, 1, 2, 3, 4, 4, 5, 6, 6, 7, 8, 8, 9, 10, 16, 17]))
    if kind in (3, 31) and draw.random() < 0.5:
        value = bytes([draw.choice(SID_FLAGS), draw.choice([0, 0, 1])]) + octets(draw.choice([3, 4]))
    if kind == 2 and draw.random() < 0.5:
        value = ranges()
    return bytes([kind]) + about(len(value), 20) + value


def sub_tlvs(most):
    """Sub-TLVs, at most that many."""
    return b"".join(sub_tlv() for _ in range(draw.randrange(most + 1)))


def reach():
    """An entry of extended IS reachability."""
    subs = sub_tlvs(3)
    return octets(6) + bytes([draw.choice([0, 0, 1])]) + octets(3) + about(len(subs), 24) + subs


def prefix():
    """An entry of extended IP reachability."""
    bits = draw.choice([0, 1, 7, 8, 9, 24, 31, 32, 32, 32, 33, 40, 63])
    control = bits | draw.choice([0, 0, 0x80]) | draw.choice([0, 0x40, 0x40])
    entry = octets(4) + bytes([control]) + octets((bits + 7) // 8)
    if control & 0x40:
        subs = sub_tlvs(2)
        entry += about(len(subs), 24) + subs
    return entry


def value(kind):
    """The value of a TLV."""
    if kind == 22:
        return b"".join(reach() for _ in range(draw.choice([1, 1, 2, 3])))
    if kind == 135:
        return b"".join(prefix() for _ in range(draw.choice([1, 1, 2, 3])))
    if kind == 138:
        fixed = draw.choice([16, 16, 16, 16, 15, 12, 8, 7, 6, 5, 0, 17])
        return octets(fixed) + octets(4 * draw.choice([0, 1, 1, 2, 5]) + draw.choice([0] * 8 + [1, 2, 3]))
    if kind == 242:
        return octets(draw.choice([5] * 10 + [4, 3, 0])) + sub_tlvs(4)
    return octets(draw.choice([0, 1, 2, 5, 20]))


def with_length(pdu, more=0):
    """The PDU with its length, or one that is greater by `more`, in the header."""
    length = max(0, min(65_535, len(pdu) + more))
    return pdu[:8] + length.to_bytes(2, "big") + pdu[10:]


def drawn(pdu):
    """The header of the PDU, and TLVs drawn at random."""
    body = b""
    for _ in range(draw.choice([1, 1, 2, 3, 5])):
        kind = draw.choice(KINDS)
        own = value(kind)[:255]
        body += bytes([kind]) + about(len(own), 30) + own
    return with_length(pdu[:HEADER] + body, draw.choice([0] * 12 + [1, -1, 5]))


def tlvs(pdu):
    """The TLVs of a whole PDU."""
    at, found = HEADER, []
    while at + 2 <= len(pdu):
        end = at + 2 + pdu[at + 1]
        found.append(pdu[at:end])
        at = end
    return found


def spliced(pdu):
    """Some of the TLVs, in another order."""
    parts = tlvs(pdu)
    draw.shuffle(parts)
    return with_length(pdu[:HEADER] + b"".join(parts[: draw.randrange(len(parts) + 1)]))


def changed(pdu):
    """The PDU with some other octets."""
    octets_of = bytearray(pdu)
    for _ in range(draw.choice([1, 1, 2, 4])):
        octets_of[draw.randrange(len(octets_of))] = draw.getrandbits(8)
    return bytes(octets_of)


def hostile(pdu):
    """One of these, mostly with a sequence number of its own."""
    sort = draw.random()
    if sort < 0.25:
        made = changed(pdu)
    elif sort < 0.35:
        made = pdu[: draw.randrange(1, len(pdu) + 1)]
    elif sort < 0.5:
        made = spliced(pdu)
    elif sort < 0.95:
        made = drawn(pdu)
    else:
        made = pdu + octets(draw.choice([1, 3, 30]))
    if len(made) >= 24 and draw.random() < 0.7:
        made = made[:20] + octets(4) + made[24:]
    return made


def main():
    """Writes the script."""
    if len(sys.argv) != 4:
        sys.exit("usage: hostile.py SCRIPT SEED COUNT")
    with open(sys.argv[1], encoding="ascii") as script:
        pdus = [bytes.fromhex(line.split()[1]) for line in script if line.startswith("lsp ")]
    draw.seed(int(sys.argv[2]))
    for line in range(int(sys.argv[3])):
        print("lsp", hostile(draw.choice(pdus)).hex())
        if line % 500 == 250:
            print("commit")
        if line % 500 == 499:
            print("drop")


if __name__ == "__main__":
    main()
