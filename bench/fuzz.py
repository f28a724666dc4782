#!/usr/bin/env python3
"""Runs the program on scripts that are made and spoilt at random, and compares its answers with those of another program.

usage: fuzz.py PROGRAM OTHER FIRST COUNT [LOG]
       fuzz.py --show SEED

OTHER is the folder of an independent program in Python, whose run_script and first_difference are called, or a second
implementation, which is run. COUNT seeds are taken from FIRST on, and each makes one script: a domain of a few routers, in
which link-state PDUs, lines or bytes of the whole are spoilt. A script that is answered otherwise is told with its seed,
and so is a run that a signal ends or that takes more than a minute. The second form prints the script of a seed.

Where LOG is given, what was run is added to it, a line for every hundred seeds, and a later run with the same LOG and OTHER
goes on behind the last seed that it tells. The status is 1 where something was answered otherwise.

This is for developers, and no part of the gate.
"""

import collections
import os
import pathlib
import re
import subprocess
import sys

import hostile
import scripts
from scripts import octets, tlv

RULES = "overload"

# Raised where a seed makes another script than before, so that no log tells of scripts that weren't run.
GENERATION = 3
PATIENCE = 60
LOGGED = 100

draw = hostile.draw

KINDS = ["link", "node", "risk"]
METRICS = [1, 1, 1, 2, 3, 10, 100, 16777214, 16777215, 0]
BLOCKS = [[(16000, 8000)]] * 16 + [[(40000, 8000)], [(100, 100), (1000, 100), (500, 100)]] * 4 + [[(16000, 3)], [(15, 100)], []]
PREFIX_FLAGS = [0x40] * 6 + [0x60, 0x70, 0x00, 0xC0, 0x50]
ADJ_FLAGS = [0x30] * 6 + [0x70, 0xB0, 0x38, 0x34]

# What stands in a line in the place of a word, or of a byte.
ODD_WORDS = ["", "0", "1", "00", "7", "13", "4294967295", "4294967296", "99999999999", "-1", "+1", "0x1", "link", "node",
             "risk", "full", "none", "#", "lsp", "8", "83", "8g", "0000.0000.0001", "0000.0000.00ff", "0000.0000.001",
             "0000.0000.000G", "FFFF.FFFF.FFFF", "0000-0000-0001", "watch", "audit", "commit", "\x00", "\xff", "x" * 300]
ODD_BYTES = [0, 1, 9, 10, 11, 13, 32, 35, 46, 48, 57, 65, 97, 102, 127, 128, 133, 160, 255]

Router = collections.namedtuple("Router", "number block index flags")
Pair = collections.namedtuple("Pair", "low high metric number groups")


def capability(router):
    """TLV 242 with the SRGB of a router, where it has one."""
    ranges = b"".join(octets(size, 3) + bytes([1, 3]) + octets(base, 3) for base, size in router.block)
    subs = tlv(2, bytes([0x80]) + ranges) if ranges else b""
    return tlv(242, octets(router.number, 4) + bytes([0]) + subs)


def prefix(router):
    """TLV 135 with the Prefix-SID of a router."""
    sid = tlv(3, bytes([router.flags, 0]) + octets(router.index, 4))
    return tlv(135, octets(0, 4) + bytes([0x60]) + octets(router.number, 4) + bytes([len(sid)]) + sid)


def reach(other, pair):
    """TLV 22 with one end of a pair, mostly with identifiers and a label."""
    subs = b""
    if draw.random() < 0.98:
        subs += tlv(4, octets(pair.number if draw.random() < 0.99 else 1, 4) * 2)
    if draw.random() < 0.9:
        subs += tlv(31, bytes([draw.choice(ADJ_FLAGS), 0]) + octets(24000 + pair.number, 3))
    return tlv(22, octets(other, 6) + bytes([0]) + octets(pair.metric, 3) + bytes([len(subs)]) + subs)


def risks(other, pair):
    """TLV 138 with the groups of a pair."""
    groups = b"".join(octets(group, 4) for group in pair.groups)
    return tlv(138, octets(other, 6) + bytes([0, 0]) + octets(pair.number, 4) * 2 + groups)


def pdu(router, pairs, sequence):
    """The PDU of a router at the end of these pairs."""
    body = capability(router)
    if router.index is not None:
        body += prefix(router)
    for pair in pairs:
        if router.number in (pair.low, pair.high):
            other = pair.low + pair.high - router.number
            body += reach(other, pair) + (risks(other, pair) if pair.groups else b"")
    whole = bytearray(scripts.pdu(router.number, body))
    whole[20:24] = octets(sequence, 4)
    if draw.random() < 0.01:
        whole[10:12] = octets(0, 2)
    if draw.random() < 0.005:
        whole[26] |= 4
    return bytes(whole)


def some_metric():
    return draw.choice(METRICS[:7] * 5 + METRICS)


def some_groups():
    return [draw.randrange(3) for _ in range(draw.choice([0, 0, 0, 1, 2]))]


def drawn_domain():
    """Routers, and the pairs between them: mostly a ring or a tree with chords."""
    count = draw.choice([1, 2, 2, 3, 3, 4, 4, 5, 6, 8])
    plain = draw.random() < 0.6
    routers = [
        Router(
            number,
            BLOCKS[0] if plain else draw.choice(BLOCKS),
            draw.choice([number] * 24 + [None, None, 1, 7000]),
            PREFIX_FLAGS[0] if plain else draw.choice(PREFIX_FLAGS),
        )
        for number in range(1, count + 1)
    ]
    ends = [(number, draw.choice([number - 1, draw.randrange(1, number)])) for number in range(2, count + 1)]
    ends += [(1, count)] if count > 2 and draw.random() < 0.7 else []
    ends += [tuple(draw.sample(range(1, count + 1), 2)) for _ in range(draw.randrange(count)) if count > 1]
    pairs = [Pair(low, high, some_metric(), at, some_groups()) for at, (low, high) in enumerate(ends, 1)]
    return routers, pairs


def system(count):
    """Mostly the name of a router."""
    return scripts.system_id(draw.choice([draw.randrange(1, count + 1)] * 15 + [0, count + 1]))


def ends_of(count, pairs):
    """Mostly the two ends and the number of a link."""
    if not pairs or draw.random() < 0.1:
        return f"{system(count)} {system(count)} {draw.choice([1, 1, 2, 65535, 65536])}"
    pair = draw.choice(pairs)
    low, high = draw.sample([pair.low, pair.high], 2)
    return f"{scripts.system_id(low)} {scripts.system_id(high)} {draw.choice([1] * 8 + [2, 3, 0])}"


def question(count, pairs):
    """A line that asks or edits."""
    kind, choice = draw.choice(KINDS), draw.choice([0, 0, 1, 2, 7, 4294967295, 4294967296])
    label = draw.choice([0, 3, 100, 1000, 15999, 16000, 24001, 24002, 1048575, 1048576] + [16000 + draw.randrange(9)] * 9)
    link = ends_of(count, pairs)
    return draw.choice([
        f"dist {system(count)} {system(count)}",
        f"next {system(count)} {system(count)}",
        f"label {system(count)} {label}",
        f"walk {system(count)} {system(count)} {choice}",
        f"spaces {kind} {link} {system(count)}",
        f"repair {kind} {link} {system(count)}",
        f"repair {kind} {link} {system(count)}",
        f"walk {kind} {link} {system(count)} {choice}",
        f"cost {link} {some_metric()}",
        f"down {link}",
        f"up {link}",
        f"depth {draw.choice([0, 1, 2, 3, 12, 13])}",
        draw.choice(["audit", "audit full", "hold", f"watch {draw.randrange(4)} {draw.randrange(4)}", "join", "show", "drop"]),
        draw.choice(["commit", "commit", "show", "# a remark", ""]),
    ])


def whole():
    """The lines of a script, without their line feeds, and the PDUs among them."""
    routers, pairs = drawn_domain()
    pdus = [pdu(router, pairs, 1) for router in routers]
    lines = [f"lsp {one.hex()}" for one in pdus] + ["commit"]
    for turn in range(draw.choice([5, 20, 40, 80])):
        lines.append(question(len(routers), pairs))
        if draw.random() < 0.05:
            pairs = [pair._replace(metric=some_metric()) if draw.random() < 0.3 else pair for pair in pairs]
            lines.append(f"lsp {pdu(draw.choice(routers), pairs, turn + 2).hex()}")
        if draw.random() < 0.08:
            lines.append("commit")
    return [line.encode("latin-1") for line in lines], pdus


def spoilt_pdus(lines, pdus):
    """Hostile PDUs between the lines and in the place of some, mostly behind the first commit."""
    found, quiet = [], draw.random() < 0.7
    for line in lines:
        quiet = quiet and line != b"commit"
        if quiet:
            found.append(line)
            continue
        if line.startswith(b"lsp ") and draw.random() < 0.1:
            line = b"lsp " + hostile.hostile(bytes.fromhex(line[4:].decode())).hex().encode()
        found += [line, b"drop"] if draw.random() < 0.1 else [line]
        for _ in range(draw.choice([0, 1, 3, 8])):
            found.append(b"lsp " + hostile.hostile(draw.choice(pdus)).hex().encode())
    return found


def spoilt_line(line):
    """The line with a word or a byte more, less, or another."""
    sort = draw.random()
    if sort < 0.5:
        words = line.decode("latin-1").split(" ")
        at = draw.randrange(len(words))
        odd = draw.choice(ODD_WORDS + words)
        words[at : at + draw.choice([0, 1, 1, 1])] = draw.choice([[odd], [odd], [odd], []])
        return draw.choice([" ", " ", " ", "  ", "\t"]).join(words).encode("latin-1")
    at = draw.randrange(len(line) + 1)
    middle = draw.choice([bytes([draw.choice(ODD_BYTES)]), b"", bytes([draw.getrandbits(8)])])
    made = line[:at] + middle + line[at + draw.choice([0, 1, 1]) :]
    return draw.choice([made, made, made, made + b"\r", b" \t" + made, made.upper(), made + b" "])


def spoilt_whole(text):
    """The text cut, repeated, without some line feeds, or with other bytes."""
    for _ in range(draw.choice([1, 2, 4])):
        low, high = sorted(draw.randrange(len(text) + 1) for _ in range(2))
        text = draw.choice([
            lambda: text[:low],
            lambda: text[:low] + text[high:],
            lambda: text[:high] + text[low:high] + text[high:],
            lambda: text[:low] + text[low:high].replace(b"\n", draw.choice([b"\r\n", b"\n\n", b" ", b"\r"])) + text[high:],
            lambda: text[:low] + bytes(draw.choice(ODD_BYTES) for _ in range(draw.choice([1, 2, 9]))) + text[low:],
            lambda: text[high:] + text[:high],
        ])()
    return text


def is_newer(line):
    """Whether the line is `repair` without a destination, which independent programs don't know."""
    words = re.sub(rb"\r$", b"", line).replace(b"\t", b" ").split(b" ")
    words = [word for word in words if word]
    return len(words) == 5 and words[0] == b"repair"


def known(text):
    """The text with remarks in place of such lines."""
    return b"\n".join(b"#" + line if is_newer(line) else line for line in text.split(b"\n"))


def made(seed):
    """The script of a seed."""
    draw.seed(seed)
    lines, pdus = whole()
    sort = draw.random()
    if sort < 0.4:
        lines = spoilt_pdus(lines, pdus)
    elif sort < 0.7:
        often = draw.choice([0.05, 0.2, 0.6])
        lines = [spoilt_line(line) if draw.random() < often else line for line in lines]
    text = b"".join(line + b"\n" for line in lines)
    return known(spoilt_whole(text) if sort > 0.85 else text)


class Model:
    """An independent program in Python, in a folder."""

    def __init__(self, folder):
        sys.path.insert(0, folder)
        from oracle.command import run_script
        from oracle.comparing import first_difference
        from oracle.rules import rules_named

        self.run, self.compare, self.rules = run_script, first_difference, rules_named(RULES)

    def difference(self, script, status, answers):
        session, lines, wanted = self.run(script, self.rules)
        if status != wanted:
            return f"the status is {status} and should be {wanted}"
        return self.compare(session, lines, answers)


class Second:
    """A second implementation. Which version a round of a watch meets may differ, so its reports aren't compared."""

    def __init__(self, program):
        self.command = [program, "run", "--rules", RULES]

    def difference(self, script, status, answers):
        other = subprocess.run(self.command, input=script, stdout=subprocess.PIPE, check=False, timeout=PATIENCE)
        if status != other.returncode:
            return f"the statuses are {status} and {other.returncode}"
        ours, theirs = ([told(line) for line in text.split(b"\n")] for text in (answers, other.stdout))
        for at, (mine, its) in enumerate(zip(ours, theirs), 1):
            if mine != its:
                return f"answer {at} is {mine[:80]!r}, and of the other {its[:80]!r}"
        return None if len(ours) == len(theirs) else f"{len(ours)} and {len(theirs)} lines of answers"


def told(line):
    """What is compared of an answer."""
    return re.sub(rb"^(report watch \d+ \d+) .*", rb"\1", line)


def tried(program, other, seed):
    """How many lines the script of a seed has, and what is answered otherwise."""
    script = made(seed)
    count = script.count(b"\n") + 1
    try:
        run = subprocess.run([program, "run"], input=script, stdout=subprocess.PIPE, check=False, timeout=PATIENCE)
    except subprocess.TimeoutExpired:
        return count, f"it takes more than {PATIENCE} seconds"
    if run.returncode < 0:
        return count, f"it is ended by signal {-run.returncode}"
    return count, other.difference(script, run.returncode, run.stdout)


def next_seed(log, name, first):
    """The seed behind the last one that the log tells."""
    if log is None or not log.exists():
        return first
    lasts = re.findall(rf"^{re.escape(name)}: seeds \d+ to (\d+),", log.read_text(), re.MULTILINE)
    return max([first] + [int(last) + 1 for last in lasts])


def main():
    if sys.argv[1:2] == ["--show"]:
        sys.stdout.buffer.write(made(int(sys.argv[2])))
        return 0
    if len(sys.argv) not in (5, 6):
        sys.exit("usage: fuzz.py PROGRAM OTHER FIRST COUNT [LOG]")
    program, second = sys.argv[1:3]
    other = Model(second) if os.path.isdir(second) else Second(second)
    name = f"{type(other).__name__.lower()}, generation {GENERATION}"
    log = pathlib.Path(sys.argv[5]) if len(sys.argv) == 6 else None
    start = next_seed(log, name, int(sys.argv[3]))
    end = int(sys.argv[3]) + int(sys.argv[4])
    lines, differing, since, begun, bad = 0, 0, 0, start, 0
    for seed in range(start, end):
        count, difference = tried(program, other, seed)
        lines, since = lines + count, since + count
        if difference is not None:
            print(f"seed {seed}: {difference}", flush=True)
            differing, bad = differing + 1, bad + 1
        if log and (seed + 1 - begun == LOGGED or seed + 1 == end):
            with log.open("a") as to:
                to.write(f"{name}: seeds {begun} to {seed}, {since} lines, {bad} scripts answered otherwise\n")
            begun, since, bad = seed + 1, 0, 0
    print(f"{max(0, end - start)} scripts with {lines} lines, {differing} of them answered otherwise")
    return 1 if differing else 0


if __name__ == "__main__":
    sys.exit(main())
