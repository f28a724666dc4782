#!/usr/bin/env python3
"""Measures commits of scripts that say far more of risks than a domain needs.

usage: floods.py PROGRAM [RUNS]

own-1000      a router with 1,024 pairs of links to 255 others, and 1,000 groups of its own for each pair, one after another
mixed-1000    the same, the groups of the pairs lying between each other
shared-1000   1,024 pairs of links between two routers, all with one pair of identifiers, by which 1,000 groups are said
again-5000    45 routers with links between any two, one announced 5,800 times more at the maximum metric, 5,000 groups
again-20000   the same with 20,000 groups

RUNS (3 if none is given) is how often each program runs on each script. A line is printed for each: the size of the
script, and for each program the least time of the commit, without that of the same lines with `drop` in its place, and
the most memory that its process held. No destination has an index, so that the commit is little more than its net. A
program gets 8 GiB of address space; where it doesn't end with status 0, its status stands in place of the time.

Where the variable PEER names the folder of a second implementation, with its sources and its build.sh, it is copied and
built in a temporary folder, and measured beside the program, with flags by which its commits make all cases too.
"""

import os
import pathlib
import resource
import shutil
import subprocess
import sys
import tempfile
import time

import scripts
from scripts import octets, tlv

MOST_MEMORY = 8 << 30
MAXIMUM_METRIC = 16777215

# A PDU has at most 65,535 octets, of which its header takes 27; a TLV 138 has 16 octets before its groups.
BODY = 65_535 - 27
GROUPS_OF_A_TLV = (255 - 16) // 4


def entry(other, metric, subs):
    """An entry of TLV 22 (RFC 5305, 3)."""
    return octets(other, 6) + bytes([0]) + octets(metric, 3) + bytes([len(subs)]) + subs


def reaches(entries):
    """TLVs 22 with these entries, all of one length."""
    count = 255 // len(entries[0])
    return [tlv(22, b"".join(entries[at : at + count])) for at in range(0, len(entries), count)]


def ids(number):
    """The link identifiers of both ends (RFC 5307, 1.1)."""
    return tlv(4, octets(number, 4) * 2)


def addresses(local, remote):
    """The addresses of both ends (RFC 5305, 3.2 and 3.3)."""
    return tlv(6, octets(local, 4)) + tlv(8, octets(remote, 4))


def risks(other, number, groups):
    """TLVs 138 with the groups of an unnumbered link (RFC 5307, 1.4)."""
    head = octets(other, 6) + bytes([0, 0]) + octets(number, 4) * 2
    runs = [groups[at : at + GROUPS_OF_A_TLV] for at in range(0, len(groups), GROUPS_OF_A_TLV)]
    return [tlv(138, head + b"".join(octets(group, 4) for group in run)) for run in runs]


def fragments(number, tlvs):
    """The lines of a router's PDUs, as many as its TLVs need."""
    bodies = [scripts.capability(number)]
    for one in tlvs:
        if len(bodies[-1]) + len(one) > BODY:
            bodies.append(b"")
        bodies[-1] += one
    assert len(bodies) <= 256
    for fragment, body in enumerate(bodies):
        whole = bytearray(scripts.pdu(number, body))
        whole[19] = fragment
        yield f"lsp {whole.hex()}"


def lines_of(said):
    return [line for number, tlvs in said.items() for line in fragments(number, tlvs)]


def star(groups_of):
    said = {number: [] for number in range(1, 257)}
    for pair in range(1, 1025):
        other = 2 + pair % 255
        said[1] += [tlv(22, entry(other, 10, ids(pair)))] + risks(other, pair, groups_of(pair))
        said[other].append(tlv(22, entry(1, 10, ids(pair))))
    return lines_of(said)


def shared(groups):
    said = {1: risks(2, 1, range(groups)), 2: []}
    for pair in range(1, 1025):
        said[1].append(tlv(22, entry(2, 10, addresses(pair, 2000 + pair) + ids(1))))
        said[2].append(tlv(22, entry(1, 10, addresses(2000 + pair, pair) + ids(1))))
    return lines_of(said)


def again(groups):
    said = {}
    for number in range(1, 46):
        entries = [entry(other, 10, ids(min(number, other) * 45 + max(number, other))) for other in range(1, 46) if other != number]
        said[number] = reaches(entries)
    said[1] += reaches([entry(2, MAXIMUM_METRIC, ids(47))] * 5800) + risks(2, 47, range(groups))
    return lines_of(said)


def floods():
    return {
        "own-1000": star(lambda pair: range(pair * 1000, (pair + 1) * 1000)),
        "mixed-1000": star(lambda pair: range(pair, pair + 1024 * 1000, 1024)),
        "shared-1000": shared(1000),
        "again-5000": again(5000),
        "again-20000": again(20_000),
    }


def started(command, script):
    with open(script, "rb") as given:
        return subprocess.Popen(
            command,
            stdin=given,
            stdout=subprocess.DEVNULL,
            preexec_fn=lambda: resource.setrlimit(resource.RLIMIT_AS, (MOST_MEMORY, MOST_MEMORY)),
        )


def seconds(command, script):
    start = time.perf_counter()
    started(command, script).wait()
    return time.perf_counter() - start


def held(process):
    """The most KiB that the process held until now, or nothing where it has ended, or is still a copy of this one."""
    try:
        if os.readlink(f"/proc/{process.pid}/exe") == os.readlink("/proc/self/exe"):
            return 0
        told = pathlib.Path(f"/proc/{process.pid}/status").read_text()
    except OSError:
        return 0
    return max([int(line.split()[1]) for line in told.splitlines() if line.startswith("VmHWM:")], default=0)


def memory(command, script):
    """The status of a run, and the most MiB that it held. What the system tells of an ended process counts the copy of
    this one too that it was at first, so it is asked while it runs."""
    process, most = started(command, script), 0
    while process.poll() is None:
        most = max(most, held(process))
        time.sleep(0.001)
    return process.returncode, most / 1024


def measured(command, folder, name, lines, runs):
    for end in ("commit", "drop"):
        (folder / f"{name}.{end}").write_text("".join(line + "\n" for line in lines + [end]))
    status, most = memory(command, folder / f"{name}.commit")
    whole, read = (min(seconds(command, folder / f"{name}.{end}") for _ in range(runs)) for end in ("commit", "drop"))
    took = f"{1000 * (whole - read):.1f} ms" if status == 0 else f"status {status}"
    return f"{took:>12} {most:>8.0f} MiB"


def built(peer, work):
    """The program of the second implementation."""
    folder = work / "peer"
    shutil.copytree(peer, folder)
    subprocess.run(["chmod", "-R", "u+w", folder], check=True)
    subprocess.run([folder / "build.sh"], check=True, stdout=sys.stderr)
    return folder / "peer"


def main():
    programs = {"tilfa": [sys.argv[1], "run"]}
    runs = int(sys.argv[2]) if len(sys.argv) > 2 else 3
    with tempfile.TemporaryDirectory() as folder:
        work = pathlib.Path(folder)
        if os.environ.get("PEER"):
            programs["peer"] = [built(os.environ["PEER"], work), "run", "--rules", "overload", "--eager"]
        print(f"{'script':<14}{'octets':>12}" + "".join(f"{name:>25}" for name in programs))
        for name, lines in floods().items():
            size = sum(len(line) + 1 for line in lines)
            shown = [measured(command, work, name, lines, runs) for command in programs.values()]
            print(f"{name:<14}{size:>12}" + "".join(f"{one:>25}" for one in shown), flush=True)


if __name__ == "__main__":
    main()
