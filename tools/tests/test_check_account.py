"""Tests of check-account: a domain in which each reason holds once, worked out by hand, and the program's own answers."""
from __future__ import annotations

import random
import tempfile
import unittest
from pathlib import Path

from commands import PROGRAM, answers, run
from flooded import (
    BACKUP,
    VALUE_AND_LOCAL,
    adjacency_index,
    adjacency_label,
    capability,
    depths,
    identifiers,
    label_ranges,
    lsp_line,
    prefix,
    prefix_index,
    prefix_label,
    random_domain,
    reach,
    risk,
    run as tlv,
)

ROUTER_1 = 0x0A000001
NODE, NO_POP, EXPLICIT = 0x40, 0x20, 0x10


def first_fragment() -> str:
    labels = (
        adjacency_label(VALUE_AND_LOCAL, 24001),
        adjacency_index(0, 5),
        adjacency_label(VALUE_AND_LOCAL | 0x80, 24002),
        adjacency_label(VALUE_AND_LOCAL | BACKUP, 24003),
        adjacency_label(VALUE_AND_LOCAL, 24005),
        adjacency_label(VALUE_AND_LOCAL, 24001),
    )
    indices = (
        prefix_index(NODE, 1, 1),
        prefix_label(NODE | 0x0C, 0, 16001),
        prefix_index(0, 0, 1),
        prefix_index(NODE, 0, 5),
        prefix_index(NODE | NO_POP, 0, 1),
    )
    parts = [
        capability(ROUTER_1, label_ranges(16000, 8000), depths((1, 8))),
        tlv(137, b"r1"),
        reach(2, 0, 10, identifiers(1, 12), *labels),
        reach(2, 0, 20, identifiers(2, 11), adjacency_label(VALUE_AND_LOCAL | BACKUP | 4, 24006)),
        reach(2, 1, 10),
        reach(1, 0, 10),
        reach(9, 0, 10),
        reach(3, 0, 10, identifiers(5, 6)),
        reach(2, 0, 10, identifiers(7, 8)),
        reach(2, 0, 0xFFFFFF, identifiers(3, 13), adjacency_label(VALUE_AND_LOCAL, 24007)),
        prefix(ROUTER_1, 32, *indices),
        prefix(0x0A000100, 24, prefix_index(NODE, 0, 1)),
        prefix(ROUTER_1, 32, prefix_index(NODE, 0, 1)),
        prefix(0x0A000009, 32),
    ]
    return lsp_line((1, 0, 0), parts)


def second_fragment() -> str:
    parts = [
        risk(2, 0, 1, 12, 7),
        risk(2, 1, 1, 12, 7),
        risk(2, 0, 1, 12),
        risk(2, 0, 99, 99, 7),
        risk(2, 0, 7, 8, 7),
        capability(ROUTER_1),
        capability(ROUTER_1, label_ranges(20000, 100), depths((1, 6))),
        capability(ROUTER_1, depths((1, 4), (2, 3))),
    ]
    return lsp_line((1, 0, 1), parts)


def others() -> str:
    second = [
        capability(0x0A000002, label_ranges(16000, 8000), depths((2, 9), (1, 6))),
        reach(1, 0, 10, identifiers(12, 1), adjacency_label(VALUE_AND_LOCAL, 24001)),
        reach(1, 0, 20, identifiers(11, 2)),
        reach(1, 0, 10, identifiers(13, 3)),
        reach(1, 0, 10, identifiers(9, 7)),
        reach(3, 0, 5),
        prefix(0x0A000002, 32, prefix_index(NODE, 0, 2)),
    ]
    third = [
        capability(0x0A000003, label_ranges(16000, 8000)),
        reach(2, 0, 5, adjacency_label(VALUE_AND_LOCAL | BACKUP, 24010)),
    ]
    lines = lsp_line((2, 0, 0), second, flags=7) + lsp_line((2, 1, 0), [reach(1, 0, 0), reach(2, 0, 0)])
    absent = [reach(1, 0, 10), prefix(0x0A000004, 32, prefix_index(NODE, 0, 4))]
    return lines + lsp_line((3, 0, 0), third) + lsp_line((4, 0, 1), absent)


NODES = """node 0000.0000.0001 index 1 flags P srgb 16000-23999 msd 8 links 2
node 0000.0000.0002 index 2 flags O srgb 16000-23999 msd 6 links 4
node 0000.0000.0003 index none flags none srgb 16000-23999 msd none links 1
nodes 3
"""

LINKS = """link 0000.0000.0001>0000.0000.0002#1 back 0000.0000.0002>0000.0000.0001#2 metric 10 announced 10 label 24001 flags VL ident ids 1 12 groups 7
link 0000.0000.0001>0000.0000.0002#2 back 0000.0000.0002>0000.0000.0001#1 metric 20 announced 20 label 24006 flags BVLP ident ids 2 11 groups none
link 0000.0000.0002>0000.0000.0001#1 back 0000.0000.0001>0000.0000.0002#2 metric 20 announced 20 label none flags none ident ids 11 2 groups none
link 0000.0000.0002>0000.0000.0001#2 back 0000.0000.0001>0000.0000.0002#1 metric 10 announced 10 label 24001 flags VL ident ids 12 1 groups 7
link 0000.0000.0002>0000.0000.0001#3 back none metric 10 announced 10 label none flags none ident ids 13 3 groups none
link 0000.0000.0002>0000.0000.0003#1 back 0000.0000.0003>0000.0000.0002#1 metric 5 announced 5 label none flags none ident none groups none
link 0000.0000.0003>0000.0000.0002#1 back 0000.0000.0002>0000.0000.0003#1 metric 5 announced 5 label 24010 flags BVL ident none groups none
links 7
"""

ASIDES = """aside 0000.0000.0001.00-00 part 2 name hostname
aside 0000.0000.0001.00-00 part 3 sid 2 adjsid index 5 form
aside 0000.0000.0001.00-00 part 3 sid 3 adjsid label 24002 flags
aside 0000.0000.0001.00-00 part 3 sid 4 adjsid label 24003 backup
aside 0000.0000.0001.00-00 part 3 sid 5 adjsid label 24005 notleast
aside 0000.0000.0001.00-00 part 3 sid 6 adjsid label 24001 notfirst
aside 0000.0000.0001.00-00 part 5 reach 0000.0000.0002.01 pseudonode
aside 0000.0000.0001.00-00 part 6 reach 0000.0000.0001.00 self
aside 0000.0000.0001.00-00 part 7 reach 0000.0000.0009.00 neighbour
aside 0000.0000.0001.00-00 part 8 reach 0000.0000.0003.00 oneway
aside 0000.0000.0001.00-00 part 9 reach 0000.0000.0002.00 identity
aside 0000.0000.0001.00-00 part 10 reach 0000.0000.0002.00 maxmetric
aside 0000.0000.0001.00-00 part 10 sid 1 adjsid label 24007 maxmetric
aside 0000.0000.0001.00-00 part 11 sid 1 prefixsid index 1 algorithm
aside 0000.0000.0001.00-00 part 11 sid 2 prefixsid label 16001 form
aside 0000.0000.0001.00-00 part 11 sid 3 prefixsid index 1 flags
aside 0000.0000.0001.00-00 part 11 sid 4 prefixsid index 5 notleast
aside 0000.0000.0001.00-00 part 12 prefix 10.0.1.0/24 length
aside 0000.0000.0001.00-00 part 12 sid 1 prefixsid index 1 length
aside 0000.0000.0001.00-00 part 13 prefix 10.0.0.1/32 noneused
aside 0000.0000.0001.00-00 part 13 sid 1 prefixsid index 1 notfirst
aside 0000.0000.0001.00-00 part 14 prefix 10.0.0.9/32 nosid
aside 0000.0000.0001.00-01 part 2 risk 0000.0000.0002.01 pseudonode
aside 0000.0000.0001.00-01 part 3 risk 0000.0000.0002.00 nogroups
aside 0000.0000.0001.00-01 part 4 risk 0000.0000.0002.00 nolink
aside 0000.0000.0001.00-01 part 5 risk 0000.0000.0002.00 unused
aside 0000.0000.0001.00-01 part 6 capability 10.0.0.1 silent
aside 0000.0000.0001.00-01 part 7 capability 10.0.0.1 notfirst
aside 0000.0000.0001.00-01 part 8 capability 10.0.0.1 notfirst
aside 0000.0000.0002.00-00 part 5 reach 0000.0000.0001.00 identity
aside 0000.0000.0002.01-00 part 1 reach 0000.0000.0001.00 lan
aside 0000.0000.0002.01-00 part 2 reach 0000.0000.0002.00 lan
aside 0000.0000.0004.00-01 part 1 reach 0000.0000.0001.00 absent
aside 0000.0000.0004.00-01 part 2 prefix 10.0.0.4/32 absent
aside 0000.0000.0004.00-01 part 2 sid 1 prefixsid index 4 absent
asides 35
"""

DOMAIN = first_fragment() + second_fragment() + others() + "commit\n"
QUESTIONS = "nodes\nlinks\naside\n"


def check(script: str, told: str) -> tuple[int, list[str]]:
    with tempfile.TemporaryDirectory() as folder:
        (Path(folder) / "script").write_text(script)
        (Path(folder) / "answers").write_text(told)
        status, text, _ = run("check-account", f"{folder}/script", f"{folder}/answers")
    return status, text.splitlines()


class CheckAccount(unittest.TestCase):
    def test_each_reason(self) -> None:
        self.assertEqual(
            check(DOMAIN + QUESTIONS, NODES + LINKS + ASIDES), (0, ["3 answers compared, 54 parts and SIDs counted"])
        )

    def test_a_link_that_is_down(self) -> None:
        edits = "down 0000.0000.0001 0000.0000.0002 2\ncost 0000.0000.0001 0000.0000.0002 1 7\ncommit\n"
        told = ASIDES.replace("asides 35", "asides 38")
        for before, line in (
            ("part 5 reach 0000.0000.0002.01", "aside 0000.0000.0001.00-00 part 4 reach 0000.0000.0002.00 down"),
            ("part 5 reach 0000.0000.0002.01", "aside 0000.0000.0001.00-00 part 4 sid 1 adjsid label 24006 down"),
            ("part 5 reach 0000.0000.0001.00", "aside 0000.0000.0002.00-00 part 3 reach 0000.0000.0001.00 down"),
        ):
            at = told.rindex("\n", 0, told.index(before)) + 1
            told = told[:at] + line + "\n" + told[at:]
        links = [line for line in LINKS.splitlines() if "24006" not in line and "ids 11 2" not in line]
        told_links = "\n".join(links).replace("metric 10 announced 10 label 24001 flags VL ident ids 1 12", "metric 7 announced 10 label 24001 flags VL ident ids 1 12")
        told_links = told_links.replace("links 7", "links 5") + "\n"
        self.assertEqual(check(DOMAIN + edits + "links\naside\n", told_links + told)[0], 0)

    def test_what_differs_is_told(self) -> None:
        for old, new in (("oneway", "identity"), ("part 5 reach 0000.0000.0002.01 pseudonode\n", "\n"), ("back none", "back 0000.0000.0001>0000.0000.0002#1")):
            whole = NODES + LINKS + ASIDES
            self.assertIn(old, whole)
            self.assertEqual(check(DOMAIN + QUESTIONS, whole.replace(old, new, 1))[0], 1)

    @unittest.skipUnless(PROGRAM.exists(), "the program isn't built")
    def test_the_answers_of_the_program(self) -> None:
        self.assertIn(NODES + LINKS + ASIDES, answers(DOMAIN + QUESTIONS).decode())

    @unittest.skipUnless(PROGRAM.exists(), "the program isn't built")
    def test_random_domains(self) -> None:
        """Most of these domains are accepted; in each some parts aren't used."""
        rng = random.Random("accounts")
        counted = 0
        for _ in range(300):
            edits = "".join(rng.choice(("down", "up")) + f" 0000.0000.0001 0000.0000.0002 {rng.randint(1, 2)}\n" for _ in range(2))
            script = random_domain(rng) + "commit\n" + QUESTIONS + edits + "commit\n" + QUESTIONS
            status, text = check(script, answers(script).decode())
            self.assertEqual(status, 0, script + "\n".join(text))
            counted += int(text[-1].split()[3])
        self.assertGreater(counted, 3000)


if __name__ == "__main__":
    unittest.main()
