"""Tests of draw: what a picture has of a ring of four, each link of the answer once."""
from __future__ import annotations

import shutil
import subprocess
import sys
import tempfile
import unittest
from pathlib import Path

from commands import EXAMPLES, PROGRAM, TOOLS, answers, example, run
from test_check_certificate import RING, lsp

LINK = "repair link 0000.0000.0001>0000.0000.0002#1 to "
REPAIRED = (
    LINK
    + "0000.0000.0002 via 0000.0000.0001>0000.0000.0004#1 segments node:0000.0000.0003 labels 16003 16002 cost 3"
)
UNCOVERED = LINK + "0000.0000.0003 uncovered nopath"
DEARER = "cost 0000.0000.0003 0000.0000.0002 1 5\n"


def draw(answers: str, *words: str, domain: str = RING) -> tuple[int, list[str], list[str]]:
    with tempfile.TemporaryDirectory() as folder:
        path = Path(folder) / "domain"
        path.write_text(domain)
        status, text, told = run("draw", str(path), "-", *words, given=answers.encode())
    return status, text.splitlines(), told


def draw_alone(domain: str) -> tuple[int, list[str], list[str]]:
    with tempfile.TemporaryDirectory() as folder:
        path = Path(folder) / "domain"
        path.write_bytes(domain.encode())
        status, text, told = run("draw", str(path))
    return status, text.splitlines(), told


def edges(lines: list[str]) -> list[str]:
    return [line for line in lines if " -> " in line]


def metrics(lines: list[str]) -> dict[str, str]:
    """What stands at the middle of each link."""
    return {line.split(" [")[0].strip(): line.split('label="')[1].split('"')[0] for line in edges(lines)}


def labels(lines: list[str]) -> list[str]:
    """What stands at the nodes."""
    return [line.split('label="')[1].split('"')[0] for line in lines if line.startswith("  n") and "->" not in line]


def named(node: int, name: str, sequence: int = 1, pseudonode: int = 0) -> str:
    octets = bytearray.fromhex(lsp(node, sequence).split()[1]) + bytes([137, len(name)]) + name.encode()
    octets[8:10] = len(octets).to_bytes(2, "big")
    octets[18] = pseudonode
    return f"lsp {octets.hex()}\n"


class Draw(unittest.TestCase):
    def test_a_repair(self) -> None:
        """The pair that fails is dashed, and the three others are crossed, each in the direction of the packet."""
        status, lines, _ = draw(f"version 1 nodes 4 links 8\n{REPAIRED}\n")
        self.assertEqual(status, 0)
        shown = {line.split(" [")[0].strip(): line for line in edges(lines)}
        self.assertEqual(sorted(shown), ["n0 -> n1", "n0 -> n3", "n1 -> n2", "n2 -> n3"])
        self.assertIn("style=dashed", shown["n0 -> n1"])
        self.assertNotIn("dir=", shown["n0 -> n1"])
        self.assertIn("dir=forward", shown["n0 -> n3"])
        self.assertIn("dir=back", shown["n2 -> n3"])
        self.assertIn("dir=back", shown["n1 -> n2"])
        self.assertEqual(sum("dashed" in line for line in lines), 1)
        self.assertEqual([line.split()[0] for line in lines if "peripheries=2" in line], ["n0"])
        self.assertEqual([line.split()[0] for line in lines if 'color="#2171b5" penwidth=2]' in line], ["n2", "n3"])
        self.assertEqual([line.split()[0] for line in lines if "#c6dbef" in line], ["n1"])

    def test_all_equal_cost_paths(self) -> None:
        """Without a segment the packet may take both ways round the ring."""
        answer = "repair node 0000.0000.0001>0000.0000.0002#1 to 0000.0000.0002 via 0000.0000.0001>0000.0000.0004#1 "
        _, lines, _ = draw(answer + "segments none labels 16002 cost 3\n")
        self.assertEqual(sum("dir=" in line for line in edges(lines)), 4)

    def test_an_adjacency_segment(self) -> None:
        segment = "adj:0000.0000.0003>0000.0000.0002#1"
        _, lines, _ = draw(REPAIRED.replace("segments ", f"segments node:0000.0000.0003 {segment} ", 1) + "\n")
        self.assertEqual(sum("dir=" in line for line in edges(lines)), 3)

    def test_a_case_without_a_repair(self) -> None:
        _, lines, _ = draw(f"{UNCOVERED}\n")
        self.assertEqual(sum("dir=" in line for line in edges(lines)), 0)
        self.assertEqual(sum("dashed" in line for line in edges(lines)), 1)

    def test_the_one_that_is_picked(self) -> None:
        _, lines, _ = draw(f"{REPAIRED}\n{UNCOVERED}\n", "--pick", "to 0000.0000.0003")
        self.assertIn("uncovered nopath", lines[1])
        status, _, told = draw(f"{REPAIRED}\n", "--pick", "node")
        self.assertEqual((status, len(told)), (2, 1))

    def test_coverage(self) -> None:
        """Half of what node 1 protects is covered, and nothing was asked of the others."""
        _, lines, _ = draw(f"{REPAIRED}\n{UNCOVERED}\n", "--coverage")
        self.assertIn('label="covered 1 of 2"', lines[1])
        self.assertEqual(sum("#fecc5c" in line for line in lines), 1)
        self.assertEqual(sum("#f0f0f0" in line for line in lines), 3)

    def test_the_domain_alone(self) -> None:
        status, text, _ = run("draw", str(EXAMPLES / "frr_mesh9.script"))
        self.assertEqual((status, len(edges(text.splitlines()))), (0, 15))
        self.assertEqual(sum("label=\"r" in line or "label=\"" in line for line in text.splitlines()), 25)

    def test_the_version_of_the_line(self) -> None:
        """Each line is drawn in the domain that it was answered for, whatever was committed behind it."""
        told = f"version 1 nodes 4 links 8\n{REPAIRED}\nstaged 1\nversion 2 nodes 4 links 8\n{UNCOVERED}\n"
        for words, metric in (((), "1"), (("--pick", "uncovered"), "1/5")):
            status, lines, _ = draw(told, *words, domain=RING + DEARER + "commit\n")
            self.assertEqual((status, metrics(lines)["n1 -> n2"]), (0, metric))
        self.assertEqual(metrics(draw_alone(RING + DEARER + "commit\n")[1])["n1 -> n2"], "1/5")
        self.assertEqual(metrics(draw_alone(RING + DEARER)[1])["n1 -> n2"], "1")
        self.assertEqual(draw(told, "--pick", "uncovered")[0], 2)

    def test_the_coverage_of_the_last_audit(self) -> None:
        first = f"version 1 nodes 4 links 8\n{REPAIRED}\n{UNCOVERED}\nversion 2 nodes 4 links 8\n"
        for told, title, metric in ((f"{first}{REPAIRED}\n", "1 of 1", "1/5"), (first, "1 of 2", "1")):
            _, lines, _ = draw(told, "--coverage", domain=RING + DEARER + "commit\n")
            self.assertIn(f'label="covered {title}"', lines[1])
            self.assertEqual(metrics(lines)["n1 -> n2"], metric)

    @unittest.skipUnless(PROGRAM.exists(), "the program isn't built")
    def test_the_version_of_what_the_program_answers(self) -> None:
        script = example("costly_ring.script") + "cost 0000.0000.0005 0000.0000.0004 1 50\ncommit\n"
        told = answers(script).decode()
        before = draw(told, domain=example("costly_ring.script"))
        self.assertEqual((before[0], draw(told, domain=script)), (0, before))
        self.assertNotEqual(draw_alone(script), draw_alone(example("costly_ring.script")))

    def test_a_refused_commit(self) -> None:
        """A commit that breaks a rule drops what was staged, and the one behind it is the second version."""
        broken = lsp(4, 2).replace("1f40010300", "0000010300")
        script = RING + broken + DEARER + "commit\ncommit\n"
        told = "refused 8 12 SrgbBad 0000.0000.0004\nversion 2 nodes 4 links 8\n"
        status, lines, _ = draw(f"version 1 nodes 4 links 8\n{told}{REPAIRED}\n", domain=script)
        self.assertEqual((status, metrics(lines)["n1 -> n2"]), (0, "1"))
        status, _, told = draw_alone(script)
        self.assertEqual((status, len(told), "line 8 " in told[0]), (2, 1, True))

    def test_refused_lines(self) -> None:
        """They are passed over where the answers refuse them, and told where there are none."""
        link = "0000.0000.0001 0000.0000.0002"
        for line, refusal in (
            ("lsp\n", "2 BadForm"),
            ("lsp zz\n", "3 BadHex"),
            ("lsp 831\n", "3 BadHex"),
            ("lsp 83\n", "4 Malformed 1 1"),
            (lsp(1, 2).replace("831b01", "831a01"), "4 Malformed 1 3"),
            (lsp(1, 2)[:-3] + "\n", "4 Malformed 8 7"),
            (lsp(1, metric=7), "5 Stale 1 1"),
            (f"cost {link} 1 16777215\n", "2 BadForm"),
            (f"cost {link} 1\n", "2 BadForm"),
            (f"down {link} 2\n", "22 NoLink 0000.0000.0001 0000.0000.0002 2"),
            ("up 0000.0000.0009 0000.0000.0002 1\n", "21 NoNode 0000.0000.0009"),
            ("commit now\n", "2 BadForm"),
            ("drop it\n", "2 BadForm"),
        ):
            script = RING + DEARER + line + "commit\n"
            told = f"version 1 nodes 4 links 8\nstaged 1\nrefused 7 {refusal}\nversion 2 nodes 4 links 8\n"
            status, lines, _ = draw(f"{told}{REPAIRED}\n", domain=script)
            self.assertEqual((status, metrics(lines)["n1 -> n2"]), (0, "1/5"), line)
            if PROGRAM.exists():
                self.assertIn(f"refused 7 {refusal}", answers(script).decode().splitlines())
            status, _, told = draw_alone(script)
            self.assertEqual((status, len(told), "line 7 " in told[0]), (2, 1, True), line)
        self.assertEqual(draw_alone("cost\n")[0], 2)

    def test_a_remark_of_any_bytes(self) -> None:
        """Lines end at line feeds alone."""
        remark = "# Z\u00fcrich \x0b\r#\n"
        self.assertEqual(draw_alone(remark + RING), draw_alone(RING))
        self.assertEqual(draw_alone(remark + RING + "lsp\n"), draw_alone("\n" + RING + "lsp\n"))

    def test_a_link_of_one_direction(self) -> None:
        """Where the other direction has the maximum metric, the link has its own label and its own arrow alone."""
        ring = RING.replace("00000000000200000001", "00000000000200ffffff", 1)
        self.assertEqual(ring.count("ffffff"), 1)
        answer = "repair link 0000.0000.0003>0000.0000.0004#1 to 0000.0000.0004 via 0000.0000.0003>0000.0000.0002#1 "
        answer += "segments node:0000.0000.0001 labels 16001 16004 cost 3"
        status, lines, _ = draw(f"version 1 nodes 4 links 7\n{answer}\n", domain=ring)
        self.assertEqual((status, len(edges(lines))), (0, 4))
        self.assertIn('  n1 -> n0 [label="1" taillabel="24001" color="#2171b5" penwidth=2.5 dir=forward];', lines)

    def test_a_link_of_one_direction_to_the_repairing_router(self) -> None:
        """The fifth router of the costly ring sends nothing to the first; the packet goes from there to the fifth."""
        lines = example("costly_ring.script").splitlines(keepends=True)
        at = next(at for at, line in enumerate(lines) if "000000000005" in line[:50])
        lines[at] = lines[at].replace("0000000000010000000111", "00000000000100ffffff11", 1)
        self.assertIn("ffffff", lines[at])
        answer = LINK + "0000.0000.0002 via 0000.0000.0001>0000.0000.0005#1 segments none labels 16002 cost 103"
        if PROGRAM.exists():
            self.assertIn(answer, answers("".join(lines)).decode().splitlines())
        _, drawn, _ = draw(f"version 1 nodes 5 links 9\n{answer}\n", domain="".join(lines))
        shown = [line for line in edges(drawn) if "n0" in line and "n4" in line]
        self.assertEqual((len(shown), "n0 -> n4" in shown[0], "dir=forward" in shown[0]), (1, True, True))

    def test_overloaded_routers(self) -> None:
        """A packet may begin and end at an overloaded router, and passes none: one way round the ring is left."""
        ring = RING.replace(lsp(3), lsp(3, flags=7))
        for end, crossed in ((2, ["n0 -> n1", "n0 -> n3"]), (3, ["n0 -> n3", "n2 -> n3"])):
            answer = f"{LINK}0000.0000.000{end} via 0000.0000.0001>0000.0000.0004#1 segments none labels 16002 cost 3\n"
            shown = [line for line in edges(draw(answer, domain=ring)[1]) if "dir=" in line]
            self.assertEqual(sorted(line.split(" [")[0].strip() for line in shown), crossed)

    def test_names(self) -> None:
        """A router has the name of its newest LSP, that is accepted and no pseudonode's."""
        _, text, _ = run("draw", str(EXAMPLES / "frr_mesh9.script"))
        self.assertEqual([text.count(f'label="r{node}"') for node in range(1, 10)], [1] * 9)
        ring = RING.replace(lsp(1), named(1, "old") + named(1, "lan", pseudonode=7))
        nodes = ["0000.0000.0002", "0000.0000.0003", "0000.0000.0004"]
        self.assertEqual(labels(draw_alone(ring)[1]), ["old", *nodes])
        newer = ring + named(1, "new", 3) + "commit\n"
        self.assertEqual(labels(draw_alone(newer)[1]), ["new", *nodes])
        self.assertEqual(labels(draw_alone(newer + named(1, "staged", 4))[1]), ["new", *nodes])
        stale = newer + named(1, "stale", 2) + "commit\n"
        told = f"refused {len(stale.splitlines()) - 1} 5 Stale 3 2\nversion 3 nodes 4 links 8\n{REPAIRED}\n"
        self.assertEqual(labels(draw(told, domain=stale)[1]), ["new", *nodes])
        self.assertEqual(labels(draw_alone(newer + lsp(1, 4) + "commit\n")[1]), ["0000.0000.0001", *nodes])

    @unittest.skipUnless(shutil.which("neato"), "Graphviz isn't installed")
    def test_a_picture(self) -> None:
        with tempfile.TemporaryDirectory() as folder:
            path = Path(folder) / "picture.svg"
            status, text, told = run("draw", str(EXAMPLES / "frr_mesh9.script"), "--svg", str(path))
            self.assertEqual((status, text, told), (0, "", []))
            picture = path.read_text()
        self.assertIn("</svg>", picture)
        self.assertEqual([picture.count(f">r{node}</text>") for node in range(1, 10)], [1] * 9)
        self.assertEqual(picture.count('class="edge"'), 15)

    def test_no_graphviz(self) -> None:
        with tempfile.TemporaryDirectory() as folder:
            command = [sys.executable, "-B", str(TOOLS / "draw"), str(EXAMPLES / "frr_mesh9.script"), "--svg"]
            path = Path(folder) / "picture.svg"
            done = subprocess.run([*command, str(path)], env={"PATH": folder}, capture_output=True, check=False)
            self.assertFalse(path.exists())
        self.assertEqual((done.returncode, done.stdout, len(done.stderr.splitlines())), (2, b"", 1))

    def test_metrics_that_differ(self) -> None:
        ring = lsp(1, metric=5) + "".join(lsp(node) for node in (2, 3, 4)) + "commit\n"
        _, lines, _ = draw("", "--coverage", domain=ring)
        self.assertEqual(sum('label="5/1"' in line for line in edges(lines)), 2)

    def test_what_cannot_be_read(self) -> None:
        self.assertEqual(run("draw", "/nowhere")[0], 2)
        self.assertEqual(draw("", domain="lsp 00\ncommit\n")[0], 2)
