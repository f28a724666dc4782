"""Tests of check-certificate: a ring of four whose verdicts were worked out by hand, what four routers flooded, and the
program's own verdicts.
"""
from __future__ import annotations

import random
import tempfile
import unittest
from pathlib import Path

from commands import EXAMPLES, PROGRAM, TEXTS, answers, example, run

# A ring of four routers with metrics of 1, each with the label range 16000 to 23999 and its number as its index; pair p
# of two neighbours has the link identifiers (p, p) and the adjacency label 24000 + p.
PAIRS = ((1, 2), (2, 3), (3, 4), (4, 1))

CERTIFICATE = """proof open link 0000.0000.0001 0000.0000.0002 1 0000.0000.0002
proof via 0000.0000.0001 0000.0000.0004 1
proof node 0000.0000.0003
proof row 0 3 2 1
proof row 1 2 1 0
proof row 2 1 0 1
proof row 2 1 0 1
proof row 1 0 1 2
proof done 16003 16002
"""


def lsp(node: int, sequence: int = 1, flags: int = 3, metric: int = 1) -> str:
    capability = (0x0A000000 + node).to_bytes(4, "big") + bytes.fromhex("00020980001f400103003e80")
    prefix = bytes.fromhex("0000000060") + (0x0A000000 + node).to_bytes(4, "big") + bytes.fromhex("0803064000")
    body = bytes([242, len(capability)]) + capability
    prefix += node.to_bytes(4, "big")
    body += bytes([135, len(prefix)]) + prefix
    for number, pair in enumerate(PAIRS, 1):
        if node in pair:
            other = sum(pair) - node
            names = bytes.fromhex("0408") + number.to_bytes(4, "big") * 2
            label = bytes.fromhex("1f053000") + (24000 + number).to_bytes(3, "big")
            reach = other.to_bytes(6, "big") + b"\0" + metric.to_bytes(3, "big") + b"\x11" + names + label
            body += bytes([22, len(reach)]) + reach
    header = bytes.fromhex("831b010014010000") + (27 + len(body)).to_bytes(2, "big") + (1200).to_bytes(2, "big")
    header += node.to_bytes(6, "big") + b"\0\0" + sequence.to_bytes(4, "big") + b"\0\0" + bytes([flags])
    return f"lsp {(header + body).hex()}\n"


RING = "".join(lsp(node) for node in range(1, 5)) + "commit\n"


def check(domain: str, lines: str) -> tuple[int, list[str]]:
    with tempfile.TemporaryDirectory() as folder:
        path = Path(folder) / "domain"
        path.write_text(domain)
        status, verdicts, _ = run("check-certificate", str(path), "-", given=lines.encode())
    return status, verdicts.splitlines()


class CheckCertificate(unittest.TestCase):
    def test_each_clause(self) -> None:
        cases = (
            ("", "", "accepted cost 3"),
            ("proof row 1 0 1 2\n", "", "rejected 1"),
            ("0 3 2 1", "0 3 2", "rejected 1"),
            ("proof row 0 3 2 1", "proof via 0000.0000.0001 0000.0000.0004 1\nproof row 0 3 2 1", "rejected 1"),
            ("0000.0000.0001 0000.0000.0004 1", "0000.0000.0001 0000.0000.0002 1", "rejected 2"),
            ("proof node 0000.0000.0003", "proof node 0000.0000.0004", "rejected 2"),
            ("0 3 2 1", "0 4 2 1", "rejected 3"),
            ("0 3 2 1", "0 2 2 1", "rejected 3"),
            ("0 3 2 1", "0 - 2 1", "rejected 3"),
            ("1 2 1 0", "1 2 2 0", "rejected 4"),
            ("1 0 1 2", "1 0 1 1", "rejected 4"),
            ("1 2 1 0", "3 2 1 0", "rejected 4"),
            ("16003 16002", "16002 16003", "rejected 7"),
            ("16003 16002", "16003", "rejected 7"),
            ("16003 16002", "none", "rejected 7"),
        )
        for old, new, verdict in cases:
            self.assertIn(old, CERTIFICATE)
            wanted = (0 if verdict.startswith("accepted") else 1, [verdict])
            self.assertEqual(check(RING, CERTIFICATE.replace(old, new, 1)), wanted)

    def test_a_path_that_crosses_a_failed_link(self) -> None:
        """Router 4 sends what is bound for router 2 by router 1 too, at equal cost, and so over the failed link."""
        direct = """proof open link 0000.0000.0001 0000.0000.0002 1 0000.0000.0002
proof via 0000.0000.0001 0000.0000.0004 1
proof row 0 3 2 1
proof row 1 2 1 0
proof row 1 0 1 2
proof done 16002
"""
        self.assertEqual(check(RING, direct), (1, ["rejected 5"]))

    def test_a_list_that_costs_more(self) -> None:
        """To router 3 by router 4, and once there and back: a way, but none of least cost."""
        longer = """proof open link 0000.0000.0001 0000.0000.0002 1 0000.0000.0003
proof via 0000.0000.0001 0000.0000.0004 1
proof adj 0000.0000.0004 0000.0000.0003 1
proof adj 0000.0000.0003 0000.0000.0004 1
proof row 0 3 2 1
proof row 1 2 1 0
proof row 2 1 0 1
proof done 24003 24003 16003
"""
        self.assertEqual(check(RING, longer), (1, ["rejected 6"]))

    def test_an_overloaded_waypoint_and_edits(self) -> None:
        self.assertEqual(check(RING + lsp(4, 2, 7) + "commit\n", CERTIFICATE), (1, ["rejected 2"]))
        self.assertEqual(check(RING + lsp(4, 1, 7) + "commit\n", CERTIFICATE)[0], 0)
        dearer = "cost 0000.0000.0003 0000.0000.0002 1 2\n"
        self.assertEqual(check(RING + dearer + "commit\n", CERTIFICATE), (1, ["rejected 3"]))
        self.assertEqual(check(RING + dearer + "drop\ncommit\n", CERTIFICATE)[0], 0)
        self.assertEqual(check(RING + dearer, CERTIFICATE)[0], 0)
        down = "down 0000.0000.0003 0000.0000.0002 1\ncommit\n"
        self.assertEqual(check(RING + down, CERTIFICATE), (1, ["rejected 3"]))

    def test_each_certificate_of_what_routers_flooded(self) -> None:
        """Each is accepted as it is, and none with a number of a row or a label one higher."""
        lines = (TEXTS / "frr_ring4.proofs").read_text()
        domain = str(EXAMPLES / "frr_ring4.script")
        status, verdicts, _ = run("check-certificate", domain, "-", given=lines.encode())
        self.assertEqual((status, verdicts.count("accepted cost ")), (0, lines.count("proof done")))
        spoilt = []
        for certificate in lines.split("proof open ")[1:]:
            spoilt += ["proof open " + other for other in one_higher(certificate)]
        status, verdicts, _ = run("check-certificate", domain, "-", given="".join(spoilt).encode())
        self.assertEqual((verdicts.count("rejected "), verdicts.count("accepted ")), (len(spoilt), 0))

    @unittest.skipUnless(PROGRAM.exists(), "the program isn't built")
    def test_the_verdicts_of_the_program(self) -> None:
        """Both decide alike on 1,000 certificates: one in eight as it was answered, the others with a drawn change."""
        rng = random.Random("certificates")
        met = set()
        for name, count in (("frr_mesh9", 500), ("frr_ring4", 250), ("costly_ring", 250)):
            domain = domain_of(example(f"{name}.script"))
            proved = certificates_of(domain)
            parts = [line for certificate in proved for line in certificate[1:] if not line.startswith("proof row")]
            given = []
            for at in range(count):
                certificate = rng.choice(proved)
                given += spoilt(rng, certificate, parts) if at % 8 else certificate
            told = answers(domain + "".join(given)).decode().splitlines()
            self.assertEqual([line for line in told if line.startswith("refused ")], [])
            wanted = [line for line in told if line.startswith(("accepted ", "rejected "))]
            self.assertEqual((len(wanted), check(domain, "".join(given))), (count, (1, wanted)))
            met |= {line if line.startswith("rejected ") else "accepted" for line in wanted}
        self.assertEqual(met, {"accepted"} | {f"rejected {clause}" for clause in range(1, 8)})

    def test_lines_that_the_program_refuses(self) -> None:
        """A header of another length, version or system id length isn't one of a PDU of level 2 (ISO 10589, 9.8)."""
        for at, octet in ((0, 0x82), (1, 26), (2, 2), (3, 5), (4, 18), (5, 0), (9, 26)):
            octets = bytearray.fromhex(lsp(1).split()[1])
            octets[at] = octet
            octets[8] = 0 if at == 9 else octets[8]
            self.assertEqual(check(RING + f"lsp {octets.hex()}\ncommit\n", CERTIFICATE), (2, []))
        zero = RING.replace("831b010014", "831b010614")
        self.assertEqual(check(zero, CERTIFICATE)[0], 0)

    def test_remarks_of_any_bytes(self) -> None:
        self.assertEqual(check("# Z\u00fcrich\n" + RING, "# Z\u00fcrich\n" + CERTIFICATE)[0], 0)

    def test_what_cant_be_read(self) -> None:
        unknown = CERTIFICATE.replace("0000.0000.0003", "0000.0000.0009")
        for domain, lines in (
            (RING, ""),
            (RING, unknown),
            (RING, CERTIFICATE[:-20]),
            (RING, CERTIFICATE[70:]),
            (RING.replace("commit\n", ""), CERTIFICATE),
            (RING.replace("1f40010300", "0000010300", 1), CERTIFICATE),
            ("lsp 83\ncommit\n", CERTIFICATE),
            ("", CERTIFICATE),
        ):
            self.assertEqual(check(domain, lines), (2, []))
        self.assertEqual(run("check-certificate", "--help")[0], 0)


def domain_of(script: str) -> str:
    """The lines of a script to its first commit."""
    return script[: script.index("commit\n") + len("commit\n")]


def certificates_of(domain: str) -> list[list[str]]:
    """The lines of a certificate of each repair."""
    asked = ""
    for line in answers(domain + "audit full\n").decode().splitlines():
        words = line.split()
        if words[0] == "repair" and "via" in words:
            asked += f"prove {words[1]} {words[2].replace('>', ' ').replace('#', ' ')} {words[4]}\n"
    found: list[list[str]] = []
    for line in answers(domain + asked).decode().splitlines(keepends=True):
        if line.startswith("proof open "):
            found.append([])
        if line.startswith("proof "):
            found[-1].append(line)
    return found


def spoilt(rng: random.Random, certificate: list[str], parts: list[str]) -> list[str]:
    """The certificate with one drawn change. Parts are lines `proof via`, `proof node`, `proof adj` and `proof done` of
    this domain's certificates."""
    lines = list(certificate)
    rows = [at for at, line in enumerate(lines) if line.startswith("proof row")]
    segments = list(range(2, rows[0]))
    change = rng.choice(("number", "number", "label", "exchange", "segment", "drop", "repeat", "less", "back", "part"))
    if change == "number":
        at = rng.choice(rows)
        lines[at] = with_word(rng, lines[at], ("0", "-", "8589934591"))
    elif change == "label":
        lines[-1] = with_word(rng, lines[-1], ("0", "16", "1048575"))
    elif change == "exchange":
        labels = lines[-1].split()[2:]
        lines[-1] = " ".join(["proof done", *rng.sample(labels, len(labels))]) + "\n"
    elif change == "segment":
        # One is put in place of a segment, or before it.
        at = rng.choice([*segments, rows[0]])
        end = at + 1 if at in segments and rng.random() < 0.7 else at
        lines[at:end] = [rng.choice([part for part in parts if part.startswith(("proof node", "proof adj"))])]
    elif change == "drop":
        del lines[rng.choice(rows)]
    elif change == "repeat":
        at = rng.choice(rows)
        lines.insert(at, lines[at])
    elif change == "less":
        # The segments are left out, with all rows but those from the first link's end and to the destination.
        lines = lines[:2] + [lines[at] for at in (rows[0], rows[1], rows[-1])] + lines[-1:]
    elif change == "back":
        # The first link's way back and forth again, as segments.
        start, end, place = lines[1].split()[2:]
        lines[2:2] = [f"proof adj {end} {start} {place}\n", f"proof adj {start} {end} {place}\n"]
    else:
        at = rng.randrange(1, rows[0]) if rng.random() < 0.8 else len(lines) - 1
        kind = " ".join(lines[at].split()[:2])
        lines[at] = rng.choice([part for part in parts if part.startswith(kind)])
    return lines


def with_word(rng: random.Random, line: str, others: tuple[str, ...]) -> str:
    """The line with one of its numbers one higher, one lower, or replaced."""
    words = line.split()
    at = rng.randrange(2, len(words))
    near = [str(int(words[at]) + 1), str(max(int(words[at]) - 1, 0))] if words[at].isdigit() else []
    words[at] = rng.choice([*near, *others])
    return " ".join(words) + "\n"


def one_higher(certificate: str) -> list[str]:
    """The certificate with one number of a row, or one label, raised by one, in each way."""
    lines, found = certificate.splitlines(), []
    for at, line in enumerate(lines):
        words = line.split()
        if words[1] in ("row", "done"):
            for place in range(2, len(words)):
                if words[place].isdigit():
                    changed = words[:place] + [str(int(words[place]) + 1)] + words[place + 1 :]
                    found.append("\n".join(lines[:at] + [" ".join(changed)] + lines[at + 1 :]) + "\n")
    return found


if __name__ == "__main__":
    unittest.main()
