"""Tests of read-frr, on what FRR 8.4.4 showed of the PDUs of examples/ and of PDUs with parts of many kinds."""
from __future__ import annotations

import unittest

from commands import PROGRAM, TEXTS, answers, example, lsps_of, questions_of, run
from parts import CAPABILITY, SHARED_RISK, header, parts

DOMAINS = ("frr_ring4", "frr_mesh9")


def text(name: str) -> str:
    return (TEXTS / name).read_text()


def read(given: str, *words: str) -> tuple[int, str, list[str]]:
    return run("read-frr", *words, "-", given=given.encode())


class ReadFrr(unittest.TestCase):
    def test_what_routers_showed_is_what_they_flooded(self) -> None:
        for name in DOMAINS:
            status, script, told = read(text(name + ".txt"))
            made, given = lsps_of(script), lsps_of(example(name + ".script"))
            self.assertEqual([header(pdu) for pdu in made], [header(pdu) for pdu in given])
            self.assertEqual([parts(pdu) for pdu in made], [parts(pdu) for pdu in given])
            count = len(given)
            self.assertEqual((status, told), (0, [f"read-frr: {count} LSPs used, of {count} systems"]))

    def test_parts_of_many_kinds(self) -> None:
        status, script, told = run("read-frr", str(TEXTS / "frr_kinds.txt"), str(TEXTS / "frr_kinds_names.txt"))
        made, given = lsps_of(script), lsps_of(text("frr_kinds.script"))
        self.assertEqual([header(pdu) for pdu in made], [header(pdu) for pdu in given])
        wanted = [[part for part in parts(pdu) if part[0] != SHARED_RISK] for pdu in given]
        # Of two label ranges FRR shows none, and of two depths the first type alone.
        wanted[0][0] = (CAPABILITY, bytes.fromhex("0a00000100"), ((23, b"\1\6"),))
        self.assertEqual([parts(pdu) for pdu in made], wanted)
        self.assertEqual(
            (status, told),
            (
                1,
                [
                    "read-frr: 6 LSPs used, of 4 systems",
                    "read-frr: not known: Authentication:",
                    "read-frr: not known: Password: abc",
                    "read-frr: 0000.0000.0001.00-00: 69 of its 272 octets aren't in the text",
                    "read-frr: 0000.0000.0002.00-00: 27 of its 273 octets aren't in the text",
                ],
            ),
        )

    def test_lines_that_arent_of_level_2_and_copies(self) -> None:
        ring = text("frr_ring4.txt")
        level_1 = ring.replace("Level-2", "Level-1").replace("0x00000004", "0x00000009")
        older = ring.replace("0x00000004", "0x00000003").replace("Metric: 1)", "Metric: 2)")
        status, script, told = read(level_1 + older + ring + older)
        self.assertEqual((status, script), (0, read(ring)[1]))
        self.assertEqual(
            told[1:],
            ["read-frr: 8 not used: LSPs that are shown again", "read-frr: 4 not used: LSPs that aren't of level 2"],
        )

    def test_names(self) -> None:
        ring = text("frr_ring4.txt")
        database, names = ring.split("vrf")
        status, script, told = read(database)
        self.assertEqual((status, script), (2, ""))
        self.assertEqual(
            told, ["read-frr: no hostname table has the name r1: add the text of `show isis hostname`"]
        )
        numbered = database
        for number in range(1, 5):
            numbered = numbered.replace(f"r{number}.00-00 ", f"0000.0000.000{number}.00-00 ")
        self.assertEqual(read(numbered)[1], read(ring)[1])
        long = ring.replace("r1", "backbone-router-one").replace("backbone-router-one.00", "backbone-route.00")
        self.assertEqual(parts(lsps_of(read(long)[1])[0]), parts(lsps_of(read(ring)[1])[0]))
        twice = long + "2      0000.0000.0009 backbone-router-two\n"
        self.assertEqual(read(twice)[0], 2)

    def test_a_purged_lsp_and_one_line_that_isnt_known(self) -> None:
        ring = text("frr_ring4.txt")
        purged = ring.replace("1176    0/0/0", "(1176)  0/0/0")
        self.assertFalse(header(lsps_of(read(purged)[1])[0])[1])
        status, script, told = read(ring.replace("  TE Router ID: 10.0.0.3", "  Something New: 1"))
        self.assertEqual((status, script), (1, read(ring)[1]))
        self.assertEqual(
            told[1:],
            [
                "read-frr: not known: Something New: 1",
                "read-frr: 0000.0000.0003.00-00: 6 of its 294 octets aren't in the text",
            ],
        )

    def test_what_has_no_database(self) -> None:
        for given in ("", "no database\n", text("frr_ring4.txt").replace("Level-2", "Level-1")):
            status, script, told = read(given)
            self.assertEqual((status, script), (2, ""))
            self.assertTrue(told)
        self.assertEqual(run("read-frr", "no/such/file")[0], 2)
        self.assertEqual(run("read-frr", "--help")[0], 0)

    @unittest.skipUnless(PROGRAM.exists(), "the program isn't built")
    def test_the_program_answers_the_same(self) -> None:
        for name in DOMAINS:
            script = example(name + ".script")
            words = [word for line in questions_of(script) for word in ("--ask", line)]
            self.assertEqual(answers(read(text(name + ".txt"), *words)[1]), answers(script))


if __name__ == "__main__":
    unittest.main()
