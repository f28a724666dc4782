"""Tests of read-capture, on captures that are made here of what nine routers flooded."""
from __future__ import annotations

import struct
import unittest

import captures
from commands import PROGRAM, answers, example, lsps_of, questions_of, run

NINE = example("frr_mesh9.script")
PDUS = lsps_of(NINE)


def with_sequence(pdu: bytes, step: int) -> bytes:
    """A copy of a PDU with another sequence number, and with the overload bit, so that it isn't the same."""
    sequence = struct.unpack_from(">I", pdu, 20)[0] + step
    return pdu[:20] + struct.pack(">I", sequence) + pdu[24:26] + bytes([pdu[26] | 4]) + pdu[27:]


def purge(pdu: bytes) -> bytes:
    return pdu[:8] + struct.pack(">HH", 27, 0) + pdu[12:27]


def of_type(pdu: bytes, kind: int) -> bytes:
    return pdu[:4] + bytes([kind]) + pdu[5:]


def with_length(pdu: bytes, length: int) -> bytes:
    return pdu[:8] + struct.pack(">H", length) + pdu[10:]


def read(capture: bytes, *words: str) -> tuple[int, str, list[str]]:
    return run("read-capture", *words, "-", given=capture)


class ReadCapture(unittest.TestCase):
    def test_each_kind_of_link(self) -> None:
        links = (
            (captures.ETHERNET, captures.ethernet),
            (captures.COOKED, captures.cooked),
            (captures.COOKED_2, captures.cooked_2),
        )
        for link_type, frame_of in links:
            for tags in ((), (0x8100,), (0x88A8, 0x8100)):
                self.check_whole(captures.pcap([frame_of(pdu, tags) for pdu in PDUS], link_type))
        self.check_whole(captures.pcap([captures.jumbo(pdu) for pdu in PDUS], captures.ETHERNET))

    def test_each_kind_of_file(self) -> None:
        frames = [captures.ethernet(pdu) for pdu in PDUS]
        for order in "<>":
            for magic in (0xA1B2C3D4, 0xA1B23C4D):
                self.check_whole(captures.pcap(frames, captures.ETHERNET, order, magic))
            self.check_whole(captures.pcapng(frames, captures.ETHERNET, order))

    def check_whole(self, capture: bytes) -> None:
        status, script, told = read(capture)
        self.assertEqual((status, lsps_of(script)), (0, PDUS))
        self.assertTrue(script.endswith("\ncommit\n"))
        self.assertEqual(told, ["read-capture: 9 frames, 9 LSPs used, of 9 systems, 0 of them purges"])

    def test_sections_interfaces_and_blocks_of_pcapng(self) -> None:
        frames = [captures.ethernet(pdu) for pdu in PDUS]
        capture = captures.section("<") + captures.interface("<", 0) + captures.interface("<", captures.ETHERNET)
        capture += captures.block("<", 5, bytes(12)) + captures.enhanced("<", b"\2\0\0\0", 0)
        capture += b"".join(captures.enhanced("<", frame, 1) for frame in frames[:3])
        capture += b"".join(captures.old_packet("<", frame, 1) for frame in frames[3:5])
        capture += captures.section(">") + captures.interface(">", captures.COOKED_2)
        capture += b"".join(captures.enhanced(">", captures.cooked_2(pdu)) for pdu in PDUS[5:7])
        capture += captures.section("<") + captures.interface("<", captures.ETHERNET)
        capture += b"".join(captures.simple("<", frame) for frame in frames[7:])
        capture += captures.section("<") + captures.interface("<", captures.ETHERNET, 90)
        capture += captures.simple("<", frames[0], 90)
        status, script, told = read(capture)
        self.assertEqual((status, lsps_of(script)), (0, PDUS))
        self.assertEqual(
            told,
            [
                "read-capture: 11 frames, 9 LSPs used, of 9 systems, 0 of them purges",
                "read-capture: 1 not used: on links that are neither Ethernet nor Linux cooked",
                "read-capture: 1 not used: cut off by the capture",
            ],
        )

    def test_copies_other_protocols_and_cut_frames(self) -> None:
        frames = []
        for pdu in PDUS:
            frames += [with_sequence(pdu, -1), pdu, with_sequence(pdu, -2), pdu]
        frames = [captures.ethernet(pdu) for pdu in reversed(frames)]
        frames += [captures.internet(octets) for octets in (20, 100, 1400)]
        frames += [captures.ethernet(of_type(PDUS[0], kind)) for kind in (17, 25, 27, 18, 18)]
        newer = with_sequence(PDUS[0], 1)
        frames.append(captures.ethernet(with_length(newer, 26)))
        frames.append(captures.ethernet(with_length(newer, len(newer) + 1)))
        frames.append(captures.ethernet(with_length(newer, len(newer) - 1)))
        frames.append(captures.ethernet(with_length(purge(newer), 29)))
        capture = captures.section("<") + captures.interface("<", captures.ETHERNET)
        capture += b"".join(captures.enhanced("<", frame) for frame in frames)
        capture += b"".join(captures.enhanced("<", captures.ethernet(newer), 0, kept) for kept in (10, 20, 40, 60))
        status, script, told = read(capture)
        self.assertEqual((status, lsps_of(script)), (0, PDUS))
        self.assertEqual(
            told,
            [
                "read-capture: 52 frames, 9 LSPs used, of 9 systems, 0 of them purges",
                "read-capture: 3 not used: of other protocols",
                "read-capture: 4 not used: cut off by the capture",
                "read-capture: 3 not used: IS-IS PDUs that aren't link-state PDUs",
                "read-capture: 2 not used: link-state PDUs of level 1",
                "read-capture: 4 not used: link-state PDUs of a wrong form or length",
                "read-capture: 27 not used: copies that are no newer than another one",
            ],
        )

    def test_a_purge_is_newer_than_the_live_copy_of_its_number(self) -> None:
        first = PDUS[0]
        later = with_sequence(first, 1)
        for given, wanted in (
            ([first, purge(first)], purge(first)),
            ([purge(first), first], purge(first)),
            ([purge(first), later], later),
            ([purge(first), purge(first)[:26] + b"\0"], purge(first)),
            ([first, with_sequence(first, 0)], first),
        ):
            status, script, _ = read(captures.pcap([captures.ethernet(pdu) for pdu in given], captures.ETHERNET))
            self.assertEqual((status, lsps_of(script)), (0, [wanted]))

    def test_several_captures_with_questions(self) -> None:
        script = run("read-capture", "--ask", "show", "--ask", "audit", "-", given=self.capture())[1]
        self.assertTrue(script.endswith("\ncommit\nshow\naudit\n"))
        self.assertTrue(script.startswith("# 0000.0000.0001.00-00 r1\nlsp 83"))

    def test_a_file_that_ends_within_a_packet(self) -> None:
        for capture in (self.capture(), captures.pcapng([captures.ethernet(pdu) for pdu in PDUS], captures.ETHERNET)):
            status, script, told = read(capture[:-1])
            self.assertEqual((status, lsps_of(script)), (1, PDUS[:-1]))
            self.assertEqual(told[0], "read-capture: -: the file ends within a packet; what stands before it is used")

    def test_what_is_no_capture(self) -> None:
        empty = captures.pcap([], captures.ETHERNET)
        for capture in (b"", b"abc", b"no capture at all", empty, empty[:20], captures.section("<")[:8] + bytes(20)):
            status, script, told = read(capture)
            self.assertEqual((status, script), (2, ""))
            self.assertTrue(told)
        self.assertEqual(run("read-capture", "no/such/file")[0], 2)
        self.assertEqual(run("read-capture")[0], 2)
        status, text, _ = run("read-capture", "--help")
        self.assertEqual((status, text.split()[0]), (0, "usage:"))

    @unittest.skipUnless(PROGRAM.exists(), "the program isn't built")
    def test_the_program_answers_the_same(self) -> None:
        words = [word for line in questions_of(NINE) for word in ("--ask", line)]
        script = read(self.capture(), *words)[1]
        self.assertEqual(answers(script), answers(NINE))

    def capture(self) -> bytes:
        return captures.pcap([captures.ethernet(pdu) for pdu in PDUS], captures.ETHERNET)


if __name__ == "__main__":
    unittest.main()
