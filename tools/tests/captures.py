"""Writers of captures: files of pcap and pcapng, and the frames in them."""
from __future__ import annotations

import struct

ETHERNET, COOKED, COOKED_2 = 1, 113, 276
ALL_LEVEL_2_SYSTEMS = bytes.fromhex("0180c2000015")
SOURCE = bytes.fromhex("020000000001")


def llc(pdu: bytes) -> bytes:
    return b"\xfe\xfe\x03" + pdu


def ethernet(pdu: bytes, tags: tuple[int, ...] = ()) -> bytes:
    """An Ethernet frame with an IS-IS PDU, padded to the least length."""
    carried = llc(pdu)
    inside = b"".join(struct.pack(">HH", kind, 7) for kind in tags)
    frame = ALL_LEVEL_2_SYSTEMS + SOURCE + inside + struct.pack(">H", len(carried)) + carried
    return frame.ljust(60, b"\0")


def jumbo(pdu: bytes) -> bytes:
    return ALL_LEVEL_2_SYSTEMS + SOURCE + struct.pack(">H", 0x8870) + llc(pdu)


def internet(octets: int) -> bytes:
    """A frame with an IPv4 packet of zeros."""
    return bytes(6) + SOURCE + b"\x08\x00" + bytes(octets)


def cooked(pdu: bytes, tags: tuple[int, ...] = ()) -> bytes:
    front = struct.pack(">HHH8s", 1, 1, 6, SOURCE + b"\0\0")
    return front + cooked_types(pdu, tags) + llc(pdu)


def cooked_2(pdu: bytes, tags: tuple[int, ...] = ()) -> bytes:
    types = cooked_types(pdu, tags)
    middle = struct.pack(">HIHBB8s", 0, 3, 1, 1, 6, SOURCE + b"\0\0")
    return types[:2] + middle + types[2:] + llc(pdu)


def cooked_types(pdu: bytes, tags: tuple[int, ...]) -> bytes:
    """What a cooked header tells of the protocol; behind a tag the length of what follows."""
    if not tags:
        return struct.pack(">H", 4)
    inside = b"".join(struct.pack(">HH", kind, 7) for kind in tags)
    return inside + struct.pack(">H", len(llc(pdu)))


def pcap(frames: list[bytes], link_type: int, order: str = "<", magic: int = 0xA1B2C3D4, most: int = 262144) -> bytes:
    """A capture that keeps so many octets of a frame at most."""
    file = struct.pack(order + "IHHiIII", magic, 2, 4, 0, 0, most, link_type)
    for number, frame in enumerate(frames):
        file += struct.pack(order + "IIII", number, 0, min(len(frame), most), len(frame)) + frame[:most]
    return file


def block(order: str, kind: int, body: bytes) -> bytes:
    body += bytes(-len(body) % 4)
    length = struct.pack(order + "I", 12 + len(body))
    return struct.pack(order + "I", kind) + length + body + length


def section(order: str) -> bytes:
    return block(order, 0x0A0D0D0A, struct.pack(order + "IHHq", 0x1A2B3C4D, 1, 0, -1))


def interface(order: str, link_type: int, most: int = 0) -> bytes:
    return block(order, 1, struct.pack(order + "HHI", link_type, 0, most))


def enhanced(order: str, frame: bytes, number: int = 0, kept: int | None = None) -> bytes:
    held = frame if kept is None else frame[:kept]
    return block(order, 6, struct.pack(order + "IIIII", number, 0, 0, len(held), len(frame)) + held)


def simple(order: str, frame: bytes, most: int | None = None) -> bytes:
    """A simple packet has no length of what is kept: that is the interface's."""
    return block(order, 3, struct.pack(order + "I", len(frame)) + frame[:most])


def old_packet(order: str, frame: bytes, number: int = 0) -> bytes:
    return block(order, 2, struct.pack(order + "HHIIII", number, 0, 0, 0, len(frame), len(frame)) + frame)


def pcapng(frames: list[bytes], link_type: int, order: str = "<") -> bytes:
    return section(order) + interface(order, link_type) + b"".join(enhanced(order, frame) for frame in frames)
