"""What a link-state PDU says, as far as tilfa reads it: its header, and the values of the TLVs that count."""
from __future__ import annotations

from typing import Iterator

REACHABILITY, PREFIXES, SHARED_RISK, CAPABILITY = 22, 135, 138, 242
READ_SUBS = {REACHABILITY: (4, 6, 8, 31), PREFIXES: (3,), CAPABILITY: (2, 23)}


def tlvs(octets: bytes) -> Iterator[tuple[int, bytes]]:
    at = 0
    while at < len(octets):
        yield octets[at], octets[at + 2 : at + 2 + octets[at + 1]]
        at += 2 + octets[at + 1]


def subs(kind: int, octets: bytes) -> tuple[tuple[int, bytes], ...]:
    """The sub-TLVs that count, in order of their types."""
    return tuple(sorted((sub for sub in tlvs(octets) if sub[0] in READ_SUBS[kind]), key=lambda sub: sub[0]))


def entries(kind: int, value: bytes) -> Iterator[tuple[object, ...]]:
    at = 0
    while at < len(value):
        if kind == REACHABILITY:
            fixed, has_subs = 10, True
        else:
            fixed, has_subs = 5 + (value[at + 4] % 64 + 7) // 8, value[at + 4] & 0x40 != 0
        end = at + fixed
        held = value[end + 1 : end + 1 + value[end]] if has_subs else b""
        yield kind, value[at:end], subs(kind, held)
        at = end + (1 + len(held) if has_subs else 0)


def parts(pdu: bytes) -> list[tuple[object, ...]]:
    found: list[tuple[object, ...]] = []
    for kind, value in tlvs(pdu[27:]):
        if kind == CAPABILITY:
            found.append((kind, value[:5], subs(kind, value[5:])))
        elif kind == SHARED_RISK:
            found.append((kind, value))
        elif kind in READ_SUBS:
            found += entries(kind, value)
    return sorted(found, key=lambda part: (part[0] != CAPABILITY, part[0] != REACHABILITY))


def header(pdu: bytes) -> tuple[bytes, bool, bool]:
    """LSP id, sequence number and checksum; whether it is live; whether it has the overload bit."""
    return pdu[12:26], pdu[10:12] != b"\0\0", pdu[26] & 4 != 0
