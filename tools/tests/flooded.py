"""Link-state PDUs for tests: parts of every kind, well formed and of no use, drawn by chance."""
from __future__ import annotations

import random

VALUE_AND_LOCAL, BACKUP = 0x30, 0x40


def number(value: int, octets: int) -> bytes:
    return value.to_bytes(octets, "big")


def run(kind: int, value: bytes) -> bytes:
    """A TLV or a sub-TLV."""
    return bytes([kind, len(value)]) + value


def identifiers(local: int, remote: int) -> bytes:
    return run(4, number(local, 4) + number(remote, 4))


def address_pair(local: int, remote: int) -> bytes:
    return run(6, number(local, 4)) + run(8, number(remote, 4))


def adjacency_label(flags: int, label: int) -> bytes:
    return run(31, bytes([flags, 0]) + number(label, 3))


def adjacency_index(flags: int, index: int) -> bytes:
    return run(31, bytes([flags, 0]) + number(index, 4))


def reach(neighbour: int, pseudonode: int, metric: int, *subs: bytes) -> bytes:
    held = b"".join(subs)
    return run(22, number(neighbour, 6) + bytes([pseudonode]) + number(metric, 3) + bytes([len(held)]) + held)


def prefix_index(flags: int, algorithm: int, index: int) -> bytes:
    return run(3, bytes([flags, algorithm]) + number(index, 4))


def prefix_label(flags: int, algorithm: int, label: int) -> bytes:
    return run(3, bytes([flags, algorithm]) + number(label, 3))


def prefix(address: int, length: int, *subs: bytes) -> bytes:
    held = b"".join(subs)
    octets = number(address, 4)[: (length + 7) // 8]
    behind = bytes([len(held)]) + held if held else b""
    return run(135, bytes(4) + bytes([length | (0x40 if held else 0)]) + octets + behind)


def risk(neighbour: int, pseudonode: int, local: int, remote: int, *groups: int) -> bytes:
    named = number(neighbour, 6) + bytes([pseudonode, 0]) + number(local, 4) + number(remote, 4)
    return run(138, named + b"".join(number(group, 4) for group in groups))


def label_ranges(first: int, size: int) -> bytes:
    return run(2, b"\x80" + number(size, 3) + b"\1\3" + number(first, 3))


def depths(*pairs: tuple[int, int]) -> bytes:
    return run(23, bytes(octet for pair in pairs for octet in pair))


def capability(router: int, *subs: bytes) -> bytes:
    return run(242, number(router, 4) + b"\0" + b"".join(subs))


def lsp_line(name: tuple[int, int, int], parts: list[bytes], lifetime: int = 1200, flags: int = 3) -> str:
    body = b"".join(parts)
    header = bytes.fromhex("831b010014010000") + number(27 + len(body), 2) + number(lifetime, 2)
    header += number(name[0], 6) + bytes(name[1:]) + number(1, 4) + b"\0\0" + bytes([flags])
    return f"lsp {(header + body).hex()}\n"


def random_entry(rng: random.Random, system: int, count: int) -> bytes:
    """An entry of reachability. Labels are few, so that some are equal; each node's are its own."""
    neighbour = rng.randint(1, count + 1)
    low = min(system, neighbour)
    names = {0: b"", 1: identifiers(5, 5), 2: identifiers(3, 4 if low == system else 3), 3: address_pair(7, 7), 4: identifiers(9, 0)}
    flags = [VALUE_AND_LOCAL, VALUE_AND_LOCAL | BACKUP, VALUE_AND_LOCAL | 0x80, VALUE_AND_LOCAL | 8, VALUE_AND_LOCAL | 4]
    base = 24000 + 100 * neighbour
    sids = [adjacency_label(rng.choice(flags), base + rng.randint(0, 3)) for _ in range(rng.choice((0, 0, 1, 2, 3)))]
    if rng.random() < 0.2:
        sids.insert(rng.randint(0, len(sids)), adjacency_index(0, 4))
    metric = rng.choice((1, 2, 3, 10, 0xFFFFFF))
    return reach(neighbour, rng.choice((0,) * 9 + (1,)), metric, names[rng.choice((0, 0, 0, 1, 2, 3, 4))], *sids)


def random_prefix(rng: random.Random, system: int) -> bytes:
    sids = []
    for _ in range(rng.choice((0, 1, 1, 2))):
        flags, algorithm = rng.choice((0x40, 0x40, 0x60, 0x70, 0, 0xC0)), rng.choice((0, 0, 0, 1))
        if rng.random() < 0.2:
            sids.append(prefix_label(flags | 0x0C, algorithm, 16000 + system))
        else:
            sids.append(prefix_index(flags, algorithm, system + 50 * rng.choice((0, 0, 1))))
    return prefix(0x0A000000 + system, rng.choice((32, 32, 32, 24, 0)), *sids)


def random_risk(rng: random.Random, system: int, count: int) -> bytes:
    ends = rng.choice(((5, 5), (3, 4), (3, 3), (9, 0), (1, 1)))
    groups = [rng.randint(1, 3) for _ in range(rng.choice((0, 1, 2)))]
    return risk(rng.randint(1, count), rng.choice((0, 0, 0, 1)), *ends, *groups)


def random_parts(rng: random.Random, system: int, count: int) -> list[bytes]:
    parts = [random_entry(rng, system, count) for _ in range(rng.randint(0, 4))]
    parts += [random_prefix(rng, system) for _ in range(rng.randint(0, 2))]
    parts += [random_risk(rng, system, count) for _ in range(rng.choice((0, 0, 1, 2)))]
    parts += [run(137, b"name")] * rng.choice((0, 0, 1))
    said = (depths((1, 8)), depths((2, 3)), label_ranges(30000, 100), b"")
    parts += [capability(system, rng.choice(said)) for _ in range(rng.choice((0, 0, 1)))]
    rng.shuffle(parts)
    return parts


def random_domain(rng: random.Random) -> str:
    """The lines of a small domain in which much isn't used."""
    count = rng.randint(2, 5)
    lines = ""
    for system in range(1, count + 1):
        first = [capability(system, label_ranges(16000, 8000))]
        first += [reach(other, 0, 10) for other in (system - 1, system + 1) if 1 <= other <= count and rng.random() < 0.9]
        lines += lsp_line((system, 0, 0), first + random_parts(rng, system, count), flags=rng.choice((3, 3, 3, 7)))
        if rng.random() < 0.4:
            lines += lsp_line((system, 0, 1), random_parts(rng, system, count))
        if rng.random() < 0.3:
            lines += lsp_line((system, 1, 0), [reach(other, 0, 0) for other in (system, 1)])
    if rng.random() < 0.3:
        lines += lsp_line((count + 3, 0, 1), random_parts(rng, count + 3, count))
    if rng.random() < 0.2:
        lines += lsp_line((count, 0, 0), [], lifetime=0)
    return lines
