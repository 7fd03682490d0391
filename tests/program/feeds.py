#!/usr/bin/env python3
"""Writes feeds, and what the program has to write for each by the reference, into a folder: long corners, then random and damaged feeds."""
import pathlib
import random
import sys

sys.path.insert(0, str(pathlib.Path(__file__).resolve().parent.parent))
from reference import dotted, program_text

LONGEST = 16384
ODD_BYTES = b"\x00\t\n\r ./0123456789x\x80\xff"


def row(network, length, hop):
    return f"{dotted(network)}/{length} {hop}\n".encode()


def corners():
    """Feeds at and past the ends of what the program takes."""
    hosts = b"".join(row(host, 32, 1 + host % 3) for host in range(1025))
    yield "rows_1024", b"".join(hosts.splitlines(True)[:1024])
    yield "rows_1025", hosts
    yield "rows_1025_and_later_rows", hosts + row(1024, 32, 5) + row(0, 32, 5)
    yield "runs_2049", b"".join(row(2 * host + 1, 32, 1) for host in range(1024))
    for name, length in (("longest", LONGEST), ("too_long", LONGEST + 1), ("twice_too_long", 2 * LONGEST)):
        yield name + "_lfs", b"\n" * length
        yield name + "_row", b"1" * length
        yield name + "_rows", (b"1.0.0.0/8 1\n" * length)[:length]
        yield name + "_last_row_good", b"x" * (length - 12) + b"\n1.0.0.0/8 1"


def random_row(some):
    """A good row, with a short or a long prefix, near the others."""
    length = some.choice((0, 1, 8, 15, 16, 17, 20, 24, 30, 31, 32, some.randrange(33)))
    address = some.choice((0, 10 << 24, 200 << 24, 2**32 - 2**12)) + some.randrange(2 ** some.randrange(1, 13))
    address = some.choice((address, some.randrange(2**32)))
    return row(address >> (32 - length) << (32 - length), length, some.choice((1, 2, 3, 65535, some.randrange(1, 65536))))


def faulty_row(some):
    """A row with numbers at random, which are often out of range, leave host bits, or have zeros in front."""
    numbers = [some.choice((0, 0, 1, 10, 255, 256, some.randrange(1000))) for _ in range(4)]
    numbers += [some.choice((0, 8, 24, 32, 33, some.randrange(100))), some.choice((0, 1, 7, 65535, 65536, 99999))]
    texts = [str(number) for number in numbers]
    if some.randrange(3) == 0:
        texts[some.randrange(6)] = some.choice(("0", "00")) + some.choice(("0", "1", "8"))
    return "{}.{}.{}.{}/{} {}\n".format(*texts).encode()


def damaged(some, feed):
    """A feed with some bytes changed, put in or left out."""
    damage = bytearray(feed)
    for _ in range(some.randrange(1, 6)):
        at = some.randrange(len(damage) + 1)
        byte = some.choice((some.choice(ODD_BYTES), some.randrange(256)))
        damage[at : at + some.randrange(2)] = bytes([byte][: some.randrange(2)])
    return bytes(damage)


def random_feeds():
    """Feeds at random from a fixed seed."""
    some = random.Random(20)
    for i in range(100):
        yield f"good_{i}", b"".join(random_row(some) for _ in range(some.randrange(40)))
    for i in range(100):
        rows = [some.choice((random_row, random_row, faulty_row))(some) for _ in range(some.randrange(1, 40))]
        yield f"damaged_{i}", damaged(some, b"".join(some.choice(rows) for _ in rows))
    for i in range(50):
        yield f"bytes_{i}", bytes(some.choice(ODD_BYTES) for _ in range(some.randrange(200)))
    for i in range(10):
        feed = b"".join(random_row(some) for _ in range(1500))
        yield f"long_{i}", feed[: some.choice((LONGEST, LONGEST, LONGEST - 1, LONGEST + 1, some.randrange(LONGEST)))]


folder = pathlib.Path(sys.argv[1])
for cases in (corners(), random_feeds()):
    for name, feed in cases:
        (folder / f"{name}.feed").write_bytes(feed)
        (folder / f"{name}.expected").write_text(program_text(feed))
