#!/usr/bin/env python3
"""Runs `whelk-why` on every feed of a folder, on standard input, for addresses at the edges of its prefixes and at both ends of the address space, and
compares what it prints on its two streams and its exit status with the reference's. The last line is 'N passed, M failed'.

usage: whys.py FOLDER COMMAND.., where COMMAND runs whelk-why
"""
import pathlib
import random
import subprocess
import sys

sys.path.insert(0, str(pathlib.Path(__file__).resolve().parent.parent))
from reference import NAMES, REPLACED, SPACE, TAKEN, TOP_ROOM, counts_of, dotted, holding, holds_until, import_feed, list_text, read_row, rows_of, size_of

some = random.Random(22)


def lines_of(feed, numbers):
    """By prefix, the line of the row that gave it its hop last."""
    lines = {}
    for line, (row, number) in enumerate(zip(rows_of(feed), numbers), 1):
        if number in (TAKEN, REPLACED):
            lines[read_row(row)[0]] = line
    return lines


def said(routes, lines, address):
    """What is printed of one address."""
    rows = holding(routes, address)
    text = "".join(f"-:{lines[route[:2]]}: {list_text([route])}" for route in rows)
    until = dotted(holds_until(routes, address))
    if not rows:
        return f"{dotted(address)} has no hop: no listed prefix holds it. From {dotted(address)} up to {until} no address has one.\n"
    network, length, hop = rows[-1]
    return (
        f"{text}{dotted(address)} goes to hop {hop}: {dotted(network)}/{length} (line {lines[network, length]}) is the longest listed prefix that "
        f"holds it. From {dotted(address)} up to {until} every address goes to hop {hop}.\n"
    )


def expected(feed, addresses):
    """What `whelk-why` has to print for a feed on its two streams, and its exit status."""
    numbers, routes = import_feed(feed, TOP_ROOM)
    lines, counts = lines_of(feed, numbers), counts_of(numbers)
    unclean = ", ".join(f"{name} {count}" for name, count in zip(NAMES, counts) if count or name in ("rows", "taken"))
    told = f"whelk-why: -: {unclean} (whelk-import names refused rows, with --replaced replacing ones too)\n" if counts[0] != counts[1] else ""
    out = "\n".join(said(routes, lines, address) for address in addresses)
    return out.encode(), told.encode(), 0 if all(holding(routes, address) for address in addresses) else 1


def asked(feed):
    """The ends of the address space, and addresses at the edges of some of a feed's prefixes."""
    routes = import_feed(feed, TOP_ROOM)[1]
    edges = {0, SPACE - 1}
    for network, length, _ in some.sample(routes, min(4, len(routes))):
        edges |= {network - 1, network, network + size_of(length) - 1, network + size_of(length)}
    return sorted(edge for edge in edges if 0 <= edge < SPACE)


passed = failed = 0
for path in sorted(pathlib.Path(sys.argv[1]).glob("*.feed")):
    feed = path.read_bytes()
    addresses = asked(feed)
    done = subprocess.run([*sys.argv[2:], "-", *map(dotted, addresses)], input=feed, capture_output=True, timeout=60, check=False)
    if (done.stdout, done.stderr, done.returncode) == expected(feed, addresses):
        passed += 1
    else:
        failed += 1
        print(f"failed: {path} at {' '.join(map(dotted, addresses))}")
print(f"{passed} passed, {failed} failed")
sys.exit(1 if failed or not passed else 0)
