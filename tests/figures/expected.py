#!/usr/bin/env python3
"""Writes what the program `figures` has to write: document 01's figures by hand, and the rest by the reference."""
import pathlib
import sys

sys.path.insert(0, str(pathlib.Path(__file__).resolve().parent.parent))
from reference import counts_of, dotted, edit, import_feed, packed, packed_lookup, plain, runs_of

PLAIN_ANSWERS = """\
# Plain answers of list A
200.27.112.170 2
200.28.0.0 0
200.23.255.255 0
200.25.255.255 1
0.0.0.0 0
255.255.255.255 0
"""

# Each import: its name, its feed, and the lengths of keys, hops and report.
IMPORTS = [
    ("the five rows of document 01", b"10.0.0.0/8 7\n10.0.0.1/8 7\n10.0.0.0/8 9\n\n10.1.0.0/16 70000\n", 3, 3, 6),
    ("0 bytes", b"", 2, 2, 2),
    ("only LFs", b"\n\n\n", 2, 2, 4),
    ("no LF at all", b"1.0.0.0/8 1", 2, 2, 2),
    ("no LF after the last row", b"1.0.0.0/8 1\n2.0.0.0/8 2", 3, 3, 3),
    ("an empty row first", b"\n1.0.0.0/8 1\n", 2, 2, 3),
    ("keys in order", b"3.0.0.0/8 3\n1.0.0.0/16 1\n2.0.0.0/8 2\n1.0.0.0/8 4\n", 5, 5, 4),
    ("NUL", b"\x00\n1.0.0.0/8 1\x00\n1.0.0.0\x00/8 1\n", 2, 2, 4),
    ("byte 255", b"\xff\n1.0.0.0/8 1\xff\n\xff1.0.0.0/8 1\n", 2, 2, 4),
    ("CR", b"1.0.0.0/8 1\r\n\r\n2.0.0.0/8 2\n", 2, 2, 4),
    ("tab", b"1.0.0.0/8\t1\n1.0.0.0/8 1\t\n\t1.0.0.0/8 1\n", 2, 2, 4),
    ("spaces", b"1.0.0.0/8  1\n 1.0.0.0/8 1\n1.0.0.0/8 1 \n1.0.0.0 /8 1\n1.0.0.0/81\n", 2, 2, 6),
    ("parts missing", b"1.0.0.0/8 \n1.0.0.0/ 1\n1.0.0/8 1\n1.0.0./8 1\n.0.0.0/8 1\n1.0.0.0.0/8 1\n1.0.0.0 1\n", 2, 2, 8),
    ("a very long row", 400 * b"1", 2, 2, 2),
    ("a long row before a good one", b"1.0.0.0/8 " + 64 * b"1" + b"\n2.0.0.0/8 2\n", 2, 2, 3),
    ("octets", b"255.255.255.255/32 1\n256.0.0.0/8 1\n999.0.0.0/8 1\n1000.0.0.0/8 1\n0.0.0.256/32 1\n0.0.0.1000/32 1\n", 2, 2, 7),
    ("lengths", b"0.0.0.0/0 1\n0.0.0.0/32 2\n0.0.0.0/33 1\n0.0.0.0/99 1\n0.0.0.0/100 1\n0.0.0.0/032 1\n", 3, 3, 7),
    ("hops", b"1.0.0.0/8 65535\n2.0.0.0/8 65536\n3.0.0.0/8 70000\n4.0.0.0/8 100000\n5.0.0.0/8 0\n"
     b"6.0.0.0/8 00000\n7.0.0.0/8 000001\n", 2, 2, 9),
    ("leading zeros", b"010.000.00.0/08 00007\n10.0.0.0/8 9\n001.002.003.000/24 01\n10.0.0.0/8 00\n0.0.0.0/0 100\n", 3, 3, 6),
    ("zeros after shape and before range", b"010.0.0.256/8 7\n010.0.0.0/8 7x\n10.0.0.0/033 7\n10.0.0.1/08 0\n", 2, 2, 5),
    ("host bits", b"10.0.0.1/8 1\n10.0.0.1/31 1\n10.0.0.1/32 1\n128.0.0.0/0 1\n128.0.0.0/1 2\n0.0.0.1/0 1\n", 3, 3, 7),
    ("shape before range before host bits", b"999.2.3.4/5 6x\n999.2.3.4/5 6\n1.2.3.4/5 6\n1.2.3.4/5 0\n", 2, 2, 5),
    ("slices of length 0", b"1.0.0.0/8 1\n\n1.0.0.0/8 1\n", 0, 0, 4),
    ("keys of length 0", b"1.0.0.0/8 1\n", 0, 2, 2),
    ("hops of length 0", b"1.0.0.0/8 1\n", 2, 0, 2),
    ("more keys than hops", b"3.0.0.0/8 3\n2.0.0.0/8 2\n1.0.0.0/8 1\n", 4, 2, 4),
    ("more hops than keys", b"3.0.0.0/8 3\n2.0.0.0/8 2\n1.0.0.0/8 1\n", 2, 4, 4),
    ("replaced rows, and no room",
     b"1.0.0.0/8 1\n2.0.0.0/8 2\n2.0.0.0/8 3\n1.0.0.0/8 4\n2.0.0.0/9 5\n\n2.0.0.1/8 6\n", 1, 1, 8),
    ("a report as long as the rows", b"1.0.0.0/8 1\n\n2.0.0.0/8 2", 3, 3, 3),
    ("a report one byte short", b"1.0.0.0/8 1\n\n2.0.0.0/8 2", 3, 3, 2),
    ("a report of length 0", b"\n", 1, 1, 0),
    ("a report of length 0 for 0 bytes", b"", 1, 1, 0),
]

LIST_A = ["200.24.0.0/14 1", "200.26.0.0/15 2", "200.27.0.0/16 3", "200.27.64.0/18 1", "200.27.112.0/20 2", "200.27.128.0/20 1"]
LIST_A += ["200.27.240.0/20 2"]
RUNS_OF_A = """\
0.0.0.0 0
200.24.0.0 1
200.26.0.0 2
200.27.0.0 3
200.27.64.0 1
200.27.112.0 2
200.27.128.0 1
200.27.144.0 3
200.27.240.0 2
200.28.0.0 0
""".splitlines()
A_LESS = [row for row in LIST_A if row != "200.27.64.0/18 1"]
SIBLINGS = ["10.0.0.0/8 1", "10.0.0.0/16 2", "10.2.0.0/16 2"]

# Each run table: its name, the rows of its list, how many slots are lent, and document 01's count of runs, or None where it gives none.
BUILDS = [
    ("list A", LIST_A, 12, 10),
    ("list A in as many slots as it has runs", LIST_A, 10, 10),
    ("list A in one slot less", LIST_A, 9, 10),
    ("A without 200.27.64.0/18", A_LESS, 10, 9),
    ("A with 200.27.224.0/19 hop 1", LIST_A + ["200.27.224.0/19 1"], 12, 11),
    ("A with 200.27.224.0/19 hop 3", LIST_A + ["200.27.224.0/19 3"], 12, 10),
    ("the empty list", [], 2, 1),
    ("the empty list in no slot", [], 0, 1),
    ("only 255.255.255.255/32 hop 5", ["255.255.255.255/32 5"], 3, 2),
    ("0.0.0.0/0 hop 4", ["0.0.0.0/0 4"], 2, None),
    ("a route between two siblings of its hop, under a parent of another", SIBLINGS + ["10.1.0.0/16 2"], 5, None),
    ("the same without it", SIBLINGS, 7, None),
]

A_21 = LIST_A + ["200.27.240.0/21 2"]
ENDS = ["10.0.0.0/8 7", "10.64.0.1/32 5", "10.64.255.255/32 9"]

# Each packed segment: its name, the rows of its list, the segment, an address in it, how many words, as many bases, and hops are lent, and
# what document 01 or the name says of it: the width, and how many words and hops there are.
PACKINGS = [
    ("51227 of A with 200.27.240.0/21 hop 2", A_21, 51_227, "200.27.112.170", 3, 7, (5, 2, 6)),
    ("the same in one hop less than it takes", A_21, 51_227, "200.27.112.170", 2, 5, (5, 2, 6)),
    ("2624 inside 10.0.0.0/8, width 0", ["10.0.0.0/8 7", "10.65.0.1/32 5"], 2_624, "10.64.118.254", 2, 2, (0, 1, 1)),
    ("2624 with 10.64.0.1/32 and 10.64.255.255/32, width 16", ENDS, 2_624, "10.64.0.1", 4_096, 4, (16, 4_096, 4)),
    ("65535 of the empty list", [], 65_535, "255.255.255.254", 1, 1, (0, 1, 1)),
]

PARENT = ["10.0.0.0/8 1", "10.0.0.0/10 2", "10.64.0.0/10 2", "10.128.0.0/10 2"]
LAST = ["128.0.0.0/1 5", "255.255.255.255/32 6"]

# Each edit: its name, the rows of its list, the prefix, the hop or None for a withdrawal, how many rows and how many runs are lent, and what
# document 01 or docs/RULES.md says of it, or the name: the changed number and the count of runs, or the number of a refusal.
EDITS = [
    ("200.27.64.0/18 withdrawn from A", LIST_A, "200.27.64.0", 18, None, 8, 11, (12_288, 9)),
    ("200.27.224.0/19 hop 1 announced to A", LIST_A, "200.27.224.0", 19, 1, 9, 12, (4_096, 11)),
    ("200.27.224.0/19 hop 3 announced to A", LIST_A, "200.27.224.0", 19, 3, 9, 12, (0, 10)),
    ("200.27.64.0/18 announced to A with its own hop, in full slices", LIST_A, "200.27.64.0", 18, 1, 7, 10, (0, 10)),
    ("0.0.0.0/0 hop 4 announced to the empty list", [], "0.0.0.0", 0, 4, 2, 2, (4_294_967_296, 1)),
    ("0.0.0.0/0 withdrawn again", ["0.0.0.0/0 4"], "0.0.0.0", 0, None, 2, 2, (4_294_967_296, 1)),
    ("a withdrawal that needs two more runs", PARENT, "10.64.0.0", 10, None, 4, 6, (4_194_304, 6)),
    ("the same in one run less", PARENT, "10.64.0.0", 10, None, 4, 5, 13),
    ("255.0.0.0/8 hop 5 announced under 0.0.0.0/0 hop 4", ["0.0.0.0/0 4"], "255.0.0.0", 8, 5, 2, 3, (16_777_216, 2)),
    ("128.0.0.0/1 withdrawn from around 255.255.255.255/32", LAST, "128.0.0.0", 1, None, 2, 3, (2_147_483_647, 2)),
    ("10.0.0.0/8 hop 1 announced around 10.64.0.0/10 hop 2", ["10.64.0.0/10 2"], "10.0.0.0", 8, 1, 2, 5, (12_582_912, 5)),
    ("200.27.224.0/19 hop 1 announced to A in one row less", LIST_A, "200.27.224.0", 19, 1, 7, 12, 13),
    ("200.27.224.0/19 hop 1 announced to A in one run less", LIST_A, "200.27.224.0", 19, 1, 8, 10, 13),
    ("200.27.224.0/19 withdrawn from A", LIST_A, "200.27.224.0", 19, None, 7, 10, 16),
    ("200.27.224.0/18 withdrawn from A: a host bit", LIST_A, "200.27.224.0", 18, None, 7, 10, 15),
    ("10.0.0.0/72 withdrawn: a length above 32", ["10.0.0.0/8 7"], "10.0.0.0", 72, None, 1, 3, 15),
    ("10.0.0.0/8 announced with hop 0", ["10.0.0.0/8 7"], "10.0.0.0", 8, 0, 1, 3, 15),
]


def line(name, values):
    print(" ".join([name] + [str(value) for value in values]))


def show_import(name, feed, keys, hops, report):
    """An import into slots that hold 9.9.9.9/32 for a key and 9 for a hop and a report byte."""
    numbers, routes = import_feed(feed, min(keys, hops))
    number, counts = 0, counts_of(numbers)
    if report < len(numbers):
        number, counts, numbers, routes = 12, [0] * 8, [], []
    print("# Import:", name)
    line("number", [number])
    line("counts", counts)
    line("report", numbers + [9] * (report - len(numbers)))
    line("keys", [f"{dotted(network)}/{length}" for network, length, _ in routes] + ["9.9.9.9/32"] * (keys - len(routes)))
    line("hops", [hop for _, _, hop in routes] + [9] * (hops - len(routes)))


def show_build(name, rows, room, figure):
    """A build into slots that hold 9.9.9.9 for a start and 9 for a hop."""
    _, routes = import_feed("".join(row + "\n" for row in rows).encode(), len(rows))
    runs = [f"{dotted(start)} {hop}" for start, hop in runs_of(routes)]
    assert len(runs) == figure or figure is None
    assert runs == RUNS_OF_A or rows != LIST_A
    number = 0
    if room < len(runs):
        number, runs = 13, []
    print("# Run table:", name)
    line("number", [number])
    line("runs", [len(runs)])
    for slot in runs + ["9.9.9.9 9"] * (room - len(runs)):
        print(slot)


def show_edit(name, rows, network, length, hop, room, run_room, figure):
    """An edit in slots that hold 9.9.9.9/32 for a key, 9.9.9.9 for a start and 9 for a hop, past the list and its run table."""
    _, routes = import_feed("".join(row + "\n" for row in rows).encode(), len(rows))
    runs = runs_of(routes)
    network = int.from_bytes(bytes(int(octet) for octet in network.split(".")), "big")
    number, changed, after, runs_after = edit(routes, runs, network, length, hop, room, run_room)
    assert figure == (number or (changed, len(runs_after)))
    print("# Edit:", name)
    line("number", [number])
    line("changed", [changed])
    line("rows", [0 if number else len(after)])
    line("runs", [0 if number else len(runs_after)])
    keys = [f"{dotted(network)}/{length}" for network, length, _ in after] + ["0.0.0.0/0"] * (len(routes) - len(after))
    hops = [hop for _, _, hop in after] + [0] * (len(routes) - len(after))
    line("keys", keys + ["9.9.9.9/32"] * (room - len(keys)))
    line("hops", hops + [9] * (room - len(hops)))
    slots = runs_after + [(0, 0)] * (len(runs) - len(runs_after))
    for start, hop in slots + [(0x09090909, 9)] * (run_room - len(slots)):
        print(dotted(start), hop)


def show_packing(name, rows, q, between, room, hop_room, figure):
    """A packing into slots that hold 9, of which 16 are shown, and three answers of what it leaves."""
    _, routes = import_feed("".join(row + "\n" for row in rows).encode(), len(rows))
    width, words, bases, hops = packed(routes, q)
    assert (width, len(words), len(hops)) == figure
    if rows == A_21:  # rule 14.6
        assert (words, bases, hops) == ([32_898, 40_962], [0, 3], [3, 1, 2, 1, 3, 2])
    number, counts = 0, [width, len(words), len(hops)]
    if room < len(words) or hop_room < len(hops):
        number, counts, words, bases, hops = 13, [0, 0, 0], [], [], []
    print("# Packed segment:", name)
    for what, value in zip(["number", "width", "word count", "hop count"], [number] + counts):
        line(what, [value])
    line("words", (words + [9] * (room - len(words)))[:16])
    line("bases", (bases + [9] * (room - len(bases)))[:16])
    line("hops", (hops + [9] * (hop_room - len(hops)))[:16])
    if number == 0:
        middle = int.from_bytes(bytes(int(octet) for octet in between.split(".")), "big")
        for address in (65_536 * q, middle, 65_536 * q + 65_535):
            assert packed_lookup(width, words, bases, hops, address) == (0, plain(routes, address))
            print(dotted(address), plain(routes, address))


print(PLAIN_ANSWERS, end="")
for case in IMPORTS:
    show_import(*case)
for case in BUILDS:
    show_build(*case)
for case in PACKINGS:
    show_packing(*case)
for case in EDITS:
    show_edit(*case)
