#!/usr/bin/env python3
"""Runs `whelk-import --list --replaced` on every feed of a folder, and on feeds of rows that hints are for, and compares the list, what is said of the
rows, the hints and the exit status with the reference's. Then pipes the list back in: the same list comes out, and every row is taken. The last
line is 'N passed, M failed'.

usage: lists.py FOLDER COMMAND.., where COMMAND runs whelk-import
"""
import ipaddress
import pathlib
import random
import re
import subprocess
import sys

sys.path.insert(0, str(pathlib.Path(__file__).resolve().parent.parent))
from reference import LINES, NAMES, REPLACED, SHAPE, TAKEN, TOP_ROOM, counts_of, import_feed, list_text, read_row, rows_of

FOUR = rb"\d+(\.\d+){3}"
HINTS = (
    (rb".*\r", "ends in CR", "end in CR", r"pipe the feed through sed 's/\r*$//'"),
    (rb"[ \t\r]*", "is blank", "are blank", "delete such rows"),
    (rb"[ \t]*([#;!]|//).*", "begins like a comment (# ; ! //)", "begin like a comment (# ; ! //)", "delete such rows"),
    ("IPv6", "begins with an IPv6 address", "begin with an IPv6 address", "delete such rows, since only IPv4 is read"),
    (rb".*\t.*", "has a tab", "have a tab", "write one space before the hop, and no tab"),
    (rb".* .* .*", "has more than one space", "have more than one space", "write only the one before the hop"),
    (FOUR + rb"/" + FOUR + rb"( .*)?", "has a.b.c.d behind the slash", "have a.b.c.d behind the slash",
     "write the length, 8 for the netmask 255.0.0.0"),
    (FOUR + rb"/?( .*)?", "has no length", "have no length", "write it behind the address, /32 for that address alone"),
    (FOUR + rb"/\d+ ?", "has no hop", "have no hop", "write it behind one space"),
    (rb".*", "fits no hint", "fit no hint", "a row is a.b.c.d/len hop"),
)
FIRST = b"10.0.0.0 10.0.0.0/ 10.0.0.0/8 10.0.0.0/255.0.0.0 2001:db8:: ::ffff:1.2.3.4 1:2:3:4:5:6:7:8 1:2 fe80::1%1 # ; ! //".split() + 3 * [b""]
LATER = b"1.2.3.4 255.0.0.0 / / 8 32 7 # ; ! // x : :: 0a , \0 \xff".split() + [b" ", b" ", b" 7", b" 7", b" 7", b"\t", b"\r"]


def fits(pattern, row):
    """Whether a row is of a pattern."""
    if pattern != "IPv6":
        return re.fullmatch(pattern, row, re.DOTALL)
    try:
        return ipaddress.IPv6Address(re.split(rb"[/ \t]", row.lstrip(b" \t"))[0].decode("ascii")).scope_id is None
    except ValueError:
        return False


def hints_of(rows):
    """What is said of rows of bad shape: each is counted once."""
    counts = [0] * len(HINTS)
    for row in rows:
        counts[next(i for i, hint in enumerate(HINTS) if fits(hint[0], row))] += 1
    said = [(count, hint) for count, hint in zip(counts, HINTS) if count and (hint is not HINTS[-1] or any(counts[:-1]))]
    return [
        f"hint: of the {'others' if i else 'rows with bad shape'}, {count} {hint[1 if count == 1 else 2]}; {hint[3]}\n"
        for i, (count, hint) in enumerate(said)
    ]


def shown(row):
    """A refused row as it is printed."""
    text = "".join({92: r"\\"}.get(byte, chr(byte) if 32 <= byte <= 126 else f"\\x{byte:02x}") for byte in row[:200])
    return text if len(row) <= 200 else f"{text} .. ({len(row)} bytes)"


def replaced_of(rows, numbers):
    """The lines of the rows whose hop replaced another: by prefix, the line and the hop of the row that gave it its hop."""
    last = {}
    for line, (row, number) in enumerate(zip(rows, numbers), 1):
        if number in (TAKEN, REPLACED):
            prefix, hop = read_row(row)
            if number == REPLACED:
                yield "-:{}: replaced: {} (line {} had hop {})\n".format(line, row.decode(), *last[prefix])
            last[prefix] = line, hop


def expected(feed):
    """What `whelk-import --list --replaced` has to print for a feed on its two streams, and its exit status."""
    numbers, routes = import_feed(feed, TOP_ROOM)
    refused = [
        f"-:{line}: {NAMES[LINES.index(number) + 1]}: {shown(row)}\n"
        for line, (row, number) in enumerate(zip(rows_of(feed), numbers), 1)
        if number not in (TAKEN, REPLACED)
    ]
    counts = [f"{name} {count}\n" for name, count in zip(NAMES, counts_of(numbers))]
    hints = hints_of(row for row, number in zip(rows_of(feed), numbers) if number == SHAPE)
    replaced = list(replaced_of(rows_of(feed), numbers))
    return list_text(routes).encode(), "".join(refused + replaced + counts + hints).encode(), 1 if refused else 0


def printed(feed):
    done = subprocess.run([*sys.argv[2:], "--list", "--replaced"], input=feed, capture_output=True, timeout=60, check=False)
    return done.stdout, done.stderr, done.returncode


def feeds():
    """The folder's feeds, and such of a few rows put together from pieces at random, from a fixed seed."""
    for path in sorted(pathlib.Path(sys.argv[1]).glob("*.feed")):
        yield path, path.read_bytes()
    some = random.Random(21)
    for i in range(300):
        rows = [some.choice(FIRST) + b"".join(some.choices(LATER, k=some.randrange(5))) for _ in range(some.choice((1, 2, 5)))]
        yield f"feed {i} of pieces: {rows}", b"\n".join(rows)


passed = failed = 0
for name, feed in feeds():
    first = expected(feed)
    again = expected(first[0])
    if printed(feed) == first and printed(first[0]) == again and again[0] == first[0] and again[2] == 0:
        passed += 1
    else:
        failed += 1
        print(f"failed: {name}")
print(f"{passed} passed, {failed} failed")
sys.exit(1 if failed or not passed else 0)
