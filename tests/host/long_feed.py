#!/usr/bin/env python3
"""Writes a feed of so many rows to a file, and the list that it leaves, as text, to another. Prints what whelk-import has to print where it
reads the feed from standard input.

The rows are in key order and their prefixes nest. Every 701st is none of them: four faults and a new hop in turn, each in a row like the last one
taken.
"""
import sys

TOP_ROOM = 1048576
NAMES = ("shape", "zeros", "range", "hostbits", "replaced", "noroom")


def prefixes():
    """A /8, the /16 in it, the /20 in each and the /24 in those, in key order."""
    for block in range(2**16):
        first, second = divmod(block, 256)
        if second == 0:
            yield f"{first}.0.0.0/8"
        yield f"{first}.{second}.0.0/16"
        for third in range(256):
            if third % 16 == 0:
                yield f"{first}.{second}.{third}.0/20"
            yield f"{first}.{second}.{third}.0/24"


def fault(i, last):
    """The i-th such row, and what it is counted as."""
    rows = (last + "  7", last + " 07", last + " 65536", last.replace(".0/", ".1/") + " 7", last + " 7")
    return rows[i % 5], NAMES[i % 5]


rows, good, last, taken = int(sys.argv[1]), prefixes(), "", 0
counted, listed = dict.fromkeys(NAMES, 0), []
with open(sys.argv[2], "w", encoding="ascii") as feed:
    for line in range(1, rows + 1):
        if line % 701 == 0:
            row, why = fault(line // 701, last)
        else:
            prefix = next(good)
            row, why = f"{prefix} {1 + line % 65535}", "noroom"
            if taken < TOP_ROOM:
                last, taken, why = prefix, taken + 1, None
        feed.write(row + "\n")
        if not why:
            listed.append(row)
            continue
        counted[why] += 1
        if why == "replaced":
            listed[-1] = row
        else:
            print(f"-:{line}: {why}: {row}")
with open(sys.argv[3], "w", encoding="ascii") as text:
    text.writelines(row + "\n" for row in listed)
print(f"rows {rows}\ntaken {taken}")
for name in NAMES:
    print(name, counted[name])
print(f"hint: of the rows with bad shape, {counted['shape']} have more than one space; write only the one before the hop")
