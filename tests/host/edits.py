#!/usr/bin/env python3
"""Sequences of random edits by the library, as a shared one, each compared with the reference in what it returns and in each lent slot. The
last line is 'N passed, M failed', a sequence each.

usage: edits.py LIBRARY
"""
import pathlib
import random
import sys
from ctypes import CDLL, Structure, c_size_t, c_uint16, c_uint32, c_uint64, c_void_p

sys.path.insert(0, str(pathlib.Path(__file__).resolve().parent.parent))
from reference import SPACE, edit, runs_of, size_of


class Edit(Structure):
    _fields_ = [("number", c_size_t), ("changed", c_uint64), ("count", c_size_t), ("runs", c_size_t)]


class Differs(Exception):
    """The library isn't as the reference."""


library = CDLL(sys.argv[1])
SLICE = (c_void_p, c_size_t)
PAIR = (c_size_t, *SLICE, *SLICE, c_size_t, *SLICE, *SLICE)
library.whelk_announce.restype, library.whelk_announce.argtypes = Edit, (c_uint32, c_uint32, c_uint16, *PAIR)
library.whelk_withdraw.restype, library.whelk_withdraw.argtypes = Edit, (c_uint32, c_uint32, *PAIR)


def same(got, wanted):
    if got != wanted:
        raise Differs(f"{got} and not {wanted}")


def slots(kind, values, length):
    """A slice that begins with some values and has 9 in each slot behind them."""
    return (kind * length)(*values, *[9] * (length - len(values)))


def columns(routes, runs):
    """Keys, hops, starts and hops of runs, with their types."""
    keys, hops = [network * 64 + length for network, length, _ in routes], [hop for _, _, hop in routes]
    return [(c_uint64, keys), (c_uint16, hops), (c_uint32, [start for start, _ in runs]), (c_uint16, [hop for _, hop in runs])]


def edit_as_the_reference(routes, runs, network, length, hop, room, run_room):
    """One edit; hop None withdraws. The number, and the list and the run table after it."""
    rooms = [room + random.randrange(2), room, run_room, run_room + random.randrange(2)]
    before = [slots(kind, values, size) for (kind, values), size in zip(columns(routes, runs), rooms)]
    keys, hops, starts, run_hops = ((slice_, len(slice_)) for slice_ in before)
    pair = len(routes), *keys, *hops, len(runs), *starts, *run_hops
    got = library.whelk_withdraw(network, length, *pair) if hop is None else library.whelk_announce(network, length, hop, *pair)
    number, changed, after, runs_after = edit(routes, runs, network, length, hop, room, run_room)
    counts = [0, 0] if number else [len(after), len(runs_after)]
    same([got.number, got.changed, got.count, got.runs], [number, changed, *counts])
    olds = [len(routes), len(routes), len(runs), len(runs)]
    for slice_, (kind, values), size, old in zip(before, columns(after, runs_after), rooms, olds):
        same(list(slice_), list(slots(kind, values + [0] * (old - len(values)), size)))
    return number, after, runs_after


def random_edit(routes):
    """A network, a length and a hop, or None; few of them no prefix's."""
    length = random.choice([random.randrange(5), random.randint(28, 32), random.randint(0, 32)])
    network = random.choice([0xFFFFFFF0, 0, 0x7FFFFFF8]) + random.randrange(16)
    network = random.choice([network, random.randrange(SPACE)])
    network -= network % size_of(length)
    if routes and random.randrange(2):
        network, length, _ = random.choice(routes)
    hop = random.choice([None, random.randint(1, 3)])
    fault = random.randrange(40)
    if fault == 0:
        return network, random.choice([33, 64, 72, 255, 2**32 - 1]), hop
    if fault == 1:
        return network ^ 1 << random.randrange(32), length, hop
    return network, length, 0 if fault == 2 else hop


def spoiled(rows):
    """Rows or runs of which now and then one has another hop, often 0."""
    if not rows or random.randrange(15):
        return rows
    place = random.randrange(len(rows))
    return [*rows[:place], (*rows[place][:-1], rows[place][-1] // 2), *rows[place + 1:]]


random.seed(20261115)
passed = failed = 0
numbers = dict.fromkeys((0, 11, 13, 14, 15, 16), 0)
for _ in range(60):
    routes, runs = [], runs_of([])
    try:
        for _ in range(250):
            change = random_edit(routes)
            handed = spoiled(routes), spoiled(runs)
            room, run_room = len(routes) + random.choice([0, 1, 3]), len(runs) + random.choice([0, 1, 2, 9])
            number, after, runs_after = edit_as_the_reference(*handed, *change, room, run_room)
            numbers[number] += 1
            if number == 0 and handed == (routes, runs):
                routes, runs = after, runs_after
        passed += 1
    except Differs as differs:
        failed += 1
        print(f"failed: {differs}, in the edit {change} of {handed} in {room} and {run_room} slots")
if not failed and min(numbers.values()) < 100:
    failed += 1
    print(f"failed: a number is rare: {numbers}")
print(f"{sum(numbers.values())} edits, by number: {numbers}")
print(f"{passed} passed, {failed} failed")
sys.exit(1 if failed else 0)
