#!/usr/bin/env python3
"""Splits random lists by the library, as a shared one, and compares what it returns and each lent slot with the reference. Then looks both
halves up, builds their run tables, and compares these with the reference too. The last line is 'N passed, M failed', a list each.

usage: splits.py LIBRARY
"""
import pathlib
import random
import sys
from ctypes import CDLL, byref, c_size_t, c_uint16, c_uint32, c_uint64, c_void_p

sys.path.insert(0, str(pathlib.Path(__file__).resolve().parent.parent))
from reference import SPACE, plain, runs_of, size_of, split

library = CDLL(sys.argv[1])
last = c_uint32()
SLICE = (c_void_p, c_size_t)
library.whelk_split.restype, library.whelk_split.argtypes = c_uint64, (c_size_t, c_size_t, *(4 * SLICE))
library.whelk_half_lookup.restype, library.whelk_half_lookup.argtypes = c_uint32, (c_size_t, *SLICE, *SLICE, c_uint32)
library.whelk_build_half.restype, library.whelk_build_half.argtypes = c_uint64, (c_size_t, *(4 * SLICE))
library.whelk_run_lookup_slices.restype, library.whelk_run_lookup_slices.argtypes = c_uint64, (c_size_t, *SLICE, *SLICE, c_uint32, c_void_p)


class Differs(Exception):
    """The library isn't as the reference."""


def same(got, wanted):
    if got != wanted:
        raise Differs(f"{got} and not {wanted}")


def lent(*slices):
    """Arrays as the exports take them: each one's place and length."""
    return [word for array in slices for word in (array, len(array))]


def slots(kind, values, length, spare):
    """A slice that begins with some values and has `spare` in each slot behind them."""
    return (kind * length)(*values, *[spare] * (length - len(values)))


def columns(routes, spare=0):
    """A list's keys and hops, and some slots past its count."""
    length = len(routes) + spare
    return slots(c_uint64, [n * 64 + l for n, l, _ in routes], length, 0), slots(c_uint16, [h for _, _, h in routes], length, 0)


def random_routes(default):
    """Routes in key order, many of them one inside another, with a default route or without."""
    near, hops = random.randrange(SPACE), random.choice([2, 5, 65_535])
    prefixes = {(0, 0)} if default else set()
    for _ in range(random.choice([0, 1, 5, 30])):
        length = random.randint(1, 32)
        network = random.choice([near, near ^ random.randrange(2**16), near ^ random.randrange(2**8), random.randrange(SPACE)])
        prefixes.add((network - network % size_of(length), length))
    return [(network, length, random.randint(1, hops)) for network, length in sorted(prefixes)]


def addresses_of(routes):
    """Both sides of both edges of each prefix, and some addresses more."""
    edges = [edge for network, length, _ in routes for edge in (network, network + size_of(length))]
    return {(edge + beside) % SPACE for edge in edges for beside in (-1, 0)} | {random.randrange(SPACE) for _ in range(5)}


def built(half):
    """The run table of a half by the library, in as many slots as it needs, is the reference's; the runs."""
    keys, labels = columns(half)
    runs = runs_of(half)
    starts, run_labels = slots(c_uint32, [], len(runs), 9), slots(c_uint16, [], len(runs) + 1, 9)
    same(library.whelk_build_half(len(half), *lent(keys, labels, starts, run_labels)), len(runs))
    same([*zip(starts, run_labels), run_labels[-1]], [*runs, 9])
    return len(runs), *lent(starts, run_labels)


def split_as_the_reference(routes, k, room, more):
    """One split, into `room` slots of one slice and some more of the other."""
    keys, hops = columns(routes, random.randrange(3))
    before = list(keys), list(hops)
    rooms = random.choice([(room, room + more), (room + more, room)])
    half_keys, labels = slots(c_uint64, [], rooms[0], 9), slots(c_uint16, [], rooms[1], 9)
    number, half = split(routes, k, room)
    same(library.whelk_split(k, len(routes), *lent(keys, hops, half_keys, labels)), number * 2**32 + len(half))
    same(list(half_keys), list(slots(c_uint64, [n * 64 + l for n, l, _ in half], rooms[0], 9)))
    same(list(labels), list(slots(c_uint16, [label for _, _, label in half], rooms[1], 9)))
    same((list(keys), list(hops)), before)
    if number != 0:
        return number
    first, second = built(routes[:k]), built(half)
    for address in addresses_of(routes):
        one = library.whelk_half_lookup(k, *lent(keys, hops), address)
        other = library.whelk_half_lookup(len(half), *lent(half_keys, labels), address)
        same((one, other, one ^ other), (plain(routes[:k], address), plain(half, address), plain(routes, address)))
        one = library.whelk_run_lookup_slices(*first, address, byref(last))
        same(plain(routes[:k], last.value), plain(routes[:k], address))
        same(last.value == SPACE - 1 or plain(routes[:k], last.value + 1) != plain(routes[:k], address), True)
        other = library.whelk_run_lookup_slices(*second, address, byref(last))
        same((one ^ other) % 2**32, plain(routes, address))  # without the probes
    return number


LIST_A = [(0, 0, 4), (0xC8180000, 14, 1), (0xC81A0000, 15, 2), (0xC81B0000, 16, 3), (0xC81B4000, 18, 1), (0xC81B7000, 20, 2)]
LIST_A += [(0xC81B8000, 20, 1), (0xC81BF000, 20, 2)]
same([label for _, _, label in split(LIST_A, 4, 5)[1]], [0, 2, 1, 2, 1])  # rule 14.9
random.seed(20261117)
passed = failed = 0
numbers = {0: 0, 13: 0, 17: 0, 18: 0}
for case in range(600):
    routes = LIST_A if case == 0 else random_routes(case % 6)
    try:
        for k in {0, 1, len(routes), len(routes) + 1, random.randint(0, len(routes) + 1)}:
            room = random.choice([0, len(routes) - k, len(routes) - k + 1, len(routes) - k + 1, len(routes) + 3])
            numbers[split_as_the_reference(routes, k, max(room, 0), random.randrange(3))] += 1
        passed += 1
    except Differs as differs:
        failed += 1
        print(f"failed: {differs}, in a split of {routes} at {k}")
if not failed and min(numbers.values()) < 100:
    failed += 1
    print(f"failed: a number is rare: {numbers}")
print(f"{passed} passed, {failed} failed")
sys.exit(1 if failed else 0)
