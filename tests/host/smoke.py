#!/usr/bin/env python3
"""Each export once from Python, by ctypes, of the library made into a shared one. The last line is 'N passed, M failed'."""
import sys
from ctypes import CDLL, Structure, byref, c_size_t, c_uint8, c_uint16, c_uint32, c_uint64, c_void_p


class Counts(Structure):
    _fields_ = [(name, c_size_t) for name in ("number", "rows", "taken", "shape", "range", "hostbits", "replaced", "noroom", "zeros")]


class Tally(Structure):
    _fields_ = Counts._fields_[1:]


class Row(Structure):
    _fields_ = [("found", c_size_t), ("number", c_size_t), ("key", c_uint64), ("hop", c_uint16), ("next", c_size_t)]


class Packed(Structure):
    _fields_ = [(name, c_size_t) for name in ("number", "width", "words", "hops")]


class Reason(Structure):
    _fields_ = [(name, c_size_t) for name in ("number", "listed", "place")]


class Edit(Structure):
    _fields_ = [("number", c_size_t), ("changed", c_uint64), ("count", c_size_t), ("runs", c_size_t)]


library = CDLL(sys.argv[1])
SLICE = (c_void_p, c_size_t)
for name, result, arguments in (
    ("whelk_import", Counts, 4 * SLICE),
    ("whelk_import_tally", c_size_t, (*(4 * SLICE), c_void_p)),
    ("whelk_pull", Row, (*SLICE, c_size_t)),
    ("whelk_write", c_uint64, (c_size_t, *(3 * SLICE))),
    ("whelk_why", Reason, (c_size_t, *SLICE, *SLICE, c_uint32, *SLICE)),
    ("whelk_why_text", c_uint64, (c_size_t, *SLICE, *SLICE, c_uint32, *SLICE)),
    ("whelk_plain_lookup", c_uint32, (c_size_t, *SLICE, *SLICE, c_uint32)),
    ("whelk_build", c_uint64, (c_size_t, *(4 * SLICE))),
    ("whelk_run_lookup_slices", c_uint64, (c_size_t, *SLICE, *SLICE, c_uint32, c_void_p)),
    ("whelk_run_lookup", c_uint32, (*SLICE, c_uint32, *SLICE)),
    ("whelk_pair_check", c_size_t, (c_size_t, *SLICE, *SLICE, c_size_t, *SLICE, *SLICE)),
    ("whelk_pack", Packed, (c_uint16, c_size_t, *SLICE, *SLICE, c_size_t, *(5 * SLICE))),
    ("whelk_packed_lookup", c_uint32, (c_uint32, *(3 * SLICE), c_uint32)),
    ("whelk_announce", Edit, (c_uint32, c_uint32, c_uint16, c_size_t, *SLICE, *SLICE, c_size_t, *SLICE, *SLICE)),
    ("whelk_withdraw", Edit, (c_uint32, c_uint32, c_size_t, *SLICE, *SLICE, c_size_t, *SLICE, *SLICE)),
    ("whelk_split", c_uint64, (c_size_t, c_size_t, *(4 * SLICE))),
    ("whelk_half_lookup", c_uint32, (c_size_t, *SLICE, *SLICE, c_uint32)),
    ("whelk_build_half", c_uint64, (c_size_t, *(4 * SLICE))),
):
    getattr(library, name).restype = result
    getattr(library, name).argtypes = arguments


def lent(*slices):
    """Arrays as the exports take them: each one's place and length."""
    return [word for array in slices for word in (array, len(array))]


feed = b"10.0.0.0/8 7\n10.64.0.0/16 9\n10.0.0.1/8 7\n"
feed = (c_uint8 * len(feed)).from_buffer_copy(feed)
keys, hops, report = (c_uint64 * 4)(), (c_uint16 * 4)(), (c_uint8 * 4)()
starts, run_hops, text = (c_uint32 * 9)(), (c_uint16 * 9)(), (c_uint8 * 30)(*(30 * b"-"))
why_text = (c_uint8 * 15)(*(15 * b"-"))
counts, last = library.whelk_import(*lent(feed, keys, hops, report)), c_uint32(9)
answers = [
    ([getattr(counts, name) for name, _ in Counts._fields_], [0, 3, 2, 0, 0, 1, 0, 0, 0]),
    (list(report), [0, 0, 3, 0]),
    (library.whelk_write(2, *lent(keys, hops, text)), 28),
    (bytes(text), b"10.0.0.0/8 7\n10.64.0.0/16 9\n--"),
    (library.whelk_why_text(2, *lent(keys, hops), 0xA000001, *lent(why_text)), 13),
    (bytes(why_text), b"10.0.0.0/8 7\n--"),
    (library.whelk_build(2, *lent(keys, hops, starts, run_hops)), 5),
    (list(zip(starts, run_hops))[:5], [(0, 0), (10 << 24, 7), (0xA400000, 9), (0xA410000, 7), (11 << 24, 0)]),
    (library.whelk_pair_check(2, *lent(keys, hops), 5, *lent(starts, run_hops)), 0),
    (library.whelk_pair_check(2, *lent(keys, hops), 4, *lent(starts, run_hops)), 14),
    (library.whelk_plain_lookup(2, *lent(keys, hops), 0xA400001), 9),
    (library.whelk_run_lookup_slices(5, *lent(starts, run_hops), 0xA400001, byref(last)), 2 * 2**32 + 9),
    (last.value, 0xA40FFFF),
    (library.whelk_run_lookup_slices(0, *lent(starts, run_hops), 0, byref(last)), 65536 * 11),
    (last.value, 0xA40FFFF),
]
places = (c_size_t * 3)(9, 9, 9)
why = library.whelk_why(2, *lent(keys, hops), 0xA400001, *lent(places))
answers += [((why.number, why.listed, why.place, list(places)), (0, 2, 1, [0, 1, 9]))]
why = library.whelk_why(2, *lent(keys, hops), 0xB000000, *lent(places))
answers += [((why.number, why.listed, why.place, list(places)), (0, 0, 0, [0, 1, 9]))]
tally = Tally(9, 9, 9, 9, 9, 9, 9, 9)
answers += [
    (library.whelk_import_tally(*lent(feed, keys, hops), report, 2, byref(tally)), 12),
    ([getattr(tally, name) for name, _ in Tally._fields_], [9, 9, 9, 9, 9, 9, 9, 9]),
    (library.whelk_import_tally(*lent(feed, keys, hops, report), byref(tally)), 0),
    ([getattr(tally, name) for name, _ in Tally._fields_], [3, 2, 0, 0, 1, 0, 0, 0]),
]
for place, wanted in (
    (0, [1, 0, (10 << 24) * 64 + 8, 7, 13]),
    (12, [1, 1, 0, 0, 13]),
    (28, [1, 3, 0, 0, 41]),
    (41, [0, 0, 0, 0, 41]),
):
    row = library.whelk_pull(*lent(feed), place)
    answers.append(([getattr(row, name) for name, _ in Row._fields_], wanted))
runs = b"".join(starts[i].to_bytes(4, "big") + run_hops[i].to_bytes(2, "big") for i in range(5))
runs = (c_uint8 * len(runs)).from_buffer_copy(runs)
last_bytes = (c_uint8 * 5)(9, 9, 9, 9, 9)
answers += [
    (library.whelk_run_lookup(runs, 29, 0, *lent(last_bytes)), 65536 * 11),
    (library.whelk_run_lookup(*lent(runs), 0, last_bytes, 3), 65536 * 13),
    (bytes(last_bytes), b"\t\t\t\t\t"),
    (library.whelk_run_lookup(*lent(runs), 0xA410000, *lent(last_bytes)), 7),
    (bytes(last_bytes), b"\n\xff\xff\xff\t"),
]
words, bases, packed_hops = (c_uint16 * 2)(9, 9), (c_uint16 * 2)(9, 9), (c_uint16 * 2)(9, 9)
packed = library.whelk_pack(0xA40, 2, *lent(keys, hops), 5, *lent(starts, run_hops, words, bases, packed_hops))
answers += [
    ([getattr(packed, name) for name, _ in Packed._fields_], [0, 0, 1, 1]),
    ([list(words), list(bases), list(packed_hops)], [[32768, 9], [0, 9], [9, 9]]),
    (library.whelk_packed_lookup(0, words, 1, bases, 1, packed_hops, 1, 0xA400001), 9),
    (library.whelk_packed_lookup(17, *lent(words, bases, packed_hops), 0), 65536 * 19),
    (library.whelk_pack(0xA40, 2, *lent(keys, hops), 4, *lent(starts, run_hops, words, bases, packed_hops)).number, 14),
]


def edited(edit):
    """What an edit returned."""
    return [getattr(edit, name) for name, _ in Edit._fields_]


pair = lent(keys, hops)
table = lent(starts, run_hops)
answers += [
    (edited(library.whelk_announce(0xA400000, 16, 7, 2, *pair, 5, *table)), [0, 65536, 2, 3]),
    (list(zip(starts, run_hops))[:5], [(0, 0), (10 << 24, 7), (11 << 24, 0), (0, 0), (0, 0)]),
    (edited(library.whelk_announce(0xA400000, 16, 0, 2, *pair, 3, *table)), [15, 0, 0, 0]),
    (edited(library.whelk_withdraw(10 << 24, 8, 2, *pair, 3, *table)), [0, 2**24 - 65536, 1, 3]),
    ([keys[0], hops[0], keys[1], hops[1]], [0xA400000 * 64 + 16, 7, 0, 0]),
    (edited(library.whelk_withdraw(10 << 24, 8, 1, *pair, 3, *table)), [16, 0, 0, 0]),
    (edited(library.whelk_announce(10 << 24, 8, 7, 1, *pair, 3, *table)), [0, 2**24 - 65536, 2, 3]),
    (edited(library.whelk_announce(0xA400000, 16, 9, 2, *pair, 3, *table)), [0, 65536, 2, 5]),
]
half_keys, labels, run_labels = (c_uint64 * 4)(9, 9, 9, 9), (c_uint16 * 4)(9, 9, 9, 9), (c_uint16 * 9)()
answers += [(library.whelk_split(2, 2, *lent(keys, hops, half_keys, labels)), 18 * 2**32), (list(labels), [9, 9, 9, 9])]
keys, hops = (c_uint64 * 3)(0, *keys[:2]), (c_uint16 * 3)(4, *hops[:2])
answers += [
    (library.whelk_split(2, 3, *lent(keys, hops, half_keys, labels)), 2),
    ([list(half_keys), list(labels)], [[0, keys[2], 9, 9], [0, 9 ^ 7, 9, 9]]),
    (library.whelk_half_lookup(2, *lent(keys, hops), 0xA400001), 7),
    (library.whelk_half_lookup(2, *lent(half_keys, labels), 0xA400001), 9 ^ 7),
    (library.whelk_build_half(2, *lent(half_keys, labels, starts, run_labels)), 3),
    (list(zip(starts, run_labels))[:3], [(0, 0), (0xA400000, 9 ^ 7), (0xA410000, 0)]),
]
failed = [(got, wanted) for got, wanted in answers if got != wanted]
for got, wanted in failed:
    print(f"failed: {got} and not {wanted}")
print(f"{len(answers) - len(failed)} passed, {len(failed)} failed")
sys.exit(1 if failed else 0)
