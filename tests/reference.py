#!/usr/bin/env python3
"""A reference for the tests: the rules for feeds, plain lookup, run tables, packed segments, edits, splits, a list's text, why an address goes where
it goes and the program, in Python's standard library. It was written from the rules alone, all but packed segments, edits, the text, zeros in front,
replaced rows and the reasons by hands that had seen none of the code it checks; made to be read against docs/RULES.md, not to be quick.

A prefix is a pair (network, length), a route a triple (network, length, hop). As a program it reads a feed from standard input and writes
what the program `whelk` has to write.
"""
import re
import sys

NAMES = ["rows", "taken", "shape", "zeros", "range", "hostbits", "replaced", "noroom"]

TAKEN, SHAPE, RANGE, HOST_BITS, REPLACED, NO_ROOM, ZEROS = range(7)

LINES = [TAKEN, SHAPE, ZEROS, RANGE, HOST_BITS, REPLACED, NO_ROOM]  # the row numbers in the order of NAMES

SPACE = 2 ** 32          # an address is a number below this
TOP_ROOM = 1_048_576     # the most rows that any list may hold
TOP_RUNS = 2_097_153     # the most runs that any run table may have
PROGRAM_BYTES = 16_384   # the most bytes that the program reads
PROGRAM_ROOM = 1_024     # the program's room for rows

# [0-9] and not \d, one literal space: CR, tab and further spaces fall out by themselves.
FORM = re.compile(
    rb"([0-9]{1,3})\.([0-9]{1,3})\.([0-9]{1,3})\.([0-9]{1,3})/([0-9]{1,2}) ([0-9]{1,5})"
)


def rows_of(feed):
    """The rows: the bytes before each LF, and the bytes after the last LF if there are any."""
    *ended, rest = feed.split(b"\n")
    return ended + [rest] if rest else ended


def size_of(length):
    """How many addresses a prefix of this length holds."""
    return 2 ** (32 - length)


def read_row(row):
    """The prefix and hop of a good row, else its row number: 1 shape, 6 zeros, 2 range, 3 host bits."""
    form = FORM.fullmatch(row)
    if form is None:
        return SHAPE
    if any(len(digits) > 1 and digits.startswith(b"0") for digits in form.groups()):
        return ZEROS
    a, b, c, d, length, hop = (int(digits, 10) for digits in form.groups())
    if max(a, b, c, d) > 255 or length > 32 or not 1 <= hop <= 65_535:
        return RANGE
    network = ((a * 256 + b) * 256 + c) * 256 + d
    if network % size_of(length) != 0:
        return HOST_BITS
    return (network, length), hop


def import_feed(feed, room):
    """Each row's number in order, and the list that import from an empty list leaves behind."""
    room = min(room, TOP_ROOM)
    numbers, taken = [], {}
    for row in rows_of(feed):
        said = read_row(row)
        if isinstance(said, int):
            numbers.append(said)
            continue
        prefix, hop = said
        if prefix in taken:
            numbers.append(REPLACED)
            taken[prefix] = hop
        elif len(taken) >= room:
            numbers.append(NO_ROOM)
        else:
            numbers.append(TAKEN)
            taken[prefix] = hop
    ordered = sorted(taken, key=lambda prefix: prefix[0] * 64 + prefix[1])
    return numbers, [(network, length, taken[network, length]) for network, length in ordered]


def counts_of(numbers):
    """The eight counts: rows, and how many rows have each number, in the order of NAMES."""
    return [len(numbers)] + [numbers.count(n) for n in LINES]


def plain(routes, address):
    """Of the listed prefixes that hold the address, the longest one's hop; 0 if none does."""
    longest, answer = -1, 0
    for network, length, hop in routes:
        if network <= address < network + size_of(length) and length > longest:
            longest, answer = length, hop
    return answer


def runs_of(routes):
    """The run table: first start 0, starts ascending, neighbouring hops differing, each run's
    hop the plain answer at all its addresses.

    The plain answer can change only where some prefix begins, or just past where one ends.
    """
    places = {0}
    for network, length, _ in routes:
        places.update((network, network + size_of(length)))
    places.discard(SPACE)  # just past 255.255.255.255 there is no address
    runs = []
    for start in sorted(places):
        hop = plain(routes, start)
        if not runs or runs[-1][1] != hop:
            runs.append((start, hop))
    return runs


def holding(routes, address):
    """The listed routes whose prefix holds the address, shortest first."""
    return sorted((route for route in routes if route[0] <= address < route[0] + size_of(route[1])), key=lambda route: route[1])


def holds_until(routes, address):
    """The last address, from this one on, up to which the plain answer is the same."""
    return min([start for start, _ in runs_of(routes) if start > address], default=SPACE) - 1


def packed(routes, q):
    """Segment q packed: its width, its words, their bases, and its hops (9.2 to 9.8)."""
    width = max((length - 16 for network, length, _ in routes if length > 16 and network // 65_536 == q), default=0)
    size = 2 ** (16 - width)
    answers = [plain(routes, address) for address in range(65_536 * q, 65_536 * (q + 1), size)]
    bits = "1" + "".join("01"[one != other] for one, other in zip(answers, answers[1:]))
    hops = [hop for hop, bit in zip(answers, bits) if bit == "1"]
    texts = [bits[i:i + 16].ljust(16, "0") for i in range(0, len(bits), 16)]
    bases = [0]
    for text in texts[:-1]:
        bases.append(bases[-1] + text.count("1"))
    return width, [int(text, 2) for text in texts], bases, hops


def packed_lookup(width, words, bases, hops, address):
    """The number and the hop that a packed lookup returns (9.10 to 9.13)."""
    if width > 16:
        return 19, 0
    bits = f"{address % 65_536:016b}"  # the block is the number of the first `width` of them
    word, bit = divmod(int("0" + bits[:width], 2), 16)
    if word >= min(len(words), len(bases)):
        return 19, 0
    place = bases[word] + f"{words[word]:016b}"[:bit + 1].count("1") - 1
    return (0, hops[place]) if 0 <= place < len(hops) else (19, 0)


def well_formed(routes, room):
    """Whether a list is one that calls take (2.11)."""
    prefixes = all(length <= 32 and network < SPACE and network % size_of(length) == 0 for network, length, _ in routes)
    ordered = all(one[:2] < other[:2] for one, other in zip(routes, routes[1:]))
    return len(routes) <= min(room, TOP_ROOM) and prefixes and ordered and all(hop != 0 for _, _, hop in routes)


def changed_between(before, after):
    """How many addresses have another plain answer after than before (10.9). Between two neighbours of `places` all of them have, or none."""
    places = {0, SPACE}
    for network, length, _ in before + after:
        places.update((network, network + size_of(length)))
    places = sorted(places)
    return sum(end - start for start, end in zip(places, places[1:]) if plain(before, start) != plain(after, start))


def edit(routes, runs, network, length, hop, room, run_room):
    """The number of an edit, the changed number, and the list and the run table after it; hop None withdraws (10.1 to 10.9).

    Everything is made anew: the list of its other rows and the announced one, and the run table of that list.
    """
    refused = 0, routes, runs
    if length > 32 or network % size_of(length) != 0 or hop == 0:
        return 15, *refused
    if not well_formed(routes, room) or len(runs) > min(run_room, TOP_RUNS):
        return 11, *refused
    if runs != runs_of(routes):
        return 14, *refused
    others = [route for route in routes if route[:2] != (network, length)]
    if hop is None and others == routes:
        return 16, *refused
    after = others if hop is None else sorted(others + [(network, length, hop)])
    runs_after = runs_of(after)
    if len(after) > min(room, TOP_ROOM) or len(runs_after) > min(run_room, TOP_RUNS):
        return 13, *refused
    return 0, changed_between(routes, after), after, runs_after


def split(routes, k, room):
    """The number of a split and the second half, whose routes have labels for hops (11.2 to 11.7). Its half lookup is `plain`."""
    if not 1 <= k <= len(routes):
        return 17, []
    if not any(length == 0 for _, length, _ in routes):
        return 18, []
    half = [(0, 0, 0)]
    for network, length, hop in routes[k:]:
        holding = [(l, h) for n, l, h in routes[:k] if l <= length and n <= network < n + size_of(l)]
        half.append((network, length, hop ^ max(holding)[1]))
    return (0, half) if len(half) <= min(room, TOP_ROOM) else (13, [])


def dotted(address):
    """The address as text: four decimal octets without leading zeros, dots between."""
    return ".".join(str(octet) for octet in address.to_bytes(4, "big"))


def list_text(routes):
    """The text of a list (12.2)."""
    return "".join(f"{dotted(network)}/{length} {hop}\n" for network, length, hop in routes)


def program_text(feed):
    """What the program writes for a feed: eight counts and the run table, or `feed too long`."""
    if len(feed) > PROGRAM_BYTES:
        return "feed too long\n"
    numbers, routes = import_feed(feed, PROGRAM_ROOM)
    lines = [f"{name} {count}\n" for name, count in zip(NAMES, counts_of(numbers))]
    lines += [f"{dotted(start)} {hop}\n" for start, hop in runs_of(routes)]
    return "".join(lines)


if __name__ == "__main__":
    sys.stdout.buffer.write(program_text(sys.stdin.buffer.read()).encode("ascii"))
