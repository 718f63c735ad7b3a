#!/usr/bin/env python3
"""Vectors for what changed between two saved caches (document 02, request 10).

    changes OWN BEFORE AFTER ROOM    gauge_changes; OWN is own records, BEFORE and AFTER the two caches, ROOM the length of the output, two bytes

The output is filled with EE before each call. The answer is number, first and second; the `second` bytes at the start of the output, - for none;
`clean` where all of it behind those is still EE, else `dirty`. No other line has to do with these.

A `want` is what the document gives: the number, or the entries, each a kind and a record; they are laid out by hand and compared with the model's.
"""
if not __debug__:
    raise SystemExit("vector_changes.py: run it without -O and PYTHONOPTIMIZE, which leave its asserts out")
import with_models
import model
from vector_memory import OWN, TOP, cache, key, ours, put, record, some

GONE, NEW, OTHER = 1, 2, 3
ENOUGH = 51712  # 512 entries of 101 bytes


def told(entries):
    """A kind, and the key of a record that is gone, or the record of the second cache."""
    return b"".join(bytes([kind]) + (key(r) + bytes(68) if kind == GONE else r) for kind, r in entries)


def changes(before, after, want, room=ENOUGH, own=OWN):
    number, first, second, output = model.compare(own, before, after, b"\xEE" * room)
    if isinstance(want, int):
        assert number == want and (number == 0 or (first, second, output) == (0, 0, b"\xEE" * room)), (number, want)
    else:
        assert (number, first, second) == (0, len(want), 101 * len(want)) and output[:second] == told(want), (number, first, second)
    assert len(output) == room and output[second:] == b"\xEE" * (room - second)
    return ("changes", own, before, after, model.two(room)), "%d %d %d %s clean" % (number, first, second, output[:second].hex() or "-")


def cases():
    first, second = cache([1, 2, 3]), cache([2, record(3, 1, 77), 4])
    three = [(GONE, 1), (OTHER, record(3, 1, 77)), (NEW, some(4))]
    yield "# what changed: keys 1 2 3 against 2 3 4, 3 with another port: gone 1, another record of 3, new 4; 303 bytes are enough, and 302 are not"
    for room in (ENOUGH, 304, 303):
        yield changes(first, second, three, room)
    for room in (302, 202, 101, 1, 0):
        yield changes(first, second, 15, room)
    yield "# the other way round: new 1, 3 as it was, gone 4"
    yield changes(second, first, [(NEW, some(1)), (OTHER, some(3)), (GONE, 4)])
    yield "# equal caches: none, and no room is needed; empty ones too"
    ten = cache(range(1, 11))
    for same in (ten, first, second, cache([]), cache([0, TOP]), cache(range(101, 357), 256)):
        yield changes(same, same, [], 0)
        yield changes(same, same, [], 100)
    yield "# empty against ten: ten new; ten against empty: ten gone"
    yield changes(cache([]), ten, [(NEW, some(n)) for n in range(1, 11)])
    yield changes(ten, cache([]), [(GONE, n) for n in range(1, 11)])
    yield changes(cache([]), ten, 15, 1009)
    yield changes(cache([]), ten, [(NEW, some(n)) for n in range(1, 11)], 1010)
    yield changes(ten, cache([]), 15, 1009)


def one_by_one():
    ten = list(range(10, 110, 10))
    ten.remove(100)
    held = cache(ten)
    yield "# of nine keys each one gone, new, with another port, another address: its first byte, its last"
    for n in ten:
        fewer = cache([k for k in ten if k != n])
        yield changes(held, fewer, [(GONE, n)], 101)
        yield changes(fewer, held, [(NEW, some(n))], 101)
        for at in (32, 33, 36, 51):
            r = put(some(n), at, bytes([some(n)[at] ^ 1]))
            yield changes(held, cache([r if k == n else k for k in ten]), [(OTHER, r)], 101)
    yield "# one more before, between and behind them"
    for n in (0, 1, 9, 11, 45, 99, 101, TOP):
        more = cache(sorted(ten + [n]))
        yield changes(held, more, [(NEW, some(n))], 101)
        yield changes(more, held, [(GONE, n)], 101)
    yield "# keys that differ in one byte alone, the first, one in the middle and the last, are other keys"
    for a, b in ((2 ** 255, 2 ** 254), (5 + 2 ** 120, 5), (8, 9), (2 ** 64, 2 ** 64 - 1), (2 ** 248, 2 ** 248 - 1)):
        low, high = min(a, b), max(a, b)
        yield changes(cache([low]), cache([high]), [(GONE, low), (NEW, some(high))], 202)
        yield changes(cache([high]), cache([low]), [(NEW, some(low)), (GONE, high)], 202)
    yield "# in plain key order, whatever the kinds are; what stands behind the end of the other cache too"
    in_turn = [(GONE, n) if n % 2 else (NEW, some(n)) for n in range(1, 9)]
    yield changes(cache([1, 3, 5, 7]), cache([2, 4, 6, 8]), in_turn)
    yield changes(cache([1, 2]), cache([7, 8, 9]), [(GONE, 1), (GONE, 2), (NEW, some(7)), (NEW, some(8)), (NEW, some(9))])
    yield changes(cache([7, 8, 9]), cache([1, 2]), [(NEW, some(1)), (NEW, some(2)), (GONE, 7), (GONE, 8), (GONE, 9)])
    yield changes(cache([5]), cache([4, 5, 6]), [(NEW, some(4)), (NEW, some(6))])
    yield changes(cache([4, 5, 6]), cache([5]), [(GONE, 4), (GONE, 6)])
    yield changes(cache([4, 5]), cache([record(4), record(5)]), [(OTHER, record(4)), (OTHER, record(5))])


def largest():
    yield "# 256 gone and 256 new in turn, 51,712 bytes; the last of 256 gone alone, and the last with another port"
    odd, even = cache(range(1001, 1513, 2), 256), cache(range(1000, 1512, 2), 256)
    both = [(GONE, n) if n % 2 else (NEW, some(n)) for n in range(1000, 1512)]
    yield changes(odd, even, both)
    yield changes(odd, even, 15, ENOUGH - 1)
    yield changes(odd, cache(range(1001, 1511, 2), 256), [(GONE, 1511)], 101)
    yield changes(odd, put(odd, 25500 + 33, b"\xFF"), [(OTHER, put(some(1511), 33, b"\xFF"))], 101)


def refused():
    good = cache([1, 2, 3])
    yield "# 1: C 10 against C 11, both ways, empty and equal ones too; lengths that are none of a cache"
    for before, after in ((good, cache([1, 2, 3], 11)), (cache([1, 2, 3], 11), good), (bytes(1000), bytes(1100)), (bytes(1100), bytes(1000)),
                          (good, good[:-1]), (good[:-1], good), (b"", b""), (bytes(900), bytes(900)), (bytes(25700), bytes(25700)),
                          (good + b"\0", good + b"\0"), (b"", good), (good, b"")):
        yield changes(before, after, 1)
    for c in (10, 11, 255, 256):
        yield changes(cache([1], c), cache([2], c), [(GONE, 1), (NEW, some(2))])
    yield "# 1: either cache out of form, the other in form, whether the record would be listed or not; 1 before 15"
    for bad in (cache([2, 1]), cache([1, 1]), cache([1, 100]), put(good, 34, b"\0"), put(good, 134, b"\2"), put(good, 35, b"\1"),
                put(good, 52, b"\1"), put(good, 999, b"\1"), cache([1, bytes(100), 3]), cache([1, record(2, 2), 3]), cache([1, 2, record(3, 4)])):
        for room in (ENOUGH, 0):
            yield changes(good, bad, 1, room)
            yield changes(bad, good, 1, room)
        yield changes(bad, bad, 1)
    yield "# 1: the own records, for which both caches are tested; with two of them C is 20 at least, and neither is held"
    for own in (b"", OWN[:99], OWN + b"\0", put(OWN, 34, b"\0"), put(OWN, 34, b"\2"), put(OWN, 99, b"\1"), record(1), record(3), ours(200, 100),
                ours(100, 100), ours(100, 200), ours(200, 201, 202, 203, 204)):
        yield changes(good, good, 1, 0, own)
    twenty = cache([1, 2, 3], 20)
    yield changes(twenty, cache([2], 20), [(GONE, 1), (GONE, 3)], own=ours(100, 200))
    for own in (ours(100, 200), ours(0, 9), record(7)):
        yield changes(twenty, twenty, [], 0, own)
    for own in (ours(1, 200), ours(0, 3), ours(100, 200, 300)):
        yield changes(twenty, cache([2], 20), 1, own=own)
    yield changes(cache([2], 20), twenty, 1, own=ours(0, 3))
    yield changes(cache([2], 20), twenty, [(NEW, some(1)), (NEW, some(3))], own=ours(0, 4))


def vectors():
    """Headings as strings, vectors as (operands, answer)."""
    for part in (cases, one_by_one, largest, refused):
        yield from part()


def check():
    lines = [v for v in vectors() if not isinstance(v, str)]
    assert {answer.split()[0] for _, answer in lines} == {"0", "1", "15"}
    return lines


if __name__ == "__main__":
    print("vector_changes: %d vectors" % len(check()))
