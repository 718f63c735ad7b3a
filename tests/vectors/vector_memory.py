#!/usr/bin/env python3
"""Vectors for the lent memory: the forms, learning, removing, the neighbour list, the closest record, a key searched, the tick's work on places.

    cache-form OWN CACHE         bad, or how many records are held
    waiting-form OWN TABLE       bad, or how many places are used
    learn OWN CACHE RECORD       the number, and with 0 the keys held afterwards
    remove-key OWN CACHE KEY     the same
    neighbours OWN CACHE KEY     the number, and with 0 the counts below and above and the keys listed
    closest OWN CACHE PATH TARGET    the number, and with 0 the record and how many keys were compared; PATH is endpoints as on the wire, port 2 and
                                 address 16
    search OWN CACHE KEY         the number, and with 0 the place from 1, or 0 for a key that is not held, and how many keys were compared
    searches OWN CACHE           for each record held the place of the closest to its key with the last byte 0, to the key, and to it with the last
                                 byte 255
    ticks OWN TABLE ROUNDS       for each round number:IDs, then how many places are used at the end

    vector_memory.py             checks the answers that documents 01 and 02 and docs/MEMORY.md state

OWN is one to four records, one behind the other. Keys in answers are in hexadecimal without leading zeros, IDs are decimal; both apart by commas,
- for none. The bytes are laid out here by docs/MEMORY.md and not by the model. A `want` is the answer that the documents give, and is compared with
the model's.
"""
if not __debug__:
    raise SystemExit("vector_memory.py: run it without -O and PYTHONOPTIMIZE, which leave its asserts out")
import with_models
import model

TOP = 2 ** 256 - 1
HALF = 2 ** 255
ENDS = (0, 1, HALF, TOP)  # where our own key, or a target, lies on the ring


def key(n):
    return n.to_bytes(32, "big")


def record(n, count=1, port=5000, first=0x21):
    """Key n, `count` addresses that tell their place. With two to four it is a record of the time before request 13, or what a route entry shows."""
    used = bytes((first + i) % 256 for i in range(16 * count))
    return key(n) + port.to_bytes(2, "big") + bytes([count, 0]) + used + bytes(64 - len(used))


def kept(r):
    """What is kept of a record with more addresses: the first of them, with the port (02, request 13)."""
    return r[:34] + b"\1\0" + r[36:52] + bytes(48)


def some(k):
    """The record that a cache below has of a key, where nothing is said of it."""
    return record(k, 1, 4000 + k % 1000, 0x21 + k % 4)


def cache(keys, c=10):
    """A cache of C records; a key may be given as a record."""
    rows = [some(k) if isinstance(k, int) else k for k in keys]
    return b"".join(rows) + bytes(100 * (c - len(rows)))


def flood(identity, n, tries=2):
    return identity.to_bytes(4, "little") + bytes([1, tries, 0, 0]) + key(n) + bytes(100)


def inquiry(identity, n, tries=2, count=1):
    return identity.to_bytes(4, "little") + bytes([2, tries, 0, 0]) + key(n) + record(n, count)


def table(places):
    return b"".join(places) + bytes(2240 - 140 * len(places))


def put(s, at, new):
    return s[:at] + new + s[at + len(new):]


def ours(*keys):
    """Own records, each with a port of its own."""
    return b"".join(record(k, 1, 5000 + k % 1000) for k in keys)


OWN = record(100, 1, 5100)


# Answers.

def listed(keys):
    return ",".join("%x" % k for k in keys) or "-"


def line(name, operands, answer, want):
    assert want is None or want == answer, (name, answer, want)
    return (name, *operands), answer


def cache_form(own, s, want=None):
    records = model.held(own, s)
    return line("cache-form", (own, s), "bad" if records is None else str(len(records)), want)


def waiting_form(own, s, want=None):
    places = model.waits(own, s)
    return line("waiting-form", (own, s), "bad" if places is None else str(len(places)), want)


# 01, number 1: "lent memory is not as above", the own record and the record or key handed in too.
def learn(own, s, new, want=None):
    records = model.held(own, s)
    if model.own_records(own) is None or records is None or not model.record_form(new):
        return line("learn", (own, s, new), "1", want)
    return line("learn", (own, s, new), "0 " + listed(map(model.key_of, model.learned(own, records, new, len(s) // 100))), want)


def remove(own, s, k, want=None):
    records = model.held(own, s)
    if model.own_records(own) is None or records is None or len(k) != 32:
        return line("remove-key", (own, s, k), "1", want)
    return line("remove-key", (own, s, k), "0 " + listed(map(model.key_of, model.removed(records, model.value(k)))), want)


def neighbours(own, s, want=None, k=None):
    """Of the first own key, where none is named."""
    k = own[:32] if k is None else k
    number, below, above, output = model.Gauge(own, cache=s).neighbours(k, bytes(320))
    if number != 0:
        return line("neighbours", (own, s, k), str(number), want)
    keys = [model.value(output[32 * i:32 * i + 32]) for i in range(below + above)]
    return line("neighbours", (own, s, k), "0 %d %d %s" % (below, above, listed(keys)), want)


def closest(own, s, target, want=None, path=b"", steps=None):
    """`want` is the key of the record shown, or the number that the call is refused with, as text; `steps` how many keys are compared."""
    records, points = model.held(own, s), model.path_of(path)
    if model.own_records(own) is None or records is None or points is None or len(target) != 32:
        return line("closest", (own, s, path, target), "1", want)
    shown = model.closest(own, records, points, model.value(target))
    compared = model.compared(records, model.value(target))
    assert want is None or model.key_of(shown) == want, (model.key_of(shown), want)
    assert steps is None or compared == steps, (compared, steps)
    return line("closest", (own, s, path, target), "0 %s %d" % (shown.hex(), compared), None)


def search(own, s, k, want=None):
    number, first, second, _ = model.Gauge(own, cache=s).search(model.Lent(key=k))
    return line("search", (own, s, k), "0 %d %d" % (first, second) if number == 0 else str(number), want)


def searches(own, s):
    """The model walks over all the records for each target. To its own key a record is the closest."""
    records = model.held(own, s)
    place = {record: str(i) for i, record in enumerate(records)}
    answers = []
    for i, k in enumerate(map(model.key_of, records)):
        low, here, high = (place.get(model.closest(own, records, [], target), "own") for target in (k - k % 256, k, k - k % 256 + 255))
        assert here == str(i)
        answers.append("%s,%s,%s" % (low, here, high))
    return line("searches", (own, s), " ".join(answers), None)


def tick(own, s, rounds, want=None):
    answers, g = [], model.Gauge(own, waiting=s)
    for _ in range(rounds):
        number, count, _, output = g.tick(bytes(64))
        ids = [int.from_bytes(output[4 * i:4 * i + 4], "little") for i in range(count)]
        answers.append("%d:%s" % (number, ",".join(map(str, ids)) or "-"))
    return line("ticks", (own, s, rounds), " ".join(answers) + " %d" % len(model.waits(own, g.waiting)), want)


def cache_forms():
    five = [60, 70, 80, 101, 110]
    good = cache(five)
    yield "# the cache: in form, and how many are held"
    yield cache_form(OWN, bytes(1000), "0")
    yield cache_form(OWN, cache([7]), "1")
    yield cache_form(OWN, good, "5")
    yield "# full, at the least and at the greatest C"
    yield cache_form(OWN, cache(range(90, 100)), "10")
    yield cache_form(OWN, cache(range(89, 100), 11), "11")
    yield cache_form(OWN, cache(range(1000, 1256), 256), "256")
    yield "# accepted: key 0 and the greatest key, port 0, an address of zeros"
    yield cache_form(OWN, cache([0]), "1")
    yield cache_form(OWN, cache([0, TOP]), "2")
    yield cache_form(OWN, cache([record(7, 1, 0), record(8, 1, 65535)]), "2")
    yield cache_form(OWN, cache([key(7) + b"\x13\x88\x01\x00" + bytes(64)]), "1")
    yield cache_form(OWN, cache([key(0) + b"\x00\x00\x01\x00" + bytes(64)]), "1")
    yield cache_form(OWN, cache([99, 101]), "2")
    yield cache_form(OWN, put(cache(range(90, 100)), 951, b"\x01"), "10")
    yield cache_form(record(0), cache([1, 2]), "2")
    yield cache_form(record(TOP), cache([0, TOP - 1]), "2")
    yield "# accepted: an order that is seen only in the first byte, in the last, at a word's end"
    for low, high in ((255, 2 ** 248), (2 ** 248, 2 ** 248 + 1), (2 ** 32 - 1, 2 ** 32), (2 ** 64 - 1, 2 ** 64), (2 ** 128 - 1, 2 ** 128),
                      (2 ** 192 - 1, 2 ** 192), (2 ** 255 - 1, 2 ** 255)):
        yield cache_form(OWN, cache([low, high]), "2")
        yield cache_form(OWN, cache([high, low]), "bad")
    yield "# refused: the length"
    for length in (0, 1, 99, 100, 900, 999, 1001, 1099):
        yield cache_form(OWN, bytes(length), "bad")
    yield cache_form(OWN, cache(five, 9), "bad")
    yield cache_form(OWN, cache(five, 257), "bad")
    yield "# refused: the order, equal keys, the own key"
    yield cache_form(OWN, cache([70, 60]), "bad")
    yield cache_form(OWN, cache([60, 70, 80, 110, 101]), "bad")
    yield cache_form(OWN, cache([60, 60]), "bad")
    yield cache_form(OWN, cache([60, 70, 80, record(110, 1), record(110, 1, 9)]), "bad")
    yield cache_form(OWN, cache([100]), "bad")
    yield cache_form(OWN, cache([60, 100, 110]), "bad")
    yield cache_form(OWN, cache([record(100, 1, 1)]), "bad")
    yield cache_form(record(0), cache([0, 7]), "bad")
    yield cache_form(record(TOP), cache([7, TOP]), "bad")
    yield cache_form(OWN, cache(list(range(91, 100)) + [99]), "bad")
    yield "# refused: the address count, the zero byte"
    for row in (0, 2, 4):
        for count in (0, 2, 3, 4, 5, 255):
            yield cache_form(OWN, put(good, 100 * row + 34, bytes([count])), "bad")
        yield cache_form(OWN, put(good, 100 * row + 35, b"\x01"), "bad")
    yield cache_form(OWN, put(good, 135, b"\x80"), "bad")
    yield "# refused: bytes behind the one address that are not zero, the first and the last of each address that there was before request 13"
    for at in (52, 67, 68, 83, 84, 99):
        yield cache_form(OWN, put(cache([7]), at, b"\x01"), "bad")
        yield cache_form(OWN, put(cache([60, 70, 80]), 200 + at, b"\x80"), "bad")
    yield "# refused: records of two to four addresses, as they were before request 13; among others in form, and with counts that say less"
    for count in (2, 3, 4):
        yield cache_form(OWN, cache([record(7, count)]), "bad")
        yield cache_form(OWN, cache([60, record(70, count), 80]), "bad")
        yield cache_form(OWN, cache(list(range(90, 99)) + [record(99, count)]), "bad")
        yield cache_form(OWN, put(cache([record(7, count)]), 34, bytes([count - 1])), "bad")
    yield cache_form(OWN, cache([key(7) + b"\x13\x88\x02\x00" + b"\xFE" * 32 + bytes(32)]), "bad")
    yield cache_form(OWN, cache([record(n, n) for n in (1, 2, 3, 4)]), "bad")
    yield "# refused: a used record behind a free one, a free one that is not all zero"
    yield cache_form(OWN, cache([60, bytes(100), 70]), "bad")
    yield cache_form(OWN, cache([bytes(100), 70]), "bad")
    yield cache_form(OWN, bytes(900) + record(70), "bad")
    for at in (500, 531, 532, 534, 535, 536, 599, 600, 999):
        yield cache_form(OWN, put(good, at, b"\x01"), "bad")


def waiting_forms():
    good = table([flood(1, 60), inquiry(2, 70), inquiry(5, 80, 1), flood(9, 60, 0)])
    yield "# the waiting table: in form, and how many are used"
    yield waiting_form(OWN, bytes(2240), "0")
    yield waiting_form(OWN, good, "4")
    yield waiting_form(OWN, table([flood(i, 7) for i in range(16)]), "16")
    yield waiting_form(OWN, table([inquiry(i, 200 + i) for i in range(1, 17)]), "16")
    yield "# accepted: a flood with the own key, with the key of another place; ID 0 and the greatest; tries 0, 1, 2; key 0 and the greatest"
    yield waiting_form(OWN, table([flood(1, 100)]), "1")
    yield waiting_form(OWN, table([flood(1, 7), flood(2, 7)]), "2")
    yield waiting_form(OWN, table([flood(1, 7), inquiry(2, 7)]), "2")
    yield waiting_form(OWN, table([flood(0, 7), flood(2 ** 32 - 1, 8)]), "2")
    yield waiting_form(OWN, table([flood(0, 0, 0)]), "1")
    yield waiting_form(OWN, table([inquiry(0, 0, 0)]), "1")
    yield waiting_form(OWN, table([inquiry(1, 7, 0), inquiry(2, 8, 1), inquiry(3, 9, 2)]), "3")
    yield waiting_form(OWN, table([inquiry(1, TOP), flood(2, TOP)]), "2")
    yield waiting_form(OWN, table([inquiry(3, 80), inquiry(4, 70)]), "2")
    yield "# IDs are little-endian numbers: in their order, and in the order of their bytes"
    for low, high in ((1, 256), (255, 256), (65535, 65536), (2 ** 24 - 1, 2 ** 24), (2 ** 31 - 1, 2 ** 31), (0x01020304, 0x04030201)):
        yield waiting_form(OWN, table([flood(low, 7), flood(high, 8)]), "2")
        yield waiting_form(OWN, table([flood(high, 8), flood(low, 7)]), "bad")
    yield "# refused: the length"
    for length in (0, 1, 140, 2100, 2239, 2241, 2380):
        yield waiting_form(OWN, bytes(length), "bad")
    yield waiting_form(OWN, good[:2100], "bad")
    yield "# refused: equal IDs, also of two kinds; the order"
    yield waiting_form(OWN, table([flood(3, 7), flood(3, 8)]), "bad")
    yield waiting_form(OWN, table([flood(3, 7), inquiry(3, 8)]), "bad")
    yield waiting_form(OWN, table([inquiry(3, 8), flood(3, 7)]), "bad")
    yield waiting_form(OWN, table([flood(1, 7), flood(3, 7), flood(2, 7)]), "bad")
    yield waiting_form(OWN, table([flood(i, 7) for i in range(15)] + [flood(14, 7)]), "bad")
    yield "# refused: kind, tries, the two zero bytes, of a flood and of an inquiry"
    for place in (0, 140):
        for at, byte in ((4, 3), (4, 255), (5, 3), (5, 255), (6, 1), (7, 1)):
            yield waiting_form(OWN, put(good, place + at, bytes([byte])), "bad")
    yield waiting_form(OWN, put(good, 4, b"\x00"), "bad")
    yield waiting_form(OWN, put(good, 144, b"\x00"), "bad")
    yield "# refused: a flood with a record, the kind of the other"
    yield waiting_form(OWN, put(good, 40, record(60)), "bad")
    for at in (40, 71, 72, 74, 75, 76, 139):
        yield waiting_form(OWN, put(good, at, b"\x01"), "bad")
    yield waiting_form(OWN, put(good, 4, b"\x02"), "bad")
    yield waiting_form(OWN, put(good, 144, b"\x01"), "bad")
    yield "# refused: an inquiry whose record is out of form, or has another key"
    for at, byte in ((74, 0), (74, 2), (74, 3), (74, 4), (74, 5), (75, 1), (92, 1), (107, 1), (108, 1), (123, 1), (124, 1), (139, 1)):
        yield waiting_form(OWN, put(good, 140 + at, bytes([byte])), "bad")
    for count in (2, 3, 4):
        yield waiting_form(OWN, table([inquiry(1, 7, 2, count)]), "bad")
        yield waiting_form(OWN, table([flood(1, 7), inquiry(2, 8), inquiry(3, 7, 2, count)]), "bad")
    yield waiting_form(OWN, put(good, 180, bytes(100)), "bad")
    yield waiting_form(OWN, put(good, 180, record(71)), "bad")
    yield waiting_form(OWN, put(good, 180, b"\x80"), "bad")
    yield waiting_form(OWN, put(good, 148, b"\x80"), "bad")
    yield waiting_form(OWN, put(good, 179, b"\x47"), "bad")
    yield "# refused: two inquiries of one key, side by side and apart; an inquiry of the own key"
    yield waiting_form(OWN, table([inquiry(1, 7), inquiry(2, 7)]), "bad")
    yield waiting_form(OWN, table([inquiry(1, 7, 2), put(inquiry(2, 7, 1), 72, b"\x99")]), "bad")
    yield waiting_form(OWN, table([inquiry(1, 7), flood(2, 7), inquiry(3, 8), inquiry(4, 7)]), "bad")
    yield waiting_form(OWN, table([inquiry(i, 200 + i % 15) for i in range(1, 17)]), "bad")
    yield waiting_form(OWN, table([inquiry(1, 100)]), "bad")
    yield waiting_form(OWN, table([flood(1, 100), inquiry(2, 7), inquiry(3, 100)]), "bad")
    yield waiting_form(record(7), table([flood(1, 100), inquiry(2, 7)]), "bad")
    yield "# refused: a used place behind a free one, a free one that is not all zero"
    yield waiting_form(OWN, table([flood(1, 7), bytes(140), flood(2, 7)]), "bad")
    yield waiting_form(OWN, table([bytes(140), flood(2, 7)]), "bad")
    yield waiting_form(OWN, bytes(2100) + flood(2, 7), "bad")
    for at in (560, 563, 564, 565, 566, 567, 568, 599, 600, 634, 699, 700, 2239):
        yield waiting_form(OWN, put(good, at, b"\x01"), "bad")


def learning():
    ten = list(range(90, 100))
    yield "# learning: case 3 (90 is dropped), case 4 (89 itself), case 5 as document 02 has it (94)"
    yield learn(OWN, cache(ten), record(101), "0 5b,5c,5d,5e,5f,60,61,62,63,65")
    yield learn(OWN, cache(ten), record(89), "0 5a,5b,5c,5d,5e,5f,60,61,62,63")
    six = list(range(94, 100)) + list(range(101, 106))
    yield learn(OWN, cache(six, 11), record(106), "0 5f,60,61,62,63,65,66,67,68,69,6a")
    yield "# of two equally far the lower goes, whoever is new; else the farther, with fewer on its side too; what is in the list stays"
    yield learn(OWN, cache([94, 95, 96, 97, 98, 99, 101, 102, 103, 104, 106], 11), record(105), "0 5f,60,61,62,63,65,66,67,68,69,6a")
    yield learn(OWN, cache([95, 96, 97, 98, 99, 101, 102, 103, 104, 105, 106], 11), record(94), "0 5f,60,61,62,63,65,66,67,68,69,6a")
    yield learn(OWN, cache([95, 96, 97, 98, 99, 101, 102, 103, 104, 105, 107], 11), record(94), "0 5e,5f,60,61,62,63,65,66,67,68,69")
    yield learn(OWN, cache([93, 95, 96, 97, 98, 99, 101, 102, 103, 104, 105], 11), record(106), "0 5f,60,61,62,63,65,66,67,68,69,6a")
    yield learn(OWN, cache([0, 95, 96, 97, 98, 99, 101, 102, 103, 104, 105, 106, 107], 13), record(108), "0 5f,60,61,62,63,65,66,67,68,69,6a,6b,6c")
    yield learn(OWN, cache([0, 1, 2, 101, 102, 103, 104, 105, 106, 107]), record(108), "0 0,1,2,65,66,67,68,69,6a,6b")
    yield learn(OWN, cache([93, 94, 95, 96, 97, 98, 99, 300, 400, 500]), record(92), "0 5d,5e,5f,60,61,62,63,12c,190,1f4")
    yield "# with none on the other side, or few, the farthest out goes"
    yield learn(OWN, cache(range(101, 111)), record(99), "0 63,65,66,67,68,69,6a,6b,6c,6d")
    yield learn(OWN, cache(range(101, 111)), record(111), "0 65,66,67,68,69,6a,6b,6c,6d,6e")
    yield learn(OWN, cache(range(102, 112)), record(101), "0 65,66,67,68,69,6a,6b,6c,6d,6e")
    yield learn(OWN, cache([95, 96, 97, 98, 99, 101, 102, 103, 104, 105]), record(106), "0 5f,60,61,62,63,65,66,67,68,69")
    yield learn(OWN, cache([95, 96, 97, 98, 99, 101, 102, 103, 104, 105]), record(94), "0 5f,60,61,62,63,65,66,67,68,69")
    yield learn(OWN, cache([95, 96, 97, 98, 99, 101, 102, 103, 104, 105]), record(0), "0 5f,60,61,62,63,65,66,67,68,69")
    yield learn(OWN, cache([95, 96, 97, 98, 99, 101, 102, 103, 104, 105]), record(TOP), "0 5f,60,61,62,63,65,66,67,68,69")
    yield "# farthest out is by the whole key, not by four bytes of a difference"
    yield learn(OWN, cache(list(range(101, 110)) + [2 ** 32 + 100]), record(110), "0 65,66,67,68,69,6a,6b,6c,6d,6e")
    yield learn(record(2 ** 64), cache([1] + list(range(2 ** 64 - 9, 2 ** 64))), record(2 ** 64 - 10), "0 " + listed(range(2 ** 64 - 10, 2 ** 64)))
    yield "# room left: a new key joins, at either end and between"
    for new in (0, 65, 99, 105, TOP):
        yield learn(OWN, cache([60, 70, 101, 110]), record(new), "0 " + listed(sorted([60, 70, 101, 110, new])))
    yield learn(OWN, bytes(1000), record(7), "0 7")
    yield learn(OWN, cache(ten[1:]), record(90), "0 5a,5b,5c,5d,5e,5f,60,61,62,63")
    yield "# a held key: its record is replaced, nothing is dropped, also when full"
    yield learn(OWN, cache(ten), record(95, 1, 1), "0 5a,5b,5c,5d,5e,5f,60,61,62,63")
    yield learn(OWN, cache(ten), record(90, 1, 1), "0 5a,5b,5c,5d,5e,5f,60,61,62,63")
    yield learn(OWN, cache([60, 70]), record(70, 1, 9), "0 3c,46")
    yield "# the own key at an end: all keys are above it, over the end too"
    yield learn(record(0), cache(range(1, 11)), record(11), "0 " + listed(range(1, 11)))
    yield learn(record(0), cache(range(2, 12)), record(1), "0 " + listed(range(1, 11)))
    yield learn(record(TOP), cache(range(1, 11)), record(11), "0 " + listed(range(1, 11)))
    yield learn(record(TOP), cache(range(1, 11)), record(0), "0 " + listed(range(0, 10)))
    yield "# refused: cache, record or own record out of form"
    yield learn(OWN, bytes(900), record(7), "1")
    yield learn(OWN, cache([70, 60]), record(7), "1")
    yield learn(OWN, cache([100]), record(7), "1")
    new = record(7)
    for bad in (b"", bytes(100), new[:99], new + b"\0", put(new, 34, b"\0"), put(new, 34, b"\5"), put(new, 35, b"\1"), put(new, 99, b"\1"),
                put(new, 34, b"\2"), put(new, 52, b"\1"), record(7, 2), record(7, 3), record(7, 4)):
        yield learn(OWN, cache([60]), bad, "1")
    for bad in (bytes(100), OWN[:99], put(OWN, 34, b"\5"), put(OWN, 35, b"\1"), put(OWN, 99, b"\1"), put(OWN, 34, b"\2"), record(100, 2),
                record(100, 4)):
        yield learn(bad, cache([60]), record(7), "1")


def removing():
    yield "# removing: first, last, between, the only one, from a full cache; a key that is not held changes nothing"
    for k, left in ((60, "46,65,6e"), (70, "3c,65,6e"), (110, "3c,46,65"), (65, "3c,46,65,6e"), (0, "3c,46,65,6e"), (TOP, "3c,46,65,6e"),
                    (100, "3c,46,65,6e")):
        yield remove(OWN, cache([60, 70, 101, 110]), key(k), "0 " + left)
    yield remove(OWN, cache([7]), key(7), "0 -")
    yield remove(OWN, bytes(1000), key(7), "0 -")
    yield remove(OWN, bytes(1000), key(0), "0 -")
    yield remove(OWN, cache([0, 7]), key(0), "0 7")
    for k in (90, 95, 99):
        yield remove(OWN, cache(range(90, 100)), key(k), "0 " + listed(n for n in range(90, 100) if n != k))
    yield remove(OWN, cache([7, 2 ** 32 + 7, 2 ** 248 + 7]), key(2 ** 32 + 7), "0 " + listed([7, 2 ** 248 + 7]))
    yield "# refused: cache or own record out of form, a key that has not 32 bytes"
    yield remove(OWN, bytes(900), key(7), "1")
    yield remove(OWN, cache([70, 60]), key(60), "1")
    yield remove(OWN, cache([60]), key(60)[:31], "1")
    yield remove(OWN, cache([60]), key(60) + b"\0", "1")
    yield remove(OWN, cache([60]), b"", "1")
    yield remove(put(OWN, 34, b"\0"), cache([60]), key(60), "1")


def lists():
    yield "# the neighbour list: cases 1 and 2"
    yield neighbours(OWN, cache([60, 70, 80, 90, 95, 99, 101, 110]), "0 5 2 63,5f,5a,50,46,65,6e")
    yield neighbours(OWN, bytes(1000), "0 0 0 -")
    yield "# five and not six, on either side; none on a side; the ends"
    yield neighbours(OWN, cache([95, 96, 97, 98, 99, 101, 102, 103, 104, 105]), "0 5 5 63,62,61,60,5f,65,66,67,68,69")
    yield neighbours(OWN, cache([94, 95, 96, 97, 98, 99, 101, 102, 103, 104, 105, 106], 12), "0 5 5 63,62,61,60,5f,65,66,67,68,69")
    yield neighbours(OWN, cache(range(90, 100)), "0 5 0 63,62,61,60,5f")
    yield neighbours(OWN, cache(range(101, 111)), "0 0 5 65,66,67,68,69")
    yield neighbours(OWN, cache([99]), "0 1 0 63")
    yield neighbours(OWN, cache([101]), "0 0 1 65")
    yield neighbours(OWN, cache([0, TOP]), "0 2 0 0," + "f" * 64)
    yield neighbours(record(0), cache([1, TOP]), "0 1 1 %s,1" % ("f" * 64))
    yield neighbours(record(TOP), cache([0, 1]), "0 0 2 0,1")
    yield neighbours(record(2 ** 32), cache([1, 2 ** 32 - 1, 2 ** 32 + 1, 2 ** 64]), "0 2 2 ffffffff,1,100000001,10000000000000000")
    yield neighbours(record(2 ** 255), cache([2 ** 255 - 1, 2 ** 255 + 1]), "0 1 1 7%s,8%s1" % ("f" * 63, "0" * 62))
    yield "# refused"
    yield neighbours(OWN, bytes(900), "1")
    yield neighbours(OWN, cache([99, 98]), "1")
    yield neighbours(OWN, cache([100]), "1")
    yield neighbours(put(OWN, 35, b"\1"), cache([99]), "1")
    yield neighbours(OWN[:99], cache([99]), "1")


def near():
    yield "# the closest record: cases 6 and 7, and 9 as document 02 has it"
    yield closest(record(50), cache([99, 101]), key(100), 99)
    yield closest(record(9), cache([1, 4294967296]), key(0), 1)
    yield closest(record(5), cache([0]), key(TOP), 0)
    yield "# the own record: alone, nearest, in a tie on either side"
    yield closest(OWN, bytes(1000), key(0), 100)
    yield closest(OWN, bytes(1000), key(TOP), 100)
    yield closest(OWN, cache([99, 101]), key(100), 100)
    yield closest(OWN, cache([98]), key(99), 98)
    yield closest(OWN, cache([102]), key(101), 100)
    yield "# ties go to the key below the target; one nearer wins, wherever it stands"
    yield closest(record(0), cache([98, 102]), key(100), 98)
    yield closest(record(0), cache([97, 98, 102, 103]), key(100), 98)
    yield closest(record(0), cache([97, 101, 104]), key(100), 101)
    for target, want in ((60, 60), (64, 60), (65, 60), (66, 70), (94, 90), (0, 60), (111, 110), (105, 100), (106, 110)):
        yield closest(OWN, cache([60, 70, 80, 90, 110]), key(target), want)
    for target in (90, 94, 99):
        yield closest(OWN, cache(range(90, 100)), key(target), target)
    yield "# differences beyond 32, 64, 128 and 192 bits; the shorter way round"
    yield closest(record(2 ** 200), cache([2 ** 32 + 3, 2 ** 33]), key(1), 2 ** 32 + 3)
    for bits in (32, 64, 128, 192):
        yield closest(record(2 ** 255), cache([5, 2 ** bits + 1]), key(1), 5)
        yield closest(record(2 ** 255), cache([5, 2 ** bits + 5]), key(2 ** bits), 2 ** bits + 5)
    yield closest(record(2 ** 255), cache([3, TOP - 1]), key(0), TOP - 1)
    yield closest(record(2 ** 255), cache([0, 2 ** 254]), key(TOP), 0)
    yield "# the record shown is whole: its address, its port; one of two to four addresses is no record"
    for first in (0x21, 0, 0xF0):
        yield closest(OWN, cache([record(7, 1, 1000 + first, first)]), key(7), 7)
    yield closest(record(100, 1, 65535), cache([7]), key(99), 100)
    for count in (2, 3, 4):
        yield closest(OWN, cache([record(7, count, 1000 + count)]), key(7), "1")
        yield closest(record(100, count, 65535), cache([7]), key(99), "1")
    yield "# refused"
    yield closest(OWN, bytes(900), key(7), "1")
    yield closest(OWN, cache([70, 60]), key(7), "1")
    yield closest(OWN, cache([60]), key(7)[:31], "1")
    yield closest(OWN, cache([60]), key(7) + b"\0", "1")
    yield closest(put(OWN, 34, b"\5"), cache([60]), key(7), "1")
    yield closest(OWN[:99], cache([60]), key(7), "1")


A, B, ANY = bytes(range(0xA0, 0xB0)), bytes(range(0xB0, 0xC0)), bytes(16)  # addresses


def at(n, port, *addresses):
    """A record with these addresses: one, or more as before request 13."""
    used = b"".join(addresses)
    return key(n) + port.to_bytes(2, "big") + bytes([len(addresses), 0]) + used + bytes(64 - len(used))


def point(port, address):
    """An endpoint of a path, as on the wire."""
    return port.to_bytes(2, "big") + address


# 02, request 2: "The closest record must skip any held record whose port and one of whose addresses stand together as an endpoint on the LOOKUP's
# path".
def on_the_path():
    near, far = at(99, 5000, A), at(101, 6000, B)
    both = cache([near, far])

    def case(path, want):
        return closest(record(50), both, key(100), want, path)

    yield "# a path: own 50, held 99 (port 5000, address A) and 101, target 100. None, its endpoint, another port, another's port, both on the path"
    yield case(b"", 99)
    yield case(point(5000, A), 101)
    yield case(point(5001, A), 99)
    yield case(point(5000, B) + point(5001, A), 99)
    yield case(point(5000, B) + point(6000, A), 99)
    yield case(point(5000, A) + point(6000, B), 50)
    yield case(point(6000, B) + point(5000, A), 50)
    yield case(point(6000, B), 99)
    yield "# endpoints that are not whole ones: 1; none is allowed, and so are more than a LOOKUP can have"
    for length, want in ((1, "1"), (17, "1"), (19, "1"), (35, "1"), (36, 99), (37, "1")):
        yield case((point(5001, A) * 3)[:length], want)
    for length, want in ((17, "1"), (18, 101), (19, "1")):
        yield case((point(5000, A) * 2)[:length], want)
    for n in (22, 23, 30):
        yield case(point(5000, A) + point(1, B) * (n - 1), 101)
        yield case(point(1, B) * (n - 1) + point(5000, A), 101)
        yield case(point(1, B) * (n // 2) + point(5000, A) + point(1, B) * (n - 1 - n // 2), 101)
        yield case(point(5001, A) * n, 99)
    yield "# every byte of an endpoint counts: each changed, and the port's two exchanged"
    for i in range(18):
        whole = point(5000, A)
        yield case(put(whole, i, bytes([whole[i] ^ 1])), 99)
    yield case(point(0x8813, A), 99)
    yield case(point(5000, A[::-1]), 99)
    yield "# the same endpoint twice; a match before and behind others, which change nothing more"
    for path in (point(5000, A) * 2, point(5000, A) + point(5000, B), point(5000, B) + point(5000, A), point(5000, A) + point(5001, A)):
        yield case(path, 101)
    yield "# one address is kept (request 13): of those that a gauge once had the first alone is matched; with all of them the record is out of form"
    addresses = [bytes([0x31 + i]) * 16 for i in range(4)]
    for count in (1, 2, 3, 4):
        old = at(99, 5000, *addresses[:count])
        for i in range(count):
            path = point(7, B) + point(5000, addresses[i])
            yield closest(record(50), cache([kept(old), far]), key(100), 99 if i else 101, path)
            yield closest(record(50), cache([old, far]), key(100), "1" if count > 1 else 101, path)
            yield closest(record(50), cache([kept(old), far]), key(100), 99, point(5001, addresses[i]) + point(5000, B))
    yield "# the places behind the address are zero, and no addresses: they match nothing; an address that is zero does"
    yield closest(record(50), cache([at(99, 5000, addresses[0]), far]), key(100), 99, point(5000, ANY))
    yield closest(record(50), cache([at(99, 5000, ANY), far]), key(100), 101, point(5000, ANY))
    yield closest(record(50), cache([at(99, 0, ANY), far]), key(100), 101, bytes(18))
    yield closest(record(50), cache([at(99, 0, A), far]), key(100), 99, bytes(18))
    yield closest(record(50), cache([at(99, 0, A), far]), key(100), 99, bytes(36))
    yield "# the own record is never skipped: alone, nearest, the only one left"
    own = at(100, 5000, A)
    for keys in ([], [at(99, 5001, A)], [at(99, 5000, A)], [at(99, 5000, A), at(101, 5000, A)]):
        yield closest(own, cache(keys), key(99), 99 if keys[:1] == [at(99, 5001, A)] else 100, point(5000, A))
    yield "# two records with one endpoint: both are skipped"
    shared = cache([at(97, 1, B), at(98, 5000, A), at(99, 5000, A), at(103, 1, A)])
    yield closest(record(50), shared, key(100), 97, point(5000, A))
    yield closest(record(50), shared, key(100), 99, point(5000, B))
    yield closest(record(50), shared, key(100), 103, point(5000, A) + point(1, B))
    yield "# ties among those that are left go down"
    tied = [at(n, n, A) for n in (96, 97, 98, 102, 103, 104)]
    for gone, want in (([], 98), ([98], 102), ([102], 98), ([98, 102], 97), ([97, 98, 102], 103), ([98, 102, 103], 97), ([97, 98, 102, 103], 96),
                       ([96, 97, 98, 102, 103], 104), ([96, 97, 98, 102, 103, 104], 0)):
        yield closest(record(0), cache(tied), key(100), want, b"".join(point(n, A) for n in gone))
    for own, gone, want in ((98, [], 98), (98, [102], 98), (102, [], 98), (102, [98], 102), (103, [98], 102), (103, [98, 102], 97),
                            (97, [98, 102], 97), (103, [97, 98, 102], 103)):
        held = [r for r in tied if model.key_of(r) != own]
        yield closest(at(own, own, A), cache(held), key(100), want, b"".join(point(n, A) for n in gone))
    yield "# refused for its memory, with a path too"
    yield closest(record(50), bytes(900), key(7), "1", point(5000, A))
    yield closest(record(50), cache([70, 60]), key(7), "1", point(5000, A))
    yield closest(record(50), both, key(7)[:31], "1", point(5000, A))
    yield closest(put(OWN, 34, b"\5"), both, key(7), "1", point(5000, A))


def slim(n):
    """A record whose one address is zero: its line is short, and where only keys matter it does."""
    return key(n) + b"\x13\x88\x01\x00" + bytes(64)


def keys_cache(keys, c=10):
    return cache([slim(n) for n in sorted(keys)], c)


def around(own, steps):
    """The keys so many steps up from our own, or down; in plain order, as a cache has them."""
    return sorted((own + n) % 2 ** 256 for n in steps)


def far_out(own):
    """Around a key: nearest first, three below and four above; the last above is just opposite, the last below next to it."""
    below = [own - 1, own - 2 ** 64, own - (HALF - 1)]
    above = [own + 1, own + 2 ** 32, own + HALF - 1, own + HALF]
    return [n % 2 ** 256 for n in below], [n % 2 ** 256 for n in above]


# 02: "pond 1 must be able to have the last pond as neighbour below." W4.1: "The key just opposite ours .. is above."
def ring_lists():
    yield "# the ring: pond 1 and the last pond; the key just opposite is above, the next one below"
    yield neighbours(slim(1), keys_cache([5, TOP]), "0 1 1 %s,5" % ("f" * 64))
    yield neighbours(slim(0), keys_cache([HALF, HALF + 1]), "0 1 1 %x,%x" % (HALF + 1, HALF))
    yield neighbours(slim(0), keys_cache([HALF - 1, HALF, HALF + 1, HALF + 2]), "0 2 2 " + listed([HALF + 2, HALF + 1, HALF - 1, HALF]))
    for own in ENDS:
        below, above = far_out(own)
        yield neighbours(slim(own), keys_cache(below + above), "0 3 4 " + listed(below + above))
        for steps, counts in ((1, "0 1"), (HALF - 1, "0 1"), (HALF, "0 1"), (HALF + 1, "1 0"), (TOP, "1 0")):
            k = (own + steps) % 2 ** 256
            yield neighbours(slim(own), keys_cache([k]), "0 %s %x" % (counts, k))
    yield "# five and not six on either side, across the end"
    for own in ENDS:
        for shift in range(-6, 7, 3):
            middle = (own + shift) % 2 ** 256
            keys = around(middle, [n for n in range(-6, 7) if n])
            order = [(middle + n) % 2 ** 256 for n in (-1, -2, -3, -4, -5, 1, 2, 3, 4, 5)]
            yield neighbours(slim(middle), keys_cache(keys, 12), "0 5 5 " + listed(order))


# 02, request 11: "of the keys in no neighbour list, drop the one farthest round the ring from the first own key, the lower on a tie". A row is the
# steps held, the step learned and the one dropped; where two are equally far, both, of which the one goes that is the lower number.
FIVES = [-5, -4, -3, -2, -1, 1, 2, 3, 4, 5]
DROPS = ((range(-10, 0), 1, -10), (range(-10, 0), -11, -11), (range(1, 11), -1, 10), (range(1, 11), 11, 11), (range(2, 12), 1, 11),
         (FIVES, 6, 6), (FIVES, -6, -6), (FIVES, HALF, HALF), (FIVES, HALF - 1, HALF - 1), (FIVES, 1 - HALF, 1 - HALF),
         ([-9] + FIVES[1:], -5, -9), (FIVES[:-1] + [9], 5, 9), (FIVES[1:] + [HALF], 6, HALF), (FIVES[1:] + [HALF], HALF - 1, HALF),
         ([1 - HALF] + FIVES[:-1], 5, 1 - HALF), ([1 - HALF] + FIVES[1:], 2 - HALF, 1 - HALF),
         ([-6] + FIVES, 6, (-6, 6)), (FIVES + [6], -6, (-6, 6)), ([1 - HALF] + FIVES, HALF, HALF), (FIVES + [HALF], 1 - HALF, HALF),
         (FIVES + [6], 1 - HALF, 1 - HALF), ([-7] + FIVES, 6, -7), (FIVES + [7], -6, 7), ([1 - HALF] + FIVES, HALF - 1, (1 - HALF, HALF - 1)),
         ([1 - HALF, -6] + FIVES + [6, 7], HALF - 1, (1 - HALF, HALF - 1)), ([-7, -6] + FIVES + [6], 7, (-7, 7)),
         ([-1, 1, 2, 3, 4, 5, 6, 7, 8, 9], HALF, HALF), ([1 - HALF, 1, 2, 3, 4, 5, 6, 7, 8, 9], 10, 10))


def ring_learning():
    yield "# the ring: own 1, held the last ten, 5 comes: the first of them is dropped"
    yield learn(slim(1), keys_cache(range(2 ** 256 - 10, 2 ** 256)), slim(5), "0 " + listed([5] + list(range(2 ** 256 - 9, 2 ** 256))))
    yield "# wherever our own key lies: the farthest in no list goes, of two the lower number, and the cache keeps plain order"
    for own in ENDS:
        for held, new, gone in DROPS:
            if isinstance(gone, tuple):
                gone = min(gone, key=lambda n: (own + n) % 2 ** 256)
            left = [n for n in list(held) + [new] if n != gone]
            yield learn(slim(own), keys_cache(around(own, held), len(held)), slim((own + new) % 2 ** 256), "0 " + listed(around(own, left)))
    yield "# room left: a new key joins in plain order, across the end too"
    yield learn(slim(0), keys_cache([1, TOP]), slim(TOP - 1), "0 " + listed([1, TOP - 1, TOP]))
    yield learn(slim(TOP), keys_cache([1, TOP - 1]), slim(0), "0 " + listed([0, 1, TOP - 1]))
    yield learn(slim(HALF), keys_cache([1, TOP]), slim(0), "0 " + listed([0, 1, TOP]))


# 02: "the shorter way round; at equal distance take the key reached by going down from the target". W4.2: "'the smaller key' stands nowhere".
def ring_near():
    yield "# the ring: target 0, own 7, held 1 and the last: the last; and one nearer on either side of the end"
    yield closest(slim(7), keys_cache([1, TOP]), key(0), TOP)
    yield closest(slim(7), keys_cache([1, TOP - 1]), key(0), 1)
    yield closest(slim(7), keys_cache([2, TOP]), key(0), TOP)
    yield closest(slim(7), keys_cache([1, TOP - 2]), key(TOP), TOP - 2)
    yield closest(slim(7), keys_cache([1, TOP - 3]), key(TOP), 1)
    yield "# our own key in a tie across the end, below the target and above it"
    yield closest(slim(TOP), keys_cache([1]), key(0), TOP)
    yield closest(slim(1), keys_cache([TOP]), key(0), TOP)
    yield closest(slim(2), keys_cache([TOP - 1]), key(0), TOP - 1)
    yield closest(slim(0), keys_cache([TOP - 1]), key(TOP), TOP - 1)
    yield closest(slim(TOP - 1), keys_cache([0]), key(TOP), TOP - 1)
    yield "# wherever the target lies: ties go down, just opposite comes last, and ties next to the opposite point"
    for target in ENDS:
        def at(steps):
            return (target + steps) % 2 ** 256

        opposite = slim(at(HALF))
        for steps in (1, 2 ** 32, 2 ** 64, 2 ** 128, HALF - 1):
            yield closest(opposite, keys_cache([at(steps), at(-steps)]), key(target), at(-steps))
            yield closest(slim(at(-steps)), keys_cache([at(steps)]), key(target), at(-steps))
            yield closest(slim(at(steps)), keys_cache([at(-steps)]), key(target), at(-steps))
        for steps in (1, 2 ** 32, 2 ** 64, 2 ** 128, HALF - 2):
            yield closest(opposite, keys_cache([at(steps), at(-steps - 1)]), key(target), at(steps))
        yield closest(opposite, keys_cache([at(HALF - 1)]), key(target), at(HALF - 1))
        yield closest(opposite, keys_cache([at(HALF + 1)]), key(target), at(HALF + 1))
        yield closest(slim(at(5)), keys_cache([at(HALF)]), key(target), at(5))
        yield closest(slim(at(9)), keys_cache(around(target, [-7, -4, -3, 3, 4, 8])), key(target), at(-3))
        yield closest(slim(at(9)), keys_cache(around(target, [-7, -4, 3, 4, 8])), key(target), at(3))
        yield closest(slim(at(-4)), keys_cache(around(target, [-7, 4, 8])), key(target), at(-4))
        yield closest(slim(at(4)), keys_cache(around(target, [-7, -4, 8])), key(target), at(-4))


# 02, request 3: "Find a key by halving." Keys end in 80 hexadecimal, so that each other last byte is in a gap.
def halving():
    yield "# every key held and every gap, in a full cache of 256: keys all over the ring; keys that share 30 bytes, with ties between them"
    yield searches(slim(7), keys_cache([(2 * i + 1) * 2 ** 247 + 0x80 for i in range(256)], 256))
    yield searches(slim(2 ** 200 + 0x6440), keys_cache([2 ** 200 + 0x100 * i + 0x80 for i in range(256)], 256))
    yield "# one, two, three, one less than there is room for, as many"
    for n in (1, 2, 3, 9, 10):
        yield searches(slim(7), keys_cache([i * 2 ** 240 + 0x80 for i in range(n)]))


# 02, request 8: how many keys are compared. Of so many keys, 10 20 30 .., for each of them, and for each gap from below the first to above the last,
# worked out by hand from "the one at n/2 rounded down, from 0".
COMPARED = {1: ("1", "11"), 2: ("21", "221"), 3: ("212", "2222"), 4: ("3212", "33222"), 5: ("32132", "332332"), 6: ("323132", "3333332"),
            7: ("3231323", "33333333"), 8: ("43231323", "443333333"), 9: ("432314323", "4433344333"), 10: ("4324314323", "44344344333")}


def comparing():
    yield "# how many keys are compared: none of none, and of one to ten each held key and each gap; our own key is one that is not held"
    for n in (0, 7, TOP):
        yield search(slim(7), bytes(1000), key(n), "0 0 0")
    for n, (held, gaps) in COMPARED.items():
        keys = keys_cache([10 * (i + 1) for i in range(n)])
        for i in range(n):
            yield search(slim(7), keys, key(10 * (i + 1)), "0 %d %s" % (i + 1, held[i]))
        for i in range(n + 1):
            yield search(slim(7), keys, key(10 * i + 5), "0 0 " + gaps[i])
        yield search(slim(7), keys, key(7), "0 0 " + gaps[0])
    yield "# keys 10 20 30 40 50, with the closest record: the same count, whatever is on the path, and whichever record is shown"
    five = keys_cache([10, 20, 30, 40, 50])
    two_of = cache([slim(10), put(slim(20), 33, b"\x89"), slim(30), put(slim(40), 33, b"\x89"), slim(50)])
    for n, steps, shown, left in ((30, 1, 30, 30), (20, 2, 20, 10), (50, 2, 50, 50), (10, 3, 10, 10), (40, 3, 40, 30), (5, 3, 7, 7), (25, 2, 20, 30),
                                  (35, 3, 30, 30), (45, 3, 40, 50), (55, 2, 50, 50)):
        yield closest(slim(7), five, key(n), shown, steps=steps)
        yield closest(slim(7), five, key(n), 7, point(5000, ANY), steps=steps)
        yield closest(slim(7), two_of, key(n), left, point(5001, ANY), steps=steps)
    yield closest(slim(7), bytes(1000), key(9), 7, steps=0)
    yield closest(slim(7), bytes(1000), key(9), 7, point(5000, ANY), steps=0)
    yield "# as many as there may be, and one less: the digits of 255 are 8, those of 256 are 9"
    for n, low, high in ((15, 4, 4), (16, 5, 4), (255, 8, 8), (256, 9, 8)):
        keys = [(i + 1) * 2 ** 246 for i in range(n)]
        for place, steps in ((0, low), (n // 2, 1), (n - 1, high)):
            yield search(slim(7), keys_cache(keys, max(n, 10)), key(keys[place]), "0 %d %d" % (place + 1, steps))
        yield search(slim(7), keys_cache(keys, max(n, 10)), key(7), "0 0 %d" % low)
        yield search(slim(7), keys_cache(keys, max(n, 10)), key(TOP), "0 0 %d" % high)
    yield "# keys that differ in their first byte, in their last, at a word's end: less, same and more by the whole key"
    for bits in (0, 63, 64, 127, 128, 191, 192, 248, 255):
        low, high = 2 ** 200, 2 ** 200 ^ 2 ** bits
        three = sorted([low, high])
        for i, k in enumerate(three):
            yield search(slim(7), keys_cache(three), key(k), "0 %d %d" % (i + 1, 2 - i))
            yield search(slim(7), keys_cache([three[1 - i]]), key(k), "0 0 1")
    yield "# refused: own record, cache, a key that has not 32 bytes"
    for bad in (bytes(900), cache([70, 60]), cache([100]), cache([record(60, 2)]), b"", put(cache([60]), 999, b"\1")):
        yield search(OWN, bad, key(60), "1")
    for bad in (b"", key(60)[:31], key(60) + b"\0"):
        yield search(OWN, cache([60]), bad, "1")
    for bad in (b"", OWN[:99], OWN + b"\0", put(OWN, 34, b"\0"), put(OWN, 34, b"\5"), put(OWN, 35, b"\1"), record(100, 2)):
        yield search(bad, cache([60]), key(60), "1")


# 02, request 2, with request 3: from the target's place outwards, past what is on the path. Every slim record has one endpoint: port 5000, zeros.
def outwards():
    path = point(5000, ANY)
    yield "# all held on the path but one, in caches of 10 and of 256: that one, wherever it stands and whatever the target; or all: our own"
    for c in (10, 256):
        keys = [(2 * i + 1) * (HALF // c) for i in range(c)]
        for left in (0, 1, c // 2, c - 2, c - 1):
            held = cache([slim(n) if i != left else put(slim(n), 33, b"\x89") for i, n in enumerate(keys)], c)
            own = (keys[left] + HALF + 1) % 2 ** 256  # just opposite stands a record; the next is farther from all of these targets
            for steps in (0, HALF // 2, 2 - HALF // 2, 1, -1)[:5 if c == 10 else 3]:
                yield closest(slim(own), held, key((keys[left] + steps) % 2 ** 256), keys[left], path)
    keys = [(2 * i + 1) * (HALF // 256) for i in range(256)]
    yield closest(slim(0), keys_cache(keys, 256), key(keys[100]), 0, path)
    yield closest(slim(0), keys_cache(keys, 256), key(keys[100]), keys[100], point(5001, ANY))
    yield "# the target between the last key and the first, round the end: the next ones on either side are on the path, or one of them is"
    ends = [at(1, 1, A), at(5, 5, A), at(TOP - 4, 14, A), at(TOP - 1, 11, A)]
    for target in (0, TOP):
        for gone, want in (([], 1 if target == 0 else TOP - 1), ([1], TOP - 1), ([11], 1), ([1, 11], TOP - 4), ([1, 11, 5], TOP - 4),
                           ([1, 11, 14], 5), ([1, 5, 11, 14], HALF), ([1, 5], TOP - 1), ([11, 14], 1)):
            yield closest(record(HALF), cache(ends), key(target), want, b"".join(point(n, A) for n in gone))
    yield "# below all, above all, on a key that is skipped; with every number of records up to ten, all but the farthest skipped"
    for n in range(1, 11):
        keys = [1000 + 10 * i for i in range(n)]
        low, high = put(slim(keys[0]), 33, b"\x89"), put(slim(keys[-1]), 33, b"\x89")
        for target in (0, keys[0], keys[-1], keys[-1] + 5):
            yield closest(slim(HALF), cache([slim(k) for k in keys[:-1]] + [high]), key(target), keys[-1], path)
            yield closest(slim(HALF), cache([low] + [slim(k) for k in keys[1:]]), key(target), keys[0], path)


# 02, request 11: "In the lower valley the own record becomes one to four, keys strictly increasing; C is at least ten times their number; no cache
# key or inquiry is an own key. Each has a neighbour list, asked for by its key (12 if not ours)."
TWO = ours(100, 200)
TWENTY = [95, 96, 97, 98, 99, 101, 102, 103, 104, 105, 195, 196, 197, 198, 199, 201, 202, 203, 204, 205]


def ponds():
    four = ours(100, 200, 300, TOP)
    yield "# several own records: C at least ten times their number; none of their keys in the cache"
    for own, n in ((TWO, 2), (ours(0, 1, TOP), 3), (four, 4)):
        for c in (10 * n - 1, 10 * n, 10 * n + 1, 256, 257):
            yield cache_form(own, cache([60, 70], c), "2" if 10 * n <= c <= 256 else "bad")
        for k in map(model.key_of, model.own_records(own)):
            yield cache_form(own, keys_cache({60, k}, 40), "bad")
            yield cache_form(own, keys_cache({60, 400, (k + 50) % 2 ** 256}, 40), "3")
    yield cache_form(TWO, keys_cache([99, 101, 199, 201], 20), "4")
    yield cache_form(TWO, keys_cache(range(101, 121), 20), "20")
    yield cache_form(TWO, keys_cache([100, 101, 199], 20), "bad")
    yield cache_form(TWO, keys_cache(range(181, 201), 20), "bad")
    yield "# none of their keys inquired about; a flood may have any"
    for k, want in ((100, "bad"), (200, "bad"), (150, "1")):
        yield waiting_form(TWO, table([inquiry(1, k)]), want)
        yield waiting_form(TWO, table([flood(1, 100), inquiry(2, k), flood(3, 200)]), "3" if want == "1" else want)
    for k, want in ((100, "bad"), (200, "bad"), (300, "bad"), (TOP, "bad"), (0, "1"), (TOP - 1, "1")):
        yield waiting_form(four, table([inquiry(1, k)]), want)
    yield tick(TWO, table([flood(3, 100), inquiry(4, 150), flood(5, 200, 0)]), 3, "0:3,4 0:3,4 0:- 0")
    yield from ponds_learning()
    yield from ponds_lists()
    yield from ponds_near()
    yield from ponds_refused()


# Own keys, keys held, the key learned and the one dropped, of C as many as are held.
def drop(own, held, new, gone):
    held, gone = [n % 2 ** 256 for n in held], gone % 2 ** 256
    left = sorted(n for n in held + [new] if n != gone)
    return learn(ours(*own), keys_cache(held, len(held)), slim(new), "0 " + listed(left))


def ponds_learning():
    yield "# own 100 and 200, C 20, both lists full: 150 is dropped, and whatever else comes that is in neither"
    for new in (150, 94, 206, 0, 106, 194, TOP, HALF):
        yield drop((100, 200), TWENTY, new, new)
    yield "# a newcomer that is in a list takes its last out, which is dropped where it is in no other"
    between = [n for n in TWENTY if n not in (105, 195)]
    yield drop((100, 200), [106] + [n for n in TWENTY if n != 105], 105, 106)
    yield drop((100, 200), [194] + [n for n in TWENTY if n != 195], 195, 194)
    yield drop((100, 200), [94] + TWENTY[1:], 95, 94)
    yield drop((100, 200), TWENTY[:-1] + [206], 205, 206)
    for new, gone in ((195, 190), (105, 110), (150, 150)):
        yield drop((100, 200), between + [110, 190], new, gone)
    for new in (105, 195, 152):
        yield drop((100, 200), between + [150, 151], new, 150 if new == 105 else 151)
    yield "# the farthest from the first goes, though it is near to the second; one in the second's list stays, however far from the first"
    near_both = [n for i in (100, 1000) for n in range(i - 5, i + 6) if n != i]
    yield drop((100, 1000), near_both + [120, 121], 1006, 1006)
    yield drop((100, 1000), near_both + [120, 121], 122, 122)
    yield drop((100, 1000), near_both + [120, 994], 121, 994)
    yield drop((100, 1000), list(range(90, 100)) + list(range(101, 106)) + list(range(995, 1000)), 100000, 90)
    yield drop((100, 100 + HALF), list(range(90, 100)) + list(range(101, 111)), 100 + HALF // 2, 106)
    yield "# equally far from the first: the lower number; where that is in the second's list, the other"
    yield drop((100, 1000), near_both + list(range(88, 95)) + list(range(106, 112)), 112, 88)
    yield drop((100, 1000), near_both + list(range(89, 95)) + list(range(106, 113)), 88, 88)
    yield drop((100, 100 + HALF), list(range(88, 100)) + list(range(101, 112)) + [HALF + n for n in range(95, 100)], 112, 112)
    yield drop((0, 1000), [n for n in range(-9, 9) if n] + list(range(995, 1000)) + list(range(1001, 1006)), 9, 9)
    yield drop((TOP - 1000, TOP), [TOP - 1000 + n for n in range(-9, 9) if n] + list(range(TOP - 5, TOP)) + [0, 1, 2, 3, 4], TOP - 991, TOP - 1009)
    yield "# own keys on either side of 0, and just opposite"
    yield drop((2, TOP - 1), [-12, -11, -10, -9, -8, -7, -6, -5, -4, -3, -1, 0, 1, 3, 4, 5, 6, 7, 8, 9], 10, -12)
    yield drop((0, HALF), [n for n in range(-7, 8) if n] + [HALF + n for n in (-3, -2, -1, 1, 2, 3)], HALF - 4, 6)
    yield drop((1, HALF + 1), list(range(-9, 1)) + list(range(2, 7)) + [HALF + n for n in (-2, -1, 0, 2, 3)], HALF + 4, -7)
    yield "# four of them, C 40: each list full, and one more; beside each other, with one list for all"
    forty = sorted(1000 * i + n for i in (1, 2, 3, 4) for n in FIVES)
    for new in (0, 500, 1500, 2500, 3500, 4500, 1006, 3994):
        yield drop((1000, 2000, 3000, 4000), forty, new, new)
    yield drop((1000, 2000, 3000, 4000), [n for n in forty if n != 2003] + [2010], 2003, 2010)
    yield drop((100, 101, 102, 103), list(range(80, 100)) + list(range(104, 124)), 124, 124)
    yield drop((100, 101, 102, 103), list(range(81, 100)) + list(range(104, 125)), 80, 124)
    yield "# room left, a held key, a removal: as with one"
    yield learn(TWO, keys_cache(TWENTY[:-1], 20), slim(150), "0 " + listed(sorted(TWENTY[:-1] + [150])))
    yield learn(TWO, keys_cache(TWENTY, 20), record(197), "0 " + listed(TWENTY))
    yield remove(TWO, keys_cache(TWENTY, 20), key(195), "0 " + listed(n for n in TWENTY if n != 195))
    yield remove(TWO, keys_cache(TWENTY, 20), key(200), "0 " + listed(TWENTY))


def ponds_lists():
    yield "# a list for each own key; of a key that is not ours: 12"
    held = keys_cache(TWENTY, 20)
    yield neighbours(TWO, held, "0 5 5 63,62,61,60,5f,65,66,67,68,69", key(100))
    yield neighbours(TWO, held, "0 5 5 c7,c6,c5,c4,c3,c9,ca,cb,cc,cd", key(200))
    for k in (150, 99, 0, 2 ** 255 + 100, 2 ** 32 + 200, TOP):
        yield neighbours(TWO, held, "12", key(k))
    yield "# one key in the lists of two; own keys themselves are in none; own keys beside each other, and just opposite"
    yield neighbours(TWO, keys_cache([150], 20), "0 0 1 96", key(100))
    yield neighbours(TWO, keys_cache([150], 20), "0 1 0 96", key(200))
    for k, want in ((100, "0 1 1 63,67"), (101, "0 1 1 63,67"), (102, "0 1 1 63,67")):
        yield neighbours(ours(100, 101, 102), keys_cache([99, 103], 30), want, key(k))
    for k, below, above in ((0, [TOP], [1, HALF]), (HALF - 1, [1], [HALF, TOP]), (TOP - 1, [HALF], [TOP, 1])):
        yield neighbours(ours(0, HALF - 1, TOP - 1), keys_cache([1, HALF, TOP], 30), "0 1 2 " + listed(below + above), key(k))
    yield neighbours(ours(0, HALF), keys_cache([], 20), "0 0 0 -", key(HALF))
    yield "# 1 before 12: a key of another length, a cache of 19, own records out of order"
    for k in (b"", key(100)[:31], key(100) + b"\0"):
        yield neighbours(TWO, held, "1", k)
    yield neighbours(TWO, keys_cache(TWENTY[:19], 19), "1", key(150))
    yield neighbours(ours(200, 100), held, "1", key(150))


def ponds_near():
    yield "# every own record is a candidate, and none is passed over"
    for own, held, target, want in ((TWO, [], 0, 100), (TWO, [], 150, 100), (TWO, [], 151, 200), (TWO, [], 200, 200), (TWO, [], HALF + 149, 200),
                                    (TWO, [], HALF + 150, 200), (TWO, [], HALF + 151, 100), (TWO, [160], 170, 160), (TWO, [160], 180, 160),
                                    (TWO, [160], 181, 200), (TWO, [199, 201], 200, 200), (TWO, [140], 171, 200), (TWO, [140], 170, 140),
                                    (ours(0, HALF, TOP), [], HALF - 1, HALF), (ours(0, HALF, TOP), [5], TOP - 1, TOP), (ours(1, TOP), [], 0, TOP),
                                    (ours(98, 102), [96, 104], 100, 98), (ours(96, 104), [98, 102], 100, 98), (ours(96, 102), [104], 100, 102)):
        yield closest(own, keys_cache(held, 40), key(target), want)
    path = point(5000, ANY)
    yield closest(TWO, keys_cache([150, 199], 20), key(199), 200, path)
    yield closest(TWO, keys_cache([150, 101], 20), key(149), 100, path)
    yield closest(at(100, 5000, ANY) + at(200, 5000, ANY), keys_cache([150, 199], 20), key(199), 200, path)


def ponds_refused():
    yield "# own records out of form: none, not whole, five, keys equal or falling, one of them out of form"
    good, held = ours(100, 200, 300), keys_cache([60], 60)
    for own in (b"", good[:99], good[:101], good[:199], good + b"\0", ours(1, 2, 3, 4, 5), ours(100, 100), ours(200, 100), ours(100, 300, 200),
                ours(200, 100, 300), ours(100, 200, 200), put(good, 34, b"\0"), put(good, 134, b"\0"), put(good, 234, b"\2"), put(good, 135, b"\1"),
                put(good, 152, b"\1"), put(good, 299, b"\1"), good[:100] + bytes(100), bytes(200)):
        yield learn(own, held, slim(7), "1")
        yield remove(own, held, key(60), "1")
        yield neighbours(own, held, "1", key(100))
        yield closest(own, held, key(7), "1")
        yield search(own, held, key(60), "1")
    yield "# and one to four in form, of which the first may be 0 and the last the greatest"
    for own in (ours(0), ours(0, TOP), ours(0, 1, 2), ours(0, 1, HALF, TOP)):
        yield learn(own, held, slim(7), "0 7,3c")
        yield search(own, held, key(60), "0 1 1")
        yield search(own, held, own[-100:-68], "0 0 1")


def ticks():
    yield "# the tick: case 12, a place with two tries: listed, listed, freed"
    yield tick(OWN, table([flood(3, 7)]), 3, "0:3 0:3 0:- 0")
    yield tick(OWN, table([inquiry(3, 7)]), 3, "0:3 0:3 0:- 0")
    for rounds, want in ((1, "0:3 1"), (2, "0:3 0:3 1"), (4, "0:3 0:3 0:- 0:- 0")):
        yield tick(OWN, table([flood(3, 7)]), rounds, want)
    yield "# fewer tries, none, an empty table"
    yield tick(OWN, table([flood(3, 7, 1)]), 2, "0:3 0:- 0")
    yield tick(OWN, table([inquiry(3, 7, 0)]), 1, "0:- 0")
    yield tick(OWN, bytes(2240), 2, "0:- 0:- 0")
    yield "# places with other tries among them: those left close up and keep their order"
    mixed = [flood(0, 7, 0), inquiry(1, 8, 2), flood(2, 9, 1), inquiry(256, 9, 0), flood(257, 100, 2), inquiry(2 ** 32 - 1, 6, 1)]
    for rounds, want in ((1, "0:1,2,257,4294967295 4"), (2, "0:1,2,257,4294967295 0:1,257 2"), (3, "0:1,2,257,4294967295 0:1,257 0:- 0")):
        yield tick(OWN, table(mixed), rounds, want)
    yield tick(OWN, table([flood(1, 7, 0), flood(2, 7, 2)]), 3, "0:2 0:2 0:- 0")
    yield tick(OWN, table([flood(1, 7, 2), flood(2, 7, 0)]), 3, "0:1 0:1 0:- 0")
    yield "# all sixteen"
    all_ids = ",".join(str(1000 * i) for i in range(16))
    yield tick(OWN, table([flood(1000 * i, i) for i in range(16)]), 3, "0:%s 0:%s 0:- 0" % (all_ids, all_ids))
    yield tick(OWN, table([inquiry(i, 500 + i, i % 3) for i in range(1, 17)]), 2, "0:1,2,4,5,7,8,10,11,13,14,16 0:2,5,8,11,14 5")
    yield tick(OWN, table([flood(i, 7, 0) for i in range(16)]), 1, "0:- 0")


def vectors():
    """Headings as strings, vectors as (operands, answer)."""
    for part in (cache_forms, waiting_forms, learning, removing, lists, near, on_the_path, ring_lists, ring_learning, ring_near, ponds, halving,
                 comparing, outwards, ticks):
        yield from part()


def check():
    assert record(100, 1, 5000)[:36] == key(100) + b"\x13\x88\x01\x00"  # docs/MEMORY.md, the record shown there
    assert inquiry(8, 7)[:8] == bytes.fromhex("0800000002020000")  # docs/MEMORY.md, the waiting table
    assert all(model.record_form(record(n)) and model.old_record_form(record(n)) for n in (0, 7, TOP))
    assert all(model.old_record_form(record(7, n)) and not model.record_form(record(7, n)) and kept(record(7, n)) == record(7) for n in (2, 3, 4))
    assert model.waiting_of(model.waits(OWN, table([flood(1, 7), inquiry(2, 8)]))) == table([flood(1, 7), inquiry(2, 8)])
    assert model.cache_of(model.held(OWN, cache([60, 70])), 1000) == cache([60, 70])
    # Learning is settled by its result: of the old keys and the new one at most C are left; what is missing has five keys or more before it on its
    # side of each own key, and of all such keys it is the farthest from the first, of two the lower. Sides by steps from an own key, from 1 - 2^255
    # to 2^255: above where they are positive, and the farther the greater without their sign.
    import random
    chance = random.Random(140)
    near_own, opposite = list(range(-20, 21)), list(range(HALF - 20, HALF + 21))

    def steps(start, k):
        return (k - start + HALF - 1) % 2 ** 256 - (HALF - 1)

    def before(start, k, keys):
        return [x for x in keys if (steps(start, x) > 0) == (steps(start, k) > 0) and abs(steps(start, x)) < abs(steps(start, k))]

    for turn in range(4000):
        n, start = 1 if turn % 2 else chance.randint(2, 4), chance.choice([chance.randrange(1, 40), HALF + chance.randrange(-20, 21),
                                                                           -chance.randrange(1, 20), chance.randrange(2 ** 256)])
        around_it = sorted({(start + n) % 2 ** 256 for n in chance.choice([near_own, opposite, near_own + opposite])})
        own, c = sorted(chance.sample(around_it, n)), 10 * n + chance.randint(0, 4)
        ring = [k for k in around_it if k not in own]
        keys = sorted(chance.sample(ring, min(len(ring) - 1, c if chance.random() < 0.6 else chance.randrange(c + 1))))
        new = chance.choice(ring)
        after = [model.key_of(r) for r in model.learned(ours(*own), [record(k) for k in keys], record(new), c)]
        all_keys = sorted(set(keys) | {new})
        gone = [k for k in all_keys if k not in after]
        assert after == [k for k in all_keys if k not in gone] and len(gone) == max(0, len(all_keys) - c)
        free = [k for k in all_keys if all(len(before(o, k, all_keys)) >= 5 for o in own)]
        for k in gone:
            assert k in free and all((abs(steps(own[0], x)), -x) <= (abs(steps(own[0], k)), -k) for x in free)
    assert list(vectors())  # each `want` is compared on the way


if __name__ == "__main__":
    check()
    lines = [v for v in vectors() if not isinstance(v, str)]
    names = ("cache-form", "waiting-form", "learn", "remove-key", "neighbours", "closest", "search", "searches", "ticks")
    print("vector_memory: %d vectors, %s" % (len(lines), ", ".join("%d %s" % (sum(v[0][0] == name for v in lines), name) for name in names)))
