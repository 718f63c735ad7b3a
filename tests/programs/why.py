#!/usr/bin/env python3
"""What the program `why` must write, from document 02's request 5: all candidates are sorted by how far they are and in which direction.

    why.py --check          crates/why has the worked input that is made here and what must come of it; the request's cases are as worked by hand
    why.py --write          writes the two files
    why.py --inputs FOLDER  inputs of every kind as NAME.input, and what must come of each: NAME.wanted
    why.py --pairs FOLDER ENDING
                            the inputs there and the files with this ending beside them, as tests/programs/named.c reads them: FOLDER/pairs

An input is a record of kind 4 as a trace begins with, the cache's length (2 bytes, little-endian), the cache, and a datagram. That a datagram
reads, and memory is in form, is said by tests/models/model.py.
"""
if not __debug__:
    raise SystemExit("why.py: run it without -O and PYTHONOPTIMIZE, which leave its asserts out")
import glob
import os
import random
import struct
import sys

import with_models
import model
import stored

ROUND = 2 ** 256
MAJOR, MINOR = 6, 101


# --- What must come of it ---------------------------------------------------------------------------------------------------

def distance(target, key):
    """The shorter way round, and 0 where it leads down from the target, else 1."""
    down, up = (target - key) % ROUND, (key - target) % ROUND
    return min(down, up), int(up < down)


def reason(target, ranked):
    """One reason for the first of the keys, the first that holds."""
    if len(ranked) == 1:
        return "only"
    if ranked[0] == target:
        return "target"
    tied = distance(target, ranked[0])[0] == distance(target, ranked[1])[0]
    return "%s %064x" % ("tied" if tied else "nearest", ranked[1])


def lines(own, cache, major, datagram):
    """Of the own record, a cache and a datagram."""
    held = model.held(own, cache) if model.record_form(own) else None
    if held is None:
        return "1\n"
    number, m = model.read(datagram, major)
    if number:
        return "%d\n" % number
    if m["type"] != "lookup":
        return "7\n"
    target = int.from_bytes(m["target"], "big")
    there = {int.from_bytes(r[:32], "big"): r for r in [own] + [r for r in held if r[32:34] + r[36:52] not in m["path"]]}
    ranked = sorted(there, key=lambda key: distance(target, key))
    r = there[ranked[0]]
    return "record %s %d %s\n%s\n" % (r[:32].hex(), struct.unpack(">H", r[32:34])[0], r[36:52].hex(), reason(target, ranked))


BODIES = {1: lambda n: n >= 53, 2: lambda n: n == 68, 3: lambda n: n == 0, 4: lambda n: n == 102}


def fault(first):
    """Document 02's request 1 of a first record: 16, 17, or 0 for a good one."""
    if len(first) < 4 or len(first) != 2 + struct.unpack("<H", first[:2])[0]:
        return 16
    kind = struct.unpack("<H", first[2:4])[0]
    if not BODIES.get(kind, lambda n: True)(len(first) - 4):
        return 16
    return 0 if kind == 4 else 17


def wanted(data):
    """The whole text."""
    if not data:  # as an empty trace
        return "17\n"
    size = 2 + struct.unpack("<H", data[:2].ljust(2, b"\0"))[0]
    first, rest = data[:size], data[size:]
    if fault(first):
        return "%d\n" % fault(first)
    size = 2 + struct.unpack("<H", rest[:2].ljust(2, b"\0"))[0]
    if len(rest) < max(2, size):
        return "16\n"
    return lines(first[6:], rest[2:size], first[4], rest[size:])


# --- Inputs -----------------------------------------------------------------------------------------------------------------

def record(key, port=5000, address=None):
    return (key % ROUND).to_bytes(32, "big") + struct.pack(">H", port) + b"\1\0" + (address or (key % 256).to_bytes(16, "big")) + bytes(48)


def cache_of(records, c=10):
    return b"".join(sorted(records)).ljust(100 * c, b"\0")


def lookup(target, path=(), **more):
    points = list(path) or [bytes(18)]
    return model.write(model.message("lookup", MAJOR, MINOR, 7, target=(target % ROUND).to_bytes(32, "big"), validate=bytes(32), path=points, **more))


def opening(own, kind=4):
    body = bytes([MAJOR, MINOR]) + own
    return struct.pack("<HH", 2 + len(body), kind) + body


def whole(own, cache, datagram):
    return opening(own) + struct.pack("<H", len(cache)) + cache + datagram


def keyed(own, held, target, **more):
    return whole(record(own), cache_of([record(k) for k in held]), lookup(target, **more))


# Request 5's cases worked by hand: own key, keys held, target; the key that is named, and the reason.
CASES = (
    (50, (), 7, 50, "only"),
    (50, (99,), 99, 99, "target"),
    (50, (99, 101), 100, 99, "tied %064x" % 101),
    (50, (90, 105), 100, 105, "nearest %064x" % 90),
    (5, (97, 110, 90), 100, 97, "nearest %064x" % 90),
    (50, (), 50, 50, "only"),
    (99, (101,), 100, 99, "tied %064x" % 101),
    (ROUND - 1, (1,), 0, ROUND - 1, "tied %064x" % 1),
    (1 << 255, (1,), 0, 1, "nearest %064x" % (1 << 255)),
    (7, (7 + (1 << 255),), 7 + (1 << 255), 7 + (1 << 255), "target"),
)


def cases():
    for n, (own, held, target, named, why) in enumerate(CASES):
        yield "case%d" % n, keyed(own, held, target), "record %064x 5000 %s\n%s\n" % (named, (named % 256).to_bytes(16, "big").hex(), why)


def drawn(rng):
    """Keys that lie close together round a target, so that ties are common; some records on the path; the own one too, which stays."""
    target = rng.choice((0, 1 << 255, ROUND - 1, rng.randrange(ROUND)))
    spread = rng.choice((3, 6, 20, 1 << 255))
    keys = list({(target + rng.randint(-spread, spread)) % ROUND for _ in range(rng.choice((1, 2, 3, 5, 11, 60)))})
    rng.shuffle(keys)
    records = [record(k, rng.choice((5000, 5001)), bytes(15) + bytes([rng.randrange(3)])) for k in keys]
    points = [r[32:34] + r[36:52] for r in rng.sample(records, min(len(records), rng.choice((0, 0, 1, 2))))]
    c = max(10, len(records) - 1) + rng.randrange(3)
    route = model.entry_of(records[-1], MAJOR, MINOR) if rng.randrange(2) else None
    return whole(records[0], cache_of(records[1:], c), lookup(target, points, route=route))


def bad():
    """Each number, and what stands beside it."""
    own, held = record(50), [record(k) for k in (99, 101)]
    cache, ask = cache_of(held), lookup(100)
    good = whole(own, cache, ask)
    yield "good", good
    yield "empty", b""
    for size in (1, 2, 3, 4, 105, 106, 107, 108, 1107):
        yield "cut%d" % size, good[:size]
    for size in range(1108, len(good)):
        yield "cut%d" % size, good[:size]
    yield "longer", good + b"\0"
    yield "long", good + bytes(70000)
    yield "first-long", struct.pack("<H", 105) + good[2:]
    yield "first-short", struct.pack("<H", 103) + good[2:]
    yield "kind-9", opening(own, 9) + good[106:]
    yield "kind-2", opening(own, 2) + good[106:]
    yield "tick", b"\2\0\3\0" + good[106:]
    yield "own-count", whole(own[:34] + b"\2" + own[35:], cache, ask)
    yield "own-count-cut", whole(own[:34] + b"\2" + own[35:], cache, ask[:-1])  # 1 before 6
    yield "own-count-kind", opening(own[:34] + b"\2" + own[35:], 9) + good[106:]  # 17 before 1
    yield "own-held", whole(held[0], cache, ask)
    yield "cache-order", whole(own, held[1] + held[0] + bytes(800), ask)
    yield "cache-part", whole(own, cache[:-1], ask)
    yield "cache-none", whole(own, b"", ask)
    yield "cache-nine", whole(own, cache[:900], ask)
    yield "cache-most", whole(own, cache_of(held, 256), ask)
    yield "cache-over", whole(own, cache_of(held, 257), ask)
    yield "datagram-none", whole(own, cache, b"")
    yield "datagram-long", whole(own, cache, ask + bytes(1233 - len(ask)))
    yield "identifier", whole(own, cache, b"\1" + ask[1:])
    yield "major", whole(own, cache, ask[:5] + bytes([MAJOR + 1]) + ask[6:])
    yield "type", whole(own, cache, ask[:7] + b"\5" + ask[8:])
    yield "ack", whole(own, cache, model.write(model.message("ack", MAJOR, MINOR, 7, acked=8)))
    yield "inquire", whole(own, cache, model.write(model.message("inquire", MAJOR, MINOR, 7, validate=bytes(32))))


def inputs():
    yield from ((name, data) for name, data, _ in cases())
    yield from bad()
    rng = random.Random(5)
    yield from (("random%d" % n, drawn(rng)) for n in range(400))


# --- Commands ---------------------------------------------------------------------------------------------------------------

def files():
    """The request's case of two that are next nearest, equally near."""
    data = next(data for name, data, _ in cases() if name == "case4")
    return {"stdin": data, "stdout": wanted(data).encode()}


def check():
    for name, data, text in cases():
        assert wanted(data) == text, (name, wanted(data), text)
    return "\n".join(stored.faults("why", files(), "why.py"))


def write_inputs(folder):
    said = []
    for name, data in inputs():
        text = wanted(data)
        said.append(text.split("\n")[-2].split(" ")[0])
        for ending, content in ((".input", data), (".wanted", text.encode())):
            with open(os.path.join(folder, name + ending), "wb") as file:
                file.write(content)
    for word in ("only", "target", "tied", "nearest"):
        assert said.count(word) > 20, (word, said.count(word))
    assert {"1", "2", "3", "4", "5", "6", "7", "16", "17"} <= set(said), sorted(set(said))


def write_pairs(folder, ending):
    """Each file behind its length, least significant byte first."""
    with open(os.path.join(folder, "pairs"), "wb") as pairs:
        for path in sorted(glob.glob(os.path.join(folder, "*.input"))):
            for name in (path, path[:-len("input")] + ending):
                with open(name, "rb") as file:
                    content = file.read()
                pairs.write(struct.pack("<I", len(content)) + content)


def main():
    words = sys.argv[1:]
    if words[:1] == ["--inputs"]:
        write_inputs(words[1])
    elif words[:1] == ["--pairs"]:
        write_pairs(*words[1:])
    elif words == ["--write"]:
        stored.write("why", files())
    elif words == ["--check"]:
        sys.exit(check() or 0)
    else:
        sys.exit(__doc__)


if __name__ == "__main__":
    main()
