#!/usr/bin/env python3
"""Old and new memory of a gauge, what a conversion makes of it by tests/models/model.py, and the line that is said of it.

    convert.py --check          crates/conversion has the worked memory that is made here, and what becomes of it
    convert.py --write          writes it there
    convert.py --inputs FOLDER  memory of every kind as NAME.memory (own record, waiting table, cache), and what must come of it: NAME.wanted, the
                                converted bytes, none where it is refused; NAME.said, the line on descriptor 2
"""
if not __debug__:
    raise SystemExit("convert.py: run it without -O and PYTHONOPTIMIZE, which leave its asserts out")
import os
import random
import sys

import with_models
import model
import stored

REFUSED = "refused: 1 the own record, the waiting table or the cache is not in the old form\n"
ZERO = bytes(100)


# --- What must come of it ---------------------------------------------------------------------------------------------------

def rows(memory, width):
    return [memory[at:at + width] for at in range(0, len(memory), width)]


def converted(own, table, cache):
    """The three with one address in each record, as the model converts them, and our own cut in the same way; None where it refuses them."""
    gauge = model.Gauge(own, cache, table)
    return None if gauge.convert()[0] else (model.converted(own), gauge.waiting, gauge.cache)


def said(own, table, cache):
    def count(records):
        return "%d, with more than one address %d" % (len(records), sum(r[34] > 1 for r in records))
    held = [r for r in rows(cache, 100) if r[34]]
    asked = [p[40:] for p in rows(table, 140) if p[74]]
    return "records held %s; inquiries waiting %s; own record %s\n" % (count(held), count(asked), count([own]))


# --- Memory of every kind -----------------------------------------------------------------------------------------------------

def made_record(rng, key, most=4):
    count = rng.randint(1, most)
    return key + rng.randbytes(2) + bytes([count, 0]) + rng.randbytes(16 * count) + bytes(64 - 16 * count)


def made_place(rng, number, key, kind, most):
    return number.to_bytes(4, "little") + bytes([kind, rng.randint(0, 2), 0, 0]) + key + (made_record(rng, key, most) if kind == 2 else ZERO)


def made(rng, c, held, waits, most=4):
    """Own record, waiting table and cache in the old form, with at most so many addresses."""
    keys = sorted({rng.randbytes(32) for _ in range(held + waits + 1)})
    rng.shuffle(keys)
    own, keys = made_record(rng, keys[0], most), keys[1:]
    cache = b"".join(made_record(rng, key, most) for key in sorted(keys[:held])).ljust(100 * c, b"\0")
    numbers = sorted(rng.sample(range(1 << 32), waits))
    table = b"".join(made_place(rng, n, key, rng.randint(1, 2), most) for n, key in zip(numbers, keys[held:])).ljust(2240, b"\0")
    return own, table, cache


def changed(memory, at, value):
    return memory[:at] + bytes([value]) + memory[at + 1:]


def damaged(rng, own, table, cache):
    """One thing that is not in the old form in each."""
    yield "own-none", changed(own, 34, 0), table, cache
    yield "own-five", changed(own, 34, 5), table, cache
    yield "own-byte", changed(own, 35, 1), table, cache
    yield "held-five", own, table, changed(cache, 34, 5)
    yield "held-unused", own, table, changed(changed(cache, 34, 1), 99, 1)
    yield "held-own", own, table, own[:32] + cache[32:] if own[:32] < cache[100:132] else cache[:100] + own[:32] + cache[132:]
    yield "held-order", own, table, cache[100:200] + cache[:100] + cache[200:]
    yield "held-twice", own, table, cache[:100] * 2 + cache[200:]
    yield "held-gap", own, table, cache[:100] + ZERO + cache[100:-100]
    yield "held-behind", own, table, cache[:-1] + b"\1"
    yield "cache-short", own, table, cache[:900]
    yield "cache-part", own, table, cache[:-1]
    yield "waits-order", own, table[140:280] + table[:140] + table[280:], cache
    yield "waits-tries", own, changed(table, 5, 3), cache
    yield "waits-kind", own, changed(table, 4, 3), cache
    yield "waits-byte", own, changed(table, 7, 1), cache
    yield "waits-behind", own, table[:-1] + b"\1", cache


def edge(own, table, cache):
    """Short by a byte in each of the three, and one too many."""
    whole = own + table + cache
    return [("nothing", b""), ("part-of-own", whole[:99]), ("part-of-table", whole[:2339]), ("no-cache", whole[:2340]), ("all-but-one", whole[:-1]),
            ("one-more", whole + b"\0")]


def inputs():
    rng = random.Random(13)
    for c, held, waits, most in [(10, 0, 0, 4), (10, 10, 16, 4), (64, 40, 5, 4), (256, 256, 16, 4), (256, 255, 1, 1), (11, 3, 2, 2), (10, 4, 0, 3)]:
        three = made(rng, c, held, waits, most)
        yield "c%d-held%d-waits%d-most%d" % (c, held, waits, most), three
        yield "again-c%d-held%d-waits%d-most%d" % (c, held, waits, most), converted(*three)
    for n in range(40):
        yield "random%d" % n, made(rng, rng.randint(10, 256), rng.randint(0, 10), rng.randint(0, 16))
    for n in range(6):
        three = made(rng, 12, 5, 5)
        for name, *bad in damaged(rng, *three):
            yield "%s%d" % (name, n), tuple(bad)


def worked():
    """Three records held with one, three and four addresses; an inquiry with two and a flood wait."""
    rng = random.Random(1)
    while True:
        own, table, cache = made(rng, 10, 3, 2)
        if [cache[at] for at in (34, 134, 234)] == [1, 3, 4] and [table[at] for at in (4, 144)] == [2, 1] and table[74] == 2:
            return own, table, cache


# --- Commands -----------------------------------------------------------------------------------------------------------------

def split(data):
    return data[:100], data[100:2340], data[2340:]


def wanted(data):
    three = split(data)
    left = converted(*three) if len(data) >= 2340 else None
    return (b"", REFUSED) if left is None else (b"".join(left), said(*three))


def files():
    data = b"".join(worked())
    return {"stdin": data, "stdout": wanted(data)[0]}


def write_inputs(folder):
    everything = [(name, b"".join(three)) for name, three in inputs()] + edge(*made(random.Random(2), 10, 5, 5))
    accepted = 0
    for name, data in everything:
        left, line = wanted(data)
        accepted += bool(left)
        for ending, content in ((".memory", data), (".wanted", left), (".said", line.encode())):
            with open(os.path.join(folder, name + ending), "wb") as file:
                file.write(content)
    assert 40 < accepted < len(everything) - 40, accepted


def main():
    words = sys.argv[1:]
    if words[:1] == ["--inputs"]:
        write_inputs(words[1])
    elif words == ["--write"]:
        stored.write("conversion", files())
    elif words == ["--check"]:
        sys.exit("\n".join(stored.faults("conversion", files(), "convert.py")) or 0)
    else:
        sys.exit(__doc__)


if __name__ == "__main__":
    main()
