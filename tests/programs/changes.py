#!/usr/bin/env python3
"""Two saved caches of a gauge, and what a keeper must be told of them by document 02, request 10: from the keys of both, sorted, and not by merging.

    changes.py --check          crates/overnight has the worked caches that are made here, and what is told of them
    changes.py --write          writes them there
    changes.py --inputs FOLDER  pairs of every kind as NAME.pair (a length of two bytes and the own records, the same of the first cache, the second),
                                and what must be told: NAME.wanted; names for all of them: names
"""
if not __debug__:
    raise SystemExit("changes.py: run it without -O and PYTHONOPTIMIZE, which leave its asserts out")
import os
import random
import sys

import with_models
import model
import stored

REFUSED = "refused: 1 the own records or a cache are not in form, or the caches differ in length\n"


# --- What must be told --------------------------------------------------------------------------------------------------------

def whose(key, names):
    return names.get(key) or "%s..%s" % (key[:4].hex(), key[28:].hex())


def address(record):
    return ":".join(record[at:at + 2].hex() for at in range(36, 52, 2))


def port(record):
    return str(int.from_bytes(record[32:34], "big"))


def parts(what, old, new):
    return "" if old == new else "; %s %s before, %s now" % (what, old, new)


def line(key, old, new, names):
    """Of a key that is in one of the two or in both; nothing where the record is the same."""
    if old == new:
        return ""
    if new is None:
        return "gone     %s\n" % whose(key, names)
    if old is None:
        return "new      %s; port %s; address %s\n" % (whose(key, names), port(new), address(new))
    return "changed  %s%s%s\n" % (whose(key, names), parts("port", port(old), port(new)), parts("address", address(old), address(new)))


def told(own, before, after, names={}):
    first, second = model.held(own, before), model.held(own, after)
    if first is None or second is None or len(before) != len(after):
        return REFUSED
    old, new = ({r[:32]: r for r in records} for records in (first, second))
    pairs = {key: (old.get(key), new.get(key)) for key in old.keys() | new.keys()}
    lines = "".join(line(key, *pairs[key], names) for key in sorted(pairs))
    kinds = [(o is None, n is None, o == n) for o, n in pairs.values()]
    sums = [("Held before", len(old)), ("Held after", len(new)), ("Gone", sum(n for _, n, _ in kinds)), ("New", sum(o for o, _, _ in kinds)),
            ("Changed", sum(not (o or n or e) for o, n, e in kinds)), ("Unchanged", sum(e for _, _, e in kinds))]
    return lines + ("\n" if lines else "") + "".join("%-16s%4d\n" % pair for pair in sums)


# --- Caches of every kind -----------------------------------------------------------------------------------------------------

def record(rng, key):
    return key + rng.randbytes(2) + bytes([1, 0]) + rng.randbytes(16) + bytes(48)


def overnight(rng, records, spare, share):
    """The records after a night: some gone, some with another port, address or both, and some of the spare keys new."""
    left = []
    for r in records:
        luck = rng.random()
        if luck < share:
            continue
        at, size = rng.choice([(32, 2), (36, 16), (32, 2)])
        left.append(r[:at] + rng.randbytes(size) + r[at + size:] if luck < 2 * share else r)
        if rng.random() < share / 2:
            left[-1] = record(rng, r[:32])
    return left + [record(rng, key) for key in spare if rng.random() < share]


def pair(rng, ours, places, held, share):
    keys = sorted({rng.choice([rng.randbytes(32), bytes(31) + rng.randbytes(1)]) for _ in range(2 * held + ours)})
    rng.shuffle(keys)
    own = b"".join(record(rng, key) for key in sorted(keys[:ours]))
    first = [record(rng, key) for key in keys[ours:ours + held]]
    second = overnight(rng, first, keys[ours + held:], share)[:places]
    return own, *(model.cache_of(sorted(records), 100 * places) for records in (first[:places], second))


def damaged(own, before, after):
    """One thing that is not in form in each."""
    yield "own-count", own[:34] + b"\2" + own[35:], before, after
    yield "own-none", b"", before, after
    yield "own-five", own * 5, before, after
    for name, cache, put in (("before", before, lambda c: (own, c, after)), ("after", after, lambda c: (own, before, c))):
        yield name + "-count", *put(cache[:34] + b"\2" + cache[35:])
        yield name + "-order", *put(cache[100:200] + cache[:100] + cache[200:])
        yield name + "-behind", *put(cache[:-1] + b"\1")
        yield name + "-own", *put(model.cache_of(sorted([own[:100], cache[:100]]), len(cache)))
        yield name + "-longer", *put(cache + bytes(100))
        yield name + "-shorter", *put(cache[:-100])
        yield name + "-part", *put(cache[:-1])
        yield name + "-none", *put(b"")
        yield name + "-longest", *put(bytes(25601))


def inputs():
    rng = random.Random(10)
    for ours, places, held, share in [(1, 10, 0, .5), (1, 10, 10, 0), (1, 10, 10, 1), (4, 40, 30, .3), (1, 256, 256, .2), (1, 256, 200, .9), (2, 256, 256, 0)]:
        yield "ours%d-c%d-held%d-share%d" % (ours, places, held, 10 * share), pair(rng, ours, places, held, share)
    own, before, after = pair(rng, 1, 12, 10, .3)
    yield "all-new", (own, bytes(1200), after)
    yield "all-gone", (own, before, bytes(1200))
    for n in range(25):
        ours = rng.randint(1, 4)
        places = rng.randint(10 * ours, 256)
        yield "random%d" % n, pair(rng, ours, places, rng.randint(0, places), rng.random())
    for name, *bad in damaged(*pair(rng, 1, 13, 10, .3)):
        yield name, tuple(bad)
    yield "four-ponds-too-few-places", pair(rng, 4, 39, 10, .3)


def worked():
    """Keys 1, 2, 3 against 2, 3, 4, the 3 with another port; the gauge has key 9."""
    def made(key, number):
        return bytes(31) + bytes([key]) + number.to_bytes(2, "big") + bytes([1, 0]) + bytes.fromhex("20010db8") + bytes(11) + bytes([key]) + bytes(48)
    return made(9, 4000), *(model.cache_of([made(*r) for r in rs], 1000)
                            for rs in ([(1, 4000), (2, 4000), (3, 4000)], [(2, 4000), (3, 4001), (4, 4000)]))


# --- Commands -----------------------------------------------------------------------------------------------------------------

def joined(own, before, after):
    return len(own).to_bytes(2, "little") + own + len(before).to_bytes(2, "little") + before + after


def files():
    three = worked()
    return {"stdin": joined(*three), "stdout": told(*three).encode()}


def write_inputs(folder):
    everything = list(inputs())
    keys = sorted({r[:32] for _, (_, before, after) in everything for cache in (before, after) for r in model.used_rows(cache, 100, len) or []})
    names = dict([(key, "Pond %d" % n) for n, key in enumerate(keys) if n % 3][:800])  # so many fit into what the program takes
    refused = 0
    for name, three in everything:
        wanted = told(*three, names)
        refused += wanted == REFUSED
        for ending, content in ((".pair", joined(*three)), (".wanted", wanted.encode())):
            with open(os.path.join(folder, name + ending), "wb") as file:
                file.write(content)
    with open(os.path.join(folder, "names"), "w", encoding="utf-8") as file:
        file.writelines("%s %s\n" % (key.hex(), name) for key, name in names.items())
    assert 15 < refused < len(everything) - 25, refused


def main():
    words = sys.argv[1:]
    if words[:1] == ["--inputs"]:
        write_inputs(words[1])
    elif words == ["--write"]:
        stored.write("overnight", files())
    elif words == ["--check"]:
        sys.exit("\n".join(stored.faults("overnight", files(), "changes.py")) or 0)
    else:
        sys.exit(__doc__)


if __name__ == "__main__":
    main()
