#!/usr/bin/env python3
"""What the program `ponds` must write of packed readings, from document 02's request 7 by Python's own numbers.

    ponds.py FILE [NAMES]   the whole text; NAMES has a line for each reading, in their order
    ponds.py --inputs DIR   writes inputs into DIR: NAME.readings, NAME.names where there are names, and NAME.wanted beside it
    ponds.py --write        writes crates/ponds/stdin and crates/ponds/stdout
    ponds.py --check        compares the two files with what is said here, and what is said here with cases worked by hand

A depth is read by `struct`, rounded by `decimal` and once more by `fractions`; nothing is shared with the crates.
"""
if not __debug__:
    raise SystemExit("ponds.py: run it without -O and PYTHONOPTIMIZE, which leave its asserts out")
import decimal
import fractions
import os
import random
import struct
import sys

import stored

# 02, request 7: "Refusals of this layer"; no room is a refusal of writing.
MEANING = {1: "of wrong length, or cut short", 2: "of an unknown kind", 3: "its depth is not from 0 to 20 metres"}

HEADING = "%7s  %-11s  %10s  %10s  %11s" % ("Reading", "Depth, m", "Litres in", "Litres out", "Balance")


# --- What a reading is -----------------------------------------------------------------------------------------------------

def binary32(bits):
    return struct.unpack("<f", struct.pack("<I", bits))[0]


# "Depth from 0 to 20 with both ends .. (negative zero allowed); anything else, not-a-number too, is refused."
def allowed(depth):
    return 0.0 <= depth <= 20.0


# Three decimals, the nearest, ties to even. A binary32 is a float of Python's exactly, and that a Decimal and a Fraction exactly.
def metres(depth):
    text = str(decimal.Decimal(abs(depth)).quantize(decimal.Decimal("0.001"), decimal.ROUND_HALF_EVEN))
    assert round(fractions.Fraction(depth) * 1000) == int(text.replace(".", "")), depth
    return text


def unpacked(packed):
    """Of a whole reading or of what there is of one: a number and nothing, or 0 and (measured, litres in, litres out)."""
    if len(packed) < 4 or len(packed) != 2 + struct.unpack_from("<H", packed)[0]:
        return 1, None
    kind, body = struct.unpack_from("<H", packed, 2)[0], packed[4:]
    form = {1: "<fII", 2: "<HII"}.get(kind)
    if form is None:
        return 2, None
    if len(body) != struct.calcsize(form):
        return 1, None
    measured, inflow, outflow = struct.unpack(form, body)
    if kind == 2:
        return 0, ("fault %d" % measured, inflow, outflow)
    return (0, ("%6s" % metres(measured), inflow, outflow)) if allowed(measured) else (3, None)


# Each reading is as long as its length says; one that the input cuts short is the last.
def cut_up(data):
    at = 0
    while at < len(data):
        end = at + 2 + struct.unpack_from("<H", data, at)[0] if at + 2 <= len(data) else len(data)
        yield data[at:end]
        at = end


# --- The text --------------------------------------------------------------------------------------------------------------

# "The balance is litres in minus litres out, signed: 3 in and 4 out is -1."
def signed(balance):
    return "%+d" % balance if balance else "0"


def marked(balance):
    return "  deficit" if balance < 0 else ""


# A name stands behind what its line has, all from one column on.
def named(text, name):
    return "%-66s  %s\n" % (text, name) if name else text + "\n"


def line(n, number, reading, unseen):
    if number:
        return "%7d  refused: %d %s" % (n, number, MEANING[number]) + ("; bytes not looked at: %d" % unseen if unseen else "")
    measured, inflow, outflow = reading
    balance = inflow - outflow
    return "%7d  %-11s  %10d  %10d  %11s%s" % (n, measured, inflow, outflow, signed(balance), marked(balance))


# Behind a length that is wrong nothing is looked at, up to where it leads.
def unseen_in(piece, number):
    return max(0, len(piece) - 2) if number == 1 else 0


def sums_text(found, unseen):
    numbers = [number for number, _ in found if number]
    flows = [reading[1:] for number, reading in found if not number]
    inflow, outflow = sum(f[0] for f in flows), sum(f[1] for f in flows)
    text = "\n" + "".join("%-20s%22d\n" % row for row in (("Readings", len(found)), ("Taken", len(flows)), ("Refused", len(numbers))))
    text += "".join("%42d  %d %s\n" % (numbers.count(n), n, MEANING[n]) for n in sorted(set(numbers)))
    text += "%-20s%22d\n" % ("Bytes not looked at", unseen) if unseen else ""
    text += "%-20s%22d\n%-20s%22d\n" % ("Litres in", inflow, "Litres out", outflow)
    text += "%-20s%22s%s\n" % ("Balance", signed(inflow - outflow), marked(inflow - outflow))
    return text + "%-20s%22d\n" % ("Readings in deficit", sum(1 for i, o in flows if i < o))


def shown(data, names=b""):
    pieces, known = list(cut_up(data)), names.decode().split("\n")
    found = [unpacked(piece) for piece in pieces]
    unseen = [unseen_in(piece, number) for piece, (number, _) in zip(pieces, found)]
    text = named(HEADING, "Pond" if names else "")
    for n, (number, reading) in enumerate(found, 1):
        text += named(line(n, number, reading, unseen[n - 1]), known[n - 1] if n <= len(known) else "")
    return text + sums_text(found, sum(unseen))


# --- Readings --------------------------------------------------------------------------------------------------------------

def packed(kind, body):
    return struct.pack("<HH", 2 + len(body), kind) + body


def depth(bits, inflow=3, outflow=4):
    return packed(1, struct.pack("<III", bits, inflow, outflow))


def fault(number, inflow=4, outflow=3):
    return packed(2, struct.pack("<HII", number, inflow, outflow))


def bits_of(number):
    return struct.unpack("<I", struct.pack("<f", number))[0]


MOST = 4294967295
LITRES = (0, 1, 2, 999, 2147483647, 2147483648, MOST - 1, MOST)
SIXTEENTHS = [bits_of(n / 16) for n in range(1, 320, 2)]  # the only depths that lie midway between two millimetres
NEAR = [bits_of(n / 10000) for n in (5, 15, 25, 35, 45, 99995, 199995, 199985)]
EDGES = [0, 1, 0x7FFFFF, 0x800000, bits_of(20.0), 0x80000000]
OUTSIDE = [bits_of(20.0) + 1, 0x80000001, 0x80800000, bits_of(-1.0), bits_of(-20.0), 0x7F7FFFFF, 0x7F800000, 0xFF800000, 0x7F800001, 0x7FC00000,
           0xFFC00000, 0xFFFFFFFF, 0x7FFFFFFF]


def around(patterns):
    return [bits + step for bits in patterns for step in (-1, 0, 1)]


def every_exponent():
    return [exponent << 23 | fraction for exponent in range(256) for fraction in (0, 1, 0x400000, 0x7FFFFF)]


def wrong():
    """Each refusal, and what just escapes it; a taken reading behind each shows that the program goes on."""
    whole = depth(bits_of(1.5))[4:]
    for bad in (b"\0\0", b"\1\0\1", packed(0, b""), packed(0, whole), packed(3, whole), packed(256, whole), packed(257, whole),
                packed(65535, b"x" * 65533), packed(1, b""), packed(1, whole[:-1]), packed(1, whole + b"\0"), packed(2, whole),
                packed(1, fault(7)[4:]), packed(2, fault(7)[4:-1]), packed(2, fault(7)[4:] + b"\0"), packed(1, b"\0" * 65533), packed(2,
                                                                                                                                      b"\0" * 65533)):
        yield bad + depth(bits_of(1.5))


def random_readings(rng):
    """A stream of readings of every kind, some damaged."""
    data = b""
    for _ in range(rng.randrange(1, 60)):
        inflow, outflow = (rng.choice(LITRES) if rng.random() < 0.5 else rng.randrange(MOST + 1) for _ in range(2))
        one = rng.choice((depth(bits_of(rng.uniform(0, 20)), inflow, outflow), depth(rng.randrange(1 << 32), inflow, outflow),
                          depth(rng.randrange(bits_of(20.0) + 2), inflow, outflow), fault(rng.randrange(65536), inflow, outflow)))
        if rng.random() < 0.2:
            at = rng.randrange(2, len(one)) if rng.random() < 0.8 else 0
            one = one[:at] + bytes([one[at] ^ 1 << rng.randrange(8)]) + one[at + 1:]
        data += one
    return data if rng.random() < 0.7 else data[:rng.randrange(len(data))]


# --- Inputs ----------------------------------------------------------------------------------------------------------------

# One of each situation, for crates/ponds/stdin.
def worked():
    data = depth(bits_of(1.25), 3, 4) + depth(bits_of(20.0), 4, 3) + depth(0x80000000, 7, 7) + fault(65535, MOST, 0) + fault(0, 0, MOST)
    data += depth(bits_of(0.0625)) + depth(bits_of(0.1875)) + depth(1) + b"".join(depth(bits) for bits in OUTSIDE[:1] + OUTSIDE[6:10])
    return data + packed(3, b"") + packed(1, b"") + b"\0\0" + fault(12, 1, 1) + depth(bits_of(12.0))[:-1]


def inputs():
    yield "empty", b""
    yield "edges", b"".join(depth(bits) for bits in EDGES + OUTSIDE)
    yield "ties", b"".join(depth(bits) for bits in around(SIXTEENTHS))
    yield "near_ties", b"".join(depth(bits) for bits in around(NEAR))
    yield "exponents", b"".join(depth(bits) for bits in every_exponent())
    yield "signs", b"".join(depth(bits | 1 << 31) for bits in every_exponent())
    yield "litres", b"".join(make(7, i, o) for make in (depth, fault) for i in LITRES for o in LITRES)
    yield "faults", b"".join(fault(n) for n in (0, 1, 9, 10, 255, 256, 32768, 65535))
    yield "most_in", fault(1, MOST, 0) * 20000
    yield "most_out", fault(1, 0, MOST) * 20000
    yield "even", fault(1, MOST, 1) + fault(1, 1, MOST)
    for n, data in enumerate(wrong()):
        yield "wrong_%02d" % n, data
    whole = depth(bits_of(1.5)) + fault(9)
    for end in range(len(whole) + 1):
        yield "cut_%02d" % end, whole[:end]
    yield "cut_long", packed(1, b"\0" * 65533)[:-1]
    rng = random.Random(7)
    yield "depths", b"".join(depth(rng.randrange(bits_of(20.0) + 1), rng.randrange(MOST + 1), rng.randrange(MOST + 1)) for _ in range(20000))
    for n in range(100):
        yield "random_%02d" % n, random_readings(rng)


# Fewer names than readings, as many, and more; empty ones, one with characters of two bytes, and a last line without an end.
def named_inputs():
    for name, names in (("one", b"Fonte Bassa"), ("all", b"Fonte Bassa\n\n%s\n" % "Pozza dell'Àlbero".encode() + b"n" * 40), ("ended", b"a\nb\n"),
                        ("empty", b"\n"), ("more", b"\n".join(b"Pond %d" % n for n in range(6000)))):
        yield "named_" + name, worked(), names


# --- Worked by hand --------------------------------------------------------------------------------------------------------

# 1/16 is 62.5 mm and 3/16 is 187.5 mm: to the even one. The binary32 next to 0.0005 and 0.0015 lie above them, that next to 0.0025 below.
BY_HAND = (
    (depth(bits_of(0.0625), 3, 4), "      1   0.062                3           4           -1  deficit\n"),
    (depth(bits_of(0.1875), 4, 3), "      1   0.188                4           3           +1\n"),
    (depth(0x41A00000, 0, 0), "      1  20.000                0           0            0\n"),
    (depth(0x80000000, MOST, 0), "      1   0.000       4294967295           0  +4294967295\n"),
    (depth(1, 0, MOST), "      1   0.000                0  4294967295  -4294967295  deficit\n"),
    (depth(bits_of(0.0005), 1, 1), "      1   0.001                1           1            0\n"),
    (depth(bits_of(0.0005) - 1, 1, 1), "      1   0.000                1           1            0\n"),
    (depth(bits_of(0.0015), 1, 1), "      1   0.002                1           1            0\n"),
    (depth(bits_of(0.0025), 1, 1), "      1   0.002                1           1            0\n"),
    (fault(65535, 1, 1), "      1  fault 65535           1           1            0\n"),
    (depth(0x41A00001), "      1  refused: 3 its depth is not from 0 to 20 metres\n"),
    (depth(0x7FC00000), "      1  refused: 3 its depth is not from 0 to 20 metres\n"),
    (packed(3, b""), "      1  refused: 2 of an unknown kind\n"),
    (b"\2", "      1  refused: 1 of wrong length, or cut short\n"),
    (b"\2\0", "      1  refused: 1 of wrong length, or cut short\n"),
    (depth(1)[:-1], "      1  refused: 1 of wrong length, or cut short; bytes not looked at: 13\n"),
    (b"\x1e" + depth(1)[1:] + fault(1), "      1  refused: 1 of wrong length, or cut short; bytes not looked at: 28\n"))


def faults():
    yield from stored.faults("ponds", files(), "ponds.py")
    for data, wanted in BY_HAND:
        if shown(data).split("\n")[1] + "\n" != wanted:
            yield "of %s it is said here %r, by hand %r" % (data.hex(), shown(data).split("\n")[1], wanted)


# --- Commands --------------------------------------------------------------------------------------------------------------

def files():
    return {"stdin": worked(), "stdout": shown(worked()).encode()}


def write_inputs(folder):
    for name, data, names in [(*pair, b"") for pair in inputs()] + list(named_inputs()):
        base = os.path.join(folder, name)
        open(base + ".readings", "wb").write(data)
        open(base + ".wanted", "w").write(shown(data, names))
        if names:
            open(base + ".names", "wb").write(names)


def main():
    words = sys.argv[1:]
    if words[:1] == ["--inputs"]:
        write_inputs(words[1])
    elif words == ["--write"]:
        stored.write("ponds", files())
    elif words == ["--check"]:
        found = list(faults())
        for fault_text in found:
            print("ponds: " + fault_text)
        sys.exit(1 if found else 0)
    else:
        sys.stdout.write(shown(*(open(path, "rb").read() for path in words[:2])))


if __name__ == "__main__":
    main()
