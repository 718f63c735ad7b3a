#!/usr/bin/env python3
"""The readings on the hill (examples/hill.c) once more, from the rule in the comment there.

    hill_readings.py            the lines that the run must end with, but for the first, which counts them
    hill_readings.py --in FILE  the recorded night: each AUTHORITY in it must carry the reading of a pond, packed as document 02's request 7 has it
    hill_readings.py --file FILE NAMES   the readings that the hill leaves for bin/ponds: those of the ponds on it, in the order of their names
"""
import struct
import sys

import with_models
import model_night

EVER = range(1, 63)                             # the 61 ponds, and the new one
PONDS = [n for n in EVER if n not in (20, 33)]  # 20 was revoked and 33 replaced; 7 is silent, and still listed


def fault(n):
    return 700 + n if n % 10 == 5 else None


def litres(n):
    return 40 * n, 80 * n if n % 8 == 5 else 35 * n


def balance(n):
    return litres(n)[0] - litres(n)[1]


def lines():
    deepest = max(n for n in PONDS if fault(n) is None)
    return ["  no depth, but a fault:" + "".join(" pond %d (%d)" % (n, fault(n)) for n in PONDS if fault(n) is not None),
            "  deepest: pond %d, %d.%02d m" % (deepest, deepest // 4, deepest % 4 * 25),
            "  litres in minus litres out, where it is a deficit:" + "".join(" pond %d (%d)" % (n, balance(n)) for n in PONDS if balance(n) < 0),
            "  litres in minus litres out, all ponds together: %d" % sum(balance(n) for n in PONDS)]


# Length of what follows (2), kind (2), depth (4) or fault (2), litres in (4), litres out (4); the least significant byte first.
def packed(n):
    body = struct.pack("<Hf", 1, n / 4) if fault(n) is None else struct.pack("<HH", 2, fault(n))
    body += struct.pack("<II", *litres(n))
    return struct.pack("<H", len(body)) + body


# The payload of an AUTHORITY that has nothing but flags before it: number 005A and length stand at 36.
def payload(datagram):
    number, length = struct.unpack(">HH", datagram[36:40])
    return datagram[40:36 + length] if number == 0x5A else None


def carried(path):
    night, at, found, known = open(path, "rb").read(), 0, 0, {packed(n) for n in EVER}
    while at < len(night):
        kind, body, at = model_night.taken(night, at)
        datagram = body[53:]
        if kind == 1 and datagram[7] == 8:
            if payload(datagram) not in known:
                sys.exit("hill: an AUTHORITY carries no pond's reading: " + datagram.hex())
            found += 1
    if found == 0:
        sys.exit("hill: no AUTHORITY in the night")
    return found


def left_behind(path, names_path):
    if open(path, "rb").read() != b"".join(packed(n) for n in PONDS):
        sys.exit("hill: %s has other readings than those of the ponds on the hill, in their order" % path)
    names = [line.split(" ", 1) for line in open(names_path, encoding="utf-8").read().split("\n")[:-1]]
    if [name for _, name in names] != ["pond %d" % n for n in PONDS] or any(len(bytes.fromhex(key)) != 32 or int(key[:2], 16) != 4 * n
                                                                           for (key, _), n in zip(names, PONDS)):
        sys.exit("hill: %s has other names than those of the ponds on the hill, in their order" % names_path)
    return len(PONDS)


def main():
    if sys.argv[1:2] == ["--file"]:
        print("hill: %d readings in a file, with their names" % left_behind(*sys.argv[2:4]))
    elif sys.argv[1:2] == ["--in"]:
        print("hill: %d AUTHORITYs in the recorded night carry a pond's reading" % carried(sys.argv[2]))
    else:
        print("\n".join(lines()))


if __name__ == "__main__":
    main()
