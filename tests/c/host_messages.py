#!/usr/bin/env python3
"""The messages that include/gauge_host.h writes, held to those that the model writes of the same fields; packed readings, to document 02's request 7.

    host_messages.py FILE    FILE has what tests/c/host.c wrote
"""
import os
import struct
import sys

sys.path.insert(0, os.path.join(os.path.dirname(os.path.abspath(__file__)), "..", "models"))
sys.dont_write_bytecode = True
import model

MAJOR, MINOR = 6, 101
NO_KEY = bytes(32)


def wanted(what, identity, own, of):
    if what == "lookup":
        path = [own[32:34] + own[36:52]]  # our own endpoint: port and first address
        return model.write(model.message("lookup", MAJOR, MINOR, identity, target=of, validate=NO_KEY, path=path))
    if what == "lookup_along":  # with our own record where it has an address, and behind our own endpoint those that were asked
        path = [own[32:34] + own[36:52]] + model.path_of(of[32:])
        route = model.entry_of(own, MAJOR, MINOR) if own[34] else None
        return model.write(model.message("lookup", MAJOR, MINOR, identity, target=of[:32], validate=NO_KEY, route=route, path=path))
    told = {"route": model.entry_of(own, MAJOR, MINOR)} if what == "first_flood" else {"revoke": of}
    return model.write(model.message("flood", MAJOR, MINOR, identity, d=True, validate=NO_KEY, **told))


# "length (2, counting what follows), kind (2), depth (4) or fault (2), litres in (4), litres out (4)", little-endian
def packed(kind, measure, inflow, outflow):
    if kind not in (1, 2):
        return b""
    body = struct.pack("<HI" if kind == 1 else "<HH", kind, measure) + struct.pack("<II", inflow, outflow)
    return struct.pack("<H", len(body)) + body


def main():
    seen, wrong = 0, []
    for line in open(sys.argv[1], encoding="utf-8"):
        words = line.split()
        if words[0] == "message":
            what, identity, own, of, got = words[1], int(words[2]), *(bytes.fromhex(w.rstrip("-")) for w in words[3:])
            want = wanted(what, identity, own, of)
            if want != got or model.read(got, MAJOR)[0] != 0:
                wrong.append("%s: written %s, wanted %s" % (what, got.hex(), want.hex()))
            seen += 1
        elif words[0] == "reading":
            want = packed(*map(int, words[1:5]))
            if want.hex() + "-" != words[5]:
                wrong.append("reading: packed %s, wanted %s" % (words[5], want.hex()))
            seen += 1
    for text in wrong:
        print("host: " + text[:300])
    if wrong or seen != 4 + 4 + 20 + 8 + 3:
        sys.exit("host: %d messages and readings looked at, %d wrong" % (seen, len(wrong)))


if __name__ == "__main__":
    main()
