#!/usr/bin/env python3
"""The nights that the hill leaves (examples/hill.c), one for each gauge but that of ponds 13 and 44, held to what the comment there says of them.

    hill_nights.py FOLDER PROGRAM..    FOLDER has the nights, and PROGRAM makes one again that it gets on standard input

Row by row of the hours: the second is a tick later than at the tick before; a send goes to the address of the pond whose key is named; an AUTHORITY with a
good verdict came from the pond that its key is of, and a LOOKUP from the office or the new pond; the number is the one that the program gives. Of one
night both counts are those of the model too.
"""
import datetime
import os
import struct
import subprocess
import sys

import with_models
import model_night
import recorded

NEW, REPLACED = 62, 33  # pond 62 has the address of pond 33, ..
SHARED = 13             # .. and pond 44 that of pond 13, whose gauge stands for both, and is not recorded
NIGHTS = [n for n in range(1, 63) if n not in (SHARED, 44)]
BEGINS = int(datetime.datetime(2026, 11, 1, 22, tzinfo=datetime.timezone.utc).timestamp()) * 1000
BY_MODEL = 34           # the night whose counts are held to the model's
OFFICE, NOBODY = 0, bytes(18)
RECEIVE, SEND, TICK = 1, 2, 3
AUTHORITY, LOOKUP = 8, 11
GOOD = 1


def hold(what, got, want):
    if got != want:
        sys.exit("hill: %s is %r, and must be %r" % (what, got, want))


def endpoint(address):
    return struct.pack(">H", 5000) + b"\xfe\x80" + bytes(13) + bytes([address])


ENDPOINTS = [endpoint(n) for n in range(NEW)]  # by address
OF_LOOKUPS = (ENDPOINTS[OFFICE], ENDPOINTS[REPLACED])
OF_PONDS = frozenset(ENDPOINTS[1:])


def place(key):
    """The endpoint of the pond that a key is of."""
    pond = key[0] // 4
    return ENDPOINTS[{NEW: REPLACED, 44: SHARED}.get(pond, pond)]


def senders(body):
    """The endpoints that a datagram can have come from: those of all ponds, and less where its contents tell more."""
    verdict, key, kind = body[4], body[5:37], body[60]
    if kind == LOOKUP:
        return OF_LOOKUPS
    return (place(key),) if kind == AUTHORITY and verdict == GOOD else OF_PONDS


def others(kind, body):
    """The endpoints that a call's row can have."""
    if kind == RECEIVE:
        return senders(body)
    return (place(body[4:36]),) if kind == SEND else (NOBODY,)


def is_later(kind, before, now):
    """A tick begins the next second; all else is within the second, and no step back."""
    next_second = before - before % 1000 + 1000
    return now == next_second if kind == TICK else before <= now < next_second


def opened(name, pond, body, row):
    hour, there, *rest = row
    hold("whose night %s is" % name, (body[2] // 4, body[:2]), (pond, bytes([6, 101])))
    hold("the first row of " + name, (there, rest), (place(body[2:34]), [0, 0, 0, 0]))
    hold("whether %s begins with the hill, and when," % name, (hour == BEGINS, hour >= BEGINS), (pond != NEW, True))


def night(folder, pond, program):
    """How many calls it has."""
    name = os.path.join(folder, "pond-%d" % pond)
    trace, hours = open(name + ".trace", "rb").read(), open(name + ".hours", "rb").read()
    calls = list(model_night.records(trace))
    hold("how long the hours of %s are" % name, len(hours), 40 * len(calls))
    rows = list(struct.iter_unpack("<Q18sIIIH", hours))
    opened(name, pond, calls[0][1], rows[0])
    for i in range(1, len(calls)):
        hour, there, *_, zero = rows[i]
        if there not in others(*calls[i]) or not is_later(calls[i][0], rows[i - 1][0], hour) or zero:
            sys.exit("hill: row %d of %s has the hour %d, the endpoint %s and at its end %d" % (i, name, hour, there.hex(), zero))
    lines = subprocess.run(program, input=trace, stdout=subprocess.PIPE, check=True).stdout.decode()
    hold("what the calls of %s give, made again," % name, lines.split("\n")[:-1], ["%d %d" % (i, row[2]) for i, row in enumerate(rows) if i])
    if pond == BY_MODEL:
        hold("each answer of %s by the model" % name, [row[2:5] for row in rows[1:]], recorded.answers(trace))
    return len(calls) - 1


def main():
    folder, program = sys.argv[1], sys.argv[2:]
    hold("what the hill leaves", sorted(os.listdir(folder)), sorted("pond-%d.%s" % (n, end) for n in NIGHTS for end in ("trace", "hours")))
    calls = sum(night(folder, n, program) for n in NIGHTS)
    print("hill: %d nights, %d calls with their hours, each number as it is when made again" % (len(NIGHTS), calls))


if __name__ == "__main__":
    main()
