#!/usr/bin/env python3
"""Nights for tests/programs/recorded: calls with every kind of verdict and of length, each with the number that document 01 gives it.

    recorded.py DIR    for each night NAME.calls, which recorded.c reads; NAME.bytes, the trace as request 1 of document 02 has it; NAME.rows, its hours
                       as include/gauge_trace.h tells their form; NAME.wanted, its lines

A verdict has one byte in a trace. 1 is good, and any other number is not (document 01): the header writes 0 for one over 255, which is not good
either. The numbers stand beside the calls, read out of document 01, and the model must give them for the trace. A row has both counts too, which are the
model's.
"""
import os
import struct
import sys

import with_models
import model
import model_night
import shown_traces as laid

VERDICTS = (0, 1, 2, 255, 256, 257)
OWN = laid.gauge_record(100)
LONGEST = 65480  # bytes of a datagram in a record whose length, counted with kind and the rest of its body, is 65,535


BEGINS = 1793570400123
ENDPOINT = model.two(5000) + bytes(range(0xA0, 0xB0))


class Night:
    """What recorded.c reads, the trace, the numbers, and of each record's row the hour and the endpoint."""

    def __init__(self):
        self.lines, self.trace, self.numbers = ["own %s %d" % (OWN.hex(), BEGINS)], laid.opening(OWN), []
        self.told, self.hour, self.endpoint = [(BEGINS, laid.endpoint(OWN))], BEGINS, bytes(18)

    def at(self, hour, endpoint=b""):
        """Of the next record; the hour of later ones too."""
        self.lines.append("at %d %s" % (hour, endpoint.hex() or "-"))
        self.hour, self.endpoint = hour, endpoint or bytes(18)

    def add(self, number, line, record):
        self.numbers.append(number)
        self.lines.append(line)
        self.trace += record
        self.told.append((self.hour, self.endpoint))
        self.endpoint = bytes(18)

    def rows(self):
        return b"".join(struct.pack("<Q18sIIIH", *told, *answer, 0) for told, answer in zip(self.told, [(0, 0, 0)] + answers(self.trace)))

    def receive(self, number, identity, datagram, verdict=0, named=bytes(32)):
        line = "receive %d %d %s %s" % (identity, verdict, named.hex(), datagram.hex() or "-")
        self.add(number, line, laid.receive(identity, datagram, verdict if verdict < 256 else 0, named))

    def send(self, number, identity, neighbour, about):
        line = "send %d %s %s" % (identity, laid.key(neighbour).hex(), laid.key(about).hex())
        self.add(number, line, laid.send(identity, neighbour, about))

    def tick(self, number):
        self.endpoint = bytes(18)
        self.add(number, "tick", laid.TICK)


class Answered(model_night.Night):
    """The model's night, which keeps each answer whole."""

    def __init__(self, body):
        super().__init__(body)
        self.answers = []

    def kept(self, answer):
        self.answers.append(answer[:3])
        return answer

    def receive(self, lent, output):
        return self.kept(super().receive(lent, output))

    def send(self, lent, output):
        return self.kept(super().send(lent, output))

    def tick(self, output):
        return self.kept(super().tick(output))


def answers(trace):
    """Number and both counts of each call of a whole night, by the model."""
    _, body, at = model_night.taken(trace, 0)
    night = Answered(body)
    while at < len(trace):
        kind, body, at = model_night.taken(trace, at)
        night.call(kind, body)
    return night.answers


def verdicts():
    """With each verdict an AUTHORITY and a revocation: 9 where it is not good. A FLOOD to the key shows whether it is held: 12 where it is not."""
    night = Night()
    for i, verdict in enumerate(VERDICTS):
        key, identity, good = 50 + i, 1000 * (i + 1), verdict == 1
        night.at(BEGINS + i, ENDPOINT)
        night.receive(0, identity, laid.flood(7, laid.gauge_record(key)))
        night.receive(0 if good else 9, identity + 2, laid.authority(8, identity + 1), verdict, laid.key(key))
        night.send(0 if good else 12, identity + 3, key, 100)
        night.receive(0 if good else 9, identity + 4, laid.revocation(9), verdict, laid.key(key))
        night.send(12, identity + 5, key, 100)
        night.tick(0)
    return night


def lengths():
    """Datagrams of any length are recorded, up to the longest that a record can have. The greatest ID is there too."""
    night = Night()
    inquire = laid.message("inquire", 5, a=True, validate=laid.key(100))
    night.receive(0, 4294967295, inquire)
    for length in (0, 11, 1233, LONGEST):
        night.receive(2, 1, bytes(length))
    night.receive(3, 1, bytes(1232))
    night.tick(0)
    return night


def hours():
    """The hour stays, and an endpoint does not; the last one told counts, and for a tick none. Hours of each length in bytes, and back to none."""
    night = Night()
    night.tick(0)
    night.at(BEGINS + 1000, ENDPOINT)
    night.receive(2, 1, b"")
    night.receive(2, 2, b"")
    night.at(BEGINS + 1, ENDPOINT)
    night.at(BEGINS + 2000)
    night.send(12, 3, 50, 100)
    for hour in [256 ** i for i in range(8)] + [256 ** 8 - 1, 0x0102030405060708, 0]:
        night.at(hour, bytes([hour % 251]) * 18)
        night.tick(0)
    night.tick(0)
    night.receive(0, 1000, laid.flood(7, laid.gauge_record(50)))
    night.at(BEGINS + 3000, ENDPOINT)
    night.receive(0, 1002, laid.authority(8, 1001), 1, laid.key(50))
    night.at(BEGINS + 4000, laid.endpoint(laid.gauge_record(50)))
    night.send(0, 1003, 50, 100)
    night.tick(0)
    return night


def main():
    folder = sys.argv[1]
    for name, night in (("verdicts", verdicts()), ("lengths", lengths()), ("hours", hours())):
        wanted = ["%d %d" % line for line in enumerate(night.numbers, 1)]
        if model_night.replay(night.trace)[0] != wanted:
            sys.exit("recorded: the model has other numbers for the night '%s'" % name)
        text = lambda lines: "".join(line + "\n" for line in lines).encode()
        for end, content in ((".calls", text(night.lines)), (".bytes", night.trace), (".rows", night.rows()), (".wanted", text(wanted))):
            with open(os.path.join(folder, name + end), "wb") as f:
                f.write(content)
    with open(os.path.join(folder, "too_long.calls"), "w") as f:
        f.write("own %s 0\nreceive 1 0 %s %s\n" % (OWN.hex(), bytes(32).hex(), bytes(LONGEST + 1).hex()))


if __name__ == "__main__":
    main()
