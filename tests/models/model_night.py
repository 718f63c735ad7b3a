#!/usr/bin/env python3
"""A recorded night made again by the model: document 02, request 1.

    model_night.py FILE           what the replay of a trace must write: for each call its place from 1, a space and its number
    model_night.py --list FILE    the neighbour list that the night ends with, each key by its pond's number, with which the hill's keys begin
    model_night.py --check        the cases that the document gives, and both sides of each length
    model_night.py --write DIR    those cases as files: N.trace, and N.wanted with the lines that the document wants
    model_night.py --same FILE..  each FILE is a trace, and beside it stands FILE with the ending .wanted: the model must write the same
"""
if not __debug__:
    raise SystemExit("trace.py: run it without -O and PYTHONOPTIMIZE, which leave its asserts out")
import os
import sys

import model

C, OUTPUT, CPAS = 64, 2464, model.cpas_bytes([bytes(1)])  # a trace has one own record (request 11), and "the own CPA is one zero byte"


# 02: "Refusals: 16 for a record cut short or of wrong length, 17 for an unknown kind or a kind 4 missing or repeated". The bodies are those of
# request 1: kind 1 has 4 + 1 + 32 + 16 bytes and a datagram, kind 2 has 4 + 32 + 32, kind 3 none, kind 4 102.
def fault(kind, body, begun):
    right = {1: len(body) >= 53, 2: len(body) == 68, 3: len(body) == 0, 4: len(body) == 102}
    if not right.get(kind, True):
        return 16
    if kind not in right or begun == (kind == 4):
        return 17
    return 0


# The next record: kind, body, and the place behind it. None where it is cut short, or too short to have a kind.
def taken(trace, at):
    if at + 2 > len(trace):
        return None
    length = int.from_bytes(trace[at:at + 2], "little")
    if length < 2 or at + 2 + length > len(trace):
        return None
    return int.from_bytes(trace[at + 2:at + 4], "little"), trace[at + 4:at + 2 + length], at + 2 + length


def records(trace):
    """Kind and body of each record of a whole trace; one that can't be taken is a fault of whoever asks (TypeError)."""
    at = 0
    while at < len(trace):
        kind, body, at = taken(trace, at)
        yield kind, body


class Night(model.Gauge):
    def __init__(self, body):
        super().__init__(body[2:], bytes(100 * C), cpas=CPAS, major=body[0], minor=body[1])

    def whole(self, kind, body):
        """Number, first, second and what was written."""
        identity, output = int.from_bytes(body[:4], "little"), bytes(OUTPUT)
        if kind == 1:
            return self.receive(model.Lent(identity, nonce=body[37:53], verdict=body[4], key=body[5:37], datagram=body[53:]), output)
        if kind == 2:
            return self.send(model.Lent(identity, neighbour=body[4:36], key=body[36:68]), output)
        return self.tick(output)

    def call(self, kind, body):
        return self.whole(kind, body)[0]


# 02: "each is written as that record's line, the replay stops there with the state so far, a bad first record has line number 0, an empty trace
# gives "0 17"".
def replay(trace):
    night, lines, at = None, [], 0
    while at < len(trace):
        record = taken(trace, at)
        number = 16 if record is None else fault(record[0], record[1], night is not None)
        if number != 0:
            return lines + ["%d %d" % (len(lines) if night is None else len(lines) + 1, number)], night
        kind, body, at = record
        if night is None:
            night = Night(body)
        else:
            lines.append("%d %d" % (len(lines) + 1, night.call(kind, body)))
    return (lines if night is not None else ["0 17"]), night


# Name, trace, and the lines that the document wants.
def cases():
    def record(kind, body):
        return (len(body) + 2).to_bytes(2, "little") + kind.to_bytes(2, "little") + body

    own = bytes(31) + bytes([100]) + model.two(5000) + bytes([1, 0]) + bytes(64)
    first, tick = record(4, bytes([6, 101]) + own), bytes.fromhex("02000300")
    return [("the document's", first + tick, ["1 0"]),
            ("an empty trace", b"", ["0 17"]),
            ("no call", first, []),
            ("kind 4 missing", tick, ["0 17"]),
            ("kind 4 repeated", first + tick + first, ["1 0", "2 17"]),
            ("kind 4 of another length, first", record(4, bytes(101)), ["0 16"]),
            ("kind 4 of another length, later", first + record(4, bytes(103)), ["1 16"]),
            ("an unknown kind", first + record(5, b"") + tick, ["1 17"]),
            ("an unknown kind first", record(0, bytes(7)), ["0 17"]),
            ("a first record of kind 1 with a wrong length", record(1, bytes(52)), ["0 16"]),
            ("a first record of kind 1 with a right length", record(1, bytes(53)), ["0 17"]),
            ("kind 1 without a datagram", first + record(1, bytes(53)) + tick, ["1 2", "2 0"]),
            ("kind 1 one byte short", first + record(1, bytes(52)) + tick, ["1 16"]),
            ("a datagram of 1,233 bytes", first + record(1, bytes(53 + 1233)), ["1 2"]),
            ("kind 2 to a gauge not held", first + record(2, bytes(68)), ["1 12"]),
            ("kind 2 of another length", first + record(2, bytes(67)), ["1 16"]),
            ("a tick with a body", first + tick + record(3, b"\0"), ["1 0", "2 16"]),
            ("one byte left", first + tick + b"\2", ["1 0", "2 16"]),
            ("length 1", first + b"\1\0\3", ["1 16"]),
            ("cut short in its body", first[:-1], ["0 16"]),
            ("own record out of form", record(4, bytes([6, 101]) + bytes(100)) + tick + tick, ["1 1", "2 1"]),
            ("own record with two addresses (request 13)", record(4, bytes([6, 101]) + own[:34] + b"\2" + own[35:]) + tick + tick, ["1 1", "2 1"])]


def check():
    for name, trace, want in cases():
        assert replay(trace)[0] == want, (name, replay(trace)[0], want)
    print("trace: %d cases of request 1" % len(cases()))


def text(lines):
    return "".join(line + "\n" for line in lines)


def write(folder):
    for i, (_, trace, want) in enumerate(cases(), 1):
        with open(os.path.join(folder, "%d.trace" % i), "wb") as f:
            f.write(trace)
        with open(os.path.join(folder, "%d.wanted" % i), "w") as f:
            f.write(text(want))


def same(paths):
    if not paths:
        sys.exit("trace: no trace given")
    for path in paths:
        got, want = text(replay(open(path, "rb").read())[0]), open(os.path.splitext(path)[0] + ".wanted").read()
        if got != want:
            sys.exit("trace: %s has other lines by this model" % path)
    print("trace: %d traces have the same lines by this model" % len(paths))


def main():
    if sys.argv[1:] == ["--check"]:
        check()
        return
    if sys.argv[1] == "--write":
        write(sys.argv[2])
        return
    if sys.argv[1] == "--same":
        same(sys.argv[2:])
        return
    lines, night = replay(open(sys.argv[-1], "rb").read())
    if sys.argv[1] == "--list":
        below, above = model.nearest(model.key_of(night.own), model.State(night).records)
        print(" ".join(str((k >> 248) // 4) for k in below + above))  # examples/hill.c: a key begins with 4 times the pond's number
    else:
        sys.stdout.write(text(lines))


if __name__ == "__main__":
    main()
