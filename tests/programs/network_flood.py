#!/usr/bin/env python3
"""network_flood.py FOLDER PROGRAM..: 100,000 random and damaged datagrams go to one gauge of examples/radio.c, which PROGRAM starts, as fast as they can
be sent. All the while it answers a neighbour; its list stays, its memory does not grow, and each datagram is counted. Where more comes than it can take, its
ticks go on.
"""
import multiprocessing
import os
import platform
import random
import re
import signal
import socket
import sys
import time

import partner
import model
import network

FLOOD = 100000
FIRST = 5000     # of them until the memory is looked at for the first time
KEYS = 12        # that the neighbour answers for
EACH = 0.02      # seconds between two questions of the neighbour, ..
AGAIN = 0.1      # .. and until one that may be lost in the flood is asked again
PATIENCE = 20    # seconds until the gauge must hold them
SILENT = 2       # seconds without an answer that are too long
LEAST = 3        # answers under the flood
BLAST = 1.5      # seconds for which more comes than can be taken, ..
TICKS = 12       # .. and ticks that must be made in them at least: of TICK milliseconds each
TICK = 50
GROWS = 64 if platform.machine() == "x86_64" else 16384  # kB that are no growth; an emulator keeps what it has translated
OWN = bytes([128]) + bytes(31)
KINDS = (1, 2, 3, 4, 7, 8, 9, 11)


def messages(chance):
    """A good message of each kind that the gauge takes, with keys and addresses that are made up."""
    def head(kind, **fields):
        return model.write(model.message(kind, network.MAJOR, network.MINOR, chance.getrandbits(32), **fields))
    key = chance.randbytes(32)
    entry = {"key": chance.randbytes(32), "major": 6, "minor": 101, "port": 9, "flags": 0, "addresses": [chance.randbytes(16)]}
    return [head("flood", validate=key, route=entry), head("inquire", validate=key, nonce=chance.randbytes(16)),
            head("authority", acked=7, cpa=partner.CPA), head("ack", acked=7), head("lookup", target=key, validate=key, path=[chance.randbytes(18)])]


def damaged(d, chance):
    """Cut, or longer, or with up to three bytes changed."""
    if chance.random() < 0.3:
        return d[:chance.randrange(len(d))] if chance.random() < 0.5 else d + chance.randbytes(chance.randrange(1, 60))
    d = bytearray(d)
    for _ in range(chance.randrange(1, 4)):
        d[chance.randrange(len(d))] = chance.randrange(256)
    return bytes(d)


def bad(chance, good):
    """Random bytes, also behind a good header; or damage to a good message; one in a hundred too long."""
    if chance.random() < 0.01:
        return chance.randbytes(chance.randrange(1233, 3000))
    if chance.random() < 0.5:
        return damaged(chance.choice(good), chance)
    head = b"\0\x10\0\x0c\x51\x06\x65" + bytes([chance.choice(KINDS)]) if chance.random() < 0.5 else b""
    return head + chance.randbytes(chance.randrange(0, 200))


def flood(port, count, seed):
    """Sends so many, and ends."""
    chance = random.Random(seed)
    good = [d for _ in range(20) for d in messages(chance)]
    with socket.socket(socket.AF_INET6, socket.SOCK_DGRAM) as s:
        for _ in range(count):
            s.sendto(bad(chance, good), (network.HOST, port))


def kilobytes(gauge):
    """What the gauge has of memory."""
    with open("/proc/%d/status" % gauge.process.pid, encoding="ascii") as f:
        return next(int(line.split()[1]) for line in f if line.startswith("VmRSS:"))


def waited(gauge, neighbour):
    """Asks the gauge until it answers, and gives the seconds that it took."""
    began = time.monotonic()
    while neighbour.answered(OWN, AGAIN) is None:
        if time.monotonic() - began > SILENT or not gauge.works():
            sys.exit("network: under the flood the gauge has not answered for %d s" % SILENT)
    return time.monotonic() - began


def under_flood(gauge, neighbour, count, seed):
    """The gauge is asked until the flood is over. Gives the seconds that each answer took."""
    process = multiprocessing.Process(target=flood, args=(gauge.port, count, seed))
    process.start()
    took = []
    while process.is_alive():
        took.append(waited(gauge, neighbour))
        time.sleep(EACH)
    process.join()
    if process.exitcode:
        sys.exit("network: the flood could not be sent")
    return took


def begun(gauge):
    """Waits for its first tick: its socket is open then."""
    while not gauge.number_told("ticks") and gauge.works():
        time.sleep(EACH)


def listed(gauge):
    told = gauge.told()
    return told["below"], told["above"]


def taught(gauge, neighbour, chance):
    """The gauge holds keys, at the neighbour's address, and has a list of them. Of one more it is told that it is revoked: with its ACK it is gone from
    the saved cache too."""
    until, own = time.monotonic() + PATIENCE, partner.record(OWN, gauge.port)
    keys = sorted(chance.randbytes(32) for _ in range(KEYS + 1))
    def goes_on():
        return gauge.works() and time.monotonic() < until
    if not all(neighbour.taught(OWN, key, goes_on) for key in keys) or not neighbour.revoked(OWN, keys[0], goes_on):
        sys.exit("network: the gauge takes no record, or no revocation")
    if model.held(own, partner.saved_cache(gauge.path("cache"), own)) != [partner.record(key, neighbour.port) for key in keys[1:]]:
        sys.exit("network: a revocation is not saved with its ACK")
    while gauge.number_told("held") != KEYS and goes_on():
        time.sleep(EACH)
    return listed(gauge)


def passed_on_once(neighbour, chance):
    """Two revocations that come again and again are each passed on to each gauge held, once: else they would go round the network for ever."""
    keys, passed = (chance.randbytes(32), chance.randbytes(32)), 0
    for i in range(20):
        neighbour.send("flood", validate=bytes(32), revoke=keys[i % 2])
        came = neighbour.answered(OWN, PATIENCE)
        if came is None:
            sys.exit("network: the gauge does not answer")
        passed += sum(m["type"] == "flood" and m["revoke"] in keys for m in came)
    if passed != 2 * KEYS:
        sys.exit("network: two revocations were passed on %d times to %d gauges" % (passed, KEYS))


def said_count(gauge, words):
    """A number that the gauge has told at its end, before these words; None where it has not."""
    found = re.findall(r"(\d+) %s" % words, gauge.said())
    return int(found[0]) if found else None


def counted(gauge, all_sent):
    """Each datagram was taken or dropped by the kernel, which is told; an emulator does not tell it."""
    came, overrun = said_count(gauge, "came"), said_count(gauge, "that came faster than they were taken")
    if overrun is None and platform.machine() == "x86_64" or overrun is not None and came + overrun != all_sent:
        sys.exit("network: %s came and %s did not, of %d" % (came, overrun, all_sent))
    if not said_count(gauge, "too long") or not said_count(gauge, "malformed"):
        sys.exit("network: nothing was too long, or nothing malformed: %s" % gauge.said())
    return came


def flooded(folder, program):
    gauge = network.Gauge(1, OWN, network.free_ports(1)[0], folder, program, 100)
    neighbour = partner.Partner(gauge.port)
    gauge.begin()
    try:
        begun(gauge)
        before = taught(gauge, neighbour, random.Random(5))
        passed_on_once(neighbour, random.Random(8))
        took = under_flood(gauge, neighbour, FIRST, 6)
        memory = kilobytes(gauge)
        took += under_flood(gauge, neighbour, FLOOD - FIRST, 7)
        waited(gauge, neighbour)  # with it the kernel tells what it has dropped
        grown = kilobytes(gauge) - memory
        if gauge.stop(signal.SIGTERM) != 0:
            sys.exit("network: the flooded gauge has not ended in order: %s" % gauge.said()[-300:])
    finally:
        gauge.process.kill()
    if listed(gauge) != before or gauge.number_told("held") != KEYS:
        sys.exit("network: the flood has changed the list")
    if grown > GROWS:
        sys.exit("network: under the flood the memory grew by %d kB" % grown)
    if len(took) < LEAST:
        sys.exit("network: under the flood the gauge has answered only %d times" % len(took))
    came = counted(gauge, FLOOD + neighbour.sent)
    print("network: of a flood of %d datagrams about %d were taken; meanwhile a neighbour got %d answers, the slowest within %.2f s; memory grew by %d kB"
          % (FLOOD, came - neighbour.sent, len(took), max(took), grown))


def blast(port):
    """One INQUIRE as fast as it can be sent."""
    datagram, until = model.write(model.message("inquire", network.MAJOR, network.MINOR, 5, validate=OWN)), time.monotonic() + BLAST
    with socket.socket(socket.AF_INET6, socket.SOCK_DGRAM) as s:
        while time.monotonic() < until:
            for _ in range(50):
                s.sendto(datagram, (network.HOST, port))


def ticks_go_on(folder, program):
    """Where datagrams come faster than they can be taken, the ticks go on all the same. An emulator makes the gauge slow enough for that, here too."""
    slow = ["qemu-x86_64", program[-1]] if platform.machine() == "x86_64" else program
    gauge = network.Gauge(1, OWN, network.free_ports(1)[0], folder, slow, TICK)
    gauge.begin()
    try:
        begun(gauge)
        before, senders = gauge.number_told("ticks"), [multiprocessing.Process(target=blast, args=(gauge.port,)) for _ in range(2)]
        for sender in senders:
            sender.start()
        time.sleep(BLAST)
        made = gauge.number_told("ticks") - before
        for sender in senders:
            sender.join()
        if gauge.stop(signal.SIGTERM) != 0 or made < TICKS:
            sys.exit("network: under a blast of datagrams %d ticks of %d ms were made in %.1f s" % (made, TICK, BLAST))
    finally:
        gauge.process.kill()


def main():
    folder, program = sys.argv[1], sys.argv[2:]
    ticks_go_on(os.path.join(folder, "blasted"), program)
    flooded(os.path.join(folder, "flooded"), program)


if __name__ == "__main__":
    main()
