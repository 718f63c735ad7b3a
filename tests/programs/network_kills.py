#!/usr/bin/env python3
"""network_kills.py FOLDER PROGRAM..: a gauge of examples/radio.c, which PROGRAM starts, is killed a hundred times at random moments while it saves its
cache all the time and is told of keys and revocations. On the disk is then each time, byte by byte, a cache that the model says it held since it was
started, and the gauge goes on from it. Caches that were damaged by hand are told, and not used.
"""
import os
import random
import signal
import sys
import threading

import partner
import model
import network

KILLS = 100
LONGEST = 0.03   # seconds from the first answer to the kill
FULL = 50        # records held from which on keys are revoked too: so none is dropped
OWN = bytes([128]) + bytes(31)


class States:
    """The caches that the gauge can have held since it was started: the last is the one that it has now, or will have."""

    def __init__(self, own, records):
        self.own, self.all = own, [records]

    def learn(self, record):
        self.all.append(model.learned(self.own, self.all[-1], record, partner.CACHE // 100))

    def remove(self, record):
        self.all.append(model.removed(self.all[-1], model.key_of(record)))

    def place_of(self, cache):
        """The last of them that a cache is; None where it is none."""
        found = [i for i, records in enumerate(self.all) if model.cache_of(records, partner.CACHE) == cache]
        return found[-1] if found else None


def changed(states, neighbour, chance, lives):
    """One key more or less is told, until that is taken or the gauge is gone."""
    held = states.all[-1]
    if len(held) >= FULL or held and chance.random() < 0.3:
        gone = chance.choice(held)
        states.remove(gone)
        return neighbour.revoked(OWN, gone[:32], lives)
    key = chance.randbytes(32)
    states.learn(partner.record(key, neighbour.port))
    return neighbour.taught(OWN, key, lives)


def life(gauge, states, neighbour, chance):
    """From the start to the kill, at a random moment behind the first answer. The very first cache is waited for, so that there is one before each kill."""
    def lives():
        return gauge.process.poll() is None
    gauge.begin()
    while (neighbour.answered(OWN, partner.ANSWERS) is None or not os.path.exists(gauge.path("cache"))) and lives():
        pass
    killer = threading.Timer(chance.uniform(0, LONGEST), gauge.process.kill)
    killer.start()
    while changed(states, neighbour, chance, lives):
        pass
    gauge.on = False
    if gauge.process.wait(timeout=60) != -signal.SIGKILL:
        sys.exit("network: the gauge has ended by itself: %s" % gauge.said()[-300:])
    killer.join()


def last_said(gauge, words):
    """The line that the gauge began with."""
    said = gauge.said().strip().split("\n")[-1]
    if words not in said:
        sys.exit("network: the gauge begins with '%s', and not with '%s'" % (said, words))


def killed(gauge, neighbour):
    chance, records, counts = random.Random(37), [], {"beside": 0, "old": 0, "new": 0}
    own = partner.record(OWN, gauge.port)
    for _ in range(KILLS):
        states = States(own, records)
        life(gauge, states, neighbour, chance)
        last_said(gauge, "begins with %d records" % len(records) if records else "records night")
        cache = partner.saved_cache(gauge.path("cache"), own)
        place = states.place_of(cache)
        if place is None:
            sys.exit("network: after a kill the saved cache is none that the gauge has held")
        counts["beside"] += os.path.exists(gauge.path("cache.new"))
        counts["new" if place > 0 else "old"] += 1
        records = states.all[place]
    return counts


def put_cache(gauge, content):
    with open(gauge.path("cache"), "wb") as f:
        f.write(content)


def damaged(gauge):
    """A cut one, a longer one, one with a byte changed, one out of form with a good sum, one with more keys revoked than there is room for, an empty file. It
    stands aside then. Another gauge's is left as it is, and nothing is begun."""
    with open(gauge.path("cache"), "rb") as f:
        good = f.read()
    def summed(at, byte):
        changed_there = good[:at] + bytes([byte]) + good[at + 1:partner.SUM_AT]
        return changed_there + partner.sum_of(changed_there)
    changed_byte = good[:40] + bytes([good[40] ^ 1]) + good[41:]
    for bad in (good[:-1], good + b"\0", changed_byte, summed(35, 1), summed(partner.COUNT_AT, 17), b""):
        put_cache(gauge, bad)
        gauge.begin()
        while not gauge.number_told("ticks") and gauge.works():
            pass
        if gauge.number_told("held"):
            sys.exit("network: a damaged cache is used")
        gauge.stop(signal.SIGTERM)
        os.unlink(gauge.path("list"))
        if gauge.said().count("the saved cache is damaged, and is not used") != 1:
            sys.exit("network: a damaged cache is not told: %s" % gauge.said()[-300:])
        os.unlink(gauge.path("said"))
        with open(gauge.path("cache.damaged"), "rb") as f:
            if f.read() != bad:
                sys.exit("network: a damaged cache does not stand aside as it was")
    another = summed(partner.OWN_AT, good[partner.OWN_AT] ^ 1)
    put_cache(gauge, another)
    gauge.begin()
    with open(gauge.path("cache"), "rb") as f:
        if gauge.process.wait(timeout=60) != 1 or "another key" not in gauge.said() or f.read() != another:
            sys.exit("network: the cache of another gauge is not left alone: %s" % gauge.said())


def main():
    folder, program = sys.argv[1], sys.argv[2:]
    gauge = network.Gauge(1, OWN, network.free_ports(1)[0], folder, program, 1)
    gauge.command += ["-s", "1"]
    neighbour = partner.Partner(gauge.port)
    try:
        counts = killed(gauge, neighbour)
        os.unlink(gauge.path("list"))
        os.unlink(gauge.path("said"))
        damaged(gauge)
    finally:
        if gauge.process is not None:
            gauge.process.kill()
    if not counts["beside"] or not counts["new"]:
        sys.exit("network: no kill came while a cache was being written, or no cache was written: %s" % counts)
    print("network: %d kills, %d of them before what was being written had its name; the cache was %d times one of that life, %d times the one before"
          % (KILLS, counts["beside"], counts["new"], counts["old"]))


if __name__ == "__main__":
    main()
