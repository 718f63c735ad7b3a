#!/usr/bin/env python3
"""network_found.py FOLDER PROGRAM..: behind a run of tools/network.py that left FOLDER. The night that each gauge has recorded to its end, made again by the
model, gives the answers in its hours, and ends with the list that the gauge told last and the cache that it saved; it has each datagram that the gauge has taken, and
each came from a gauge of the network or from the office. The gauge that was killed has its night up to the last tick or so. One that went on from a saved cache
recorded none. PROGRAM, examples/radio.c, refuses words and files that are none.
"""
import glob
import os
import re
import struct
import subprocess
import sys

import partner
import model
import model_night
import network

ROW = 40
RECEIVE, SEND, TICK = 1, 2, 3
LONGEST = 600000  # milliseconds that a night of these tests may take
REVOCATION = len(network.revocation(bytes(32), 0))  # what the office sends, from a port that is no gauge's


def fault(what):
    sys.exit("network: " + what)


def endpoints(folders):
    """Port and address of each gauge, as on the wire."""
    found = set()
    for folder in folders:
        with open(os.path.join(folder, "own"), encoding="ascii") as f:
            found.add(model.two(int(f.read().split()[2])) + partner.ADDRESS)
    return found


def endpoints_told(trace, hours, known):
    """Each datagram came from a gauge, and a FLOOD went to one; a revocation may have come from the office."""
    for i, (kind, body) in enumerate(model_night.records(trace)):
        sender, datagram = hours[ROW * i + 8:ROW * i + 26], body[53:]
        if kind == RECEIVE and sender not in known and not (len(datagram) == REVOCATION and sender[2:] == partner.ADDRESS):
            fault("a datagram of a night came from %s" % sender.hex())
        if kind == SEND and sender not in known:
            fault("a FLOOD of a night went to %s" % sender.hex())


def hours_told(path, hours):
    """They begin with the one that the file is named after, and go on."""
    told = [struct.unpack_from("<Q", hours, at)[0] for at in range(0, len(hours), ROW)]
    first = int(re.search(r"night-(\d+)", path).group(1))
    if told != sorted(told) or told[0] != first or not 0 < told[-1] - first < LONGEST:
        fault("%s has the hours from %d to %d" % (path, told[0], told[-1]))


def all_taken(path, trace, said):
    """Each datagram that came is in the night, but those that were dropped before."""
    (came,), (out,) = re.findall(r"(\d+) came", said), re.findall(r"dropped: (\d+) too long, (\d+) from elsewhere, (\d+) malformed, (\d+) ACKs", said)
    there = sum(kind == RECEIVE for kind, _ in model_night.records(trace))
    if there != int(came) - sum(map(int, out)):
        fault("%s has %d datagrams, and %s came" % (path, there, came))


def own_of(folder):
    with open(os.path.join(folder, "own"), encoding="ascii") as f:
        key, _, port = f.read().split()
    return partner.record(bytes.fromhex(key), int(port))


def listed(night):
    """The list by the model, from what the night left."""
    ours = model.value(night.own[:32])
    return tuple(["%064x" % key for key in side] for side in model.nearest(ours, model.held(night.own, night.cache)))


def night_of(folder, known):
    """The night of a gauge, held to the model and to what the gauge told. Gives how many calls it has."""
    gauge = Told(folder)
    (path,) = gauge.nights
    with open(path, "rb") as f, open(path[:-5] + "hours", "rb") as h:
        trace, hours = f.read(), h.read()
    lines, night = model_night.replay(trace)
    if lines != ["%d %d" % (i, struct.unpack_from("<I", hours, ROW * i + 26)[0]) for i in range(1, len(hours) // ROW)]:
        fault("%s, made again by the model, gives other answers" % path)
    if "its night has %d calls\n" % len(lines) not in gauge.said():
        fault("%s has %d calls, and the gauge told another number" % (path, len(lines)))
    if listed(night) != (gauge.told()["below"], gauge.told()["above"]):
        fault("%s does not end with the list that the gauge told" % path)
    if partner.saved_cache(gauge.path("cache"), own_of(folder)) != bytes(night.cache):
        fault("%s does not end with the cache that the gauge saved" % path)
    endpoints_told(trace, hours, known)
    hours_told(path, hours)
    all_taken(path, trace, gauge.said())
    return len(lines)


def killed_night(folder):
    """What a gauge had recorded when it was killed: all of its ticks but the last two; and a saved cache, where it came to save one."""
    gauge = Told(folder)
    with open(gauge.nights[0], "rb") as f:
        trace = f.read()
    at, ticks = 0, 0
    while (record := model_night.taken(trace, at)) is not None:
        kind, _, at = record
        ticks += kind == TICK
    if ticks < gauge.number_told("ticks") - 2:
        fault("a gauge was killed at tick %d, and its night has %d" % (gauge.number_told("ticks"), ticks))
    if gauge.number_told("ticks") >= network.SAVED_EACH:
        partner.saved_cache(gauge.path("cache"), own_of(folder))


class Told(network.Gauge):
    """A gauge that has ended, by its folder."""

    def __init__(self, folder):
        self.folder, self.nights = folder, glob.glob(os.path.join(folder, "night-*.trace"))


def refused(status, program, *words):
    run = subprocess.run([*program, *words], capture_output=True, text=True, stdin=subprocess.DEVNULL, timeout=60)
    if run.returncode != status or not run.stderr.startswith("radio"):
        fault("radio %s ends with %d, and says %r" % (" ".join(words), run.returncode, run.stderr))


def words_refused(folder, program):
    own, records, fresh = os.path.join(folder, "own"), os.path.join(folder, "records"), os.path.join(folder, "fresh")
    os.makedirs(fresh)
    for words in ((), (own, records), ("-t", "0", own, records, folder), ("-t", "1x", own, records, folder), ("-n", "::1", own, records, folder)):
        refused(2, program, *words)
    for words in ((own + ".", records, folder), (records + ".bad", records, folder), (own, records + ".bad", folder), (own, folder, folder),
                  (own, records, folder + "/none")):
        with open(records + ".bad", "w", encoding="ascii") as f:
            f.write("00 ::1 5000\n")
        refused(1, program, *words)
    for where in (":: 5000", "ff02::1 5000", "::ffff:127.0.0.1 5000", "::1 0", "::1 70000", "::1 http", "fe80::1 5000", "localhost 5000"):
        with open(records + ".bad", "w", encoding="ascii") as f:
            f.write("%s %s\n" % ("00" * 32, where))
        refused(1, program, records + ".bad", records, fresh)


def main():
    folder, program = sys.argv[1], sys.argv[2:]
    folders = sorted(glob.glob(os.path.join(folder, "gauge-*")))
    known = endpoints(folders)
    whole = [f for f in folders if "its night has" in Told(f).said()]
    anew = [f for f in folders if "of its saved cache: no night is recorded" in Told(f).said()]
    if len(anew) != 1 or anew[0] in whole or len(whole) != len(folders) - 2 or any(len(Told(f).nights) != 1 for f in folders):
        fault("of %d gauges %d recorded a whole night, and %d went on from a saved cache" % (len(folders), len(whole), len(anew)))
    calls = sum(night_of(f, known) for f in whole)
    for f in set(folders) - set(whole) - set(anew):
        killed_night(f)
    words_refused(folders[0], program)
    print("network: %d gauges found one another; %d calls of their nights have the numbers that the model gives, and end with the lists that were told"
          % (len(folders), calls))


if __name__ == "__main__":
    main()
