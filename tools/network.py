#!/usr/bin/env python3
"""network.py [--gauges N] [--tick MILLISECONDS] [--folder FOLDER] PROGRAM..

Gauges on real sockets: N processes of examples/radio.c, which PROGRAM starts, each with a port of its own on ::1. They are started a few at a time, and
each knows where one other is. When every neighbour list is the true one, a gauge is killed, another, which stays on, is revoked, and a third is killed
and started anew from the cache that it had saved. What happened is told in a few lines. FOLDER gets a folder for each gauge, with what it keeps and what
it said, and a file `names`, for bin/shown. It ends with 0 where all lists came to be right, and with 1 where not.

`make network` runs it with 61 gauges, or with 16 where an emulator runs the archive. A gauge tells its list in a file, at each tick (the comment in
examples/radio.c): so what is read here is up to a tick old.
"""
import argparse
import glob
import os
import platform
import random
import shutil
import signal
import socket
import struct
import subprocess
import sys
import time

HOST = "::1"
SIDE = 5            # neighbours on either side
RING = 2**256
EMULATED = 16       # gauges where an emulator runs them
FEW = 5             # so many are started at a time
PATIENCE = 1200     # ticks within which lists must be right
SAVED_EACH = 20     # ticks from one saving of a cache to the next
SILENCE = 20        # ticks for which a killed gauge is watched
MAJOR, MINOR = 6, 101
KILLED, REVOKED, ANEW = 7, 20, 33  # the gauges to which it happens; others of fewer than 33


def free_ports(count):
    """Ports on which nobody listens now."""
    try:
        sockets = [socket.socket(socket.AF_INET6, socket.SOCK_DGRAM) for _ in range(count)]
        for s in sockets:
            s.bind((HOST, 0))
    except OSError as why:
        sys.exit("network: no sockets on %s, which wants IPv6 switched on: %s" % (HOST, why))
    ports = [s.getsockname()[1] for s in sockets]
    for s in sockets:
        s.close()
    return ports


def record_line(key, port):
    """A record as the files of radio.c have it."""
    return "%s %s %d\n" % (key.hex(), HOST, port)


class Gauge:
    """A process of radio.c."""

    def __init__(self, number, key, port, folder, program, tick, words=()):
        self.number, self.key, self.port, self.folder = number, key, port, folder
        self.command = [*program, "-t", str(tick), "-s", str(SAVED_EACH), *words]
        self.process, self.on = None, False  # on: it was started, and nobody has stopped it
        os.makedirs(folder)
        self.write("own", record_line(key, port))
        self.write("records", "")

    def path(self, name):
        return os.path.join(self.folder, name)

    def write(self, name, text):
        with open(self.path(name), "w", encoding="ascii") as f:
            f.write(text)

    def knows(self, others):
        self.write("records", "".join(record_line(g.key, g.port) for g in others))

    def begin(self):
        with open(self.path("said"), "ab") as said:
            command = [*self.command, self.path("own"), self.path("records"), self.folder]
            self.process = subprocess.Popen(command, stdin=subprocess.DEVNULL, stdout=said, stderr=said)
        self.on = True

    def said(self):
        with open(self.path("said"), encoding="ascii") as f:
            return f.read()

    def told(self):
        """What its file `list` has, by word; of each a list."""
        found = {"ticks": ["0"], "sent": ["0"], "came": ["0"], "held": ["0"], "below": [], "above": []}
        if not os.path.exists(self.path("list")):
            return found
        found.update(ticks=[], sent=[], came=[], held=[])
        with open(self.path("list"), encoding="ascii") as f:
            for line in f:
                word, value = line.split()
                found[word].append(value)
        return found

    def number_told(self, word):
        return int(self.told()[word][0])

    def works(self):
        """Is it on? One that has ended by itself is told."""
        if self.on and self.process.poll() is not None:
            sys.exit("network: gauge %d has ended with %d: %s" % (self.number, self.process.returncode, self.said()[-300:]))
        return self.on

    def stop(self, by):
        self.on = False
        self.process.send_signal(by)
        return self.process.wait(timeout=60)


def truth(gauge, listed):
    """The true list of a gauge among all that belong into lists: keys below and above, nearest first. Above is what 1 to 2^255 steps up lead to."""
    own = int.from_bytes(gauge.key, "big")
    below, above = [], []
    for g in listed:
        up = (int.from_bytes(g.key, "big") - own) % RING
        if 1 <= up <= RING // 2:
            above.append((up, g.key.hex()))
        elif up:
            below.append((RING - up, g.key.hex()))
    return [key for _, key in sorted(below)[:SIDE]], [key for _, key in sorted(above)[:SIDE]]


def is_right(gauge, listed):
    told = gauge.told()
    return (told["below"], told["above"]) == truth(gauge, listed)


def revocation(key, identity):
    """The office's FLOOD that revokes a key: no ACK is wanted, and the revoke CPA is the key itself, as the stand-in in radio.c has it."""
    head = b"\0\x10\0\x0c\x51" + bytes([MAJOR, MINOR, 4]) + struct.pack(">I", identity)
    return head + bytes.fromhex("0043 0007 0001 00 00") + bytes.fromhex("0039 0024") + bytes(32) + bytes.fromhex("009c 0024") + key


def cleared(folder):
    """What an earlier run has left there is removed, and nothing else."""
    for path in glob.glob(os.path.join(glob.escape(folder), "gauge-*")):
        shutil.rmtree(path)
    os.makedirs(folder, exist_ok=True)


class Network:
    def __init__(self, count, folder, program, tick, seed=61):
        chance = random.Random(seed)
        self.tick, self.gauges, self.listed = tick / 1000, [], []
        cleared(folder)
        for n, port in enumerate(free_ports(count), 1):
            key = bytes([256 * n // (count + 1)]) + chance.randbytes(31)
            self.gauges.append(Gauge(n, key, port, os.path.join(folder, "gauge-%d" % n), program, tick))
        for g in self.gauges:
            g.knows([self.gauges[1 if g.number == 1 else chance.randrange(g.number - 1)]])
        with open(os.path.join(folder, "names"), "w", encoding="ascii") as f:
            f.writelines("%s gauge %d\n" % (g.key.hex(), g.number) for g in self.gauges)

    def begin(self):
        for at in range(0, len(self.gauges), FEW):
            for g in self.gauges[at:at + FEW]:
                g.begin()
                self.listed.append(g)
            time.sleep(self.tick)

    def gauge(self, number):
        return self.gauges[number - 1]

    def working(self):
        return [g for g in self.gauges if g.works()]

    def wrong(self):
        return [g for g in self.working() if not is_right(g, self.listed)]

    def sent(self):
        """Datagrams that all gauges have sent since each was started last."""
        return sum(g.number_told("sent") for g in self.gauges)

    def until_right(self):
        """Waits until each list is right. Gives the seconds that it took, and the datagrams."""
        began, before = time.monotonic(), self.sent()
        while self.wrong():
            if time.monotonic() - began > PATIENCE * self.tick:
                sys.exit("network: %d ticks later %d lists of %d are not right" % (PATIENCE, len(self.wrong()), len(self.working())))
            time.sleep(self.tick / 2)
        return time.monotonic() - began, self.sent() - before

    def listing(self, gauge):
        """The numbers of the gauges that list one."""
        key = gauge.key.hex()
        return [g.number for g in self.working() if key in g.told()["below"] + g.told()["above"]]

    def watched(self, ticks):
        """Some ticks in which no list may change."""
        for _ in range(ticks):
            time.sleep(self.tick)
            if self.wrong():
                sys.exit("network: the list of gauge %d has changed" % self.wrong()[0].number)

    def revoke(self, gauge, told):
        """The office tells one gauge that the key of another is revoked."""
        self.listed.remove(gauge)
        with socket.socket(socket.AF_INET6, socket.SOCK_DGRAM) as office:
            office.sendto(revocation(gauge.key, 1), (HOST, told.port))

    def end(self):
        """All are told to end. Gives those that did not end in order."""
        last = self.working()
        for g in last:
            g.on = False
            g.process.send_signal(signal.SIGTERM)
        return [g for g in last if g.process.wait(timeout=60) != 0]

    def kill(self):
        """Whatever happens: no process is left."""
        for g in self.gauges:
            if g.process is not None:
                g.process.kill()
                g.process.wait()


def by_whom(gauges):
    return "gauges " + " ".join(map(str, gauges)) if gauges else "nobody"


def dropped(gauges):
    """The sums over the lines in which the gauges told at their end what they dropped, by what is said."""
    sums = {}
    for g in gauges:
        for line in g.said().split("\n"):
            if line.startswith("dropped: "):
                for part in line[len("dropped: "):].split(", "):
                    count, what = part.split(" ", 1)
                    sums[what] = sums.get(what, 0) + int(count)
    return sums


def all_found(net):
    net.begin()
    took, _ = net.until_right()
    print("  all %d lists are right: it took %.1f s since the last was started, and %d datagrams since the first"
          % (len(net.working()), took, net.sent()), flush=True)


def one_killed(net, gauge):
    gauge.stop(signal.SIGKILL)
    net.watched(SILENCE)
    print("Gauge %d is killed. %d ticks later it is silent, still listed by %s."
          % (gauge.number, SILENCE, by_whom(net.listing(gauge))), flush=True)


def one_revoked(net, gauge, told):
    net.revoke(gauge, told)
    took, datagrams = net.until_right()
    net.watched(SILENCE)
    print("Gauge %d is revoked: the office tells gauge %d alone. %.1f s and %d datagrams later all %d lists are right." % (
        gauge.number, told.number, took, datagrams, len(net.working())))
    print("  %d ticks later, though it is still on, it is listed by %s" % (SILENCE, by_whom(net.listing(gauge))), flush=True)


def one_anew(net, gauge):
    ticks = gauge.number_told("ticks")
    gauge.stop(signal.SIGKILL)
    os.unlink(gauge.path("list"))
    gauge.begin()
    took, _ = net.until_right()
    net.watched(SILENCE)
    print("Gauge %d is killed at its tick %d, and started anew." % (gauge.number, ticks))
    print("  It says: %s" % gauge.said().strip().split("\n")[-1])
    print("  its list is right after %.1f s" % took, flush=True)


def told_at_end(net):
    count, bad = len(net.working()), net.end()
    if bad:
        sys.exit("network: gauge %d ended with %d: %s" % (bad[0].number, bad[0].process.returncode, bad[0].said()[-300:]))
    sums = dropped(net.gauges)
    print("%d gauges are told to end, and end in order. Dropped: %s." % (count, ", ".join("%d %s" % (n, what) for what, n in sums.items())))


def happens(net, killed, revoked, anew):
    all_found(net)
    one_killed(net, net.gauge(killed))
    one_revoked(net, net.gauge(revoked), net.gauge(1))
    one_anew(net, net.gauge(anew))
    told_at_end(net)


def main():
    words = argparse.ArgumentParser(usage=__doc__.split("\n")[0])
    words.add_argument("--gauges", type=int, default=61 if platform.machine() == "x86_64" else EMULATED)
    words.add_argument("--tick", type=int, default=250)
    words.add_argument("--folder", default="target/network")
    words.add_argument("program", nargs="+")
    told = words.parse_args()
    if told.gauges < 5:
        sys.exit("network: 5 gauges at least")
    signal.signal(signal.SIGTERM, lambda *_: sys.exit("network: stopped"))  # no gauge is left then either
    began = time.monotonic()
    net = Network(told.gauges, told.folder, told.program, told.tick)
    if platform.machine() != "x86_64":
        print("An emulator runs the gauges here, so there are %d of them, not 61." % told.gauges)
    print("%d gauges, each a process with a socket of its own on %s, %d started at a time; each knows where one other is. A tick is %d ms here."
          % (told.gauges, HOST, FEW, told.tick), flush=True)
    three = (KILLED, REVOKED, ANEW) if told.gauges >= ANEW else (2, 3, 4)
    try:
        happens(net, *three)
    finally:
        net.kill()
    print("All of it took %.0f s; %s has what each gauge kept and said." % (time.monotonic() - began, told.folder))


if __name__ == "__main__":
    main()
