#!/usr/bin/env python3
"""network_asked.py FOLDER PROGRAM..: one gauge of examples/radio.c, which PROGRAM starts, step by step. What it drops is counted exactly; what waits is sent
again, the same bytes; nonces are random; whom its judge believes, and whose ACKs are heard; a key that is revoked stays away, also after a start anew; what
it keeps is saved at its end, and where that fails it says so at once and ends with 1; nothing goes out of its network; its folder is its own.
"""
import glob
import os
import re
import signal
import subprocess
import sys
import time

import partner
import model
import model_night
import network

OWN = bytes([128]) + bytes(31)
TICK = 0.15      # seconds
ANSWER = 5       # seconds within which a gauge answers
FEW = 5          # FLOODs to a gauge that it was told of, at least
KEY, OTHER, SEED = bytes([1]) * 32, bytes([2]) * 32, bytes([3]) * 32


def fault(what):
    sys.exit("network: " + what)


class One(network.Gauge):
    """A gauge by itself, and its first neighbour. Used by `with`, so that it ends."""

    def __init__(self, folder, program, *words, saves=100000):
        super().__init__(1, OWN, network.free_ports(1)[0], folder, program, int(1000 * TICK), ("-s", str(saves), *words))
        self.neighbour = partner.Partner(self.port)

    def __enter__(self):
        self.begin()
        return self

    def __exit__(self, *_):
        self.process.kill()
        self.process.wait()

    def begin(self):
        super().begin()
        before = self.number_told("ticks")
        while self.works() and self.number_told("ticks") in (0, before):
            time.sleep(TICK / 5)

    def asks_again(self, by):
        """It has taken all that was sent to it before."""
        if by.answered(OWN, ANSWER) is None:
            fault("the gauge does not answer")

    def taken_for(self, ticks):
        """What it sends to its neighbour in so many ticks and more, however long these take on a busy machine."""
        came, until = [], self.number_told("ticks") + ticks
        while self.works() and self.number_told("ticks") < until:
            came += self.neighbour.taken(TICK / 3)
        return came

    def ends(self, status=0, by=signal.SIGINT):
        if self.stop(by) != status:
            fault("the gauge ends with %d: %s" % (self.process.returncode, self.said()))
        return self.said()

    def holds(self):
        """The keys that it has saved."""
        own = partner.record(OWN, self.port)
        return [model.key_of(r).to_bytes(32, "big") for r in model.held(own, partner.saved_cache(self.path("cache"), own))]


def is_on():
    return True


def of_kind(datagrams, kind, key):
    """Those of a kind that are about a key."""
    read = [(d, model.read(d, network.MAJOR)[1]) for d in datagrams]
    return [(d, m) for d, m in read if m["type"] == kind and m["validate"] == key]


def dropped(gauge):
    """So many too long, so many malformed: each is counted, once."""
    one = gauge.neighbour
    for _ in range(7):
        one.socket.sendto(b"\0\x10\0\x0c\x51\x06\x65\x04" + bytes(30), one.gauge)
    for length in (1233, 2000, 60000):
        one.socket.sendto(bytes(length), one.gauge)
    gauge.asks_again(one)


def repeated(gauge):
    """An INQUIRE comes three times, the same each time, and no more; another has another nonce."""
    one, nonces = gauge.neighbour, set()
    for key in (KEY, OTHER):
        one.flood(key)
        came = of_kind(gauge.taken_for(5), "inquire", key)
        if len(came) != 3 or len({d for d, _ in came}) != 1:
            fault("an INQUIRE came %d times, in %d forms" % (len(came), len({d for d, _ in came})))
        nonces.add(came[0][1]["nonce"])
    if len(nonces) != 2 or bytes(16) in nonces:
        fault("the nonces are %s" % nonces)


def believed(gauge, stranger):
    """An AUTHORITY from another endpoint, or with another CPA, is not; then the right one is."""
    one = gauge.neighbour
    one.flood(KEY)
    inquiry = of_kind(one.taken(TICK / 3) or gauge.taken_for(1), "inquire", KEY)[0][1]
    stranger.send("authority", acked=inquiry["id"], cpa=partner.CPA)
    gauge.asks_again(stranger)
    one.send("authority", acked=inquiry["id"], cpa=b"\1")
    gauge.asks_again(one)
    time.sleep(2 * TICK)
    if gauge.number_told("held"):
        fault("an AUTHORITY of somebody else, or with another CPA, is believed")
    if not one.taught(OWN, KEY, is_on):
        fault("the gauge takes no record")
    while not gauge.number_told("held") and gauge.works():
        time.sleep(TICK)


def flooded(gauge, by):
    """The neighbour is flooded to; whoever it is sends an ACK which says that its key is not there."""
    floods = [m for m in (model.read(d, network.MAJOR)[1] for d in gauge.neighbour.taken(TICK / 3)) if m["type"] == "flood"]
    for flood in floods:
        by.send("ack", acked=flood["id"], n=True)
    gauge.asks_again(by)
    return len(floods)


def acknowledged(gauge, stranger):
    """A FLOOD is acknowledged by the one to whom it went, and by nobody else. Gives how many ACKs came from another; one may be too late to matter."""
    one, strange, until = gauge.neighbour, 0, time.monotonic() + ANSWER
    while strange < 3:
        strange += flooded(gauge, stranger)
        if time.monotonic() > until:
            fault("the gauge floods no more to its neighbour, of whom another has said that its key is not there")
    time.sleep(2 * TICK)
    if not gauge.number_told("held"):
        fault("an ACK from another endpoint than the FLOOD went to removes a key")
    until = time.monotonic() + ANSWER
    while gauge.number_told("held"):
        flooded(gauge, one)
        if time.monotonic() > until:
            fault("an ACK which says that a key is not there is not heard")
    return strange


def steps(folder, program):
    with One(folder, program) as gauge:
        stranger = partner.Partner(gauge.port)
        dropped(gauge)
        repeated(gauge)
        believed(gauge, stranger)
        strange = acknowledged(gauge, stranger)
        if not gauge.neighbour.taught(OWN, OTHER, is_on):
            fault("the gauge takes no record")
        said = gauge.ends()
    told = re.search(r"dropped: 3 too long, 0 from elsewhere, 7 malformed, (\d+) ACKs", said)
    if not told or not 0 < int(told.group(1)) <= strange or "refused: 2, not trusted" not in said:
        fault("what was dropped, with %d ACKs, and 2 that were not trusted are not told: %s" % (strange, said))
    if gauge.holds() != [OTHER]:
        fault("what was held at the end is not saved")


def revoked_again(gauge):
    """It is told of the key, and answered for it, again and again."""
    until = time.monotonic() + 5 * TICK
    gauge.neighbour.taught(OWN, KEY, lambda: time.monotonic() < until)
    time.sleep(2 * TICK)
    if gauge.number_told("held") != 1:
        fault("a key that was revoked is held again")


def stays_away(folder, program):
    """A key that was revoked is not learned again, nor by whoever goes on from what was saved; other keys are."""
    with One(folder, program) as gauge:
        if not all(gauge.neighbour.taught(OWN, key, is_on) for key in (KEY, OTHER)) or not gauge.neighbour.revoked(OWN, KEY, is_on):
            fault("the gauge takes no record, or no revocation")
        revoked_again(gauge)
        gauge.stop(signal.SIGKILL)
        if gauge.holds() != [OTHER] or partner.saved_revoked(gauge.path("cache"), partner.record(OWN, gauge.port)) != [KEY]:
            fault("a revocation is not saved at once")
        gauge.begin()
        revoked_again(gauge)
        gauge.ends()


def unsaved(folder, program):
    """A folder stands where the new cache would: that is told while it happens. Then it goes, and the cache is saved."""
    with One(folder, program, saves=1) as gauge:
        os.makedirs(gauge.path("cache.new") + "/x")
        if not gauge.neighbour.taught(OWN, KEY, is_on):
            fault("the gauge takes no record")
        until = time.monotonic() + ANSWER
        while "cache can't be written" not in gauge.said():
            if time.monotonic() > until:
                fault("that a cache can't be written is not told")
            time.sleep(TICK)
        gauge.ends(status=1)
        gauge.begin()
        os.removedirs(gauge.path("cache.new") + "/x")
        if not gauge.neighbour.taught(OWN, KEY, is_on):
            fault("the gauge takes no record")
        gauge.ends(by=signal.SIGTERM)
    if gauge.holds() != [KEY]:
        fault("the cache is not saved when it can be")


def in_use(folder, program):
    """A second gauge is refused the folder of the first."""
    with One(folder, program) as gauge:
        gauge.write("own", network.record_line(OTHER, network.free_ports(1)[0]))
        second = subprocess.run([*gauge.command, gauge.path("own"), gauge.path("records"), folder], capture_output=True, text=True, timeout=60)
        if second.returncode != 1 or "another gauge keeps its files there" not in second.stderr:
            fault("a folder is used by two gauges: %s" % second.stderr)
        gauge.ends()


def of_another_network(folder, program, network_told):
    """A gauge that hears others alone takes nothing from here, answers nobody, and does not call the gauge here that it was told of."""
    gauge = One(folder, program, "-n", network_told)
    gauge.knows([network.Gauge(2, SEED, gauge.neighbour.port, folder + "-seed", program, 1)])
    with gauge:
        for _ in range(3):
            gauge.neighbour.send("inquire", validate=OWN)
        until = time.monotonic() + ANSWER
        while gauge.number_told("came") != 3 and time.monotonic() < until:
            time.sleep(TICK)
        said = gauge.ends()
    if gauge.neighbour.taken(0.05):
        fault("something is sent out of its network")
    if "3 from elsewhere" not in said or "\n0 not sent" in said:
        fault("what comes from elsewhere, or would go there, is not told: %s" % said)


def recorded_so_far(folder, program):
    """Whoever is killed has its night up to the last tick or two: few ticks are less than a file's buffer."""
    with One(folder, program) as gauge:
        gauge.taken_for(FEW)
        ticks = gauge.number_told("ticks")
        gauge.stop(signal.SIGKILL)
    (path,) = glob.glob(gauge.path("night-*.trace"))
    with open(path, "rb") as f:
        there = sum(kind == 3 for kind, _ in model_night.records(f.read()))
    if there < ticks - 2:
        fault("a gauge was killed at tick %d, and its night has %d" % (ticks, there))


def called(folder, program):
    """A gauge that it was told of is called from tick to tick, as long as it is not held."""
    gauge = One(folder, program)
    gauge.knows([network.Gauge(2, SEED, gauge.neighbour.port, folder + "-seed", program, 1)])
    with gauge:
        floods = [m for _, m in of_kind(gauge.taken_for(FEW), "flood", bytes(32)) if m["route"]["key"] == OWN]
        gauge.ends()
    if len(floods) < FEW:
        fault("a gauge that it was told of was called %d times" % len(floods))


def main():
    folder, program = sys.argv[1], sys.argv[2:]
    steps(os.path.join(folder, "steps"), program)
    stays_away(os.path.join(folder, "revoked"), program)
    unsaved(os.path.join(folder, "unsaved"), program)
    in_use(os.path.join(folder, "in-use"), program)
    of_another_network(os.path.join(folder, "elsewhere"), program, "fd00::/8")
    of_another_network(os.path.join(folder, "elsewhere-by-a-bit"), program, "8000::/1")
    recorded_so_far(os.path.join(folder, "so-far"), program)
    called(os.path.join(folder, "called"), program)
    print("network: one gauge, step by step: what is dropped, repeated, believed, saved and not sent is as it must be")


if __name__ == "__main__":
    main()
