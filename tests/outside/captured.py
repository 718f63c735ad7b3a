#!/usr/bin/env python3
"""What gauges send one another on real sockets (examples/radio.c, tools/network.py), shown to Wireshark: each datagram is captured on the loopback and read
by tshark, by tools/drt.lua, which must show every value that the model reads and call none malformed, and by Wireshark's own dissector for PNRP, which
must agree on header and type. Every datagram that a gauge has recorded in its night is among them.

    captured.py FOLDER PROGRAM..

Capturing wants the right to (CAP_NET_RAW). Without it the datagrams are shown as the gauges have recorded them, and that is said.
"""
import collections
import contextlib
import ctypes
import glob
import io
import os
import socket
import struct
import sys
import threading
import time

sys.dont_write_bytecode = True
HERE = os.path.dirname(os.path.abspath(__file__))
ROOT = os.path.join(HERE, "..", "..")
sys.path[:0] = [HERE, os.path.join(ROOT, "tools")]
import network
import wireshark  # it finds the models
import model
import model_night

GAUGES, TICK = 6, 50
IPV6, OUTGOING, UDP = 0x86DD, 4, 17
ATTACH_FILTER = 26  # of Linux, which Python does not name
HEAD = 48        # bytes of an IPv6 packet before a datagram
ROW = 40         # bytes of a row of the hours
ADDRESS = socket.inet_pton(socket.AF_INET6, network.HOST)
KINDS = {4: "FLOOD", 7: "INQUIRE", 8: "AUTHORITY", 9: "ACK"}  # what radio.c sends


class Capture(threading.Thread):
    """The packets with UDP for some ports, until it is ended: of each the hour, in seconds, and its bytes."""

    def __init__(self, ports):
        super().__init__(daemon=True)
        self.socket = socket.socket(socket.AF_PACKET, socket.SOCK_DGRAM, socket.htons(IPV6))
        self.socket.setsockopt(socket.SOL_SOCKET, socket.SO_RCVBUF, 1 << 22)
        self.only(ports)
        self.socket.bind(("lo", IPV6))
        self.socket.settimeout(0.2)
        self.packets, self.going = [], True

    def only(self, ports):
        """The kernel hands us what goes to these ports alone (a filter of BPF): others may use the loopback too."""
        code = [(0x28, 0, 0, 42)] + [(0x15, len(ports) - i, 0, port) for i, port in enumerate(ports)] + [(0x06, 0, 0, 0), (0x06, 0, 0, 65535)]
        filled = ctypes.create_string_buffer(b"".join(struct.pack("=HBBI", *step) for step in code))
        self.socket.setsockopt(socket.SOL_SOCKET, ATTACH_FILTER, struct.pack("@HP", len(code), ctypes.addressof(filled)))

    def run(self):
        while True:  # until it is told to end, and nothing is left
            try:
                packet, place = self.socket.recvfrom(65536)
            except TimeoutError:
                if not self.going:
                    return
            else:
                if place[2] != OUTGOING and packet[6] == UDP:  # each packet is seen as it goes and as it comes
                    self.packets.append((time.time(), packet))

    def ended(self):
        self.going = False
        self.join()
        self.socket.close()
        return self.packets


def begun_capture(ports):
    try:
        capture = Capture(ports)
    except PermissionError:
        return None
    capture.start()
    return capture


def night(folder):
    """The datagrams that a gauge has recorded: of each the hour, and a packet, as it must have come."""
    (path,) = glob.glob(os.path.join(folder, "night-*.trace"))
    with open(path, "rb") as f, open(path[:-5] + "hours", "rb") as h, open(os.path.join(folder, "own"), encoding="ascii") as own:
        trace, hours, port = f.read(), h.read(), int(own.read().split()[2])
    at = row = 0
    while (record := model_night.taken(trace, at)) is not None and ROW * (row + 1) <= len(hours):  # one that was killed may have a part of the last
        kind, body, at = record
        if kind == 1:
            milliseconds, sender = struct.unpack_from("<Q18s", hours, ROW * row)
            udp = sender[:2] + struct.pack(">HHH", port, 8 + len(body) - 53, 0xFFFF) + body[53:]
            yield milliseconds / 1000, struct.pack(">IHBB", 6 << 28, len(udp), UDP, 64) + sender[2:] + ADDRESS + udp
        row += 1


def ends(packet):
    """Both endpoints, and the datagram."""
    return packet[8:44], packet[HEAD:]


def written(timed, path):
    """A file of packets as Wireshark reads it: microseconds, and IP packets without anything before them."""
    with open(path, "wb") as f:
        f.write(struct.pack("<IHHiIII", 0xA1B2C3D4, 2, 4, 0, 0, 65535, 101))
        for hour, p in timed:
            f.write(struct.pack("<IIII", int(hour), int(hour % 1 * 1000000), len(p), len(p)) + p)


def by_ours(packets, path, ports):
    """What tools/drt.lua shows otherwise than the model reads it."""
    decoded = [word for port in ports for word in ("-d", "udp.port==%d,drt" % port)]
    shown = list(wireshark.shown_in(wireshark.tshark_of(path, *wireshark.LUA, *decoded, "-O", "drt")))
    if len(shown) != len(packets):
        sys.exit("captured: tshark shows %d packets of %d" % (len(shown), len(packets)))
    return [p[HEAD:] for p, told in zip(packets, shown) if not wireshark.is_shown(p[HEAD:], *told)]


def by_their_own(packets, path, ports):
    """Of which datagrams Wireshark's own dissector says another header or type."""
    decoded = [word for port in ports for word in ("-d", "udp.port==%d,pnrp" % port)]
    texts = wireshark.tshark_of(path, *decoded, "-O", "pnrp").split("\nFrame ")
    if len(texts) != len(packets):
        sys.exit("captured: tshark shows %d packets of %d" % (len(texts), len(packets)))
    wrong = []
    for p, text in zip(packets, texts):
        lines = {line.strip() for line in text.splitlines()}
        if not set(wireshark.expected(model.read(p[HEAD:], network.MAJOR)[1])[:4]) <= lines:
            wrong.append(p[HEAD:])
    return wrong


def main():
    folder, program = sys.argv[1], sys.argv[2:]
    net = network.Network(GAUGES, os.path.join(folder, "gauges"), program, TICK)
    ports = [g.port for g in net.gauges]
    capture = begun_capture(ports)
    said = io.StringIO()
    try:
        with contextlib.redirect_stdout(said):
            network.happens(net, 2, 3, 4)
    finally:
        net.kill()
    recorded = sorted(timed for g in net.gauges for timed in night(g.folder))
    timed = capture.ended() if capture else recorded
    packets = [p for _, p in timed]
    missed = collections.Counter(ends(p) for _, p in recorded) - collections.Counter(map(ends, packets))
    if missed:
        sys.exit("captured: %d datagrams that the gauges have recorded were not captured" % sum(missed.values()))
    bad = [p[HEAD:] for p in packets if model.read(p[HEAD:], network.MAJOR)[0]]
    if bad:
        sys.exit("captured: the model refuses %s" % bad[0].hex())
    path = os.path.join(folder, "network.pcap")
    written(timed, path)
    ours, theirs = by_ours(packets, path, ports), by_their_own(packets, path, ports)
    kinds = collections.Counter(p[HEAD + 7] for p in packets)
    if set(kinds) != set(KINDS):
        sys.exit("captured: the kinds of messages are %s" % dict(kinds))
    for who, wrong in (("tools/drt.lua", ours), ("Wireshark's own dissector", theirs)):
        if wrong:
            print("captured: %s reads %d of %d datagrams otherwise, first %s" % (who, len(wrong), len(packets), wrong[0].hex()))
    print("captured: %d datagrams of %d gauges (%s), %s: under tshark tools/drt.lua reads %d otherwise, Wireshark's own dissector header or type of %d"
          % (len(packets), GAUGES, ", ".join("%d %s" % (n, KINDS[k]) for k, n in sorted(kinds.items())),
             "captured on the loopback" if capture else "as the gauges recorded them, as there is no right to capture here", len(ours), len(theirs)))
    print("captured: to look at them: wireshark -X lua_script:tools/drt.lua %s" % path)
    sys.exit(1 if ours or theirs else 0)


if __name__ == "__main__":
    main()
