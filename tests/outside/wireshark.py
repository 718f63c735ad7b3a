#!/usr/bin/env python3
"""Shows the good datagrams of the vectors to Wireshark, by its own dissector and by ours. `make outside` installs tshark and runs it; no test of the gate.

Its own is for PNRP 4.0 (document 004), which has DRT's header and most of its fields, and was written by nobody here. Of a whole datagram of ours it
reads the header and the first field, and then calls the packet malformed, as it does not know DRT's fields: how often is counted here. So each field is
shown to it as the first of a datagram with the same header. It takes a CPA apart where ours is opaque, and tests neither ranges nor left-over bytes:
what it is good for is numbers, lengths, flag bits and places.

Ours is tools/drt.lua, for all eight messages: of each good datagram, whole, every value that the model reads must be shown and nothing be called
malformed; of damaged ones, those that the model refuses must be, and no others. By itself it is tried in the gate (tests/outside/read).
"""
if not __debug__:
    raise SystemExit("wireshark.py: run it without -O and PYTHONOPTIMIZE, which leave its asserts out")
import importlib.machinery
import ipaddress
import os
import random
import struct
import subprocess
import sys
import tempfile

sys.dont_write_bytecode = True
HERE = os.path.dirname(os.path.abspath(__file__))
ROOT = os.path.join(HERE, "..", "..")
read = importlib.machinery.SourceFileLoader("read", os.path.join(HERE, "read")).load_module()  # it finds the models
import model


def places(datagram):
    """Where fields begin: after the header, each next one past the length, up to a multiple of 4."""
    at = 12
    while at + 4 <= len(datagram):
        yield at
        at += max(4, struct.unpack_from(">H", datagram, at + 2)[0])
        at += -at % 4


def capture(datagrams, path):
    """IPv6 UDP packets between two ports 3540, link type raw IP."""
    with open(path, "wb") as f:
        f.write(struct.pack("<IHHiIII", 0xA1B2C3D4, 2, 4, 0, 0, 65535, 101))
        for i, d in enumerate(datagrams):
            udp = struct.pack(">HHHH", 3540, 3540, 8 + len(d), 0xFFFF) + d
            ip = struct.pack(">IHBB", 6 << 28, len(udp), 17, 64) + bytes(15) + b"\1" + bytes(15) + b"\2" + udp
            f.write(struct.pack("<IIII", i, 0, len(ip), len(ip)) + ip)


def tshark_of(path, *words):
    """What tshark prints of a capture."""
    return subprocess.run(["tshark", "-r", path, *words], capture_output=True, text=True, check=True).stdout


def tshark(datagrams, *words):
    """What tshark prints of packets with these datagrams."""
    fd, path = tempfile.mkstemp(suffix=".pcap")
    os.close(fd)
    capture(datagrams, path)
    text = tshark_of(path, *words)
    os.unlink(path)
    return text


def dissected(datagram):
    """All lines that Wireshark's own dissector prints of the header and of each field."""
    cuts = [datagram[:12] + datagram[at:] + bytes(8) for at in places(datagram)]
    return {line.strip() for line in tshark(cuts, "-d", "udp.port==3540,pnrp", "-O", "pnrp").splitlines()}


def called_malformed(datagrams):
    """How many of the packets its own dissector calls malformed where each is shown whole."""
    return tshark(datagrams, "-d", "udp.port==3540,pnrp").count("[Malformed Packet")


def entry_lines(e):
    """A route entry, or nothing."""
    if e is None:
        return []
    lines = ["PNRP ID: " + e["key"].hex(), "Version Major: %d" % e["major"], "Version Minor: %d" % e["minor"], "Port Number: %d" % e["port"],
             "Flags: %d" % e["flags"], "Address Count: %d" % len(e["addresses"])]
    return lines + ["IPv6 Address: %s" % ipaddress.IPv6Address(a) for a in e["addresses"]]


def expected(m):
    """What the dissector must say of a message, from the model's reading of it."""
    kinds = {"solicit": 1, "advertise": 2, "request": 3, "flood": 4, "inquire": 7, "authority": 8, "ack": 9, "lookup": 11}
    lines = ["Message Type: %s (%d)" % (m["type"].upper(), kinds[m["type"]]), "Version Major: %d" % m["major"], "Version Minor: %d" % m["minor"],
             "Message ID: 0x%08x" % m["id"]]
    if "acked" in m:
        lines.append("ACKed Header ID: 0x%08x" % m["acked"])
    if "d" in m:
        lines.append(".... ...%d = (D)on't send ACK: %s" % (m["d"], bool(m["d"])))
    for name in ("validate", "target"):
        if name in m:
            lines.append("PNRP ID: " + m[name].hex())
    lines += entry_lines(m.get("route"))
    for key in m.get("keys") or []:
        lines.append("PNRP ID: " + key.hex())
    return lines


LUA = ("-X", "lua_script:" + os.path.join(ROOT, "tools", "drt.lua"))
OURS = (*LUA, "-d", "udp.port==3540,drt")


def values_of(d):
    """What our dissector must show of a datagram: each value of the line that tests/outside/read wants, in order."""
    words = [word.split("=")[1] for word in read.wanted(d).split(" ") if "=" in word]
    return words[:2] + words[4:]  # type and ID are shown in words of their own


def shown_in(text):
    """Of each packet in what tshark printed the values that our dissector shows, and whether it is called malformed or in part."""
    for packet in text.split("\nFrame "):
        layer = packet.split("Distributed Routing Table, ", 1)[-1].split("\n")
        lines = [line.strip().replace("[truncated]", "") for line in layer[1:] if ":" in line and not line.strip().startswith("[E")]
        values = [line.split(":", 1)[1].strip() for line in lines if not line.startswith(("Message type", "Message ID"))]
        yield [str(int(v, 16)) if v.startswith("0x") else v for v in values], "(Error/Malformed)" in packet, "(Note/Reassemble)" in packet


def shown_by_ours(datagrams):
    return shown_in(tshark(datagrams, *OURS, "-O", "drt"))


def as_shown(value, shown):
    """Is it the value, of which tshark shows the first 200 characters or so?"""
    return value == shown or (len(shown) > 150 and value.startswith(shown))


def is_shown(d, values, malformed, part):
    """Is a good datagram shown as the model reads it?"""
    return not malformed and not part and len(values) == len(values_of(d)) and all(map(as_shown, values_of(d), values))


def by_ours(whole):
    """The differences between our dissector under tshark and the model."""
    wrong = 0
    for d, (values, malformed, part) in zip(whole, shown_by_ours(whole)):
        if not is_shown(d, values, malformed, part):
            wrong += 1
            print("outside: drt.lua shows %s of %s" % (values, d.hex()[:80]))
    chance = random.Random(30)
    bad = [d for d in read.damaged(whole, chance) if 12 <= len(d) <= 1232 and chance.random() < 0.15]
    for d, (_, malformed, part) in zip(bad, shown_by_ours(bad)):
        number = int(read.wanted(d)[0])
        if (malformed, part) != (number in (3, 5, 6), number == 7):
            wrong += 1
            print("outside: drt.lua finds %s malformed, %s in part; the model %d: %s" % (malformed, part, number, d.hex()[:80]))
    return len(whole) + len(bad), wrong


def by_their_own(whole):
    """The differences between Wireshark's PNRP dissector, each field shown as a first one, and the model."""
    wrong = 0
    for d in whole:
        lines = dissected(d)
        for line in expected(model.read(d, d[5])[1]):
            if line not in lines:
                wrong += 1
                print("outside: the PNRP dissector does not say '%s' of %s" % (line, d.hex()[:80]))
    return wrong


def main():
    whole = read.good()
    assert whole
    theirs = by_their_own(whole)
    print("outside: %d datagrams field by field to Wireshark's PNRP dissector, %d differences; whole, it calls %d of them malformed"
          % (len(whole), theirs, called_malformed(whole)))
    shown, ours = by_ours(whole)
    print("outside: %d datagrams, whole and damaged, to tools/drt.lua under tshark, %d differences" % (shown, ours))
    sys.exit(1 if theirs or ours else 0)


if __name__ == "__main__":
    main()
