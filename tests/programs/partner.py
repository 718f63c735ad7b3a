"""What the tests of the network share: a neighbour in Python, whose datagrams the model writes and reads (tests/models/model.py), and a cache that
examples/radio.c has saved.
"""
import os
import select
import socket
import sys
import time

import with_models
import model

sys.path.insert(0, os.path.join(os.path.dirname(os.path.abspath(__file__)), "..", "..", "tools"))
import network

ADDRESS = socket.inet_pton(socket.AF_INET6, network.HOST)
CPA = b"\0"      # the stand-in that radio.c believes
ANSWERS = 0.015  # seconds that a gauge is given until it is asked again
# Bytes of a saved cache: 64 records, the own key, how many keys are known to be revoked, 16 places for them, and a sum.
CACHE, OWN_AT, COUNT_AT, REVOKED_AT, SUM_AT = 6400, 6400, 6432, 6433, 6945
SAVED = SUM_AT + 8


def record(key, port):
    """A record of somebody on this machine."""
    return key + model.two(port) + b"\1\0" + ADDRESS + bytes(48)


class Partner:
    """A socket that tells a gauge of keys and answers for them."""

    def __init__(self, port):
        self.gauge, self.identity, self.sent, self.came = (network.HOST, port), 0, 0, []
        self.socket = socket.socket(socket.AF_INET6, socket.SOCK_DGRAM)
        self.socket.bind((network.HOST, 0))
        self.port = self.socket.getsockname()[1]

    def send(self, kind, **fields):
        """A message to the gauge; its ID."""
        self.identity += 1
        self.socket.sendto(model.write(model.message(kind, network.MAJOR, network.MINOR, self.identity, **fields)), self.gauge)
        self.sent += 1
        return self.identity

    def flood(self, key):
        """The record of a key is at this socket. An ACK is wanted."""
        entry = {"key": key, "major": network.MAJOR, "minor": network.MINOR, "port": self.port, "flags": 0, "addresses": [ADDRESS]}
        return self.send("flood", validate=bytes(32), route=entry)

    def answered(self, own, seconds):
        """Asks the gauge for its own key. What came up to its answer, which is behind all that it has sent before; None where none comes in time, and what
        came is then told with the next answer."""
        identity, until = self.send("inquire", validate=own), time.monotonic() + seconds
        while select.select([self.socket], [], [], max(0, until - time.monotonic()))[0]:
            number, m = model.read(self.socket.recv(2000), network.MAJOR)
            if number:
                sys.exit("network: the gauge has sent what the model refuses, with number %d" % number)
            if m["type"] == "authority" and m["acked"] == identity:
                before, self.came = self.came, []
                return before
            self.came.append(m)
        return None

    def taken(self, seconds):
        """All datagrams that come within so many seconds, as they are."""
        until, came = time.monotonic() + seconds, []
        while select.select([self.socket], [], [], max(0, until - time.monotonic()))[0]:
            came.append(self.socket.recv(2000))
        return came

    def taught(self, own, key, goes_on):
        """Tells the gauge of a key, and answers for it, until the gauge inquires no more: the key is then held. Gives whether it came to that."""
        told = False
        while goes_on():
            identity = self.flood(key)
            came = self.answered(own, ANSWERS) or []
            inquiries = [m["id"] for m in came if m["type"] == "inquire" and m["validate"] == key]
            if told and not inquiries and acks(came, identity):
                return True
            for inquiry in inquiries:
                self.send("authority", acked=inquiry, cpa=CPA)
                told = True
        return False

    def revoked(self, own, key, goes_on):
        """Tells the gauge that a key is revoked, until its ACK comes. Gives whether it came to that."""
        while goes_on():
            identity = self.send("flood", validate=bytes(32), revoke=key)
            if acks(self.answered(own, ANSWERS) or [], identity):
                return True
        return False


def acks(came, identity):
    return any(m["type"] == "ack" and m["acked"] == identity for m in came)


def sum_of(saved):
    """FNV-1a of 64 bits, as its authors have published it, least significant byte first."""
    n = 0xCBF29CE484222325
    for byte in saved:
        n = (n ^ byte) * 0x100000001B3 % 2**64
    return n.to_bytes(8, "little")


def saved_whole(path, own):
    """A saved cache, which must be there, whole and in form."""
    if not os.path.exists(path):
        sys.exit("network: there is no %s" % path)
    with open(path, "rb") as f:
        saved = f.read()
    if len(saved) != SAVED or saved[OWN_AT:COUNT_AT] != own[:32] or saved[COUNT_AT] > 16 or sum_of(saved[:SUM_AT]) != saved[SUM_AT:]:
        sys.exit("network: %s is damaged" % path)
    if model.held(own, saved[:CACHE]) is None:
        sys.exit("network: %s is not in form" % path)
    return saved


def saved_cache(path, own):
    """Its records, 6,400 bytes."""
    return saved_whole(path, own)[:CACHE]


def saved_revoked(path, own):
    """The keys that it has as revoked, the oldest first."""
    saved = saved_whole(path, own)
    return [saved[REVOKED_AT + 32 * i:REVOKED_AT + 32 * i + 32] for i in range(saved[COUNT_AT])]
