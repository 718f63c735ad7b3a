#!/usr/bin/env python3
"""Vectors for the calls. They act on what the calls before them left, so the lines are read in their order.

    gauge OWN C CPAS MAJOR MINOR                     a gauge with an empty cache of C records, its firsts, and an empty waiting table; OWN is its own
                                                     records, CPAS their CPAs as they are lent, each behind its length
    set-cache BYTES, set-firsts BYTES, set-waiting BYTES
                                                     other bytes for one of them, and only for it; these four answer ok
    receive ID NONCE VERDICT KEY DATAGRAM ROOM
    send ID NEIGHBOUR KEY ROOM
    tick ROOM
    list KEY ROOM
    nearest PATH TARGET                              gauge_closest; PATH is endpoints as on the wire, port 2 and address 16
    find KEY                                         gauge_search
    convert                                          gauge_convert; the own record may be of the time before request 13 too
    held                                             the keys held
    firsts                                           how many keys begin with each byte, as byte:number, those left out that are 0
    waits                                            the places used, as ID:kind:tries:key
    look MAJOR DATAGRAM                              the twelve numbers of gauge_look (D23)

    vector_calls.py                                  checks the numbers, lengths and bytes that the documents give

ROOM is the length of the output, two bytes; it is filled with EE before each call. A call's answer is number, first and second; the bytes that
it has put at the start of the output (first + second, for a tick 4 x first, for a list 32 x (first + second), for a nearest, a find and a convert,
which are lent no output, none), - for none; `same` or `changed` for the cache, then for the firsts, then for the waiting table, whether a call is
lent it or not; `clean` where all of the output behind those bytes is still EE, else `dirty`. IDs and numbers are decimal, keys and bytes in
hexadecimal without leading zeros.

A `want` is what the documents give: the number, or number, first and second, or the whole list; it is compared with the model's answer.
`sends` are the datagrams, laid out by hand.

Where to find what (each is a function below, and a heading of crates/vectors/stdin):

    case 14 of document 01; case 13 by a receive              case14; limits
    the datagrams that go out, byte by byte                   bytewise (in hexadecimal), and every `sends`
    every number of every call; two at once                   refusals, pairs; TABLES says which there are, and the check that none is left out
    nothing has changed after a refusal                       every refused line: `- same same clean`
    a place freed, then refused for room; a late AUTHORITY    the end of refusals; revocations
    every type looked at, with and without each field         looking
    the ring: drops, lists and LOOKUPs across its end         across, listing, answered (and vector_memory, ring_lists to ring_near)

    The vectors of D67, against gauges that would pass without them:
    verdict 0, 2, 257 with a FLOOD that has a route entry     floods, "the verdict is ignored"
    an ACK for an inquiry's ID, an AUTHORITY for a flood's    acked, authorities, at their start
    an ACK with its flags and N clear; N for a key not held   acked
    the very same record, other versions; another port        floods, "the very same record", "the same key with another port"
    a LOOKUP whose route entry names us                       asked, "our own key is passed over"
    a LOOKUP's path, and its route entry inquired about       paths, asked (and vector_memory, on_the_path, outwards)
    how many keys a search compares                           searching (and vector_memory, comparing)
    several own records, their CPAs and lists; the drop       several, lent_cpas (and vector_memory, ponds)
    how many keys begin with each byte                        counting, lent_firsts
    two to four addresses: the first kept; the conversion     addresses, converting (and vector_memory, cache_forms, waiting_forms)
    id + 1 is a waiting flood's ID; ID 4294967295 with D      identities
    a flood with the own key in the waiting table             memory, "in form"
    a second FLOOD for a waiting key                          floods, "an inquiry for the key is waiting"
    lengths that are right only modulo 65,536                 malformed (and vector_messages.counts)
    the last good and first bad of every count and length     limits, memory, room, answered (and vector_messages.counts)
    00A1 and 00A2 at each of their places                     malformed (and vector_messages.encrypted)
"""
if not __debug__:
    raise SystemExit("vector_calls.py: run it without -O and PYTHONOPTIMIZE, which leave its asserts out")
import with_models
import model
import vector_messages as laid
from vector_memory import A, ANY, B, TOP, at, cache, flood as flood_place, inquiry, kept, key, ours, point, put, record, some, table

MAJOR, MINOR = 6, 101
OWN, CPA, NONCE, ZERO = record(100, 1, 5100), bytes([1, 2, 3, 4, 5]), bytes(range(0xA0, 0xB0)), bytes(32)
ROOM = 2464  # docs/MEMORY.md: always enough


def lent_as(*cpas):
    """CPAs as they are lent (docs/MEMORY.md): each behind its length, two bytes, the least significant first."""
    return b"".join(bytes([len(cpa) % 256, len(cpa) // 256]) + cpa for cpa in cpas)


# What is given when several apply: the first of this list that does. Document 01: "The lowest number that applies is given"; document 02 puts its
# numbers 18 to 25 between these, so that the order is written here, and not taken from the size of the numbers.
ORDER = (1, 2, 3, 4, 5, 6, 7, 8, 9, 10, 11, 12, 13, 14, 15)


def given(applies):
    assert applies <= set(ORDER), applies
    return next((n for n in ORDER if n in applies), 0)


def counts(*firsts):
    """How often each byte stands among these, as the firsts have it (docs/MEMORY.md): 256 numbers of two bytes, the least significant first."""
    s = bytearray(512)
    for first in firsts:
        s[2 * first] = (s[2 * first] + 1) % 256
        s[2 * first + 1] += s[2 * first] == 0
    return bytes(s)


# Which numbers of document 01's table apply, each judged by itself as far as what is lent can be read. The first in order must be the one given.

def datagram_applies(d, major):
    """2 to 7, which look at the datagram alone; the kind of message; and the message, also where bytes are left over behind it."""
    numbers = {n for n, applies in ((2, not 12 <= len(d) <= 1232), (3, d[:5] != model.FIXED), (4, len(d) > 5 and d[5] != major),
                                    (5, len(d) > 7 and d[7] not in model.TYPES)) if applies}
    kind = model.TYPES.get(d[7]) if len(d) > 7 else None
    e = (model.FIXED + bytes([major]) + d[6:])[:1232]
    if kind is None:
        at = 12  # of an unknown type 6 can still say that a field runs past the end
        while at < len(e):
            at += max(4, model.value(e[at + 2:at + 4]))
        return numbers | ({6} if at > len(e) else set()), kind, None
    m = next((m for number, m in (model.read(e[:n], major) for n in range(len(e), 11, -1)) if number == 0), None)
    if model.read(e, major)[0] == 6:
        numbers.add(6)
    in_part = kind == "authority" and len(e) >= 28 and (model.value(e[24:26]) != len(e) - 28 or e[26:28] != bytes(2))
    if kind in ("solicit", "advertise", "request") or in_part:
        numbers.add(7)
    if kind == "flood" and m is not None and m["revoke"] is not None:
        kind = "revocation"
    return numbers, kind, m


def opening_applies(places, identity):
    return ({13} if identity in [p["id"] for p in places] else set()) | ({14} if len(places) == 16 else set())


def must_ask(records, places, r):
    return r not in records and not any(p["kind"] == 2 and model.value(p["key"]) == model.key_of(r) for p in places)


def receive_applies(g, lent, room):
    d, verdict = lent.datagram, lent.verdict
    numbers, kind, m = datagram_applies(d, g.major)
    records, places, own_records = model.State(g).records, model.State(g).places, model.own_records(g.own)
    if own_records is None or records is None or places is None or len(lent.nonce) != 16 or len(lent.key) != 32:
        return numbers | {1}, kind
    if g.firsts != counts(*(r[0] for r in records)):
        return numbers | {1}, kind
    cpas = model.cpas_of(g.cpas, len(own_records))
    if cpas is None:
        return numbers | {1}, kind
    own, key_named, need = [model.key_of(r) for r in own_records], model.value(lent.key), 0
    if kind in ("ack", "authority") and d[12:16] == bytes.fromhex("00180008"):
        waiting = [p for p in places if p["id"] == model.value(d[16:20]) and p["kind"] == (1 if kind == "ack" else 2)]
        numbers |= {8} if not waiting else set()
        if kind == "authority":
            numbers |= {9} if verdict != 1 or (m is not None and m["cpa"] is None) else set()
            numbers |= {10} if verdict == 1 and waiting and model.value(waiting[0]["key"]) != key_named else set()
    if kind == "revocation":
        numbers |= ({9} if verdict != 1 else set()) | ({11} if key_named in own else set())
    if kind == "flood" and m is not None:
        r = model.record_of(m["route"])
        numbers |= {11} if model.key_of(r) in own else set()
        if must_ask(records, places, r):
            numbers |= opening_applies(places, (lent.identity + 1) % 2 ** 32)
            need += 76
    if kind in ("flood", "revocation") and m is not None and not m["d"]:
        need += 20 if model.value(m["validate"]) in own else 26
    if kind == "inquire" and m is not None:
        named = [cpa for k, cpa in zip(own, cpas) if k == model.value(m["validate"])]
        numbers |= {12} if not named else set()
        need = 40 + len(named[0] if named else cpas[0])  # of a key that is not ours as if it were the first
    if kind == "lookup" and m is not None:
        need = 80 + 16 * model.closest(g.own, records, m["path"], model.value(m["target"]))[34]
        r = model.record_of(m["route"]) if m["route"] is not None else own_records[0]
        if model.key_of(r) not in own and must_ask(records, places, r):
            numbers |= opening_applies(places, (lent.identity + 1) % 2 ** 32)
            need += 76
    return numbers | ({15} if need > room else set()), kind


def send_applies(g, lent, room):
    neighbour, named = lent.neighbour, lent.key
    records, places = model.State(g).records, model.State(g).places
    if model.own_records(g.own) is None or records is None or places is None:
        return {1}
    shown = [r for r in model.own_records(g.own) + records if r[:32] == named]
    bad = len(neighbour) != 32 or len(named) != 32
    numbers = ({1} if bad else set()) | ({12} if neighbour not in [r[:32] for r in records] or not shown else set())
    need = 100 + 16 * (shown[0][34] if shown else 1)
    return numbers | opening_applies(places, lent.identity) | ({15} if need > room else set())


# The numbers that each can give, in their order. Each is given at least once, and with each neighbour at once.
TABLES = {"datagram": (1, 2, 3, 4, 5, 6), "solicit": (6, 7), "advertise": (6, 7), "request": (6, 7), "flood": (6, 11, 13, 14, 15),
          "revocation": (6, 9, 11, 15), "inquire": (6, 12, 15), "authority": (6, 7, 8, 9, 10), "ack": (6, 8), "lookup": (6, 13, 14, 15),
          "send": (1, 12, 13, 14, 15), "tick": (1, 15), "list": (1, 12, 15), "nearest": (1,), "find": (1,), "convert": (1,),
          "look": (2, 3, 4, 5, 6), "look at authority": (6, 7)}


class Gauge:
    """The gauge that the lines act on, in `now`. Each method hands back one vector. `seen`: which numbers applied to what, and which was given."""

    def __init__(self):
        self.seen, self.now = [], None

    def start(self, own=OWN, c=10, cpas=lent_as(CPA), major=MAJOR, minor=MINOR):
        self.now = model.Gauge(own, bytes(100 * c), cpas=cpas, major=major, minor=minor)
        return ("gauge", own, c, cpas, major, minor), "ok"

    def set_cache(self, s):
        """With the firsts that belong to it: of all its rows that are not zero, in form or not, so that a cache is refused for itself alone."""
        self.now.cache = s
        return [(("set-cache", s), "ok"), self.set_firsts(counts(*(r[0] for r in model.rows_in(s))))]

    def set_firsts(self, s):
        self.now.firsts = s
        return ("set-firsts", s), "ok"

    def set_waiting(self, s):
        self.now.waiting = s
        return ("set-waiting", s), "ok"

    def answer(self, call, operands, kinds, applies, room, size, want, sends=None):
        """`call` makes the call with the output that it is handed; `size` is how many bytes of it are written, by the two counts."""
        before = self.now.memory()
        number, first, second, output = call(b"\xEE" * room)
        after = self.now.memory()
        assert number == given(applies), (operands[0], number, first, second, applies)
        self.seen += [(kind, applies, number) for kind in kinds]
        used = size(first, second)
        assert want in (number, (number, first, second)), (operands[0], number, first, second, want)
        assert sends is None or b"".join(sends) == output[:used], (output[:used].hex(), [d.hex() for d in sends])
        assert len(output) == room and (number == 0 or (output, after) == (b"\xEE" * room, before))
        words = [output[:used].hex() or "-"] + ["same" if old == new else "changed" for old, new in zip(before, after)]
        words.append("clean" if output[used:] == b"\xEE" * (room - used) else "dirty")
        return operands, "%d %d %d %s" % (number, first, second, " ".join(words))

    def receive(self, datagram, want, identity=7, nonce=NONCE, verdict=0, named=ZERO, room=ROOM, sends=None):
        lent = model.Lent(identity, nonce=nonce, verdict=verdict, key=named, datagram=datagram)
        applies, kind = receive_applies(self.now, lent, room)
        return self.answer(lambda output: self.now.receive(lent, output), ("receive", identity, nonce, verdict, named, datagram, model.two(room)),
                           ("datagram", kind), applies, room, lambda a, b: a + b, want, sends)

    def send(self, neighbour, named, want, identity=7, room=ROOM, sends=None):
        lent = model.Lent(identity, neighbour=neighbour, key=named)
        return self.answer(lambda output: self.now.send(lent, output), ("send", identity, neighbour, named, model.two(room)), ("send",),
                           send_applies(self.now, lent, room), room, lambda a, b: a + b, want, sends)

    def tick(self, want, room=64, sends=None):
        g = self.now
        bad = model.own_records(g.own) is None or model.State(g).places is None
        applies = ({1} if bad else set()) | ({15} if room < 64 else set())
        return self.answer(g.tick, ("tick", model.two(room)), ("tick",), applies, room, lambda a, b: 4 * a, want, sends)

    def list(self, want, room=320, sends=None, named=None):
        """Of the first own key, where none is named."""
        g = self.now
        k, own_records = g.own[:32] if named is None else named, model.own_records(g.own)
        bad = own_records is None or model.State(g).records is None or len(k) != 32
        applies = ({1} if bad else set()) | ({15} if room < 320 else set())
        applies |= {12} if own_records is not None and k not in [r[:32] for r in own_records] else set()
        return self.answer(lambda output: g.neighbours(k, output), ("list", k, model.two(room)), ("list",), applies, room, lambda a, b: 32 * (a + b),
                           want, sends)

    def nearest(self, path, target, want):
        g, lent = self.now, model.Lent(path=path, target=target)
        bad = model.own_records(g.own) is None or model.State(g).records is None or len(path) % 18 != 0 or len(target) != 32
        return self.answer(lambda output: g.closest(lent, output), ("nearest", path, target), ("nearest",), {1} if bad else set(), 0,
                           lambda a, b: 0, want)

    def find(self, named, want):
        g, lent = self.now, model.Lent(key=named)
        bad = model.own_records(g.own) is None or model.State(g).records is None or len(named) != 32
        return self.answer(lambda output: g.search(lent, output), ("find", named), ("find",), {1} if bad else set(), 0, lambda a, b: 0, want)

    def convert(self, want):
        g = self.now
        records, places = model.held(g.own, g.cache, model.old_record_form), model.waits(g.own, g.waiting, model.old_record_form)
        bad = model.own_records(g.own, model.old_record_form) is None or records is None or places is None
        now = g.memory() if bad else [cut(g.cache, 100, 0, 34), g.firsts, cut(g.waiting, 140, 40, 74)]
        line = self.answer(g.convert, ("convert",), ("convert",), {1} if bad else set(), 0, lambda a, b: 0, want)
        assert g.memory() == now
        return line

    def look(self, datagram, want, major=MAJOR):
        """`want` is the number, or all twelve."""
        result = model.look(major, datagram)
        assert want in (result[0], result), (result, want)
        applies, kind, _ = datagram_applies(datagram, major)
        if kind in ("solicit", "advertise", "request"):
            applies -= {7}  # 01: reading gives "7 only for an AUTHORITY in part"
        assert result[0] == given(applies), (result, applies)
        self.seen += [("look", applies, result[0])] + ([("look at authority", applies, result[0])] if kind == "authority" else [])
        return ("look", major, datagram), " ".join(map(str, result))

    def held(self, want):
        keys = [model.key_of(r) for r in model.State(self.now).records]
        assert keys == list(want), (keys, want)
        return ("held",), ",".join("%x" % k for k in keys) or "-"

    def firsts(self, want):
        """`want` has the number of each byte with which a key begins."""
        numbers = [int.from_bytes(self.now.firsts[at:at + 2], "little") for at in range(0, 512, 2)]
        assert {byte: n for byte, n in enumerate(numbers) if n} == want, (numbers, want)
        return ("firsts",), ",".join("%x:%d" % (byte, n) for byte, n in sorted(want.items())) or "-"

    def waits(self, want):
        """`want` has (ID, kind, tries, key) for each place."""
        places = [(p["id"], p["kind"], p["tries"], model.value(p["key"])) for p in model.State(self.now).places]
        assert places == list(want), (places, want)
        return ("waits",), ",".join("%d:%d:%d:%x" % p for p in places) or "-"


FLOOD, INQUIRY = 1, 2


# 02, request 13, byte by byte: in rows of a memory a record begins at `start` where its count at `count` is not zero.
def cut(memory, width, start, count):
    rows = [memory[at:at + width] for at in range(0, len(memory), width)]
    return b"".join(put(row, start, kept(row[start:start + 100])) if row[count] else row for row in rows)


# Datagrams that come in.

def entry(r, versions=(MAJOR, MINOR), flags=0):
    return {**model.entry_of(r, *versions), "flags": flags}


def message(kind, identity, major=MAJOR, minor=MINOR, **fields):
    return model.write(model.message(kind, major, minor, identity, **fields))


def flood(r, identity=0x500, validate=100, versions=(MAJOR, MINOR), flags=0, **fields):
    return message("flood", identity, validate=key(validate), route=entry(r, versions, flags), **fields)


def revocation(identity=0x600, validate=100, revoke=b"revoked", **fields):
    return message("flood", identity, validate=key(validate), revoke=revoke, **fields)


def authority(acked, identity=0x700, cpa=b"certified", **fields):
    return message("authority", identity, acked=acked, cpa=cpa, **fields)


def ack(acked, n=None, identity=0x800):
    return message("ack", identity, acked=acked, n=n)


def inquire(n, identity=0x900, **fields):
    return message("inquire", identity, validate=key(n), **{"a": True, "nonce": bytes(range(16)), **fields})


def lookup(target, identity=0xA00, validate=100, path=(bytes(range(18)),), **fields):
    return message("lookup", identity, target=key(target), validate=key(validate), path=list(path), **fields)


SOLICIT = message("solicit", 0xB00, hashed_nonce=bytes(20))
ADVERTISE = message("advertise", 0xB01, acked=1, keys=[key(7)], hashed_nonce=bytes(20))
REQUEST = message("request", 0xB02, nonce=bytes(16), keys=[key(7)])


# Datagrams that go out, by the table "What the calls write" of docs/DECISIONS.md, laid out by hand.

def header(code, identity, versions="0665"):
    return bytes.fromhex("0010000C51" + versions) + bytes([code]) + identity.to_bytes(4, "big")


def ack_out(identity, acked, n, versions="0665"):
    return header(9, identity, versions) + bytes.fromhex("00180008") + acked.to_bytes(4, "big") + bytes.fromhex("004000060001" if n else "")


def inquire_out(identity, n, versions="0665"):
    return header(7, identity, versions) + bytes.fromhex("0040000600100000" + "00390024") + key(n) + bytes.fromhex("00930014") + NONCE


def route_out(r, versions="0665"):
    count = r[34]
    head = bytes.fromhex("009A") + (42 + 16 * count).to_bytes(2, "big")
    return head + r[:32] + bytes.fromhex(versions) + r[32:34] + bytes([0, count]) + r[36:36 + 16 * count] + bytes(2)


def authority_head(identity, acked, size, versions):
    """Up to the buffer's flags, all clear; `size` is that of the buffer."""
    split = bytes.fromhex("00980008") + size.to_bytes(2, "big") + bytes(2)
    return header(8, identity, versions) + bytes.fromhex("00180008") + acked.to_bytes(4, "big") + split + bytes.fromhex("0040000600000000")


def cpa_out(identity, acked, cpa, versions="0665"):
    return authority_head(identity, acked, 12 + len(cpa), versions) + bytes.fromhex("009B") + (4 + len(cpa)).to_bytes(2, "big") + cpa


def shown_out(identity, acked, r, versions="0665"):
    return authority_head(identity, acked, 52 + 16 * r[34], versions) + route_out(r, versions)


def flood_out(identity, neighbour, r, versions="0665"):
    return header(4, identity, versions) + bytes.fromhex("0043000700000000" + "00390024") + key(neighbour) + route_out(r, versions)


def story(g):
    yield "# from an empty gauge: a FLOOD of a new key is acked and inquired about, and learned only when its AUTHORITY comes"
    seventy = record(70, 1, 4070)
    yield g.start()
    yield g.held([])
    yield g.waits([])
    yield g.receive(flood(seventy, 0xD8859CF5), (0, 20, 76), 7, sends=[ack_out(7, 0xD8859CF5, False), inquire_out(8, 70)])
    yield g.held([])
    yield g.waits([(8, INQUIRY, 2, 70)])
    yield g.receive(lookup(71), (0, 96, 0), 9, sends=[shown_out(9, 0xA00, OWN)])
    yield g.receive(authority(8), (0, 0, 0), 10, verdict=1, named=key(70))
    yield g.held([70])
    yield g.waits([])
    yield g.list((0, 1, 0), sends=[key(70)])
    yield g.receive(lookup(71), (0, 96, 0), 11, sends=[shown_out(11, 0xA00, seventy)])
    yield g.receive(inquire(100), (0, 45, 0), 12, sends=[cpa_out(12, 0x900, CPA)])
    yield g.send(key(70), key(100), (0, 116, 0), 13, sends=[flood_out(13, 70, OWN)])
    yield g.waits([(13, FLOOD, 2, 70)])
    yield g.tick((0, 1, 0), sends=[bytes.fromhex("0D000000")])
    yield g.waits([(13, FLOOD, 1, 70)])
    yield g.receive(ack(13), (0, 0, 0))
    yield g.held([70])
    yield g.waits([])
    yield g.receive(flood(record(130, 3)), (0, 20, 76), 20, sends=[ack_out(20, 0x500, False), inquire_out(21, 130)])
    yield g.receive(authority(21), (0, 0, 0), verdict=1, named=key(130))
    yield g.list((0, 1, 1), sends=[key(70), key(130)])
    yield g.send(key(130), key(70), (0, 116, 0), 30, sends=[flood_out(30, 130, seventy)])
    yield g.send(key(70), key(130), (0, 116, 0), 31, sends=[flood_out(31, 70, record(130))])
    yield g.receive(ack(30, True), (0, 0, 0))
    yield g.held([70])
    yield g.waits([(31, FLOOD, 2, 70)])
    yield g.receive(revocation(), (0, 20, 0), 40, verdict=1, named=key(70), sends=[ack_out(40, 0x600, False)])
    yield g.held([])
    yield g.waits([(31, FLOOD, 2, 70)])
    yield g.list((0, 0, 0))
    yield "# the same with other versions: they stand in every header and route entry that is sent, and another major is refused"
    yield g.start(major=255, minor=0)
    yield g.receive(flood(seventy, validate=7), 4)
    yield g.receive(flood(seventy, validate=7, major=255, minor=9), (0, 26, 76), sends=[ack_out(7, 0x500, True, "FF00"), inquire_out(8, 70, "FF00")])
    yield g.receive(authority(8, major=255), (0, 0, 0), verdict=1, named=key(70))
    yield g.receive(lookup(71, major=255), (0, 96, 0), sends=[shown_out(7, 0xA00, seventy, "FF00")])
    yield g.receive(inquire(100, major=255), (0, 45, 0), sends=[cpa_out(7, 0x900, CPA, "FF00")])
    yield g.send(key(70), key(70), (0, 116, 0), sends=[flood_out(7, 70, seventy, "FF00")])


def floods(g):
    yield "# FLOOD with a route entry: D and N; the INQUIRE stands first where no ACK is written"
    r = record(70, 4)
    for fields, first, second, sends in (({}, 20, 76, [ack_out(7, 0x500, False), inquire_out(8, 70)]),
                                         ({"validate": 70}, 26, 76, [ack_out(7, 0x500, True), inquire_out(8, 70)]),
                                         ({"validate": 0}, 26, 76, [ack_out(7, 0x500, True), inquire_out(8, 70)]),
                                         ({"d": True}, 76, 0, [inquire_out(8, 70)]),
                                         ({"d": True, "validate": 70}, 76, 0, [inquire_out(8, 70)])):
        yield g.start()
        yield g.receive(flood(r, **fields), (0, first, second), sends=sends)
        yield g.waits([(8, INQUIRY, 2, 70)])
    yield "# validate keys that differ from ours in the first byte and in the last"
    for validate in (101, 2 ** 255 + 100, 2 ** 32 + 100):
        yield g.start()
        yield g.receive(flood(r, validate=validate), (0, 26, 76), sends=[ack_out(7, 0x500, True), inquire_out(8, 70)])
    yield "# our own key may be 0: then a validate key of zeros is ours"
    yield g.start(record(0))
    yield g.receive(flood(r, validate=0), (0, 20, 76), sends=[ack_out(7, 0x500, False), inquire_out(8, 70)])
    yield "# ignored bits, keytoken and the list of those reached change nothing"
    yield g.start()
    dirty = put(flood(r, keytoken=b"token", reached=[bytes(18)] * 3), 16, b"\xFF\xFE\xFF\xFF")
    yield g.receive(dirty, (0, 20, 76), sends=[ack_out(7, 0x500, False), inquire_out(8, 70)])
    yield g.receive(put(dirty, 17, b"\xFF"), (0, 0, 0))
    yield "# the verdict is ignored: it belongs to a CPA"
    for verdict in (0, 1, 2, 257, 2 ** 32 - 1):
        yield g.start()
        yield g.receive(flood(r), (0, 20, 76), verdict=verdict, named=key(100))
    yield "# the very same record is held: no inquiry, whatever the versions and flags of the route entry"
    yield g.start()
    yield g.set_cache(cache([kept(r)]))
    yield g.receive(flood(r), (0, 20, 0), sends=[ack_out(7, 0x500, False)])
    yield g.receive(flood(r, versions=(9, 9), flags=0xFF), (0, 20, 0), sends=[ack_out(7, 0x500, False)])
    yield g.receive(flood(r, validate=1), (0, 26, 0), sends=[ack_out(7, 0x500, True)])
    yield g.receive(flood(r, d=True), (0, 0, 0), room=0)
    yield g.waits([])
    yield g.held([70])
    yield "# the same key with another port, another address: an inquiry, and the old record is held until it is answered"
    for other in (record(70, 4, 5001), record(70, 4, 5000, 0x22), record(70, 1, 5001), put(record(70), 51, b"\xFF"), put(r, 36, r[52:68] + r[36:52])):
        yield g.start()
        yield g.set_cache(cache([kept(r)]))
        yield g.receive(flood(other), (0, 20, 76), sends=[ack_out(7, 0x500, False), inquire_out(8, 70)])
        yield g.receive(lookup(70), (0, 96, 0), sends=[shown_out(7, 0xA00, kept(r))])
        yield g.receive(authority(8), (0, 0, 0), verdict=1, named=key(70))
        yield g.receive(lookup(70), (0, 96, 0), sends=[shown_out(7, 0xA00, kept(other))])
    yield "# the record learned is the FLOOD's; versions and flags of its route entry are forgotten"
    yield g.start()
    yield g.receive(flood(record(70, 2, 1), versions=(9, 8), flags=0xFF), (0, 20, 76))
    yield g.receive(authority(8), (0, 0, 0), verdict=1, named=key(70))
    yield g.receive(lookup(70), (0, 96, 0), sends=[shown_out(7, 0xA00, record(70, 1, 1))])
    yield "# an inquiry for the key is waiting: no second one, and its tries and record stay"
    yield g.start()
    yield g.receive(flood(record(70, 1, 1)), (0, 20, 76))
    yield g.tick((0, 1, 0))
    yield g.receive(flood(record(70, 1, 2)), (0, 20, 0), 30, sends=[ack_out(30, 0x500, False)])
    yield g.receive(flood(record(70, 1, 1)), (0, 20, 0), 7)
    yield g.waits([(8, INQUIRY, 1, 70)])
    yield g.receive(authority(8), (0, 0, 0), verdict=1, named=key(70))
    yield g.receive(lookup(70), (0, 96, 0), sends=[shown_out(7, 0xA00, record(70, 1, 1))])
    yield "# a waiting flood with the same key is no inquiry"
    yield g.start()
    yield g.set_waiting(table([flood_place(3, 70)]))
    yield g.receive(flood(record(70)), (0, 20, 76))
    yield g.waits([(3, FLOOD, 2, 70), (8, INQUIRY, 2, 70)])
    yield "# FLOODs of keys at both ends"
    yield g.start()
    yield g.receive(flood(record(0)), (0, 20, 76), 7)
    yield g.receive(flood(record(TOP)), (0, 20, 76), 9)
    yield g.waits([(8, INQUIRY, 2, 0), (10, INQUIRY, 2, TOP)])
    yield g.receive(authority(10), (0, 0, 0), verdict=1, named=key(TOP))
    yield g.receive(authority(8), (0, 0, 0), verdict=1, named=key(0))
    yield g.held([0, TOP])
    yield g.list((0, 2, 0), sends=[key(0), key(TOP)])
    yield "# 11: the route entry names the own key, whatever else"
    yield g.start()
    for datagram in (flood(OWN), flood(record(100, 4, 9)), flood(OWN, d=True), flood(OWN, validate=7)):
        yield g.receive(datagram, 11)
    yield g.waits([])


def identities(g):
    yield "# message IDs: 4294967295 is followed by 0, also where no ACK is written"
    last = 2 ** 32 - 1
    for fields, sends in (({}, [ack_out(last, 0x500, False), inquire_out(0, 70)]), ({"d": True}, [inquire_out(0, 70)])):
        yield g.start()
        yield g.set_waiting(table([flood_place(1, 7), flood_place(last, 7)]))
        yield g.receive(flood(record(70), **fields), 0, last, sends=sends)
        yield g.waits([(0, INQUIRY, 2, 70), (1, FLOOD, 2, 7), (last, FLOOD, 2, 7)])
        yield g.receive(authority(0), (0, 0, 0), verdict=1, named=key(70))
        yield g.held([70])
    yield g.start()
    yield g.receive(flood(record(70)), (0, 20, 76), last - 1, sends=[ack_out(last - 1, 0x500, False), inquire_out(last, 70)])
    yield g.waits([(last, INQUIRY, 2, 70)])
    yield "# ID 0 in an ACK, an AUTHORITY, a FLOOD"
    yield g.start()
    yield g.set_cache(cache([70]))
    yield g.receive(flood(record(71), 0), (0, 20, 76), 0, sends=[ack_out(0, 0, False), inquire_out(1, 71)])
    yield g.receive(inquire(100, 0), (0, 45, 0), 0, sends=[cpa_out(0, 0, CPA)])
    yield g.send(key(70), key(100), (0, 116, 0), 0, sends=[flood_out(0, 70, OWN)])
    yield g.waits([(0, FLOOD, 2, 70), (1, INQUIRY, 2, 71)])
    yield g.receive(ack(0), (0, 0, 0))
    yield g.waits([(1, INQUIRY, 2, 71)])
    yield "# places stand in the order of their IDs, which are numbers and not bytes"
    yield g.start()
    yield g.set_cache(cache([70]))
    for identity in (256, 1, 65536, 255, 2 ** 31, 2 ** 24):
        yield g.send(key(70), key(70), (0, 116, 0), identity)
    yield g.receive(flood(record(71)), (0, 20, 76), 299)
    yield g.waits([(i, 2 if i == 300 else 1, 2, 71 if i == 300 else 70) for i in (1, 255, 256, 300, 65536, 2 ** 24, 2 ** 31)])
    yield g.tick((0, 7, 0), sends=[i.to_bytes(4, "little") for i in (1, 255, 256, 300, 65536, 2 ** 24, 2 ** 31)])
    yield "# 13: the INQUIRE's ID is waiting, of either kind; the ACK's ID may wait"
    both = table([flood_place(8, 7), inquiry(20, 60)])
    for datagram in (flood(record(70)), flood(record(70), d=True)):
        for identity, want in ((7, 13), (19, 13), (8, 0), (20, 0), (9, 0)):
            yield g.start()
            yield g.set_waiting(both)
            yield g.receive(datagram, want, identity)
    yield g.start()
    yield g.set_waiting(table([flood_place(0, 7)]))
    yield g.receive(flood(record(70)), 13, last)
    yield "# no place must be opened: the ID may wait, and all may be used"
    yield g.start()
    yield g.set_cache(cache([record(70)]))
    yield g.set_waiting(both)
    yield g.receive(flood(record(70)), (0, 20, 0), 7)
    yield g.receive(flood(record(60, 2)), (0, 20, 0), 7)
    yield g.set_waiting(table([flood_place(i, 7) for i in range(15)] + [inquiry(20, 60)]))
    yield g.receive(flood(record(70)), (0, 20, 0), 7)
    yield g.receive(flood(record(60, 2)), (0, 20, 0), 7)
    yield g.receive(inquire(100), (0, 45, 0), 7)
    yield g.receive(lookup(60), (0, 96, 0), 7, sends=[shown_out(7, 0xA00, record(70))])


def revocations(g):
    yield "# FLOOD with a revocation: a held key is removed, a waiting inquiry for it is freed, a flood to it waits on"
    start = table([flood_place(1, 70), inquiry(2, 70), inquiry(3, 71), flood_place(4, 70)])
    left = [(1, FLOOD, 2, 70), (3, INQUIRY, 2, 71), (4, FLOOD, 2, 70)]
    for fields, first, sends in (({}, 20, [ack_out(7, 0x600, False)]), ({"validate": 70}, 26, [ack_out(7, 0x600, True)]), ({"d": True}, 0, []),
                                 ({"d": True, "validate": 70}, 0, [])):
        yield g.start()
        yield g.set_cache(cache([60, 70, 110]))
        yield g.set_waiting(start)
        yield g.receive(revocation(**fields), (0, first, 0), verdict=1, named=key(70), sends=sends)
        yield g.held([60, 110])
        yield g.waits(left)
    yield "# only held, only waiting, neither; the CPA may be empty"
    yield g.start()
    yield g.set_cache(cache([60, 70, 110]))
    yield g.set_waiting(table([inquiry(3, 71)]))
    yield g.receive(revocation(), (0, 20, 0), verdict=1, named=key(60))
    yield g.held([70, 110])
    yield g.receive(revocation(), (0, 20, 0), verdict=1, named=key(71))
    yield g.waits([])
    yield g.receive(revocation(), (0, 20, 0), verdict=1, named=key(72))
    yield g.receive(revocation(revoke=b""), (0, 20, 0), verdict=1, named=key(0))
    yield g.receive(revocation(keytoken=b"t", reached=[bytes(18)]), (0, 20, 0), verdict=1, named=key(2 ** 32 + 70))
    yield g.held([70, 110])
    yield g.receive(revocation(revoke=b""), (0, 20, 0), verdict=1, named=key(110))
    yield g.held([70])
    yield "# 9: a verdict that is not 1; 11: the own key is named; both at once: 9"
    for verdict in (0, 2, 257, 65537, 2 ** 24 + 1, 2 ** 32 - 1):
        yield g.receive(revocation(), 9, verdict=verdict, named=key(70))
    yield g.receive(revocation(), 11, verdict=1, named=key(100))
    yield g.receive(revocation(d=True, validate=7), 11, verdict=1, named=key(100))
    yield g.receive(revocation(), 9, verdict=0, named=key(100))
    yield g.held([70])
    yield "# the old gauge's slip: a late AUTHORITY does not bring back a key revoked meanwhile"
    yield g.start()
    yield g.receive(flood(record(70)), (0, 20, 76))
    yield g.receive(revocation(), (0, 20, 0), verdict=1, named=key(70))
    yield g.waits([])
    yield g.receive(authority(8), 8, verdict=1, named=key(70))
    yield g.held([])
    yield "# after a revocation the key may be flooded and learned again"
    yield g.receive(flood(record(70)), (0, 20, 76), 30)
    yield g.receive(authority(31), (0, 0, 0), verdict=1, named=key(70))
    yield g.held([70])


def authorities(g):
    yield "# AUTHORITY: 8 for an ID that is no waiting inquiry, also for a waiting flood's; its bytes are the other way round in the table"
    start = table([inquiry(2, 70), flood_place(3, 70), inquiry(0x01020304, 71)])
    yield g.start()
    yield g.set_waiting(start)
    for acked in (0, 1, 3, 4, 0x02000000, 0x04030201, 2 ** 32 - 1):
        yield g.receive(authority(acked), 8, verdict=1, named=key(70))
    yield "# 9: without a CPA, or a verdict that is not 1; 10: good for another key"
    yield g.receive(authority(2, cpa=None), 9, verdict=1, named=key(70))
    for verdict in (0, 2, 257, 65537, 2 ** 24 + 1, 2 ** 32 - 1):
        yield g.receive(authority(2), 9, verdict=verdict, named=key(70))
    for other in (71, 100, 0, 2 ** 255 + 70, 2 ** 32 + 70):
        yield g.receive(authority(2), 10, verdict=1, named=key(other))
    yield g.waits([(2, INQUIRY, 2, 70), (3, FLOOD, 2, 70), (0x01020304, INQUIRY, 2, 71)])
    yield "# accepted: learned and freed; once more: 8"
    yield g.receive(authority(0x01020304), (0, 0, 0), verdict=1, named=key(71), room=0)
    yield g.held([71])
    yield g.waits([(2, INQUIRY, 2, 70), (3, FLOOD, 2, 70)])
    yield g.receive(authority(0x01020304), 8, verdict=1, named=key(71))
    yield "# an empty CPA is a CPA; flags, payload and route entry of the buffer are not acted on"
    more = {"l": True, "b": True, "n": True, "chain": b"chain", "keytoken": b"t", "classifier": [b"\0x"], "payload": b"p", "route": entry(record(72,
                                                                                                                                                 4))}
    yield g.receive(authority(2, cpa=b"", **more), (0, 0, 0), verdict=1, named=key(70))
    yield g.held([70, 71])
    yield g.receive(lookup(70), (0, 96, 0), sends=[shown_out(7, 0xA00, record(70))])
    yield "# tries do not matter, 0 too"
    yield g.set_waiting(table([inquiry(2, 72, 0)]))
    yield g.receive(authority(2), (0, 0, 0), verdict=1, named=key(72))
    yield g.held([70, 71, 72])
    yield "# 7: in part, whatever its buffer; 6 before it"
    yield g.set_waiting(start)
    whole = authority(2)
    for datagram, want in ((whole[:-1], 7), (whole + b"\0", 7), (put(whole, 26, b"\x04\xA4"), 7), (put(whole[:-1], 28, b"\xFF"), 7),
                           (put(whole[:-1], 13, b"\x19"), 6), (put(whole, 27, b"\x01"), 6), (put(whole, 28, b"\xFF"), 6)):
        yield g.receive(datagram, want, verdict=1, named=key(70))
    yield "# learning into a full cache: cases 3 and 4"
    yield g.start()
    yield g.set_cache(cache(range(90, 100)))
    yield g.receive(flood(record(101)), (0, 20, 76), 7)
    yield g.receive(flood(record(89)), (0, 20, 76), 9)
    yield g.receive(authority(8), (0, 0, 0), verdict=1, named=key(101))
    yield g.held(list(range(91, 100)) + [101])
    yield g.receive(authority(10), (0, 0, 0), verdict=1, named=key(89))
    yield g.held(list(range(91, 100)) + [101])
    yield g.waits([])
    yield g.list((0, 5, 1), sends=[key(n) for n in (99, 98, 97, 96, 95, 101)])
    yield "# the records that moved are whole"
    for n in list(range(91, 100)) + [101]:
        yield g.receive(lookup(n), 0, sends=[shown_out(7, 0xA00, some(n) if n != 101 else record(101))])
    yield g.receive(revocation(), (0, 20, 0), verdict=1, named=key(95))
    for n in (91, 94, 96, 99):
        yield g.receive(lookup(n), 0, sends=[shown_out(7, 0xA00, some(n))])
    yield "# and so are the records of places that moved"
    yield g.start()
    for identity, n in ((50, 74), (30, 72), (70, 76), (40, 73), (60, 75), (20, 71)):
        yield g.receive(flood(record(n, 1 + n % 4, n), d=True), (0, 76, 0), identity - 1)
    yield g.waits([(10 * n - 690, INQUIRY, 2, n) for n in range(71, 77)])
    yield g.receive(revocation(), (0, 20, 0), verdict=1, named=key(73))
    yield g.tick((0, 5, 0))
    for identity, n in ((50, 74), (20, 71), (70, 76), (30, 72), (60, 75)):
        yield g.receive(authority(identity), (0, 0, 0), verdict=1, named=key(n))
        yield g.receive(lookup(n), 0, sends=[shown_out(7, 0xA00, record(n, 1, n))])
    yield g.held([71, 72, 74, 75, 76])
    yield "# case 5 as document 02 has it, and the same with a newcomer below, and with a held key"
    six = list(range(94, 100)) + list(range(101, 106))
    yield g.start(c=11)
    yield g.set_cache(cache(six, 11))
    six = six[1:] + [106]
    yield g.set_waiting(table([inquiry(2, 106), inquiry(3, 93), inquiry(4, 98, 1)]))
    yield g.receive(authority(2), (0, 0, 0), verdict=1, named=key(106))
    yield g.held(six)
    yield g.receive(authority(3), (0, 0, 0), verdict=1, named=key(93))
    yield g.held(six)
    yield g.receive(authority(4), (0, 0, 0), verdict=1, named=key(98))
    yield g.held(six)
    yield g.receive(lookup(98), (0, 96, 0), sends=[shown_out(7, 0xA00, record(98))])
    yield "# from an empty cache to one that is full and drops, keys coming in no order"
    yield g.start()
    kept = []
    for n in (50, 150, 99, 101, 60, 140, 95, 105, 70, 130, 80, 120, 90, 110):
        yield g.receive(flood(record(n), d=True), (0, 76, 0), 2 * n)
        yield g.receive(authority(2 * n + 1), (0, 0, 0), verdict=1, named=key(n))
        kept = sorted(kept + [n])
        if len(kept) == 11:
            below, above = [k for k in kept if k < 100], [k for k in kept if k > 100]
            kept.remove(max(below[:-5] + above[5:], key=lambda k: (abs(k - 100), -k)))
        yield g.held(kept)
    yield g.list((0, 5, 5), sends=[key(n) for n in (99, 95, 90, 80, 70, 101, 105, 110, 120, 130)])


def across(g):
    yield "# document 02: own 1, held the last ten, 5 comes by FLOOD and AUTHORITY: the first of them is dropped, and the cache is in plain order"
    last = list(range(2 ** 256 - 10, 2 ** 256))
    yield g.start(record(1))
    yield g.set_cache(cache(last))
    yield g.receive(flood(record(5), validate=1), (0, 20, 76), 8)
    yield g.receive(authority(9), (0, 0, 0), verdict=1, named=key(5))
    yield g.held([5] + last[1:])
    yield g.list((0, 5, 1), sends=[key(n) for n in (TOP, TOP - 1, TOP - 2, TOP - 3, TOP - 4, 5)])
    yield "# keys around the last one, coming in no order: kept are those nearest along each side"
    yield g.start(record(TOP))
    kept = []
    for steps in (-50, 50, -1, 1, -40, 40, -5, 5, -30, 30, -20, 20, -10, 10, 2 ** 255, 2 ** 255 + 1):
        n = (TOP + steps) % 2 ** 256
        yield g.receive(flood(record(n), d=True, validate=TOP), (0, 76, 0), 7)
        yield g.receive(authority(8), (0, 0, 0), verdict=1, named=key(n))
        kept.append(steps if steps <= 2 ** 255 else steps - 2 ** 256)
        if len(kept) == 11:
            below, above = sorted(k for k in kept if k < 0), sorted(k for k in kept if k > 0)
            kept.remove(max(below[:-5] + above[5:], key=lambda k: (abs(k), -((TOP + k) % 2 ** 256))))
        yield g.held(sorted((TOP + k) % 2 ** 256 for k in kept))
    yield g.list((0, 5, 5), sends=[key((TOP + n) % 2 ** 256) for n in (-1, -5, -10, -20, -30, 1, 5, 10, 20, 30)])


def acked(g):
    yield "# ACK: 8 for an ID that is no waiting flood, also for a waiting inquiry's"
    start = table([inquiry(2, 70), flood_place(3, 70), flood_place(4, 71), flood_place(5, 100), flood_place(0x01020304, 60)])
    yield g.start()
    yield g.set_cache(cache([60, 70]))
    yield g.set_waiting(start)
    for identity in (0, 1, 2, 6, 0x03000000, 0x04030201, 2 ** 32 - 1):
        for n in (None, True):
            yield g.receive(ack(identity, n), 8)
    yield "# no flags, flags with N clear, and with all bits but N: the place is freed and nothing removed"
    yield g.receive(put(ack(3, False), 24, b"\xFF\xFE"), (0, 0, 0), room=0)
    yield g.held([60, 70])
    yield g.waits([(2, INQUIRY, 2, 70), (4, FLOOD, 2, 71), (5, FLOOD, 2, 100), (0x01020304, FLOOD, 2, 60)])
    yield g.receive(ack(3, False), 8)
    yield g.set_waiting(start)
    yield g.receive(ack(3, False), (0, 0, 0))
    yield g.set_waiting(start)
    yield g.receive(ack(3), (0, 0, 0))
    yield g.held([60, 70])
    yield "# N for a key that is not held, and for the own key: accepted, nothing removed"
    yield g.receive(ack(4, True), (0, 0, 0))
    yield g.receive(ack(5, True), (0, 0, 0))
    yield g.held([60, 70])
    yield "# N for a held key removes it; an inquiry for that key waits on"
    yield g.set_waiting(start)
    yield g.receive(ack(3, True), (0, 0, 0))
    yield g.held([60])
    yield g.waits([(2, INQUIRY, 2, 70), (4, FLOOD, 2, 71), (5, FLOOD, 2, 100), (0x01020304, FLOOD, 2, 60)])
    yield g.receive(put(ack(0x01020304, True), 24, b"\xFF\xFF"), (0, 0, 0), verdict=1, named=key(70))
    yield g.held([])
    yield "# the key removed is the neighbour's, not that of the record sent"
    yield g.start()
    yield g.set_cache(cache([60, 70]))
    yield g.send(key(60), key(70), (0, 116, 0), 9, sends=[flood_out(9, 60, some(70))])
    yield g.receive(ack(9, True), (0, 0, 0))
    yield g.held([70])


def answered(g):
    yield "# INQUIRE: the own CPA, 1 and 1,024 bytes of it, in just enough room and in one byte less"
    for n in (1, 2, 3, 4, 1024):
        cpa = bytes(i % 251 for i in range(n))
        yield g.start(cpas=lent_as(cpa))
        yield g.receive(inquire(100), (0, 40 + n, 0), room=40 + n, sends=[cpa_out(7, 0x900, cpa)])
        yield g.receive(inquire(100), 15, room=39 + n)
    yield "# its flags, nonce and credentials are not obeyed; the verdict is ignored"
    yield g.start()
    for fields in ({"a": False, "nonce": None}, {"a": False}, {"nonce": None}, {"x": True, "c": True},
                   {"credential": b"c", "signature": b"s", "key_identifier": b"k"}):
        yield g.receive(inquire(100, **fields), (0, 45, 0), sends=[cpa_out(7, 0x900, CPA)])
    yield g.receive(inquire(100), (0, 45, 0), verdict=2, named=key(7), sends=[cpa_out(7, 0x900, CPA)])
    yield "# 12: for a key that is not ours, held or not"
    yield g.set_cache(cache([70]))
    for n in (70, 71, 0, 101, 2 ** 255 + 100, 2 ** 32 + 100):
        yield g.receive(inquire(n), 12)
    yield "# LOOKUP: the closest record, in just enough room and in one byte less"
    four = [record(10, 1, 1), record(20, 1, 2), record(30, 1, 3, 0), record(40, 1, 4, 0xF0)]
    yield g.start()
    yield g.set_cache(cache(four))
    for r in four:
        yield g.receive(lookup(model.key_of(r)), (0, 96, 0), room=96, sends=[shown_out(7, 0xA00, r)])
        yield g.receive(lookup(model.key_of(r)), 15, room=95)
    yield "# ties go to the key below the target; the own record is a candidate; from the last key on it is not far to the first"
    for target, r in ((25, four[1]), (26, four[2]), (70, four[3]), (71, OWN), (100, OWN), (TOP, four[0]), (0, four[0])):
        yield g.receive(lookup(target), 0, sends=[shown_out(7, 0xA00, r)])
    yield "# criteria, precision, reason, A, validate key and credentials are not acted on"
    for fields in ({"criteria": 8, "precision": 1}, {"criteria": 1, "reason": 3}, {"a": True}, {"validate": 7},
                   {"credential": b"c", "signature": b"", "key_identifier": b"k"}):
        yield g.receive(lookup(26, **fields), (0, 96, 0), sends=[shown_out(7, 0xA00, four[2])])
    yield "# case 6 and 7 by a LOOKUP, and 9 as document 02 has it; then the ring's: the last key before 1, and before our own"
    for own, keys, target, want in ((50, [99, 101], 100, 99), (9, [1, 4294967296], 0, 1), (5, [0], TOP, 0), (7, [1, TOP], 0, TOP), (1, [TOP], 0, TOP),
                                    (TOP, [1], 0, TOP), (0, [2 ** 255], 2 ** 255 - 1, 2 ** 255), (2 ** 255, [2 ** 255 - 1], 0, 2 ** 255 - 1)):
        yield g.start(record(own))
        yield g.set_cache(cache([record(n) for n in keys]))
        yield g.receive(lookup(target), (0, 96, 0), sends=[shown_out(7, 0xA00, record(want))])


def paths(g):
    yield "# LOOKUP's path, and gauge_closest with the same: own 50, held 99 (port 5000, address A) and 101, target 100"
    near, far, own = at(99, 5000, A), at(101, 6000, B), record(50)
    shown = {0: own, 4: near, 5: far}

    def both(path, which, target=100):
        """By a LOOKUP, which has a path of one to 22, and by the call."""
        r = shown[which]
        if 1 <= len(path) <= 22:
            yield g.receive(lookup(target, path=path), (0, 96, 0), sends=[shown_out(7, 0xA00, r)])
        yield g.nearest(b"".join(path), key(target), (0, which, 2))

    yield g.start(own)
    yield g.set_cache(cache([near, far]))
    for path, which in (([], 4), ([point(5000, A)], 5), ([point(5001, A)], 4), ([point(5000, B), point(5001, A)], 4), ([point(6000, A)], 4),
                        ([point(5000, A), point(6000, B)], 0), ([point(5000, A), point(6000, A)], 5), ([point(6000, B), point(5000, A)], 0),
                        ([point(5000, A), point(6001, A), point(5000, B)], 5), ([point(5000, A)] * 22, 5),
                        ([point(7, ANY)] * 21 + [point(5000, A)], 5), ([point(7, ANY)] * 22 + [point(5000, A)], 5)):
        yield from both(path, which)
    yield "# the room that it needs is the same whichever record is left"
    for path in ([point(7, ANY)], [point(5000, A)], [point(5000, A), point(6000, B)]):
        yield g.receive(lookup(100, path=path), 15, room=95)
        yield g.receive(lookup(100, path=path), (0, 96, 0), room=96)
    yield "# our own endpoint on the path does not matter; the sender's does"
    ours = point(model.value(own[32:34]), own[36:52])
    for path, which in (([ours], 4), ([ours, point(5000, A)], 5), ([ours, point(5000, A), point(6000, B)], 0)):
        yield from both(path, which)
    yield from both([ours], 0, 50)
    yield "# two gauges that would send a LOOKUP to and fro: neither names the other, whose endpoint is on the path"
    for mine, other in ((near, far), (far, near)):
        yield g.start(mine)
        yield g.set_cache(cache([other]))
        yield g.receive(lookup(model.key_of(other), path=[point(5000, A), point(6000, B)]), 0, sends=[shown_out(7, 0xA00, mine)])
    yield "# all held on the path; none held; the farthest left"
    ten = [at(n, 5000, A) for n in range(90, 99)] + [at(99, 5001, A)]
    yield g.start(record(2 ** 255))
    yield g.set_cache(cache(ten))
    for target, steps in ((0, 4), (90, 4), (94, 3), (99, 3), (150, 3)):
        yield g.receive(lookup(target, path=[point(5000, A)]), (0, 96, 0), sends=[shown_out(7, 0xA00, ten[9])])
        yield g.nearest(point(5000, A), key(target), (0, 13, steps))
        yield g.nearest(point(5000, A) + point(5001, A), key(target), (0, 0, steps))
    yield g.start()
    yield g.nearest(b"", key(7), (0, 0, 0))
    yield g.nearest(point(5000, A) * 3, key(7), (0, 0, 0))
    yield "# the place told counts from 4: the last of a full cache of 256 has 259"
    yield g.start(c=256)
    yield g.set_cache(cache([at(1000 + n, 1, ANY) for n in range(256)], 256))
    for n, steps in ((0, 9), (1, 8), (127, 8), (128, 1), (254, 7), (255, 8)):
        yield g.nearest(b"", key(1000 + n), (0, 4 + n, steps))
    yield g.nearest(point(1, ANY), key(1000), (0, 0, 9))
    yield "# 1: endpoints that are not whole, a target of another length, an own record and a cache not in form; the waiting table is not lent"
    yield g.start(own)
    yield g.set_cache(cache([near, far]))
    for length in (1, 16, 17, 19, 35, 37, 53):
        yield g.nearest((point(5000, A) * 3)[:length], key(100), 1)
    for target in (b"", key(7)[:31], key(7) + b"\0"):
        yield g.nearest(b"", target, 1)
        yield g.nearest(point(5000, A), target, 1)
    yield g.set_waiting(bytes(2239))
    yield g.nearest(point(5000, A), key(100), (0, 5, 2))
    for bad in (bytes(900), bytes(25700), cache([far, near]), cache([near, near]), cache([own]), put(cache([near]), 999, b"\1"), b""):
        yield g.set_cache(bad)
        yield g.nearest(point(5000, A), key(100), 1)
    for bad in (b"", own[:99], own + b"\0", put(own, 34, b"\0"), put(own, 34, b"\2"), put(own, 35, b"\1"), record(50, 4)):
        yield g.start(bad)
        yield g.nearest(point(5000, A), key(100), 1)


def searching(g):
    """Document 02, request 8: "Return, beside each search, the number of keys compared"."""
    yield "# keys 10 20 30 40 50, own 7: where a key stands and how many are compared; the closest record compares as many, whatever is on the path"
    yield g.start(record(7))
    for n in (0, 7, 9, TOP):
        yield g.find(key(n), (0, 0, 0))
    yield g.set_cache(cache([at(n, 5000, A) for n in (10, 20, 30, 40, 50)]))
    for n, first, which, steps in ((30, 3, 6, 1), (20, 2, 5, 2), (50, 5, 8, 2), (10, 1, 4, 3), (40, 4, 7, 3), (5, 0, 0, 3), (15, 0, 4, 3),
                                   (25, 0, 5, 2), (35, 0, 6, 3), (45, 0, 7, 3), (55, 0, 8, 2), (7, 0, 0, 3), (0, 0, 0, 3), (2 ** 255, 0, 8, 2),
                                   (2 ** 32 + 30, 0, 8, 2)):
        yield g.find(key(n), (0, first, steps))
        yield g.nearest(b"", key(n), (0, which, steps))
        yield g.nearest(point(5000, A), key(n), (0, 0, steps))
    yield "# a key that is learned or removed: the list is halved anew"
    yield g.set_waiting(table([inquiry(8, 35)]))
    yield g.receive(authority(8), (0, 0, 0), verdict=1, named=key(35))
    for n, first, steps in ((10, 1, 3), (20, 2, 2), (30, 3, 3), (35, 4, 1), (40, 5, 3), (50, 6, 2), (36, 0, 3)):
        yield g.find(key(n), (0, first, steps))
    yield g.receive(revocation(), 0, verdict=1, named=key(10))
    for n, first, steps in ((10, 0, 3), (20, 1, 3), (30, 2, 2), (35, 3, 1), (40, 4, 3), (50, 5, 2)):
        yield g.find(key(n), (0, first, steps))
    yield "# one key: 1, held or not"
    yield g.set_cache(cache([9]))
    for n in (8, 9, 10):
        yield g.find(key(n), (0, int(n == 9), 1))
    yield "# a full cache of 256, every key held and every gap: 9 for the first key and beside it, 1 for the one at 128, 8 for every other gap"
    yield g.start(c=256)
    yield g.set_cache(cache([at(1000 + 2 * n, 1, ANY) for n in range(256)], 256))
    for n in range(256):
        halved = (n & -n).bit_length()  # 128 is 8, 64 and 192 are 7, .. and every odd one 1
        yield g.find(key(1000 + 2 * n), (0, n + 1, 9 - halved))
    for n in range(257):
        yield g.find(key(999 + 2 * n), (0, 0, 9 if n < 2 else 8))
    yield "# keys all over the ring, of 255: 8 for every gap"
    keys = [(n + 1) * 2 ** 248 for n in range(255)]
    yield g.start(record(7), c=256)
    yield g.set_cache(cache([at(n, 1, ANY) for n in keys], 256))
    for n, steps in ((0, 8), (1, 7), (2, 8), (63, 2), (126, 8), (127, 1), (128, 8), (191, 2), (253, 7), (254, 8)):
        yield g.find(key(keys[n]), (0, n + 1, steps))
        yield g.find(key(keys[n] - 1), (0, 0, 8))
        yield g.find(key(keys[n] + 1), (0, 0, 8))
    yield "# 1: a key of another length, an own record and a cache not in form; the waiting table is not lent"
    yield g.start(record(7))
    yield g.set_cache(cache([10, 20]))
    for named in (b"", key(10)[:31], key(10) + b"\0"):
        yield g.find(named, 1)
    yield g.set_waiting(bytes(2239))
    yield g.find(key(10), (0, 1, 2))
    for bad in (bytes(900), bytes(25700), cache([20, 10]), cache([10, 10]), cache([7]), put(cache([10]), 999, b"\1"), b""):
        yield g.set_cache(bad)
        yield g.find(key(10), 1)
    for bad in (b"", OWN[:99], OWN + b"\0", put(OWN, 34, b"\0"), put(OWN, 34, b"\2"), put(OWN, 35, b"\1"), record(100, 4)):
        yield g.start(bad)
        yield g.find(key(10), 1)


def asked(g):
    """Document 02, request 2: a LOOKUP's route entry "is inquired about as in a FLOOD, with the ID one more than the reply's"."""
    last, r = 2 ** 32 - 1, record(70, 4)
    reply = shown_out(7, 0xA00, OWN)

    yield "# a LOOKUP's route entry is inquired about: AUTHORITY, then INQUIRE; it is learned when its AUTHORITY comes, and no candidate before"
    yield g.start()
    yield g.receive(lookup(70, route=entry(r)), (0, 96, 76), sends=[reply, inquire_out(8, 70)])
    yield g.held([])
    yield g.waits([(8, INQUIRY, 2, 70)])
    yield g.receive(lookup(70), (0, 96, 0), 9, sends=[shown_out(9, 0xA00, OWN)])
    yield g.receive(authority(8), (0, 0, 0), verdict=1, named=key(70))
    yield g.held([70])
    yield g.receive(lookup(70), (0, 96, 0), sends=[shown_out(7, 0xA00, kept(r))])
    yield "# the very same record is held: no more, whatever the versions, flags and other addresses of the entry, on the path or not"
    for path, shown in (([bytes(range(18))], kept(r)), ([point(5000, r[36:52])], OWN), ([point(5000, r[52:68])], kept(r)),
                        ([point(5000, r[84:100])], kept(r))):
        for route in (entry(r), entry(r, (9, 9), 0xFF), entry(kept(r)), entry(record(70, 3)), entry(put(r, 99, b"\xFF"))):
            yield g.receive(lookup(70, route=route, path=path), (0, 96, 0), sends=[shown_out(7, 0xA00, shown)])
    yield g.waits([])
    yield "# the same key with another port, another first address: an inquiry, and the old record is shown until it is answered"
    for other in (record(70, 4, 5001), record(70, 4, 5000, 0x22), put(r, 36, r[52:68] + r[36:52]), put(record(70), 51, b"\xFF")):
        yield g.start()
        yield g.set_cache(cache([kept(r)]))
        yield g.receive(lookup(70, route=entry(other)), (0, 96, 76), sends=[shown_out(7, 0xA00, kept(r)), inquire_out(8, 70)])
        yield g.receive(lookup(70), (0, 96, 0), sends=[shown_out(7, 0xA00, kept(r))])
        yield g.receive(authority(8), (0, 0, 0), verdict=1, named=key(70))
        yield g.receive(lookup(70), (0, 96, 0), sends=[shown_out(7, 0xA00, kept(other))])
    yield "# an inquiry for the key is waiting, from a FLOOD or a LOOKUP: no second one, and its tries and record stay; a waiting flood is none"
    yield g.start()
    yield g.receive(lookup(60, route=entry(record(70, 1, 1))), (0, 96, 76))
    yield g.tick((0, 1, 0))
    yield g.receive(lookup(60, route=entry(record(70, 1, 2))), (0, 96, 0), 30, sends=[shown_out(30, 0xA00, OWN)])
    yield g.receive(flood(record(70, 1, 2)), (0, 20, 0), 30)
    yield g.waits([(8, INQUIRY, 1, 70)])
    yield g.receive(authority(8), (0, 0, 0), verdict=1, named=key(70))
    yield g.receive(lookup(70), (0, 96, 0), sends=[shown_out(7, 0xA00, record(70, 1, 1))])
    yield g.start()
    yield g.receive(flood(record(70, 1, 1)), (0, 20, 76))
    yield g.receive(lookup(60, route=entry(record(70, 1, 2))), (0, 96, 0), 7)
    yield g.set_waiting(table([flood_place(3, 70)]))
    yield g.receive(lookup(60, route=entry(record(70))), (0, 96, 76))
    yield g.waits([(3, FLOOD, 2, 70), (8, INQUIRY, 2, 70)])
    yield "# our own key is passed over: no 11, no INQUIRE, no 13 and no 14, also with another port and other addresses"
    full = table([flood_place(i, 7) for i in range(16)])
    for waiting in (bytes(2240), table([flood_place(8, 7)]), full):
        for ours in (OWN, record(100, 4), record(100, 1, 9)):
            yield g.start()
            yield g.set_waiting(waiting)
            yield g.receive(lookup(60, route=entry(ours)), (0, 96, 0), sends=[reply])
    yield "# message IDs: 4294967295 is followed by 0; the reply's ID may wait, the INQUIRE's gives 13, of either kind"
    yield g.start()
    yield g.set_waiting(table([flood_place(1, 7), flood_place(last, 7)]))
    yield g.receive(lookup(60, route=entry(r)), (0, 96, 76), last, sends=[shown_out(last, 0xA00, OWN), inquire_out(0, 70)])
    yield g.waits([(0, INQUIRY, 2, 70), (1, FLOOD, 2, 7), (last, FLOOD, 2, 7)])
    yield g.receive(lookup(60, route=entry(record(71))), 13, last)
    yield g.receive(lookup(60, route=entry(r)), (0, 96, 0), last)
    both = table([flood_place(8, 7), inquiry(20, 60)])
    for identity, want in ((7, 13), (19, 13), (8, 0), (20, 0), (9, 0)):
        yield g.start()
        yield g.set_waiting(both)
        yield g.receive(lookup(50, route=entry(r)), want, identity)
    yield "# sixteen used: 14 for a new entry, and the reply is refused with it; 0 for one that is held or waiting, or for none; fifteen used: 0"
    yield g.start()
    yield g.set_cache(cache([kept(r)]))
    yield g.set_waiting(table([flood_place(i, 7) for i in range(15)] + [inquiry(20, 60)]))
    for route, want in ((record(71), 14), (record(70, 4, 1), 14), (r, (0, 96, 0)), (record(60, 2), (0, 96, 0)), (OWN, (0, 96, 0))):
        yield g.receive(lookup(70, route=entry(route)), want, 30)
    yield g.receive(lookup(70), (0, 96, 0), 30)
    yield g.receive(ack(3), (0, 0, 0))
    yield g.receive(lookup(70, route=entry(record(71))), (0, 96, 76), 30, sends=[shown_out(30, 0xA00, kept(r)), inquire_out(31, 71)])
    yield g.receive(lookup(70, route=entry(record(72))), 14, 32)
    yield "# room: for both together; one byte less, and enough for either alone; with 15 nothing has changed"
    shown = record(70)
    for route in (record(71), record(71, 2), record(71, 4)):
        yield g.start()
        yield g.set_cache(cache([shown]))
        for less in (171, 96, 76, 75, 0):
            yield g.receive(lookup(70, route=entry(route)), 15, room=less)
        yield g.receive(lookup(70, route=entry(route)), (0, 96, 76), room=172, sends=[shown_out(7, 0xA00, shown), inquire_out(8, 71)])
        yield g.receive(lookup(70, route=entry(route)), (0, 96, 0), room=96)
    yield "# two numbers: bytes left over and the ID waiting; the ID waiting and all used; all used and no room; the ID waiting and no room"
    yield g.start()
    yield g.set_waiting(both)
    yield g.receive(lookup(50, route=entry(r)) + b"\0", 6, 7)
    yield g.receive(lookup(50, route=entry(r)), 13, 7, room=0)
    yield g.receive(lookup(50, route=entry(r)), 13, 7, room=171)
    yield g.set_waiting(full)
    yield g.receive(lookup(50, route=entry(r)), 13, 7)
    yield g.receive(lookup(50, route=entry(r)), 13, 7, room=0)
    yield g.receive(lookup(50, route=entry(r)), 14, 20, room=0)
    yield g.receive(lookup(50, route=entry(r)), 14, 20, room=171)
    yield g.receive(lookup(50, route=entry(r)) + b"\0", 6, 20)
    yield "# the nonce and the versions of the INQUIRE are the given ones; the verdict is ignored; the longest LOOKUP"
    yield g.start(major=255, minor=0)
    yield g.receive(lookup(60, route=entry(r), major=255), (0, 96, 76), sends=[shown_out(7, 0xA00, OWN, "FF00"), inquire_out(8, 70, "FF00")])
    for verdict in (0, 1, 257):
        yield g.start()
        yield g.receive(lookup(60, route=entry(r)), (0, 96, 76), verdict=verdict, named=key(100), sends=[reply, inquire_out(8, 70)])
    yield g.start()
    longest = lookup(60, route=entry(r), path=[point(n, A) for n in range(22)], key_identifier=bytes(1232 - 616))
    assert len(longest) == 1232
    yield g.receive(longest, (0, 96, 76), sends=[reply, inquire_out(8, 70)])


def addresses(g):
    """Document 02, request 13: "A FLOOD or LOOKUP with two to four is still taken, and the first kept"."""
    four = record(70, 4, 4070)
    yield "# a FLOOD with four addresses of a new key: ACK and INQUIRE; its AUTHORITY learns the first; then the same with one: only the ACK"
    yield g.start()
    yield g.receive(flood(four), (0, 20, 76), sends=[ack_out(7, 0x500, False), inquire_out(8, 70)])
    yield g.receive(authority(8), (0, 0, 0), verdict=1, named=key(70))
    shown = bytes.fromhex("0010000C51066508" + "00000007" + "0018000800000A00" + "0098000800440000" + "0040000600000000" + "009A003A"
                          + "00" * 31 + "46" + "0665" + "0FE6" + "00" + "01" + "2122232425262728292A2B2C2D2E2F30" + "0000")
    assert len(shown) == 96 and shown[77] == 1
    yield g.receive(lookup(70), (0, 96, 0), sends=[shown])
    yield g.receive(flood(kept(four)), (0, 20, 0), sends=[ack_out(7, 0x500, False)])
    yield "# the very same record speaks of what is kept: the same first address and port, and whatever else behind it"
    for same in (four, record(70, 2, 4070), record(70, 3, 4070), put(four, 52, bytes(48)), put(four, 52, four[36:52]), put(four, 99, b"\xFF")):
        yield g.receive(flood(same), (0, 20, 0), sends=[ack_out(7, 0x500, False)])
        yield g.receive(flood(same, d=True), (0, 0, 0), room=0)
        yield g.receive(lookup(60, route=entry(same)), (0, 96, 0), sends=[shown])
    yield g.waits([])
    yield "# the first address moved to another place, or another first before it: another record, and its first is kept"
    for other in (put(four, 36, four[52:68] + four[36:52]), put(four, 36, four[84:100] + four[52:84] + four[36:52]), at(70, 4070, A, four[36:52]),
                  at(70, 4070, ANY, four[36:52]), at(70, 4071, four[36:52], B)):
        for asks, replies in ((flood(other), [ack_out(7, 0x500, False)]), (lookup(60, route=entry(other)), [shown])):
            yield g.start()
            yield g.set_cache(cache([kept(four)]))
            yield g.receive(asks, (0, len(replies[0]), 76), sends=replies + [inquire_out(8, 70)])
            yield g.receive(authority(8), (0, 0, 0), verdict=1, named=key(70))
            yield g.receive(lookup(70), (0, 96, 0), sends=[shown_out(7, 0xA00, kept(other))])
            yield g.receive(flood(other), (0, 20, 0))
            yield g.receive(flood(four), (0, 20, 76))
    yield "# one to four addresses, by a FLOOD and by a LOOKUP: learned with one, sent on with one"
    for count in (1, 2, 3, 4):
        r = record(80 + count, count, count)
        for asks in (flood(r), lookup(60, route=entry(r))):
            yield g.start()
            yield g.receive(asks, 0)
            yield g.waits([(8, INQUIRY, 2, 80 + count)])
            yield g.receive(authority(8), (0, 0, 0), verdict=1, named=key(80 + count))
            yield g.receive(lookup(80), (0, 96, 0), sends=[shown_out(7, 0xA00, kept(r))])
            yield g.send(key(80 + count), key(80 + count), (0, 116, 0), sends=[flood_out(7, 80 + count, kept(r))])
    yield "# a count of 0 or 5 stays 6; four of our own key stay 11, and in a LOOKUP they are passed over"
    yield g.start()
    for count in (0, 5):
        yield g.receive(put(flood(four), 97, bytes([count])), 6)
    yield g.receive(flood(record(100, 4)), 11)
    yield g.receive(lookup(60, route=entry(record(100, 4))), (0, 96, 0))
    yield "# a path: of a gauge that had four addresses the first alone is matched"
    yield g.set_cache(cache([kept(four)]))
    for i in range(4):
        r = four if i else OWN
        yield g.receive(lookup(70, path=[point(4070, four[36 + 16 * i:52 + 16 * i])]), (0, 96, 0), sends=[shown_out(7, 0xA00, kept(r))])
        yield g.nearest(point(4070, four[36 + 16 * i:52 + 16 * i]), key(70), (0, 4 if i else 0, 1))
    yield "# memory of the time before: 1, to every call that is lent it"
    for own, held, waiting in ((OWN, [record(70, 2)], []), (OWN, [], [inquiry(3, 71, 2, 2)]), (record(100, 2), [], []), (record(100, 4), [], [])):
        yield g.start(own)
        yield g.set_cache(cache(held))
        yield g.set_waiting(table(waiting))
        yield g.receive(flood(record(60)), 1)
        yield g.receive(lookup(60), 1)
        yield g.send(key(70), key(100), 1)
        yield g.tick(1 if waiting or own != OWN else (0, 0, 0))
        yield g.list(1 if held or own != OWN else (0, 0, 0))
        yield g.nearest(b"", key(60), 1 if held or own != OWN else (0, 0, 0))
        yield g.find(key(70), 1 if held or own != OWN else (0, 0, 0))


def converting(g):
    """Document 02, request 13: "A conversion turns an old cache and waiting table into the new form"."""
    three, one, four = record(70, 3, 4070), record(80, 1, 4080), record(110, 4, 4110)
    old = cache([three, one, four])
    waiting = table([flood_place(3, 70, 0), inquiry(5, 60, 1, 2), inquiry(9, 61, 2, 4), inquiry(11, 62, 0), flood_place(12, 100)])
    places = [(3, FLOOD, 0, 70), (5, INQUIRY, 1, 60), (9, INQUIRY, 2, 61), (11, INQUIRY, 0, 62), (12, FLOOD, 2, 100)]

    def lent(own, held, table_bytes):
        yield g.start(own, len(held) // 100)
        yield g.set_cache(held)
        yield g.set_waiting(table_bytes)

    yield "# an old cache and waiting table: 0, keys and order the same; then calls take them, and each record has its first address and its port"
    yield from lent(OWN, old, waiting)
    yield g.receive(lookup(70), 1)
    yield g.convert((0, 0, 0))
    yield g.held([70, 80, 110])
    yield g.waits(places)
    for r in (three, one, four):
        yield g.receive(lookup(model.key_of(r)), (0, 96, 0), sends=[shown_out(7, 0xA00, kept(r))])
    yield "# twice: nothing more changes"
    yield g.convert((0, 0, 0))
    yield "# an AUTHORITY that answers a converted inquiry learns the converted record; one for a flood is as ever"
    for identity, r in ((9, record(61, 4)), (5, record(60, 2)), (11, record(62))):
        yield g.receive(authority(identity), (0, 0, 0), verdict=1, named=r[:32])
        yield g.receive(lookup(model.key_of(r)), (0, 96, 0), sends=[shown_out(7, 0xA00, kept(r))])
        yield g.receive(flood(r), (0, 20, 0))
    yield g.receive(ack(3, True), (0, 0, 0))
    yield g.held([60, 61, 62, 80, 110])
    yield g.tick((0, 1, 0), sends=[bytes.fromhex("0C000000")])
    yield g.convert((0, 0, 0))
    yield "# the own record may be an old one, and stays as lent: so the calls still give 1"
    for own in (record(100, 2, 5100), record(100, 3, 5100), record(100, 4, 5100), OWN):
        yield from lent(own, old, waiting)
        yield g.convert((0, 0, 0))
        yield g.convert((0, 0, 0))
        yield g.receive(lookup(70), 1 if own != OWN else (0, 96, 0))
    yield "# nothing to turn: empty memory, records of one address, floods alone; part of it: the cache alone, the waiting table alone"
    for held, table_bytes in ((bytes(1000), bytes(2240)), (bytes(25600), bytes(2240)), (cache([60, 70]), table([inquiry(2, 90)])),
                              (cache([60, 70]), table([flood_place(i, 100) for i in range(16)])), (old, table([inquiry(2, 90)])),
                              (cache([60, 70]), waiting)):
        yield from lent(OWN, held, table_bytes)
        yield g.convert((0, 0, 0))
        yield g.list(0)
        yield g.tick(0)
    yield "# full: 10 and 256 records, sixteen inquiries, each with other addresses"
    for c in (10, 256):
        sixteen = table([inquiry(n, 200 + n, n % 3, 1 + n % 4) for n in range(16)])
        yield from lent(OWN, cache([record(1000 + n, 1 + n % 4, n) for n in range(c)], c), sixteen)
        yield g.convert((0, 0, 0))
        yield g.waits([(n, INQUIRY, n % 3, 200 + n) for n in range(16)])
        for n in (0, 1, 2, 3, c - 2, c - 1):
            yield g.receive(lookup(1000 + n), (0, 96, 0), sends=[shown_out(7, 0xA00, record(1000 + n, 1, n))])
        yield g.convert((0, 0, 0))
    yield "# used addresses may be zero, and stand twice: a count of two to four with zeros behind the first becomes 1 alone"
    for r in (at(70, 1, ANY, ANY), at(70, 1, A, ANY, ANY), at(70, 1, A, A, A, A), at(70, 0, ANY, ANY, ANY, ANY), put(record(70), 34, b"\4")):
        yield from lent(OWN, cache([r]), table([inquiry(2, 90)]))
        yield g.convert((0, 0, 0))
        yield g.receive(lookup(70), (0, 96, 0), sends=[shown_out(7, 0xA00, kept(r))])
    yield "# 1: the own record not in the old form either"
    for own in (b"", OWN[:99], OWN + b"\0", bytes(100), put(OWN, 34, b"\0"), put(OWN, 34, b"\5"), put(OWN, 35, b"\1"), put(OWN, 52, b"\1"),
                put(record(100, 4), 34, b"\3"), put(record(100, 3), 99, b"\1")):
        yield from lent(own, old, waiting)
        yield g.convert(1)
    yield "# 1: the cache; its length, order, equal keys, the own key, count, zero byte, an address that is not used, a free record that is not zero"
    yield from lent(OWN, old, waiting)
    for bad in (b"", bytes(900), old[:-1], old + b"\0", bytes(25700), cache([one, three]), cache([three, three]), cache([three, record(100, 2)]),
                put(old, 34, b"\0"), put(old, 34, b"\5"), put(old, 134, b"\0"), put(old, 234, b"\xFF"), put(old, 35, b"\1"), put(old, 235, b"\1"),
                put(old, 34, b"\2"), put(old, 99, b"\1"), put(old, 152, b"\1"), put(old, 234, b"\3"), put(old, 300, b"\1"), put(old, 999, b"\1"),
                cache([three, bytes(100), four])):
        yield g.set_cache(bad)
        yield g.convert(1)
    yield "# 1: the waiting table; its length, order, kind, tries, zero bytes, a flood with a record, an inquiry's record and keys, a free place"
    yield g.set_cache(old)
    for bad in (b"", waiting[:-1], waiting + b"\0", table([flood_place(5, 70), inquiry(5, 60, 1, 2)]),
                table([inquiry(6, 60, 1, 2), flood_place(5, 70)]), table([inquiry(1, 60, 2, 2), inquiry(2, 60, 2, 3)]),
                table([inquiry(1, 100, 2, 2)]), put(waiting, 4, b"\3"), put(waiting, 144, b"\0"), put(waiting, 145, b"\3"), put(waiting, 146, b"\1"),
                put(waiting, 74, b"\1"), put(waiting, 139, b"\1"), put(waiting, 40, record(70, 2)), put(waiting, 214, b"\0"),
                put(waiting, 214, b"\5"), put(waiting, 215, b"\1"), put(waiting, 214, b"\1"), put(waiting, 279, b"\1"), put(waiting, 179, b"\x3D"),
                put(waiting, 180, b"\1"), put(waiting, 2239, b"\1"), table([bytes(140), inquiry(2, 60, 2, 2)])):
        yield g.set_waiting(bad)
        yield g.convert(1)
    yield "# and as it was: 0"
    yield g.set_waiting(waiting)
    yield g.convert((0, 0, 0))
    yield g.waits(places)


def room(g):
    yield "# receive: just enough room, one byte less; with 15 nothing has changed"
    for datagram, need, named in ((flood(record(70)), 96, ZERO), (flood(record(70), validate=7), 102, ZERO), (flood(record(70), d=True), 76, ZERO),
                                  (flood(record(60)), 20, ZERO), (flood(record(60), validate=7), 26, ZERO),
                                  (revocation(), 20, key(60)), (revocation(validate=7), 26, key(60)), (revocation(), 20, key(61))):
        yield g.start()
        yield g.set_cache(cache([record(60)]))
        yield g.set_waiting(table([inquiry(3, 61)]))
        for less in (need - 1, need - 20, 0):
            yield g.receive(datagram, 15, verdict=1, named=named, room=less)
        yield g.receive(datagram, 0, verdict=1, named=named, room=need)
    yield "# enough for the ACK and not for both, for the INQUIRE and not for both"
    yield g.start()
    for less in (20, 75, 76, 95):
        yield g.receive(flood(record(70)), 15, room=less)
    yield g.receive(flood(record(70)), (0, 20, 76), room=97)
    yield "# nothing to send needs no room"
    yield g.set_waiting(table([flood_place(1, 60), inquiry(2, 70)]))
    yield g.receive(ack(1), (0, 0, 0), room=0)
    yield g.receive(flood(record(70), d=True), (0, 0, 0), room=0)
    yield g.receive(authority(2), (0, 0, 0), verdict=1, named=key(70), room=0)
    yield g.receive(flood(record(70), d=True), (0, 0, 0), room=0)
    yield g.receive(revocation(d=True), (0, 0, 0), verdict=1, named=key(70), room=0)
    yield g.held([])
    yield "# send: 116 bytes"
    for named in (key(70), key(100)):
        yield g.start()
        yield g.set_cache(cache([record(70)]))
        yield g.send(key(70), named, 15, room=115)
        yield g.send(key(70), named, 15, room=0)
        yield g.send(key(70), named, (0, 116, 0), room=116, sends=[flood_out(7, 70, record(70) if named == key(70) else OWN)])
    yield "# tick and list ask for the same room however little there is to tell"
    yield g.start()
    for less in (63, 4, 0):
        yield g.tick(15, room=less)
    yield g.tick((0, 0, 0), room=64)
    yield g.tick((0, 0, 0), room=65)
    yield g.set_waiting(table([flood_place(1, 60, 0), inquiry(2, 70, 1)]))
    yield g.tick(15, room=63)
    yield g.waits([(1, FLOOD, 0, 60), (2, INQUIRY, 1, 70)])
    yield g.tick((0, 1, 0), room=64)
    for less in (319, 32, 0):
        yield g.list(15, room=less)
    yield g.list((0, 0, 0), room=320)
    yield g.set_cache(cache([70]))
    yield g.list(15, room=319)
    yield g.list((0, 1, 0), room=321)


def sending(g):
    yield "# sending a FLOOD: our own record or a held one, to a held neighbour; the neighbour's own too"
    yield g.start()
    yield g.set_cache(cache([record(70, 1), record(110, 1, 9, 0)]))
    yield g.send(key(70), key(100), (0, 116, 0), 1, sends=[flood_out(1, 70, OWN)])
    yield g.send(key(70), key(110), (0, 116, 0), 2, sends=[flood_out(2, 70, record(110, 1, 9, 0))])
    yield g.send(key(110), key(110), (0, 116, 0), 3, sends=[flood_out(3, 110, record(110, 1, 9, 0))])
    yield g.send(key(110), key(70), (0, 116, 0), 2 ** 32 - 1, sends=[flood_out(2 ** 32 - 1, 110, record(70, 1))])
    yield g.waits([(1, FLOOD, 2, 70), (2, FLOOD, 2, 70), (3, FLOOD, 2, 110), (2 ** 32 - 1, FLOOD, 2, 110)])
    yield g.held([70, 110])
    yield "# 12: a neighbour that is not held, the own key too; a record that is neither ours nor held"
    for neighbour, named in ((71, 100), (100, 100), (100, 70), (0, 70), (2 ** 255 + 70, 70), (70, 71), (70, 0), (70, 2 ** 255 + 100), (71, 71)):
        yield g.send(key(neighbour), key(named), 12, 50)
    yield g.start()
    yield g.send(key(0), key(100), 12)
    yield g.send(key(0), key(0), 12)
    yield "# 13: the ID is waiting, of either kind; 14: all are used"
    yield g.set_cache(cache([70]))
    yield g.set_waiting(table([flood_place(1, 70), inquiry(2, 60)]))
    yield g.send(key(70), key(100), 13, 1)
    yield g.send(key(70), key(100), 13, 2)
    yield g.send(key(70), key(100), (0, 116, 0), 3)
    yield g.set_waiting(table([inquiry(i, 200 + i) for i in range(16)]))
    yield g.send(key(70), key(100), 14, 16)
    yield "# an inquiry's key is not held by that"
    yield g.send(key(203), key(100), 12, 16)
    yield g.send(key(70), key(203), 12, 16)


def ticking(g):
    yield "# a place is listed at two ticks and gone at the third, whatever calls come between"
    yield g.start()
    yield g.set_cache(cache([70]))
    yield g.send(key(70), key(100), (0, 116, 0), 1)
    yield g.receive(flood(record(60)), (0, 20, 76), 1)
    yield g.tick((0, 2, 0), sends=[bytes.fromhex("0100000002000000")])
    yield g.receive(flood(record(60)), (0, 20, 0), 8)
    yield g.send(key(70), key(70), 0, 3)
    yield g.waits([(1, FLOOD, 1, 70), (2, INQUIRY, 1, 60), (3, FLOOD, 2, 70)])
    yield g.tick((0, 3, 0), sends=[bytes.fromhex("010000000200000003000000")])
    yield g.receive(lookup(70), 0)
    yield g.waits([(1, FLOOD, 0, 70), (2, INQUIRY, 0, 60), (3, FLOOD, 1, 70)])
    yield g.tick((0, 1, 0), sends=[bytes.fromhex("03000000")])
    yield g.waits([(3, FLOOD, 0, 70)])
    yield "# a refused tick is none"
    yield g.tick(15, room=63)
    yield g.waits([(3, FLOOD, 0, 70)])
    yield "# a flood that runs out of tries removes no key; answers that come late are 8"
    yield g.tick((0, 0, 0))
    yield g.held([70])
    yield g.waits([])
    yield g.receive(ack(1, True), 8)
    yield g.receive(authority(2), 8, verdict=1, named=key(60))
    yield g.held([70])
    yield "# and a FLOOD of that key is inquired about again"
    yield g.receive(flood(record(60)), (0, 20, 76), 1)
    yield g.waits([(2, INQUIRY, 2, 60)])
    yield "# with no tries left a place still waits for its answer until the next tick"
    yield g.tick((0, 1, 0))
    yield g.tick((0, 1, 0))
    yield g.receive(authority(2), (0, 0, 0), verdict=1, named=key(60))
    yield g.held([60, 70])
    yield "# sixteen places: 64 bytes of IDs"
    yield g.set_waiting(table([flood_place(0x01020304 * i, 7, 1) for i in range(16)]))
    yield g.tick((0, 16, 0), sends=[(0x01020304 * i).to_bytes(4, "little") for i in range(16)])
    yield g.tick((0, 0, 0))
    yield g.waits([])
    yield "# an empty table"
    yield g.tick((0, 0, 0))


def listing(g):
    yield "# the neighbour list: cases 1 and 2; five and not six on a side"
    yield g.start()
    yield g.list((0, 0, 0))
    yield g.set_cache(cache([60, 70, 80, 90, 95, 99, 101, 110]))
    yield g.list((0, 5, 2), sends=[key(n) for n in (99, 95, 90, 80, 70, 101, 110)])
    yield g.start(c=14)
    yield g.set_cache(cache([0, 94, 95, 96, 97, 98, 99, 101, 102, 103, 104, 105, 106, TOP], 14))
    yield g.list((0, 5, 5), sends=[key(n) for n in (99, 98, 97, 96, 95, 101, 102, 103, 104, 105)])
    yield g.start(record(TOP))
    yield g.set_cache(cache([0, 2 ** 32, 2 ** 255]))
    yield g.list((0, 1, 2), sends=[key(n) for n in (2 ** 255, 0, 2 ** 32)])
    yield g.start(record(0))
    yield g.set_cache(cache([1, 2 ** 32, 2 ** 255]))
    yield g.list((0, 0, 3), sends=[key(n) for n in (1, 2 ** 32, 2 ** 255)])
    yield "# document 02: pond 1 has the last pond as neighbour below; just opposite is above"
    yield g.start(record(1))
    yield g.set_cache(cache([5, TOP]))
    yield g.list((0, 1, 1), sends=[key(TOP), key(5)])
    yield g.start(record(0))
    yield g.set_cache(cache([2 ** 255, 2 ** 255 + 1]))
    yield g.list((0, 1, 1), sends=[key(2 ** 255 + 1), key(2 ** 255)])


def case14(g):
    yield "# case 14: sixteen places used, a FLOOD of a new key: 14; one freed by an ACK, the same FLOOD: 0"
    yield g.start()
    yield g.set_cache(cache([70]))
    yield g.send(key(70), key(100), (0, 116, 0), 1000)
    for i in range(15):
        yield g.receive(flood(record(200 + i), d=True), (0, 76, 0), 2 * i)
    yield g.waits([(2 * i + 1, INQUIRY, 2, 200 + i) for i in range(15)] + [(1000, FLOOD, 2, 70)])
    yield g.receive(flood(record(300)), 14, 50)
    yield g.receive(ack(1000), (0, 0, 0))
    yield g.receive(flood(record(300)), (0, 20, 76), 50, sends=[ack_out(50, 0x500, False), inquire_out(51, 300)])
    yield g.receive(flood(record(301)), 14, 52)
    yield "# one freed by an AUTHORITY, by a revocation, by ticks"
    yield g.receive(authority(1), (0, 0, 0), verdict=1, named=key(200))
    yield g.receive(flood(record(301)), (0, 20, 76), 52)
    yield g.receive(revocation(), (0, 20, 0), verdict=1, named=key(201))
    yield g.receive(flood(record(302)), (0, 20, 76), 54)
    yield g.receive(flood(record(303)), 14, 56)
    yield g.tick((0, 16, 0))
    yield g.tick((0, 16, 0))
    yield g.receive(flood(record(303)), 14, 56)
    yield g.tick((0, 0, 0))
    yield g.receive(flood(record(303)), (0, 20, 76), 56)
    yield g.waits([(57, INQUIRY, 2, 303)])


# 02, request 11: "One gauge, several ponds."
ONE, SECOND, BOTH = record(100, 1, 5100), record(200, 1, 5200), record(100, 1, 5100) + record(200, 1, 5200)
CPAS = lent_as(b"first", b"the second")


def several(g):
    """ "INQUIRE says which CPA; the host lends one for each. N is clear where the validate key is any of ours. For closeness every own record is a
    candidate." """
    full = table([flood_place(i, 7) for i in range(16)])
    yield "# own 100 and 200: an INQUIRE for each is answered with its CPA, for another key it is 12"
    yield g.start(BOTH, 20, CPAS)
    yield g.receive(inquire(100), (0, 45, 0), sends=[cpa_out(7, 0x900, b"first")])
    yield g.receive(inquire(200), (0, 50, 0), sends=[cpa_out(7, 0x900, b"the second")])
    for n in (150, 99, 101, 201, 0, 2 ** 255 + 200, 2 ** 32 + 100):
        yield g.receive(inquire(n), 12)
    yield g.receive(inquire(100), (0, 45, 0), room=45)
    yield g.receive(inquire(200), 15, room=49)
    yield g.receive(inquire(150), 12, room=0)
    yield "# FLOODs with the validate key of either: N clear; with another it is set"
    for validate, n in ((100, 20), (200, 20), (150, 26), (0, 26)):
        yield g.receive(flood(record(70), validate=validate, d=False), 0)
        yield g.receive(flood(record(70), validate=validate), (0, n, 0), sends=[ack_out(7, 0x500, n == 26)])
        yield g.receive(revocation(validate=validate), (0, n, 0), verdict=1, named=key(70), sends=[ack_out(7, 0x600, n == 26)])
    yield "# 11: either of our keys in a route entry or a revocation; nothing is opened"
    for n in (100, 200):
        yield g.receive(flood(record(n)), 11)
        yield g.receive(flood(record(n, 4), d=True, validate=7), 11)
        yield g.receive(revocation(), 11, verdict=1, named=key(n))
        yield g.receive(revocation(), 9, verdict=0, named=key(n))
    yield g.waits([])
    yield "# a LOOKUP is answered with the closest of all, and an entry with either of our keys is passed over"
    for n, shown in ((100, ONE), (150, ONE), (151, SECOND), (200, SECOND), (300, SECOND), (0, ONE)):
        yield g.receive(lookup(n), (0, 96, 0), sends=[shown_out(7, 0xA00, shown)])
        yield g.nearest(b"", key(n), (0, 0 if shown == ONE else 1, 0))
    for waiting in (bytes(2240), full):
        yield g.set_waiting(waiting)
        for r in (ONE, SECOND, record(100, 4, 9), record(200, 4, 9)):
            yield g.receive(lookup(200, route=entry(r)), (0, 96, 0), sends=[shown_out(7, 0xA00, SECOND)])
        yield g.receive(lookup(200, route=entry(record(150))), 14 if waiting == full else (0, 96, 76), 30)
    yield "# held 99, 150 and 199: each by its place from 4; the path passes over these, and over none of ours"
    yield g.set_waiting(bytes(2240))
    yield g.set_cache(cache([at(99, 1, A), at(150, 2, A), at(199, 3, A)], 20))
    for n, want in ((99, 4), (100, 0), (149, 5), (174, 5), (175, 6), (199, 6), (200, 1), (125, 0), (126, 5)):
        yield g.nearest(b"", key(n), (0, want, 2))
        yield g.receive(lookup(n), 0, sends=[shown_out(7, 0xA00, (ONE, SECOND, b"", b"", at(99, 1, A), at(150, 2, A), at(199, 3, A))[want])])
    own_points = point(5100, ONE[36:52]) + point(5200, SECOND[36:52])
    for n, want in ((99, 0), (150, 0), (151, 1), (199, 1), (200, 1)):
        yield g.nearest(own_points + point(1, A) + point(2, A) + point(3, A), key(n), (0, want, 1 if n == 150 else 2))
        yield g.receive(lookup(n, path=[own_points[:18], own_points[18:], point(1, A), point(2, A), point(3, A)]), 0,
                        sends=[shown_out(7, 0xA00, (ONE, SECOND)[want])])
    yield "# a key of ours is not held, however it is searched"
    for n, want in ((99, (0, 1, 2)), (100, (0, 0, 2)), (150, (0, 2, 1)), (200, (0, 0, 2))):
        yield g.find(key(n), want)
    yield "# a FLOOD of either own record; neither is a neighbour"
    yield g.send(key(99), key(100), (0, 116, 0), 1, sends=[flood_out(1, 99, ONE)])
    yield g.send(key(99), key(200), (0, 116, 0), 2, sends=[flood_out(2, 99, SECOND)])
    yield g.send(key(150), key(199), (0, 116, 0), 3, sends=[flood_out(3, 150, at(199, 3, A))])
    for neighbour, named in ((100, 200), (200, 100), (200, 200), (99, 300), (99, 201)):
        yield g.send(key(neighbour), key(named), 12, 4)
    yield g.waits([(1, FLOOD, 2, 99), (2, FLOOD, 2, 99), (3, FLOOD, 2, 150)])
    yield "# a list for each of our keys; 12 for another, before 15; 1 before both"
    yield g.list((0, 1, 2), sends=[key(n) for n in (99, 150, 199)], named=key(100))
    yield g.list((0, 3, 0), sends=[key(n) for n in (199, 150, 99)], named=key(200))
    for n in (150, 99, 0, TOP, 2 ** 32 + 200):
        yield g.list(12, named=key(n))
    yield g.list(12, room=319, named=key(150))
    yield g.list(15, room=319, named=key(200))
    for named in (b"", key(200)[:31], key(200) + b"\0"):
        yield g.list(1, named=named)
        yield g.list(1, room=0, named=named)


def several_learn(g):
    """ "Of the keys in no neighbour list, drop the one farthest round the ring from the first own key, the lower on a tie." """
    twenty = [n + i for n in (100, 200) for i in (-5, -4, -3, -2, -1, 1, 2, 3, 4, 5)]
    yield "# own 100 and 200, C 20, both lists full: 150 comes by FLOOD and AUTHORITY, and is dropped"
    yield g.start(BOTH, 20, CPAS)
    yield g.set_cache(cache(twenty, 20))
    for n in (150, 206, 94):
        yield g.receive(flood(record(n), validate=200), (0, 20, 76))
        yield g.receive(authority(8), (0, 0, 0), verdict=1, named=key(n))
        yield g.held(twenty)
    yield "# one of the second's neighbours is revoked, another comes: both lists as defined"
    yield g.receive(revocation(validate=200), (0, 20, 0), verdict=1, named=key(198))
    yield g.receive(flood(record(180)), (0, 20, 76))
    yield g.receive(authority(8), (0, 0, 0), verdict=1, named=key(180))
    yield g.list((0, 5, 5), sends=[key(n) for n in (199, 197, 196, 195, 180, 201, 202, 203, 204, 205)], named=key(200))
    yield g.receive(flood(record(198)), (0, 20, 76))
    yield g.receive(authority(8), (0, 0, 0), verdict=1, named=key(198))
    yield g.held(twenty)
    yield g.list((0, 5, 5), sends=[key(n) for n in (99, 98, 97, 96, 95, 101, 102, 103, 104, 105)], named=key(100))
    yield "# from an empty cache, keys coming in no order: each list is that of all that came"
    yield g.start(BOTH, 20, CPAS)
    came = []
    for n in (50, 250, 150, 99, 201, 120, 180, 90, 210, 130, 170, 95, 205, 140, 160, 80, 220, 70, 230, 60, 240, 110, 190, 149, 151, 101, 199):
        yield g.receive(flood(record(n), d=True), (0, 76, 0), 2 * n)
        yield g.receive(authority(2 * n + 1), (0, 0, 0), verdict=1, named=key(n))
        came.append(n)
    for own in (100, 200):
        below, above = sorted(n for n in came if n < own)[::-1][:5], sorted(n for n in came if n > own)[:5]
        yield g.list((0, 5, 5), sends=[key(n) for n in below + above], named=key(own))


def several_forms(g):
    """ "C is at least ten times their number; no cache key or inquiry is an own key." Every call that is lent the memory gives 1."""
    def calls(received, sent, ticked, listed):
        yield g.receive(flood(record(60)), received)
        yield g.send(key(70), key(100), sent)
        yield g.tick(ticked)
        yield g.list(listed)
        yield g.nearest(b"", key(60), listed)
        yield g.find(key(60), listed)
        yield g.convert(1 if 1 in (sent, listed) else 0)

    four = ours(100, 200, 300, TOP)
    named = {1: lent_as(b"a"), 2: CPAS, 3: lent_as(b"a", b"b", b"c"), 4: lent_as(b"a", b"b", b"c", b"d"), 5: lent_as(b"a", b"b", b"c", b"d", b"e")}
    yield "# C 19 with two own records: 1; C 20: taken; 29 and 30 with three, 39 and 40 with four; the tick is not lent the cache"
    for own, n in ((BOTH, 2), (four[:300], 3), (four, 4)):
        for c in (10 * n - 1, 10 * n, 10):
            yield g.start(own, c, named[n])
            yield from calls(0 if c == 10 * n else 1, 12 if c == 10 * n else 1, 0, 0 if c == 10 * n else 1)
    yield "# own records out of order, twice, five, not whole, or one of them out of form: 1"
    for own, n in ((SECOND + ONE, 2), (ONE + ONE, 2), (ours(1, 2, 3, 4, 5), 5), (BOTH[:199], 2), (BOTH[:101], 1), (BOTH + b"\0", 2), (b"", 1),
                   (put(BOTH, 134, b"\0"), 2), (put(BOTH, 135, b"\1"), 2), (put(BOTH, 199, b"\1"), 2), (ONE + bytes(100), 2), (four[:200] + ONE, 3)):
        yield g.start(own, 60, named[n])
        yield from calls(1, 1, 1, 1)
    yield "# two addresses in one of them: 1, but to the conversion"
    yield g.start(ONE + record(200, 2), 20, CPAS)
    yield g.receive(inquire(100), 1)
    yield g.list(1)
    yield g.convert((0, 0, 0))
    yield "# an own key held, an own key inquired about: 1"
    for n, bad in ((100, True), (200, True), (150, False)):
        yield g.start(BOTH, 20, CPAS)
        yield g.set_cache(cache([n], 20))
        yield g.receive(inquire(200), 1 if bad else 0)
        yield g.list(1 if bad else 0)
        yield g.tick(0)
        yield g.convert(1 if bad else 0)
        yield g.set_cache(bytes(2000))
        yield g.set_waiting(table([flood_place(1, 200), inquiry(2, n)]))
        yield g.receive(inquire(200), 1 if bad else 0)
        yield g.list(0)
        yield g.tick(1 if bad else 0)
        yield g.convert(1 if bad else 0)
    yield "# four ponds: each CPA, each list, each own record sent and shown"
    yield g.start(four, 40, lent_as(b"1", b"22", bytes(1024), b"4444"))
    yield g.set_cache(cache([99, 250], 40))
    for i, (n, cpa) in enumerate(((100, b"1"), (200, b"22"), (300, bytes(1024)), (TOP, b"4444"))):
        yield g.receive(inquire(n), (0, 40 + len(cpa), 0), sends=[cpa_out(7, 0x900, cpa)])
        yield g.nearest(b"", key(n), (0, i, 2 if n < 250 else 1))
        yield g.send(key(250), key(n), (0, 116, 0), 50 + i, sends=[flood_out(50 + i, 250, four[100 * i:100 * i + 100])])
        yield g.list((0, (1, 1, 2, 0)[i], (1, 1, 0, 2)[i]), named=key(n))
    yield "# an old cache with two own records is converted, old ones or not"
    for own in (record(100, 2) + record(200, 2), ONE + record(200, 4), BOTH):
        yield g.start(own, 20, CPAS)
        yield g.set_cache(cache([record(70, 3, 4070), record(150, 1, 4150)], 20))
        yield g.set_waiting(table([inquiry(5, 60, 1, 2)]))
        yield g.convert((0, 0, 0))
        yield g.convert((0, 0, 0))
    yield g.held([70, 150])
    yield g.waits([(5, INQUIRY, 1, 60)])
    yield g.list((0, 2, 0), sends=[key(150), key(70)], named=key(200))


def lent_cpas(g):
    """docs/MEMORY.md, P1 and P2: for each own record a length of 2 bytes, little-endian, 1 to 1,024, and so many bytes; nothing behind the last."""
    yield "# CPAs out of form: 1, whatever the message; the other calls are not lent them"
    full, two = lent_as(bytes(1024), bytes(1024)), lent_as(b"first", b"the second")
    for cpas in (b"", two[:-1], two + b"\0", two + two, two[:7], two[:8], two[:9], lent_as(b"first"), lent_as(b"a", b"b", b"c"), lent_as(b"", b"a"),
                 lent_as(b"a", b""), lent_as(b"a", bytes(1025)), lent_as(bytes(1025), b"a"), full[:-1], full + b"\0", lent_as(b"a") + b"\0\1b",
                 lent_as(b"a") + b"\2\0b", lent_as(b"a") + b"\0\0", lent_as(b"a") + b"\xFF\xFF" + bytes(1024), bytes(4), b"first" + b"second"):
        yield g.start(BOTH, 20, cpas)
        yield g.receive(inquire(200), 1)
    for datagram in (flood(record(70)), lookup(7), ack(9), revocation(), authority(9), SOLICIT, b""):
        yield g.receive(datagram, 1)
    yield g.list(0)
    yield g.tick(0)
    yield g.send(key(70), key(100), 12)
    yield g.nearest(b"", key(7), (0, 0, 0))
    yield g.find(key(7), (0, 0, 0))
    yield g.convert(0)
    yield "# in form: lengths at both ends, the same twice; bytes that look like lengths"
    for first, second in ((bytes(1), bytes(1)), (bytes(1024), b"\1"), (b"\1", bytes(1024)), (bytes(1024), bytes(1024)), (b"x", b"x"),
                          (b"\1\0\1", b"\0\4\0\0"), (bytes(256), bytes(255)), (b"\xFF" * 257, b"\xFF" * 3)):
        yield g.start(BOTH, 20, lent_as(first, second))
        yield g.receive(inquire(100), (0, 40 + len(first), 0), room=40 + len(first), sends=[cpa_out(7, 0x900, first)])
        yield g.receive(inquire(200), (0, 40 + len(second), 0), room=40 + len(second), sends=[cpa_out(7, 0x900, second)])
    yield "# four of the greatest length, and one byte more or less"
    longest = lent_as(*[bytes([n]) * 1024 for n in (1, 2, 3, 4)])
    for cpas, want in ((longest, (0, 1064, 0)), (longest + b"\0", 1), (longest[:-1], 1)):
        yield g.start(ours(100, 200, 300, 400), 40, cpas)
        yield g.receive(inquire(400), want, sends=[cpa_out(7, 0x900, b"\4" * 1024)] if want != 1 else None)
    yield "# three own records with the CPAs of two, one with that of two"
    yield g.start(ours(100, 200, 300), 30, two)
    yield g.receive(inquire(100), 1)
    yield g.start(ONE, 20, two)
    yield g.receive(inquire(100), 1)


# 02, request 12: "A count kept by first byte." A key that begins with a byte.
def begins(first, n=0):
    return first * 2 ** 248 + n


def learns(g, n, want=(0, 0, 0)):
    """An inquiry for the key, and its AUTHORITY."""
    yield g.set_waiting(table([inquiry(8, n)]))
    yield g.receive(authority(8), want, verdict=1, named=key(n))


def counting(g):
    yield "# firsts: all zero belong to the empty cache, and our own key is not counted; a key that begins with 05 joins: bytes 10 and 11 are 01 00"
    yield g.start(ours(begins(5, 7), begins(5, 9)), 20, lent_as(b"a", b"b"))
    yield g.firsts({})
    yield from learns(g, begins(5))
    yield g.firsts({5: 1})
    yield g.set_firsts(bytes(10) + b"\1\0" + bytes(500))
    yield g.receive(lookup(7), 0)
    yield "# others join, the first byte and the last; a record that is replaced counts no more than before; what is sent and asked counts nothing"
    for n, want in ((begins(0), {0: 1, 5: 1}), (begins(255), {0: 1, 5: 1, 255: 1}), (TOP, {0: 1, 5: 1, 255: 2}),
                    (begins(5, 1), {0: 1, 5: 2, 255: 2})):
        yield from learns(g, n)
        yield g.firsts(want)
    yield g.set_waiting(table([put(inquiry(8, TOP), 72, b"\7\7")]))
    yield g.receive(authority(8), (0, 0, 0), verdict=1, named=key(TOP))
    yield g.receive(flood(record(begins(7))), (0, 26, 76))
    yield g.receive(inquire(begins(5, 7)), 0)
    yield g.receive(lookup(begins(9), route=entry(record(begins(9)))), (0, 96, 76), 20)
    yield g.send(key(TOP), key(begins(5, 7)), 0, 30)
    yield g.tick(0)
    yield g.firsts({0: 1, 5: 2, 255: 2})
    yield "# a revocation takes one, and of a key that is not held none; refused for room it takes none"
    yield g.receive(revocation(), 15, verdict=1, named=key(begins(5)), room=25)
    yield g.firsts({0: 1, 5: 2, 255: 2})
    yield g.receive(revocation(), (0, 26, 0), verdict=1, named=key(begins(5)))
    yield g.firsts({0: 1, 5: 1, 255: 2})
    yield g.receive(revocation(), (0, 26, 0), verdict=1, named=key(begins(5)))
    yield g.receive(revocation(), (0, 26, 0), verdict=1, named=key(begins(6)))
    yield g.receive(revocation(), 9, verdict=0, named=key(begins(5, 1)))
    yield g.firsts({0: 1, 5: 1, 255: 2})
    yield "# so does an ACK with N set, and one with N clear none"
    for identity, n, want in ((40, None, {0: 1, 5: 1, 255: 2}), (41, True, {0: 1, 5: 1, 255: 1}), (42, True, {0: 1, 5: 1, 255: 1})):
        yield g.set_waiting(table([flood_place(identity, TOP)]))
        yield g.receive(ack(identity, n), (0, 0, 0))
        yield g.firsts(want)
    for n in (begins(0), begins(5, 1), begins(255)):
        yield g.receive(revocation(), (0, 26, 0), verdict=1, named=key(n))
    yield g.firsts({})
    yield from full_counts(g)


def full_counts(g):
    yield "# a full cache. Case 3, all begin with 00: 101 joins and 90 goes, and 10 stay. One that begins with 05 is the only one above: 90 goes too"
    for new, want in ((101, {0: 10}), (begins(5), {0: 9, 5: 1}), (89, {0: 10})):
        yield g.start()
        yield g.set_cache(cache(range(90, 100)))
        yield g.firsts({0: 10})
        yield from learns(g, new)
        yield g.firsts(want)
    yield "# what goes begins with FF, and what joins with 00; then a newcomer that begins with FF goes at once"
    yield g.start()
    yield g.set_cache(cache([*range(90, 99), begins(255)]))
    yield g.firsts({0: 9, 255: 1})
    yield from learns(g, 99)
    yield g.firsts({0: 10})
    yield from learns(g, begins(255))
    yield g.firsts({0: 10})
    yield "# 256 keys of one first byte: the number's second byte; what joins then, and what goes, count one each"
    for first in (0, 255):
        many = [begins(first, n) for n in range(1000, 1255)]
        yield g.start(c=256)
        yield g.set_cache(cache(many, 256))
        yield g.firsts({first: 255})
        yield from learns(g, begins(first, 999))
        yield g.firsts({first: 256})
        yield g.set_firsts(bytes(2 * first) + b"\0\1" + bytes(510 - 2 * first))
        yield from learns(g, begins(first, 2000))
        yield g.firsts({first: 256})
        yield from learns(g, 99)
        yield g.firsts({0: 256} if first == 0 else {0: 1, 255: 255})
        yield g.receive(revocation(), 0, verdict=1, named=key(99))
        yield g.firsts({first: 255})


def lent_firsts(g):
    yield "# 1: firsts that are not those of the cache, each number one more, one less, or 256 more; the sum alone right; of other lengths"
    held, good = [begins(0, 1), begins(0, 2), begins(5), begins(255)], counts(0, 0, 5, 255)
    yield g.start()
    yield g.set_cache(cache(held))
    for bad in (counts(0, 5, 255), counts(0, 0, 0, 5, 255), counts(0, 0, 255), counts(0, 0, 5, 5, 255), counts(0, 0, 5), counts(0, 0, 5, 255, 255),
                counts(0, 0, 1, 5, 255), counts(0, 0, 5, 254, 255), counts(0, 5, 5, 255), counts(0, 0, 5, 5), counts(0, 5, 255, 255),
                counts(0, 0, 4, 255), bytes(512), put(good, 1, b"\1"), put(good, 11, b"\1"), put(good, 511, b"\1"), put(good, 13, b"\1"),
                put(good, 0, b"\0\2"), put(good, 510, b"\0\1"), b"\xFF" * 512, b"", good[:511], good[:510], good[:2], good + b"\0",
                good + bytes(2), good + good):
        yield g.set_firsts(bad)
        for datagram in (lookup(7), flood(record(60))[:11], b""):
            yield g.receive(datagram, 1)
    yield "# no other call is lent them, and they stay as they are"
    yield g.set_firsts(counts(0))
    yield g.send(key(begins(5)), key(100), 0)
    yield g.tick(0)
    yield g.list((0, 3, 1))
    yield g.nearest(b"", key(7), (0, 5, 2))
    yield g.find(key(begins(5)), (0, 3, 1))
    yield g.convert(0)
    yield g.firsts({0: 1})
    yield "# in form again"
    yield g.set_firsts(good)
    yield g.receive(lookup(7), 0)
    yield "# a conversion keeps the keys, and so the firsts belong to the cache it leaves"
    yield g.set_cache(cache([record(begins(0, 1), 4), record(begins(5), 2)]))
    yield g.receive(lookup(7), 1)
    yield g.convert(0)
    yield g.firsts({0: 1, 5: 1})
    yield g.receive(lookup(7), 0)


def memory(g):
    good = flood(record(60))

    def calls(received, sent, ticked, listed):
        """A call of each kind on what is lent, with its number; None for a tick that is not made."""
        yield g.receive(good, received)
        yield g.send(key(70), key(100), sent)
        if ticked is not None:
            yield g.tick(ticked)
        yield g.list(listed)

    yield "# 1: the own record"
    for own in (b"", OWN[:99], OWN + b"\0", bytes(100), put(OWN, 34, b"\0"), put(OWN, 34, b"\5"), put(OWN, 35, b"\1"), put(OWN, 52, b"\1"),
                put(OWN, 99, b"\1"), put(OWN, 34, b"\2"), record(100, 2), record(100, 3), record(100, 4)):
        yield g.start(own)
        yield from calls(1, 1, 1, 1)
    yield "# 1: the own CPA, lent to a receive alone"
    for cpas, want in ((lent_as(b""), 1), (lent_as(bytes(1025)), 1), (lent_as(bytes(1)), 0), (lent_as(bytes(1024)), 0), (b"", 1), (b"\1", 1),
                       (b"\1\0", 1), (b"\0\1\7", 1), (b"\2\0\7", 1), (b"\1\0\7\0", 1), (lent_as(b"\7", b"\7"), 1), (lent_as(b"\7"), 0)):
        yield g.start(cpas=cpas)
        yield g.set_cache(cache([70]))
        yield g.receive(good, want)
        yield g.receive(inquire(100), want)
        yield g.send(key(70), key(100), 0)
        yield g.tick(0)
        yield g.list(0)
    yield "# 1: the cache, not lent to a tick; C 9 and 257, 10 and 256"
    for c, want in ((0, 1), (9, 1), (10, 0), (11, 0), (256, 0), (257, 1)):
        yield g.start(c=c)
        yield from calls(want, 12 if want == 0 else 1, 0, want)
    yield g.start()
    filled = cache([70, 80])
    for bad in (filled[:-1], filled + b"\0", cache([80, 70]), cache([70, 70]), cache([70, 100]), put(filled, 134, b"\0"), put(filled, 35, b"\1"),
                put(filled, 999, b"\1"), cache([70, bytes(100), 80]), put(filled, 34, b"\2"), put(filled, 152, b"\1"), cache([70, record(80, 2)]),
                cache([record(70, 3), 80]), cache([record(70, 4), record(80, 4)])):
        yield g.set_cache(bad)
        yield from calls(1, 1, None, 1)
    yield g.tick(0)
    yield "# 1: the waiting table, not lent to the neighbour list"
    yield g.start()
    yield g.set_cache(filled)
    two = table([flood_place(1, 70), inquiry(2, 90)])
    for bad in (two[:-1], two + b"\0", b"", table([flood_place(2, 70), inquiry(2, 90)]), table([flood_place(3, 70), inquiry(2, 90)]),
                table([inquiry(1, 90), inquiry(2, 90)]), table([inquiry(1, 100)]), put(two, 4, b"\3"), put(two, 5, b"\3"), put(two, 147, b"\1"),
                put(two, 139, b"\1"), put(two, 211, b"\x5B"), put(two, 2239, b"\1"), table([bytes(140), inquiry(2, 90)]),
                put(two, 214, b"\2"), put(two, 232, b"\1"), table([inquiry(1, 90, 2, 2)]), table([flood_place(1, 70), inquiry(2, 90, 1, 4)])):
        yield g.set_waiting(bad)
        yield g.receive(good, 1)
        yield g.send(key(70), key(100), 1, 9)
        yield g.tick(1)
        yield g.list((0, 2, 0))
    yield "# in form: a flood with the own key, ID 0, a key that is held"
    yield g.set_waiting(table([flood_place(0, 100), inquiry(1, 70), flood_place(2, 70)]))
    yield g.receive(lookup(70), 0)
    yield g.tick((0, 3, 0))
    yield "# 1: nonce and keys have their lengths, whether they are needed or not"
    yield g.start()
    yield g.set_cache(filled)
    yield g.set_waiting(two)
    for nonce in (b"", NONCE[:15], NONCE + b"\0"):
        for datagram in (good, ack(1), lookup(7), inquire(100)):
            yield g.receive(datagram, 1, nonce=nonce)
    for named in (b"", ZERO[:31], ZERO + b"\0"):
        for datagram in (good, ack(1), revocation(), authority(2)):
            yield g.receive(datagram, 1, verdict=1, named=named)
        yield g.send(named, key(100), 1, 9)
        yield g.send(key(70), named, 1, 9)


def refusals(g):
    start = table([flood_place(1, 70), inquiry(2, 90)])
    yield "# every number of a receive, with something held and something waiting; nothing changes"
    yield g.start()
    yield g.set_cache(cache([60, 70]))
    yield g.set_waiting(start)
    yield g.receive(flood(record(61)), 1, nonce=b"")
    yield g.receive(b"", 2)
    yield g.receive(flood(record(61))[:11], 2)
    yield g.receive(flood(record(61)) + bytes(1233 - 116), 2)
    for i in range(5):
        yield g.receive(put(flood(record(61)), i, b"\xAA"), 3)
    for major in (5, 7, 101):
        yield g.receive(flood(record(61), major=major), 4)
    for code in (0, 5, 6, 10, 12, 255):
        yield g.receive(put(flood(record(61)), 7, bytes([code])), 5)
    yield g.receive(flood(record(61))[:12], 6)
    yield g.receive(flood(record(61))[:-1], 6)
    yield g.receive(flood(record(61)) + b"\0", 6)
    yield g.receive(put(flood(record(61)), 97, b"\5"), 6)
    yield g.receive(put(flood(record(61)), 56, b"\x00\xA1"), 6)
    yield g.receive(put(revocation(), 56, b"\x00\xA2"), 6, verdict=1, named=key(70))
    yield g.receive(put(lookup(60), 20, b"\3"), 6)
    yield g.receive(put(authority(2), 36, b"\x00\xA2"), 6, verdict=1, named=key(90))
    yield g.receive(ack(1) + b"\0\0", 6)
    for datagram in (SOLICIT, ADVERTISE, REQUEST):
        yield g.receive(datagram, 7)
    yield g.receive(authority(2)[:-1], 7, verdict=1, named=key(90))
    yield g.receive(ack(2), 8)
    yield g.receive(authority(1), 8, verdict=1, named=key(70))
    yield g.receive(authority(2), 9, named=key(90))
    yield g.receive(revocation(), 9, named=key(70))
    yield g.receive(authority(2), 10, verdict=1, named=key(70))
    yield g.receive(flood(OWN), 11)
    yield g.receive(revocation(), 11, verdict=1, named=key(100))
    yield g.receive(inquire(70), 12)
    yield g.receive(flood(record(61)), 13, 1)
    yield g.receive(flood(record(61)), 13, 0)
    yield g.receive(flood(record(61)), 15, 7, room=95)
    yield g.receive(inquire(100), 15, room=44)
    yield g.receive(lookup(60), 15, room=95)
    yield g.receive(revocation(), 15, verdict=1, named=key(70), room=19)
    yield g.held([60, 70])
    yield g.waits([(1, FLOOD, 2, 70), (2, INQUIRY, 2, 90)])
    yield g.set_waiting(table([flood_place(i, 70) for i in range(15)] + [inquiry(20, 90)]))
    yield g.receive(flood(record(61)), 14, 20)
    yield "# two numbers apply: the lower one. Memory and length; length and first bytes; first bytes and major; major and type; type and fields"
    yield g.set_waiting(start)
    yield g.receive(b"", 1, nonce=b"")
    yield g.receive(bytes(1233), 1, named=b"")
    yield g.receive(bytes(11), 2)
    yield g.receive(bytes(1233), 2)
    yield g.receive(put(ack(1), 4, b"\x52\x07"), 3)
    yield g.receive(put(ack(1), 5, b"\x07\x65\x00"), 4)
    yield g.receive(put(ack(1), 7, b"\x00")[:12], 5)
    yield "# fields and a message not taken on; in part and not waiting; not waiting and no CPA; no CPA, or not good, and another key"
    yield g.receive(SOLICIT[:-1], 6)
    yield g.receive(ADVERTISE + b"\0", 6)
    yield g.receive(REQUEST[:12], 6)
    yield g.receive(put(authority(2)[:-1], 13, b"\x19"), 6)
    yield g.receive(authority(5)[:-1], 7)
    yield g.receive(SOLICIT, 7, room=0)
    yield g.receive(authority(5, cpa=None), 8)
    yield g.receive(authority(1, cpa=None), 8, verdict=1, named=key(90))
    yield g.receive(authority(5), 8, verdict=2)
    yield g.receive(authority(2, cpa=None), 9, verdict=1, named=key(91))
    yield g.receive(authority(2, cpa=None), 9, verdict=0, named=key(91))
    yield g.receive(authority(2), 9, verdict=0, named=key(91))
    yield "# not good and the own key, and no room; the own key and its ID waiting, and all used, and no room; not for us and no room"
    yield g.receive(revocation(), 9, verdict=3, named=key(100))
    yield g.receive(revocation(), 9, verdict=3, named=key(70), room=0)
    yield g.receive(revocation(), 11, verdict=1, named=key(100), room=0)
    yield g.receive(flood(OWN), 11, 0)
    yield g.receive(flood(OWN), 11, room=0)
    yield g.receive(inquire(70), 12, room=0)
    yield "# the ID waiting and all used; the ID waiting and no room; all used and no room"
    yield g.receive(flood(record(61)), 13, 1, room=0)
    yield g.set_waiting(table([flood_place(i, 70) for i in range(15)] + [inquiry(20, 90)]))
    yield g.receive(flood(OWN), 11, 30)
    yield g.receive(flood(record(61)), 13, 4)
    yield g.receive(flood(record(61)), 13, 19)
    yield g.receive(flood(record(61)), 13, 4, room=0)
    yield g.receive(flood(record(61)), 14, 30, room=0)
    yield "# the same for a send, a tick, a list"
    yield g.send(key(61), key(100), 12, 4)
    yield g.send(key(61), key(100), 12, 30)
    yield g.send(key(61), key(100), 12, 30, room=0)
    yield g.send(key(70), key(61), 12, 4, room=0)
    yield g.send(key(61)[:31], key(61), 1, 4)
    yield g.send(key(61), key(100) + b"\0", 1, 4, room=0)
    yield g.send(key(70), key(100), 13, 4)
    yield g.send(key(70), key(100), 13, 20, room=0)
    yield g.send(key(70), key(100), 14, 30, room=0)
    yield g.set_waiting(start)
    yield g.send(key(70), key(100), 13, 2, room=115)
    yield g.send(key(70), key(100), 15, 3, room=115)
    yield g.send(key(61), key(100), 12, 3, room=115)
    yield g.set_waiting(bytes(2239))
    yield g.send(key(61), key(100), 1, 3)
    yield g.tick(1, room=63)
    yield g.set_waiting(start)
    yield g.tick(15, room=63)
    yield g.set_cache(bytes(999))
    yield g.list(1, room=319)
    yield g.set_cache(cache([60, 70]))
    yield g.list(15, room=319)
    yield g.held([60, 70])
    yield g.waits([(1, FLOOD, 2, 70), (2, INQUIRY, 2, 90)])
    yield "# the old gauge's slip: a place is not freed and then refused for room"
    yield g.set_waiting(table([inquiry(2, 90)]))
    yield g.receive(revocation(), 15, verdict=1, named=key(90), room=19)
    yield g.waits([(2, INQUIRY, 2, 90)])
    yield g.receive(revocation(), (0, 20, 0), verdict=1, named=key(90), room=20)
    yield g.waits([])


def bytewise(g):
    yield "# what goes out, byte by byte: ACK with N clear and INQUIRE; ACK with N set; AUTHORITY for an INQUIRE and for a LOOKUP; FLOOD"
    ours = "009A003A" + "00" * 31 + "64" + "0665" + "13EC" + "00" + "01" + "2122232425262728292A2B2C2D2E2F30" + "0000"
    ask = "0010000C51066507" + "00000008" + "0040000600100000" + "00390024" + "00" * 31 + "46" + "00930014" + "A0A1A2A3A4A5A6A7A8A9AAABACADAEAF"
    yield g.start()
    yield g.receive(flood(record(70)), (0, 20, 76), sends=[bytes.fromhex("0010000C51066509" + "00000007" + "0018000800000500"), bytes.fromhex(ask)])
    yield g.receive(flood(record(70), validate=70), (0, 26, 0),
                    sends=[bytes.fromhex("0010000C51066509" + "00000007" + "0018000800000500" + "004000060001")])
    before = "0010000C51066508" + "00000007"
    yield g.receive(inquire(100), (0, 45, 0), sends=[bytes.fromhex(before + "0018000800000900" + "0098000800110000" + "0040000600000000"
                                                                   + "009B0009" + "0102030405")])
    yield g.receive(lookup(100), (0, 96, 0), sends=[bytes.fromhex(before + "0018000800000A00" + "0098000800440000" + "0040000600000000" + ours)])
    yield g.receive(authority(8), (0, 0, 0), verdict=1, named=key(70))
    yield g.send(key(70), key(100), (0, 116, 0), sends=[bytes.fromhex("0010000C51066504" + "00000007" + "0043000700000000"
                                                                      + "00390024" + "00" * 31 + "46" + ours)])


def limits(g):
    yield "# datagrams of 11, 12, 1,232 and 1,233 bytes: case 13, and the longest that is acted on"
    yield g.start()
    yield g.receive(inquire(100)[:11], 2)
    yield g.receive(inquire(100)[:12], 6)
    for length, want in ((1232, 0), (1233, 2)):
        yield g.receive(inquire(100, key_identifier=bytes(length - 80)), want)
        yield g.receive(revocation(revoke=bytes(length // 4 * 4 - 60)) + bytes(length % 4), want, verdict=1, named=key(70))
        yield g.receive(lookup(100, key_identifier=bytes(length - 130)), want)
    yield "# addresses: 1 and 4, 0 and 5; in a FLOOD, in a LOOKUP, in an AUTHORITY"
    asked = table([inquiry(2, 70)])
    for count in (1, 4):
        yield g.start()
        yield g.set_waiting(asked)
        yield g.receive(flood(record(60, count)), (0, 20, 76))
        yield g.receive(lookup(100, route=entry(record(60, count))), (0, 96, 0))
        yield g.receive(authority(2, route=entry(record(60, count))), (0, 0, 0), verdict=1, named=key(70))
    yield g.start()
    yield g.set_waiting(asked)
    for count, like in ((0, 1), (5, 4)):
        one = bytes([count])
        yield g.receive(put(flood(record(60, like)), 97, one), 6)
        yield g.receive(put(lookup(100, route=entry(record(60, like))), 137, one), 6)
        yield g.receive(put(authority(2, route=entry(record(60, like))), 77, one), 6, verdict=1, named=key(70))
    yield "# endpoints: 1 and 22, 0 and 23; in a FLOOD, in a revocation, as the path of a LOOKUP"
    for n, want in ((1, 0), (22, 0), (23, 6)):
        points = [bytes(range(18))] * n
        yield g.start()
        yield g.receive(flood(record(60), reached=points), want)
        yield g.receive(revocation(reached=points), want, verdict=1, named=key(60))
        yield g.receive(message("lookup", 0xA00, target=key(7), validate=key(7), path=points), want)
    none = bytes.fromhex("009E000C00000008009D0012")
    yield g.receive(flood(record(60)) + none, 6)
    yield g.receive(revocation() + none, 6, verdict=1, named=key(60))
    yield g.receive(message("lookup", 0xA00, target=key(7), validate=key(7), path=[]), 6)
    yield "# places: with 15 used one more is opened, with 16 none"
    for used, want in ((15, 0), (16, 14)):
        yield g.start()
        yield g.set_cache(cache([70]))
        yield g.set_waiting(table([flood_place(i, 7) for i in range(used)]))
        yield g.receive(flood(record(60)), want, 50)
        yield g.set_waiting(table([flood_place(i, 7) for i in range(used)]))
        yield g.send(key(70), key(100), want, 50)


def malformed(g):
    yield "# 6 by a receive: 00A1 and 00A2 at each of their places, whatever is held and waiting"
    yield g.start()
    yield g.set_cache(cache([60, 70]))
    yield g.set_waiting(table([flood_place(1, 70), inquiry(2, 90)]))
    for kind in ("solicit", "flood", "authority", "lookup"):
        d = laid.LAYERS[kind](route=1)
        at = [at for number, at in d.fields if number == 0x009A][0]
        yield g.receive(put(d.s, at, b"\x00\xA1"), 6, verdict=1, named=key(90))
    for d, at in ((laid.flood(revoke=b"CPA5").s, 56), (laid.flood(token=laid.TOKEN, revoke=b"CPA5").s, 68), (laid.authority(cpa=b"CPA5").s, 36),
                  (laid.authority(route=1, cpa=b"CPA5").s, 96)):
        yield g.receive(put(d, at, b"\x00\xA2"), 6, verdict=1, named=key(90))
    yield "# lists whose lengths are right only modulo 65,536: key lists of 2,048 and 2,049, endpoints of 32,769, a classifier of 32,768"
    for d, at, n in ((laid.advertise(0).s, 24, 2048), (laid.advertise(1).s, 24, 2049), (laid.request(n=0).s, 36, 2048),
                     (laid.request(n=1).s, 36, 2049), (laid.flood(route=1, reached=1).s, 120, 0x8001),
                     (laid.lookup(path=1).s, 100, 0x8001), (laid.authority(units=[]).s, 40, 0x8000)):
        yield g.receive(put(d, at, model.two(n)), 6, verdict=1, named=key(90))
    yield g.held([60, 70])
    yield g.waits([(1, FLOOD, 2, 70), (2, INQUIRY, 2, 90)])


def pairs(g):
    yield "# two neighbours of the table at once: the lower one, and nothing has changed. Of an unknown type, a field past the end"
    yield g.start()
    yield g.set_cache(cache([60, 70]))
    yield g.set_waiting(table([flood_place(1, 70), inquiry(2, 90)]))
    yield g.receive(put(ack(1), 7, b"\x00")[:-1], 5)
    yield "# bytes left over behind: a FLOOD of the own key; a revocation that is not good; an ACK, an INQUIRE, a LOOKUP that would be refused too"
    yield g.receive(flood(OWN) + b"\0", 6)
    yield g.receive(revocation() + b"\0", 6, verdict=0, named=key(70))
    yield g.receive(ack(9) + b"\0", 6)
    yield g.receive(inquire(70) + b"\0", 6)
    yield g.receive(lookup(60) + b"\0", 6, room=0)
    yield "# REQUEST, ADVERTISE and SOLICIT cut short"
    for datagram in (SOLICIT, ADVERTISE, REQUEST):
        yield g.receive(datagram[:-1], 6)
    yield "# the record to send not held and the ID waiting; its key too short and the neighbour not held"
    yield g.send(key(70), key(61), 12, 1)
    yield g.send(key(61), key(61)[:31], 1, 3)
    yield g.held([60, 70])
    yield g.waits([(1, FLOOD, 2, 70), (2, INQUIRY, 2, 90)])


def looked(kind, **fields):
    """A datagram laid out by hand, and the twelve numbers by the places at which its fields were laid."""
    d = laid.LAYERS[kind](**fields)
    acked = {"advertise": 0x01020304, "authority": 0xCCDDE43D, "ack": 0xD8859CF5}.get(kind, 0)
    at = {number: (place + 4, model.value(d.s[place + 2:place + 4]) - 4) for number, place in d.fields}
    none = (0, 0)
    return d.s, ((0, laid.CODES[kind], laid.ID, acked) + at.get(0x009B, at.get(0x009C, none)) + at.get(0x0093, at.get(0x0092, none))
                 + at.get(0x009A, none) + at.get(0x0038, none))


def looking(g):
    yield ("# look: each type with every optional field, and with none; the numbers are type, ID, acked ID, then place and length of CPA, nonce, "
           "route entry, target")
    places = {"solicit": ((0, 0), (92, 20), (16, 70), (0, 0)), "advertise": ((0, 0), (100, 20), (0, 0), (0, 0)),
              "request": ((0, 0), (32, 16), (0, 0), (0, 0)), "inquire": ((0, 0), (60, 16), (0, 0), (0, 0)),
              "authority": ((152, 3), (0, 0), (92, 54), (0, 0)), "ack": ((0, 0), (0, 0), (0, 0), (0, 0)),
              "lookup": ((0, 0), (0, 0), (100, 70), (28, 32))}  # of those with every field, counted by hand
    for kind, fields in laid.FULL + laid.BARE:
        d, want = looked(kind, **fields)
        if (kind, fields) in laid.FULL and kind != "flood":
            assert want[4:] == sum(places[kind], ()), (kind, want)
        yield g.look(d, want)
    yield "# each field that is told, alone and beside each other; empty contents have a place and length 0; contents that look like fields"
    for kind, choices in (("solicit", {"route": 4}), ("request", {"flags": True, "split": True, "credential": b"", "signature": b"s"}),
                          ("inquire", {"nonce": laid.NONCE, "credential": b"", "signature": b"", "identifier": b"i"}),
                          ("authority", {"chain": b"chain", "token": laid.TOKEN, "units": [], "payload": laid.PAYLOAD, "route": 3, "cpa": b""}),
                          ("lookup", {"route": 1, "path": 22, "credential": b"c"})):
        for fields in laid.choices(**choices):
            yield g.look(*looked(kind, **fields))
    for fields in ({"revoke": b""}, {"revoke": b"1"}, {"revoke": laid.REVOKE, "token": b""}, {"revoke": bytes(1000)},
                   {"route": 4, "token": b"t", "reached": 22}, {"route": 1, "flags": 1}):
        yield g.look(*looked("flood", **fields))
    for fields in ({"flags": 0}, {"flags": 1}, {}):
        yield g.look(*looked("ack", **fields))
    yield "# ignored bits and padding that is not zero; any minor version; IDs at both ends"
    for kind, fields in laid.FULL:
        yield g.look(*looked(kind, dirt=True, **fields))
    for minor, identity in ((0, 0), (255, 2 ** 32 - 1)):
        yield g.look(laid.ack(minor=minor, identity=identity).s, (0, 9, identity, 0xD8859CF5) + (0,) * 8)
    yield g.look(put(laid.ack().s, 16, bytes(4)), (0, 9, laid.ID, 0) + (0,) * 8)
    yield "# what the calls send, looked at by the one who gets it"
    yield g.look(ack_out(7, 5, True), (0, 9, 7, 5) + (0,) * 8)
    yield g.look(inquire_out(8, 70), (0, 7, 8, 0, 0, 0, 60, 16, 0, 0, 0, 0))
    yield g.look(cpa_out(7, 8, CPA), (0, 8, 7, 8, 40, 5, 0, 0, 0, 0, 0, 0))
    yield g.look(shown_out(7, 8, OWN), (0, 8, 7, 8, 0, 0, 0, 0, 40, 54, 0, 0))
    yield g.look(flood_out(7, 70, OWN), (0, 4, 7, 0, 0, 0, 0, 0, 60, 54, 0, 0))
    yield "# refusals 2 to 7, the rest 0; two neighbours at once"
    plain, whole = laid.ack(1).s, laid.authority(cpa=b"CPA").s
    for d, want in ((b"", 2), (plain[:11], 2), (plain + bytes(1207), 2), (bytes(12), 3), (put(plain, 4, b"\x50"), 3), (put(plain, 0, b"\x01"), 3),
                    (put(plain, 7, b"\x05"), 5), (put(plain, 7, b"\x0C"), 5), (plain[:12], 6), (plain + b"\0", 6), (put(plain, 13, b"\x19"), 6),
                    (put(laid.flood(route=1).s, 56, b"\x00\xA1"), 6), (whole[:-1], 7), (whole + b"\0", 7), (put(whole, 26, b"\x04\xA4"), 7),
                    (put(whole[:-1], 28, b"\xFF"), 7), (bytes(11), 2), (bytes(1233), 2), (put(plain, 4, b"\x52\x07"), 3),
                    (put(plain, 5, b"\x07\x65\x00"), 4), (put(plain, 7, b"\x00")[:-1], 5), (put(whole[:-1], 13, b"\x19"), 6)):
        yield g.look(d, (want,) + (0,) * 11)
    for major in (0, 5, 7, 255):
        yield g.look(plain, (4,) + (0,) * 11, major)
    yield g.look(put(plain, 5, b"\xFF"), 0, 255)


SCENES = (story, floods, identities, revocations, authorities, across, acked, answered, paths, searching, asked, addresses, converting, room,
          sending, ticking, listing, case14, several, several_learn, several_forms, lent_cpas, counting, lent_firsts, memory, limits, malformed,
          refusals, pairs, bytewise, looking)


def vectors(g=None):
    """Headings as strings, vectors as (operands, answer)."""
    g = g or Gauge()
    for scene in SCENES:
        for v in scene(g):
            yield from v if isinstance(v, list) else [v]


def check():
    assert ack_out(7, 0xD8859CF5, False) == bytes.fromhex("0010000C510665090000000700180008D8859CF5")  # case 10
    assert ack_out(7, 0xD8859CF5, True) == bytes.fromhex("0010000C510665090000000700180008D8859CF5004000060001")  # case 11
    assert len(inquire_out(1, 2)) == 76 and len(cpa_out(1, 2, b"C" * 1024)) == 1064
    assert len(shown_out(1, 2, record(7))) == 96 and len(flood_out(1, 2, record(7))) == 116
    g = Gauge()
    lines = [v for v in vectors(g) if not isinstance(v, str)]  # each `want` is compared on the way
    # Every number of every call is there, and no other.
    numbers = {name: {int(answer.split()[0]) for operands, answer in lines if operands[0] == name}
               for name in ("receive", "send", "tick", "list", "nearest", "find", "convert", "look")}
    assert numbers == {"receive": {0, *ORDER}, "send": {0, 1, 12, 13, 14, 15}, "tick": {0, 1, 15}, "list": {0, 1, 12, 15},
                     "nearest": {0, 1}, "find": {0, 1}, "convert": {0, 1}, "look": {0, 2, 3, 4, 5, 6, 7}}, numbers
    # So are, for each kind of message, every number that it can be refused with, and every two neighbours at once.
    for kind, numbers in TABLES.items():
        for n in numbers:
            assert any(k == kind and number == n for k, _, number in g.seen), "no %s is refused with %d" % (kind, n)
        for a, b in zip(numbers, numbers[1:]):
            assert any(k == kind and number == a and b in applies for k, applies, number in g.seen), "no %s to which %d and %d apply" % (kind, a, b)
    # With a refusal nothing is told and nothing has changed.
    for operands, answer in lines:
        if operands[0] in ("receive", "send", "tick", "list", "nearest", "find", "convert") and not answer.startswith("0 "):
            assert answer.split()[1:] == ["0", "0", "-", "same", "same", "same", "clean"], (operands, answer)
    # What a call writes is read as a message, and written again it is the same.
    for operands, answer in lines:
        if operands[0] in ("receive", "send") and answer.startswith("0 "):
            first, second, sent = int(answer.split()[1]), int(answer.split()[2]), answer.split()[3]
            sent = b"" if sent == "-" else bytes.fromhex(sent)
            for d in (sent[:first], sent[first:first + second]):
                assert d == b"" or model.write(model.read(d, d[5])[1]) == d
    return lines


if __name__ == "__main__":
    lines = check()
    names = ("gauge", "set-cache", "set-firsts", "set-waiting", "receive", "send", "tick", "list", "nearest", "find", "convert", "held", "firsts",
             "waits", "look")
    print("vector_calls: %d vectors, %s" % (len(lines), ", ".join("%d %s" % (sum(v[0][0] == name for v in lines), name) for name in names)))
    numbers = [int(answer.split()[0]) for operands, answer in lines if operands[0] == "receive"]
    print("answers of receive: " + ", ".join("%d %d times" % (n, numbers.count(n)) for n in (0, *ORDER)))
