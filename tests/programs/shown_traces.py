"""Traces for tests/programs/shown, and names for their keys: every answer that a replay can have, every bad record, a full cache, random nights.

Each trace of known answers says them beside its records, and they are held against tests/models/model_night.py's.
"""
if not __debug__:
    raise SystemExit("shown_traces.py: run it without -O and PYTHONOPTIMIZE, which leave its asserts out")
import random
import struct

import with_models
import model
import model_night


def key(n):
    return n.to_bytes(32, "big")


def gauge_record(n, port=5000, count=1):
    return key(n) + model.two(port) + bytes([count, 0]) + bytes(range(1, 16 * count + 1)) + bytes(64 - 16 * count)


def put(kind, body):
    return (len(body) + 2).to_bytes(2, "little") + kind.to_bytes(2, "little") + body


def opening(own):
    return put(4, bytes([6, 101]) + own)


def receive(identity, datagram, verdict=0, named=bytes(32)):
    return put(1, identity.to_bytes(4, "little") + bytes([verdict]) + named + bytes(range(16)) + datagram)


def send(identity, neighbour, about):
    return put(2, identity.to_bytes(4, "little") + key(neighbour) + key(about))


TICK = put(3, b"")


def message(kind, identity, **named):
    return model.write(model.message(kind, 6, 101, identity, **named))


def flood(identity, record, validate=100):
    return message("flood", identity, validate=key(validate), route=model.entry_of(record, 6, 101))


def carrying(identity, acked, payload):
    return message("authority", identity, acked=acked, cpa=b"C", payload=payload)


# Document 02, request 7: a depth and a fault, packed; and three that are refused, of wrong length, of an unknown kind, deeper than 20 metres.
PAYLOADS = [struct.pack("<HHfII", 14, 1, 1.25, 3, 4), struct.pack("<HHHII", 12, 2, 705, 400, 200), struct.pack("<HHfII", 14, 1, 20.0, 2 ** 32 - 1, 0),
            struct.pack("<HHfII", 14, 1, 0.0005, 7, 7), struct.pack("<HHfII", 13, 1, 1.25, 3, 4), struct.pack("<HHfII", 14, 3, 1.25, 3, 4),
            struct.pack("<HHfII", 14, 1, 20.5, 3, 4), b""]


def revocation(identity):
    return message("flood", identity, validate=key(100), revoke=b"R")


def authority(identity, acked, cpa=b"C"):
    return message("authority", identity, acked=acked, cpa=cpa)


# A record's endpoint on a path: its port and its first address.
def endpoint(record):
    return record[32:34] + record[36:52]


def lookup(identity, target, told=None, path=(bytes(18),)):
    route = None if told is None else model.entry_of(told, 6, 101)
    return message("lookup", identity, target=key(target), validate=key(0), route=route, path=list(path))


# The FLOOD of a record, and the AUTHORITY to the INQUIRE that it brings about: the record is learned.
def learn(identity, record):
    return [(receive(identity, flood(identity, record)), 0), (receive(identity + 2, authority(7, identity + 1), 1, record[:32]), 0)]


# Document 01, "Cases worked by hand", as far as calls make them, and each answer that a replay can have but 1. Pairs of a record and its answer.
def worked_cases():
    plain = bytes.fromhex("0010000C510665090000000700180008D8859CF5")
    calls = []
    # 1: own 100, held 60, 70, 80, 90, 95, 99, 101, 110
    for i, n in enumerate([60, 70, 80, 90, 95, 99, 101, 110]):
        calls += learn(1000 + 10 * i, gauge_record(n, 5000 + n, 1 + i % 4))
    # 6 by LOOKUP, 10 and 11 as ACKs that nothing waits for
    calls += [(receive(1, lookup(2, 100)), 0), (receive(1, plain), 8), (receive(1, plain + bytes.fromhex("004000060001")), 8)]
    # 12: a place with two tries: listed, listed, freed. An ACK is late then, and in time before
    calls += [(send(20, 99, 100), 0), (TICK, 0), (TICK, 0), (TICK, 0), (receive(1, message("ack", 3, acked=20)), 8)]
    calls += [(send(21, 99, 101), 0), (receive(1, message("ack", 3, acked=21)), 0)]
    # N: the neighbour is not there any more, and is taken out
    calls += [(send(22, 95, 100), 0), (receive(1, message("ack", 4, acked=22, n=True)), 0), (send(23, 95, 100), 12)]
    # 13: datagrams of 11 and 1,233 bytes, and of 12 with a right header
    calls += [(receive(1, plain[:11]), 2), (receive(1, plain + bytes(1213)), 2), (receive(1, plain[:12]), 6), (receive(1, b""), 2)]
    calls += refusals(plain)
    # 14: sixteen places used, and one freed by an ACK
    calls += [(send(300 + i, 99, 100), 0) for i in range(16)]
    again = receive(400, flood(5, gauge_record(55)))
    calls += [(again, 14), (receive(1, message("ack", 6, acked=307)), 0), (again, 0)]
    return calls + [(TICK, 0), (send(4294967295, 110, 100), 14)]


def refusals(plain):
    new, own = gauge_record(50), gauge_record(100)
    calls = [(receive(1, b"\1" + plain[1:]), 3), (receive(1, plain[:5] + b"\7" + plain[6:]), 4), (receive(1, plain[:7] + b"\5" + plain[8:]), 5)]
    calls += [(receive(1, message("solicit", 30, route=model.entry_of(new, 6, 101), hashed_nonce=bytes(20))), 7)]
    calls += [(receive(1, message("advertise", 31, acked=5, keys=[key(1)], hashed_nonce=bytes(20))), 7)]
    calls += [(receive(1, message("request", 32, nonce=bytes(16), keys=[])), 7), (receive(1, authority(33, 5)[:-1]), 7)]
    # one inquiry: not trusted, not good, for another key; its ID again; then revoked, so that its AUTHORITY comes late
    calls += [(receive(200, flood(34, new)), 0), (receive(1, authority(35, 201, None), 1, key(50)), 9), (receive(1, authority(35, 201)), 9)]
    calls += [(receive(1, authority(35, 201), 1, key(51)), 10), (receive(200, flood(36, gauge_record(51))), 13), (send(201, 99, 100), 13)]
    calls += [(receive(1, revocation(37)), 9), (receive(1, revocation(37), 1, key(100)), 11), (receive(1, revocation(38), 1, key(50)), 0)]
    calls += [(receive(1, authority(35, 201), 1, key(50)), 8), (receive(1, flood(39, own)), 11)]
    # an AUTHORITY that tells a gauge, which answers a LOOKUP
    calls += [(receive(1, message("authority", 40, acked=3, route=model.entry_of(new, 6, 101))), 8)]
    calls += [(receive(1, message("inquire", 41, a=True, validate=key(100))), 0), (receive(1, message("inquire", 42, a=True, validate=key(99))), 12)]
    return calls + [(send(24, 99, 98), 12)]


def worked_trace():
    calls = worked_cases()
    data = opening(gauge_record(100)) + b"".join(record for record, _ in calls)
    want = ["%d %d" % (n, answer) for n, (_, answer) in enumerate(calls, 1)]
    assert model_night.replay(data)[0] == want, [pair for pair in zip(model_night.replay(data)[0], want) if pair[0] != pair[1]]
    assert {answer for _, answer in calls} == set(range(15)) - {1}
    return data


# Each bad record behind a good night's beginning, and as the first. 02: 16 cut short or of wrong length, 17 unknown kind, kind 4 missing or repeated.
def bad_traces():
    first, tail = opening(gauge_record(100)), TICK + TICK
    bad = {"one_byte": b"\2", "no_kind": b"\1\0\3", "cut": receive(1, bytes(12))[:-1], "short_receive": put(1, bytes(52)) + tail,
           "short_send": put(2, bytes(67)) + tail, "long_send": put(2, bytes(69)) + tail, "long_tick": put(3, b"\0") + tail,
           "short_opening": put(4, bytes(101)) + tail, "kind_0": put(0, bytes(53)) + tail, "kind_5": put(5, b"") + tail,
           "kind_256": put(256, b"") + tail}
    traces = {"empty": b"", "opening_cut": first[:-1], "opening_missing": tail, "opening_again": first + TICK + first + tail, "opening_only": first,
              "longest_record": first + receive(1, bytes(65480)) + TICK}
    for name, record in bad.items():
        traces["bad_" + name] = first + TICK + record
        traces["first_" + name] = record
    return traces


# Own records out of form: count 0 and 5, the zero byte, bytes behind the address; two to four addresses, as before request 13. Each call gives 1, a
# tick too.
def formless_traces():
    good, calls = gauge_record(100), TICK + receive(1, flood(5, gauge_record(99))) + send(2, 99, 100) + receive(1, b"")
    own = {"count_0": good[:34] + b"\0" + good[35:], "count_5": good[:34] + b"\5" + good[35:], "zero": good[:35] + b"\1" + good[36:],
           "unused": good[:99] + b"\1", "nothing": bytes(100), "count_2": good[:34] + b"\2" + good[35:], "two": gauge_record(100, count=2),
           "four": gauge_record(100, count=4)}
    traces = {"own_" + name: opening(record) + calls for name, record in own.items()}
    for data in traces.values():
        assert model_night.replay(data)[0] == ["1 1", "2 1", "3 1", "4 1"]
    return traces


# A cache that overflows: 70 gauges are learned, of which 64 are held.
def full_trace():
    calls = [record for i in range(70) for record, _ in learn(10 * i, gauge_record(1000 + 7 * i, i, 1 + i % 4))]
    return opening(gauge_record(1200)) + b"".join(calls)


# Keys on both sides of the ring's end: 70 gauges around pond 1, two of them just opposite and next to that, of which 64 are held. Then LOOKUPs there.
def round_trace():
    keys = [(1 + steps) % 2 ** 256 for steps in [2 ** 255, 2 ** 255 + 1] + [n * way for n in range(34, 0, -1) for way in (1, -1)]]
    calls = [record for i, n in enumerate(keys) for record, _ in learn(10 * i, gauge_record(n, i, 1 + i % 4))]
    calls += [receive(1, lookup(2, target)) for target in (0, 2 ** 256 - 1, 2 ** 255, 2 ** 255 + 1)]
    data = opening(gauge_record(1)) + b"".join(calls)
    lines, night = model_night.replay(data)
    assert [line.split()[1] for line in lines] == ["0"] * len(calls)
    kept = [(1 + steps) % 2 ** 256 for steps in range(-32, 33) if steps]
    assert [model.key_of(r) for r in model.State(night).records] == sorted(kept)
    return data


# Document 02, request 11: of 64 held, and one more, the farthest in no list goes, and not one of the fuller side; of two equally far the lower.
def dropped_trace():
    keys = list(range(1001, 1041)) + list(range(900, 924)) + [1041, 960, 1100, 1099, 1098, 902]
    calls = [record for i, n in enumerate(keys) for record, _ in learn(10 * i, gauge_record(n, i))]
    data = opening(gauge_record(1000)) + b"".join(calls)
    lines, night = model_night.replay(data)
    assert [line.split()[1] for line in lines] == ["0"] * len(calls)
    # 1041 takes out 900, 960 then 901; 1100 and 1099 are the farthest themselves; 1098 and 902 are as far, and 902 goes, and does not come back
    assert [model.key_of(r) for r in model.State(night).records] == list(range(903, 924)) + [960] + list(range(1001, 1042)) + [1098]
    return data


# Document 02, request 2: LOOKUPs whose path passes over the closest, and over all; whose route entry is new, waiting, held, another, ours; 13 and 14.
def path_trace():
    near, far, new, own = gauge_record(99, 5099), gauge_record(101, 5101, 4), gauge_record(50, 5050, 2), gauge_record(100)
    calls = learn(10, near) + learn(20, far)
    calls += [(receive(1, lookup(2, 100, path=path)), 0) for path in ([endpoint(near)], [endpoint(near), endpoint(far)], [bytes(18)] * 22)]
    calls += [(receive(30, lookup(3, 51, new)), 0), (receive(40, lookup(3, 51, gauge_record(50))), 0)]
    calls += [(receive(30, lookup(3, 51, gauge_record(52))), 13), (receive(1, authority(4, 31), 1, key(50)), 0)]
    calls += [(receive(30, lookup(3, 51, new, [endpoint(new)])), 0)]
    calls += [(receive(30, lookup(3, 51, gauge_record(50))), 0), (receive(30, lookup(3, 51, own)), 0)]
    calls += [(send(300 + i, 99, 100), 0) for i in range(15)]
    calls += [(receive(60, lookup(5, 51, gauge_record(52))), 14), (receive(60, lookup(5, 51, new)), 0), (receive(60, lookup(5, 51, own)), 0)]
    calls += [(receive(1, message("ack", 6, acked=307)), 0), (receive(4294967295, lookup(5, 51, gauge_record(52))), 0)]
    data = opening(own) + b"".join(record for record, _ in calls)
    lines, night = model_night.replay(data)
    assert lines == ["%d %d" % (n, answer) for n, (_, answer) in enumerate(calls, 1)], lines
    assert [model.key_of(r) for r in model.State(night).records] == [50, 99, 101]
    assert [p["id"] for p in model.State(night).places if p["kind"] == 2] == [0, 31]
    return data


# Document 02, request 13: a FLOOD and a LOOKUP with four addresses, of which the first is kept; then with others behind it, or before it.
def address_trace():
    four, own = gauge_record(50, 5050, 4), gauge_record(100)
    moved = four[:36] + four[52:68] + four[36:52] + four[68:]
    calls = learn(10, four)
    calls += [(receive(30, flood(31, gauge_record(50, 5050, count))), 0) for count in (1, 2, 3, 4)]
    calls += [(receive(30, lookup(32, 51, gauge_record(50, 5050, count))), 0) for count in (1, 4)]
    calls += [(receive(1, authority(33, 31), 1, key(50)), 8), (receive(40, lookup(34, 51, moved)), 0), (receive(1, authority(35, 41), 1, key(50)), 0)]
    calls += [(receive(50, flood(36, four)), 0), (receive(60, lookup(37, 51, path=[endpoint(moved)])), 0), (send(70, 50, 50), 0)]
    data = opening(own) + b"".join(record for record, _ in calls)
    lines, night = model_night.replay(data)
    assert lines == ["%d %d" % (n, answer) for n, (_, answer) in enumerate(calls, 1)], lines
    assert model.State(night).records == [moved[:34] + b"\1\0" + moved[36:52] + bytes(48)]
    assert [(p["id"], p["kind"]) for p in model.State(night).places] == [(51, 2), (70, 1)]
    return data


def round_names():
    return b"".join(b"%s %s\n" % (key(n % 2 ** 256).hex().encode(), name)
                    for n, name in ((1, b"First Pond"), (-1, b"Last Pond"), (0, b"Pond Nought"), (2, b"Second")))


# --- Random nights ---------------------------------------------------------------------------------------------------------

def random_trace(seed, count):
    """Calls on a few gauges, so that answers, late ones and stray ones, meet what waits."""
    chance = random.Random(seed)
    ends = [lambda: chance.randrange(2 ** 256), lambda: chance.randrange(300), lambda: 2 ** 256 - 1 - chance.randrange(9)]
    pool = [chance.choice(ends)() for _ in range(chance.choice([8, 90]))]
    own = gauge_record(pool[0], chance.randrange(65536))
    data = opening(own)
    night = model_night.Night(bytes([6, 101]) + own)
    for _ in range(count):
        record = random_record(chance, pool, night)
        kind, body, _ = model_night.taken(record, 0)
        night.call(kind, body)
        data += record
    return data + chance.choice([b"", b"", b"\2\0", put(9, b""), opening(own)])


def random_record(chance, pool, night):
    places = model.State(night).places
    waiting = chance.choice(places) if places and chance.random() < 0.9 else model.place(chance.randrange(2 ** 32), 1, 2, key(pool[1]))
    identity = chance.choice([chance.randrange(2 ** 32), chance.randrange(40), waiting["id"], 2 ** 32 - 1])
    which = chance.randrange(12)
    if which < 2:
        return TICK
    if which < 4:
        return send(identity, chance.choice(pool), chance.choice(pool))
    if which < 6 and waiting["kind"] == 2:
        return receive(identity, authority(chance.randrange(2 ** 32), waiting["id"]), chance.choice([1, 1, 1, 0]), waiting["key"])
    if which < 6:
        return receive(identity, message("ack", chance.randrange(2 ** 32), acked=waiting["id"], n=chance.choice([None, None, False, True])))
    return receive(identity, random_datagram(chance, pool), chance.choice([0, 1, 1, 255]), key(chance.choice(pool)))


def random_datagram(chance, pool):
    identity, other = chance.randrange(2 ** 32), gauge_record(chance.choice(pool), chance.randrange(9), chance.randint(1, 4))
    datagram = chance.choice([
        lambda: flood(identity, other, chance.choice(pool)), lambda: flood(identity, other), lambda: flood(identity, other),
        lambda: revocation(identity), lambda: lookup(identity, chance.choice(pool)),
        lambda: lookup(identity, chance.choice(pool), other, [endpoint(gauge_record(0, chance.randrange(9))) for _ in range(chance.randint(1, 3))]),
        lambda: message("inquire", identity, a=True, validate=key(chance.choice(pool[:2]))),
        lambda: message("authority", identity, acked=chance.randrange(2 ** 32), route=model.entry_of(other, 6, 101))])()
    if chance.random() < 0.1:
        at = chance.randrange(len(datagram))
        datagram = datagram[:at] + bytes([chance.randrange(256)]) + datagram[at + 1:]
    if chance.random() < 0.05:
        datagram = datagram[:chance.randrange(len(datagram))]
    return datagram


# --- Names for the traces --------------------------------------------------------------------------------------------------

# examples/hill.c: a generator of 64 bits, 61 at first. A pond's key is 4 times its number and 31 random bytes; before it, from the second pond on,
# one number is drawn for the pond that it knows.
def hill_names():
    state = 61

    def dice(n):
        nonlocal state
        state ^= state << 13 & 2 ** 64 - 1
        state ^= state >> 7
        state ^= state << 17 & 2 ** 64 - 1
        return (state >> 32) % n

    lines = ["# the ponds of the hill\n"]
    for number in range(1, 62):
        if number > 1:
            dice(number - 1)
        lines.append("%s Pond %d\n" % (bytes([4 * number] + [dice(256) for _ in range(31)]).hex(), number))
    return "".join(lines).encode()


# Every form of line: passed over, upper and lower case, a carriage return, too long, with characters of two and three bytes around the fortieth,
# empty, twice, and the last without a line end.
def worked_names():
    def line_of(n, name, case=str.lower):
        return case(key(n).hex()).encode() + b" " + name.encode()

    lines = [b"# ponds of document 01's cases", b"", line_of(100, "Own Pond"), line_of(99, "Fonte Bassa\r"), line_of(101, "Pozza dell'Àlbero"),
             line_of(90, "n" * 40, str.upper), line_of(95, "n" * 41), line_of(80, "n" * 39 + "àà"), line_of(70, "n" * 38 + "àà"),
             line_of(60, "n" * 38 + "€€"), line_of(110, ""), line_of(50, "First"), line_of(50, "Second"),
             key(55).hex().encode() + b"\tNo Space", b"g" + line_of(51, "No Digit")[1:],
             b" " + line_of(51, "Not At The Start"), line_of(51, "Short")[1:], line_of(98, "Last")]
    return b"\n".join(lines)


# What the auditor asks after: LOOKUPs named for each reason; AUTHORITYs after a FLOOD and after a LOOKUP, with readings of every kind; inquiries that
# nobody answered, one of them revoked; an ID that waits again; a neighbour that is not there any more.
def auditor_trace():
    own = gauge_record(100)
    calls = [receive(1, lookup(2, 7))]  # only
    for i, payload in enumerate(PAYLOADS):
        told = gauge_record(90 + i, 5090 + i)
        asks = flood(500 + i, told) if i % 2 else lookup(500 + i, 7, told)
        calls += [receive(600 + 10 * i, asks), TICK, receive(5, carrying(700 + i, 601 + 10 * i, payload), 1, told[:32])]
    calls += [receive(3, lookup(800 + n, target)) for n, target in enumerate((95, 99, 98, 200, 2 ** 255 + 98))]
    calls += [receive(6, flood(10, gauge_record(120))), receive(8, flood(11, gauge_record(121))), TICK, receive(20, revocation(12), 1, key(121)), TICK, TICK, TICK]
    calls += [receive(6, lookup(13, 1, gauge_record(122))), receive(9, authority(14, 7), 1, key(122)), send(30, 97, 100), send(31, 96, 95), TICK]
    calls += [receive(1, message("ack", 15, acked=30, n=True)), receive(1, message("ack", 16, acked=31)), receive(1, revocation(17), 1, key(90))]
    calls += [receive(40, flood(18, gauge_record(97 + n, 9))) for n in (0, 1)] + [receive(50, authority(19, 41), 1, key(97)), receive(50, authority(20, 41), 1, key(97))]
    return opening(own) + b"".join(calls)


# The second file: a row for each record, by the answers that the model gives.
def hours_of(data, chance):
    """An hour that goes on, an endpoint that is another each time, and the answer; zeros where a tick has no endpoint."""
    rows, night, at, ms = [], None, 0, chance.randrange(4 * 10 ** 12)
    while at < len(data):
        record = model_night.taken(data, at)
        good = record is not None and model_night.fault(record[0], record[1], night is not None) == 0
        kind, body, at = record if good else (0, b"", len(data))
        answer = (0, 0, 0) if kind == 4 else (16, 0, 0)
        if kind == 4:
            night = model_night.Night(body)
        elif good:
            answer = night.whole(kind, body)[:3]
        ms += chance.choice([0, 1, 999, 1000, 86400000, 40 * 86400000])
        endpoint = bytes(18) if kind == 3 or chance.random() < 0.1 else chance.randbytes(4) + bytes(12) + chance.randbytes(2)
        rows.append(struct.pack("<Q", ms if chance.random() < 0.95 else 0) + endpoint + struct.pack("<III", *answer) + bytes(2))
    return rows


# Nights with a second file: it agrees, differs, is short, long, cut, odd, or there is no night.
def hours_of_nights():
    chance = random.Random(34)
    yield "auditor", auditor_trace(), None
    for seed in range(6):
        data = auditor_trace() if seed == 0 else random_trace(100 + seed, 300)
        rows = hours_of(data, chance)
        yield "hours_%d" % seed, data, b"".join(rows)
        other = [row[:26 + 4 * (n % 3)] + struct.pack("<I", chance.choice([0, 8, 20])) + row[30 + 4 * (n % 3):] if chance.random() < 0.3 else row
                 for n, row in enumerate(rows)]
        yield "hours_differ_%d" % seed, data, b"".join(other)
    whole = b"".join(rows)
    yield "hours_short", data, whole[:-40]
    yield "hours_three", data, whole[:120]
    yield "hours_long", data, whole + whole[:80]
    yield "hours_cut", data, whole[:-1]
    yield "hours_cut_behind", data, whole + whole[:7]
    yield "hours_odd", data, whole[:158] + b"\1" + whole[159:]
    yield "hours_odd_first", data, whole[:39] + b"\1" + whole[40:]
    yield "hours_of_no_night", b"", whole[:40]
    yield "hours_of_a_bad_night", put(9, b""), whole[:40]
    yield "hours_of_the_opening", opening(gauge_record(100)), whole[:40]
    for ms in (1, 951782399999, 951782400000, 951868800000, 1709164800000, 4107542399999, 4107542400000, 253402300799999, 253402300800000, 2 ** 64 - 1):
        row = struct.pack("<Q", ms) + bytes(range(1, 19)) + bytes(14)
        yield "hours_at_%d" % ms, opening(gauge_record(100)) + receive(1, b""), row + row


def traces(nights=8):
    """Name, trace and names, or None for no names at all; so many random nights among them."""
    yield "worked", worked_trace(), worked_names()
    yield "worked_without_names", worked_trace(), None
    yield "names_to_the_brim", worked_trace(), b"#" * 65000 + b"\n" + worked_names() + b"\n" + b"x" * 9000
    yield "full", full_trace(), None
    yield "round", round_trace(), round_names()
    yield "dropped", dropped_trace(), None
    yield "path", path_trace(), worked_names()
    yield "address", address_trace(), worked_names()
    for name, data in {**bad_traces(), **formless_traces()}.items():
        yield name, data, None
    for seed in range(nights):
        yield "random_%d" % seed, random_trace(seed, 500), worked_names()


def all_traces():
    """Name, trace, names or None, second file or None."""
    for name, data, names in traces():
        yield name, data, names, None
    for name, data, hours in hours_of_nights():
        yield name, data, worked_names(), hours
