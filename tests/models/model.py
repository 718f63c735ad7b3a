#!/usr/bin/env python3
"""A model of the gauge: the messages, the lent memory, the calls. It is made from the documents alone and takes nothing from the gauge.

    model.py    checks the worked cases of document 01, the lengths of what the calls write, and round trips

Each function renders a sentence, which stands above it: 01 is the specification, 02 has the requests, 000 is MC-DRT, D numbers and those
like W4.2 are of docs/DECISIONS.md; C1 to C4, R1 to R4 and W1 to W8 are those of docs/MEMORY.md. Speed is no aim here, to be read is.
"""
if not __debug__:
    raise SystemExit("model.py: run it without -O and PYTHONOPTIMIZE, which leave its asserts out")

FIXED = bytes.fromhex("0010000C51")  # 01: "A message begins with 12 bytes: 00 10 00 0C, identifier 51 (hex)"

# 000 section 2.2.1: the message types.
TYPES = {0x01: "solicit", 0x02: "advertise", 0x03: "request", 0x04: "flood", 0x07: "inquire", 0x08: "authority", 0x09: "ack", 0x0B: "lookup"}
CODES = {name: code for code, name in TYPES.items()}


class Malformed(Exception):
    """Number 6."""


class InPart(Exception):
    """Number 7 of reading: an AUTHORITY that is not its whole buffer."""


# 01: "Numbers on the wire are big-endian."
def value(s):
    return int.from_bytes(s, "big")


def two(n):
    return n.to_bytes(2, "big")


def four(n):
    return n.to_bytes(4, "big")


# --- Reading: pieces -------------------------------------------------------------------------------------------------------
# d is the datagram and `at` a place in it; each function hands back what it read and the place of the next.

# 01, number 6: "running past the end".
def part(d, at, count):
    if at + count > len(d):
        raise Malformed
    return d[at:at + count]


# D35: a field is there when "two bytes are left at its place, and they are its number".
def found(d, at, number):
    return d[at:at + 2] == two(number)


# 01: "number (2 bytes), length (2 bytes, counting these four), contents".
def field(d, at, number):
    if not found(d, at, number):
        raise Malformed
    length = value(part(d, at + 2, 2))
    if length < 4:
        raise Malformed
    return part(d, at + 4, length - 4), at + length


# 01: "A length .. that 000 doesn't allow makes a field malformed": a field whose contents have one size.
def fixed(d, at, number, size):
    contents, at = field(d, at, number)
    if len(contents) != size:
        raise Malformed
    return contents, at


# 01: "Padding and reserved bits are .. ignored on reading". D39: "Padding that runs past the end is 6."
def ignored(d, at, count):
    part(d, at, count)
    return at + count


# 01: "Padding of 0 to 3 bytes, up to a multiple of 4 from the start".
def padding(d, at):
    return ignored(d, at, -at % 4)


# 01: "An optional field is present or absent by the number found at its place". D35: "there is no second try".
def optional(d, at, number):
    if not found(d, at, number):
        return None, at
    return field(d, at, number)


def optional_padded(d, at, number):
    if not found(d, at, number):
        return None, at
    contents, at = field(d, at, number)
    return contents, padding(d, at)


# 01: "Route entry: number 009A; 1 to 4 addresses, one port." 000 section 2.2.3.3. D41: the length must be 42 + 16c.
def route_entry(d, at):
    s, at = field(d, at, 0x009A)
    if len(s) < 38:
        raise Malformed
    count = s[37]
    if count < 1 or count > 4 or len(s) != 38 + 16 * count:
        raise Malformed
    entry = {"key": s[:32], "major": s[32], "minor": s[33], "port": value(s[34:36]), "flags": s[36],
             "addresses": [s[38 + 16 * i:54 + 16 * i] for i in range(count)]}
    return entry, padding(d, at)


def optional_route(d, at):
    if not found(d, at, 0x009A):
        return None, at
    return route_entry(d, at)


# 000 sections 2.2.2.2, 2.2.3.5, 2.2.3.6: number of entries, length of the array 8 + entries, type and length of an entry, the entries;
# the field's length is 12 + entries. D47: lengths and count "must agree as numbers, not only modulo 65,536".
def array(d, at, number, least, most, element, size):
    s, at = field(d, at, number)
    if len(s) < 8:
        raise Malformed
    count = value(s[0:2])
    if count < least or count > most:
        raise Malformed
    if len(s) != 8 + size * count or value(s[2:4]) != 8 + size * count:
        raise Malformed
    if value(s[4:6]) != element or value(s[6:8]) != size:
        raise Malformed
    return [s[8 + size * i:8 + size * (i + 1)] for i in range(count)], at


# 000 section 2.2.2.2: "in the range 0x0000 to 0x7FFF", entries of type 0030 and 32 bytes.
def key_list(d, at):
    return array(d, at, 0x0060, 0, 0x7FFF, 0x0030, 32)


# 000 section 2.2.3.5: "in the range 1 to 22", entries of type 009D and 18 bytes, each a port and an address.
def endpoints(d, at):
    return array(d, at, 0x009E, 1, 22, 0x009D, 18)


# 000 section 2.2.2.6.1: "a FIELD_ARRAY of WCHAR elements", padded. D47: at most 7FFF.
def optional_classifier(d, at):
    if not found(d, at, 0x0085):
        return None, at
    units, at = array(d, at, 0x0085, 0, 0x7FFF, 0x0084, 2)
    return units, padding(d, at)


# 000 sections 2.2.2.3, 2.2.2.5, 2.2.2.8: credential, signature, key identifier, each optional, none padded.
def credentials(d, at, m):
    m["credential"], at = optional(d, at, 0x0080)
    m["signature"], at = optional(d, at, 0x00A5)
    m["key_identifier"], at = optional(d, at, 0x00A6)
    return at


# --- Reading: messages -----------------------------------------------------------------------------------------------------
# Each takes the datagram and hands back the fields and the place behind the last.

# 000 section 2.2.2.1.
def read_solicit(d, at):
    m = {}
    m["route"], at = optional_route(d, at)
    m["hashed_nonce"], at = fixed(d, at, 0x0092, 20)
    return m, at


# 000 section 2.2.2.2.
def read_advertise(d, at):
    m = {}
    acked, at = fixed(d, at, 0x0018, 4)
    m["acked"] = value(acked)
    m["keys"], at = key_list(d, at)
    m["hashed_nonce"], at = fixed(d, at, 0x0092, 20)
    return m, at


# 000 section 2.2.2.3. D42: the split controls, "where present, must have as size the number of bytes from the nonce field to the end, and
# offset 0, else 6. The message then has only the field's presence."
def read_request(d, at):
    m = {}
    m["flags"] = found(d, at, 0x0040)
    if m["flags"]:
        _, at = fixed(d, at, 0x0040, 2)
        at = ignored(d, at, 2)
    m["split"] = found(d, at, 0x0098)
    if m["split"]:
        s, at = fixed(d, at, 0x0098, 4)
        if value(s[0:2]) != len(d) - at or value(s[2:4]) != 0:
            raise Malformed
    m["nonce"], at = fixed(d, at, 0x0093, 16)
    m["keys"], at = key_list(d, at)
    at = credentials(d, at, m)
    return m, at


# 000 section 2.2.2.4. 01: "FLOOD carries either a route entry or a revoke CPA, never both and never neither." D45: the list of those already
# reached is optional and has 1 to 22 endpoints.
def read_flood(d, at):
    m = {}
    s, at = fixed(d, at, 0x0043, 3)
    m["d"] = s[1] & 0x01 != 0
    at = ignored(d, at, 1)
    m["validate"], at = fixed(d, at, 0x0039, 32)
    m["keytoken"], at = optional_padded(d, at, 0x009F)
    m["revoke"], at = optional_padded(d, at, 0x009C)
    m["route"], at = optional_route(d, at)
    if (m["revoke"] is None) == (m["route"] is None):
        raise Malformed
    m["reached"] = None
    if found(d, at, 0x009E):
        m["reached"], at = endpoints(d, at)
    return m, at


# 000 section 2.2.2.5: 11 reserved bits, A, X, C, 2 reserved bits.
def read_inquire(d, at):
    m = {}
    s, at = fixed(d, at, 0x0040, 2)
    m["a"] = s[1] & 0x10 != 0
    m["x"] = s[1] & 0x08 != 0
    m["c"] = s[1] & 0x04 != 0
    at = ignored(d, at, 2)
    m["validate"], at = fixed(d, at, 0x0039, 32)
    m["nonce"] = None
    if found(d, at, 0x0093):
        m["nonce"], at = fixed(d, at, 0x0093, 16)
    at = credentials(d, at, m)
    return m, at


# 000 section 2.2.2.6. D43: "size at most 91E4, offset a multiple of 1,188, else 6. It is whole when offset is 0 and size is the number of
# bytes after the split controls; else 7, and of 6 only the causes before the buffer's bytes apply."
def read_authority(d, at):
    m = {}
    acked, at = fixed(d, at, 0x0018, 4)
    m["acked"] = value(acked)
    s, at = fixed(d, at, 0x0098, 4)
    size, offset = value(s[0:2]), value(s[2:4])
    if size > 0x91E4 or offset % 1188 != 0:
        raise Malformed
    if offset != 0 or size != len(d) - at:
        raise InPart
    return read_buffer(d, at, m)


# 000 section 2.2.2.6.1: 6 reserved bits, L, 5 reserved bits, B, 2 reserved bits, N. It starts at byte 28, a multiple of 4 (D44).
def read_buffer(d, at, m):
    s, at = fixed(d, at, 0x0040, 2)
    m["l"] = s[0] & 0x02 != 0
    m["b"] = s[1] & 0x08 != 0
    m["n"] = s[1] & 0x01 != 0
    at = ignored(d, at, 2)
    m["chain"], at = optional_padded(d, at, 0x0080)
    m["keytoken"], at = optional_padded(d, at, 0x009F)
    m["classifier"], at = optional_classifier(d, at)
    m["payload"], at = optional_padded(d, at, 0x005A)
    m["route"], at = optional_route(d, at)
    m["cpa"], at = optional(d, at, 0x009B)
    return m, at


# 01: "ACK: number 0018, length 0008, the acked ID; then optionally 0040, length 0006, two bytes of which the last bit is N. No padding."
# `n` is None where the second field is absent.
def read_ack(d, at):
    m = {}
    acked, at = fixed(d, at, 0x0018, 4)
    m["acked"] = value(acked)
    m["n"] = None
    if found(d, at, 0x0040):
        s, at = fixed(d, at, 0x0040, 2)
        m["n"] = s[1] & 0x01 != 0
    return m, at


# 01: "LOOKUP: controls 0045, length 000C (flags 2, precision 2, criteria 1, reason 1, reserved 2); target key and validate key, each length
# 0024; optional route entry with padding; the path of endpoints." 000 section 2.2.2.8: 14 reserved bits, A, 1 reserved bit. D46: codes,
# and precision is part of the message where criteria is 8; it is None otherwise.
def read_lookup(d, at):
    m = {}
    s, at = fixed(d, at, 0x0045, 8)
    m["a"] = s[1] & 0x02 != 0
    m["criteria"], m["reason"] = s[4], s[5]
    if m["criteria"] not in (0, 1, 2, 4, 8) or m["reason"] not in (0, 1, 2, 3):
        raise Malformed
    m["precision"] = value(s[2:4]) if m["criteria"] == 8 else None
    m["target"], at = fixed(d, at, 0x0038, 32)
    m["validate"], at = fixed(d, at, 0x0039, 32)
    m["route"], at = optional_route(d, at)
    m["path"], at = endpoints(d, at)
    at = credentials(d, at, m)
    return m, at


READERS = {"solicit": read_solicit, "advertise": read_advertise, "request": read_request, "flood": read_flood, "inquire": read_inquire,
           "authority": read_authority, "ack": read_ack, "lookup": read_lookup}


# 01, "What comes back", numbers 2 to 7 in their order; "Reading a message without acting on it gives 0 to 6, and 7 only for an AUTHORITY in
# part". Hands back the number, and the message with 0.
def read(datagram, major):
    if len(datagram) < 12 or len(datagram) > 1232:
        return 2, None
    if datagram[:5] != FIXED:
        return 3, None
    if datagram[5] != major:
        return 4, None
    if datagram[7] not in TYPES:
        return 5, None
    kind = TYPES[datagram[7]]
    try:
        fields, end = READERS[kind](datagram, 12)
        if end != len(datagram):  # 01: "Nothing may follow the last field."
            raise Malformed
    except Malformed:
        return 6, None
    except InPart:
        return 7, None
    return 0, {"type": kind, "major": datagram[5], "minor": datagram[6], "id": value(datagram[8:12]), **fields}


# --- Writing ---------------------------------------------------------------------------------------------------------------
# s is what is written so far, from the start of the datagram (an AUTHORITY's buffer: from its own start, a multiple of 4).

# 01: "number (2 bytes), length (2 bytes, counting these four), contents".
def put(number, contents):
    return two(number) + two(4 + len(contents)) + contents


# 01: padding "up to a multiple of 4 from the start"; "written zero".
def pad(s):
    return s + bytes(-len(s) % 4)


def put_optional(s, number, contents):
    return s if contents is None else s + put(number, contents)


def put_padded(s, number, contents):
    return s if contents is None else pad(s + put(number, contents))


# 01: "A route entry's own versions and flags are part of the message read".
def put_route(s, e):
    if e is None:
        return s
    contents = e["key"] + bytes([e["major"], e["minor"]]) + two(e["port"]) + bytes([e["flags"], len(e["addresses"])]) + b"".join(e["addresses"])
    return pad(s + put(0x009A, contents))


def put_array(number, element, size, elements):
    contents = two(len(elements)) + two(8 + size * len(elements)) + two(element) + two(size) + b"".join(elements)
    return put(number, contents)


def put_credentials(s, m):
    s = put_optional(s, 0x0080, m["credential"])
    s = put_optional(s, 0x00A5, m["signature"])
    return put_optional(s, 0x00A6, m["key_identifier"])


def write_solicit(s, m):
    return put_route(s, m["route"]) + put(0x0092, m["hashed_nonce"])


def write_advertise(s, m):
    return s + put(0x0018, four(m["acked"])) + put_array(0x0060, 0x0030, 32, m["keys"]) + put(0x0092, m["hashed_nonce"])


# 000 section 2.2.2.3: size is "of the remainder of the message, starting from FieldID3 (inclusive)", FieldID3 being the nonce's.
def write_request(s, m):
    rest = put_credentials(put(0x0093, m["nonce"]) + put_array(0x0060, 0x0030, 32, m["keys"]), m)
    if m["flags"]:
        s += put(0x0040, bytes(2)) + bytes(2)
    if m["split"]:
        s += put(0x0098, two(len(rest)) + two(0))
    return s + rest


def write_flood(s, m):
    s += put(0x0043, two(0x0001 if m["d"] else 0) + bytes(1)) + bytes(1)
    s += put(0x0039, m["validate"])
    s = put_padded(s, 0x009F, m["keytoken"])
    s = put_padded(s, 0x009C, m["revoke"])
    s = put_route(s, m["route"])
    if m["reached"] is not None:
        s += put_array(0x009E, 0x009D, 18, m["reached"])
    return s


def write_inquire(s, m):
    s += put(0x0040, two((0x0010 if m["a"] else 0) + (0x0008 if m["x"] else 0) + (0x0004 if m["c"] else 0))) + bytes(2)
    s += put(0x0039, m["validate"])
    s = put_optional(s, 0x0093, m["nonce"])
    return put_credentials(s, m)


def write_authority(s, m):
    buffer = write_buffer(m)
    return s + put(0x0018, four(m["acked"])) + put(0x0098, two(len(buffer)) + two(0)) + buffer


def write_buffer(m):
    s = put(0x0040, two((0x0200 if m["l"] else 0) + (0x0008 if m["b"] else 0) + (0x0001 if m["n"] else 0))) + bytes(2)
    s = put_padded(s, 0x0080, m["chain"])
    s = put_padded(s, 0x009F, m["keytoken"])
    if m["classifier"] is not None:
        s = pad(s + put_array(0x0085, 0x0084, 2, m["classifier"]))
    s = put_padded(s, 0x005A, m["payload"])
    s = put_route(s, m["route"])
    return put_optional(s, 0x009B, m["cpa"])


def write_ack(s, m):
    s += put(0x0018, four(m["acked"]))
    if m["n"] is not None:
        s += put(0x0040, two(0x0001 if m["n"] else 0))
    return s


def write_lookup(s, m):
    precision = m["precision"] if m["criteria"] == 8 else 0
    s += put(0x0045, two(0x0002 if m["a"] else 0) + two(precision) + bytes([m["criteria"], m["reason"]]) + bytes(2))
    s += put(0x0038, m["target"]) + put(0x0039, m["validate"])
    s = put_route(s, m["route"])
    s += put_array(0x009E, 0x009D, 18, m["path"])
    return put_credentials(s, m)


WRITERS = {"solicit": write_solicit, "advertise": write_advertise, "request": write_request, "flood": write_flood, "inquire": write_inquire,
           "authority": write_authority, "ack": write_ack, "lookup": write_lookup}


# 01: "A message begins with 12 bytes: 00 10 00 0C, identifier 51 (hex), major version, minor version, type, four bytes of message ID."
def write(m):
    s = FIXED + bytes([m["major"], m["minor"], CODES[m["type"]]]) + four(m["id"])
    return WRITERS[m["type"]](s, m)


# 01: "a flag, reason or optional field that no rule here names is clear or absent".
CLEAR = {"solicit": {"route": None},
         "advertise": {},
         "request": {"flags": False, "split": False, "credential": None, "signature": None, "key_identifier": None},
         "flood": {"d": False, "keytoken": None, "revoke": None, "route": None, "reached": None},
         "inquire": {"a": False, "x": False, "c": False, "nonce": None, "credential": None, "signature": None, "key_identifier": None},
         "authority": {"l": False, "b": False, "n": False, "chain": None, "keytoken": None, "classifier": None, "payload": None, "route": None,
                       "cpa": None},
         "ack": {"n": None},
         "lookup": {"a": False, "precision": None, "criteria": 0, "reason": 0, "route": None, "credential": None, "signature": None,
                    "key_identifier": None}}


def message(kind, major, minor, identity, **named):
    return {"type": kind, "major": major, "minor": minor, "id": identity, **CLEAR[kind], **named}


# --- Lent memory: records --------------------------------------------------------------------------------------------------

# 01: "A record is 100 bytes: key 32, port 2 (big-endian), address count 1 (1 to 4), one zero byte, four addresses of 16 bytes, the unused ones
# zero." 02, Wish 13: "Records, the own one too, keep the first only", with "the count 1 and the other addresses zero". R1 to R4.
def record_form(r):
    return len(r) == 100 and r[34] == 1 and r[35] == 0 and not any(r[52:])


# The form that 01 gave a record before Wish 13, for the conversion alone.
def old_record_form(r):
    return len(r) == 100 and 1 <= r[34] <= 4 and r[35] == 0 and not any(r[36 + 16 * r[34]:])


# 01: "Keys are 256-bit unsigned numbers, most significant byte first."
def key_of(r):
    return value(r[:32])


# 01: "A route entry's own versions and flags are part of the message read, but not of the record." 02, Wish 13, of two to four addresses: "the first
# kept".
def record_of(entry):
    return entry["key"] + two(entry["port"]) + bytes([1, 0]) + entry["addresses"][0] + bytes(48)


# 02, Wish 13: "the count 1 and the other addresses zero"; key, port and first address are those of the old record.
def converted(r):
    return r[:34] + bytes([1]) + r[35:52] + bytes(48)


# 02, Wish 11: "the own record becomes one to four, keys strictly increasing". The own records, or None where they are out of form.
def own_records(own, in_form=record_form):
    ours = [own[at:at + 100] for at in range(0, len(own), 100)]
    return ours if 1 <= len(ours) <= 4 and all(in_form(r) for r in ours) and rising([key_of(r) for r in ours]) else None


# Our keys, in their order, whose first is "the first own key".
def own_keys(own, in_form=record_form):
    return [key_of(r) for r in own_records(own, in_form)]


# 01: "versions, a route entry's too, are the given ones"; a flag that no rule names is clear. A record in form has one address; an old one may have
# more, and they are all in the entry made of it.
def entry_of(r, major, minor):
    return {"key": r[:32], "major": major, "minor": minor, "port": value(r[32:34]), "flags": 0,
            "addresses": [r[36 + 16 * i:52 + 16 * i] for i in range(r[34])]}


# --- Lent memory -----------------------------------------------------------------------------------------------------------

# 01, of the cache and of the waiting table alike: used ones first, the rest all zero, each used one in form. The used ones, or None.
def used_rows(memory, width, in_form):
    rows = [memory[at:at + width] for at in range(0, len(memory), width)]
    used = [row for row in rows if any(row)]
    return used if rows[:len(used)] == used and all(in_form(row) for row in used) else None


# 01, of keys and of IDs: "strictly increasing".
def rising(numbers):
    return all(before < after for before, after in zip(numbers, numbers[1:]))


# --- Lent memory: the cache ------------------------------------------------------------------------------------------------

# 01: "The cache: C records, C from 10 to 256, length exactly 100 x C. Used records first, keys strictly increasing, none equal to the own key;
# the rest all zero." 02, Wish 11: "C is at least ten times their number; no cache key or inquiry is an own key." C1 to C4. The records held, or None
# where the cache is out of form, or the own records are.
def held(own, cache, in_form=record_form):
    ours = own_records(own, in_form)
    if ours is None or len(cache) % 100 != 0 or len(cache) // 100 < 10 * len(ours) or len(cache) > 25600:
        return None
    used = used_rows(cache, 100, in_form)
    if used is None:
        return None
    keys = [key_of(row) for row in used]
    return used if rising(keys) and not set(own_keys(own, in_form)) & set(keys) else None


def cache_of(records, length):
    s = b"".join(records)
    return s + bytes(length - len(s))


# 02, Wish 12: "256 counts: how many held keys begin with each byte", "counted afresh". W12.1: 16 bits each, little-endian.
def firsts_of(records):
    begins = [r[0] for r in records]
    return b"".join(begins.count(byte).to_bytes(2, "little") for byte in range(256))


# The records of a cache, in form or not: all that is not zero.
def rows_in(cache):
    return [cache[at:at + 100] for at in range(0, len(cache), 100) if any(cache[at:at + 100])]


# 02, Wish 4: "Keys go round". The steps up from one key to another, "modulo 2^256".
def up(start, key):
    return (key - start) % 2 ** 256


# 02: "a key is above ours if (key - own) modulo 2^256 is from 1 to 2^255, else below".
def is_above(own, key):
    return 1 <= up(own, key) <= 2 ** 255


# 02: "nearness on a side counts along that side": up to a key above, down to one below.
def nearness(own, key):
    return up(own, key) if is_above(own, key) else up(key, own)


# The records on one side of one of our keys, nearest first.
def side(ours, records, above):
    there = [r for r in records if is_above(ours, key_of(r)) == above]
    return sorted(there, key=lambda r: nearness(ours, key_of(r)))


# 01: "Up to five keys below, then up to five above, nearest first", by 02's sides. 02, Wish 11: "Each has a neighbour list".
def nearest(ours, records):
    below, above = side(ours, records, False), side(ours, records, True)
    return [key_of(r) for r in below[:5]], [key_of(r) for r in above[:5]]


# 02: "Closeness to a target is the shorter way round".
def apart(target, key):
    return min(up(target, key), up(key, target))


# 02, Wish 11: "of the keys in no neighbour list, drop the one farthest round the ring from the first own key, the lower on a tie". The lists are
# those of all our keys among the C + 1, the newcomer counted (W11.3); the lower is the lower number (W11.2).
def dropped(own, records):
    lists = [nearest(ours, records) for ours in own_keys(own)]
    in_no_list = [key_of(r) for r in records if not any(key_of(r) in below + above for below, above in lists)]
    farthest = max(apart(own_keys(own)[0], k) for k in in_no_list)
    return min(k for k in in_no_list if apart(own_keys(own)[0], k) == farthest)


# 01: "A held key has its record replaced. A new key joins. If there are now C + 1", one is dropped, "even the newcomer". 02: "the cache keeps plain
# key order".
def learned(own, records, record, c):
    joined = sorted(removed(records, key_of(record)) + [record], key=key_of)
    return joined if len(joined) <= c else removed(joined, dropped(own, joined))


# 01: "It is removed if held".
def removed(records, key):
    return [r for r in records if key_of(r) != key]


# 02: "at equal distance take the key reached by going down from the target" (W4.2).
def is_down(target, key):
    return up(key, target) == apart(target, key)


# 02, Wish 2: "any held record whose port and one of whose addresses stand together as an endpoint on the LOOKUP's path". W2.2: of a record's places
# for addresses those that it has count. A path is a list of endpoints, each a port and an address.
def on_path(r, path):
    return any(r[32:34] + r[36 + 16 * i:52 + 16 * i] in path for i in range(r[34]))


# 01: "the record closest to the target, the own record included". 02: "The own record is never skipped"; "For closeness every own record is a
# candidate."
def closest(own, records, path, target):
    candidates = own_records(own) + [r for r in records if not on_path(r, path)]
    return min(candidates, key=lambda r: (apart(target, key_of(r)), not is_down(target, key_of(r))))


# 02: "endpoints as on the wire, none allowed, 1 if not whole ones". None where they are not whole ones.
def path_of(s):
    return [s[at:at + 18] for at in range(0, len(s), 18)] if len(s) % 18 == 0 else None


# 02, Wish 8: "the steps of halving as defined on the key list (of n keys the one at n/2 rounded down, from 0, three-way)". How many of the keys are
# compared with one.
def halvings(keys, key):
    if not keys:
        return 0
    middle = len(keys) // 2
    if key == keys[middle]:
        return 1
    return 1 + halvings(keys[:middle] if key < keys[middle] else keys[middle + 1:], key)


# "and is at most the number of binary digits of the records used: 0 for none, 9 for 256".
def compared(records, key):
    steps = halvings([key_of(r) for r in records], key)
    assert steps <= len(records).bit_length()
    return steps


# 02, Wish 10: "List, in key order, each key gone, new, or held with another record, the last two with the second cache's record, and no other". Each
# with its kind, 1 gone, 2 new, 3 held with another record, and the record; of one gone the key and zeros (W10.2).
def changes(before, after):
    was, now = {key_of(r): r for r in before}, {key_of(r): r for r in after}
    entries = []
    for key in sorted(was.keys() | now.keys()):
        if key not in now:
            entries.append((1, was[key][:32] + bytes(68)))
        elif was.get(key) != now[key]:
            entries.append((3 if key in was else 2, now[key]))
    return entries


# "Changing the first cache by that list, a definition and no call, gives the second."
def applied(entries, before):
    records = {key_of(r): r for r in before}
    for kind, record in entries:
        assert (key_of(record) in records) == (kind != 2)
        if kind == 1:
            del records[key_of(record)]
        else:
            records[key_of(record)] = record
    return [records[key] for key in sorted(records)]


# --- Lent memory: the waiting table ----------------------------------------------------------------------------------------

# 01: "16 places of 140 bytes: message ID 4 (little-endian), kind 1 (1 flood, 2 inquiry, 0 free), tries left 1 (0 to 2), two zero bytes, key
# 32, record 100."
def place_of(s):
    return {"id": int.from_bytes(s[:4], "little"), "kind": s[4], "tries": s[5], "key": s[8:40], "record": s[40:140]}


def place(identity, kind, tries, key, record=bytes(100)):
    return {"id": identity, "kind": kind, "tries": tries, "key": key, "record": record}


def place_bytes(p):
    return p["id"].to_bytes(4, "little") + bytes([p["kind"], p["tries"], 0, 0]) + p["key"] + p["record"]


# 01: "An inquiry's record is well formed and has the place's key .. A flood's record is all zero." W3, W5, W6.
def place_form(s, in_form):
    p = place_of(s)
    if p["tries"] > 2 or s[6] != 0 or s[7] != 0:
        return False
    if p["kind"] == 1:
        return not any(p["record"])
    return p["kind"] == 2 and in_form(p["record"]) and key_of(p["record"]) == value(p["key"])


# 01: "Used places first, IDs strictly increasing; free places all zero. .. no two inquiries have the same key, and none has the own key", nor any of
# ours (02, Wish 11). W1, W2, W4, W7, W8. The places used, or None where the table is out of form, or the own records are.
def waits(own, waiting, in_form=record_form):
    if own_records(own, in_form) is None or len(waiting) != 2240:
        return None
    used = used_rows(waiting, 140, lambda row: place_form(row, in_form))
    if used is None:
        return None
    places = [place_of(row) for row in used]
    asked = [value(p["key"]) for p in places if p["kind"] == 2]
    once = len(set(asked)) == len(asked)
    return places if rising([p["id"] for p in places]) and once and not set(own_keys(own, in_form)) & set(asked) else None


def waiting_of(places):
    s = b"".join(place_bytes(p) for p in places)
    return s + bytes(2240 - len(s))


# W4: places stand in the order of their IDs.
def opened(places, new):
    return sorted(places + [new], key=lambda p: p["id"])


def freed(places, identity):
    return [p for p in places if p["id"] != identity]


def waiting_id(places, kind, identity):
    return [p for p in places if p["kind"] == kind and p["id"] == identity]


def waiting_inquiry(places, key):
    return [p for p in places if p["kind"] == 2 and value(p["key"]) == key]


# 01: "Each place with tries left loses one and its ID is listed, increasing; one with none is freed." The IDs listed, and the places after.
def ticked(places):
    left = [{**p, "tries": p["tries"] - 1} for p in places if p["tries"] > 0]
    return [p["id"] for p in left], left


# --- Lent memory: the CPAs -------------------------------------------------------------------------------------------------

# 01: "Own CPA: 1 to 1,024 bytes". 02, Wish 11: "the host lends one for each": for each own record in order a length of 2 bytes, little-endian, and so
# many bytes, with nothing after the last (docs/MEMORY.md). The CPAs of so many own records, or None where they are out of form.
def cpas_of(s, count):
    cpas, at = [], 0
    while at < len(s):
        length, end = int.from_bytes(s[at:at + 2], "little"), at + 2
        if end > len(s) or not 1 <= length <= 1024 or end + length > len(s):
            return None
        cpas.append(s[end:end + length])
        at = end + length
    return cpas if len(cpas) == count else None


def cpas_bytes(cpas):
    return b"".join(len(cpa).to_bytes(2, "little") + cpa for cpa in cpas)


# --- The calls -------------------------------------------------------------------------------------------------------------

# 01: "the INQUIRE's is one more, and 4294967295 is followed by 0".
def next_id(identity):
    return (identity + 1) % 2 ** 32


# 01, numbers 13 and 14: "a place must be opened and its ID is waiting already", "and all 16 are used". D28: of either kind. 0 for none.
def no_place(places, identity):
    if identity in [p["id"] for p in places]:
        return 13
    if len(places) == 16:
        return 14
    return 0


# 01, number 15: "output needs more bytes than lent, or a datagram over 1,232". D29: the sum of both lengths.
def too_long(sent, output):
    return sum(len(d) for d in sent) > len(output) or any(len(d) > 1232 for d in sent)


# 01: "On acceptance the output changes only in its first bytes, as many as returned." D24: one datagram after the other.
def over(written, output):
    return written + output[len(written):]


class Lent:
    """What is lent to a receive, a send, a closest or a search beside the gauge's own: one more slice to read is one more attribute."""

    def __init__(self, identity=0, nonce=bytes(16), verdict=0, key=bytes(32), neighbour=bytes(32), path=b"", target=bytes(32), datagram=b""):
        self.identity, self.nonce, self.verdict, self.key, self.neighbour = identity, nonce, verdict, key, neighbour
        self.path, self.target, self.datagram = path, target, datagram


class State:
    """The memory as a call works on it: records held and places that wait; None for what is out of form. `sent` are the datagrams to send."""

    def __init__(self, gauge):
        self.records, self.places, self.sent = held(gauge.own, gauge.cache), waits(gauge.own, gauge.waiting), []


class Gauge:
    """A gauge: its own records and their CPAs, its versions, and the memory that a host keeps for it. One more memory is one more attribute, here and
    in State, and a name in MEMORIES.

    Each call hands back number, first, second and the output after it. 01: "With any refusal the counts returned are 0, .. and every writable byte
    stays as lent": only what was accepted is kept."""

    MEMORIES = ("cache", "firsts", "waiting")

    def __init__(self, own, cache=bytes(1000), waiting=bytes(2240), cpas=bytes([1, 0, 0]), major=6, minor=101, firsts=None):
        self.own, self.cpas, self.major, self.minor = own, cpas, major, minor
        self.cache, self.waiting = cache, waiting
        self.firsts = firsts_of(rows_in(cache)) if firsts is None else firsts  # where none are handed in, those of the cache

    # 02, Wish 11: our keys, whichever: "N is clear where the validate key is any of ours".
    def is_ours(self, key):
        return value(key) in own_keys(self.own)

    def memory(self):
        return [getattr(self, name) for name in self.MEMORIES]

    def keep(self, state):
        if state.records is not None:
            self.cache = cache_of(state.records, len(self.cache))
        if state.places is not None:
            self.waiting = waiting_of(state.places)

    # 01, number 1: "lent memory is not as above". 02, Wish 12: "Counts lent that disagree with the cache are refused with 1."
    def receive_form(self, state, lent):
        ours = own_records(self.own)
        return (ours is not None and cpas_of(self.cpas, len(ours)) is not None and state.records is not None and state.places is not None
                and self.firsts == firsts_of(state.records) and len(lent.nonce) == 16 and len(lent.key) == 32)

    # 01: "The lowest number that applies is given."
    def receive(self, lent, output):
        state = State(self)
        if not self.receive_form(state, lent):
            return 1, 0, 0, output
        number, m = read(lent.datagram, self.major)
        if number == 0:
            number = self.take(state, m, lent)
        if number == 0 and too_long(state.sent, output):
            number = 15
        if number != 0:
            return number, 0, 0, output
        self.keep(state)
        self.firsts = firsts_of(state.records)  # 02, Wish 12: "After any accepted call they equal those counted afresh"
        first, second = ([len(d) for d in state.sent] + [0, 0])[:2]
        return 0, first, second, over(b"".join(state.sent), output)

    # What a message does, number 15 apart: the number; what it sends and changes is in the state.
    def take(self, state, m, lent):
        if m["type"] == "flood":
            return self.on_route(state, m, lent) if m["route"] is not None else self.on_revoke(state, m, lent)
        on = {"authority": self.on_authority, "ack": self.on_ack, "inquire": self.on_inquire, "lookup": self.on_lookup}
        return on[m["type"]](state, m, lent) if m["type"] in on else 7

    # A message of ours, put behind those that are to be sent.
    def sends(self, state, kind, identity, **fields):
        state.sent.append(write(message(kind, self.major, self.minor, identity, **fields)))

    # 01: "If D is clear, an ACK is written, N set when the validate key is not ours." "A call that sends an ACK writes the second field only where
    # N is set."
    def acks(self, state, m, lent):
        if not m["d"]:
            n = None if self.is_ours(m["validate"]) else True
            self.sends(state, "ack", lent.identity, acked=m["id"], n=n)

    # 01, "FLOOD with a route entry"; number 11.
    def on_route(self, state, m, lent):
        record = record_of(m["route"])
        if self.is_ours(record[:32]):
            return 11
        self.acks(state, m, lent)
        return self.asks(state, record, lent)

    # 01: "If the very same record is held, or an inquiry for its key is waiting, no more. Otherwise an INQUIRE for its key follows and its place
    # opens with two tries left." Numbers 13 and 14.
    def asks(self, state, record, lent):
        if record in state.records or waiting_inquiry(state.places, key_of(record)):
            return 0
        asked = next_id(lent.identity)
        number = no_place(state.places, asked)
        if number != 0:
            return number
        self.sends(state, "inquire", asked, a=True, validate=record[:32], nonce=lent.nonce)
        state.places = opened(state.places, place(asked, 2, 2, record[:32], record))
        return 0

    # 01, "FLOOD with a revocation": "Verdict 1 names the key. It is removed if held, a waiting inquiry for it is freed, and the ACK is as above."
    # Numbers 9 and 11, in this order (D30).
    def on_revoke(self, state, m, lent):
        if lent.verdict != 1:
            return 9
        if self.is_ours(lent.key):
            return 11
        for p in waiting_inquiry(state.places, value(lent.key)):
            state.places = freed(state.places, p["id"])
        state.records = removed(state.records, value(lent.key))
        self.acks(state, m, lent)
        return 0

    # 01, "AUTHORITY": "The inquiry's record is learned and its place freed. Nothing is sent." Numbers 8, 9, 10.
    def on_authority(self, state, m, lent):
        found_places = waiting_id(state.places, 2, m["acked"])
        if not found_places:
            return 8
        if m["cpa"] is None or lent.verdict != 1:
            return 9
        if value(lent.key) != value(found_places[0]["key"]):
            return 10
        state.records = learned(self.own, state.records, found_places[0]["record"], len(self.cache) // 100)
        state.places = freed(state.places, m["acked"])
        return 0

    # 01, "ACK": "The flood's place is freed. With N set its key is removed if held." Number 8.
    def on_ack(self, state, m, lent):
        found_places = waiting_id(state.places, 1, m["acked"])
        if not found_places:
            return 8
        if m["n"]:
            state.records = removed(state.records, value(found_places[0]["key"]))
        state.places = freed(state.places, m["acked"])
        return 0

    # 01, "INQUIRE": "One AUTHORITY with the own CPA." 02, Wish 11: "INQUIRE says which CPA": that of the own record with the validate key. Number 12.
    def on_inquire(self, state, m, lent):
        if not self.is_ours(m["validate"]):
            return 12
        keys = own_keys(self.own)
        cpa = cpas_of(self.cpas, len(keys))[keys.index(value(m["validate"]))]
        self.sends(state, "authority", lent.identity, acked=m["id"], cpa=cpa)
        return 0

    # 01, "LOOKUP": "One AUTHORITY with the record closest to the target, the own record included". 02, Wish 2, of its route entry: "it is inquired
    # about as in a FLOOD, with the ID one more than the reply's; our own key there is passed over".
    def on_lookup(self, state, m, lent):
        shown = entry_of(closest(self.own, state.records, m["path"], value(m["target"])), self.major, self.minor)
        self.sends(state, "authority", lent.identity, acked=m["id"], route=shown)
        if m["route"] is None or self.is_ours(m["route"]["key"]):
            return 0
        return self.asks(state, record_of(m["route"]), lent)

    # 01, "Sending a FLOOD": "D clear, validate key the neighbour's, one record, empty list of those already reached; a place with the neighbour's
    # key opens with two tries left." Number 12: "a FLOOD to send whose neighbour is not held, or whose record is neither ours nor held".
    def send(self, lent, output):
        state = State(self)
        bad = len(lent.neighbour) != 32 or len(lent.key) != 32
        if own_records(self.own) is None or state.records is None or state.places is None or bad:
            return 1, 0, 0, output
        named = [r for r in own_records(self.own) + state.records if key_of(r) == value(lent.key)]
        if value(lent.neighbour) not in [key_of(r) for r in state.records] or not named:
            return 12, 0, 0, output
        number = no_place(state.places, lent.identity)
        if number != 0:
            return number, 0, 0, output
        self.sends(state, "flood", lent.identity, validate=lent.neighbour, route=entry_of(named[0], self.major, self.minor))
        if too_long(state.sent, output):
            return 15, 0, 0, output
        state.places = opened(state.places, place(lent.identity, 1, 2, lent.neighbour))
        self.keep(state)
        return 0, len(state.sent[0]), 0, over(state.sent[0], output)

    # 01, "Tick": "The list needs room for 16 numbers of 32 bits, else 15; how many are listed is returned." D25: little-endian. A tick is not lent
    # the cache: what is in it does not matter, and stays.
    def tick(self, output):
        state = State(self)
        state.records = None
        if own_records(self.own) is None or state.places is None:
            return 1, 0, 0, output
        if len(output) < 64:
            return 15, 0, 0, output
        ids, state.places = ticked(state.places)
        self.keep(state)
        return 0, len(ids), 0, over(b"".join(i.to_bytes(4, "little") for i in ids), output)

    # 01, "Neighbour list": "Up to five keys below, then up to five above, nearest first, 32 bytes each; both counts returned. .. Output shorter
    # than 320 bytes: 15." 02, Wish 11: "Each has a neighbour list, asked for by its key (12 if not ours)".
    def neighbours(self, key, output):
        state = State(self)
        if own_records(self.own) is None or state.records is None or len(key) != 32:
            return 1, 0, 0, output
        if not self.is_ours(key):
            return 12, 0, 0, output
        if len(output) < 320:
            return 15, 0, 0, output
        below, above = nearest(value(key), state.records)
        return 0, len(below), len(above), over(b"".join(k.to_bytes(32, "big") for k in below + above), output)

    # 02, Wish 2: "Whoever asks for the closest record now hands in the path". `first` tells the record: 0 to 3 our own, 4 and more those of the
    # cache, in their order; `second`, by Wish 8, the keys compared for the target, among all held (W8.9). There is no output, and the one that is
    # handed in stays.
    def closest(self, lent, output=b""):
        state, path = State(self), path_of(lent.path)
        ours = own_records(self.own)
        if ours is None or state.records is None or path is None or len(lent.target) != 32:
            return 1, 0, 0, output
        shown = closest(self.own, state.records, path, value(lent.target))
        first = 4 + state.records.index(shown) if shown in state.records else ours.index(shown)
        return 0, first, compared(state.records, value(lent.target)), output

    # 02, Wish 8: "Return, beside each search, the number of keys compared". `first` tells the record: 0 for a key that is not held, one of ours too
    # (W8.5), 1 and more those of the cache in their order. There is no output here either.
    def search(self, lent, output=b""):
        state = State(self)
        if own_records(self.own) is None or state.records is None or len(lent.key) != 32:
            return 1, 0, 0, output
        keys = [key_of(r) for r in state.records]
        first = 1 + keys.index(value(lent.key)) if value(lent.key) in keys else 0
        return 0, first, compared(state.records, value(lent.key)), output

    # 02, Wish 13: "A conversion turns an old cache and waiting table into the new form, the count 1 and the other addresses zero, keys and order the
    # same .. Refusals: 1 .. to the conversion, not in the old." W13.1: the own records are lent for reading, in the old form too. A flood's record is
    # all zero, and stays so. There is no output, and the one that is handed in stays.
    def convert(self, output=b""):
        records, places = held(self.own, self.cache, old_record_form), waits(self.own, self.waiting, old_record_form)
        if own_records(self.own, old_record_form) is None or records is None or places is None:
            return 1, 0, 0, output
        self.cache = cache_of([converted(r) for r in records], len(self.cache))
        self.waiting = waiting_of([{**p, "record": converted(p["record"])} if p["kind"] == 2 else p for p in places])
        return 0, 0, 0, output


# 02, Wish 10: "Compare two saved caches of the same own key and C. .. Refusals: 1 for either cache malformed or unequal C, 15 if the list doesn't
# fit." W10.9: how many entries, and how many bytes. Of a gauge it needs the own records alone.
def compare(own, before, after, output):
    first, second = held(own, before), held(own, after)
    if first is None or second is None or len(before) != len(after):
        return 1, 0, 0, output
    entries = changes(first, second)
    assert applied(entries, first) == second
    written = b"".join(bytes([kind]) + record for kind, record in entries)
    if len(written) > len(output):
        return 15, 0, 0, output
    return 0, len(entries), len(written), over(written, output)


# --- Looking ---------------------------------------------------------------------------------------------------------------

# 01: padding stands "exactly where 000 names it"; D39 has the places. Place and length of each field's contents, by its number, in a datagram
# that reads.
def places(d, kind):
    at, found_at = 12, {}
    while at < len(d):
        number, length = value(d[at:at + 2]), value(d[at + 2:at + 4])
        found_at[number] = (at + 4, length - 4)
        at += length
        if number == 0x0043:
            at += 1
        elif number == 0x0040 and kind != "ack":
            at += 2
        elif number in (0x009A, 0x009C, 0x009F, 0x0085, 0x005A) or (number == 0x0080 and kind == "authority"):
            at += -at % 4
    return found_at


# 01: "Reading a message without acting on it gives 0 to 6, and 7 only for an AUTHORITY in part". D23: number, type, message ID, acked ID, then
# place and length of the contents of CPA or revoke CPA, nonce (hashed in SOLICIT and ADVERTISE), route entry, target key; 0 and 0 for one not
# there. "With any refusal the counts returned are 0".
def look(major, d):
    number, m = read(d, major)
    if number != 0:
        return (number,) + (0,) * 11
    at = places(d, m["type"])
    cpa = at.get(0x009B, at.get(0x009C, (0, 0)))
    nonce = at.get(0x0093, at.get(0x0092, (0, 0)))
    return (0, CODES[m["type"]], m["id"], m.get("acked", 0)) + cpa + nonce + at.get(0x009A, (0, 0)) + at.get(0x0038, (0, 0))


# --- Checks ----------------------------------------------------------------------------------------------------------------

def check_cases():
    """Document 01, "Cases worked by hand"."""
    def k(n):
        return n.to_bytes(32, "big")

    def rec(n, port=5000, count=1):
        return k(n) + two(port) + bytes([count, 0]) + bytes(range(1, 16 * count + 1)) + bytes(64 - 16 * count)

    def recs(keys):
        return [rec(n) for n in keys]

    def keys(records):
        return [key_of(r) for r in records]

    for r in recs([0, 100, 2 ** 256 - 1]):
        assert record_form(r) and record_of(entry_of(r, 6, 101)) == r
    # 1 and 2
    assert nearest(100, recs([60, 70, 80, 90, 95, 99, 101, 110])) == ([99, 95, 90, 80, 70], [101, 110])
    assert nearest(100, []) == ([], [])
    assert Gauge(rec(100)).neighbours(k(100), bytes(320)) == (0, 0, 0, bytes(320))
    # 3, 4; 5 by 02: "Case 5 now drops 94"
    assert keys(learned(rec(100), recs(range(90, 100)), rec(101), 10)) == list(range(91, 100)) + [101]
    assert keys(learned(rec(100), recs(range(90, 100)), rec(89), 10)) == list(range(90, 100))
    six = list(range(94, 100)) + list(range(101, 106))
    assert keys(learned(rec(100), recs(six), rec(106), 11)) == six[1:] + [106]
    # 6, 7; 9 by 02: "Case 9's answer becomes 0"
    assert closest(rec(50), recs([99, 101]), [], 100) == rec(99)
    assert closest(rec(9), recs([1, 4294967296]), [], 0) == rec(1)
    assert closest(rec(5), recs([0]), [], 2 ** 256 - 1) == rec(0)
    # 8
    assert apart(value(k(4294967295)), value(k(4294967296))) == 1
    # 10 and 11
    plain = bytes.fromhex("0010000C510665090000000700180008D8859CF5")
    assert write(message("ack", 6, 101, 7, acked=0xD8859CF5)) == plain
    assert write(message("ack", 6, 101, 7, acked=0xD8859CF5, n=True)) == plain + bytes.fromhex("004000060001")
    assert len(plain) == 20
    assert read(plain, 6)[1] == message("ack", 6, 101, 7, acked=0xD8859CF5)
    # 12
    places = [place(3, 1, 2, k(7))]
    ids, places = ticked(places)
    assert ids == [3] and len(places) == 1
    ids, places = ticked(places)
    assert ids == [3] and len(places) == 1
    assert ticked(places) == ([], [])
    # 13
    assert read(plain[:11], 6)[0] == 2 and read(plain + bytes(1213), 6)[0] == 2 and read(plain[:12], 6)[0] == 6
    assert len(plain + bytes(1213)) == 1233
    # 14
    full = waiting_of([place(i, 1, 2, k(7)) for i in range(1, 17)])
    flood = Lent(600, datagram=write(message("flood", 6, 101, 500, validate=k(100), route=entry_of(rec(70), 6, 101))))
    ack = Lent(600, datagram=write(message("ack", 6, 101, 9, acked=5)))
    out = b"\xEE" * 200
    g = Gauge(rec(100), waiting=full, cpas=cpas_bytes([b"C"]))
    assert g.receive(flood, out) == (14, 0, 0, out) and (g.cache, g.waiting) == (bytes(1000), full)
    assert g.receive(ack, out) == (0, 0, 0, out) and g.cache == bytes(1000) and len(waits(g.own, g.waiting)) == 15
    assert g.receive(flood, out)[:3] == (0, 20, 76) and g.cache == bytes(1000) and len(waits(g.own, g.waiting)) == 16


def check_ring():
    """Document 02, Wish 4: both sides of each limit, and what a turn of the whole ring leaves as it is."""
    def rec(n):
        return (n % 2 ** 256).to_bytes(32, "big") + two(5000) + bytes([1, 0]) + bytes(64)

    half, top = 2 ** 255, 2 ** 256 - 1
    for own in (0, 1, half - 1, half, half + 1, top):
        for steps, above in ((1, True), (half - 1, True), (half, True), (half + 1, False), (top, False)):
            assert is_above(own, (own + steps) % 2 ** 256) == above
            assert nearness(own, (own + steps) % 2 ** 256) == (steps if above else 2 ** 256 - steps)
            assert apart(own, (own + steps) % 2 ** 256) == apart((own + steps) % 2 ** 256, own) == min(steps, 2 ** 256 - steps)
    # "pond 1 must be able to have the last pond as neighbour below"
    assert nearest(1, [rec(5), rec(top)]) == ([top], [5])
    # Wherever our own key lies, the keys around it are listed, dropped and chosen as around 100 (cases 1 to 6), and the cache keeps plain order.
    for own in (0, 1, 5, half - 1, half, top - 1, top):
        def turned(keys):
            return [(own + n - 100) % 2 ** 256 for n in keys]

        def held(keys):
            return sorted((rec(n) for n in turned(keys)), key=key_of)

        assert nearest(own, held([60, 70, 80, 90, 95, 99, 101, 110])) == (turned([99, 95, 90, 80, 70]), turned([101, 110]))
        assert learned(rec(own), held(range(90, 100)), held([101])[0], 10) == held(list(range(91, 100)) + [101])
        assert learned(rec(own), held(range(90, 100)), held([89])[0], 10) == held(range(90, 100))
        six = list(range(94, 100)) + list(range(101, 106))
        # six each: 94 and 106 are as far, and the lower number is dropped (case 5): 106, where that lies beyond the end
        left = held(six + [106])
        left.remove(min(held([94]) + held([106]), key=key_of))
        assert learned(rec(own), held(six), held([106])[0], 11) == left
        assert key_of(closest(held([50])[0], held([99, 101]), [], own)) == turned([99])[0]


def check_path():
    """Document 02, Wish 2: which records are skipped, and a LOOKUP's route entry."""
    def rec(n, port, *addresses):
        used = b"".join(bytes([a]) * 16 for a in addresses)
        return n.to_bytes(32, "big") + two(port) + bytes([len(addresses), 0]) + used + bytes(64 - len(used))

    def point(port, address):
        return two(port) + bytes([address]) * 16

    own, a, b = rec(50, 1, 1), rec(99, 5000, 0xA), rec(101, 6000, 0xB)
    for path, shown in (([], a), ([point(5000, 0xA)], b), ([point(5001, 0xA)], a), ([point(5000, 0xB), point(5001, 0xA)], a),
                        ([point(5000, 0xA), point(6000, 0xB)], own), ([point(1, 1)], a), ([point(5000, 0xA), point(6000, 0xB), point(1, 1)], own)):
        assert closest(own, [a, b], path, 100) == shown
        answer = Gauge(own, cache_of([a, b], 1000)).closest(Lent(path=b"".join(path), target=(100).to_bytes(32, "big")))
        assert answer == (0, {own: 0, a: 4, b: 5}[shown], 2, b"")
    for length, number in ((17, 1), (18, 0), (19, 1), (36, 0), (23 * 18, 0), (0, 0)):
        assert Gauge(own).closest(Lent(path=bytes(length))) == (number, 0, 0, b"")
    # places without an address are zero and no addresses; one that is used and zero is
    assert not on_path(a, [point(5000, 0)]) and on_path(rec(99, 5000, 0), [point(5000, 0)])
    # a LOOKUP with the last ID and a new entry; then the same entry held, waiting, our own, with sixteen places used
    def lookup(route):
        return write(message("lookup", 6, 101, 500, target=bytes(32), validate=bytes(32), route=entry_of(route, 6, 101), path=[point(7, 7)]))

    g, out = Gauge(own), b"\xEE" * 172
    number, first, second, written = g.receive(Lent(2 ** 32 - 1, datagram=lookup(a)), out)
    assert (number, first, second, len(written)) == (0, 96, 76, 172) and g.cache == bytes(1000)
    assert read(written[:96], 6)[1]["id"] == 2 ** 32 - 1 and read(written[96:], 6)[1] == message("inquire", 6, 101, 0, a=True, validate=a[:32],
                                                                                               nonce=bytes(16))
    assert waits(own, g.waiting) == [place(0, 2, 2, a[:32], a)]
    assert g.receive(Lent(2 ** 32 - 1, datagram=lookup(a)), out[:96])[:3] == (0, 96, 0)
    assert g.receive(Lent(2 ** 32 - 1, datagram=lookup(b)), out) == (13, 0, 0, out)
    assert g.receive(Lent(7, datagram=lookup(b)), out[:171]) == (15, 0, 0, out[:171])
    g = Gauge(own, cache_of([a], 1000), waiting_of([place(i, 1, 2, a[:32]) for i in range(16)]))
    for route, answer in ((a, (0, 96, 0)), (own, (0, 96, 0)), (b, (14, 0, 0)), (rec(99, 5001, 0xA), (14, 0, 0))):
        assert g.receive(Lent(20, datagram=lookup(route)), out)[:3] == answer


def check_address():
    """Document 02, Wish 13: what is kept of two to four addresses, and the conversion."""
    def rec(n, *addresses, port=5000):
        used = b"".join(bytes([a]) * 16 for a in addresses)
        return n.to_bytes(32, "big") + two(port) + bytes([len(addresses), 0]) + used + bytes(64 - len(used))

    def flood(r):
        return write(message("flood", 6, 101, 500, validate=rec(100)[:32], route=entry_of(r, 6, 101)))

    own, out = rec(100, 1), b"\xEE" * 200
    # a FLOOD with four of a new key: ACK 20, INQUIRE 76; its AUTHORITY learns the first; then the same with that one is held, whatever else it has
    four, authority = rec(70, 1, 2, 3, 4), write(message("authority", 6, 101, 9, acked=8, cpa=b"C"))
    g = Gauge(own)
    assert g.receive(Lent(7, datagram=flood(four)), out)[:3] == (0, 20, 76)
    assert g.receive(Lent(7, verdict=1, key=four[:32], datagram=authority), out)[:3] == (0, 0, 0)
    assert held(own, g.cache) == [rec(70, 1)]
    for same in (rec(70, 1), four, rec(70, 1, 9), rec(70, 1, 1)):
        assert g.receive(Lent(7, datagram=flood(same)), out)[:3] == (0, 20, 0)
    for other in (rec(70, 2, 1), rec(70, 2), rec(70, 2, 1, 3, 4), rec(70, 1, port=5001)):
        h = Gauge(own, g.cache)
        assert h.receive(Lent(7, datagram=flood(other)), out)[:3] == (0, 20, 76)
    # the LOOKUP's answer: 96 bytes, and at byte 77 the count
    ask = write(message("lookup", 6, 101, 500, target=four[:32], validate=bytes(32), path=[bytes(18)]))
    assert g.receive(Lent(7, datagram=ask), out)[:3] == (0, 96, 0) and g.receive(Lent(7, datagram=ask), out)[3][77] == 1
    # a held record, one that waits, or our own with two: 1; to the conversion they are welcome
    two_of = cache_of([rec(70, 1, 2)], 1000)
    asked = waiting_of([place(5, 2, 1, rec(60)[:32], rec(60, 3, 2, 1)), place(6, 1, 0, rec(70)[:32])])
    for bad in (Gauge(own, two_of), Gauge(own, waiting=asked), Gauge(rec(100, 1, 2))):
        assert bad.receive(Lent(7, datagram=ask), out) == (1, 0, 0, out)
        assert bad.convert() == (0, 0, 0, b"")
    # three addresses become one, floods stay, twice changes nothing more
    g = Gauge(rec(100, 1, 2), cache_of([rec(70, 1, 2, 3), rec(80, 9), rec(90, 4, 4, 4, 4)], 1000), asked)
    assert g.convert() == (0, 0, 0, b"") and g.cache == cache_of([rec(70, 1), rec(80, 9), rec(90, 4)], 1000)
    assert g.waiting == waiting_of([place(5, 2, 1, rec(60)[:32], rec(60, 3)), place(6, 1, 0, rec(70)[:32])])
    once = g.memory()
    assert g.convert() == (0, 0, 0, b"") and g.memory() == once
    for bad in (Gauge(rec(100)), Gauge(rec(100, 1)[:99]), Gauge(rec(70, 1), two_of), Gauge(rec(60, 1), waiting=asked), Gauge(own, bytes(900)),
                Gauge(own, cache_of([rec(80, 1, 2), rec(70, 1, 2)], 1000)), Gauge(own, cache_of([rec(70, 1, 2), rec(70, 1)], 1000)),
                Gauge(own, cache_of([rec(70)], 1000)), Gauge(own, two_of[:99] + b"\1" + two_of[100:]), Gauge(own, waiting=b"")):
        before = bad.memory()
        assert bad.convert() == (1, 0, 0, b"") and bad.memory() == before


def check_count():
    """Document 02, Wish 8: keys 10 20 30 40 50; none, one, 256; every key held and every gap, by the places that halving goes through."""
    def key(n):
        return n.to_bytes(32, "big")

    def rec(n):
        return key(n) + two(5000) + bytes([1, 0]) + bytes(64)

    five = Gauge(rec(7), cache_of([rec(n) for n in (10, 20, 30, 40, 50)], 1000))
    for n, first, steps in ((30, 3, 1), (20, 2, 2), (50, 5, 2), (10, 1, 3), (40, 4, 3), (5, 0, 3), (15, 0, 3), (25, 0, 2), (35, 0, 3), (45, 0, 3),
                            (55, 0, 2), (7, 0, 3)):
        assert five.search(Lent(key=key(n))) == (0, first, steps, b"")
        assert five.closest(Lent(target=key(n)))[2] == five.closest(Lent(path=two(5000) + bytes(16), target=key(n)))[2] == steps
    assert Gauge(rec(7)).search(Lent(key=key(9))) == (0, 0, 0, b"")
    for n in (8, 9, 10):
        assert Gauge(rec(7), cache_of([rec(9)], 1000)).search(Lent(key=key(n))) == (0, int(n == 9), 1, b"")
    for bad in (Gauge(rec(7)[:99]), Gauge(rec(7), cache_of([rec(7)], 1000)), Gauge(rec(7), bytes(900))):
        assert bad.search(Lent(key=key(9))) == (1, 0, 0, b"")
    assert Gauge(rec(7)).search(Lent(key=key(9)[:31])) == Gauge(rec(7)).search(Lent(key=key(9) + b"\0")) == (1, 0, 0, b"")
    # A loop over places does the same, wherever there are so many keys; the most is the number of binary digits, and it is met.
    for n in list(range(1, 40)) + [64, 127, 128, 255, 256]:
        keys, most = list(range(0, 2 * n, 2)), 0
        for k in range(-1, 2 * n):
            low, high, steps = 0, n, 0
            while low < high:
                middle, steps = low + (high - low) // 2, steps + 1
                if keys[middle] == k:
                    break
                low, high = (low, middle) if k < keys[middle] else (middle + 1, high)
            assert halvings(keys, k) == steps
            most = max(most, steps)
        assert most == halvings(keys, 0) == len(format(n, "b"))
    keys = list(range(256))
    assert [k for k in keys if halvings(keys, k) == 9] == [0] and [k for k in keys if halvings(keys, k) == 1] == [128]


def check_ponds():
    """Document 02, Wish 11: several own records, their CPAs and lists, and which key is dropped."""
    def k(n):
        return (n % 2 ** 256).to_bytes(32, "big")

    def rec(n, port=5000):
        return k(n) + two(port) + bytes([1, 0]) + bytes(64)

    def recs(keys):
        return [rec(n) for n in keys]

    def ours(*keys):
        return b"".join(recs(keys))

    def keys(records):
        return [key_of(r) for r in records]

    top, out = 2 ** 256 - 1, b"\xEE" * 320
    # own 100 and 200, C 20, both lists full: what is learned between them is dropped; and one nearer to the second takes its list's last out
    twenty = [95, 96, 97, 98, 99, 101, 102, 103, 104, 105, 195, 196, 197, 198, 199, 201, 202, 203, 204, 205]
    for new, gone in ((150, 150), (94, 94), (206, 206), (0, 0), (top, top)):
        assert keys(learned(ours(100, 200), recs(twenty), rec(new), 20)) == sorted(n for n in twenty + [new] if n != gone)
    wide = [n for n in twenty if n not in (195, 105)] + [190, 110]
    assert keys(learned(ours(100, 200), recs(sorted(wide)), rec(195), 20)) == sorted(n for n in wide + [195] if n != 190)
    # the first own key alone says how far, whatever is near to another; at equal distance the lower number goes, also across the end
    many = list(range(80, 100)) + list(range(1000, 1010))
    assert dropped(ours(100, 1000000), recs(many + [1000000 - n for n in range(1, 7)])) == 1000000 - 6
    assert dropped(ours(0), recs([n % 2 ** 256 for n in range(-6, 7) if n])) == 6
    assert dropped(ours(top), recs([(top + n) % 2 ** 256 for n in range(-6, 7) if n])) == 5
    assert dropped(ours(100), recs([n for n in range(94, 107) if n != 100])) == 94
    # own keys are not held: one of ours is in nobody's list
    assert nearest(100, recs([99, 201])) == ([99], [201])
    # INQUIRE says which CPA; N; 11 and 12; each list by its key; every own record a candidate
    g = Gauge(ours(100, 200), cache_of(recs([99, 101, 199]), 2000), cpas=cpas_bytes([b"first", b"2"]))

    def gets(kind, **fields):
        lent = Lent(7, verdict=1, key=fields.pop("named", k(0)), datagram=write(message(kind, 6, 101, 5, **fields)))
        number, first, second, written = g.receive(lent, out)
        return number, first, second, written[:first]

    for n, cpa in ((100, b"first"), (200, b"2")):
        assert read(gets("inquire", validate=k(n))[3], 6)[1]["cpa"] == cpa
        assert gets("flood", validate=k(n), route=entry_of(rec(7), 6, 101))[0:2] == (0, 20)
        assert gets("flood", validate=k(n), route=entry_of(rec(n, 1), 6, 101))[0] == 11 == gets("flood", validate=k(7), revoke=b"", named=k(n))[0]
        ask = {"target": k(n), "validate": k(7), "path": [bytes(18)]}
        assert read(gets("lookup", route=entry_of(rec(n, 1), 6, 101), **ask)[3], 6)[1]["route"]["key"] == k(n)
        assert g.send(Lent(n, neighbour=k(99), key=k(n)), out)[:2] == (0, 116)
        assert g.closest(Lent(target=k(n + 1 if n == 200 else n)))[:2] == (0, n // 100 - 1)
    assert gets("inquire", validate=k(150))[0] == 12 and gets("flood", validate=k(150), revoke=b"")[1] == 26
    assert g.neighbours(k(100), out)[:3] == (0, 1, 2) and g.neighbours(k(200), out)[:3] == (0, 3, 0)
    for asked, room, number in ((k(150), 320, 12), (k(99), 319, 12), (k(100)[:31], 0, 1), (k(200), 319, 15)):
        assert g.neighbours(asked, out[:room])[0] == number
    # forms: C below ten times their number, keys out of order or twice, five of them, an own key held or inquired about, CPAs
    for own, cache, cpas, good in ((ours(100, 200), bytes(1900), [b"a", b"b"], False), (ours(100, 200), bytes(2000), [b"a", b"b"], True),
                                   (ours(1, 2, 3, 4), bytes(3900), [b"c"] * 4, False), (ours(1, 2, 3, 4), bytes(4000), [b"c"] * 4, True),
                                   (ours(1, 2, 3, 4, 5), bytes(5000), [b"c"] * 5, False), (ours(200, 100), bytes(2000), [b"a", b"b"], False),
                                   (ours(100, 100), bytes(2000), [b"a", b"b"], False), (ours(100)[:50], bytes(2000), [b"a"], False),
                                   (ours(1, 2)[:150], bytes(2000), [b"a", b"b"], False), (b"", bytes(2000), [], False),
                                   (ours(1, 2), cache_of(recs([2, 3]), 2000), [b"a", b"b"], False), (ours(100), bytes(1000), [b"a", b"b"], False),
                                   (ours(1, 2), bytes(2000), [b"a"], False), (ours(1, 2), bytes(2000), [b"a", b""], False),
                                   (ours(1, 2), bytes(2000), [b"a", bytes(1025)], False), (ours(1, 2), bytes(2000), [b"a", bytes(1024)], True)):
        given = Gauge(own, cache, cpas=cpas_bytes(cpas)).receive(Lent(7, datagram=write(message("inquire", 6, 101, 5, validate=own[:32].ljust(32)))),
                                                                  bytes(2464))[0]
        assert (given == 0) == good and given in (0, 1)
    for cpas in (b"\1", b"\1\0", b"\1\0a\1", b"\1\0a\0\0", b"\1\0ab", b"\2\0a", b"\0\1a", b"\0\0", b"\1\4" + bytes(1025)):
        assert cpas_of(cpas, 1) is None and cpas_of(cpas, 2) is None
    assert Gauge(ours(1, 2), waiting=waiting_of([place(1, 2, 2, k(2), rec(2))])).tick(out)[0] == 1
    assert Gauge(ours(1, 3), waiting=waiting_of([place(1, 2, 2, k(2), rec(2))])).tick(out)[0] == 0


def check_firsts():
    """Document 02, Wish 12: the counts of one night's calls, each change by its own byte; what is refused."""
    def k(n, first=0):
        return bytes([first]) + n.to_bytes(31, "big")

    def rec(key):
        return key + two(5000) + bytes([1, 0]) + bytes(64)

    def changed(before, after):
        """The bytes whose counts are others, with how much more they are."""
        counts = [[int.from_bytes(f[at:at + 2], "little") for at in range(0, 512, 2)] for f in (before, after)]
        return {byte: b - a for byte, (a, b) in enumerate(zip(*counts)) if a != b}

    own, out = rec(k(100)), bytes(200)

    def learns(g, key):
        """What changes by an AUTHORITY for this key."""
        g.waiting, before = waiting_of([place(5, 2, 1, key, rec(key))]), g.firsts
        assert g.receive(Lent(7, verdict=1, key=key, datagram=write(message("authority", 6, 101, 9, acked=5, cpa=b"C"))), out)[0] == 0
        return changed(before, g.firsts)

    def revokes(g, key):
        before = g.firsts
        assert g.receive(Lent(7, verdict=1, key=key, datagram=write(message("flood", 6, 101, 9, validate=key, revoke=b""))), out)[0] == 0
        return changed(before, g.firsts)

    g = Gauge(own)
    assert g.firsts == bytes(512) and learns(g, k(1, 5)) == {5: 1} and g.firsts[10:12] == b"\1\0" and sum(g.firsts) == 1
    assert learns(g, k(1, 5)) == {} and revokes(g, k(2, 5)) == {} and revokes(g, k(1, 5)) == {5: -1} and g.firsts == bytes(512)
    # case 3: all begin with 00, 101 joins and 90 goes; so it does for 05.., the only one above; FF.. is below and the farthest, and goes itself
    for key, change in ((k(101), {}), (k(101, 5), {0: -1, 5: 1}), (k(101, 0xFF), {})):
        g = Gauge(own, cache_of([rec(k(n)) for n in range(90, 100)], 1000))
        assert g.firsts == b"\12\0" + bytes(510) and learns(g, key) == change
    # one that begins with FF goes for one that begins with 00; 05.. is in the list, and 90 goes
    for first, change in ((0xFF, {0: 1, 0xFF: -1}), (5, {})):
        g = Gauge(own, cache_of([rec(k(n)) for n in range(90, 99)] + [rec(k(1, first))], 1000))
        assert learns(g, k(99)) == change
    # 256 of one byte: the second byte of the count
    g = Gauge(own, cache_of([rec(k(n)) for n in range(101, 356)], 25600))
    assert g.firsts[:2] == b"\xFF\0" and learns(g, k(99)) == {0: 1} and g.firsts[:2] == b"\0\1" and not any(g.firsts[2:])
    assert learns(g, k(400)) == {} and revokes(g, k(99)) == {0: -1} and g.firsts[:2] == b"\xFF\0"
    # refused: another length, one off, the sum alone right, the order of its two bytes; the other calls are not lent them
    one, ask = cache_of([rec(k(1, 5))], 1000), Lent(7, datagram=write(message("inquire", 6, 101, 5, validate=own[:32])))
    right = bytes(10) + b"\1" + bytes(501)
    assert Gauge(own, one, firsts=right).receive(ask, out)[0] == 0
    for firsts in (right[:511], right + b"\0", b"", bytes(512), bytes(10) + b"\2" + bytes(501), bytes(12) + b"\1" + bytes(499),
                   bytes(11) + b"\1" + bytes(500), bytes(10) + b"\1\1" + bytes(500), right[:511] + b"\1"):
        g = Gauge(own, one, firsts=firsts)
        assert g.receive(ask, out) == (1, 0, 0, out) and g.memory() == [one, firsts, bytes(2240)]
        assert g.tick(out)[0] == g.neighbours(own[:32], bytes(320))[0] == g.search(Lent())[0] == g.convert()[0] == 0 and g.firsts == firsts


def check_changes():
    """Document 02, Wish 10: gone, new and changed; equal, from empty, to empty; what is refused; and any two caches."""
    import random
    chance = random.Random(10)

    def rec(n, port=5000):
        return n.to_bytes(32, "big") + two(port) + bytes([1, 0]) + bytes(64)

    def recs(*keys):
        return [rec(n) for n in keys]

    own, out = rec(100), b"\xEE" * 1100
    first, second = cache_of(recs(1, 2, 3), 1000), cache_of([rec(2), rec(3, 5001), rec(4)], 1000)
    wanted = b"\1" + rec(1)[:32] + bytes(68) + b"\3" + rec(3, 5001) + b"\2" + rec(4)
    assert compare(own, first, second, out) == (0, 3, 303, wanted + out[303:])
    assert compare(own, first, second, out[:303]) == (0, 3, 303, wanted) and compare(own, first, second, out[:302]) == (15, 0, 0, out[:302])
    ten = cache_of(recs(*range(1, 11)), 1000)
    assert compare(own, ten, ten, b"") == compare(own, bytes(1000), bytes(1000), b"") == (0, 0, 0, b"")
    for before, after, kind in ((bytes(1000), ten, 2), (ten, bytes(1000), 1)):
        number, entries, written, output = compare(own, before, after, out)
        assert (number, entries, written) == (0, 10, 1010) and [output[101 * i] for i in range(10)] == [kind] * 10
    for bad in (compare(own, ten, ten + bytes(100), out), compare(own[:99], ten, ten, out), compare(rec(5), ten, bytes(1000), out),
                compare(rec(5), bytes(1000), ten, out), compare(rec(0) + rec(100), ten, ten, out), compare(own, cache_of(recs(2, 1), 1000), ten, out),
                compare(own, ten, cache_of(recs(2, 1), 1000), out), compare(own, first[:900], second[:900], out)):
        assert bad == (1, 0, 0, out)
    for _ in range(200):
        pool = [chance.randrange(101, 2 ** 256) for _ in range(40)]
        before, after = (sorted((rec(n, 5000 + chance.randrange(2)) for n in chance.sample(pool, chance.randrange(31))), key=key_of) for _ in "ba")
        entries = changes(before, after)
        assert rising([key_of(r) for _, r in entries]) and applied(entries, before) == after and (entries == []) == (before == after)
        told = {key_of(r): (kind, r) for kind, r in entries}
        for n in pool:
            was, now = ([r for r in records if key_of(r) == n] for records in (before, after))
            kind = 0 if was == now else 1 if not now else 2 if not was else 3
            assert told.get(n, (0, b""))[0] == kind and (kind < 2 or told[n][1] == now[0])


def check_lengths():
    """docs/DECISIONS.md, "What the calls write"."""
    key, zero = b"K" * 32, bytes(32)
    for n in (None, True):
        assert len(write(message("ack", 6, 101, 1, acked=2, n=n))) == (26 if n else 20)
    assert len(write(message("inquire", 6, 101, 1, a=True, validate=key, nonce=b"N" * 16))) == 76
    for count in (1, 2, 3, 4):
        r = key + two(5000) + bytes([count, 0]) + b"A" * (16 * count) + bytes(64 - 16 * count)
        entry = entry_of(r, 6, 101)
        assert old_record_form(r) and record_form(r) == (count == 1) and record_of(entry) == converted(r)
        assert len(write(message("flood", 6, 101, 1, validate=zero, route=entry))) == 100 + 16 * count
        shown = write(message("authority", 6, 101, 1, acked=2, route=entry))
        assert len(shown) == 80 + 16 * count and value(shown[24:26]) == 52 + 16 * count
    for n in (1, 2, 3, 4, 1024):
        shown = write(message("authority", 6, 101, 1, acked=2, cpa=b"C" * n))
        assert len(shown) == 40 + n and value(shown[24:26]) == 12 + n


def check_round_trips(count):
    """What is written is read back as the same message; read and written again it is the same datagram; and no other major is read."""
    import random
    chance = random.Random(51)

    def some(size):
        return chance.randbytes(size)

    def maybe(make):
        return make() if chance.random() < 0.6 else None

    def opaque():
        return some(chance.choice([0, 1, 2, 3, 4, 5, chance.randrange(60)]))

    def entry():
        return {"key": some(32), "major": chance.randrange(256), "minor": chance.randrange(256), "port": chance.randrange(65536),
                "flags": chance.randrange(256), "addresses": [some(16) for _ in range(chance.randint(1, 4))]}

    def flag():
        return chance.random() < 0.5

    def points():
        return [some(18) for _ in range(chance.choice([1, 2, 22, chance.randint(1, 22)]))]

    def key_set():
        return [some(32) for _ in range(chance.randrange(9))]

    def credential():
        return {"credential": maybe(opaque), "signature": maybe(opaque), "key_identifier": maybe(opaque)}

    def fields(kind):
        if kind == "solicit":
            return {"route": maybe(entry), "hashed_nonce": some(20)}
        if kind == "advertise":
            return {"acked": value(some(4)), "keys": key_set(), "hashed_nonce": some(20)}
        if kind == "request":
            return {"flags": flag(), "split": flag(), "nonce": some(16), "keys": key_set(), **credential()}
        if kind == "flood":
            one = {"revoke": opaque(), "route": None} if flag() else {"revoke": None, "route": entry()}
            return {"d": flag(), "validate": some(32), "keytoken": maybe(opaque), "reached": maybe(points), **one}
        if kind == "inquire":
            return {"a": flag(), "x": flag(), "c": flag(), "validate": some(32), "nonce": maybe(lambda: some(16)), **credential()}
        if kind == "authority":
            return {"acked": value(some(4)), "l": flag(), "b": flag(), "n": flag(), "chain": maybe(opaque), "keytoken": maybe(opaque),
                    "classifier": maybe(lambda: [some(2) for _ in range(chance.randrange(9))]), "payload": maybe(opaque),
                    "route": maybe(entry), "cpa": maybe(opaque)}
        if kind == "ack":
            return {"acked": value(some(4)), "n": maybe(flag)}
        criteria = chance.choice([0, 1, 2, 4, 8])
        return {"a": flag(), "precision": chance.randrange(65536) if criteria == 8 else None, "criteria": criteria, "reason": chance.randrange(4),
                "target": some(32), "validate": some(32), "route": maybe(entry), "path": points(), **credential()}

    for i in range(count):
        kind = list(CODES)[i % 8]
        m = message(kind, chance.randrange(256), chance.randrange(256), value(some(4)), **fields(kind))
        d = write(m)
        assert read(d, m["major"]) == (0, m), m
        assert read(d, (m["major"] + 1) % 256) == (4, None)
        assert write(read(d, m["major"])[1]) == d
        assert read(d + b"\0", m["major"])[0] == (7 if kind == "authority" else 6)


if __name__ == "__main__":
    check_cases()
    check_ring()
    check_path()
    check_address()
    check_count()
    check_ponds()
    check_firsts()
    check_changes()
    check_lengths()
    check_round_trips(8000)
    print("model: cases 1 to 14, ring, path, one address, keys compared, ponds, firsts, changes, lengths and 8000 round trips as the documents have them")
