#!/usr/bin/env python3
"""Vectors for the eight messages: reading, writing again, and the prefixes of a datagram.

    read MAJOR DATAGRAM       the number where refused, else 0, type, minor version, message ID
    again MAJOR DATAGRAM      the number where refused, else the message written again
    prefixes MAJOR DATAGRAM   the numbers of reading each prefix, from length 0 to the whole, as COUNTxNUMBER

    vector_messages.py        checks that what is laid out here by hand is what the model writes

The datagrams are laid out here field by field, by the tables of document 000 section 2.2 and docs/DECISIONS.md, and not by the model's
writers; the answers are the model's. A `want` beside a datagram is the number that the documents give it, and is compared with the model's.
"""
if not __debug__:
    raise SystemExit("vector_messages.py: run it without -O and PYTHONOPTIMIZE, which leave its asserts out")
import with_models
import model

MAJOR, MINOR, ID = 6, 0x65, 0xD8859CF5  # the versions and the ID of document 003's AUTHORITY
CODES = {"solicit": 1, "advertise": 2, "request": 3, "flood": 4, "inquire": 7, "authority": 8, "ack": 9, "lookup": 11}
LONGEST = 1300


def ramp(start, count):
    """Bytes that tell their place: start, start + 1, .."""
    return bytes((start + i) % 256 for i in range(count))


KEY, TARGET, NONCE, HASH = ramp(0x11, 32), ramp(0x71, 32), ramp(0xA0, 16), ramp(0xB0, 20)

# The AUTHORITY that document 003 prints, 1,728 bytes.
DUMP = bytes.fromhex("""
0010000c51066508d8859cf500180008 ccdde43d0040000600000000008003b6 308203ae06092a864886f70d010702a0 82039f3082039b0201013100300b0609
2a864886f70d010701a0820383308201 bd30820126a00302010202 10cccccccc cccccccccccccccccccccccc300d0609 2a864886f70d0101050500301d311b30
190603550403 1e120052006f006f0074 00430065007200740000301e170d3039 303232363233313234395a170d313030 3232363233313234395a301d311b3019
06035504031e120052006f006f007400 43006500720074000030819f300d0609 2a864886f70d010101050003818d0030 818902818100b2bb5ec85a8e9ed8105d
8be49ff5882dc77b844405ef82510b7b 309e159678924adb15a72d71f04c38d7 690406ea6a3196316e7bf3ce2754adab 4800ea574fef961c553c3bc613f65fb0
f16c30fcd4841214847632a9d3c423a6 cb5179e7ab96ba3e514f17ddb801dbc7 b2a3c25dea07a428b87e78dd171e3469 f80aca9ec17f0203010001300d06092a
864886f70d0101050500038181008968 4833fb5357320fbefab1027261 04a895 22db7e71fff9ff861b8fee01c744b27c 671fe2ad646d7a8c7eab319805fa2b14
a338bb644984d3f0b10a25f276fed9a5 ba2e3dab3cdd9dcf72a44f49bf64d161 48fb0395dfb835e7764ec92125224ad7 d490b5fc4675f97e5c6e28041988fa60
35f361e166132479361e70d3c85a3082 01be30820127a003020102020f610074 00610044000000000000002d300d0609 2a864886f70d0101050500301d311b30
190603550403 1e120052006f006f0074 00430065007200740000301e170d3039 303631353032303833305a170d313030 3631353032303833305a301f311d301b
06035504031e14004c006f0063006100 6c0043006500720074000030819f300d 06092a864886f70d010101050003818d 0030818902818100a4634b4ecad6eec7
0d0d0b9abb3735f85589e637aa9ccff5 d958d8b8243351c0cd2a2e5a9b24da60 659612421d8c4a101c326709e4b91a9f a5f276f7556fffb0699dd552782390a2
1c69c06d50b8372f65161dc0f960fb3e ceb8e91f70ea307c0e197b84bad67a80 db545f8cbdcfbf6df49c5f37c36526c4 65a4e39ecfda362f0203010001300d06
092a864886f70d010105050003818100 4918baf46499a227bd9f6a5387874ef8 fac95d735999cb15d8d793f72b7a88ac 65f01deece82a00962946d6d315eb695
0fc71aafe56df3de08f5431f1037bc35 7ac7dce570b7707c4b06286af33dcd7d 62cd8705064c9fb7ffb9844bd5ef935d 9bfedfeaa22ec170680e0b6db96aca9f
c09a27b623d18e14a75d57c5eb6baf45 31000000009f00841a6f46f51b64af27 4d96a8a7cdbc29b5f13111c9e1d77b7d b03c561765ac10d935e660987a324986
9375e43489ce50cc9bea61d88a6175c0 e064bda70846766f28a784340e1b490d e679bb801ff97fa3ad85b1485993583a bc90d78a56e677f6a4d039bf2701be0f
02127b33904f782f090b03cacbf41ddf 8987755e27fc360f00a400b4c54f3d17 5e60014fb130b1f9b0dfcac30049c138 4e50a3973a56a142798d97daa0a19a1d
6aec29d3910ae813c7cae938d8fd23bc 65f2a754a73b99a0bafaad7eb5716f0c 7abe429b067e61dcdb2aa916a7dc78cd 6caa78e492fbb4dc8b9ad3c1d4fb0e25
984350f39cbfc5e40d39156b5dd3a023 637e788dc1973d3bcf63485fb21ba65f 5b1051744be398ce44aaefaca48dfa9b ef725edd2376ecc06bdc331de22050c4
d8337bd1f82ae83ed4e7c60100a201b4 f0d1370b98d5cd0299bf366c65a83651 339eba74c2e8c1e8ef4ece7c5b3aa81c 8222a63f82a8571b3a0ee1fd1baf5ab7
f1bac95bf0d8e6cc786fdaf3bb71bac8 06fbfd760675f13e0d8519dda2649f5d aeebd52c2d24d4c2930bbf429660bbc3 3263029110a4bee24aa26b9048c7c4b0
41e7048d112c8ff3d11dd6f1cd41c47c 9a3a477acf593c30a7513b521b2431fc cf3764216939778eff5fcc77f9edfbaa b488037a8e43892a113cf9e6bc930a92
15ad71193f76de887c68b6999753609f d6056eeaea246931d6f2e29a89be4385 adabdbf94f8854255dd7dfcbb7db50e0 2e4d0c4fa820a0085fdc3ef2cbde8477
a8ce71c2c5f9c5403b672b3df2790f97 8bfafb44a0b5e8356c25a2d9a178101b f1291eb00e4920e23227e438a789c31a eb3198a50107c4030aa563396a216bc0
dc200001396856247419533058 8b7e18 cb1c20e5d0daa0dcb616c5f396827d24 633b217547f7c0005bc203d87b718858 dd868d06ed72ade9a1dbf52b23a8c81e
b4de0219e45d1e5dfff0e95092c0d63a b5c9811a5616002454521f8b67f22b82 0f72c432f1e7168d098c6b406cfa4055 aed011ceb48594d3859a21ceaeadc33e
""")


class Laid:
    """A datagram being laid out. `dirt`: ignored bits are ones instead of zeros. `fields`: number and place of each field."""

    def __init__(self, kind, dirt=False, minor=MINOR, identity=ID):
        self.dirt, self.fields = dirt, []
        self.s = bytes.fromhex("0010000C51") + bytes([MAJOR, minor, CODES[kind]]) + identity.to_bytes(4, "big")

    def field(self, number, contents):
        self.fields.append((number, len(self.s)))
        self.s += number.to_bytes(2, "big") + (4 + len(contents)).to_bytes(2, "big") + contents

    def ignored(self, count):
        self.s += (b"\xFF" if self.dirt else b"\0") * count

    def pad(self):
        self.ignored(-len(self.s) % 4)

    def bits(self, on, named, size=2):
        """Flags of which only `named` have a name."""
        whole = 256 ** size - 1
        return ((on & named) | (whole & ~named if self.dirt else 0)).to_bytes(size, "big")

    def opaque(self, number, contents, padded=False):
        if contents is not None:
            self.field(number, contents)
            if padded:
                self.pad()

    def route(self, count, number=0x009A):
        """count addresses; the key, versions 6 and 101, port 5000, flags 5A."""
        if count:
            self.field(number, entry(count))
            self.pad()

    def array(self, number, element, size, elements):
        n = len(elements)
        self.field(number, b"".join(x.to_bytes(2, "big") for x in (n, 8 + size * n, element, size)) + b"".join(elements))


def entry(count, key=KEY, versions=b"\x06\x65", port=b"\x13\x88", flags=b"\x5A"):
    return key + versions + port + flags + bytes([count]) + b"".join(ramp(0x20 * i, 16) for i in range(count))


def keys(n):
    return [ramp(i, 32) for i in range(n)]


def points(n):
    return [ramp(0x40 + i, 18) for i in range(n)]


def credentials(laid, credential, signature, identifier):
    laid.opaque(0x0080, credential)
    laid.opaque(0x00A5, signature)
    laid.opaque(0x00A6, identifier)


CREDENTIAL, SIGNATURE, IDENTIFIER = b"\x00\xA5\x00\x04\x31", b"\x00\xA6\x41", b"\x51\x52"  # contents that look like numbers of fields
TOKEN, REVOKE, CHAIN, PAYLOAD, CPA = b"\x00\x9C\x00\x04\x61", b"\x00\x9A\x71", b"\x00\x9F\x81", b"\x00\x9A\x00\x9B\x91\x92", b"\x00\x9B\x00"
UNITS = [b"\0P", b"\0o", b"\0n"]


# One function for each type. A count of 0 and None stand for a field left out.

def solicit(route=0, dirt=False, **head):
    laid = Laid("solicit", dirt, **head)
    laid.route(route)
    laid.field(0x0092, HASH)
    return laid


def advertise(n=2, dirt=False, **head):
    laid = Laid("advertise", dirt, **head)
    laid.field(0x0018, b"\x01\x02\x03\x04")
    laid.array(0x0060, 0x0030, 32, keys(n))
    laid.field(0x0092, HASH)
    return laid


def request(flags=False, split=False, n=1, credential=None, signature=None, identifier=None, dirt=False, **head):
    laid = Laid("request", dirt, **head)
    if flags:
        laid.field(0x0040, laid.bits(0, 0))
        laid.ignored(2)
    if split:
        laid.field(0x0098, bytes(4))
    start = len(laid.s)
    laid.field(0x0093, NONCE)
    laid.array(0x0060, 0x0030, 32, keys(n))
    credentials(laid, credential, signature, identifier)
    if split:
        laid.s = put(laid.s, start - 4, (len(laid.s) - start).to_bytes(2, "big"))
    return laid


def flood(flags=0, token=None, revoke=None, route=0, reached=0, dirt=False, **head):
    laid = Laid("flood", dirt, **head)
    laid.field(0x0043, laid.bits(flags, 0x0001) + laid.bits(0, 0, 1))
    laid.ignored(1)
    laid.field(0x0039, KEY)
    laid.opaque(0x009F, token, True)
    laid.opaque(0x009C, revoke, True)
    laid.route(route)
    if reached:
        laid.array(0x009E, 0x009D, 18, points(reached))
    return laid


def inquire(flags=0, nonce=None, credential=None, signature=None, identifier=None, dirt=False, **head):
    laid = Laid("inquire", dirt, **head)
    laid.field(0x0040, laid.bits(flags, 0x001C))
    laid.ignored(2)
    laid.field(0x0039, KEY)
    laid.opaque(0x0093, nonce)
    credentials(laid, credential, signature, identifier)
    return laid


def authority(flags=0, chain=None, token=None, units=None, payload=None, route=0, cpa=None, dirt=False, **head):
    laid = Laid("authority", dirt, **head)
    laid.field(0x0018, b"\xCC\xDD\xE4\x3D")
    laid.field(0x0098, bytes(4))
    laid.field(0x0040, laid.bits(flags, 0x0209))
    laid.ignored(2)
    laid.opaque(0x0080, chain, True)
    laid.opaque(0x009F, token, True)
    if units is not None:
        laid.array(0x0085, 0x0084, 2, units)
        laid.pad()
    laid.opaque(0x005A, payload, True)
    laid.route(route)
    laid.opaque(0x009B, cpa)
    laid.s = sized(laid.s)
    return laid


def ack(flags=None, dirt=False, **head):
    laid = Laid("ack", dirt, **head)
    laid.field(0x0018, b"\xD8\x85\x9C\xF5")
    if flags is not None:
        laid.field(0x0040, laid.bits(flags, 0x0001))
    return laid


def lookup(flags=0, precision=0, criteria=0, reason=0, route=0, path=1, credential=None, signature=None, identifier=None, dirt=False, **head):
    laid = Laid("lookup", dirt, **head)
    controls = laid.bits(flags, 0x0002) + laid.bits(precision, 0xFFFF if criteria == 8 else 0) + bytes([criteria, reason]) + laid.bits(0, 0)
    laid.field(0x0045, controls)
    laid.field(0x0038, TARGET)
    laid.field(0x0039, KEY)
    laid.route(route)
    laid.array(0x009E, 0x009D, 18, points(path))
    credentials(laid, credential, signature, identifier)
    return laid


LAYERS = {"solicit": solicit, "advertise": advertise, "request": request, "flood": flood, "inquire": inquire, "authority": authority, "ack": ack,
          "lookup": lookup}
MEMBER = {"credential": CREDENTIAL, "signature": SIGNATURE, "identifier": IDENTIFIER}

# Every optional field present; FLOOD twice, as it has one of two.
FULL = [("solicit", {"route": 2}), ("advertise", {"n": 2}), ("request", {"flags": True, "split": True, "n": 1, **MEMBER}),
        ("flood", {"flags": 1, "token": TOKEN, "route": 1, "reached": 2}), ("flood", {"flags": 1, "token": TOKEN, "revoke": REVOKE, "reached": 1}),
        ("inquire", {"flags": 0x1C, "nonce": NONCE, **MEMBER}),
        ("authority", {"flags": 0x0209, "chain": CHAIN, "token": TOKEN, "units": UNITS, "payload": PAYLOAD, "route": 1, "cpa": CPA}),
        ("ack", {"flags": 1}), ("lookup", {"flags": 2, "precision": 300, "criteria": 8, "reason": 3, "route": 2, "path": 3, **MEMBER})]
# Every optional field absent.
BARE = [("solicit", {}), ("advertise", {"n": 0}), ("request", {"n": 0}), ("flood", {"route": 1}), ("flood", {"revoke": b""}), ("inquire", {}),
        ("authority", {}), ("ack", {}), ("lookup", {})]


def put(s, at, new):
    """s with new bytes at a place."""
    return s[:at] + new + s[at + len(new):]


def sized(s):
    """An AUTHORITY whose split controls tell what stands behind them."""
    return put(s, 24, (len(s) - 28).to_bytes(2, "big") + bytes(2))


def refit(kind, s):
    return sized(s) if kind == "authority" else s


def coded(numbers):
    runs = []
    for n in numbers:
        if runs and runs[-1][1] == n:
            runs[-1][0] += 1
        else:
            runs.append([1, n])
    return " ".join("%dx%d" % (count, n) for count, n in runs)


def read(d, want=None, major=MAJOR):
    number, m = model.read(d, major)
    assert want is None or want == number, (number, want, d.hex())
    return ("read", major, d), str(number) if number else "0 %s %d %08x" % (m["type"], m["minor"], m["id"])


def again(d, want=None, clean=None):
    number, m = model.read(d, MAJOR)
    assert want is None or want == number, (number, want, d.hex())
    assert clean is None or (number == 0 and model.write(m) == clean), (number, d.hex())
    return ("again", MAJOR, d), str(number) if number else model.write(m).hex()


def prefixes(d):
    return ("prefixes", MAJOR, d), coded(model.read(d[:n], MAJOR)[0] for n in range(len(d) + 1))


def choices(**fields):
    """No field, each alone, all but each, all."""
    alone = [{name: contents} for name, contents in fields.items()]
    missing = [{name: contents for name, contents in fields.items() if name != left} for left in fields]
    return [{}] + alone + missing + [fields]


def headers():
    yield "# document 003: the first bytes of a real AUTHORITY; it has no split controls, and is too long for a datagram"
    yield read(DUMP[:12], 6)
    yield read(DUMP[:20], 6)
    yield read(DUMP[:28], 6)
    yield read(DUMP[:1232], 6)
    yield read(DUMP[:1233], 2)
    yield "# the same with split controls put in, up to its keytoken: type AUTHORITY, versions 6 and 101, ID D8859CF5; then its encrypted payload"
    mended = sized(DUMP[:20] + bytes.fromhex("0098000800000000") + DUMP[20:1112])
    yield read(mended, 0)
    yield again(mended, 0, mended)
    yield read(sized(mended + DUMP[1112:1144]), 6)
    yield read(sized(mended + bytes.fromhex("00A40004")), 6)
    yield "# cases 10 and 11"
    plain = bytes.fromhex("0010000C510665090000000700180008D8859CF5")
    for d in (plain, plain + bytes.fromhex("004000060001")):
        yield read(d, 0)
        yield again(d, 0, d)
    yield "# case 13: 11 and 1,233 bytes; 12 with a right header and no fields, for each type"
    yield read(b"", 2)
    yield read(plain[:11], 2)
    yield read(plain + bytes(1213), 2)
    for kind in CODES:
        yield read(Laid(kind).s, 6)
    yield "# 1,232 bytes are read, 1,233 are not"
    for kind, name, base in (("request", "identifier", {"n": 0}), ("flood", "revoke", {}), ("inquire", "identifier", {}), ("authority", "cpa", {}),
                             ("lookup", "identifier", {})):
        start = len(LAYERS[kind](**{name: b""}, **base).s)
        for length in (1232, 1233):
            d = LAYERS[kind](**{name: bytes(length - start)}, **base).s
            yield read(d, 2 if len(d) > 1232 else 0)
    yield "# the first five bytes: each changed"
    for i in range(5):
        yield read(put(plain, i, bytes([plain[i] ^ 0x01])), 3)
    yield read(put(plain, 4, b"\xD1"), 3)
    yield "# the major version: the one given, and others"
    for major in (0, 5, 6, 7, 0x65, 255):
        yield read(plain, 0 if major == 6 else 4, major)
    yield read(put(plain, 5, b"\xFF"), 0, 255)
    yield read(put(plain, 5, b"\x00"), 0, 0)
    yield "# any minor version, any ID"
    for minor, identity in ((0, 0), (255, 2 ** 32 - 1), (6, 1), (0x80, 2 ** 31)):
        yield read(ack(minor=minor, identity=identity).s, 0)
    yield again(ack(minor=255, identity=2 ** 32 - 1).s, 0, ack(minor=255, identity=2 ** 32 - 1).s)
    yield "# types: those that 000 does not have"
    for code in (0x00, 0x05, 0x06, 0x0A, 0x0C, 0x10, 0x89, 0xFF):
        yield read(put(plain, 7, bytes([code])), 5)
    yield "# two at once: the lowest"
    yield read(bytes(11), 2)
    yield read(bytes(1233), 2)
    yield read(bytes(12), 3)
    yield read(put(plain, 4, b"\x52\x07"), 3)
    yield read(put(plain, 5, b"\x07\x65\x00"), 4)
    yield read(put(plain, 7, b"\x05")[:12], 5)
    yield read(put(plain, 5, b"\x07\x65\x05")[:12], 4)
    yield read(put(plain, 12, b"\x00\x19"), 6)


def whole_dump():
    """The dump of document 003 entire, longer than the other datagrams: number 2."""
    yield "# document 003: all 1,728 bytes of its AUTHORITY"
    yield read(DUMP, 2)


def good():
    yield "# each type with every optional field, and with none"
    for kind, fields in FULL + BARE:
        yield read(LAYERS[kind](**fields).s, 0)
    yield "# one to four addresses; the ignored bits are set, and written again they are zero"
    for kind in ("solicit", "flood", "authority", "lookup"):
        for count in (1, 2, 3, 4) if kind in ("flood", "authority") else (1, 4):
            yield again(LAYERS[kind](route=count, dirt=True).s, 0, LAYERS[kind](route=count).s)
    yield "# a route entry's versions, port and flags are kept, whatever they are"
    for kind in ("solicit", "flood", "authority", "lookup"):
        for versions, port, flags in ((b"\0\0", b"\0\0", b"\0"), (b"\xFF\xFE", b"\x03\xFF", b"\xFF")):
            d = LAYERS[kind](route=1)
            at = [at for number, at in d.fields if number == 0x009A][0]
            d = put(d.s, at + 4 + 32, versions + port + flags)
            yield again(d, 0, d)
    yield "# each optional field present and absent, ignored bits set"
    for way in choices(flags=True, split=True, **MEMBER):
        yield again(request(dirt=True, **way).s, 0, request(**way).s)
    for way in choices(flags=1, token=TOKEN, reached=2):
        for one in ({"revoke": REVOKE}, {"route": 3}):
            yield again(flood(dirt=True, **way, **one).s, 0, flood(**way, **one).s)
    for way in choices(nonce=NONCE, **MEMBER):
        yield again(inquire(flags=0x10, dirt=True, **way).s, 0, inquire(flags=0x10, **way).s)
    for way in choices(chain=CHAIN, token=TOKEN, units=UNITS, payload=PAYLOAD, route=1, cpa=CPA):
        yield again(authority(dirt=True, **way).s, 0, authority(**way).s)
    for way in choices(route=1, **MEMBER):
        yield again(lookup(path=2, dirt=True, **way).s, 0, lookup(path=2, **way).s)
    yield "# ACK: the flags may be there with N clear, and the message keeps them"
    for flags in (None, 0, 1):
        yield again(ack(flags, dirt=True).s, 0, ack(flags).s)
    yield "# padding after opaque contents of 0 to 4 bytes, counted from the start of the datagram"
    for n in range(5):
        yield again(flood(token=ramp(1, n), revoke=ramp(9, 5 - n), dirt=True).s, 0, flood(token=ramp(1, n), revoke=ramp(9, 5 - n)).s)
        way = {"chain": ramp(1, n), "token": ramp(17, (n + 1) % 4), "units": UNITS[:n % 4], "payload": ramp(33, (n + 2) % 5), "cpa": ramp(49, n)}
        yield again(authority(dirt=True, **way).s, 0, authority(**way).s)
    yield "# no padding after a path with an odd count, a credential, a signature"
    for path in (1, 2):
        for n in (0, 1, 3):
            yield again(lookup(path=path, credential=ramp(1, n), signature=ramp(17, n), identifier=ramp(33, n)).s, 0)
    yield "# flags: each bit with a name alone, all bits without one, all bits"
    for d, at, named in ((flood(revoke=b"").s, 16, 0x0001), (inquire().s, 16, 0x001C), (authority().s, 32, 0x0209), (ack(0).s, 24, 0x0001),
                         (lookup().s, 16, 0x0002)):
        alone = [1 << bit for bit in range(16) if named >> bit & 1]
        for on in alone + [0xFFFF & ~named] + [0xFFFF]:
            yield again(put(d, at, on.to_bytes(2, "big")), 0, put(d, at, (on & named).to_bytes(2, "big")))
    yield "# LOOKUP: criteria and precision, reason; precision is kept with criteria 8 alone"
    for criteria in (0, 1, 2, 4, 8):
        for precision in (0x0001, 0x8000):
            d = lookup(criteria=criteria).s
            yield again(put(d, 18, precision.to_bytes(2, "big")), 0, d if criteria != 8 else put(d, 18, precision.to_bytes(2, "big")))
    for reason in (0, 1, 2, 3):
        yield again(lookup(reason=reason).s, 0, lookup(reason=reason).s)


def counts():
    yield "# addresses 0 and 5, with the length that agrees and with that of 1 and 4"
    for kind in ("solicit", "flood", "authority", "lookup"):
        for count, like in ((0, 1), (5, 4), (2, 1), (3, 4), (255, 4))[:5 if kind == "flood" else 2]:
            d = LAYERS[kind](route=like)
            at = [at for number, at in d.fields if number == 0x009A][0]
            yield read(put(d.s, at + 41, bytes([count])), 6)
        for count in (0, 5):
            laid = LAYERS[kind](route=4)
            at = [at for number, at in laid.fields if number == 0x009A][0]
            old = 4 + 38 + 64 + 2
            new = b"\x00\x9A" + (42 + 16 * count).to_bytes(2, "big") + KEY + b"\x06\x65\x13\x88\x00" + bytes([count]) + ramp(1, 16 * count) + bytes(2)
            yield read(refit(kind, laid.s[:at] + new + laid.s[at + old:]), 6)
    yield "# a route entry too short to have a count"
    for length in (4, 41):
        for kind in ("flood", "lookup"):
            laid = LAYERS[kind](route=1)
            at = [at for number, at in laid.fields if number == 0x009A][0]
            short = (b"\x00\x9A" + length.to_bytes(2, "big") + laid.s[at + 4:at + length])
            yield read(laid.s[:at] + short + bytes(-len(short) % 4) + laid.s[at + 60:], 6)
    yield "# key lists: none, one, as many as a datagram has room for, and one more"
    for n, want in ((0, 0), (1, 0), (36, 0), (37, 2)):
        yield read(advertise(n).s, want)
    for n, want in ((0, 0), (1, 0), (37, 0), (38, 2)):
        yield read(request(n=n).s, want)
    yield again(advertise(36).s, 0, advertise(36).s)
    yield again(request(n=37).s, 0, request(n=37).s)
    yield "# endpoints: 0 and 23 are malformed, 1 and 22 are not"
    for n, want in ((1, 0), (22, 0), (23, 6)):
        yield read(flood(route=1, reached=n).s, want)
        yield read(flood(revoke=b"", reached=n).s, want)
        yield read(lookup(path=n).s, want)
    yield read(lookup(path=0).s, 6)
    none = bytes.fromhex("009E000C00000008009D0012")
    yield read(flood(route=1).s + none, 6)
    yield read(flood(revoke=b"").s + none, 6)
    yield again(flood(route=1, reached=22).s, 0, flood(route=1, reached=22).s)
    yield again(lookup(path=22).s, 0, lookup(path=22).s)
    yield "# classifiers: none, one, as many as a datagram has room for, and one more"
    for n, want in ((0, 0), (1, 0), (2, 0), (592, 0), (593, 2)):
        yield read(authority(units=[b"\0x"] * n).s, want)
    yield again(authority(units=[]).s, 0, authority(units=[]).s)
    yield again(authority(units=[b"\0x"]).s, 0, authority(units=[b"\0x"]).s)
    yield "# arrays: count, array length, type of entry, length of entry, the field's length, each one off"
    for kind, fields, number in (("advertise", {"n": 2}, 0x0060), ("flood", {"route": 1, "reached": 2}, 0x009E),
                                 ("authority", {"units": UNITS[:2]}, 0x0085), ("lookup", {"path": 2}, 0x009E)):
        laid = LAYERS[kind](**fields)
        at = [at for found, at in laid.fields if found == number][0]
        for place in (4, 6, 8, 10):
            old = int.from_bytes(laid.s[at + place:at + place + 2], "big")
            for new in (old - 1, old + 1) if kind != "advertise" else (old - 1, old + 1, old ^ 0x0100):
                yield read(put(laid.s, at + place, new.to_bytes(2, "big")), 6)
        for length in (4, 11) if kind == "advertise" else (11,):  # too short for the array's head
            yield read(refit(kind, laid.s[:at] + number.to_bytes(2, "big") + length.to_bytes(2, "big") + laid.s[at + 4:at + length]), 6)
    yield "# arrays whose lengths are right only modulo 65,536"
    for n, have in ((2048, 0), (2049, 1), (4096, 0), (0x7801, 1), (0x8000, 0), (0xF800, 0)):
        for kind in ("advertise", "request") if n < 4096 else ("advertise",):
            laid = LAYERS[kind](n=have)
            at = [at for found, at in laid.fields if found == 0x0060][0]
            assert (12 + 32 * n) % 65536 == 12 + 32 * have
            yield read(put(laid.s, at + 4, n.to_bytes(2, "big")), 6)
    for n, have in ((0x8000, 0), (0x8001, 1), (0x8002, 2)):
        assert (12 + 2 * n) % 65536 == 12 + 2 * have and (12 + 18 * n) % 65536 == 12 + 18 * have
        yield read(put(authority(units=UNITS[:have]).s, 40, n.to_bytes(2, "big")), 6)
        yield read(put(lookup(path=have).s, 100, n.to_bytes(2, "big")), 6)
        if have:
            yield read(put(flood(route=1, reached=have).s, 120, n.to_bytes(2, "big")), 6)
    yield "# the most that a count may be, with no room for it"
    for kind, at, size in (("advertise", 24, 32), ("request", 36, 32), ("authority", 40, 2)):
        d = LAYERS[kind](**({"units": []} if kind == "authority" else {"n": 0})).s
        for n in (0x7FFF, 0x8000, 0xFFFF):
            length, inner = (12 + size * n) % 65536, (8 + size * n) % 65536
            yield read(put(d, at - 2, length.to_bytes(2, "big") + n.to_bytes(2, "big") + inner.to_bytes(2, "big")), 6)


def wrong_fields():
    for kind, fields in FULL:
        yield "# %s with every optional field: each field's number and length one off" % kind.upper()
        laid = LAYERS[kind](**fields)
        padded = {"flood": (0x009F, 0x009C), "authority": (0x0080, 0x009F, 0x005A)}.get(kind, ())
        for number, at in laid.fields:
            if fields.get("revoke") and number != 0x009C:
                continue  # as with a route entry
            length = int.from_bytes(laid.s[at + 2:at + 4], "big")
            yield read(put(laid.s, at, (number ^ 0x0001).to_bytes(2, "big")), 6)
            for new in (length - 1, length + 1):
                d = put(laid.s, at + 2, new.to_bytes(2, "big"))
                # before padding, a length one off may move a byte between contents and padding: then the message is another, and good
                yield again(d) if number in padded else read(d, 6)
    yield "# the high byte of a number and of a length, a length below 4, and the longest: the first field and the last"
    for kind, fields in FULL:
        laid = LAYERS[kind](**fields)
        first, last = laid.fields[0][1], laid.fields[-1][1]
        yield read(put(laid.s, first, b"\x01"), 6)
        yield read(put(laid.s, last + 2, bytes([laid.s[last + 2] ^ 1])), 6)
        yield read(put(laid.s, first + 2, b"\x00\x03"), 6)
        yield read(put(laid.s, last + 2, b"\xFF\xFF"), 6)
    yield read(put(ack().s, 14, bytes(2)), 6)
    yield "# opaque contents may be empty; a length of 3 is malformed"
    member = [(kind, name, number) for kind in ("request", "inquire", "lookup")
              for name, number in (("credential", 0x0080), ("signature", 0x00A5), ("identifier", 0x00A6))]
    for kind, name, number in member + [("flood", "token", 0x009F), ("flood", "revoke", 0x009C), ("authority", "chain", 0x0080),
                                        ("authority", "token", 0x009F), ("authority", "payload", 0x005A), ("authority", "cpa", 0x009B)]:
        more = {"route": 1} if (kind, name) == ("flood", "token") else {}
        laid = LAYERS[kind](**{name: b""}, **more)
        yield again(laid.s, 0, laid.s)
        if kind not in ("inquire", "lookup"):
            at = [at for found, at in laid.fields if found == number][0]
            yield read(put(laid.s, at + 2, b"\x00\x03"), 6)


def misplaced():
    yield "# bytes left over: one, and as many as padding would have"
    for kind, fields in FULL + BARE:
        d = LAYERS[kind](**fields).s
        yield read(refit(kind, d + bytes(1)), 6)
    for kind, d in (("ack", ack(1).s), ("lookup", lookup(path=1).s), ("lookup", lookup(credential=b"12").s), ("inquire", inquire(signature=b"12").s),
                    ("request", request(identifier=b"12").s), ("flood", flood(route=1, reached=1).s), ("authority", authority(cpa=b"12").s)):
        yield read(refit(kind, d + bytes(2)), 6)
    yield "# the last field twice"
    for kind, fields in FULL:
        laid = LAYERS[kind](**fields)
        yield read(refit(kind, laid.s + laid.s[laid.fields[-1][1]:]), 6)
    yield "# two fields in the wrong order, a field of another message"
    for kind, fields in FULL:
        laid = LAYERS[kind](**fields)
        places = [at for _, at in laid.fields] + [len(laid.s)]
        if len(places) > 2:
            a, b, c = places[-3:]
            yield read(refit(kind, laid.s[:a] + laid.s[b:c] + bytes(-(c - b) % 4) + laid.s[a:b]), 6)
    for kind, fields in BARE[2:6]:
        yield read(LAYERS[kind](**fields).s + bytes.fromhex("00440006") + bytes(2), 6)
    yield "# a mandatory field left out"
    for kind, fields in BARE:
        laid = LAYERS[kind](**fields)
        places = [at for _, at in laid.fields] + [len(laid.s)]
        for a, b in zip(places, places[1:]):
            d = laid.s[:a] + laid.s[b:]
            yield read(refit(kind, d) if len(d) >= 28 and a >= 28 else d, 6)
    yield "# padding left out, and running past the end"
    for cut in (1, 2):
        yield read(flood(route=1).s[:-cut], 6)
        yield read(sized(authority(route=1).s[:-cut]), 6)
        yield read(flood(revoke=b"12").s[:-cut], 6)
        yield read(sized(authority(payload=b"12").s[:-cut]), 6)
        yield read(sized(authority(units=UNITS[:1]).s[:-cut]), 6)
    yield read(solicit(1).s[:70] + solicit(1).s[72:], 6)
    yield read(lookup(route=1).s[:154] + lookup(route=1).s[156:], 6)
    yield "# FLOOD with both, the other way round too, and with neither"
    route = flood(route=1).s
    yield read(flood(revoke=REVOKE, route=1).s, 6)
    yield read(flood(revoke=b"", route=1).s, 6)
    yield read(route + bytes.fromhex("009C0004"), 6)
    yield read(route[:56], 6)
    yield read(flood(token=TOKEN).s, 6)
    yield read(flood(reached=1).s, 6)
    yield read(flood(revoke=b"").s + bytes.fromhex("009C0004"), 6)
    yield read(route + route[56:], 6)


def encrypted():
    yield "# encrypted forms are malformed: 00A1 at each place of a route entry, with its contents and with others"
    for kind in ("solicit", "flood", "authority", "lookup"):
        laid = LAYERS[kind](route=1)
        at = [at for number, at in laid.fields if number == 0x009A][0]
        yield read(put(laid.s, at, b"\x00\xA1"), 6)
        yield read(refit(kind, laid.s[:at] + bytes.fromhex("00A1000801020304") + laid.s[at + 60:]), 6)
    yield "# 00A2 at each place of a CPA"
    for d, at in ((flood(revoke=b"CPA5").s, 56), (flood(revoke=b"CPA5", reached=1).s, 56), (flood(token=TOKEN, revoke=b"CPA5").s, 68),
                  (authority(cpa=b"CPA5").s, 36), (authority(route=1, cpa=b"CPA5").s, 96)):
        assert d[at:at + 2] in (b"\x00\x9C", b"\x00\x9B")
        yield read(put(d, at, b"\x00\xA2"), 6)
    yield read(flood(route=1).s + bytes.fromhex("00A20004"), 6)
    yield "# 00A0, 00A3 and 00A4, which are found at no place of ours"
    yield read(put(flood(route=1, reached=1).s, 116, b"\x00\xA0"), 6)
    yield read(put(lookup().s, 96, b"\x00\xA0"), 6)
    yield read(put(authority(units=UNITS[:2]).s, 36, b"\x00\xA3"), 6)
    yield read(put(authority(payload=b"LOAD").s, 36, b"\x00\xA4"), 6)
    yield "# CPA and revoke CPA at each other's place"
    yield read(put(flood(revoke=b"CPA5").s, 56, b"\x00\x9B"), 6)
    yield read(put(authority(cpa=b"CPA5").s, 36, b"\x00\x9C"), 6)


def codes():
    yield "# LOOKUP: criteria and reasons that 000 does not name"
    for criteria in (3, 5, 6, 7, 9, 12, 16, 255):
        yield read(put(lookup().s, 20, bytes([criteria])), 6)
    for reason in (4, 8, 255):
        yield read(put(lookup().s, 21, bytes([reason])), 6)


def split():
    def controls(d, size, offset):
        return put(d, 24, size.to_bytes(2, "big") + offset.to_bytes(2, "big"))
    d = authority(chain=CHAIN, cpa=CPA).s
    whole = len(d) - 28
    yield "# AUTHORITY: whole, and in part by its size"
    yield read(controls(d, whole, 0), 0)
    for size in (0, whole - 1, whole + 1, whole + 0x0100, 1188, 0x91E4):
        yield read(controls(d, size, 0), 7)
    for size in (0x91E5, 0xFFFF):
        yield read(controls(d, size, 0), 6)
    yield "# by its offset: a multiple of 1,188"
    for offset in (1188, 2376, 36828, 55 * 1188):
        yield read(controls(d, whole, offset), 7)
    for offset in (1, 4, 1187, 1189, 0x0100, 55 * 1188 + 1, 0xFFFF):
        yield read(controls(d, whole, offset), 6)
    yield read(controls(d, 0x91E5, 1188), 6)
    yield read(controls(d, 0x91E4, 1188), 7)
    yield "# no bytes of a buffer: with size 0 it is whole and has no flags, else it is in part"
    yield read(controls(d[:28], 0, 0), 6)
    yield read(controls(d[:28], 8, 0), 7)
    yield read(controls(d[:28], 0, 1188), 7)
    yield "# in part, 6 looks only at the fields before the buffer's bytes"
    yield read(controls(put(d, 28, b"\xFF" * 4), whole + 1, 0), 7)
    yield read(controls(put(d, 28, b"\xFF" * 4), whole, 1188), 7)
    yield read(controls(put(d, 28, b"\xFF" * 4), whole, 0), 6)
    yield read(controls(d + b"\xFF" * 3, whole, 0), 7)
    yield read(put(controls(d, whole + 1, 0), 13, b"\x19"), 6)
    yield read(put(controls(d, whole + 1, 0), 15, b"\x09"), 6)
    yield read(put(controls(d, whole + 1, 0), 21, b"\x99"), 6)
    yield read(put(controls(d, whole + 1, 0), 23, b"\x07"), 6)
    yield "# REQUEST: the split controls tell the rest from the nonce on, and offset 0"
    for flags in (False, True):
        laid = request(flags=flags, split=True, n=2, **MEMBER)
        at = [at for number, at in laid.fields if number == 0x0098][0]
        rest = len(laid.s) - at - 8
        yield again(laid.s, 0, laid.s)
        wrong = [(rest - 1, 0), (rest + 1, 0), (0, 0), (rest + 8, 0), (len(laid.s), 0), (rest, 1), (rest, 1188), (rest ^ 0x0100, 0)]
        for size, offset in wrong if flags else wrong[:2]:
            yield read(put(laid.s, at + 4, size.to_bytes(2, "big") + offset.to_bytes(2, "big")), 6)
    swapped = request(split=True).s
    yield read(swapped[:12] + swapped[20:40] + swapped[12:20] + swapped[40:], 6)


def cut():
    yield "# every prefix of a datagram of each type with every optional field, and of some with fewer"
    for kind, fields in FULL:
        yield prefixes(LAYERS[kind](**fields).s)
    for d in (ack().s, solicit().s, flood(route=4).s, flood(revoke=b"").s, inquire(0x10, nonce=NONCE).s,
              inquire(credential=b"", signature=b"", identifier=b"").s, authority().s, authority(cpa=b"C").s, authority(route=1).s,
              request().s, lookup(path=22).s, lookup(credential=b"1").s):
        yield prefixes(d)


def vectors():
    """Headings as strings, vectors as (operands, answer)."""
    seen = set()  # no line twice
    for part in (headers, good, counts, wrong_fields, misplaced, encrypted, codes, split, cut):
        for v in part():
            if isinstance(v, str):
                yield v
            elif v[0] not in seen:
                assert len(v[0][2]) < LONGEST
                seen.add(v[0])
                yield v


def check():
    assert len(DUMP) == 1728 and DUMP[980:984] == b"\x00\x9F\x00\x84"
    assert DUMP[1112:1116] == b"\x00\xA4\x00\xB4" and DUMP[1292:1296] == b"\x00\xA2\x01\xB4"
    assert list(whole_dump())[1][1] == "2" and [model.read(DUMP[:n], 6)[0] for n in (1232, 1233)] == [6, 2]
    assert list(vectors())  # each `want` is compared on the way
    lengths = {"solicit": 36, "advertise": 56, "request": 44, "inquire": 56, "authority": 36, "ack": 20, "lookup": 126}
    for kind, length in lengths.items():
        assert len(LAYERS[kind](**dict(BARE)[kind]).s) == length, kind
    assert len(flood(route=1).s) == 116 and len(flood(revoke=b"").s) == 60
    assert coded([2] * 12 + [6, 6, 0]) == "12x2 2x6 1x0"
    assert prefixes(ack(1).s)[1] == "12x2 8x6 1x0 5x6 1x0" and prefixes(authority().s)[1] == "12x2 16x6 8x7 1x0"


if __name__ == "__main__":
    check()
    lines = [v for v in vectors() if not isinstance(v, str)]
    names = ("read", "again", "prefixes")
    print("vector_messages: %d vectors, %s" % (len(lines), ", ".join("%d %s" % (sum(v[0][0] == name for v in lines), name) for name in names)))
    print("answers of read: " + ", ".join("%s %d times" % (n, sum(v[0][0] == "read" and v[1].split()[0] == n for v in lines)) for n in "0234567"))
