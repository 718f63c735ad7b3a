#!/usr/bin/env python3
"""What the program `shown` must write of a trace, by the model: whose night, a line for each record, what the gauge kept, how often each answer came.

    shown.py TRACE [NAMES [HOURS]]    the whole text; NAMES may be -
    shown.py --traces DIR     writes the traces of shown_traces.py into DIR: NAME.trace, NAME.names and NAME.hours where there are some, and NAME.wanted
    shown.py --hill-names     names for the ponds of examples/hill.c
    shown.py --write          writes crates/shown/stdin and crates/shown/stdout
    shown.py --check          compares the two files with what is said here

The answers and the state are those of tests/models/model_night.py and tests/models/model.py, which are made from the documents alone; what a datagram
is, is read by the model too, and what its call did is told by told.py, from the same models. The words are said here and in the program, each on its own.
"""
if not __debug__:
    raise SystemExit("shown.py: it asserts: run it without -O")
import datetime
import os
import sys

import with_models
import model
import model_night
import ponds
import shown_traces
import stored
import told

# 01, "What comes back", and 02, request 1, in the keeper's words.
MEANING = {
    0: "accepted",
    1: "the gauge's own record or memory is not as it must be",
    2: "shorter than 12 or longer than 1232 bytes",
    3: "no message of a gauge: it begins otherwise",
    4: "of another major version",
    5: "of an unknown type",
    6: "damaged: something in it is wrong, missing or too much",
    7: "not taken here: SOLICIT, ADVERTISE, REQUEST or a part of an AUTHORITY",
    8: "late or stray: nothing waits for it",
    9: "not trusted: its proof is missing or not good",
    10: "not trusted: its proof is for another key than asked about",
    11: "it speaks of this gauge's own key",
    12: "an INQUIRE for another's key, or a FLOOD with a key that is not held",
    13: "a message with the same ID is waiting already",
    14: "no place free: 16 messages are waiting already",
    15: "no room for what would have to be sent",
    16: "cut short, or not as long as such a record is",
    17: "of no known kind, or the opening record is missing or comes again"}
BAD_RECORD = (16, 17)  # these two end a replay; every other number is one that a call gave


# Document 02 has numbers up to 25. One that has no words here yet is told as such, so that it is neither lost nor taken for another.
def meaning(answer):
    return MEANING.get(answer, "a number of a later version")

GLOSSARY = """The messages of the gauges; the number behind one is its ID:
  FLOOD      tells where a gauge is, or that its key is revoked
  ACK        says that a FLOOD has come
  INQUIRE    asks a gauge to prove that a key is its own
  AUTHORITY  is that proof, or tells the gauge that a LOOKUP asked for
  LOOKUP     asks which gauge is closest to a key
  SOLICIT, ADVERTISE and REQUEST are for new gauges; this one does not take them
Keys go round: up from the largest comes the smallest, and down from the smallest the largest.
A tick is a second that has passed. A key without a name is shown by its first and last eight digits.

The second of a record is how many ticks there were up to it. A distance is how far two keys are apart, the shorter way round.

"""

HEADING = "%-6s  %6s  %-68s  %s\n" % ("Record", "Second", "What it was", "Answer")

AGAIN = "made again: the trace tells neither sender nor hour, nor what was answered that night\n"
COMPARED = "made again, and compared with those of that night\n"

OUT_OF_FORM = """
This gauge's own record, with which the trace opens, is not as a record must be. So every call is refused
with number 1, and the gauge has kept nothing: the trace was recorded wrongly, or is damaged.
"""


# --- Names -----------------------------------------------------------------------------------------------------------------

def names_of(text):
    """A line each: a key of 64 hexadecimal digits, a space, a name, of which 40 bytes are shown, no character in part. A key's first line counts."""
    names = {}
    for line in text[:65536].split(b"\n"):
        digits, name = line[:64], line[65:].split(b"\r")[0]
        if len(digits) == 64 and line[64:65] == b" " and all(c in b"0123456789abcdefABCDEF" for c in digits):
            names.setdefault(bytes.fromhex(digits.decode()), cut(name))
    return names


def cut(name):
    end = min(len(name), 40)
    while end < len(name) and name[end] & 0xC0 == 0x80:
        end -= 1
    return name[:end].decode()


# "A key without a name is shown as its first 8 hexadecimal digits, .., and the last 8."
def short(key):
    return key.hex()[:8] + ".." + key.hex()[-8:]


def whose(names, key):
    return names.get(key) or short(key)


# --- The records -----------------------------------------------------------------------------------------------------------

def message_text(names, m, verdict, key):
    text = "%s %d" % (m["type"].upper(), m["id"])
    if "acked" in m:
        text += " in answer to %d" % m["acked"]
    if m["type"] == "flood" and m["route"] is None:
        text += " revoking " + (whose(names, key) if verdict == 1 else "some key")
    if m.get("route") is not None:
        text += " about " + whose(names, m["route"]["key"])
    if m["type"] == "lookup":
        text += " for " + whose(names, m["target"])
    return text


def received_text(names, major, body):
    datagram = body[53:]
    number, m = model.read(datagram, major)
    if number == 7:
        text = "a part of an AUTHORITY"
    elif number != 0:
        text = "what cannot be read"
    else:
        text = message_text(names, m, body[4], body[5:37])
    return "received %s, %d bytes" % (text, len(datagram))


def sent_text(names, body, answer):
    verb = "sent FLOOD" if answer == 0 else "not sent: FLOOD"
    return "%s %d to %s about %s" % (verb, int.from_bytes(body[:4], "little"), whose(names, body[4:36]), whose(names, body[36:68]))


def line(number, second, what, answer):
    return "%6d  %6d  %-68s  %2d %s\n" % (number, second, what, answer, meaning(answer))


# The lines of the records behind the opening one: each that model_night.replay answers, beside what the record was; under it what its call did, and
# the second, by the lines of told.py.
def record_lines(names, data, answers, major, facts):
    at, lines = model_night.taken(data, 0)[2], []
    for n, answer in enumerate(answers, 1):
        what, kind = "a record that cannot be used", 0
        if answer not in BAD_RECORD:
            kind, body, at = model_night.taken(data, at)
            what = {1: lambda: received_text(names, major, body), 2: lambda: sent_text(names, body, answer), 3: lambda: "tick"}[kind]()
        first, *rest = facts[n]
        assert first.split()[1:4:2] == [str(n), str(answer)]
        lines.append(line(n, int(first.split()[2]), what, answer))
        for fact in rest:
            lines += [" " * 18 + text + "\n" for text in fact_texts(names, kind, first.split()[3:6], *fact.split(" "))]
    return "".join(lines)


# The lines of told.py, those of each record by themselves; the last line is left out.
def facts_of(lines):
    found = []
    for text in lines.split("\n")[:-2]:
        if text.startswith(("opened ", "record ")):
            found.append([])
        found[-1].append(text)
    return found


def hour(ms):
    """Milliseconds since 1970, or nothing for an hour that is not known."""
    if not 0 < ms < 253402300800000:  # the year 10000
        return ""
    return (datetime.datetime(1970, 1, 1) + datetime.timedelta(milliseconds=ms)).isoformat(" ", "milliseconds")


def endpoint_text(digits):
    return "[%s]:%d" % (":".join("%x" % int(digits[i:i + 4], 16) for i in range(4, 36, 4)), int(digits[:4], 16))


def hour_text(kind, answer, ms, endpoint, *given):
    text = "at %s " % hour(int(ms)) if hour(int(ms)) else ""
    if kind in (1, 2) and int(endpoint, 16):
        text += "%s %s " % ({1: "from", 2: "to"}[kind], endpoint_text(endpoint))
    return text + ("(as it was that night)" if list(given) == answer else "(OTHERWISE THAT NIGHT: answer %s, with %s and %s)" % given)


# Why a record was named, and how far it and the other one are.
def named_texts(names, key, port, address, far, reason, *other):
    texts = ["named " + whose(names, bytes.fromhex(key)), "  distance " + far]
    if not other:
        return texts + [{"only": "  no other could be named", "target": "  its key is the one asked for"}[reason]]
    why = {"tied": "as far away is %s, which is reached by going up", "nearest": "nearer than any other; the next is %s"}[reason]
    return texts + ["  " + why % whose(names, bytes.fromhex(other[0])), "  distance " + other[1]]


def reading_text(kind, number, *litres):
    if kind == "refused":
        return "reading refused: " + ponds.MEANING[int(number)]
    inflow, outflow = map(int, litres)
    measured = "depth %s m" % ponds.metres(ponds.binary32(int(number))) if kind == "depth" else "fault " + number
    return "reading: %s, %d litres in, %d out, balance %s%s" % (measured, inflow, outflow, ponds.signed(inflow - outflow), ponds.marked(inflow - outflow))


# What a fact is in words; those that the record's own line has, and those of the gauge's memory, have none.
def fact_texts(names, kind, answer, word, *rest):
    def of(key):
        return whose(names, bytes.fromhex(key))

    if word == "hour":
        return [hour_text(kind, answer, *rest)]
    if word == "named":
        return named_texts(names, *rest)
    if word == "answered":
        return ["answers for %s: INQUIRE %s, sent after %s %s of record %s" % (of(rest[0]), rest[1], rest[3], rest[4], rest[2])]
    if word == "reading":
        return [reading_text(*rest)]
    if word == "sent":
        return [] if rest[0] == "FLOOD" else ["sent %s %s" % rest[:2] + (" about " + of(rest[2]) if rest[2:] else "")]
    if word in ("again", "gaveup", "freed"):
        what = {"again": "listed again", "gaveup": "given up", "freed": "waits no longer"}[word]
        return ["%s: %s %s, %s" % (what, rest[1], rest[0], of(rest[2]))]
    if word in ("joined", "left"):
        return ["%s held: %s" % ({"joined": "now", "left": "no longer"}[word], of(rest[0]))]
    assert word in ("about", "for", "revoking", "answers", "held", "below", "above"), word
    return []


# --- The state -------------------------------------------------------------------------------------------------------------

def opening_text(names, night, facts):
    key = night.own[:32]
    text = "Night of  %s\nOwn key   %s\nVersions  major %d, minor %d\n" % (whose(names, key), short(key), night.major, night.minor)
    rows = [fact.split() for fact in facts[1:]]
    if rows and hour(int(rows[0][1])):
        text += "Opened    %s\n" % hour(int(rows[0][1]))
    text += "Answers   " + (AGAIN if not rows else COMPARED)
    return text + ("" if model.record_form(night.own) else OUT_OF_FORM) + "\n" + GLOSSARY


def held_text(names, records):
    text = "\nKeys held: %d of 64\n" % len(records)
    if records:
        text += "   Port  Addresses  Whose\n"
    for r in records:
        text += "%7d%11d  %s\n" % (model.value(r[32:34]), r[34], whose(names, r[:32]))
    return text


def side_text(names, side, keys):
    text = "\nNeighbours %s, nearest first: %d\n" % (side, len(keys))
    return text + "".join("  %s\n" % whose(names, k.to_bytes(32, "big")) for k in keys)


def waiting_text(names, places):
    text = "\nWaiting for an answer: %d of 16 places\n" % len(places)
    if places:
        text += "  Message ID  Tries left  What it was\n"
    for p in places:
        text += "%12d%12d  %s %s\n" % (p["id"], p["tries"], {1: "FLOOD sent to", 2: "INQUIRE about"}[p["kind"]], whose(names, p["key"]))
    return text


# Where the own record is out of form each call was refused, and nothing is held.
def state_text(names, night):
    records, places = model.State(night).records or [], model.State(night).places or []
    below, above = model.nearest(model.key_of(night.own), records)
    return ("\nAt the end of the night\n" + held_text(names, records) + side_text(names, "below, the next keys down", below)
            + side_text(names, "above, the next keys up", above) + waiting_text(names, places))


def totals_text(answers):
    refused = [a for a in answers if a != 0]
    text = "\nRecords   %8d\nAccepted  %8d\nRefused   %8d\n" % (len(answers), len(answers) - len(refused), len(refused))
    return text + "".join("%18d  %2d %s\n" % (refused.count(n), n, meaning(n)) for n in sorted(set(refused)))


# --- The whole -------------------------------------------------------------------------------------------------------------

STOPPED = "The replay stopped at this record. What follows it in the trace was not looked at.\n"
MIDDLE = "This night ends in the middle: it is not the whole night.\n"
NONE = "This night has no call that was accepted: it was refused from its first call on.\n"
NO_NIGHT = "The trace does not open with a gauge's own record, as a night must: there is no more to show.\n"


# How the answers compare with those of that night, as far as there are rows; and that the rows do not fit.
def compared_text(facts, last):
    given = [(fact[0].split()[3:6], fact[1].split()[3:]) for fact in facts[1:] if len(fact) > 1 and fact[1].startswith("hour ")]
    others = sum(answer != that_night for answer, that_night in given)
    text = ""
    if given:
        text = "Answers that are %sthose of that night: %d of %d\n" % ("not " if others else "", others or len(given), len(given))
    if "rows" in last:
        text += "The second file does not fit: it has %s good rows, and must have one for each record.\n" % last[-1]
    return text


def shown(data, names=b"", hours=b""):
    lines, night = model_night.replay(data)
    answers = [int(text.split()[1]) for text in lines]
    plain = told.told(data, hours)
    facts, last = facts_of(plain), plain.split("\n")[-2].split()
    if night is None:
        what = "a record that cannot be used" if data else "no record: the trace is empty"
        return HEADING + line(0, 0, what, answers[0]) + compared_text(facts, last) + NO_NIGHT
    known = names_of(names)
    text = opening_text(known, night, facts[0]) + HEADING + record_lines(known, data, answers, night.major, facts)
    stopped = answers and answers[-1] in BAD_RECORD
    if stopped:
        text += STOPPED
    text += state_text(known, night) + totals_text(answers) + compared_text(facts, last)
    return text + (MIDDLE if stopped else NONE if answers and 0 not in answers else "")


# --- Commands --------------------------------------------------------------------------------------------------------------

def write_traces(folder):
    for name, data, names, hours in shown_traces.all_traces():
        base = os.path.join(folder, name)
        for end, content in ((".trace", data), (".names", names), (".hours", hours), (".wanted", shown(data, names or b"", hours or b"").encode())):
            if content is not None:
                open(base + end, "wb").write(content)


def files():
    data = shown_traces.worked_trace()
    return {"stdin": data, "stdout": shown(data).encode()}


def main():
    words = sys.argv[1:]
    if words[:1] == ["--traces"]:
        write_traces(words[1])
    elif words == ["--hill-names"]:
        sys.stdout.buffer.write(shown_traces.hill_names())
    elif words == ["--write"]:
        stored.write("shown", files())
    elif words == ["--check"]:
        sys.exit("\n".join(stored.faults("shown", files(), "shown.py")) or 0)
    else:
        names, hours = [open(path, "rb").read() if path != "-" else b"" for path in (words[1:] + ["-", "-"])[:2]]
        sys.stdout.buffer.write(shown(open(words[0], "rb").read(), names, hours).encode())


if __name__ == "__main__":
    main()
