#!/usr/bin/env python3
"""What the program `told` must write of a trace and its second file, by the model: plain lines, one fact each.

    told.py TRACE [HOURS]     the whole text
    told.py --traces DIR      writes nights into DIR: NAME.trace, NAME.hours where there is a second file, and NAME.wanted
    told.py --write           writes crates/told/stdin and crates/told/stdout
    told.py --check           compares the two files with what is said here, and what is said here with lines worked by hand

The calls are made by tests/models/model.py, which is made from the documents alone; why a record is named is said by why.py, what a reading is by
ponds.py. What the gauge held and what waited is the model's before a call and after it.
"""
if not __debug__:
    raise SystemExit("told.py: run it without -O and PYTHONOPTIMIZE, which leave its asserts out")
import os
import struct
import sys

import with_models
import model
import model_night
import ponds
import shown_traces
import stored
import why


# --- A record and what its call did -----------------------------------------------------------------------------------------

def kept(night):
    """The records held and the places that wait; none where the own record is out of form."""
    state = model.State(night)
    return state.records or [], state.places or []


# 02, request 5: the record named for a LOOKUP, how far it is, the reason, and the other candidate with its distance where the reason has one.
def named(night, m):
    records, _ = kept(night)
    target = model.value(m["target"])
    there = {model.key_of(r): r for r in [night.own] + [r for r in records if r[32:34] + r[36:52] not in m["path"]]}
    ranked = sorted(there, key=lambda k: why.distance(target, k))
    r, reason = there[ranked[0]], why.reason(target, ranked)
    line = "named %s %d %s %064x %s" % (r[:32].hex(), model.value(r[32:34]), r[36:52].hex(), why.distance(target, ranked[0])[0], reason)
    return line + (" %064x" % why.distance(target, ranked[1])[0] if " " in reason else "")


# 02, request 7: the reading that is an AUTHORITY's payload.
def reading(payload):
    number, _ = ponds.unpacked(payload)
    if number:
        return "reading refused %d" % number
    if struct.unpack_from("<H", payload, 2)[0] == 1:
        return "reading depth %d %d %d" % struct.unpack_from("<III", payload, 4)
    return "reading fault %d %d %d" % struct.unpack_from("<HII", payload, 4)


def place_line(word, p):
    return "%s %d %s %s" % (word, p["id"], {1: "FLOOD", 2: "INQUIRE"}[p["kind"]], p["key"].hex())


# What a message says, whatever its answer is.
def said(m, body):
    lines = []
    if m.get("route") is not None:
        lines.append("about " + m["route"]["key"].hex())
    if m["type"] == "lookup":
        lines.append("for " + m["target"].hex())
    if m["type"] == "flood" and m["route"] is None and body[4] == 1:
        lines.append("revoking " + body[5:37].hex())
    if "acked" in m:
        lines.append("answers %d" % m["acked"])
    return lines


class Told:
    """The lines of a night, as its records come."""

    def __init__(self, hours):
        self.lines, self.night, self.origins, self.count, self.seconds, self.accepted = [], None, {}, 0, 0, 0
        self.rows, self.odd = [], False
        for at in range(0, len(hours), 40):
            row = hours[at:at + 40]
            if len(row) < 40 or any(row[38:]):
                self.odd = True
                break
            self.rows.append(row)

    def hour(self):
        if self.count < len(self.rows):
            row = self.rows[self.count]
            self.lines.append("hour %d %s %d %d %d" % (struct.unpack("<Q", row[:8]) + (row[8:26].hex(),) + struct.unpack("<III", row[26:38])))

    def opened(self, body):
        self.night = model_night.Night(body)
        own = body[2:]
        self.lines.append("opened %d %d %s %d %s" % (body[0], body[1], own[:32].hex(), model.value(own[32:34]), own[36:52].hex()))
        self.hour()
        self.count += 1

    def bad(self, number, there=True):
        self.lines.append("record %d %d %d 0 0 bad" % (self.count, self.seconds, number))
        if there:
            self.hour()
            self.count += 1

    def call(self, kind, body):
        records, places = kept(self.night)
        number, m = model.read(body[53:], self.night.major) if kind == 1 else (None, None)
        named_line = named(self.night, m) if m and m["type"] == "lookup" and model.own_records(self.night.own) else None
        answer = self.night.whole(kind, body)
        if answer[0] == 0:
            self.accepted += 1
            self.seconds += kind == 3
        what = {1: lambda: "receive %s %d %d" % (m["type"].upper() if m else "part" if number == 7 else "unread", m["id"] if m else 0, len(body) - 53),
                2: lambda: "send %d %s %s" % (int.from_bytes(body[:4], "little"), body[4:36].hex(), body[36:68].hex()), 3: lambda: "tick"}[kind]()
        self.lines.append("record %d %d %d %d %d %s" % ((self.count, self.seconds) + answer[:3] + (what,)))
        self.hour()
        if m:
            self.lines += said(m, body)
        if answer[0] == 0:
            self.done(kind, body, m, answer, named_line, records, places)
        self.count += 1

    # What an accepted call did: named, answered, sent, listed, and what is other than before.
    def done(self, kind, body, m, answer, named_line, records, places):
        after, waiting = kept(self.night)
        if named_line:
            self.lines.append(named_line)
        if m and m["type"] == "authority":
            asked = model.waiting_id(places, 2, m["acked"])[0]
            self.lines.append("answered %s %d %d %s %d" % ((asked["key"].hex(), m["acked"]) + self.origins[m["acked"]]))
            if m["payload"] is not None:
                self.lines.append(reading(m["payload"]))
        if kind == 3:
            self.lines += [place_line("again", p) for p in places if p["tries"] > 0] + [place_line("gaveup", p) for p in places if p["tries"] == 0]
        else:
            self.sent(body, m, answer)
        if m and m["type"] in ("ack", "flood"):
            left = {p["id"] for p in waiting}
            self.lines += [place_line("freed", p) for p in places if p["id"] not in left]
        self.held(records, after)

    def sent(self, body, m, answer):
        _, first, second, output = answer
        for datagram in (output[:first], output[first:first + second]):
            if not datagram:
                continue
            number, out = model.read(datagram, self.night.major)
            assert number == 0
            about = {"inquire": lambda: " " + out["validate"].hex(), "flood": lambda: " " + body[4:36].hex()}.get(out["type"], lambda: "")()
            self.lines.append("sent %s %d%s" % (out["type"].upper(), out["id"], about))
            if out["type"] == "inquire":
                self.origins[out["id"]] = (self.count, m["type"].upper(), m["id"])

    def held(self, records, after):
        before, now = [r[:32].hex() for r in records], [r[:32].hex() for r in after]
        changed = ["joined " + k for k in now if k not in before] + ["left " + k for k in before if k not in now]
        self.lines += changed + (["held %d" % len(now)] if changed else [])
        own = model.key_of(self.night.own)
        for word, old, new in zip(("below", "above"), model.nearest(own, records), model.nearest(own, after)):
            if old != new:
                self.lines.append(word + "".join(" %064x" % k for k in new))

    def end(self, how):
        fits = not self.odd and len(self.rows) in (0, self.count)
        self.lines.append("end " + how + ("" if fits else " rows %d" % len(self.rows)))
        return "".join(line + "\n" for line in self.lines)


def told(data, hours=b""):
    """The whole text."""
    t, at = Told(hours), 0
    while at < len(data):
        record = model_night.taken(data, at)
        number = 16 if record is None else model_night.fault(record[0], record[1], t.night is not None)
        if number:
            t.bad(number)
            return t.end("unopened" if t.night is None else "middle")
        kind, body, at = record
        if t.night is None:
            t.opened(body)
        else:
            t.call(kind, body)
    if t.night is None:
        t.bad(17, False)
        return t.end("unopened")
    return t.end("refused" if t.count > 1 and not t.accepted else "whole")


# --- Commands --------------------------------------------------------------------------------------------------------------

# How often each word must stand in what is wanted of all nights, so that each is tried.
LEAST = {"opened": 40, "record": 4000, "hour": 1000, "about": 500, "for": 100, "revoking": 50, "answers": 300, "named": 100, "answered": 100, "reading": 20,
         "sent": 500, "again": 300, "gaveup": 100, "freed": 30, "joined": 200, "left": 20, "held": 200, "below": 50, "above": 50, "end": 60}
ENDS = (" only", " target", " tied ", " nearest ", "reading depth", "reading fault", "reading refused 1", "reading refused 2", "reading refused 3", " FLOOD ",
        " LOOKUP ", "end whole", "end middle", "end refused", "end unopened", " rows 0", " rows 3", "below\n", "gaveup", " part ", " unread ", " bad")


def nights():
    for name, data, _ in shown_traces.traces(0):
        yield name, data, None
    yield from shown_traces.hours_of_nights()


def write_traces(folder):
    words, whole = {}, []
    for name, data, hours in nights():
        wanted = told(data, hours or b"")
        whole.append(wanted)
        for line in wanted.split("\n")[:-1]:
            word = line.split(" ")[0]
            words[word] = words.get(word, 0) + 1
        for end, content in ((".trace", data), (".hours", hours), (".wanted", wanted.encode())):
            if content is not None:
                with open(os.path.join(folder, name + end), "wb") as file:
                    file.write(content)
    text = "".join(whole)
    few = [word for word, least in LEAST.items() if words.get(word, 0) < least] + [end for end in ENDS if end not in text]
    if few or set(words) - set(LEAST):
        sys.exit("told: too few of %s, or unknown words: %s" % (few, words))


def files():
    data = shown_traces.worked_trace()
    return {"stdin": data, "stdout": told(data).encode()}


def main():
    words = sys.argv[1:]
    if words[:1] == ["--traces"]:
        write_traces(words[1])
    elif words == ["--write"]:
        stored.write("told", files())
    elif words == ["--check"]:
        sys.exit("\n".join(stored.faults("told", files(), "told.py")) or 0)
    else:
        hours = open(words[1], "rb").read() if len(words) > 1 else b""
        sys.stdout.write(told(open(words[0], "rb").read(), hours))


if __name__ == "__main__":
    main()
