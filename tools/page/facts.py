"""What the plain lines of a night say (bin/shown --plain), gathered for a page (__init__.py): counts, the ponds with their stories, LOOKUPs, neighbours.

The lines are read twice (tools/plain.py): once for all this, once more, record by record, for the list of the records. So a long night needs no memory for
each record.
"""
import collections
import re

import plain

from . import limits

KEY = re.compile(r"[0-9a-f]{64}")


def moment(record):
    """Its number, and when it was: the second, and its own hour where that is known."""
    return record.number, (record.second, record.ms())


# --- A pond ------------------------------------------------------------------------------------------------------------------

class Events:
    """The first and the last of many."""

    def __init__(self, few):
        self.few, self.first, self.last, self.count = few, [], collections.deque(maxlen=few), 0

    def add(self, event):
        self.count += 1
        (self.first if len(self.first) < self.few else self.last).append(event)

    def left_out(self):
        return self.count - len(self.first) - len(self.last)


class Pond:
    """A key that a gauge told of in this night, and its story."""

    def __init__(self, key):
        self.key, self.place = key, int(key, 16)
        self.story, self.counts = Events(limits.FEW_EVENTS), collections.Counter()
        self.heard = self.answered = self.joined = self.left = self.revoked = None
        self.reading = self.unread = None  # the last that was taken, and one behind it that was refused

    def tell(self, record, word, *more):
        self.story.add((*moment(record), word, *more))


class Night:
    """All of it but the list of records."""

    def __init__(self, lines):
        self.opened = self.own = self.end = self.unfit = None
        self.records = self.calls = self.seconds = self.held = 0
        self.answers, self.kinds, self.ponds = collections.Counter(), collections.Counter(), {}
        self.below, self.above, self.changes, self.lefts = [], [], Events(limits.FEW_CHANGES), Events(limits.FEW_CHANGES)
        self.lookups, self.lookup_count = [], 0
        self.refusals = Events(limits.FEW_REFUSED)
        self.first_hour = self.last_hour = None
        self.set_back = 0  # how often an hour is before the one before it
        self.hour_at, self.with_rows, self.others = {}, 0, Events(limits.FEW_OTHERS)
        self.inquiries, self.waiting = {}, {}  # whom each INQUIRE was about; of what waits, by its ID, what and whom
        self.by_second = collections.defaultdict(collections.Counter)
        for item in plain.walked(lines):
            self.take(item)
        if self.opened:
            self.own = self.opened[3]
            self.pond(self.own)

    def take(self, item):
        if isinstance(item, plain.Record):
            self.record(item)
        elif item[0] == "opened":
            self.opened = item
        elif item[0] == "hour":
            self.at_hour(plain.Hour(item), 0)
        else:
            self.end, self.unfit = item[1], plain.unfit_of(item)

    def pond(self, key):
        if not KEY.fullmatch(key):
            raise plain.Wrong("%r is no key" % key)
        if key not in self.ponds:
            self.ponds[key] = Pond(key)
        return self.ponds[key]

    def record(self, r):
        self.records += 1
        self.calls += not r.is_bad()
        self.seconds = r.second
        self.answers[int(r.answer[0])] += 1
        self.kinds[r.what[0]] += 1
        second = self.by_second[r.second]
        second["records"] += 1
        second[{"receive": "received"}.get(r.what[0], r.what[0])] += 1
        if not r.taken and not r.is_bad():
            second["refused"] += 1
            self.refusals.add(r)
        self.compared(r)
        if r.what[0] == "send":
            self.pond(r.what[2]).counts["to"] += r.taken
            self.pond(r.what[3])
        for fact in r.facts:
            second[fact[0]] += 1
            method = getattr(self, "fact_" + fact[0], None)
            if method:
                method(r, *fact[1:])

    def compared(self, r):
        """The answer made again, and the one of that night."""
        if r.hour is None:
            return
        self.with_rows += 1
        self.at_hour(r.hour, r.second)
        if r.is_other():
            self.others.add(r.number)

    def at_hour(self, hour, second):
        """The hours that are known: the first and the last, and the first of each second."""
        if hour.is_known():
            self.set_back += self.last_hour is not None and hour.ms < self.last_hour
            self.first_hour, self.last_hour = self.first_hour or hour.ms, hour.ms
            self.hour_at.setdefault(second, hour.ms)

    # --- Facts of a record, each by its word ---------------------------------------------------------------------------------

    def fact_about(self, r, key):
        self.is_heard(r, key)
        self.ponds[key].counts["about"] += 1

    def is_heard(self, r, key):
        pond = self.pond(key)
        if not pond.heard:
            pond.heard = moment(r)
            pond.tell(r, "heard", *r.what[1:3], r.answer[0])
        return pond

    def fact_revoking(self, r, key):
        pond = self.is_heard(r, key)
        if r.taken and not pond.revoked:
            pond.revoked = moment(r)
            pond.tell(r, "revoked", *r.what[1:3])

    def fact_sent(self, r, kind, number, key=None):
        if kind in ("FLOOD", "INQUIRE") and key:
            self.waiting[number] = (kind, key, moment(r))
        if kind == "INQUIRE" and key:
            self.inquiries[number] = key
            self.pond(key).counts["asked"] += 1
            self.ponds[key].tell(r, "asked", number, *r.what[1:3])

    def fact_again(self, r, number, kind, key):
        pond = self.pond(key)
        pond.counts["again " + kind] += 1
        if kind == "INQUIRE":
            pond.tell(r, "again", number)

    def fact_gaveup(self, r, number, kind, key):
        pond = self.pond(key)
        pond.counts["gaveup " + kind] += 1
        pond.tell(r, "gaveup", number, kind)
        self.waiting.pop(number, None)

    def fact_answers(self, r, number):
        """An AUTHORITY to an INQUIRE of ours that was not taken."""
        if r.what[1] == "AUTHORITY" and not r.taken and number in self.inquiries:
            pond = self.pond(self.inquiries[number])
            pond.counts["untaken"] += 1
            pond.tell(r, "untaken", r.what[2], number, r.answer[0])

    def fact_freed(self, r, number, kind, key):
        self.pond(key).counts["freed " + kind] += 1
        self.waiting.pop(number, None)

    def fact_answered(self, r, key, inquiry, at, kind, number):
        pond = self.pond(key)
        pond.counts["answered"] += 1
        pond.answered = moment(r)
        reading = r.one("reading")
        if reading and reading[0] == "refused":
            pond.unread = (*moment(r), reading)
        elif reading:
            pond.reading, pond.unread = (*moment(r), reading), None
        pond.tell(r, "answered", inquiry, at, kind, number, reading)
        self.waiting.pop(inquiry, None)

    def fact_joined(self, r, key):
        pond = self.pond(key)
        pond.joined, pond.left = moment(r), None
        pond.tell(r, "joined")

    def fact_left(self, r, key):
        pond = self.pond(key)
        why = self.why_left(r, key)
        self.lefts.add((*moment(r), key, why, pond.joined))
        pond.left = (*moment(r), why)
        pond.tell(r, "left", why)

    def why_left(self, r, key):
        """In words, by what the record was."""
        if ["revoking", key] in r.facts:
            return "removed: FLOOD %s revokes its key" % r.what[2]
        if r.what[:2] == ["receive", "ACK"]:
            return "removed: by ACK %s its key is not at its address" % r.what[2]
        if r.of("joined"):
            return "dropped: another pond took its place"
        return "removed: with record %d" % r.number

    def fact_held(self, r, count):
        self.held = int(count)

    def fact_below(self, r, *keys):
        self.side(r, "below", keys)

    def fact_above(self, r, *keys):
        self.side(r, "above", keys)

    def side(self, r, name, keys):
        setattr(self, name, [self.pond(key).key for key in keys])
        self.changes.add((*moment(r), name, list(keys)))

    def fact_named(self, r, key, port, address, distance, reason, *other):
        """A LOOKUP and the record that was named."""
        self.lookup_count += 1
        target = (r.one("for") or [None])[0]
        self.pond(key).counts["named"] += 1
        self.ponds[key].tell(r, "named", r.what[2], target, reason)
        if len(self.lookups) < limits.MOST_LOOKUPS:
            self.lookups.append({"when": moment(r), "id": r.what[2], "target": target, "key": key, "port": port, "address": address,
                                 "distance": distance, "reason": reason, "other": other, "asker": r.endpoint()})

    # --- What it comes to ----------------------------------------------------------------------------------------------------

    def state(self, pond):
        """What a pond was at the end: a word for its mark, and which place it had on its side."""
        if pond.key == self.own:
            return "own", 0
        for side, keys in (("below", self.below), ("above", self.above)):
            if pond.key in keys:
                return side, keys.index(pond.key) + 1
        if pond.joined and not pond.left:
            return "held", 0
        if pond.left:
            return "left", 0
        if pond.answered:
            return "unkept", 0
        return ("silent" if pond.counts["asked"] else "heard"), 0

    def ranked(self):
        """The ponds: first those that came closest to being held, of these first those that were told of first."""
        ranks = {"own": 0, "below": 1, "above": 1, "held": 2, "left": 3, "unkept": 4, "silent": 5, "heard": 6}
        return sorted(self.ponds.values(), key=lambda pond: ranks[self.state(pond)[0]])
