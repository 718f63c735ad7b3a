"""The line of time on a night's page: the drawing, and below it each record, in folds."""
import plain

from . import drawn, limits
from .drawn import escaped
from .words import Whose, count, endpoint, meaning, reading, some, utc

UNITS = (1, 10, 60, 600, 3600, 36000, 360000, 3600000)  # seconds of a fold
GLOSSARY = (("FLOOD", "tells where a gauge is, or that its key is revoked"), ("ACK", "says that a FLOOD has come"),
            ("INQUIRE", "asks a gauge to prove that a key is its own"), ("AUTHORITY", "is that proof, or tells the gauge that a LOOKUP asked for"),
            ("LOOKUP", "asks which gauge is closest to a key"))


class Records(Whose):
    """`again` walks through the lines once more."""
    again = None

    def time(self):
        picture = drawn.time_line(self.night, lambda second: self.hour(second) or "second %d" % second)
        words = "A tick is a second that has passed." if self.night.seconds else "No tick was accepted in this night: all of it is second 0."
        return ('<section id="time"><h2>The line of time</h2><p class="soft">%s Below, each record: what came or was to be done, what the gauge sent for it, '
                "and its answer.</p>%s%s<h3>The records</h3>" % (words, picture, self.glossary()), self.folds(), "</section>")

    def glossary(self):
        return '<details><summary>The messages of the gauges</summary><dl class="facts in">%s</dl></details>' % "".join(
            "<dt>%s</dt><dd>%s</dd>" % row for row in GLOSSARY)

    def unit(self):
        """Seconds of a fold."""
        for unit in UNITS:
            if self.night.seconds // unit < limits.FOLDS:
                return unit
        return UNITS[-1] * 10

    def folds(self):
        """The records, in stretches of time; of a long night the first ones of each."""
        night, unit, folds = self.night, self.unit(), {}
        for second, counts in night.by_second.items():
            fold = folds.setdefault(second // unit, [0, 0])
            fold[0] += counts["records"]
            fold[1] += counts["refused"]
        most = night.records if night.records <= limits.MOST_ROWS else max(1, limits.MOST_ROWS // max(1, len(folds)))
        at, written = None, 0
        for r in self.again():
            if not isinstance(r, plain.Record):
                continue
            if r.second // unit != at:
                if at is not None:
                    yield self.fold_end(folds[at][0] - written)
                at, written = r.second // unit, 0
                yield self.fold_begin(at, unit, *folds[at])
            elif written and written < most and written % limits.FOLD_ROWS == 0:
                yield self.fold_end(0) + '<details class="fold on"><summary>.. from record %d on</summary>%s' % (r.number, self.table_begin())
            if written < most:
                written += 1
                yield self.row(r)
        if at is not None:
            yield self.fold_end(folds[at][0] - written)

    def fold_begin(self, at, unit, records, refused):
        hour = self.hour(at * unit)
        first, last = at * unit, min(at * unit + unit - 1, self.night.seconds)
        words = "Second %d" % first if first == last else "Seconds %d to %d" % (first, last)
        return '<details class="fold"><summary>%s%s: %s%s</summary>%s' % (
            words, ", from %s" % hour if hour else "", some(records, "record"), ", %s refused" % count(refused) if refused else "", self.table_begin())

    def refusals(self):
        """The records that were refused, by themselves, each with the reason."""
        refused = self.night.refusals
        if not refused.count:
            return ""
        return '<details class="printed"><summary>What was refused, each with its reason: %s</summary>%s%s%s' % (
            some(refused.count, "record"), self.table_begin("refusals"), "".join(map(self.row, refused.first + list(refused.last))),
            self.table_end(refused.left_out(), "refused record in the middle", "refused records in the middle"))

    def table_begin(self, name="records"):
        return '<div class="in"><table class="rows %s"><thead><tr><th>Record<th>%s<th>What it was<th>Answer</thead><tbody>' % (
            name, "Hour" if self.night.with_rows else "Second")

    def table_end(self, left_out, one, more):
        return "</tbody></table>%s</div></details>" % self.more(left_out, one, more)

    def fold_end(self, left_out):
        return self.table_end(left_out, "more record of this stretch", "more records of this stretch")

    def row(self, r):
        small, who = self.done(r), r.endpoint()
        when = utc(r.ms()) if r.ms() else "%d s" % r.second
        what = self.what(r) + (" %s %s" % ("to" if r.what[0] == "send" else "from", endpoint(who)) if who else "")
        answer = "0 accepted" if r.taken else '<span class="refusal">%s %s</span>' % (r.answer[0], escaped(meaning(int(r.answer[0]))))
        if r.is_other():
            answer += "<small>another than that night’s, %s with %s and %s bytes</small>" % tuple(map(escaped, r.hour.answer))
        return '<tr><td class="no">%d<td class="no">%s<td>%s%s<td>%s' % (r.number, when, what, "<small>%s</small>" % small if small else "", answer)

    def what(self, r):
        kind = r.what[0]
        if kind == "tick":
            return "tick"
        if kind == "bad":
            return "a record that can’t be used"
        if kind == "send":
            word = "FLOOD" if r.taken else "not sent: FLOOD"
            return "%s %s to %s about %s" % (word, escaped(r.what[1]), self.whose(r.what[2]), self.whose(r.what[3]))
        said = {"part": "a part of an AUTHORITY", "unread": "what can’t be read"}.get(r.what[1], "%s %s" % (escaped(r.what[1]), escaped(r.what[2])))
        of = {"about": lambda key: " about " + self.whose(key), "for": lambda key: " for " + self.whose(key),
              "revoking": lambda key: " revoking " + self.whose(key), "answers": lambda number: " in answer to " + escaped(number)}
        return "%s%s, %s bytes" % (said, "".join(of[fact[0]](fact[1]) for fact in r.facts if fact[0] in of), escaped(r.what[3]))

    def done(self, r):
        """What a call did, one thing behind the other."""
        said = []
        for fact in r.facts:
            method = getattr(self, "done_" + fact[0], None)
            if method:
                said.append(method(*fact[1:]))
        return "; ".join(word for word in said if word)

    def done_named(self, key, port, address, distance, reason, *other):
        return "names %s" % self.whose(key)

    def done_answered(self, key, inquiry, at, kind, number):
        return "%s answered INQUIRE %s, which came of %s %s, record %s" % (self.whose(key), escaped(inquiry), escaped(kind), escaped(number), escaped(at))

    def done_reading(self, *words):
        return reading(words)

    def done_sent(self, kind, number, key=None):
        return "" if kind == "FLOOD" else "sent %s %s%s" % (escaped(kind), escaped(number), " about " + self.whose(key) if key else "")

    def done_again(self, number, kind, key):
        return "again %s %s %s %s" % (escaped(kind), escaped(number), "to" if kind == "FLOOD" else "about", self.whose(key))

    def done_gaveup(self, number, kind, key):
        return "given up: %s %s %s %s" % (escaped(kind), escaped(number), "to" if kind == "FLOOD" else "about", self.whose(key))

    def done_freed(self, number, kind, key):
        return "%s %s %s waits no more" % (escaped(kind), escaped(number), ("to " if kind == "FLOOD" else "about ") + self.whose(key))

    def done_joined(self, key):
        return "%s joined" % self.whose(key)

    def done_left(self, key):
        return "%s is held no more" % self.whose(key)

    def done_held(self, n):
        return "%s held" % escaped(n)

    def done_below(self, *keys):
        return "the neighbours below have changed"

    def done_above(self, *keys):
        return "the neighbours above have changed"
