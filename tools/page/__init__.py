"""A recorded night as a page, one HTML file with nothing from elsewhere: bin/page comes here from tools/launch.py.

It reads no trace: every number is one of the plain lines (facts.py), or a count or difference of them. Whatever stands in the page is escaped
first, and the page itself allows no script but its own, by that script's sum. What is long is folded. Of a very long night a part is written out, and
how much more there is: bin/shown tells all of it.
"""
import base64
import hashlib
import os
import shutil
import tempfile

import plain
import replaced

from . import drawn, limits
from .drawn import escaped
from .facts import Night
from .records import Records
from .stories import Stories
from .words import balance, count, endpoint, litres, meaning, measured, place_of, reading, some, terms, utc

DAY = "%Y-%m-%d %H:%M:%S"
HERE = os.path.dirname(os.path.realpath(__file__))
ENDS = {
    "whole": (False, "This night is whole."),
    "middle": (True, "This night ends in the middle: its last record can’t be used, and what follows it was not looked at."),
    "refused": (True, "No call of this night was accepted: it was refused from its first call on."),
    "unopened": (True, "The trace does not open with a gauge’s own record: there is no night in it."),
}


class Wrong(Exception):
    """What the keeper is told before status 2."""


# --- The page ----------------------------------------------------------------------------------------------------------------

class Page(Records, Stories):
    """The parts of it, of a night whose lines can be read again."""

    def __init__(self, night, again, names, file):
        super().__init__(night, names, file)
        self.again, self.ranked = again, night.ranked()
        self.told = sorted(self.ranked[:limits.MOST_PONDS], key=lambda pond: pond.place)
        self.links = {pond.key: "p%d" % i for i, pond in enumerate(self.told)}

    def title(self):
        return "The night of %s" % self.name(self.night.own) if self.night.own else "A night that can’t be shown"

    # --- Its head ------------------------------------------------------------------------------------------------------------

    def head(self):
        night, lead = self.night, ""
        if night.opened:
            lead = '<p class="lead"><span class="key">%s</span><br>%s, versions %s and %s%s</p>' % (
                night.own, place_of(night.opened[4], night.opened[5]), night.opened[1], night.opened[2], self.hours())
        return "<header><h1>%s</h1>%s%s%s%s</header>" % (escaped(self.title()), lead, self.verdict(), self.figures(), self.nav())

    def hours(self):
        first, last = self.night.first_hour, self.night.last_hour
        back = "; the clock was set back %s" % some(self.night.set_back, "time") if self.night.set_back else ""
        return "<br>%s to %s UTC%s" % (utc(first, DAY), utc(last, DAY), back) if first else ""

    def verdict(self):
        bad, words = ENDS[self.night.end]
        other = self.others()
        bad = bad or other[0] or self.night.unfit is not None
        if self.night.unfit is not None:
            other = other[0], other[1] + " The second file does not fit: it has %s, which is not one for each record." % some(self.night.unfit, "row")
        return '<p class="verdict%s">%s%s</p>' % (" bad" if bad else "", words, other[1])

    def others(self):
        """Whether an answer is another than that night's, and a word on it."""
        night = self.night
        if not night.with_rows:
            return False, " The answers are made again; which were given that night is not recorded." if night.calls else ""
        if not night.others.count:
            if night.with_rows < night.calls:
                return False, " Of %s, %s could be compared: each of these is the one that was given that night." % (
                    some(night.calls, "answer"), count(night.with_rows))
            return False, " Each answer, made again, is the one that was given that night."
        shown = night.others.first + list(night.others.last)
        return True, " %s not the one that was given that night: record %s%s." % (
            "One answer is" if night.others.count == 1 else "%s answers are" % count(night.others.count), ", ".join(map(str, shown)),
            " and %s more" % count(night.others.left_out()) if night.others.left_out() else "")

    def figures(self):
        night = self.night
        rows = (("calls", night.calls), ("received", night.kinds["receive"]), ("FLOODs to send", night.kinds["send"]), ("ticks", night.kinds["tick"]),
                ("accepted", night.answers[0]), ("refused", night.refusals.count), ("LOOKUPs answered", night.lookup_count),
                ("ponds heard of", len(night.ponds) - 1 if night.own else 0), ("held at the end", night.held))
        return '<dl class="figures">%s</dl>' % "".join("<div><dt>%s</dt><dd>%s</dd></div>" % (word, count(n)) for word, n in rows)

    def nav(self):
        parts = (("ring", "The ring"), ("time", "Line of time"), ("answers", "Answers"), ("lookups", "LOOKUPs"), ("gone", "Who left"),
                 ("waiting", "Waiting"), ("water", "Water"), ("ponds", "Ponds"))
        there = [part for part in parts if self.told or part[0] not in ("ring", "ponds")]
        return "<nav>%s</nav>" % " ".join('<a href="#%s">%s</a>' % part for part in there)

    # --- The ring ------------------------------------------------------------------------------------------------------------

    def ring(self):
        night = self.night
        if not night.own:
            return ""
        ponds = self.ranked[:min(limits.MOST_DRAWN, limits.MOST_PONDS)]
        states = {night.state(pond)[0] for pond in ponds}
        picture = drawn.ring(night, ponds, self.label, self.state_words, self.links.get)
        undrawn = len(self.ranked) - len(ponds)
        more = '<p class="soft">%s not drawn.</p>' % some(undrawn, "more pond is", "more ponds are") if undrawn else ""
        return '<section id="ring"><h2>The ring of keys</h2><p class="soft">Each pond stands at the place of its key, as it was at the end of the night. ' \
               "A click on one leads to its story.</p>%s%s%s%s%s</section>" % (picture, drawn.legend(states), more, self.sides(), self.changes())

    def sides(self):
        return '<div class="sides">%s%s</div>' % (self.side("below", self.night.below), self.side("above", self.night.above))

    def side(self, name, keys):
        items = "".join("<li>%s</li>" % self.whose(key) for key in keys)
        return '<div><h3>%s%s</h3>%s</div>' % (drawn.mark(name), "Neighbours %s, nearest first" % name,
                                               '<ol class="side-%s">%s</ol>' % (name, items) if items else "<p>none</p>")

    def changes(self):
        changes = self.night.changes
        if not changes.count:
            return ""
        items = "".join('<li><span class="when">%s</span><span>%s: %s</span></li>' % (self.when(n, second), side, ", ".join(map(self.whose, keys)) or "none")
                        for n, second, side, keys in changes.first + list(changes.last))
        return '<details><summary>How the two lists came about: %s</summary><div class="in"><ul class="story">%s</ul>%s</div></details>' % (
            some(changes.count, "change"), items, self.more(changes.left_out(), "change in the middle", "changes in the middle"))

    # --- Answers, LOOKUPs, what is gone, water -------------------------------------------------------------------------------

    def answers(self):
        rows = "".join('<tr class="answer"><td class="r">%d<td>%s<td class="r">%s' % (number, escaped(meaning(number)), count(n))
                       for number, n in sorted(self.night.answers.items()))
        table = '<table class="numbers"><thead><tr><th class="r">Number<th>What it means<th class="r">How often</thead><tbody>%s</tbody></table>' % rows
        return '<section id="answers"><h2>The answers, and what was refused</h2>%s%s</section>' % (
            table if rows else "<p>No call, no answer.</p>", self.refusals())

    def lookups(self):
        night = self.night
        if not night.lookup_count:
            return '<section id="lookups"><h2>LOOKUPs</h2><p>No LOOKUP was accepted.</p></section>'
        said = list(map(self.lookup, night.lookups))
        first, others = "".join(said[:limits.OPEN_LOOKUPS]), said[limits.OPEN_LOOKUPS:]
        if others:
            first += '<details class="printed"><summary>%s more</summary><div class="in">%s</div></details>' % (count(len(others)), "".join(others))
        return '<section id="lookups"><h2>LOOKUPs</h2><p class="soft">Each asks which gauge is closest to a key. Our gauge names a record, for one ' \
               "reason.</p>%s%s</section>" % (first, self.more(night.lookup_count - len(said), "more LOOKUP", "more LOOKUPs"))

    def reason(self, lookup):
        other = self.whose(lookup["other"][0]) if lookup["other"] else ""
        return {"only": "it is the only candidate", "target": "it has the very key that was asked for",
                "tied": "it is tied with %s, at the same distance" % other, "nearest": "it is the nearest; the next nearest is %s" % other}[lookup["reason"]]

    def lookup(self, l):
        known = " (%s)" % self.whose(l["target"]) if l["target"] in self.links else ""
        rows = [("Asked for", '<span class="key">%s</span>%s' % (escaped(l["target"]), known)),
                ("Named", "%s at %s" % (self.whose(l["key"]), place_of(l["port"], l["address"]))), ("Why", self.reason(l)),
                ("Its distance", '<span class="key">%s</span>' % escaped(l["distance"]))]
        if l["other"]:
            rows.append(("The other’s", '<span class="key">%s</span>' % escaped(l["other"][1])))
        return '<div class="lookup"><p><b>LOOKUP %s</b>, %s%s</p>%s</div>' % (
            escaped(l["id"]), self.when(*l["when"]), " from " + endpoint(l["asker"]) if l["asker"] else "", terms(rows))

    def gone(self):
        lefts = self.night.lefts
        items = "".join('<tr class="left"><td>%s<td>%s<td>%s<td>%s' % (
            self.whose(key), self.when(n, second), "held since record %d" % joined[0] if joined else "", escaped(why))
            for n, second, key, why, joined in lefts.first + list(lefts.last))
        table = '<table><thead><tr><th>Pond<th>When<th>Until then<th>Why</thead><tbody>%s</tbody></table>' % items
        return '<section id="gone"><h2>Dropped or removed</h2>%s%s</section>' % (
            table if items else "<p>No pond was dropped or removed.</p>", self.more(lefts.left_out(), "more", "more"))

        every = [pond for pond in self.ranked if pond.reading]
    def waiting(self):
        waits = list(self.night.waiting.items())
        items = "".join('<li>%s %s %s %s, since %s</li>' % (kind, escaped(number), "to" if kind == "FLOOD" else "about", self.whose(key), self.when(*since))
                        for number, (kind, key, since) in waits[:limits.MOST_WAITING])
        return '<section id="waiting"><h2>Still waiting at the end</h2>%s%s</section>' % (
            "<ul>%s</ul>" % items if items else "<p>Nothing waited for an answer.</p>", self.more(len(waits) - limits.MOST_WAITING, "more", "more"))

    def water(self):
        every = [pond for pond in self.ranked if pond.reading or pond.unread]
        if not every:
            return '<section id="water"><h2>Water</h2><p>No reading came.</p></section>'
        taken, told = [pond for pond in every if pond.reading], [pond for pond in self.told if pond.reading or pond.unread]
        head = '<thead><tr><th>Pond<th>Depth or fault<th class="r">Litres in<th class="r">Litres out<th class="r">Balance</thead>'
        return '<section id="water"><h2>Water</h2><p>The last reading of each pond that sent one.</p>%s' \
               '<details class="printed" open><summary>%s</summary><div class="in"><table class="water">%s<tbody>%s</tbody>%s</table>%s</div></details>' \
               "</section>" % (
                   self.deficits(taken), some(len(every), "pond"), head, "".join(map(self.water_row, told)), self.water_sums([pond.reading[2] for pond in taken]),
                   self.more(len(every) - len(told), "more pond", "more ponds"))

    def deficits(self, taken):
        """Whoever loses water is named first, the most first."""
        losing = sorted((pond for pond in taken if litres(pond.reading[2]) < 0), key=lambda pond: litres(pond.reading[2]))
        items = "".join("<li>%s: %s</li>" % (self.whose(pond.key), balance(pond.reading[2])) for pond in losing[:limits.MOST_DEFICITS])
        return "<p>%s of %s %s water%s</p>%s%s" % (
            count(len(losing)), count(len(taken)), "loses" if len(losing) == 1 else "lose", ":" if losing else ".",
            '<ul class="deficits">%s</ul>' % items if items else "", self.more(len(losing) - limits.MOST_DEFICITS, "more deficit", "more deficits"))

    def water_row(self, pond):
        state = self.night.state(pond)[0]
        who = self.whose(pond.key) + ("" if state in ("own", "below", "above", "held") else "<small>%s</small>" % escaped(self.state_words(pond)))
        unread = "<small>%s</small>" % self.unread(pond) if pond.unread else ""
        if not pond.reading:
            return "<tr><td>%s<td colspan=4>%s" % (who, self.unread(pond))
        words = pond.reading[2]
        return '<tr><td>%s<td>%s<small>%s</small>%s<td class="r">%s<td class="r">%s<td class="r">%s' % (
            who, measured(words), self.clock(pond.reading[1]), unread, words[2], words[3], balance(words))

    def unread(self, pond):
        return "%s (%s)" % (reading(pond.unread[2]), self.when(*pond.unread[:2]))

    def water_sums(self, taken):
        inflow, outflow = sum(int(words[2]) for words in taken), sum(int(words[3]) for words in taken)
        sums = '<tfoot><tr><td>%s<td><td class="r">%d<td class="r">%d<td class="r">%s</tfoot>'
        return sums % (some(len(taken), "pond"), inflow, outflow, balance(["", "", inflow, outflow])) if taken else ""

    # --- All of it -----------------------------------------------------------------------------------------------------------

    def pieces(self):
        style, script = content("page.css"), content("page.js")
        yield '<!doctype html><html lang="en"><head><meta charset="utf-8">' \
              "<meta http-equiv=\"Content-Security-Policy\" content=\"default-src 'none'; style-src '%s'; script-src '%s'; base-uri 'none'; " \
              "form-action 'none'\">" \
              '<meta name="viewport" content="width=device-width, initial-scale=1"><title>%s</title><style>%s</style></head><body><main>' % (
                  sum_of(style), sum_of(script), escaped(self.title()), style)
        yield self.head()
        yield self.ring()
        begin, folds, end = self.time()
        yield begin
        yield from folds
        yield end
        for part in (self.answers, self.lookups, self.gone, self.waiting, self.water, self.ponds):
            yield part()
        yield "<footer><p>Made of the lines that <code>bin/shown --plain</code> writes of this night. A key without a name is shown by its first and " \
              "last eight digits; keys go round, from the largest to the smallest.</p></footer></main><script>%s</script></body></html>\n" % script


def content(name):
    with open(os.path.join(HERE, name), encoding="utf-8") as file:
        return file.read()


def sum_of(text):
    return "sha256-" + base64.b64encode(hashlib.sha256(text.encode()).digest()).decode()


def pieces(lines, names, title):
    """The page, by pieces, of plain lines: a file that can be read from its begin again. `title` is how the keeper calls the night."""
    lines.seek(0)
    night = Night(lines)

    def again():
        lines.seek(0)
        return plain.walked(lines)

    return (piece.encode() for piece in Page(night, again, names, title).pieces())


def kept(pipe):
    """The lines in a file of their own, as they come from a pipe."""
    try:
        held = tempfile.TemporaryFile("w+", encoding="ascii", errors="replace", newline="\n")
        shutil.copyfileobj(pipe, held.buffer)
        held.seek(0)
        return held
    except OSError as error:
        raise Wrong("there is no room for the lines of the night: %s" % error.strerror)


def words_of(words):
    """The night, the names, and the file of the page; None for what is left out."""
    to, words = None, list(words)
    while words and words[0].startswith("-") and words[0] != "-":
        option = words.pop(0)
        if option == "--":
            break
        if option != "--to":
            raise Wrong("%s is no option" % option)
        if not words or to is not None:
            raise Wrong("--to wants the name of one file")
        to = words.pop(0)
    if not words:
        raise Wrong("give the night")
    if len(words) > 2:
        raise Wrong("too many words")
    return words[0], words[1] if len(words) > 1 and words[1] != "-" else None, to


def to_file(path, content):
    """Beside its place first: what stands there stays until the page is whole."""
    try:
        replaced.replace([(os.path.realpath(path), content)], ".making")
    except OSError as error:
        raise Wrong("%s can't be written: %s" % (path, error.strerror))
