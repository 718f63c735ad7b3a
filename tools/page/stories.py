"""The ponds on a night's page, each with its story."""
from . import drawn
from .drawn import escaped
from .words import Whose, balance, count, meaning, measured, reading, some, terms


class Stories(Whose):
    """`ranked` has all ponds, those that matter most first; `told` those that are told of, round the ring."""
    ranked, told = (), ()

    def state_words(self, pond):
        state, nth = self.night.state(pond)
        words = {"own": "our own", "below": "neighbour below, place %d" % nth, "above": "neighbour above, place %d" % nth, "held": "held",
                 "unkept": "answered, not kept", "silent": "asked, never answered", "heard": "heard of, never asked"}
        if state == "silent" and pond.counts["untaken"]:
            return "asked, no answer was taken" + (", revoked" if pond.revoked else "")
        if state == "left":
            return pond.left[2].split(":")[0] + (", revoked" if pond.revoked else "")
        before = pond.revoked and pond.joined and pond.revoked[0] < pond.joined[0]
        return words[state] + (", revoked before" if before else ", revoked" if pond.revoked else "")

    def ponds(self):
        if not self.told:
            return ""
        more = self.more(len(self.ranked) - len(self.told), "more pond", "more ponds")
        return '<section id="ponds"><h2>The ponds</h2><p class="soft">Round the ring from the smallest key on, each with its story.</p>' \
               '<p class="search"><label>Search by name or key <input type="search" id="search" autocomplete="off"></label> ' \
               '<span id="found" role="status"></span></p>%s%s</section>' % ("".join(map(self.pond, self.told)), more)

    def pond(self, pond):
        state = self.night.state(pond)[0]
        last = ""
        if pond.reading:
            last = " · %s, %s" % (measured(pond.reading[2]), balance(pond.reading[2]))
        return '<details class="pond printed" data-key="%s"><summary><span class="who">%s%s</span><span class="is">%s%s</span></summary>' \
               '<div class="in" id="%s">%s%s</div></details>' % (
                   pond.key, drawn.mark(state), self.plain(pond.key), escaped(self.state_words(pond)), last, self.links[pond.key],
                   terms(self.pond_facts(pond)), self.story(pond))

    def pond_facts(self, pond):
        n = pond.counts
        rows = [("Key", '<span class="key">%s</span>' % pond.key)]
        if pond.heard:
            rows.append(("First heard of", self.when(*pond.heard) + ("; in %s in all" % some(n["about"], "message") if n["about"] else "")))
        if n["asked"]:
            more = [", %s %s" % (word, some(n[of], "time")) for word, of in (("listed again", "again INQUIRE"), ("given up", "gaveup INQUIRE")) if n[of]]
            rows.append(("Asked", some(n["asked"], "INQUIRE") + "".join(more)))
            answered = some(n["answered"], "time") + ", the last time with " + self.when(*pond.answered) if pond.answered else "never"
            answered += ", %s refused" % some(n["untaken"], "answer was", "answers were") if n["untaken"] else ""
            rows.append(("Answered", answered))
        if n["to"]:
            rows.append(("FLOODs to it", "%s, acknowledged %s, given up %s" % (count(n["to"]), count(n["freed FLOOD"]), count(n["gaveup FLOOD"]))))
        for word, told in (("Last reading", pond.reading), ("Behind it" if pond.reading else "Last reading", pond.unread)):
            if told:
                rows.append((word, "%s (%s)" % (reading(told[2]), self.when(*told[:2]))))
        if n["named"]:
            rows.append(("Named", "to %s" % some(n["named"], "LOOKUP")))
        return rows

    def story(self, pond):
        events = pond.story
        if not events.count:
            word = "Nothing else is told of it." if pond.key != self.night.own else "This is the gauge whose night it is."
            return '<p class="soft">%s</p>' % word
        items = list(map(self.event, events.first))
        if events.left_out():
            items.append('<li><span class="when"></span><span class="soft">%s between, not written out</span></li>' % some(events.left_out(), "event"))
        return '<ul class="story">%s</ul>' % "".join(items + list(map(self.event, events.last)))

    def event(self, event):
        return '<li><span class="when">%s</span><span>%s</span></li>' % (self.when(*event[:2]), getattr(self, "event_" + event[2])(*event[3:]))

    def event_heard(self, kind, number, answer):
        refused = "" if answer == "0" else ", which is refused: %s %s" % (escaped(answer), escaped(meaning(int(answer))))
        return "first heard of, by %s %s%s" % (escaped(kind), escaped(number), refused)

    def event_revoked(self, kind, number):
        return "<b>revoked</b> by %s %s" % (escaped(kind), escaped(number))

    def event_asked(self, number, *source):
        return "asked: INQUIRE %s%s" % (escaped(number), ", for %s %s" % tuple(map(escaped, source)) if len(source) == 2 else "")

    def event_again(self, number):
        return "INQUIRE %s listed, to be asked again" % escaped(number)

    def event_gaveup(self, number, kind):
        return "given up: %s %s was not answered" % (escaped(kind), escaped(number))

    def event_answered(self, inquiry, at, kind, number, words):
        return "<b>answered</b> INQUIRE %s, which came of %s %s, record %s%s" % (
            escaped(inquiry), escaped(kind), escaped(number), escaped(at), ": " + reading(words) if words else "")

    def event_untaken(self, number, inquiry, answer):
        return "<b>AUTHORITY %s</b> to INQUIRE %s is refused: %s %s" % (escaped(number), escaped(inquiry), escaped(answer), escaped(meaning(int(answer))))

    def event_joined(self):
        return "is held"

    def event_left(self, why):
        return "<b>%s</b>" % escaped(why)

    def event_named(self, number, target, reason):
        return "named to LOOKUP %s for %s" % (escaped(number), self.whose(target) if target else "a key")
