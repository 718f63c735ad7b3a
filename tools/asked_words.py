"""What tools/asked.py has found out about a pond, in sentences for a keeper and an auditor. Each tells where it stands: night, record, second, hour."""
import collections
import datetime

import plain

WHY_REFUSED = {"8": "it came too late: no inquiry waited for it any more", "9": "its proof was missing, or not judged good",
               "10": "its proof was judged good for another key"}
NO_READING = {"1": "its length is wrong", "2": "it is of no known kind", "3": "its depth is not from 0 to 20 m"}
JUDGED = ["  Whether a proof was good: an answer is taken where an inquiry for this key waits, and the host has judged the proof good for this key.",
          "  The trace has that verdict, and not what it rests on."]
NEVER = """  It was never heard of in these nights: no message had its record, none was sent to it, no LOOKUP asked for it or was answered with it."""
FEW = 4  # so many nights are named one by one


def times(n, what):
    return "%d %s" % (n, what if n == 1 else what + "s")


def often(n):
    return "once" if n == 1 else "%d times" % n


def in_words(items, last="and"):
    return items[0] if len(items) == 1 else "%s %s %s" % (", ".join(items[:-1]), last, items[-1])


def hour(ms):
    return (datetime.datetime(1970, 1, 1) + datetime.timedelta(milliseconds=int(ms))).isoformat(" ", "milliseconds")


def endpoint_text(endpoint):
    """As bin/shown has it: the address in its eight groups."""
    port, *groups = (int(endpoint[at:at + 4], 16) for at in range(0, 36, 4))
    return "[%s]:%d" % (":".join("%x" % group for group in groups), port)


def tick_text(moment):
    return "%d (second %d)" % (moment.record, moment.second)


class Words:
    """The sentences; `every` for each item and not only the first and the last."""

    def __init__(self, asked, names, every):
        self.asked, self.nights, self.names, self.every = asked, asked.nights, names, every
        self.pond = self.whose(asked.pond)
        ends = collections.Counter(n.path.split("/")[-1] for n in self.nights)
        self.labels = {n.number: n.path.split("/")[-1] if ends[n.path.split("/")[-1]] == 1 else n.path for n in self.nights}

    # --- Pieces of sentences ---------------------------------------------------------------------------------------------------

    def whose(self, key):
        return self.names.get(key) or "the pond with key " + key

    def gauge(self, moment):
        return "the gauge of " + self.whose(self.nights[moment.night - 1].own)

    def place(self, moment, night=True):
        text = "record %d (second %d%s)" % (moment.record, moment.second, "" if moment.ms == "-" else ", " + hour(moment.ms))
        return self.labels[moment.night] + ", " + text if night else text

    def sender(self, moment):
        if moment.endpoint == "-":
            return "from a sender that is not told"
        there = sorted(self.asked.where[moment.endpoint])
        who = in_words([self.whose(k) for k in there], "or") if there else "no pond"
        return "from %s, where these nights have %s" % (endpoint_text(moment.endpoint), who)

    def senders(self, facts):
        """Of more than two the senders of all, as not all are items."""
        if len(facts) < 3:
            return []
        count = collections.Counter(self.sender(f.moment) for f in self.in_order(facts))
        if len(count) == 1:
            return ["  All came %s." % list(count)[0]]
        return ["  They came %s." % "; ".join("%s (%d)" % pair for pair in count.items())]

    def in_nights(self, facts):
        return "in %d of %s" % (len({f.moment.night for f in facts}), times(len(self.nights), "night"))

    def listed(self, nights):
        labels = [self.labels[n.number] for n in nights]
        return in_words(labels if len(labels) <= FEW else labels[:FEW - 1] + ["%d more" % (len(labels) - FEW + 1)])

    def standing(self, held, side, number):
        if side == "own":
            return "It was the gauge's own pond; the gauge then held %s." % times(int(held), "record")
        return "The gauge then held %s; %s." % (times(int(held), "record"), self.in_list(side, number))

    @staticmethod
    def in_list(side, number):
        return "it was not in its neighbour list" if side == "none" else "it was number %s %s in its neighbour list" % (number, side)

    def why(self, distance, reason, other=None, others=None):
        if reason == "only":
            return "no other gauge could be named; its key is %s away" % distance
        if reason == "target":
            return "it has that very key"
        if reason == "tied":
            return "its key is %s away, and that of %s as far on the other side; going down from the key that was asked for one comes to it" % (
                distance, self.whose(other))
        return "its key is the nearest, %s away; the next is that of %s, %s away" % (distance, self.whose(other), others)

    # --- Items: the first and the last, or all ---------------------------------------------------------------------------------

    def in_order(self, facts):
        """By the hour where all have one, else as the nights were handed in."""
        timed = all(f.moment.ms != "-" for f in facts)
        return sorted(facts, key=lambda f: (int(f.moment.ms) if timed else 0, f.moment.night, f.moment.record))

    def items(self, facts, text):
        facts = self.in_order(facts)
        if self.every or len(facts) <= 2:
            return [line for f in facts for line in text(f)]
        return text(facts[0]) + ["  .. %d more between these (--all lists them)" % (len(facts) - 2)] + text(facts[-1])

    # --- Who answered ----------------------------------------------------------------------------------------------------------

    def who_answered(self):
        facts = self.asked.of("answered")
        if not facts:
            return ["  Nobody: no gauge of these nights took an answer for it."]
        return ["  An answer for it was taken %s, %s." % (often(len(facts)), self.in_nights(facts))] + self.senders(facts) + self.items(
            facts, self.answer)

    def answer(self, fact):
        authority, inquiry, record, kind, message, how, held, side, number, *reading = fact.values
        sent = next(f for f in self.nights[fact.moment.night - 1].of("inquired") if f.moment.record == int(record))
        lines = ["  %s: %s took AUTHORITY %s %s." % (self.place(fact.moment), self.gauge(fact.moment), authority, self.sender(fact.moment)),
                 "    It answers INQUIRE %s, sent with %s after %s %s %s." % (inquiry, self.place(sent.moment, False), kind, message,
                                                                         self.sender(sent.moment)),
                 "    " + self.reading(*reading),
                 "    " + {"joined": "", "kept": "It was held before, and its record is the new one now. ",
                           "dropped": "It was not kept: there was no room, and it was the farthest. "}[how] + self.standing(held, side, number)]
        return lines + self.proof(fact)

    @staticmethod
    def reading(kind, *values):
        if kind == "-":
            return "It carries no reading."
        if kind == "refused":
            return "What it carries is no reading: %s." % NO_READING.get(values[0], "number " + values[0])
        measure = "fault " + values[0]
        if kind == "depth":  # to the millimetre, as bin/ponds has it
            measure = "depth " + plain.metres(values[0])
        return "Its reading: %s, %s litres in, %s out." % (measure, values[1], values[2])

    def proof(self, fact):
        """Whether the pond's own night has the AUTHORITY."""
        if not self.own():
            return []
        proof = self.asked.proof_of(fact)
        if proof is None:
            return ["    Its own night does not have that AUTHORITY sent to that INQUIRE."]
        return ["    Its own night has it sent: %s, record %d." % (self.labels[proof.night], proof.record)]

    def own(self):
        return [n for n in self.nights if n.own == self.asked.pond]

    # --- To whom it was named --------------------------------------------------------------------------------------------------

    def to_whom_named(self):
        named, sought = self.asked.of("named"), self.asked.of("sought")
        lines = ["  To nobody: no LOOKUP of these nights was answered with it."]
        if named:
            lines = ["  It was named to %s, %s." % (times(len(named), "LOOKUP"), self.in_nights(named))] + self.senders(named) + self.items(
                named, self.naming)
        if sought:
            lines.append("  Its key was asked for and another was named: to %s, %s." % (times(len(sought), "LOOKUP"), self.in_nights(sought)))
            lines += self.senders(sought) + self.items(sought, self.seeking)
        return lines

    def naming(self, fact):
        lookup, target, held, side, number, *why = fact.values
        what = "its key" if target == self.asked.pond else "the key of " + self.names[target] if target in self.names else "key " + target
        return ["  %s: %s was asked for %s by LOOKUP %s %s." % (self.place(fact.moment), self.gauge(fact.moment), what, lookup,
                                                            self.sender(fact.moment)),
                "    It was named, as %s." % self.why(*why),
                "    " + self.standing(held, side, number)]

    def seeking(self, fact):
        lookup, key, *why = fact.values
        return ["  %s: %s named %s to LOOKUP %s %s, as %s." % (self.place(fact.moment), self.gauge(fact.moment), self.whose(key), lookup,
                                                        self.sender(fact.moment), self.why(*why))]

    # --- What was tried --------------------------------------------------------------------------------------------------------

    def what_was_tried(self):
        return self.heard() + self.inquiries() + self.refused() + self.floods() + self.revoked() + self.left() + self.proved() + self.at_the_end()

    def heard(self):
        nights = [n for n in self.nights if n.heard_at]
        if not nights:
            return []
        taken, refused = (sum(n.heard[i] for n in nights) for i in (0, 1))
        return ["  Its record came with %s, %sin %d of %s." % (times(taken + refused, "message"), "%d of them refused, " % refused if refused else "",
                                                            len(nights), times(len(self.nights), "night"))]

    def unanswered(self):
        """Inquiries without an answer: the fact, the ticks that listed it, and how it ended."""
        found = []
        for night in self.nights:
            waits = None
            for fact in night.of("inquired", "again", "gaveup", "freed", "answered"):
                if fact.word == "inquired":
                    waits = (fact, [])
                elif fact.word == "again":
                    waits[1].append(fact.moment)
                elif fact.word == "answered":
                    waits = None
                elif fact.word == "freed" or fact.values[1] == "INQUIRE":
                    found.append((*waits, fact))
                    waits = None
            if waits:
                found.append((*waits, None))
        return found

    def inquiries(self):
        sent = self.asked.of("inquired")
        if not sent:
            return []
        lost = {fact.moment: (ticks, end) for fact, ticks, end in self.unanswered()}
        lines = ["  INQUIREs about it: %d sent, %d answered, %d not." % (len(sent), len(sent) - len(lost), len(lost))]
        return lines + self.items([f for f in sent if f.moment in lost], lambda f: self.inquiry(f, *lost[f.moment]))

    def inquiry(self, fact, ticks, end):
        identity, kind, message = fact.values
        again = "not listed again"
        if ticks:
            again = "listed again with record%s %s" % ("" if len(ticks) == 1 else "s", in_words([tick_text(t) for t in ticks]))
        if end is None:
            last = "still waiting when the night ended"
        elif end.word == "freed":
            last = "let go with record %s, when the pond was revoked" % tick_text(end.moment)
        else:
            last = "given up with record %s" % tick_text(end.moment)
        return ["  %s: INQUIRE %s after %s %s %s; %s, %s." % (self.place(fact.moment), identity, kind, message, self.sender(fact.moment), again, last)]

    def refused(self):
        facts = self.asked.of("refused")
        return [] if not facts else ["  Answers to these that were not taken: %d." % len(facts)] + self.items(facts, self.refusal)

    def refusal(self, fact):
        number, authority, inquiry = fact.values
        return ["  %s: AUTHORITY %s to INQUIRE %s %s: %s." % (self.place(fact.moment), authority, inquiry, self.sender(fact.moment),
                                                       WHY_REFUSED.get(number, "number " + number))]

    def floods(self):
        sent, acked = self.asked.of("flooded"), self.asked.of("acked")
        lost = [f for f in self.asked.of("gaveup") if f.values[1] == "FLOOD"]
        if not sent:
            return []
        waiting = sum(list(n.places.values()).count("FLOOD") for n in self.nights)
        lines = ["  FLOODs sent to it: %d, of which %d were acknowledged, %d given up, and %d waited at the end." % (
            len(sent), len(acked), len(lost), waiting)]
        if acked:
            lines.append("  The last that was acknowledged: %s." % self.place(self.in_order(acked)[-1].moment))
        if lost:
            lines += ["  Given up:"] + self.items(lost, lambda f: ["  %s: FLOOD %s." % (self.place(f.moment), f.values[0])])
        return lines

    def revoked(self):
        facts = self.asked.of("revoked")
        return [] if not facts else ["  It was revoked by %s, %s." % (times(len(facts), "FLOOD"), self.in_nights(facts))] + self.items(
            facts, lambda f: ["  %s: FLOOD %s %s%s." % (self.place(f.moment), f.values[0], self.sender(f.moment),
                                                "" if f.values[1] == "0" else ", refused with number " + f.values[1])])

    def left(self):
        facts = self.asked.of("left")
        if not facts:
            return []
        return ["  It left the cache %s, %s." % (often(len(facts)), self.in_nights(facts))] + self.items(facts, self.leaving)

    def leaving(self, fact):
        held, why, *what = fact.values
        cause = {"revoked": lambda: "as it was revoked",
                 "denied": lambda: "as the ACK to FLOOD %s, %s, said that its key is not there" % (what[0], self.sender(fact.moment)),
                 "dropped": lambda: "dropped for want of room, when %s was learned" % self.whose(what[0])}[why]()
        return ["  %s: %s; %s held behind it." % (self.place(fact.moment), cause, times(int(held), "record"))]

    def proved(self):
        facts = self.asked.of("proved")
        return [] if not facts else ["  Its own night has %s that its gauge answered." % times(len(facts), "INQUIRE")] + self.items(
            facts, lambda f: ["  %s: INQUIRE %s %s, with AUTHORITY %s." % (self.place(f.moment), f.values[0], self.sender(f.moment), f.values[1])])

    def at_the_end(self):
        others = [n for n in self.nights if n.own and n.own != self.asked.pond]
        if not others:
            return []
        held = [n for n in others if n.ends()[0] == "held"]
        places = ["%s (number %s %s)" % (self.labels[n.number], n.ends()[3], n.ends()[2]) for n in held if n.ends()[2] != "none"]
        lists = "the neighbour list of " + in_words(places) if places else "no neighbour list"
        return ["  At the end it was held in %d of %s%s, and in %s." % (len(held), times(len(others), "night"), " of others" if self.own() else "", lists)]

    # --- What can't be told ----------------------------------------------------------------------------------------------------

    def untold(self):
        return self.unseen() + self.unsaid()

    def unseen(self):
        lines, bare = [], [n for n in self.nights if not n.rows]
        if bare:
            lines.append("  Hours and senders of %s, and whether its answers were these: no second file stands beside, or an empty one." % (
                self.listed(bare)))
        for night in self.nights:
            label = self.labels[night.number]
            if night.end == "middle":
                lines.append("  What came behind record %d of %s: the next one can't be used." % (night.calls, label))
            elif night.end == "refused":
                lines.append("  What the gauge of %s did: it was refused from its first call on." % label)
            elif night.end == "unopened":
                lines.append("  What night %s was: it does not open with a gauge's own record." % label)
            if night.differing:
                lines.append("  What the gauge of %s did from record %d on: its answer was another that night." % (label, night.first_differing))
            if night.unfit is not None:
                lines.append("  To which records the hours of %s belong: there are %d rows, and not one for each." % (label, night.unfit))
        return lines

    def unsaid(self):
        lines = []
        if not self.own():
            lines.append("  What the gauge of %s sent itself: its own night is not among these." % self.pond)
        for fact, _, end in self.unanswered():
            if end is None:
                lines.append("  Whether INQUIRE %s of %s was answered: it still waited when the night ended." % (
                    fact.values[0], self.labels[fact.moment.night]))
        if self.asked.of("answered"):
            lines += JUDGED
        return lines

    # --- The whole -------------------------------------------------------------------------------------------------------------

    def night(self, night):
        label = self.labels[night.number]
        if night.end == "unopened":
            return "  %s: no night" % label
        whose = "its own" if night.own == self.asked.pond else "of " + self.whose(night.own)
        text = "  %s: %s, %s, %s" % (label, whose, times(night.calls, "record"), times(night.seconds, "second"))
        if night.hours:
            text += ", from %s to %s" % tuple(hour(ms) for ms in night.span())
        return text + "; " + self.same_answers(night)

    @staticmethod
    def same_answers(night):
        if not night.rows:
            return "its answers are made again"
        if night.differing:
            return "of %s made again %d are not those of that night" % (times(night.compared, "answer"), night.differing)
        return "all %s made again are as they were that night" % times(night.compared, "answer")

    def is_unheard(self):
        return not self.own() and not any(n.facts or n.heard_at for n in self.nights)

    def lines(self):
        key = self.asked.pond
        yield "%s, key %s" % (self.names[key], key) if key in self.names else self.pond
        if self.is_unheard():
            yield NEVER
        else:
            yield from self.section("Who answered for it?", self.who_answered())
            yield from self.section("To whom was it named, and why?", self.to_whom_named())
            yield from self.section("What was tried, and what became of it?", self.what_was_tried())
        yield from self.section("What these nights can't tell:", self.untold())
        yield from self.section("The nights, with hours in UTC:", [self.night(n) for n in self.nights])

    @staticmethod
    def section(title, lines):
        if lines:
            yield ""
            yield title
            yield from lines
