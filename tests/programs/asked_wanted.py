"""The sentences that `bin/asked` must say, made of the facts that tests/models/model_asked.c writes. The words are said here and in
tools/asked_words.py, each on its own."""
import datetime
import decimal
import struct


def many(n, word):
    return "1 " + word if n == 1 else "%d %ss" % (n, word)


def row(items, word):
    return (", ".join(items[:-1]) + " " + word + " " if len(items) > 1 else "") + items[-1]


def clock(ms):
    return datetime.datetime.fromtimestamp(int(ms) // 1000, datetime.timezone.utc).strftime("%Y-%m-%d %H:%M:%S") + ".%03d" % (int(ms) % 1000)


class Wanted:
    def __init__(self, lines, names, every=False):
        self.names, self.every, self.nights, self.at, self.proofs = names, every, [], {}, {}
        for line in lines:
            word, *rest = line.split(" ")
            if word == "pond":
                self.pond = rest[0]
            elif word == "night":
                self.nights.append({"label": " ".join(rest[1:]).split("/")[-1], "facts": [], "own": None, "waiting": [], "unfit": None, "heard": None})
            elif word == "at":
                self.at[rest[0]] = rest[1:]
            elif word == "proof":
                self.proofs[rest[0], rest[1]] = rest[2:]
            elif word == "waiting":
                self.nights[-1]["waiting"].append(rest)
            elif word in ("own", "unfit"):
                self.nights[-1][word] = rest[0]
            elif word in ("heard", "ends", "rows", "ended"):
                self.nights[-1][word] = rest
            else:
                self.nights[-1]["facts"].append([word, len(self.nights)] + rest)

    # a fact is its word, the number of its night, record, second, hour, endpoint, and the rest

    def all(self, word, *after):
        return [f for n in self.nights for f in n["facts"] if f[0] == word and f[7:7 + len(after)] == list(after)]

    def who(self, key):
        return self.names.get(key, "the pond with key " + key)

    def where(self, f, night=True):
        text = "record %s (second %s%s)" % (f[2], f[3], ", " + clock(f[4]) if f[4] != "-" else "")
        return self.nights[f[1] - 1]["label"] + ", " + text if night else text

    def whence(self, f):
        if f[5] == "-":
            return "from a sender that is not told"
        port, *address = struct.unpack(">9H", bytes.fromhex(f[5]))
        keys = self.at[f[5]]
        there = row([self.who(k) for k in keys], "or") if keys else "no pond"
        return "from [%s]:%d, where these nights have %s" % (":".join(hex(group)[2:] for group in address), port, there)

    def gauge(self, f):
        return "the gauge of " + self.who(self.nights[f[1] - 1]["own"])

    def inside(self, facts):
        return "in %d of %s" % (len({f[1] for f in facts}), many(len(self.nights), "night"))

    def sorted(self, facts):
        if any(f[4] == "-" for f in facts):
            return facts
        return sorted(facts, key=lambda f: (int(f[4]), f[1], int(f[2])))

    def ends_of(self, facts, text):
        facts = self.sorted(facts)
        if self.every or len(facts) < 3:
            return sum([text(f) for f in facts], [])
        return text(facts[0]) + ["  .. %d more between these (--all lists them)" % (len(facts) - 2)] + text(facts[-1])

    def from_whom(self, facts):
        order, whence = [], [self.whence(f) for f in self.sorted(facts)]
        if len(whence) > 2 and len(set(whence)) == 1:
            return ["  All came %s." % whence[0]]
        for one in whence:
            order += [one] if one not in order else []
        return ["  They came " + "; ".join("%s (%d)" % (one, whence.count(one)) for one in order) + "."] if len(whence) > 2 else []

    def stood(self, held, side, number):
        if side == "own":
            return "It was the gauge's own pond; the gauge then held %s." % many(int(held), "record")
        place = "not in its neighbour list" if side == "none" else "number %s %s in its neighbour list" % (number, side)
        return "The gauge then held %s; it was %s." % (many(int(held), "record"), place)

    def reason(self, far, why, *other):
        if why in ("only", "target"):
            return "it has that very key" if why == "target" else "no other gauge could be named; its key is %s away" % far
        if why == "nearest":
            return "its key is the nearest, %s away; the next is that of %s, %s away" % (far, self.who(other[0]), other[1])
        tied = "its key is %s away, and that of %s as far on the other side; going down from the key that was asked for one comes to it"
        return tied % (far, self.who(other[0]))

    def own(self):
        return any(n["own"] == self.pond for n in self.nights)

    def answered(self):
        def text(f):
            authority, inquiry, record, kind, message, how, held, side, number = f[6:15]
            asked = [q for q in self.nights[f[1] - 1]["facts"] if q[0] == "inquired" and q[2] == record][0]
            lines = ["  %s: %s took AUTHORITY %s %s." % (self.where(f), self.gauge(f), authority, self.whence(f)),
                     "    It answers INQUIRE %s, sent with %s after %s %s %s." % (inquiry, self.where(asked, False), kind, message, self.whence(asked))]
            if f[15] == "-":
                lines.append("    It carries no reading.")
            elif f[15] == "refused":
                wrong = ["its length is wrong", "it is of no known kind", "its depth is not from 0 to 20 m"][int(f[16]) - 1]
                lines.append("    What it carries is no reading: %s." % wrong)
            elif f[15] == "depth":
                metres = decimal.Decimal(abs(struct.unpack(">f", int(f[16]).to_bytes(4, "big"))[0])).quantize(decimal.Decimal("0.001"))
                lines.append("    Its reading: depth %s m, %s litres in, %s out." % (metres, f[17], f[18]))
            else:
                lines.append("    Its reading: fault %s, %s litres in, %s out." % tuple(f[16:]))
            before = {"kept": "It was held before, and its record is the new one now. ",
                      "dropped": "It was not kept: there was no room, and it was the farthest. "}
            lines.append("    " + before.get(how, "") + self.stood(held, side, number))
            there = self.proofs[str(f[1]), f[2]]
            if self.own() and there == ["0", "0"]:
                lines.append("    Its own night does not have that AUTHORITY sent to that INQUIRE.")
            elif self.own():
                lines.append("    Its own night has it sent: %s, record %s." % (self.nights[int(there[0]) - 1]["label"], there[1]))
            return lines

        facts = self.all("answered")
        if not facts:
            return ["  Nobody: no gauge of these nights took an answer for it."]
        first = "  An answer for it was taken %s, %s." % ("once" if len(facts) == 1 else "%d times" % len(facts), self.inside(facts))
        return [first] + self.from_whom(facts) + self.ends_of(facts, text)

    def named(self):
        def text(f):
            what = "its key" if f[7] == self.pond else "the key of " + self.names[f[7]] if f[7] in self.names else "key " + f[7]
            return ["  %s: %s was asked for %s by LOOKUP %s %s." % (self.where(f), self.gauge(f), what, f[6], self.whence(f)),
                    "    It was named, as %s." % self.reason(*f[11:]), "    " + self.stood(*f[8:11])]

        def other(f):
            who = (self.where(f), self.gauge(f), self.who(f[7]), f[6], self.whence(f), self.reason(*f[8:]))
            return ["  %s: %s named %s to LOOKUP %s %s, as %s." % who]

        named, sought, lines = self.all("named"), self.all("sought"), ["  To nobody: no LOOKUP of these nights was answered with it."]
        if named:
            lines = ["  It was named to %s, %s." % (many(len(named), "LOOKUP"), self.inside(named))] + self.from_whom(named) + self.ends_of(named, text)
        if sought:
            lines.append("  Its key was asked for and another was named: to %s, %s." % (many(len(sought), "LOOKUP"), self.inside(sought)))
            lines += self.from_whom(sought) + self.ends_of(sought, other)
        return lines

    def fates(self):
        """What became of each INQUIRE that was not answered: from the fact itself on to the last of its ID before it is sent again."""
        lost = []
        for n in self.nights:
            for i, f in enumerate(n["facts"]):
                if f[0] != "inquired":
                    continue
                later = []
                for g in n["facts"][i + 1:]:
                    if g[0] == "inquired":
                        break
                    mine = {"again": g[6:] == [f[6], "INQUIRE"], "gaveup": g[6:] == [f[6], "INQUIRE"], "freed": g[6] == f[6], "answered": g[7:8] == [f[6]]}
                    if mine.get(g[0]):
                        later.append(g)
                if not later or later[-1][0] != "answered":
                    lost.append((f, later))
        return lost

    def tried(self):
        lines = []
        heard = [n["heard"] for n in self.nights if n["heard"]]
        if heard:
            taken, refused = sum(int(h[0]) for h in heard), sum(int(h[1]) for h in heard)
            part = "%d of them refused, " % refused if refused else ""
            lines.append("  Its record came with %s, %sin %d of %s." % (many(taken + refused, "message"), part, len(heard), many(len(self.nights), "night")))
        sent, lost = self.all("inquired"), {tuple(f[:3]): later for f, later in self.fates()}
        if sent:
            lines.append("  INQUIREs about it: %d sent, %d answered, %d not." % (len(sent), len(sent) - len(lost), len(lost)))

        def fate(f):
            later = lost[tuple(f[:3])]
            ticks = ["%s (second %s)" % (g[2], g[3]) for g in later if g[0] == "again"]
            end = ([""] + [g for g in later if g[0] != "again"])[-1]
            last = "still waiting when the night ended"
            if end:
                last = "%s with record %s (second %s)" % ("let go" if end[0] == "freed" else "given up", end[2], end[3])
                last += ", when the pond was revoked" if end[0] == "freed" else ""
            again = "listed again with record%s %s" % ("s" * (len(ticks) > 1), row(ticks, "and")) if ticks else "not listed again"
            return ["  %s: INQUIRE %s after %s %s %s; %s, %s." % (self.where(f), f[6], f[7], f[8], self.whence(f), again, last)]

        lines += self.ends_of([f for f in sent if tuple(f[:3]) in lost], fate)
        why = {"8": "it came too late: no inquiry waited for it any more", "9": "its proof was missing, or not judged good",
               "10": "its proof was judged good for another key"}
        refused = self.all("refused")
        if refused:
            lines += ["  Answers to these that were not taken: %d." % len(refused)] + self.ends_of(refused, lambda f: [
                "  %s: AUTHORITY %s to INQUIRE %s %s: %s." % (self.where(f), f[7], f[8], self.whence(f), why.get(f[6], "number " + f[6]))])
        lines += self.flooded()
        revoked = self.all("revoked")
        if revoked:
            lines += ["  It was revoked by %s, %s." % (many(len(revoked), "FLOOD"), self.inside(revoked))] + self.ends_of(revoked, lambda f: [
                "  %s: FLOOD %s %s%s." % (self.where(f), f[6], self.whence(f), ", refused with number " + f[7] if f[7] != "0" else "")])

        def gone(f):
            cause = "as it was revoked"
            if f[7] == "denied":
                cause = "as the ACK to FLOOD %s, %s, said that its key is not there" % (f[8], self.whence(f))
            elif f[7] == "dropped":
                cause = "dropped for want of room, when %s was learned" % self.who(f[8])
            return ["  %s: %s; %s held behind it." % (self.where(f), cause, many(int(f[6]), "record"))]

        left, proved = self.all("left"), self.all("proved")
        if left:
            lines += ["  It left the cache %s, %s." % ("once" if len(left) == 1 else "%d times" % len(left), self.inside(left))] + self.ends_of(left, gone)
        if proved:
            lines += ["  Its own night has %s that its gauge answered." % many(len(proved), "INQUIRE")] + self.ends_of(
                proved, lambda f: ["  %s: INQUIRE %s %s, with AUTHORITY %s." % (self.where(f), f[6], self.whence(f), f[7])])
        return lines + self.at_end()

    def flooded(self):
        sent, acked, lost = self.all("flooded"), self.sorted(self.all("acked")), self.sorted(self.all("gaveup", "FLOOD"))
        if not sent:
            return []
        waits = sum(w[1] == "FLOOD" for n in self.nights for w in n["waiting"])
        counts = (len(sent), len(acked), len(lost), waits)
        lines = ["  FLOODs sent to it: %d, of which %d were acknowledged, %d given up, and %d waited at the end." % counts]
        if acked:
            lines.append("  The last that was acknowledged: %s." % self.where(acked[-1]))
        return lines + (["  Given up:"] + self.ends_of(lost, lambda f: ["  %s: FLOOD %s." % (self.where(f), f[6])]) if lost else [])

    def at_end(self):
        others = [n for n in self.nights if n["own"] not in (None, self.pond)]
        if not others:
            return []
        held = [n for n in others if n["ends"][0] == "held"]
        near = ["%s (number %s %s)" % (n["label"], n["ends"][3], n["ends"][2]) for n in held if n["ends"][2] in ("below", "above")]
        return ["  At the end it was held in %d of %s%s, and in %s." % (len(held), many(len(others), "night"), " of others" if self.own() else "",
                                                                    "the neighbour list of " + row(near, "and") if near else "no neighbour list")]

    def unknown(self):
        bare = [n["label"] for n in self.nights if n["rows"] == ["none"]]
        if len(bare) > 4:
            bare = bare[:3] + ["%d more" % (len(bare) - 3)]
        text = "  Hours and senders of %s, and whether its answers were these: no second file stands beside, or an empty one."
        lines = [text % row(bare, "and")] if bare else []
        for n in self.nights:
            end = {"middle": "  What came behind record %s of %%s: the next one can't be used." % n["ended"][1],
                   "refused": "  What the gauge of %s did: it was refused from its first call on.",
                   "unopened": "  What night %s was: it does not open with a gauge's own record."}.get(n["ended"][0])
            if end:
                lines.append(end % n["label"])
            if n["rows"] != ["none"] and n["rows"][1] != "0":
                lines.append("  What the gauge of %s did from record %s on: its answer was another that night." % (n["label"], n["rows"][2]))
            if n["unfit"]:
                lines.append("  To which records the hours of %s belong: there are %s rows, and not one for each." % (n["label"], n["unfit"]))
        if not self.own():
            lines.append("  What the gauge of %s sent itself: its own night is not among these." % self.who(self.pond))
        for n in self.nights:
            for identity, kind in n["waiting"]:
                if kind == "INQUIRE":
                    lines.append("  Whether INQUIRE %s of %s was answered: it still waited when the night ended." % (identity, n["label"]))
        if self.all("answered"):
            lines += ["  Whether a proof was good: an answer is taken where an inquiry for this key waits, and the host has judged the proof good for this "
                      "key.", "  The trace has that verdict, and not what it rests on."]
        return lines

    def asked(self):
        for n in self.nights:
            if n["ended"][0] == "unopened":
                yield "  %s: no night" % n["label"]
                continue
            whose = "its own" if n["own"] == self.pond else "of " + self.who(n["own"])
            text = "  %s: %s, %s, %s" % (n["label"], whose, many(int(n["ended"][1]), "record"), many(int(n["ended"][2]), "second"))
            if n["rows"] == ["none"]:
                yield text + "; its answers are made again"
                continue
            if n["rows"][3] != "-":
                text += ", from %s to %s" % (clock(n["rows"][3]), clock(n["rows"][4]))
            yield text + ("; all %s made again are as they were that night" % many(int(n["rows"][0]), "answer") if n["rows"][1] == "0" else
                          "; of %s made again %s are not those of that night" % (many(int(n["rows"][0]), "answer"), n["rows"][1]))

    def lines(self):
        lines = ["%s, key %s" % (self.names[self.pond], self.pond) if self.pond in self.names else self.who(self.pond)]
        if not self.own() and not any(n["facts"] or n["heard"] for n in self.nights):
            lines.append("  It was never heard of in these nights: no message had its record, none was sent to it, no LOOKUP asked for it or was answered "
                         "with it.")
            sections = []
        else:
            sections = [("Who answered for it?", self.answered()), ("To whom was it named, and why?", self.named()),
                        ("What was tried, and what became of it?", self.tried())]
        for title, said in sections + [("What these nights can't tell:", self.unknown()), ("The nights, with hours in UTC:", list(self.asked()))]:
            lines += ["", title] + said if said else []
        return lines
