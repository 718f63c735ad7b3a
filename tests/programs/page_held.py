"""Each part of a page of a night held to the plain lines (`every`): its figures, the ring, the line of time, each record, what was refused, LOOKUPs,
neighbours, who left and why, what waits, water, each pond's story, hours. What the page must say is said here once more, and nothing of the page's own code is
used but its words for a number, a key and an endpoint.
"""
import base64
import collections
import datetime
import hashlib
import math
import re
import struct

from page_read import Element, number, same  # it finds the page's code
from page import words as page_words

LAST_HOUR = 253402300800000  # milliseconds up to the year 9999
NOBODY = "0" * 36
MARKS = {"own": ("path", "path"), "below": ("path",), "above": ("path",), "held": ("circle",), "left": ("path",), "unkept": ("path",),
         "silent": ("circle", "path"), "heard": ("circle",)}
BARS = {"sent": "Sent by the gauge", "again": "Listed to be sent again", "gaveup": "Given up", "joined": "Ponds that joined",
        "left": "Ponds dropped or removed", "named": "LOOKUPs answered"}
short, meaning = page_words.short_key, page_words.meaning


def utc(ms, form="%H:%M:%S"):
    return (datetime.datetime(1970, 1, 1) + datetime.timedelta(milliseconds=int(ms))).strftime(form)


def is_hour(ms):
    return 0 < int(ms) < LAST_HOUR


# --- The head --------------------------------------------------------------------------------------------------------------------

def figures(seen):
    got = {div.one("dt").text(): number(div.one("dd").text()) for div in seen.root.one("dl", "figures").all("div")}
    kinds = collections.Counter(record.what[0] for record in seen.records)
    same("the figures", got, {
        "calls": len(seen.records) - kinds["bad"], "received": kinds["receive"], "FLOODs to send": kinds["send"], "ticks": kinds["tick"],
        "accepted": sum(record.answer[0] == "0" for record in seen.records), "refused": sum(record.is_refused() for record in seen.records),
        "LOOKUPs answered": len(seen.facts("named")), "ponds heard of": len(seen.ponds()) - 1 if seen.own else 0,
        "held at the end": int((seen.last("held") or ["0"])[0])})


def verdict(seen):
    said, end = seen.root.one("p", "verdict"), seen.lines.split("\n")[-2].split(" ")
    whole = {"whole": "is whole", "middle": "in the middle", "refused": "from its first call on", "unopened": "no night in it"}[end[1]]
    same("how the night ends", whole in said.text(), True)
    compared = [record for record in seen.records if record.hour()]
    others = [record.n for record in compared if record.hour()[2:] != record.answer]
    same("whether something is wrong", "bad" in said.classes(), end[1:] != ["whole"] or bool(others))
    same("whether the rows fit", "does not fit" in said.text(), len(end) > 2)
    if others:
        same("the answers that are others", "record %s." % ", ".join(others) in said.text() or len(others) > 20, True)
    calls = [record for record in seen.records if record.what[0] != "bad"]
    same("whether each answer was compared", "Each answer, made again, is" in said.text(), bool(compared) and not others and len(compared) >= len(calls))


def hours(seen):
    """Each record's hour in its row, and the same one wherever the record is told; the first and the last in the head."""
    known = {record.n: utc(record.hour()[0]) for record in seen.records if record.hour() and is_hour(record.hour()[0])}
    for table in seen.root.all("table", "rows"):
        same("the head of the hours", table.texts("th")[1], "Hour" if any(record.hour() for record in seen.records) else "Second")
    for n, hour, *_ in seen.rows("rows"):
        same("the hour of record " + n, hour if n in known else "", known.get(n, ""))
    for n, hour in re.findall(r"record (\d+), second \d+(?:, (\d\d:\d\d:\d\d))?", seen.root.one("main").text()):
        same("the hour of record %s where it is told" % n, hour, known.get(n, ""))
    every = [int(ms) for ms in re.findall(r"^hour (\d+)", seen.lines, re.M) if is_hour(ms)]
    lead = "".join(seen.root.texts("p", "lead"))
    if every and seen.own:
        same("the first and the last hour", "%s to %s UTC" % tuple(utc(ms, "%Y-%m-%d %H:%M:%S") for ms in (every[0], every[-1])) in lead, True)
        same("whether the clock was set back", "set back" in lead, every != sorted(every))


# --- The ring --------------------------------------------------------------------------------------------------------------------

def sides(seen):
    for side in ("below", "above"):
        same("the neighbours " + side, [item for part in seen.root.all("ol", "side-" + side) for item in part.texts("li")],
             [short(key) for key in seen.last(side)])


def changes(seen):
    want = ["%s: %s" % (fact[0], ", ".join(map(short, fact[1:])) or "none")
            for record in seen.records for fact in record.facts if fact[0] in ("below", "above")]
    folds = [d for d in seen.root.all("details") if d.inside[0].text().startswith("How the two lists")]
    same("how the two lists came about", [li.inside[1].text() for d in folds for li in d.all("li")], want)


def state_of(key, seen):
    """What a pond is at the end: the word that it begins with in the list, and its mark."""
    left, answered = None, any(fact[0] == key for _, fact in seen.facts("answered"))
    asked = [record for record in seen.records for fact in record.of("sent") if fact[0] == "INQUIRE" and fact[2:] == [key]]
    for record in seen.records:
        left = False if [key] in record.of("joined") else True if [key] in record.of("left") else left
    for side in ("below", "above"):
        if key in seen.last(side):
            return "neighbour %s, place %d" % (side, seen.last(side).index(key) + 1), side
    if key == seen.own:
        return "our own", "own"
    if left is not None:
        return ("", "left") if left else ("held", "held")
    if answered:
        return "answered, not kept", "unkept"
    return ("asked, n", "silent") if asked else ("heard of, never asked", "heard")


def states(seen):
    """In words, and by the mark on the ring: its shape, and its place."""
    marks = seen.marks()
    for key, pond in seen.ponds().items():
        said, link = pond.one("span", "is").text(), "#" + pond.one("div", "in").attributes["id"]
        words, mark = state_of(key, seen)
        same("what %s is, %r, begins so" % (key, said), said.startswith(words), True)
        same("the mark of %s in the list" % key, next(pond.one("summary").all("g", "m")).classes()[1], mark)
        if link not in marks:
            continue
        same("the mark of %s on the ring" % key, marks[link].classes()[1], mark)
        x, y = map(float, re.match(r"translate\(([-\d.]+) ([-\d.]+)\)", marks[link].attributes["transform"]).groups())
        off = (math.atan2(x - 360, 360 - y) / (2 * math.pi) - int(key, 16) / 2**256) % 1
        same("whether %s stands at its place on the ring" % key, min(off, 1 - off) < 0.001, True)


def shapes(seen):
    """One shape for each state, and no two the same: no pond is told by colour alone."""
    found = {}
    for mark in seen.root.all("g", "m"):
        drawn = [e for e in mark.inside if isinstance(e, Element) and e.tag != "title"]
        state, shape = mark.classes()[1], tuple((e.tag, e.attributes.get("d") or e.attributes.get("r")) for e in drawn)
        same("the shape of " + state, (tuple(tag for tag, _ in shape), found.setdefault(state, shape)), (MARKS[state], shape))
    same("whether two states look the same", len(set(found.values())), len(found))
    for arc in seen.root.all("path", "arc"):
        same("the way of an arc", arc.attributes["d"].split("A")[1].split(" ")[4], "1" if "above" in arc.classes() else "0")


# --- The line of time ------------------------------------------------------------------------------------------------------------

def time_line(seen):
    """The bars: the sum of each word, and each bar."""
    by_second = collections.defaultdict(collections.Counter)
    for record in seen.records:
        found = by_second[record.second]
        found["Received"] += record.what[0] == "receive"
        found["Refused"] += record.is_refused()
        for fact in record.facts:
            found[BARS.get(fact[0])] += 1
    seconds = seen.records[-1].second if seen.records else 0
    bars = {re.match(r"(.*) [\d,]+$", next(bar.all("span")).text()).group(1): bar for bar in seen.root.all("div", "b")}
    sums = {word: sum(found[word] for found in by_second.values()) for word in ["Received", "Refused", *BARS.values()]}
    same("which bars there are", set(bars), {word for word, n in sums.items() if n} if seconds else set())
    for word, bar in bars.items():
        same("the sum of " + word, number(next(bar.all("span")).text().split(" ")[-1]), sums[word])
        drawn = [(list(map(int, re.findall(r"\d+", title.split(":")[0]))), int(title.split(": ")[1])) for title in bar.texts("title")]
        same("the bars of " + word, sum(n for _, n in drawn), sums[word])
        for span, n in drawn:
            same("a bar of " + word, n, sum(by_second[s][word] for s in range(span[0], span[-1] + 1)))
    axis(seen, seconds)


def axis(seen, seconds):
    hour_at = {record.second: utc(record.hour()[0]) for record in reversed(seen.records) if record.hour() and is_hour(record.hour()[0])}
    for line in seen.root.all("p", "axis"):
        of = 4 if seconds >= 8 else 1
        at = [round(i * seconds / of) for i in range(of + 1)]
        if 0 not in hour_at and re.search(r"^hour (\d+)", seen.lines, re.M) and at[0] == 0:  # the hour of the opening
            hour_at[0] = line.texts("span")[0]
        same("the axis", line.texts("span"), [hour_at.get(second) or "second %d" % second for second in at])


def folds(seen):
    for fold in seen.root.all("details", "fold"):
        if "on" in fold.classes():
            continue
        said = re.fullmatch(r"Seconds? (\d+)(?: to (\d+))?(?:, from ([\d:]+))?: ([\d,]+) records?(?:, ([\d,]+) refused)?", fold.one("summary").text())
        first, last = int(said.group(1)), int(said.group(2) or said.group(1))
        inside = [record for record in seen.records if first <= record.second <= last]
        same("the records of a fold", (number(said.group(4)), number(said.group(5) or "0")), (len(inside), sum(record.is_refused() for record in inside)))
        at_first = [record.hour()[0] for record in inside if record.second == first and record.hour() and is_hour(record.hour()[0])]
        if first and at_first:
            same("the hour of a fold", said.group(3), utc(at_first[0]))


def row_says(cells, record):
    """Its number, its answer, what it was, from or to whom, and what it did."""
    what, kind = record.what, record.what[0]
    wanted = {"tick": lambda: ["tick"], "bad": lambda: ["can’t be used"], "send": lambda: ["FLOOD %s to %s about %s" % (what[1], short(what[2]), short(what[3]))],
              "receive": lambda: [what[3] + " bytes"] + (["%s %s" % tuple(what[1:3])] if what[1].isupper() else [])}[kind]()
    wanted += ["sent %s %s" % tuple(fact[:2]) for fact in record.of("sent") if fact[0] != "FLOOD"]
    wanted += ["%s %s" % (fact[1], fact[0]) for word in ("again", "gaveup", "freed") for fact in record.of(word)]
    wanted += ["in answer to " + fact[0] for fact in record.of("answers")]
    wanted += [short(fact[0]) + " joined" for fact in record.of("joined")] + [short(fact[0]) + " is held no more" for fact in record.of("left")]
    if record.hour() and record.hour()[1] != NOBODY:
        wanted.append("%s %s" % ("to" if kind == "send" else "from", page_words.endpoint(record.hour()[1])))
    same("what is not said of record %s: %s" % (record.n, cells[2]), [word for word in wanted if word not in cells[2]], [])
    same("the answer of record " + record.n, cells[3].startswith("%s %s" % (record.answer[0], meaning(int(record.answer[0])))), True)
    other = record.hour() is not None and record.hour()[2:] != record.answer
    same("whether record %s is another answer than that night's" % record.n, "another than that night’s" in cells[3], other)


def each_record(seen):
    rows = seen.rows("records")
    same("the numbers of the rows", [row[0] for row in rows], [record.n for record in seen.records])
    for cells, record in zip(rows, seen.records):
        row_says(cells, record)


# --- Answers, LOOKUPs, what is gone, what waits ----------------------------------------------------------------------------------

def answers(seen):
    rows = [row.texts("td") for row in seen.root.all("tr", "answer")]
    same("the answers by number", {row[0]: number(row[2]) for row in rows}, dict(collections.Counter(record.answer[0] for record in seen.records)))
    same("their meanings", [row[1] for row in rows], [meaning(int(row[0])) for row in rows])


def refusals(seen):
    """By themselves once more, each with its reason."""
    rows, refused = seen.rows("refusals"), [record for record in seen.records if record.is_refused()]
    same("the refused records", [row[0] for row in rows], [record.n for record in refused])
    for cells, record in zip(rows, refused):
        row_says(cells, record)


def lookups(seen):
    """Each with the key asked for, the key named, both distances, and the reason."""
    boxes, named = list(seen.root.all("div", "lookup")), seen.facts("named")
    same("how many LOOKUPs are told", len(boxes), len(named))
    targets, asker = dict(seen.facts("for")), {record.n: record.hour()[1] for record in seen.records if record.hour()}
    reasons = {"only": "only candidate", "target": "the very key", "tied": "tied with", "nearest": "the nearest; the next"}
    for box, (n, words) in zip(boxes, named):
        said = box.terms()
        same("the record of a LOOKUP", "record %s, " % n in box.text(), True)
        same("whom it asked for", said["Asked for"].split(" ")[0], targets[n][0])
        same("who is named", said["Named"], "%s at %s" % (short(words[0]), page_words.place_of(words[1], words[2])))
        same("its distance", said["Its distance"], words[3])
        same("the reason", reasons[words[4]] in said["Why"], True)
        same("the other and its distance", (short(words[5]) in said["Why"], said["The other’s"]) if len(words) > 5 else said.get("The other’s"),
             (True, words[6]) if len(words) > 5 else None)
        if asker.get(n, NOBODY) != NOBODY:
            same("who asked", " from " + page_words.endpoint(asker[n]) in box.text(), True)


def gone(seen):
    """Who left with which record, since when it was held, and why, by what the record was."""
    joined, want = {}, []
    for record in seen.records:
        for fact in record.facts:
            if fact[0] == "joined":
                joined[fact[1]] = record.n
            elif fact[0] == "left":
                why = "revokes its key" if ["revoking", fact[1]] in record.facts else "not at its address" if record.what[1] == "ACK" else "took its place"
                want.append([short(fact[1]), "record %s," % record.n, "held since record " + joined[fact[1]], why])
    rows = [row.texts("td") for row in seen.root.all("tr", "left")]
    same("how many left", len(rows), len(want))
    for row, must in zip(rows, want):
        same("who left, and why: %s" % row, (row[0], row[1].startswith(must[1]), row[2], row[3].endswith(must[3])), (must[0], True, must[2], True))


def waiting(seen):
    """What was sent to be answered, and was not, nor given up or let go."""
    places = {}
    for record in seen.records:
        for kind, identity, *key in record.of("sent"):
            if kind in ("FLOOD", "INQUIRE"):
                places[identity] = (kind, key[0], record.n)
        for gone_by in [fact[0] for word in ("gaveup", "freed") for fact in record.of(word)] + [fact[1] for fact in record.of("answered")]:
            places.pop(gone_by)
    items = [re.fullmatch(r"(\w+) (\d+) (?:to|about) (.*), since record (\d+), .*", text).groups() for text in seen.section("waiting").texts("li")]
    same("what waits", sorted(items), sorted((kind, identity, short(key), n) for identity, (kind, key, n) in places.items()))


# --- Water -----------------------------------------------------------------------------------------------------------------------

def balance(inflow, outflow):
    litres = int(inflow) - int(outflow)
    return "−%d litres, a deficit" % -litres if litres < 0 else "%s%d litres" % ("+" if litres else "", litres)


def measured(words):
    return "fault " + words[1] if words[0] == "fault" else "%.3f m" % abs(struct.unpack(">f", int(words[1]).to_bytes(4, "big"))[0])


def readings_of(key, seen):
    """The readings that a pond's answers carried, with their records: those taken, and those refused behind the last of these."""
    every = [(record.n, reading) for record in seen.records if any(fact[0] == key for fact in record.of("answered")) for reading in record.of("reading")]
    taken = [(n, words) for n, words in every if words[0] != "refused"]
    return taken, [(n, words) for n, words in every if words[0] == "refused" and (not taken or int(n) > int(taken[-1][0]))]


def water(seen):
    last = {key: readings_of(key, seen) for key in seen.ponds()}
    taken = {short(key): readings[0][-1][1] for key, readings in last.items() if readings[0]}
    section, rows = seen.section("water"), {row[0]: row[1:] for row in seen.rows("water")}
    if not any(a or b for a, b in last.values()):
        same("whether a reading came", "No reading came" in section.text(), True)
        return
    same("how many rows of water there are", len(rows), sum(bool(a or b) for a, b in last.values()))
    for name, words in taken.items():
        row = [cells for who, cells in rows.items() if who.startswith(name)][0]
        same("the water of " + name, (row[0].startswith(measured(words)), row[1:]), (True, [words[2], words[3], balance(*words[2:])]))
    losing = sorted(("%s: %s" % (name, balance(*words[2:])) for name, words in taken.items() if int(words[2]) < int(words[3])))
    same("who loses water", sorted(item for part in section.all("ul", "deficits") for item in part.texts("li")), losing)
    same("how many lose water", re.search(r"(\d+) of (\d+) loses? water", section.text()).groups(), (str(len(losing)), str(len(taken))))
    sums = [str(sum(int(words[i]) for words in taken.values())) for i in (2, 3)]
    for foot in section.all("tfoot"):
        same("the sums of water", foot.texts("td")[2:], sums + [balance(*sums)])


# --- Stories ---------------------------------------------------------------------------------------------------------------------

def stories(seen):
    """Each pond: first heard, asked, answered, last reading, how often it was sent to; its events, the last with its last record."""
    ponds = seen.ponds()
    keys = {fact[-1] for word in ("about", "revoking", "joined", "left") for _, fact in seen.facts(word)}
    keys |= {fact[2] for _, fact in seen.facts("sent") if len(fact) > 2}
    same("ponds without a story", keys - set(ponds), set())
    same("whether ponds go round the ring", list(ponds), sorted(ponds))
    for key, pond in ponds.items():
        same("its key", pond.terms()["Key"], key)
        heard_and_asked(pond.terms(), key, seen)
        sent_and_named(pond.terms(), key, seen)
        read(pond.terms(), key, seen)
        events(pond, key, seen)


def heard_and_asked(said, key, seen):
    heard = [record.n for record in seen.records if [key] in record.of("about") or [key] in record.of("revoking")]
    same("when %s was first heard of" % key, said.get("First heard of", "").split(",")[0], "record %s" % heard[0] if heard else "")
    asked = [fact[1] for _, fact in seen.facts("sent") if fact[0] == "INQUIRE" and fact[2:] == [key]]
    same("how often %s was asked" % key, said.get("Asked", "0").split(" ")[0], str(len(asked)))
    if not asked:
        return
    often = collections.Counter((word, fact[1]) for word in ("again", "gaveup") for _, fact in seen.facts(word) if fact[2] == key)
    same("how often it was listed again and given up", re.findall(r", (listed again|given up) (\d+) time", said["Asked"]),
         [(word, str(n)) for word, n in (("listed again", often["again", "INQUIRE"]), ("given up", often["gaveup", "INQUIRE"])) if n])
    answered = [n for n, fact in seen.facts("answered") if fact[0] == key]
    same("whether it answered", said["Answered"].split(",")[0], "%d time%s" % (len(answered), "" if len(answered) == 1 else "s") if answered else "never")
    same("when it answered last", re.findall(r"with record (\d+),", said["Answered"]), answered[-1:])
    refused = [n for n, _ in untaken(key, seen)]
    same("how many of its answers were refused", re.findall(r"(\d+) answers? w\w+ refused", said["Answered"]), [str(len(refused))] if refused else [])


def untaken(key, seen):
    """AUTHORITYs to an INQUIRE about the key that were not taken: the record, and the number of each."""
    about = {}
    for record in seen.records:
        for kind, identity, *asked in record.of("sent"):
            if kind == "INQUIRE":
                about[identity] = asked[0]
        if record.what[:2] == ["receive", "AUTHORITY"] and record.is_refused() and about.get((record.of("answers") or [[""]])[0][0]) == key:
            yield record.n, record.answer[0]


def sent_and_named(said, key, seen):
    sent = sum(record.what[0] == "send" and record.what[2] == key and record.answer[0] == "0" for record in seen.records)
    often = collections.Counter((word, fact[1]) for word in ("freed", "gaveup") for _, fact in seen.facts(word) if fact[2] == key)
    same("FLOODs to %s" % key, said.get("FLOODs to it"),
         "%d, acknowledged %d, given up %d" % (sent, often["freed", "FLOOD"], often["gaveup", "FLOOD"]) if sent else None)
    named = sum(fact[0] == key for _, fact in seen.facts("named"))
    same("how often %s was named" % key, said.get("Named"), "to %d LOOKUP%s" % (named, "" if named == 1 else "s") if named else None)


def read(said, key, seen):
    taken, refused = readings_of(key, seen)
    if taken:
        n, words = taken[-1]
        text = "%s, %s litres in, %s out, balance %s (record %s, " % (measured(words), words[2], words[3], balance(*words[2:]), n)
        same("the last reading of %s: %s" % (key, said["Last reading"]), said["Last reading"].startswith(text), True)
    unread = said.get("Behind it" if taken else "Last reading", "")
    same("a reading that was refused: " + unread, re.findall(r"refused: (\d) .*\(record (\d+),", unread), [(words[1], n) for n, words in refused[-1:]])
    same("whether a reading is told", "Last reading" in said, bool(taken or refused))


def events(pond, key, seen):
    """As many of each as there are, the last of them with the last record that has one; and whether it was revoked."""
    told = [item for part in pond.all("ul", "story") for item in part.texts("li")]
    happened = []
    for record in seen.records:
        happened += [record.n for word in ("joined", "left") for fact in record.of(word) if fact == [key]]
        happened += [record.n for fact in record.of("answered") if fact[0] == key]
        happened += [record.n for fact in record.of("sent") if fact[0] == "INQUIRE" and fact[2:] == [key]]
        happened += [record.n for fact in record.of("gaveup") if fact[2] == key] + [record.n for fact in record.of("again") if fact[1:] == ["INQUIRE", key]]
        happened += [record.n for fact in record.of("named") if fact[0] == key]
    heard = bool([record for record in seen.records if [key] in record.of("about") or [key] in record.of("revoking")])
    revoked = [record.n for record in seen.records if [key] in record.of("revoking") and record.answer[0] == "0"]
    refused = list(untaken(key, seen))
    same("how many events %s has" % key, len(told), len(happened) + len(refused) + heard + bool(revoked))
    if happened:
        same("whether its last event is told", int(re.match(r"record (\d+)", told[-1]).group(1)) >= int(happened[-1]), True)
    for n, answer in refused:
        same("why its answer was refused", any(t.startswith("record %s," % n) and "refused: %s %s" % (answer, meaning(int(answer))) in t for t in told), True)
    same("its events of being held", sum(t.endswith("is held") or "removed: " in t or "dropped: " in t for t in told),
         sum(fact == [key] for word in ("joined", "left") for _, fact in seen.facts(word)))
    same("whether it was revoked", any("revoked by" in t for t in told), bool(revoked))


# --- Nothing from elsewhere, and links -------------------------------------------------------------------------------------------

def nothing_from_elsewhere(seen):
    attributes = [(element.tag, name, value) for element in seen.root.all() for name, value in element.attributes.items()]
    same("attributes that run or load something", [a for a in attributes if a[1].startswith("on") or a[1] in ("src", "style", "srcset", "data", "action")], [])
    same("links that lead out", [a for a in attributes if "href" in a[1] and not a[2].startswith("#")], [])
    same("what loads something", [e.tag for e in seen.root.all() if e.tag in ("link", "img", "iframe", "object", "embed", "base", "form", "use", "image")], [])
    same("an address of elsewhere", re.findall(r"https?://|url\(|@import|//\w", re.sub(r"'sha256-[^']*'|//? [^\n]*", "", seen.text)), [])
    allowed = [meta.attributes["content"] for meta in seen.root.all("meta") if meta.attributes.get("http-equiv") == "Content-Security-Policy"][0]
    for tag in ("script", "style"):
        content = seen.root.one(tag).text()
        same("whether the page allows its own %s alone" % tag, "%s-src 'sha256-%s'" % (
            tag, base64.b64encode(hashlib.sha256(content.encode()).digest()).decode()) in allowed, True)
    same("what it allows else", "default-src 'none'" in allowed and "unsafe" not in allowed, True)


def links(seen):
    there = [element.attributes["id"] for element in seen.root.all() if "id" in element.attributes]
    same("whether an id is there twice", len(there), len(set(there)))
    wanted = {element.attributes["href"][1:] for element in seen.root.all("a")}
    same("links that lead nowhere", wanted - set(there), set())


def every(seen):
    for part in (figures, verdict, hours, sides, changes, states, shapes, time_line, folds, each_record, answers, refusals, lookups, gone, waiting, water, stories,
                 nothing_from_elsewhere, links):
        part(seen)
