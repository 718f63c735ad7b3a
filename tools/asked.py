"""The auditor's two questions, for one pond over the nights of one or several gauges (tools/launch asks them by bin/asked): who answered for it, and why
was it named?

No trace is read here. What a night has is told by the program `told`, a fact a line, as `bin/shown --plain NIGHT` shows it. Of these the ones that are
about the pond are kept, in the form that `--plain` writes them in:

    pond KEY                          once, first
    night I PATH                      each night, from 1; what follows is its, up to the next
    own KEY                           whose night it is; not there where the trace does not open with a gauge's own record
    WORD RECORD SECOND MS ENDPOINT .. what happened with a record: its number, how many ticks were taken up to it, and of the second file the hour in
                                      milliseconds and the sender (of a FLOOD to be sent the receiver), `-` where these are not told. WORD and what
                                      follows:
        named ID TARGET HELD SIDE PLACE DISTANCE REASON [KEY DISTANCE]    to this LOOKUP the pond was named; SIDE is below, above, none or own
        sought ID KEY DISTANCE REASON [KEY DISTANCE]                      this LOOKUP asked for the pond's key, and KEY was named
        inquired ID TYPE ID                     the INQUIRE sent about it, and the FLOOD or LOOKUP after which
        again ID KIND, gaveup ID KIND           a tick listed that INQUIRE again, or let it go, or the FLOOD sent to the pond
        answered ID INQUIRY RECORD TYPE ID HOW HELD SIDE PLACE READING..  the AUTHORITY that was taken, the INQUIRE, the record that sent it, and the
                                                message after which; HOW is joined, kept (it was held) or dropped (not kept)
        refused NUMBER ID INQUIRY               an AUTHORITY to such an INQUIRE that was not taken
        revoked ID NUMBER                       a FLOOD that revokes it, and its answer
        freed ID                                the INQUIRE that was let go with the revocation
        flooded ID, acked ID                    a FLOOD to the pond, and the ACK to it
        left HELD revoked | denied ID | dropped KEY   the pond left the cache: by which FLOOD's ACK, for whom
        proved ID ID                            in its own night: the INQUIRE that it was asked by, and the AUTHORITY that it sent
    heard TAKEN REFUSED FIRST LAST    how many messages had its record, and the first and last record of these
    waiting ID KIND                   what still waited at the end
    ends held|not|own HELD SIDE PLACE
    rows none | rows COMPARED DIFFERING FIRST FROM TO    answers made again beside those of that night, and the first and the last hour
    unfit ROWS                        the second file has so many rows, and not one for each record
    ended END RECORDS SECONDS         as `told` has it
    at ENDPOINT KEY..                 behind all nights: who is at an endpoint, by a night's own record, a record that was named, a FLOOD that was sent
                                      there, or an AUTHORITY that was taken from there
    proof I RECORD I RECORD           each answer, and where the pond's own night has it sent; 0 and 0 where none has
"""
import collections
import concurrent.futures
import os
import re
import subprocess

import asked_words
import names
import plain

USE = "bin/asked [--all | --plain] POND NAMES NIGHT.."
Moment = collections.namedtuple("Moment", "night record second ms endpoint")
Fact = collections.namedtuple("Fact", "word moment values")
Exchange = collections.namedtuple("Exchange", "night record inquiry authority")


class Wrong(Exception):
    """What the auditor is told before status 2."""


# --- What the nights have ----------------------------------------------------------------------------------------------------

class Night:
    """One night: what it has of the pond, and who is where."""

    def __init__(self, number, path, pond):
        self.number, self.path, self.pond = number, path, pond
        self.own = self.end = None
        self.facts, self.belongings = [], set()
        self.calls = self.seconds = self.compared = self.differing = self.first_differing = 0
        self.rows = self.unfit = None
        self.heard, self.heard_at = [0, 0], []
        self.hours = []
        self.inquiries, self.places, self.holding, self.held, self.sides = {}, {}, False, 0, {"below": [], "above": []}

    def read(self, lines):
        try:
            for item in plain.walked(lines):
                self.take(item)
        except plain.Wrong as wrong:
            raise Wrong("%s: %s" % (self.path, wrong))

    def take(self, item):
        """A record with its facts, or the words of another line."""
        if isinstance(item, plain.Record):
            self.record(item)
        elif item[0] == "opened":
            self.own = item[3]
            self.belongings.add(("%04x" % int(item[4]) + item[5], self.own))
        elif item[0] == "hour":
            self.rows = True
        else:
            self.end, self.unfit = item[1], plain.unfit_of(item)
            self.rows = bool(self.rows) or self.unfit is not None

    def record(self, record):
        self.rows = self.rows or record.hour is not None
        if record.is_bad():
            return
        self.calls += 1
        self.seconds = record.second
        self.compare(record)
        was_held = self.holding
        self.move(record)
        getattr(self, "tell_" + record.what[0])(record, was_held)

    def compare(self, record):
        if record.hour is None:
            return
        if record.ms() is not None:
            self.hours.append(record.ms())
        self.compared += 1
        if record.is_other():
            self.differing += 1
            self.first_differing = self.first_differing or record.number

    def move(self, record):
        """What the gauge holds, lists and waits for behind the record."""
        self.holding = (self.holding or [self.pond] in record.of("joined")) and [self.pond] not in record.of("left")
        for side in self.sides:
            changed = record.one(side)
            self.sides[side] = self.sides[side] if changed is None else changed
        for count, in record.of("held"):
            self.held = int(count)
        for kind, identity, *key in record.of("sent"):
            if kind in ("INQUIRE", "FLOOD") and key == [self.pond]:
                self.places[identity] = kind
        for identity, _, key in record.of("gaveup") + record.of("freed"):
            if key == self.pond:
                del self.places[identity]
        for key, identity, *_ in record.of("answered"):
            if key == self.pond:
                del self.places[identity]

    def standing(self):
        """How many are held, and where the pond is in the list."""
        if self.own == self.pond:
            return [str(self.held), "own", "0"]
        for side, keys in self.sides.items():
            if self.pond in keys:
                return [str(self.held), side, str(keys.index(self.pond) + 1)]
        return [str(self.held), "none", "0"]

    def tell(self, record, word, *values):
        moment = Moment(self.number, record.number, record.second, record.ms() or "-", record.endpoint() or "-")
        self.facts.append(Fact(word, moment, [str(v) for v in values]))

    def left(self, record, *why):
        if [self.pond] in record.of("left"):
            self.tell(record, "left", self.held, *why)

    def tell_receive(self, record, was_held):
        if record.one("about") == [self.pond]:
            self.heard[not record.taken] += 1
            self.heard_at.append(record.number)
        tell = {"FLOOD": self.revocation, "INQUIRE": self.proof, "AUTHORITY": self.authority, "ACK": self.ack, "LOOKUP": self.lookup}
        if record.what[1] in tell:
            tell[record.what[1]](record, record.what[2], was_held)
        for kind, identity, *key in record.of("sent"):
            if kind == "INQUIRE":
                self.inquiries[identity] = key[0]
                if key == [self.pond]:
                    self.tell(record, "inquired", identity, *record.what[1:3])

    def revocation(self, record, identity, _):
        if record.one("revoking") != [self.pond]:
            return
        self.tell(record, "revoked", identity, record.answer[0])
        for freed, kind, key in record.of("freed"):
            if (kind, key) == ("INQUIRE", self.pond):
                self.tell(record, "freed", freed)
        self.left(record, "revoked")

    def proof(self, record, identity, _):
        if record.taken and self.own == self.pond:
            self.tell(record, "proved", identity, record.one("sent")[1])

    def authority(self, record, identity, was_held):
        inquiry = record.one("answers")[0]
        if not record.taken:
            if self.inquiries.get(inquiry) == self.pond:
                self.tell(record, "refused", record.answer[0], identity, inquiry)
            return
        key, _, *source = record.one("answered")
        if record.endpoint():
            self.belongings.add((record.endpoint(), key))
        if key == self.pond:
            how = "kept" if was_held else "joined" if self.holding else "dropped"
            self.tell(record, "answered", identity, inquiry, *source, how, *self.standing(), *(record.one("reading") or ["-"]))
        self.left(record, "dropped", key)

    def ack(self, record, _, __):
        for flood, kind, key in record.of("freed"):
            if (kind, key) == ("FLOOD", self.pond):
                self.tell(record, "acked", flood)
                self.left(record, "denied", flood)

    def lookup(self, record, identity, _):
        if not record.of("named"):
            return
        key, port, address, *why = record.one("named")
        target = record.one("for")[0]
        self.belongings.add(("%04x" % int(port) + address, key))
        if key == self.pond:
            self.tell(record, "named", identity, target, *self.standing(), *why)
        elif target == self.pond:
            self.tell(record, "sought", identity, key, *why)

    def tell_send(self, record, _):
        if not record.taken:
            return
        identity, neighbour, _ = record.what[1:]
        if record.endpoint():
            self.belongings.add((record.endpoint(), neighbour))
        if neighbour == self.pond:
            self.tell(record, "flooded", identity)

    def tell_tick(self, record, _):
        for identity, kind, key in record.of("again"):
            if (kind, key) == ("INQUIRE", self.pond):
                self.tell(record, "again", identity, kind)
        for identity, kind, key in record.of("gaveup"):
            if key == self.pond:
                self.tell(record, "gaveup", identity, kind)

    def of(self, *words):
        return [fact for fact in self.facts if fact.word in words]

    def is_sound(self):
        """Is it whole, and are its answers those of that night, as far as there is a second file?"""
        return self.end == "whole" and self.unfit is None and not self.differing

    def span(self):
        """The first and the last hour of a call."""
        return (self.hours[0], self.hours[-1]) if self.hours else ("-", "-")

    def ends(self):
        return ["own" if self.own == self.pond else "held" if self.holding else "not"] + self.standing()

    def plain(self):
        yield "night %d %s" % (self.number, self.path)
        if self.own:
            yield "own " + self.own
        for fact in self.facts:
            yield " ".join([fact.word] + [str(v) for v in fact.moment[1:]] + fact.values)
        if self.heard_at:
            yield "heard %d %d %d %d" % (*self.heard, self.heard_at[0], self.heard_at[-1])
        for identity in sorted(self.places, key=int):
            yield "waiting %s %s" % (identity, self.places[identity])
        if self.own:
            yield " ".join(["ends"] + self.ends())
        yield "rows %d %d %d %s %s" % (self.compared, self.differing, self.first_differing, *self.span()) if self.rows else "rows none"
        if self.unfit is not None:
            yield "unfit %d" % self.unfit
        yield "ended %s %d %d" % (self.end, self.calls, self.seconds)


class Asked:
    """All nights together."""

    def __init__(self, pond, nights):
        self.pond, self.nights = pond, nights
        self.where = collections.defaultdict(set)
        for night in nights:
            for endpoint, key in night.belongings:
                self.where[endpoint].add(key)
        proofs = [Exchange(f.moment.night, f.moment.record, *f.values) for f in self.of("proved")]
        self.proofs = {}
        for proof in reversed(proofs):
            self.proofs[proof[2:]] = proof

    def of(self, *words):
        return [fact for night in self.nights for fact in night.of(*words)]

    def proof_of(self, answer):
        """Where the pond's own night has the AUTHORITY sent, or None."""
        return self.proofs.get((answer.values[1], answer.values[0]))

    def plain(self):
        yield "pond " + self.pond
        for night in self.nights:
            yield from night.plain()
        for endpoint in sorted({f.moment.endpoint for n in self.nights for f in n.facts} - {"-"}):
            yield " ".join(["at", endpoint] + sorted(self.where[endpoint]))
        for answer in self.of("answered"):
            proof = self.proof_of(answer) or Exchange(0, 0, 0, 0)
            yield "proof %d %d %d %d" % (answer.moment.night, answer.moment.record, proof.night, proof.record)


# --- The question ------------------------------------------------------------------------------------------------------------

def pond_of(word, known):
    """The key that is meant: by a name, by a whole key, or by how one key among the names begins."""
    for fold in (str, str.casefold):
        found = [key for key, name in known.items() if fold(name) == fold(word)]
        if len(found) > 1:
            raise Wrong("%d ponds have the name %s: give the key, or how it begins" % (len(found), word))
        if found:
            return found[0]
    if re.fullmatch("[0-9A-Fa-f]{64}", word):
        return word.lower()
    if not re.fullmatch("[0-9A-Fa-f]{1,63}", word):
        raise Wrong("no pond in the names is called %s" % word)
    found = [key for key in known if key.startswith(word.lower())]
    if len(found) != 1:
        raise Wrong("%s is no pond's name, and %s among the names begins so: give the whole key" % (word, "no key" if not found else "more than one key"))
    return found[0]


def told(root, path):
    """What the program tells of a night, line by line. The trace is its standard input, the second file, if there is one, is at descriptor 4."""
    program, hours = ["tools/run", "target/bin/told"], path[:-len("trace")] + "hours"
    if path.endswith(".trace") and os.path.exists(hours):
        program = ["bash", "-c", 'exec "$@" 4<"$0"', hours] + program
    try:
        with open(path, "rb") as trace:
            run = subprocess.run(program, stdin=trace, capture_output=True, cwd=root)
    except FileNotFoundError:
        raise Wrong("no such file: %s" % path)
    except OSError as error:
        raise Wrong("%s can't be read: %s" % (path, error.strerror))
    if run.returncode or run.stderr:
        raise Wrong("%s is not told to its end: %s" % (path, run.stderr.decode(errors="replace").strip() or "status %d" % run.returncode))
    return run.stdout.decode().splitlines(keepends=True)


def nights_of(pond, paths, told_of):
    """The nights, each read while the next is told."""
    nights = []
    with concurrent.futures.ThreadPoolExecutor(os.cpu_count()) as pool:
        for lines, path in zip(pool.map(told_of, paths), paths):
            nights.append(Night(len(nights) + 1, path, pond))
            nights[-1].read(lines)
    return nights


def taken_apart(words):
    """The option, the pond, the names' file and the nights."""
    option = words[0] if words and words[0] in ("--all", "--plain") else None
    words = words[1:] if option else words
    if words[:1] == ["--"]:
        words = words[1:]
    elif words and words[0].startswith("-"):
        raise Wrong("%s is no option\n%s" % (words[0], USE))
    if len(words) < 3:
        raise Wrong("give a pond, the names and one night or several\n" + USE)
    return option, words[0], words[1], words[2:]


def answer(words, root, made, ready, put):
    """All of it: `made` builds what tells a night, `ready` gives the names of a file, `put` writes pieces. Gives the status."""
    option, word, named, paths = taken_apart(words)
    for path in paths:
        if path == "-" or [os.path.realpath(p) for p in paths].count(os.path.realpath(path)) > 1:
            raise Wrong("each night is a file of its own" if path == "-" else "%s is given twice" % path)
    known = {} if named == "-" else names.by_key(ready(named))
    pond = pond_of(word, known)
    whole = {path: os.path.abspath(path) for path in paths}
    made()
    asked = Asked(pond, nights_of(pond, paths, lambda path: told(root, whole[path])))
    lines = asked.plain() if option == "--plain" else asked_words.Words(asked, known, option == "--all").lines()
    put((line + "\n").encode() for line in lines)
    return int(not all(night.is_sound() for night in asked.nights))
