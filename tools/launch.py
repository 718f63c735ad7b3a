"""Runs a program of the house as a keeper does: bin/replay, bin/shown, bin/ponds, bin/convert, bin/why, bin/nights, bin/asked, bin/changes and
bin/page all come here.

    launch NAME [WORDS..]

The program is proved and built first where what it is made of has changed (tools/prove tells how far that is). Its input and output go through this
launcher, which so sees what can't be read or written, and gives a status, as a program itself has none:

    0  a whole night, whose answers are those of that night where they are known; readings that were all taken; memory that was converted; a record
       that is named; nights that were joined; caches that were compared
    1  a night that is damaged, cut short, or refused from its first call on, or with an answer that is another than that night's, or whose second file
       does not fit; a reading that was refused; memory that is not in the old form; a refusal where a record was to be named; nights that are not whole,
       or not of one gauge; caches that are not in form, or of unequal length
    2  a file that can't be read, an output that can't be written, a wrong use

It goes by the lines that the program writes (WATCHERS) and by what comes on descriptor 2. Names are made ready here (tools/names.py). A conversion of
saved memory changes files, which tools/conversion.py does. Nights are joined by tools/nights.py, without a program. What the nights of several gauges have
of one pond is put together by tools/asked.py. A page of a night is made by tools/page of the lines of bin/shown --plain.
"""
import os
import re
import shutil
import signal
import stat
import subprocess
import sys
import threading

sys.dont_write_bytecode = True
import asked
import conversion
import layers
import names
import nights
import page
import plain

ROOT = os.path.join(os.path.dirname(os.path.realpath(__file__)), "..")
PIECE = 65536
NIGHT = "a recorded night, a file in the form of document 02's request 1 (include/gauge_trace.h writes one)"
STATUS = """It ends with 0 %s, 1 %s,
2 for a file that can't be read, an output that can't be written or a wrong use."""
OF_NIGHT = STATUS % ("for a whole night", "for one that is damaged, cut short or refused from its first call on")
HOURS = """HOURS   the second file of the night (include/gauge_trace.h writes it): a row of 40 bytes for each record, with hour, sender or receiver, and the answer
        that was given; where it is left out, the file beside TRACE with the ending .hours for .trace, if there is one; none where it is -"""
NAMES = """NAMES   a text file: each line a key of 64 hexadecimal digits, a space, tab or comma, and the name of its pond"""

HELP = {
    "replay": """bin/replay [TRACE]

Makes a recorded night again. Writes for each call its number from 1, a space and the answer that it gave; 16 or 17 for a record that can't be used,
which is the last line.

TRACE   %s; standard input where it is left out or -

%s
""" % (NIGHT, OF_NIGHT),
    "shown": """bin/shown [TRACE [NAMES [HOURS]]]
bin/shown --plain [TRACE [HOURS]]

Shows a recorded night in words: each call with its second and its answer's meaning, what it sent, whom it named and why, whom an AUTHORITY answered for,
what the gauge held at the end, how often each answer was given. With --plain it writes plain lines for a program, one fact each.

TRACE   %s; standard input where it is left out or -
%s; none where it is -
%s

%s
""" % (NIGHT, NAMES, HOURS, STATUS % ("for a whole night", "for one that is damaged, cut short or refused from its first call on, with an\nanswer that is another than that night's, or with a second file that does not fit")),
    "ponds": """bin/ponds [READINGS [NAMES]]

Lists packed readings of ponds: each with its depth or fault, its litres in and out and the balance, or why it is refused; then the sums.

READINGS   readings packed as in document 02's request 7 (docs/MEMORY.md), one behind the other; standard input where it is left out or -
%s;
        the first name is that of the first reading, and so on

%s
""" % (NAMES, STATUS % ("for readings that were all taken", "where one was refused or cut short")),
    "asked": """%s

Answers the auditor's two questions for one pond, over the nights of one or several gauges: who answered for it, when, and after whose message; to whom
was it named, and why? Or what was tried, where nobody answered; and what these nights can't tell. Each sentence has the night and the record that it
rests on.

POND    a pond's name, its key of 64 hexadecimal digits, or how its key begins, if no other among the names begins so
%s;
        - for none
NIGHT   %s;
        beside it, with .hours in place of .trace, the second file, if there is one

--all     every item, and not the first and the last alone
--plain   the facts, a line each, for programs (tools/asked.py has their form)

%s
""" % (asked.USE, NAMES, NIGHT, STATUS % ("where all nights are whole", "where one is damaged, cut short or refused, or its answers were others that night")),
    "convert": """bin/convert OWN CACHE [WAITING]

Turns saved memory of the time when a record could have four addresses into the form of one (docs/MEMORY.md): each record keeps its first. A file is
written over only when all is converted. Done twice it changes nothing more. A line tells how many records had more than one address.

OWN       the own record, 100 bytes
CACHE     the cache, 100 bytes for each place
WAITING   the waiting table, 2,240 bytes; an empty one where it is left out

%s
""" % (STATUS % ("where all was converted", "for memory that is not in the old form, which stays as it is")),
    "why": """bin/why [INPUT]

Tells why a gauge names a record for a LOOKUP. Writes the record, its key, port and address, and one reason: it is the only candidate, it has
the target's key, another one is tied with it, or it is the nearest, before the next nearest. Where that can't be told, a number.

INPUT   the gauge's own record as a trace begins with it (kind 4), the length of its cache in 2 bytes, little-endian, the cache, and the LOOKUP
        as it came; standard input where it is left out or -

%s
""" % (STATUS % ("where a record is named", "where it is refused")),
    "nights": """bin/nights [--to OUT] NIGHT..

Joins the nights of one gauge, in the order in which they are given, into one trace, to be made again and shown as one night. The first record of each,
which tells the gauge, must be the same, and is kept once. A night that is damaged or cut short is told, with the record (the first is record 0), and
then nothing is written.

This is right only where the gauge kept its cache and its waiting table from each night to the next, as they were, and no call between them is left out:
a later night begins with what the earlier left. The nights themselves do not tell whether that is so.

OUT     the file of the joined night; standard output where it is left out. Into the file beside it go the hours of the nights (NAME.hours beside
        NAME.trace), where each night has them, a row for each record; else none are written, and that is said
NIGHT   %s

%s
""" % (NIGHT, STATUS % ("where all were joined", "for a night that is damaged, cut short or another gauge's")),
    "changes": """bin/changes OWN BEFORE AFTER [NAMES]

Tells what changed from one saved cache of a gauge to another: each key gone, new, or held with another port or address, in key order; then the sums.

OWN      the own records, 100 bytes each
BEFORE   the first cache, 100 bytes for each place
AFTER    the second, of the same length
%s

%s
""" % (NAMES, STATUS % ("where the two were compared", "for memory that is not in form, or caches of unequal length")),
    "page": """bin/page [--to PAGE] NIGHT [NAMES]

Makes a page of a recorded night, one HTML file with nothing from elsewhere: the ring of keys with the ponds at their places, the line of time, each
record with its answer, each LOOKUP with the record named and the reason, each pond with its story. Its numbers are those of bin/shown --plain.

PAGE    the file of the page; standard output where it is left out
NIGHT   %s; standard input where it is -. Hours are read from the file beside it,
        as bin/shown does
%s

%s
""" % (NIGHT, NAMES, STATUS % ("for a whole night", "for one of which bin/shown --plain tells that it is not: its page is made all the same")),
}
MOST_WORDS = {"replay": 1, "shown": 3, "ponds": 2, "convert": 3, "why": 1, "changes": 4}
PROGRAMS = {"changes": "overnight"}  # what is run under another name


class Fault(Exception):
    """What the keeper is told before status 2."""


# --- What the lines say ------------------------------------------------------------------------------------------------------

class Replay:
    """Each line is a number, a space and an answer."""

    def __init__(self):
        self.calls, self.accepted, self.last = 0, 0, None

    def line(self, text):
        number, _, answer = text.partition(" ")
        self.calls, self.last = self.calls + 1, (number, answer)
        self.accepted += answer == "0"

    def verdict(self):
        """A status, and a word for descriptor 2."""
        if self.last and self.last[1] in ("16", "17"):
            if self.last[0] == "0":
                return 1, "the trace does not open with a gauge's own record: there is no night in it"
            return 1, "the night ends in the middle: record %s can't be used (%s), and what follows it was not looked at" % self.last
        if self.calls and not self.accepted:
            return 1, "no call of this night was accepted: it was refused from its first call on"
        return 0, None


class Shown:
    """Its last line says so where the night is not whole; a line of its own, that an answer is another than that night's, or that the rows do not fit."""
    ENDS = ("This night ends in the middle", "This night has no call that was accepted", "The trace does not open with a gauge's own record")
    OTHER = ("Answers that are not those of that night: ", "The second file does not fit")

    def __init__(self):
        self.last, self.other = "", False

    def line(self, text):
        self.other = self.other or text.startswith(self.OTHER)
        self.last = text

    def verdict(self):
        return int(self.other or self.last.startswith(self.ENDS)), None


class Told:
    """Its last line says how the night ends; behind a record's line may stand the answer that was given."""

    def __init__(self):
        self.words, self.other = [], False

    def line(self, text):
        before, self.words = self.words, text.split(" ")
        if self.words[0] == "hour" and before[:1] == ["record"]:
            self.other = self.other or self.words[3:] != before[3:6]

    def verdict(self):
        return int(self.other or self.words != ["end", "whole"]), None


class Ponds:
    """The sums stand behind the last reading: how many were refused."""

    def __init__(self):
        self.refused = False

    def line(self, text):
        found = re.fullmatch(r"Refused +(\d+)", text)
        self.refused = self.refused or bool(found and int(found.group(1)))

    def verdict(self):
        return int(self.refused), None


class Why:
    """A record and a reason, or a number alone."""
    REFUSED = {"1": "the own record or the cache is not in form", "2": "the datagram's length is not that of a message",
               "3": "the datagram does not begin as a message does", "4": "the datagram is of another major version",
               "5": "the datagram's type is unknown", "6": "the datagram is malformed", "7": "the message is no LOOKUP",
               "16": "the first record or the cache is cut short, or of wrong length",
               "17": "the input does not open with a gauge's own record"}

    def __init__(self):
        self.word = None

    def line(self, text):
        self.word = self.REFUSED.get(text, self.word)

    def verdict(self):
        return int(self.word is not None), self.word


class Changes:
    """One line says so where the caches are refused."""

    def __init__(self):
        self.refused = False

    def line(self, text):
        self.refused = self.refused or text.startswith("refused: ")

    def verdict(self):
        return int(self.refused), None


WATCHERS = {"replay": Replay, "shown": Shown, "told": Told, "ponds": Ponds, "why": Why, "overnight": Changes}


# --- The program -------------------------------------------------------------------------------------------------------------

def build(name):
    """Proves and builds the program where that is needed."""
    if layers.is_made(name):
        return
    if not shutil.which("rt"):
        raise Fault("the Rattle kit is missing: its command rt must be on the PATH")
    if subprocess.run(["tools/prove", name], stdin=subprocess.DEVNULL).returncode != 0:
        raise Fault("not proved, so it is not run")


def opened(path, what):
    try:
        file = os.open(path, os.O_RDONLY)
        if stat.S_ISDIR(os.fstat(file).st_mode):
            raise Fault("%s is a folder; give the file of %s" % (path, what))
        return file
    except FileNotFoundError:
        raise Fault("no such file: %s" % path)
    except OSError as error:
        raise Fault("%s can't be read: %s" % (path, error.strerror))


def ready_names(path, name):
    try:
        return names.ready(opened(path, "names"), path, name, keyed=name != "ponds")
    except OSError as error:
        raise Fault("%s can't be read: %s" % (path, error.strerror))


def hours_of(words):
    """The second file of a night, whole: the third word, or beside the trace. None for none."""
    path = words[2] if len(words) > 2 else re.sub(r"\.trace$", ".hours", words[0]) if words else "-"
    if path == "-" or (len(words) < 3 and (path == words[0] or not os.path.exists(path))):
        return None
    try:
        with os.fdopen(opened(path, "hours"), "rb") as file:
            return file.read()
    except OSError as error:
        raise Fault("%s can't be read: %s" % (path, error.strerror))


def is_open(descriptor):
    try:
        os.fstat(descriptor)
        return True
    except OSError:
        return False


def set_up():
    """Descriptors 0 to 4 are taken from the start on, so that no file gets one of these: 3 is for names, 4 for hours."""
    closed = [descriptor for descriptor in (0, 1, 2) if not is_open(descriptor)]
    while os.open(os.devnull, os.O_RDWR) < 4:
        pass
    for descriptor in (3, 4):
        os.dup2(os.open(os.devnull, os.O_RDONLY), descriptor)
    if 1 in closed:
        raise Fault("standard output can't be written: it is closed")
    return 0 not in closed


def input_of(name, words, readable):
    """The descriptor that is read: of a file, or standard input."""
    what = {"ponds": "readings", "why": "own record, cache and LOOKUP"}.get(name, "a trace")
    if words and words[0] != "-":
        return opened(words[0], what)
    if not readable:
        raise Fault("standard input is closed; give the file of %s" % what)
    if stat.S_ISDIR(os.fstat(0).st_mode):
        raise Fault("standard input is a folder; give the file of %s" % what)
    if os.isatty(0) and not words:
        raise Fault("give %s: bin/%s FILE, or bin/%s <FILE; bin/%s --help tells more" % (what, name, name, name))
    return 0


def held(data):
    """A descriptor from which these bytes are read."""
    made = os.memfd_create("input")
    with os.fdopen(os.dup(made), "wb") as file:
        file.write(data)
    os.lseek(made, 0, os.SEEK_SET)
    return made


class Run:
    """The program, with what goes in and what comes out."""

    def __init__(self, name, source, text, hours=None):
        self.name, self.source, self.watcher = name, source, WATCHERS[name]()
        self.unread = self.complained = None
        keep = [descriptor for descriptor, content in ((3, text), (4, hours)) if content is not None]
        for descriptor, content in ((3, text), (4, hours)):
            os.dup2(held(content or b""), descriptor)
        self.child = subprocess.Popen(["tools/run", "target/bin/" + name], stdin=subprocess.PIPE, stdout=subprocess.PIPE, stderr=subprocess.PIPE,
                                      pass_fds=keep)

    def feed(self):
        """All that can be read goes to the program, as long as it takes some."""
        try:
            with self.child.stdin as pipe:
                while True:
                    try:
                        piece = os.read(self.source, PIECE)
                    except OSError as error:
                        self.unread = error.strerror
                        return
                    if not piece:
                        return
                    pipe.write(piece)
                    pipe.flush()
        except BrokenPipeError:  # it has ended, at a record that it can't use
            pass

    def complain(self):
        for piece in iter(lambda: os.read(self.child.stderr.fileno(), PIECE), b""):
            self.complained = True
            os.write(2, piece)

    def copy(self):
        """What the program writes, line by line, to standard output."""
        rest = b""
        for piece in iter(lambda: os.read(self.child.stdout.fileno(), PIECE), b""):
            put(piece)
            *lines, rest = (rest + piece).split(b"\n")
            for line in lines:
                self.watcher.line(line.decode(errors="replace"))

    def whole(self):
        """Runs it to its end; its status."""
        threads = [threading.Thread(target=t, daemon=True) for t in (self.feed, self.complain)]
        for thread in threads:
            thread.start()
        try:
            self.copy()
            os.close(1)
        except OSError as error:
            self.child.kill()
            unwritten(error)
        status = self.child.wait()
        threads[1].join()
        if self.unread:
            raise Fault("the input can't be read to its end (%s): this is not all" % self.unread)
        if status:
            raise Fault("the program ended with status %d, which it should not: this is not all" % status)
        if self.complained:
            return 2
        answer, word = self.watcher.verdict()
        if word:
            sys.stderr.write("%s: %s\n" % (self.name, word))
        return answer


def unwritten(error):
    """Standard output takes no more: whoever reads has read enough, or the keeper is told."""
    if isinstance(error, BrokenPipeError):
        signal.signal(signal.SIGPIPE, signal.SIG_DFL)
        os.kill(os.getpid(), signal.SIGPIPE)
    raise Fault("standard output can't be written (%s): this is not all; make room and run it again" % error.strerror)


def put(piece):
    while piece:
        piece = piece[os.write(1, piece):]


def compared(words):
    """The own records and two caches, as the program reads them: a length of two bytes in front of the first two."""
    if len(words) < 3:
        raise Fault("give the files of the own records and of the two caches\n%s" % HELP["changes"].split("\n")[0])
    try:
        own, before, after = (conversion.read(path, None, what) for path, what in zip(words, ("own records", "a cache", "a cache")))
    except conversion.Wrong as wrong:
        raise Fault(wrong)
    return held(len(own).to_bytes(2, "little") + own + len(before).to_bytes(2, "little") + before + after)


def converted(words):
    """Files of saved memory, by tools/conversion.py."""
    if len(words) < 2:
        raise Fault("give the files of the own record and of the cache\n%s" % HELP["convert"].split("\n")[0])

    def made():
        os.chdir(ROOT)
        build("conversion")

    try:
        status, said = conversion.convert(words, ROOT, made)
    except conversion.Wrong as wrong:
        raise Fault(wrong)
    if status:
        sys.stderr.write("convert: %s\n" % said)
    else:
        put((said + "\n").encode())
    return status


def joined(words):
    """The nights of one gauge as one, by tools/nights.py."""
    try:
        paths, to = nights.words_of(words)
    except nights.Wrong as wrong:
        raise Fault("%s\n%s" % (wrong, HELP["nights"].split("\n")[0]))
    if to is None and os.isatty(1):
        raise Fault("a trace is nothing for a terminal: give --to OUT")
    try:
        whole = nights.checked(paths)
        if to is None:
            put_pieces(nights.joined(whole))
            return 0
        told, others = nights.to_file(whole, to)
    except nights.Wrong as wrong:
        raise Fault(wrong)
    except nights.Refused as refused:
        sys.stderr.write("nights: %s; nothing was written\n" % refused)
        return 1
    put_pieces([(told + "\n").encode()])
    for word in others:
        sys.stderr.write("nights: %s\n" % word)
    return 0


def paged(words):
    """A night as a page, by tools/page, of the lines that bin/shown --plain writes."""
    try:
        night, of_ponds, to = page.words_of(words)
    except page.Wrong as wrong:
        raise Fault("%s\n%s" % (wrong, HELP["page"].split("\n")[0]))
    if to is None and os.isatty(1):
        raise Fault("a page is nothing for a terminal: give --to PAGE")
    read = [path for path in (night, re.sub(r"\.trace$", ".hours", night), of_ponds) if path and path != "-"]
    if to is not None and os.path.realpath(to) in map(os.path.realpath, read):
        raise Fault("%s is read for the page: give another name for the page" % to)
    if to is not None and os.path.exists(to) and not os.path.isfile(to):
        raise Fault("%s can't be written: it is no file" % to)
    text = ready_names(of_ponds, "page") if of_ponds else b""
    there = "./" + night if night.startswith("-") and night != "-" else night
    shown = subprocess.Popen([sys.executable, os.path.realpath(__file__), "shown", "--plain", there], stdout=subprocess.PIPE)
    try:
        with page.kept(shown.stdout) as lines:
            status = shown.wait()
            if status not in (0, 1):  # it has told why
                return 2
            pieces = page.pieces(lines, names.by_key(text), night)
            if to is None:
                put_pieces(pieces)
            else:
                page.to_file(to, pieces)
    except (page.Wrong, plain.Wrong) as wrong:
        raise Fault(wrong)
    return status


def put_pieces(pieces):
    """All to standard output."""
    try:
        for piece in pieces:
            put(piece)
        os.close(1)
    except OSError as error:
        unwritten(error)


def asked_of(words):
    """One pond over several nights, by tools/asked.py."""
    def made():
        os.chdir(ROOT)
        build("told")

    try:
        return asked.answer(words, os.path.realpath(ROOT), made, lambda path: ready_names(path, "asked"), put_pieces)
    except asked.Wrong as wrong:
        raise Fault(wrong)


def main(name, words):
    readable = set_up()
    if name not in HELP:
        raise Fault("%s is none of %s" % (name, ", ".join(HELP)))
    if words and words[0] in ("--help", "-h"):
        sys.stdout.write(HELP[name])
        return 0
    if name == "nights":
        return joined(words)
    if name == "asked":
        return asked_of(words)
    if name == "page":
        return paged(words)
    program = PROGRAMS.get(name, name)
    if name == "shown" and words[:1] == ["--plain"]:  # its words are TRACE and HOURS: no names are told
        program, words = "told", words[1:2] + (["-"] + words[2:] if len(words) > 2 else [])
    if words[:1] == ["--"]:
        words = words[1:]
    elif words and words[0].startswith("-") and words[0] != "-":
        raise Fault("%s is no option\n%s" % (words[0], HELP[name].split("\n")[0]))
    if len(words) > MOST_WORDS[name]:
        raise Fault("too many words\n%s" % HELP[name].split("\n")[0])
    if name == "convert":
        return converted(words)
    source = compared(words) if name == "changes" else input_of(name, words, readable)
    text, hours, place = None, None, 3 if name == "changes" else 1
    if len(words) > place and (words[place] != "-" or name != "shown"):
        text = ready_names(words[place], name)
    if name == "shown":
        hours = hours_of(words)
    os.chdir(ROOT)
    build(program)
    if os.uname().machine != "x86_64" and not shutil.which("qemu-x86_64"):
        raise Fault("an emulator is missing: make tools installs it")
    status = Run(program, source, text, hours).whole()
    if hours == b"":
        sys.stderr.write("shown: the second file is empty: it does not fit\n")
        return max(status, 1)
    return status


if __name__ == "__main__":
    try:
        sys.exit(main(sys.argv[1] if len(sys.argv) > 1 else "", sys.argv[2:]))
    except Fault as fault:
        sys.stderr.write("%s: %s\n" % (sys.argv[1] if len(sys.argv) > 1 else "launch", fault))
        sys.exit(2)
    except KeyboardInterrupt:
        sys.exit(130)
