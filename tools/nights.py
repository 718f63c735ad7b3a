"""The nights of one gauge joined into one trace: bin/nights comes here from tools/launch.py.

A trace is told by include/gauge_trace.h, and which record of it can't be used by document 02's request 1: the same that stop a replay are refused here.
Every night is walked through to its end before a byte is written. What is written stands in a file beside its place first, and takes its name when it is
whole: so a night may be joined to the file of those before it.
"""
import os
import stat

import replaced

PIECE = 1 << 20
ROW = 40                                    # bytes of the hours for each record
OPENING, RECEIVE, SEND, TICK = 4, 1, 2, 3   # the kinds of records
BODIES = {OPENING: 102, SEND: 68, TICK: 0}  # how long the body of a record is, ..
RECEIVE_LEAST = 53                          # .. or is at least, before the datagram


class Wrong(Exception):
    """What the keeper is told before status 2."""


class Refused(Exception):
    """What the keeper is told before status 1: a night that can't be joined."""


def number(piece):
    return int.from_bytes(piece, "little")


def is_right_length(kind, length):
    return length >= RECEIVE_LEAST if kind == RECEIVE else length == BODIES[kind]


class Night:
    """A trace, open: its first record, how many records it has with that one, and where the last of them ends."""

    def __init__(self, path):
        self.path, self.file = path, opened(path, "a trace")
        self.opening, self.records, self.end = b"", 0, 0
        while self.take():
            pass
        if not self.records:
            raise Refused("%s does not open with a gauge's own record: there is no night in it" % path)

    def bad(self, why):
        return Refused("%s: record %d %s" % (self.path, self.records, why))

    def take(self):
        """The next record; whether there was one. The first one is record 0, as a replay counts."""
        head = self.read(4)
        if not head:
            return False
        length, kind = number(head[:2]), number(head[2:])
        if len(head) < 4 or length < 2:
            raise self.bad("is cut short, or too short to be one")
        body = self.read(length - 2)
        if len(body) < length - 2:
            raise self.bad("is cut short")
        if kind != RECEIVE and kind not in BODIES:
            raise self.bad("is of kind %d, which there is not" % kind)
        if not is_right_length(kind, len(body)):
            raise self.bad("is of kind %d, and has %d bytes, which is none of its lengths" % (kind, len(body)))
        if (kind == OPENING) != (self.records == 0):
            raise self.bad("opens a night, and is not the first" if kind == OPENING else "is the first, and not a gauge's own record")
        if kind == OPENING:
            self.opening = head + body
        self.records, self.end = self.records + 1, self.end + len(head + body)
        return True

    def read(self, length):
        return read(self.file, self.path, length)

    def calls(self):
        """All behind the first record, in pieces, as far as it was walked through."""
        return pieces(self.file, self.path, len(self.opening), self.end)


def opened(path, what):
    try:
        file = open(path, "rb")
    except FileNotFoundError:
        raise Wrong("no such file: %s" % path)
    except IsADirectoryError:
        raise Wrong("%s is a folder; give the file of %s" % (path, what))
    except OSError as error:
        raise Wrong("%s can't be read: %s" % (path, error.strerror))
    if not stat.S_ISREG(os.fstat(file.fileno()).st_mode):
        raise Wrong("%s is no file that can be read twice; give the file of %s" % (path, what))
    return file


def read(file, path, length):
    try:
        return file.read(length)
    except OSError as error:
        raise Wrong("%s can't be read to its end: %s" % (path, error.strerror))


def pieces(file, path, begin, end):
    file.seek(begin)
    while begin < end:
        piece = read(file, path, min(PIECE, end - begin))
        if not piece:
            raise Wrong("%s has become shorter while it was read" % path)
        begin += len(piece)
        yield piece


# --- Hours -------------------------------------------------------------------------------------------------------------------

def hours_of(path):
    """Where the hours of a trace stand."""
    return (path[:-len(".trace")] if path.endswith(".trace") else path) + ".hours"


class Hours:
    """The rows of a night, open; why they can't be used, or None."""

    def __init__(self, night):
        self.path, self.rows, self.why = hours_of(night.path), night.records, None
        if not os.path.exists(self.path):
            self.why = "%s has none beside it (%s)" % (night.path, self.path)
            return
        self.file = opened(self.path, "hours")
        size = os.fstat(self.file.fileno()).st_size
        if size != ROW * self.rows:
            self.why = "%s has %d bytes, and not %d for each of the %d records of %s" % (self.path, size, ROW, self.rows, night.path)

    def from_row(self, first):
        return pieces(self.file, self.path, ROW * first, ROW * self.rows)

    def hour(self, row):
        return number(b"".join(pieces(self.file, self.path, ROW * row, ROW * row + 8)))


def out_of_order(nights, hours):
    """A word on each night that begins before the one before it ends, by their hours; 0 is no hour."""
    for i in range(1, len(nights)):
        ended, began = hours[i - 1].hour(hours[i - 1].rows - 1), hours[i].hour(0)
        if began and began < ended:
            yield "%s begins at an earlier hour than %s ends: is that their order?" % (nights[i].path, nights[i - 1].path)


# --- Joining -----------------------------------------------------------------------------------------------------------------

def joined(nights):
    """The trace in pieces: the first record once, then the calls of each."""
    yield nights[0].opening
    for night in nights:
        yield from night.calls()


def joined_hours(hours):
    for i, rows in enumerate(hours):
        yield from rows.from_row(0 if i == 0 else 1)


def checked(paths):
    """The nights, all whole and of one gauge."""
    if len({os.path.realpath(path) for path in paths}) < len(paths):
        raise Wrong("one night is given twice")
    nights = [Night(path) for path in paths]
    for night in nights[1:]:
        if night.opening != nights[0].opening:
            raise Refused("%s is a night of another gauge, or of another version: its first record is not that of %s" % (night.path, paths[0]))
    return nights


def replace(contents):
    """The files of a joined night take their places."""
    try:
        replaced.replace(contents, ".joining")
    except OSError as error:
        raise Wrong("%s can't be written: %s" % (error.filename or contents[0][0], error.strerror))


def places_for(to, nights):
    """The files of the joined night and of its hours: links are followed. A night's trace may stand in the first place, and its hours in the second."""
    place, beside = os.path.realpath(to), os.path.realpath(hours_of(to))
    if os.path.isdir(place):
        raise Wrong("%s is a folder; give the name of a file" % to)
    if place in {os.path.realpath(hours_of(night.path)) for night in nights} or beside in {os.path.realpath(night.path) for night in nights}:
        raise Wrong("%s would be written over one of the nights: give another name" % to)
    return place, beside


def to_file(nights, to):
    """Writes the joined night, and its hours where each night has them. What is told of it: a line, and words on what is not as it might be."""
    place, beside = places_for(to, nights)
    hours = [Hours(night) for night in nights]
    told = "joined: nights %d, calls %d, in %s" % (len(nights), sum(night.records - 1 for night in nights), to)
    without = [rows.why for rows in hours if rows.why]
    if without:
        if os.path.exists(beside):
            raise Wrong("%s is there, and would not be the hours of these nights (%s): take it away, or give another name" % (hours_of(to), without[0]))
        replace([(place, joined(nights))])
        return told, ["no hours are written: " + without[0]]
    words = list(out_of_order(nights, hours))
    # the hours first: broken off between the two, they fit no trace and the same command is refused, where it would join a night for the second time
    replace([(beside, joined_hours(hours)), (place, joined(nights))])
    return "%s, and their hours in %s" % (told, hours_of(to)), words


def words_of(words):
    """The nights, and where they go to, or None."""
    to, words = None, list(words)
    while words and words[0].startswith("-"):
        option = words.pop(0)
        if option == "--":
            break
        if option != "--to":
            raise Wrong("%s is no option" % option)
        if not words:
            raise Wrong("--to wants the name of a file")
        if to is not None:
            raise Wrong("--to is given twice")
        to = words.pop(0)
    if not words:
        raise Wrong("give the nights, in their order")
    return words, to
