"""The plain lines of a night, which the program `told` writes (bin/shown --plain), read record by record. bin/asked and bin/page read a night so, and no
trace.
"""
import struct

# Each word that a line begins with, and how many stand behind it at least and at most.
WORDS = {"opened": (5, 5), "record": (6, 9), "hour": (5, 5), "about": (1, 1), "for": (1, 1), "revoking": (1, 1), "answers": (1, 1), "named": (5, 7),
         "answered": (5, 5), "reading": (2, 4), "sent": (2, 3), "again": (3, 3), "gaveup": (3, 3), "freed": (3, 3), "joined": (1, 1), "left": (1, 1),
         "held": (1, 1), "below": (0, 5), "above": (0, 5), "end": (1, 3)}
NOBODY = "0" * 36            # the endpoint of a tick
LAST_HOUR = 253402300800000  # milliseconds up to the year 9999; what is not below it is no hour


class Wrong(Exception):
    """Lines that are none of a night."""


class Hour:
    """A row of the second file: the hour, the sender or receiver, and the answer that was given that night."""

    def __init__(self, words):
        self.ms, self.at, self.answer = int(words[1]), words[2], words[3:6]

    def is_known(self):
        return 0 < self.ms < LAST_HOUR

    def endpoint(self):
        """36 digits; None for nobody."""
        return None if self.at == NOBODY else self.at


class Record:
    """A record with its answer, made again, and the facts behind it, each a list of words; its row of the second file, if there is one."""

    def __init__(self, words):
        self.number, self.second, self.answer, self.what = int(words[1]), int(words[2]), words[3:6], words[6:]
        self.hour, self.facts = None, []

    def take(self, words):
        if words[0] == "hour":
            self.hour = Hour(words)
        else:
            self.facts.append(words)

    @property
    def taken(self):
        return self.answer[0] == "0"

    def is_bad(self):
        """Can it not be used, so that it is no call?"""
        return self.what[0] == "bad"

    def is_other(self):
        """Is its answer, made again, another than that night's?"""
        return self.hour is not None and self.hour.answer != self.answer

    def of(self, word):
        """What stands behind this word, each time that it is there."""
        return [fact[1:] for fact in self.facts if fact[0] == word]

    def one(self, word):
        return next(iter(self.of(word)), None)

    def ms(self):
        """The hour, or None where it is not known."""
        return self.hour.ms if self.hour and self.hour.is_known() else None

    def endpoint(self):
        return self.hour.endpoint() if self.hour else None


def words_of(line, n):
    words = line.rstrip("\n").split(" ")
    least, most = WORDS.get(words[0], (1, 0))
    if not line.endswith("\n") or not least <= len(words) - 1 <= most:
        raise Wrong("line %d is none that bin/shown --plain writes, or is cut short" % n)
    return words


def walked(lines):
    """The words of the opening line and of its row, each Record, and the words of the last line, in order."""
    record, ended = None, False
    for n, line in enumerate(lines, 1):
        words = words_of(line, n)
        if ended:
            raise Wrong("line %d stands behind the end" % n)
        ended = words[0] == "end"
        if words[0] in ("record", "end"):
            if record:
                yield record
            record = None if ended else Record(words)
            if ended:
                yield words
        elif record:
            record.take(words)
        elif words[0] in ("opened", "hour"):
            yield words
        else:
            raise Wrong("line %d, a fact, stands before the first record" % n)
    if not ended:
        raise Wrong("the lines end before the night does")


def unfit_of(end):
    """Of the words of the last line: how many rows a second file has that does not fit; None where it fits, or there is none."""
    return int(end[3]) if len(end) > 3 else None


def metres(bits):
    """A depth, by the bits that a line has of it: to the millimetre, as bin/ponds shows it."""
    return "%.3f m" % abs(struct.unpack("<f", struct.pack("<I", int(bits)))[0])
