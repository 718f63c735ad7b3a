"""Words of a night's page for what has numbers there: answers, readings, hours, places; and whose a key is. All that is not ours is escaped here."""
import datetime
import ipaddress
import shlex

import plain

from .drawn import escaped

MEANINGS = (  # as crates/shown_words says them
    "accepted", "the gauge's own record or memory is not as it must be", "shorter than 12 or longer than 1232 bytes",
    "no message of a gauge: it begins otherwise", "of another major version", "of an unknown type",
    "damaged: something in it is wrong, missing or too much", "not taken here: SOLICIT, ADVERTISE, REQUEST or a part of an AUTHORITY",
    "late or stray: nothing waits for it", "not trusted: its proof is missing or not good", "not trusted: its proof is for another key than asked about",
    "it speaks of this gauge's own key", "an INQUIRE for another's key, or a FLOOD with a key that is not held",
    "a message with the same ID is waiting already", "no place free: 16 messages are waiting already", "no room for what would have to be sent",
    "cut short, or not as long as such a record is", "of no known kind, or the opening record is missing or comes again")
UNREAD = ("", "of wrong length, or cut short", "of an unknown kind", "its depth is not from 0 to 20 metres")  # readings, as crates/ponds says them


def count(n):
    return "{:,}".format(n)


def some(n, one, more=None):
    return "%s %s" % (count(n), one if n == 1 else more or one + "s")


def meaning(number):
    return MEANINGS[number] if number < len(MEANINGS) else "a number of a later version"


def short_key(key):
    return key[:8] + ".." + key[-8:]


def place_of(port, address):
    return "%s port %s" % (ipaddress.IPv6Address(int(address, 16)), port)


def endpoint(digits):
    """Of 36 digits."""
    return place_of(int(digits[:4], 16), digits[4:])


def utc(ms, form="%H:%M:%S"):
    """Of an hour that is known (tools/plain.py)."""
    return (datetime.datetime(1970, 1, 1) + datetime.timedelta(milliseconds=ms)).strftime(form)


# --- Readings ----------------------------------------------------------------------------------------------------------------

def measured(words):
    """Depth or fault."""
    if words[0] == "fault":
        return "fault %s" % words[1]
    return plain.metres(words[1])


def litres(words):
    """Litres in without litres out."""
    return int(words[2]) - int(words[3])


def balance(words):
    """These litres with their sign, and a word where they are a deficit."""
    n = litres(words)
    if n < 0:
        return '<span class="deficit">−%d litres, a deficit</span>' % -n
    return "%s%d litres" % ("+" if n else "", n)


def reading(words):
    if words[0] == "refused":
        return "a reading that is refused: %s %s" % (words[1], escaped(UNREAD[int(words[1])] if int(words[1]) < len(UNREAD) else ""))
    return "%s, %s litres in, %s out, balance %s" % (measured(words), words[2], words[3], balance(words))


def terms(rows):
    return '<dl class="facts">%s</dl>' % "".join("<dt>%s</dt><dd>%s</dd>" % row for row in rows)


# --- Whose a key is ------------------------------------------------------------------------------------------------------------

class Whose:
    """What the parts of a page share: `night`, the names of the ponds, the links to their stories, and how the keeper calls the file of the night."""

    def __init__(self, night, names, file):
        self.night, self.names, self.file, self.links = night, names, file, {}

    def name(self, key):
        return self.names.get(key) or short_key(key)

    def label(self, key):
        """Short enough for the ring."""
        return self.names.get(key) or key[:4] + ".." + key[-4:]

    def plain(self, key):
        return escaped(self.name(key)) if key in self.names else '<span class="key">%s</span>' % escaped(short_key(key))

    def whose(self, key):
        if key not in self.links:
            return self.plain(key)
        return '<a href="#%s">%s</a>' % (self.links[key], self.plain(key))

    def hour(self, second):
        ms = self.night.hour_at.get(second)
        return utc(ms) if ms else ""

    def when(self, n, at):
        second, ms = at
        return "record %d, second %d%s" % (n, second, ", " + utc(ms) if ms else "")

    def clock(self, at):
        """The hour alone, or the second."""
        second, ms = at
        return utc(ms) if ms else "second %d" % second

    def more(self, n, one, more):
        """How many are not written out, and how they are seen; nothing where there are none."""
        if n <= 0:
            return ""
        return '<p class="soft more">%s not written out here: <code>bin/shown %s</code> shows all.</p>' % (
            some(n, one + " is", more + " are"), escaped(shlex.quote(self.file)))
