"""A page of a night (bin/page) read back from its HTML, beside the plain lines that it was made of, which are taken apart here once more."""
import html.parser
import io
import os
import sys

sys.path.insert(0, os.path.join(os.path.dirname(os.path.abspath(__file__)), "..", "..", "tools"))
import page

EMPTY = {"meta", "input", "br"}                                 # elements without an end
CLOSES = {"td": {"td", "th"}, "th": {"td", "th"}, "tr": {"td", "th", "tr"}}  # what an element ends that was left open
ENDS = {"tbody": {"td", "th", "tr"}, "thead": {"td", "th", "tr"}, "tfoot": {"td", "th", "tr"}}
held = 0  # how many things were held to what they must be


class Unlike(Exception):
    """Something on a page is not what it must be."""


def same(what, got, want):
    global held
    held += 1
    if got != want:
        raise Unlike("%s is %r, and must be %r" % (what, got, want))


def number(text):
    return int(text.replace(",", ""))


# --- Elements ------------------------------------------------------------------------------------------------------------------

class Element:
    def __init__(self, tag, attributes):
        self.tag, self.attributes, self.inside = tag, dict(attributes), []

    def classes(self):
        return (self.attributes.get("class") or "").split()

    def text(self):
        return "".join(part if isinstance(part, str) else part.text() for part in self.inside)

    def all(self, tag=None, name=None):
        for part in self.inside:
            if isinstance(part, Element):
                if (tag is None or part.tag == tag) and (name is None or name in part.classes()):
                    yield part
                yield from part.all(tag, name)

    def texts(self, tag=None, name=None):
        return [element.text() for element in self.all(tag, name)]

    def one(self, tag=None, name=None):
        found = list(self.all(tag, name))
        same("how many %s %s there are" % (tag, name), len(found), 1)
        return found[0]

    def terms(self):
        """What its list of terms says."""
        terms = [part for part in self.one("dl", "facts").inside if isinstance(part, Element)]
        return {terms[i].text(): terms[i + 1].text() for i in range(0, len(terms), 2)}


class Read(html.parser.HTMLParser):
    """The elements of a page, one in the other; each that is opened must be closed, but rows and cells."""

    def __init__(self, text):
        super().__init__()
        self.root = Element("", ())
        self.open = [self.root]
        self.feed(text)
        self.close()
        same("what is left open", [element.tag for element in self.open], [""])

    def handle_starttag(self, tag, attributes):
        while self.open[-1].tag in CLOSES.get(tag, ()):
            self.open.pop()
        element = Element(tag, attributes)
        self.open[-1].inside.append(element)
        if tag not in EMPTY:
            self.open.append(element)

    def handle_startendtag(self, tag, attributes):
        self.open[-1].inside.append(Element(tag, attributes))

    def handle_endtag(self, tag):
        while self.open[-1].tag in ENDS.get(tag, ()):
            self.open.pop()
        same("what ends", tag, self.open.pop().tag)

    def handle_data(self, data):
        self.open[-1].inside.append(data)


# --- The lines, taken apart for themselves ---------------------------------------------------------------------------------------

class Line:
    """A record: its words, and its facts, each a list of words."""

    def __init__(self, words):
        self.words, self.facts = words, []
        self.n, self.second, self.answer, self.what = words[1], int(words[2]), words[3:6], words[6:]

    def of(self, word):
        return [fact[1:] for fact in self.facts if fact[0] == word]

    def is_refused(self):
        return self.answer[0] != "0" and self.what[0] != "bad"

    def hour(self):
        """Milliseconds, endpoint and the answer that was given; None where the second file has no row for it."""
        return (self.of("hour") or [None])[0]


def records_of(lines):
    records = []
    for line in lines.split("\n")[:-1]:
        words = line.split(" ")
        if words[0] == "record":
            records.append(Line(words))
        elif records and words[0] != "end":
            records[-1].facts.append(words)
    return records


class Seen:
    """A page beside its lines."""

    def __init__(self, lines, names=None, title="NIGHT.trace"):
        with page.kept(io.BytesIO(lines.encode())) as file:
            self.text = b"".join(page.pieces(file, names or {}, title)).decode()
        self.root, self.lines, self.records = Read(self.text).root, lines, records_of(lines)
        opened = lines.split("\n")[0].split(" ")
        self.own = opened[3] if opened[0] == "opened" else None

    def facts(self, word):
        """Each with the number of its record."""
        return [(record.n, fact) for record in self.records for fact in record.of(word)]

    def last(self, word):
        """What stands behind the word for the last time; nothing where it does not."""
        return (self.facts(word) or [("", [])])[-1][1]

    def section(self, name):
        found = [section for section in self.root.all("section") if section.attributes["id"] == name]
        same("how many sections %s there are" % name, len(found), 1)
        return found[0]

    def rows(self, name):
        """The cells of each row of the tables with this name."""
        return [row.texts("td") for table in self.root.all("table", name) for row in table.one("tbody").all("tr")]

    def ponds(self):
        """The story of each, by its key."""
        return {pond.attributes["data-key"]: pond for pond in self.root.all("details", "pond")}

    def marks(self):
        """The marks on the ring, by the links that they are."""
        return {a.attributes["href"]: next(a.all("g", "m")) for ring in self.root.all("svg", "ring") for a in ring.all("a") if not a.classes()}
