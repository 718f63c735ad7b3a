"""Names of ponds made ready for the programs `shown`, `ponds` and `changes` (tools/launch): what a keeper's file has, as the plain text that they read.

A line of the file is a key of 64 hexadecimal digits, a space, a tab or a comma (or several), and the name. A byte order mark in front, and line ends of
another system, are taken. An empty line and one that begins with # are passed over. Told on descriptor 2, with the line's number: a line that is no
name, a key that is there twice (the first counts), a name that is there twice, a name that is cut, control characters, which are left out, bytes that
are no UTF-8, and lines that do not fit.
"""
import os
import re
import sys
import unicodedata

LONGEST = 40       # bytes of a name that are shown: crates/shown_words/src/names.rt
MOST = 65536       # bytes of names that the programs take: crates/shown/src/main.rt, crates/ponds/src/main.rt
READ = 1 << 24     # bytes of a file that are looked at
TOLD = 10          # so many lines are told of each kind, and then how many there are
FORM = re.compile(r"([0-9A-Fa-f]{64})(?:[ \t,]+(.*))?")
CONTROL = {"Cc", "Cf", "Cs", "Zl", "Zp"}  # control and format characters, and separators of lines


class Words:
    """What is told, with as many lines of a kind as anybody reads."""

    def __init__(self, program, path):
        self.program, self.path, self.counts = program, path, {}

    def tell(self, kind, line, text):
        self.counts[kind] = self.counts.get(kind, 0) + 1
        if self.counts[kind] <= TOLD:
            sys.stderr.write("%s: %s, line %d: %s\n" % (self.program, self.path, line, text))

    def end(self):
        for kind, n in self.counts.items():
            if n > TOLD:
                sys.stderr.write("%s: %s: %s: %d lines in all\n" % (self.program, self.path, kind, n))


def all_of(descriptor):
    """What the file has; a file that is longer than anybody's is not read to its end."""
    pieces, left = [], READ
    while left:
        piece = os.read(descriptor, min(left, 65536))
        if not piece:
            break
        pieces.append(piece)
        left -= len(piece)
    return b"".join(pieces)


def cut(name):
    """At most LONGEST bytes of it, no character in part."""
    data = name.encode()[:LONGEST]
    return data.decode(errors="ignore")


def clean(name, n, words):
    """A name without what must not reach a terminal."""
    kept = "".join(c for c in name if unicodedata.category(c) not in CONTROL)
    if kept != name:
        words.tell("control characters", n, "control characters in the name are left out")
    if "\ufffd" in kept:
        words.tell("no UTF-8", n, "bytes in the name are no UTF-8, and are shown as \ufffd")
    kept = kept.strip()
    if len(kept.encode()) > LONGEST:
        words.tell("cut", n, "the name is longer than %d bytes, and is cut" % LONGEST)
    return cut(kept).strip()


def pairs(text, words):
    """Key, name and number of each line; an empty name for a line that is none, which so keeps its place."""
    for n, line in enumerate(re.split(r"\r\n|\n|\r", text), 1):
        if not line.strip() or line.lstrip().startswith("#"):
            continue
        found = FORM.fullmatch(line.strip(" \t"))
        name = clean(found.group(2) or "", n, words) if found else ""
        if not found:
            words.tell("no name", n, "no name: 64 hexadecimal digits, a space, tab or comma, and the name are wanted")
        elif not name:
            words.tell("no name", n, "no name behind the key")
        yield (found.group(1).lower() if found else None), name, n


def told_twice(key, name, n, keys, seen, words):
    """Tells a key or a name that was there; whether the key was."""
    again = key in keys
    if again:
        words.tell("a key twice", n, "the key of line %d again" % keys[key])
    elif name and name in seen:
        words.tell("a name twice", n, "the name of line %d again, for another key" % seen[name])
    if key is not None:
        keys.setdefault(key, n)
    if name:
        seen.setdefault(name, n)
    return again


def ready(descriptor, path, program, keyed):
    """The text for the program: `key name` of each line, or where it is not keyed the name alone, for each line in its place."""
    words, keys, seen, lines, size = Words(program, path), {}, {}, [], 0
    text = all_of(descriptor).decode("utf-8-sig", errors="replace")
    for key, name, n in pairs(text, words):
        again = told_twice(key, name, n, keys, seen, words)
        if keyed and (again or not name):
            continue
        line = ("%s %s\n" % (key, name) if keyed else name + "\n").encode()
        size += len(line)
        if size > MOST:
            words.tell("no room", n, "no room for this name, nor for those behind it: %d fit" % len(lines))
            break
        lines.append(line)
    words.end()
    return b"".join(lines)


def by_key(text):
    """The names of a keyed text that is ready, by their keys."""
    return {line[:64]: line[65:] for line in text.decode().split("\n") if line}
