#!/usr/bin/env python3
"""Brings the names of definitions and lemmas to the spelling of today's Rattle: respell.py [--table], once, at the top of a tree that its port.py has turned.

Words are in snake case, types in camel case; a dash stands between two names, as in `digits_be-append`, and a plain word is added with `_`. What is a
name is read from the tree: a definition of specs/, or a word of the library. Names of src/, of records that Rattle makes, and what is imported
from a library keep their spelling. --table writes old and new name, a pair on each line, and changes nothing.
"""
import collections
import glob
import re
import sys

NAME = r"[^\s(){}.;,@\"«»\[\]\\`]+"
TOP = re.compile(r"^(?:(?:abbrev|unfoldable)\s+)?(?:pub\s+)?(?:(record|data)\s+)?(%s) :(?:\s|$)" % NAME)
MEMBER = re.compile(r"^\s+(?:pub )?(%s) : " % NAME)
TOKEN = re.compile(r"(--[^\n]*)|(\"(?:[^\"\\]|\\.)*\")|(%s)" % NAME)


def snake(part):
    return re.sub(r"(?<=[a-z0-9])([A-Z]+)", lambda m: "_" + m.group(1).lower(), part)


def files(*ends):
    found = (f for end in ends for f in glob.glob("crates/*/**/*" + end, recursive=True))
    return sorted(f for f in found if "/out/" not in f)


def read(path):
    with open(path, encoding="utf-8") as file:
        return file.read()


def imported(text):
    """What the file takes from libraries, and not from crates of this repository."""
    out = set()
    for m in re.finditer(r"(?m)^(?:ghost )?(?:pub )?use ([^\s{;]+?)\.?(?:\{([^}]*)\})?;?$", text):
        own = re.match(r"Rattle\.(\w+)\.", m.group(1))
        if own and own.group(1) in CRATES:
            continue
        for it in (m.group(2) or "").split(","):
            out.update(it.split()[-1:])
    return out


def collected():
    """Definitions of specs, lemmas, members of records, and words of the library."""
    specs, lemmas, members, words = set(), set(), set(), set()
    for f in files(".antt"):
        text = read(f)
        words |= imported(text)
        kind = None
        for line in text.splitlines():
            top = TOP.match(line)
            if top:
                kind = top.group(1)
                if re.search(r" : tie\.|-spec\b|_spec\b", line):
                    continue
                (specs if "/specs/" in f else lemmas).add(top.group(2))
            elif re.match(r"\S", line):
                kind = None
            elif kind:
                m = MEMBER.match(line)
                if m:
                    members.add(m.group(1))
    return specs, lemmas, members, words


def joined(name, known):
    parts = [snake(p) if p[:1].islower() else p for p in name.split("-")]
    groups, at = [], 0
    while at < len(parts):
        end = next((e for e in range(len(parts), at, -1) if "_".join(parts[at:e]) in known), at + 1)
        groups.append("_".join(parts[at:end]))
        at = end
    out = groups[0]
    for before, it in zip(groups, groups[1:]):
        out += ("-" if before in known and it in known else "_") + it
    return out


def turned(specs, lemmas, members, words):
    plain = lambda n: re.fullmatch(r"[A-Za-z][\w']*", n)
    known = {snake(n) if n[:1].islower() else n for n in specs if plain(n)} | {w for w in words if plain(w)}
    table, of_members = {}, {}
    for n in sorted(specs | lemmas):
        if not re.fullmatch(r"[A-Za-z][\w'₀-₉-]*", n):
            continue
        if n in specs and n[0].isupper():
            new = "".join(p[:1].upper() + p[1:] for p in n.split("-"))
        else:
            new = joined(n, known)
        if new != n:
            table[n] = new
    apart(specs, lemmas, table)
    for n in sorted(members):
        new = snake(n).replace("-", "_")
        if new != n:
            of_members[n] = new
    return table, of_members


def apart(specs, lemmas, table):
    """A lemma that would have the name of a definition, or of another lemma, gets `_lem`."""
    taken = collections.Counter(table.get(n, n) for n in specs)
    for n in sorted(lemmas - specs, key=lambda n: (n in table, "-" in n)):
        new = table.get(n, n)
        while taken[new]:
            new += "_lem"
        taken[new] += 1
        if new != n:
            table[n] = new


def respelled(text, table, of_members, antt):
    """The text with each name of the table. A name behind a dot is one of a record, unless a module stands before the dot."""
    keep = imported(text)

    def name(m, at):
        old = m.group(3)
        before = text[: m.start()]
        if before.endswith("."):
            stem = re.search(r"(%s)\.$" % NAME, before)
            if not (stem and stem.group(1)[:1].isupper()):
                return of_members.get(old, old)
            return table.get(old, of_members.get(old, old))
        if old in keep or (not antt and not re.search("[a-z][A-Z]", old) and not clause(before)):
            return old
        return table.get(old, of_members.get(old, old))

    def one(m):
        if m.group(1) and antt:
            return re.sub(r"[A-Za-z][\w']*", lambda w: table.get(w.group(), w.group()) if re.search("[a-z][A-Z]", w.group()) else w.group(), m.group(1))
        if m.group(2) or m.group(1):
            return m.group()
        return name(m, m.start())

    return TOKEN.sub(one, text)


def clause(before):
    """Of Rust: does a clause or a ghost use stand open here?"""
    line = before[before.rfind("\n") + 1 :]
    return bool(re.match(r"\s*(ghost use|requires|ensures|old:|new:)", line))


CRATES = {f.split("/")[1] for f in glob.glob("crates/*/src")}


def main():
    table, of_members = turned(*collected())
    if sys.argv[1:] == ["--table"]:
        for old, new in sorted({**of_members, **table}.items()):
            print(old, new)
        return
    for f in files(".antt", ".rt", ".edit"):
        text = read(f)
        new = respelled(text, table, of_members, f.endswith(".antt"))
        if new != text:
            with open(f, "w", encoding="utf-8") as file:
                file.write(new)


main()
