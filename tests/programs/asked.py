#!/usr/bin/env python3
"""What bin/asked says, held against the model's facts and the sentences made of them. tests/programs/asked makes the nights and calls this.

    asked.py FOLDER            FOLDER/hill has the hill's nights, FOLDER/hill.names its names, FOLDER/random random nights
    asked.py FOLDER --whole    all nights of the hill, for each of its ponds; no test of the gate

The lines that the program `told` has for a night are read once, whichever pond is asked for.
"""
import collections
import glob
import importlib.util
import os
import subprocess
import sys

import asked_wanted

sys.dont_write_bytecode = True
ROOT = os.path.realpath(os.path.join(os.path.dirname(__file__), "..", ".."))
sys.path.insert(0, os.path.join(ROOT, "tools"))
import asked
import asked_words

MODEL = "target/tests/model_asked-alone"
# The hill: 7 falls silent, 20 is revoked, 33 replaced by 62, which is new and asks 10; 8 is 7's neighbour.
HILL = (8, 33, 62, 10)
PONDS = (9, 7, 20, 33, 62)
NEVER = "00" * 31 + "07"
# Facts that must be met, each with the word at this place of it: which of them there are.
PLACE = {"answered": 10, "left": 6, "refused": 5, "revoked": 6, "inquired": 6, "again": 6, "gaveup": 6, "waiting": 2, "ended": 1, "named": 11, "sought": 8}
KINDS = {"answered": "dropped joined kept", "left": "denied dropped revoked", "named": "nearest only target tied", "sought": "nearest",
         "refused": "8 9 10", "revoked": "0 11", "inquired": "FLOOD LOOKUP", "again": "INQUIRE", "gaveup": "FLOOD INQUIRE", "waiting": "FLOOD INQUIRE",
         "ended": "middle refused unopened whole"}
REACHED = ["%s %s" % (word, kind) for word, kinds in KINDS.items() for kind in kinds.split()] + "freed flooded acked proved heard unfit rows".split()
told, reached, held = {}, collections.Counter(), []  # of what was held: the question, what was found out, and what must be said


def fault(text):
    sys.exit("asked: " + text)


def lines_of(path):
    if path not in told:
        told[path] = asked.told(ROOT, os.path.abspath(path))
    return told[path]


def facts(key, paths):
    """By the model; what was reached is counted."""
    run = subprocess.run([MODEL, key] + paths, capture_output=True, text=True)
    if run.returncode:
        fault("the model on %s: %s" % (paths, run.stderr))
    for line in run.stdout.splitlines():
        words = line.split(" ")
        reached[" ".join(words[:1] + ([words[PLACE[words[0]]]] if words[0] in PLACE else []))] += 1
    return run.stdout.splitlines()


def found(key, paths, by=asked):
    """What the program finds out: by its own part or, where a bug is planted, by that one."""
    return by.Asked(key, by.nights_of(key, paths, lines_of))


def said(whole, names, words=asked_words):
    """The facts and both texts."""
    return [list(whole.plain())] + [list(words.Words(whole, names, every).lines()) for every in (False, True)]


def wanted(key, paths, names):
    model_facts = facts(key, paths)
    return [model_facts] + [asked_wanted.Wanted(model_facts, names, every).lines() for every in (False, True)]


def hold(key, paths, names):
    must, whole = wanted(key, paths, names), found(key, paths)
    for got, want in zip(said(whole, names), must):
        if got != want:
            odd = [pair for pair in zip(got + [""] * len(want), want + [""] * len(got)) if pair[0] != pair[1]][0]
            fault("%s of %s: said is\n  %s\nand must be\n  %s" % (key, " ".join(paths), *odd))
    held.append((key, paths, names, whole, must))


# --- Nights --------------------------------------------------------------------------------------------------------------------

def names_in(folder):
    return {line[:64]: line[65:].rstrip("\n") for line in open(folder + "/hill.names", encoding="utf-8")}


def keys_in(path):
    """Keys that a night has much to say of: the own one, those told of most often, and some that left the cache or never got into it."""
    words = [line.rstrip("\n").split(" ") for line in lines_of(path)]
    often = collections.Counter(key for line in words for key in line if len(key) == 64)
    by_word = {word: [line[1] for line in words if line[0] == word] for word in ("left", "joined", "answered")}
    unkept = [key for key in by_word["answered"] if key not in by_word["joined"]]
    own = [line[3] for line in words if line[0] == "opened"]
    return dict.fromkeys(own + [key for key, _ in often.most_common(4)] + by_word["left"][-2:] + unkept[:1])


def random_nights(folder):
    """The longest of them, and those that end badly."""
    paths = sorted(glob.glob(folder + "/random/*.trace"), key=lambda path: -os.path.getsize(path))
    if len(paths) < 100:
        fault("only %d random nights" % len(paths))
    return paths[:8]


def write(path, data):
    with open(path, "wb") as file:
        file.write(data)


def half_night(folder):
    """Pond 33's own night cut in the middle, so that it has only some of what it sent."""
    whole = open(folder + "/hill/pond-33.trace", "rb").read()
    write(folder + "/half.trace", whole[:len(whole) // 2])
    return folder + "/half.trace"


def damaged_nights(folder):
    """The new gauge's night damaged in each way."""
    trace, hours = (open(folder + "/hill/pond-62." + end, "rb").read() for end in ("trace", "hours"))
    own = bytearray(trace)
    own[4 + 2 + 34] = 2  # the own record's count of addresses, which is 1: each call is refused
    row = bytearray(hours)
    row[40 * 100 + 26] ^= 1  # an answer's number, ..
    row[40 * 200 + 34] ^= 1  # .. and another's second count
    row[40 * 107:40 * 107 + 8] = bytes([255] * 8)  # no hour
    odd = bytearray(hours)
    odd[40 * 300 + 38] = 1
    hourless = b"".join(bytes(26) + hours[at + 26:at + 40] for at in range(0, len(hours), 40))
    ways = {"bare": (trace, None), "cut": (trace[:-1], hours), "other": (trace, bytes(row)), "fewer": (trace, hours[:-80]),
            "more": (trace, hours + bytes(40)), "odd": (trace, bytes(odd)), "part": (trace, hours[:-3]), "none": (trace, b""),
            "hourless": (trace, hourless), "refused": (bytes(own), None), "empty": (b"", None)}
    os.makedirs(folder + "/damaged", exist_ok=True)
    for name, (data, rows) in ways.items():
        path = "%s/damaged/%s.trace" % (folder, name)
        write(path, data)
        if rows is not None:
            write(path[:-5] + "hours", rows)
        yield path


# --- The program itself ----------------------------------------------------------------------------------------------------------

def run(words, status, cwd=None):
    ended = subprocess.run([ROOT + "/bin/asked"] + words, capture_output=True, text=True, stdin=subprocess.DEVNULL, cwd=cwd)
    if ended.returncode != status:
        fault("bin/asked %s ends with %d, not %d: %s" % (" ".join(words), ended.returncode, status, ended.stderr))
    return ended.stdout.splitlines(), ended.stderr


def launched(folder, names):
    """From another folder, by name, by key and by how a key begins; each option; nights that are damaged; wrong uses."""
    seven = next(key for key, name in names.items() if name == "pond 7")
    nights = ["hill/pond-62.trace", "hill/pond-33.trace"]
    paths = ["%s/%s" % (folder, night) for night in nights]
    want = wanted(seven, paths, names)
    texts = [run(["--plain", "pond 7", "hill.names"] + nights, 0, folder), run([seven[:9], "hill.names"] + nights, 0, folder),
             run(["--all", seven.upper(), "hill.names"] + nights, 0, folder)]
    for (got, stderr), must in zip(texts, [[line.replace(folder + "/", "") for line in want[0]]] + want[1:]):
        if got != must or stderr:
            fault("bin/asked says otherwise than its parts: %s" % stderr)
    for night, status in (("bare", 0), ("cut", 1), ("other", 1)):
        run(["pond 7", folder + "/hill.names", "%s/damaged/%s.trace" % (folder, night)], status)
    for words, word in ((["pond 7", folder + "/hill.names"], "give a pond"), ([seven, "-", folder + "/nothing.trace"], "no such file"),
                        ([seven, folder + "/nothing", paths[0]], "no such file"), ([seven, "-", paths[0], paths[0]], "given twice")):
        if word not in run(words, 2)[1]:
            fault("bin/asked %s does not say '%s'" % (" ".join(words), word))


def refused(word, call, *words):
    try:
        call(*words)
    except asked.Wrong as wrong:
        if word in str(wrong):
            return
    fault("%s is not refused with '%s'" % (words, word))


def meant(names):
    """Which pond is meant, and which is not."""
    one, other = sorted(names)[:2]
    names = {**names, one: "Fonte", other: "fonte", "0" * 64: "Lago", "0" * 63 + "1": "Lago"}
    for word, key in (("Fonte", one), ("fonte", other), (one, one), (one.upper(), one), (one[:12], one), ("f" * 64, "f" * 64)):
        if asked.pond_of(word, names) != key:
            fault("%s is taken for another pond" % word)
    refused("2 ponds have the name", asked.pond_of, "Lago", names)
    refused("2 ponds have the name", asked.pond_of, "FONTE", names)
    refused("more than one key", asked.pond_of, "0" * 63, names)
    refused("no key", asked.pond_of, "ffff", names)
    refused("no pond in the names is called", asked.pond_of, "pond 99", names)
    refused("is no option", asked.taken_apart, ["--every", "Lago", "-", "night"])


# --- Planted bugs ----------------------------------------------------------------------------------------------------------------

# Of the program's parts: the file, the text that is replaced, which stands there once, and the one in its place.
BUGS = (
    ("asked", 'how = "kept" if was_held else "joined"', 'how = "joined" if was_held else "joined"'),
    ("asked", "str(keys.index(self.pond) + 1)", "str(keys.index(self.pond))"),
    ("asked", 'self.sides = {}, {}, False, 0, {"below": [], "above": []}', 'self.sides = {}, {}, False, 0, {"above": [], "below": []}, None'),
    ("asked", "if self.inquiries.get(inquiry) == self.pond:", "if inquiry in self.inquiries:"),
    ("asked", 'if (kind, key) == ("FLOOD", self.pond):', 'if kind == "FLOOD":'),
    ("asked", "        elif target == self.pond:\n", "        elif target == self.own:\n"),
    ("asked", 'if key == self.pond:\n            self.tell(record, "named"', 'if target == self.pond:\n            self.tell(record, "named"'),
    ("asked", "if record.is_other():", "if record.hour.answer[0] != record.answer[0]:"),
    ("asked", "self.first_differing = self.first_differing or record.number", "self.first_differing = record.number"),
    ("asked", 'self.left(record, "dropped", key)', 'self.left(record, "dropped", self.pond)'),
    ("asked", "self.belongings.add((record.endpoint(), neighbour))", "self.belongings.add((record.endpoint(), self.own))"),
    ("asked", "proof = self.proof_of(answer) or Exchange(0, 0, 0, 0)", "proof = self.proof_of(answer) or list(self.proofs.values())[-1]"),
    ("asked", "return self.proofs.get((answer.values[1], answer.values[0]))", "return self.proofs.get((answer.values[0], answer.values[1]))"),
    ("asked", "        self.seconds = record.second\n", "        self.seconds = record.second + 1\n"),
    ("asked_words", "in_words([self.whose(k) for k in there], \"or\")", "self.whose(there[0])"),
    ("asked_words", "sorted(facts, key=lambda f: (int(f.moment.ms) if timed else 0,", "sorted(facts, key=lambda f: (0,"),
    ("asked_words", "if f.moment.record == int(record))", "if f.values[1])"),
    ("asked_words", "                    found.append((*waits, fact))\n", "                    pass\n"),
    ("asked_words", '(distance, self.whose(other), others)', '(others, self.whose(other), distance)'),
    ("asked_words", "self.in_order(acked)[-1]", "self.in_order(acked)[0]"),
    ("asked_words", "if not self.own():\n            lines", "if self.own():\n            lines"),
    ("asked_words", "            if night.differing:\n                lines", "            if night.end == 'other':\n                lines"),
    ("asked_words", "not self.own() and not any(n.facts or n.heard_at for n in self.nights)", "not any(n.of('answered') for n in self.nights)"),
)


def changed(name, old, new):
    """A part of the program with the bug in it."""
    source = open("tools/%s.py" % name, encoding="utf-8").read()
    if source.count(old) != 1:
        fault("a bug replaces a text that stands %d times in %s.py: %s" % (source.count(old), name, old))
    module = importlib.util.module_from_spec(importlib.util.spec_from_loader(name, None))
    exec(compile(source.replace(old, new), name, "exec"), module.__dict__)
    return module


def is_found(name, old, new):
    part = changed(name, old, new)
    for key, paths, names, whole, must in sorted(held, key=lambda h: sum(len(lines_of(path)) for path in h[1])):
        try:
            if (said(found(key, paths, part), names) if name == "asked" else said(whole, names, part)) != must:
                return True
        except (KeyError, ValueError, IndexError, StopIteration, AttributeError, TypeError):
            return True
    return False


def planted():
    for bug in BUGS:
        if not is_found(*bug):
            fault("a bug is not found: in %s.py '%s' for '%s'" % (bug[0], bug[2], bug[1]))


def main():
    folder, whole = sys.argv[1], sys.argv[2:] == ["--whole"]
    names = names_in(folder)
    by_name = {name: key for key, name in names.items()}
    nights = ["%s/hill/pond-%d.trace" % (folder, n) for n in HILL]
    if whole:
        nights = sorted(glob.glob(folder + "/hill/*.trace"))
    for key in list(names) if whole else [by_name["pond %d" % n] for n in PONDS] + [NEVER]:
        hold(key, nights, names)
    for path in random_nights(folder):
        for key in keys_in(path):
            hold(key, [path], {})
    for path in damaged_nights(folder):
        for n in (7, 62):
            hold(by_name["pond %d" % n], [path], names)
    hold(by_name["pond 33"], [folder + "/hill/pond-10.trace", folder + "/hill/pond-8.trace", half_night(folder)], names)
    meant(names)
    launched(folder, names)
    missing = [what for what in REACHED if not reached[what]]
    if missing:
        fault("never reached: " + ", ".join(missing))
    planted()
    lines = sum(len(text) for *_, must in held for text in must)
    print("count: planted %d" % len(BUGS))
    print("asked: %d questions, %d lines as the model has them; %d planted bugs are found" % (len(held), lines, len(BUGS)))


if __name__ == "__main__":
    main()
