#!/usr/bin/env python3
"""What changed in the cache of the hill's recorded gauge, by the model.

    hill_changes.py HILL    HILL.own, HILL.before.cache, HILL.after.cache and HILL.trace are what examples/hill.c writes: the lines that it must say

The second cache must be the one that the recorded calls leave when the model makes them again.
"""
import sys

import with_models
import model
import model_night

WORDS = {1: "gone", 2: "new", 3: "another port or address"}


def contents(path):
    with open(path, "rb") as f:
        return f.read()


def main():
    own, before, after, trace = (contents(sys.argv[1] + ending) for ending in (".own", ".before.cache", ".after.cache", ".trace"))
    if model_night.replay(trace)[1].cache != after:
        sys.exit("hill_changes: the recorded calls leave another cache than was saved")
    number, entries, _, listed = model.compare(own, before, after, bytes(2 * 101 * 64))
    if number != 0 or entries == 0:
        sys.exit("hill_changes: the saved caches are refused, or nothing has changed")
    print("What changed since every list was right for the first time, of what pond %d's gauge holds:" % (own[0] // 4))
    said = ["pond %d %s" % (listed[101 * i + 1] // 4, WORDS[listed[101 * i]]) for i in range(entries)]
    print("  " + ", ".join(said))  # a key begins with four times the pond's number


if __name__ == "__main__":
    main()
