#!/usr/bin/env python3
"""The vectors that the programs `vectors` and `vector_rooms` run, and what they must write of them.

    vectors.py --write    writes stdin and stdout of both, in crates/
    vectors.py --check    compares the files with what is said here; a test of the gate

The answers are made here, by whole numbers and slices of Python and from the documents. Nothing is taken from a run of the gauge.
"""
if not __debug__:
    raise SystemExit("vectors.py: run it without -O and PYTHONOPTIMIZE, which leave its asserts out")
import os
import re
import sys

import vector_calls
import vector_changes
import vector_memory
import vector_messages

CRATES = os.path.join(os.path.dirname(os.path.abspath(__file__)), "..", "..", "crates")
ANSWERS = 120  # the column behind which vector_rooms has its answers
TOP = 2 ** 256 - 1
HEADER = bytes.fromhex("001000 0C51")  # document 01: the first five bytes of every message


def hexed(operand):
    """An operand as it stands in a line: a number with an even count of digits, or bytes; `-` for none; `Z` and four digits for so many zeros."""
    if isinstance(operand, int):
        return "%0*X" % (2 * max(1, (operand.bit_length() + 7) // 8), operand)
    text, at = "", 0
    for run in re.finditer(rb"\0{12,65535}", operand):
        text += operand[at:run.start()].hex().upper() + "Z%04X" % len(run.group())
        at = run.end()
    return text + operand[at:].hex().upper() or "-"


def key(n):
    return n.to_bytes(32, "big")


def read(name, at, s):
    size, order = {"u16": (2, "big"), "u32": (4, "big"), "u64": (8, "big"),
                   "u16-le": (2, "little"), "u32-le": (4, "little"), "u64-le": (8, "little")}[name]
    return str(int.from_bytes(s[at:at + size], order)) if at + size <= len(s) else "outside"


def yes(b):
    return "yes" if b else "no"


def order(x, y):
    word = "less" if x < y else "more" if y < x else "same"
    return word + " " + word  # in hand, and where they lie


def written(s):
    return s.hex() or "-"


def spliced(at, new, s):
    return s[:at] + new + s[at + len(new):]


def vectors():
    """Headings as strings, vectors as (operands, answer): the layers from the lowest up."""
    yield "# a vector is a name and operands in hexadecimal; Z and four digits stand for that many zero bytes, - for none"
    yield from ground()
    yield from vector_messages.vectors()
    yield from vector_memory.vectors()
    yield from vector_calls.vectors()
    yield from vector_changes.vectors()


def ground():
    """Bytes, runs of bytes, keys."""
    def reads(name, at, s):
        return (name, at, s), read(name, at, s)

    def all_widths(order, end=""):
        for size, name in ((2, "u16"), (4, "u32"), (8, "u64")):
            for value in (0, 1, 255, 256, 2 ** (8 * size - 1), 2 ** (8 * size) - 1):
                yield reads(name + end, 0, value.to_bytes(size, order))
            yield reads(name + end, 3, b"\xAA" * 3 + bytes(range(1, size + 1)) + b"\xBB")
            yield reads(name + end, 1, bytes(size))

    def puts(name, at, n, s):
        size = 2 if "16" in name else 4
        return (name, at, n, s), written(spliced(at, n.to_bytes(size, "little" if "le" in name else "big"), s))

    yield "# numbers at a place, most significant byte first: the ends of each width"
    yield from all_widths("big")
    yield "# document 003: the message ID of its AUTHORITY, and the header's fixed bytes"
    yield reads("u32", 0, bytes.fromhex("D8859CF5"))
    yield reads("u16", 0, HEADER)
    yield reads("u16", 2, HEADER)
    yield "# least significant byte first"
    yield from all_widths("little", "-le")
    yield "# numbers written at a place: the bytes beside them stay"
    for name, top in (("put16", 65535), ("put16-le", 65535), ("put32", 4294967295), ("put32-le", 4294967295)):
        for n in (0, 1, 258, top):
            yield puts(name, 1, n, b"\xEE" * 6)
    yield puts("put32", 0, 0x00100C51, b"\xEE" * 4)

    yield "# are two slices equal? the header's fixed bytes, each changed, one left out, one more"
    yield ("equal", HEADER, HEADER), "yes"
    for i in range(5):
        changed = bytearray(HEADER)
        changed[i] ^= 1
        yield ("equal", HEADER, bytes(changed)), "no"
    yield ("equal", HEADER, HEADER[:4]), "no"
    yield ("equal", HEADER, HEADER + b"\0"), "no"
    yield ("equal", b"", b""), "yes"
    yield ("equal", bytes(99) + b"\x80", bytes(99) + b"\x80"), "yes"
    yield ("equal", bytes(99) + b"\x80", bytes(99) + b"\x81"), "no"
    yield "# is a slice all zero?"
    yield ("zero", b""), "yes"
    for n in (1, 15, 16, 17, 100):
        yield ("zero", bytes(n)), "yes"
        yield ("zero", bytes(n - 1) + b"\1"), "no"
        yield ("zero", b"\x80" + bytes(n - 1)), "no"
    for at in (0, 3, 47):
        s = bytearray(56)
        s[at] = 255
        for first, count in ((0, 6), (0, 7), (1, 6), (8, 6), (4, 0), (56, 0)):
            yield ("zero-words", first, count, bytes(s)), yes(not any(s[first:first + 8 * count]))
    yield ("zero-words", 1, 7, bytes(56)), "outside"

    yield "# runs of bytes: copied, cleared, moved with and without overlap, inserted, removed"
    s = bytes(range(1, 13))
    for at, src in ((0, b""), (0, b"\xAA\xBB"), (10, b"\xAA\xBB"), (12, b""), (0, bytes(12))):
        yield ("copy", at, 0, s, src), written(spliced(at, src, s))
    for at, n in ((0, 0), (0, 12), (3, 4), (12, 0)):
        yield ("clear", at, n, s), written(spliced(at, bytes(n), s))
    for start, to, n in ((0, 0, 12), (4, 0, 8), (1, 0, 11), (6, 2, 3), (0, 4, 8), (0, 1, 11), (2, 6, 3), (5, 5, 0)):
        yield ("move", start, to, s, n), written(spliced(to, s[start:start + n], s))
    for at, end, src in ((0, 0, b"\xAA"), (0, 10, b"\xAA\xBB"), (4, 8, b"\xAA\xBB\xCC"), (10, 10, b"\xAA\xBB"), (3, 12, b"")):
        yield ("insert", at, end, s, src), written(spliced(at, src + s[at:end], s))
    for at, n, end in ((0, 2, 12), (4, 3, 12), (4, 3, 9), (10, 2, 12), (0, 0, 12), (0, 12, 12)):
        yield ("remove", at, n, s, end), written(spliced(at, s[at + n:end] + bytes(n), s))

    yield "# keys: plain order and difference on the line, near 2^32, at each word's end and at both ends of 256 bits"
    edges = [0, 1, 2 ** 32 - 1, 2 ** 32, 2 ** 64 - 1, 2 ** 64, 2 ** 128 - 1, 2 ** 128, 2 ** 192, 2 ** 255 - 1, 2 ** 255, TOP - 1, TOP]
    for x, y in list(zip(edges, edges[1:])) + [(n, n) for n in edges] + [(0, TOP), (2 ** 32, TOP), (1, 2 ** 64), (2 ** 64, 2 ** 128 + 1)]:
        for a, b in ((x, y), (y, x)) if x != y else ((x, y),):
            yield ("order", key(a), key(b)), order(a, b)
            yield ("differ", key(a), key(b)), key(abs(a - b)).hex()
            yield ("same", key(a), key(b)), yes(a == b)
    yield "# document 01, case 8: keys 4294967295 and 4294967296 differ by 1"
    yield ("differ", key(4294967295), key(4294967296)), key(1).hex()
    yield "# the old gauge's slip: four bytes kept of a difference would give 0, and 4294967295"
    yield ("differ", key(0), key(2 ** 32)), key(2 ** 32).hex()
    yield ("differ", key(7), key(6)), key(1).hex()
    yield ("differ", key(6), key(7)), key(1).hex()
    yield from ring()


def ring():
    """Document 02, Wish 4: keys go round. The answers are Python's numbers modulo 2^256; where the document has one in words, it is here."""
    half = 2 ** 255

    def up(a, b):
        return (b - a) % 2 ** 256

    def minus(a, b, want=None):
        assert want is None or up(b, a) == want
        return ("minus", key(a), key(b)), key(up(b, a)).hex()

    def far(a, b, want=None):
        assert want is None or min(up(a, b), up(b, a)) == want
        return ("far", key(a), key(b)), key(min(up(a, b), up(b, a))).hex()

    def above(own, k, want):
        assert (1 <= up(own, k) <= half) == want
        return ("above", key(own), key(k)), yes(want)

    yield "# one key less another, modulo 2^256: what is borrowed goes through all 32 bytes, and through one word"
    yield minus(1, 2, TOP)
    yield minus(2 ** 64 - 1, 2 ** 64, TOP)
    yield minus(0, 1, TOP)
    yield minus(0, TOP, 1)
    yield minus(5, 5, 0)
    yield minus(TOP, TOP, 0)
    yield minus(0, half, half)
    yield minus(half, 0, half)
    for bits in (8, 64, 120, 128, 136, 192, 248):
        yield minus(0, 2 ** bits, 2 ** 256 - 2 ** bits)
        yield minus(2 ** bits, 1, 2 ** bits - 1)
        yield minus(2 ** bits, 2 ** bits + 1, TOP)
        yield minus(1, 2 ** bits, 2 ** 256 - 2 ** bits + 1)
        yield minus(2 ** bits - 1, TOP, 2 ** bits)
    yield "# how far apart: the shorter way round; case 8 stays: keys 4294967295 and 4294967296 differ by 1"
    yield far(4294967295, 4294967296, 1)
    yield far(4294967296, 4294967295, 1)
    yield far(0, TOP, 1)
    yield far(TOP, 0, 1)
    yield far(1, TOP, 2)
    for start in (0, 1, half, TOP):
        for steps in (0, 1, half - 1, half, half + 1, TOP):
            yield far(start, (start + steps) % 2 ** 256, min(steps, 2 ** 256 - steps))
    yield "# above is from 1 to 2^255 steps up, so the key just opposite too; our own key is not above itself"
    for own in (0, 1, 100, 2 ** 64, half - 1, half, half + 1, TOP):
        for steps, want in ((0, False), (1, True), (half - 1, True), (half, True), (half + 1, False), (TOP, False)):
            yield above(own, (own + steps) % 2 ** 256, want)
    for own, k, want in ((100, 99, False), (100, 101, True), (0, TOP, False), (TOP, 0, True), (2 ** 64, 1, False), (1, 2 ** 64, True),
                         (100, TOP, False), (TOP, 100, True)):
        yield above(own, k, want)
    yield from closeness()


def closeness():
    half = 2 ** 255

    def both_ways(target, nearer, other):
        yield ("closer", key(target), key(nearer), key(other)), "yes"
        yield ("closer", key(target), key(other), key(nearer)), "no"

    yield "# document 01, cases 6 and 7; 9 as document 02 has it, 0 before 5; a key is not closer than itself"
    for target, nearer, other in ((100, 99, 101), (100, 99, 50), (0, 1, 9), (0, 9, 4294967296), (0, 1, 4294967296), (TOP, 0, 5)):
        yield from both_ways(target, nearer, other)
    for n in (0, 50, half, TOP):
        yield ("closer", key(50), key(n), key(n)), "no"
    yield "# equally far: the one reached by going down from the target, the larger number where that goes over the end"
    for target, down, upward in ((0, TOP, 1), (TOP, TOP - 1, 0), (1, 0, 2), (1, TOP, 3), (TOP - 1, TOP - 2, TOP),
                                 (TOP - 1, TOP - 3, 0), (half, half - 1, half + 1),
                                 (0, half + 1, half - 1), (1, half + 2, half), (half, 1, TOP), (TOP, half, half - 2), (half - 1, 0, TOP - 1),
                                 (2 ** 64, 2 ** 64 - 1, 2 ** 64 + 1), (5, 2 ** 256 - 2 ** 128 + 5, 2 ** 128 + 5)):
        assert (target - down) % 2 ** 256 == (upward - target) % 2 ** 256 < half
        yield from both_ways(target, down, upward)
    yield "# the key just opposite is farther than any other; one step less is nearer on either way, over the end too"
    for target in (0, 1, half, TOP):
        opposite = (target + half) % 2 ** 256
        for steps in (0, 1, half - 1, half + 1, TOP):
            yield from both_ways(target, (target + steps) % 2 ** 256, opposite)
        yield from both_ways(target, (target - 3) % 2 ** 256, (target + 4) % 2 ** 256)
        yield from both_ways(target, (target + 3) % 2 ** 256, (target - 4) % 2 ** 256)


def in_rooms():
    """The vectors of `vector_rooms`: of each group whose functions take a line the first and the last of each name; some of 131,072 bytes, twice what
    `vectors` has room for; and operands that are no keys, behind a line that leaves other bytes in the rooms. In hand each of these stands for 0; as they
    lie, zeros follow those that are shorter."""
    for group in (ground, vector_messages.vectors, vector_memory.vectors, vector_changes.vectors):
        of_group = [v for v in group() if not isinstance(v, str)]
        for ordered in (of_group[::-1], of_group):
            yield from {v[0][0]: v for v in ordered}.values()
    s = bytes(131071) + b"\1"
    yield ("zero", s), yes(not any(s))
    yield ("equal", s, s), "yes"
    yield ("equal", s, bytes(131072)), "no"
    for name, at in (("u16", 131070), ("u32-le", 131068)):
        yield (name, at, s), read(name, at, s)
    for at in (131056, 131064):
        yield ("zero-words", at, 1, s), yes(not any(s[at:at + 8]))
    yield ("equal", b"\xFF" * 99, b"\xFF" * 99), "yes"
    for x, y in ((b"\1", b"\1\2"), (b"\1\2", b"\1\2\0"), (b"\2", b"\1"), (b"", b"")):
        yield ("order", x, y), "same " + order(x.ljust(32, b"\0"), y.ljust(32, b"\0")).split()[1]
        yield ("differ", x, y), key(0).hex()


def line_of(operands):
    return " ".join([operands[0]] + [hexed(o) for o in operands[1:]])


def text():
    lines, answers = [], []
    for v in vectors():
        if isinstance(v, str):
            lines.append(v)
            answers.append(v)
        else:
            operands, answer = v
            lines.append(line_of(operands))
            answers.append(lines[-1] + " = " + answer)
    return "\n".join(lines) + "\n", "\n".join(answers) + "\n"


def text_in_rooms():
    lines = [(line_of(operands), answer) for operands, answer in in_rooms()]
    return "".join(line + "\n" for line, _ in lines), "".join("%s = %s\n" % (line.ljust(ANSWERS), answer) for line, answer in lines)


def main():
    if sys.argv[1:] not in (["--write"], ["--check"]):
        sys.exit(__doc__)
    for layer in (vector_messages, vector_memory, vector_calls, vector_changes):
        layer.check()  # by hand against the model, and nothing left out
    good = True
    wanted = {"vectors": text(), "vector_rooms": text_in_rooms()}
    for program, name, made in [(p, name, made) for p, files in wanted.items() for name, made in zip(("stdin", "stdout"), files)]:
        path = os.path.join(CRATES, program, name)
        if sys.argv[1] == "--write":
            with open(path, "w") as f:
                f.write(made)
        elif open(path).read() != made:
            print("crates/%s/%s is not what tests/vectors/vectors.py makes of the documents: run it with --write and read the difference" % (program, name))
            good = False
    if sys.argv[1] == "--check":
        print("vectors: %d lines as the documents have them" % wanted["vectors"][0].count("\n") if good else "vectors: stale")
    sys.exit(0 if good else 1)


if __name__ == "__main__":
    main()
