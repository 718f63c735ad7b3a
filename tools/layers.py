"""Which crates a crate is made of, by crates.txt, and whether what was made of it is what its sources say now: for tools/prove and tools/launch.py.
Run in the repository's folder."""
import hashlib
import os
import re


def uses():
    """What each crate uses."""
    lines = re.findall(r"^(\w+)(?: +staticlib)? *:(.*)$", open("crates.txt", encoding="utf-8").read(), re.M)
    return {name: words.split() for name, words in lines}


def below(names):
    """The crates that these are made of, themselves with them, in the order in which rt proves them: each behind those that it uses. KeyError for one
    that is not there."""
    table, found = uses(), {}

    def walk(name):
        for used in table[name]:
            if used in table and used not in found:
                walk(used)
        found[name] = True
    for name in names:
        walk(name)
    return list(found)


def product(name):
    """Where the program or the archive of a crate is put; None for a library."""
    if os.path.exists("crates/%s/src/main.rt" % name):
        return "target/bin/" + name
    if re.search(r"^%s +staticlib *:" % name, open("crates.txt", encoding="utf-8").read(), re.M):
        return "target/staticlib/lib%s.a" % name
    return None


def sources(name):
    """All that a crate is made of, as one sum."""
    crates = below([name])
    folders = ["crates/%s/%s" % (crate, part) for crate in crates for part in ("src", "specs", "proofs")]
    paths = [os.path.join(at, file) for folder in folders for at, _, found in os.walk(folder) for file in found]
    table = uses()
    whole = hashlib.sha256(repr([(crate, table[crate]) for crate in crates]).encode())
    for path in sorted(paths):
        whole.update(path.encode() + b"\0" + open(path, "rb").read())
    return whole.hexdigest()


def stamp(name):
    return "target/made-%s.stamp" % name


def state(name, of):
    """What stands in the stamp: what it was made of, and the sum of what was made."""
    return of + " " + hashlib.sha256(open(product(name), "rb").read()).hexdigest() + "\n"


def is_made(name):
    """Was a program or an archive made of the sources as they are, and is it as it was then? Where only the kit is another one, `make clean` has all
    made anew."""
    path = product(name)
    if not path or not os.path.exists(path) or not os.path.exists(stamp(name)):
        return False
    return open(stamp(name), encoding="utf-8").read() == state(name, sources(name))
