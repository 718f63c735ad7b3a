"""Saved memory of a gauge turned into the form of one address, by the program `conversion`: bin/convert comes here from tools/launch.py.

A file is written over only when all is converted and whole: the new bytes stand in files beside the old ones first, with their permissions, and then
take their names. Where it is broken off between two names, what stands there is old or new memory, and the same command does the rest.
"""
import os
import subprocess

import replaced

RECORD, WAITING, LONGEST = 100, 2240, 25600


class Wrong(Exception):
    """What the keeper is told before status 2."""


def read(path, length, what):
    """What the file has; it must have so many bytes, where that is known."""
    try:
        with open(path, "rb") as file:
            data = file.read(LONGEST + 1)
    except FileNotFoundError:
        raise Wrong("no such file: %s" % path)
    except IsADirectoryError:
        raise Wrong("%s is a folder; give the file of %s" % (path, what))
    except OSError as error:
        raise Wrong("%s can't be read: %s" % (path, error.strerror))
    if length and len(data) != length:
        raise Wrong("%s has %s bytes and is no %s, which has %d" % (path, len(data) if len(data) <= LONGEST else "too many", what, length))
    return data


def replace(pairs):
    """The new files take the places of the old ones."""
    try:
        replaced.replace([(path, [data]) for path, data in pairs], ".converting")
    except OSError as error:
        raise Wrong("%s can't be written: %s; what stands there is whole, and the same command does the rest" % (error.filename or "a file", error.strerror))


def run(root, data):
    """What the program makes of the own record, the waiting table and the cache, and what it says."""
    done = subprocess.run(["tools/run", "target/bin/conversion"], cwd=root, input=data, stdout=subprocess.PIPE, stderr=subprocess.PIPE)
    said = done.stderr.decode(errors="replace").strip()
    if done.returncode:
        raise Wrong("the program ended with status %d, which it should not: nothing was written; %s" % (done.returncode, said))
    return done.stdout, said


def convert(paths, root, build):
    """A status: 0 where all was converted, 1 where it was refused; and what is told."""
    own = read(paths[0], RECORD, "own record")
    cache = read(paths[1], None, "a cache")
    waiting = read(paths[2], WAITING, "waiting table") if len(paths) > 2 else bytes(WAITING)
    if len({os.path.realpath(path) for path in paths}) < len(paths):
        raise Wrong("one file is given twice")
    places = [os.path.realpath(path) for path in paths]
    build()
    left, said = run(root, own + waiting + cache)
    if not left:
        return 1, "%s: nothing was written" % said
    if len(left) != len(own + waiting + cache):
        raise Wrong("the program wrote %d bytes: nothing was written; %s" % (len(left), said))
    parts = [left[:RECORD], left[RECORD + WAITING:], left[RECORD:RECORD + WAITING]]
    replace(list(zip(places, parts)))
    return 0, "converted: %s" % said
