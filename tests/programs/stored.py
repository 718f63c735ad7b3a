"""What a program's crate has as its `stdin` and `stdout`: written, and held to what a script beside this one makes of the documents."""
import os

CRATES = os.path.join(os.path.dirname(os.path.abspath(__file__)), "..", "..", "crates")


def write(crate, files):
    """The files of the crate, by name."""
    for name, content in files.items():
        with open(os.path.join(CRATES, crate, name), "wb") as file:
            file.write(content)


def faults(crate, files, script):
    """A line for each file that has other bytes than these; `script --write` writes them."""
    for name, content in files.items():
        with open(os.path.join(CRATES, crate, name), "rb") as file:
            if file.read() != content:
                yield "crates/%s/%s is not what is said here: tests/programs/%s --write" % (crate, name, script)
