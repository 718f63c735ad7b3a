"""Executed instructions between two calls of a program's function `mark`, for tests/c/counted and bench/instructions.

An emulator steps through the program one instruction at a time and writes down where each stood. Instructions are a measure where seconds are not, as
on a machine that runs the archive by that emulator; and they are the same in every run. Those of the C library count too.
"""
import os
import re
import shutil
import subprocess
import sys
import tempfile
import threading

LONGEST = 280  # seconds that a program may take in the emulator: two such fit into the gate's limit for tests/c/counted


def compilers():
    """The words that begin a call of each compiler for x86-64 there is, by name."""
    arm = os.uname().machine != "x86_64"
    found = {"gcc": ["x86_64-linux-gnu-gcc" if arm else "gcc"]}
    if shutil.which("clang"):
        across = ["--sysroot=/usr/x86_64-linux-gnu", "-I/usr/x86_64-linux-gnu/include", "--gcc-toolchain=/usr"]
        found["clang"] = ["clang", "--target=x86_64-linux-gnu"] + (across if arm else [])
    return found


def between(program, arguments=()):
    """How many instructions stand between each call of `mark` and the next, and what the program writes."""
    names = subprocess.run(["nm", program], capture_output=True, text=True, check=True).stdout
    at = b"%016x" % int(re.search(r"^([0-9a-f]+) T mark$", names, re.M).group(1), 16)
    with tempfile.TemporaryDirectory() as folder:
        trace, found = os.path.join(folder, "trace"), []
        os.mkfifo(trace)
        reader = threading.Thread(target=lambda: found.extend(read(trace, at)))
        reader.start()
        # held open here too until the emulator has ended: a reader whose writer never comes would wait for ever
        held = os.open(trace, os.O_WRONLY)
        try:
            run = emulated(["-singlestep", "-d", "exec,nochain", "-D", trace, program, *arguments])
        finally:
            os.close(held)
            reader.join()
    if not found:
        sys.exit("marks: the emulator's trace of %s has no two calls of mark" % program)
    return found, run.stdout


def emulated(words):
    """A run of the emulator that ends well; else this program ends, and says why."""
    try:
        run = subprocess.run(["qemu-x86_64", *words], stdin=subprocess.DEVNULL, capture_output=True, text=True, timeout=LONGEST)
    except OSError as error:
        sys.exit("marks: the emulator does not start: %s" % error)
    except subprocess.TimeoutExpired:
        sys.exit("marks: the emulator has not ended after %d s: qemu-x86_64 %s" % (LONGEST, " ".join(words)))
    if run.returncode:
        sys.exit("marks: the emulator ended with status %d: qemu-x86_64 %s\n%s" % (run.returncode, " ".join(words), run.stdout + run.stderr))
    return run


def read(trace, at):
    """The counts in a trace, each line of which names the place of one instruction: `Trace 0: 0x7f.. [flags/place/..] ..`.

    An instruction that repeats itself, with which the C library moves many bytes, stands there once for each byte; it is one, as a processor counts.
    """
    found, count, before = [], None, None
    with open(trace, "rb") as lines:
        for line in lines:
            if not line.startswith(b"Trace"):
                continue
            place = line.split(b"/", 2)[1]
            if place == at:
                if count is not None:
                    found.append(count)
                count = 0
            elif count is not None and place != before:
                count += 1
            before = place
    return found
