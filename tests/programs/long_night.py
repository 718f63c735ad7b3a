#!/usr/bin/env python3
"""A long night through a pipe: the replay writes a line for each record, and needs no more memory for a million records than for ten.

    long_night.py COMMAND..    COMMAND replays the trace on its standard input

Each record is a tick, which gives 0 (document 01: nothing waits), but every hundredth, a datagram of no bytes, which gives 2. Peak memory is what
Linux tells of the process when it has read all; a program run by an emulator is not measured.
"""
import fcntl
import platform
import struct
import subprocess
import sys
import tempfile
import termios
import time

FEW, MANY, ALLOWED = 10, 1000000, 256
TICK = bytes.fromhex("02000300")
EMPTY = struct.pack("<HH", 55, 1) + bytes(53)
FIRST = struct.pack("<HH", 104, 4) + bytes([6, 101]) + bytes(31) + b"\x64" + struct.pack(">H", 5000) + b"\1\0" + bytes(64)


def answer(i):
    return 2 if i % 100 == 0 else 0


# KiB at the peak: of pages in use, and of addresses.
def peak(process):
    lines = dict(line.split(":", 1) for line in open("/proc/%d/status" % process.pid))
    return [int(lines[name].split()[0]) for name in ("VmHWM", "VmPeak")]


def unread(pipe):
    return struct.unpack("i", fcntl.ioctl(pipe, termios.FIONREAD, bytes(4)))[0]


def fed(command, count, output):
    process = subprocess.Popen(command, stdin=subprocess.PIPE, stdout=output)
    process.stdin.write(FIRST)
    for start in range(1, count + 1, 1000):
        process.stdin.write(b"".join(EMPTY if answer(i) else TICK for i in range(start, min(start + 1000, count + 1))))
    process.stdin.flush()
    while unread(process.stdin) > 0 and process.poll() is None:
        time.sleep(0.01)
    time.sleep(0.1)
    memory = peak(process)
    process.stdin.close()
    if process.wait() != 0:
        sys.exit("long night: the program ended with status %d" % process.returncode)
    return memory


def run(command, count):
    with tempfile.TemporaryFile() as output:
        memory = fed(command, count, output)
        output.seek(0)
        wrote = 0
        for wrote, line in enumerate(output, 1):
            if wrote > count or line != b"%d %d\n" % (wrote, answer(wrote)):
                sys.exit("long night: of %d records, line %d is %r" % (count, wrote, line))
    if wrote != count:
        sys.exit("long night: %d lines for %d records" % (wrote, count))
    return memory


def main():
    few, many = run(sys.argv[1:], FEW), run(sys.argv[1:], MANY)
    if platform.machine() != "x86_64":
        print("long night: %d lines; memory is not measured under an emulator" % MANY)
        return
    if any(m > f + ALLOWED for f, m in zip(few, many)):
        sys.exit("long night: KiB in use and of addresses are %s after %d records, %s after %d" % (few, FEW, many, MANY))
    print("long night: %d lines, %d KiB in use at the peak; of %d records %d KiB" % (MANY, many[0], FEW, few[0]))


if __name__ == "__main__":
    main()
