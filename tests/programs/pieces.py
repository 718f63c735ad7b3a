#!/usr/bin/env python3
"""A trace that arrives in small pieces, cut anywhere.

    pieces.py SIZE COMMAND..    COMMAND gets what is on standard input here, in pieces of SIZE bytes

A piece is written when the one before has been read, so that no read gets more than one.
"""
import subprocess
import sys
import time

from long_night import unread


def main():
    size, trace = int(sys.argv[1]), sys.stdin.buffer.read()
    process = subprocess.Popen(sys.argv[2:], stdin=subprocess.PIPE, bufsize=0)
    try:
        for at in range(0, len(trace), size):
            process.stdin.write(trace[at:at + size])
            while unread(process.stdin) > 0 and process.poll() is None:
                time.sleep(0.0001)
        process.stdin.close()
    except BrokenPipeError:  # a bad record was the last
        pass
    sys.exit(process.wait())


if __name__ == "__main__":
    main()
