#!/usr/bin/env python3
"""Measures `asp_state pipe` on one head of 8,192 bytes, and on one body of 4 MiB, cut into pieces of several sizes.

usage: bench/cuts.py [PROGRAM]

PROGRAM is ./asp_state where none is given; so an earlier build can be measured beside a later one. Each piece is one write
to a pipe, which the program may read together with others. Each case is run three times; the median is printed in
milliseconds. Outside the gate; nothing of it is promised.
"""
import os
import subprocess
import sys
import time

TOP = os.path.dirname(os.path.dirname(os.path.abspath(__file__)))
ROUNDS = 3
MOST_HEAD = 8192
MOST_BODY = 4_194_304


def longest_head():
    """A read whose head has 8,192 bytes."""
    start, end = b"GET /a HTTP/1.1\r\nA: ", b"\r\n\r\n"
    return start + b"x" * (MOST_HEAD - len(start) - len(end)) + end


def largest_write():
    return b"PUT /a HTTP/1.1\r\nContent-Length: %d\r\n\r\n" % MOST_BODY + bytes(MOST_BODY)


def run(program, text, size):
    child = subprocess.Popen([program, "pipe", "0", "1", "1"], stdin=subprocess.PIPE, stdout=subprocess.DEVNULL, bufsize=0)
    start = time.perf_counter()
    for at in range(0, len(text), size):
        child.stdin.write(text[at : at + size])
    child.stdin.close()
    if child.wait() != 0:
        sys.exit("pipe ended with status %d" % child.returncode)
    return 1000 * (time.perf_counter() - start)


def main():
    program = sys.argv[1] if len(sys.argv) > 1 else os.path.join(TOP, "asp_state")
    cases = [("head of 8,192 bytes", longest_head(), [1, 16, 256, 8192]), ("body of 4 MiB", largest_write(), [16, 256, 4096, 16384])]
    for name, text, sizes in cases:
        for size in sizes:
            took = sorted(run(program, text, size) for _ in range(ROUNDS))[ROUNDS // 2]
            print("%-20s pieces of %6d bytes %9.1f ms" % (name, size, took))


main()
