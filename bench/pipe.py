#!/usr/bin/env python3
"""Measures `asp_state pipe` on streams of requests, and beside it another program for the same job, where one is given.

usage: bench/pipe.py [--long] [PLAIN [OURS]]

PLAIN is the plain program that bench/plain_pipe.sh builds; it is run in the same run as ours, by turns, over a hash map and over
an ordered map, and must write the same bytes. OURS is another build of ours than the one that ./asp_state makes. Each case is run three times; the median is printed, with the
time a message, and where a case keeps many items the greatest resident memory for each byte of their keys and bodies. --long adds
the streams over 1,000,000 keys, once each.
Outside the gate; nothing of it is promised.
"""
import hashlib
import os
import subprocess
import sys
import tempfile
import time

TOP = os.path.dirname(os.path.dirname(os.path.abspath(__file__)))
ROUNDS = 3


def small_messages(count, keys):
    """Writes and reads by turns, with bodies of 100 bytes."""
    for k in range(count):
        key = (k * 7919) % keys
        if k % 2 == 0:
            yield b"PUT /s%d HTTP/1.1\r\nHost: web\r\nTimeout: 20\r\nContent-Length: 100\r\n\r\n" % key + b"x" * 100
        else:
            yield b"GET /s%d HTTP/1.1\r\nHost: web\r\n\r\n" % key


def large_messages(count):
    """Writes of 1 MiB over ten keys."""
    body = b"y" * (1 << 20)
    for k in range(count):
        yield b"PUT /l%d HTTP/1.1\r\nTimeout: 20\r\nContent-Length: %d\r\n\r\n" % (k % 10, len(body)) + body


def keyed_messages(count, keys, size):
    """A write and a read of each key by turns, in no order of the keys, which have 30 bytes."""
    body = b"z" * size
    for k in range(count // 2):
        key = b"/k%028d" % ((k * 7919) % keys)
        yield b"PUT %s HTTP/1.1\r\nHost: web\r\nTimeout: 20\r\nContent-Length: %d\r\n\r\n" % (key, size) + body
        yield b"GET %s HTTP/1.1\r\nHost: web\r\n\r\n" % key


class Case:
    """A stream: its name, how many messages it has, what makes them, and the bytes of keys and bodies that are kept, where it says so."""

    def __init__(self, name, count, messages, kept=None):
        self.name = name
        self.count = count
        self.messages = messages
        self.kept = kept


def small(name, count, keys):
    return Case(name, count, lambda: small_messages(count, keys))


def large(name, count):
    return Case(name, count, lambda: large_messages(count))


def keyed(name, count, keys, size):
    return Case(name, count, lambda: keyed_messages(count, keys, size), keys * (30 + size))


CASES = [
    small("200,000 messages, 1,000 keys, 100 bytes", 200_000, 1000),
    small("100,000 messages, 1,000 keys, 100 bytes", 100_000, 1000),
    small("200,000 messages, one key, 100 bytes", 200_000, 1),
    small("100,000 messages, one key, 100 bytes", 100_000, 1),
    large("200 messages, ten keys, 1 MiB", 200),
    large("100 messages, ten keys, 1 MiB", 100),
    keyed("200,000 messages, 1,000 keys of 30 bytes, 100 bytes", 200_000, 1000, 100),
    keyed("200,000 messages, 100,000 keys of 30 bytes, 100 bytes", 200_000, 100_000, 100),
    keyed("20,000 messages, 1,000 keys of 30 bytes, 1 KiB", 20_000, 1000, 1 << 10),
    keyed("2,000 messages, 100 keys of 30 bytes, 64 KiB", 2000, 100, 1 << 16),
]

LONG_CASES = [
    keyed("2,000,000 messages, 1,000,000 keys of 30 bytes, 100 bytes", 2_000_000, 1_000_000, 100),
    keyed("2,000,000 messages, 1,000,000 keys of 30 bytes, 1 KiB", 2_000_000, 1_000_000, 1 << 10),
]


def run(command, path):
    """Seconds, the greatest resident memory in MiB (not less than this script's own), and a digest of the bytes written."""
    with open(path, "rb") as source, tempfile.TemporaryFile() as sink:
        start = time.perf_counter()
        child = subprocess.Popen(command, stdin=source, stdout=sink)
        _, status, usage = os.wait4(child.pid, 0)
        took = time.perf_counter() - start
        child.returncode = os.waitstatus_to_exitcode(status)
        if child.returncode != 0:
            sys.exit("%s ended with status %d" % (command[0], child.returncode))
        sink.seek(0)
        digest = hashlib.sha256()
        while piece := sink.read(1 << 16):
            digest.update(piece)
        return took, usage.ru_maxrss / 1024, digest.digest()


def measure(case, programs, rounds):
    with tempfile.NamedTemporaryFile() as text:
        for message in case.messages():
            text.write(message)
        text.flush()
        size = os.path.getsize(text.name) / 1e6
        results = {label: [] for label, _ in programs}
        written = {}
        for _ in range(rounds):
            for label, command in programs:
                took, memory, replies = run(command, text.name)
                results[label].append((took, memory))
                written[label] = replies
    same = len(set(written.values())) == 1
    print("%s, %.1f MB%s" % (case.name, size, "" if same else " (the replies differ)"))
    for label, _ in programs:
        took = sorted(t for t, _ in results[label])[rounds // 2]
        memory = max(m for _, m in results[label])
        line = "  %-12s %7.3f s  %8.1f MB/s  %7.0f ns a message  %7.1f MiB" % (
            label, took, size / took, took / case.count * 1e9, memory)
        if case.kept is not None and case.kept > 10_000_000:
            line += "  %5.2f bytes for each kept" % (memory * 1048576 / case.kept)
        print(line)


def main():
    words = sys.argv[1:]
    long = "--long" in words
    others = [word for word in words if word != "--long"]
    if len(others) > 1:
        ours = others[1]
    else:
        subprocess.run([os.path.join(TOP, "asp_state"), "--build"], check=True)
        ours = os.path.join(TOP, "crates/asp_state/out/asp_state")
    programs = [("asp_state", [ours, "pipe", "0", "1", "1"])]
    if others:
        programs.append(("plain hash", [others[0], "0", "1", "1"]))
        programs.append(("plain tree", [others[0], "0", "1", "1", "ordered"]))
    for case in CASES:
        measure(case, programs, ROUNDS)
    if long:
        for case in LONG_CASES:
            measure(case, programs, 1)


if __name__ == "__main__":
    main()
