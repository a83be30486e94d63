#!/usr/bin/env python3
"""Kills `asp_state pipe` over one database file again and again, and looks after each kill what the next run finds.

usage: bench/kills.py [PROGRAM] [KILLS]

PROGRAM is ./asp_state and KILLS 200 where none is given. Each run is killed at a random moment amid writes and acquires. The next run
on the file has to find each item as its last reply said, or as a request said that was sent after it; each lock whose reply was read is
held by its cookie; and no cookie is drawn twice, in all runs together, though each is given the FIRST 1. It prints one line at the end, or
the first thing that is wrong, and ends with 1. Outside the gate.
"""
import os
import random
import signal
import sqlite3
import subprocess
import sys
import tempfile
import threading
import time

TOP = os.path.dirname(os.path.dirname(os.path.abspath(__file__)))
KILLS = next((int(word) for word in sys.argv[1:] if word.isdigit()), 200)
PROGRAM = os.path.abspath(next((word for word in sys.argv[1:] if not word.isdigit()), os.path.join(TOP, "asp_state")))
WORDS = ["pipe", "0", "0", "1"]
KEYS, ROUNDS, WRITES = 40, 500, 5


def put(key, body):
    return b"PUT /%s HTTP/1.1\r\nTimeout: 1440\r\nContent-Length: %d\r\n\r\n%s" % (key, len(body), body)


def get(key):
    return b"GET /%s HTTP/1.1\r\n\r\n" % key


def acquire(key):
    return b"GET /%s HTTP/1.1\r\nExclusive: acquire\r\n\r\n" % key


def remove(key, cookie):
    return b"DELETE /%s HTTP/1.1\r\nLockCookie: %d\r\n\r\n" % (key, cookie)


def replies_in(text):
    """The whole replies at the front of these bytes: status, cookie and content of each."""
    found = []
    while True:
        head, end, rest = text.partition(b"\r\n\r\n")
        if not end:
            return found
        lines = head.split(b"\r\n")
        fields = dict(line.split(b": ", 1) for line in lines[1:])
        length = int(fields[b"Content-Length"])
        if len(rest) < length:
            return found
        found.append((int(lines[0].split(b" ")[1]), int(fields.get(b"LockCookie", b"0")), rest[:length]))
        text = rest[length:]


class Killed:
    """What all runs together have to keep."""

    def __init__(self, path):
        self.path = path
        self.sent = {}  # of each key, the contents that were sent since the last one whose reply was read, which is the first
        self.held = {}  # the cookie of each item that was acquired in the last run
        self.cookies = set()
        self.highest = 0
        self.made = 0
        self.counts = [0, 0, 0]

    def script(self):
        """The requests of a run, each with what it is for."""
        first = [(get(key), ("is", key, None)) for key in sorted(self.sent)]
        freed = [(remove(key, cookie), ("freed", key, None)) for key, cookie in sorted(self.held.items())]
        yield from first + freed
        for _ in range(ROUNDS):
            for _ in range(WRITES):
                self.made += 1
                key = b"w%d" % random.randrange(KEYS)
                body = b"%d." % self.made * random.choice([1, 10, 100, 1000])
                yield put(key, body), ("put", key, body)
            self.made += 1
            key = b"l%d" % self.made
            yield put(key, b"locked"), ("made", key, None)
            yield acquire(key), ("locked", key, None)

    def read(self, purpose, reply):
        """Whether the reply is one that may come."""
        what, key, body = purpose
        status, cookie, content = reply
        if what == "is":
            self.counts[0] += 1
            there = content if status == 200 else None
            if status not in (200, 404) or there not in self.sent[key]:
                return False
            self.sent[key] = self.sent[key][self.sent[key].index(there):]
            return True
        if what == "freed":
            self.counts[1] += 1
            return status == 200
        if what == "put":
            self.sent[key] = self.sent[key][self.sent[key].index(body):]
            return status == 200
        if what == "made":
            return status == 200
        self.counts[2] += 1
        fresh = status == 200 and cookie > self.before and cookie not in self.cookies
        self.cookies.add(cookie)
        self.highest = max(self.highest, cookie)
        self.held[key] = cookie
        return fresh

    def run(self, seconds):
        """One run, which is killed after so long, or ends where None is given."""
        script = list(self.script())
        if seconds is None:
            script = [request for request in script if request[1][0] in ("is", "freed")]
        for _, (what, key, body) in script:
            if what == "put":
                self.sent.setdefault(key, [None])
        child = subprocess.Popen([PROGRAM, *WORDS, self.path], stdin=subprocess.PIPE, stdout=subprocess.PIPE)
        def feed():
            try:
                for request, (what, key, body) in script:
                    if what == "put":
                        self.sent[key].append(body)
                    child.stdin.write(request)
                    child.stdin.flush()
                child.stdin.close()
            except OSError:
                pass

        got = [b""]
        begun = threading.Event()

        def read():
            while True:
                piece = os.read(child.stdout.fileno(), 65_536)
                if not piece:
                    return begun.set()
                got[0] += piece
                begun.set()

        feeder = threading.Thread(target=feed)
        reader = threading.Thread(target=read)
        reader.start()
        feeder.start()
        if seconds is not None:
            # Some are killed while they open the file, the others behind their first reply.
            begun.wait(None if random.random() < 0.8 else random.uniform(0, 0.1))
            time.sleep(seconds)
            child.send_signal(signal.SIGKILL)
        feeder.join()
        reader.join()
        status = child.wait()
        try:
            child.stdin.close()
        except OSError:
            pass
        replies = replies_in(got[0])
        before, self.before, held = self.highest, self.highest, self.held
        self.held = {key: cookie for key, cookie in held.items()}
        for (request, purpose), reply in zip(script, replies):
            if not self.read(purpose, reply):
                return "%s of /%s was answered %s" % (purpose[0], purpose[1].decode(), (reply[0], reply[1], reply[2][:40]))
            if purpose[0] == "freed":
                del self.held[purpose[1]]
        for request, (what, key, body) in script[len(replies):]:
            # A removal that was sent may have been made, its reply unread.
            if what == "freed":
                self.held.pop(key, None)
        if seconds is None and (status != 0 or len(replies) != len(script)):
            return "the last run ended with status %d after %d of %d replies" % (status, len(replies), len(script))
        return None


def main():
    with tempfile.TemporaryDirectory() as folder:
        path = os.path.join(folder, "killed.db")
        all_runs = Killed(path)
        for kill in range(KILLS + 1):
            seconds = None if kill == KILLS else random.uniform(0, 0.3)
            wrong = all_runs.run(seconds)
            if wrong:
                sys.exit("run %d: %s" % (kill, wrong))
        rows = sqlite3.connect(path).execute("PRAGMA integrity_check").fetchall()
        looked, freed, drawn = all_runs.counts
        print("%d kills: %d items and %d locks were found as the replies had said, %d cookies were drawn, each once; the file is %s"
              % (KILLS, looked, freed, drawn, rows[0][0]))


main()
