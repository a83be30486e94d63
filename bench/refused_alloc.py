#!/usr/bin/env python3
"""Refuses each allocation of a run of each command in turn, and checks how the run ends.

usage: bench/refused_alloc.py [PROGRAM]

PROGRAM is the built program; without it ./asp_state builds it, and its own is taken. A run must end with a status, 6 or the
good one, never by a signal; what it wrote must be what the good run wrote, or a front of it, up to the first answer that says
that memory was wanting; a load that ends with 0 counts each request. It prints for each command how many allocations a run has and how each ended, and ends with status 1
where one ended otherwise. `pipe`, `trace` and `drive` are also run over a database file: a new one, and one with rows of earlier
versions, which are moved; afterwards the file must be sound, and hold each row that it held. `serve` and `visit` are run over sockets
of this machine. It needs `cc`. Outside the gate.
"""
import collections
import os
import socket
import sqlite3
import subprocess
import sys
import tempfile
import time

TOP = os.path.dirname(os.path.dirname(os.path.abspath(__file__)))
TWO = b"PUT /a HTTP/1.1\r\nContent-Length: 1\r\n\r\nxGET /a HTTP/1.1\r\n\r\n"
REQUESTS = (
    b"PUT /a HTTP/1.1\r\nTimeout: 20\r\nContent-Length: 3\r\n\r\nabc"
    b"GET /a HTTP/1.1\r\nExclusive: acquire\r\n\r\n"
    b"GET /a HTTP/1.1\r\n\r\n"
    b"PUT /a HTTP/1.1\r\nLockCookie: 1\r\nContent-Length: 2\r\n\r\nde"
    b"HEAD /a HTTP/1.1\r\n\r\n"
    b"GET /b%20c HTTP/1.1\r\n\r\n"
    b"DELETE /a HTTP/1.1\r\n\r\n"
    b"BAD /a HTTP/1.1\r\n\r\n"
)
# What an answer for want of memory looks like, by command: from there on a run may differ from the good one.
WANT = {"pipe": b"HTTP/1.1 503", "trace": b": no-memory", "drive": b": no-memory"}

# As earlier versions made it, whose items had no end of their own.
OLD_TABLE = (
    "CREATE TABLE IF NOT EXISTS items (key BLOB PRIMARY KEY, body BLOB NOT NULL, minutes INTEGER NOT NULL, fresh INTEGER NOT NULL, "
    "cookie INTEGER NOT NULL, since INTEGER NOT NULL, touched INTEGER NOT NULL, expiry INTEGER NOT NULL)"
)
OLD_INDEX = "CREATE INDEX IF NOT EXISTS items_by_expiry ON items (expiry, key)"
OLD_ROW = "INSERT INTO items VALUES (?1, ?2, 20, 0, 0, 0, 0, 1200000)"
OLD_KEYS = {b"/old1", b"/old2", b"/old3"}


def program():
    """The built program."""
    if len(sys.argv) > 1:
        return os.path.abspath(sys.argv[1])
    subprocess.run([os.path.join(TOP, "asp_state"), "--build"], check=True)
    return os.path.join(TOP, "crates", "asp_state", "out", "asp_state")


class Refuser:
    """Runs the program with an allocation refused."""

    def __init__(self, folder):
        self.program = program()
        self.count = os.path.join(folder, "count")
        self.library = os.path.join(folder, "refuse_alloc.so")
        source = os.path.join(TOP, "bench", "refuse_alloc.c")
        subprocess.run(["cc", "-shared", "-fPIC", "-O2", "-o", self.library, source], check=True)

    def environment(self, number):
        return dict(os.environ, LD_PRELOAD=self.library, REFUSE=str(number), COUNT=self.count)

    def made(self):
        with open(self.count, encoding="ascii") as file:
            return int(file.read())

    def run(self, words, text, number):
        done = subprocess.run(
            [self.program, *words], input=text, capture_output=True, env=self.environment(number), timeout=60, check=False
        )
        return done.returncode, done.stdout


def is_front(written, good, want):
    """Whether the run wrote what the good one wrote, or a front of it, up to the first answer for want of memory."""
    if want is not None and want in written:
        written = written[: written.index(want)]
    return good.startswith(written)


def counts_all(written, good):
    """Whether the text of a load counts as many requests as the good one, each under one status."""
    lines = [line.split() for line in written.decode().splitlines()]
    wanted = [line.split() for line in good.decode().splitlines()]
    names = [line[0] for line in lines]
    if names != [line[0] for line in wanted] or lines[0] != wanted[0]:
        return False
    return sum(int(line[1]) for line in lines[1:-1]) == int(lines[0][1])


class Database:
    """A database file that begins anew before each run."""

    def __init__(self, folder, keys):
        self.path = os.path.join(folder, "sessions.db")
        self.keys = keys
        self.began = b""
        if keys:
            self.began = self.old_file()

    def old_file(self):
        """The bytes of a file of earlier versions that has the keys."""
        self.remove()
        connection = sqlite3.connect(self.path)
        connection.execute(OLD_TABLE)
        connection.execute(OLD_INDEX)
        connection.executemany(OLD_ROW, [(key, b"content") for key in sorted(self.keys)])
        connection.commit()
        connection.close()
        with open(self.path, "rb") as file:
            return file.read()

    def remove(self):
        for end in ["", "-wal", "-shm"]:
            if os.path.exists(self.path + end):
                os.remove(self.path + end)

    def begin(self):
        self.remove()
        if self.began:
            with open(self.path, "wb") as file:
                file.write(self.began)

    def keeps_all(self):
        """Whether the file is sound, and each key that it began with has a row."""
        if not self.began:
            return True
        connection = sqlite3.connect(self.path)
        sound = connection.execute("PRAGMA integrity_check").fetchall() == [("ok",)]
        tables = {name for (name,) in connection.execute("SELECT name FROM sqlite_master WHERE type = 'table'")}
        keys = {key for table in tables for (key,) in connection.execute(f"SELECT key FROM {table}")}
        connection.close()
        return sound and self.keys <= keys


class NoDatabase:
    """A run without a file."""

    def begin(self):
        pass

    def keeps_all(self):
        return True


def tried(refuser, name, words, text, database=NoDatabase()):
    """Refuses each allocation of one command in turn."""
    database.begin()
    status, good = refuser.run(words, text, 0)
    count = refuser.made()
    ends = collections.Counter()
    wrong = []
    for number in range(1, count + 1):
        database.begin()
        got, written = refuser.run(words, text, number)
        ends[got] += 1
        if name == "load" and got == 0:
            fine = counts_all(written, good)
        else:
            fine = is_front(written, good, WANT.get(words[0]))
        if got not in (status, 6) or not fine or not database.keeps_all():
            wrong.append((number, got, written[-60:]))
    said = ", ".join(f"{ends[k]} with {k}" for k in sorted(ends))
    print(f"{name}: status {status}, {count} allocations; refused in turn, the runs ended {said}")
    return wrong


def tried_over_files(refuser, folder, script):
    """Refuses each allocation of the commands over a database file in turn: over a new file, and over one of earlier versions."""
    wrong = []
    for kind, keys in [("a new file", set()), ("an old file", OLD_KEYS)]:
        database = Database(folder, keys)
        for words, text in [
            (["pipe", "0", "1000", "1"], REQUESTS),
            (["trace", "0", "1000", "1"], REQUESTS),
            (["drive"], script),
        ]:
            wrong += tried(refuser, f"{words[0]} over {kind}", [*words, database.path], text, database)
    return wrong


def free_port():
    with socket.socket() as probe:
        probe.bind(("127.0.0.1", 0))
        return probe.getsockname()[1]


def connected(port, server):
    """A connection to the server, or none where it has ended."""
    for _ in range(500):
        if server.poll() is not None:
            return None
        try:
            return socket.create_connection(("127.0.0.1", port), timeout=10)
        except ConnectionRefusedError:
            time.sleep(0.01)
    raise SystemExit("the server does not listen")


def exchanged(port, server, text):
    """What the server answers on one connection, until it ends it."""
    peer = connected(port, server)
    if peer is None:
        return b""
    parts = []
    with peer:
        try:
            peer.sendall(text)
            peer.shutdown(socket.SHUT_WR)
            while part := peer.recv(65536):
                parts.append(part)
        except ConnectionError:
            pass
    return b"".join(parts)


def served(refuser, number):
    """One run of a server with one worker and one connection: its status, and what the peer got."""
    port = free_port()
    server = subprocess.Popen([refuser.program, "serve", str(port), "1", "1"], env=refuser.environment(number))
    got = exchanged(port, server, REQUESTS)
    return server.wait(timeout=60), got


def visited(refuser, number):
    """One visit against a server whose memory is not refused: the visit's status and its line."""
    port = free_port()
    server = subprocess.Popen([refuser.program, "serve", str(port), "1", "2"])
    exchanged(port, server, TWO)
    words = ["visit", str(port), "x2f61", "exclusive", "save", "20", "x32"]
    got = refuser.run(words, b"", number)
    if server.poll() is None:
        try:
            socket.create_connection(("127.0.0.1", port), timeout=1).close()
        except ConnectionRefusedError:
            pass
    server.wait(timeout=60)
    return got


def tried_over_sockets(refuser, name, run, statuses):
    """Refuses each allocation of a run over sockets in turn."""
    status, good = run(refuser, 0)
    count = refuser.made()
    ends = collections.Counter()
    wrong = []
    for number in range(1, count + 1):
        got, written = run(refuser, number)
        ends[got] += 1
        if got not in statuses or not is_front(written, good, b"HTTP/1.1 503"):
            wrong.append((number, got, written[-60:]))
    said = ", ".join(f"{ends[k]} with {k}" for k in sorted(ends))
    print(f"{name}: status {status}, {count} allocations; refused in turn, the runs ended {said}")
    return wrong


def main():
    with tempfile.TemporaryDirectory() as folder:
        refuser = Refuser(folder)
        journal = refuser.run(["trace", "0", "1000", "1"], REQUESTS, 0)[1]
        with open(os.path.join(TOP, "examples", "forced-release.script"), "rb") as file:
            script = file.read()
        wrong = tried(refuser, "pipe", ["pipe", "0", "1000", "1"], REQUESTS)
        wrong += tried(refuser, "trace", ["trace", "0", "1000", "1"], REQUESTS)
        wrong += tried(refuser, "replay", ["replay"], journal)
        wrong += tried(refuser, "drive", ["drive"], script)
        wrong += tried(refuser, "load", ["load", "10", "1"], b"")
        wrong += tried_over_files(refuser, folder, script)
        wrong += tried_over_sockets(refuser, "serve", served, {0, 6, 9})
        wrong += tried_over_sockets(refuser, "visit", visited, {0, 6, 13})
    for number, status, written in wrong:
        print(f"allocation {number} refused: ended with {status}, and wrote last {written!r}")
    return 1 if wrong else 0


if __name__ == "__main__":
    sys.exit(main())
