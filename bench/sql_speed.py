#!/usr/bin/env python3
"""Measures `asp_state pipe` on a database file, and beside it Python's sqlite3 module on the same statements.

usage: bench/sql_speed.py [PROGRAM] [ROWS..]

PROGRAM is ./asp_state where none is given, and the files have 1,000 and 100,000 rows where no numbers are given. All is measured
in one run, each three times; the median is printed: 10,000 writes and reads with bodies of 100 bytes, and 1,000,000 reads that
find nothing. The module makes the same statements on the same table and index, 2,000 and 20,000 of them, and commits each write,
in its default mode and with a write-ahead log. Opening a file reads all its rows, so the time of a run over no messages is taken
off, and many messages are wanted. Outside the gate; nothing of it is promised.
"""
import os
import sqlite3
import subprocess
import sys
import tempfile
import time

TOP = os.path.dirname(os.path.dirname(os.path.abspath(__file__)))
NUMBERS = [int(word) for word in sys.argv[1:] if word.isdigit()]
PROGRAMS = [word for word in sys.argv[1:] if not word.isdigit()]
PROGRAM = PROGRAMS[0] if PROGRAMS else os.path.join(TOP, "asp_state")
MESSAGES, MISSES, ROUNDS = 10_000, 1_000_000, 3
OF_MODULE, MISSES_OF_MODULE = 2_000, 20_000
BODY = b"x" * 100
TABLE = (
    "CREATE TABLE IF NOT EXISTS items2 (key BLOB PRIMARY KEY, body BLOB NOT NULL, minutes INTEGER NOT NULL, fresh INTEGER NOT NULL, "
    "cookie INTEGER NOT NULL, since INTEGER NOT NULL, touched INTEGER NOT NULL, ends INTEGER NOT NULL, expiry INTEGER NOT NULL)"
)
INDEX = "CREATE INDEX IF NOT EXISTS items2_by_expiry ON items2 (expiry, key)"
GET = "SELECT body, minutes, fresh, cookie, since, touched, ends, expiry FROM items2 WHERE key = ?1"
PUT = (
    "INSERT INTO items2 (key, body, minutes, fresh, cookie, since, touched, ends, expiry) VALUES (?1, ?2, ?3, ?4, ?5, ?6, ?7, ?8, ?9) "
    "ON CONFLICT (key) DO UPDATE SET body = excluded.body, minutes = excluded.minutes, fresh = excluded.fresh, "
    "cookie = excluded.cookie, since = excluded.since, touched = excluded.touched, ends = excluded.ends, expiry = excluded.expiry"
)
DUE = "SELECT key FROM items2 WHERE expiry <= ?1 ORDER BY expiry, key LIMIT 1"


def key_of(k, rows):
    return b"/k%d" % (k * 7919 % rows)


def columns(key, t):
    return (key, BODY, 20, 0, 0, 0, t, t + 86_400_000, t + 1_200_000)


def filled(folder, name, rows, journal):
    """A file with so many rows."""
    path = os.path.join(folder, name)
    connection = sqlite3.connect(path)
    connection.execute("PRAGMA journal_mode = %s" % journal)
    connection.execute(TABLE)
    connection.execute(INDEX)
    connection.executemany(PUT, (columns(b"/k%d" % k, k) for k in range(rows)))
    connection.commit()
    connection.close()
    return path


def messages(count, rows):
    """Writes and reads by turns of keys that have an item: each is one selection and one upsert, since a read touches its item."""
    for k in range(count):
        if k % 2 == 0:
            yield b"PUT %s HTTP/1.1\r\nContent-Length: 100\r\n\r\n%s" % (key_of(k, rows), BODY)
        else:
            yield b"GET %s HTTP/1.1\r\n\r\n" % key_of(k, rows)


def misses(count):
    """Reads of keys that have no item: each is one selection."""
    for k in range(count):
        yield b"GET /none%d HTTP/1.1\r\n\r\n" % k


def seconds_of(path, text):
    start = time.perf_counter()
    ran = subprocess.run([PROGRAM, "pipe", "0", "0", "1", path], input=text, stdout=subprocess.PIPE)
    took = time.perf_counter() - start
    if ran.returncode != 0 or b" 500 " in ran.stdout:
        sys.exit("pipe ended with status %d" % ran.returncode)
    return took


def median(measure):
    return sorted(measure() for _ in range(ROUNDS))[ROUNDS // 2]


def of_pipe(path, rows):
    opening = median(lambda: seconds_of(path, b""))
    both = b"".join(messages(MESSAGES, rows))
    none = b"".join(misses(MISSES))
    took, nothing = median(lambda: seconds_of(path, both)), median(lambda: seconds_of(path, none))
    return opening, MESSAGES / (took - opening), MISSES / (nothing - opening)


def of_module(path, rows):
    start = time.perf_counter()
    connection = sqlite3.connect(path, isolation_level=None)
    connection.execute(GET, (b"/k0",)).fetchone()
    opening = time.perf_counter() - start

    def both():
        start = time.perf_counter()
        for k in range(OF_MODULE):
            connection.execute(GET, (key_of(k, rows),)).fetchone()
            connection.execute(PUT, columns(key_of(k, rows), k))
        return time.perf_counter() - start

    def none():
        start = time.perf_counter()
        for k in range(MISSES_OF_MODULE):
            connection.execute(GET, (b"/none%d" % k,)).fetchone()
        return time.perf_counter() - start

    rates = OF_MODULE / median(both), MISSES_OF_MODULE / median(none)
    start = time.perf_counter()
    for _ in range(1000):
        connection.execute(DUE, (1_200_000,)).fetchone()
    due = (time.perf_counter() - start) / 1000
    connection.close()
    return (opening, *rates, due)


def line(name, opening, messages_a_second, misses_a_second):
    words = "  %-36s open %7.3f s  %7.0f messages a second  %8.0f misses a second"
    print(words % (name, opening, messages_a_second, misses_a_second))


def main():
    for rows in NUMBERS or [1_000, 100_000]:
        with tempfile.TemporaryDirectory() as folder:
            print("%d rows" % rows)
            line("asp_state pipe", *of_pipe(filled(folder, "pipe.db", rows, "delete"), rows))
            for mode in ["delete", "wal"]:
                *rates, due = of_module(filled(folder, mode + ".db", rows, mode), rows)
                line("Python's sqlite3, journal_mode %s" % mode, *rates)
                print("  %-36s due in %.1f microseconds" % ("", due * 1e6))


main()
