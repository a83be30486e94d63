#!/usr/bin/env python3
"""Tries `asp_state pipe` over database files, beside Debian's sqlite3 and where the file or the disk refuses.

usage: bench/sql_mode.py [PROGRAM]

PROGRAM is ./asp_state where none is given. It prints one line a case, and ends with 1 where one failed. The cases of a file
that may not be written and of a full disk want root, and a full disk also the right to mount a file system. Outside the gate.
"""
import os
import shutil
import signal
import sqlite3
import subprocess
import sys
import tempfile
import time

TOP = os.path.dirname(os.path.dirname(os.path.abspath(__file__)))
PROGRAM = os.path.abspath(sys.argv[1]) if len(sys.argv) > 1 else os.path.join(TOP, "asp_state")
WORDS = ["pipe", "0", "1000", "1"]
DONE = b"HTTP/1.1 200 OK\r\nContent-Length: 0\r\n\r\n"
NOBODY = 65534


def put(key, body):
    return b"PUT /%s HTTP/1.1\r\nContent-Length: %d\r\n\r\n%s" % (key, len(body), body)


def get(key):
    return b"GET /%s HTTP/1.1\r\n\r\n" % key


def acquire(key):
    return b"GET /%s HTTP/1.1\r\nExclusive: acquire\r\n\r\n" % key


def put_under(key, cookie, body):
    return b"PUT /%s HTTP/1.1\r\nLockCookie: %d\r\nContent-Length: %d\r\n\r\n%s" % (key, cookie, len(body), body)


def found(body):
    return b"HTTP/1.1 200 OK\r\nTimeout: 20\r\nContent-Length: %d\r\n\r\n%s" % (len(body), body)


def found_under(cookie, body):
    return b"HTTP/1.1 200 OK\r\nTimeout: 20\r\nLockCookie: %d\r\nContent-Length: %d\r\n\r\n%s" % (cookie, len(body), body)


def run(path, text, words=WORDS, **more):
    """The status and the bytes written."""
    ran = subprocess.run([PROGRAM, *words, path], input=text, stdout=subprocess.PIPE, **more)
    return ran.returncode, ran.stdout


def statement(path, text):
    """What Debian's sqlite3 prints."""
    ran = subprocess.run(["sqlite3", path, text], stdout=subprocess.PIPE, stderr=subprocess.STDOUT)
    return ran.stdout.decode().strip()


def contents(path):
    with open(path, "rb") as file:
        return file.read()


def items_survive(folder):
    """A run reads what the run before it wrote."""
    path = os.path.join(folder, "survives.db")
    first = run(path, put(b"a", b"x"))
    second = run(path, get(b"a"))
    return first == (0, DONE) and second == (0, found(b"x"))


def sqlite3_reads_and_writes(folder):
    """Debian's sqlite3 reads a row that was written, and writes one that the next run reads."""
    path = os.path.join(folder, "shared.db")
    wrote = run(path, put(b"a", b"x"))
    columns = "hex(key), hex(body), minutes, fresh, cookie, since, touched, ends, expiry"
    row = statement(path, "SELECT %s FROM items2" % columns)
    said = statement(path, "INSERT INTO items2 VALUES (x'2f62', x'79', 20, 0, 0, 0, 0, 86400000, 1200000)")
    read = run(path, get(b"b"))
    checked = statement(path, "PRAGMA integrity_check")
    return wrote == (0, DONE) and row == "2F61|78|20|0|0|0|0|86400000|1200000" and said == "" and read == (0, found(b"y")) and checked == "ok"


def cookies_go_on(folder):
    """A run draws from a block above that of the run before it, and a lock is held by its cookie from run to run."""
    path = os.path.join(folder, "cookies.db")
    first = run(path, put(b"a", b"x") + acquire(b"a"))
    second = run(path, put_under(b"a", 1, b"y") + acquire(b"a"), words=["pipe", "5000", "1000", "1"])
    rows = statement(path, "SELECT * FROM cookies")
    good = first == (0, DONE + found_under(1, b"x")) and second == (0, DONE + found_under(4294967297, b"y"))
    return good and rows == "1|8589934592"


def file_of_before_goes_on_above_what_is_held(folder):
    """A file without the table of the last cookie: the next run makes it, and begins above the cookie that is held."""
    path = os.path.join(folder, "before.db")
    run(path, put(b"a", b"x"))
    statement(path, "DROP TABLE cookies; UPDATE items2 SET cookie = 7, since = 0")
    ran = run(path, put(b"b", b"y") + acquire(b"b"))
    return ran == (0, DONE + found_under(8, b"y")) and statement(path, "SELECT * FROM cookies") == "1|4294967303"


def greatest_cookie_leaves_none(folder):
    """Where the greatest cookie is held, an acquire is refused, and the rest goes on."""
    path = os.path.join(folder, "greatest.db")
    run(path, put(b"a", b"x"))
    statement(path, "UPDATE items2 SET cookie = 9223372036854775807, since = 0")
    out = b"HTTP/1.1 507 Cookies Out\r\nContent-Length: 0\r\n\r\n"
    return run(path, put(b"b", b"y") + acquire(b"b") + get(b"b")) == (0, DONE + out + found(b"y"))


def cookie_that_is_no_number_stops_the_run(folder):
    """Where no block can be set aside, the status is 16, and nothing is read or written."""
    path = os.path.join(folder, "no-number.db")
    run(path, put(b"a", b"x"))
    statement(path, "UPDATE items2 SET cookie = 'none'")
    last = statement(path, "SELECT last FROM cookies")
    return run(path, put(b"b", b"y")) == (16, b"") and statement(path, "SELECT last FROM cookies") == last


def killed_run_keeps_its_replies(folder):
    """A run is killed amid 10,000 writes: each write whose reply was read is there afterwards."""
    path = os.path.join(folder, "killed.db")
    child = subprocess.Popen([PROGRAM, *WORDS, path], stdin=subprocess.PIPE, stdout=subprocess.PIPE)
    feeder = os.fork()
    if feeder == 0:
        try:
            for k in range(10_000):
                os.write(child.stdin.fileno(), put(b"k%d" % k, b"v%d" % k))
        except OSError:
            pass
        os._exit(0)
    child.stdin.close()
    replies = b""
    while len(replies) < 4000 * len(DONE):
        replies += os.read(child.stdout.fileno(), len(DONE))
    child.send_signal(signal.SIGKILL)
    replies += child.stdout.read()
    child.wait()
    os.waitpid(feeder, 0)
    answered = len(replies) // len(DONE)
    status, text = run(path, b"".join(get(b"k%d" % k) for k in range(answered)))
    kept = int(statement(path, "SELECT count(*) FROM items2"))
    print("  %d replies were read, %d rows are there" % (answered, kept))
    return status == 0 and 4000 <= answered <= kept < 10_000 and text == b"".join(found(b"v%d" % k) for k in range(answered))


def held_file_is_refused(folder):
    """A file that a run has open is refused to a second run and to sqlite3, and the first goes on."""
    path = os.path.join(folder, "held.db")
    child = subprocess.Popen([PROGRAM, *WORDS, path], stdin=subprocess.PIPE, stdout=subprocess.PIPE)
    child.stdin.write(put(b"a", b"x"))
    child.stdin.flush()
    first = child.stdout.read(len(DONE))
    second = run(path, get(b"a"))
    said = statement(path, "SELECT count(*) FROM items2")
    child.stdin.write(get(b"a"))
    child.stdin.close()
    last = child.stdout.read()
    print("  sqlite3 said: %s" % said)
    return first == DONE and second == (10, b"") and "locked" in said and last == found(b"x") and child.wait() == 0


def file_held_by_sqlite_is_refused(folder):
    """A file that another program is writing is refused, and keeps its rows."""
    path = os.path.join(folder, "theirs.db")
    run(path, put(b"a", b"x"))
    other = sqlite3.connect(path, isolation_level=None)
    other.execute("BEGIN IMMEDIATE")
    refused = run(path, get(b"a"))
    other.execute("ROLLBACK")
    other.close()
    return refused == (10, b"") and run(path, get(b"a")) == (0, found(b"x"))


def folder_is_refused(folder):
    path = os.path.join(folder, "folder.db")
    os.mkdir(path)
    return run(path, put(b"a", b"x")) == (10, b"") and os.listdir(path) == []


def garbage_is_refused(folder):
    path = os.path.join(folder, "garbage.db")
    garbage = bytes((k * 167 + 13) % 256 for k in range(20_000))
    with open(path, "wb") as file:
        file.write(garbage)
    return run(path, put(b"a", b"x")) == (10, b"") and contents(path) == garbage


def other_table_is_refused(folder):
    """A table of another form, of either name, is refused and keeps its rows."""
    for name in ["items", "items2"]:
        path = os.path.join(folder, "other-%s.db" % name)
        statement(path, "CREATE TABLE %s (name TEXT); INSERT INTO %s VALUES ('kept')" % (name, name))
        if run(path, put(b"a", b"x")) != (10, b"") or statement(path, "SELECT name FROM %s" % name) != "kept":
            return False
    return True


ITEMS = (
    "CREATE TABLE items (key BLOB PRIMARY KEY, body BLOB NOT NULL, minutes INTEGER NOT NULL, fresh INTEGER NOT NULL, "
    "cookie INTEGER NOT NULL, since INTEGER NOT NULL, touched INTEGER NOT NULL, expiry INTEGER NOT NULL); "
)


def rows_of_items_are_moved(folder):
    """Items of the table without ends are read, and their rows are moved, each without an end."""
    path = os.path.join(folder, "moved-rows.db")
    rows = "(x'2f62', x'79', 20, 0, 0, 0, 0, 1200000), (x'2f61', x'78', 525600, 0, 7, 5, 0, 31536000000)"
    statement(path, ITEMS + "INSERT INTO items VALUES " + rows)
    read = run(path, get(b"b"))
    left = statement(path, "SELECT count(*) FROM items")
    ends = statement(path, "SELECT hex(key), cookie, ends FROM items2 ORDER BY key")
    return read == (0, found(b"y")) and left == "0" and ends == "2F61|7|9223372036854775807\n2F62|0|9223372036854775807"


def killed_move_loses_no_row(folder):
    """A run is killed amid the move of 3,000 rows, again and again: each row is in one of the tables, and a last run has them all."""
    path = os.path.join(folder, "moving.db")
    connection = sqlite3.connect(path)
    connection.executescript(ITEMS)
    rows = ((b"/k%d" % k, b"v%d" % k) for k in range(3_000))
    connection.executemany("INSERT INTO items VALUES (?1, ?2, 20, 0, 0, 0, 0, 1200000)", rows)
    connection.commit()
    connection.close()
    good, seen = True, []
    for pause in [0.05, 0.1, 0.2, 0.3, 0.5, 0.7]:
        child = subprocess.Popen([PROGRAM, *WORDS, path], stdin=subprocess.PIPE, stdout=subprocess.DEVNULL)
        time.sleep(pause)
        child.send_signal(signal.SIGKILL)
        child.wait()
        there = statement(path, "SELECT count(*) FROM (SELECT key FROM items UNION SELECT key FROM items2)")
        good = good and there == "3000"
        seen.append(statement(path, "SELECT count(*) FROM items2"))
    keys = range(1_000, 2_000)
    status, text = run(path, b"".join(get(b"k%d" % k) for k in keys))
    print("  rows moved when the runs were killed: %s" % ", ".join(seen))
    counts = statement(path, "SELECT count(*) FROM items"), statement(path, "SELECT count(*) FROM items2")
    return good and counts == ("0", "3000") and status == 0 and text == b"".join(found(b"v%d" % k) for k in keys)


def row_that_is_no_item_refuses_the_file(folder):
    """A row of the table without ends that is no item stays there, and the file is refused."""
    path = os.path.join(folder, "no-item.db")
    statement(path, ITEMS + "INSERT INTO items VALUES (x'2f61', x'78', 0, 0, 0, 0, 0, 0)")
    return run(path, get(b"a")) == (10, b"") and statement(path, "SELECT minutes FROM items") == "0"


def file_that_may_not_be_written_is_refused(folder):
    if os.geteuid() != 0:
        return None
    path = os.path.join(folder, "guarded", "read-only.db")
    os.mkdir(os.path.dirname(path))
    run(path, put(b"a", b"x"))
    os.chmod(path, 0o444)
    before = contents(path)
    refused = run(path, put(b"a", b"y"), user=NOBODY)
    same = contents(path) == before
    return refused == (10, b"") and same and run(path, get(b"a")) == (0, found(b"x"))


def folder_that_may_not_be_written_is_refused(folder):
    """In a folder that may not be written, a file is neither made nor opened."""
    if os.geteuid() != 0:
        return None
    guarded = os.path.join(folder, "read-only")
    os.mkdir(guarded)
    path = os.path.join(guarded, "there.db")
    run(path, put(b"a", b"x"))
    os.remove(path + "-wal")
    os.chmod(path, 0o666)
    os.chmod(guarded, 0o555)
    there = run(path, put(b"a", b"y"), user=NOBODY)
    absent = run(os.path.join(guarded, "absent.db"), put(b"a", b"y"), user=NOBODY)
    names = os.listdir(guarded)
    os.chmod(guarded, 0o777)
    return there == (10, b"") and absent == (10, b"") and names == ["there.db"] and run(path, get(b"a")) == (0, found(b"x"))


def run_on_a_full_disk_reads_nothing(folder):
    """Where there is no room for the block, the run ends before it reads a request, and the next one with room goes on."""
    small = os.path.join(folder, "full")
    os.mkdir(small)
    options = ["-t", "tmpfs", "-o", "size=512k", "tmpfs", small]
    if os.geteuid() != 0 or subprocess.run(["mount", *options], stderr=subprocess.DEVNULL).returncode != 0:
        return None
    try:
        path = os.path.join(small, "full.db")
        run(path, put(b"a", b"x") + acquire(b"a"))
        filler = os.path.join(small, "filler")
        with open(filler, "wb", buffering=0) as file:
            try:
                while file.write(b"x" * 512):
                    pass
            except OSError:
                pass
        refused = run(path, put(b"b", b"y"))
        os.remove(filler)
        ran = run(path, put_under(b"a", 1, b"z") + acquire(b"a"))
    finally:
        subprocess.run(["umount", small])
    print("  status %d" % refused[0])
    return refused[0] in (10, 16) and refused[1] == b"" and ran[0] == 0 and ran[1].startswith(DONE) and ran[1].endswith(b"z")


def full_disk_loses_no_reply(folder):
    """On a file system of 512 KiB, each write that was answered with success is there afterwards."""
    small = os.path.join(folder, "small")
    os.mkdir(small)
    options = ["-t", "tmpfs", "-o", "size=512k", "tmpfs", small]
    if os.geteuid() != 0 or subprocess.run(["mount", *options], stderr=subprocess.DEVNULL).returncode != 0:
        return None
    try:
        path = os.path.join(small, "full.db")
        bodies = [b"%d" % k * 1000 for k in range(200)]
        status, text = run(path, b"".join(put(b"k%d" % k, bodies[k]) for k in range(200)))
        done = [k for k, reply in enumerate(text.split(b"HTTP/1.1 ")[1:]) if reply.startswith(b"200")]
        moved = os.path.join(folder, "moved.db")
        for end in ["", "-wal"]:
            if os.path.exists(path + end):
                shutil.copy(path + end, moved + end)
    finally:
        subprocess.run(["umount", small])
    again, read = run(moved, b"".join(get(b"k%d" % k) for k in done))
    print("  status %d, %d of 200 writes done; then status %d" % (status, len(done), again))
    return status == 0 and 0 < len(done) < 200 and again == 0 and read == b"".join(found(bodies[k]) for k in done)


CASES = [
    items_survive,
    sqlite3_reads_and_writes,
    cookies_go_on,
    file_of_before_goes_on_above_what_is_held,
    greatest_cookie_leaves_none,
    cookie_that_is_no_number_stops_the_run,
    killed_run_keeps_its_replies,
    held_file_is_refused,
    file_held_by_sqlite_is_refused,
    folder_is_refused,
    garbage_is_refused,
    other_table_is_refused,
    rows_of_items_are_moved,
    killed_move_loses_no_row,
    row_that_is_no_item_refuses_the_file,
    file_that_may_not_be_written_is_refused,
    folder_that_may_not_be_written_is_refused,
    run_on_a_full_disk_reads_nothing,
    full_disk_loses_no_reply,
]


def main():
    global PROGRAM
    failed = 0
    with tempfile.TemporaryDirectory() as folder:
        os.chmod(folder, 0o777)
        if len(sys.argv) > 1:
            # Another user may not reach the folder that the program is in.
            PROGRAM = shutil.copy(PROGRAM, os.path.join(folder, "program"))
        for case in CASES:
            holds = case(folder)
            failed += holds is False
            print("%s: %s" % (case.__name__, {True: "ok", False: "FAILED", None: "not tried"}[holds]))
    sys.exit(1 if failed else 0)


main()
