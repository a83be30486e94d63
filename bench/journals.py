#!/usr/bin/env python3
"""Serves with journals, under load over sockets, and has the journals judged against what the clients saw.

usage: bench/journals.py [--kill] [PROGRAM]

PROGRAM is the built program; without it ./asp_state builds it, and its own is taken. Sixteen clients make 2,000 requests each on 24
sessions: reads, acquires, releases, writes, removals and resets. When the server has ended each of its eight journals is judged legal by
`replay`, they hold exactly the requests and the replies of the clients, and `mirror` lists just the sessions that were read at the end.
A second server over the same folder is refused with 17, and leaves the files as they were. With --kill the server is killed in the midst
of the load instead, and each journal, without a last line that has no end, is judged legal. Outside the gate.
"""
import collections
import os
import random
import signal
import socket
import subprocess
import sys
import tempfile
import threading
import time

from serve import TOP, await_port, free_port

CLIENTS = 16
REQUESTS = 2_000
KEYS = [b"/app/%02d" % k for k in range(24)]
SHARDS = 8


def spelled(octets):
    return "x" + octets.hex()


class Client:
    """A connection, and what it asked and heard: one line for each request, as a journal spells it."""

    def __init__(self, port, seed):
        self.peer = socket.create_connection(("127.0.0.1", port))
        self.peer.setsockopt(socket.IPPROTO_TCP, socket.TCP_NODELAY, 1)
        self.input = self.peer.makefile("rb")
        self.dice = random.Random(seed)
        self.seen = []
        self.held = {}

    def ask(self, verb, key, fields, body, ask):
        head = b"%s %s HTTP/1.1\r\n%s" % (verb, key, b"".join(b"%s: %s\r\n" % field for field in fields))
        if verb == b"PUT":
            head += b"Content-Length: %d\r\n" % len(body)
        self.peer.sendall(head + b"\r\n" + body)
        reply, cookie = self.hear()
        self.seen.append("%s %s : %s" % (spelled(key), ask, reply))
        return reply, cookie

    def hear(self):
        """The reply in the dated spelling, and its cookie."""
        status = int(self.input.readline().split()[1])
        fields = {}
        while True:
            line = self.input.readline().strip()
            if not line:
                break
            name, _, value = line.partition(b":")
            fields[name] = value.strip().decode()
        body = self.input.read(int(fields[b"Content-Length"]))
        cookie = fields.get(b"LockCookie", "0")
        if status == 200 and b"Timeout" in fields:
            first = fields.get(b"ActionFlags", "0")
            return "found %s %s %s %s" % (cookie, fields[b"Timeout"], first, spelled(body)), cookie
        if status == 423:
            return "locked %s %s %s" % (cookie, fields[b"LockAge"], fields.get(b"LockDate", "-")), cookie
        return {200: "done", 404: "missing", 503: "no-memory"}[status], "0"

    def request(self, number):
        key = self.dice.choice(KEYS)
        cookie = self.held.pop(key, "0")
        names = [(b"LockCookie", cookie.encode())] if cookie != "0" else []
        kind = self.dice.choice(["read", "acquire", "write", "write", "remove", "reset", "release"])
        if cookie != "0" and kind in ("read", "acquire", "reset"):
            kind = "write"
        if kind == "write":
            body = b"%d of %d" % (number, id(self)) * self.dice.randrange(1, 40)
            self.ask(b"PUT", key, names, body, "write %s 20 0 %s" % (cookie, spelled(body)))
        elif kind == "release":
            cookie = cookie if cookie != "0" else "1"
            self.ask(b"GET", key, [(b"Exclusive", b"release"), (b"LockCookie", cookie.encode())], b"", "release " + cookie)
        elif kind == "remove" and (cookie != "0" or self.dice.random() < 0.2):
            self.ask(b"DELETE", key, names, b"", "remove " + cookie)
        elif kind == "acquire":
            reply, cookie = self.ask(b"GET", key, [(b"Exclusive", b"acquire")], b"", "acquire")
            if reply.startswith("found"):
                self.held[key] = cookie
        elif kind == "reset":
            self.ask_head(key)
        else:
            self.ask(b"GET", key, [], b"", "read")

    def ask_head(self, key):
        self.ask(b"HEAD", key, [], b"", "reset")

    def run(self, requests):
        try:
            for number in range(requests):
                self.request(number)
        except (OSError, IndexError):
            pass

    def close(self):
        self.input.close()
        self.peer.close()


def load(port, requests):
    clients = [Client(port, seed) for seed in range(CLIENTS)]
    threads = [threading.Thread(target=client.run, args=(requests,)) for client in clients]
    for thread in threads:
        thread.start()
    return clients, threads


def judge(program, journal):
    return subprocess.run([program, "replay"], input=journal, capture_output=True, check=False)


def files_of(folder):
    return [os.path.join(folder, "shard-%d.journal" % shard) for shard in range(SHARDS)]


def read(path):
    with open(path, "rb") as file:
        return file.read()


def must(holds, what):
    if not holds:
        sys.exit("bench/journals.py: " + what)


def whole(program, folder):
    port = free_port()
    # (One connection more than there are clients: it reads what is left.)
    words = [program, "serve", str(port), str(CLIENTS + 1), "1", folder]
    with subprocess.Popen(words) as server:
        await_port(port, server)
        clients, threads = load(port, REQUESTS)
        for thread in threads:
            thread.join()
        last = Client(port, 99)
        left = {}
        for key in KEYS:
            reply, _ = last.ask(b"GET", key, [], b"", "read")
            left[key] = reply
        for client in [*clients, last]:
            client.close()
        must(server.wait() == 0, "the server ended with %s" % server.returncode)
    journals = [read(path) for path in files_of(folder)]
    entries = 0
    held = collections.Counter()
    for shard, journal in enumerate(journals):
        said = judge(program, journal)
        must(said.returncode == 0, "shard %d: %s" % (shard, said.stdout))
        entries += int(said.stdout.split()[1])
        for line in journal.decode().splitlines()[1:]:
            words = line.split(" ", 4)
            if not words[4].startswith(("- ", "expired")) and " expired : " not in words[4]:
                held[words[4]] += 1
    seen = collections.Counter(line for client in [*clients, last] for line in client.seen)
    must(held == seen, "the journals are not what was seen: %s, %s" % (held - seen, seen - held))
    listed = {}
    moment = str(int(time.time() * 1000))
    for shard, journal in enumerate(journals):
        said = subprocess.run([program, "mirror", moment], input=journal, capture_output=True, check=False)
        if said.returncode == 2:
            print("this program has no mirror")
            break
        must(said.returncode == 0, "mirror of shard %d: %s" % (shard, said.stdout))
        for line in said.stdout.decode().splitlines()[:-1]:
            words = line.split(" ")
            listed[bytes.fromhex(words[0][1:])] = words
    else:
        for key, reply in left.items():
            if reply.startswith("found"):
                must(key in listed and listed[key][-1] == reply.split()[4], "mirror of %r" % key)
            elif reply == "missing":
                must(key not in listed, "mirror lists %r" % key)
            else:
                must(listed[key][1] == reply.split()[1], "mirror's lock of %r" % key)
        must(set(listed) <= set(KEYS), "mirror lists more")
    again = subprocess.run([program, "serve", str(free_port()), "1", "1", folder], check=False)
    must(again.returncode == 17, "a second server over the folder ended with %d" % again.returncode)
    must(journals == [read(path) for path in files_of(folder)], "a second server changed a journal")
    size = sum(len(journal) for journal in journals)
    print("%d requests, %d entries, %d bytes: legal, and what was seen" % (seen.total(), entries, size))


def killed(program, folder):
    port = free_port()
    with subprocess.Popen([program, "serve", str(port), str(CLIENTS), "1", folder]) as server:
        await_port(port, server)
        _, threads = load(port, 1_000_000)
        time.sleep(2)
        server.send_signal(signal.SIGKILL)
        server.wait()
        for thread in threads:
            thread.join()
    entries = 0
    cut = 0
    for shard, path in enumerate(files_of(folder)):
        journal = read(path)
        front = journal[: journal.rfind(b"\n") + 1]
        cut += front != journal
        if not front:
            continue
        said = judge(program, front)
        must(said.returncode == 0, "shard %d: %s" % (shard, said.stdout))
        entries += int(said.stdout.split()[1])
    print("killed: %d entries, legal; %d journals with a last line that is cut" % (entries, cut))


def main():
    words = [word for word in sys.argv[1:] if not word.startswith("--")]
    if words:
        program = os.path.abspath(words[0])
    else:
        subprocess.run([os.path.join(TOP, "asp_state"), "--build"], check=True)
        program = os.path.join(TOP, "crates", "asp_state", "out", "asp_state")
    with tempfile.TemporaryDirectory() as folder:
        if "--kill" in sys.argv[1:]:
            killed(program, folder)
        else:
            whole(program, folder)


if __name__ == "__main__":
    main()
