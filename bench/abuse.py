#!/usr/bin/env python3
"""Abuses `asp_state serve` for a minute with real sockets, beside a client that behaves, and watches the server's memory.

usage: bench/abuse.py [PROGRAM [SECONDS]]

PROGRAM is the built program; without it ./asp_state builds it, and its own is taken. The server has eight workers. At most
seven connections at once are abusive, so one worker is free for the good client; every kind of abuse is met by turns: slow
writers, peers that never read, resets inside a request and inside a reply, heads that never end, bodies that stop, bodies of
4 MiB at once. Then more connections than there are workers come at once. Printed are how often each kind was tried, the good
client's exchanges and its slowest, and the greatest resident memory. It ends with status 1 where the good client got another
answer than the protocol's, where the memory passed its bound (4.3 MiB for each worker, the items, and 16 MiB), or where the
server ended otherwise than with status 0. Outside the gate.
"""
import collections
import os
import socket
import struct
import subprocess
import sys
import threading
import time

TOP = os.path.dirname(os.path.dirname(os.path.abspath(__file__)))
WORKERS = 8
LIMIT = 10_000
MIB = 1 << 20
CONSTANT = 16 * MIB
DONE = b"HTTP/1.1 200 OK\r\nContent-Length: 0\r\n\r\n"


def program():
    """The built program."""
    if len(sys.argv) > 1:
        return os.path.abspath(sys.argv[1])
    subprocess.run([os.path.join(TOP, "asp_state"), "--build"], check=True)
    return os.path.join(TOP, "crates", "asp_state", "out", "asp_state")


def put(key, body):
    return b"PUT %s HTTP/1.1\r\nTimeout: 20\r\nContent-Length: %d\r\n\r\n%s" % (key, len(body), body)


def get(key):
    return b"GET %s HTTP/1.1\r\nHost: web\r\n\r\n" % key


def found(body):
    return b"HTTP/1.1 200 OK\r\nTimeout: 20\r\nContent-Length: %d\r\n\r\n%s" % (len(body), body)


def read_exactly(peer, size):
    parts = []
    while size > 0:
        part = peer.recv(min(size, 1 << 16))
        if not part:
            raise ConnectionError("the server closed")
        parts.append(part)
        size -= len(part)
    return b"".join(parts)


def reset(peer):
    """Closes the connection by a reset."""
    peer.setsockopt(socket.SOL_SOCKET, socket.SO_LINGER, struct.pack("ii", 1, 0))
    peer.close()


def slow_writer(peer):
    for byte in get(b"/slow"):
        peer.send(bytes([byte]))
        time.sleep(0.02)


def never_reads(peer):
    peer.settimeout(1)
    peer.sendall(put(b"/large", b"l" * (4 * MIB)))
    for _ in range(20):
        peer.sendall(get(b"/large"))
    time.sleep(1)


def reset_in_a_request(peer):
    peer.sendall(put(b"/reset", b"r" * MIB)[: MIB // 2])
    reset(peer)


def reset_in_a_reply(peer):
    peer.sendall(put(b"/large", b"l" * (4 * MIB)) + get(b"/large"))
    read_exactly(peer, len(DONE) + 1000)
    reset(peer)


def head_without_end(peer):
    peer.sendall(b"GET /head HTTP/1.1\r\n" + b"A: b\r\n" * 4000)
    while peer.recv(1 << 16):
        pass


def body_that_stops(peer):
    peer.sendall(b"PUT /stops HTTP/1.1\r\nContent-Length: 4194304\r\n\r\n" + b"s" * MIB)
    time.sleep(0.5)


def largest_bodies(peer):
    body = b"m" * (4 * MIB)
    for _ in range(3):
        peer.sendall(put(b"/m%d" % (threading.get_ident() % 8), body))
        if read_exactly(peer, len(DONE)) != DONE:
            raise SystemExit("a body of 4 MiB was refused")


ABUSES = [
    slow_writer,
    never_reads,
    reset_in_a_request,
    reset_in_a_reply,
    head_without_end,
    body_that_stops,
    largest_bodies,
]
# The items that all this leaves: three keys of the abuses and eight of the largest bodies, 4 MiB each, and the good client's.
ITEMS = 12 * 4 * MIB


class Server:
    def __init__(self):
        with socket.socket() as probe:
            probe.bind(("127.0.0.1", 0))
            self.port = probe.getsockname()[1]
        self.process = subprocess.Popen([program(), "serve", str(self.port), str(WORKERS), str(LIMIT)])
        self.greatest = 0

    def connect(self):
        for _ in range(500):
            try:
                return socket.create_connection(("127.0.0.1", self.port), timeout=30)
            except ConnectionRefusedError:
                time.sleep(0.01)
        raise SystemExit("the server does not listen")

    def watch(self, over):
        while not over.is_set():
            with open(f"/proc/{self.process.pid}/status", encoding="ascii") as status:
                for line in status:
                    if line.startswith("VmRSS:"):
                        self.greatest = max(self.greatest, int(line.split()[1]) * 1024)
            time.sleep(0.05)


def abuse(server, over, counts, first):
    turn = first
    while not over.is_set():
        kind = ABUSES[turn % len(ABUSES)]
        turn += 1
        try:
            with server.connect() as peer:
                kind(peer)
        except OSError:
            pass
        counts[kind.__name__] += 1


def behave(server, over, report):
    """Writes and reads by turns, over a connection for ten exchanges each, and keeps the slowest."""
    number = 0
    while not over.is_set():
        with server.connect() as peer:
            peer.setsockopt(socket.IPPROTO_TCP, socket.TCP_NODELAY, 1)
            for _ in range(10):
                body = b"%d" % number
                begun = time.monotonic()
                peer.sendall(put(b"/good", body))
                if read_exactly(peer, len(DONE)) != DONE:
                    report["wrong"] += 1
                peer.sendall(get(b"/good"))
                if read_exactly(peer, len(found(body))) != found(body):
                    report["wrong"] += 1
                report["slowest"] = max(report["slowest"], time.monotonic() - begun)
                number += 1
    report["exchanges"] = 2 * number


def crowd(server):
    """More connections at once than there are workers: each gets its answer in the end."""
    peers = [server.connect() for _ in range(8 * WORKERS)]
    for peer in peers:
        peer.sendall(get(b"/good"))
    answered = 0
    for peer in peers:
        with peer:
            peer.shutdown(socket.SHUT_WR)
            answered += peer.recv(1 << 16).startswith(b"HTTP/1.1 200 OK\r\n")
    return len(peers), answered


def drain(server):
    """Uses up the connections that the workers are still to serve, and gives the server's status."""
    while server.process.poll() is None:
        try:
            reset(socket.create_connection(("127.0.0.1", server.port), timeout=1))
        except OSError:
            time.sleep(0.01)
    return server.process.returncode


def main():
    seconds = float(sys.argv[2]) if len(sys.argv) > 2 else 60.0
    server = Server()
    over, watched = threading.Event(), threading.Event()
    counts = collections.Counter()
    report = {"wrong": 0, "slowest": 0.0, "exchanges": 0}
    watcher = threading.Thread(target=server.watch, args=(watched,))
    watcher.start()
    threads = [threading.Thread(target=abuse, args=(server, over, counts, k)) for k in range(WORKERS - 1)]
    threads.append(threading.Thread(target=behave, args=(server, over, report)))
    for thread in threads:
        thread.start()
    time.sleep(seconds)
    over.set()
    for thread in threads:
        thread.join()
    came, answered = crowd(server)
    watched.set()
    watcher.join()
    status = drain(server) if server.process.poll() is None else -1
    bound = int(WORKERS * 4.3 * MIB) + ITEMS + CONSTANT
    for name, count in sorted(counts.items()):
        print(f"{name}: {count} times")
    print(f"good client: {report['exchanges']} exchanges, {report['wrong']} wrong, the slowest pair {report['slowest']:.3f} s")
    print(f"a crowd of {came}: {answered} answered")
    print(f"greatest resident memory: {server.greatest / MIB:.1f} MiB, bound {bound / MIB:.1f} MiB")
    print("the server ended before its time" if status == -1 else f"the server ended with status {status}")
    good = status == 0 and report["wrong"] == 0 and answered == came and server.greatest <= bound
    return 0 if good else 1


if __name__ == "__main__":
    sys.exit(main())
