#!/usr/bin/env python3
"""Checks that no increment is lost under load, at `asp_state serve` itself and through HAProxy before three of them.

usage: bench/increments.py [PROGRAM [SECONDS]]
       bench/increments.py --at PORT CLIENTS SESSIONS SECONDS [tls] [tolerate]

Clients with a connection each add one to the numbers in sessions: each takes a session's lock, reads its number, and writes the
next under the lock's cookie. While they run it is checked that no two hold a session at once and that each reads what was written
last, and at the end that each session's number is that of its increments. Without `--at` it starts the servers and HAProxy
(`packaging/haproxy.cfg` on other ports, plain and by TLS), and loads each for SECONDS, 60 where none are given; PROGRAM is the
built program, ./asp_state builds it where none is given. With `--at` it loads what listens on that port; `tolerate` counts lost
connections and lost sessions, as where a server is killed meanwhile, and finds no fault in them. It ends with status 1 where there was
a fault. It needs haproxy and openssl. Outside the gate; nothing of its figures is promised.
"""
import asyncio
import collections
import os
import random
import socket
import ssl
import subprocess
import sys
import tempfile
import time

TOP = os.path.dirname(os.path.dirname(os.path.abspath(__file__)))
LOST = (ConnectionError, OSError, asyncio.IncompleteReadError)


def unchecked_tls():
    """TLS to a server whose certificate is its own."""
    context = ssl.create_default_context()
    context.check_hostname = False
    context.verify_mode = ssl.CERT_NONE
    return context


class Run:
    """One load: where it goes, what each session's number should be, who holds it, and what was seen."""

    def __init__(self, port, sessions, tls=False, tolerate=False):
        self.port = port
        self.context = unchecked_tls() if tls else None
        self.tolerate = tolerate
        self.name = b"%08x" % random.getrandbits(32)
        self.numbers = [0] * sessions
        self.holders = [None] * sessions
        self.counts = collections.Counter()
        self.faults = []
        self.times = []

    def key(self, session):
        return b"%s%016d" % (self.name, session)

    def fault(self, text):
        if not self.tolerate:
            self.faults.append(text)


class Client:
    """A connection that is kept, and made anew where it was lost."""

    def __init__(self, run):
        self.run = run
        self.reader = self.writer = None

    def drop(self):
        if self.writer is not None:
            self.writer.close()
            self.writer = None

    async def ask(self, verb, session, fields=b"", body=None):
        """The status of a reply, its fields and its content."""
        if self.writer is None:
            self.reader, self.writer = await asyncio.open_connection("127.0.0.1", self.run.port, ssl=self.run.context)
            self.run.counts["connections"] += 1
        head = b"%s /shop/%s HTTP/1.1\r\nHost: state\r\n%s" % (verb, self.run.key(session), fields)
        if body is not None:
            head += b"Content-Length: %d\r\n" % len(body)
        begun = time.monotonic()
        try:
            self.writer.write(head + b"\r\n" + (body or b""))
            text = await self.reader.readuntil(b"\r\n\r\n")
            lines = text.split(b"\r\n")
            pairs = (line.split(b":", 1) for line in lines[1:-2])
            got = {name.lower(): value.strip() for name, value in pairs}
            content = await self.reader.readexactly(int(got.get(b"content-length", b"0")))
        except LOST:
            self.drop()
            raise
        self.run.times.append(time.monotonic() - begun)
        status = int(lines[0][9:12])
        self.run.counts[status] += 1
        if got.get(b"connection", b"").lower() == b"close":
            self.drop()
        return status, got, content


async def increment(run, client, me, session):
    """One try for the session's lock, and where it was given, its number and one."""
    status, got, content = await client.ask(b"GET", session, b"Exclusive: acquire\r\n")
    if status == 423:
        await asyncio.sleep(0.02)
        return
    if status == 404:
        run.fault(f"session {session} is gone")
        run.numbers[session] = 0
        await client.ask(b"PUT", session, b"ExtraFlags: 1\r\nTimeout: 20\r\n", b"0")
        return
    if status != 200:
        run.fault(f"an acquire was answered {status}")
        return
    if run.holders[session] is not None:
        run.fault(f"session {session} is held by {run.holders[session]} and was given to {me}")
    run.holders[session] = me
    if int(content) != run.numbers[session]:
        run.fault(f"session {session} has {int(content)} and not {run.numbers[session]}")
    # (Others hear their replies meanwhile.)
    await asyncio.sleep(0)
    run.holders[session] = None
    run.numbers[session] = int(content) + 1
    fields = b"Timeout: 20\r\nLockCookie: %s\r\n" % got[b"lockcookie"]
    status, _, _ = await client.ask(b"PUT", session, fields, b"%d" % run.numbers[session])
    run.counts["increments"] += 1
    if status != 200:
        run.fault(f"a write under its own lock was answered {status}")


async def work(run, me, end):
    client = Client(run)
    while time.monotonic() < end:
        try:
            await increment(run, client, me, random.randrange(len(run.numbers)))
        except LOST:
            run.counts["lost connections"] += 1
            run.fault("a connection was lost")
            await asyncio.sleep(0.2)
    client.drop()


async def begin(run, maker):
    """Writes each session's first number."""
    for session in range(len(run.numbers)):
        for _ in range(50):
            try:
                await maker.ask(b"PUT", session, b"Timeout: 20\r\n", b"0")
                break
            except LOST:
                await asyncio.sleep(0.2)


async def end_of(run, maker):
    """How many sessions have another number than that of their increments."""
    wrong = 0
    for session, number in enumerate(run.numbers):
        status, _, content = await maker.ask(b"GET", session)
        if status == 404 and run.tolerate:
            run.counts["sessions gone"] += 1
        elif status != 200 or int(content) != number:
            wrong += 1
    return wrong


async def load(run, clients, seconds):
    """Loads what listens for so long, and prints what was seen. True where there was no fault."""
    maker = Client(run)
    await begin(run, maker)
    # (An idle connection may be closed meanwhile.)
    maker.drop()
    run.counts.clear()
    run.times.clear()
    begun = time.monotonic()
    await asyncio.gather(*(work(run, me, begun + seconds) for me in range(clients)))
    took = time.monotonic() - begun
    times = sorted(run.times)
    seen = ", ".join(f"{name} {count}" for name, count in sorted(run.counts.items(), key=str))
    wrong = await end_of(run, maker)
    maker.drop()
    print(f"{clients} clients, {len(run.numbers)} sessions, {took:.1f} s: {seen}")
    middle, late = (1000 * times[int(len(times) * part)] for part in (0.5, 0.99))
    print(f"replies a second {len(times) / took:.0f}, ms p50 {middle:.1f}, p99 {late:.1f}, greatest {1000 * times[-1]:.1f}")
    print(f"sessions with another number than their increments: {wrong}; faults: {len(run.faults)} {run.faults[:3]}", flush=True)
    return wrong == 0 and not run.faults


def free_ports(count):
    probes = [socket.socket() for _ in range(count)]
    for probe in probes:
        probe.bind(("127.0.0.1", 0))
    ports = [probe.getsockname()[1] for probe in probes]
    for probe in probes:
        probe.close()
    return ports


def await_port(port, process):
    """Waits until somebody listens on the port. No connection is made, since a server counts them."""
    wanted = f":{port:04X} 00000000:0000 0A"
    for _ in range(500):
        with open("/proc/net/tcp", encoding="ascii") as table:
            if wanted in table.read():
                return
        if process.poll() is not None:
            raise SystemExit(f"a server ended with status {process.returncode}")
        time.sleep(0.01)
    raise SystemExit("a server does not listen")


class Farm:
    """Three servers, and HAProxy before them, plain and by TLS."""

    def __init__(self, program, folder):
        *self.ports, self.plain, self.tls = free_ports(5)
        self.running = []
        for port in self.ports:
            self.start([program, "serve", str(port), "64", "1000000"], port)
        key, certificate, both = (os.path.join(folder, name) for name in ("key.pem", "cert.pem", "state.pem"))
        words = ["openssl", "req", "-x509", "-newkey", "rsa:2048", "-nodes", "-days", "2", "-subj", "/CN=localhost"]
        subprocess.run([*words, "-keyout", key, "-out", certificate], check=True, stderr=subprocess.DEVNULL)
        with open(both, "w", encoding="ascii") as file:
            for part in (certificate, key):
                with open(part, encoding="ascii") as text:
                    file.write(text.read())
        config = os.path.join(folder, "haproxy.cfg")
        with open(os.path.join(TOP, "packaging", "haproxy.cfg"), encoding="utf-8") as file:
            text = file.read()
        front = f"bind 127.0.0.1:{self.plain}\n    bind 127.0.0.1:{self.tls} ssl crt {both}"
        text = text.replace("bind 127.0.0.1:42424", front)
        for k, port in enumerate(self.ports):
            text = text.replace(f"127.0.0.1:{42431 + k}", f"127.0.0.1:{port}")
        with open(config, "w", encoding="utf-8") as file:
            file.write(text)
        self.start(["haproxy", "-db", "-f", config], self.tls)
        # (Its first checks.)
        time.sleep(2)

    def start(self, words, port):
        path = os.environ.get("PATH", "") + ":/usr/sbin"
        process = subprocess.Popen(words, env={**os.environ, "PATH": path}, stdout=subprocess.DEVNULL, stderr=subprocess.DEVNULL)
        self.running.append(process)
        await_port(port, process)

    def stop(self):
        for process in self.running:
            process.kill()
            process.wait()


def loads(program, seconds):
    """The loads of a farm: one server by itself, and all through HAProxy."""
    with tempfile.TemporaryDirectory() as folder:
        farm = Farm(program, folder)
        good = True
        try:
            for name, port, clients, sessions, tls in (
                ("one server itself", farm.ports[0], 48, 1000, False),
                ("three servers through HAProxy", farm.plain, 500, 1000, False),
                ("the same, with few sessions", farm.plain, 500, 20, False),
                ("the same by TLS", farm.tls, 500, 1000, True),
            ):
                print(f"# {name}", flush=True)
                good = asyncio.run(load(Run(port, sessions, tls), clients, seconds)) and good
        finally:
            farm.stop()
        return good


def main():
    words = sys.argv[1:]
    if words[:1] == ["--at"]:
        port, clients, sessions, seconds = (int(word) for word in words[1:5])
        run = Run(port, sessions, "tls" in words, "tolerate" in words)
        return 0 if asyncio.run(load(run, clients, seconds)) else 1
    if words:
        program = os.path.abspath(words[0])
    else:
        subprocess.run([os.path.join(TOP, "asp_state"), "--build"], check=True)
        program = os.path.join(TOP, "crates", "asp_state", "out", "asp_state")
    return 0 if loads(program, float(words[1]) if len(words) > 1 else 60.0) else 1


if __name__ == "__main__":
    sys.exit(main())
