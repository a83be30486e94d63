#!/usr/bin/env python3
"""Measures `asp_state serve` over loopback, beside redis-server, memcached, nginx and a bare echo, in one run.

usage: bench/serve.py [--growth] [--sessions] [--expiry] [--calls] [--journals] [PROGRAM [OLDER]]

PROGRAM is the built program; without it ./asp_state builds it, and its own is taken. Without a flag it runs each server with 1, 8
and 64 connections, by turns, three rounds of a second each, the server on one half of the processors and the load on the other,
and prints the medians: requests a second, p50 and p99 in microseconds. --growth runs 1, 2, 4 and 8 workers with as many
connections; --sessions writes sessions with contents of 100 bytes to 64 KiB, and prints the memory of each, and the time of a request
before and after 1,000,000 of them; --expiry writes 20,000 sessions of one minute, lets them expire, and prints the memory before and
after short visits, and after as many more sessions; --calls counts the system calls of 20,000 requests under strace; --journals runs
PROGRAM without and with FOLDER, and OLDER if it is given, by turns with 8 and 64 connections, and prints the medians, the server's
processor time a request in microseconds, and how large the journals grow a request (in a folder of TMPDIR, some 500 MB at a time). It
needs cc, and redis-server, memcached, nginx and strace where they are asked for. Outside the gate; nothing of it is promised.
"""
import os
import re
import shutil
import socket
import statistics
import subprocess
import sys
import tempfile
import time

TOP = os.path.dirname(os.path.dirname(os.path.abspath(__file__)))
CONNECTIONS = [1, 8, 64]
ROUNDS = 3
SECONDS = 1
BODY = 1024
LIMIT = 100_000
DONE = b"HTTP/1.1 200 OK\r\nContent-Length: 0\r\n\r\n"
# The contents of the sessions whose memory is measured, in bytes, and how many sessions.
CONTENTS = [(100, 1_000_000), (1_024, 300_000), (16_384, 20_000), (65_536, 5_000)]


def processors():
    """The processors of the server, and those of the load."""
    every = sorted(os.sched_getaffinity(0))
    half = max(1, len(every) // 2)
    return every[:half], every[half:] or every


def listed(numbers):
    return ",".join(str(n) for n in numbers)


def free_port():
    with socket.socket() as probe:
        probe.bind(("127.0.0.1", 0))
        return probe.getsockname()[1]


def await_port(port, process):
    """Waits until somebody listens on the port. No connection is made, since the server counts them."""
    wanted = f":{port:04X} 00000000:0000 0A"
    for _ in range(500):
        with open("/proc/net/tcp", encoding="ascii") as table:
            if wanted in table.read():
                return
        if process.poll() is not None:
            raise SystemExit(f"a server ended with status {process.returncode}")
        time.sleep(0.01)
    raise SystemExit("a server does not listen")


class Bench:
    """The built tools, and where each server runs."""

    def __init__(self, folder, program):
        self.folder = folder
        self.program = program
        self.servers, self.load = processors()
        for name in ("load", "echo"):
            source = os.path.join(TOP, "bench", name + ".c")
            subprocess.run(["cc", "-O2", "-pthread", "-o", os.path.join(folder, name), source], check=True)

    def start(self, words, port, on=None):
        process = subprocess.Popen(
            ["taskset", "-c", listed(on or self.servers), *words], stdout=subprocess.DEVNULL, stderr=subprocess.DEVNULL
        )
        await_port(port, process)
        return process

    def serve(self, workers, on=None, program=None, journals=None):
        port = free_port()
        words = [program or self.program, "serve", str(port), str(workers), str(LIMIT), *([journals] if journals else [])]
        return port, self.start(words, port, on)

    def others(self):
        """The servers beside ours that are there: name, port, process and the kinds of load."""
        port = free_port()
        yield "echo", port, self.start([os.path.join(self.folder, "echo"), str(port), "64"], port), ["echo"]
        if shutil.which("redis-server"):
            port = free_port()
            words = ["redis-server", "--port", str(port), "--bind", "127.0.0.1", "--save", "", "--appendonly", "no"]
            yield "redis", port, self.start(words, port), ["redis-get", "redis-set", "redis-lua"]
        if shutil.which("memcached"):
            port = free_port()
            words = ["memcached", "-l", "127.0.0.1", "-p", str(port), "-U", "0", "-u", "nobody", "-t", str(len(self.servers))]
            yield "memcached", port, self.start(words, port), ["mc-get", "mc-set"]
        if shutil.which("nginx"):
            port = free_port()
            yield "nginx", port, self.start(self.nginx(port), port), ["http-get"]

    def nginx(self, port):
        root = os.path.join(self.folder, "root")
        os.mkdir(root)
        os.chmod(self.folder, 0o755)
        with open(os.path.join(root, "body.bin"), "wb") as file:
            file.write(b"n" * BODY)
        settings = os.path.join(self.folder, "nginx.conf")
        with open(settings, "w", encoding="ascii") as file:
            file.write(
                f"worker_processes {len(self.servers)}; daemon off; pid {self.folder}/nginx.pid; error_log /dev/null;\n"
                f"events {{ worker_connections 1024; }}\n"
                f"http {{ access_log off; keepalive_requests 100000000; open_file_cache max=10;\n"
                f"server {{ listen 127.0.0.1:{port}; root {root}; }} }}\n"
            )
        return ["nginx", "-c", settings]

    def measure(self, port, kind, connections, seconds=SECONDS, on=None):
        """Requests a second, p50 and p99 in microseconds."""
        load = on or self.load
        threads = min(connections, len(load))
        words = [os.path.join(self.folder, "load"), str(port), str(connections), str(seconds), kind, str(threads), str(BODY)]
        said = subprocess.run(["taskset", "-c", listed(load), *words], capture_output=True, text=True, check=True).stdout
        found = re.search(r"rps=(\S+) +p50us=(\S+) +p99us=(\S+) .*bad=(\d+)", said)
        if found.group(4) != "0":
            print(f"  {kind}: {found.group(4)} answers were not the good one", file=sys.stderr)
        return float(found.group(1)), float(found.group(2)), float(found.group(3))


def compare(bench):
    port, ours = bench.serve(64)
    running = [(port, ours, ["asp-get", "asp-put", "asp-lock"])]
    for _, port, process, kinds in bench.others():
        running.append((port, process, kinds))
    figures = {}
    for _ in range(ROUNDS):
        for connections in CONNECTIONS:
            for port, _, kinds in running:
                for kind in kinds:
                    figures.setdefault((kind, connections), []).append(bench.measure(port, kind, connections))
    for _, process, _ in running:
        process.terminate()
        process.wait()
    print(f"{'kind':<10} connections  requests/s  p50 us  p99 us")
    for (kind, connections), seen in figures.items():
        rate, half, most = (statistics.median(column) for column in zip(*seen))
        print(f"{kind:<10} {connections:>11}  {rate:>10,.0f}  {half:>6.1f}  {most:>6.1f}")


def growth(bench):
    every = sorted(os.sched_getaffinity(0))
    for workers in (1, 2, 4, 8):
        rates = []
        for _ in range(ROUNDS):
            port, server = bench.serve(workers, every)
            rates.append([bench.measure(port, kind, workers, on=every)[0] for kind in ("asp-get", "asp-lock")])
            server.terminate()
            server.wait()
        reads, locks = (statistics.median(column) for column in zip(*rates))
        print(f"{workers} workers, as many connections: {reads:,.0f} reads/s, {locks:,.0f} acquires and named writes/s")


def memory_of(process):
    """The resident memory of the process under taskset, which has become it, in bytes."""
    with open(f"/proc/{process.pid}/status", encoding="ascii") as status:
        for line in status:
            if line.startswith("VmRSS:"):
                return int(line.split()[1]) * 1024
    return 0


def write_sessions(port, name, count, size, minutes=20):
    """Writes sessions with keys of 30 bytes over one connection, many at a time before their replies are read."""
    body = b"s" * size
    batch = max(1, min(500, 2**20 // size))
    with socket.create_connection(("127.0.0.1", port)) as peer:
        for first in range(0, count, batch):
            keys = range(first, min(count, first + batch))
            head = b"PUT /%s%028d HTTP/1.1\r\nTimeout: %d\r\nContent-Length: %d\r\n\r\n%s"
            peer.sendall(b"".join(head % (name, k, minutes, size, body) for k in keys))
            left = len(keys) * len(DONE)
            while left > 0:
                piece = peer.recv(min(left, 1 << 16))
                if not piece:
                    raise SystemExit("the server ended a connection")
                left -= len(piece)


def sessions(bench):
    for size, count in CONTENTS:
        port, server = bench.serve(8)
        before = bench.measure(port, "asp-get", 1)
        empty = memory_of(server)
        begun = time.monotonic()
        write_sessions(port, b"k", count, size)
        took = time.monotonic() - begun
        full = memory_of(server)
        after = bench.measure(port, "asp-get", 1)
        server.terminate()
        server.wait()
        each = (full - empty) / count
        print(f"{count:,} sessions, keys of 30 bytes and contents of {size:,}: written in {took:.1f} s")
        print(f"  memory {empty / 2**20:.0f} MiB before, {full / 2**20:.0f} MiB after: {each:.0f} bytes a session")
        print(f"  a read before: p50 {before[1]:.1f} us, p99 {before[2]:.1f} us; after: p50 {after[1]:.1f} us, p99 {after[2]:.1f} us")


def visit(port):
    """A short connection, as the timer of `packaging` makes one a minute: when it ends, expired sessions are removed."""
    with socket.create_connection(("127.0.0.1", port)) as peer:
        peer.sendall(b"GET /- HTTP/1.1\r\n\r\n")
        peer.recv(4096)


def expiry(bench):
    count, size = 20_000, 10_000
    for workers in (1, 8):
        port, server = bench.serve(workers)
        empty = memory_of(server)
        seen = []

        def look(name):
            seen.append(f"{name} {(memory_of(server) - empty) / 2**20:.0f}")

        write_sessions(port, b"a", count, size, 1)
        look("written")
        time.sleep(62)
        look("expired")
        for _ in range(12):
            visit(port)
            # (The worker removes once the connection has ended.)
            time.sleep(0.3)
        look("after 12 visits")
        write_sessions(port, b"b", count, size, 1)
        look("as many others written")
        server.terminate()
        server.wait()
        print(f"{workers} workers, {count:,} sessions of {size:,} bytes, MiB more than at the beginning: {', '.join(seen)}", flush=True)


def calls(bench):
    port = free_port()
    seen = os.path.join(bench.folder, "calls")
    words = ["strace", "-f", "-c", "-o", seen, bench.program, "serve", str(port), "1", "1"]
    with subprocess.Popen(words) as server:
        await_port(port, server)
        with socket.create_connection(("127.0.0.1", port)) as peer:
            peer.setsockopt(socket.IPPROTO_TCP, socket.TCP_NODELAY, 1)
            for k in range(10_000):
                peer.sendall(b"PUT /a HTTP/1.1\r\nContent-Length: 5\r\n\r\n%05d" % k)
                peer.recv(4096)
                peer.sendall(b"GET /a HTTP/1.1\r\n\r\n")
                peer.recv(4096)
        server.wait()
    print("system calls of 20,000 requests, each in one piece (all that occur 1,000 times and more):")
    with open(seen, encoding="ascii") as table:
        for line in table:
            fields = line.split()
            if len(fields) >= 5 and fields[3].isdigit() and int(fields[3]) >= 1000:
                print(f"  {fields[-1]}: {int(fields[3]) / 20_000:.3f} a request")


def processor_time(process):
    """The processor time that a process took so far, in seconds."""
    with open(f"/proc/{process.pid}/stat", encoding="ascii") as file:
        fields = file.read().rpartition(")")[2].split()
    return (int(fields[11]) + int(fields[12])) / os.sysconf("SC_CLK_TCK")


def journals(bench, older):
    kinds = ["asp-get", "asp-put", "asp-lock"]
    names = [*(["older"] if older else []), "without", "with"]
    figures = {}
    for _ in range(ROUNDS):
        for connections in (8, 64):
            for kind in kinds:
                for name in names:
                    with tempfile.TemporaryDirectory() as folder:
                        program = older if name == "older" else None
                        port, server = bench.serve(64, program=program, journals=folder if name == "with" else None)
                        before = processor_time(server)
                        seen = bench.measure(port, kind, connections)
                        took = processor_time(server) - before
                        server.terminate()
                        server.wait()
                        size = sum(os.path.getsize(os.path.join(folder, file)) for file in os.listdir(folder))
                    requests = seen[0] * SECONDS
                    figures.setdefault((kind, connections, name), []).append((*seen, took * 1e6 / requests, size / requests))
    print(f"{'kind':<10} connections  {'journals':<8}  requests/s  p50 us  p99 us  processor us  bytes a request")
    for (kind, connections, name), seen in figures.items():
        rate, half, most, took, size = (statistics.median(column) for column in zip(*seen))
        print(f"{kind:<10} {connections:>11}  {name:<8}  {rate:>10,.0f}  {half:>6.1f}  {most:>6.1f}  {took:>12.2f}  {size:>15,.0f}")


def main():
    words = [word for word in sys.argv[1:] if not word.startswith("--")]
    flags = {word for word in sys.argv[1:] if word.startswith("--")}
    if words:
        program = os.path.abspath(words[0])
    else:
        subprocess.run([os.path.join(TOP, "asp_state"), "--build"], check=True)
        program = os.path.join(TOP, "crates", "asp_state", "out", "asp_state")
    with tempfile.TemporaryDirectory() as folder:
        bench = Bench(folder, program)
        if not flags:
            compare(bench)
        if "--growth" in flags:
            growth(bench)
        if "--sessions" in flags:
            sessions(bench)
        if "--expiry" in flags:
            expiry(bench)
        if "--calls" in flags:
            calls(bench)
        if "--journals" in flags:
            journals(bench, os.path.abspath(words[1]) if len(words) > 1 else None)


if __name__ == "__main__":
    main()
