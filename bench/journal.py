#!/usr/bin/env python3
"""Measures `asp_state trace` on a stream of 200,000 requests, and `asp_state replay` and `asp_state mirror` on the journal that it writes.

usage: bench/journal.py [PROGRAM]

PROGRAM is the built program; without it ./asp_state builds it, and its own is taken. Each is run three times; the median is printed in
entries a second, with the greatest resident memory (not less than this script's own). Messages come each 10 milliseconds, so that no
session ends. Outside the gate; nothing of it is promised.
"""
import os
import subprocess
import sys
import tempfile
import time

from pipe import TOP, small_messages

ROUNDS = 3
MESSAGES = 200_000
# Milliseconds from one message to the next.
STEP = 10


def written(keys):
    """How many of so many keys are written: those of every other message."""
    return len({(k * 7919) % keys for k in range(0, MESSAGES, 2)})


def run(words, source_path, sink_path):
    """Seconds, and the greatest resident memory in MiB."""
    with open(source_path, "rb") as source, open(sink_path, "wb") as sink:
        start = time.perf_counter()
        child = subprocess.Popen(words, stdin=source, stdout=sink)
        _, status, usage = os.wait4(child.pid, 0)
        took = time.perf_counter() - start
        child.returncode = os.waitstatus_to_exitcode(status)
        if child.returncode != 0:
            sys.exit("%s ended with status %d" % (words[1], child.returncode))
        return took, usage.ru_maxrss / 1024


def measure(words, source_path, sink_path):
    runs = sorted(run(words, source_path, sink_path) for _ in range(ROUNDS))
    took = runs[ROUNDS // 2][0]
    print("%-22s %6.2f s  %9d entries a second  %6.1f MiB" % (" ".join(words[1:]), took, MESSAGES / took, max(r[1] for r in runs)))


def main():
    if sys.argv[1:]:
        program = sys.argv[1]
    else:
        subprocess.run([os.path.join(TOP, "asp_state"), "--build"], check=True)
        program = os.path.join(TOP, "crates/asp_state/out/asp_state")
    with tempfile.TemporaryDirectory() as folder:
        for keys in (1000, 1):
            requests, journal, verdict = (os.path.join(folder, name) for name in ("requests", "journal", "verdict"))
            with open(requests, "wb") as file:
                file.writelines(small_messages(MESSAGES, keys))
            print("%d messages, %d keys, bodies of 100 bytes" % (MESSAGES, keys))
            measure([program, "trace", "0", str(STEP), "1"], requests, journal)
            measure([program, "replay"], journal, verdict)
            with open(verdict) as file:
                if file.read() != "legal %d\n" % MESSAGES:
                    sys.exit("the journal is not judged legal")
            measure([program, "mirror", str(MESSAGES * STEP)], journal, verdict)
            with open(verdict) as file:
                if not file.read().endswith("sessions %d\n" % written(keys)):
                    sys.exit("not all sessions are listed")


if __name__ == "__main__":
    main()
