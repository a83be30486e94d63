#!/usr/bin/env python3
"""Measures what processor time the merge gate takes, by crate: its proof, its tests, and its edits that must fail.

usage: bench/gate.py [WORD]..

Runs `rt ci WORD..` at the top of the checkout (`--anew` proves all, else what is kept costs nothing), looks at the processes that it
starts twice a second, and prints the minutes of each crate, the most first, and those of the whole run. A process that ends within
half a second is not seen, so the crates add up to a little less than the whole. What else runs on the machine makes the figures larger.
Outside the gate; nothing of it is promised.
"""
import os
import subprocess
import sys
import threading
from collections import defaultdict

TOP = os.path.dirname(os.path.dirname(os.path.abspath(__file__)))
TICK = os.sysconf("SC_CLK_TCK")
EVERY = 0.5


class Process:
    """A process as it was when it was last seen: its parent, its words, its folder, and its processor seconds."""

    def __init__(self, pid):
        with open("/proc/%s/stat" % pid) as file:
            fields = file.read().rsplit(")", 1)[1].split()
        self.parent = fields[1]
        self.seconds = (int(fields[11]) + int(fields[12])) / TICK
        self.start = fields[19]
        with open("/proc/%s/cmdline" % pid, "rb") as file:
            self.words = file.read().decode(errors="replace").split("\0")
        self.folder = os.readlink("/proc/%s/cwd" % pid)

    def crate(self):
        """The crate that a compiler's process works on; None for any other process."""
        if "--crate-name" not in self.words:
            return None
        return self.words[self.words.index("--crate-name") + 1]

    def part(self):
        if os.path.basename(self.folder).startswith("rt-edit"):
            return "edits"
        return "tests" if "--test" in self.words else "proof"


def look():
    found = {}
    for pid in os.listdir("/proc"):
        if pid.isdigit():
            try:
                found[pid] = Process(pid)
            except (OSError, IndexError, ValueError):
                pass
    return found


def is_below(pid, root, found):
    while pid in found:
        if pid == root:
            return True
        pid = found[pid].parent
    return False


def watch(root, seen, over):
    while not over.wait(EVERY):
        found = look()
        for pid, process in found.items():
            if process.crate() is not None and is_below(pid, root, found):
                seen[pid, process.start] = process


def main():
    seen, over = {}, threading.Event()
    child = subprocess.Popen(["rt", "ci", *sys.argv[1:]], cwd=TOP)
    watcher = threading.Thread(target=watch, args=(str(child.pid), seen, over))
    watcher.start()
    _, status, usage = os.wait4(child.pid, 0)
    over.set()
    watcher.join()
    minutes = defaultdict(lambda: defaultdict(float))
    for process in seen.values():
        minutes[process.crate()][process.part()] += process.seconds / 60
    print("%-18s %7s %7s %7s" % ("minutes", "proof", "tests", "edits"))
    for crate, parts in sorted(minutes.items(), key=lambda it: -sum(it[1].values())):
        print("%-18s %7.1f %7.1f %7.1f" % (crate, parts["proof"], parts["tests"], parts["edits"]))
    print("the whole run: %.0f" % ((usage.ru_utime + usage.ru_stime) / 60))
    sys.exit(os.waitstatus_to_exitcode(status))


if __name__ == "__main__":
    main()
