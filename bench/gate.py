#!/usr/bin/env python3
"""Runs the gate and says what it cost, in processor minutes, for each crate.

    python3 bench/gate.py [--anew] [NAME ..]

runs `rt ci` with these words at the top of the repository, passes on what it prints, and then prints a table: for each crate the proof, the
proof with tests, what edits begin with, and the edits. With `--anew` nothing is taken from earlier runs. The columns are found by samples
of the running processes, so they miss the last part of a second of each; the sum below them is what the system counted. The status is
that of `rt ci`.
"""

import collections
import os
import re
import resource
import subprocess
import sys
import threading
import time

TICKS = os.sysconf("SC_CLK_TCK")
COLUMNS = ("proof", "with tests", "begin of edits", "edits")


def column_of(words, folder):
    """Which part of the gate a run of the prover belongs to."""
    if "/rt-edit-" in folder:
        kept = words[words.index("--incremental") + 1] if "--incremental" in words else ""
        return "begin of edits" if kept.endswith("/seed") else "edits"
    return "with tests" if "--test" in words else "proof"


def family(root):
    """The processes below one, with the seconds that each has had itself."""
    children, seconds = collections.defaultdict(list), {}
    for name in os.listdir("/proc"):
        if not name.isdigit():
            continue
        try:
            with open(f"/proc/{name}/stat") as it:
                fields = it.read().rpartition(")")[2].split()
        except OSError:
            continue
        children[int(fields[1])].append(int(name))
        seconds[int(name)] = ((int(fields[11]) + int(fields[12])) / TICKS, fields[19])
    found, left = [], [root]
    while left:
        one = left.pop()
        found += [(child, *seconds[child]) for child in children[one]]
        left += children[one]
    return found


class Samples:
    def __init__(self):
        self.kinds, self.seconds, self.edits = {}, {}, collections.Counter()

    def take(self, root):
        for number, seconds, started in family(root):
            key = number, started
            if key not in self.kinds:
                self.kinds[key] = self.kind(number)
            if self.kinds[key]:
                self.seconds[key] = seconds

    def kind(self, number):
        """The crate and the column of a process, or nothing for one that proves nothing."""
        try:
            with open(f"/proc/{number}/cmdline") as it:
                words = it.read().split("\0")
            folder = os.readlink(f"/proc/{number}/cwd")
        except OSError:
            return None
        if "--crate-name" not in words:
            return None
        crate, column = words[words.index("--crate-name") + 1], column_of(words, folder)
        return re.sub(r"_tests$", "", crate), column

    def table(self):
        sums = collections.defaultdict(collections.Counter)
        for key, seconds in self.seconds.items():
            crate, column = self.kinds[key]
            sums[crate][column] += seconds
        return sums


def line(name, counts):
    cells = "".join(f"{counts[column] / 60:>16.1f}" for column in COLUMNS)
    return f"{name:<18}{cells}{sum(counts.values()) / 60:>10.1f}"


def report(sums, seconds, used):
    print(f"{'crate':<18}" + "".join(f"{column:>16}" for column in COLUMNS) + f"{'all':>10}")
    whole = collections.Counter()
    for crate, counts in sorted(sums.items(), key=lambda it: -sum(it[1].values())):
        print(line(crate, counts))
        whole.update(counts)
    print(line("found by samples", whole))
    print(f"counted by the system: {(used.ru_utime + used.ru_stime) / 60:.1f} processor minutes ({used.ru_utime / 60:.1f} user, "
          f"{used.ru_stime / 60:.1f} system) in {seconds / 60:.1f} minutes")


def main():
    top = os.path.dirname(os.path.dirname(os.path.abspath(__file__)))
    started, samples = time.monotonic(), Samples()
    gate = subprocess.Popen(["rt", "ci", *sys.argv[1:]], cwd=top, stdin=subprocess.DEVNULL)
    ended = threading.Event()

    def watch():
        while not ended.wait(0.25):
            samples.take(gate.pid)

    watching = threading.Thread(target=watch)
    watching.start()
    status = gate.wait()
    ended.set()
    watching.join()
    report(samples.table(), time.monotonic() - started, resource.getrusage(resource.RUSAGE_CHILDREN))
    return status if status >= 0 else 128 - status


if __name__ == "__main__":
    sys.exit(main())
