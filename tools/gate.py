#!/usr/bin/env python3
"""Prints what a run of the gate costs, in processor minutes by crate: usage: tools/gate.py [COMMAND..]

COMMAND is `rt ci --anew` where it is left out; its output goes to standard error. Each second the processor time of each process
below it is read, so that the table has what ran, also where an earlier run on this machine had passed a part. `proof` is the
proof of a crate, `second` what its edits begin with, which is its proof once more, `edits` the edits that must fail, `tests` the
proof of its tests. What is of no crate, as linking and runs of programs, is in the line `others`. The last line is the sum, and
the time by the clock.
"""
import collections
import os
import re
import subprocess
import sys
import time

TICK = os.sysconf("SC_CLK_TCK")
PARTS = ("proof", "second", "edits", "tests")


def processes():
    """The running processes: each with its parent, its processor seconds and when it began."""
    found = {}
    for name in filter(str.isdigit, os.listdir("/proc")):
        try:
            with open(f"/proc/{name}/stat", encoding="utf-8", errors="replace") as it:
                fields = it.read().rpartition(")")[2].split()
        except OSError:
            continue
        found[int(name)] = int(fields[1]), (int(fields[11]) + int(fields[12])) / TICK, fields[19]
    return found


def below(found, top):
    """The processes below one."""
    children = collections.defaultdict(list)
    for process, (parent, _, _) in found.items():
        children[parent].append(process)
    waiting, reached = [top], []
    while waiting:
        reached += children[waiting[-1]]
        waiting += children[waiting.pop()]
    return reached


def part_of(process):
    """The crate and the part of its work that a process is for."""
    try:
        with open(f"/proc/{process}/cmdline", encoding="utf-8", errors="replace") as it:
            words = it.read().split("\0")
        folder = os.readlink(f"/proc/{process}/cwd")
    except OSError:
        return None
    if "--crate-name" not in words:
        return "others", "proof"
    crate = words[words.index("--crate-name") + 1]
    if "--test" in words:
        return crate, "tests"
    if "/rt-edit" not in folder:
        return crate, "proof"
    begun = words[words.index("--incremental") + 1] if "--incremental" in words else ""
    return crate, "second" if re.search(r"/seed$", begun) else "edits"


def measure(command):
    """Runs the command, and gives its status and the seconds of each part of each crate."""
    ran = subprocess.Popen(command, stdout=sys.stderr)
    parts, seconds = {}, {}
    while ran.poll() is None:
        found = processes()
        for process in below(found, ran.pid):
            _, spent, began = found[process]
            part = part_of(process)
            if part and (part[0] != "others" or (process, began) not in parts):
                parts[process, began] = part
            seconds[process, began] = spent
        time.sleep(1)
    table = collections.defaultdict(collections.Counter)
    for key, spent in seconds.items():
        crate, part = parts.get(key, ("others", "proof"))
        table[crate][part] += spent
    return ran.returncode, table


def main(command):
    began = time.time()
    status, table = measure(command or ["rt", "ci", "--anew"])
    print(f"{'crate':16}" + "".join(f"{part:>8}" for part in (*PARTS, "all")))
    total = collections.Counter()
    for crate in sorted(table, key=lambda name: -sum(table[name].values())):
        total.update(table[crate])
        print(line(crate, table[crate]))
    print(line("all", total))
    print(f"{(time.time() - began) / 60:.1f} minutes by the clock, status {status}")
    return status


def line(name, seconds):
    """A line of the table, in minutes."""
    values = [seconds[part] for part in PARTS] + [sum(seconds.values())]
    return f"{name:16}" + "".join(f"{value / 60:8.1f}" for value in values)


if __name__ == "__main__":
    sys.exit(main(sys.argv[1:]))
