#!/usr/bin/env python3
"""Runs `rt ci` at the top of the repository and prints what each crate cost, in processor seconds.

It looks at the checks that run every half second, so what one took is known up to that. With `--anew`
everything is proved and tried again, else only what this machine hasn't kept. A check is a proof of the
crate, a proof of its tests, or the try of one of its must-fail edits.

    bench/gate_cost.py [--anew]
"""

import os
import re
import subprocess
import sys
import time

TICKS = os.sysconf("SC_CLK_TCK")
KINDS = ("proof", "tests", "edits")


def read(path):
    try:
        with open(path, "rb") as file:
            return file.read()
    except OSError:
        return b""


def kind_of(pid, args):
    try:
        folder = os.readlink(f"/proc/{pid}/cwd")
    except OSError:
        folder = ""
    if "/rt-edit" in folder:
        return "edits"
    return "tests" if b"--test" in args.split(b"\0") else "proof"


def descends(parents, pid, top):
    while pid > 1:
        if pid == top:
            return True
        pid = parents.get(pid, 0)
    return False


def checks(top):
    """The checks that run below this process: pid, (crate, kind), processor seconds."""
    parents, stats = {}, {}
    for name in os.listdir("/proc"):
        if name.isdigit():
            fields = read(f"/proc/{name}/stat").rpartition(b")")[2].split()
            if len(fields) > 14:
                parents[int(name)] = int(fields[1])
                stats[int(name)] = sum(int(field) for field in fields[11:15]) / TICKS
    for pid, seconds in stats.items():
        args = read(f"/proc/{pid}/cmdline")
        crate = re.search(rb"--crate-name\0([a-z0-9_]+)", args)
        if crate and descends(parents, pid, top):
            yield pid, (crate.group(1).decode(), kind_of(pid, args)), seconds


def main():
    top = os.path.dirname(os.path.dirname(os.path.abspath(__file__)))
    begun = time.time()
    gate = subprocess.Popen(["rt", "ci"] + sys.argv[1:], cwd=top, stdout=subprocess.DEVNULL)
    last = {}
    while gate.poll() is None:
        for pid, key, seconds in checks(gate.pid):
            last[(pid, key)] = seconds
        time.sleep(0.5)
    table = {}
    for (_, (crate, kind)), seconds in last.items():
        row = table.setdefault(crate, dict.fromkeys(KINDS, 0.0))
        row[kind] += seconds
    print(f"| crate | {' | '.join(KINDS)} | all |")
    print("|---|---|---|---|---|")
    for crate, row in sorted(table.items(), key=lambda item: -sum(item[1].values())):
        cells = [f"{row[kind]:.0f}" for kind in KINDS] + [f"{sum(row.values()):.0f}"]
        print(f"| {crate} | {' | '.join(cells)} |")
    sums = [sum(row[kind] for row in table.values()) for kind in KINDS]
    print(f"| all | {' | '.join(f'{s:.0f}' for s in sums)} | {sum(sums):.0f} |")
    print(f"\n{sum(sums) / 60:.0f} processor minutes, {(time.time() - begun) / 60:.0f} of clock")
    return gate.returncode


sys.exit(main())
