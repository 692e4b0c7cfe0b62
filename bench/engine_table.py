#!/usr/bin/env python3
"""Runs the engine's program over the circuits of bench/circuits, and berkeley-abc's pdr where it is installed.

usage: engine_table.py PROGRAM

Prints a line for each circuit: the verdict and its edges, the clauses that were listed and kept, the milliseconds after
which they were listed, kept and decided, user seconds and peak memory of the whole, and the user seconds of pdr.
The status is 1 where a verdict, or what is listed or kept, isn't the one that an independent model gives; a spent budget
is no verdict.
"""
import glob
import os
import resource
import shutil
import subprocess
import sys
import tempfile

HERE = os.path.dirname(os.path.abspath(__file__))
# the verdict, its edges (of a loose run one more than the bound), and how many clauses are listed and kept, with
# bound 16 and a budget that suffices
EXPECTED = {
    "uart": ("safe", 1, 248, 221),
    "sample32": ("safe", 1, 418, 346),
    "sample64": ("safe", 1, 970, 742),
    "wide": ("safe", 1, 1098, 1059),
    "burst": ("safe", 1, 704, 572),
    "four_edges": ("safe", 4, 102, 86),
    "parity": ("loose", 17, 57, 46),
    "rare_a": ("loose", 17, 259, 244),
    "rare_b": ("loose", 17, 229, 144),
    "late_fault": ("loose", 17, 92, 76),
    "later_fault": ("loose", 17, 168, 146),
    "shallow_fault": ("bad", 7, 840, 674),
}


def measured(command, given=None, seconds=600):
    """The output of a command, its user seconds and its peak memory in MB."""
    def report(pipe):
        usage = resource.getrusage(resource.RUSAGE_CHILDREN)
        os.write(pipe, f"{usage.ru_utime} {usage.ru_maxrss / 1024}".encode())

    inner, outer = os.pipe()
    child = os.fork()
    if child == 0:
        with tempfile.TemporaryFile("w+") as out:
            try:
                subprocess.run(command, stdin=given, stdout=out, stderr=subprocess.DEVNULL, timeout=seconds)
            except subprocess.TimeoutExpired:
                pass
            out.seek(0)
            report(outer)
            os.write(outer, b"\n" + out.read(60_000).encode())
        os._exit(0)
    os.close(outer)
    text = b""
    while part := os.read(inner, 65536):
        text += part
    os.close(inner)
    os.waitpid(child, 0)
    head, _, output = text.decode().partition("\n")
    user, peak = head.split()
    return output, float(user), float(peak)


def blif(path, out):
    """Writes the circuit as BLIF, with its bad wire as the only output."""
    lines = [[int(word) for word in line.split()] for line in open(path)]
    _, latches, inputs, bad, _, _ = lines[0]
    starts, nodes = lines[3:3 + latches], lines[3 + latches:]
    name = {0: "n0"}
    latch_nodes, input_nodes, gates = [], [], []
    for number, node in enumerate(nodes, 1):
        name[number] = f"n{number}"
        (latch_nodes if node[0] == 0 else input_nodes if node[0] == 1 else gates).append((number, node))
    with open(out, "w") as file:
        file.write(".model circuit\n.inputs " + " ".join(name[n] for n, _ in input_nodes) + "\n.outputs bad\n")
        file.write(".names n0\n")
        for (number, _), (start, wire) in zip(latch_nodes, starts):
            file.write(f".names n{wire // 2} d{number}\n{1 - wire % 2} 1\n.latch d{number} n{number} {start}\n")
        for number, (_, a, b) in gates:
            file.write(f".names n{a // 2} n{b // 2} n{number}\n{1 - a % 2}{1 - b % 2} 1\n")
        file.write(f".names n{bad // 2} bad\n{1 - bad % 2} 1\n.end\n")


def pdr(path):
    """The user seconds of berkeley-abc's pdr, and what it finds."""
    with tempfile.TemporaryDirectory() as room:
        blif(path, f"{room}/circuit.blif")
        script = f"read_blif {room}/circuit.blif; strash; undc; strash; zero; pdr -T 300"
        output, user, _ = measured(["berkeley-abc", "-q", script])
    what = "safe" if "Property proved" in output else "bad" if "was asserted" in output else "?"
    return f"{user:7.2f} {what}"


def main():
    program = os.path.abspath(sys.argv[1])
    has_abc = shutil.which("berkeley-abc") is not None
    wrong = []
    for path in sorted(glob.glob(f"{HERE}/circuits/*.txt"), key=os.path.getsize):
        name = os.path.basename(path)[:-len(".txt")]
        with tempfile.TemporaryFile("w+") as given:
            given.write(open(path).read() + "\n")
            given.seek(0)
            output, user, peak = measured([program, "times"], given)
        words = output.split()
        values = dict(word.split("=", 1) for word in words if "=" in word)
        found = (words[0], *(int(values[key]) for key in ("k", "listed", "kept"))) if "kept" in values else None
        # a spent budget is no verdict, and so no wrong one
        start = 2 if found and found[0] == "spent" else 0
        if found is None or found[start:] != EXPECTED[name][start:]:
            wrong.append(name)
        print(f"{name:14} {output.strip():96} user {user:6.2f} s, {peak:4.0f} MB", end="")
        print(f", pdr {pdr(path)}" if has_abc else "", flush=True)
    if wrong:
        print("not as expected: " + ", ".join(wrong))
    sys.exit(1 if wrong else 0)


main()
