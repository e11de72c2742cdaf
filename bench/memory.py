#!/usr/bin/env python3
"""Measures whether the built program's memory stays the same however long the input is.

    bench/memory.py [LINES [SHORT]]

Runs 16 queries of all kinds, with windows of fixed size, over LINES lines (200,000 unless it is given) and over the first
SHORT of them (20,000), and says the peak memory of both, their ratio, and the lines a second of the longer run.
Build the program first (./astream --help says how).
"""
import itertools
import os
import subprocess
import sys
import tempfile
import time

from measure import PROGRAM, records

QUERIES = [
    "select from a where v1 < 5000",
    "select from b where v2 = 7",
    "select from c where key >= 900 and v3 > 0",
    "select from d where key = 17",
    "sum v1 by all from a tumble 500",
    "sum v1 by key from b tumble 1000",
    "sum v2 by v3 from c slide 1000 250",
    "sum v3 by v2 from d slide 2000 500 where key < 500",
    "count by all from a slide 640 10",
    "count by key from b tumble 2000",
    "count by v2 from c slide 900 300",
    "count by v3 from d tumble 250 where v1 > 50000",
    "join a b tumble 1000",
    "join b c slide 1000 500 left v1 < 50000 right v2 < 50",
    "join c d tumble 500 left key < 300",
    "join d a slide 2000 1000 left v3 = 0 right v1 >= 90000",
]


def peak(process):
    """The peak memory of a process until it ends, in KiB: that of its own image, read again and again."""
    most = 0
    while process.poll() is None:
        try:
            with open(f"/proc/{process.pid}/status") as status:
                most = max([most] + [int(line.split()[1]) for line in status if line.startswith("VmHWM")])
        except OSError:
            pass
        time.sleep(0.001)
    return most


def run(lines, folder):
    """The seconds and the peak memory, in KiB, of a run over these lines."""
    path = os.path.join(folder, "lines.txt")
    with open(path, "w") as out:
        out.writelines(line + "\n" for line in lines)
    with open(path) as given, open(os.devnull, "w") as nowhere:
        start = time.perf_counter()
        process = subprocess.Popen(["sh", "-c", f"exec '{PROGRAM}' run"], stdin=given, stdout=nowhere, cwd=folder)
        most = peak(process)
        took = time.perf_counter() - start
    if process.returncode != 0:
        sys.exit(f"the program ended with {process.returncode}")
    return took, most


def main():
    long = int(sys.argv[1]) if len(sys.argv) > 1 else 200_000
    short = int(sys.argv[2]) if len(sys.argv) > 2 else 20_000
    creations = [f"create {query}" for query in QUERIES]
    lines = list(itertools.islice(itertools.chain(creations, records(long)), long))
    with tempfile.TemporaryDirectory() as folder:
        _, few = run(lines[:short], folder)
        took, many = run(lines, folder)
        rows = sum(os.path.getsize(os.path.join(folder, name)) for name in os.listdir(folder) if name.startswith("query-"))
    print(f"{short} lines: {few} KiB at most; {long} lines: {many} KiB at most; ratio {many / few:.2f}")
    print(f"{long / took / 1e6:.3f} M lines a second, {rows} bytes of rows")


if __name__ == "__main__":
    main()
