#!/usr/bin/env python3
"""Measures the commands `generate` and `soak` of the built program, and `generate | run`, beside `wc -l` on the same lines.

    bench/generated.py [LINES [RUNS]]

LINES is 1,000,000 unless it is given; each row is the best of RUNS runs, 3 unless it is given, all rows in turn. Build the
program first (./astream --help says how).
"""
import os
import subprocess
import sys
import tempfile
import time

from measure import PROGRAM


def took(words, folder, stdin=None):
    """The seconds that a command takes in this folder; what it says goes nowhere."""
    with open(os.devnull, "w") as nowhere:
        start = time.perf_counter()
        subprocess.run(words, stdin=stdin, stdout=nowhere, cwd=folder, check=True)
        return time.perf_counter() - start


def main():
    lines = int(sys.argv[1]) if len(sys.argv) > 1 else 1_000_000
    runs = int(sys.argv[2]) if len(sys.argv) > 2 else 3
    options = ["--number", "7", "--lines", str(lines)]
    least = {}
    with tempfile.TemporaryDirectory() as folder:
        path = os.path.join(folder, "lines.txt")
        with open(path, "w") as out:
            subprocess.run([PROGRAM, "generate", *options], stdout=out, check=True)
        pipe = f"'{PROGRAM}' generate {' '.join(options)} | '{PROGRAM}' run"
        for _ in range(runs):
            rows = {
                "`wc -l`": took(["wc", "-l", path], folder),
                "`generate`": took([PROGRAM, "generate", *options], folder),
                "`generate | run`": took(["sh", "-c", pipe], folder),
                "`soak`": took([PROGRAM, "soak", *options], folder),
            }
            for name, seconds in rows.items():
                least[name] = min(least.get(name, seconds), seconds)
    for name, seconds in least.items():
        print(f"| {name} | {seconds:.2f} s | {lines / seconds / 1e6:.2f} |")


if __name__ == "__main__":
    main()
