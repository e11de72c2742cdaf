#!/usr/bin/env python3
"""Measures the built program on generated records, beside `wc -l` on the same files in the same run.

    bench/measure.py [RECORDS [RUNS]]

Build the program first (./astream --help says how). Each row is the best of RUNS runs, 5 unless it is given.
"""
import os
import random
import subprocess
import sys
import tempfile
import time

TOP = os.path.dirname(os.path.dirname(os.path.abspath(__file__)))
PROGRAM = os.path.join(TOP, "crates", "astream", "out", "astream")


STREAMS = "abcd"


def records(count):
    """Records of the four streams in turn at rising times, with a watermark of each after every thousand."""
    chance = random.Random(1)
    at = 0
    for number in range(1, count + 1):
        at += chance.randrange(3)
        values = (chance.randrange(100000), chance.randrange(100), chance.randrange(-50, 50), 0)
        yield f"rec {STREAMS[number % 4]} {at} {chance.randrange(1000)} " + " ".join(map(str, values))
        if number % 1000 == 0:
            yield from (f"mark {stream} {at}" for stream in STREAMS)


def selections(count, condition):
    """So many selections, spread over the four streams."""
    return [f"create select from {STREAMS[n % 4]} where {condition(n)}" for n in range(count)]


def cases():
    yield "no query", []
    for count in 1, 64, 512:
        width = max(1, 4000 // count)
        yield f"{count} selections of keys of their own", selections(
            count, lambda n: f"key >= {n // 4 * width} and key < {n // 4 * width + width} and v2 < 50"
        )
        yield f"{count} selections that no record meets", selections(count, lambda n: "v1 < 0")
    yield "64 selections of all of a stream", selections(64, lambda n: "v1 >= 0")


def best(words, path, folder, runs):
    least = None
    for _ in range(runs):
        with open(path) as lines, open(os.devnull, "w") as nowhere:
            start = time.perf_counter()
            subprocess.run(words, stdin=lines, stdout=nowhere, cwd=folder, check=True)
            took = time.perf_counter() - start
        least = took if least is None else min(least, took)
    return least


def main():
    count = int(sys.argv[1]) if len(sys.argv) > 1 else 200000
    runs = int(sys.argv[2]) if len(sys.argv) > 2 else 5
    body = list(records(count))
    print(f"{count} records; M lines a second, and the time in that of wc -l")
    for name, queries in cases():
        with tempfile.TemporaryDirectory() as folder:
            path = os.path.join(folder, "input")
            with open(path, "w") as out:
                out.write("\n".join(queries + body) + "\n")
            lines = len(queries) + len(body)
            took = best([PROGRAM, "run", "--slots", "512"], path, folder, runs)
            counted = best(["wc", "-l"], path, folder, runs)
        print(f"{name:62} {lines / took / 1e6:7.2f} {took / counted:8.0f}")


if __name__ == "__main__":
    main()
