#!/usr/bin/env python3
"""Measures the way of a line through the built program beside a plain loop in C that only parses (bench/yardstick.c).

    bench/line_path.py [RECORDS [RUNS]]

Build the program first (./astream --help says how); a C compiler is wanted too. Two files are made, one with numbers of
varied length and one with numbers of even length: 2,000,000 records of stream a each, unless RECORDS is given, and a
watermark after every thousand. Each figure is the least processor time of RUNS runs, 15 unless it is given; all rows
of a file take turns, so that a slow moment of the machine meets all of them.
"""
import os
import random
import resource
import subprocess
import sys
import tempfile

TOP = os.path.dirname(os.path.dirname(os.path.abspath(__file__)))
PROGRAM = os.path.join(TOP, "crates", "astream", "out", "astream")

QUERIES = {
    "no query": [],
    "64 selections that no record meets": ["create select from a where v1 < 0"] * 64,
    "64 selections that few records meet": [
        f"create select from a where key = {100 + 14 * n} and v2 < 50" for n in range(64)
    ],
    "1 selection of all": ["create select from a"],
}


def record(chance, is_even):
    if is_even:
        key, values = chance.randrange(100, 1000), (chance.randrange(10000, 100000), chance.randrange(10, 100))
        return key, values + (chance.randrange(10, 100), 0)
    key, values = chance.randrange(1000), (chance.randrange(100000), chance.randrange(100))
    return key, values + (chance.randrange(-50, 50), 0)


def write_records(path, count, is_even):
    chance = random.Random(1)
    at = 10**9 if is_even else 0
    with open(path, "w") as out:
        for number in range(1, count + 1):
            at += chance.randrange(3)
            key, values = record(chance, is_even)
            out.write(f"rec a {at} {key} " + " ".join(map(str, values)) + "\n")
            if number % 1000 == 0:
                out.write(f"mark a {at}\n")


def seconds(words, path, folder):
    """The processor time of one run, with its output thrown away."""
    before = resource.getrusage(resource.RUSAGE_CHILDREN)
    with open(path) as lines, open(os.devnull, "w") as nowhere:
        subprocess.run(words, stdin=lines, stdout=nowhere, cwd=folder, check=True)
    after = resource.getrusage(resource.RUSAGE_CHILDREN)
    return after.ru_utime + after.ru_stime - before.ru_utime - before.ru_stime


def with_queries(path, body, queries):
    with open(path, "w") as out, open(body) as records:
        out.write("".join(query + "\n" for query in queries))
        for line in records:
            out.write(line)


def build_yardstick(folder):
    program = os.path.join(folder, "yardstick")
    source = os.path.join(TOP, "bench", "yardstick.c")
    subprocess.run(["cc", "-O3", "-march=x86-64-v2", "-o", program, source], check=True)
    return program


def prepare(folder, count):
    """For each length of numbers the words and the input of each row, that of the yardstick first."""
    yardstick = build_yardstick(folder)
    for length in "varied", "even":
        body = os.path.join(folder, length)
        write_records(body, count, length == "even")
        rows = [("the yardstick", [yardstick], body)]
        for place, (name, queries) in enumerate(QUERIES.items()):
            path = f"{body}-{place}"
            with_queries(path, body, queries)
            rows.append((name, [PROGRAM, "run"], path))
        yield length, rows


def main():
    count = int(sys.argv[1]) if len(sys.argv) > 1 else 2000000
    runs = int(sys.argv[2]) if len(sys.argv) > 2 else 15
    with tempfile.TemporaryDirectory() as folder:
        print(f"{count} records, least of {runs} runs; M lines a second, and the speed in that of the yardstick")
        for length, rows in prepare(folder, count):
            rounds = [[seconds(words, path, folder) for _, words, path in rows] for _ in range(runs)]
            least = [min(times) for times in zip(*rounds)]
            for (name, _, _), took in zip(rows, least):
                print(f"{length:7} {name:38} {(count + count // 1000) / took / 1e6:6.1f} {least[0] / took:6.2f}")


if __name__ == "__main__":
    main()
