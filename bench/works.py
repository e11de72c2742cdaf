#!/usr/bin/env python3
"""Measures works of the shared engine's crates, one by one, by the built program `bench`.

    bench/works.py [WORK [RUNS]]

WORK is the beginning of a group's name below (all groups unless it is given). All rows of a group take turns in one run, and
each is the best of RUNS runs, 5 unless it is given, in processor time. What it takes to make the records and to mix the
results is a row of its own, which is taken off the others. Build the program first: (cd crates/bench && rt run).
"""
import os
import resource
import subprocess
import sys

TOP = os.path.dirname(os.path.dirname(os.path.abspath(__file__)))
PROGRAM = os.path.join(TOP, "crates", "bench", "out", "bench")

# A group: the row that the others have in common, then the rows; of each its work, its slots, and how many records (in the
# group `window`, how many windows of a thousand records; in the group `meet`, how many times two slices meet).
GROUPS = {
    "select": [
        ("select-plain", 1, 10_000_000),
        ("select", 64, 4_000_000),
        ("select-plain", 64, 2_000_000),
        ("select", 512, 4_000_000),
        ("select-plain", 512, 400_000),
    ],
    "set": [
        ("select-plain", 1, 10_000_000),
        ("set", 64, 1_000_000),
        ("set", 512, 200_000),
    ],
    "sum": [
        ("select-plain", 1, 10_000_000),
        ("sum", 1, 2_000_000),
        ("sum-plain", 1, 2_000_000),
        ("sum", 64, 200_000),
        ("sum-plain", 64, 200_000),
        ("sum", 512, 40_000),
        ("sum-plain", 512, 40_000),
    ],
    "window": [
        ("select-plain", 1, 10_000_000),
        ("window", 1, 20_000),
        ("window-plain", 1, 20_000),
        ("window", 64, 20_000),
        ("window-plain", 64, 20_000),
        ("window", 512, 20_000),
        ("window-plain", 512, 20_000),
    ],
    "meet": [
        ("select-plain", 1, 10_000_000),
        ("meet", 1, 20_000),
        ("meet-plain", 1, 20_000),
        ("meet", 16, 20_000),
        ("meet-plain", 16, 2_000),
        ("meet", 64, 20_000),
        ("meet-plain", 64, 500),
        ("meet-many", 1, 40),
        ("meet-many-plain", 1, 40),
        ("meet-many", 16, 40),
        ("meet-many-plain", 16, 5),
        ("meet-many", 64, 40),
        ("meet-many-plain", 64, 2),
    ],
    "tag": [
        ("select-plain", 1, 10_000_000),
        ("tag", 64, 4_000_000),
        ("tag", 512, 4_000_000),
    ],
}


def took(work):
    """The seconds of processor time that the program takes for a work, and the checksum that it prints."""
    before = resource.getrusage(resource.RUSAGE_CHILDREN)
    done = subprocess.run([PROGRAM, *map(str, work)], stdout=subprocess.PIPE, check=True, text=True)
    after = resource.getrusage(resource.RUSAGE_CHILDREN)
    return after.ru_utime - before.ru_utime + after.ru_stime - before.ru_stime, done.stdout.split()[-1]


def measured(group, runs):
    """The least nanoseconds a record of each row of the group."""
    least = [None] * len(group)
    for _ in range(runs):
        for place, work in enumerate(group):
            cost = took(work)[0] / work[-1] * 1e9
            least[place] = cost if least[place] is None else min(least[place], cost)
    return least


def main():
    chosen = sys.argv[1] if len(sys.argv) > 1 else ""
    runs = int(sys.argv[2]) if len(sys.argv) > 2 else 5
    for name, group in GROUPS.items():
        if not name.startswith(chosen):
            continue
        costs = measured(group, runs)
        print(f"{name}: making and mixing a record takes {costs[0]:.1f} ns")
        for work, cost in list(zip(group, costs))[1:]:
            own = cost - costs[0]
            print(f"  {work[0]:13} {work[1]:4} slots  {own:10.1f} ns each, {1000 / cost:7.3f} M a second in all")


if __name__ == "__main__":
    main()
