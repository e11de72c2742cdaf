#!/usr/bin/env python3
"""Measures the built program `astream_weave`: what five idle feeds cost, and how fast five files are taken.

    bench/feeders.py [SECONDS [LINES [RUNS]]]

Holds five named pipes open for SECONDS (20 unless it is given), over which one line comes first, and says which part of a
processor the program used. Then it weaves LINES lines (1,000,000 unless it is given), a fifth in each feed, beside a run of
`astream` over the journal that this leaves; each is the best of RUNS runs, 3 unless it is given, both in turn. Outputs and
journal go to a folder of their own. Build both programs first (./astream --help and ./astream_weave --help say how).
"""
import os
import subprocess
import sys
import tempfile
import time

from measure import PROGRAM

WEAVE = PROGRAM.replace("astream/out/astream", "astream_weave/out/astream_weave")


def used(pid):
    """The seconds of processor time that a process has used."""
    with open(f"/proc/{pid}/stat") as stat:
        fields = stat.read().rsplit(")", 1)[1].split()
    return (int(fields[11]) + int(fields[12])) / os.sysconf("SC_CLK_TCK")


def idle(folder, seconds):
    """Which part of a processor the program uses while its five feeds say nothing."""
    paths = [os.path.join(folder, f"feed-{i}.txt") for i in range(1, 6)]
    for path in paths:
        os.mkfifo(path)
    with open(os.devnull, "w") as nowhere:
        process = subprocess.Popen([WEAVE], stdout=nowhere, cwd=folder)
        feeds = [open(path, "w") for path in paths]
        feeds[4].write("create select from a\n")
        feeds[4].flush()
        time.sleep(1)
        before = used(process.pid)
        time.sleep(seconds)
        cost = used(process.pid) - before
        for feed in feeds:
            feed.close()
        process.wait()
    for path in paths:
        os.remove(path)
    return cost / seconds


def took(words, folder, stdin=None):
    """The seconds that a command takes in this folder; what it says goes nowhere."""
    with open(os.devnull, "w") as nowhere:
        start = time.perf_counter()
        subprocess.run(words, stdin=stdin, stdout=nowhere, cwd=folder, check=True)
        return time.perf_counter() - start


def main():
    seconds = float(sys.argv[1]) if len(sys.argv) > 1 else 20
    lines = int(sys.argv[2]) if len(sys.argv) > 2 else 1_000_000
    runs = int(sys.argv[3]) if len(sys.argv) > 3 else 3
    with tempfile.TemporaryDirectory() as folder:
        print(f"five idle feeds: {100 * idle(folder, seconds):.1f} % of a processor")
        for i in range(1, 5):
            with open(os.path.join(folder, f"feed-{i}.txt"), "w") as out:
                out.writelines(f"rec {'abcd'[i - 1]} {k} {k % 1000} {k % 7} 0 0 0\n" for k in range(lines // 5))
        with open(os.path.join(folder, "feed-5.txt"), "w") as out:
            out.writelines("mark a 0\n" for _ in range(lines // 5))
        least = {}
        for _ in range(runs):
            rows = {"five feeds": took([WEAVE], folder)}
            with open(os.path.join(folder, "journal.txt")) as journal:
                rows["run on the journal"] = took([PROGRAM, "run"], folder, journal)
            least = {name: min(time, least.get(name, time)) for name, time in rows.items()}
    for name, best in least.items():
        print(f"{name}: {best:.2f} s, {lines / best / 1e6:.2f} M lines a second")


if __name__ == "__main__":
    main()
