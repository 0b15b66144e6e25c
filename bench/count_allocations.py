#!/usr/bin/env python3
"""Builds hla_bench, and prints how many allocations its steps make, counted by valgrind.

Each figure is the difference of two runs, the second of which does more of one thing, so that what is made once doesn't count. The
values of a call count, as does what queues grow by; growing a block counts as an allocation."""
import pathlib
import re
import subprocess
import sys

CRATE = pathlib.Path(__file__).resolve().parent.parent / "crates" / "hla_bench"
PROGRAM = CRATE / "out" / "hla_bench"


def build():
    subprocess.run(["rt", "run", "--", "lockstep", "2", "1", "1"], cwd=CRATE, check=True, stdin=subprocess.DEVNULL,
                   stdout=subprocess.DEVNULL, stderr=subprocess.DEVNULL)


def counted(words):
    """Allocations of one run, and its counts by name."""
    run = subprocess.run(["valgrind", "--leak-check=no", str(PROGRAM), *map(str, words)], capture_output=True, text=True)
    if run.returncode != 0:
        sys.exit(run.stderr)
    found = re.search(r"total heap usage: ([\d,]+) allocs", run.stderr)
    counts = dict((name, int(number)) for name, number in (line.split() for line in run.stdout.splitlines()))
    return int(found.group(1).replace(",", "")), counts


def main():
    build()
    for receivers in [1, 2, 4, 8, 15]:
        few, many = (counted(["updates", receivers, updates])[0] for updates in [10, 1010])
        print(f"an update of two attributes to {receivers}, carried and picked up: {(many - few) / 1000:.2f} allocations")
    for federates in [2, 4, 16]:
        few, many = (counted(["lockstep", federates, events, 100]) for events in [1, 11])
        sent = many[1]["sent"] - few[1]["sent"]
        print(f"an interaction in time-stamp order to {federates - 1}, carried and picked up: {(many[0] - few[0]) / sent:.2f} allocations")
    for federates in [2, 4, 16]:
        few, many = (counted(["lockstep", federates, 0, rounds]) for rounds in [10, 1010])
        grants = many[1]["grants"] - few[1]["grants"]
        print(f"a request, its null messages to {federates - 1} and its grant: {(many[0] - few[0]) / grants:.2f} allocations")


main()
