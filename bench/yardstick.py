#!/usr/bin/env python3
"""Lays the library beside an unverified program of the same semantics (bench/yardstick): bench/yardstick.py BUILT [TURNS].

BUILT is a folder of this repository in which `rt run` has built `hla_bench` and `hlaplay`. The yardstick is built by g++. Each row is
run by both, one after the other, so many turns (7 where it is left out), and it stops with status 1 where they print different things.
It prints a line for each row: both medians in seconds, and how many times the yardstick's time the library takes, and the same of the least,
which tell more where others take processors away at times. Of the rows of
`hla_bench` the seconds are those that the programs measure themselves; of scripts they are from the start of the process to its end.

Nothing else should run on the machine meanwhile."""
import pathlib
import statistics
import subprocess
import sys
import tempfile
import time

BENCH = pathlib.Path(__file__).resolve().parent
ROWS = ["lockstep 4 4 4000", "lockstep 16 4 400", "phold 4 100 10 400000", "phold 16 100 10 100000", "updates 15 30000",
        "queue 100", "queue 10000", "queue 1000000", "fed 1000000"]
# The library's queue keeps the names of its events, by which they are taken back; the yardstick's of the rows above does not.
NAMED = ["queue 100", "queue 10000", "queue 1000000"]
SCRIPTS = [["lockstep.py", "--receive-order", "4", "4", "289"], ["lockstep.py", "4", "4", "240"], ["updates.py", "1000", "15", "32000"]]


def ran(words, text=None):
    """What a run printed, and its seconds: its own where it tells them."""
    start = time.perf_counter()
    done = subprocess.run(words, input=text, capture_output=True, stdin=subprocess.DEVNULL if text is None else None)
    seconds = time.perf_counter() - start
    if done.returncode != 0:
        sys.exit(f"{words}: status {done.returncode}")
    for line in done.stderr.decode(errors="replace").splitlines():
        if line.startswith("microseconds "):
            seconds = int(line.split()[1]) / 1e6
    return done.stdout, seconds


def row(name, ours, theirs, turns, text=None):
    """Runs both by turns, and prints their line."""
    seconds = [[], []]
    for turn in range(turns):
        said = {}
        for place in (0, 1) if turn % 2 == 0 else (1, 0):
            said[place], took = ran([ours, theirs][place], text)
            seconds[place].append(took)
        if said[0] != said[1]:
            sys.exit(f"{name}: the two print different things")
    cells = []
    for of in (statistics.median, min):
        mine, other = map(of, seconds)
        cells += [f"{mine:.4f}", f"{other:.4f}", f"{mine / other:.2f}"]
    print(f"| {name} | {' | '.join(cells)} |", flush=True)


def main():
    if len(sys.argv) not in (2, 3):
        sys.exit("usage: bench/yardstick.py BUILT [TURNS]")
    crates = pathlib.Path(sys.argv[1]).resolve() / "crates"
    turns = int(sys.argv[2]) if len(sys.argv) == 3 else 7
    with tempfile.TemporaryDirectory() as room:
        yardstick = f"{room}/yardstick"
        subprocess.run(["g++", "-std=c++20", "-O2", "-o", yardstick, BENCH / "yardstick" / "main.cc"], check=True)
        print("| Row | Seconds | Yardstick | Times the yardstick | Least | Yardstick | Times the yardstick |\n|" + "---|" * 7, flush=True)
        bench = crates / "hla_bench/out/hla_bench"
        for words in ROWS:
            row(words, [bench, *words.split()], [yardstick, *words.split()], turns)
        for words in NAMED:
            row(f"{words}, names kept by both", [bench, *words.split()], [yardstick, *f"named_{words}".split()], turns)
        for words in SCRIPTS:
            text = subprocess.run([sys.executable, BENCH / words[0], *words[1:]], check=True, capture_output=True).stdout
            row(f"play {' '.join(words)}", [crates / "hlaplay/out/hlaplay"], [yardstick, "play"], turns, text)


if __name__ == "__main__":
    main()
