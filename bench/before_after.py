#!/usr/bin/env python3
"""Plays the same inputs by two builds of hlaplay, in turn, and prints what each does in a second: before_after.py BEFORE AFTER.

The inputs are those of run.py (the longest script without managed time), run_updates.py (a thousand objects, fifteen receivers) and
run_fed.py (a file of a million bytes, read alone, and read and listed). Of each program the best run counts, less the best of what comes
before: the declarations and objects of the updates, the start of the process of a FED file."""
import subprocess
import sys
import tempfile

import run
import run_fed

REPEATS = 25
OBJECTS, RECEIVERS, STEPS = 1000, 15, 32_000


def written(script, *words):
    """What a script of this folder prints."""
    return subprocess.run([sys.executable, str(run.BENCH / script), *map(str, words)], check=True, capture_output=True).stdout


def in_turn(programs, measure):
    """The least of what each program takes, by several runs of each in turn."""
    runs = [[measure(program) for program in programs] for _ in range(REPEATS)]
    return [min(found) for found in zip(*runs)]


def tell(what, unit, amounts):
    """Prints what each program does, and by how much the second does more."""
    before, after = amounts
    print(f"{what}: {before:,.0f} {unit} before, {after:,.0f} after, {after / before:.2f} times")


def scripts(programs):
    data = written("lockstep.py", "--receive-order", 4, 4, 289)
    steps = len(run.play(data, programs[1])[2])
    best = in_turn(programs, lambda program: run.play(data, program)[:2])
    tell("lockstep without managed time", "steps a second", [steps / seconds for seconds, _ in best])


def updates(programs):
    data, start = (written("updates.py", OBJECTS, RECEIVERS, last) for last in [STEPS, OBJECTS + RECEIVERS + 18])
    count = len(run.play(data, programs[1])[2]) - len(run.play(start, programs[1])[2])
    best = in_turn(programs, lambda program: run.play(data, program)[:2])
    starts = in_turn(programs, lambda program: run.play(start, program)[:2])
    tell("updates to fifteen", "updates a second", [count / (one[0] - other[0]) for one, other in zip(best, starts)])
    print("peak memory: " + ", ".join(f"{kibibytes / 1024:.1f} MiB" for _, kibibytes in best))


def fed_files(programs):
    text = run_fed.fed_text(1_000_000)
    with tempfile.TemporaryDirectory() as folder:
        empty = run_fed.written(folder, "none.fed", b"(FED)")
        whole = run_fed.written(folder, "whole.fed", text)
        refused = run_fed.written(folder, "refused.fed", text + b"x")
        starts, listed, read = (in_turn(programs, lambda program: run_fed.seconds_of(path, status, program))
                                for path, status in [(empty, 0), (whole, 0), (refused, 1)])
    for what, times in [("read", read), ("read and listed", listed)]:
        tell(f"FED text {what}", "bytes a second", [len(text) / (one - start) for one, start in zip(times, starts)])


def main():
    programs = sys.argv[1:]
    if len(programs) != 2:
        sys.exit(__doc__)
    scripts(programs)
    updates(programs)
    fed_files(programs)


main()
