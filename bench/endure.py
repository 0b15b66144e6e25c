#!/usr/bin/env python3
"""Proves and builds hla_workload, and runs a long federation of three lengths: bench/endure.py [PROGRAM].

Sixteen federates on threads of their own, behind the lock: fifteen in step, the ambassador of the first of them fails in callbacks by
chance, the last falls behind, so that tens of thousands of messages wait for it; a courier; and a monitor that is read all the while.
At last all leave, the infrastructure closes, and its records are judged, a million in the longest run. For each length it prints the
least seconds and the greatest peak memory of some runs.

The status is 1 where a run fails, or where time or memory grows faster than the records from one length to the next, by more than the
tolerance."""
import collections
import os
import pathlib
import signal
import subprocess
import sys
import tempfile
import time

BENCH = pathlib.Path(__file__).resolve().parent
PROGRAM = "hla_workload"
FEDERATES, OBJECTS, SEED = 16, 1, 1
# of the longest run, of which the others are a quarter and a sixteenth
STEPS = 264
# the records of a long run
MILLION = 1_000_000
# by how much time and memory may grow faster than the records from one length to the next: turns of threads are by chance
TOLERANCE = 1.25
# runs of each length
REPEATS = 3
# the most seconds of a run
LIMIT = 600

Run = collections.namedtuple("Run", "records seconds memory counts")


def build(folder):
    """Where the program stands that was proved and built in a folder."""
    to = pathlib.Path(folder) / "built"
    subprocess.run([BENCH / "build", to, PROGRAM], check=True, stdin=subprocess.DEVNULL, stdout=subprocess.DEVNULL,
                   stderr=subprocess.DEVNULL)
    return to / "crates" / PROGRAM / "out" / PROGRAM


def counts_in(text):
    """The counts of a text, by their names."""
    return dict(line.rsplit(" ", 1) for line in text.splitlines())


def endured(program, steps):
    """A run of so many steps. One that lasts is killed."""
    words = [program, "endure", *map(str, [FEDERATES, OBJECTS, steps, SEED])]
    with tempfile.TemporaryFile() as printed, tempfile.TemporaryFile() as said:
        start = time.perf_counter()
        process = os.posix_spawn(program, words, {}, file_actions=[
            (os.POSIX_SPAWN_DUP2, printed.fileno(), 1), (os.POSIX_SPAWN_DUP2, said.fileno(), 2)])
        signal.signal(signal.SIGALRM, lambda *_: os.kill(process, signal.SIGKILL))
        signal.alarm(LIMIT)
        _, status, used = os.wait4(process, 0)
        signal.alarm(0)
        seconds = time.perf_counter() - start
        for file in [printed, said]:
            file.seek(0)
        judged, chances = printed.read().decode(), said.read().decode()
    if os.waitstatus_to_exitcode(status) != 0 or "judged" not in counts_in(judged):
        sys.exit(f"{steps} steps: status {os.waitstatus_to_exitcode(status)}, printed {judged!r}, said {chances!r}")
    return Run(int(counts_in(judged)["judged"]), seconds, used.ru_maxrss, counts_in(judged) | counts_in(chances))


def measured(program, steps):
    """Some runs of a length, of which it prints a line."""
    runs = [endured(program, steps) for _ in range(REPEATS)]
    if len({(run.records, run.counts["digest"]) for run in runs}) > 1:
        sys.exit(f"{steps} steps: the runs are not the same")
    best = runs[-1]._replace(seconds=min(one.seconds for one in runs), memory=max(one.memory for one in runs))
    print(f"{best.records:,} records: judged ok, {best.seconds:.2f} s, peak memory {best.memory / 1024:.0f} MiB; "
          f"{best.counts['failed']} callbacks failed, {best.counts['reads']} reads of the monitor", flush=True)
    return best


def is_in_step(fewer, more):
    """Whether neither time nor memory has grown faster than the records, but for the tolerance."""
    growth = more.records / fewer.records
    faster = [name for name in ["seconds", "memory"] if getattr(more, name) > getattr(fewer, name) * growth * TOLERANCE]
    print(f"{growth:.2f} times the records: {more.seconds / fewer.seconds:.2f} times the seconds, {more.memory / fewer.memory:.2f} times the "
          f"memory" + "".join(f"; FASTER: {name}" for name in faster), flush=True)
    return not faster


def main():
    if len(sys.argv) > 2:
        sys.exit(__doc__)
    with tempfile.TemporaryDirectory() as folder:
        program = pathlib.Path(sys.argv[1]).resolve() if len(sys.argv) == 2 else build(folder)
        runs = [measured(str(program), steps) for steps in [STEPS // 16, STEPS // 4, STEPS]]
    if runs[-1].records < MILLION:
        sys.exit(f"{runs[-1].records:,} records are fewer than a million")
    sys.exit(0 if all([is_in_step(*pair) for pair in zip(runs, runs[1:])]) else 1)


if __name__ == "__main__":
    main()
