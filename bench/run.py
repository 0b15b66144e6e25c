#!/usr/bin/env python3
"""Builds hlaplay, plays lockstep scripts of three lengths, without and with time management, and of more federates, and prints
steps per second and peak memory."""
import os
import pathlib
import subprocess
import sys
import tempfile
import time

BENCH = pathlib.Path(__file__).resolve().parent
CRATE = BENCH.parent / "crates" / "hlaplay"
PROGRAM = CRATE / "out" / "hlaplay"
REPEATS = 5


def build():
    example = BENCH.parent / "examples" / "text-f.fed"
    subprocess.run(["rt", "run", "--", "fed", str(example)], cwd=CRATE, check=True, stdin=subprocess.DEVNULL,
                   stdout=subprocess.DEVNULL, stderr=subprocess.DEVNULL)


def play(data, program=PROGRAM):
    """Seconds and peak memory in KiB of one run, and the lines that it printed."""
    with tempfile.TemporaryFile() as given, tempfile.TemporaryFile() as printed:
        given.write(data)
        given.seek(0)
        start = time.perf_counter()
        pid = os.posix_spawn(str(program), [str(program)], {}, file_actions=[
            (os.POSIX_SPAWN_DUP2, given.fileno(), 0),
            (os.POSIX_SPAWN_DUP2, printed.fileno(), 1)])
        _, status, used = os.wait4(pid, 0)
        seconds = time.perf_counter() - start
        if os.waitstatus_to_exitcode(status) != 0:
            sys.exit("hlaplay failed")
        printed.seek(0)
        return seconds, used.ru_maxrss, printed.read().splitlines()


def measure(words):
    """Plays the script that lockstep.py writes for these words, and prints its figures."""
    data = subprocess.run([sys.executable, str(BENCH / "lockstep.py"), *words], check=True, capture_output=True).stdout
    runs = [play(data) for _ in range(REPEATS)]
    seconds = min(run[0] for run in runs)
    lines = runs[0][2]
    if any(b" ok" not in line for line in lines):
        sys.exit("a step was refused")
    memory = max(run[1] for run in runs)
    print(f"{' '.join(words)}: {len(lines)} steps: {len(lines) / seconds:,.0f} steps per second, "
          f"{seconds * 1000:.1f} ms, peak memory {memory / 1024:.1f} MiB")


def main():
    build()
    for rounds in ["72", "144", "289"]:
        measure(["--receive-order", "4", "4", rounds])
    for rounds in ["60", "120", "240"]:
        measure(["4", "4", rounds])
    for federates, rounds in [("2", "1000"), ("8", "56"), ("16", "14")]:
        measure([federates, "4", rounds])


if __name__ == "__main__":
    main()
