#!/usr/bin/env python3
"""Builds hlaplay, plays updates of objects at several sizes, and prints updates per second and peak memory."""
import subprocess
import sys

import run


def main():
    run.build()
    for objects, receivers, steps in [(1000, 15, 32_000), (1000, 7, 32_000), (1000, 1, 32_000), (100, 15, 32_000), (1000, 15, 16_000)]:
        played = []
        for last in [steps, objects + receivers + 18]:
            data = subprocess.run([sys.executable, str(run.BENCH / "updates.py"), str(objects), str(receivers), str(last)],
                                  check=True, capture_output=True).stdout
            runs = [run.play(data) for _ in range(run.REPEATS)]
            lines = runs[0][2]
            if any(b" ok" not in line for line in lines):
                sys.exit("a step was refused")
            played.append((min(one[0] for one in runs), max(one[1] for one in runs), len(lines)))
        seconds = played[0][0] - played[1][0]
        updates = played[0][2] - played[1][2]
        print(f"{objects} objects, {receivers} receivers, {updates} updates: {updates / seconds:,.0f} updates per second, "
              f"{updates * receivers / seconds:,.0f} delivered per second, peak memory {played[0][1] / 1024:.1f} MiB")


main()
