#!/usr/bin/env python3
"""Builds hlaplay and runs scripts with a thread for each federate and a monitor, fifty times each, idle and beside busy processes.

In a script every federate regulates with lookahead 1 and is constrained. A federate registers an object when it is ready to
receive, and begins when it has discovered those of all others, so that nobody sends before all have subscribed. Then it goes
through rounds: in round t it sends one interaction with the stamp t + 1, except in the last round, and one with the stamp t,
asks for t, and ticks until it has been given those of the others with the stamp t, and the grant.

It prints a line a script, and in it how many records the runs made. A run must end with `ok N` and then with what the monitor read,
`monitor N G` for all G grants; its federates must have been given all that there is for them, and the same in each run, in the same
order; where one differs the status is 1.

The scripts of many federates are short: where all threads wait, one of them has everybody announce and carries a
message over each wire, which for sixteen federates are 256 records, and the history holds 32,768.
"""
import os
import pathlib
import re
import subprocess
import sys
import tempfile

import run

RUNS = 50
# federates and rounds
SCRIPTS = [(2, 20), (4, 8), (8, 3), (16, 2)]
# the most that a run may take; beside busy processes each turn that a thread gives away costs milliseconds
SECONDS = 300
# ends with its parent, however that ends
BUSY = [sys.executable, "-c", "import os\nparent = os.getppid()\nwhile os.getppid() == parent: pass"]
FED = """(FED
 (objects (class Sign (attribute Ready reliable receive)))
 (interactions (class InteractionRoot reliable receive (class Hit reliable timestamp (parameter Force)))))
"""


def names_of(federates):
    return [f"F{number}" for number in range(1, federates + 1)]


def stamps_of(t, rounds):
    """The stamps of what a federate sends in a round, in the order in which it does."""
    return [t + 1, t] if t < rounds else [t]


def life(federates, rounds):
    """What each federate does, without its name."""
    yield from ["publishInteraction Hit", "subscribeInteraction Hit", "regulate 0 1", "tick", "constrain", "tick"]
    yield from ["publishObject Sign Ready", "subscribeObject Sign Ready", "register Sign"]
    yield from ["tick"] * (federates - 1)
    for t in range(1, rounds + 1):
        for stamp in stamps_of(t, rounds):
            yield f"send Hit Force={t} @{stamp}"
        yield f"tar {t}"
        due = sum(stamps_of(s, rounds).count(t) for s in range(1, t + 1))
        yield from ["tick"] * (due * (federates - 1) + 1)


def script_of(federates, rounds):
    """The script, a federate's lines behind those of the one before it: each has its own thread."""
    lines = ["create"] + [f"join {name}" for name in names_of(federates)]
    for name in names_of(federates):
        lines += [f"{name} {words}" for words in life(federates, rounds)]
    return lines


def received(lines, outcomes):
    """What each federate was given in time-stamp order."""
    given = {}
    for outcome in outcomes:
        number, words = outcome.split(" ", 1)
        if words.startswith("ok receive ") and " TSO " in words:
            given.setdefault(lines[int(number) - 1].split()[0], []).append(words)
    return given


def ran(fed, script):
    """The lines that one run printed; none where it failed."""
    try:
        done = subprocess.run([run.PROGRAM, "run", fed, script, "--monitor"], capture_output=True, text=True, timeout=SECONDS)
    except subprocess.TimeoutExpired:
        return []
    return done.stdout.splitlines() if done.returncode == 0 else []


def records_of(printed):
    return int(printed[-2].split()[1])


def fault_of(printed, expected, first, lines):
    """What is wrong with a run, or None."""
    if len(printed) < 2 or not re.fullmatch(r"ok \d+", printed[-2]):
        return f"ended with {printed[-2:]}"
    records = records_of(printed)
    grants = sum(" ok grant " in outcome for outcome in printed)
    if printed[-1] != f"monitor {records} {grants}":
        return f"the monitor read {printed[-1]!r} of {records} records with {grants} grants"
    given = received(lines, printed[:-2])
    if {name: len(got) for name, got in given.items()} != expected:
        return f"a federate was not given all, after {records} records"
    return None if first in (None, given) else "another order than in the first run"


def repeat(folder, federates, rounds, place):
    """Runs a script again and again, prints a line, and answers whether all runs are the same."""
    lines = script_of(federates, rounds)
    fed, script = folder / "fed", folder / "script"
    fed.write_text(FED)
    script.write_text("\n".join(lines) + "\n")
    sent = sum(len(stamps_of(t, rounds)) for t in range(1, rounds + 1))
    expected = {name: sent * (federates - 1) for name in names_of(federates)}
    first, faults, records = None, [], []
    for _ in range(RUNS):
        printed = ran(fed, script)
        fault = fault_of(printed, expected, first, lines)
        if fault:
            faults.append(fault)
        else:
            first = first or received(lines, printed[:-2])
            records.append(records_of(printed))
    told = f"{min(records)} to {max(records)} records" if records else "no records"
    print(f"{federates} federates, {rounds} rounds, {len(lines)} lines, {place}: {len(records)} of {RUNS} runs ok and the same, "
          f"{told}" + "".join(f"; {faults.count(fault)} {fault}" for fault in sorted(set(faults))), flush=True)
    return not faults


def repeat_all(folder, place):
    return all([repeat(folder, federates, rounds, place) for federates, rounds in SCRIPTS])


def main():
    run.build()
    with tempfile.TemporaryDirectory() as name:
        folder = pathlib.Path(name)
        is_same = repeat_all(folder, "idle")
        busy = [subprocess.Popen(BUSY) for _ in range(2 * os.cpu_count())]
        try:
            is_same = repeat_all(folder, "busy") and is_same
        finally:
            for process in busy:
                process.kill()
                process.wait()
    sys.exit(0 if is_same else 1)


if __name__ == "__main__":
    main()
