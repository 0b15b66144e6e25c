#!/usr/bin/env python3
"""Runs hlaplay where it cannot write, and where it has little memory, and looks at how it ends: failed_writes.py [PROGRAM].

Standard output or standard error is a device that is full, a pipe whose reader has gone, a pipe whose reader leaves after a line, or
closed. A task that has something to write must then end with status 1 and with `cannot write` on standard error, where that can be
written; refused input with status 1 and a refused command line with 2, whether it can be said or not. Where memory is limited, from the
least with which the program starts up to what a task needs, the task must end with status 1 and say so in a line, or as if there was
no limit, or in a transcript with lines that ran out of memory. A run that a signal ends, or that does not end within some seconds, is a
fault like any other. It prints a line for each kind of run, and its status is 1 where one was a fault."""
import os
import pathlib
import re
import signal
import subprocess
import sys
import tempfile

import run
import run_fed

# the most seconds of one run
LIMIT = 60
FULL, GONE, LEAVES, CLOSED, WRITTEN = "full", "reader gone", "reader leaves after a line", "closed", "written"
UNWRITABLE = [FULL, GONE, CLOSED]
OUT_OF_MEMORY = re.compile(rb"(out of memory|(fed|script) line \d+: OutOfMemory)\n")
# of an address space, in KiB: how much more it is at each try, and with how much at most the program must start
MORE_MEMORY, MOST_MEMORY = 128, 131_072
REFUSED = b" error 38 OutOfMemory\n"
LIMITED = ["/bin/sh", "-c", 'ulimit -v "$0" && exec "$@"']


class Stream:
    """What a program is given to write to."""

    def __init__(self, kind):
        self.kind = kind
        self.reader = None
        self.file = None
        if kind == FULL:
            self.writer = os.open("/dev/full", os.O_WRONLY)
        elif kind == CLOSED:
            self.writer = None
        elif kind == WRITTEN:
            self.file = tempfile.TemporaryFile()
            self.writer = os.dup(self.file.fileno())
        else:
            self.reader, self.writer = os.pipe()

    def action(self, descriptor):
        """What the program does with it before it begins."""
        return (os.POSIX_SPAWN_CLOSE, descriptor) if self.writer is None else (os.POSIX_SPAWN_DUP2, self.writer, descriptor)

    def begin(self):
        """Before the program runs: a reader goes."""
        if self.kind == GONE:
            os.close(self.reader)

    def go_on(self):
        """While the program runs: a reader reads a line, and goes."""
        if self.writer is not None:
            os.close(self.writer)
        if self.kind == LEAVES:
            while b"\n" not in (os.read(self.reader, 1) or b"\n"):
                pass
            os.close(self.reader)

    def text(self):
        """What was written, where that can be seen."""
        if self.file is None:
            return b""
        self.file.seek(0)
        return self.file.read()


def status_of(process):
    """The status of a process: that of a signal is below 0. One that lasts is killed."""
    signal.signal(signal.SIGALRM, lambda *_: os.kill(process, signal.SIGKILL))
    signal.alarm(LIMIT)
    _, status = os.waitpid(process, 0)
    signal.alarm(0)
    return os.waitstatus_to_exitcode(status)


def end_of(words, output=WRITTEN, errors=WRITTEN):
    """The status of a run, and what it wrote on standard output and on standard error where that can be seen."""
    streams = [Stream(output), Stream(errors)]
    for stream in streams:
        stream.begin()
    process = os.posix_spawn(words[0], words, {}, file_actions=[streams[0].action(1), streams[1].action(2)],
                             setsigdef=[signal.SIGPIPE])
    for stream in streams:
        stream.go_on()
    return status_of(process), streams[0].text(), streams[1].text()


class Tally:
    """How many runs there were, and how many were faults."""

    def __init__(self):
        self.runs = 0
        self.faults = 0

    def tell(self, what, wanted, ended):
        self.runs += 1
        is_right = ended == wanted
        self.faults += not is_right
        status, printed, said = ended
        print(f"{'ok' if is_right else 'FAULT'}: {what}: status {status}, on standard error {said!r}"
              + ("" if is_right else f", on standard output {printed[-80:]!r}; wanted {wanted!r}"), flush=True)


def try_outputs(tally, tasks):
    """Tasks that have something to write, and cannot."""
    for name, words in tasks.items():
        for output in UNWRITABLE:
            tally.tell(f"{name}, output {output}", (1, b"", b"cannot write\n"), end_of(words, output))
            for errors in UNWRITABLE:
                tally.tell(f"{name}, output {output}, errors {errors}", (1, b"", b""), end_of(words, output, errors))


def try_leaving(tally, tasks):
    """Tasks that write more than a pipe holds, and whose reader leaves."""
    for name, words in tasks.items():
        tally.tell(f"{name}, output: {LEAVES}", (1, b"", b"cannot write\n"), end_of(words, LEAVES))


def try_errors(tally, refused):
    """What is refused, and cannot be said."""
    for name, (words, status) in refused.items():
        for errors in UNWRITABLE:
            tally.tell(f"{name}, errors {errors}", (status, b"", b""), end_of(words, errors=errors))


def limited(memory, words):
    return end_of([*LIMITED, str(memory), *words])


def is_whole(ended):
    """Whether a run ended as if its memory was not limited."""
    return ended[0] == 0 and not ended[2] and REFUSED not in ended[1]


def is_as_expected(ended, whole):
    """Whether a run with little memory ended as it may. What a run on threads prints is another each time; up to where its memory
    ran out, what the others print is a beginning of the whole, or has lines that ran out of it."""
    status, printed, said = ended
    is_known = whole is None or whole.startswith(printed) or REFUSED in printed
    return bool(OUT_OF_MEMORY.fullmatch(said)) and is_known if status == 1 else status == 0 and not said


def least_memory(words):
    """The least address space with which the program starts, or None; it cannot say anything where it does not start."""
    for memory in range(MORE_MEMORY, MOST_MEMORY, MORE_MEMORY):
        if limited(memory, words)[0] == 0:
            return memory
    return None


def try_memory(tally, name, words, memory):
    """A task with more and more memory, until it ends as if there was no limit."""
    whole = None if "run" in words else end_of(words)[1]
    refused = began = 0
    ended = 1, b"", b""
    while not is_whole(ended) and memory < MOST_MEMORY:
        ended = limited(memory, words)
        tally.runs += 1
        refused += ended[0] == 1
        began += ended[0] == 0 and not is_whole(ended)
        if not is_as_expected(ended, whole):
            tally.faults += 1
            print(f"FAULT: {name}, {memory} KiB: status {ended[0]}, on standard error {ended[2]!r}", flush=True)
        memory += MORE_MEMORY
    print(f"{name}: {refused} times out of memory, {began} times with lines out of memory, whole with {memory - MORE_MEMORY} KiB", flush=True)


def written(folder, name, text):
    path = folder / name
    path.write_bytes(text)
    return str(path)


def try_all(program, folder):
    """All kinds of runs; their tally."""
    examples = run.BENCH.parent / "examples"
    fed, short = str(examples / "text-f.fed"), str(examples / "lockstep.script")
    text, script = subprocess.run([sys.executable, run.BENCH / "lockstep.py", "4", "4", "200"], check=True,
                                  capture_output=True).stdout.split(b"%%\n", 1)
    long = [written(folder, "long.fed", text), written(folder, "long.script", script)]
    large = written(folder, "large.fed", run_fed.fed_text(1_000_000))
    least = written(folder, "least.fed", b"(FED)")
    bad_fed, bad_script = written(folder, "bad.fed", b"(FED"), written(folder, "bad.script", b"creation\n")
    tally = Tally()
    try_outputs(tally, {"fed": [program, "fed", fed], "play": [program, "play", fed, short], "play of many lines": [program, "play", *long],
                        "check": [program, "check", fed, short], "run": [program, "run", fed, short],
                        "run with a monitor": [program, "run", fed, short, "--monitor"]})
    try_leaving(tally, {"fed of many classes": [program, "fed", large], "play of many lines": [program, "play", *long]})
    try_errors(tally, {"a refused FED file": ([program, "play", bad_fed, short], 1), "a refused script": ([program, "play", fed, bad_script], 1),
                       "a refused script to check": ([program, "check", fed, bad_script], 1),
                       "a refused script to run": ([program, "run", fed, bad_script], 1), "a refused list": ([program, "fed", bad_fed], 1),
                       "a file that is not there": ([program, "play", fed, str(folder / "none")], 1), "a refused command": ([program, "games"], 2)})
    memory = least_memory([program, "fed", least])
    print(f"the least address space with which the program starts, in KiB: {memory}", flush=True)
    if memory is None:
        tally.faults += 1
        return tally
    for name, words in {"fed of many classes": ["fed", large], "play of many lines": ["play", *long], "check of many lines": ["check", *long],
                        "run": ["run", fed, short]}.items():
        try_memory(tally, name, [program, *words], memory)
    return tally


def main():
    if len(sys.argv) > 2:
        sys.exit(__doc__)
    if len(sys.argv) < 2:
        run.build()
    program = str(pathlib.Path(sys.argv[1] if len(sys.argv) == 2 else run.PROGRAM).resolve())
    with tempfile.TemporaryDirectory() as folder:
        tally = try_all(program, pathlib.Path(folder))
    print(f"{tally.runs} runs, {tally.faults} faults")
    sys.exit(1 if tally.faults else 0)


if __name__ == "__main__":
    main()
