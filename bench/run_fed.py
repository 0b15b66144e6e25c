#!/usr/bin/env python3
"""Builds hlaplay, lists FED files of three sizes, and prints bytes, MB/s and peak memory.

Each time is the best of many runs, taken in turn, less that of the file `(FED)`, so that the start of the process does not
count. A file with one more byte behind its end is refused there: it is read whole and not listed, which gives the time of
reading, the loading of the file included.
"""
import fcntl
import os
import pathlib
import subprocess
import sys
import tempfile
import time

BENCH = pathlib.Path(__file__).resolve().parent
CRATE = BENCH.parent / "crates" / "hlaplay"
PROGRAM = CRATE / "out" / "hlaplay"
REPEATS = 100
SIZES = [250_000, 500_000, 1_000_000]
CLASSES = 500
ATTRIBUTES = 8


def build():
    example = BENCH.parent / "examples" / "text-f.fed"
    subprocess.run(["rt", "run", "--", "fed", str(example)], cwd=CRATE, check=True, stdin=subprocess.DEVNULL,
                   stdout=subprocess.DEVNULL, stderr=subprocess.DEVNULL)


def object_class(number):
    """A class of eight attributes, and what else a file has between them; about 2,000 bytes."""
    lines = [f"  ;; vehicles of kind {number}, as the exercise of this spring has them: position, paint and fuel",
             f"  (class \"Vehicle of kind {number:04}\""]
    for attribute in range(1, ATTRIBUTES + 1):
        order = ["receive", "timestamp"][attribute % 2]
        transport = ["reliable", "best_effort"][attribute // 2 % 2]
        name = f"Attribute_{attribute:02}_Of_Vehicle_{number:04}"
        if attribute % 4 == 0:
            name = f"\"the attribute {attribute} of vehicle {number:04}\""
        lines.append(f"    (attribute {name} {transport} {order} Theatre")
        lines.append(f"      (sec_level unclassified (caveat \"for the exercise\" {number}))) ; meters, eastward")
    lines.append("    (sec_level restricted (release (to all) (until further notice))))")
    return "\n".join(lines) + "\n"


def fed_text(size):
    """A FED file of about so many bytes: the classes, and spaces and comments that make up the rest."""
    wanted = CLASSES * size // SIZES[-1]
    head = ["(FED\n (Federation \"A benchmark\")\n (FEDversion v1.3)\n (spaces\n"]
    tail = [" (interactions\n  (class InteractionRoot reliable receive\n   (class Report reliable timestamp (parameter Text)))))\n"]
    classes = [object_class(number) for number in range(1, wanted + 1)]
    used = sum(map(len, head + classes + tail)) + len(" )\n (objects\n )\n")
    spaces = []
    number = 0
    while used < size:
        number += 1
        spaces.append(f"  (space Theatre_{number:05} (dimension \"east {number}\") (dimension north)) ; a part of the theatre\n")
        used += len(spaces[-1])
    return "".join(head + spaces + [" )\n (objects\n"] + classes + [" )\n"] + tail).encode()


def seconds_of(path, status_wanted, program=PROGRAM):
    """Seconds of one run, which must end with the status."""
    with open(os.devnull, "wb") as nowhere:
        start = time.perf_counter()
        pid = os.posix_spawn(str(program), [str(program), "fed", path], {}, file_actions=[
            (os.POSIX_SPAWN_DUP2, nowhere.fileno(), 1), (os.POSIX_SPAWN_DUP2, nowhere.fileno(), 2)])
        _, status = os.waitpid(pid, 0)
        seconds = time.perf_counter() - start
    if os.waitstatus_to_exitcode(status) != status_wanted:
        sys.exit("hlaplay failed")
    return seconds


def memory_of(path):
    """Peak memory in KiB, asked for while the program waits at a full pipe: it writes its list at the end, whole."""
    list_end, program_end = os.pipe()
    fcntl.fcntl(program_end, fcntl.F_SETPIPE_SZ, 4096)
    process = subprocess.Popen([str(PROGRAM), "fed", path], stdout=program_end)
    os.close(program_end)
    with open(list_end, "rb", buffering=0) as listing:
        listing.read(1)
        status = pathlib.Path(f"/proc/{process.pid}/status").read_text()
        while listing.read(65_536):
            pass
    process.wait()
    return next(int(line.split()[1]) for line in status.splitlines() if line.startswith("VmHWM:"))


def written(folder, name, text):
    """The path of a file that has the text."""
    path = os.path.join(folder, name)
    pathlib.Path(path).write_bytes(text)
    return path


def main():
    build()
    with tempfile.TemporaryDirectory() as folder:
        files = [(written(folder, "none.fed", b"(FED)"), 0)]
        for size in SIZES:
            text = fed_text(size)
            files.append((written(folder, f"{size}.fed", text), 0))
            files.append((written(folder, f"{size}-trailing.fed", text + b"x"), 1))
        rounds = [[seconds_of(*file) for file in files] for _ in range(REPEATS)]
        start, *best = [min(times) for times in zip(*rounds)]
        print(f"start of the process: {start * 1000:.2f} ms")
        for at in range(0, len(best), 2):
            path = files[at + 1][0]
            size = os.path.getsize(path)
            read, listed = best[at + 1] - start, best[at] - start
            print(f"{size} bytes: read at {size / read / 1e6:,.0f} MB/s ({read * 1000:.2f} ms), read and listed at "
                  f"{size / listed / 1e6:,.0f} MB/s ({listed * 1000:.2f} ms), peak memory {memory_of(path) / 1024:.1f} MiB")


if __name__ == "__main__":
    main()
