#!/usr/bin/env python3
"""Plays FED texts and scripts with bytes, spans, lines and numbers changed by chance, and looks at how each run ends.

    mutations.py [--seed S] [--first N] [--count N] [--jobs N] [--program PATH]

The texts are those of the repository: the files *.fed and *.script of examples/ and of the crates' data, and what the writers of this
folder make. Of each pair of a FED text and a script one is changed, by one to four changes, and `hlaplay play` is run on both. It must end
within some seconds, in one of two ways. Refused: status 1, nothing on standard output, and on standard error one line, which names the
text that was changed, a line that this text has, and a fault. Played: status 0, nothing on standard error, and a transcript; then
`hlaplay check` must print `ok N`. Of a changed FED text `hlaplay fed` must say the same.

A change depends on the seed and on its number alone: `--first N --count 1` does the one numbered N again. Where a run ends otherwise, its number
is printed, both texts are kept in a folder that is named, and the status is 1. The last lines say how many were played, how many were
refused for which fault, and the longest time and the greatest memory of a run."""
import argparse
import collections
import functools
import multiprocessing
import os
import pathlib
import random
import re
import signal
import subprocess
import sys
import tempfile
import time

import run
import run_fed
import threads

# the most seconds of one run
LIMIT = 10
# how many changes a process of this program takes at once
PORTION = 50
# the most bytes of a changed text: a change that doubles is not made of a longer one
LONGEST = 200_000
REFUSED = re.compile(rb"(fed|script) line (\d+): ([A-Za-z]+)\n")
PLAYED = re.compile(rb"(\d+ (ok|error \d+ [A-Za-z]+)( [^\n]*)?\n)*")
JUDGED = re.compile(rb"ok \d+\n")
LIMITS = [0, 1, 2**31 - 1, 2**31, 2**32 - 1, 2**32, 10**18 - 1, 10**18, 10**18 + 1, 2**63 - 1, 2**63, 2**64 - 1, 2**64, 10**30]
LENGTHS = [0, 1, 63, 64, 65, 254, 255, 256, 257, 1_023, 1_024, 1_025, 4_096, 70_000]
DEPTHS = [1, 2, 31, 32, 33, 255, 256, 257, 5_000]
STRANGE = [b"\0", b"\x7f", b"\x80", b"\xff", b"\r", b"\t", b"\n", b" ", b"\"", b"(", b")", b";", b"#", b"@", b"=", b".", b"-", b"%%\n",
           "\N{LATIN SMALL LETTER E WITH ACUTE}".encode(), b"\xf0\x9f\x98\x80", b"\xed\xa0\x80"]

Pair = collections.namedtuple("Pair", "name fed script")
Ended = collections.namedtuple("Ended", "status printed said seconds memory")


def span_of(text, chance, longest):
    """Two places of a text, at most so far from each other."""
    begin = chance.randint(0, len(text))
    return begin, min(len(text), begin + chance.randint(0, longest))


def with_bit_flipped(text, chance, _):
    if not text:
        return text
    place = chance.randrange(len(text))
    return text[:place] + bytes([text[place] ^ 1 << chance.randrange(8)]) + text[place + 1:]


def with_byte_replaced(text, chance, _):
    place = chance.randint(0, len(text))
    return text[:place] + bytes([chance.randrange(256)]) + text[place + 1:]


def with_strange_byte(text, chance, _):
    place = chance.randint(0, len(text))
    return text[:place] + chance.choice(STRANGE) + text[place:]


def with_span_removed(text, chance, _):
    begin, end = span_of(text, chance, 40)
    return text[:begin] + text[end:]


def with_span_repeated(text, chance, _):
    begin, end = span_of(text, chance, 200)
    return text[:end] + text[begin:end] * chance.choice([1, 1, 1, 2, 50]) + text[end:]


def with_text_doubled(text, _, __):
    return text + text


def with_end_cut(text, chance, _):
    return text[:chance.randint(0, len(text))]


def with_lines_exchanged(text, chance, _):
    lines = text.split(b"\n")
    one, other = chance.randrange(len(lines)), chance.randrange(len(lines))
    lines[one], lines[other] = lines[other], lines[one]
    return b"\n".join(lines)


def with_line_removed(text, chance, _):
    lines = text.split(b"\n")
    del lines[chance.randrange(len(lines))]
    return b"\n".join(lines)


def with_line_repeated(text, chance, _):
    lines = text.split(b"\n")
    place = chance.randrange(len(lines))
    return b"\n".join(lines[:place] + [lines[place]] * chance.choice([2, 2, 3, 40]) + lines[place + 1:])


def with_line_of_another(text, chance, other):
    lines = text.split(b"\n")
    lines.insert(chance.randint(0, len(lines)), chance.choice(other.split(b"\n")))
    return b"\n".join(lines)


def with_match_replaced(text, chance, pattern, replacement):
    """One of the places where a pattern stands, with another text in it; the same text where it stands nowhere."""
    found = list(re.finditer(pattern, text))
    if not found:
        return text
    begin, end = chance.choice(found).span()
    return text[:begin] + replacement + text[end:]


def with_number_at_limit(text, chance, _):
    sign = chance.choice([b"", b"", b"", b"-", b"+", b"00"])
    return with_match_replaced(text, chance, rb"\d+", sign + str(chance.choice(LIMITS)).encode())


def with_number_beside(text, chance, _):
    """With a number replaced by a small one, so that the line is often still read."""
    return with_match_replaced(text, chance, rb"\d+", str(chance.randint(0, 20)).encode())


def with_word_at_length(text, chance, _):
    return with_match_replaced(text, chance, rb"[A-Za-z]+", b"w" * chance.choice(LENGTHS))


def with_word_of_another(text, chance, other):
    words = re.findall(rb"\S+", other)
    return with_match_replaced(text, chance, rb"\S+", chance.choice(words)) if words else text


def with_words_exchanged(text, chance, _):
    words = re.findall(rb"\S+", text)
    return with_match_replaced(text, chance, rb"\S+", chance.choice(words)) if words else text


def with_deep_lists(text, chance, _):
    place, depth = chance.randint(0, len(text)), chance.choice(DEPTHS)
    return text[:place] + b"(class w " * depth + b")" * chance.choice([depth, depth, depth - 1, depth + 1]) + text[place:]


# changes that often leave a text that is still read, and others
GENTLE = [with_lines_exchanged, with_line_removed, with_line_repeated, with_line_of_another, with_number_beside, with_words_exchanged]
ROUGH = [with_bit_flipped, with_byte_replaced, with_strange_byte, with_span_removed, with_span_repeated, with_text_doubled, with_end_cut,
         with_number_at_limit, with_word_at_length, with_word_of_another, with_deep_lists]


def changed(text, chance, other):
    """A text with one to four changes, some of which take words and lines of another text."""
    for _ in range(chance.choice([1, 1, 1, 2, 3, 4])):
        if len(text) < LONGEST:
            text = chance.choice(GENTLE if chance.random() < 0.6 else ROUGH)(text, chance, other)
    return text


def written_pair(name, *words):
    """The FED text and the script that a writer of this folder prints, with a line `%%` between them."""
    data = subprocess.run([sys.executable, str(run.BENCH / name), *words], check=True, capture_output=True).stdout
    fed, script = data.split(b"%%\n", 1)
    return Pair(name, fed, script)


def file_pairs():
    """Each script of the repository that is a file, with each FED text beside it."""
    folders = [run.BENCH.parent / "examples", *sorted((run.BENCH.parent / "crates").glob("*/data"))]
    return [Pair(script.stem, fed.read_bytes(), script.read_bytes())
            for folder in folders for fed in sorted(folder.glob("*.fed")) for script in sorted(folder.glob("*.script"))]


@functools.cache
def corpus():
    """All pairs that are changed, each once."""
    lines = threads.script_of(3, 2)
    lockstep = written_pair("lockstep.py", "3", "2", "3")
    pairs = file_pairs() + [lockstep, written_pair("lockstep.py", "--receive-order", "3", "1", "3"),
                            written_pair("updates.py", "4", "3", "60"),
                            Pair("threads.py", threads.FED.encode(), "\n".join(lines).encode() + b"\n"),
                            Pair("run_fed.py", run_fed.fed_text(6_000), lockstep.script)]
    seen = {}
    for pair in pairs:
        seen.setdefault((pair.fed, pair.script), pair)
    return list(seen.values())


class Player:
    """Runs the program on texts in files of a folder of its own, one run at a time."""

    def __init__(self, program, folder):
        self.program = str(program)
        self.fed, self.script, printed, said = (os.path.join(folder, name) for name in ["fed", "script", "printed", "said"])
        self.printed, self.said = (os.open(path, os.O_RDWR | os.O_CREAT | os.O_TRUNC) for path in [printed, said])
        self.nothing = os.open(os.devnull, os.O_RDONLY)
        self.process = None
        # a run that lasts is killed, and its status says so
        signal.signal(signal.SIGALRM, lambda *_: os.kill(self.process, signal.SIGKILL))

    def write(self, fed, script):
        pathlib.Path(self.fed).write_bytes(fed)
        pathlib.Path(self.script).write_bytes(script)

    def written(self, file):
        """What a run has written into a file, which is empty then."""
        os.lseek(file, 0, os.SEEK_SET)
        text = os.read(file, os.fstat(file).st_size)
        os.lseek(file, 0, os.SEEK_SET)
        os.ftruncate(file, 0)
        return text

    def end_of(self, *words):
        """How a run with these words ends."""
        start = time.perf_counter()
        self.process = os.posix_spawn(self.program, [self.program, *words], {}, file_actions=[
            (os.POSIX_SPAWN_DUP2, self.nothing, 0), (os.POSIX_SPAWN_DUP2, self.printed, 1), (os.POSIX_SPAWN_DUP2, self.said, 2)])
        signal.setitimer(signal.ITIMER_REAL, LIMIT)
        _, status, used = os.wait4(self.process, 0)
        signal.setitimer(signal.ITIMER_REAL, 0)
        seconds = time.perf_counter() - start
        return Ended(os.waitstatus_to_exitcode(status), self.written(self.printed), self.written(self.said), seconds, used.ru_maxrss)


def refusal_of(ended, changed_kind, changed_text):
    """The fault for which a run was refused; None where it was not refused as it must be."""
    line = REFUSED.fullmatch(ended.said)
    if ended.status != 1 or ended.printed or not line or line[1].decode() != changed_kind:
        return None
    is_there = 1 <= int(line[2]) <= changed_text.count(b"\n") + 1
    return f"{changed_kind} {line[3].decode()}" if is_there else None


def is_played(ended):
    return ended.status == 0 and not ended.said and PLAYED.fullmatch(ended.printed)


def told(ended):
    """A few words on how a run ended."""
    return f"status {ended.status}, printed {ended.printed[-80:]!r}, said {ended.said[:200]!r}, {ended.seconds:.1f} s"


def fault_of_list(player, kind, text, refused, played):
    """What is wrong where a FED text is listed: it must be refused as it is where a script is played over it, or else be listed."""
    listed = player.end_of("fed", player.fed)
    if refused:
        is_same = refusal_of(listed, kind, text) == refused and listed.said == played.said
    else:
        is_same = listed.status == 0 and not listed.said
    return listed, None if is_same else f"fed: {told(listed)}; play: {told(played)}"


def fault_of_check(player):
    """What is wrong where the records of a script are judged."""
    judged = player.end_of("check", player.fed, player.script)
    is_right = judged.status == 0 and not judged.said and JUDGED.fullmatch(judged.printed)
    return judged, None if is_right else "check: " + told(judged)


def outcome_of(player, kind, text):
    """Whether what was written was played, or for which fault it was refused; what is wrong, if anything; and the runs that this took."""
    played = player.end_of("play", player.fed, player.script)
    refused = refusal_of(played, kind, text)
    runs, faults = [played], [None if refused or is_played(played) else "play: " + told(played)]
    if kind == "fed" and not faults[0]:
        listed, fault = fault_of_list(player, kind, text, refused, played)
        runs.append(listed)
        faults.append(fault)
    if not refused and not faults[0]:
        judged, fault = fault_of_check(player)
        runs.append(judged)
        faults.append(fault)
    wrong = "; ".join(fault for fault in faults if fault)
    return "ended otherwise" if wrong else refused or "played", wrong, runs


def mutation_of(seed, number):
    """The texts of a number, and which of the two was changed: the same at each run."""
    chance = random.Random(f"{seed} {number}")
    pair, other = chance.choice(corpus()), chance.choice(corpus())
    if chance.random() < 0.3:
        return "fed", changed(pair.fed, chance, other.fed), pair.script
    return "script", pair.fed, changed(pair.script, chance, other.script)


def done(work):
    """Does some numbers: how often each outcome came, the faults with their texts, the longest time and the greatest memory."""
    program, seed, numbers = work
    outcomes, faults, seconds, memory = collections.Counter(), [], (0.0, 0), 0
    with tempfile.TemporaryDirectory() as folder:
        player = Player(program, folder)
        for number in numbers:
            kind, fed, script = mutation_of(seed, number)
            player.write(fed, script)
            outcome, fault, runs = outcome_of(player, kind, fed if kind == "fed" else script)
            outcomes[outcome] += 1
            if fault:
                faults.append((number, fault, fed, script))
            seconds = max([seconds] + [(ended.seconds, number) for ended in runs])
            memory = max([memory] + [ended.memory for ended in runs])
        for file in [player.printed, player.said, player.nothing]:
            os.close(file)
    return outcomes, faults, seconds, memory


def tell_fault(kept, number, fault, fed, script):
    """Prints a fault, and keeps its texts."""
    for name, text in [("fed", fed), ("script", script)]:
        (kept / f"{number}.{name}").write_bytes(text)
    print(f"number {number}: {fault}; its texts are in {kept}", flush=True)


def words_of_command():
    words = argparse.ArgumentParser(description=__doc__, formatter_class=argparse.RawDescriptionHelpFormatter)
    words.add_argument("--seed", type=int, default=1)
    words.add_argument("--first", type=int, default=0)
    words.add_argument("--count", type=int, default=100_000)
    words.add_argument("--jobs", type=int, default=3)
    words.add_argument("--program", type=pathlib.Path)
    return words.parse_args()


def main():
    asked = words_of_command()
    if asked.program is None:
        run.build()
    program = (asked.program or run.PROGRAM).resolve()
    last = asked.first + asked.count
    works = [(program, asked.seed, range(at, min(at + PORTION, last))) for at in range(asked.first, last, PORTION)]
    outcomes, seconds, memory, kept = collections.Counter(), (0.0, 0), 0, None
    start = time.perf_counter()
    with multiprocessing.Pool(asked.jobs) as pool:
        for some, faults, longest, greatest in pool.imap_unordered(done, works):
            outcomes += some
            seconds, memory = max(seconds, longest), max(memory, greatest)
            for fault in faults:
                kept = kept or pathlib.Path(tempfile.mkdtemp(prefix="mutations-"))
                tell_fault(kept, *fault)
    refused = {outcome: count for outcome, count in sorted(outcomes.items()) if outcome not in ("played", "ended otherwise")}
    print(f"seed {asked.seed}, numbers {asked.first} to {last - 1}, {len(corpus())} pairs: played {outcomes['played']}, refused "
          f"{sum(refused.values())}, ended otherwise {outcomes['ended otherwise']}")
    print("refused: " + ", ".join(f"{outcome} {count}" for outcome, count in refused.items()))
    print(f"longest run {seconds[0]:.3f} s (number {seconds[1]}), greatest memory {memory / 1024:.0f} MiB, all in {time.perf_counter() - start:.0f} s")
    sys.exit(1 if outcomes["ended otherwise"] else 0)


if __name__ == "__main__":
    main()
