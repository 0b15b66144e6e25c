#!/usr/bin/env python3
"""Lets each allocation of worked examples fail in turn, and looks at what is answered.

    bench/fail_allocations.py [--built FOLDER] [--only PROGRAM] [NAME..]

Two programs are tried, or one of them alone, over the examples of these names, or over all that each is for:

- `hlaplay` plays each example. A run may end in three ways. While its inputs are read it says which line ran out of memory, and
  has written nothing. Later it may say `out of memory`, having written the beginning of the whole transcript. Both end with
  status 1. Or it goes on behind a line that ended with `error 38 OutOfMemory`: then that line has changed nothing, so that
  everything else must be what the script prints without that line.
- `hla_examples` plays some of them by the calls of one layer: `step` (`Federation::step`), `foresee` (`Federation::foresee`, and then
  `step`) and `rti` (the infrastructure, with a monitor). A run may end so: a line is refused with `error 38 OutOfMemory`, and all else
  is what the script prints without that line; and where the line stands there twice, its second is answered as if there had been
  none before, and so is all behind it. Or memory ran out outside the calls: it says so, with status 1, and prints nothing. Or, by
  `rti` alone, nothing is told behind the first step: at the board, from where a monitor has the record later, and where all is closed.
  Before the first step a growth may be done without. A step that is said to take no memory is never refused.

Each number from 1 to that of the allocations of an undisturbed run must have been one that failed. That above the last is tried
as well: none fails then, and nothing may change. Anything else is a fault, and the status is then 1. The programs are proved and
built first, or, with --built, they stand in a folder under their names.
"""
import argparse
import collections
import pathlib
import re
import subprocess
import sys
import tempfile

BENCH = pathlib.Path(__file__).resolve().parent
CRATES = BENCH.parent / "crates"
EXAMPLES = CRATES / "hla_examples" / "data"
FED = EXAMPLES / "text-f.fed"
FAILING = b"an allocation fails\n"
OUT_OF_MEMORY = b"out of memory\n"
REFUSED = b" error 38 OutOfMemory"
READING = re.compile(rb"(fed|script) line \d+: OutOfMemory\n")

SCENARIOS = ["ancestor", "epoch", "retraction", "flush", "two_orders_and_a_tie"]
LAYERS = ["foresee", "step", "rti"]
# The layers with no lock and no monitor, where each growth of a call is answered by a refusal.
BARE_LAYERS = ["foresee", "step"]
OUT_OF_MEMORY_FAULT = b"OutOfMemory\n"
# By how many allocations more or less, the nearest first, what comes before a line may differ in a script that has one line more.
SHIFTS = sorted(range(-60, 61), key=abs)
# Of a federate's words, those whose steps take no memory; and of other words, the answers of steps that take none.
TAKE_NONE = {"tar", "tara", "ner", "nera", "fqr", "constrain", "modifyLookahead", "asyncOn", "asyncOff", "lbts", "time",
             "minNext", "lookahead"}
ANSWERS_OF_NONE = {"tick": {"nothing", "regulationEnabled", "requestRetraction", "grant"}, "carry": {"none", "null"},
                   "announce": {"none"}}

# How a run ended, whether an allocation failed in it, and how many there were.
Ended = collections.namedtuple("Ended", "status printed said has_failed count")

class Runner:
    """Runs programs with one of their allocations failing."""

    def __init__(self, folder, built):
        self.folder = pathlib.Path(folder)
        self.built = built
        self.shim = self.folder / "fail_allocation.so"
        subprocess.run(["cc", "-shared", "-fPIC", "-O1", "-o", self.shim, BENCH / "fail_allocation.c", "-ldl"], check=True)

    def run(self, program, words, failing):
        """How a program ends for these words with this allocation failing, or none for 0."""
        count = self.folder / "count"
        count.unlink(missing_ok=True)
        given = {"LD_PRELOAD": str(self.shim), "COUNT_ALLOCATIONS": str(count), "FAIL_ALLOCATION": str(failing)}
        ran = subprocess.run([self.built[program], *words], env=given, capture_output=True)
        if not count.exists():
            sys.exit(f"{program} {words}: allocation {failing}: the run has not told how many allocations it made")
        return Ended(ran.returncode, ran.stdout, ran.stderr, FAILING in ran.stderr, int(count.read_text()))


def is_wrongly_failed(ended, failing, count):
    """Whether another number of allocations failed than the one that is asked for, if there is one."""
    return ended.said.count(FAILING) != (1 if 1 <= failing <= count else 0)


class Playing:
    """Examples that hlaplay plays."""

    program = "hlaplay"

    def __init__(self, runner, name):
        self.runner = runner
        self.title = name
        self.script = (EXAMPLES / f"{name}.script").read_bytes()
        self.whole = (EXAMPLES / f"{name}.expected").read_bytes()

    def run(self, failing, script=None):
        played = self.runner.folder / "played.script"
        played.write_bytes(script or self.script)
        return self.runner.run(self.program, ["play", FED, played], failing)

    def note(self):
        """What is told of a sweep beside its counts."""
        return ""

    def is_undisturbed(self, ended):
        """Whether the run is as it must be where nothing fails."""
        return (ended.status, ended.printed, ended.said) == (0, self.whole, b"")

    def fault_of_end(self, printed, said):
        """What is wrong with a run that ended with status 1, or None."""
        if READING.fullmatch(said):
            return "a part of the transcript of refused input" if printed else None
        if said != OUT_OF_MEMORY:
            return f"status 1, and on standard error {said!r}"
        return None if self.whole.startswith(printed) else "no beginning of the transcript"

    def fault_of(self, ended, failing):
        """What is wrong with how a run ended, or None."""
        said = ended.said.replace(FAILING, b"")
        if ended.status == 1:
            return self.fault_of_end(ended.printed, said)
        if ended.status != 0 or said:
            return f"status {ended.status}, and on standard error {said!r}"
        return None if ended.printed == self.whole else fault_of_refused(self, ended)

    def kind_of(self, ended):
        """In which way a run without a fault ended."""
        if ended.status == 1:
            return "refused input" if READING.search(ended.said) else "out of memory"
        return "error 38" if REFUSED in ended.printed else "as if nothing failed"


class Layered:
    """Examples that hla_examples plays by the calls of one layer."""

    program = "hla_examples"

    def __init__(self, runner, name, layer):
        self.runner = runner
        self.layer = layer
        self.title = f"{name} {layer}"
        self.script = (EXAMPLES / f"{name}.script").read_bytes()
        self.whole = (EXAMPLES / f"{name}.expected").read_bytes()
        self.without_memory = lines_without_memory(self.script.decode(), self.whole.decode())
        # Of each line that was refused, how many allocations more, or less, come before it where it stands there twice.
        self.more = {}
        # At most so many allocations come before the first step.
        self.before = self.run(0, self.script.split(b"\n")[0] + b"\n").count

    def run(self, failing, script=None):
        played = self.runner.folder / "played.script"
        played.write_bytes(script or self.script)
        return self.runner.run(self.program, [self.layer, FED, played], failing)

    def note(self):
        """What is told of a sweep beside its counts."""
        lines = f"; {len(self.more)} lines were refused"
        return lines + f", {len(self.without_memory)} take no memory" if self.layer in BARE_LAYERS else lines

    def is_undisturbed(self, ended):
        """Whether the run is as it must be where nothing fails."""
        return (ended.status, ended.printed, ended.said) == (0, self.whole, b"")

    def fault_of(self, ended, failing):
        """What is wrong with how a run ended, or None."""
        said = ended.said.replace(FAILING, b"")
        if ended.status == 1:
            # of its words and files it says nothing
            is_own = said in (OUT_OF_MEMORY_FAULT, b"") and not ended.printed
            return None if is_own else f"status 1, and on standard error {said!r}"
        if ended.status != 0 or said:
            return f"status {ended.status}, and on standard error {said!r}"
        if ended.printed == self.whole:
            is_call = self.layer in BARE_LAYERS and failing > self.before
            return "answered as if nothing had failed" if is_call else None
        return fault_of_refused(self, ended) or self.fault_of_second(refused_lines(ended)[0], failing)

    def fault_of_second(self, number, failing):
        """What is wrong where a line that was refused, with this allocation failing, is done once more; or None."""
        if self.layer in BARE_LAYERS and number in self.without_memory:
            return f"line {number} takes memory"
        script, printed = self.with_two(number), self.printed_with_two(number)
        for more in [*([self.more[number]] if number in self.more else []), *SHIFTS]:
            again = self.run(failing + more, script)
            if number in refused_lines(again):
                self.more[number] = more
                is_done = (again.status, again.printed) == (0, printed)
                return None if is_done else f"line {number} is answered otherwise when it is done again"
        return f"line {number} is not refused where it stands there twice"

    def with_two(self, number):
        """The script with a line twice."""
        lines = self.script.split(b"\n")
        return b"\n".join(lines[:number] + lines[number - 1:])

    def printed_with_two(self, number):
        """What the script prints with a line twice, of which the first is refused."""
        lines = [(int(line.split()[0]), line) for line in self.whole.splitlines(keepends=True)]
        before = [line for at, line in lines if at < number]
        behind = [str(at + 1).encode() + line[line.index(b" "):] for at, line in lines if at >= number]
        return b"".join([*before, str(number).encode() + REFUSED + b"\n", *behind])

    def kind_of(self, ended):
        """In which way a run without a fault ended."""
        if ended.status == 1:
            return "outside"
        return "refused" if REFUSED in ended.printed else "untold"


def refused_lines(ended):
    """The numbers of the lines that were refused for memory."""
    return [int(line.split()[0]) for line in ended.printed.splitlines() if line.endswith(REFUSED)]


def without(script, number):
    """A script with a comment in place of a line, so that the other lines keep their numbers."""
    lines = script.split(b"\n")
    lines[number - 1] = b"# left out"
    return b"\n".join(lines)


def fault_of_refused(subject, ended):
    """What is wrong with a run that goes on behind a line that was refused, or None: all else is what the script prints without it."""
    refused = refused_lines(ended)
    if len(refused) != 1:
        return f"{len(refused)} lines refused for memory, where one allocation failed"
    left = b"".join(line for line in ended.printed.splitlines(keepends=True) if not line.endswith(REFUSED + b"\n"))
    expected = subject.run(0, without(subject.script, refused[0])).printed
    return None if left == expected else "a refused line has changed something"


def lines_without_memory(script, expected):
    """The numbers of the lines of a script whose steps take no memory."""
    answers = {int(words[0]): words[2:] for words in map(str.split, expected.splitlines())}
    return {number for number, line in enumerate(script.splitlines(), 1)
            if number in answers and takes_no_memory(line.split(), answers[number])}


def takes_no_memory(words, answer):
    """Whether a line of these words, which answers this, makes a step that takes no memory."""
    if words[0] in ("carry", "announce"):
        return bool(answer) and answer[0] in ANSWERS_OF_NONE[words[0]]
    if len(words) > 1 and words[1] == "tick":
        return bool(answer) and answer[0] in ANSWERS_OF_NONE["tick"]
    return len(words) > 1 and words[1] in TAKE_NONE


def tell_fault(subject, failing, fault):
    """Prints what is wrong with a run, if anything is: how many faults it has."""
    if fault:
        print(f"{subject.program} {subject.title}: allocation {failing}: {fault}")
    return 1 if fault else 0


def fault_at(subject, failing, count, ended):
    """What is wrong with how a run ended that has so many allocations where nothing fails, or None."""
    if is_wrongly_failed(ended, failing, count):
        return "not just this one failed"
    return subject.fault_of(ended, failing)


def told_of(ends):
    """How many runs ended in which way, in words."""
    return ", ".join(f"{word} {times}" for word, times in ends.items())


def sweep(subject):
    """How many runs there were with an allocation failing, by how they ended, and how many of them were faults."""
    undisturbed = subject.run(0)
    count = undisturbed.count
    if not subject.is_undisturbed(undisturbed) or undisturbed.has_failed:
        sys.exit(f"{subject.program} {subject.title}: with no failure the run is not the expected one")
    ends = collections.Counter()
    faults = 0
    for failing in range(1, count + 1):
        ended = subject.run(failing)
        fault = fault_at(subject, failing, count, ended)
        faults += tell_fault(subject, failing, fault)
        ends["fault" if fault else subject.kind_of(ended)] += 1
    if subject.run(count + 1) != undisturbed:
        faults += tell_fault(subject, count + 1, "there is none, and the run is another")
    told = told_of(ends) + subject.note()
    print(f"{subject.program} {subject.title}: {count} allocations: {told}; faults {faults}", flush=True)
    return ends, faults


def subjects_of(runner, program, names):
    """What a program is tried over: the examples of these names, or all that it is for."""
    if program == Playing.program:
        all_names = sorted(path.stem for path in EXAMPLES.glob("*.script"))
        return [Playing(runner, name) for name in names or all_names]
    return [Layered(runner, name, layer) for name in names or SCENARIOS for layer in LAYERS]


def build(program, folder):
    """Proves and builds a program in a folder: where it stands."""
    print(f"proving and building {program}", file=sys.stderr, flush=True)
    to = pathlib.Path(folder) / f"built-{program}"
    subprocess.run([BENCH / "build", to, program], check=True, stdin=subprocess.DEVNULL, stdout=subprocess.DEVNULL,
                   stderr=subprocess.DEVNULL)
    return to / "crates" / program / "out" / program


def asked_for():
    """What the words of the command line ask for."""
    parser = argparse.ArgumentParser(description="Lets each allocation of worked examples fail in turn.")
    parser.add_argument("--built", type=pathlib.Path, metavar="FOLDER", help="where the programs stand, in place of building them")
    parser.add_argument("--only", choices=[Playing.program, Layered.program], metavar="PROGRAM", help="the one that is tried")
    parser.add_argument("names", nargs="*", metavar="NAME", help="the examples that are played")
    return parser.parse_args()


def sweep_all(runner, programs, names):
    """Sweeps all, and prints a line a program: how many faults there were."""
    all_faults = 0
    for program in programs:
        subjects = subjects_of(runner, program, names)
        swept = [sweep(subject) for subject in subjects]
        ends = sum((ends for ends, _ in swept), collections.Counter())
        faults = sum(faults for _, faults in swept)
        told = told_of(ends)
        print(f"{program}: {len(subjects)} sweeps, {ends.total()} runs with an allocation failing: {told}; faults {faults}")
        all_faults += faults
    return all_faults


def main():
    asked = asked_for()
    unknown = [name for name in asked.names if not (EXAMPLES / f"{name}.script").exists()]
    if unknown:
        sys.exit(f"no examples: {' '.join(unknown)}")
    programs = [asked.only] if asked.only else [Playing.program, Layered.program]
    with tempfile.TemporaryDirectory() as folder:
        built = {program: asked.built.resolve() / program if asked.built else build(program, folder) for program in programs}
        faults = sweep_all(Runner(folder, built), programs, asked.names)
    print(f"{faults} faults")
    sys.exit(1 if faults else 0)


if __name__ == "__main__":
    main()
