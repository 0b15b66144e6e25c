#!/usr/bin/env python3
"""Tells whether the prover refuses each wrong body of a crate, and by the contract of which function.

`rt ci` tries the edits of eight crates' must-fail/, which tell much. All the others stand in wrong-bodies/, many in a file, and this
program tries them and those. It applies a file, checks the crate once, and looks for an error in each function that the file changes. Of
several wrong bodies of one function the first is checked so, and each other one alone, as is one of a function that calls another
that the file changes. What turns a definition is refused by a theorem somewhere above it, so each of these is checked alone. It works
in the folder of the crate, over what earlier checks kept, and puts the sources back; edit nothing while it runs. One that the compiler
refuses counts as not refused.

    bench/wrong_bodies.py [--alone] [--apply] [--write] [CRATE..]

    --alone   one check for each wrong body
    --apply   no check: only whether each stands on a text that is there once
    --write   what came out goes to bench/wrong_bodies.txt, in place of what is there of these crates
"""
import argparse
import pathlib
import re
import signal
import subprocess
import sys

BENCH = pathlib.Path(__file__).resolve().parent
CRATES = BENCH.parent / "crates"
RECORD = BENCH / "wrong_bodies.txt"
FOLDERS = ("must-fail", "wrong-bodies")
FUNCTION = re.compile(r'^\s*(?:pub(?:\([a-z]+\))?\s+)?(?:const\s+)?(?:extern\s+"C"\s+)?fn\s+(\w+)')
BLOCK = re.compile(r"^(?:pub\s+)?(?:impl|trait)\b.*")
ERROR = re.compile(r"(?:note: )?(?:\./)?((?:src|specs)/\S+?):(\d+):\d+:")
# The compiler refuses what is no program: that says nothing of a contract.
NO_PROGRAM = "error["
# An answer to a goal of a function stands in a folder of the function's name.
ANSWER = re.compile(r"(?:\./)?proofs/\S+/(\w+)/\w+\.antt:\d+:\d+: error")


def wrong_bodies(edit):
    """The wrong bodies of an edit file: a name for each, and its (file, old, new) triples. A definition's edit is one, without a name. An old
    text goes on to the new one, and that to an empty line or the next text's head."""
    bodies, file, old, part = [("", [])], None, None, None
    for line in edit.read_text().splitlines():
        pairs = bodies[-1][1]
        if line.startswith("# "):
            bodies.append((line[2:], []))
        elif line.startswith("file: "):
            file = line[len("file: "):].strip()
        elif line.startswith("old: "):
            old, part = line[len("old: "):], "old"
        elif line.startswith("new:"):
            pairs.append((file, old, line[len("new:"):].removeprefix(" ")))
            part = "new"
        elif part == "old":
            old += "\n" + line
        elif line and part == "new":
            pairs[-1] = *pairs[-1][:2], pairs[-1][2] + "\n" + line
        if not line or line.startswith(("# ", "file: ")):
            part = None
    return [(name or edit.stem, pairs) for name, pairs in bodies if pairs]


def function_at(lines, number):
    """The function in which a line stands, or before which it stands as an attribute, with the head of the block around it."""
    while lines[number].lstrip().startswith("#[") and number + 1 < len(lines):
        number += 1
    name, inside = None, False
    for line in reversed(lines[:number + 1]):
        found = FUNCTION.match(line)
        if found and name is None:
            name, inside = found[1], line[0].isspace()
            if not inside:
                return "", name
        elif name and inside and BLOCK.match(line):
            return line, name
    return "", name


def edited(folder, bodies):
    """The files that these wrong bodies change, before and after, and the functions that each changes."""
    before, after, changed = {}, {}, {}
    for name, pairs in bodies:
        for file, old, new in pairs:
            if file not in before:
                before[file] = after[file] = (folder / file).read_text()
            if after[file].count(old) != 1:
                sys.exit(f"{folder.name}: {name}: the text stands {after[file].count(old)} times in {file}: {old}")
            at = after[file].count("\n", 0, after[file].index(old))
            changed.setdefault(name, set()).add((file, *function_at(after[file].split("\n"), at)))
            after[file] = after[file].replace(old, new)
    return before, after, changed


def refused(folder, bodies):
    """Checks the crate with these wrong bodies: which functions the prover refuses, which each body changes, and whether any was refused."""
    before, after, changed = edited(folder, bodies)
    try:
        for file, text in after.items():
            (folder / file).write_text(text)
        ran = subprocess.run(["rt", "check", "--jobs", "1"], cwd=folder, stdin=subprocess.DEVNULL, stdout=subprocess.PIPE,
                             stderr=subprocess.STDOUT, text=True)
    finally:
        for file, text in before.items():
            (folder / file).write_text(text)
    found, answers = {}, {}
    for line in ran.stdout.splitlines():
        at, answer = ERROR.match(line), ANSWER.match(line)
        if at and at[1] in after:
            found.setdefault((at[1], *function_at(after[at[1]].split("\n"), int(at[2]) - 1)), line)
        elif answer:
            answers.setdefault(answer[1], line)
    for functions in changed.values():
        found |= {it: answers[it[2]] for it in functions if it not in found and it[2] in answers}
    return found, changed, ran.returncode == 1


def tried(folder, edit, alone):
    """Gives, for each wrong body of an edit file, its name, whether it is refused, and where."""
    bodies = wrong_bodies(edit)
    single, together, taken = [], [], set()
    for it in bodies:
        changes = edited(folder, [it])[2][it[0]]
        is_single = alone or any("specs/" in file for file, _, _ in it[1]) or changes & taken
        (single if is_single else together).append(it)
        taken |= changes
    groups = [[it] for it in single] + [together] * bool(together)
    for some in groups:
        found, changed, any_refused = refused(folder, some)
        for it in some:
            by = [at for at in sorted(changed[it[0]], key=str) if at in found]
            is_program = not (by and NO_PROGRAM in found[by[0]])
            is_refused = is_program and (bool(by) or len(some) == 1 and any_refused)
            if is_program and not is_refused and len(some) > 1:
                # (a function is not checked where one that it calls is refused)
                groups.append([it])
                continue
            print(f"{folder.name}: {it[0]}: {'refused' if is_refused else 'NOT REFUSED'}: {found[by[0]][:120] if by else 'elsewhere'}", flush=True)
            yield it[0], is_refused, f"in {by[0][0]}, {by[0][2] or 'an item'}" if by else "elsewhere"


def edits_of(name):
    """The edit files of a crate."""
    return [edit for part in FOLDERS for edit in sorted((CRATES / name / part).glob("*.edit"))]


def write(name, results):
    """Puts what came out into the record, in place of what it has of the crate."""
    lines = RECORD.read_text().splitlines() if RECORD.exists() else []
    others = {}
    for line in lines:
        others.setdefault(line.split(":", 1)[0], []).append(line)
    commit = subprocess.run(["git", "rev-parse", "--short", "HEAD"], cwd=BENCH, capture_output=True, text=True).stdout.strip()
    missing = sum(not is_refused for _, is_refused, _ in results)
    others[name] = [f"{name}: {len(results)} wrong bodies tried at {commit}, {missing} not refused"]
    others[name] += [f"{name}: {title}: {'refused ' + where if is_refused else 'NOT REFUSED'}" for title, is_refused, where in results]
    RECORD.write_text("".join(line + "\n" for crate in sorted(others) for line in others[crate]))


def main():
    words = argparse.ArgumentParser(description=__doc__, formatter_class=argparse.RawDescriptionHelpFormatter)
    words.add_argument("--alone", action="store_true", help="one check for each wrong body")
    words.add_argument("--apply", action="store_true", help="only whether each can be applied")
    words.add_argument("--write", action="store_true", help="write what came out into bench/wrong_bodies.txt")
    words.add_argument("crates", nargs="*")
    given = words.parse_args()
    # (stopped, it puts the sources back)
    signal.signal(signal.SIGTERM, lambda *_: sys.exit(1))
    names = given.crates or sorted({it.parent.name for part in FOLDERS for it in CRATES.glob(f"*/{part}")})
    missing = count = 0
    for name in names:
        if given.apply:
            count += len([edited(CRATES / name, [it]) for edit in edits_of(name) for it in wrong_bodies(edit)])
            continue
        results = [it for edit in edits_of(name) for it in tried(CRATES / name, edit, given.alone)]
        missing += sum(not is_refused for _, is_refused, _ in results)
        count += len(results)
        if given.write:
            write(name, results)
    print(f"{count} wrong bodies, {missing} not refused" if not given.apply else f"{count} wrong bodies can be applied")
    return 1 if missing else 0


if __name__ == "__main__":
    sys.exit(main())
