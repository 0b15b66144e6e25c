#!/usr/bin/env python3
"""Tells which functions of a crate are dear to prove, by the size of what its last check kept of each: bench/proof_sizes.py [CRATE..].

`rt check`, `rt lib` and `rt test` keep what they proved under the crate's out/incremental. A check takes about as long as what it
writes is large, whatever else the machine does meanwhile, so sizes tell more than the clock. It prints for each crate how many
megabytes its last check kept and how many of them are of how lifetimes run, and then of its functions the same, the largest first. A
crate that was not checked here is left out.

    --least MB    the least that is listed, 3 where it is left out
"""
import argparse
import collections
import os
import pathlib
import re

CRATES = pathlib.Path(__file__).resolve().parent.parent / "crates"
# A module of the proof: what it is of, and what it says of that, as `closing.settle` and `Lts`.
NAME = re.compile(r"^Rattle-\w+-proofs\.(.+?)((?:\.[A-Z][\w-]*)+)?(?:\.decls)?\.oantt$")


def kept_by_function(kept):
    """The bytes that a check kept of each function, and those of them that are of lifetimes."""
    sizes, lifetimes = collections.Counter(), collections.Counter()
    for folder, _, names in os.walk(kept):
        for name in names:
            found = NAME.match(name)
            if found:
                size = os.stat(f"{folder}/{name}").st_size
                sizes[found[1]] += size
                if ".Lts" in (found[2] or ""):
                    lifetimes[found[1]] += size
    return sizes, lifetimes


def main():
    parser = argparse.ArgumentParser(description=__doc__, formatter_class=argparse.RawDescriptionHelpFormatter)
    parser.add_argument("--least", type=float, default=3, metavar="MB")
    parser.add_argument("crates", nargs="*", metavar="CRATE")
    asked = parser.parse_args()
    for crate in asked.crates or sorted(it.name for it in CRATES.iterdir()):
        sizes, lifetimes = kept_by_function(CRATES / crate / "out" / "incremental")
        if not sizes:
            continue
        print(f"{crate}: {sum(sizes.values()) / 1e6:.0f} MB, {sum(lifetimes.values()) / 1e6:.0f} of lifetimes")
        for function, size in sizes.most_common():
            if size < asked.least * 1e6:
                break
            print(f"  {size / 1e6:5.1f} {lifetimes[function] / 1e6:5.1f} {function}")


if __name__ == "__main__":
    main()
