#!/usr/bin/env python3
"""Prints a FED file and a script in lock-step for a thread each, as `hlaplay run - -` reads them: threads_script.py FEDERATES ROUNDS SEED.

All federates regulate with lookahead 1 and are constrained. Each registers an object when it is ready to receive, and begins when it has
discovered those of all others. In each round it sends one interaction with the time of the round, asks for that time, and ticks until it
has been given those of all others, and the grant. What is sent is by chance, and the same for the same seed."""
import sys

FED = """(FED
 (Federation Threads)
 (FEDversion v1.3)
 (spaces)
 (objects (class ReadinessSign (attribute Ready reliable receive)))
 (interactions (class InteractionRoot reliable timestamp (class WeaponFire reliable timestamp (parameter MunitionType)))))
"""
BEGIN = ["publishInteraction WeaponFire", "subscribeInteraction WeaponFire", "regulate 0 1", "tick", "constrain", "tick",
         "publishObject ReadinessSign Ready", "subscribeObject ReadinessSign Ready", "register ReadinessSign"]


def numbers(seed, place):
    """Numbers below 2^31 without order: a linear congruential generator modulo 2^64, behind its first four."""
    state = seed << 32 | place
    for made in range(sys.maxsize):
        state = (state * 6364136223846793005 + 1442695040888963407) % 2**64
        if made >= 4:
            yield state >> 33


def lines(federates, rounds, seed):
    """The lines of the script."""
    chosen = numbers(seed, federates)
    yield "create"
    for federate in range(1, federates + 1):
        yield f"join Federate-{federate}"
    for federate in range(1, federates + 1):
        for words in BEGIN + ["tick"] * (federates - 1):
            yield f"Federate-{federate} {words}"
        for time in range(1, rounds + 1):
            yield f"Federate-{federate} send WeaponFire MunitionType={next(chosen)} @{time}"
            yield f"Federate-{federate} tar {time}"
            yield from [f"Federate-{federate} tick"] * federates


def main():
    if len(sys.argv) != 4 or not all(word.isdigit() for word in sys.argv[1:]):
        sys.exit(__doc__)
    print(FED, end="%%\n")
    print("\n".join(lines(*map(int, sys.argv[1:]))))


if __name__ == "__main__":
    main()
