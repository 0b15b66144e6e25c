#!/usr/bin/env python3
"""Prints FED files with scripts as long as a script may be, as `hlaplay play - -` and `hlaplay check - -` read them, one behind the other,
with a line of a form feed between two: plays.py FIRST FEDERATES AMOUNT ROUNDS SEED.

Each round has a script of four federates in step, for AMOUNT * 8 of their rounds, and one in which the first of FEDERATES federates
updates 200 objects for the others, for AMOUNT of its rounds; both end earlier where they are as long as a script may be. Printed is one of
the two in each round, by turns: first that in step where FIRST is `step`, that of updates where it is `updates`. What is sent is by chance,
and the same for the same seed."""
import sys

from threads_script import numbers

FED = """(FED
 (Federation Workload)
 (FEDversion v1.3)
 (spaces)
 (objects
  (class ObjectRoot (attribute privilegeToDelete reliable timestamp)
   (class BaseEntity (attribute WorldLocation reliable timestamp) (attribute OrientationAngles reliable timestamp)
    (class PhysicalEntity (attribute DeadReckoningState reliable timestamp) (attribute AppearanceOfEntity reliable receive)))))
 (interactions
  (class InteractionRoot reliable timestamp
   (class WeaponFire reliable timestamp (parameter MunitionType)))))
"""
# A script may have 2^20 bytes, and a history 2^15 records.
MOST_BYTES, MOST_LINES = 1_030_000, 32_000
REGULATING = ["publishInteraction WeaponFire", "subscribeInteraction WeaponFire", "regulate 0 1", "tick"]
CONSTRAINED = ["constrain", "tick"]
PUBLISHING = ["publishObject PhysicalEntity WorldLocation DeadReckoningState", "regulate 0 1", "tick"]
SUBSCRIBING = ["subscribeObject PhysicalEntity WorldLocation DeadReckoningState", "constrain", "tick"]


class Script:
    """A script's text that grows."""

    def __init__(self, chosen):
        self.lines, self.size, self.counted, self.chosen = [], 0, 0, chosen

    def add(self, line, counts=1):
        self.lines.append(line)
        self.size += len(line) + 1
        self.counted += counts

    def is_full(self):
        """Whether it is as long as a script may be, but for one round."""
        return self.size >= MOST_BYTES or self.counted >= MOST_LINES

    def begin(self, federates, words_of):
        """The execution is created, federates join it, and each says so many things."""
        self.add("create")
        for federate in range(1, federates + 1):
            self.add(f"join Federate-{federate}", 0)
        for words_of_each in words_of:
            for federate in range(1, federates + 1):
                for words in words_of_each(federate):
                    self.add(f"Federate-{federate} {words}")

    def carry_from(self, federates, source, messages):
        for to in range(1, federates + 1):
            for _ in range(messages if to != source else 0):
                self.add(f"carry Federate-{source} Federate-{to}")

    def round_in_step(self, federates, time):
        """Each sends two interactions, all are carried, and all are granted the time."""
        for federate in range(1, federates + 1):
            for _ in range(2):
                self.add(f"Federate-{federate} send WeaponFire MunitionType={next(self.chosen)} @{time}")
            self.add(f"Federate-{federate} tar {time}")
            self.add(f"announce Federate-{federate}", 0)
            self.carry_from(federates, federate, 3)
        for federate in range(1, federates + 1):
            for _ in range((federates - 1) * 2 + 1):
                self.add(f"Federate-{federate} tick")

    def update(self, number, time):
        """Mostly two values of some digits, now and then one of many bytes."""
        place = next(self.chosen)
        words = 100 if next(self.chosen) % 64 == 0 else 2
        state = "".join(f"{next(self.chosen):010}" for _ in range(words))
        self.add(f"Federate-1 update {number} PhysicalEntity WorldLocation={place} DeadReckoningState={state} @{time}")

    def text(self):
        return "".join(f"{line}\n" for line in self.lines)


def in_step(federates, rounds, chosen):
    script = Script(chosen)
    script.begin(federates, [lambda _: REGULATING, lambda _: CONSTRAINED])
    for time in range(1, rounds + 1):
        if script.is_full():
            break
        script.round_in_step(federates, time)
    return script.text()


def by_updates(federates, objects, rounds, chosen):
    script = Script(chosen)
    script.begin(federates, [lambda federate: PUBLISHING if federate == 1 else SUBSCRIBING])
    for number in range(1, objects + 1):
        script.add(f"Federate-1 register PhysicalEntity Entity-of-the-first-federate-{number}")
    for time in range(1, rounds + 1):
        for number in range(1, objects + 1):
            if not script.is_full():
                script.update(number, time)
        script.carry_from(min(federates, 3), 1, 1)
        script.add(f"Federate-1 tar {time}")
        script.add("Federate-1 tick")
    return script.text()


def main():
    if len(sys.argv) != 6 or sys.argv[1] not in ("step", "updates") or not all(word.isdigit() for word in sys.argv[2:]):
        sys.exit(__doc__)
    federates, amount, rounds, seed = map(int, sys.argv[2:])
    for place in range(rounds):
        is_in_step = (place % 2 == 0) == (sys.argv[1] == "step")
        chosen = numbers(seed, place)
        script = in_step(4, amount * 8, chosen) if is_in_step else by_updates(federates, 200, amount, chosen)
        print(end="\f\n" if place > 0 else "")
        print(FED, "%%\n", script, sep="", end="")


if __name__ == "__main__":
    main()
