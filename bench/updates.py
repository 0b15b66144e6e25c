#!/usr/bin/env python3
"""Prints a FED file and a script in which sixteen federates share objects: updates.py OBJECTS RECEIVERS STEPS.

The first federate registers the objects and updates two attributes of them in turn, each update for the other federates that
subscribe their class, until there are so many steps."""
import sys

objects, receivers, steps = (int(word) for word in sys.argv[1:4])
names = [chr(ord("A") + k) for k in range(16)]
lines = ["create"] + [f"join {name}" for name in names]
lines.append("A publishObject Body P V")
lines += [f"{name} subscribeObject Body P V" for name in names[1:receivers + 1]]
lines += ["A register Body"] * objects
number = 0
while len(lines) < steps:
    lines.append(f"A update {number % objects + 1} Body P={number} V=1")
    number += 1
print("(FED (objects (class Body (attribute P reliable receive) (attribute V reliable receive))))")
print("%%")
print("\n".join(lines))
