#!/usr/bin/env python3
"""Prints a script that hides COUNT names, one after another, each used in three clauses before: hidden.py COUNT [EVERY] [--kept]

After every EVERY of them (1,000 by default) come an ask, a unit that satisfies their clauses, so that the hidden variables are deleted, and
another ask. With --kept there is no unit, and all clauses remain. The time of `certify run` should grow as COUNT does.
"""
import sys

kept = "--kept" in sys.argv
numbers = [int(a) for a in sys.argv[1:] if a != "--kept"]
if not numbers:
    sys.exit("usage: hidden.py COUNT [EVERY] [--kept]")
count, every = numbers[0], numbers[1] if len(numbers) > 1 else 1000
for k in range(count):
    print("1 3 0\n1 -3 2 0\n3 2 1 0\nh 3 0")
    if k % every == every - 1:
        print("a 0" if kept else "a 0\n1 0\na 0\nh 1 0")
