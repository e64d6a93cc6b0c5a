#!/usr/bin/env python3
"""Compares answers to random scripts with truth tables: scripts.py PROGRAM COUNT [SEED] [--plain]

The scripts have clauses and asks over up to 8 names. More than half of the asks have assumptions, none with --plain. PROGRAM (certify without
arguments) answers each. Prints how many asks were compared, or the first script with a wrong answer, with status 1.
"""
import itertools
import os
import random
import subprocess
import sys

plain = "--plain" in sys.argv
args = [a for a in sys.argv[1:] if a != "--plain"]
if len(args) < 2:
    sys.exit("usage: scripts.py PROGRAM COUNT [SEED] [--plain]")
program, count = args[0], int(args[1])
if not os.access(program, os.X_OK):
    sys.exit(f"{sys.argv[0]}: no program {program}; `rt run` in crates/certify_cli makes the proved one")
rng = random.Random(int(args[2]) if len(args) > 2 else 1)


def literals(names, most):
    return [rng.choice((-1, 1)) * rng.randint(1, names) for _ in range(rng.randint(0, most))]


def script():
    names, commands = rng.randint(1, 8), []
    for _ in range(rng.randint(1, 5)):
        for _ in range(rng.randint(0, 3 * names)):
            clause = literals(names, rng.choice((2, 3, 3, 3, 5)))
            if clause or rng.random() < 0.02:
                commands.append(("clause", clause))
        commands.append(("ask", [] if plain or rng.random() < 0.4 else literals(names, 4)))
    return commands


def text(commands):
    return "".join(("a " if kind == "ask" else "") + "".join(f"{l} " for l in ls) + "0\n" for kind, ls in commands)


def holds(clause, valuation):
    return any(valuation[abs(l)] == (l > 0) for l in clause)


def satisfiable(clauses, assumed, names):
    for bits in itertools.product((False, True), repeat=names):
        valuation = (False, *bits)
        if all(holds([l], valuation) for l in assumed) and all(holds(c, valuation) for c in clauses):
            return True
    return False


def wrong(commands, lines):
    clauses, used, at = [], 0, 0
    for kind, ls in commands:
        used = max([used] + [abs(l) for l in ls])
        if kind == "clause":
            clauses.append(ls)
            continue
        verdict, shown = lines[at], lines[at + 1].split()
        at += 2
        values = [int(w) for w in shown[1:-1]]
        if verdict == "s SATISFIABLE":
            valuation = [False] + [v > 0 for v in values]
            if shown[0] != "v" or [abs(v) for v in values] != list(range(1, used + 1)):
                return f"no model of {used} names: {lines[at - 1]}"
            if not all(holds([l], valuation) for l in ls) or not all(holds(c, valuation) for c in clauses):
                return f"no model: {lines[at - 1]}"
        elif verdict == "s UNSATISFIABLE":
            if shown[0] != "f" or not set(values) <= set(ls):
                return f"no core: {lines[at - 1]}"
            if satisfiable(clauses, values, used):
                return f"a core that can be satisfied: {lines[at - 1]}"
        else:
            return verdict
    return None if lines[at:] == ["c confirmed"] else f"behind the answers: {lines[at:]}"


asks = 0
for _ in range(count):
    commands = script()
    run = subprocess.run([program], input=text(commands).encode(), capture_output=True)
    lines = run.stdout.decode().splitlines()
    try:
        fault = wrong(commands, lines)
    except IndexError:
        fault = "too few lines"
    if run.returncode != 0:
        fault = f"status {run.returncode}: {run.stderr.decode()}"
    if fault:
        print(text(commands), run.stdout.decode(), fault, sep="\n")
        sys.exit(1)
    asks += sum(kind == "ask" for kind, _ in commands)
print(f"{count} scripts, {asks} asks: each answer is right")
