#!/usr/bin/env python3
"""Measures large texts that ask little, and prints a table of `certify run`, `confirm` and MiniSat without preprocessing: large.py PROGRAM

Each text has a million commands. A cell has the least user and system seconds of three runs, and the peak memory. The programs run in turn.
MiniSat reads the texts without asks. Needs python3, GNU time and Debian's minisat.
"""
import math
import os
import random
import resource
import shutil
import subprocess
import sys
import tempfile

COUNT = 1_000_000


def line(*literals):
    return " ".join(map(str, literals)) + " 0\n"


def clauses(names):
    draw = random.Random(1)
    return "".join(line(*(draw.choice((v, -v)) for v in draw.sample(range(1, names + 1), 3))) for _ in range(COUNT))


TEXTS = {
    "implications from each name to the next, and the first as a unit": lambda: "".join(line(-i, i + 1) for i in range(1, COUNT)) + line(1),
    "random clauses of three literals over 500,000 names": lambda: clauses(500_000),
    "the same over 3,000 names": lambda: clauses(3_000),
    "units": lambda: "".join(line(i) for i in range(1, COUNT + 1)),
    "asks of one literal": lambda: "".join("a " + line(i % 2 + 1) for i in range(COUNT)),
}


def measured(command):
    """Returns the seconds of one run, and its peak memory in MiB."""
    before = resource.getrusage(resource.RUSAGE_CHILDREN)
    subprocess.run([shutil.which("time"), "-f", "%M", "-o", "memory", *command], stdout=subprocess.DEVNULL, stderr=subprocess.DEVNULL, check=False)
    after = resource.getrusage(resource.RUSAGE_CHILDREN)
    with open("memory", encoding="ascii") as file:
        peak = int(file.read().split()[-1]) / 1024
    return after.ru_utime + after.ru_stime - before.ru_utime - before.ru_stime, peak


def main():
    if len(sys.argv) != 2:
        sys.exit("usage: large.py PROGRAM")
    program = os.path.abspath(sys.argv[1])
    if not os.access(program, os.X_OK):
        sys.exit(f"{sys.argv[0]}: no program {program}; `rt run` in crates/certify_cli makes the proved one")
    with tempfile.TemporaryDirectory() as folder:
        os.chdir(folder)
        print("| Text | `run` | `confirm` | MiniSat | `run` / MiniSat |\n|---|---|---|---|---|")
        for name, make in TEXTS.items():
            text = make()
            commands = [[program, word, "in", "answers", "certificate"] for word in ("run", "confirm")]
            if "a" not in text:
                text = f"p cnf {COUNT} {COUNT}\n" + text
                commands.append(["minisat", "-no-pre", "in"])
            with open("in", "w", encoding="ascii") as file:
                file.write(text)
            least = [(math.inf, math.inf)] * len(commands)
            for _ in range(3):
                least = [min(old, measured(command)) for old, command in zip(least, commands)]
            cells = [f"{seconds:.2f} s, {peak:.0f} MiB" for seconds, peak in least]
            if len(commands) == 3:
                cells.append(f"{least[0][0] / least[2][0]:.2f}, memory {least[0][1] / least[2][1]:.2f}")
            print("| " + " | ".join([name, *cells, "-", "-"][:5]) + " |", flush=True)
        os.chdir("/")


if __name__ == "__main__":
    main()
