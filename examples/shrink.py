#!/usr/bin/env python3
"""Shrinks a core until each of its literals is needed: shrink.py CLAUSES 'LITERALS' [PROGRAM]"""
import os
import shutil
import subprocess
import sys

PROVED = os.path.join(os.path.dirname(os.path.abspath(__file__)), "../crates/certify_cli/out/certify_cli")


def main(clauses, literals, program=PROVED):
    if not shutil.which(program):
        sys.exit(f"no program {program}; `rt run` in crates/certify_cli makes the proved one")
    call = [program, "run", "/dev/stdin", "/dev/stdout", "/dev/null"]
    solver = subprocess.Popen(call, stdin=subprocess.PIPE, stdout=subprocess.PIPE, stderr=subprocess.DEVNULL, text=True)

    def core_of(asked):
        """Returns a core of the ask for these literals, or `None` if it has a model."""
        print("a", *asked, 0, file=solver.stdin, flush=True)
        kind, line = solver.stdout.readline(), solver.stdout.readline()
        if kind not in ("s SATISFIABLE\n", "s UNSATISFIABLE\n"):
            sys.exit(f"no answer: {kind}{line}")
        return line.split()[1:-1] if kind == "s UNSATISFIABLE\n" else None

    with open(clauses, encoding="ascii") as file:
        solver.stdin.write(file.read())
    core = core_of(literals.split())
    if core is None:
        sys.exit("satisfiable")
    for literal in list(core):
        smaller = core_of([other for other in core if other != literal]) if literal in core else None
        core = core if smaller is None else smaller
    print(*core)


if len(sys.argv) not in (3, 4):
    sys.exit(__doc__)
main(*sys.argv[1:])
