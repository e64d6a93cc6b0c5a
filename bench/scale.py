#!/usr/bin/env python3
"""Measures how the time of small, demanding texts grows with their size: scale.py [-i] PROGRAM [NAME..]

It measures PROGRAM (certify) on each text below, or on those that are named, at three sizes. A line has the bytes read of the largest size,
the processor seconds at each size (the least of five runs), and the exponent by which the time grows with the bytes read. Exponents above
1.15 are marked. If the exponent matters, the sizes are chosen so that the largest time is some tenths of a second. Times below a hundredth of
a second get no exponent.

With -i it counts millions of instructions, once each, instead of seconds. Other processes do not change these counts, but they ignore
caches. They need valgrind and fifty times as long.
"""
import math
import os
import re
import resource
import subprocess
import sys
import tempfile


def number(n):
    """Returns a number of a certificate: seven bits a byte, the lowest first."""
    out = bytearray()
    while n > 127:
        out.append(n & 127 | 128)
        n >>= 7
    out.append(n)
    return bytes(out)


def literals(clause):
    codes = [(abs(l) - 1) * 2 + (l < 0) for l in clause]
    return number(len(codes)) + b"".join(map(number, codes))


def add(clause):
    return b"\x05" + literals(clause)


def derive(clause, hashes):
    return b"\x06\x01" + literals(clause) + number(len(hashes)) + b"".join(map(number, hashes))


def solver_name(var, name):
    return b"\x01" + number(var) + number(name + 1)


def user_name(var):
    """Returns a step that gives the variable its own number as the user's name."""
    return b"\x02" + number(var) + number(var + 1)


def delete_var(var):
    return b"\x03" + number(var)


def width(bits):
    return b"\x09" + bytes([bits])


END = b"\x0d"


def join(pieces):
    return b"".join(pieces)


def line(*literals):
    return b"%s 0\n" % b" ".join(b"%d" % l for l in literals)


# Scripts.

def chain(n):
    """Implications from one name to the next, and the first as a unit."""
    return join(line(-(i + 1), i + 2) for i in range(n)) + line(1) + b"a 0\n"


def pairs(n):
    """Clauses of two neighbouring names each."""
    return join(line(2 * i + 1, 2 * i + 2) for i in range(n)) + b"a 0\n"


def hides(n):
    """One name is repeatedly made true and hidden."""
    return b"1 0\nh 1 0\n" * n + b"a 0\n"


def falling(n):
    """One clause, and an ask that makes its names false in order."""
    return line(*range(1, n + 1)) + b"a " + line(*range(-1, -n, -1))


def listed(n):
    """One answer that lists many names."""
    return line(n) + b"a 0\n"


def open_hides(n):
    """Repeated groups of a clause, an `h` command and an ask: each ask has one more hidden variable to assign."""
    return b"1 2 0\nh 1 0\na 0\n" * n


def units_asked(n):
    """Clauses of two literals, then as many units of new names, each contradicted by the next ask."""
    clauses = join(line(2 * i + 1, 2 * i + 2) for i in range(n))
    return clauses + join(line(2 * n + i) + b"a " + line(-2 * n - i) for i in range(1, n + 1))


# Certificates.

def widths(n):
    """The width changes once for each clause."""
    return join(add([2 * i + 1, 2 * i + 2]) for i in range(n)) + join(width(64 if i % 2 else 32) for i in range(n)) + END


def renames(n):
    """One variable, which is in every clause, repeatedly gets another solver name."""
    return join(add([1, i + 2]) for i in range(n)) + join(solver_name(0, i % 2 * 5) for i in range(n)) + END


def renames_all(n):
    """Each variable in turn gets another solver name."""
    return join(add([i + 1, i + 2]) for i in range(n)) + join(solver_name(i, n + i + 1) for i in range(n)) + END


def deletions(n):
    """Units, and then the deletion of their variables in order."""
    return join(add([i + 1]) for i in range(n)) + join(delete_var(i) for i in range(n)) + END


def added_and_deleted(n):
    """One variable repeatedly gets a unit and is deleted."""
    return (add([1]) + delete_var(0)) * n + END


def widths_used(n):
    """The width changes repeatedly, and a hash is named after each change."""
    clauses = join(add([2 * i + 1, 2 * i + 2]) for i in range(n))
    return clauses + (width(32) + derive([1, -1, 2], [0]) + width(64) + derive([1, -1, 2], [0])) * (n // 4) + END


def narrow(n):
    """Clauses added at width 0, where all have the same hash."""
    return width(0) + join(add([2 * i + 1, 2 * i + 2]) for i in range(n)) + END


# Scripts with the answers and the certificate of their own.

def narrow_confirmed(n):
    """Clauses without any ask, and a certificate of width 0."""
    steps = join(user_name(2 * i) + user_name(2 * i + 1) + add([2 * i + 1, 2 * i + 2]) for i in range(n))
    return join(line(2 * i + 1, 2 * i + 2) for i in range(n)), b"", width(0) + steps + END


TEXTS = [
    # text, commands, sizes
    (chain, ["run", "confirm"], [32768, 131072, 262144]),
    (pairs, ["run", "confirm"], [32768, 131072, 262144]),
    (hides, ["run", "confirm"], [65536, 131072, 262144]),
    (falling, ["run"], [8192, 16384, 32768]),
    (falling, ["confirm"], [32768, 65536, 131072]),
    (listed, ["confirm"], [65536, 131072, 262144]),
    (open_hides, ["run"], [1024, 2048, 4096]),
    (units_asked, ["run"], [2048, 4096, 8192]),
    (narrow, ["hints"], [4096, 8192, 16384]),
    (narrow_confirmed, ["confirm"], [4096, 8192, 16384]),
    (widths, ["hints"], [65536, 131072, 262144]),
    (widths_used, ["hints"], [1024, 2048, 4096]),
    (renames, ["hints"], [65536, 131072, 262144]),
    (renames_all, ["hints"], [65536, 131072, 262144]),
    (deletions, ["hints"], [65536, 131072, 262144]),
    (added_and_deleted, ["hints"], [65536, 131072, 262144]),
]


def called(command):
    """Returns what a call writes to standard error."""
    answer = subprocess.run(command, stdout=subprocess.DEVNULL, stderr=subprocess.PIPE, check=False)
    shown = answer.stderr.decode(errors="replace")
    if answer.returncode != 0:
        sys.exit(f"{' '.join(command)}: status {answer.returncode}, {shown}")
    return shown


def seconds(command):
    """Returns the least processor time of five runs."""
    least = math.inf
    for _ in range(5):
        before = resource.getrusage(resource.RUSAGE_CHILDREN)
        called(command)
        after = resource.getrusage(resource.RUSAGE_CHILDREN)
        least = min(least, after.ru_utime + after.ru_stime - before.ru_utime - before.ru_stime)
    return least


def instructions(command):
    """Returns the millions of instructions of one run."""
    shown = called(["valgrind", "--tool=callgrind", "--callgrind-out-file=/dev/null", *command])
    return int(re.search(r"Collected : (\d+)", shown)[1]) / 1e6


def measured(program, make, command, size, cost):
    """Returns the number of bytes read, and what reading them costs."""
    text = make(size)
    files = ["in", "answers", "certificate"]
    for name, content in zip(files, text if isinstance(text, tuple) else [text]):
        with open(name, "wb") as file:
            file.write(content)
    if command == "hints":
        return os.path.getsize("in"), cost([program, "hints", "in", "hints"])
    run = [program, "run", *files]
    if command == "run":
        return os.path.getsize("in"), cost(run)
    if not isinstance(text, tuple):
        called(run)
    return sum(map(os.path.getsize, files)), cost([program, "confirm", *files])


def exponent(rows):
    """Returns the slope of the line through the logarithms, by least squares."""
    if rows[0][1] < 0.01:
        return None
    xs, ys = [math.log(b) for b, _ in rows], [math.log(t) for _, t in rows]
    x, y = sum(xs) / len(xs), sum(ys) / len(ys)
    return sum((a - x) * (b - y) for a, b in zip(xs, ys)) / sum((a - x) ** 2 for a in xs)


def main():
    words = sys.argv[1:]
    if not words or words == ["-i"]:
        sys.exit("usage: scale.py [-i] PROGRAM [NAME..]")
    cost, unit = (instructions, "M") if words[0] == "-i" else (seconds, "s")
    program, names = os.path.abspath(words[words[0] == "-i"]), words[1 + (words[0] == "-i") :]
    if not os.access(program, os.X_OK):
        sys.exit(f"{sys.argv[0]}: no program {program}; `rt run` in crates/certify_cli makes the proved one")
    with tempfile.TemporaryDirectory() as folder:
        os.chdir(folder)
        for make, commands, sizes in TEXTS:
            if names and make.__name__ not in names:
                continue
            for command in commands:
                rows = [measured(program, make, command, size, cost) for size in sizes]
                grows = exponent(rows)
                shown = "    -" if grows is None else f"{grows:5.2f}{' above' if grows > 1.15 else ''}"
                costs = " ".join(f"{c:7.3f}" for _, c in rows)
                print(f"{make.__name__:18} {command:8} {rows[-1][0]:10} bytes {costs} {unit}  exponent {shown}", flush=True)
        os.chdir("/")


if __name__ == "__main__":
    main()
