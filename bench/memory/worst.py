#!/usr/bin/env python3
"""Writes the inputs that need the most memory for each byte: worst.py OUT

These are OUT/*.certificate for `hints`, OUT/*.hints for `check`, and folders with script, answers and certificate for `confirm`. They have
the largest names; many names far from each other; many names just close enough that a list which grows with the text holds them all, in order
and shuffled; or long lists of one short literal or hash.
"""
import os
import random
import sys

LARGEST = 1 << 28


def number(n):
    """Returns a number as groups of seven bits, the lowest first."""
    text = bytearray()
    while n >= 128:
        text.append(n & 127 | 128)
        n >>= 7
    text.append(n)
    return bytes(text)


def literals(names):
    return number(len(names)) + b"".join(number(2 * (abs(n) - 1) + (n < 0)) for n in names)


def clause(names):
    return b"\x05" + literals(names)


def solver_name(name):
    return b"\x01" + number(name - 1) + number(name)


def user_name(name):
    return b"\x02" + number(name - 1) + number(name)


END = b"\x0d"


def parts(names, n):
    """Returns the names in groups of n, without the rest."""
    return [names[i : i + n] for i in range(0, len(names) - n + 1, n)]


def of(kind, names):
    """Yields names of files, and their bytes."""
    yield f"units-{kind}", b"".join(clause([n]) for n in names)
    yield f"pairs-{kind}", b"".join(clause(p) for p in parts(names, 2))
    yield f"sixes-{kind}", b"".join(clause(p) for p in parts(names, 6))
    yield f"clause-{kind}", clause(names)
    yield f"solver-names-{kind}", b"".join(map(solver_name, names))
    yield f"user-names-{kind}", b"".join(map(user_name, names))
    yield f"model-{kind}", b"\x0a" + literals(names)
    yield f"assumptions-{kind}", b"\x0b" + literals(names)


def hints_of(kind, names):
    yield f"fresh-{kind}", "".join(f"e {n} 0\n" for n in names)
    yield f"counted-{kind}", "e 1 0\n" + "".join(f"i {i + 1} {p[0]} {p[1]} 0\n" for i, p in enumerate(parts(names, 2)))
    yield f"derived-{kind}", "".join(f"i {2 * i + 1} {n} 0\nd {2 * i + 2} {n} 0 {2 * i + 1} 0\n" for i, n in enumerate(names))


def repeats(n):
    """Yields lists of one literal or one hash, of a byte each."""
    yield "clause-same", b"\x05" + number(n) + b"\x00" * n
    yield "assumptions-same", b"\x0b" + number(n) + b"\x00" * n
    yield "hashes-same", clause([1]) + b"\x06\x01\x01\x02" + number(n) + b"\x00" * n
    yield "units-same", clause([1]) + b"\x07" + number(n) + b"\x00\x00" * n


def repeats_in_lines(n):
    yield "clause-same", "i 1 " + "1 " * n + "0\n"
    yield "ids-same", "i 1 1 0\nd 2 1 0 " + "1 " * n + "0\n"
    yield "core-same", "i 1 1 0\nf " + "-1 " * n + "0 1 0\n"


def line(*names):
    return " ".join(map(str, names)) + " 0\n"


def named(variable, name):
    return b"\x02" + number(variable - 1) + number(name)


def all_named(variables):
    """Returns steps that give these variables the names from 1 on."""
    return b"".join(named(v, i + 1) for i, v in enumerate(variables))


def confirmed(kind, variables):
    """Yields names of folders, with script, answers and certificate, over these variables."""
    n = len(variables)
    names = range(1, n + 1)
    put_on = all_named(variables)
    last = put_on + clause([variables[-1]])
    model = b"\x0b\x00\x0a" + literals(variables) + b"\x0b\x00"
    units = b"".join(named(v, i + 1) + clause([v]) for i, v in enumerate(variables))
    yield f"names-{kind}", line(n), "", last + END
    yield f"line-{kind}", line(*names), "", put_on + clause(variables) + END
    yield f"lines-{kind}", "".join(map(line, names)), "", units + END
    yield f"answer-{kind}", line(n) + "a 0\n", f"s SATISFIABLE\nv {line(*names)}", last + model + END


def more_confirmed(n, far):
    same = "1 " * n + "0\n"
    yield "line-same", same, "", named(1, 1) + b"\x05" + number(n) + b"\x00" * n + END
    yield "ask-same", "a " + same, "s SATISFIABLE\nv 1 0\n", named(1, 1) + b"\x0b" + number(n) + b"\x00" * n
    yield "line-alone", same, "", END
    yield "answer-alone", "a 0\n", "s SATISFIABLE\nv " + line(*range(1, n + 1)), b"\x0b\x00"
    yield "solver-names-far", "a 0\n", "", b"".join(map(solver_name, far)) + END


def put(path, text):
    with open(path, "wb") as file:
        file.write(text if isinstance(text, bytes) else text.encode())


def main():
    out = sys.argv[1]
    os.makedirs(out, exist_ok=True)
    draw = random.Random(1)
    far = draw.sample(range(LARGEST // 2, LARGEST), 300_000)
    # A table's list may have 2^18 places, and eight more for each place that was reserved.
    near = [8 * i + 1 for i in range(1_000_000)]
    shuffled = draw.sample([9 * i + 1 for i in range(1_000_000)], 1_000_000)
    for kind, names in [("one", [LARGEST]), ("two", [LARGEST - 1, LARGEST]), ("far", far), ("near", near), ("shuffled", shuffled)]:
        for name, text in of(kind, names):
            put(f"{out}/{name}.certificate", text + END)
        for name, text in hints_of(kind, names):
            put(f"{out}/{name}.hints", text)
    for name, text in repeats(5_000_000):
        put(f"{out}/{name}.certificate", text + END)
    for name, text in repeats_in_lines(5_000_000):
        put(f"{out}/{name}.hints", text)
    texts = [*confirmed("one", [LARGEST]), *confirmed("far", far), *confirmed("shuffled", shuffled), *more_confirmed(1_000_000, far)]
    for name, script, answers, certificate in texts:
        os.makedirs(f"{out}/{name}")
        for part, text in (("script", script), ("answers", answers), ("certificate", certificate)):
            put(f"{out}/{name}/{part}", text)


if __name__ == "__main__":
    main()
