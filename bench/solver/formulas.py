#!/usr/bin/env python3
"""Writes the formulas that solvers are compared on, the same bytes each time: formulas.py OUT

OUT/*.cnf are random formulas at the threshold, pigeon holes, parities, multipliers, colourings, unrolled counters, schedules, and large
formulas that are easy.
"""
import os
import random
import sys


def random3(n, ratio, seed):
    r = random.Random(seed)
    return n, [[v if r.random() < 0.5 else -v for v in r.sample(range(1, n + 1), 3)] for _ in range(round(n * ratio))]


def planted(n, ratio, seed):
    """Random clauses of three literals that one chosen valuation satisfies."""
    r = random.Random(seed)
    hidden = [r.random() < 0.5 for _ in range(n + 1)]
    clauses = []
    while len(clauses) < round(n * ratio):
        clause = [v if r.random() < 0.5 else -v for v in r.sample(range(1, n + 1), 3)]
        if any(hidden[abs(l)] == (l > 0) for l in clause):
            clauses.append(clause)
    return n, clauses


def pigeons(holes):
    """One more pigeon than holes."""
    x = lambda p, h: p * holes + h + 1
    clauses = [[x(p, h) for h in range(holes)] for p in range(holes + 1)]
    for h in range(holes):
        clauses += [[-x(p, h), -x(q, h)] for p in range(holes + 1) for q in range(p)]
    return (holes + 1) * holes, clauses


class Circuit:
    def __init__(self):
        self.top, self.clauses = 0, []

    def new(self):
        self.top += 1
        return self.top

    def both(self, a, b):
        c = self.new()
        self.clauses += [[-c, a], [-c, b], [c, -a, -b]]
        return c

    def either(self, a, b):
        return -self.both(-a, -b)

    def odd(self, a, b):
        c = self.new()
        self.clauses += [[-c, a, b], [-c, -a, -b], [c, -a, b], [c, a, -b]]
        return c

    def sum(self, a, b, c):
        """Returns the sum of three bits, and its carry."""
        x = self.odd(a, b)
        return self.odd(x, c), self.either(self.both(a, b), self.both(x, c))


def parity(n, seed):
    """The parity of n variables, chained in two orders, with different results."""
    r = random.Random(seed)
    c = Circuit()
    vs = [c.new() for _ in range(n)]
    ends = []
    for _ in range(2):
        order = r.sample(vs, n)
        last = order[0]
        for v in order[1:]:
            last = c.odd(last, v)
        ends.append(last)
    c.clauses += [[ends[0], ends[1]], [-ends[0], -ends[1]]]
    return c.top, c.clauses


def product(number, bits):
    """Two factors of this many bits, both above 1, whose product is the number."""
    c = Circuit()
    a, b = [c.new() for _ in range(bits)], [c.new() for _ in range(bits)]
    none = c.new()
    c.clauses.append([-none])
    row = [none] * (2 * bits)
    for i in range(bits):
        carry = none
        for j in range(bits):
            row[i + j], carry = c.sum(row[i + j], c.both(a[j], b[i]), carry)
        row[i + bits] = carry
    for k, bit in enumerate(row):
        c.clauses.append([bit if number >> k & 1 else -bit])
    c.clauses += [a[1:], b[1:]]
    return c.top, c.clauses


def colouring(n, edges, colours, seed):
    r = random.Random(seed)
    x = lambda v, k: v * colours + k + 1
    clauses = [[x(v, k) for k in range(colours)] for v in range(n)]
    for _ in range(edges):
        v, w = r.sample(range(n), 2)
        clauses += [[-x(v, k), -x(w, k)] for k in range(colours)]
    return n * colours, clauses


def counter(bits, steps, goal):
    """An unrolled counter that may pause or count by one or by three at each step: can it reach the goal?"""
    c = Circuit()
    none = c.new()
    c.clauses.append([-none])
    now = [none] * bits
    for _ in range(steps):
        one, three = c.new(), c.new()
        c.clauses.append([-one, -three])
        carry, after = none, []
        for k, bit in enumerate(now):
            more = c.either(one, three) if k == 0 else three if k == 1 else none
            total, carry = c.sum(bit, more, carry)
            after.append(total)
        now = after
    for k, bit in enumerate(now):
        c.clauses.append([bit if goal >> k & 1 else -bit])
    return c.top, c.clauses


def schedule(jobs, slots, machines, conflicts, seed):
    """Jobs in slots, at most a given number at a time, some pairs never at once."""
    r = random.Random(seed)
    c = Circuit()
    x = [[c.new() for _ in range(slots)] for _ in range(jobs)]
    for j in range(jobs):
        c.clauses.append(x[j][:])
        c.clauses += [[-x[j][s], -x[j][t]] for s in range(slots) for t in range(s)]
    for _ in range(conflicts):
        i, j = r.sample(range(jobs), 2)
        c.clauses += [[-x[i][s], -x[j][s]] for s in range(slots)]
    for s in range(slots):
        counts = [[c.new() for _ in range(machines)] for _ in range(jobs)]
        for j in range(jobs):
            c.clauses.append([-x[j][s], counts[j][0]])
            if j == 0:
                continue
            for m in range(machines):
                c.clauses.append([-counts[j - 1][m], counts[j][m]])
                if m:
                    c.clauses.append([-x[j][s], -counts[j - 1][m - 1], counts[j][m]])
            c.clauses.append([-x[j][s], -counts[j - 1][machines - 1]])
    return c.top, c.clauses


def chain(n):
    """Each variable implies the next, and the first is true."""
    return n, [[-i, i + 1] for i in range(1, n)] + [[1]]


FORMULAS = {
    "random-180-sat": lambda: random3(180, 4.1, 21),
    "random-200-sat": lambda: random3(200, 4.2, 11),
    "random-220": lambda: random3(220, 4.3, 12),
    "random-230-sat": lambda: random3(230, 4.15, 22),
    "random-240": lambda: random3(240, 4.26, 23),
    "random-250-unsat": lambda: random3(250, 4.6, 13),
    "random-260-unsat": lambda: random3(260, 4.7, 24),
    "random-300-unsat": lambda: random3(300, 5.2, 25),
    "random-5000-sat": lambda: random3(5000, 3.1, 26),
    "pigeons-7": lambda: pigeons(7),
    "pigeons-8": lambda: pigeons(8),
    "pigeons-9": lambda: pigeons(9),
    "parity-24": lambda: parity(24, 31),
    "parity-28": lambda: parity(28, 14),
    "parity-32": lambda: parity(32, 32),
    "parity-34": lambda: parity(34, 15),
    "product-prime-20": lambda: product(1048573, 14),
    "product-24": lambda: product(4093 * 4091, 13),
    "product-28": lambda: product(16381 * 16369, 15),
    "product-30": lambda: product(32749 * 32719, 16),
    "product-32": lambda: product(65521 * 65519, 17),
    "product-prime-30": lambda: product(1073741789, 18),
    "product-prime-28": lambda: product(268435399, 17),
    "colouring-150": lambda: colouring(150, 330, 3, 16),
    "colouring-300": lambda: colouring(300, 695, 3, 41),
    "colouring-500": lambda: colouring(500, 1150, 3, 17),
    "colouring-200-4": lambda: colouring(200, 850, 4, 42),
    "colouring-120-5": lambda: colouring(120, 790, 5, 43),
    "counter-8": lambda: counter(8, 70, 210),
    "counter-8-never": lambda: counter(8, 80, 241),
    "counter-10": lambda: counter(10, 120, 345),
    "counter-9-never": lambda: counter(9, 150, 451),
    "schedule-60": lambda: schedule(60, 8, 8, 870, 51),
    "schedule-60-full": lambda: schedule(60, 8, 8, 930, 52),
    "schedule-90": lambda: schedule(90, 8, 12, 1300, 53),
    "schedule-13-never": lambda: schedule(13, 4, 3, 10, 54),
    "planted-50k": lambda: planted(50000, 3.25, 61),
    "planted-200k": lambda: planted(200000, 3.0, 18),
    "chain-250k": lambda: chain(250000),
    "chain-1m": lambda: chain(1000000),
}


def main():
    out = sys.argv[1]
    os.makedirs(out, exist_ok=True)
    for name, make in FORMULAS.items():
        top, clauses = make()
        with open(os.path.join(out, name + ".cnf"), "w") as f:
            f.write(f"p cnf {top} {len(clauses)}\n")
            for clause in clauses:
                f.write(" ".join(map(str, clause)) + " 0\n")


if __name__ == "__main__":
    main()
