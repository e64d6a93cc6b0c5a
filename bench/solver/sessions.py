#!/usr/bin/env python3
"""Compares random sessions of calls of a solver with a search by cases: sessions.py PROGRAM COUNT [SEED]

The calls are over up to 6 names: clauses, assumptions, asks, names that are hidden, given a mode or made again, and variables that are
observed. PROGRAM is sessions.rt.txt, built (sessions.sh does both). The proof of each session has to be accepted. Prints how many asks were
compared, or the first session with a wrong answer, with status 1.
"""
import itertools
import random
import subprocess
import sys

if len(sys.argv) < 3:
    sys.exit("usage: sessions.py PROGRAM COUNT [SEED]")
program, count = sys.argv[1], int(sys.argv[2])
rng = random.Random(int(sys.argv[3]) if len(sys.argv) > 3 else 1)
NAMES = 6


def session():
    calls = []
    for _ in range(rng.randint(1, 40)):
        kind = rng.choices("cashwmno", (40, 10, 16, 10, 6, 4, 4, 3))[0]
        if kind in "ca":
            most = rng.choice((1, 2, 2, 3, 3, 4)) if kind == "c" else rng.choice((0, 1, 2, 3))
            least = 0 if kind == "a" or rng.random() < 0.01 else 1
            calls.append((kind, [rng.choice((-1, 1)) * rng.randint(1, NAMES) for _ in range(rng.randint(least, max(least, most)))]))
        elif kind in "hwm":
            calls.append((kind, rng.randint(1, NAMES)))
        else:
            calls.append((kind, None))
    return calls + [("s", None), ("z", None)]


def spelled(call):
    kind, what = call
    if kind in "ca":
        return " ".join([kind, *map(str, what), "0"])
    return kind if what is None else f"{kind} {what}"


def satisfiable(clauses):
    """Whether a valuation satisfies a literal of each clause."""
    if not clauses:
        return True
    shortest = min(clauses, key=len)
    for l in shortest:
        rest = [frozenset(c - {-l}) for c in clauses if l not in c]
        if satisfiable(rest):
            return True
    return False


class Judge:
    """Names in use with their identities, modes, and clauses over identities. The identity of an observed name is a guess."""

    def __init__(self):
        self.first, self.names, self.witness, self.next = 1, {}, set(), 1
        self.clauses, self.assumed = [], []

    def copy(self):
        j = Judge()
        j.first, j.names, j.witness, j.next = self.first, dict(self.names), set(self.witness), self.next
        j.clauses, j.assumed = list(self.clauses), list(self.assumed)
        return j

    def bring(self, name):
        for n in range(self.first, name + 1) if name >= self.first else [name]:
            if n not in self.names:
                self.names[n], self.next = self.next, self.next + 1
        self.first = max(self.first, name + 1)

    def refused(self, lits):
        return any(self.names.get(abs(l)) in self.witness for l in lits)

    def over(self, lits):
        return frozenset(self.names[abs(l)] * (1 if l > 0 else -1) for l in lits)

    def free_name(self):
        return next((n for n in range(1, self.first) if n not in self.names), self.first)

    def can_be(self, lits):
        return satisfiable(self.clauses + [frozenset({l}) for l in self.over(lits)])


def is_assumed(j, name):
    return any(abs(l) == name for l in j.assumed)


def steps(j, call, said):
    """Returns the judges that this answer to a call allows; none if the answer is wrong."""
    kind, what = call
    if kind in "ca":
        if j.refused(what):
            return [j] if said == "witness" else []
        if said != "ok":
            return []
        for l in what:
            j.bring(abs(l))
        if kind == "c":
            clause = j.over(what)
            if not any(-l in clause for l in clause):
                j.clauses.append(clause)
        else:
            j.assumed = what
        return [j]
    if kind in "hwm":
        if is_assumed(j, what):
            return [j] if said == "assumed" else []
        if said != "ok":
            return []
        j.bring(what)
        if kind == "h":
            del j.names[what]
        elif kind == "w":
            j.witness.add(j.names[what])
        else:
            j.witness.discard(j.names[what])
        return [j]
    if kind == "n":
        name = j.free_name()
        if said != f"n {name}":
            return []
        j.bring(name)
        return [j]
    if kind == "o":
        names = [int(w) for w in said.split()[1:]]
        expected, free = [], j.copy()
        for _ in names:
            name = free.free_name()
            expected.append(name)
            free.names[name] = 0
            free.first = max(free.first, name + 1)
        hidden = [i for i in range(1, j.next) if i not in j.names.values()]
        if names != expected or len(names) > len(hidden):
            return []
        judges = []
        for identities in itertools.permutations(hidden, len(names)):
            k = j.copy()
            for name, identity in zip(names, identities):
                k.names[name] = identity
                k.witness.add(identity)
                k.first = max(k.first, name + 1)
            judges.append(k)
        return judges
    if kind == "s":
        lits = [int(w) for w in said.split()[1:]]
        if said.startswith("v"):
            fine = [abs(l) for l in lits] == sorted(j.names) and set(j.assumed) <= set(lits) and j.can_be(lits)
        else:
            fine = said.startswith("f") and set(lits) <= set(j.assumed) and not j.can_be(lits)
        return [j] if fine else []
    return [j] if said == "z accepted" else []


asks = 0
sessions = [session() for _ in range(count)]
text = "".join(spelled(call) + "\n" for s in sessions for call in s)
lines = subprocess.run([program], input=text, capture_output=True, text=True, check=True).stdout.splitlines()
at = 0
for calls in sessions:
    judges, answers = [Judge()], []
    for call in calls:
        said = lines[at] if at < len(lines) else "nothing"
        at += 1
        answers.append(said)
        if judges is None:
            continue
        judges = [k for j in judges for k in steps(j.copy(), call, said)]
        if not judges:
            print("\n".join(f"{spelled(c)}  ->  {a}" for c, a in zip(calls, answers)))
            sys.exit(1)
        if len(judges) > 2000:
            judges = None
        asks += call[0] == "s"
print(f"{asks} asks in {count} sessions")
