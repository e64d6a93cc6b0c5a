#!/usr/bin/env python3
"""Turns hint texts into LRAT proofs and LRAT proofs into hint texts, and checks LRAT proofs by `certify check`.

    lrat.py import FORMULA PROOF HINTS        writes a DIMACS formula and its LRAT proof as a hint text, which `certify check` checks
    lrat.py verify FORMULA PROOF [PROGRAM]    does both, compares the `i` lines with the formula, and prints `verified by certify`
    lrat.py convert HINTS CNF PROOF           writes the clauses of the `i` lines as DIMACS CNF, and the derivation as an LRAT proof
    lrat.py check CNF PROOF                   prints `verified`: a small checker of LRAT proofs, which shares no code with certify
    lrat.py try [PROGRAM [CADICAL]]           tries all of this on 42 formulas and damaged proofs, and with a CaDiCaL that has `--lrat`

A proof that is not accepted gets the line `refused: REASON`, with the number of the line or step if there is one, and status 1.

`import` reads text, and the binary form that CaDiCaL and drat-trim write. Its memory grows with the number of clauses that are present at a
time. The clauses of the formula get the ids 1 to n, as in LRAT, and every other clause keeps its id. A step with the RAT property (it has
negative hints, or none) has no line in a hint text. Hints have to be exact: every clause but the last is unit when its turn comes. A deletion
of a clause of the formula is a line like any other: CaDiCaL deletes those that it has strengthened, and the text still says which clauses the
formula has. `verify` trusts this script to compare the `i` lines with the formula, and the proved program to check the derivation.

HINTS, for `convert`, is written by `certify hints` from the certificate of a formula that is asked once, without literals. The clauses of
the CNF are those of the formula, with its own names, without repeated clauses and literals and without tautologies. In an LRAT proof the
clauses of the CNF have the numbers 1 to n, in order, and derived clauses have higher ones, so all clauses are renumbered. A hint text with an
`e` line, with a core that has literals, or without an empty clause has no such proof.

`check` reads only the CNF and the proof. It accepts the part of LRAT in which each added clause follows by unit propagation.
"""
import importlib.util
import itertools
import os
import random
import re
import shutil
import subprocess
import sys
import tempfile

HERE = os.path.dirname(os.path.abspath(__file__))
PROVED = os.path.join(HERE, "../crates/certify_cli/out/certify_cli")
NUMBER = re.compile(r"-?[0-9]+")
ADDED = re.compile(r"([1-9]\d*) ((?:-?[1-9]\d* )*)0 ((?:-?[1-9]\d* )*)0")
DELETED = re.compile(r"\S+ d ((?:[1-9]\d* )*)0")


class Refused(Exception):
    """The reason why a text is not converted, or a proof is not accepted."""


def lists(words):
    """Splits numbers into lists that end with 0."""
    found, items = [], []
    for word in words:
        if word == "0":
            found.append(items)
            items = []
        else:
            items.append(int(word))
    if items:
        raise Refused("a list without its end")
    return found


def spelt(*parts):
    """Returns a line of numbers, each list followed by 0."""
    return " ".join(str(n) for part in parts for n in [*part, 0]) + "\n"


def convert(hints):
    """Returns the lines of the CNF and those of the proof."""
    lines = [(text[0], lists(text.split()[1:])) for text in hints.splitlines()]
    clauses = [given[0] for kind, given in lines if kind == "i"]
    numbers = {clause[0]: place for place, clause in enumerate(clauses, 1)}  # the numbers of the clauses that are present
    literals = [list(dict.fromkeys(clause[1:])) for clause in clauses]
    proof, last = [], len(clauses)
    for kind, given in lines:
        if kind == "x":
            proof.append(f"{last} d {numbers.pop(given[0][0])} 0\n")
        elif kind in "df":
            id, clause = (given[0][0], given[0][1:]) if kind == "d" else (None, given[0])
            if kind == "f" and clause:
                raise Refused("a core has literals: the ask was not one under no literals")
            last += 1
            proof.append(f"{last} " + spelt(dict.fromkeys(clause), [numbers[i] for i in given[1]]))
            if not clause:
                top = max((abs(l) for c in literals for l in c), default=0)
                return [f"p cnf {top} {len(literals)}\n", *map(spelt, literals)], proof
            numbers[id] = last
        elif kind == "e":
            raise Refused("a variable is new again: the text is not that of a formula")
    raise Refused("no empty clause: the formula is not shown unsatisfiable")


def follows(clause, hints, present):
    """Raises `Refused` unless the hints are unit in turn under the clause's negation, and the last one is falsified."""
    true = {-l for l in clause}
    for place, hint in enumerate(hints):
        if hint not in present:
            raise Refused(f"there is no clause {hint}")
        left = [l for l in present[hint] if -l not in true]
        if not left:
            if place + 1 < len(hints):
                raise Refused(f"clause {hint} is falsified before the last hint")
            return
        if len(left) > 1 or left[0] in true:
            raise Refused(f"clause {hint} isn't unit")
        true.add(left[0])
    raise Refused("no hint is falsified")


def check(cnf, proof):
    """Raises `Refused`, with the line of the proof, unless the proof derives the empty clause from the CNF."""
    words = [w for line in cnf.splitlines() if not line.startswith(("c", "p")) for w in line.split()]
    present = {place: frozenset(clause) for place, clause in enumerate(lists(words), 1)}
    last = len(present)
    for number, line in enumerate(proof.splitlines(), 1):
        try:
            id, *rest = line.split()
            if rest[0] == "d":
                (deleted,) = lists(rest[1:])
                for gone in deleted:
                    if present.pop(gone, None) is None:
                        raise Refused(f"there is no clause {gone}")
                continue
            clause, hints = lists(rest)
            if int(id) <= last:
                raise Refused("the number isn't above those before")
            if any(-l in clause for l in clause):
                hints = [hint for hint in hints if hint not in present]
                if hints:
                    raise Refused(f"there is no clause {hints[0]}")
            else:
                follows(clause, hints, present)
            last, present[int(id)] = int(id), frozenset(clause)
            if not clause:
                return
        except Refused as why:
            raise Refused(f"line {number}: {why}") from None
        except ValueError:
            raise Refused(f"line {number}: no line of a proof") from None
    raise Refused("no empty clause is derived")


# From LRAT to hint texts.

def clauses_of(path):
    """Yields the clauses of a DIMACS formula."""
    clause = []
    with open(path, encoding="ascii", errors="replace", newline="\n") as file:
        for number, line in enumerate(file, 1):
            words = line.split()
            if not words or words[0][0] in "cp":
                continue
            if words[0][0] == "%":
                break
            for word in words:
                if not NUMBER.fullmatch(word):
                    raise Refused(f"line {number} of the formula: {word!r} is no number")
                if literal := int(word):
                    clause.append(literal)
                else:
                    yield clause
                    clause = []
    if clause:
        raise Refused("the formula ends within a clause")


def lists_of(file):
    """Yields the lists of a binary proof, without the zero that ends each of them."""
    rest = b""
    while more := file.read(1 << 20):
        *whole, rest = (rest + more).split(b"\0")
        yield from whole
    if rest:
        raise Refused("the proof ends within a step")


def numbers(code):
    """Returns the numbers of a list. A number is written in groups of seven bits, the lowest first; all but the last have the bit 128."""
    found, value, shift = [], 0, 0
    for byte in code:
        value |= (byte & 127) << shift
        shift += 7
        if byte < 128:
            found.append(value)
            value = shift = 0
    if shift:
        raise Refused("a number ends with a group of zeros")
    return found


def signed(values):
    """Returns the numbers whose doubles, plus one if they are negative, are `values`, each with a space."""
    return "".join(f"-{value >> 1} " if value & 1 else f"{value >> 1} " for value in values)


def binary_steps(file, clauses):
    """Yields the lines of a binary proof for a formula of this many clauses.

    Numbers are doubled, with one added if they are negative. CaDiCaL 1.7 doesn't double the ids of the clauses that it adds. The first one is
    one more than `clauses`, or slightly more.
    """
    lists, is_doubled = lists_of(file), None
    for code in lists:
        values = numbers(code[1:])
        if code[:1] == b"d":
            yield f"0 d {signed(values)}0"
        elif code[:1] == b"a" and values:
            if is_doubled is None:
                is_doubled = values[0] >> 1 > clauses
            id = signed(values[:1]) if is_doubled else f"{values[0]} "
            yield f"{id}{signed(values[1:])}0 {signed(numbers(next(lists, b'')))}0"
        else:
            raise Refused("a step begins neither with `a` nor with `d`")


def steps_of(path, clauses):
    """Yields the lines of a proof for a formula of this many clauses, each with its number, in one spelling."""
    with open(path, "rb") as file:
        if re.match(rb"[ad][^\0]*\0", file.read(1 << 16)):  # no text has a zero byte
            file.seek(0)
            for number, line in enumerate(binary_steps(file, clauses), 1):
                yield f"step {number}", line
            return
    with open(path, encoding="ascii", errors="replace") as file:
        for number, line in enumerate(file, 1):
            if not line.startswith("c") and (words := line.split()):
                yield f"line {number}", " ".join(words)


def is_tautology(clause):
    literals = clause.split()
    return any("-" + literal in literals for literal in literals)


def import_proof(formula, proof, hints):
    """Writes the hint text of a formula and its proof to the file `hints`, up to the empty clause."""
    last, empty = 0, 0
    for last, clause in enumerate(clauses_of(formula), 1):
        hints.write(f"i {last} " + spelt(clause))
        empty = empty or (0 if clause else last)
    if empty:
        hints.write(f"d {last + 1} 0 {empty} 0\n")
        return
    present = set(map(str, range(1, last + 1)))
    for place, step in steps_of(proof, last):
        if added := ADDED.fullmatch(step):
            id, clause, used = added.groups()
            if "-" in used or not (used or is_tautology(clause)):
                raise Refused(f"{place}: a RAT step, which no hint text has")
            if int(id) <= last:
                raise Refused(f"{place}: the id {id} is not above those before")
            if not present.issuperset(used.split()):
                raise Refused(f"{place}: there is no clause {next(h for h in used.split() if h not in present)}")
            hints.write(f"d {id} {clause}0 {used}0\n")
            if not clause:
                return
            last = int(id)
            present.add(id)
        elif deleted := DELETED.fullmatch(step):
            for id in deleted[1].split():
                if id not in present:
                    raise Refused(f"{place}: there is no clause {id}")
                present.remove(id)
                hints.write(f"x {id} 0\n")
        else:
            raise Refused(f"{place}: no step of an LRAT proof")
    raise Refused("no empty clause is derived")


def compare(formula, hints):
    """Raises `Refused` unless the `i` lines of a hint text are the clauses of the formula, and no variable is new again."""
    def given():
        with open(hints, encoding="ascii") as file:
            for line in file:
                if line.startswith("e"):
                    raise Refused("a variable is new again")
                if line.startswith("i"):
                    yield [int(word) for word in line.split()[2:-1]]
    for place, (here, there) in enumerate(itertools.zip_longest(clauses_of(formula), given()), 1):
        if here != there:
            raise Refused(f"clause {place} of the formula is not the `i` line {place}")


def verify(formula, proof, program):
    """Raises `Refused` unless `certify check` accepts the derivation of the empty clause from the formula."""
    with tempfile.TemporaryDirectory() as folder:
        hints = os.path.join(folder, "hints")
        with open(hints, "w", encoding="ascii") as file:
            import_proof(formula, proof, file)
        answer = subprocess.run([program, "check", hints], stdout=subprocess.PIPE, encoding="ascii", check=False).stdout
        if not re.fullmatch(r"proved empty=1 cores=\d+ lines=\d+\n", answer):
            raise Refused(f"certify check: {answer.strip() or 'no verdict'}")
        compare(formula, hints)


# From certificates to LRAT: twenty formulas.

def module(*path):
    found = importlib.util.spec_from_file_location("found", os.path.join(HERE, *path))
    made = importlib.util.module_from_spec(found)
    found.loader.exec_module(made)
    return made


def formulas():
    """Yields names of unsatisfiable formulas, and their clauses."""
    make = module("solver", "formulas.py")
    for seed in range(6):
        yield f"random-{80 + 10 * seed}", make.random3(80 + 10 * seed, 6.0, seed)[1]
    for holes in range(3, 8):
        yield f"pigeons-{holes}", make.pigeons(holes)[1]
    for name in ("counter-8-never", "product-prime-20", "schedule-13-never", "random-220"):
        yield name, make.FORMULAS[name]()[1]
    yield "parity-16", make.parity(16, 31)[1]
    yield "random-200", make.random3(200, 5.5, 7)[1]
    yield "colouring-5", make.colouring(5, 40, 3, 1)[1]
    yield "chain-2000", make.chain(2000)[1] + [[-2000]]
    yield "two-units", [[1, 2], [1, 2], [2, -2], [3, 3], [-3]]


def try_one(program, name, clauses, draw):
    """Converts and checks the proof of one formula, then drops lines of it. Returns the numbers of lines and of those dropped."""
    write_formula(clauses)
    for call in (["run", "formula", "answers", "certificate"], ["hints", "certificate", "hints"]):
        subprocess.run([program, *call], check=True, stderr=subprocess.DEVNULL)
    with open("hints", encoding="ascii") as file:
        cnf, proof = convert(file.read())
    given = {frozenset(c) for c in clauses if not any(-l in c for l in c)}
    if {frozenset(c) for c in lists(" ".join(cnf[1:]).split())} != given:
        sys.exit(f"{name}: the CNF isn't the formula")
    check("".join(cnf), "".join(proof))
    added = [(k, line.split()[0], line[:-3].split(" 0 ", 1)[-1].split()) for k, line in enumerate(proof) if " d " not in line]
    used = {hint for _, _, hints in added for hint in hints}
    needed = [k for k, id, _ in added if id in used]
    dropped = [len(proof) - 1, *draw.sample(needed, min(5, len(needed)))]
    for k in dropped:
        try:
            check("".join(cnf), "".join(proof[:k] + proof[k + 1 :]))
        except Refused:
            continue
        sys.exit(f"{name}: accepted without line {k + 1}")
    return len(proof), len(dropped)


def has_lrat(cadical):
    """Returns `True` if there is such a program, and it writes LRAT proofs."""
    return bool(cadical) and "--lrat=" in subprocess.run([cadical, "--help"], capture_output=True, encoding="utf-8", check=False).stdout


def try_all(program, cadical):
    draw, count = random.Random(1), 0
    with tempfile.TemporaryDirectory() as folder:
        os.chdir(folder)
        for name, clauses in formulas():
            lines, dropped = try_one(program, name, clauses, draw)
            count += 1
            print(f"{name}: {lines} lines verified, refused without each of {dropped} lines", flush=True)
        for name, clauses in small_formulas():
            count += 1
            print(f"{name}: {try_import(program, name, clauses)} lines, as text and in binary, verified by certify", flush=True)
        print(f"{count} formulas; {try_damaged(program, draw)} damaged proofs refused, or verified by both checkers")
        if has_lrat(cadical):
            print(f"{try_cadical(program, cadical)} proofs by {cadical} verified by certify")
        else:
            print("no proofs by CaDiCaL: no cadical that has --lrat")
        os.chdir("/")


# From LRAT to certify: proofs by resolution.

def small_formulas():
    """Yields names of small unsatisfiable formulas, and their clauses."""
    make = module("solver", "formulas.py")
    for holes in range(2, 5):
        yield f"pigeons-{holes}", make.pigeons(holes)[1]
    for names in range(2, 8):
        for seed in range(3):
            yield f"parity-{names}-{seed}", make.parity(names, seed)[1]
    yield "empty", [[1, 2], []]


def refute(clauses):
    """Returns the lines of an LRAT proof by resolution, along a search that tries both values of a variable."""
    stored = [(id, frozenset(clause)) for id, clause in enumerate(clauses, 1)]
    lines, last = [], [len(clauses)]

    def falsified(true):
        for id, clause in stored:
            if all(-l in true for l in clause):
                return id, clause
        literals = min(([l for l in c if -l not in true] for _, c in stored if not true & c), key=len)
        parents = []
        for literal in (literals[0], -literals[0]):
            parents.append(falsified(true | {literal}))
            if -literal not in parents[-1][1]:
                return parents[-1]
        clause = frozenset(l for _, parent in parents for l in parent if abs(l) != abs(literals[0]))
        last[0] += 1
        lines.append(f"{last[0]} " + spelt(clause, [id for id, _ in parents]))
        gone = [id for id, _ in parents if id > len(clauses)]
        if gone and clause:
            lines.append(f"{last[0]} d " + spelt(gone))
        return last[0], clause

    falsified(frozenset())
    return lines


def encoded(lines, is_doubled):
    """Returns the binary proof with these lines. The ids of added clauses are doubled or not."""
    def groups(value):
        while value >= 128:
            yield value & 127 | 128
            value >>= 7
        yield value

    found = bytearray()
    for line in lines:
        id, *words = line.split()
        found += b"d" if words[0] == "d" else b"a" + bytes(groups(2 * int(id) if is_doubled else int(id)))
        for word in words[words[0] == "d" :]:
            found += bytes(groups(2 * abs(int(word)) + word.startswith("-")))
    return bytes(found)


def write(path, content):
    with open(path, "wb") as file:
        file.write(content if isinstance(content, bytes) else content.encode())


def write_formula(clauses):
    write("formula", f"p cnf {max(abs(l) for c in clauses for l in c)} {len(clauses)}\n" + "".join(map(spelt, clauses)))


def try_import(program, name, clauses):
    """Verifies the proof of one formula as text and in binary. Returns the number of its lines."""
    write_formula(clauses)
    lines = refute(clauses) if all(clauses) else []
    for proof in ["".join(lines), encoded(lines, True), encoded(lines, False)]:
        write("proof", proof)
        verified(name, program)
    return len(lines)


def verified(name, program):
    try:
        verify("formula", "proof", program)
    except Refused as why:
        sys.exit(f"{name}: {why}")


def try_cadical(program, cadical):
    """Verifies proofs by CaDiCaL, as text and in binary. Returns their number."""
    count = 0
    for name, clauses in formulas():
        write_formula(clauses)
        for form in (["--no-binary"], []):
            status = subprocess.run([cadical, "-q", "--lrat", *form, "formula", "proof"], stdout=subprocess.DEVNULL, check=False).returncode
            if status != 20:
                sys.exit(f"{name}: the status of {cadical} is {status}")
            verified(name, program)
            count += 1
    return count


def accepts(call, *arguments):
    try:
        call(*arguments)
        return True
    except Refused:
        return False


def damaged(lines, draw):
    """Returns the lines of a proof with one of them changed, moved or gone, or cut off after one."""
    lines, place = list(lines), draw.randrange(len(lines))
    kind = draw.randrange(5)
    if kind == 0:
        del lines[place]
    elif kind == 1:
        del lines[place:]
    elif kind == 2:
        other = draw.randrange(len(lines))
        lines[place], lines[other] = lines[other], lines[place]
    else:
        words = lines[place].split()
        at = draw.randrange(len(words))
        words[at] = str(draw.choice([-1, 1]) * draw.randrange(12)) if kind == 3 else draw.choice(words)
        lines[place] = " ".join(words) + "\n"
    return lines


def try_damaged(program, draw):
    """Compares the verdicts of both checkers on damaged proofs. Returns their number."""
    proofs = [(clauses, refute(clauses)) for _, clauses in small_formulas() if all(clauses)]
    for count in range(200):
        clauses, lines = draw.choice(proofs)
        cnf = "".join(map(spelt, clauses))
        bad = "".join(damaged(lines, draw))
        write("formula", cnf)
        write("proof", bad)
        if accepts(verify, "formula", "proof", program) != accepts(check, cnf, bad):
            write("/tmp/lrat-damaged", cnf + "--\n" + bad)
            sys.exit(f"damaged proof {count}: the checkers differ; both texts are in /tmp/lrat-damaged")
    return 200


def read(path):
    with open(path, encoding="ascii") as file:
        return file.read()


def found(program):
    """Returns the full path of a program."""
    if not (os.path.isfile(program) and os.access(program, os.X_OK)):
        raise Refused(f"there is no program {os.path.normpath(program)}: build it as README.md says, or give another one as PROGRAM")
    return os.path.abspath(program)


def main():
    words = sys.argv[1:]
    try:
        if words[:1] == ["import"] and len(words) == 4:
            with open(words[3], "w", encoding="ascii") as hints:
                import_proof(words[1], words[2], hints)
        elif words[:1] == ["verify"] and len(words) in (3, 4):
            verify(words[1], words[2], found((words[3:] or [PROVED])[0]))
            print("verified by certify")
        elif words[:1] == ["convert"] and len(words) == 4:
            for path, lines in zip(words[2:], convert(read(words[1]))):
                with open(path, "w", encoding="ascii") as file:
                    file.writelines(lines)
        elif words[:1] == ["check"] and len(words) == 3:
            check(read(words[1]), read(words[2]))
            print("verified")
        elif words[:1] == ["try"] and len(words) <= 3:
            try_all(found((words[1:2] or [PROVED])[0]), (words[2:] or [shutil.which("cadical")])[0])
        else:
            sys.exit(__doc__)
    except Refused as why:
        print(f"refused: {why}")
        sys.exit(1)


if __name__ == "__main__":
    main()
