#!/usr/bin/env python3
"""Runs and confirms each script of examples/, and compares the answers with those that are stored there: examples.py [PROGRAM]

    examples.py --rows [PROGRAM]    prints rows for tests: script, printed text, status and standard error; or script, answers and budget
    examples.py --check FILE        checks that FILE, a source with such rows, has each script and its answers without a budget

NAME.answers has the answers to NAME.script, and NAME-STEPS.answers those with a budget of STEPS rounds for each ask. Then shrink.py shrinks
a core. PROGRAM is by default the proved program, crates/certify_cli/out/certify_cli.
"""
import os
import re
import subprocess
import sys
import tempfile

TOP = os.path.dirname(os.path.dirname(os.path.abspath(__file__)))
EXAMPLES = os.path.join(TOP, "examples")
PROVED = os.path.join(TOP, "crates/certify_cli/out/certify_cli")


def read(path):
    with open(path, encoding="ascii") as file:
        return file.read()


def examples():
    """Yields the name of each file of answers, its text, the path of its script and the words of its budget."""
    for file in sorted(os.listdir(EXAMPLES)):
        found = re.fullmatch(r"(.*?)(?:-(\d+))?\.answers", file)
        if found:
            yield file, read(os.path.join(EXAMPLES, file)), os.path.join(EXAMPLES, found[1] + ".script"), [found[2]] if found[2] else []


def literal(text):
    """Returns the text as a string literal of Rust, with a line of the text on each line."""
    lines = [line.replace("\\", "\\\\").replace('"', '\\"') + "\\n" for line in text.splitlines()]
    return '"\\\n' + "\\\n".join(lines) + '"'


def rows(program):
    for _, answers, script, budget in examples():
        if budget:
            print("(\n" + ",\n".join([literal(read(script)), literal(answers), *budget]) + ",\n),")
        else:
            with open(script, "rb") as file:
                done = subprocess.run([program], stdin=file, capture_output=True, check=True, encoding="ascii")
            assert done.stdout == answers + "c confirmed\n", script
            print("(\n" + ",\n".join([literal(read(script)), literal(done.stdout), "0", literal(done.stderr)]) + ",\n),")


def main():
    words = sys.argv[1:]
    if words[:1] == ["--check"]:
        text = read(words[1])
        wrong = [file for file, answers, script, budget in examples() if not budget and (literal(read(script)) not in text or literal(answers)[:-1] not in text)]
        sys.exit(f"{words[1]} doesn't have {', '.join(wrong)}" if wrong else 0)
    show_rows = words[:1] == ["--rows"]
    program = os.path.abspath((words[show_rows:] or [PROVED])[0])
    if not os.access(program, os.X_OK):
        sys.exit(f"{sys.argv[0]}: no program {program}; `rt run` in crates/certify_cli makes the proved one")
    if show_rows:
        return rows(program)
    with tempfile.TemporaryDirectory() as folder:
        texts = [os.path.join(folder, name) for name in ("answers", "certificate")]
        for file, answers, script, budget in examples():
            subprocess.run([program, "run", script, *texts, *budget], check=True, stderr=subprocess.DEVNULL)
            if read(texts[0]) != answers:
                sys.exit(f"{file}: other answers:\n{read(texts[0])}")
            subprocess.run([program, "confirm", script, *texts], check=True, stdout=subprocess.DEVNULL)
            print(f"{file}: as kept, confirmed")
        clauses = os.path.join(folder, "clauses")
        with open(clauses, "w", encoding="ascii") as file:
            file.writelines(line for line in read(os.path.join(EXAMPLES, "features.script")).splitlines(True) if line[0] != "a")
        shrunk = subprocess.run([sys.executable, os.path.join(EXAMPLES, "shrink.py"), clauses, "-5 3 9", program], check=True, capture_output=True, text=True)
        if shrunk.stdout != "3 9\n":
            sys.exit(f"shrink.py: another core: {shrunk.stdout}")
        print("shrink.py: the core 3 9")


if __name__ == "__main__":
    main()
