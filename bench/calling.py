#!/usr/bin/env python3
"""Runs the examples of every CALLING.md as a new user would: calling.py [--check | --prove] [CRATE..]

    calling.py            only compares the examples with the test crates, which takes a second
    calling.py --check    also runs them, without proofs (`rt try`): half a minute to two minutes each, or ten minutes without CRATE
    calling.py --prove    also proves them (`rt check`), and first the crates below, unless they were proved on this machine

An example is a block that begins with `#![tactic(auto)]`. The text after it says where to save it (`crates/NAME/src/lib.rt`, or main.rt for a
program), its line of crates.txt (`NAME: DEPS`), and what a program prints: a block that begins with `$ rt try`. If the text also says
"proved in `crates/CRATE_tests/src/FILE.rt`", then items that are in both must be equal, and so must their proofs: a block of `antt` is part of
a file in proofs/FILE of that crate. A block of `antt` that begins with `use` is itself the file of answers of a function of the example.

Each example becomes a crate of a scratch repository, next to the crates that it names and those below.
"""
import argparse
import re
import shutil
import subprocess
import sys
import tempfile
from pathlib import Path

TOP = Path(__file__).resolve().parent.parent
BLOCK = re.compile(r'^```(\w+)\n(.*?)^```$', re.M | re.S)
ANSWERS = re.compile(r'^use Rattle\.(\w+)\.proofs\.([\w.]+)\.Goals as goal$', re.M)


class Example:
    """An example: its code, where it is saved, what it needs, what it prints, and its file in a crate of tests."""

    def __init__(self, document, code, text):
        self.code = code
        self.place = one(document, r'`crates/(\w+/src/(?:lib|main)\.rt)`', text)
        self.name = self.place.split('/')[0]
        self.line = one(document, r'`(' + self.name + r': [a-z_ ]+)`', text)
        self.printed = [block for kind, block in BLOCK.findall(text) if kind == 'text' and block.startswith('$ rt try\n')]
        self.answers = [block for kind, block in BLOCK.findall(text) if kind == 'antt']
        self.proved = re.findall(r'proved in `crates/(\w+_tests)/src/(\w+)\.rt`', text)
        if self.is_program != bool(self.printed):
            sys.exit(f'{document}: a program without what it prints, or the reverse: {self.name}')

    @property
    def is_program(self):
        return self.place.endswith('main.rt')


def one(document, pattern, text):
    """Returns what the only group of `pattern` matches first."""
    found = re.search(pattern, text)
    if not found:
        sys.exit(f'{document}: nothing after an example matches {pattern}')
    return found[1]


def examples_of(crate):
    """Returns the examples of a crate's CALLING.md."""
    document = TOP / 'crates' / crate / 'CALLING.md'
    parts = re.split(r'^```rust\n(#!\[tactic\(auto\)\]\n.*?)^```$', document.read_text(encoding='utf-8'), flags=re.M | re.S)
    return [Example(document, parts[at], parts[at + 1]) for at in range(1, len(parts), 2)]


def items(code):
    """Returns the text of each item, with its comments, by the first line of its code. Leaves out imports."""
    found, lines, head = {}, [], ''
    for line in code.split('\n'):
        if not lines and re.match(r'$|//!|#!\[|ghost use|use ', line):
            continue
        lines.append(line)
        if not head and not re.match(r'///|#\[', line):
            head = line
        if head and (line[:1] == '}' or line[-1:] == ';' and re.match(r'(pub )?(const|type|struct|mod) ', head)):
            found[head] = '\n'.join(lines)
            lines, head = [], ''
    return found


def proofs(crate, file):
    """Returns the files of proofs for a file of a crate of tests, by their paths."""
    folder = TOP / 'crates' / crate / 'proofs' / file
    return {path.relative_to(folder): path.read_text(encoding='utf-8') for path in sorted(folder.rglob('*.antt'))}


def faults(example):
    """Yields how the example differs from its file in a crate of tests."""
    own = items(example.code)
    quoted = [block for block in example.answers if not block.startswith('use ')]
    if quoted and not example.proved:
        yield f'{example.name}: proofs of no file'
    for crate, file in example.proved:
        there = items((TOP / 'crates' / crate / 'src' / f'{file}.rt').read_text(encoding='utf-8'))
        if not own.keys() & there.keys():
            yield f'{example.name}: no item is in {crate}/src/{file}.rt'
        for head in own.keys() & there.keys():
            if own[head] != there[head]:
                yield f'{example.name}: another text in {crate}/src/{file}.rt: {head}'
        for block in quoted:
            for part in re.split(r'\n\n(?=pub )', block.strip('\n')):
                if not any(part in text for text in proofs(crate, file).values()):
                    yield f'{example.name}: not in {crate}/proofs/{file}: {part.splitlines()[0]}'


def lines_of_crates():
    """Returns the lines of crates.txt, by crate."""
    lines = (TOP / 'crates.txt').read_text(encoding='utf-8').splitlines()
    return {line.split(':')[0]: line for line in lines if ':' in line and not line.startswith('#')}


def below(line, lines):
    """Returns the crates of the repository that a line of crates.txt needs, lowest first."""
    found = []
    for name in line.split(':')[1].split():
        if name in lines:
            found += below(lines[name], lines) + [name]
    return list(dict.fromkeys(found))


def put(path, text):
    path.parent.mkdir(parents=True, exist_ok=True)
    path.write_text(text, encoding='utf-8')


def create(scratch, example):
    """Creates the example's crate, and copies the crates below it."""
    lines = lines_of_crates()
    needed = below(example.line, lines)
    for name in needed:
        if not (scratch / 'crates' / name).exists():
            shutil.copytree(TOP / 'crates' / name, scratch / 'crates' / name, ignore=shutil.ignore_patterns('out', 'must-fail'))
    put(scratch / 'crates.txt', '\n'.join([lines[name] for name in needed] + [example.line, '']))
    shutil.copy(TOP / 'HANDLES', scratch)
    put(scratch / 'crates' / example.place, example.code)
    folder = scratch / 'crates' / example.name / 'proofs'
    for crate, file in example.proved:
        for path, text in proofs(crate, file).items():
            if path.parts[0] in re.findall(r'fn (\w+)', example.code):
                put(folder / path, text.replace(f'Rattle.{crate}.proofs.{file}.', f'Rattle.{example.name}.proofs.'))
    for block in example.answers:
        for crate, function in ANSWERS.findall(block):
            put(folder / function.replace('.', '/') / 'Answers.antt', block)


def call(folder, words):
    """Calls `rt`. Returns its status, and what it wrote to standard output and to standard error."""
    done = subprocess.run(['rt', *words], cwd=folder, capture_output=True, encoding='utf-8')
    return done.returncode, done.stdout, done.stderr


def run_fault(folder, example):
    """Runs the example without proofs. Returns what is wrong, or `None`."""
    tests = len(re.findall(r'^#\[test\]$', example.code, re.M))
    if not tests and not example.is_program:
        # `rt try --test` compiles no crate without tests.
        put(folder / 'src/lib.rt', example.code + '\n#[test]\nfn compiles(_rt: HostRuntime) {}\n')
    status, output, errors = call(folder, ['try'] if example.is_program else ['try', '--test'])
    if status != 0:
        return f'status {status}\n{output}{errors}'
    if example.is_program and '$ rt try\n' + output != example.printed[0]:
        return f'prints\n{output}'
    if not example.is_program and f'ok. {tests or 1} passed' not in output:
        return f'other tests than {tests}\n{output}'
    return None


def proof_fault(folder, example):
    """Proves the example. Returns what is wrong, or `None`."""
    status, output, errors = call(folder, ['check'] if example.is_program else ['check', '--test'])
    return None if status == 0 and 'logic=proved' in output else f'not proved\n{output}{errors}'


def main():
    parser = argparse.ArgumentParser(description=__doc__.split('\n')[0])
    parser.add_argument('--check', action='store_true', help='run the examples')
    parser.add_argument('--prove', action='store_true', help='prove the examples')
    parser.add_argument('crate', nargs='*', default=sorted(path.parent.name for path in TOP.glob('crates/*/CALLING.md')))
    given = parser.parse_args()
    found = [(crate, example) for crate in given.crate for example in examples_of(crate)]
    wrong = [f'{crate}: {fault}' for crate, example in found for fault in faults(example)]
    wrong += [f'{crate}: no example' for crate in given.crate if not any(crate == name for name, _ in found)]
    if not wrong and (given.check or given.prove):
        with tempfile.TemporaryDirectory() as folder:
            for crate, example in found:
                create(Path(folder), example)
                fault = (proof_fault if given.prove else run_fault)(Path(folder) / 'crates' / example.name, example)
                print(f'{crate}: {example.name}: {fault or ("proved" if given.prove else "runs")}', flush=True)
                wrong += [f'{crate}: {example.name}'] if fault else []
    if wrong:
        sys.exit('\n'.join(wrong))


if __name__ == '__main__':
    main()
