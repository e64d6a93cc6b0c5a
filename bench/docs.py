#!/usr/bin/env python3
"""Checks the documents against the repository: names in backticks, links and commands. Takes a second.

    docs.py [--root CHECKOUT]    prints every fault with its file and line, and exits with 1 if there is one

The documents are README.md, CONTRIBUTING.md, docs/*.md and crates/*/CALLING.md.

    names     every word in backticks is a word of a source, a script, an edit or a path of the repository. varisat's own names, in the
              first column of a table in docs/DIFFERENCES.md, are known, too; other words from elsewhere are listed in ELSEWHERE
    links     a link leads to a file of the repository, and its anchor to a heading of that file
    commands  a line of a block that begins with `rt`, `certify` or a path, perhaps after `$`, calls a command, a request or a script that
              exists
"""
import argparse
import os
import re
import sys
from pathlib import Path

WORD = re.compile(r'[A-Za-z_][A-Za-z_0-9]*')
FENCE = re.compile(r'^ *```')
QUOTED = re.compile(r'`([^`\n]+)`')
LINK = re.compile(r'\[[^\]]*\]\(([^)\s]+)\)')
ANCHOR = re.compile(r'<a (?:id|name)="([^"]+)"')
SOURCES = ('.rt', '.antt', '.py', '.sh', '.edit', '.txt', '.rs', '.tsv')

# Words of the toolchain, of other programs and of Rust, and placeholders.
ELSEWHERE = set('''
    rattle kit logic dac8208d650f15bf plant touch rm1 sim inccnf runners trim timeout gunzip lim rnd
    f32 isize non_exhaustive partial_ref follows_so
    doc CRATE CRATE_tests DEP Trait law_ rechecked
'''.split())
COMMANDS = {
    'rt': 'ci check try test run lib fmt tidy plant lemma must-fail doc version all verdict seed expand new'.split(),
    'certify': 'run confirm hints check'.split(),
}


def files_of(top):
    """Returns the paths of the files, as `git ls-files` does, but for those in folders that builds make."""
    found = []
    for folder, names, files in os.walk(top):
        names[:] = sorted(name for name in names if name not in ('.git', 'out'))
        found += [str((Path(folder) / name).relative_to(top)) for name in sorted(files)]
    return found


def is_document(path):
    return path.endswith('.md') and (path.count('/') == 0 or path.startswith('docs/') or path.endswith('/CALLING.md'))


def read(top, path):
    return (top / path).read_text(encoding='utf-8')


def known_words(top, paths):
    """Returns the words of the sources, the scripts and the paths, and varisat's names."""
    words = set(ELSEWHERE)
    for path in paths:
        words |= set(WORD.findall(path))
        if path.endswith(SOURCES):
            words |= set(WORD.findall(read(top, path)))
    for line in read(top, 'docs/DIFFERENCES.md').split('\n'):
        if line.startswith('|'):
            for quoted in QUOTED.findall(line.split('|')[1]):
                words |= set(WORD.findall(quoted))
    return words


def anchors(text):
    """Returns the anchors that are written out, and those of the headings, as GitHub and GitLab make them."""
    found = set(ANCHOR.findall(text))
    for line in text.split('\n'):
        if line.startswith('#'):
            title = line.lstrip('#').strip().lower().replace('`', '')
            found.add(re.sub(r'[^\w\- ]', '', title).replace(' ', '-'))
    return found


def link_fault(top, document, target):
    """Returns what is wrong with a link of `document`, or `None`."""
    if re.match(r'[a-z]+:', target):
        return None
    path, _, anchor = target.partition('#')
    file = top / document if not path else (top / document).parent / path
    if not file.exists():
        return f'no file `{path}`'
    if anchor and anchor not in anchors(file.read_text(encoding='utf-8')):
        return f'no heading `{anchor}` in `{path or document}`'
    return None


def command_fault(top, line):
    """Returns what is wrong with a command, or `None`, also if the line is none."""
    words = line.strip().removeprefix('$').split()
    if len(words) > 1 and words[0] == 'python3':
        words = words[1:]
    if not words:
        return None
    if words[0] in COMMANDS and len(words) > 1 and words[1].isalpha() and words[1] not in COMMANDS[words[0]]:
        return f'no command `{words[0]} {words[1]}`'
    if words[0].startswith(('bench/', '.ci/')) and not (top / words[0]).exists():
        return f'no script `{words[0]}`'
    return None


def faults(top, document, words):
    """Yields the faults of a document, with their lines."""
    in_block = False
    for number, line in enumerate(read(top, document).split('\n'), 1):
        if FENCE.match(line):
            in_block = not in_block
        elif in_block:
            fault = command_fault(top, line)
            if fault:
                yield number, fault
        else:
            for quoted in QUOTED.findall(line):
                for word in WORD.findall(quoted):
                    if len(word) > 2 and word not in words:
                        yield number, f'no word `{word}` in the sources'
                fault = command_fault(top, quoted)
                if fault:
                    yield number, fault
            for target in LINK.findall(QUOTED.sub('', line)):
                fault = link_fault(top, document, target)
                if fault:
                    yield number, fault


def main():
    parser = argparse.ArgumentParser(description=__doc__.split('\n')[0])
    parser.add_argument('--root', default=Path(__file__).resolve().parent.parent)
    parser.add_argument('--check', action='store_true', help='does nothing: the script only checks')
    top = Path(parser.parse_args().root)
    paths = files_of(top)
    words = known_words(top, paths)
    count = 0
    for document in filter(is_document, paths):
        for number, fault in faults(top, document, words):
            print(f'{document}:{number}: {fault}')
            count += 1
    sys.exit(1 if count else 0)


if __name__ == '__main__':
    main()
