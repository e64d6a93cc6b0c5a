#!/usr/bin/env python3
"""Checks that docs/STATEMENT.md lacks no definition, by `rt check` of a crate of its definitions: statement_alone.py [-k]

The crate is in a temporary folder. It has the definitions that the clauses of the page reach, and the types of the code that these name. So
the prover refuses it if `statement.py` misses a definition that another one uses. What the page does not print (`@stop`) is included with all
that it uses. If that names further types of the code, the crate has instead a definition with the same arguments that always holds. With -k,
the folder is kept.
Takes about a minute; not part of the gate.
"""
import re
import shutil
import subprocess
import sys
import tempfile
from pathlib import Path

import statement

TOP = Path(__file__).resolve().parents[1]
NAME = 'statement'


def moved(module):
    """Returns the module of the new crate that has what a module of the repository has."""
    m = re.match(r'Rattle\.(\w+)\.specs\.declared\.(.*)$', module)
    if m:
        return f'Rattle.{NAME}.specs.declared.{m.group(1)}.{m.group(2)}'
    m = re.match(r'Rattle\.(\w+)\.specs\.(.*)$', module)
    return f'Rattle.{NAME}.specs.{m.group(1)}.{m.group(2)}' if m and m.group(1) not in ('std', 'core') else module


def is_used(name, code):
    words = name.split('◌')
    if len(words) > 1:
        return all(word in code for word in words)
    return re.search(r'(?<![\w.-])' + re.escape(name) + r'(?![\w-])', code) is not None


def imports(file, items, code):
    """Returns the `use` lines that these definitions of a file need."""
    own, uses = {item.name for item in items}, {}
    for name, (module, theirs) in file.names.items():
        if name not in own and is_used(name, code):
            uses.setdefault(moved(module), []).append(name if name == theirs else f'{theirs} as {name}')
    lines = [f'use {module}.{{{", ".join(names)}}}' for module, names in uses.items()]
    return lines + [f'use {moved(module)} as {alias}' for alias, module in file.aliases.items()
                    if re.search(r'(?<![\w.])' + re.escape(alias) + r'\.', code)]


def trivial(item):
    """Returns a definition with the arguments of this one that always holds."""
    if item.kind == 'record':
        return [*item.lines[:next(i for i, line in enumerate(item.lines) if line.rstrip().endswith('where')) + 1], '  pub holds : Unit {0}']
    first = next(i for i, line in enumerate(item.lines) if line.startswith(item.name + ' '))
    left = item.lines[first].partition(' =')[0]
    while '(' in left:
        left = re.sub(r'\([^()]*\)', '_', left)
    return [*item.lines[:first], ' '.join([item.name] + ['_'] * (len(left.split()) - 1)) + ' = Unit {0}']


def write_specs(repository, reached, folder):
    by_module, children = {}, {}
    for item in reached:
        by_module.setdefault(item.module, []).append(item)
    for module, items in by_module.items():
        items.sort(key=lambda item: item.place)
        body = '\n'.join('\n'.join(item.comment + item.lines) + '\n' for item in items)
        lines = imports(repository.files[module], items, re.sub(r'(^|\s)--.*', ' ', body))
        path = moved(module).split('.')[3:]
        write(folder / 'specs' / f'{"/".join(path)}.antt', f'-- Definitions of {module}.\n' + '\n'.join(lines) + '\n\n' + body)
        for depth, name in enumerate(path):
            children.setdefault('/'.join(path[:depth]), set()).add(name)
    for parent, names in children.items():
        path = folder / 'specs' / f'{parent or "Lib"}.antt'
        path.parent.mkdir(parents=True, exist_ok=True)
        kept = path.read_text() if path.exists() else ''
        path.write_text(''.join(f'pub mod {name}\n' for name in sorted(names)) + kept)


def fields_of(repository, item, lines):
    """Returns the types that a type of the code names."""
    found = {word: repository.imported_type(repository.files[item.module], word) for word in re.findall(r'\b[A-Z]\w+', ' '.join(lines))}
    return [other for word, other in found.items() if other is not None and word != item.name]


def types_of(repository, definitions, shown):
    """Returns the types of the code that definitions name, and those that these types name."""
    todo, types = [other for item in definitions for other in repository.depends(item).values() if is_type(other)], {}
    while todo:
        item = todo.pop()
        if item.key not in types:
            types[item.key] = item
            todo += fields_of(repository, item, shown(item)[len(item.comment):])
    return list(types.values())


def write_code(repository, types, shown, folder):
    """Writes types of the code, with the fields that a definition reads."""
    texts, children = {}, {'lib': set()}
    for item in sorted(types, key=lambda item: item.place):
        crate, inner = re.match(r'Rattle\.(\w+)\.src\.(.*)$', item.module).groups()
        path = [crate] + inner.split('.')
        lines = [line for line in shown(item) if not line.strip().startswith(('//', '#['))]
        text = texts.setdefault('/'.join(path), {'use': set(), 'items': []})
        for other in fields_of(repository, item, lines):
            if other.module != item.module:
                their_crate, theirs = re.match(r'Rattle\.(\w+)\.src\.(.*)$', other.module).groups()
                text['use'].add(f'use crate::{their_crate}::{theirs.replace(".", "::")}::{other.name};')
        text['items'] += ['#[derive(Drop)]'] + lines + ['']
        children['lib'].add(crate)
        for depth in range(1, len(path)):
            children.setdefault('/'.join(path[:depth]), set()).add(path[depth])
    for path in {*texts, *children}:
        head = '#![tactic(auto)]\n\n' if path == 'lib' else ''
        modules = ''.join(f'pub mod {name};\n' for name in sorted(children.get(path, ())))
        text = texts.get(path, {'use': (), 'items': []})
        write(folder / 'src' / f'{path}.rt', f'//! Types that definitions name.\n{head}' + '\n'.join(sorted(text['use'])) + '\n' + modules + '\n' + '\n'.join(text['items']))


def write(path, text):
    path.parent.mkdir(parents=True, exist_ok=True)
    path.write_text(text)


def is_type(item):
    return item.kind == 'rust' and 'trait ' not in item.lines[0]


def reached_by(repository, page):
    """Returns what the clauses reach; of a stop that leads to types that the page does not print, only itself."""
    targets = [target for item in page.reached.values() for target in repository.depends(item).values()]
    printed = {*page.reached, *(target.key for target in targets if is_type(target))}
    stops = {}
    for target in targets:
        if target.name in page.stops and any(is_type(x) and x.key not in printed for x in repository.reach([target]).values()):
            stops[target.key] = target
    reached = repository.reach([item for _, item in page.clauses], {item.name for item in stops.values()})
    for item in stops.values():
        item.lines, item.deps = trivial(item), None
    return {**reached, **repository.reach(stops.values())}


def write_crate(repository, page, top):
    reached = reached_by(repository, page)
    crate = top / 'crates' / NAME
    write(top / 'crates.txt', f'{NAME}:\n')
    page.reached = reached  # so that `shown` keeps the fields that any of these definitions reads
    definitions = [item for item in reached.values() if item.kind not in ('rust', 'clause')]
    types = types_of(repository, definitions, page.shown)
    write_specs(repository, definitions, crate)
    write_code(repository, types, page.shown, crate)
    return crate, len(definitions), len(types)


def main():
    repository = statement.Repository(TOP)
    page = statement.read_pages(repository)[0]
    folder = Path(tempfile.mkdtemp(prefix='statement-'))
    try:
        crate, definitions, types = write_crate(repository, page, folder)
        if repository.faults:
            print('\n'.join(repository.faults), file=sys.stderr)
            return 1
        print(f'{definitions} definitions and {types} types, in {crate}')
        return subprocess.run(['rt', 'check', '--jobs', '1'], cwd=crate, check=False).returncode
    finally:
        if '-k' not in sys.argv[1:]:
            shutil.rmtree(folder)


if __name__ == '__main__':
    sys.exit(main())
