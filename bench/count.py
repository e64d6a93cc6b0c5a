#!/usr/bin/env python3
"""Counts the definitions that the contract of each public call of `Solver` or `Checker` reaches, and their levels.

bench/count.py [--crate CRATE] [--each] [--cut NAME,..] [--list CALL] [--root CHECKOUT]

CRATE is `sat_solver`, unless it is given, or `sat_checker`. A level is one definition below another. --each counts
each clause by itself, --cut does not look into these definitions, and --list prints what a call reaches. What
`SolverView` reaches is counted; its `view` and `invariant`, which no reader of a contract needs, are not. CHECKOUT may
be older than `facade`.
"""
import argparse
import re
import sys
from pathlib import Path

HERE = Path(__file__).resolve().parent
sys.path.insert(0, str(HERE))
import statement

# The calls of each crate's main type, by the modules that have them.
OF_CHECKER = {
    'checker': 'new notifying with_listeners add_processor add_transcript into_processors add_clause accept_step unsat'
               ' is_settled ended var_deleted user_name knows looks self_check_step self_check_delayed_steps',
    'checker.formula': 'add_formula', 'checker.dimacs': 'add_dimacs_cnf',
    'checker.proof': 'check_proof check_proof_with',
}
OF_SOLVER = {
    '': 'new notifying steps', '.solve': 'solve', '.assume': 'assume', '.clauses': 'add_clause',
    '.configure': 'config', '.formulas': 'add_formula add_dimacs_cnf',
    '.names': 'hide_var witness_var sample_var new_var observe_internal_vars', '.progress': 'progress',
    '.proof': 'write_proof enable_self_checking add_proof_processor close_proof into_target into_processors',
    '.answers': 'model failed_core',
}


def calls(root, crate):
    """The public calls, each with its module."""
    if crate == 'sat_checker':
        return [(module, name) for module, names in OF_CHECKER.items() for name in names.split()]
    facade = (root / 'crates/sat_solver/src/facade.rt').exists()
    return [('facade' if facade else 'solver' + part, name)
            for part, names in OF_SOLVER.items() for name in names.split()]


def clauses(file, function):
    """The place of a function, its signature, and its clauses: kind, label, lines."""
    at = next(i for i, line in enumerate(file.text) if re.match(rf'\s*(pub )?fn {function}\b', line))
    signature, found, block, depth = [], [], [], 0
    for line in file.text[at:]:
        if line.strip() == '{':
            break
        if not block and line.strip().startswith('//'):
            continue
        if not found and not block and not re.match(r'\s+(ensures|requires)', line):
            signature.append(line.strip())
            continue
        block.append(line)
        depth += line.count('{') - line.count('}')
        if depth == 0:
            kind, label = re.match(r'\s+(ensures|requires)\*?\s*(\w*)', block[0]).groups()
            found.append((kind, label, block))
            block = []
    return at, signature, found


def item_of(file, function, at, signature, chosen):
    """The clauses as one item, from which the search for definitions starts."""
    lines = ['fn ' + function + ' ' + ' '.join(signature)] + [line for clause in chosen for line in clause[2]]
    item = statement.Item(file.module, file.path, function, 'clause', [], lines)
    item.place = at
    devices = {'W': 'CountedWrite', 'R': 'CountedRead'}
    item.traits = [of for name, of in devices.items() if re.search(rf'\b{name}\.seen', '\n'.join(lines))]
    return item


def below(repository, item, cut):
    """All items that an item reaches, by their keys."""
    reached, todo = {}, [item]
    while todo:
        one = todo.pop()
        if one.key not in reached:
            reached[one.key] = one
            if one.name not in cut:
                todo += repository.depends(one).values()
    del reached[item.key]
    return reached


def levels(repository, item, cut, known, path=()):
    """The number of levels below an item."""
    if item.key in known:
        return known[item.key]
    if item.key in path or item.name in cut:
        return 0
    parts = repository.depends(item).values()
    known[item.key] = 1 + max((levels(repository, part, cut, known, path + (item.key,)) for part in parts), default=-1)
    return known[item.key]


def main():
    parser = argparse.ArgumentParser(description=__doc__.split('\n')[0])
    parser.add_argument('--root', type=Path, default=HERE.parent)
    parser.add_argument('--crate', choices=['sat_solver', 'sat_checker'], default='sat_solver')
    parser.add_argument('--each', action='store_true')
    parser.add_argument('--cut', default='')
    parser.add_argument('--list', default='')
    options = parser.parse_args()
    repository = statement.Repository(options.root)
    cut = {name for name in options.cut.split(',') if name}
    total = {}

    def report(label, item):
        found = below(repository, item, cut)
        size = sum(one.size for one in found.values())
        print(f'{label:28} {len(found):4} definitions {size:6,} lines {levels(repository, item, cut, {}):3} levels')
        return found

    for module, function in calls(options.root, options.crate):
        file = repository.code(options.crate, module)
        at, signature, found = clauses(file, function)
        reached = report(function, item_of(file, function, at, signature, found))
        total.update(reached)
        if options.list == function:
            print('\n'.join(sorted(f'    {one.module}.{one.name}' for one in reached.values())))
        if options.each and len(found) > 1:
            for clause in found:
                report(f'    {clause[0]} {clause[1]}', item_of(file, function, at, signature, [clause]))
    print(f'all: {len(total)} definitions, {sum(one.size for one in total.values()):,} lines')
    for fault in repository.faults:
        print('not found:', fault)


main()
