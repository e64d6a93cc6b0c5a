#!/usr/bin/env python3
"""Makes docs/STATEMENT.md and docs/PROGRAM_STATEMENT.md from their prose in bench/, with clauses and definitions from the sources.

    statement.py            writes both pages, and prints how much each clause reaches
    statement.py --check    fails if a page is not what it would write
    statement.py --root D   of the checkout at D; --out D: into another folder; --why NAME: how a definition is reached

Lines of bench/statement.md and bench/program_statement.md that begin with `@`:

    @stop NAME: TEXT               this definition is not printed, nor what only it uses; the page describes it by TEXT
    @clause CRATE FUNCTION NAME..  prints clauses of the public function or law CRATE::FUNCTION; `-` is a clause without a name
    @print WORD..                  prints definitions, in this order: by name, or all others of the modules that match a pattern, with types first,
                                   and then each after those that use it
    @stops, @counts                print a table of what is not printed, and of sizes; @count CRATE FUNCTION NAME.. adds a row to it
    @notation, @library            precede a table that has a row for each operator, or each name of the standard library, that is used
    @earlier                       prints a table of the definitions that only the first page prints

A definition that the clauses reach is printed by the first `@print` that has its name, or else by the first with its module; so is an enum
that a clause's function returns. It is a fault if none has it, if prose quotes a word of code that the page does not print, or if a table
has a row too many or too few. The second page does not print what the first one does.
It reads only sources, and needs only Python 3.
"""
import argparse
import re
import sys
from pathlib import Path

# The pages, in docs/; their prose has the same names in bench/, in lower case.
PAGES = ['STATEMENT', 'PROGRAM_STATEMENT']

# Fields of the library's own types, and what a clause says of an argument.
OF_THE_LIBRARY = ['items', 'now', 'old', 'new', 'seen', 'remaining', 'contents']

WORD = re.compile(r'[^\s(){}\[\],;"`]+')
HEAD = re.compile(r'^((?:(?:pub|abbrev|unfoldable|opaque)\s+)*)(record\s+|data\s+)?(?:pub\s+)?([^\s:({]+)(.*)$')


class Item:
    """A definition, a type, a trait or a clause: its comment, its lines, and what it names."""

    def __init__(self, module, file, name, kind, comment, lines):
        self.module, self.file, self.name, self.kind = module, file, name, kind
        self.comment, self.lines = comment, lines
        self.members = []
        self.deps = None
        self.std = set()
        self.place = 0

    @property
    def key(self):
        return (self.module, self.name)

    @property
    def size(self):
        return sum(1 for line in self.lines if line.strip() and not line.strip().startswith(('--', '//')))


class File:
    """A file of definitions or of code, with the names that it imports."""

    def __init__(self, path, module):
        self.path, self.module = path, module
        self.names, self.aliases, self.items = {}, {}, []

    def import_line(self, line):
        m = re.match(r'(?:ghost |pub )?use (Rattle\.\S+?)\.\{(.*)\};?$', line)
        if m:
            for word in m.group(2).split(','):
                old, _, new = word.strip().partition(' as ')
                self.names[(new or old).strip()] = (m.group(1), old.strip())
            return True
        m = re.match(r'(?:ghost |pub )?use (Rattle\.\S+) as (\S+?);?$', line)
        if m:
            self.aliases[m.group(2)] = m.group(1)
            return True
        return False


class Repository:
    def __init__(self, root):
        self.root = root
        self.files, self.items, self.makers, self.rust = {}, {}, {}, {}
        self.faults = []
        for path in sorted(root.glob('crates/*/specs/**/*.antt')):
            if 'out' not in path.relative_to(root).parts:
                self.read_specs(path)

    def read_specs(self, path):
        module = 'Rattle.' + '.'.join(path.relative_to(self.root / 'crates').with_suffix('').parts)
        file = File(path.relative_to(self.root), module)
        self.files[module] = file
        comment, current, outer = [], None, []
        for number, line in enumerate(path.read_text().split('\n')):
            if line.strip():
                lead = len(line) - len(line.lstrip())
                while outer and lead <= outer[-1][0]:
                    outer.pop()
                if re.match(r'\s*module .* where$', line):
                    outer.append([lead, None, line.strip()])
                    comment, current = [], None
                    continue
                if outer:
                    outer[-1][1] = outer[-1][1] or lead
                    line = line[outer[-1][1]:]
            if file.import_line(line):
                continue
            if not line.strip():
                comment, current = [], None
            elif line.startswith('--'):
                comment.append(line)
            elif line.startswith(' ') or line.startswith('}'):
                if current is not None:
                    current.lines += comment + [line]
                    comment = []
                    m = re.match(r'\s+(?:pub\s+)?([^\s:()]+)\s*:', line)
                    if m and current.kind in ('record', 'data'):
                        current.members.append(m.group(1))
            else:
                m = HEAD.match(line)
                if m is None or line.startswith('pub mod '):
                    comment = []
                    continue
                name = m.group(3)
                if current is not None and name == current.name and not m.group(1):
                    current.lines += comment + [line]
                else:
                    kind = (m.group(2) or 'value').strip()
                    current = Item(module, file.path, name, kind, comment, [of for _, _, of in outer] + [line])
                    current.place = number
                    file.items.append(current)
                    self.items[current.key] = current
                comment = []
        for item in file.items:
            if item.kind == 'data':
                for member in item.members:
                    self.makers[(module, member)] = item

    # CODE

    def code(self, crate, module):
        """Returns the source file of a module, by its path within src/."""
        for path in (self.root / 'crates' / crate / 'src').rglob('*.rt'):
            inner = '.'.join(path.relative_to(self.root / 'crates' / crate / 'src').with_suffix('').parts)
            if inner == module:
                key = f'Rattle.{crate}.src.{inner}'
                if key not in self.files:
                    file = File(path.relative_to(self.root), key)
                    file.text = path.read_text().split('\n')
                    for line in file.text:
                        file.import_line(line)
                    self.files[key] = file
                return self.files[key]
        return None

    def typed(self, crate, module, name, kinds='enum|struct'):
        """Returns a type or trait of the code; without a module, anywhere in the crate."""
        key = (crate, module, name, kinds)
        if key in self.rust:
            return self.rust[key]
        self.rust[key] = None
        sources = self.root / 'crates' / crate / 'src'
        modules = [module] if module else sorted(
            '.'.join(p.relative_to(sources).with_suffix('').parts) for p in sources.rglob('*.rt'))
        for inner in modules:
            file = self.code(crate, inner)
            if file is None:
                continue
            for at, line in enumerate(file.text):
                if not re.match(rf'(?:pub(?:\(crate\))? )?(?:{kinds}) {name}\b', line):
                    continue
                start = at
                while start and file.text[start - 1].startswith(('///', '#[')):
                    start -= 1
                end = at
                if not line.rstrip().endswith((';', '}')):
                    while not file.text[end].startswith('}'):
                        end += 1
                comment = [x for x in file.text[start:at] if x.startswith('///')]
                lines = file.text[at:end + 1]
                if kinds == 'trait':
                    lines = self.described(lines)
                item = Item(file.module, file.path, name, 'rust', comment, lines)
                item.place = at
                self.rust[key] = item
                return item
        return None

    @staticmethod
    def described(lines):
        """Returns a trait's ghost members and required calls, without provided bodies."""
        kept, block, depth = [lines[0]], [], 0
        for line in lines[1:-1]:
            block.append(line)
            depth += line.count('{') - line.count('}')
            if depth == 0 and line.rstrip().endswith((';', '}')) and not re.match(r'\s+ensures', line) or not line.strip():
                text = '\n'.join(block)
                if line.rstrip().endswith(';'):
                    kept += block
                if line.rstrip().endswith((';', '}')) or not line.strip():
                    block = []
            elif depth == 0 and line.rstrip().endswith('};'):
                kept += block
                block = []
        return kept + [lines[-1]]

    def clause(self, crate, module, function, names):
        file = self.code(crate, module)
        if file is None:
            return None
        text = file.text
        at = next((i for i, line in enumerate(text) if re.match(rf'(?:pub(?:\(crate\))? )?fn {function}\b', line)), None)
        if at is None:
            return None
        start = at
        while start and text[start - 1].startswith('///'):
            start -= 1
        end = at
        while text[end] not in ('{', '{}'):
            end += 1
        head = at
        while head < end and not re.match(r'\s+(//|ensures|requires)', text[head]):
            head += 1
        lines, comment, block, found, depth = text[at:head], [], [], [], 0
        for line in text[head:end]:
            if not block and line.strip().startswith('//'):
                comment.append(line)
                continue
            if not line.strip():
                comment = []
                continue
            block.append(line)
            depth += line.count('{') - line.count('}')
            if depth == 0:
                m = re.match(r'\s+(ensures|requires)\*?\s*(\w*)', block[0])
                if m and (m.group(1) == 'requires' or m.group(2) in names):
                    lines += comment + block
                    found.append(m.group(2))
                comment, block = [], []
        if not found:
            return None
        item = Item(file.module, file.path, function, 'clause', text[start:at], lines)
        item.name = '.'.join([function] + names)
        item.place = at
        bounds = dict(re.findall(r'(\w+): (\w+)', ' '.join(text[at:head])))
        item.traits = sorted({bounds[p] for p in re.findall(r'\b([A-Z])\.seen', '\n'.join(lines)) if p in bounds})
        return item

    def imported_type(self, file, name):
        """Returns a type that code names: of its own file, or of a `use` line."""
        crate = file.module.split('.')[1]
        inner = file.module.split('.src.')[1]
        own = self.typed(crate, inner, name)
        if own is not None:
            return own
        for line in file.text:
            m = re.match(r'use ([\w:]+?)(?:::\{(.*)\})?;$', line)
            if m is None:
                continue
            words = [w.strip() for w in m.group(2).split(',')] if m.group(2) else [m.group(1).split('::')[-1]]
            if name in words:
                of = m.group(1).split('::')[0]
                of = crate if of in ('crate', 'super', 'self') else of
                if (self.root / 'crates' / of).is_dir():
                    return self.typed(of, None, name)
        return None

    def enums_returned(self, item):
        """Returns the enums of the code in the result type of a clause's function."""
        at = next(i for i, line in enumerate(item.lines) if re.match(r'\s+(ensures|requires|//)', line))
        words = re.findall(r'\b[A-Z]\w+', ' '.join(item.lines[:at]).partition('->')[2])
        types = [self.imported_type(self.files[item.module], word) for word in words]
        return [t for t in types if t is not None and 'enum ' in t.lines[0]]

    # NAMES

    def named(self, module, name, item):
        """Returns what a name of a module is: a definition, the data of a constructor, or a type of the code. Otherwise it is a word of the library."""
        if (module, name) in self.items:
            return self.items[(module, name)]
        if (module, name) in self.makers:
            return self.makers[(module, name)]
        m = re.match(r'Rattle\.(\w+)\.specs\.declared\.(.*)$', module)
        if m:
            parts = m.group(2).split('.')
            if parts[-1].startswith('The'):
                parts = parts[:-1]
            return self.typed(m.group(1), '.'.join(parts[:-1]), parts[-1])
        if module.startswith(('Rattle.std.', 'Rattle.core.')):
            item.std.add((module, name))
        elif module in self.files and name in self.files[module].names:
            return self.named(*self.files[module].names[name], item)
        elif module in self.files:
            self.fault(f'{item.file}: {module} has no {name}')
        return None

    def depends(self, item):
        if item.deps is not None:
            return item.deps
        file, found = self.files[item.module], {}

        def add(target):
            if target is not None and target is not item:
                found[target.key] = target

        if item.kind == 'rust':
            for line in item.lines:
                line = line.split('//')[0]
                for word in re.findall(r'\b[A-Z]\w+', line):
                    if word != item.name:
                        add(self.typed(file.module.split('.')[1], file.module.split('.src.')[1], word))
                if 'ensures' in line or 'ghost' in line:
                    self.words(file, item, re.sub(r'^.*?\{', '', line), set(), add)
        elif item.kind == 'clause':
            for name in item.traits:
                for line in file.text:
                    m = re.match(r'use (\w+)::\{?(.*?)\}?;$', line)
                    if m and name in [w.strip() for w in m.group(2).split(',')]:
                        add(self.typed(m.group(1), None, name, 'trait'))
            at = next(i for i, line in enumerate(item.lines) if re.match(r'\s+(ensures|requires|//)', line))
            text = '\n'.join(re.sub(r'//.*', '', x) for x in item.lines[at:])
            text = re.sub(r'\b(ensures|requires)\*?\s*\w*\s*\{', '', text)
            self.words(file, item, text, self.bound(text, item, file), add)
            for name in re.findall(r'\b([A-Z]\w+)\.[A-Z]', text):
                add(self.imported_type(file, name))
            read = set(re.findall(r'\.([a-z_]\w*)', text))
            todo, seen = re.findall(r'\b[A-Z]\w+', ' '.join(item.lines[:at]).partition('->')[2]), set()
            while todo:
                name = todo.pop()
                type_named = self.imported_type(file, name) if name not in seen else None
                seen.add(name)
                if type_named is not None:
                    fields = re.findall(r'^\s+(?:pub )?([a-z_]\w*): (.*),$', '\n'.join(type_named.lines), re.M)
                    if any(f in read for f, _ in fields):
                        add(type_named)
                        todo += [w for f, of in fields if f in read for w in re.findall(r'\b[A-Z]\w+', of)]
        else:
            everywhere = set()
            if item.kind in ('record', 'data'):
                header = item.lines[0]
                everywhere |= self.bound(header, item, file)
                if item.kind == 'record':
                    everywhere |= set(item.members)
            for group in self.groups(item):
                text = '\n'.join(re.sub(r'(^|\s)--.*', '', x) for x in group)
                bound = everywhere | self.bound(text, item, file)
                self.words(file, item, text, bound, add)
        item.deps = found
        return found

    @staticmethod
    def groups(item):
        """Returns the signature and each equation, with the lines that continue it; of a record or a data type each member."""
        groups = []
        for line in item.lines:
            if item.kind in ('record', 'data') or not line.startswith(' ') and not line.startswith('}'):
                if item.kind in ('record', 'data') and groups and re.match(r'\s+→', line):
                    groups[-1].append(line)
                else:
                    groups.append([line])
            else:
                groups[-1].append(line)
        return groups

    def is_maker(self, file, name):
        target = file.names.get(name, (file.module, name))
        return target in self.makers or '.TheVariants' in target[0] or name in ('true', 'false', 'zero', 'suc', 'None', 'Some', 'Ok', 'Err')

    def bound(self, text, item, file):
        """Returns the names that a piece of text binds: by a type, a lambda, a `let` or a pattern."""
        names = set()
        for group in re.findall(r'[({]((?:[^\s(){}:;=]+\s+)*[^\s(){}:;=]+)\s+:\s', text):
            names |= set(group.split())
        for group in re.findall(r'λ\s+([^.()]*)\.', text):
            names |= set(group.split())
        names |= set(re.findall(r'\blet\s+([^\s:=]+)', text))
        lines = text.split('\n')
        m = re.match(r'(\S+)(.*?)\s=(\s|$)', lines[0])
        if m and item.kind == 'value' and m.group(1) == item.name:
            for word in WORD.findall(m.group(2)):
                if not self.is_maker(file, word):
                    names.add(word)
        return names

    def words(self, file, item, text, bound, add):
        text = re.sub(r'"[^"]*"', ' ', text)
        text = re.sub(r'([{;]\s*)[^\s=;{}()]+\s+=(?=\s)', r'\1', text)  # a field's label
        for word in WORD.findall(text):
            word = word.lstrip('.@?!')
            parts = [p for p in word.split('.') if p] or ['']
            head = parts[0]
            if head in bound or head == item.name:
                continue
            if head in file.aliases and len(parts) > 1:
                add(self.named(file.aliases[head], parts[1], item))
            elif head in file.names:
                add(self.named(*file.names[head], item))
            elif (file.module, head) in self.items or (file.module, head) in self.makers:
                add(self.named(file.module, head, item))

    def reach(self, roots, stops=(), known=()):
        seen, todo = {}, list(roots)
        while todo:
            item = todo.pop()
            if item.key not in seen and item.name not in stops and item.key not in known:
                seen[item.key] = item
                todo += self.depends(item).values()
        return seen

    def check_fields(self, items, earlier, stops):
        """Checks that each field that is read belongs to a record or type that is printed, or to that of a value that is not printed."""
        items = list(items)
        known = set(OF_THE_LIBRARY)
        for item in items + earlier:
            known |= set(item.members)
            for target in self.depends(item).values():
                if target.name in stops:
                    known |= {member for of in self.depends(target).values() for member in of.members}
            if item.kind == 'rust':
                known |= set(re.findall(r'\b([a-z_]\w*):', '\n'.join(item.lines)))
        for item in items:
            if item.kind == 'rust':
                continue
            for line in item.lines:
                line = re.sub(r'"[^"]*"|(--|//).*|λ[^.]*\.', ' ', line)
                for field in re.findall(r'[\w)]\.([a-z_]\w*)', line):
                    if field not in known:
                        self.fault(f'{item.file}: {item.name} reads a field {field}, and no record on the page has one')

    def depth(self, item, kept, path=()):
        if item.key in kept:
            return kept[item.key]
        if item.key in path:
            return 0
        below = [self.depth(x, kept, path + (item.key,)) for x in self.depends(item).values()]
        kept[item.key] = 1 + max(below, default=-1)
        return kept[item.key]

    def fault(self, text):
        if text not in self.faults:
            self.faults.append(text)



class Page:
    """A page: its template, the clauses that this asks for, and what they reach. `earlier` is the page before it, or None."""

    def __init__(self, repository, template, earlier=None):
        self.repository = repository
        self.template = template
        self.earlier = earlier
        self.stops, self.prints, self.clauses, self.counted = {}, [], [], []
        self.begun = set()
        fenced = False
        for number, line in enumerate(template):
            fenced ^= line.startswith('```')
            if fenced or not line.startswith('@'):
                continue
            word, _, rest = line.partition(' ')
            words = rest.split()
            if word == '@stop':
                name, _, text = rest.partition(': ')
                self.stops[name] = text
            elif word == '@print':
                self.prints.append((number, words))
            elif word in ('@clause', '@count'):
                item = self.clause(words)
                if item is not None:
                    (self.clauses if word == '@clause' else self.counted).append((number, item))
            elif word not in ('@stops', '@counts', '@notation', '@library', '@earlier'):
                repository.fault(f'there is no directive {word}')
        self.own_stops = self.stops
        if earlier is not None:
            self.stops = {**earlier.stops, **self.own_stops}
        self.roots = [item for _, item in self.clauses]
        self.roots += [fault for item in self.roots for fault in repository.enums_returned(item)]
        self.reached = repository.reach(self.roots, self.stops, self.known())
        self.place()
        self.check_stops()

    def known(self):
        """Returns what the earlier page prints, clauses aside."""
        return {key: item for key, item in self.earlier.reached.items() if item.kind != 'clause'} if self.earlier else {}

    def clause(self, words):
        crate, _, module = words[0].partition('/')
        item = self.repository.clause(crate, module, words[1], ['' if w == '-' else w for w in words[2:]])
        if item is None:
            self.repository.fault(f'{words[0]} has no clause {" ".join(words[1:])}')
        return item

    # WHAT IS PRINTED WHERE

    def top_down(self):
        """Returns what the clauses reach: each definition after all that use it, and otherwise in the order of use."""
        order, seen = [], set()

        def visit(item):
            if item.key in seen or item.key not in self.reached:
                return
            seen.add(item.key)
            for target in reversed(list(self.repository.depends(item).values())):
                visit(target)
            order.append(item)

        for item in reversed(self.roots):
            visit(item)
        return [item for item in reversed(order) if item.kind != 'clause']

    def place(self):
        """Gives each definition that is reached to one `@print`."""
        self.printed = {number: [] for number, _ in self.prints}
        order = sorted(self.top_down(), key=lambda item: not is_plain_type(item))
        names = [word for _, words in self.prints for word in words if '.' not in word]
        left = {item.key: item for item in order if item.name not in names}
        for number, words in self.prints:
            for word in words:
                if '.' in word:
                    found = [item for item in left.values() if is_of(item, word)]
                    for item in found:
                        del left[item.key]
                else:
                    found = [item for item in order if item.name == word]
                    if len(found) != 1 or names.count(word) != 1:
                        self.repository.fault(f'@print {word}: there are {len(found)} definitions of this name, and {names.count(word)} @print lines have it')
                self.printed[number] += found
            if not self.printed[number]:
                self.repository.fault(f'@print {" ".join(words)} prints nothing')
        for item in left.values():
            self.repository.fault(f'no @print has {item.name} of {item.module}; --why {item.name} says what uses it')

    def check_stops(self):
        used = {target.name for item in self.reached.values() for target in self.repository.depends(item).values()}
        for name in self.own_stops:
            if name not in used:
                self.repository.fault(f'@stop {name}: no definition of the page uses it')

    def why(self, name):
        """Returns the chains of definitions by which the clauses reach this name."""
        chains = []
        for _, start in self.clauses:
            todo, came = [start], {start.key: None}
            while todo:
                item = todo.pop(0)
                for key, target in self.repository.depends(item).items():
                    if key not in came and target.name not in self.stops and key not in self.known():
                        came[key] = item
                        todo.append(target)
            for key in came:
                if key[1] == name:
                    path, at = [name], came[key]
                    while at is not None:
                        path.append(at.name)
                        at = came[at.key]
                    chains.append(' < '.join(path))
        return chains

    # TEXT

    def fields_read(self):
        code = '\n'.join(line for item in self.reached.values() if item.kind != 'rust' for line in code_of(item))
        return set(re.findall(r'\.([a-z_]\w*)', code))

    def shown(self, item):
        """Returns the lines of a definition; of a struct of the code, only the fields that something on the page reads."""
        if item.kind != 'rust':
            return item.comment + item.lines
        lines = [line for line in item.lines if not line.strip().startswith('#[')]
        if 'struct ' not in lines[0] or len(lines) < 3:
            return item.comment + lines
        kept, block, elided, read = [], [], [], self.fields_read()
        for line in lines[1:-1]:
            block.append(line)
            m = re.match(r'\s+(?:pub )?([a-z_]\w*):', line)
            if m:
                if m.group(1) in read:
                    kept += block
                else:
                    elided.append(m.group(1))
                block = []
        if elided:
            kept.append(f'    // and {", ".join(elided)}: nothing on this page reads {"it" if len(elided) == 1 else "them"}')
        return item.comment + lines[:1] + kept + lines[-1:]

    def block(self, items):
        """Returns definitions, with the files that they are from."""
        files = dict.fromkeys(within_crates(item.file) for item in items)
        out, language = ['From ' + ', '.join(f'`{file}`' for file in files) + ':'], None
        for item in items:
            wanted = 'rust' if item.kind == 'rust' else 'text'
            if wanted != language:
                out += (['```'] if language else []) + ['', f'```{wanted}']
                language = wanted
            else:
                out.append('')
            out += self.shown(item)
        return out + ['```']

    def clause_block(self, item):
        head = next(i for i, line in enumerate(item.lines) if re.match(r'\s+(ensures|requires|//)', line))
        function = item.name.split('.')[0]
        if function in self.begun:
            lines = [f'// {function}, again'] + item.lines[head:]
        else:
            lines = item.comment + item.lines
        self.begun.add(function)
        return [f'From `{within_crates(item.file)}`:', '', '```rust', *lines, '```']

    def rows(self):
        rows, repository = [], self.repository
        for _, item in self.counted:
            full, short = repository.reach([item]), repository.reach([item], self.stops, self.known())
            below = [i for i in full.values() if i is not item]
            rows.append((title_of(item), len(short) - 1, len(below), sum(i.size for i in below), repository.depth(item, {})))
        return rows

    def earlier_rows(self):
        """Returns, for each chapter of the earlier page, what this page uses of it."""
        used = {target.key: target for item in self.reached.values() for target in self.repository.depends(item).values()}
        rows, chapter = {}, ''
        for number, line in enumerate(self.earlier.template):
            if re.match(r'#+ ', line):
                chapter = line.lstrip('# ')
            names = [item.name for item in self.earlier.printed.get(number, ()) if item.key in used]
            if line == '@stops':
                names = [name for name in self.earlier.stops if any(item.name == name for item in used.values())]
            rows[chapter] = rows.get(chapter, []) + names
        return [f'| {chapter} | {", ".join(f"`{name}`" for name in names)} |' for chapter, names in rows.items() if names]

    def text(self):
        out, fenced = [], False
        clauses = dict(self.clauses)
        for number, line in enumerate(self.template):
            fenced ^= line.startswith('```')
            word = line.partition(' ')[0]
            if fenced or not line.startswith('@'):
                out.append(line)
            elif number in self.printed:
                out += self.block(self.printed[number])
            elif number in clauses:
                out += self.clause_block(clauses[number])
            elif word == '@stops':
                out += ['| Not printed | What it is | File |', '|---|---|---|']
                for name, text in self.own_stops.items():
                    target = next((t for i in self.reached.values() for t in self.repository.depends(i).values() if t.name == name), None)
                    out.append(f'| `{name}` | {text} | `{within_crates(target.file) if target else "?"}` |')
            elif word == '@earlier':
                out += ['| Chapter | Words |', '|---|---|'] + self.earlier_rows()
            elif word == '@counts':
                out += ['| Clause | Definitions printed | Definitions used | Lines | Depth |', '|---|---|---|---|---|']
                out += [f'| {a} | {b} | {c} | {d:,} | {e} |' for a, b, c, d, e in self.rows()]
        text = '\n'.join(out).rstrip('\n') + '\n'
        self.repository.check_fields(self.reached.values(), list(self.known().values()), self.stops)
        self.check_tables()
        self.check_prose()
        return re.sub(r'\n{3,}', '\n\n', text)

    # FAULTS

    def table_after(self, directive):
        """Returns the code of the first cells of the table that follows a directive."""
        found = []
        if directive not in self.template:
            if self.earlier is None:
                self.repository.fault(f'there is no {directive}')
            return found
        at = self.template.index(directive) + 1
        while at < len(self.template) and not self.template[at].startswith('#'):
            if self.template[at].startswith('| `'):
                found += re.findall(r'`([^`]+)`', re.split(r' \| ', self.template[at][2:])[0].replace('\\|', '|'))
            at += 1
        return found

    def check_tables(self):
        library = {name for item in self.reached.values() for _, name in item.std}
        rows = [code.split()[0] for code in self.table_after('@library')]
        earlier = [code.split()[0] for code in self.earlier.table_after('@library')] if self.earlier else []
        for name in sorted(library - set(rows) - set(earlier)):
            self.repository.fault(f'@library has no row for {name}')
        for name in rows:
            if name not in library or rows.count(name) > 1:
                self.repository.fault(f'@library has a row too many for {name}')
        symbols = ' '.join(self.table_after('@notation') + (self.earlier.table_after('@notation') if self.earlier else [])).split()
        for item in self.reached.values():
            file = self.repository.files[item.module]
            words = ' '.join(code_of(item)).split()
            for name in file.names:
                operator = name.strip('◌')
                if '◌' in name and '◌' not in operator and operator in words and operator not in symbols:
                    self.repository.fault(f'@notation has no row for {operator}')
            for word in ('×', '⊥', 'λ', '→', 'Unit', 'Type', 'let', 'abbrev', 'unfoldable', 'record', 'data'):
                if word in words and word not in symbols:
                    self.repository.fault(f'@notation has no row for {word}')

    def known_words(self):
        """Returns the words of code that this page and the earlier one print."""
        known = set(self.stops) | {w for item in self.reached.values() for _, w in item.std}
        known |= set(re.findall(r'\w+', ' '.join(self.table_after('@notation')))) | {'Ok', 'Err'}
        for item in self.reached.values():
            known |= set(re.findall(r'\w+', ' '.join(code_of(item)))) | set(item.name.split('.'))
            known |= set(re.findall(r'\w+', ' '.join(re.findall(r'"([^"]*)"', '\n'.join(item.lines)))))
        return known | self.earlier.known_words() if self.earlier else known

    def check_prose(self):
        """Checks that each word of code in the prose is printed, and that each file is there."""
        known = self.known_words()
        for line in self.template:
            if line.startswith('```') or line.startswith('@') and not line.startswith('@stop'):
                continue
            for code in re.findall(r'`([^`]+)`', line):
                if re.fullmatch(r'[\w.]+/[\w./]+|\w+\.md', code):
                    if not (self.repository.root / code).exists():
                        self.repository.fault(f'the prose names {code}, and there is no such file')
                elif re.fullmatch(r'[A-Za-z_][\w.]{2,}', code):
                    for word in code.split('.'):
                        if word not in known and not word.isdigit():
                            self.repository.fault(f'the prose has `{code}`, and the page does not print {word}')
                    owner, _, field = code.partition('.')
                    if any(item.name == owner and item.members and field and field not in item.members for item in self.reached.values()):
                        self.repository.fault(f'the prose has `{code}`, and {owner} has no {field}')


def within_crates(file):
    return file.relative_to('crates').as_posix()


def is_of(item, pattern):
    module = item.module[len('Rattle.'):]
    return module == pattern or pattern.endswith('.*') and module.startswith(pattern[:-1])


def is_plain_type(item):
    return item.kind in ('data', 'record') and not re.search(r'[({]', item.lines[0].partition(':')[0])


def code_of(item):
    """Returns the lines of an item without comments and texts; of a clause from its first clause on."""
    lines = item.lines
    if item.kind == 'clause':
        lines = lines[next(i for i, line in enumerate(lines) if re.match(r'\s+(ensures|requires|//)', line)):]
    return [re.sub(r'"[^"]*"|(^|\s)(--|//).*', ' ', line) for line in lines]


def title_of(item):
    function, *clauses = item.name.split('.')
    kind = 'law' if item.file.stem.startswith('law') else 'clause of'
    return ', '.join(f'`{c}`' for c in clauses if c) + f' of `{function}`' if any(clauses) else f'{kind} `{function}`'


def read_pages(repository):
    pages = []
    for name in PAGES:
        template = repository.root / 'bench' / f'{name.lower()}.md'
        if template.exists():
            pages.append(Page(repository, template.read_text().split('\n'), pages[0] if pages else None))
    return pages


def main():
    parser = argparse.ArgumentParser()
    parser.add_argument('--check', action='store_true')
    parser.add_argument('--root', type=Path)
    parser.add_argument('--out', type=Path)
    parser.add_argument('--why')
    args = parser.parse_args()
    root = args.root or next((p for p in Path(__file__).resolve().parents if (p / 'crates.txt').exists()), Path('.'))
    repository = Repository(root)
    pages = read_pages(repository)
    if args.why:
        for page in pages:
            print('\n'.join(page.why(args.why)))
        return 0
    texts = [page.text() for page in pages]
    if repository.faults:
        print('\n'.join(f'statement.py: {fault}' for fault in repository.faults), file=sys.stderr)
        return 1
    status = 0
    for name, page, text in zip(PAGES, pages, texts):
        for title, printed, used, lines, depth in page.rows():
            print(f'{title:38} {printed:4} definitions printed, of {used:4}, {lines:6,} lines, depth {depth}')
        shown = [item for items in page.printed.values() for item in items]
        print(f'{name + ".md":38} {len(shown):4} definitions, {sum(item.size for item in shown):6,} lines')
        file = (args.out or root / 'docs') / f'{name}.md'
        if not args.check:
            file.write_text(text)
        elif not file.exists() or file.read_text() != text:
            print(f'{file} is not up to date', file=sys.stderr)
            status = 1
    return status


if __name__ == '__main__':
    sys.exit(main())
