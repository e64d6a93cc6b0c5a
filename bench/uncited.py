#!/usr/bin/env python3
"""Lists what nothing cites, crate by crate, and fails if there is any: uncited.py [CRATE..]

In .antt files these are definitions and lemmas that no contract and no answer to the prover uses, directly or indirectly. In .rt files they are
functions, types and constants that no library exports, directly or indirectly, and no program or test uses. What only dead items cite is dead. A
library exports the `pub use` of its root file, with public methods.

Never dead are answers in proofs/FUNCTION/, functions that state laws, what a trait requires, rows that are computed, and lemmas that a
CALLING.md names with their file. Names are followed through `use` lines. A variable with a lemma's name counts as citing it, so the list
may miss something dead. Not part of the gate. Takes some seconds.
"""
import collections
import os
import re
import sys

TOP = os.path.dirname(os.path.dirname(os.path.abspath(__file__)))
WORD = re.compile(r"[^\s(){}\[\];,]+")


def files_below(folder, ending):
    for where, folders, names in os.walk(folder):
        folders[:] = sorted(name for name in folders if name != "out")
        for name in sorted(names):
            if name.endswith(ending):
                yield os.path.join(where, name)


def read_lines(path, comment):
    with open(path, encoding="utf-8") as file:
        return [re.sub(comment, "", line.rstrip("\n")) for line in file]


def braced(text):
    """Yields the names of `a, b as c`, each as theirs and ours."""
    for part in text.split(","):
        words = part.split()
        if words:
            yield words[0], words[-1]


# ---- definitions and lemmas

Item = collections.namedtuple("Item", "file name line words")


def parts_of(lines):
    """Yields the parts that begin at the left edge, as numbered lines; of a `module _ .. where` each part inside it, then its header."""
    begins = [i for i, (_, line) in enumerate(lines) if line and line[0] not in " )}]"] + [len(lines)]
    for begin, end in zip(begins, begins[1:]):
        part = lines[begin:end]
        if not part[0][1].startswith("module"):
            yield part
            continue
        last = next(i for i, (_, line) in enumerate(part) if line.rstrip().endswith(" where"))
        header = [(n, "  " + line) for n, line in part[: last + 1]]
        for inner in parts_of([(n, line.removeprefix("  ")) for n, line in part[last + 1:]]):
            yield inner + header


class Module:
    """A file of definitions: what it imports, and the words of each of its definitions."""

    def __init__(self, path, crate, name):
        self.path, self.crate, self.name = path, crate, name
        self.imports, self.aliases = {}, {}
        self.items, self.parent, self.kept = {}, {}, set()
        current = None
        for part in parts_of(list(enumerate(read_lines(path, r"(^|\s)--(\s.*)?$"), 1))):
            text = "\n".join(line for _, line in part)
            words = text.split()
            if re.match(r"(pub )?use ", text):
                self.add_import(text)
            elif words[0] == "unfolding":
                self.items[current].words.extend(WORD.findall(text)[1:])
            elif not re.match(r"(pub )?(mod|infix[lr]?) ", text):
                current = self.add(text, part[0][0], current)

    def add_import(self, text):
        source, names, alias = re.match(r"(?:pub )?use ([^\s{]+?)\.?\s*(?:\{(.*)\})?\s*(?:as (\S+))?\s*$", text, re.S).groups()
        if names is None:
            self.aliases[alias or source.split(".")[-1]] = source
        else:
            self.imports.update({ours: (source, theirs) for theirs, ours in braced(names)})

    def add(self, text, line, current):
        """Adds a signature, a declaration, or an equation of the item before it. Returns the name."""
        found = re.match(r"(?:(?:abbrev|pub|unfoldable) )*(?:(data|record|ruleset) (\S+)|(\S+)(?: \{[^}]*\})? :\s)", text)
        if not found:
            self.items[current].words.extend(self.words_of_equation(text))
            if re.fullmatch(re.escape(current) + r" = refl\s*", text) and not {"→", ":"} & set(self.items[current].words[1:]):
                self.kept.add(current)
            return current
        kind, declared, signed = found.groups()
        name = declared or signed
        if kind == "data":
            self.parent.update({constructor: name for constructor in re.findall(r"^  (\S+) :", text, re.M)})
        if re.match(r"(abbrev )?(pub )?\S+ : (\S+ → )?goal\.", text):
            self.kept.add(name)
        self.items[name] = Item(self, name, line, WORD.findall(text.split(name, 1)[1]))
        return name

    def words_of_equation(self, text):
        """Returns the words of an equation, except those that its left side binds."""
        depth, left = 0, None
        for found in re.finditer(r"[({\[]|[)}\]]|(?<=\s)=(?=\s)", text):
            if found.group() == "=" and depth == 0:
                left = found
                break
            depth += (found.group() in "({[") - (found.group() in ")}]")
        if left is None:
            return WORD.findall(text)
        patterns, body = WORD.findall(text[: left.start()])[1:], WORD.findall(text[left.end():])
        bound = {w for w in patterns if w[0].islower() and "." not in w and w not in self.parent}
        return [w for w in patterns if w not in bound] + [w for w in body if w.split(".")[0] not in bound]

    def cites(self, modules):
        """Yields each item and the items that it cites."""
        operators = pieces([*self.items, *self.imports])
        for item in self.items.values():
            yield item, {found for word in item.words for name in [word, *operators[word]] if (found := self.meaning(name, modules))}

    def meaning(self, word, modules):
        """Returns the module of the definition that a word cites, and its name."""
        first, *rest = word.replace("«", "").replace("»", "").split(".")
        if first in self.items:
            return self.name, first
        if first in self.parent:
            return self.name, self.parent[first]
        if first in self.imports:
            return origin(*self.imports[first], modules)
        if first in self.aliases and rest:
            return origin(self.aliases[first], rest[0], modules)
        return origin(".".join([first, *rest[:-1]]), rest[-1], modules) if rest else None


def pieces(names):
    """Returns, for each word of an operator such as ◌∈◌, the names that it is a part of."""
    found = collections.defaultdict(list)
    for name in names:
        if "◌" in name:
            for piece in filter(None, name.split("◌")):
                found[piece].append(name)
    return found


def origin(source, name, modules):
    """Returns where a name that is cited from this module is defined; the module may pass it on."""
    module = modules.get(source)
    if module is None:
        return None
    if name in module.items or name in module.parent:
        return source, module.parent.get(name, name)
    return origin(*module.imports[name], modules) if name in module.imports else None


def read_modules(crates):
    modules = {}
    for crate in crates:
        folder = os.path.join(TOP, "crates", crate)
        for path in [*files_below(os.path.join(folder, "specs"), ".antt"), *files_below(os.path.join(folder, "proofs"), ".antt")]:
            name = ".".join(["Rattle", crate, *os.path.relpath(path, folder)[: -len(".antt")].split(os.sep)])
            modules[name] = Module(path, crate, name)
    return modules


def cited_in_code(path, crate, modules):
    """Yields what the clauses and attributes of a .rt file cite."""
    text = "\n".join(read_lines(path, r"//.*"))
    imports, aliases = {}, {}
    for source, names, alias in re.findall(r"ghost use ([^\s{;]+?)\.?(?:\{([^}]*)\})?(?:\s+as\s+(\S+?))?;", text):
        imports.update({ours: (source, theirs) for theirs, ours in braced(names)})
        if not names:
            aliases[alias or source.split(".")[-1]] = source
    text = re.sub(r"ghost use [^;]*;", "", text)
    operators = pieces(imports)
    for word in WORD.findall(text):
        first, *rest = word.split(".")
        for name in [first, *operators[word]]:
            if name in imports:
                yield origin(*imports[name], modules)
        if first in aliases and rest:
            yield origin(aliases[first], rest[0], modules)
    for first, rest in re.findall(r"\b(\w+)((?:::\w+)+)", text):
        source = ["Rattle", crate if first == "crate" else first, *rest.split("::")[1:]]
        yield origin(".".join(source[:-1]), source[-1], modules)


def listed_callers(crate):
    """Returns the words in the code of the crate's CALLING.md."""
    path = os.path.join(TOP, "crates", crate, "CALLING.md")
    if not os.path.exists(path):
        return set()
    return {word for code in re.findall(r"`([^`]+)`", re.sub(r"```.*?```", "", "\n".join(read_lines(path, "$")), flags=re.S)) for word in re.findall(r"\w+", code)}


def dead_definitions(crates, modules):
    programs = [Module(path, "", path) for path in files_below(os.path.join(TOP, "bench"), ".antt.txt")]
    cited = {(item.file.name, item.name): found for module in [*modules.values(), *programs] for item, found in module.cites(modules)}
    waiting = [(program.name, name) for program in programs for name in program.items]
    for crate in crates:
        for path in files_below(os.path.join(TOP, "crates", crate, "src"), ".rt"):
            waiting += filter(None, cited_in_code(path, crate, modules))
    for path in files_below(os.path.join(TOP, "bench"), ".rt.txt"):
        waiting += filter(None, cited_in_code(path, "", modules))
    listed = {crate: listed_callers(crate) for crate in crates}
    for module in modules.values():
        waiting += [(module.name, name) for name in (module.items if module.path.endswith("/Proof.antt") else module.kept)]
        if module.name.split(".")[-1] in listed[module.crate]:
            waiting += [(module.name, name) for name in module.items if name in listed[module.crate]]
    alive = set()
    while waiting:
        found = waiting.pop()
        if found not in alive:
            alive.add(found)
            waiting += cited[found]
    return [item for module in modules.values() for item in module.items.values() if (module.name, item.name) not in alive]


# ---- functions, types and constants

Code = collections.namedtuple("Code", "file owner name line kept public words")
BEGIN = re.compile(r"( *)(pub )?(?:pub\([a-z]+\) )?(?:const |unsafe )*(fn|struct|enum|trait|const|static|type) (\w+)")


class Source:
    """A .rt file: what it imports and exports, and its functions, types and constants."""

    def __init__(self, path, crate, crates):
        self.path, self.crate, self.name = path, crate, os.path.basename(path).split(".")[0]
        self.lines = read_lines(path, r"//.*")
        text = "\n".join(self.lines)
        self.imported = set()
        for names in re.findall(r"\buse ([^;]*);", text):
            first, *words = re.findall(r"\w+", names)
            self.imported |= {(first if first in crates else crate, word) for word in words}
        self.given = {word for names in re.findall(r"^pub use ([^;]*);", text, re.M) for word in re.findall(r"\w+", names)}
        self.items = list(self.read_items())

    def read_items(self):
        owner, asked, head, at = None, False, "", 0
        while at < len(self.lines):
            line = self.lines[at]
            found = BEGIN.match(line)
            if re.match(r"(unsafe )?impl\b", line):
                head = " ".join(self.lines[at: at + 5]).split("{")[0]
                owner, asked = implemented(head)
            elif line == "}":
                owner, asked, head = None, False, ""
            if found:
                margin, public, kind, name = found.groups()
                if kind == "trait":
                    owner, asked = name, True
                end = at if kind == "trait" else self.end_of(at, margin)
                text = "\n".join(self.lines[at: end + 1])
                law = self.name.startswith("law") or (kind == "fn" and text.endswith("{}"))
                test = any("#[test" in above for above in self.lines[max(0, at - 3): at])
                behind = text.split(name, 1)[1] + (head if margin else "")
                words = set(re.findall(r"\w+", behind)) | set(re.findall(r"(?=\b(\w+::\w+))", behind))
                yield Code(self, owner if margin else None, name, at + 1, law or test or name == "main" or (asked and margin != ""), bool(public), words)
                at = end
            at += 1

    def end_of(self, begin, margin):
        """Returns the line at which an item with this margin ends."""
        depth = 0
        for at in range(begin, len(self.lines)):
            line = self.lines[at]
            depth += sum(map(line.count, "({[")) - sum(map(line.count, ")}]"))
            if line in (margin + "}", margin + "{}", margin + "};"):
                return at
            if depth == 0 and (line.endswith(";") or (at == begin and line.endswith("}"))):
                return at
        return len(self.lines) - 1


def implemented(head):
    """Returns the type that an impl is for, and whether a trait requires its functions."""
    head = head.split(" where ")[0]
    while "<" in head:
        head = re.sub(r"<[^<>]*>", "", head)
    words = head.replace("&", " ").replace("mut ", " ").split()
    return words[-1].split("::")[-1], "for" in words


def names_item(text, item):
    """Whether a text names a function, type or constant outside of impls."""
    source, crate, name = text.file, item.file.crate, item.name
    if item.file is source or (crate, name) in source.imported:
        return name in text.words
    near = crate == source.crate or (crate, item.file.name) in source.imported
    return f"{crate}::{name}" in text.words or (near and any(f"{place}::{name}" in text.words for place in (item.file.name, "super", "self", "crate")))


class Reach:
    """The items that were reached, and the words of their texts."""

    def __init__(self, items, given):
        self.given, self.named, self.alive, self.texts, self.spoken = given, collections.defaultdict(list), set(), [], set()
        self.types = collections.defaultdict(list)
        for item in items:
            self.named[item.name].append(item)
            if item.owner is None:
                self.types[item.file.crate, item.name].append(item)

    def add(self, item):
        if id(item) not in self.alive:
            self.alive.add(id(item))
            self.texts.append(item)

    def read_texts(self):
        while self.texts:
            text = self.texts.pop()
            self.spoken |= text.words
            for word in text.words:
                for item in self.named[word.split("::")[-1]]:
                    if item.owner is None and names_item(text, item):
                        self.add(item)

    def is_called(self, item):
        """Whether a method of a type that was reached is reached."""
        owner = (item.file.crate, item.owner)
        if owner in self.types and all(id(t) not in self.alive for t in self.types[owner]):
            return False
        return item.kept or item.name in self.spoken or (item.public and owner in self.given)


def dead_code(crates):
    sources = [Source(path, crate, crates) for crate in crates for path in files_below(os.path.join(TOP, "crates", crate, "src"), ".rt")]
    sources += [Source(path, "", crates) for path in files_below(os.path.join(TOP, "bench"), ".rt.txt")]
    items = [item for source in sources for item in source.items]
    given = {(s.crate, name) for s in sources if s.path.endswith("/lib.rt") for name in s.given}
    reach = Reach(items, given)
    for item in items:
        crate = item.file.crate
        if not crate or crate.endswith("_tests") or (item.owner is None and (item.kept or (crate, item.name) in given)):
            reach.add(item)
    while reach.texts:
        reach.read_texts()
        for item in items:
            if item.owner is not None and reach.is_called(item):
                reach.add(item)
    return [item for item in items if id(item) not in reach.alive]


def main():
    with open(os.path.join(TOP, "crates.txt"), encoding="utf-8") as file:
        crates = [line.split(":")[0].strip() for line in file if ":" in line and not line.startswith("#")]
    listed = sys.argv[1:] or crates
    dead = [item for item in dead_code(crates) + dead_definitions(crates, read_modules(crates)) if item.file.crate in listed]
    for item in dead:
        print(f"{os.path.relpath(item.file.path, TOP)}:{item.line}: {item.name}")
    print(f"{len(dead)} uncited")
    sys.exit(1 if dead else 0)


if __name__ == "__main__":
    main()
