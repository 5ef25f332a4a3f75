#!/usr/bin/env python3
"""What a reader has to believe: the definitions that the clauses of the public calls of `jpaxos` unfold to.

A clause is worth what its words mean. This reads the clauses of each `pub fn` of crates/jpaxos/src/top.rt, follows every
word to its definition in crates/*/specs or to its Rust type, and so on down to std, and prints how many definitions and
lines that is. Lines are counted without comments, blank lines and imports. A word that a definition binds itself is not
followed; where it is in doubt it is followed, so that the closure is rather too large.

A file of specs/ is STATEMENT where a clause unfolds to a definition in it, and else INTERNAL: what it says is only checked
by proofs, and may change without a reader's care. Which is which stands in tools/statement.txt, and not yet in the first
line of each file (`-- STATEMENT`, `-- INTERNAL`), since a changed line in a low crate has everything above it proved
anew. Where a file has such a first line already, it is checked too.

usage: tools/statement.py                        checks tools/statement.txt, and prints the counts
       tools/statement.py --list FUNCTION[.CLAUSE]   prints each definition that it unfolds to, with its lines
       tools/statement.py --write                writes tools/statement.txt

It ends with 1 where a mark is wrong, and with 2 where it is called wrongly.
"""
import os
import re
import sys

ROOT = os.path.dirname(os.path.dirname(os.path.realpath(__file__)))
TOP = "crates/jpaxos/src/top.rt"
MARKS = "tools/statement.txt"
HEAD = """# Which files of definitions a reader has to believe: the clauses of the public calls of `jpaxos` unfold to those that are
# STATEMENT, and to none of those that are INTERNAL. Made and checked by tools/statement.py, which says why it stands here.
"""
STARTS = re.compile(r"(?:(?:abbrev|unfoldable|pub|record|data)\s+)+([^\s:({]+)")
WORD = re.compile(r"[^\s(){}\[\];,⟨⟩]+")
RUST_WORD = re.compile(r"[A-Za-z_][A-Za-z0-9_]*")


def lines_of(path):
    with open(os.path.join(ROOT, path)) as file:
        return file.read().split("\n")


def is_counted(line):
    line = line.strip()
    return bool(line) and not line.startswith(("--", "//"))


class Item:
    """A definition of specs/, or a Rust type or trait: where it stands, its lines, and the words in them."""

    def __init__(self, path, name, lines):
        self.path, self.name = path, name
        self.lines = [line for line in lines if is_counted(line)]

    def __str__(self):
        return "%s.%s" % (self.path, self.name)


class Imports:
    """What the words of a file lead to: words to a module and a name, and names of modules."""

    def __init__(self):
        self.words, self.modules = {}, {}

    def add(self, line):
        """A line `use PATH.{A, B}`, `use PATH as M` or `use PATH`."""
        line = line.strip().rstrip(";")
        found = re.match(r"(?:ghost )?use (\S+?)\.\{(.*)\}$", line)
        if found:
            for name in found.group(2).split(","):
                name, _, alias = name.strip().partition(" as ")
                self.words[alias or name] = (found.group(1), name)
                self.modules[alias or name] = found.group(1) + "." + name
            return
        found = re.match(r"(?:ghost )?use (\S+?)(?: as (\S+))?$", line)
        if found:
            self.modules[found.group(2) or found.group(1).split(".")[-1]] = found.group(1)

    def leads(self, word):
        """What a word leads to: a module and a name in it."""
        first, dot, rest = word.partition(".")
        if word in self.words:
            return self.words[word]
        if dot and first in self.modules:
            return self.modules[first], rest.split(".")[0]
        return self.words.get(first)


class Specs:
    """A file of specs/: its imports, and its definitions by name. A constructor leads to its type."""

    def __init__(self, path):
        self.path, self.imports, self.items = path, Imports(), {}
        self.first = lines_of(path)[0]
        self.read(lines_of(path))

    def read(self, lines):
        name, body, before, inside = None, [], [], False
        for line in lines + ["abbrev end-of-file"]:
            # What stands in a module of parameters is read as if it stood outside.
            inside = line.startswith("module ") or inside and line[:1] in ("", " ")
            line = line[2:] if inside and line.startswith("  ") else line
            if line.startswith("module "):
                continue
            if line.startswith("use "):
                self.imports.add(line)
            elif line.startswith("infix"):
                before = [line]
            elif STARTS.match(line):
                self.define(name, body)
                name, body, before = STARTS.match(line).group(1), before + [line], []
            elif is_counted(line):
                body.append(line)

    def define(self, name, body):
        if name is None:
            return
        item = Item(self.path, name, body)
        self.items[name] = item
        for part in [it for it in name.split("◌") if it] if "◌" in name else []:
            self.items.setdefault(part, item)
        if "data " in body[0] or len(body) > 1 and "data " in body[1]:
            for line in body:
                found = re.match(r"  (\S+) :", line)
                if found:
                    self.items.setdefault(found.group(1), item)


def bound_in(item):
    """The words that a definition binds itself before it uses them otherwise: parameters, what λ and let bind, fields, and
    variables of patterns."""
    text = "\n".join(item.lines)
    places = {}
    for pattern in (r"λ ([^.]+)\.", r"[({]([^(){}:]+) :", r"\blet (\S+)", r"(?m)^  pub (\S+) :"):
        for found in re.finditer(pattern, text):
            for word in found.group(1).split():
                places.setdefault(word, found.start())
    for found in re.finditer(r"(?m)^%s (.*?) =(?: |$)" % re.escape(item.name), text):
        for word in WORD.findall(found.group(1)):
            if word[:1].islower() and "." not in word:
                places.setdefault(word, found.start())
    return {word for word, at in places.items() if word != item.name and at <= first_use(text, word)}


def first_use(text, word):
    """Where a word occurs first."""
    return re.search(r"(?<![^\s(){}\[\];,])%s(?![^\s(){}\[\];,.])" % re.escape(word), text).start()


def words_in(item):
    """The words of a definition that lead elsewhere. Parts of an operator count as its name."""
    bound = bound_in(item)
    for word in set(WORD.findall("\n".join(item.lines))):
        word = word.strip(".")
        if word and word not in bound and word.partition(".")[0] not in bound:
            yield word


class Rust:
    """A file of src/: its imports, and its types and traits as contracts see them."""

    def __init__(self, path):
        self.path, self.items, self.uses, self.ghost = path, {}, {}, Imports()
        lines = lines_of(path)
        for line in lines:
            if line.strip().startswith("ghost use "):
                self.ghost.add(line)
        for found in re.finditer(r"^use ([\w:]+?)(?:::\{([^}]*)\})?;", "\n".join(lines), re.M):
            self.use(found.group(1), found.group(2))
        for at, line in enumerate(lines):
            found = re.match(r"pub (?:struct|enum|trait) (\w+)", line)
            if found:
                self.items[found.group(1)] = Item(path, found.group(1), self.block(lines, at) + self.model(lines, found.group(1)))

    def use(self, path, names):
        parts = path.split("::")
        if names is None:
            parts, names = parts[:-1], parts[-1]
        for name in names.split(","):
            self.uses[name.strip().split(" ")[0]] = parts

    @staticmethod
    def block(lines, at):
        """The lines of the item that begins at this line."""
        if lines[at].rstrip().endswith((";", "}")):
            return [lines[at]]
        end = at
        while not lines[end].startswith("}"):
            end += 1
        return lines[at : end + 1]

    def model(self, lines, name):
        """The lines of the type's `impl Model`, which says what contracts see of it."""
        for at, line in enumerate(lines):
            if re.match(r"impl(<.*>)? Model for %s\b" % name, line):
                return [it for it in self.block(lines, at) if "ghost use" not in it]
        return []


class Repository:
    """All definitions and types, and what they unfold to."""

    def __init__(self):
        self.specs, self.rust = {}, {}
        for crate in sorted(os.listdir(os.path.join(ROOT, "crates"))):
            self.read(crate, "specs", ".antt", self.specs, Specs)
            self.read(crate, "src", ".rt", self.rust, Rust)

    @staticmethod
    def read(crate, folder, ending, into, kind):
        top = os.path.join(ROOT, "crates", crate, folder)
        for where, _, names in os.walk(top):
            for name in sorted(names):
                path = os.path.relpath(os.path.join(where, name), ROOT)
                if name.endswith(ending) and name != "Lib.antt":
                    into[path] = kind(path)

    def item(self, module, name):
        """The definition or type of a name in a module, where the repository has it."""
        parts = module.split(".")
        if parts[0] != "Rattle" or len(parts) < 4 or parts[1] == "std":
            return None
        if parts[3] == "declared" or parts[2:4] == ["specs", "contracts"]:
            return self.declared(parts[1], parts[4:], name)
        specs = self.specs.get("crates/%s/specs/%s.antt" % (parts[1], "/".join(parts[3:])))
        return specs.items.get(name) if specs else None

    def declared(self, crate, parts, name):
        """The Rust type that a path below `declared` names."""
        for end in range(len(parts), 0, -1):
            rust = self.rust.get("crates/%s/src/%s.rt" % (crate, "/".join(parts[:end])))
            if rust:
                return next((rust.items[it] for it in parts[end:] + [name] if it in rust.items), None)
        return None

    def below(self, item):
        """What the words of an item lead to."""
        if item.path in self.specs:
            specs = self.specs[item.path]
            for word in words_in(item):
                yield self.led(specs, word)
        else:
            yield from self.below_rust(item)

    def led(self, specs, word):
        """The item that a word of a file of specs/ leads to."""
        there = specs.items.get(word) or specs.items.get(word.partition(".")[0])
        if there:
            return there
        for name in (word, "◌%s◌" % word):
            led = specs.imports.leads(name)
            if led and led[0].startswith("Rattle."):
                return self.item(*led) or self.item(led[0] + "." + led[1], word.rpartition(".")[2])
        return None

    def below_rust(self, item):
        """What the words of a Rust type lead to: types by its `use` lines, and definitions by its `ghost use` lines."""
        rust = self.rust[item.path]
        for word in set(WORD.findall("\n".join(item.lines))):
            led = rust.ghost.leads(word.strip("."))
            if led:
                yield self.item(*led)
        for word in set(RUST_WORD.findall("\n".join(item.lines))):
            yield self.rust_type(rust, word)

    def rust_type(self, rust, word):
        """The type or trait that a word of a Rust file names."""
        if word in rust.items:
            return rust.items[word]
        parts = rust.uses.get(word)
        if not parts:
            return None
        crate = rust.path.split("/")[1] if parts[0] == "crate" else parts[0]
        there = self.rust.get("crates/%s/src/%s.rt" % (crate, "/".join(parts[1:])))
        return there.items.get(word) if there else None

    def closure(self, items):
        """These items, and all that they lead to."""
        found, todo = {}, [item for item in items if item]
        while todo:
            item = todo.pop()
            if str(item) not in found:
                found[str(item)] = item
                todo += [it for it in self.below(item) if it]
        return found


def clauses_of(path):
    """Of each `pub fn` of a file, its clauses by name, and its signature under the name of none."""
    lines, clauses, function = lines_of(path), {}, None
    for line in lines:
        found = re.match(r"pub fn (\w+)", line)
        if found:
            function = found.group(1)
            clauses[function] = {"": line}
            name = ""
        elif function and line.startswith("{"):
            function = None
        elif function and is_counted(line):
            found = re.match(r"\s+(?:requires|ensures) (\w*)\s*\{", line)
            name = found.group(1) if found else name
            clauses[function][name] = clauses[function].get(name, "") + "\n" + line
    return clauses


class Statement:
    """The clauses of the public calls, and what each unfolds to."""

    def __init__(self):
        self.repository = Repository()
        self.clauses = clauses_of(TOP)

    def roots(self, text):
        """What the words of a clause, or of a signature, lead to."""
        rust = self.repository.rust[TOP]
        for word in WORD.findall(text):
            led = rust.ghost.leads(word.strip("."))
            if led:
                yield self.repository.item(*led)
        for word in RUST_WORD.findall(text):
            yield self.repository.rust_type(rust, word)

    def closure(self, function=None, clause=None):
        texts = []
        for name, clauses in self.clauses.items():
            if function in (None, name):
                texts += [text for it, text in clauses.items() if clause in (None, it)]
        return self.repository.closure([item for text in texts for item in self.roots(text)])

    def believed(self):
        """The files of specs/ to which a clause unfolds."""
        return {item.path for item in self.closure().values() if item.path in self.repository.specs}

    def marks(self):
        """The mark of each file of specs/."""
        believed = self.believed()
        return {path: "STATEMENT" if path in believed else "INTERNAL" for path in sorted(self.repository.specs)}


def counted(closure, specs):
    """How much a closure is, in words."""
    own = [item for item in closure.values() if item.path in specs]
    types = [item for item in closure.values() if item.path not in specs]
    files = {item.path for item in own}
    return "%4d definitions, %5d lines, in %2d files of %d crates; %2d Rust types, %3d lines" % (
        len(own), sum(len(item.lines) for item in own), len(files), len({path.split("/")[1] for path in files}),
        len(types), sum(len(item.lines) for item in types))


def told(statement):
    """The counts of all clauses, of each call, and of each clause of `run_cluster`."""
    specs = statement.repository.specs
    print("%-28s %s" % ("all public calls", counted(statement.closure(), specs)))
    for function in statement.clauses:
        print("%-28s %s" % (function, counted(statement.closure(function), specs)))
    for clause in statement.clauses.get("run_cluster", {}):
        if clause:
            print("%-28s %s" % ("run_cluster." + clause, counted(statement.closure("run_cluster", clause), specs)))


def wrong_marks(statement):
    """What is wrong with the marks, in words."""
    marks = statement.marks()
    held = dict(reversed(line.split(" ")) for line in lines_of(MARKS) if line and not line.startswith("#"))
    for path in sorted(set(marks) | set(held)):
        if path not in marks:
            yield "%s: there is no such file of definitions" % path
        elif held.get(path) != marks[path]:
            yield "%s: %s is expected, and tools/statement.txt has %s" % (path, marks[path], held.get(path, "no line for it"))
        first = statement.repository.specs[path].first if path in marks else ""
        if first in ("-- STATEMENT", "-- INTERNAL") and first != "-- " + marks[path]:
            yield "%s: its first line is to be `-- %s`" % (path, marks[path])


def listed(statement, name):
    """Each definition that a call or a clause unfolds to."""
    function, dot, clause = name.partition(".")
    if function not in statement.clauses or dot and clause not in statement.clauses[function]:
        return False
    closure = statement.closure(function, clause if dot else None)
    for key in sorted(closure):
        print("%4d  %s" % (len(closure[key].lines), key))
    print(counted(closure, statement.repository.specs))
    return True


def main(words):
    statement = Statement()
    if words == ["--write"]:
        with open(os.path.join(ROOT, MARKS), "w") as file:
            file.write(HEAD + "".join("%s %s\n" % (mark, path) for path, mark in statement.marks().items()))
        return 0
    if len(words) == 2 and words[0] == "--list":
        if listed(statement, words[1]):
            return 0
        print("tools/statement.py: there is no clause `%s` of a public call" % words[1], file=sys.stderr)
        return 2
    if words:
        print(__doc__.strip(), file=sys.stderr)
        return 2
    told(statement)
    wrong = list(wrong_marks(statement))
    for line in wrong:
        print("tools/statement.py: " + line, file=sys.stderr)
    return 1 if wrong else 0


if __name__ == "__main__":
    sys.exit(main(sys.argv[1:]))
