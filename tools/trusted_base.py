#!/usr/bin/env python3
"""trusted_base.py LAW.., at the top of the repository: what a statement rests on.

LAW is a law or call, as `cedar_world::known_questions_are_answered`, or a definition, as
`cedar_world.specs.Step.Step`. From what it ensures, or from the definition, each word leads to the definition that declares it,
and that to the words in it. By words alone: a variable that is named as a definition reaches it too, so that the list may be
too long and never too short.

Prints for each file how many lines of it are reached, with comments and without, and how long the whole file is with its
imports; `--words` names the definitions, with their lines. Then what of the toolchain's own definitions is used, by modules, and
each axiom, hole or abort in the crate of the law and those below it. `--verdict CRATE` has the checker judge a crate from nothing, as
the program's `cedar_main`, which takes long, and prints its last line. Ends with status 1 where an axiom, a hole or an abort stands there, or LAW isn't found."""

import argparse
import collections
import dataclasses
import os
import re
import subprocess
import sys

sys.dont_write_bytecode = True
import rooms

WORD = re.compile(r"[^\W\d][\w']*(?:\.[^\W\d][\w']*)*|[^\w\s(){}\[\],.;:'\"]+|\[\]")
HEAD = re.compile(r"(?:abbrev )?(?:pub )?(?:(?:data|record) )?([^\W\d][\w']*|\S*◌\S*)(?= |$)")
IMPORT = re.compile(r"^\s*(pub )?(?:ghost )?use (Rattle(?:\.[\w]+)+?)(?:\.\{([^}]*)\}|\s+as\s+(\w+))?;?\s*$")
LIBRARY = re.compile(r"Rattle\.(std|core|alloc)\b")


def without_comment(line):
    return re.sub(r"(^|\s)--.*", "", line)


@dataclasses.dataclass
class Definition:
    """A definition of a file: where it begins, its lines, those of the modules around it among them, and those of the comment above it."""

    file: str
    name: str
    at: int
    lines: list
    comment: list
    text: str
    words: set = dataclasses.field(default_factory=set)

    def key(self):
        return self.file, self.at


def indent(line):
    return len(line) - len(line.lstrip())


class Imports:
    """What a file of definitions, or the ghost lines of code, bring in: names with their modules, and modules by other names."""

    def __init__(self, lines):
        self.names, self.modules, self.handed_on = {}, {}, {}
        for found in filter(None, map(IMPORT.match, lines)):
            self.add(*found.groups())

    def add(self, public, module, names, alias):
        if names is None:
            self.modules[alias or module.rpartition(".")[2]] = module
            return
        for item in filter(None, map(str.strip, names.split(","))):
            name, _, other = item.partition(" as ")
            self.names[(other or name).strip()] = (module, name.strip())
            if public:
                self.handed_on[(other or name).strip()] = (module, name.strip())


class Source:
    """A file of definitions: what it imports, and what it declares."""

    def __init__(self, path):
        self.path = path
        with open(path, encoding="utf-8") as it:
            self.lines = it.read().splitlines()
        self.imports = Imports(self.lines)
        self.declared, self.definitions = {}, []
        self.block(0, len(self.lines), 0, [])

    def block(self, start, end, depth, heads):
        """The definitions at one depth; `heads` are the lines of the modules around them."""
        at, comment = start, []
        while at < end:
            line = self.lines[at]
            body = line.strip()
            if body.startswith("--"):
                comment.append(at)
                at += 1
                continue
            if not body or indent(line) != depth or IMPORT.match(line) or re.match(r"(pub )?mod ", body):
                comment = []
                at += 1
                continue
            last = self.behind(at + 1, end, depth)
            if re.match(r"(abbrev )?mutual$", body):
                self.block(at + 1, last, depth + 2, heads)
            elif body.startswith("module "):
                head = at + 1
                while not without_comment(self.lines[head - 1]).rstrip().endswith("where"):
                    head += 1
                self.block(head, last, depth + 2, heads + list(range(at, head)))
            else:
                last = self.definition(at, last, end, depth, heads, comment)
            comment = []
            at = last

    def behind(self, at, end, depth):
        """The line behind those that go on with one at this depth."""
        while at < end and (not self.lines[at].strip() or indent(self.lines[at]) > depth or self.lines[at].strip()[0] in ")}]"):
            at += 1
        return at

    def definition(self, at, last, end, depth, heads, comment):
        """A signature with its clauses, or a type with its parts; the answer is where it ends."""
        body = self.lines[at].strip()
        name = HEAD.match(body)[1] if not body.startswith("syntax") else body
        while last < end and re.match(re.escape(name) + r"(\s|$)", self.lines[last].strip()) and indent(self.lines[last]) == depth:
            last = self.behind(last + 1, end, depth)
        own = [it for it in range(at, last) if self.lines[it].strip()]
        # comments before the next definition are its own
        while own and self.lines[own[-1]].strip().startswith("--") and indent(self.lines[own[-1]]) <= depth:
            own.pop()
        text = "\n".join(without_comment(self.lines[it]) for it in heads + own)
        made = Definition(self.path, name, at, heads + own, comment, text)
        made.words = set(WORD.findall(text))
        self.definitions.append(made)
        self.declared.setdefault(name, made)
        for it in own[1:] if re.match(r"(pub )?data ", body) else ():
            found = re.match(r"(\w[\w']*) :", self.lines[it].strip())
            if found and indent(self.lines[it]) == depth + 2:
                self.declared.setdefault(found[1], made)
        return own[-1] + 1


class Code:
    """A file of code that declares types of which definitions speak; of it their `enum` or `struct` alone."""

    def __init__(self, path):
        self.path = path
        with open(path, encoding="utf-8") as it:
            self.lines = it.read().splitlines()

    def definition(self, name):
        """A type that is declared there, with the comment above it, if one has this name."""
        at = next((n for n, line in enumerate(self.lines) if re.match(rf"pub (enum|struct) {name}\b", line)), None)
        if at is None:
            return None
        last = next(n for n in range(at, len(self.lines)) if self.lines[n].rstrip().endswith(("}", ";")) and not self.lines[n].startswith(" "))
        first = at
        while self.lines[first - 1].startswith(("///", "#[")):
            first -= 1
        return Definition(self.path, name, at, list(range(at, last + 1)), list(range(first, at)), "")


class Base:
    """What statements reach."""

    def __init__(self):
        self.sources, self.reached = {}, {}
        self.library = collections.defaultdict(set)

    def source(self, path):
        if path not in self.sources:
            self.sources[path] = Source(path)
        return self.sources[path]

    def follow(self, module, name):
        """The definition of a name of a module, and what that reaches."""
        if LIBRARY.match(module):
            self.library[module].add(name)
            return
        crate, kind, *rest = module.split(".")[1:]
        path = os.path.join("crates", crate, kind, *rest) + ".antt"
        if not os.path.isfile(path):
            self.declared_in_code(crate, rest)
            return
        source = self.source(path)
        if name in source.declared:
            self.reach(source, source.declared[name])
        elif name in source.imports.handed_on:
            self.follow(*source.imports.handed_on[name])

    def declared_in_code(self, crate, parts):
        """A type that the code of a crate declares: `declared.file.Type`, and its variants below that."""
        path = os.path.join("crates", crate, "src", f"{parts[1]}.rt") if len(parts) > 2 else ""
        if not os.path.isfile(path):
            return
        code = self.sources.setdefault(path, Code(path))
        made = code.definition(parts[2])
        if made:
            self.reached.setdefault(made.key(), made)

    def reach(self, source, definition):
        if definition.key() in self.reached:
            return
        self.reached[definition.key()] = definition
        self.words(source, definition.words)

    def words(self, source, words):
        """Follows each word by what a source declares and imports."""
        glyphs = set("".join(it for it in words if not re.match(r"\w", it)))
        names, modules = source.imports.names, source.imports.modules
        for word in words:
            first, _, rest = word.partition(".")
            if first in source.declared:
                self.reach(source, source.declared[first])
            elif first in names:
                self.follow(*names[first])
            elif first in modules and rest:
                self.follow(modules[first], rest.partition(".")[0])
        for name, (module, own) in names.items():
            if "◌" in name and self.is_written(name, words, glyphs):
                self.follow(module, own)

    @staticmethod
    def is_written(operator, words, glyphs):
        """Whether an operator's marks, or its words, stand among those of a text."""
        parts = [it for it in operator.split("◌") if it]
        return all(it in words or (not re.match(r"\w", it) and set(it) <= glyphs) for it in parts)


class Law:
    """A function whose contract is a statement: the words of its head, and what stands there by imports."""

    declared = {}

    def __init__(self, text, head):
        self.words = set(WORD.findall(head))
        self.imports = Imports(it for it in text.splitlines() if "ghost use" in it)


def reach_law(base, law):
    """Adds what one statement reaches; the answer is its crate."""
    if "::" not in law:
        module, _, name = law.rpartition(".")
        before = len(base.reached)
        base.follow("Rattle." + module, name)
        if len(base.reached) == before:
            raise SystemExit(f"there is no {law}")
        return module.partition(".")[0]
    crate, *_, name = law.split("::")
    folder = os.path.join("crates", crate, "src")
    for file in sorted(it for it in os.listdir(folder) if it.endswith(".rt")):
        with open(os.path.join(folder, file), encoding="utf-8") as it:
            text = it.read()
        head = re.search(rf"(?ms)^( *)pub fn {name}\b.*?^\1\{{", text)
        if head:
            found = Law(text, head[0])
            base.words(found, found.words)
            return crate
    raise SystemExit(f"there is no {law}")


def assumed(crates):
    """Each place of these crates where something is assumed, left open, or may abort."""
    for crate in crates:
        for folder, _, files in os.walk(os.path.join("crates", crate)):
            if "out" in folder.split(os.sep) or os.sep + "must-fail" in folder:
                continue
            for file in files:
                path = os.path.join(folder, file)
                if file.endswith((".antt", ".rt")):
                    yield from ((path, number, what) for number, what in assumed_in(path))


def assumed_in(path):
    marks = {".antt": {"axiom": r"^\s*axiom\b|Prim\.Axiom", "hole": r"(^|[\s(])\?(\w+)?([\s)]|$)"}, ".rt": {"abort": r"\bAbort\b", "axiom": r"\bassume\b"}}
    with open(path, encoding="utf-8") as it:
        for number, line in enumerate(it, 1):
            plain = re.sub(r"--.*|//.*|\"(\\.|[^\"])*\"", "", line)
            for what, pattern in marks[os.path.splitext(path)[1]].items():
                if re.search(pattern, plain):
                    yield number, what


def counts(base):
    """For each file: lines reached with comments, without, of the whole file, and the definitions."""
    files = collections.defaultdict(list)
    for it in base.reached.values():
        files[it.file].append(it)
    for path, made in sorted(files.items()):
        plain = {n for it in made for n in it.lines if not base.sources[path].lines[n].strip().startswith("--")}
        told = {n for it in made for n in it.lines + it.comment}
        yield path, len(told), len(plain), len(base.sources[path].lines), sorted(made, key=lambda it: it.at)


def verdict_of(crate):
    ran = subprocess.run(["rt", "verdict"], cwd=os.path.join("crates", crate), capture_output=True, text=True)
    lines = [it for it in ran.stdout.splitlines() if it.startswith("logic=")]
    return lines[-1] if lines else "no verdict"


def figures(laws):
    """Files, definitions, lines with comments and without, and lines of the whole files, that these statements reach."""
    base = Base()
    crates = {reach_law(base, it) for it in laws}
    rows = list(counts(base))
    return base, crates, rows, [len(rows), sum(len(it[4]) for it in rows), *(sum(it[n] for it in rows) for n in (1, 2, 3))]


def main():
    parser = argparse.ArgumentParser(description="what a statement rests on")
    parser.add_argument("laws", nargs="+", metavar="LAW")
    parser.add_argument("--words", action="store_true", help="name the definitions")
    parser.add_argument("--verdict", metavar="CRATE", help="have the checker judge this crate")
    args = parser.parse_args()
    base, crates, rows, (files, definitions, told, plain, whole) = figures(args.laws)
    print("comments  without  file")
    for path, with_comments, without, length, made in rows:
        print(f"{with_comments:8} {without:8} {length:5}  {path}")
        for it in made if args.words else ():
            print(f"{'':24}{it.at + 1}: {it.name}")
    print(f"{definitions} definitions in {files} files: {told} lines, {plain} without comments; the files have {whole} with imports")
    for module, names in sorted(base.library.items()):
        print(f"of the toolchain: {module.removeprefix('Rattle.')}: {', '.join(sorted(names))}")
    below = rooms.read()
    found = list(assumed(sorted(crates.union(*(rooms.below(below, it) for it in crates)))))
    print("\n".join(f"{path}:{number}: {what}" for path, number, what in found) or "no axiom, no hole, no abort")
    if args.verdict:
        print(f"{args.verdict}: {verdict_of(args.verdict)}")
    return 1 if found else 0


if __name__ == "__main__":
    sys.exit(main())
