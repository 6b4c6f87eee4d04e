#!/usr/bin/env python3
"""called.py, at the top of the repository: each public function of a library that may be refused is called somewhere.

A contract lets a body give up for want of memory always, so that only a run shows that a call succeeds. A public function whose
answer is a `Result` has to be reached, by names, from a program (its sessions and runs call it), from the examples, from the
rows or from a crate's own tests. Names alone are read: a call `.name(..)` reaches each method of that name in the crates below, `Type::name` that of the type,
and `name(..)` the functions of the file and those that it imports; of a type that is reached so are its impls of traits that
are called without a name. Clauses of contracts call nothing, and laws, which answer nothing, needn't be called.

Prints a line for each that nothing reaches, and ends with status 1 where there is any."""

import collections
import os
import re
import sys

sys.dont_write_bytecode = True
import rooms

CALLERS = ["cedar_main", "cedar_cli", "cedar_c", "cedar_examples", "cedar_type_examples", "cedar_law_examples", "cedar_rows", "cedar_parser_rows", "cedar_evaluation_rows", "cedar_layer_rows"]
# How the files of a crate's own tests end, which the gate runs.
TESTS = "tests.rt"
# The calls of traits that no text names.
UNNAMED = set("fmt drop next eq cmp partial_cmp hash clone into_iter from deref as_ref borrow write_str read write flush".split())
# What isn't code: comments, texts and characters.
PLAIN = re.compile(r"//[^\n]*|r#\"(?:.|\n)*?\"#|b?\"(?:\\(?:.|\n)|[^\"\\])*\"|b?'(?:\\.[^']*|[^'\\\n])'")
CALL = re.compile(r"(?:(\b[A-Za-z_]\w*)\s*(?:::<[^()]*?>)?\s*::\s*|(\.)\s*)?\b([a-z_]\w*)\b(?=(\s*(?:::\s*<|\())?)")
GENERIC = re.compile(r"^\s*<(?:[^<>]|<(?:[^<>]|<[^<>]*>)*>)*>")

Function = collections.namedtuple("Function", "crate file line owner of_trait name is_public is_method is_refusable text")


def text_of(path):
    with open(path, encoding="utf-8") as it:
        return PLAIN.sub(lambda found: "" if found[0].startswith("//") else '""', it.read())


def files_of(crate):
    for folder, _, names in os.walk(f"crates/{crate}/src"):
        yield from (f"{folder}/{name}" for name in sorted(names) if name.endswith(".rt"))


def last_name(text):
    """The name of a type or a trait, without its path and arguments."""
    return (re.findall(r"[A-Za-z_]\w*", re.sub(r"<.*", "", text)) or [""])[-1]


def owner_of(lines, at):
    """The type and the trait of the impl or trait that begins here."""
    head = lines[at]
    while "{" not in lines[at] and at + 1 < len(lines):
        at += 1
        head += " " + lines[at].strip()
    head = head.partition("{")[0].partition(" where ")[0]
    if re.match(r"\s*(pub(\([^)]*\))? )?trait\b", head):
        return at, re.search(r"trait (\w+)", head)[1], None
    head = GENERIC.sub("", head.partition("impl")[2])
    of_trait, found, owner = head.partition(" for ")
    return at, last_name(owner if found else of_trait), last_name(of_trait) if found else None


def end_of(lines, at, indent):
    """The last line of the function that begins here, which may have no body."""
    depth = 0
    for end in range(at, len(lines)):
        line = lines[end].rstrip()
        depth += line.count("{") - line.count("}")
        is_outer = len(line) - len(line.lstrip()) == indent
        if depth == 0 and (line.endswith(";") or is_outer and line.endswith("}")):
            return end
    return len(lines) - 1


def functions_of(crate, path):
    lines, at, owners = text_of(path).split("\n"), 0, []
    while at < len(lines):
        line = lines[at]
        indent = len(line) - len(line.lstrip())
        if owners and line.strip() == "}" and indent == owners[-1][0]:
            owners.pop()
        found = re.match(r"\s*(pub(?:\([^)]*\))? )?(?:const )?fn (\w+)", line)
        if re.match(r"\s*(pub(\([^)]*\))? )?(impl|trait)\b", line):
            begun = at
            at, owner, of_trait = owner_of(lines, at)
            if not lines[at].rstrip().endswith("}"):
                owners.append((len(lines[begun]) - len(lines[begun].lstrip()), owner, of_trait))
        elif found:
            end = end_of(lines, at, indent)
            told = [it for it in lines[at : end + 1] if not re.match(r"\s*(requires|ensures|ghost)\b", it)]
            head = " ".join(told).partition("{")[0]
            is_method = bool(re.search(r"\(\s*(?:&\s*(?:'\w+\s+)?)?(?:mut\s+)?self\b", head))
            owner, of_trait = owners[-1][1:] if owners else (None, None)
            is_refusable = "Result<" in head.rpartition("->")[2]
            body = "\n".join(told).partition(f"fn {found[2]}")[2]
            yield Function(crate, path, at + 1, owner, of_trait, found[2], (found[1] or "").strip() == "pub", is_method, is_refusable, body)
            at = end
        at += 1


class Sources:
    """All functions, and what each of them calls."""

    def __init__(self):
        self.rooms = rooms.read()
        self.functions = [it for crate in self.rooms for path in files_of(crate) for it in functions_of(crate, path)]
        self.named, self.unnamed = collections.defaultdict(list), collections.defaultdict(list)
        for it in self.functions:
            self.named[it.name].append(it)
            if it.of_trait and it.name in UNNAMED:
                self.unnamed[it.owner].append(it)
        self.owners = {it.owner for it in self.functions}
        self.aliases, self.imports = collections.defaultdict(set), {}
        for path in {it.file for it in self.functions}:
            text = text_of(path)
            self.imports[path] = set(re.findall(r"\w+", " ".join(re.findall(r"\buse ([^;]*);", text))))
            for name, what in re.findall(r"\btype (\w+)(?:<[^=]*>)? = ([^;]*);", text):
                self.aliases[name].update(re.findall(r"\b[A-Z]\w*", what))

    def is_meant(self, caller, found, it):
        """Whether a call that is written so may be one of this function."""
        before, is_method, _, is_call = found
        # Code that is generic calls what crates above it implement.
        if it.crate not in self.visible[caller.crate] and not it.of_trait:
            return False
        if is_method:
            return it.is_method and bool(is_call)
        if not before:
            return not it.owner and (it.file == caller.file or it.name in self.imports[caller.file])
        if before == "Self":
            return it.owner in (caller.owner, caller.of_trait) or bool(it.of_trait and it.of_trait == caller.of_trait)
        if before in self.owners or before in self.aliases:
            return bool({it.owner, it.of_trait} & ({before} | self.aliases.get(before, set())))
        return bool(it.of_trait) if before[0].isupper() and len(before) <= 2 else before[0].islower() and not it.owner

    def reached(self):
        self.visible = {it: set(rooms.below(self.rooms, it)) | {it} for it in self.rooms}
        left, seen = [it for it in self.functions if it.crate in CALLERS or it.file.endswith(TESTS)], set()
        while left:
            caller = left.pop()
            if caller in seen:
                continue
            seen.add(caller)
            left += self.unnamed[caller.owner] if caller.owner else []
            for found in CALL.findall(caller.text):
                left += [it for it in self.named.get(found[2], ()) if it not in seen and self.is_meant(caller, found, it)]
        return seen


def uncalled():
    """Where each public function stands that may be refused and that nothing reaches, with its name."""
    sources = Sources()
    reached = sources.reached()
    for it in sources.functions:
        if it.is_public and it.is_refusable and it.crate not in CALLERS and it not in reached:
            yield f"{it.file}:{it.line}", f"{it.owner}::{it.name}" if it.owner else it.name


def main():
    faults = [f"{where}: no program, example, row or test calls `{name}`" for where, name in uncalled()]
    print("\n".join(faults) if faults else "each public call that may be refused is made somewhere")
    return 1 if faults else 0


if __name__ == "__main__":
    sys.exit(main())
