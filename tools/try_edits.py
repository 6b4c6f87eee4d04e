#!/usr/bin/env python3
"""try_edits.py [--proved] [CRATE|CRATE/EDIT..], at the top of the repository: tries the must-fail edits that the gate passes over,
all or those of a crate, or the one that stands in the file EDIT.edit.md.

Each edit of crates/CRATE/must-fail/ whose first line is 'only: PATH' is made in a copy of the crate, and the prover checks the
functions of PATH there: it must refuse one of them, and must prove all of them without the edit. Edits of functions apart are
made and checked together, since a function is proved by its own body and the contracts of others; where such a copy can't be
read, each is tried alone. With --proved nothing is checked without edits: that is for crates that 'rt ci' has just proved.

Nothing else is proved, and the libraries are those that 'rt ci' or 'rt lib' built last, so this gives no verdict on a crate."""

import os
import re
import resource
import shutil
import subprocess
import sys
import tempfile

sys.dont_write_bytecode = True
import kit

rt = kit.load()
lib = rt.rtlib


def fits(path, function):
    """Whether a function is the one that the path names, or one of the module or type that it names."""
    return function == path or function.endswith(f"::{path}") or function.startswith(f"{path}::") or f"::{path}::" in function


def copied(crate, room):
    for part in lib.PARTS:
        if os.path.isdir(f"{crate.folder}/{part}"):
            shutil.copytree(f"{crate.folder}/{part}", f"{room}/{part}")


def applied(crate, room, names):
    """Makes the edits in the copy, one after the other. Returns the texts that they leave, and why one can't be made."""
    texts = {}
    for name in names:
        changed, why = rt.read_edit(f"{crate.folder}/must-fail/{name}", room)
        if not changed:
            return texts, why
        for file, text in changed.items():
            with open(f"{room}/{file}", "w", encoding="utf-8") as it:
                it.write(text)
        texts |= changed
    return texts, None


def checked(crate, names, paths):
    """What is said of each function of the paths where these edits are made (None: nothing), and a line for what was refused."""
    with tempfile.TemporaryDirectory(prefix="edit-") as room:
        copied(crate, room)
        texts, why = applied(crate, room, names)
        if why:
            return None, [why]
        words = [lib.RATTLE, "check", *crate.words(["--jobs", "1"], keeps=False), *(it for path in paths for it in ("--only", path))]
        ran = subprocess.run(
            words, cwd=room, stdin=subprocess.DEVNULL, stdout=subprocess.PIPE, stderr=subprocess.STDOUT, text=True, errors="replace"
        )
    said = ran.stdout.rstrip("\n").split("\n")
    unread = next((it for it in said if rt.unread(it, texts)), None)
    if unread or not re.fullmatch(r"only=\d+ proved=\d+", said[-1]):
        return None, [unread or said[-1]]
    told = [re.fullmatch(rf"fn {crate.name}::(\S+): (.*)", it) for it in said]
    return {it[1]: it[2] for it in told if it}, [it for it in said if "is not proved" in it or ": error:" in it]


def verdict(path, told):
    """Whether the functions of the path are proved by what is told of them; None where nothing is told."""
    of_path = [said for function, said in told.items() if fits(path, function)]
    return all(said == "proved" for said in of_path) if of_path else None


def rounds_of(paths):
    """The edits in rounds, such that no two of a round are of one function, or of a module and a function of it."""
    rounds = []
    for name, path in paths.items():
        apart = (it for it in rounds if not any(fits(path, other) or fits(other, path) for other in it.values()))
        free = next(apart, None)
        if free is None:
            free = {}
            rounds.append(free)
        free[name] = path
    return rounds


def tried_together(crate, edits):
    """The verdict on each edit of a round, and a line that says why: made together, or each alone where that can't be read."""
    told, lines = checked(crate, list(edits), sorted(set(edits.values())))
    if told is None and len(edits) > 1:
        half = len(edits) // 2
        parts = [dict(list(edits.items())[:half]), dict(list(edits.items())[half:])]
        return {name: said for part in parts for name, said in tried_together(crate, part).items()}
    if told is None:
        return {name: (None, lines[0]) for name in edits}
    why = lines[0] if len(edits) == 1 and lines else ""
    return {name: (verdict(path, told), why) for name, path in edits.items()}


def named(crate, names):
    """The files of the crate's edits that are named, or of all where no name is given."""
    found = [it for it in sorted(os.listdir(f"{crate.folder}/must-fail")) if it.endswith(".md")]
    return [it for it in found if not names or not names.isdisjoint((crate.name, f"{crate.name}/{it.partition('.')[0]}"))]


def path_of(crate, name):
    with open(f"{crate.folder}/must-fail/{name}", encoding="utf-8") as it:
        path = re.search(r"(?m)^only: (\S+)$", it.read())
    return path and path[1]


def tried(crate, files, is_proved):
    """Tries these edits of the crate, prints a line for each, and returns how many weren't refused as they should be."""
    paths = {name: path for name in files if (path := path_of(crate, name))}
    stands = {} if is_proved or not paths else checked(crate, [], sorted(set(paths.values())))[0] or {}
    failed = 0
    for edits in rounds_of(paths):
        for name, (proved, why) in tried_together(crate, edits).items():
            said = {True: "NOT REFUSED", False: "refused", None: "NOT TRIED"}[proved]
            if not is_proved and not verdict(paths[name], stands):
                said = "NOT PROVED WITHOUT THE EDIT"
            failed += said != "refused"
            print(f"{crate.name}/{name}: {said}: {why[:170]}", flush=True)
    return failed


def main():
    root, names = os.getcwd(), set(sys.argv[1:])
    is_proved = "--proved" in names
    names -= {"--proved"}
    rt.Crate.cuts_libraries = True
    crates = [it for it in lib.crates_below(root) if os.path.isdir(f"{it.folder}/must-fail")]
    known = {name for it in crates for name in (it.name, *(f"{it.name}/{file.partition('.')[0]}" for file in named(it, set())))}
    if names - known:
        sys.exit(f"no such crate, or edit that the gate passes over: {' '.join(sorted(names - known))}")
    failed = sum(tried(it, named(it, names), is_proved) for it in crates)
    used = resource.getrusage(resource.RUSAGE_CHILDREN)
    print(f"{failed} failed; {used.ru_utime + used.ru_stime:.0f} processor seconds")
    return 1 if failed else 0


if __name__ == "__main__":
    sys.exit(main())
