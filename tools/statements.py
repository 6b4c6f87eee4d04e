#!/usr/bin/env python3
"""statements.py OUT CRATE.., at the top of the repository: libraries of statements, for work on a room whose rooms below aren't proved here.

A check of a crate needs the libraries below it, whose proofs take hours where this machine has kept none. This makes each of those that
doesn't stand yet from a copy of its crate in which every body only calls a function that promises ⊥, which takes half a minute to four
minutes. What such a library states is what the crate states, so 'rt check' of the crates named works over it at once.

NOTHING THAT THIS MAKES IS A PROOF, and nothing of it reaches 'rt ci', which builds its own: a lemma that no crate cites is left out, and a
promise that is wrong is stated all the same. A library that stands, as 'rt check' or 'rt lib' made it of these same files, is taken as it is.

    statements.py /tmp/statements cedar_session     then: cd crates/cedar_session; rt check --only FUNCTION

OUT gets NAME.rlib for each library below the crates named, and the copies in OUT/repo. A later run goes on from there: it makes anew a
library whose crate, or one below it, has changed. 'rm -rf crates/*/out' removes what this lays into the checkout."""

import os
import re
import shutil
import subprocess
import sys
import threading
from concurrent.futures import ThreadPoolExecutor

sys.dont_write_bytecode = True
from kit import Failed, load

AT_ONCE = 3
NEVER = """//! Stands for the bodies that this copy lacks.

unsafe extern "C" {
    pub(crate) safe fn none() -> i32
        ensures { ⊥ };
}
"""
FUNCTION = re.compile(r"( *)(pub(?:\([a-z]+\))? )?(?:unsafe )?fn (\w+)")
OTHER = re.compile(r" *(?:pub(?:\([a-z]+\))? )?(?:const|static|struct|enum|impl|trait|mod|use|type|ghost|macro_rules!|unsafe (?:impl|extern))\b")
# Functions whose bodies stay: what a value's end does is part of what is stated.
KEPT = {"drop"}


def text_of(file):
    with open(file, encoding="utf-8") as it:
        return it.read()


def write(file, text):
    with open(file, "w", encoding="utf-8") as it:
        it.write(text)


def head_of(lines, at):
    """Returns where the comments and attributes of the item in this line begin."""
    depth = 0
    while at and lines[at - 1].strip():
        above = lines[at - 1].strip()
        is_comment = above.startswith("//") and not above.startswith("//!")
        if not depth and not (is_comment or above.startswith("#[") or above.endswith("]")):
            break
        depth += 0 if is_comment else above.count("]") - above.count("[")
        at -= 1
    return at


def body_of(lines, at, indent):
    """Returns the lines of the body's brackets of the function that begins here, or None where it has none."""
    in_clause = False
    for here in range(at, len(lines)):
        line = lines[here]
        if here > at and line.startswith(f"{indent} "):
            in_clause = in_clause or bool(re.match(r" *(requires|ensures|measure)\b", line))
            if line.endswith("};" if in_clause else ";"):
                return None
        elif here > at and line and (not line.startswith(indent) or OTHER.match(line)):
            return None
        elif line.endswith("{}"):
            return here, here
        elif line.endswith("{"):
            return here, lines.index(f"{indent}}}", here)
        elif line.endswith(";"):
            return None
    return None


def without_tactics(lines):
    """Returns these attributes but for those that say how a function is proved."""
    return re.sub(r"(?s) *#\[(?:cycle|tactic)\(.*?\)\]\n", "", "".join(f"{it}\n" for it in lines)).splitlines()


class File:
    """A file of a crate's sources, with its functions' bodies taken out."""

    def __init__(self, path):
        self.path, self.names, self.cycles, self.pieces = path, set(), set(), []
        lines, at, holder = text_of(path).split("\n"), 0, ""
        while at < len(lines):
            if re.match(r"(impl|trait|pub trait|pub\(crate\) trait)\b", lines[at]):
                holder = lines[at]
            found = FUNCTION.match(lines[at])
            body = found and found[3] not in KEPT and body_of(lines, at, found[1])
            if body:
                self.take(lines, at, body, found, holder)
            else:
                self.pieces.append((None, [lines[at]]))
            at = body[1] + 1 if body else at + 1

    def take(self, lines, at, body, found, holder):
        """Takes the body out of one function, and what says how it was proved."""
        indent = found[1]
        above = len(self.pieces) - (at - head_of(lines, at))
        attributes = [line for _, piece in self.pieces[above:] for line in piece]
        del self.pieces[above:]
        self.cycles |= set(re.findall(r"#\[cycle\((\w+)", "\n".join(attributes)))
        self.names.add(found[3])
        opening = lines[body[0]].removesuffix("{}") + "{" if body[0] == body[1] else lines[body[0]]
        inside = [f"{indent}    crate::never_c::none();", f"{indent}    unreachable!()"]
        made = [*without_tactics(attributes), *lines[at : body[0]], opening, *inside, f"{indent}}}"]
        is_own = not found[2] and (not indent or (holder.startswith("impl") and not re.search(r"\bfor [^<]", holder)))
        self.pieces.append((found[3] if is_own else None, made))

    def words(self):
        """Returns the words of the file, but for the name of each function that may be left out."""
        return {word for name, piece in self.pieces for word in re.findall(r"\w+", "\n".join(piece)) if word != name}

    def drop(self, names):
        """Leaves these functions out, and returns whether there were any."""
        before = len(self.pieces)
        self.pieces = [(name, piece) for name, piece in self.pieces if name not in names]
        return len(self.pieces) < before

    def write(self):
        write(self.path, "\n".join(line for _, piece in self.pieces for line in piece))


def files_in(folder, ending):
    """Returns the files below a folder with this ending."""
    return sorted(f"{at}/{name}" for at, _, names in os.walk(folder) for name in names if name.endswith(ending))


def cited(text, crate):
    """Returns the files of lemmas of a crate that a text cites."""
    return set(re.findall(rf"\bRattle\.{crate}\.proofs\.([A-Z]\w*)", text))


def strip_sources(folder):
    """Takes the bodies out of a copy of a crate, and the private functions that nothing names then.
    Returns the names of the functions and cycles that lost their bodies."""
    files = [File(it) for it in files_in(f"{folder}/src", ".rt")]
    cited = {word for it in files_in(f"{folder}/specs", ".antt") for word in re.findall(r"\w+", text_of(it))}
    goes_on = True
    while goes_on:
        used = cited.union(*[it.words() for it in files])
        goes_on = any([it.drop({name for name, _ in it.pieces if name} - used) for it in files])
    for it in files:
        it.write()
    # (behind what stands at the head of the file: what it is, and that the check tries its tactics)
    root = f"{folder}/src/lib.rt"
    head, tactic, rest = text_of(root).partition("#![tactic(auto)]\n")
    write(root, f"{head}{tactic}mod never_c;\n{rest}")
    write(f"{folder}/src/never_c.rt", NEVER)
    return {name for it in files for name in it.names}, {name for it in files for name in it.cycles}


def strip_proofs(crate, folder, names, cycles, wanted):
    """Takes the proofs of the functions that lost their bodies out of a copy, and each file of lemmas that nothing left cites."""
    proofs = f"{folder}/proofs"
    if not os.path.isdir(proofs):
        return
    for at, _, files in os.walk(proofs):
        last = os.path.basename(at)
        is_cycle = last.startswith("+")
        lost = last[1:] in cycles | names if is_cycle else last in names
        for it in files if at != proofs and lost else ():
            # (what derives make is a cycle of ends of values, which may have the name of a function)
            if not is_cycle or "drop-fields" not in text_of(f"{at}/{it}"):
                os.remove(f"{at}/{it}")
    inner = [it for it in files_in(proofs, ".antt") if os.path.dirname(it) != proofs]
    texts = [text_of(it) for it in [*inner, *files_in(f"{folder}/specs", ".antt"), *files_in(f"{folder}/src", ".rt")]]
    lemmas = {it[:-5]: text_of(f"{proofs}/{it}") for it in os.listdir(proofs) if it.endswith(".antt") and it != "Lib.antt"}
    keep, new = set(), wanted | {name for text in texts for name in cited(text, crate)}
    while new:
        keep |= new
        new = {name for it in new for name in cited(lemmas.get(it, ""), crate)} - keep
    for it in lemmas.keys() - keep:
        os.remove(f"{proofs}/{it}.antt")
    if os.path.isfile(f"{proofs}/Lib.antt"):
        lines = text_of(f"{proofs}/Lib.antt").split("\n")
        write(f"{proofs}/Lib.antt", "\n".join(it for it in lines if not it or it.split()[-1] in keep))


class Statements:
    """The libraries below some crates, in a folder."""

    def __init__(self, rt, root, out, names):
        self.rt, self.out, self.repo = rt, out, f"{out}/repo"
        rt.Crate.allowed = rt.handles_of(root)
        self.crates = {it.name: it for it in rt.crates_of(root)}
        if missing := [it for it in names if it not in self.crates]:
            raise Failed(f"crates.txt has no crate {' and no '.join(missing)}")
        # (what the first names need comes first)
        self.order = list({below.name: below for name in names for below in self.crates[name].below()}.values())
        self.begun, self.done, self.failed, self.turn = set(), set(), [], threading.Condition()

    def copy(self):
        """Copies the repository's crates to where bodies are taken out."""
        os.makedirs(f"{self.repo}/.git", exist_ok=True)
        for crate in self.order:
            shutil.rmtree(f"{self.repo}/crates/{crate.name}", ignore_errors=True)
            for part in ("src", "specs", "proofs"):
                if os.path.isdir(f"{crate.folder}/{part}"):
                    shutil.copytree(f"{crate.folder}/{part}", f"{self.repo}/crates/{crate.name}/{part}")
        rows = {it.name: " ".join([*[dep.name for dep in it.deps], *it.of_kit[1:]]) for it in self.order}
        write(f"{self.repo}/crates.txt", "".join(f"{name}: {uses}\n" for name, uses in rows.items()))
        parts = {it.name: [f for part in ("src", "specs", "proofs") for f in files_in(f"{it.folder}/{part}", "t")] for it in self.crates.values()}
        texts = {name: "\n".join(map(text_of, files)) for name, files in parts.items()}
        self.cited = {name: set().union(*[cited(text, name) for other, text in texts.items() if other != name]) for name in rows}
        self.copies = {it.name: it for it in self.rt.crates_of(self.repo)}

    def is_there(self, crate):
        """Returns whether this library was made, by an earlier run, of the files that stand now."""
        stamp = f"{self.out}/{crate.name}.stamp"
        return os.path.isdir(f"{self.out}/{crate.name}.rlib") and os.path.isfile(stamp) and text_of(stamp) == crate.stamp()

    def ready(self):
        """Returns the first crate whose turn it is, or None where all have begun or one has failed."""
        with self.turn:
            while not self.failed and len(self.begun) < len(self.order):
                for it in self.order:
                    if it.name not in self.begun and all(dep.name in self.done for dep in it.deps):
                        self.begun.add(it.name)
                        return it
                self.turn.wait()
        return None

    def work(self, _):
        """Makes one library after the other, each once those below it stand."""
        while crate := self.ready():
            try:
                told = self.make(crate)
            except (Failed, OSError) as why:
                self.failed.append(f"{crate.name}: {why}")
                told = "failed"
            with self.turn:
                self.done.add(crate.name)
                self.turn.notify_all()
                print(f"{crate.name}: {told}", flush=True)

    def make(self, crate):
        """Makes the library of one crate, and returns how."""
        copy, made, how = self.copies[crate.name], f"{self.out}/{crate.name}.rlib", "kept"
        os.makedirs(os.path.dirname(copy.rlib), exist_ok=True)
        if not self.is_there(crate):
            shutil.rmtree(made, ignore_errors=True)
            how, source = ("as it stands", crate) if crate.is_built() else ("its statements", self.build(crate, copy))
            shutil.copytree(source.rlib, made, copy_function=os.link)
            write(f"{self.out}/{crate.name}.stamp", crate.stamp())
        if not os.path.isdir(copy.rlib):
            shutil.copytree(made, copy.rlib, copy_function=os.link)
        return how

    def build(self, crate, copy):
        """Builds the copy of a crate without its bodies, and returns it."""
        names, cycles = strip_sources(copy.folder)
        strip_proofs(crate.name, copy.folder, names, cycles, self.cited[crate.name])
        words = [f"{it}x" if it == f"{crate.name}=" else it for it in copy.words(["--jobs", "1"])]
        ran = subprocess.run([self.rt.rtlib.RATTLE, "build", *words, "-o", copy.rlib], cwd=copy.folder,
                             stdin=subprocess.DEVNULL, stdout=subprocess.PIPE, stderr=subprocess.STDOUT, text=True, errors="replace")
        write(f"{copy.folder}/out/log", ran.stdout)
        if ran.returncode:
            raise Failed(f"see {copy.folder}/out/log: {ran.stdout[-600:]}")
        return copy

    def lay(self):
        """Lays the libraries into the checkout, where 'rt check' takes them."""
        for crate in self.order:
            if not crate.is_built():
                shutil.rmtree(os.path.dirname(crate.rlib), ignore_errors=True)
                shutil.copytree(f"{self.out}/{crate.name}.rlib", crate.rlib, copy_function=os.link)
                write(f"{os.path.dirname(crate.rlib)}/stamp", crate.stamp())


def main(out, *names):
    made = Statements(load(), os.getcwd(), os.path.realpath(out), names)
    made.copy()
    with ThreadPoolExecutor(AT_ONCE) as pool:
        list(pool.map(made.work, range(AT_ONCE)))
    if made.failed:
        raise Failed("\n".join(made.failed))
    made.lay()
    print(f"{len(made.order)} libraries stand. NOTHING OF IT IS A PROOF")


if __name__ == "__main__":
    if len(sys.argv) < 3:
        sys.exit(__doc__)
    try:
        main(*sys.argv[1:])
    except Failed as why:
        print(f"statements.py: {why}", file=sys.stderr)
        sys.exit(1)
