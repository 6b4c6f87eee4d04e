#!/usr/bin/env python3
"""check_docs.py [--figures], at the top of the repository: what README.md and docs/ name stands in the tree.

Between backquotes a page may name a crate, a word of a crate (`word` of `crate`, also several words: `a`, `b` and `c` of
`crate`), a function of a crate (`crate::function`), a file, a folder or a must-fail edit. Each has to be there: a crate has a
line in crates.txt or is one of the kit, a word stands in the crate's sources, definitions, proofs or edits, a file is found.
Links to pages lead somewhere, and where a page says how many crates, edits of the gate or edits beside it there are, the tree
has as many.

A crate may also stand before the words: a heading of docs/DEFINITIONS.md names the crate of the words in brackets below it, and
a row of docs/PROOFS.md that begins with a crate in bold is one of its calls, as are the rows after it. In docs/ARCHITECTURE.md
each crate has a row, whose last cell is what tools/rooms.py finds nearest below it. No paragraph has more than 100 words, and
the pages of docs/ have 22,500 at most, README.md 1,600. A link to a line (`word` of a file, #L12) leads to one with that word on it. Each row of
docs/THEOREM.md that begins with a law has the figures of tools/trusted_base.py, as README.md does, and nothing in the tree is assumed
or left open. README.md says that each call that may be refused is shown to succeed: tools/called.py
finds those that no program, example, row or test makes.

--figures writes the figures of docs/THEOREM.md and README.md again, and the lines to which links lead that have lost their word.
Prints a line for each that isn't so, and ends with status 1 where there is any."""

import os
import re
import shutil
import subprocess
import sys

sys.dont_write_bytecode = True
import called
import rooms
import trusted_base

NUMBERS = "no one two three four five six seven eight nine ten eleven twelve".split()
# A word in capitals stands for whatever name is there.
PATTERN = re.compile(r"\b[A-Z]{4,}\b(?!\.md)")
FILE = re.compile(r"^[\w.+*/-]+\.(md|py|rt|antt|edit|txt|c|h|rs|sh|stdin|stdout)$")
LONGEST, WHOLE, FIRST_PAGE = 100, 22_500, 1_600
THEOREM = "cedar_theorem.specs.Theorem.IsAnsweredByTheRules"
LAW = re.compile(r"\| `cedar_\w+(\.|::)")
LINES = re.compile(r"([\d,]+) lines of definitions")
LINK = re.compile(r"\[`([^`]+)`\]\(([^)#\s]+)#L(\d+)\)")


def text_of(path):
    with open(path, encoding="utf-8", errors="replace") as it:
        return it.read()


def write(path, text):
    with open(path, "w", encoding="utf-8") as it:
        it.write(text)


def tracked():
    """The files of the tree: those that git has, and those that it would take."""
    ran = subprocess.run(["git", "ls-files", "-co", "--exclude-standard"], capture_output=True, text=True, check=True)
    return [it for it in ran.stdout.splitlines() if os.path.isfile(it)]


class Tree:
    """What there is to name."""

    def __init__(self):
        self.files = tracked()
        self.crates = set(rooms.read())
        kit = os.path.realpath(os.path.join(os.path.dirname(os.path.realpath(shutil.which("rt") or "/")), "..", "rlibs"))
        self.kit = {it.removesuffix(".rlib") for it in os.listdir(kit)} if os.path.isdir(kit) else set()
        self.words = {it: set() for it in self.crates}
        self.edits = {"gate": 0, "beside": 0}
        for file in self.files:
            parts = file.split("/")
            if len(parts) < 3 or parts[0] != "crates":
                continue
            words = self.words.setdefault(parts[1], set())
            words.update(re.findall(r"[\w◌.\-+]+|\w+", text_of(file)) if file.endswith((".rt", ".antt", ".edit", ".md", ".h")) else ())
            words.update(re.findall(r"\w+", text_of(file)) if file.endswith((".rt", ".antt", ".edit", ".md", "stdin", "stdout")) else ())
            words.update(it.partition(".")[0] for it in parts[2:])
            if parts[2] == "must-fail":
                self.edits["beside" if file.endswith(".md") else "gate"] += 1
        self.all_words = set().union(*self.words.values())

    def has_file(self, name):
        pattern = re.compile("(^|/)" + re.escape(name).replace(r"\*", "[^/]*") + "($|/)")
        return any(pattern.search(it) for it in self.files)


def prose(text):
    """The lines of a page with their numbers; what stands in blocks of code is left out."""
    inside = False
    for number, line in enumerate(text.splitlines(), 1):
        if line.lstrip().startswith("```"):
            inside = not inside
        elif not inside and not line.startswith("    "):
            yield number, line


def last_part(word):
    """The name that a reader would look for: of `Type::call` the call, of `call(x)` the call, of `f!` the macro."""
    found = re.findall(r"[A-Za-z_]\w*", re.sub(r"[({<\[].*", "", word))
    return found[-1] if found else None


def of_crates(line):
    """Each word that a line says is of a crate, with the crate."""
    names = r"`[^`]+`(?: \([^)`]*\))?"
    for found in re.finditer(rf"({names}(?:(?:, | and | or |, and ){names})*) of `(cedar_\w+)`", line):
        for word in re.findall(r"`([^`]+)`", found[1]):
            yield word, found[2]


def faults_of_line(tree, line):
    for word, crate in of_crates(line):
        name = last_part(word)
        if crate in tree.words and name and " " not in word.strip() and not FILE.match(word) and name not in tree.words[crate]:
            yield f"`{word}` isn't in `{crate}`"
    for word in re.findall(r"`([^`]+)`", line):
        if re.fullmatch(r"cedar_\w+", word) and word not in tree.crates and word not in tree.all_words:
            yield f"there is no crate or word `{word}`"
        elif FILE.match(word) and not word.startswith(".") and not PATTERN.search(word) and not tree.has_file(word):
            yield f"there is no file `{word}`"
        elif re.fullmatch(r"cedar_\w+::\w+(::\w+)*", word):
            crate, *names = word.split("::")
            if crate in tree.words and names[-1] not in tree.words[crate]:
                yield f"`{word}` isn't there"
    for path in re.findall(r"(?<![\w/.])((?:docs|tools|bench|crates|include|examples|clients)/[\w./-]*\w)", line):
        # (what a build makes is in no tree)
        if "/out/" not in path and not PATTERN.search(path) and not tree.has_file(path):
            yield f"there is no {path}"
    for path in re.findall(r"\]\(([^)#\s]+)\)", line):
        if "://" not in path and not tree.has_file(path.removeprefix("./").removeprefix("../")):
            yield f"a link leads to {path}, which isn't there"
    yield from wrong_counts(tree, line)


def target_of(page, link):
    """The file to which a link leads, with its lines, and whether the one that it names has the word."""
    word, path, number = link.groups()
    file = os.path.normpath(os.path.join(os.path.dirname(page), path))
    lines = text_of(file).splitlines() if os.path.isfile(file) else []
    holds = int(number) <= len(lines) and re.search(rf"\b{re.escape(word)}\b", lines[int(number) - 1])
    return file, lines, bool(holds)


def faults_of_links(page, line):
    """Each link to a line of a file that hasn't the word between backquotes before it."""
    for link in LINK.finditer(line):
        file, _, holds = target_of(page, link)
        if not holds:
            yield f"line {link[3]} of {file} hasn't `{link[1]}`"


def mended(page, link):
    """A link, to the first line that declares its word where the one that it names hasn't it."""
    _, lines, holds = target_of(page, link)
    declares = re.compile(rf"\s*(?:(?:abbrev|pub|data|record) )*{re.escape(link[1])}(?: |$)")
    at = next((n for n, it in enumerate(lines, 1) if declares.match(it)), link[3])
    return link[0] if holds else f"[`{link[1]}`]({link[2]}#L{at})"


def number_of(word):
    return int(word) if word.isdigit() else NUMBERS.index(word.lower())


def wrong_counts(tree, line):
    count = rf"(\d+|{'|'.join(NUMBERS)})"
    said = [
        (rf"\b{count} (?:must-fail edits|edits of the gate)\b", tree.edits["gate"], "edits that the gate tries"),
        (rf"\b{count} (?:lie|stand) beside\b", tree.edits["beside"], "edits beside the gate"),
        (r"(?<!some )\b(\d+) crates\b", len(tree.crates), "crates"),
    ]
    for pattern, have, what in said:
        for found in re.finditer(pattern, line, re.IGNORECASE):
            if number_of(found[1]) != have:
                yield f"'{found[0]}': there are {have} {what}"


def cells_of(line):
    return [it.strip() for it in re.split(r"(?<!\\)\|", line)[1:-1]]


def faults_of_definitions(tree, text):
    crate = None
    for number, line in prose(text):
        named = re.findall(r"\(crate `(\w+)`\)", line) if line.startswith("#") else []
        crate = (named or [None])[0] if line.startswith("#") else crate
        here = crate
        for words in re.findall(r"\*\*[^*]+\*\* \(([^)]*)\)", line) if line.startswith("- ") else ():
            of = re.findall(r" of `(cedar_\w+)`", words)
            here = of[-1] if of else here
            for word in [] if of or not here else re.findall(r"`([^`]+)`", words):
                if word not in tree.words.get(here, ()):
                    yield number, f"`{word}` isn't in {here}"


def faults_of_proofs(tree, text):
    crates = []
    for number, line in prose(text):
        crates = [] if line.startswith("#") else re.findall(r"\*\*`(\w+)`\*\*", line) or crates
        for word in re.findall(r"`([^`]+)`", cells_of(line)[0]) if line.startswith("|") and crates else ():
            name = last_part(word)
            if name and name not in tree.crates and not any(name in tree.words.get(it, ()) for it in crates):
                yield number, f"`{word}` isn't in {' or '.join(crates)}"


def faults_of_architecture(tree, text):
    below, rows = rooms.read(), set()
    for number, line in prose(text):
        found = re.match(r"\| `(cedar_\w+)` \|", line)
        if found and found[1] in below:
            rows.add(found[1])
            near = [it.removeprefix("cedar_") for it in rooms.nearest(below, found[1])]
            said = [it for it in cells_of(line)[-1].replace("`", "").split(", ") if it]
            if sorted(said) != sorted(near):
                yield number, f"`{found[1]}` stands on {', '.join(near) or 'nothing'}"
    yield from ((1, f"no row has `{it}`") for it in below if it not in rows)


def figures_of(law):
    """How many definitions, files, lines and lines without comments a law rests on, as a page has them."""
    files, definitions, told, plain, _ = trusted_base.figures([law.strip("`")])[-1]
    return [f"{it:,}" for it in (definitions, files, told, plain)]


def write_figures():
    page, row = "docs/THEOREM.md", lambda it: " | ".join(["", *it[:2], *figures_of(it[0]), ""]).strip()
    lines = [row(cells_of(it)) if LAW.match(it) else it for it in text_of(page).splitlines()]
    write(page, LINK.sub(lambda it: mended(page, it), "\n".join(lines) + "\n"))
    write("README.md", LINES.sub(f"{figures_of(THEOREM)[2]} lines of definitions", text_of("README.md")))


def faults_of_theorem(tree, text):
    rows = 0
    for number, line in prose(text):
        cells = cells_of(line) if LAW.match(line) else []
        if len(cells) != 6:
            continue
        rows += 1
        have = figures_of(cells[0])
        if cells[2:] != have:
            yield number, f"{cells[0]} rests on {' | '.join(have)}"
    if not rows:
        yield 1, "no row says what a law rests on"
    yield from ((1, f"{path}:{number}: {what}") for path, number, what in trusted_base.assumed(sorted(tree.crates)))


def faults_of_first_page(text):
    told = figures_of(THEOREM)[2]
    for number, line in prose(text):
        for found in LINES.findall(line):
            if found != told:
                yield number, f"the theorem rests on {told} lines of definitions"
    if len(text.split()) > FIRST_PAGE:
        yield 1, f"{len(text.split())} words, more than {FIRST_PAGE}"


def long_paragraphs(text):
    """Each paragraph, item of a list or cell of a table that is too long, by the line on which it begins."""
    parts, last = [], None
    for number, line in prose(text):
        if line.startswith("|"):
            parts += [(number, it) for it in cells_of(line)]
        elif not line.strip() or line.startswith("#"):
            last = None
        elif last is None or number != last + 1 or re.match(r"- |\d+\. ", line.lstrip()):
            parts.append((number, line))
            last = number
        else:
            parts[-1] = (parts[-1][0], parts[-1][1] + " " + line)
            last = number
    for number, part in parts:
        if len(part.split()) > LONGEST:
            yield number, f"a paragraph of {len(part.split())} words"


OF_PAGES = {
    "docs/DEFINITIONS.md": faults_of_definitions,
    "docs/PROOFS.md": faults_of_proofs,
    "docs/ARCHITECTURE.md": faults_of_architecture,
    "docs/THEOREM.md": faults_of_theorem,
}


def faults_of(tree, page):
    text = text_of(page)
    for number, line in prose(text):
        yield from ((number, why) for why in faults_of_line(tree, line))
        yield from ((number, why) for why in faults_of_links(page, line))
    yield from long_paragraphs(text)
    if page in OF_PAGES:
        yield from OF_PAGES[page](tree, text)
    if page == "README.md":
        yield from faults_of_first_page(text)


def main():
    if sys.argv[1:] == ["--figures"]:
        write_figures()
    elif sys.argv[1:]:
        sys.exit(__doc__)
    tree = Tree()
    pages = sorted(it for it in tree.files if re.fullmatch(r"((docs|bench|include)/)?[\w.-]+\.md", it))
    faults = [f"{page}:{number}: {why}" for page in pages for number, why in faults_of(tree, page)]
    words = sum(len(text_of(page).split()) for page in pages if page.startswith("docs/"))
    if words > WHOLE:
        faults.append(f"docs: {words} words, more than {WHOLE}")
    faults += [f"{where}: no program, example, row or test calls `{name}`" for where, name in called.uncalled()]
    print("\n".join(faults) if faults else f"{len(pages)} pages name nothing that isn't there")
    return 1 if faults else 0


if __name__ == "__main__":
    sys.exit(main())
