#!/usr/bin/env python3
"""cli_cases.py --program PATH [NAME..], at the top of the repository: what the program `cedar_cli` says and how it ends.

Each folder of crates/cedar_cli/cases is a run: the program is started there with the words of `args`, one a line, and `stdin`; it
must write `stdout` and `stderr`, and end with the number in `status` (0 where there is none). The other files are those that the
words name. `refused.txt` and `told.txt` have texts, each below a line `==== NAME`, with `<TAB>` and the like for characters that can't be
seen, and behind `> ` what is printed of them, without types where the name begins so. `calls.txt` has calls of isAuthorized, each with its
answer and its status. What `check`, `test` and `explain` write with `--json` is as docs/cli.schema.json has it, too. `habits.txt` and `requests.txt` have lines for a shell, in which `cedar_cli` is the program, over a
copy of the folder of that name: below `==== NAME` stand `$ LINE`, what it writes, `! ` before each line of its errors, and `= STATUS` where that isn't 0.
docs/POLICIES.md and docs/JSON.md show files and commands, and what these print: each is run too. Beside these it tries texts that are too long or too deep, and that
`check` takes a time that grows as the text does: at most some times that of a session's `load` of the same text, each the best of three; and
that four times as many tests, templates, policies that err, and parts of a call take less than seven times as long, beyond what a run with none takes. A time
that is too long is measured twice more before it is told.

All is written by hand, from what is promised. Of a program that isn't proved (tools/build.py) the case `version` fails, since that
program says so. Ends with status 1 where a run goes otherwise."""

import json
import os
import re
import resource
import shlex
import shutil
import subprocess
import sys
import tempfile

from json_schema import faults_of_text

CASES = "crates/cedar_cli/cases"
PAGES = ["docs/POLICIES.md", "docs/JSON.md"]
SCHEMA = "docs/cli.schema.json"
SECONDS = 60
# How often the time of a session's load a check of the same text may take; one with faults is read twice, and each is told.
SLOWER, SLOWER_WITH_FAULTS = 3, 6
GROWTH = 7
EXPLAIN = ["explain", "parts", "none", "asked"]
AUTHORIZE = ["authorize", "-p", "parts", "--principal", 'A::"a"', "--action", 'A::"a"', "--resource", 'A::"a"']
# A call, with these policies and these entities.
CALL = '{"principal":"A::\\"a\\"","action":"A::\\"a\\"","resource":"A::\\"a\\"","context":{},"entities":[%s],"policies":{%s}}'
STATIC = CALL % ("", '"staticPolicies":{PARTS "a":"permit(principal,action,resource);"}')
LINKS = CALL % ("", '"templates":{"t":"permit(principal==?principal,action,resource);"},"templateLinks":[PARTS {"templateId":"t","newId":"a","values":{"?principal":"A::\\"a\\""}}]')
ENTITIES = CALL % ('PARTS {"uid":{"type":"A","id":"a"}}', "")
# What grows, the words, the text, a part of it, and how many stand in place of PARTS: so many that a run takes long enough to be measured, and
# that four times as many are no longer than a text may be.
GROWTHS = [
    ("names of tests", ["test", "--list", "parts"], "PARTS", "test t%d\n", 60_000),
    ("templates", EXPLAIN, "PARTS", 'permit(principal==?principal,action==A::"%d",resource);\n', 4_400),
    ("policies that err", EXPLAIN, "PARTS", "permit(principal,action,resource)when{context.a%d};\n", 4_600),
    ("named policies", AUTHORIZE, "PARTS", '@id("a%d")permit(principal,action,resource);\n', 5_000),
    ("policies of a call", ["authorize", "--json"], STATIC, '"a%d":"permit(principal,action,resource)when{context.a};",', 5_000),
    ("links of a call", ["authorize", "--json"], LINKS, '{"templateId":"t","newId":"l%d","values":{"?principal":"A::\\"a\\""}},', 5_000),
    ("entities of a call", ["authorize", "--json"], ENTITIES, '{"uid":{"type":"A","id":"%d"},"attrs":{"n":1},"parents":[]},', 10_000),
]
# Characters that texts have by their names.
CHARACTERS = {"<TAB>": "\t", "<CR>": "\r", "<ESC>": "\x1b", "<NUL>": "\0", "<BEL>": "\a"}


# The words whose output with `--json` the schema has.
TOLD_TO_PROGRAMS = {"check", "test", "explain"}


def schema_of_outputs():
    with open(SCHEMA, encoding="utf-8") as it:
        return json.load(it)


def text_of(path, otherwise=""):
    if not os.path.exists(path):
        return otherwise
    with open(path, encoding="utf-8", newline="") as it:
        return it.read()


def ran(program, words, given=b"", folder="."):
    """The status of a run, and what it wrote."""
    it = subprocess.run([program, *words], input=given, cwd=folder, capture_output=True, timeout=SECONDS)
    return it.returncode, it.stdout, it.stderr


def differs(wanted, got):
    """Where what is written differs from what should be: the first such line."""
    want, have = wanted.split("\n"), got.split("\n")
    for number, (a, b) in enumerate(zip(want, have), 1):
        if a != b:
            return f"line {number} is\n    {b}\n  and should be\n    {a}"
    if len(want) != len(have):
        return f"it has {len(have) - 1} lines, and should have {len(want) - 1}"
    return None


def why_not(wanted, got):
    """Why a run isn't as it should be: the status, the output and the errors of each."""
    if got[0] != wanted[0]:
        return f"its status is {got[0]}, and should be {wanted[0]}; it wrote\n{got[1].decode(errors='replace')}{got[2].decode(errors='replace')}"
    for part, name in ((1, "standard output"), (2, "standard error")):
        why = differs(wanted[part], got[part].decode(errors="replace"))
        if why:
            return f"of {name} {why}"
    return None


# ---- texts


def texts(file):
    """Each text of a file by its name, with what is printed of it."""
    for block in text_of(f"{CASES}/{file}").split("==== ")[1:]:
        for name, character in CHARACTERS.items():
            block = block.replace(name, character)
        name, *lines = block.removesuffix("\n").split("\n")
        told = "".join(f"{it[2:]}\n" for it in lines if it.startswith("> "))
        yield name, "\n".join(it for it in lines if not it.startswith("> ")), told


def of_texts(program):
    for file in ("refused.txt", "told.txt"):
        for name, text, told in texts(file):
            status = 0 if re.match(r"-:\d+:\d+: policy\d|-: no policies\n", told) else 1
            words = ["check", "--no-types"] if name.startswith("(no types) ") else ["check"]
            yield f"{file}: {name}", (status, told, ""), ran(program, words, text.encode())


# ---- calls of isAuthorized


def of_calls(program):
    """Each call of a file by its name: the call, `> ` and what it is answered, and `= STATUS`."""
    for block in text_of(f"{CASES}/calls.txt").split("==== ")[1:]:
        name, *lines = block.rstrip("\n").split("\n")
        call = "".join(f"{it}\n" for it in lines if not it.startswith(("> ", "= ")))
        told = "".join(f"{it[2:]}\n" for it in lines if it.startswith("> "))
        status = int(lines[-1].removeprefix("= "))
        yield f"calls.txt: {name}", (status, told, ""), ran(program, ["authorize", "--json"], call.encode())


# ---- runs in a folder


def of_folders(program):
    for name in sorted(it for it in os.listdir(CASES) if os.path.exists(f"{CASES}/{it}/args")):
        folder = f"{CASES}/{name}"
        words = text_of(f"{folder}/args").split("\n")[:-1]
        wanted = (int(text_of(f"{folder}/status", "0")), text_of(f"{folder}/stdout"), text_of(f"{folder}/stderr"))
        got = ran(program, words, text_of(f"{folder}/stdin").encode(), folder)
        yield name, wanted, got
        if "--json" in words and words[0] in TOLD_TO_PROGRAMS:
            why = "".join(f"{it}\n" for it in faults_of_text(schema_of_outputs(), got[1].decode(errors="replace")))
            yield f"{name}, by the schema", (0, "", ""), (0, why.encode(), b"")


def status_of(block):
    """How a run of the page ends: by what it decides, or by what it tells."""
    decided = re.search(r"(?m)^(allow|deny|open) must=", block)
    if decided:
        return {"allow": 0, "deny": 2, "open": 3}[decided[1]]
    return 1 if re.search(r"(?m)^FAIL|^\S+:\d+:\d+: (?!policy)", block) else 0


def of_pages(program):
    """The files of each page, each below a line that names it (which JSON hasn't as a comment), and what each command prints."""
    for page in filter(os.path.exists, PAGES):
        with tempfile.TemporaryDirectory(prefix="page-") as room:
            for block in re.findall(r"(?ms)^```(?:\w+)?\n(.*?)^```", text_of(page)):
                file = re.match(r"(?://|#) (\S+\.(cedar|tests|entities|question|json)\b).*\n", block)
                command = re.match(r"\$ cedar_cli (.*?)(?: < (\S+))?\n", block)
                if file:
                    with open(f"{room}/{file[1]}", "w", encoding="utf-8") as it:
                        it.write(block[file.end() :] if file[2] == "json" else block)
                elif command:
                    given = text_of(f"{room}/{command[2]}").encode() if command[2] else b""
                    yield f"{page}: {command[1]}", (status_of(block), block[command.end() :], ""), ran(program, shlex.split(command[1]), given, room)


# ---- lines for a shell


def lines(file):
    """Each line for a shell of a file by its name, with the status, the output and the errors that it has to have."""
    for block in text_of(f"{CASES}/{file}.txt").split("==== ")[1:]:
        name, line, *told = block.rstrip("\n").split("\n")
        parts = {mark: "".join(f"{it[2:]}\n" for it in told if it.startswith(mark)) for mark in ("! ", "= ")}
        output = "".join(f"{it}\n" for it in told if not it.startswith(("! ", "= ")))
        yield name, line.removeprefix("$ "), (int(parts["= "] or 0), output, parts["! "])


def of_habits(program):
    with tempfile.TemporaryDirectory(prefix="habits-") as room:
        os.mkdir(f"{room}/bin")
        os.symlink(program, f"{room}/bin/cedar_cli")
        environment = {**os.environ, "PATH": f"{room}/bin:{os.environ['PATH']}", "LC_ALL": "C.UTF-8"}
        for file, (name, line, wanted) in ((file, it) for file in ("habits", "requests") for it in lines(file)):
            folder = tempfile.mkdtemp(dir=room)
            shutil.copytree(f"{CASES}/{file}", folder, dirs_exist_ok=True)
            it = subprocess.run(["bash", "-c", line], cwd=folder, env=environment, stdin=subprocess.DEVNULL, capture_output=True, timeout=SECONDS)
            yield f"{file}: {name}", wanted, (it.returncode, it.stdout, it.stderr)


# ---- what no file shows


def beside(program):
    fine = b"permit(principal, action, resource);"
    yield "(no text)", (1, "-:2:5: the text is no UTF-8\n", ""), ran(program, ["check"], b"permit\n\xc3\xa9();\xff\n")
    yield "(a text cut inside a character)", (1, "-:1:3: the text is no UTF-8\n", ""), ran(program, ["check"], b"//\xc3")
    longest = fine + b" " * (1_048_576 - len(fine))
    yield "(the longest text)", (0, "-:1:1: policy0 permit\n", ""), ran(program, ["check"], longest)
    yield "(a text too long)", (1, "-: the text is longer than 1,048,576 bytes\n", ""), ran(program, ["check"], longest + b" ")
    for levels, wanted in ((100, (0, "-:1:1: policy0 permit\n", "")), (257, (1, "-: the text is nested too deep\n", ""))):
        deep = b"permit(principal, action, resource) when { " + b"(" * levels + b"true" + b")" * levels + b" };"
        yield f"({levels} brackets)", wanted, ran(program, ["check"], deep)
    explained = ["explain", f"{CASES}/explain-allow/staff.cedar", f"{CASES}/explain-allow/people.entities"]
    long = (1, "-: the text is longer than 1,048,576 bytes\n", "")
    yield "(a question too long)", long, ran(program, [*explained, "-"], b" " * 1_048_577)
    deep = (1, "-: the text is nested too deep\n", "")
    yield "(entities too deep)", deep, ran(program, [*explained[:2], "-", f"{CASES}/explain-allow/question"], b"[" * 257 + b"]" * 257)
    with tempfile.TemporaryDirectory(prefix="long-") as room:
        for name, text in (("long.tests", b"test a\nload < long.cedar\n"), ("long.cedar", b"permit(principal, action, resource);\n" * 40_000)):
            with open(f"{room}/{name}", "wb") as it:
                it.write(text)
        long = (2, "long.tests:2: the text is longer than 1,048,576 bytes\n", "")
        yield "(a script with a text too long)", long, ran(program, ["test", "long.tests"], b"", room)


# ---- time


def processor_seconds(program, words, given, room=None):
    """What a run takes of a processor, at the best of three."""
    taken = []
    for _ in range(3):
        before = resource.getrusage(resource.RUSAGE_CHILDREN)
        ran(program, words, given, room)
        after = resource.getrusage(resource.RUSAGE_CHILDREN)
        taken.append(after.ru_utime + after.ru_stime - before.ru_utime - before.ru_stime)
    return min(taken)


def told_thrice(measure, *given):
    """What is told of a time that was found to be too long three times; nothing where it once wasn't."""
    why = ""
    for _ in range(3):
        why = measure(*given)
        if not why:
            break
    return why


def of_times(program):
    grants = "".join(f'permit(principal == User::"u{n}", action == Action::"a", resource == Doc::"d{n}");\n' for n in range(12_000))
    faults = 'permit(principal, action, resource) when { a = 1 };\n' * 5_000
    for name, text, slower in (("12,000 policies", grants.encode(), SLOWER), ("5,000 faults", faults.encode(), SLOWER_WITH_FAULTS)):
        why = told_thrice(check_told, program, text, slower)
        yield f"({name}: the time of check)", (0, "", ""), (0, why.encode(), b"")


def check_told(program, text, slower):
    loaded = processor_seconds(program, ["session"], b"load %d\n%s\n" % (len(text), text))
    checked = processor_seconds(program, ["check"], text)
    return "" if checked <= slower * loaded else f"check took {checked:.2f} processor seconds, and the load of the same text {loaded:.2f}\n"


def of_growths(program):
    """Four times as much takes some four times as long, and not sixteen."""
    for name, words, text, part, count in GROWTHS:
        with tempfile.TemporaryDirectory(prefix="growth-") as room:
            why = told_thrice(growth_told, program, words, text, part, count, room)
        yield f"({name}: the time by their number)", (0, "", ""), (0, why.encode(), b"")


def growth_told(program, words, text, part, count, room):
    try:
        none, small, large = (time_of_parts(program, words, text, part, it, room) for it in (0, count, 4 * count))
    except subprocess.TimeoutExpired:
        return f"{4 * count} took more than {SECONDS} seconds\n"
    if large - none <= GROWTH * (small - none):
        return ""
    return f"{count} took {small:.2f} processor seconds, {4 * count} took {large:.2f}, and none {none:.2f}\n"


def time_of_parts(program, words, text, part, count, room):
    """What a run takes that is given a text of so many parts, in the file `parts` and on standard input."""
    parts = text.replace("PARTS", "".join(part % it for it in range(count)))
    texts = {"parts": parts, "none": "[]", "asked": '{action: Action::"a", context: {}}'}
    for name, text in texts.items():
        with open(f"{room}/{name}", "w", encoding="utf-8") as it:
            it.write(text)
    return processor_seconds(program, words, parts.encode(), room)


def main():
    words = sys.argv[1:]
    if len(words) < 2 or words[0] != "--program":
        sys.exit(__doc__)
    program = os.path.abspath(words[1])
    if not os.access(program, os.X_OK):
        sys.exit(f"there is no program {words[1]}; `rt run` in crates/cedar_cli leaves one at crates/cedar_cli/out/cedar_cli, and tools/build.py one without a proof")
    passed = failed = 0
    for tried in (of_texts, of_calls, of_folders, of_habits, of_pages, beside, of_times, of_growths):
        for name, wanted, got in tried(program):
            if words[2:] and name not in words[2:]:
                continue
            why = why_not(wanted, got)
            passed, failed = passed + (not why), failed + bool(why)
            if why:
                print(f"{name}: {why}")
    print(f"{passed} passed, {failed} failed")
    return 1 if failed or not passed else 0


if __name__ == "__main__":
    sys.exit(main())
