#!/usr/bin/env python3
"""cases.py --program PATH [NAME..] | --cli PATH [NAME..] | --pages | --from-pages, at the top of the repository: whole sessions,
and the lines that answer them.

Each crates/cedar_main/cases/NAME.stdin is what the program reads, in frames, and NAME.stdout what it must write: a line for each
frame, and `end` or a fault. The answers are written by hand, from what is promised, and none is the program's output. Those of
crates/cedar_cli/sessions call functions of Cedar's extension types.

--program PATH [NAME..]   runs the program on all cases, or on those named; shows of each that fails the first line that differs,
                          below the frame that it answers; and ends with `N passed, M failed`
--cli PATH [NAME..]       the same of `cedar_cli`: `PATH session` on crates/cedar_cli/sessions, and `PATH --no-types session` on
                          crates/cedar_main/cases, which it must answer as `cedar_session` does
--pages                   checks that what README.md and docs/ANSWERS.md show is among the cases: the script of the one, and of the
                          other each frame of its tables behind those that have to stand before it
--from-pages              writes these cases, named readme-* and answers-*, as the pages have them

A program ends with status 0 behind `end` and 2 behind a fault, and writes nothing else. What no frames show is tried beside all
cases: a word behind the program's name, streams that break, a client that waits for each line. A case whose other file lacks, a
name that is no case and a table of the page that can't be read all fail. Ends with status 1 where anything does."""

import os
import re
import select
import subprocess
import sys

CASES = "crates/cedar_main/cases"
TYPED = "crates/cedar_cli/sessions"
OF_PAGES = ("readme-", "answers-")
SECONDS = 60
VERBS = "load link unlink remove-static remove-template add put remove ask tell".split()
HEAD = re.compile(rb"(%s) (0|[1-9][0-9]*)\n" % "|".join(VERBS).encode())

# What stands in the examples of docs/ANSWERS.md for bytes that a line of a page can't hold.
ESCAPES = {b"n": b"\n", b"r": b"\r", b"xff": b"\xff"}

# The tables of docs/ANSWERS.md that show no frame.
PLAIN_TABLES = [
    ["line", "stands for"],
    ["part of an answer", "says"],
    ["limit", "", "beyond it"],
    ["exit status", "last line", "stands for"],
    ["kind", "why no text shows it"],
]


class Unread(Exception):
    """A page has what can't be read."""


def bytes_of(path):
    with open(path, "rb") as it:
        return it.read()


def text_of(path):
    return bytes_of(path).decode("utf-8")


def frame(verb, body):
    return f"{verb} {len(body)}\n".encode() + body + b"\n"


def frames_of(given):
    """The frames of a script, and what stands behind the last whole one."""
    frames, at = [], 0
    while True:
        head = HEAD.match(given, at)
        end = head.end() + int(head[2]) if head else 0
        if not head or given[end : end + 1] != b"\n":
            return frames, given[at:]
        frames.append(given[at : end + 1])
        at = end + 1


def answered(steps):
    """What the program reads, and what it must write, for steps of a verb, a body and a line."""
    return b"".join(frame(verb, body) for verb, body, _ in steps), "".join(f"{line}\n" for _, _, line in [*steps, ("", b"", "end")])


# ---- pages


def of_readme(text):
    """The script of README.md and what stands under it, by name."""
    found = re.search(r"(?ms)<<'END'\n(.*?)^END\n```\n\nIt writes\n\n```\n(.*?)^```", text)
    if not found:
        raise Unread("README.md: no script stands between <<'END' and END, with what it writes below")
    return {"readme-first-answer": (found[1].encode(), found[2])}


def cells_of(line):
    """The cells of a row, where a bar between backquotes parts none."""
    return [it.strip() for it in re.split(r"\|(?=(?:[^`]*`[^`]*`)*[^`]*$)", line.strip()[1:-1])]


def tables_of(text):
    """Each table of a page: the heading above it, its columns, and its rows as maps from columns to cells."""
    heading, columns, tables = "", None, []
    for line in text.splitlines():
        if line.startswith("#"):
            heading = re.sub(r"^#+ (\d+\. )?", "", line)
        if not line.startswith("|"):
            columns = None
        elif columns is None:
            columns = cells_of(line)
            tables.append((heading, columns, []))
        elif not re.fullmatch(r"[|\s-]+", line):
            cells = cells_of(line)
            if len(cells) != len(columns):
                raise Unread(f"docs/ANSWERS.md: a row under '{heading}' has {len(cells)} cells, and not {len(columns)}: {line}")
            tables[-1][2].append(dict(zip(columns, cells)))
    return tables


def bodies(cell):
    """The texts that a cell writes, with `or` between them: each of pieces with commas between, where a number before a piece
    says how many times it stands."""
    found, at = [], 0
    for it in re.finditer(r"(^|, | or )(?:\(empty\)|(?:(\d+) )?`([^`]*)`)", cell):
        if it.start() != at:
            break
        piece = re.sub(rb"\\(n|r|xff)", lambda escape: ESCAPES[escape[1]], (it[3] or "").encode()) * int(it[2] or 1)
        if it[1] == ", ":
            piece = found.pop() + piece
        found.append(piece)
        at = it.end()
    if at != len(cell):
        raise Unread(f"docs/ANSWERS.md: what does `{cell[at:]}` write?")
    return found


def line_of(cell):
    """The line that a cell of the column `refusal` says."""
    found = re.fullmatch(r"none: `(.*)`|`(\w+)`", cell)
    if not found:
        raise Unread(f"docs/ANSWERS.md: which line is `{cell}`?")
    return found[1] or f"refused {found[2]}"


def steps_of(rows):
    """A table's rows of a verb, a body and an answer."""
    return [(row["verb"].strip("`"), bodies(row["body"])[0], row["answer"].strip("`")) for row in rows]


def behind(names, letters):
    """The steps that have to stand before an example, by their letters."""
    unknown = [it for it in filter(None, names.split(", ")) if it not in letters]
    if unknown:
        raise Unread(f"docs/ANSWERS.md: no table says what {unknown[0]} is")
    return [step for it in filter(None, names.split(", ")) for step in letters[it]]


def of_refusals(heading, rows, letters):
    """A session for each verb and each thing that has to stand before: the bodies that are refused, which change nothing, and then
    the one that is accepted."""
    sessions = {}
    is_any = heading == "Any other body"
    for row in rows:
        for verb in VERBS[1:] if is_any else [row.get("verb", heading).strip("`")]:
            before = "Q" if is_any and verb == "tell" else row["before"]
            name = "-".join(["answers", *["any-body"] * is_any, verb, *(["behind", *before.split(", ")] if before else [])])
            steps = sessions.setdefault(name, (behind(before, letters), [], []))
            for body in bodies(row["body"]) if row["body"] else []:
                line = line_of(row["refusal"])
                steps[1 if line.startswith("refused") else 2].append((verb, body, line))
    for name, (begun, refused, accepted) in sessions.items():
        if len(accepted) > 1:
            raise Unread(f"docs/ANSWERS.md: {name} has two frames that are accepted, the second perhaps only before the first")
        yield name, answered([*begun, *refused, *accepted])


def of_faults(rows):
    for row in rows:
        fault = row["fault"].strip("`")
        for number, given in enumerate(bodies(row["input, a smallest one first"]) if row["input, a smallest one first"] else [], 1):
            yield f"answers-fault-{fault}-{number}", (given, f"fault {fault}\n")


def of_kinds(rows, letters):
    """Behind each text that is loaded, the question with nothing known says that its policy errs by this kind."""
    for row in rows:
        kind = row["kind"].strip("`")
        for number, text in enumerate(bodies(row["`load`"]), 1):
            erring = f'deny must=[] may=[] erring=["policy0":{kind}]'
            steps = [*behind(row["before"], letters), ("load", text, 'ok ["policy0"]'), ("ask", b"{}", erring)]
            yield f"answers-kind-{kind}-{number}", answered(steps)


def of_answers(text):
    """The sessions that docs/ANSWERS.md shows, by name."""
    letters, sessions = {}, []
    for heading, columns, rows in tables_of(text):
        if columns == ["name", "verb", "body", "answer"]:
            letters.update((row["name"], steps_of([row])) for row in rows)
        elif columns in (["refusal", "means", "before", "body"], ["verb", "refusal", "means", "before", "body"]):
            sessions += of_refusals(heading, rows, letters)
        elif columns == ["verb", "body", "answer"]:
            name = "answers-session-" + re.sub(r"\W+", "-", heading.lower()).strip("-")
            again = sum(it.startswith(name) for it, _ in sessions)
            sessions.append((f"{name}-{again + 1}" if again else name, answered(steps_of(rows))))
        elif columns[0] == "fault":
            sessions += of_faults(rows)
        elif columns == ["kind", "means", "before", "`load`"]:
            sessions += of_kinds(rows, letters)
        elif columns not in PLAIN_TABLES:
            raise Unread(f"docs/ANSWERS.md: a table under '{heading}' has columns that nobody reads: {columns}")
    if len(dict(sessions)) < len(sessions):
        raise Unread("docs/ANSWERS.md: two tables give sessions of one name")
    return dict(sessions)


def of_pages():
    return {**of_readme(text_of("README.md")), **of_answers(text_of("docs/ANSWERS.md"))}


def files_of(name, folder=CASES):
    return f"{folder}/{name}.stdin", f"{folder}/{name}.stdout"


def stale(sessions):
    """The files that say to be of a page, and aren't."""
    wanted = {file for name in sessions for file in files_of(name)}
    return [f"{CASES}/{it}" for it in sorted(os.listdir(CASES)) if it.startswith(OF_PAGES) and f"{CASES}/{it}" not in wanted]


def check_pages():
    sessions = of_pages()
    faults = [f"{file}: no page shows it" for file in stale(sessions)]
    for name, (given, wanted) in sorted(sessions.items()):
        for file, text in zip(files_of(name), (given, wanted.encode())):
            if not os.path.isfile(file):
                faults.append(f"{file} isn't there, which a page shows")
            elif bytes_of(file) != text:
                faults.append(f"{file} isn't as the page has it")
    print("\n".join(faults) if faults else f"{len(sessions)} sessions of README.md and docs/ANSWERS.md stand among the cases")
    return len(faults)


def write_pages():
    sessions = of_pages()
    for file in stale(sessions):
        os.remove(file)
    for name, (given, wanted) in sessions.items():
        for file, text in zip(files_of(name), (given, wanted.encode())):
            with open(file, "wb") as it:
                it.write(text)
    print(f"{len(sessions)} sessions of README.md and docs/ANSWERS.md were written")
    return 0


# ---- runs


def shown(text, most=300):
    """Bytes as a reader wants them: their lines, cut where they are many."""
    text = text.decode("utf-8", "backslashreplace")
    return text if len(text) <= most else f"{text[: most // 2]} .. {len(text) - most} more characters .. {text[-most // 2 :]}"


def differs(given, wanted, wrote):
    """The first line that differs, below the frame that it answers."""
    frames, rest = frames_of(given)
    wants, has = (it.splitlines(keepends=True) for it in (wanted, wrote))
    at = next(it for it in range(len(wants) + len(has)) if wants[it : it + 1] != has[it : it + 1])
    above = frames[at] if at < len(frames) else rest or b"(the end of the input)"
    of = lambda lines: shown(lines[at]).rstrip("\n") if at < len(lines) else "(no line)"
    note = " (without a line feed)" if at < len(has) and not has[at].endswith(b"\n") else ""
    return f"line {at + 1} differs\n{shown(above).rstrip()}\n  wanted: {of(wants)}\n  wrote:  {of(has)}{note}"


def why_not(command, folder, name):
    """Runs a case, and says what isn't as it should be, or nothing."""
    lacks = [it for it in files_of(name, folder) if not os.path.isfile(it)]
    if lacks:
        return f"{lacks[0]} isn't there"
    given, wanted = map(bytes_of, files_of(name, folder))
    last = wanted.rstrip(b"\n").split(b"\n")[-1]
    if not wanted.endswith(b"\n") or not re.fullmatch(rb"end|fault \w+", last):
        return "its last line is neither `end` nor a fault"
    try:
        ran = subprocess.run(command, input=given, stdout=subprocess.PIPE, stderr=subprocess.PIPE, timeout=SECONDS)
    except subprocess.TimeoutExpired:
        return f"it hadn't ended after {SECONDS} seconds"
    if ran.stdout != wanted:
        return differs(given, wanted, ran.stdout)
    status = 0 if last == b"end" else 2
    if ran.returncode != status:
        return f"its status is {ran.returncode}, and not {status}"
    return f"it wrote on standard error: {shown(ran.stderr)}" if ran.stderr else None


def ended(words, given=None, **streams):
    """The status of a run, and what it wrote: (None, ..) where it takes too long."""
    streams = {"stdout": subprocess.PIPE, "stderr": subprocess.PIPE, **streams}
    try:
        ran = subprocess.run(words, input=given, timeout=SECONDS, **streams)
    except subprocess.TimeoutExpired:
        return None, b"", b""
    return ran.returncode, ran.stdout, ran.stderr


def lets_wait(command):
    """Whether each line comes while the client waits for it, with the next frame unsent."""
    with subprocess.Popen(command, stdin=subprocess.PIPE, stdout=subprocess.PIPE, bufsize=0) as ran:
        try:
            for _ in range(3):
                ran.stdin.write(frame("load", b""))
                if not select.select([ran.stdout], [], [], SECONDS)[0] or ran.stdout.readline() != b"ok []\n":
                    return False
            ran.stdin.close()
            return ran.stdout.read() == b"end\n" and ran.wait() == 0
        except BrokenPipeError:
            return False
        finally:
            ran.kill()


def beside_frames(command):
    """What no script of frames shows, by name, and whether it is as it should be."""
    given = frame("load", b"")
    if len(command) == 1:
        yield "(a word behind the program's name)", ended([*command, "word"], given) == (1, b"", b"usage: cedar_session\n")
    else:
        yield "(a word behind `session`)", ended([*command, "word"], given)[:2] == (64, b"")
    with open("/dev/full", "wb") as full:
        yield "(output that can't be written)", ended(command, given, stdout=full)[0] == 3
    folder = os.open("/", os.O_RDONLY)
    yield "(input that can't be read)", ended(command, stdin=folder)[:2] == (3, b"")
    os.close(folder)
    yield "(a client that waits for each line)", lets_wait(command)


def run_cases(command, folder, names):
    files = sorted(os.listdir(folder))
    known = sorted({os.path.splitext(it)[0] for it in files if it.endswith((".stdin", ".stdout"))})
    others = [] if names else [it for it in files if not it.endswith((".stdin", ".stdout"))]
    faults = [f"{it}: it is no NAME.stdin and no NAME.stdout" for it in others]
    faults += [f"{it}: there is no such case" for it in names if it not in known]
    tried = {it: why_not(command, folder, it) for it in known if not names or it in names}
    if not names:
        tried.update((name, None if is_well else "it doesn't end as docs/ANSWERS.md says") for name, is_well in beside_frames(command))
    if not known:
        faults.append(f"{folder} has no case")
    faults += [f"{name}: {why}" for name, why in tried.items() if why]
    passed = sum(not why for why in tried.values())
    print("\n".join([*faults, f"{passed} passed, {len(faults)} failed"]))
    return len(faults)


def main():
    words = sys.argv[1:]
    try:
        if words == ["--pages"]:
            return 1 if check_pages() else 0
        if words == ["--from-pages"]:
            return write_pages()
        if len(words) < 2 or words[0] not in ("--program", "--cli") or any(it.startswith("-") for it in words[1:]):
            sys.exit(__doc__)
        program = os.path.abspath(words[1])
        if not os.access(program, os.X_OK):
            sys.exit(f"there is no program {words[1]}; `rt run` in crates/cedar_main leaves one at crates/cedar_main/out/cedar_main, and tools/build.py one without a proof")
        if words[0] == "--program":
            return 1 if run_cases([program], CASES, words[2:]) else 0
        failed = run_cases([program, "session"], TYPED, words[2:])
        if not words[2:]:
            failed += run_cases([program, "--no-types", "session"], CASES, [])
        return 1 if failed else 0
    except (Unread, OSError) as why:
        sys.exit(str(why))


if __name__ == "__main__":
    sys.exit(main())
