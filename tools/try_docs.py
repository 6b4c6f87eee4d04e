#!/usr/bin/env python3
"""try_docs.py [PAGE..], at the top of the repository: runs what README.md and docs/POLICIES.md tell a reader to run, in fresh clones
of what is committed, without a proof, and compares what they show.

A block ```sh is run as it stands. What it must write stands behind it: a block below 'It writes', or its last line behind 'It prints';
else nothing is compared. In docs/POLICIES.md a block whose first line is a comment with the name of a file is that file, and one that
begins with '$' is a command with its whole output, whose status tools/cli_cases.py knows. The blocks of a section of README.md, and
those of docs/POLICIES.md, are one shell's, in a clone of their own; all shells run side by side. Blocks that prove ('rt ci', by four
spaces) are no such blocks.

Four programs are built, so it takes minutes, and the gate doesn't run it. Ends with status 1 where anything goes otherwise, or where all
takes the machine's processors more than ten minutes."""

import concurrent.futures
import os
import re
import subprocess
import sys
import tempfile
import time

sys.dont_write_bytecode = True
import cli_cases

README, POLICIES = "README.md", "docs/POLICIES.md"
BLOCK = re.compile(r"(?ms)^```(\w*)\n(.*?)^```\n")
FILE = re.compile(r"(?://|#) (\S+\.(?:cedar|tests|entities|question))\b")
WRITES = re.compile(r"(?ms)\A\s*It writes\n\n```\n(.*?)^```")
PRINTS = re.compile(r"\A\s*It prints `([^`]+)`")
SECONDS = 3600
LONGEST = 600
MARK = "\x1e"


class Step:
    """What is run, what it has to write, at least at last, and how it has to end."""

    def __init__(self, line, command, output=None, last="", status=0):
        self.line, self.command, self.output, self.last, self.status = line, command, output, last, status

    def why_not(self, output, status):
        """Why a run isn't as the page has it, or nothing."""
        if status != self.status:
            return f"its status is {status}, and should be {self.status}"
        if not f"\n{output}".endswith(self.last):
            return f"it wrote\n    {output[-300:]}\n  and should write at last\n    {self.last}"
        return None if self.output is None else cli_cases.differs(self.output, output)


def step_of_shell(line, body, behind):
    """The step of a block for a shell, with what the page shows behind it."""
    writes, prints = WRITES.match(behind), PRINTS.match(behind)
    return Step(line, body, writes and writes[1], f"\n{prints[1]}\n" if prints else "")


def step_of(text, block):
    """The step that a block is, or nothing."""
    line, body = text.count("\n", 0, block.start()) + 1, block[2]
    file = FILE.match(body)
    if block[1] == "sh":
        return step_of_shell(line, body, text[block.end() :])
    if body.startswith("$ "):
        command, output = body[2:].split("\n", 1)
        return Step(line, f"{command}\n", output, status=cli_cases.status_of(body))
    return Step(line, f"cat > {file[1]} <<'{MARK}'\n{body}{MARK}\n") if file else None


def steps_of(text, first, last):
    """The steps between two places of a page, in their order."""
    found = (step_of(text, it) for it in BLOCK.finditer(text) if first <= it.start() < last)
    return [it for it in found if it]


def shells_of(page):
    """The steps of each shell of a page."""
    text = cli_cases.text_of(page)
    heads = [0] if page == POLICIES else [it.start() for it in re.finditer(r"(?m)^## ", text)]
    return [it for it in (steps_of(text, *ends) for ends in zip(heads, [*heads[1:], len(text)])) if it]


def ran(steps, clone):
    """What each step of a shell writes, with its status, and the errors of all; fewer where the shell ends before."""
    script = "".join(f"{it.command}printf '{MARK}%s{MARK}' $?\n" for it in steps)
    # (some programs read standard input to its end, so the script doesn't stand there)
    with open(f"{clone}.sh", "w", encoding="utf-8") as it:
        it.write(script)
    streams = {"stdin": subprocess.DEVNULL, "stdout": subprocess.PIPE, "stderr": subprocess.PIPE}
    try:
        done = subprocess.run(["bash", it.name], cwd=clone, text=True, timeout=SECONDS, **streams)
    except subprocess.TimeoutExpired:
        return [], f"it hadn't ended after {SECONDS} seconds"
    parts = done.stdout.split(MARK)[:-1]
    return list(zip(parts[::2], map(int, parts[1::2]))), done.stderr


def faults_of(page, steps, clone):
    """Runs a shell, and tells each step that goes otherwise."""
    got, errors = ran(steps, clone)
    for step, (output, status) in zip(steps, got):
        why = step.why_not(output, status)
        if why:
            yield f"{page}:{step.line}: {why}\n{errors[-2000:]}"
    if len(got) < len(steps):
        yield f"{page}:{steps[len(got)].line}: the shell ended\n{errors[-2000:]}"


def tried(page, steps, room):
    """How many steps of a shell there are, and the faults; with a line for what it took."""
    clone, begun = tempfile.mkdtemp(dir=room), time.time()
    subprocess.run(["git", "clone", "-q", ".", clone], check=True)
    faults = list(faults_of(page, steps, clone))
    print(f"{page}:{steps[0].line}: {len(steps)} blocks, {len(faults)} failed, {time.time() - begun:.0f} seconds", flush=True)
    return len(steps), faults


def main():
    pages = sys.argv[1:] or [README, POLICIES]
    if any(it not in (README, POLICIES) for it in pages):
        sys.exit(__doc__)
    shells = [(page, steps) for page in pages for steps in shells_of(page)]
    used = os.times()
    with tempfile.TemporaryDirectory(prefix="docs-") as room, concurrent.futures.ThreadPoolExecutor(len(shells)) as pool:
        done = list(pool.map(lambda it: tried(*it, room), shells))
    faults = [it for _, found in done for it in found]
    processor = sum(os.times()[2:4]) - sum(used[2:4])
    if processor > LONGEST * os.cpu_count():
        faults.append(f"it takes {processor:.0f} processor seconds, more than {LONGEST} seconds of {os.cpu_count()} processors")
    print("\n".join([*faults, f"{sum(it - len(found) for it, found in done)} passed, {len(faults)} failed; {processor:.0f} processor seconds"]))
    return 1 if faults else 0


if __name__ == "__main__":
    sys.exit(main())
