#!/usr/bin/env python3
"""rows.py --program PATH, at the top of the repository: the rows of the layers, and what answers them.

Each line of crates/cedar_layer_rows/stdin is a row, and stdout beside it has what the program must write: the row again, `=>` and
its answer, which may take several lines. Printed as they stand are blank lines, lines `layer NAME`, below which the rows of that
layer stand, and lines that begin with `#`, which say what the rows below them show. The answers are written by hand.

--program PATH   runs the program on all rows, and shows the first line that differs, below its layer, the `#` line above it and
                 its row: what one row leaves is there for the next ones, so that one that is wrong may make others differ

Ends with status 1 where a line differs, where the program doesn't end with status 0, or where stdout isn't that of these rows."""

import os
import subprocess
import sys

sys.dont_write_bytecode = True
from cases import bytes_of

FOLDER = "crates/cedar_layer_rows"
SECONDS = 600
MARK = " => "


def lines_of(text):
    """The lines of a text, and whether the last one has its line feed."""
    lines = text.decode("utf-8", "backslashreplace").split("\n")
    return lines[:-1] if lines[-1] == "" else lines, lines[-1] == ""


def stands_alone(row):
    return not row or row.startswith(("#", "layer "))


def begins(line, row):
    """Whether the line is the first of those that answer a row."""
    return line == row if stands_alone(row) else line.startswith(row + MARK)


def places_of(rows, lines):
    """For each line that answers a row, the row's number: (places, the number of the first row without an answer)."""
    places, row = [], -1
    for line in lines:
        if row + 1 < len(rows) and begins(line, rows[row + 1]):
            row += 1
        places.append(row)
    return places, row + 1


def cut(line, most=300):
    return line if len(line) <= most else f"{line[: most // 2]} .. {len(line) - most} more characters .. {line[-most // 2 :]}"


def answer(lines, at, row):
    """A line of an answer, without the row that stands before its first one."""
    if at >= len(lines):
        return "(no line)"
    line = lines[at]
    return cut(line[len(row) + len(MARK) :] if not stands_alone(row) and line.startswith(row + MARK) else line)


def differs(rows, wants, has):
    """The first line that differs, with what stands above it."""
    at = next(it for it in range(len(wants) + 1) if wants[it : it + 1] != has[it : it + 1])
    number = places_of(rows, wants)[0][at] if at < len(wants) else len(rows)
    above = [it for it in rows[:number] if it.startswith("layer ")][-1:]
    for it in reversed(rows[:number]):
        if it.startswith(("#", "layer ")):
            above += [it] if it.startswith("#") else []
            break
    row = rows[number] if number < len(rows) else ""
    above.append(cut(row) if number < len(rows) else "(behind the last row)")
    return "\n".join([f"line {at + 1} differs", *above, f"  wanted: {answer(wants, at, row)}", f"  wrote:  {answer(has, at, row)}"])


def why_not(program):
    """Runs all rows, and says what isn't as it should be, or nothing."""
    given, wanted = bytes_of(f"{FOLDER}/stdin"), bytes_of(f"{FOLDER}/stdout")
    rows, wants = lines_of(given)[0], lines_of(wanted)[0]
    answered = places_of(rows, wants)[1]
    if answered < len(rows):
        return f"{FOLDER}/stdout has no answer to row {answered + 1}, or not at its place: {cut(rows[answered])}"
    try:
        ran = subprocess.run([program], input=given, stdout=subprocess.PIPE, stderr=subprocess.PIPE, timeout=SECONDS)
    except subprocess.TimeoutExpired:
        return f"it hadn't ended after {SECONDS} seconds"
    has, is_whole = lines_of(ran.stdout)
    if has != wants:
        return differs(rows, wants, has)
    if not is_whole:
        return "its last line has no line feed"
    return f"its status is {ran.returncode}, and not 0" if ran.returncode else None


def main():
    words = sys.argv[1:]
    if len(words) != 2 or words[0] != "--program" or words[1].startswith("-"):
        sys.exit(__doc__)
    program = os.path.abspath(words[1])
    if not os.access(program, os.X_OK):
        sys.exit(f"there is no program {words[1]}; `rt run` in {FOLDER} leaves one at {FOLDER}/out/cedar_layer_rows")
    try:
        why = why_not(program)
        rows = lines_of(bytes_of(f"{FOLDER}/stdin"))[0]
    except OSError as error:
        sys.exit(str(error))
    print(why or f"{sum(not stands_alone(it) for it in rows)} rows passed")
    return 1 if why else 0


if __name__ == "__main__":
    sys.exit(main())
