#!/usr/bin/env python3
"""gate_costs.py [--of PID | --made [COUNT]] [WORDS..]: runs the words (`rt ci` where none are given), or watches a process that
runs already, and prints what each check below it took, as the table of docs/GATE.md: processor seconds of the user and the system
together, and the most memory that was held, by the crate that was checked.

--made [COUNT]   times nothing: prints the functions (40, or so many) for which checks that are kept made the most text, from which
                 the dear ones are told, and what was made in each crate. A cycle is one function, named by its first with a plus.

It looks every half second, so that a check of less isn't seen, and the last half second of each is left out. What a crate costs
is the sum of its checks, and of the compilers of its programs."""

import collections
import json
import os
import re
import subprocess
import sys
import time

TICKS = os.sysconf("SC_CLK_TCK")
# The modules that a check makes for a function.
MADE = {"Lts", "View", "Given", "Goals", "Kinds", "Tie", "Carried", "Proof", "Mir", "Named", "Layout", "Code", "Reads", "Statement"}


def text_of(path):
    try:
        with open(path, "rb") as it:
            return it.read().decode("utf-8", "replace")
    except OSError:
        return ""


def stat_of(pid):
    """The parent of a process, and its ticks of user and system, without those of children."""
    text = text_of(f"/proc/{pid}/stat")
    if not text:
        return None
    fields = text.rpartition(") ")[2].split(" ")
    return int(fields[1]), int(fields[11]) + int(fields[12])


def crate_of(pid):
    """The crate that a process checks or compiles, by its words or the folder it stands in."""
    words = text_of(f"/proc/{pid}/cmdline").split("\0")
    if "--crate-name" in words:
        return words[words.index("--crate-name") + 1]
    return None


def below(root, parents):
    """The processes below the root, each with the crate of the nearest one above it that names a crate."""
    children = collections.defaultdict(list)
    for pid, parent in parents.items():
        children[parent].append(pid)
    found, left = [], [(root, None)]
    while left:
        pid, crate = left.pop()
        crate = crate_of(pid) or crate
        found.append((pid, crate))
        left += [(child, crate) for child in children[pid]]
    return found


def held_by(pid):
    peak = re.search(r"VmHWM:\s+(\d+) kB", text_of(f"/proc/{pid}/status"))
    return int(peak[1]) if peak else 0


def watched(root, alive):
    """What each process below the root took: (its crate, ticks, peak in kB) by the process and the moment it began."""
    seen = {}
    while alive():
        stats = {int(pid): stat_of(pid) for pid in os.listdir("/proc") if pid.isdigit()}
        parents = {pid: stat[0] for pid, stat in stats.items() if stat}
        for pid, crate in below(root, parents):
            if crate and stats.get(pid):
                seen[pid, crate] = (crate, stats[pid][1], max(held_by(pid), seen.get((pid, crate), (0, 0, 0))[2]))
        time.sleep(0.5)
    return seen


def table(seen):
    ticks, peaks = collections.Counter(), collections.Counter()
    for crate, count, peak in seen.values():
        ticks[crate] += count
        peaks[crate] = max(peaks[crate], peak)
    rows = [f"| `{crate}` | {count / TICKS:.0f} | {peaks[crate] / 1e6:.1f} |" for crate, count in ticks.most_common()]
    whole = f"{len(rows)} crates, {sum(ticks.values()) / TICKS / 60:.0f} processor minutes"
    return "\n".join(["| room | seconds | GB |", "|---|---|---|", *rows, "", whole])


def function_of(path):
    """The function for which a module was made: what stands before the name of its layout, its goals or its proof."""
    parts = path.split("/")[1:]
    ends = [at for at, it in enumerate(parts) if it.partition("-")[0] in MADE]
    return "::".join(parts[: ends[0]] if ends else parts[:-1])


def made():
    """The bytes that checks made, by crate and function, of the libraries that lie in crates/."""
    sizes = collections.Counter()
    for crate in sorted(os.listdir("crates")):
        for line in text_of(f"crates/{crate}/out/rlib/{crate}.rlib/toolchain/made.json").splitlines():
            path, _, size = json.loads(line)[:3]
            if path.startswith("proofs/"):
                sizes[crate, function_of(path)] += size
    return sizes


def table_of_made(sizes, count):
    crates = collections.Counter()
    for (crate, _), size in sizes.items():
        crates[crate] += size
    rows = [f"| `{crate}` | `{name}` | {size / 1e6:.1f} |" for (crate, name), size in sizes.most_common(count)]
    whole = [f"| `{crate}` | {size / 1e6:.0f} |" for crate, size in crates.most_common()]
    return "\n".join(["| room | function | MB |", "|---|---|---|", *rows, "", "| room | MB |", "|---|---|", *whole])


def main():
    words = sys.argv[1:]
    if words[:1] == ["--made"]:
        print(table_of_made(made(), int(words[1]) if words[1:] else 40))
        return 0
    if words[:1] == ["--of"]:
        root, status = int(words[1]), 0
        seen = watched(root, lambda: os.path.exists(f"/proc/{root}"))
    else:
        ran = subprocess.Popen(words or ["rt", "ci"])
        seen = watched(ran.pid, lambda: ran.poll() is None)
        status = ran.returncode
    print(table(seen))
    return status


if __name__ == "__main__":
    sys.exit(main())
