#!/usr/bin/env python3
"""measure_clients.py [--library FOLDER] [--repeat N], at the top of the repository: what one ask costs by a handle in C and by the client
in Python, and within one run over frames in memory.

Over the library that tools/archive.py leaves it builds crates/cedar_c/examples/cost.c, with $CC or cc. Instructions are
those of 1,000 asks (valgrind --tool=callgrind): what 2,000 take less what 1,000 take. Times are processor times of 100,000 asks, the
fastest of N repeats (5), of one policy, an answer as an object in Python."""

import argparse
import os
import re
import resource
import subprocess
import sys
import tempfile

HERE = os.path.dirname(os.path.realpath(__file__))
FOLDER = "crates/cedar_c/out/cedar"
COUNTED, TIMED = 1_000, 100_000
PYTHON = """
import sys
import cedar_session as cedar
from cedar_session import Entity
staff, alice, view, photo = Entity("Group", "staff"), Entity("User", "alice"), Entity("Action", "view"), Entity("Photo", "1")
with cedar.Session() as session:
    session.put([Entity("User", "alice", parents=[staff])])
    session.load('permit(principal in Group::"staff", action, resource) when { context.hour < 18 };')
    for _ in range(int(sys.argv[1])):
        answer = session.ask(principal=alice, action=view, resource=photo, context={"hour": 9})
assert answer.must == ("policy0",)
"""


def build(folder, room):
    """The program in C, and what finds the shared object."""
    words = ["-std=c11", "-O2", "-pthread", f"-I{folder}/include", "crates/cedar_c/examples/cost.c", f"{folder}/lib/libcedar.a"]
    subprocess.run([os.environ.get("CC", "cc"), *words, "-o", f"{room}/cost"], check=True)
    return f"{room}/cost", {**os.environ, "CEDAR_LIBRARY": os.path.abspath(f"{folder}/lib/libcedar.so"), "PYTHONPATH": f"{HERE}/../clients/python"}


def instructions(words, env):
    """What valgrind counts of a run."""
    counted = ["valgrind", "--tool=callgrind", "--callgrind-out-file=/dev/null", *words]
    ran = subprocess.run(counted, env=env, check=True, capture_output=True, text=True)
    return int(re.search(r"Collected : (\d+)", ran.stderr)[1])


def seconds(words, env, repeat):
    """The processor time of the fastest run."""
    times = []
    for _ in range(repeat):
        before = resource.getrusage(resource.RUSAGE_CHILDREN)
        subprocess.run(words, env=env, check=True)
        after = resource.getrusage(resource.RUSAGE_CHILDREN)
        times.append(after.ru_utime + after.ru_stime - before.ru_utime - before.ru_stime)
    return min(times)


def main():
    asked = argparse.ArgumentParser(usage=__doc__)
    asked.add_argument("--library", default=FOLDER)
    asked.add_argument("--repeat", type=int, default=5)
    asked = asked.parse_args()
    with tempfile.TemporaryDirectory() as room:
        cost, env = build(asked.library, room)
        ways = {"run": [cost, "run"], "handle": [cost, "handle"], "Python": [os.path.realpath(sys.executable), "-B", "-c", PYTHON]}
        of_run = None
        for way, words in ways.items():
            counts = [instructions([*words, str(count)], env) for count in (COUNTED, 2 * COUNTED)]
            times = [seconds([*words, str(count)], env, asked.repeat) for count in (1, TIMED)]
            found = (counts[1] - counts[0]) / COUNTED, (times[1] - times[0]) / TIMED * 1e6
            of_run = of_run or found
            print(f"{way}: {found[0]:,.0f} instructions, {found[0] / of_run[0]:.2f} of a run's; {found[1]:.1f} µs, {found[1] / of_run[1]:.2f} of a run's")


if __name__ == "__main__":
    main()
