#!/usr/bin/env python3
"""refuse_growths.py --program PATH [--scripts FOLDER|FILE.stdin] [--seconds N], at the top of the repository: refuses the program
each request for memory in turn, and looks whether it answers as is promised.

A script is a session, what the program reads in frames: each NAME.stdin of the folder, crates/cedar_main/cases where none is
given. In one run of a script behind the other the Nth request for memory is refused, for N from 1 until a run meets none; then
three in a row from the Nth on; and then the Nth once more, where the frame that was refused is sent a second time. The program
is the one that a build leaves: refusing_malloc.c is compiled with $CC or cc and put in front of the C library.

Of each run it is checked that
- each line is `refused Memory`, as many as requests were refused at most, or the line that the program writes with ample memory
  for the same frames without those that were refused: so nothing was half done, and each body was read past;
- a frame that was refused and is sent again has the line that it has with ample memory, and so has each frame behind it;
- the status and the last line are those of ample memory, but for a run that was refused memory before its first frame: that
  may write nothing, with status 4.

With --seconds a long script has only a spread of N, the same each time: how many fit is reckoned and not measured, as if half of
the processors were free. Prints how many runs there were, how many lines were refused of each verb, and how many runs went on
without what they were refused; or the first run that isn't so, its script, its N and its lines, and ends with status 1."""

import argparse
import collections
import concurrent.futures
import functools
import os
import re
import subprocess
import sys
import tempfile

sys.dont_write_bytecode = True
from cases import CASES, bytes_of, frames_of, shown

REFUSED = "refused Memory"
NO_MEMORY = 4
IN_A_ROW = (1, 3)
# What a run takes at most, where other work is done beside it: seconds, and seconds for each request.
OF_A_RUN, OF_A_REQUEST = 0.003, 0.000002
# The requests of a script that one process is given.
PORTION = 1500

Run = collections.namedtuple("Run", "number status met refused lines")
Script = collections.namedtuple("Script", "name frames rest")
Found = collections.namedtuple("Found", "runs verbs hidden fault")


class Stopped(Exception):
    """Nothing can be said of the program."""


class Program:
    def __init__(self, path, room):
        self.path, self.library = os.path.abspath(path), f"{room}/refusing_malloc.so"
        source = os.path.join(os.path.dirname(os.path.realpath(__file__)), "refusing_malloc.c")
        words = [os.environ.get("CC", "cc"), "-O2", "-shared", "-fPIC", "-o", self.library, source]
        try:
            made = subprocess.run(words, stdout=subprocess.PIPE, stderr=subprocess.STDOUT)
        except OSError as why:
            raise Stopped(f"{words[0]}: {why.strerror}: this takes a C compiler, $CC or cc") from why
        if made.returncode:
            raise Stopped(shown(made.stdout, 3000))

    def runs(self, given, first=1, step=1, last=0, in_a_row=1):
        """A run for each number from the first on, until the last, or until one that meets no refusal."""
        numbers = {"REFUSE_FROM": first, "REFUSE_STEP": step, "REFUSE_TO": last, "REFUSE_ROW": in_a_row}
        env = {"LD_PRELOAD": self.library, **{name: str(number) for name, number in numbers.items()}}
        with tempfile.TemporaryFile() as file:
            file.write(given)
            file.seek(0)
            ran = subprocess.run([self.path], stdin=file, stdout=subprocess.PIPE, stderr=subprocess.PIPE, env=env)
        if ran.returncode or ran.stderr:
            raise Stopped(f"a run of {self.path} ended with status {ran.returncode} and wrote: {shown(ran.stderr)}")
        found, at = [], 0
        while at < len(ran.stdout):
            head = re.compile(rb"(\d+) (\d+) (\d+) (\d+) (\d+)\n").match(ran.stdout, at)
            if not head:
                raise Stopped(f"nothing can be put in front of {self.path}: is it linked statically?")
            *counts, length = map(int, head.groups())
            at = head.end() + length
            found.append(Run(*counts, ran.stdout[head.end() : at].decode("utf-8", "backslashreplace").split("\n")[:-1]))
        return found

    @functools.lru_cache(maxsize=4096)
    def ample(self, given):
        """The run that meets no refusal."""
        return self.runs(given, in_a_row=0)[0]


def given_of(script, without=(), twice=None):
    """What the program reads, without these frames, or with one of them a second time."""
    times = [0 if at in without else 2 if at == twice else 1 for at in range(len(script.frames))]
    return b"".join(frame * count for frame, count in zip(script.frames, times)) + script.rest


def told(script, what, run, wanted):
    """Tells of a run that isn't as it should be: each of its lines, and the line that was to stand there."""
    ended = f"status {run.status}" if run.status < 128 else f"stopped by signal {run.status - 128}"
    lines = [f"{script.name}: {what}; from request {run.number} of {run.met} on {run.refused} refused; {ended}"]
    for at in range(max(len(wanted), len(run.lines))):
        want, wrote = (it[at] if at < len(it) else "(no line)" for it in (wanted, run.lines))
        lines += [f"  {wrote}"] if want == wrote else [f"- wanted: {want}", f"+ wrote:  {wrote}"]
    return "\n".join(lines)


def fault_of(program, script, run, begun):
    """What isn't as it should be in a run of the script, or nothing. It takes so many requests to begin."""
    ample = program.ample(given_of(script))
    if run.status == NO_MEMORY and run.number <= begun:
        return told(script, "more than nothing was written", run, []) if run.lines else None
    missing = [at for at, line in enumerate(run.lines) if line == REFUSED]
    kept = iter(program.ample(given_of(script, missing)).lines)
    wanted = [REFUSED if at in missing else next(kept, "(no line)") for at in range(len(ample.lines))]
    if run.lines != wanted:
        return told(script, "a line is another one", run, wanted)
    if len(missing) > run.refused:
        return told(script, f"{len(missing)} frames were refused for {run.refused} requests", run, ample.lines)
    if run.status != ample.status:
        return told(script, f"the status was to be {ample.status}", run, wanted)
    return None


def fault_again(program, script, numbers, step):
    """What isn't as it should be where a frame that is refused is sent again, or nothing. To each frame belong the numbers of the
    requests whose refusal it shows."""
    lines = program.ample(given_of(script)).lines
    for at, of_frame in numbers.items():
        wanted, known = [*lines[:at], REFUSED, *lines[at:]], set(of_frame)
        for run in program.runs(given_of(script, twice=at), of_frame[0], step, of_frame[-1]):
            if run.number in known and run.lines != wanted:
                return told(script, f"frame {at + 1} was sent again", run, wanted)
    return None


def verb_of(frame):
    return frame.split(b" ")[0].decode()


def tried(program, begun, portion):
    """Runs a script with every so many-th request refused, from the first on."""
    script, first, step = portion
    count, hidden, verbs, numbers = 0, 0, collections.Counter(), {}
    for in_a_row in IN_A_ROW:
        for run in program.runs(given_of(script), first, step, in_a_row=in_a_row):
            fault = fault_of(program, script, run, begun)
            if fault:
                return Found(count, verbs, hidden, fault)
            missing = [at for at, line in enumerate(run.lines) if line == REFUSED]
            count += 1
            hidden += run.refused > 0 and run.status != NO_MEMORY and not missing
            verbs.update(verb_of(script.frames[at]) for at in missing)
            if in_a_row == 1 and missing:
                numbers.setdefault(missing[0], []).append(run.number)
    fault = fault_again(program, script, numbers, step)
    return Found(count + sum(map(len, numbers.values())), verbs, hidden, fault)


def reckoned(requests):
    """How long all runs of a script with so many requests take at most, in seconds."""
    return (len(IN_A_ROW) + 1) * requests * (OF_A_RUN + requests * OF_A_REQUEST)


def steps_within(requests, seconds):
    """For each script the step from one N to the next, so that all end in time: a script that takes less than its share has all,
    and what it leaves is shared by the others."""
    steps, left = {}, seconds
    for count, (name, number) in enumerate(sorted(requests.items(), key=lambda it: (it[1], it[0]))):
        share = left / (len(requests) - count)
        steps[name] = max(1, -int(-reckoned(number) // share))
        left -= reckoned(number) / steps[name]
    return steps


def scripts_of(path):
    files = [path] if os.path.isfile(path) else sorted(f"{path}/{it}" for it in os.listdir(path) if it.endswith(".stdin"))
    if not files:
        raise Stopped(f"{path} has no script")
    return [Script(os.path.basename(it)[: -len(".stdin")], *frames_of(bytes_of(it))) for it in files]


def portions_of(scripts, requests, steps):
    """The scripts, and each long one in parts that several processes share."""
    for script in scripts:
        parts = 1 + requests[script.name] // steps[script.name] // PORTION
        for part in range(parts):
            yield script, 1 + part * steps[script.name], parts * steps[script.name]


def report(found, requests, steps):
    """Says what was tried, and returns the status."""
    verbs = sum((it.verbs for it in found), collections.Counter())
    fault = next((it.fault for it in found if it.fault), None)
    widest, name = max((step, name) for name, step in steps.items())
    if widest > 1:
        spread = sum(it > 1 for it in steps.values())
        print(f"{spread} scripts had a spread of their requests, at the least one in {widest} ({name})")
    print("lines refused: " + (", ".join(f"{verb} {count}" for verb, count in sorted(verbs.items())) or "none"))
    print(f"{sum(it.hidden for it in found)} runs went on without what they were refused")
    if fault:
        print(fault)
    counts = {"scripts": len(requests), "requests": sum(requests.values()), "runs": sum(it.runs for it in found)}
    counts.update({"lines refused": sum(verbs.values()), "failed": 1 if fault else 0})
    print(", ".join(f"{count} {what}" for what, count in counts.items()))
    return 1 if fault else 0


def tried_all(program, scripts, seconds):
    workers = os.cpu_count() or 1
    begun = program.ample(b"").met
    with concurrent.futures.ThreadPoolExecutor(workers) as pool:
        whole = pool.map(program.ample, map(given_of, scripts))
        requests = {script.name: run.met for script, run in zip(scripts, whole)}
        steps = steps_within(requests, seconds * max(1, workers // 2) if seconds else float("inf"))
        tasks = [pool.submit(tried, program, begun, it) for it in portions_of(scripts, requests, steps)]
        found = []
        for task in tasks:
            found.append(task.result())
            if found[-1].fault:
                for it in tasks:
                    it.cancel()
                break
    return report(found, requests, steps)


def main():
    asked = argparse.ArgumentParser(usage=__doc__)
    asked.add_argument("--program", required=True)
    asked.add_argument("--scripts", default=CASES)
    asked.add_argument("--seconds", type=float)
    asked = asked.parse_args()
    with tempfile.TemporaryDirectory(prefix="refuse-") as room:
        try:
            return tried_all(Program(asked.program, room), scripts_of(asked.scripts), asked.seconds)
        except (Stopped, OSError) as why:
            print(why, file=sys.stderr)
            return 2


if __name__ == "__main__":
    sys.exit(main())
