#!/usr/bin/env python3
"""measure_service.py [--library FOLDER] [--repeat N] [--seconds S] [--processes N] [--memory], at the top of the repository: what the service of
clients/python/cedar_server answers in a second, over 1,000 grants, beside an empty handler of the same framework, server and supervisor, that
reads the body and answers a constant.

Each is driven by wrk over loopback, in turn, N times (5) for S seconds (4): the empty handler; the service by questions of which none was asked
before; the service by one question again and again, whose answer it remembers. Printed are the questions a second of the best runs, and what of the
processors' time each took, which says more on a machine that does other things too; then, at half the load, how long questions take of which
none was asked before. With --memory a log of 100,000 grants is made in a PostgreSQL server of the script's own, and what a process of a copy
over it has of memory is printed, and how long it takes to begin.

Takes Debian's wrk, and the packages of docs/SERVICE.md, under the Python that has them."""

import argparse
import contextlib
import os
import re
import subprocess
import sys
import tempfile
import time
import urllib.request

sys.dont_write_bytecode = True
PYTHON = os.path.join(os.path.dirname(os.path.dirname(os.path.realpath(__file__))), "clients", "python")
sys.path.insert(0, PYTHON)

FOLDER, PORT = "crates/cedar_c/out/cedar", 8190
BODY = '{"subject": {"type": "User", "id": "u7"}, "action": {"name": "view"}, "resource": {"type": "Photo", "id": "7"}, "context": {"n": NUMBER}}'
SAME = f"wrk.method = 'POST'\nwrk.body = '{BODY.replace('NUMBER', '1')}'\n"
OTHER = f"""
local threads = 0
function setup(thread) thread:set("number", threads * 1000000000) threads = threads + 1 end
function request()
    number = number + 1
    return wrk.format("POST", nil, nil, string.format('{BODY.replace('NUMBER', '%d')}', number))
end
"""
PATH, CONNECTIONS = "/access/v1/evaluation", 32
PORTION = 10_000
EMPTY = """
import sys
from starlette.applications import Starlette
from starlette.responses import Response
from starlette.routing import Route
from cedar_server.tokens import Doors
from cedar_server.workers import Processes, Settings

async def answers(request):
    await request.body()
    return Response(b'{"decision":true}', media_type="application/json")

async def ready(request):
    return Response(b"{}", media_type="application/json")

class Empty(Processes):
    def load(self):
        return Starlette(routes=[Route(sys.argv[1], answers, methods=["POST"]), Route("/readyz", ready)])

Empty(Settings(Doors(None, None), address=sys.argv[2], processes=int(sys.argv[3]))).run()
"""


def grants(first, count):
    return "".join(f'permit(principal in Group::"g{it}", action == Action::"view", resource == Photo::"{it}");\n' for it in range(first, first + count))


def fill(folder, count):
    """A folder with so many grants, and as many users in groups."""
    for first in range(0, count, PORTION):
        size = min(PORTION, count - first)
        with open(os.path.join(folder, f"{first:07}.cedar"), "w", encoding="ascii") as it:
            it.write(grants(first, size))
        users = (f'{{"uid":{{"type":"User","id":"u{it}"}},"parents":[{{"type":"Group","id":"g{it}"}}]}}' for it in range(first, first + size))
        with open(os.path.join(folder, f"{first:07}.json"), "w", encoding="ascii") as it:
            it.write(f"[{','.join(users)}]")


@contextlib.contextmanager
def served(words, env):
    """A service while it is used: its process."""
    process = subprocess.Popen([os.path.realpath(sys.executable), "-B", *words], env=env)
    try:
        until = time.monotonic() + 600
        while time.monotonic() < until and process.poll() is None:
            with contextlib.suppress(OSError), urllib.request.urlopen(f"http://127.0.0.1:{PORT}/readyz", timeout=5):
                break
            time.sleep(0.05)
        yield process
    finally:
        process.terminate()
        process.wait()


def workers(process):
    with open(f"/proc/{process.pid}/task/{process.pid}/children", encoding="ascii") as it:
        return it.read().split()


def processor_seconds(process):
    """What its workers have used so far."""
    ticks = 0
    for pid in workers(process):
        with open(f"/proc/{pid}/stat", encoding="ascii") as it:
            ticks += sum(map(int, it.read().rpartition(")")[2].split()[11:13]))
    return ticks / os.sysconf("SC_CLK_TCK")


def driven(script, seconds, room):
    """What wrk says of a service."""
    path = os.path.join(room, "wrk.lua")
    with open(path, "w", encoding="ascii") as it:
        it.write(script)
    command = ["wrk", "--latency", "-t2", f"-c{CONNECTIONS}", f"-d{seconds}", "-s", path, f"http://127.0.0.1:{PORT}{PATH}"]
    said = subprocess.run(command, check=True, capture_output=True, text=True).stdout
    if "Non-2xx" in said:
        raise SystemExit(said)
    return said


def rate_of(said):
    return float(re.search(r"Requests/sec:\s+([\d.]+)", said)[1])


def asked(words, env, script, seconds, room):
    """Questions a second, and microseconds of processors for one."""
    with served(words, env) as process:
        before = processor_seconds(process)
        said = driven(script, seconds, room)
        used = processor_seconds(process) - before
    return rate_of(said), used / int(re.search(r"(\d+) requests in", said)[1]) * 1e6


def slowest(words, env, rate, seconds, room):
    """The rate that was reached, and how long the slowest of 2 and of 100 questions take, in milliseconds."""
    paced = f"{OTHER}function delay() return {int(CONNECTIONS / rate * 1000)} end\n"
    with served(words, env):
        said = driven(paced, seconds, room)
    units = {"us": 1e-3, "ms": 1, "s": 1e3}
    times = [re.search(rf"{it}%\s+([\d.]+)(us|ms|s)", said) for it in (50, 99)]
    return (rate_of(said), *(float(it[1]) * units[it[2]] for it in times))


def memory(env, count):
    """What a process of a copy with so many grants has, in MiB, and how many seconds it takes to begin."""
    from tests.postgres import Server

    server = Server()
    try:
        with tempfile.TemporaryDirectory() as room:
            fill(room, count)
            words = ["-m", "cedar_server", "--database", server.database()]
            subprocess.run([sys.executable, "-B", *words, "--create", room], env=env, check=True)
        since = time.monotonic()
        with served([*words, "--address", f"127.0.0.1:{PORT}"], env) as process:
            took = time.monotonic() - since
            (pid,) = workers(process)
            with open(f"/proc/{pid}/status", encoding="ascii") as it:
                return int(re.search(r"VmRSS:\s+(\d+)", it.read())[1]) / 1024, took
    finally:
        server.remove()


def main():
    given = argparse.ArgumentParser(usage=__doc__)
    given.add_argument("--library", default=FOLDER)
    given.add_argument("--memory", action="store_true")
    for name, number in (("--repeat", 5), ("--seconds", 4), ("--processes", 4)):
        given.add_argument(name, type=int, default=number)
    given = given.parse_args()
    env = {**os.environ, "UV_TCP_SINGLE_ACCEPT": "1", "CEDAR_LIBRARY": os.path.abspath(f"{given.library}/lib/libcedar.so"), "PYTHONPATH": PYTHON}
    if given.memory:
        print("%.0f MiB, begun in %.1f s" % memory(env, 100_000))
        return
    with tempfile.TemporaryDirectory() as room:
        fill(room, 1_000)
        address, count = f"127.0.0.1:{PORT}", str(given.processes)
        empty, full = ["-c", EMPTY, PATH, address, count], ["-m", "cedar_server", room, "--address", address, "--processes", count]
        ways = (("the empty handler", empty, SAME), ("questions that are new", full, OTHER), ("one that is remembered", full, SAME))
        runs = [[asked(words, env, script, given.seconds, room) for _, words, script in ways] for _ in range(given.repeat)]
        best = [(max(it[0] for it in way), min(it[1] for it in way)) for way in zip(*runs)]
        for (name, *_), (rate, used) in zip(ways, best):
            print(f"{name}: {rate:,.0f} a second, {rate / best[0][0]:.2f} of the first; {used:.0f} µs of processors, {best[0][1] / used:.2f}")
        rate, half, all_but_one = slowest(full, env, best[1][0] / 2, given.seconds, room)
        print(f"at {rate:,.0f} new ones a second half take less than {half:.1f} ms, 99 of 100 less than {all_but_one:.1f} ms")


if __name__ == "__main__":
    main()
