#!/usr/bin/env python3
"""three_copies.py FOLDER, at the top of the repository: three copies of a decision point behind a balancer, on this machine, until it is told to
end.

It starts a PostgreSQL server of its own, makes a log with what the folder has, starts three services over it and haproxy before them, on ports
from 8180 on (--port). With --database URL it takes a server that is there, where the log of the name 'three' is made, if it isn't yet. In --room
lie the settings of haproxy, the token of those who edit, and what the services write; without, in a temporary folder.

CEDAR_LIBRARY names the shared object (tools/build.py, docs/C.md)."""

import argparse
import contextlib
import os
import secrets
import signal
import subprocess
import sys
import tempfile
import time
import urllib.request

sys.dont_write_bytecode = True
PYTHON = os.path.join(os.path.dirname(os.path.dirname(os.path.realpath(__file__))), "clients", "python")
sys.path.insert(0, PYTHON)
from cedar_session.copies import Log, NoLog
from tests.postgres import Server

LOG, COPIES = "three", 3
DIRECTLY = urllib.request.build_opener(urllib.request.ProxyHandler({}))
# A copy that isn't ready is asked nothing; a request that none has taken goes to another. Slow heads and bodies end here.
BALANCER = """global
    maxconn 2000
defaults
    mode http
    maxconn 2000
    timeout connect 2s
    timeout client 60s
    timeout server 60s
    timeout http-request 10s
    option redispatch
    retry-on conn-failure
frontend calls
    bind 127.0.0.1:{port}
    default_backend copies
backend copies
    balance roundrobin
    option httpchk GET /readyz
{servers}
"""


class Failed(Exception):
    """Something didn't start."""


def has_log(database):
    log = Log(database, LOG)
    try:
        log.first()
    except NoLog:
        return False
    except Exception:
        # (the tables aren't there)
        return False
    finally:
        log.close()
    return True


def service(*words):
    return [sys.executable, "-B", "-m", "cedar_server", *words]


class Room:
    """What runs, and the folder in which it writes."""

    def __init__(self, path, port):
        self.path, self.port, self.running = path, port, []
        self.environment = {**os.environ, "PYTHONPATH": os.pathsep.join(filter(None, (PYTHON, os.environ.get("PYTHONPATH"))))}

    def write(self, name, text):
        path = os.path.join(self.path, name)
        with open(os.open(path, os.O_WRONLY | os.O_CREAT | os.O_TRUNC, 0o600), "w", encoding="ascii") as it:
            it.write(text)
        return path

    def run(self, name, command):
        with open(os.path.join(self.path, f"{name}.log"), "ab") as log:
            self.running.append(subprocess.Popen(command, env=self.environment, stdin=subprocess.DEVNULL, stdout=log, stderr=log))

    def make(self, database, folder):
        if not has_log(database):
            subprocess.run(service("--database", database, "--log", LOG, "--create", folder), env=self.environment, check=True)

    def start(self, database):
        admins = self.write("admins", secrets.token_urlsafe(24) + "\n")
        ports = [self.port + it for it in range(1, COPIES + 1)]
        for port in ports:
            words = ["--database", database, "--log", LOG, "--admins", admins, "--address", f"127.0.0.1:{port}"]
            self.run(f"copy-{port}", service(*words, "--decisions", os.path.join(self.path, "decisions")))
        servers = "\n".join(f"    server copy-{it} 127.0.0.1:{it} check inter 500ms fall 1 rise 1" for it in ports)
        settings = self.write("haproxy.cfg", BALANCER.format(port=self.port, servers=servers))
        for port in ports:
            self.wait(port)
        # (a copy that isn't ready yet would get no question for a while)
        self.run("haproxy", ["haproxy", "-db", "-f", settings])
        self.wait(self.port)

    def wait(self, port, seconds=120):
        until = time.monotonic() + seconds
        while time.monotonic() < until:
            if any(it.poll() is not None for it in self.running):
                break
            with contextlib.suppress(OSError), DIRECTLY.open(f"http://127.0.0.1:{port}/readyz", timeout=5):
                return
            time.sleep(0.1)
        raise Failed(f"nothing is ready at the port {port}; {self.path} says more")

    def end(self):
        for it in self.running:
            it.terminate()
        for it in self.running:
            it.wait()


def served(given, room):
    """Serves until a signal comes."""
    with contextlib.ExitStack() as after:
        database = given.database
        if database is None:
            server = Server()
            after.callback(server.remove)
            database = server.database()
        running = Room(room, given.port)
        after.callback(running.end)
        running.make(database, given.folder)
        running.start(database)
        print(f"three copies serve at http://127.0.0.1:{given.port}; {room}/admins has the token of those who edit", flush=True)
        signal.pause()


def main():
    asked = argparse.ArgumentParser(usage=__doc__)
    asked.add_argument("folder")
    asked.add_argument("--database")
    asked.add_argument("--port", type=int, default=8180)
    asked.add_argument("--room")
    given = asked.parse_args()
    for it in (signal.SIGTERM, signal.SIGINT):
        signal.signal(it, lambda *_: sys.exit(0))
    try:
        with contextlib.ExitStack() as after:
            room = given.room or after.enter_context(tempfile.TemporaryDirectory(prefix="three-copies-"))
            os.makedirs(room, exist_ok=True)
            served(given, room)
    except (Failed, OSError, subprocess.CalledProcessError) as why:
        print(why, file=sys.stderr)
        return 1
    return 0


if __name__ == "__main__":
    sys.exit(main())
