"""Tests of what docs/CLIENTS.md shows: cedar_session is the program that the path finds, CEDAR_LIBRARY the shared object."""

import os
import re
import shutil
import signal
import socket
import subprocess
import sys
import tempfile
import threading
import time
import unittest

import cedar_session as cedar
from cedar_session import UNKNOWN, Entity

from tests.test_cedar import ANY, Answers, ask

PAGE = os.path.join(os.path.dirname(os.path.abspath(__file__)), "../../../docs/CLIENTS.md")
ASKS = 2000


def blocks():
    """The blocks of the page in Python."""
    with open(PAGE, encoding="utf-8") as it:
        return re.findall(r"(?ms)^```python\n(.*?)^```", it.read())


def shown(nth):
    """What a block of the page defines."""
    names = {"__name__": "shown"}
    exec(blocks()[nth], names)
    return names


class First(unittest.TestCase):
    def test_decisions(self):
        names = shown(0)
        self.assertEqual(names["answer"].decision, cedar.Decision.ALLOW)
        self.assertEqual(names["told"].decision, cedar.Decision.DENY)
        self.assertEqual(names["why"], "unexpected end of input")

    def test_the_readme(self):
        with open(os.path.join(os.path.dirname(PAGE), "../clients/python/README.md"), encoding="utf-8") as it:
            [block] = re.findall(r"(?ms)^```python\n(.*?)^```", it.read())
        exec(block, {})

    def test_what_the_page_warns_of(self):
        """Bodies by hand: the names that it tells ask another question."""
        with open(PAGE, encoding="utf-8") as it:
            written, root, admin = re.search(r"so `f'(.*?)'` lets.*?with `(.*?)` he is root, with `(.*?)` he is admin", it.read()).groups()
        with cedar.Session() as session:
            session.load('permit(principal == User::"root", action, resource); permit(principal, action, resource) when { context.admin };')
            for name in (root, admin):
                self.assertTrue(session.command("ask", written.format(name=name)).startswith("allow"), name)
                answer = session.ask(principal=Entity("User", name), action=UNKNOWN, resource=UNKNOWN, context={"admin": False})
                self.assertEqual(answer.decision, cedar.Decision.DENY)


def timed(test):
    """What an ask takes, there and back."""
    test.session.load("permit(principal, action, resource) when { context.hour < 18 };")
    began = time.perf_counter()
    for _ in range(ASKS):
        ask(test.session, context={"hour": 9})
    print(f"{type(test).__name__}: {(time.perf_counter() - began) / ASKS * 1e6:.1f} µs an ask")


class Child(unittest.TestCase):
    def test_time(self):
        with cedar.Child() as self.session:
            timed(self)


class Connections(Answers, unittest.TestCase):
    @classmethod
    def setUpClass(cls):
        cls.listener = socket.create_server(("127.0.0.1", 0))
        threading.Thread(target=shown(1)["serve"], args=(cls.listener,), daemon=True).start()

    def opened(self):
        return cedar.Connection(self.listener.getsockname())

    def test_each_has_its_own(self):
        self.session.load(ANY)
        with self.opened() as other:
            self.assertEqual(ask(other).decision, cedar.Decision.DENY)
        self.assertEqual(ask(self.session).decision, cedar.Decision.ALLOW)

    def test_time(self):
        timed(self)


@unittest.skipUnless(shutil.which("socat"), "no socat is found")
class Socat(Connections):
    """The same by the line that the page has for socat."""

    @classmethod
    def setUpClass(cls):
        with open(PAGE, encoding="utf-8") as it:
            words = re.search(r"`(socat .*?)`", it.read())[1].split()
        with socket.create_server(("127.0.0.1", 0)) as it:
            cls.address = it.getsockname()
        words = [it.replace("8180", str(cls.address[1])) for it in words]
        server = subprocess.Popen(words)
        cls.addClassCleanup(server.wait)
        cls.addClassCleanup(server.terminate)

    def opened(self):
        for _ in range(100):
            try:
                return cedar.Connection(self.address)
            except cedar.NotOpen:
                time.sleep(0.05)
        return cedar.Connection(self.address)


class Service(unittest.TestCase):
    """The block as a program of its own."""

    def started(self, **more):
        with socket.create_server(("127.0.0.1", 0)) as it:
            address = it.getsockname()
        page = tempfile.NamedTemporaryFile("w", suffix=".py")
        self.addCleanup(page.close)
        page.write(blocks()[1])
        page.flush()
        service = subprocess.Popen([sys.executable, "-B", page.name, str(address[1])], stderr=subprocess.DEVNULL, **more)
        self.addCleanup(service.wait)
        self.addCleanup(service.kill)
        for _ in range(200):
            try:
                socket.create_connection(address).close()
                return service, address
            except ConnectionRefusedError:
                time.sleep(0.05)
        raise TimeoutError

    def children(self, service):
        with open(f"/proc/{service.pid}/task/{service.pid}/children", encoding="utf-8") as it:
            return it.read().split()

    def test_closed_connections_leave_nothing(self):
        service, address = self.started()
        for _ in range(20):
            with cedar.Connection(address) as session:
                session.load(ANY)
        for _ in range(200):
            if not self.children(service):
                return
            time.sleep(0.05)
        self.fail(self.children(service))

    def test_a_program_that_is_missing_ends_a_connection_alone(self):
        service, address = self.started(env={**os.environ, "PATH": "/nonexistent"})
        for _ in range(3):
            with self.assertRaises(cedar.Ended):
                cedar.Connection(address).load(ANY)
        self.assertIsNone(service.poll())
        service.send_signal(signal.SIGTERM)


class Copied(unittest.TestCase):
    """The block on copies: run where psycopg and a PostgreSQL server are found."""

    def test_the_page(self):
        from cedar_session import copies

        from tests.postgres import Server

        server = Server()
        self.addCleanup(server.remove)
        log = copies.Log(server.database(), "policies")
        self.addCleanup(log.close)
        log.create()
        names = shown(2)
        with names["begun"](server.database()) as copy, names["begun"](server.database()) as other:
            [policy] = copy.load(ANY)
            with self.assertRaises(copies.Moved):
                names["replaced"](other, policy, ANY)
            other.follow()
            names["replaced"](other, policy, "forbid(principal, action, resource);")
            copy.follow()
            self.assertEqual((ask(copy).decision, copy.position), (cedar.Decision.DENY, 3))
            copy.log.keep(copy.snapshot())
            self.assertEqual(log.snapshot(), copy.snapshot())


if __name__ == "__main__":
    unittest.main()
