"""What the tests of copies share: a PostgreSQL server, a log for each test, services over it, and a way to a port that is cut."""

import socket
import threading
import unittest

import psycopg

from cedar_session.copies import Log
from tests.postgres import Server

from tests_server.serving import ADMIN, Service

FORBID = 'forbid(principal == User::"alice", action, resource);'


class Shared:
    """The server of a module's tests."""

    server = None


def setUpModule():
    Shared.server = Server()
    unittest.addModuleCleanup(Shared.server.remove)


class Proxy:
    """A way to a port that ends a connection behind so many bytes that come from there."""

    def __init__(self, port):
        self.to, self.left = port, None
        self.listener = socket.create_server(("127.0.0.1", 0))
        self.port = self.listener.getsockname()[1]
        threading.Thread(target=self.accept, daemon=True).start()

    def accept(self):
        while True:
            try:
                client, _ = self.listener.accept()
                there = socket.create_connection(("127.0.0.1", self.to))
            except OSError:
                return
            for it in ((client, there, False), (there, client, True)):
                threading.Thread(target=self.pump, args=it, daemon=True).start()

    def pump(self, here, there, is_reply):
        try:
            while True:
                data = here.recv(65536)
                if not data:
                    break
                left = self.left if is_reply else None
                if left is not None:
                    there.sendall(data[:left])
                    self.left = max(left - len(data), 0)
                    if len(data) > left:
                        break
                else:
                    there.sendall(data)
        except OSError:
            pass
        for it in (here, there):
            try:
                it.shutdown(socket.SHUT_RDWR)
            except OSError:
                pass
        here.close()


class WithLog(unittest.TestCase):
    """A log for each test, under the test's name."""

    def setUp(self):
        self.name = self.id().rsplit(".", 1)[1]
        self.log = Log(Shared.server.database(), self.name)
        self.log.create()
        self.addCleanup(self.log.close)

    def services(self, count=1, *words, port=None):
        """So many services over the log, each ready."""
        found = []
        for _ in range(count):
            service = Service("--database", Shared.server.database(port=port), "--log", self.name, *words)
            self.addCleanup(service.remove)
            found.append(service)
            service.start("/healthz")
        for service in found:
            service.wait()
        return found

    def service(self, *words, **more):
        return self.services(1, *words, **more)[0]

    def caller(self, service, token=ADMIN, **more):
        caller = service.caller(token, **more)
        self.addCleanup(caller.close)
        return caller

    def edits(self):
        """The edits of the log, from the first to the last."""
        with psycopg.connect(Shared.server.database()) as it:
            return it.execute("SELECT position, verb, body FROM cedar_edits WHERE log = %s AND position > 0 ORDER BY position", [self.name]).fetchall()

    def sql(self, words):
        with psycopg.connect(Shared.server.database(), autocommit=True) as it:
            it.execute(words)
