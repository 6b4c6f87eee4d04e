"""Tests of lines that no session writes."""

import os
import socket
import stat
import sys
import tempfile
import threading
import time
import unittest

import cedar_session as cedar
from cedar_session import Decision

from tests.test_cedar import ask


class Lines(unittest.TestCase):
    """Lines that no session writes: none passes for success, and each closes the session."""

    WRONG = (b"", b"o", b"ok", b"refuse", b"refused", b"refused \n", b"refused Text", b"fault TooLong\n", b"end\n", b"\n", b"OK\n", b"ok \n")
    WRONG_LOADS = (*WRONG, b"ok\n", b"ok [\n", b'ok ["a"\n', b'ok ["a",]\n', b'ok ["a""b"]\n', b'ok ["a\\x"]\n', b"allow must=[] may=[] erring=[]\n")
    WRONG_EDITS = (*WRONG, b"ok []\n", b"ok\nok\n", b"ok\n\n", b"allow must=[] may=[] erring=[]\n", b"\xffok\n")
    WRONG_ANSWERS = (
        *WRONG,
        b"ok\n",
        b"ok []\n",
        b"allow must=[] may=[] erring=[]",
        b"allow must=[] may=[]\n",
        b"allowed must=[] may=[] erring=[]\n",
        b'allow must=["a] may=[] erring=[]\n',
        b'deny must=[] may=[] erring=["a"]\n',
        b"deny must=[] may=[] erring=[]\nallow must=[] may=[] erring=[]\n",
        b'deny must=["\xff"] may=[] erring=[]',
    )

    def served(self, line):
        """A session of a program that answers each command so."""
        program = tempfile.NamedTemporaryFile("w", suffix=".py", delete=False)
        self.addCleanup(os.unlink, program.name)
        with program:
            program.write(f"#!{sys.executable}\nimport os\nos.read(0, 65536)\nos.write(1, {line!r})\n")
        os.chmod(program.name, stat.S_IRWXU)
        return cedar.Child(program.name)

    def by_connection(self, lines):
        """A session behind a connection that answers so, and is ended then."""
        listener = socket.create_server(("127.0.0.1", 0))
        self.addCleanup(listener.close)

        def serve():
            connection, _ = listener.accept()
            with connection:
                for line in lines:
                    connection.recv(65536)
                    connection.sendall(line)

        thread = threading.Thread(target=serve)
        thread.start()
        session = cedar.Connection(listener.getsockname(), seconds=5)
        self.addCleanup(thread.join)
        self.addCleanup(session.close)
        return session

    def wrong(self, lines, command):
        for line in lines:
            with self.subTest(line=line):
                session = self.by_connection([line])
                with self.assertRaises(cedar.Ended):
                    command(session)
                with self.assertRaises(cedar.NotOpen):
                    command(session)

    def test_edits(self):
        for edit in (lambda it: it.put([]), lambda it: it.add([]), lambda it: it.remove([]), lambda it: it.unlink("a"), lambda it: it.link("a", "b")):
            self.wrong(self.WRONG_EDITS, edit)
        for edit in (lambda it: it.remove_static("a"), lambda it: it.remove_template("a"), lambda it: it.command("put", "[]"), lambda it: it.line("put", "[]")):
            self.wrong(self.WRONG_EDITS, edit)

    def test_loads(self):
        self.wrong(self.WRONG_LOADS, lambda it: it.load(""))

    def test_answers(self):
        self.wrong(self.WRONG_ANSWERS, ask)
        self.wrong(self.WRONG_ANSWERS, lambda it: it.tell(a=1))

    def test_a_line_is_cut_anywhere(self):
        line = b'allow must=["policy0"] may=["policy0"] erring=["a":TypeError]\n'
        self.wrong([line[:end] for end in range(len(line))], ask)
        self.assertEqual(ask(self.by_connection([line])).must, ("policy0",))

    def test_a_line_that_comes_in_parts(self):
        line = b'allow must=["policy0"] may=["policy0"] erring=[]\n'
        here, there = socket.socketpair()
        session = cedar.Connection.__new__(cedar.Connection)
        session._begin(here, 5)

        def serve():
            there.recv(65536)
            for at in range(len(line)):
                there.sendall(line[at : at + 1])

        thread = threading.Thread(target=serve)
        thread.start()
        self.assertEqual(ask(session).decision, Decision.ALLOW)
        thread.join()
        session.close()
        there.close()

    def test_a_line_that_nobody_asked_for(self):
        here, there = socket.socketpair()
        session = cedar.Connection.__new__(cedar.Connection)
        session._begin(here, 5)
        there.sendall(b"allow must=[] may=[] erring=[]\n")
        with self.assertRaises(cedar.Ended):
            ask(session)
        with self.assertRaises(cedar.NotOpen):
            ask(session)
        there.close()

    def test_a_line_that_trickles_is_given_up(self):
        here, there = socket.socketpair()
        session = cedar.Connection.__new__(cedar.Connection)
        session._begin(here, 0.3)
        stopped = threading.Event()

        def serve():
            try:
                while not stopped.wait(0.05):
                    there.sendall(b"a")
            except OSError:
                pass

        thread = threading.Thread(target=serve)
        thread.start()
        began = time.monotonic()
        with self.assertRaises(cedar.TimedOut):
            ask(session)
        self.assertLess(time.monotonic() - began, 3)
        stopped.set()
        thread.join()
        there.close()

    def test_a_program_of_another_kind(self):
        for line in (b"", b"end\n", b"hello\n"):
            with self.assertRaises(cedar.Ended):
                self.served(line).put([])


if __name__ == "__main__":
    unittest.main()
