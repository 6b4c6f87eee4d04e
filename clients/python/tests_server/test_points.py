"""Tests of what answers in a process, without one."""

import os
import signal
import time
import unittest
from unittest import mock

from gunicorn.arbiter import Arbiter
from gunicorn.config import Config

from cedar_session import Entity, Refused

from cedar_server.points import FolderPoint
from cedar_server.questions import Question
from cedar_server.remembered import Remembered
from cedar_server.supervisor import Beat, Supervisor, begin_alone


class Folders(unittest.TestCase):
    def test_each_edit_is_told_and_no_question(self):
        """A supervisor that hears nothing while a long log is read would end the process."""
        beats = []
        edits = [("load", "permit(principal, action, resource);"), ("put", '[{uid: User::"a"}]')]
        point = FolderPoint(edits, lambda: beats.append(len(beats)))
        self.addCleanup(point.close)
        self.assertEqual(len(beats), 2)
        asked = Question(Entity("User", "a"), Entity("Action", "v"), Entity("R", "r"), {})
        self.assertEqual((point.asked(asked.text()), len(beats)), (("allow", '["policy0"]', '["policy0"]', "[]"), 2))

    def test_no_process_serves_what_lacks_an_edit(self):
        with self.assertRaises(Refused):
            FolderPoint([("load", "permit(principal, action, resource);"), ("load", "forbid(")], lambda: None)


class Remembers(unittest.TestCase):
    def test_nothing_of_another_position_or_call(self):
        remembered, asked = Remembered(), []

        def of(call, body, position):
            def ask(given):
                asked.append((call, given, position))
                return "allow", f"{call} {given.decode()} at {position}", ""

            return remembered.of(call, body, position, ask)[1]

        for call, body, position in (("ask", b"a", 1), ("ask", b"a", 1), ("ask", b"b", 1), ("evaluation", b"a", 1), ("ask", b"a", 2), ("ask", b"a", 1)):
            self.assertEqual(of(call, body, position), f"{call} {body.decode()} at {position}")
        self.assertEqual(asked, [("ask", b"a", 1), ("ask", b"b", 1), ("evaluation", b"a", 1), ("ask", b"a", 2), ("ask", b"a", 1)])

    def test_neither_long_bodies_nor_too_many(self):
        remembered, asked = Remembered(), []
        for body in (b"x" * 2000, b"x" * 2000, *(b"%d" % it for it in range(10_000)), b"9999", b"0"):
            remembered.of("ask", body, 0, lambda it: asked.append(it) or ("deny", "", ""))
        self.assertEqual(len(asked), 10_003)
        self.assertLess(len(remembered._given), 5_000)


class Supervisors(unittest.TestCase):
    def test_signals_wait_while_a_process_begins(self):
        done = []
        before = signal.signal(signal.SIGUSR1, lambda *_: done.append("heard"))
        self.addCleanup(signal.signal, signal.SIGUSR1, before)

        def begins(_):
            signal.raise_signal(signal.SIGUSR1)
            done.append("begun")

        with mock.patch.object(Arbiter, "spawn_worker", begins):
            Supervisor.__new__(Supervisor).spawn_worker()
        self.assertEqual(done, ["begun", "heard"])

    def test_a_signal_that_waits_is_that_of_the_process(self):
        for which in (signal.SIGTERM, signal.SIGQUIT, signal.SIGINT):
            pid = os.fork()
            if pid == 0:
                # (from here on nothing of the tests goes on)
                signal.signal(which, lambda *_: None)
                signal.pthread_sigmask(signal.SIG_BLOCK, [which])
                signal.raise_signal(which)
                begin_alone()
                os._exit(0)
            self.assertEqual(os.WTERMSIG(os.waitpid(pid, 0)[1]), which)


class Beats(unittest.TestCase):
    def test_a_clock_that_is_set_makes_none_silent(self):
        beat = Beat(Config())
        self.addCleanup(beat.close)
        for told, wanted in ((0, 30), (30, 0)):
            clock = time.monotonic() + 30
            with mock.patch("time.monotonic", lambda: clock - 30 + told):
                beat.notify()
            for day in (0.0, 2e9, -1e6):
                with mock.patch("time.monotonic", lambda: clock), mock.patch("time.time", lambda: day):
                    self.assertAlmostEqual(time.time() - beat.last_update(), wanted, 3)


if __name__ == "__main__":
    unittest.main()
