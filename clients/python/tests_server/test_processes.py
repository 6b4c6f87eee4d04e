"""Tests of the processes of a service, and of what begins them, and anew what ends or falls silent."""

import contextlib
import os
import signal
import socket
import threading
import time
import unittest

from tests_server.serving import BOB, Service, written


class Processes(unittest.TestCase):
    """What the supervisor does."""

    def setUp(self):
        self.service = Service()
        self.addCleanup(self.service.remove)
        self.service.words += ["--processes", "2", "--silence", "20", "--seconds", "120"]
        self.service.start()

    def decision(self, **context):
        caller = self.service.caller()
        try:
            return caller.ask(BOB, **context).said["decision"]
        finally:
            caller.close()

    def becomes(self, wanted, **context):
        """All processes answer so, in time."""
        until, found = time.monotonic() + 30, []
        while time.monotonic() < until and found[-20:] != [wanted] * 20:
            found.append(self.decision(**context))
        self.assertEqual(found[-20:], [wanted] * 20)

    def test_one_that_is_killed_begins_anew(self):
        before = set(self.service.workers())
        for pid in before:
            os.kill(pid, signal.SIGKILL)
        until = time.monotonic() + 30
        while time.monotonic() < until and (len(self.service.workers()) < 2 or before & set(self.service.workers())):
            time.sleep(0.05)
        self.service.wait()
        self.assertEqual(self.decision(), "deny")

    def test_many_hang_ups(self):
        """While clients keep one at least of those that are to end, each time."""
        for _ in range(9):
            for _ in range(10):
                connection = socket.create_connection(("127.0.0.1", self.service.port), 20)
                self.addCleanup(connection.close)
                connection.sendall(written(b"{", 500))
            before, until = set(self.service.workers()), time.monotonic() + 30
            self.service.signal(signal.SIGHUP)
            while len(set(self.service.workers()) - before) < 2 and time.monotonic() < until:
                time.sleep(0.05)
        self.becomes("deny")
        self.assertGreater(len(self.service.workers()), 8)

    def test_one_that_falls_silent(self):
        silent, *_ = self.service.workers()
        os.kill(silent, signal.SIGSTOP)
        until = time.monotonic() + 90
        while silent in self.service.workers() and time.monotonic() < until:
            time.sleep(0.1)
        self.assertNotIn(silent, self.service.workers())
        self.assertIn(f"WORKER TIMEOUT (pid:{silent})", self.service.log())
        self.assertEqual(self.service.log().count("WORKER TIMEOUT"), 1)
        self.becomes("deny")

    def test_those_that_end_while_they_begin(self):
        """Each is missed, and another begins in its place."""
        until = time.monotonic() + 3
        while time.monotonic() < until:
            for pid in self.service.workers():
                with contextlib.suppress(ProcessLookupError):
                    os.kill(pid, signal.SIGKILL)
        until = time.monotonic() + 30
        while len(self.service.workers()) < 2 and time.monotonic() < until:
            time.sleep(0.05)
        self.assertEqual(len(self.service.workers()), 2)
        self.becomes("deny")

    def test_the_end_of_one_that_begins(self):
        """It is told to end as soon as it is there."""
        before = set(self.service.workers())
        for pid in before:
            os.kill(pid, signal.SIGKILL)
        while not set(self.service.workers()) - before:
            pass
        self.service.signal(signal.SIGTERM)
        self.assertEqual(self.service.process.wait(20), 0)

    def test_all_end_where_the_supervisor_is_killed(self):
        until = time.monotonic() + 30
        while len(self.service.workers()) < 2 and time.monotonic() < until:
            time.sleep(0.05)
        before = self.service.workers()
        self.service.process.kill()
        self.service.process.wait()
        while any(os.path.exists(f"/proc/{pid}") for pid in before) and time.monotonic() < until:
            time.sleep(0.05)
        self.assertEqual((len(before), [pid for pid in before if os.path.exists(f"/proc/{pid}")]), (2, []))

    def test_a_folder_that_is_read_again(self):
        self.service.write("more.cedar", 'permit(principal == User::"bob", action, resource);')
        for pid in self.service.workers():
            os.kill(pid, signal.SIGKILL)
        self.becomes("deny")
        self.service.signal(signal.SIGHUP)
        self.becomes("allow")
        # (what can't be read isn't taken, and the service says so)
        self.service.write("more.cedar", "permit(")
        self.service.signal(signal.SIGHUP)
        until = time.monotonic() + 30
        while "more.cedar: Refused Text" not in self.service.log() and time.monotonic() < until:
            time.sleep(0.05)
        self.assertIn("more.cedar: Refused Text", self.service.log())
        self.becomes("allow")

    def test_none_is_dropped_where_the_folder_is_read_again(self):
        ended, failed = threading.Event(), []

        def asks():
            while not ended.is_set():
                try:
                    self.decision(hour=9)
                except OSError as why:
                    failed.append(why)

        threads = [threading.Thread(target=asks) for _ in range(4)]
        for it in threads:
            it.start()
        self.service.signal(signal.SIGHUP)
        time.sleep(4)
        ended.set()
        for it in threads:
            it.join()
        self.assertEqual(failed, [])

    def test_folders_that_are_not_served(self):
        for name, text, said in (("a.cedar", "permit(", "a.cedar: Refused Text"), ("a.json", '[{"uid": 1}]', "a.json: /0/uid an object is wanted")):
            with Service() as service:
                service.stop()
                service.write(name, text)
                with self.assertRaisesRegex(AssertionError, said):
                    service.start()


if __name__ == "__main__":
    unittest.main()
