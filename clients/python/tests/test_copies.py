"""Tests of copies and of their keys, over a PostgreSQL server on loopback."""

import os
import re
import select
import signal
import socket
import subprocess
import sys
import threading
import time
import unittest

import cedar_session as cedar
from cedar_session import Decision, Entity, copies
from cedar_session.copies import Copy, Log, Place
from cedar_session.held import frame_of

from tests.copying import ANY, EDITS, FORBID, MALLORY, PERMIT, REFUSED, WithLog, answers, bare, database, decision, setUpModule  # noqa: F401
from tests.test_held import many


class Program(cedar.Connection):
    """A copy that is a process of its own; `position` is the one that its last line told."""

    def __init__(self, database, name):
        here, there = socket.socketpair()
        words = [sys.executable, "-B", "-m", "cedar_session.copies", "--without-types", database, name]
        with there:
            self.process, self.position = subprocess.Popen(words, stdin=there.fileno(), stdout=there.fileno()), 0
        self._begin(here, 30)

    def _exchange(self, verb, body):
        position, _, line = super()._exchange(verb, body).partition(b" ")
        self.position = int(position)
        return line

    def send(self, verb, body):
        self._socket.sendall(frame_of(verb, body))

    def has_answered(self):
        return bool(select.select([self._socket], [], [], 0)[0])

    def kill(self):
        self.process.kill()
        self._end()

    def _end(self):
        super()._end()
        self.process.wait(10)


class Dying(cedar.Child):
    """The program as a child, which is killed in the middle of the first command whose body is so long."""

    def _exchange(self, verb, body):
        if len(body) > 100_000:
            os.kill(self._child.pid, signal.SIGSTOP)
            threading.Timer(0.2, os.kill, (self._child.pid, signal.SIGKILL)).start()
        return super()._exchange(verb, body)


class Forgetful(cedar.Session):
    """A session that is out of memory once, at a link."""

    is_short = True

    def _exchange(self, verb, body):
        if verb == "link" and self.is_short:
            self.is_short = False
            return b"refused Memory\n"
        return super()._exchange(verb, body)


class Copies(WithLog):
    def program(self):
        program = Program(database(), self.id())
        self.addCleanup(program.close)
        return program

    def test_three_copies_answer_alike(self):
        """One follows from the first edit, one is ended in the middle of an edit and begun again, one begins from a snapshot."""
        first, second = self.copy(), self.copy(Dying)
        lines = [first.line(*it) for it in EDITS[:6]]
        second.follow()
        self.log.keep(first.snapshot())
        third = self.program()
        lines += [third.line(*it) for it in EDITS[6:]]
        self.assertEqual([at for at, it in enumerate(lines, 1) if it.startswith("refused")], REFUSED)
        self.assertEqual(lines[4], 'ok ["policy3","policy1","policy5"]')
        first.line("put", many(11_000))
        with self.assertRaises(copies.Stopped):
            second.follow()
        self.assertEqual(second.position, len(EDITS))
        second = self.copy(cedar.Child)
        for copy in (first, second):
            copy.follow()
        wanted = answers(first)
        self.assertEqual(answers(second), wanted)
        self.assertEqual(answers(third), wanted)
        self.assertEqual({it.position for it in (first, second, third)}, {len(EDITS) + 1})
        self.assertEqual(second.snapshot(), first.snapshot())

    def test_one_command_at_a_time_as_the_log_has_it(self):
        alone = cedar.Session()
        self.addCleanup(alone.close)
        copy = self.copy()
        for edit in EDITS:
            self.assertEqual(copy.line(*edit), alone.line(*edit))
            self.assertEqual(answers(copy), answers(alone))

    def test_refused_edits_leave_each_as_it_was(self):
        followed = [self.copy(), self.copy(cedar.Child), self.copy(lambda: cedar.SessionThread(types=False))]
        self.fill(EDITS[:6])
        for copy in followed:
            copy.follow()
        held, told = followed[0].snapshot().frames, answers(followed[0])
        self.fill([("load", "permit("), ("put", "[1]"), ("remove-template", '"policy2"'), ("unlink", '"l"')])
        for copy in followed:
            copy.follow()
            self.assertEqual((copy.position, copy.snapshot().frames), (10, held))
            self.assertEqual(answers(copy), told)

    def test_a_copy_tells_no_faults(self):
        for session in (self.copy(), self.copy().edit()):
            with self.assertRaisesRegex(cedar.Refused, "Text") as caught:
                session.load("permit(")
            self.assertEqual((caught.exception.faults, caught.exception.unasked), ((), "this way to a session tells no faults"))

    def test_a_process_that_ends_in_an_edit_is_begun_again(self):
        other, ending = self.copy(), self.program()
        self.fill()
        ending.line("ask", "{}")
        ending.send("put", many(11_000))
        self.log.wait(len(EDITS), 10)
        time.sleep(0.02)
        self.assertFalse(ending.has_answered())
        ending.kill()
        again = self.program()
        other.follow()
        self.assertEqual(answers(again), answers(other))
        self.assertEqual(again.position, len(EDITS) + 1)

    def test_a_copy_without_memory_goes_on_later(self):
        other, short = self.copy(), self.copy(lambda: Forgetful(types=False))
        self.fill()
        with self.assertRaises(MemoryError) as caught:
            short.follow()
        self.assertIsInstance(caught.exception, copies.Waits)
        self.assertEqual(short.position, 3)
        for copy in (other, short):
            copy.follow()
        self.assertEqual(short.snapshot(), other.snapshot())
        self.assertEqual(answers(short), answers(other))

    def test_writers_at_once(self):
        def write(kind):
            log = Log(database(), self.id())
            for at in range(25):
                log.append("load", f'permit(principal == {kind}::"{at}", action, resource);'.encode(), f"{kind} {at}")
                log.append("remove-static", f'"policy{at}"'.encode(), f"{kind} {at} gone")
            log.close()

        writers = [threading.Thread(target=write, args=(f"Kind{at}",)) for at in range(4)]
        for writer in writers:
            writer.start()
        early = self.copy()
        early.follow()
        for writer in writers:
            writer.join()
        late = self.copy(cedar.Child)
        for copy in (early, late):
            copy.follow()
        self.assertEqual(early.position, 200)
        self.assertEqual(early.snapshot(), late.snapshot())
        self.assertEqual(answers(early), answers(late))

    def test_a_copy_waits(self):
        copy = self.copy()
        for at in range(1, 4):
            late = threading.Timer(0.2, self.append, ("load", ANY))
            began = time.monotonic()
            late.start()
            copy.follow(seconds=20)
            self.assertLess(time.monotonic() - began, 10)
            late.join()
            self.assertEqual(copy.position, at)
        copy.follow(seconds=0.1)

    def test_only_edits_go_to_the_log(self):
        copy = self.copy()
        for verb, body in (("lode", ""), ("begin", ""), ("load", " " * 1_048_577), ("load", None), ("load", "\ud800")):
            with self.assertRaises(cedar.CedarError):
                copy.line(verb, body)
        with self.assertRaises(cedar.NoValue):
            copy.put("[]")
        decision(copy)
        self.assertEqual(self.log.end(), 0)

    def test_follow_stops_at_the_end_as_of_its_start(self):
        """Each edit that is done here brings another one into the log."""
        copy = self.copy()
        self.fill([("load", ANY)] * 3)
        done = copy.session._exchange

        def doing(verb, body):
            self.append("load", ANY)
            return done(verb, body)

        copy.session._exchange = doing
        copy.follow()
        self.assertEqual((copy.position, self.log.end()), (3, 6))

    def test_a_question_asks_for_a_position_or_an_age(self):
        copy = self.copy()
        self.append("load", ANY)
        self.assertEqual(decision(copy, age=1_000), Decision.DENY)
        self.assertEqual(decision(copy, position=1), Decision.ALLOW)
        self.append("load", FORBID)
        self.assertEqual(decision(copy, position=1), Decision.ALLOW)
        self.assertEqual(decision(copy, age=0), Decision.DENY)
        with self.assertRaises(copies.Behind):
            decision(copy, position=3)

    def test_a_copy_that_is_cut_off_says_so_where_an_age_is_asked_for(self):
        copy = self.copy()
        copy.log.close()
        copy.log.database = database(port=1)
        self.assertEqual(decision(copy), Decision.DENY)
        with self.assertRaises(copies.LogError):
            decision(copy, age=0)
        with self.assertRaises(copies.LogError):
            decision(copy, position=1)

    def test_a_copy_of_another_thread_changes_nothing(self):
        copy, caught = self.copy(), []

        def elsewhere():
            for use in (lambda: copy.load(ANY), copy.follow, lambda: copy.edit(key="k").load(ANY)):
                try:
                    use()
                except cedar.OtherThread as why:
                    caught.append(why)

        thread = threading.Thread(target=elsewhere)
        thread.start()
        thread.join()
        self.assertEqual((len(caught), self.log.end()), (3, 0))

    def test_threads_share_a_copy_of_a_child(self):
        copy, other = self.copy(cedar.Child), self.copy()
        lines = []
        threads = [threading.Thread(target=lambda: [lines.append(copy.line("load", ANY)) for _ in range(20)]) for _ in range(4)]
        for thread in threads:
            thread.start()
        for thread in threads:
            thread.join()
        other.follow()
        self.assertEqual((len(lines), copy.position, copy.snapshot()), (80, 80, other.snapshot()))

    def test_another_process_has_no_part_in_it(self):
        copy = self.copy()
        child = os.fork()
        if child == 0:
            try:
                copy.follow()
            except cedar.OtherThread:
                os._exit(7)
            os._exit(1)
        self.assertEqual(os.waitstatus_to_exitcode(os.waitpid(child, 0)[1]), 7)

    def test_an_interrupted_wait_leaves_no_reply_behind(self):
        class Late(Exception):
            pass

        def late(*_):
            raise Late

        copy, other = self.copy(), self.copy()
        self.addCleanup(signal.signal, signal.SIGALRM, signal.signal(signal.SIGALRM, late))
        for at in range(1, 41):
            try:
                # (again and again, since an exception out of a destructor is lost)
                signal.setitimer(signal.ITIMER_REAL, 0.0004 * at, 0.05)
                copy.follow(seconds=20)
            except Late:
                pass
            finally:
                signal.setitimer(signal.ITIMER_REAL, 0)
            self.assertEqual(copy.load(ANY * at)[0], "policy0")
        other.follow()
        self.assertEqual((copy.position, copy.snapshot()), (40, other.snapshot()))

    def test_an_exception_in_an_edit_stops_the_copy(self):
        class Late(BaseException):
            pass

        copy = self.copy()
        self.append("load", ANY)

        def late(*_):
            raise Late

        copy.held.record = late
        with self.assertRaises(Late):
            copy.follow()
        self.stops(copy)

    def test_a_handler_does_no_edit_in_the_middle_of_another(self):
        copy, other = self.copy(), self.copy()
        seen = []

        def handle(*_):
            try:
                copy.follow()
            except cedar.Busy:
                seen.append(1)

        self.addCleanup(signal.signal, signal.SIGALRM, signal.signal(signal.SIGALRM, handle))
        signal.setitimer(signal.ITIMER_REAL, 0.001, 0.001)
        try:
            for _ in range(100):
                copy.load(ANY)
        finally:
            signal.setitimer(signal.ITIMER_REAL, 0)
        other.follow()
        self.assertGreater(len(seen), 0)
        self.assertEqual((copy.position, copy.snapshot()), (100, other.snapshot()))

    def test_bytes_that_are_no_text_are_refused(self):
        program = self.program()
        program._socket.sendall(b"load 1\n\xff\n")
        self.assertEqual(program._socket.recv(100), b"0 refused NotUtf8\n")

    def test_portions(self):
        self.fill([("load", ANY)] * 40)
        self.assertEqual(len(self.log.after(Place(0, self.log.first().hash), 40)), 15)
        self.assertEqual(self.copy().position, 40)


class Keys(WithLog):
    """What makes a retry harmless, and two who edit at once."""

    def test_a_removal_that_is_given_again_removes_once(self):
        a, b = self.copy(), self.copy()
        a.load(ANY)
        self.log.append("remove-static", b'"policy0"', "mine")
        b.follow()
        self.assertEqual((b.load(FORBID), b.load(ANY)), (["policy0"], ["policy1"]))
        a.edit(key="mine").remove_static("policy0")
        self.assertEqual(a.position, 2)
        for copy in (a, b):
            copy.follow()
            self.assertEqual((decision(copy), copy.position, len(copy.held.policies)), (Decision.DENY, 4, 2))

    def test_a_load_that_is_given_again_has_its_ids(self):
        a = self.copy()
        self.log.append("load", PERMIT.encode(), "mine")
        self.assertEqual(a.edit(key="mine").load(PERMIT), ["policy0"])
        self.assertEqual(a.edit(key="mine").load(PERMIT), ["policy0"])
        self.assertEqual(a.position, 1)
        a.remove_static("policy0")
        self.assertEqual(decision(a), Decision.DENY)
        with self.assertRaises(copies.KeyTaken):
            a.edit(key="mine").load(ANY)
        self.assertEqual(self.log.end(), 2)

    def test_a_refused_edit_is_refused_again(self):
        a = self.copy()
        for _ in range(2):
            with self.assertRaises(cedar.Refused) as caught:
                a.edit(key="mine").load("permit(")
            self.assertEqual((caught.exception.word, self.log.end()), ("Text", 1))

    def test_an_edit_in_which_a_copy_ends_is_done_once(self):
        for opened, kind in ((Dying, copies.Stopped), (lambda: Forgetful(types=False), copies.Waits)):
            with self.subTest(kind=kind):
                ending, other = self.copy(opened), self.copy()
                before = other.position
                ending.load("forbid(principal == ?principal, action, resource);")
                [template] = sorted(ending.held.policies)[-1:]
                give = {copies.Stopped: lambda it: it.put(long), copies.Waits: lambda it: it.link(template, f"l{before}", principal=MALLORY)}[kind]
                long = [Entity("User", str(at)) for at in range(10_000)]
                with self.assertRaises(kind) as caught:
                    give(ending)
                give(other.edit(key=caught.exception.key))
                give(other.edit(key=caught.exception.key))
                self.assertEqual((other.position, self.log.end()), (before + 2, before + 2))

    def test_an_edit_of_long_ago_has_no_line(self):
        a = self.copy()
        a.edit(key="mine").load(ANY)
        for _ in range(100):
            a.put([])
        with self.assertRaises(copies.AlreadyDone) as caught:
            a.edit(key="mine").load(ANY)
        self.assertEqual((caught.exception.position, self.log.end()), (1, 101))

    def test_an_expected_position(self):
        a, b = self.copy(), self.copy()
        a.edit(expected=0).load(ANY)
        with self.assertRaises(copies.Moved) as caught:
            b.edit(expected=0).remove_static("policy0")
        self.assertEqual((caught.exception.position, self.log.end()), (1, 1))
        b.follow()
        b.edit(expected=b.position).remove_static("policy0")
        self.assertEqual(b.edit(key="k", expected=2).load(ANY), ["policy0"])
        self.assertEqual(b.edit(key="k", expected=2).load(ANY), ["policy0"])
        self.assertEqual(self.log.end(), 3)

    def test_two_administrators_who_edit_at_once(self):
        """Each adds 1 to what it reads: with expected positions none is lost."""
        self.copy().put([Entity("Counter", "c", {"n": 0})])
        moved = []

        def administrate():
            copy = Copy.begin(Log(database(), self.id()), bare)
            left = 30
            while left:
                try:
                    [data] = copy.held.entities["Counter", "c"].data
                    number = int(re.search(r":(\d+)", data)[1])
                    copy.edit(expected=copy.position).put([Entity("Counter", "c", {"n": number + 1})])
                    left -= 1
                except copies.Moved as why:
                    moved.append(why.position)
                    copy.follow()
            copy.close()

        threads = [threading.Thread(target=administrate) for _ in range(2)]
        for thread in threads:
            thread.start()
        for thread in threads:
            thread.join(60)
        last = self.copy()
        self.assertEqual((last.position, last.held.entities["Counter", "c"].data), (61, ('attrs:{"n":60}',)))
        self.assertGreater(len(moved), 0)

    def test_without_an_expected_position_another_policy_goes(self):
        """What `expected` is for: ids are given again."""
        a, b = self.copy(), self.copy()
        a.load(PERMIT)
        b.follow()
        b.remove_static("policy0")
        self.assertEqual(b.load(FORBID), ["policy0"])
        with self.assertRaises(copies.Moved):
            a.edit(expected=a.position).remove_static("policy0")
        self.assertEqual(decision(b), Decision.DENY)
        a.remove_static("policy0")
        self.assertEqual(a.held.policies, {})


if __name__ == "__main__":
    unittest.main()
