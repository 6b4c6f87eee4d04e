"""Tests of the sessions: CEDAR_LIBRARY names the shared object, and cedar_session is the program that the path finds."""

import copy
import faulthandler
import gc
import os
import pickle
import signal
import sys
import threading
import unittest
import warnings
from unittest import mock

import cedar_session as cedar
from cedar_session import UNKNOWN, Answer, Decision, Entity, Fault, Unknown, UnknownPart

ALICE, MALLORY, STAFF = Entity("User", "alice"), Entity("User", "mallory"), Entity("Group", "staff")
VIEW, PHOTO = Entity("Action", "view"), Entity("Photo", "1")
POLICIES = 'permit(principal in Group::"staff", action, resource) when { context.hour < 18 };'
ENTITIES = [Entity("User", "alice", parents=[STAFF])]
ANY = "permit(principal, action, resource);"
DEEP = "permit(principal, action, resource) when { " + "(" * 255 + "true" + ")" * 255 + " };"
HERE = os.path.dirname(os.path.abspath(__file__))


def ask(session, principal=UNKNOWN, context=UNKNOWN, **more):
    """A question of which nothing else is known."""
    return session.ask(principal=principal, action=UNKNOWN, resource=UNKNOWN, context=context, **more)


def ask_all(session, principal, **context):
    return session.ask(principal=principal, action=VIEW, resource=PHOTO, context=context)


class Answers:
    """What any client answers."""

    def setUp(self):
        self.session = self.opened()
        self.addCleanup(self.session.close)

    def refused(self, word, command, *given, **named):
        with self.assertRaises(cedar.Refused) as caught:
            command(*given, **named)
        self.assertEqual(caught.exception.word, word)

    def test_questions(self):
        self.session.put(ENTITIES)
        self.assertEqual(self.session.load(POLICIES), ["policy0"])
        self.assertEqual(ask_all(self.session, ALICE, hour=9), Answer(Decision.ALLOW, ("policy0",), ("policy0",), {}))
        self.assertEqual(ask(self.session, ALICE), Answer(Decision.OPEN, (), ("policy0",), {}))
        self.assertEqual(self.session.tell(context={"hour": 19}), Answer(Decision.DENY, (), (), {}))

    def test_what_is_not_known_has_to_be_said(self):
        self.session.load("permit(principal is User, action, resource) when { context.hour < 18 };")
        self.assertEqual(self.session.ask(principal=ALICE, action=VIEW, resource=PHOTO).erring, {"policy0": "RecordAttrDoesNotExist"})
        with self.assertRaises(TypeError):
            self.session.ask(principal=ALICE, action=VIEW)
        self.assertEqual(ask(self.session, UnknownPart("User"), {"hour": Unknown("late")}).decision, Decision.OPEN)
        self.assertEqual(self.session.tell(late=9).decision, Decision.ALLOW)
        self.assertEqual(self.session.tell(principal=ALICE, action=VIEW, resource=PHOTO).decision, Decision.ALLOW)
        self.assertEqual(ask(self.session, UnknownPart("Robot"), {"hour": Unknown("late")}).decision, Decision.DENY)
        with self.assertRaises(cedar.BadValue):
            self.session.ask(principal=ALICE, action=UnknownPart("Action"), resource=PHOTO)

    def test_what_a_user_typed_stays_a_name(self):
        self.session.load('permit(principal == User::"root", action, resource); permit(principal, action, resource) when { context.admin };')
        for name in ('root" // ', 'a", context: {admin: true}} //', 'root"\n}//', 'x\\"', "x\\", 'root"}'):
            with self.subTest(name=name):
                self.assertEqual(ask_all(self.session, Entity("User", name), admin=False), Answer(Decision.DENY, (), (), {}))
                self.assertEqual(ask_all(self.session, ALICE, admin=False, **{name: name}), Answer(Decision.DENY, (), (), {}))
        self.session.load("permit(principal == ?principal, action, resource == ?resource);")
        self.session.link("policy2", "l", principal=Entity("User", 'a", resource: Doc::"secret'), resource=PHOTO)
        with self.assertRaises(cedar.NoValue):
            self.session.link("policy2", "m", principal='User::"a", resource: Doc::"secret"', resource=PHOTO)
        for name in ('User::"a"//', "A::B ", "", "User::", "::U", "if", "A::in::B", "é", "a-b"):
            with self.subTest(name=name), self.assertRaises(cedar.BadValue):
                Entity(name, "a")

    def test_errors_of_policies(self):
        self.session.load("permit(principal, action, resource) when { context.hour < true };")
        self.assertEqual(ask(self.session, context={"hour": 9}), Answer(Decision.DENY, (), (), {"policy0": "TypeError"}))

    def test_templates(self):
        self.assertEqual(self.session.load("permit(principal == ?principal, action, resource);"), ["policy0"])
        link = 'a "link"] may=[\\\n'
        self.session.link("policy0", link, principal=ALICE)
        self.assertEqual(ask_all(self.session, ALICE).must, (link,))
        self.refused("HasLinks", self.session.remove_template, "policy0")
        self.session.unlink(link)
        self.session.remove_template("policy0")
        self.refused("NoSuchTemplate", self.session.remove_template, "policy0")

    def test_edits(self):
        self.session.add(ENTITIES)
        self.refused("Duplicate", self.session.add, [Entity("User", "alice", attrs={"n": 1})])
        self.session.remove(ENTITIES)
        self.session.load(ANY)
        self.session.remove_static("policy0")
        self.refused("NoSuchPolicy", self.session.remove_static, "policy0")

    def test_attributes_and_tags(self):
        self.session.put([Entity("User", "alice", {"n": [1, {"a": ALICE}]}, [], {"t": "x"})])
        self.session.load('permit(principal, action, resource) when { principal.n.contains({a: User::"alice"}) && principal.getTag("t") == "x" };')
        self.assertEqual(ask_all(self.session, ALICE).decision, Decision.ALLOW)

    def test_refusals_change_nothing(self):
        self.refused("Text", self.session.load, "permit")
        self.refused("NoQuestion", self.session.tell)
        self.assertEqual(self.session.load(ANY), ["policy0"])

    def test_what_is_no_command_changes_nothing(self):
        faults = [
            (cedar.NoCommand, lambda it: it.command("lode", "")),
            (cedar.NoCommand, lambda it: it.line("load 0\nload", "")),
            (cedar.TooLong, lambda it: it.load(" " * 1_048_577)),
            (cedar.TooLong, lambda it: it.load("é" * 600_000)),
            (cedar.NoValue, lambda it: it.load(b"")),
            (cedar.NoValue, lambda it: it.load(None)),
            (cedar.BadValue, lambda it: it.load("\ud800")),
            (cedar.BadValue, lambda it: it.unlink("\udc80")),
            (cedar.NoValue, lambda it: it.put('[{uid: User::"a"}]')),
            (cedar.NoValue, lambda it: it.put([Entity("User", "a", attrs={"n": Unknown("x")})])),
            (cedar.NoValue, lambda it: it.put([Entity("User", "a", attrs=[])])),
            (cedar.NoValue, lambda it: ask(it, ALICE, {"a": 1.0})),
            (cedar.NoValue, lambda it: ask(it, ALICE, None)),
            (cedar.NoValue, lambda it: ask(it, None, {})),
            (cedar.NoValue, lambda it: it.tell(hour=(1,))),
        ]
        for kind, fault in faults:
            with self.assertRaises(kind) as caught:
                fault(self.session)
            self.assertIsInstance(caught.exception, cedar.CedarError)
        self.assertEqual(self.session.load(" " * 1_048_576), [])

    def test_a_session_is_not_copied(self):
        for copying in (copy.copy, copy.deepcopy, pickle.dumps):
            with self.assertRaises(cedar.NotCopied):
                copying(self.session)
        gc.collect()
        self.assertEqual(ask(self.session).decision, Decision.DENY)

    def test_closed(self):
        self.session.close()
        self.session.close()
        with self.assertRaises(cedar.NotOpen):
            ask(self.session)


class Explained:
    """What a client in the process tells of a refusal."""

    def refusal(self, command, *given, **named):
        with self.assertRaises(cedar.Refused) as caught:
            command(*given, **named)
        return caught.exception

    def test_each_error_of_policies_is_told(self):
        refusal = self.refusal(self.session.load, ANY + "\npermit(principal, action, resource) when { context.a = 1 };\nforbid(é, action, resource)")
        self.assertEqual(refusal.word, "Text")
        self.assertEqual(
            refusal.faults,
            (
                Fault(3, 8, 3, 8, "InvalidToken", "invalid token", None, None),
            ),
        )
        refusal = self.refusal(self.session.load, ANY + "\npermit(principal, action, resource) when { context.a = 1 };\nforbid(principal, action, resource) where { true };")
        self.assertEqual(
            refusal.faults,
            (
                Fault(2, 44, 2, 57, "InvalidSingleEq", "'=' is not a valid operator in Cedar", None, "did you mean `==`?"),
                Fault(3, 37, 3, 42, "InvalidCondition", "invalid policy condition: where", None, "a clause begins with `when` or `unless`"),
            ),
        )
        self.assertIsNone(refusal.unasked)

    def test_the_part_of_a_body_is_told(self):
        self.session.put([ALICE])
        refusal = self.refusal(self.session.add, [Entity("User", "alice", attrs={"n": 1})])
        (fault,) = refusal.faults
        self.assertEqual((fault.line, fault.column, fault.kind), (1, 2, "Duplicate"))
        self.assertEqual(fault.message, 'User::"alice" stands there already, with other parts')
        ask(self.session, ALICE)
        (fault,) = self.refusal(self.session.tell, day=1).faults
        self.assertEqual((fault.kind, fault.message), ("NoSuchUnknown", '"day" isn\'t among the names to tell: ["action","context","resource"]'))

    def test_a_reason_without_a_place_has_no_faults(self):
        refusal = self.refusal(self.session.unlink, "l")
        self.assertEqual((refusal.word, refusal.faults, refusal.unasked), ("NoSuchPolicy", (), None))

    def test_faults_change_nothing(self):
        self.session.load(ANY)
        refusal = self.refusal(self.session.load, "permit")
        self.assertEqual(len(refusal.faults), 1)
        self.assertIs(refusal.faults, refusal.faults)
        self.assertEqual(self.session.last_line(), "refused Text")
        self.assertEqual(self.session.load(ANY), ["policy0"])

    def test_no_session_is_asked_later(self):
        refusal = self.refusal(self.session.load, "permit")
        ask(self.session)
        self.assertEqual((refusal.faults, refusal.unasked), ((), "the session was given another command since"))
        refusal = self.refusal(self.session.load, "permit")
        self.session.close()
        self.assertEqual(refusal.faults, ())
        self.assertIsNotNone(refusal.unasked)

    def test_control_characters_are_read_back(self):
        (fault,) = self.refusal(self.session.load, '"a\tb\x01é";').faults
        self.assertEqual(fault.message, 'unexpected token `"a\tb\x01é"`')
        self.assertEqual((fault.column, fault.end_column), (1, 8))


class Interrupted:
    """What comes between a command and its line: a handler that uses the session, and an exception."""

    def test_a_handler_gets_no_answer_of_another_question(self):
        self.session.load('permit(principal == User::"alice", action, resource);')
        seen = {"ran": 0, "busy": 0}

        def handle(*_):
            seen["ran"] += 1
            try:
                self.assertEqual(ask_all(self.session, MALLORY).decision, Decision.DENY)
            except cedar.Busy:
                seen["busy"] += 1

        self.addCleanup(signal.signal, signal.SIGALRM, signal.signal(signal.SIGALRM, handle))
        signal.setitimer(signal.ITIMER_REAL, 0.0002, 0.0002)
        try:
            wrong = sum(ask_all(self.session, ALICE).decision is not Decision.ALLOW for _ in range(5_000))
        finally:
            signal.setitimer(signal.ITIMER_REAL, 0)
        self.assertEqual(wrong, 0)
        self.assertGreater(seen["busy"], 0)

    def test_an_exception_leaves_no_answer_behind(self):
        class Late(Exception):
            pass

        def late(*_):
            raise Late

        self.addCleanup(signal.signal, signal.SIGALRM, signal.signal(signal.SIGALRM, late))
        policies = 'permit(principal == User::"alice", action, resource) when { context.x.contains(1) };' * 500
        interrupted = 0
        for at in range(60):
            session = self.opened()
            session.load(policies)
            try:
                signal.setitimer(signal.ITIMER_REAL, 0.00005 * (at + 1))
                for _ in range(20):
                    self.assertEqual(ask_all(session, ALICE, x=[1]).decision, Decision.ALLOW)
            except Late:
                interrupted += 1
            finally:
                signal.setitimer(signal.ITIMER_REAL, 0)
            try:
                self.assertEqual(ask_all(session, MALLORY, x=[1]).decision, Decision.DENY)
            except cedar.NotOpen:
                pass
            session.close()
        self.assertGreater(interrupted, 20)

    def test_an_exception_at_any_line(self):
        """Wherever in a command it comes, what is asked next gets its own answer or none, and nothing waits for ever. Not between
        two steps that call nothing, where no signal is taken, as in `_alone` around its call."""

        class Late(Exception):
            pass

        def broken_off(session, at):
            left = at

            def trace(frame, event, _):
                nonlocal left
                if event in ("line", "return") and frame.f_code.co_name != "_alone":
                    left -= 1
                    if left == 0:
                        sys.settrace(None)
                        raise Late
                return trace

            sys.settrace(trace)
            try:
                ask_all(session, ALICE)
            except Late:
                return True
            finally:
                sys.settrace(None)
            return False

        self.addCleanup(sys.settrace, sys.gettrace())
        self.addCleanup(faulthandler.cancel_dump_traceback_later)
        faulthandler.dump_traceback_later(120, exit=True)
        session, at = self.opened(), 1
        session.load('permit(principal == User::"alice", action, resource);')
        while broken_off(session, at):
            at += 1
            try:
                self.assertEqual(ask_all(session, MALLORY).decision, Decision.DENY)
            except cedar.NotOpen:
                session.close()
                session = self.opened()
                session.load('permit(principal == User::"alice", action, resource);')
        session.close()
        self.assertGreater(at, 50)


class AnyThread:
    """Two threads of one session: each gets its own answers."""

    def test_threads_at_once(self):
        self.session.load('permit(principal == User::"alice", action, resource);')
        wrong = []

        def work(who, wanted):
            for _ in range(1_000):
                if ask_all(self.session, who).decision is not wanted:
                    wrong.append(who)

        threads = [threading.Thread(target=work, args=it) for it in ((ALICE, Decision.ALLOW), (MALLORY, Decision.DENY)) * 2]
        for thread in threads:
            thread.start()
        for thread in threads:
            thread.join()
        self.assertEqual(wrong, [])

    def test_another_process_has_no_part_in_it(self):
        self.session.load(ANY)
        child = os.fork()
        if child == 0:
            try:
                ask(self.session)
            except cedar.OtherThread:
                os._exit(7)
            os._exit(1)
        self.assertEqual(os.waitstatus_to_exitcode(os.waitpid(child, 0)[1]), 7)
        self.assertEqual(ask_all(self.session, ALICE).decision, Decision.ALLOW)


class Sessions(Answers, Explained, Interrupted, unittest.TestCase):
    def opened(self):
        return cedar.Session()

    def test_depth(self):
        self.session.load(DEEP)
        with cedar.Session(depth=255) as low:
            self.refused("Depth", low.load, DEEP)

    def test_no_limit_of_depth(self):
        for opened in (cedar.Session, cedar.SessionThread):
            for depth in (-1, cedar.DEPTH_MAX + 1, 2**32, 2**32 + 1, 256.0, None, True, "256"):
                with self.subTest(depth=depth), self.assertRaises(cedar.BadValue):
                    opened(depth=depth)
        with cedar.Session(depth=0) as least:
            self.refused("Depth", least.load, ANY)

    def test_the_stack_carries_the_limit_of_depth(self):
        """A thread of 512 KiB (or four times as much, which another left) carries no limit of 256, and none is opened there."""
        caught = []

        def small():
            try:
                cedar.Session()
            except cedar.BadValue as why:
                caught.append(str(why))
            with cedar.SessionThread() as own:
                caught.append(own.load(DEEP))

        before = threading.stack_size(1 << 19)
        try:
            thread = threading.Thread(target=small)
            thread.start()
            thread.join()
        finally:
            threading.stack_size(before)
        self.assertIn("SessionThread", caught[0])
        self.assertEqual(caught[1], ["policy0"])

    def test_the_library_looks_at_the_stack_too(self):
        caught = []

        def small():
            try:
                cedar.Session()
            except cedar.BadValue as why:
                caught.append(str(why))

        before = threading.stack_size(1 << 19)
        try:
            with mock.patch("cedar_session.session._stack_here", lambda: None):
                thread = threading.Thread(target=small)
                thread.start()
                thread.join()
        finally:
            threading.stack_size(before)
        self.assertIn("limit of depth", caught[0])

    def test_long_lines(self):
        ids = self.session.load(ANY * 1000)
        self.assertEqual(ids, [f"policy{at}" for at in range(1000)])
        self.assertEqual(ask(self.session).must, tuple(sorted(ids)))
        self.assertTrue(self.session.last_line().startswith("allow must="))

    def test_closed_has_no_last_line(self):
        self.session.close()
        with self.assertRaises(cedar.NotOpen):
            self.session.last_line()

    def test_threads(self):
        caught = []

        def elsewhere():
            for use in (lambda: ask(self.session), self.session.close, self.session.last_line):
                try:
                    use()
                except cedar.OtherThread as why:
                    caught.append(why)
            with cedar.Session() as own:
                own.load(ANY)
                caught.append(ask(own).decision)

        threads = [threading.Thread(target=elsewhere) for _ in range(4)]
        for thread in threads:
            thread.start()
        for thread in threads:
            thread.join()
        self.assertEqual(len(caught), 16)
        self.assertEqual(caught.count(Decision.ALLOW), 4)

    def test_a_session_dropped_on_another_thread_warns(self):
        held = []
        thread = threading.Thread(target=lambda: held.append(cedar.Session()))
        thread.start()
        thread.join()
        with warnings.catch_warnings(record=True) as caught:
            warnings.simplefilter("always")
            held.clear()
            gc.collect()
        self.assertEqual([it.category for it in caught], [ResourceWarning])

    def test_types(self):
        policy = 'permit(principal, action, resource) when { ip(context.address).isInRange(ip("10.0.0.0/8")) };'
        self.session.load(policy)
        self.assertEqual(ask_all(self.session, ALICE, address="10.1.2.3").decision, Decision.ALLOW)
        self.assertEqual(ask_all(self.session, ALICE, address="11.1.2.3"), Answer(Decision.DENY, (), (), {}))
        self.assertEqual(ask_all(self.session, ALICE, address="10.1.2.300").erring, {"policy0": "FailedExtensionFunctionExecution"})
        with cedar.Session(types=True) as typed:
            self.assertEqual(typed.load(policy), ["policy0"])
        for opened in (cedar.Session, cedar.SessionThread):
            with opened(types=False) as bare:
                self.refused("Text", bare.load, policy)
            with opened() as typed:
                self.assertEqual(typed.load(policy), ["policy0"])

    def test_a_library_without_types(self):
        bare = mock.Mock(wraps=self.session._cedar, spec=["cedar_new", "cedar_command", "cedar_answer", "cedar_close", "cedar_free"])
        with mock.patch("cedar_session.session._library", return_value=bare):
            with self.assertRaisesRegex(cedar.NoLibrary, "types"):
                cedar.Session(types=True)
            with cedar.Session() as session:
                self.refused("Text", session.load, 'permit(principal, action, resource) when { ip("::1").isLoopback() };')

    def test_no_library(self):
        for path in ("/nonexistent.so", "libc.so.6"):
            with self.subTest(path=path), self.assertRaises(cedar.NoLibrary):
                cedar.Session(library=path)
        with mock.patch("cedar_session.session._VERSION", "0.9."), self.assertRaisesRegex(cedar.NoLibrary, "of version"):
            cedar.Session()

    def test_a_forked_process_has_a_session_of_its_own(self):
        self.session.load(ANY)
        child = os.fork()
        if child == 0:
            os._exit(7 if ask(self.session).decision is Decision.ALLOW else 1)
        self.assertEqual(os.waitstatus_to_exitcode(os.waitpid(child, 0)[1]), 7)


class SessionThreads(Answers, Explained, Interrupted, AnyThread, unittest.TestCase):
    def opened(self):
        return cedar.SessionThread()

    def test_depth(self):
        with cedar.SessionThread(depth=cedar.DEPTH_MAX) as deep:
            levels = cedar.DEPTH_MAX - 1
            deep.load("permit(principal, action, resource) when { " + "(" * levels + "true" + ")" * levels + " };")
        with cedar.SessionThread(depth=0) as least, self.assertRaisesRegex(cedar.Refused, "Depth"):
            ask(least)

    def test_the_last_line(self):
        self.session.load(ANY)
        self.assertEqual(self.session.last_line(), 'ok ["policy0"]')


class Children(Answers, Interrupted, AnyThread, unittest.TestCase):
    def opened(self):
        return cedar.Child()

    def test_a_child_tells_no_faults(self):
        with self.assertRaises(cedar.Refused) as caught:
            self.session.load("permit")
        self.assertEqual(caught.exception.faults, ())
        self.assertEqual(caught.exception.unasked, "this way to a session tells no faults")

    def test_a_closed_child_is_gone(self):
        self.session.close()
        self.assertIsNotNone(self.session._child.returncode)

    def test_a_stopped_child_is_given_up(self):
        child = cedar.Child(seconds=0.2)
        child.load(ANY)
        os.kill(child._child.pid, signal.SIGSTOP)
        with self.assertRaises(cedar.TimedOut):
            child.load("//" * 500_000)
        self.assertIsNotNone(child._child.returncode)
        with self.assertRaises(cedar.NotOpen):
            ask(child)

    def test_a_killed_child_is_told(self):
        os.kill(self.session._child.pid, signal.SIGKILL)
        with self.assertRaises(cedar.Ended):
            ask(self.session)
        with self.assertRaises(cedar.NotOpen):
            ask(self.session)

    def test_no_program(self):
        with self.assertRaises(cedar.NotOpen):
            cedar.Child("/nonexistent")


class Names(unittest.TestCase):
    def test_each_error_is_one(self):
        for name in cedar.__all__:
            kind = getattr(cedar, name)
            if isinstance(kind, type) and issubclass(kind, Exception):
                self.assertTrue(issubclass(kind, cedar.CedarError), name)

    def test_kinds_of_errors(self):
        self.assertTrue(issubclass(cedar.NoValue, TypeError) and issubclass(cedar.BadValue, ValueError) and issubclass(cedar.NoMemory, MemoryError))
        again = pickle.loads(pickle.dumps(cedar.Refused("Shape")))
        self.assertEqual((again.word, str(again), again.faults), ("Shape", "Shape", ()))


if __name__ == "__main__":
    unittest.main()
