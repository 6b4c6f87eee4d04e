"""Tests of copies whose server is cut off, ended, killed and restored; and of many commands over three copies."""

import random
import socket
import threading
import time
import unittest

import cedar_session as cedar
from cedar_session import Decision, copies
from cedar_session.copies import Copy, Log

from tests.copying import ANY, BOTH, EDITS, FORBID, PERMIT, Shared, WithLog, answers, bare, database, decision, setUpModule  # noqa: F401


class Proxy:
    """A way to the server that ends a connection behind so many bytes that the server sent; `cuts` says how often."""

    def __init__(self):
        self.listener = socket.create_server(("127.0.0.1", 0))
        self.port = self.listener.getsockname()[1]
        self.left, self.cuts, self.sent = 0, 0, 0
        threading.Thread(target=self.accept, daemon=True).start()

    def accept(self):
        while True:
            try:
                client, _ = self.listener.accept()
            except OSError:
                return
            server = socket.create_connection(("127.0.0.1", Shared.server.port))
            for end in (client, server):
                end.setsockopt(socket.IPPROTO_TCP, socket.TCP_NODELAY, 1)
            for pair in ((client, server, False), (server, client, True)):
                threading.Thread(target=self.pump, args=pair, daemon=True).start()

    def arm(self, left, cuts):
        self.left, self.cuts, self.sent = left, cuts, 0

    def pump(self, here, there, is_reply):
        left = None
        try:
            while True:
                data = here.recv(65536)
                if not data:
                    break
                if is_reply:
                    self.sent += len(data)
                    if left is None and self.cuts:
                        left, self.cuts = self.left, self.cuts - 1
                    if left is not None and len(data) > left:
                        there.sendall(data[:left])
                        break
                    left = None if left is None else left - len(data)
                there.sendall(data)
        except OSError:
            pass
        for end in (here, there):
            try:
                end.shutdown(socket.SHUT_RDWR)
            except OSError:
                pass
        here.close()


class WithProxy(WithLog):
    """Each reply of the server is cut behind each of its bytes: nothing is done in part, nothing twice."""

    def setUp(self):
        super().setUp()
        self.proxy = Proxy()
        self.addCleanup(self.proxy.listener.close)

    def through(self):
        log = Log(database(port=self.proxy.port), self.id())
        copy = Copy.begin(log, bare)
        self.addCleanup(copy.close)
        return copy

    def sent(self, do):
        """How many bytes the server sends."""
        self.proxy.arm(0, 0)
        do()
        time.sleep(0.05)
        return self.proxy.sent

    def cuts(self, size):
        """Where replies are cut: once behind each byte, and for some also in the connection that is opened then."""
        yield from ((left, 1) for left in range(size))
        yield from ((left, 2) for left in range(0, size, 9))


class CutEdits(WithProxy):
    def test_edits_that_are_given(self):
        copy, failed = self.through(), 0
        size = self.sent(lambda: copy.load(ANY))
        for at, (left, cuts) in enumerate(self.cuts(size)):
            edit = ("load", f'permit(principal == User::"{at}", action, resource);') if at % 2 == 0 else ("remove-static", '"policy1"')
            self.proxy.arm(left, cuts)
            try:
                line = copy.line(*edit)
            except copies.LogError as why:
                failed += 1
                self.proxy.arm(0, 0)
                line = copy.edit(key=why.key).line(*edit)
            self.assertEqual((line, copy.position), (("ok", 'ok ["policy1"]')[at % 2 == 0], at + 2), (left, cuts))
        self.assertGreater(failed, 0)
        self.assertEqual(self.log.end(), copy.position)
        self.assertEqual(self.copy().snapshot(), copy.snapshot())


class CutReads(WithProxy):
    def test_edits_that_are_read(self):
        copy = self.through()
        first, failed = copy.place, 0
        self.append("load", BOTH)
        self.append("put", '[{uid: User::"mallory"}]')
        size = self.sent(copy.follow)
        last, wanted = copy.place, copy.snapshot()
        for left, cuts in self.cuts(size):
            # (the same as a copy that has just begun)
            copy.session.close()
            copy.session, copy.held, copy.place, copy._why = cedar.Session(), type(copy.held)(), first, ""
            self.proxy.arm(left, cuts)
            try:
                copy.follow()
            except copies.LogError:
                failed += 1
                self.proxy.arm(0, 0)
                copy.follow()
            self.assertEqual((copy.place, copy.snapshot(), decision(copy)), (last, wanted, Decision.DENY), (left, cuts))
        self.assertGreater(failed, 0)

    def test_snapshots_that_are_read(self):
        self.append("load", BOTH)
        copy, failed = self.copy(), 0
        self.log.keep(copy.snapshot())
        read = Log(database(port=self.proxy.port), self.id())
        self.addCleanup(read.close)
        read.end()
        for left, cuts in self.cuts(self.sent(read.snapshot)):
            if cuts == 2:
                read.end()
            self.proxy.arm(left, cuts)
            try:
                self.assertEqual(read.snapshot(), copy.snapshot())
            except copies.LogError:
                failed += 1
        self.assertGreater(failed, 0)

    def test_a_server_that_says_nothing(self):
        listener = socket.create_server(("127.0.0.1", 0))
        self.addCleanup(listener.close)
        began = time.monotonic()
        with self.assertRaises(copies.LogError):
            Log(database(port=listener.getsockname()[1]), "a", seconds=2).end()
        self.assertLess(time.monotonic() - began, 20)

    def test_a_server_that_falls_silent(self):
        log = Log(database(), self.id(), seconds=1)
        self.addCleanup(log.close)
        began = time.monotonic()
        with self.assertRaises(copies.LogError):
            log._run(lambda it: it.execute("SELECT pg_sleep(30)"))
        self.assertLess(time.monotonic() - began, 20)


class Restarts(WithLog):
    """The database ends, and is what it was, or what it was once."""

    def test_it_ends_between_any_two_commands(self):
        copy, other, alone = self.copy(), self.copy(cedar.Child), cedar.Session()
        self.addCleanup(alone.close)
        for at, edit in enumerate(EDITS):
            self.assertEqual(copy.line(*edit), alone.line(*edit))
            Shared.server.stop(("fast", "immediate")[at % 2])
            self.assertEqual(answers(copy), answers(alone))
            if at == 3:
                with self.assertRaises(copies.LogError):
                    copy.load(ANY)
            Shared.server.start()
            other.follow()
            self.assertEqual((other.position, answers(other)), (at + 1, answers(alone)))
        self.assertEqual(copy.snapshot(), other.snapshot())

    def test_it_is_killed_while_edits_are_given(self):
        """What was answered stands there, and nothing stands there twice."""
        copy, given = self.copy(), []
        for at in range(3):
            killing = threading.Timer(0.05, Shared.server.stop, ("immediate",))
            killing.start()
            try:
                while True:
                    key = f"{at} {len(given)}"
                    copy.edit(key=key).load(f'permit(principal == User::"{key}", action, resource);')
                    given.append(key)
            except copies.LogError as why:
                killing.join()
                Shared.server.start()
                self.assertEqual(why.key, key)
                copy.edit(key=key).load(f'permit(principal == User::"{key}", action, resource);')
                given.append(key)
        rows = self.sql("SELECT key FROM cedar_edits WHERE log = %s AND position > 0 ORDER BY position", self.id())
        self.assertEqual([it for it, in rows], given)
        self.assertEqual(self.copy().snapshot(), copy.snapshot())

    def test_an_older_backup(self):
        a, b = self.copy(), self.copy()
        for edit in EDITS[:4]:
            a.line(*edit)
        Shared.server.keep()
        c = self.copy()
        a.load(FORBID)
        b.follow()
        self.log.close()
        Shared.server.restore()
        c.follow()
        self.assertEqual(c.position, 4)
        self.stops(a)
        c.load(ANY)
        c.load(PERMIT)
        self.assertEqual((b.position, c.position), (5, 6))
        self.stops(b)
        self.assertEqual(self.copy().snapshot(), c.snapshot())


class Many(WithLog):
    COMMANDS = 10_000

    def test_edits_and_questions_over_three_copies(self):
        """Each answer is compared with that of a session of its own, which was given the edits up to the same position."""
        seed = time.time_ns()
        choose = random.Random(seed)
        followed = [self.copy(), self.copy(cedar.Child), self.copy(lambda: cedar.SessionThread(types=False))]
        shadows, done, edits = [cedar.Session() for _ in followed], [0, 0, 0], []
        for shadow in shadows:
            self.addCleanup(shadow.close)
        began, asked = time.perf_counter(), 0
        for _ in range(self.COMMANDS):
            at = choose.randrange(3)
            copy, shadow = followed[at], shadows[at]
            kind = choose.random()
            if kind < 0.2:
                edit = self.edit(choose)
                line = copy.line(*edit)
                edits.append(edit)
                for before in edits[done[at] : -1]:
                    shadow.line(*before)
                self.assertEqual((line, copy.position), (shadow.line(*edit), len(edits)), (seed, edit))
                done[at] = len(edits)
            else:
                if kind < 0.25:
                    copy.follow()
                for edit in edits[done[at] : copy.position]:
                    shadow.line(*edit)
                done[at] = copy.position
                question = self.question(choose)
                self.assertEqual(copy.line("ask", question), shadow.line("ask", question), (seed, question))
                asked += 1
        for copy in followed:
            copy.follow()
        self.assertEqual(len({copy.snapshot() for copy in followed}), 1)
        print(f"{len(edits)} edits and {asked} questions in {time.perf_counter() - began:.1f} s")

    @staticmethod
    def edit(choose):
        name = lambda: choose.choice("abcdef")
        policy = f'"policy{choose.randrange(12)}"'
        return choose.choice(
            (
                ("load", choose.choice(("permit", "forbid")) + f'(principal == User::"{name()}", action, resource in Folder::"{name()}");'),
                ("load", f'permit(principal in Group::"{name()}", action, resource) when {{ context.n < {choose.randrange(9)} }};'),
                ("load", f'forbid(principal in ?principal, action, resource) when {{ resource.n == {choose.randrange(3)} }};'),
                ("load", "permit("),
                ("link", f'{{template: {policy}, id: "{name()}", principal: Group::"{name()}"}}'),
                ("unlink", f'"{name()}"'),
                ("remove-static", policy),
                ("remove-template", policy),
                ("put", f'[{{uid: User::"{name()}", parents: [Group::"{name()}"]}}, {{uid: Folder::"{name()}", attrs: {{n: {choose.randrange(3)}}}}}]'),
                ("add", f'[{{uid: Group::"{name()}", parents: [Group::"{name()}"]}}]'),
                ("remove", f'[User::"{name()}", Group::"{name()}"]'),
            )
        )

    @staticmethod
    def question(choose):
        name = lambda: choose.choice("abcdef")
        context = choose.choice(("", ", context: {}", f", context: {{n: {choose.randrange(9)}}}"))
        return f'{{principal: User::"{name()}", resource: Folder::"{name()}"{context}}}'


if __name__ == "__main__":
    unittest.main()
