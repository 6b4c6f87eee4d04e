"""What the tests of copies share: CEDAR_LIBRARY names the shared object, and the path finds cedar_session."""

import os
import unittest

import psycopg

import cedar_session as cedar
from cedar_session import UNKNOWN, Entity, copies
from cedar_session.copies import Copy, Log

from tests.postgres import Server

ANY = "permit(principal, action, resource);"
PERMIT = 'permit(principal == User::"mallory", action, resource);'
FORBID = 'forbid(principal == User::"mallory", action, resource);'
BOTH = ANY + "\n" + FORBID
MALLORY = Entity("User", "mallory")
QUESTIONS = ("{}", '{principal: User::"alice", context: {hour: 9}}', '{principal: User::"alice", resource: Doc::"1"}')
EDITS = (
    ("put", '[{uid: User::"alice", parents: [Group::"staff", Group::"ops"]}, {uid: Group::"staff", parents: [Org::"o"], attrs: {n: [1, 2]}}]'),
    ("load", 'permit(principal in Group::"staff", action, resource) when { context.hour < 18 };' + ANY),
    ("load", "forbid(principal == ?principal, action, resource) when { context.strict };"),
    ("link", '{template: "policy2", id: "policy4", principal: User::"alice"}'),
    ("load", ANY * 3),
    ("remove-static", '"policy1"'),
    ("load", "permit("),
    ("link", '{template: "policy2", id: "policy4", principal: User::"bob"}'),
    ("add", '[{uid: User::"alice"}]'),
    ("add", '[{uid: Doc::"1", tags: {t: "x"}}, {uid: Doc::"1", tags: {"t": "x"}}]'),
    ("load", "permit(principal, action, resource) when { resource.getTag(\"t\") == \"x\" };"),
    ("remove", '[Group::"ops", Group::"none"]'),
)
REFUSED = [7, 8, 9]


class Shared:
    """The server of a module's tests."""

    server = None


def setUpModule():
    Shared.server = Server()
    unittest.addModuleCleanup(Shared.server.remove)


def database(*given, **more):
    """The connection string of that server."""
    return Shared.server.database(*given, **more)


def decision(session, **more):
    return session.ask(principal=MALLORY, action=UNKNOWN, resource=UNKNOWN, **more).decision


def answers(session):
    """What the questions are answered, and what is told behind each."""
    return [line for it in QUESTIONS for line in (session.line("ask", it), session.line("tell", "{context: {hour: 19, strict: true}}"))]


def bare():
    """A session without Cedar's types, as that of the program."""
    return cedar.Session(types=False)


class WithLog(unittest.TestCase):
    """A log for each test, under the test's name, whose copies have no types, since some are by the program."""

    def setUp(self):
        self.log = self.opened_log()
        self.log.create(language=cedar.WITHOUT_TYPES)

    def opened_log(self, name=None, **more):
        log = Log(database(**more), name or self.id())
        self.addCleanup(log.close)
        return log

    def copy(self, opened=bare, **more):
        copy = Copy.begin(self.opened_log(**more), opened)
        self.addCleanup(copy.close)
        return copy

    def append(self, verb, body):
        return self.log.append(verb, body.encode(), os.urandom(8).hex())

    def fill(self, edits=EDITS):
        for edit in edits:
            self.append(*edit)

    def sql(self, words, *given, user="postgres"):
        with psycopg.connect(database(user), autocommit=True) as connection:
            return self.ran(connection, words, given or None)

    @staticmethod
    def ran(connection, words, given=None):
        ran = connection.execute(words, given)
        return ran.fetchall() if ran.description else ran.rowcount

    def stops(self, copy):
        """A copy that has stopped answers nothing, and says so each time."""
        with self.assertRaises(copies.Stopped):
            copy.follow()
        for use in (lambda: decision(copy), copy.follow, lambda: copy.load(ANY), copy.snapshot, lambda: copy.edit(key="k").put([])):
            with self.assertRaises(copies.Stopped):
                use()
