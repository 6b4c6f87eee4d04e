"""Tests of logs that are not what they were, and of snapshots."""

import os
import subprocess
import sys
import unittest

import psycopg

import cedar_session as cedar
from cedar_session import Decision, copies
from cedar_session.copies import Copy, Log, Place, Snapshot
from cedar_session.held import frame_of

from tests.copying import ANY, EDITS, FORBID, WithLog, answers, bare, database, decision, setUpModule  # noqa: F401


class Faults(WithLog):
    """Logs that aren't what they were: a copy stops, and says so."""

    def test_other_limits_and_languages(self):
        self.log.append("load", ANY.encode(), "k")
        with self.assertRaises(copies.Differs):
            self.copy(lambda: cedar.Session(depth=6))

        class Other(cedar.Session):
            language = "another"

        with self.assertRaises(copies.Differs):
            self.copy(Other)
        for typed in (cedar.Session, cedar.SessionThread):
            with self.assertRaises(copies.Differs):
                self.copy(typed)
        low = self.opened_log("low")
        low.create(depth=6)
        with self.assertRaises(copies.Differs):
            self.copy(cedar.Child, name="low")
        with self.assertRaises(copies.Differs):
            self.copy(lambda: cedar.Session(depth=6, types=False), name="low")
        self.assertEqual(self.copy(lambda: cedar.Session(depth=6), name="low").position, 0)

    def test_no_log(self):
        with self.assertRaises(copies.NoLog):
            self.copy(name="none")
        with self.assertRaises(copies.NoLog):
            self.opened_log("none").append("load", b"", "k")
        with self.assertRaises(copies.LogError):
            self.log.create()
        with self.assertRaises(copies.LogError):
            Log("host=127.0.0.1 port=1 user=postgres dbname=postgres", "a").end()
        with self.assertRaises(copies.LogError):
            Log("no such word", "a").end()

    def test_names_share_nothing(self):
        names = ("n", "n:snapshot", "n'", "n\\", "N", "n ", "é", "%s", "n" * 1_000)
        for name in names:
            self.opened_log(name).create(language=cedar.WITHOUT_TYPES)
        for name in names:
            copy = self.copy(name=name)
            copy.load(f'permit(principal == User::"{len(name)}", action, resource);')
            copy.log.keep(copy.snapshot())
        self.assertEqual({self.copy(name=name).position for name in names}, {1})
        with self.assertRaises(copies.LogError):
            self.opened_log("a\0b").create()

    def test_a_log_that_was_dropped(self):
        a, b = self.copy(), self.copy()
        a.load(ANY)
        b.follow()
        self.sql("DELETE FROM cedar_edits WHERE log = %s", self.id())
        self.stops(a)
        self.log.create(language=cedar.WITHOUT_TYPES)
        c = self.copy()
        c.load(FORBID)
        c.load(ANY)
        self.stops(b)
        self.assertEqual(self.log.end(), 2)

    def test_a_log_that_lost_its_tail(self):
        a, b, c = self.copy(), self.copy(), self.copy()
        for edit in EDITS[:5]:
            a.line(*edit)
        b.follow()
        self.sql("DELETE FROM cedar_edits WHERE log = %s AND position = 5", self.id())
        with self.assertRaises(copies.Stopped):
            a.load(FORBID)
        self.assertEqual(self.log.end(), 4)
        self.stops(a)
        c.load(FORBID)
        c.load(ANY)
        self.assertEqual((b.position, c.position), (5, 6))
        self.stops(b)

    def test_a_gap(self):
        a = self.copy()
        self.fill(EDITS[:5])
        self.sql("DELETE FROM cedar_edits WHERE log = %s AND position = 3", self.id())
        self.stops(a)
        self.assertEqual(a.position, 0)

    def test_rows_that_were_changed(self):
        self.fill(EDITS[:5])
        changes = (
            ("verb = 'put'", 2),
            ("body = body || ' '", 2),
            ("body = 'permit('", 2),
            ("key = 'another'", 3),
            ("hash = sha256(hash)", 2),
            ("body = '\\xff'", 5),
            ("position = 6", 5),
        )
        for change, position in changes:
            with self.subTest(change=change):
                copy = self.copy_before()
                own = f"WHERE log = '{self.id()}'"
                self.sql(f"CREATE TABLE kept AS SELECT * FROM cedar_edits {own}; UPDATE cedar_edits SET {change} {own} AND position = {position}")
                try:
                    self.stops(copy)
                    with self.assertRaises((copies.Stopped, copies.Broken)):
                        self.copy()
                finally:
                    self.sql(f"DELETE FROM cedar_edits {own}; INSERT INTO cedar_edits SELECT * FROM kept; DROP TABLE kept")

    def copy_before(self):
        """A copy that has done nothing of the log yet."""
        copy = Copy(self.opened_log(), cedar.Session(), self.log.first())
        self.addCleanup(copy.close)
        return copy

    def test_rows_that_no_client_writes(self):
        """Of a chain that is right."""
        for verb, body in (("load", b"\xff"), ("load", b"permit(principal, action, resource) when { \xc3\x28 };")):
            with self.subTest(verb=verb, body=body):
                copy = self.copy()
                self.log.append(verb, body, os.urandom(4).hex())
                self.stops(copy)
                with self.assertRaises(copies.Stopped):
                    self.copy()
                self.sql("DELETE FROM cedar_edits WHERE log = %s AND position > 0", self.id())
        for verb, body in (("ask", b"{}"), ("lode", b""), ("", b""), ("begin", b""), ("load", b" " * 1_048_577)):
            with self.subTest(verb=verb), self.assertRaises(copies.LogError):
                self.log.append(verb, body, "k")
        self.assertEqual(self.log.end(), 0)

    def test_a_first_row_of_another_log(self):
        self.opened_log("other").create(language=cedar.WITHOUT_TYPES)
        self.sql("UPDATE cedar_edits SET body = (SELECT body FROM cedar_edits WHERE log = 'other'), key = 'k' WHERE log = %s", self.id())
        with self.assertRaises(copies.Broken):
            self.copy()

    def test_accounts(self):
        """Who may only read follows, and edits nothing."""
        for name in ("reader", "writer", "nobody"):
            self.sql(f"CREATE ROLE {name} LOGIN")
        self.sql("GRANT SELECT ON cedar_edits, cedar_snapshots TO reader, writer")
        self.sql("GRANT INSERT ON cedar_edits TO writer")
        reader, writer = (Copy.begin(self.opened_log(user=it), bare) for it in ("reader", "writer"))
        for copy in (reader, writer):
            self.addCleanup(copy.close)
        writer.load(ANY)
        with self.assertRaises(copies.LogError):
            reader.load(FORBID)
        reader.follow(seconds=0.1)
        self.assertEqual((self.log.end(), reader.position, decision(reader)), (1, 1, Decision.ALLOW))
        with self.assertRaises(psycopg.errors.InsufficientPrivilege):
            self.sql("DELETE FROM cedar_edits", user="writer")
        with self.assertRaises(copies.LogError):
            self.opened_log(user="nobody").end()

    def test_commits_are_durable(self):
        self.sql("ALTER ROLE postgres SET synchronous_commit TO off")
        log = self.opened_log()
        [setting] = log._run(lambda it: it.execute("SHOW synchronous_commit").fetchone())
        self.sql("ALTER ROLE postgres RESET synchronous_commit")
        self.assertEqual(setting, "on")


class Snapshots(WithLog):
    def test_snapshots_stand_for_what_is_gone(self):
        early, late = self.copy(), self.copy()
        self.fill()
        late._reach(9)
        self.log.keep(late.snapshot())
        self.log.keep(late.snapshot())
        self.assertEqual(self.log.snapshot(), late.snapshot())
        self.log.drop(100)
        self.assertEqual(self.sql("SELECT count(*) FROM cedar_edits WHERE log = %s", self.id()), [(5,)])
        self.stops(early)
        new = self.copy()
        late.follow()
        self.assertEqual(new.position, len(EDITS))
        self.assertEqual(new.snapshot(), late.snapshot())
        self.assertEqual(answers(new), answers(late))
        self.assertEqual(new.session.line("load", ANY), late.session.line("load", ANY))

    def test_edits_behind_are_kept(self):
        copy = self.copy()
        self.fill(EDITS[:6])
        self.log.drop(3)
        self.assertEqual(self.sql("SELECT count(*) FROM cedar_edits WHERE log = %s", self.id()), [(7,)])
        copy.follow()
        self.log.keep(copy.snapshot())
        self.log.drop(3)
        self.assertEqual(self.sql("SELECT min(position) FROM cedar_edits WHERE log = %s AND position > 0", self.id()), [(3,)])
        with self.assertRaises(psycopg.errors.ForeignKeyViolation):
            self.sql("DELETE FROM cedar_edits WHERE log = %s", self.id())

    def test_wrong_snapshots_are_none(self):
        self.fill(EDITS[:3])
        copy = self.copy()
        right = copy.snapshot()
        wrong = frame_of("load", ANY) + frame_of("remove-static", '"policy0"')
        self.log.keep(Snapshot(right.place, wrong))
        with self.assertRaises(copies.Broken):
            self.copy()
        with self.assertRaises(copies.Broken):
            self.log.keep(right)
        for place in (Place(3, b"\0" * 32), Place(2, right.place.hash), Place(4, right.place.hash)):
            with self.assertRaises(copies.Broken):
                self.log.keep(Snapshot(place, right.frames))
        for frames in (wrong[:-1], wrong + b"load", b"ask 2\n{}\n", b"lode 0\n\n", b"load 1\n\xff\n"):
            with self.subTest(frames=frames):
                self.sql("DELETE FROM cedar_snapshots")
                self.log.keep(Snapshot(right.place, frames))
                with self.assertRaises((copies.Broken, copies.Stopped)):
                    self.copy()

    def test_a_snapshot_that_was_cut(self):
        """No part of its frames passes for all."""
        self.fill(EDITS[:6])
        copy = self.copy()
        snapshot = copy.snapshot()
        self.log.keep(snapshot)
        with psycopg.connect(database(), autocommit=True) as connection:
            for end in [*range(len(snapshot.frames)), None]:
                self.ran(connection, "UPDATE cedar_snapshots SET frames = %s WHERE log = %s", (snapshot.frames[:end], self.id()))
                if end is not None:
                    with self.assertRaises(copies.Broken):
                        self.log.snapshot()
        self.assertEqual(answers(self.copy()), answers(copy))

    def test_a_snapshot_of_another_chain(self):
        copy = self.copy()
        copy.load(ANY)
        self.log.keep(copy.snapshot())
        self.sql("UPDATE cedar_edits SET hash = sha256(hash) WHERE log = %s AND position = 1", self.id())
        with self.assertRaises(copies.Broken):
            self.copy()

    def test_the_program_keeps_a_snapshot(self):
        words = [sys.executable, "-B", "-m", "cedar_session.copies", "--without-types", database(), self.id()]
        self.assertEqual(subprocess.run([*words[:-1], "new", "--create"]).returncode, 0)
        self.fill()
        subprocess.run([*words, "--keep"], check=True)
        copy = self.copy()
        self.assertEqual((copy.position, copy.snapshot()), (len(EDITS), self.log.snapshot()))
        failed = subprocess.run([*words[:-1], "none"], stdin=subprocess.DEVNULL, capture_output=True, text=True)
        self.assertEqual((failed.returncode, failed.stderr), (1, "NoLog: there is no log 'none'\n"))


if __name__ == "__main__":
    unittest.main()
