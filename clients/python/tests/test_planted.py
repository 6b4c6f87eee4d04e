"""Faults that are planted into copies, one at a time: the tests that are named see each. PostgreSQL, the program and the shared object
are found as for test_copies."""

import os
import shutil
import subprocess
import sys
import tempfile
import unittest
from concurrent.futures import ThreadPoolExecutor

HERE = os.path.dirname(os.path.abspath(__file__))
COPIES, KEYS, FAULTS, SNAPSHOTS = "tests.test_copies.Copies", "tests.test_copies.Keys", "tests.test_logs.Faults", "tests.test_logs.Snapshots"
THREADS, NUMBERS = "that began it\")\n        self.session._check()", "range(count) if number not in numbered"
# The file, what stands there, what is put in its place, and the tests that see it.
PLANTED = (
    ("log", "return self.hash == chained(", "return True or self.hash == chained(", f"{FAULTS}.test_rows_that_were_changed"),
    ("log", "if [Place(it.position, it.hash) for it in found] != [place]:", "if False:", f"{FAULTS}.test_a_log_that_lost_its_tail"),
    ("log", "if expected is not None and expected != last.position:", "if False:", f"{KEYS}.test_an_expected_position"),
    ("log", "if row.key == key:", "if False:", f"{KEYS}.test_a_load_that_is_given_again_has_its_ids"),
    ("log", "if snapshot.seal(self.name) != seal:", "if False:", f"{SNAPSHOTS}.test_a_snapshot_that_was_cut"),
    ("log", " AND hash = %(hash)s ON CONFLICT", " ON CONFLICT", f"{SNAPSHOTS}.test_wrong_snapshots_are_none"),
    ("log", "connection.execute(\"SET synchronous_commit TO on\")", "pass", f"{FAULTS}.test_commits_are_durable"),
    ("copies", "if first.body != rules_of(session.depth, session.language):", "if False:", f"{FAULTS}.test_other_limits_and_languages"),
    ("copies", 'self._why = f"the edit at {edit.position} was broken off"', "pass", f"{COPIES}.test_an_exception_in_an_edit_stops_the_copy"),
    ("copies", "self._fresh = since", "self._fresh = since + 1000", f"{COPIES}.test_a_question_asks_for_a_position_or_an_age"),
    ("copies", 'if line == "refused Memory":\n            self._why', "if False:\n            self._why", f"{COPIES}.test_a_copy_without_memory_goes_on_later"),
    ("copies", THREADS, "\")", f"{COPIES}.test_a_copy_of_another_thread_changes_nothing"),
    ("copies", "if self.held.frames() != snapshot.frames:", "if False:", f"{SNAPSHOTS}.test_wrong_snapshots_are_none"),
    ("held", 'if not line.startswith("ok"):', "if False:", f"{COPIES}.test_refused_edits_leave_each_as_it_was"),
    ("held", "self.entities.setdefault(uid, entity)", "self.entities[uid] = entity", "tests.test_held.Snapshots.test_what_is_added_again_stays"),
    ("held", "it if uids.isdisjoint(it.parents) else it.without(uids)", "it", "tests.test_held.Snapshots.test_texts_of_any_form"),
    ("held", NUMBERS, "()", f"{SNAPSHOTS}.test_snapshots_stand_for_what_is_gone"),
)


def ran(file, old, new, tests):
    """Whether the tests pass over the package with this in place of that."""
    with tempfile.TemporaryDirectory() as room:
        for folder in ("cedar_session", "tests"):
            shutil.copytree(os.path.join(HERE, "..", folder), os.path.join(room, folder), ignore=shutil.ignore_patterns("__pycache__"))
        path = os.path.join(room, "cedar_session", f"{file}.py")
        with open(path, encoding="utf-8") as it:
            text = it.read()
        if text.count(old) != 1:
            raise ValueError(f"{file}.py has {text.count(old)} times: {old}")
        with open(path, "w", encoding="utf-8") as it:
            it.write(text.replace(old, new))
        words = [sys.executable, "-B", "-m", "unittest", "-q", "-f", *tests.split()]
        return subprocess.run(words, cwd=room, env={**os.environ, "PYTHONPATH": room}, capture_output=True, timeout=300).returncode == 0


class Planted(unittest.TestCase):
    def test_each_is_seen(self):
        whole = ("log", "import json", "import json", " ".join(sorted({tests for *_, tests in PLANTED})))
        with ThreadPoolExecutor(4) as pool:
            passed = list(pool.map(lambda it: ran(*it), (whole, *PLANTED)))
        self.assertTrue(passed[0], "without a fault")
        self.assertEqual([it[:3] for it, is_fine in zip(PLANTED, passed[1:]) if is_fine], [])


if __name__ == "__main__":
    unittest.main()
