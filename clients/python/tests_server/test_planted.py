"""Faults that are planted into the service, one at a time: the tests that are named see each."""

import os
import shutil
import subprocess
import sys
import tempfile
import unittest
from concurrent.futures import ThreadPoolExecutor

from tests_server.serving import HERE

FOLDERS = ("cedar_session", "cedar_server", "tests", "tests_server")
VALUES, QUESTIONS, WHOLE = "test_reading.Values", "test_reading.Questions", "test_whole.Calls.test_faults"
CALLS, REFUSALS, EDITS, OUTAGES = "test_calls", "test_calls.Refusals", "test_copies.Edits", "test_outages"
ENDS = "return log.end() == place.position and not log.after(place, place.position), since"
COMES = "await self._point.come(position or 0, self._limits.age if age is None else age)"
# The file, what stands there, what is put in its place, and the test that sees it.
PLANTED = (
    ("reading", "if len(made) == len(pairs):", "if True:", f"{VALUES}.test_faults_of_values"),
    ("reading", "return number if LEAST <= number <= MOST else", "return number if True else", f"{VALUES}.test_faults_of_values"),
    ("reading", "if not keys <= needed and not keys <= (needed | allowed):", "if False:", f"{QUESTIONS}.test_questions"),
    ("reading", "if len(found) > 1:", "if False:", f"{VALUES}.test_faults_of_values"),
    ("questions", "if properties and part in context:", "if False:", f"{QUESTIONS}.test_evaluations"),
    ("questions", "found = {**beside, **own}", "found = {**own, **beside}", f"{QUESTIONS}.test_many_evaluations"),
    ("whole", "if own in self._given:", "if False:", WHOLE),
    ("whole", "if len(loaded) != 1:", "if False:", WHOLE),
    ("whole", 'raise Fault(400, "OtherKind", f"{kind} is wanted", at)', "return", WHOLE),
    ("tokens", "return any([hmac.compare_digest(given, it) for it in self._digests])", "return True", f"{CALLS}.Doors"),
    ("app", 'self._doors.let_ask(header(request.scope["headers"], _TOKEN))\n        query =', "query =", f"{CALLS}.Doors"),
    ("app", "self._doors.let_ask(header(headers, _TOKEN))", "pass", f"{CALLS}.Doors"),
    ("app", "is_within(body, self._limits.body)", "pass", f"{CALLS}.Limits"),
    ("app", "if needs_position and expected is None:", "if False:", f"{REFUSALS}.test_each_says_where"),
    ("app", 'if (line[0] == "allow") is asked.last:', "if False:", f"{CALLS}.Answers"),
    ("app", COMES, "pass", f"{EDITS}.test_positions_and_ages"),
    ("requests", "is_within(body, limit)", "pass", f"{REFUSALS}.test_bodies_that_grow_past_the_limit"),
    ("requests", "raise ClientDisconnect()", "return body", f"{OUTAGES}.Cuts.test_requests_that_are_cut_off"),
    ("decisions", 'raise Fault(503, "NoDecisionLog", f"the log of decisions can\'t', 'print(f"', f"{CALLS}.FullLog"),
    ("metrics", 'count += self._sum(("le", bound))', 'count = self._sum(("le", bound))', f"{CALLS}.Told.test_each_decision_is_told"),
    ("quick", "or not ESCAPES.isdisjoint(value)", "", "test_quick.Questions"),
    ("quick", 'and "\\\\" not in text', "", "test_quick.Questions"),
    ("quick", 'and text.count(":") - len(found) - keys == told.count(":") - 10', "", "test_quick.Questions"),
    ("quick", "if kind is int and LEAST <= value <= MOST:", "if kind is int:", "test_quick.Questions"),
    ("quick", "end == len(text) and", "", "test_quick.Questions"),
    ("quick", "if len(found) != 4:", "if False:", "test_quick.Questions"),
    ("quick", "if type(value) is not str:", "if False:", "test_quick.Questions"),
    ("answers", '"\\\\" not in listed and listed.isprintable()', '"\\\\" not in listed', "test_quick.Answers"),
    ("answers", '"\\\\" not in listed and listed.isprintable()', "listed.isprintable()", "test_quick.Answers"),
    ("remembered", "if position != self._position or len", "if len", "test_points.Remembers"),
    ("app", "ask(body) if self._point.why_not() else self._rem", "self._rem", f"{OUTAGES}.Outages.test_an_older_backup_is_restored"),
    ("protocol", "not waits and (self.cycle is None or self.cycle.response_complete)", "True", f"{CALLS}.Clients.test_requests_in_one_piece"),
    ("protocol", "elif self._whole is None and not self._rests:", "elif False:", f"{CALLS}.Clients.test_lines_between_requests"),
    ("protocol", "stays = self.parser.should_keep_alive()", "stays = True", f"{CALLS}.Clients.test_the_last_request"),
    ("protocol", "self._whole = self.loop.call_later(self.seconds, self._is_late)", "pass", f"{CALLS}.Clients.test_a_head_that_does_not_come"),
    ("workers", "min(self._free, default=None)", "min(self._free)", "test_processes.Processes.test_many_hang_ups"),
    ("workers", "self.config.timeout_notify = 0", "self.config.timeout_notify = 1000", "test_processes.Processes.test_one_that_falls_silent"),
    ("supervisor", "        signal.pthread_sigmask(signal.SIG_BLOCK, _HELD)", "        pass", "test_points.Supervisors"),
    ("supervisor", "signal.signal(it, signal.SIG_DFL)", "pass", "test_points.Supervisors"),
    ("supervisor", "return time.time() - (time.monotonic() - float(told))", "return float(told)", "test_points.Beats"),
    ("points", "self._session.command(*edit)", "self._session.line(*edit)", "test_points.Folders"),
    ("points", "line = self._use(lambda copy: copy.edit(key=named)", "line = self._use(lambda copy: copy", f"{EDITS}.test_each_edit"),
    ("points", "key or secrets.token_hex(16)", "secrets.token_hex(16)", f"{EDITS}.test_an_edit_that_is_given_again"),
    ("points", ENDS, "return True, since", f"{EDITS}.test_positions_and_ages"),
    ("points", ENDS, "return log.end() == place.position, since", f"{OUTAGES}.Outages.test_another_log_has_come_to_the_same_position"),
)


def ran(file, old, new, *tests):
    """Whether the tests pass over the service with this in place of that."""
    with tempfile.TemporaryDirectory() as room:
        for folder in FOLDERS:
            shutil.copytree(os.path.join(HERE, folder), os.path.join(room, folder), ignore=shutil.ignore_patterns("__pycache__"))
        path = os.path.join(room, "cedar_server", f"{file}.py")
        with open(path, encoding="utf-8") as it:
            text = it.read()
        if text.count(old) != 1:
            raise ValueError(f"{file}.py has {text.count(old)} times: {old}")
        with open(path, "w", encoding="utf-8") as it:
            it.write(text.replace(old, new))
        words = [sys.executable, "-B", "-m", "unittest", "-q", "-f", *(f"tests_server.{it}" for it in tests)]
        return subprocess.run(words, cwd=room, env={**os.environ, "PYTHONPATH": room}, capture_output=True, timeout=250).returncode == 0


class Planted(unittest.TestCase):
    def test_each_is_seen(self):
        """That the tests pass without a fault the other parts show."""
        with ThreadPoolExecutor(4) as pool:
            passed = list(pool.map(lambda it: ran(*it), PLANTED))
        self.assertEqual([it[:3] for it, is_fine in zip(PLANTED, passed) if is_fine], [])


if __name__ == "__main__":
    unittest.main()
