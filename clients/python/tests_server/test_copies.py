"""Tests of edits over HTTP, by one service and by several over one log."""

import subprocess
import sys
import threading
import time
import unittest

from tests_server.copying import FORBID, Shared, WithLog, setUpModule  # noqa: F401
from tests_server.serving import ALICE, ANY, BOB, HERE, Service


class Edits(WithLog):
    def test_each_edit(self):
        service = self.service()
        caller = self.caller(service)
        template = "permit(principal == ?principal, action, resource);"
        loaded = caller.post("/v1/policies", FORBID + template).said
        self.assertEqual(loaded, {"ids": ["policy0", "policy1"], "position": 1})
        self.assertEqual(caller.post("/v1/links", {"template": "policy1", "id": "al/ice", "principal": ALICE}).said, {"position": 2})
        self.assertEqual(caller.ask().said["must"], ["policy0"])
        self.assertEqual(caller.call("DELETE", "/v1/policies/policy0?expected=2").said, {"position": 3})
        self.assertEqual(caller.ask().said, {"decision": "allow", "must": ["al/ice"], "may": ["al/ice"], "erring": {}, "position": 3})
        group = {"uid": {"type": "Group", "id": "g"}}
        self.assertEqual(caller.call("PUT", "/v1/entities", [{"uid": BOB, "parents": [group["uid"]]}]).said, {"position": 4})
        self.assertEqual(caller.post("/v1/entities", [group]).said, {"position": 5})
        self.assertEqual(caller.post("/v1/policies", 'permit(principal in Group::"g", action, resource);').said, {"ids": ["policy0"], "position": 6})
        self.assertEqual(caller.ask(BOB).said["must"], ["policy0"])
        held = caller.get("/v1/held").said
        self.assertEqual(sorted(held["policies"]), ["policy0", "policy1"])
        self.assertEqual((sorted(held["links"]), len(held["entities"]), held["position"]), (["al/ice"], 2, 6))
        self.assertEqual(caller.post("/v1/entities/remove", [BOB]).said, {"position": 7})
        self.assertEqual(caller.ask(BOB).said["must"], [])
        self.assertEqual(caller.call("DELETE", "/v1/links/al%2Fice?expected=7").said, {"position": 8})
        self.assertEqual(caller.call("DELETE", "/v1/templates/policy1?expected=8").said, {"position": 9})
        self.assertEqual(caller.ask().said["decision"], "deny")

    def test_edits_that_are_refused(self):
        caller = self.caller(self.service())
        reply = caller.post("/v1/policies", "permit(")
        error = reply.said["error"]
        self.assertEqual((reply.status, error["word"], error["line"], error["column"]), (422, "Text", 1, 1))
        self.assertEqual(caller.post("/v1/policies", ANY).said, {"ids": ["policy0"], "position": 2})
        self.assertEqual(caller.post("/v1/policies?expected=1", ANY).fault, (409, "Moved", ""))
        self.assertEqual(caller.post("/v1/policies?expected=1", ANY).said["error"]["position"], 2)
        self.assertEqual(caller.call("DELETE", "/v1/policies/policy7?expected=2").said["error"]["word"], "NoSuchPolicy")
        self.assertEqual(caller.post("/v1/policies", ANY, Idempotency_Key="k").said["position"], 4)
        self.assertEqual(caller.post("/v1/policies", FORBID, Idempotency_Key="k").fault, (409, "KeyTaken", ""))
        self.assertEqual(caller.post("/v1/policies", " " * 1_500_000).fault, (413, "TooLong", ""))
        self.assertEqual(len(self.edits()), 4)

    def test_an_edit_that_is_given_again(self):
        first, second = self.services(2)
        for service in (first, second, first):
            self.assertEqual(self.caller(service).post("/v1/policies", ANY, Idempotency_Key="once").said, {"ids": ["policy0"], "position": 1})
        self.assertEqual(len(self.edits()), 1)

    def test_two_admins_at_once(self):
        """Each removes what it has read and puts another in its place; none takes away what the other put there."""
        services, done, moved = self.services(2), [], []
        self.assertEqual(self.caller(services[0]).post("/v1/policies", 'permit(principal, action, resource) when { context.by == "none" };').status, 200)

        def edits(me, caller):
            position = 1
            while len([it for it in done if it == me]) < 20:
                reply = caller.post(f"/v1/policies?expected={position}", f'permit(principal, action, resource) when {{ context.by == "{me}" }};')
                if reply.status == 200:
                    done.append(me)
                    position = reply.said["position"]
                else:
                    self.assertEqual(reply.fault, (409, "Moved", ""))
                    moved.append(me)
                    position = reply.said["error"]["position"]

        threads = [threading.Thread(target=edits, args=(at, self.caller(it))) for at, it in enumerate(services)]
        for it in threads:
            it.start()
        for it in threads:
            it.join()
        self.assertEqual(([it for _, it, _ in self.edits()], len(done)), (["load"] * 41, 40))
        caller = self.caller(services[0])
        self.assertEqual(caller.ask(at="/v1/ask?age=0").said["position"], 41)
        held = caller.get("/v1/held").said
        self.assertEqual(held["position"], 41)
        self.assertTrue(all(f'"{it}"' in str(held["policies"]) for it in ("none", 0, 1)))

    def test_positions_and_ages(self):
        first, second = (self.caller(it) for it in self.services(2))
        for at in range(1, 6):
            position = first.post("/v1/policies", FORBID).said["position"]
            self.assertEqual((position, second.ask(at=f"/v1/ask?position={position}").said["position"]), (at, at))
        position = first.post("/v1/policies", FORBID).said["position"]
        self.assertEqual(second.ask(at="/v1/ask?age=0").said["position"], position)
        self.assertEqual(second.ask(at=f"/v1/ask?position={position + 1}").fault, (409, "Behind", ""))
        # Without either it comes there by itself.
        position, until = first.post("/v1/policies", FORBID).said["position"], time.monotonic() + 20
        while second.ask().said["position"] < position and time.monotonic() < until:
            time.sleep(0.02)
        self.assertEqual(second.ask().said["position"], position)

    def test_logs_that_are_made_by_the_program(self):
        room = Service()
        self.addCleanup(room.remove)
        database = Shared.server.database()

        def made(*words):
            command = [sys.executable, "-B", "-m", "cedar_server", *words]
            return subprocess.run(command, cwd=HERE, capture_output=True, text=True, timeout=60)

        ran = made("--database", database, "--log", "made", "--create", room.folder)
        self.assertEqual((ran.returncode, ran.stdout), (0, "the log 'made' stands at 2\n"), ran.stderr)
        self.assertNotEqual(made("--database", database, "--log", "made", "--create", room.folder).returncode, 0)
        for words in ((), (room.folder, "--create"), (room.folder, "--database", database), ("--processes", "0", room.folder), ("--silence", "9", room.folder)):
            self.assertEqual(made(*words).returncode, 2, words)
        service = Service("--database", database, "--log", "made")
        self.addCleanup(service.remove)
        service.start()
        self.assertEqual(self.caller(service).ask(hour=9).said, {"decision": "allow", "must": ["policy0"], "may": ["policy0"], "erring": {}, "position": 2})


if __name__ == "__main__":
    unittest.main()
