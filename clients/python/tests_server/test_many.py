"""A test of many questions by many clients over three copies, with edits between."""

import json
import random
import threading
import time
import unittest

import cedar_session as cedar

from cedar_server import reading
from cedar_server.questions import question_of
from tests_server.copying import WithLog, setUpModule  # noqa: F401
from tests_server.serving import ADMIN, Caller, question


class ManyQuestions(WithLog):
    EACH, CLIENTS = 313, 32

    def asks(self, port, seed, asked, edited):
        """Asks its part of the questions, each of a position that it knows of or of none."""
        choose, caller, last = random.Random(seed), Caller(port), 0
        for _ in range(self.EACH):
            given = question({"type": "User", "id": f"u{choose.randrange(20)}"}, hour=choose.randrange(24))
            wanted = choose.choice((0, 0, last, edited[-1]))
            body = json.dumps(given)
            reply = caller.post(f"/v1/ask?position={wanted}", body)
            self.assertEqual(reply.status, 200, reply.data)
            said = reply.said
            # (of one copy no later answer is of an earlier position)
            self.assertGreaterEqual(said["position"], max(last, wanted))
            last = said["position"]
            asked.append((body, said))
        caller.close()

    def gives_edits(self, ports, ended, edited):
        choose, callers = random.Random(1), [Caller(it, ADMIN) for it in ports]
        while not ended.is_set():
            user, hour = choose.randrange(20), choose.randrange(24)
            caller, kind = choose.choice(callers), choose.randrange(4)
            if kind == 0:
                reply = caller.post("/v1/policies", f'forbid(principal == User::"u{user}", action, resource) when {{ context.hour == {hour} }};')
            elif kind == 1:
                reply = caller.post("/v1/policies", f'permit(principal in Group::"g{user}", action, resource) when {{ context.hour > {hour} }};')
            elif kind == 2:
                groups = [{"type": "Group", "id": f"g{choose.randrange(20)}"} for _ in range(3)]
                reply = caller.call("PUT", "/v1/entities", [{"uid": {"type": "User", "id": f"u{user}"}, "parents": groups}])
            else:
                reply = caller.call("DELETE", f"/v1/policies/policy{choose.randrange(10)}?expected={edited[-1]}")
            self.assertIn(reply.status, (200, 422), reply.data)
            edited.append(reply.said.get("position", edited[-1] + 1))
            time.sleep(0.02)
        for it in callers:
            it.close()

    def test_each_answer_is_that_of_its_position(self):
        services = self.services(3)
        ports = [it.port for it in services]
        asked, edited, ended, failed = [], [0], threading.Event(), []

        def guarded(do, *given):
            try:
                do(*given)
            except BaseException as why:
                failed.append(why)

        editing = threading.Thread(target=guarded, args=(self.gives_edits, ports, ended, edited))
        clients = [threading.Thread(target=guarded, args=(self.asks, ports[it % 3], it, asked, edited)) for it in range(self.CLIENTS)]
        since = time.monotonic()
        for it in (editing, *clients):
            it.start()
        for it in clients:
            it.join()
        took = time.monotonic() - since
        ended.set()
        editing.join()
        self.assertEqual(failed, [])
        self.assertEqual(len(asked), self.EACH * self.CLIENTS)
        self.assertEqual([it for it, _, _ in self.edits()], list(range(1, edited[-1] + 1)))
        positions = self.are_of_the_log(asked)
        self.assertGreater(positions, 10)
        print(f"{len(asked)} questions at {positions} positions of {edited[-1]} edits, in {took:.1f} s")

    def are_of_the_log(self, asked):
        """Each answer is that of a session of its own at its position."""
        at = {}
        for given, said in asked:
            at.setdefault(said.pop("position"), []).append((given, said))
        session, edits = cedar.Session(), {position: (verb, bytes(body).decode()) for position, verb, body in self.edits()}
        for position in range(max(at) + 1):
            if position:
                session.line(*edits[position])
            for given, said in at.get(position, ()):
                it = question_of(reading.read(given.encode()))
                answer = session.ask(principal=it.principal, action=it.action, resource=it.resource, context=it.context)
                wanted = {"decision": answer.decision.value, "must": list(answer.must), "may": list(answer.may), "erring": answer.erring}
                self.assertEqual(said, wanted, (position, given))
        session.close()
        return len(at)


if __name__ == "__main__":
    unittest.main()
