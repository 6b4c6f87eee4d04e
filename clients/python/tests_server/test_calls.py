"""Tests of the service over a folder: what each call answers, what is refused and how, who is let in, and what slow and broken clients bring
about."""

import contextlib
import json
import os
import signal
import socket
import time
import unittest

from tests_server.serving import ADMIN, ALICE, ANY, ASKER, BOB, PHOTO, VIEW, Caller, Service, evaluation, question, written

EVALUATION, EVALUATIONS = "/access/v1/evaluation", "/access/v1/evaluations"
REASONS = {"reasons": ["policy0"], "erring": {}, "position": 0}
NONE = {"reasons": [], "erring": {}, "position": 0}
TOKEN = {"token": ADMIN}
WHOLE = {"principal": ALICE, "action": VIEW, "resource": PHOTO, "policies": {"staticPolicies": ANY}}

# A method, a path, a body and what more is sent; the status, the kind and the place of the fault.
FAULTS = (
    ("GET", "/", None, {}, 404, "NoPath", ""),
    ("POST", "/v1/ask/", "{}", {}, 404, "NoPath", ""),
    ("GET", "/v1/ask", None, {}, 405, "NoMethod", ""),
    ("DELETE", "/access/v1/evaluation", None, {}, 405, "NoMethod", ""),
    ("POST", "/v1/ask", "", {}, 400, "NoJson", ""),
    ("POST", "/v1/ask", b"\xff", {}, 400, "NotUtf8", ""),
    ("POST", "/v1/ask", "[]", {}, 400, "WrongType", ""),
    ("POST", "/v1/ask", "[" * 50_000, {}, 400, "TooDeep", ""),
    ("POST", "/v1/ask", question(hour=0.5), {}, 400, "Float", "/context/hour"),
    ("POST", "/v1/ask", question(x={"__extn": {"fn": "ipv4", "arg": "1.1.1.1"}}), {}, 400, "Extension", "/context/x/__extn/fn"),
    ("POST", "/v1/ask", question(x={"__extn": {"fn": "ip", "arg": "1.1.1.256"}}), {}, 422, "Refused", ""),
    ("POST", "/v1/ask", question(**{"x": json.loads("[" * 200 + "]" * 200), "y": json.loads("[" * 260 + "]" * 260)}), {}, 422, "Refused", ""),
    ("POST", "/v1/ask?position=x", question(), {}, 400, "NoPosition", "?position"),
    ("POST", "/v1/ask?position=-1", question(), {}, 400, "NoPosition", "?position"),
    ("POST", "/v1/ask?age=soon", question(), {}, 400, "NoAge", "?age"),
    ("POST", "/v1/ask?age=1&age=2", question(), {}, 400, "DoubledKey", "?age"),
    ("POST", "/v1/ask?aeg=1", question(), {}, 400, "UnknownKey", "?aeg"),
    ("POST", "/v1/ask?position=1", question(), {}, 409, "Behind", ""),
    ("POST", "/v1/ask", "x" * 3_000_000, {}, 413, "TooLong", ""),
    ("POST", EVALUATION, {"subject": ALICE, "resource": PHOTO}, {}, 400, "MissingKey", ""),
    ("POST", EVALUATION, evaluation({"type": "User::", "id": "x"}), {}, 400, "NoType", "/subject/type"),
    ("POST", EVALUATIONS, {"subject": ALICE, "action": {"name": "view"}, "evaluations": [{"resource": PHOTO}, {}]}, {}, 400, "MissingKey", "/evaluations/1"),
    ("POST", "/v1/policies", ANY, {}, 401, "Unauthorized", "Authorization:"),
    ("POST", "/v1/policies", ANY, {"token": "not one of them at all"}, 401, "Unauthorized", "Authorization:"),
    ("POST", "/v1/policies", ANY, {"Authorization": "Basic eDp5"}, 401, "Unauthorized", "Authorization:"),
    ("PUT", "/v1/entities", "[]", {}, 401, "Unauthorized", "Authorization:"),
    ("GET", "/v1/held", None, {}, 401, "Unauthorized", "Authorization:"),
    ("GET", "/v1/held", None, TOKEN, 409, "NoLog", ""),
    ("POST", "/v1/policies", ANY, TOKEN, 409, "NoLog", ""),
    ("POST", "/v1/policies", b"\xff", TOKEN, 400, "NotUtf8", ""),
    ("PUT", "/v1/entities", '[{"uid": 1}]', TOKEN, 400, "WrongType", "/0/uid"),
    ("POST", "/v1/entities/remove", "[{}]", TOKEN, 400, "MissingKey", "/0"),
    ("POST", "/v1/links", '{"id": "l"}', TOKEN, 400, "MissingKey", ""),
    ("POST", "/v1/links", {"id": "l", "template": "t", "principal": 1}, TOKEN, 400, "WrongType", "/principal"),
    ("DELETE", "/v1/policies/policy0", None, TOKEN, 428, "NoPosition", "?expected"),
    ("DELETE", "/v1/policies/policy0?expected=one", None, TOKEN, 400, "NoPosition", "?expected"),
    ("POST", "/v1/policies", ANY, {**TOKEN, "Idempotency_Key": "\xe9"}, 400, "NoKey", "Idempotency-Key:"),
)


class OverFolder(unittest.TestCase):
    """One service for the tests of a class."""

    more = ("--processes", "2")

    @classmethod
    def setUpClass(cls):
        cls.service = Service()
        cls.addClassCleanup(cls.service.remove)
        cls.service.words += [it.replace("ROOM", cls.service.room) for it in cls.more]
        cls.service.start()

    def caller(self, *given, **more):
        caller = self.service.caller(*given, **more)
        self.addCleanup(caller.close)
        return caller


class Answers(OverFolder):
    def test_questions_are_answered(self):
        caller = self.caller()
        self.assertEqual(caller.ask(hour=9).said, {"decision": "allow", "must": ["policy0"], "may": ["policy0"], "erring": {}, "position": 0})
        self.assertEqual(caller.ask(hour=18).said, {"decision": "deny", "must": [], "may": [], "erring": {}, "position": 0})
        self.assertEqual(caller.ask(BOB, hour=9).said["decision"], "deny")
        self.assertEqual(caller.ask(hour="nine").said, {"decision": "deny", "must": [], "may": [], "erring": {"policy0": "TypeError"}, "position": 0})
        unknown = {"principal": ALICE, "action": VIEW, "resource": {"__unknown": {"type": "Photo"}}, "context": {"hour": {"__unknown": "now"}}}
        wanted = {"decision": "open", "must": [], "may": ["policy0"], "erring": {}, "position": 0}
        self.assertEqual(caller.post("/v1/ask?age=0&position=0", unknown).said, wanted)

    def test_evaluations_of_authzen(self):
        caller = self.caller()
        self.assertEqual(caller.post(EVALUATION, evaluation(hour=9)).said, {"decision": True, "context": REASONS})
        self.assertEqual(caller.post(EVALUATION, evaluation(BOB, hour=9)).said, {"decision": False, "context": NONE})
        asked = {**evaluation(hour=9), "evaluations": [{}, {"subject": BOB}, {"context": {"hour": 10}}]}
        wanted = [{"decision": True, "context": REASONS}, {"decision": False, "context": NONE}, {"decision": True, "context": REASONS}]
        self.assertEqual(caller.post(EVALUATIONS, asked).said, {"evaluations": wanted})
        for semantic, count in (("execute_all", 3), ("deny_on_first_deny", 2), ("permit_on_first_permit", 1)):
            said = caller.post(EVALUATIONS, {**asked, "options": {"evaluations_semantic": semantic}}).said
            self.assertEqual(said, {"evaluations": wanted[:count]}, semantic)
        self.assertEqual(caller.post(EVALUATIONS, evaluation(hour=9)).said, {"decision": True, "context": REASONS})

    def test_a_request_keeps_its_name(self):
        caller = self.caller()
        for path, body in ((EVALUATION, evaluation(hour=9)), (EVALUATION, "{"), ("/nowhere", ""), ("/v1/ask?age=1", question(hour=9))):
            self.assertEqual(caller.post(path, body, X_Request_ID="it's me").headers["x-request-id"], "it's me")
            for name in ("a\tb", "\x80", "x" * 201):
                self.assertIsNone(caller.post(path, body, X_Request_ID=name).headers["x-request-id"], (path, name))
        self.assertIsNone(caller.ask(hour=9).headers["x-request-id"])


class Refusals(OverFolder):
    def test_each_says_where(self):
        caller = self.caller()
        for method, path, body, more, *wanted in FAULTS:
            reply = caller.call(method, path, body, **more)
            self.assertEqual(list(reply.fault), wanted, f"{method} {path} {body!r:.80}")
            self.assertEqual(reply.headers["content-type"], "application/json")
            self.assertTrue(reply.said["error"]["text"])
            self.assertNotIn("decision", reply.said)
            self.assertEqual(reply.headers["www-authenticate"], "Bearer" if reply.status == 401 else None)

    def test_what_is_no_http(self):
        with socket.create_connection(("127.0.0.1", self.service.port), 10) as it:
            it.sendall(b"allow me\r\n\r\n")
            self.assertTrue(it.recv(1000).startswith(b"HTTP/1.1 400 "))
        self.assertEqual(self.caller().ask(hour=9).status, 200)

    def test_bodies_that_grow_past_the_limit(self):
        """In chunks, so that no head says how long it is."""
        caller = self.caller()
        reply = caller.connection
        reply.request("POST", "/v1/ask", iter([b"[" + b" " * 500_000] + [b" " * 500_000] * 5), {}, encode_chunked=True)
        response = reply.getresponse()
        self.assertEqual((response.status, json.loads(response.read())["error"]["kind"]), (413, "TooLong"))


class Doors(OverFolder):
    more = ("--tokens", "ROOM/tokens")

    def test_none_is_let_in_without_a_token(self):
        calls = (("/v1/ask", question(hour=9)), (EVALUATION, evaluation(hour=9)), (EVALUATIONS, evaluation(hour=9)), ("/v1/is_authorized", WHOLE))
        for path, body in calls:
            for token in (None, "x", ASKER[:-1], ASKER + "x", ADMIN.upper()):
                self.assertEqual(self.caller(token).post(path, body).fault, (401, "Unauthorized", "Authorization:"), (path, token))
            for token in (ASKER, ADMIN):
                self.assertEqual(self.caller(token).post(path, body).status, 200, (path, token))

    def test_who_asks_does_not_edit(self):
        edits = (("POST", "/v1/policies"), ("PUT", "/v1/entities"), ("POST", "/v1/links"), ("DELETE", "/v1/links/l?expected=1"))
        for method, path in (*edits, ("GET", "/v1/held")):
            self.assertEqual(self.caller(ASKER).call(method, path).fault, (403, "Forbidden", "Authorization:"), path)

    def test_who_comes_may_see_whether_it_serves(self):
        for path in ("/healthz", "/readyz", "/metrics"):
            self.assertEqual(self.caller().get(path).status, 200)


class NoAdmins(unittest.TestCase):
    def test_nobody_edits_where_no_tokens_were_given(self):
        with Service() as service:
            service.stop()
            service.words = service.words[:-2]
            service.start()
            caller = service.caller(ADMIN)
            self.addCleanup(caller.close)
            self.assertEqual(caller.post("/v1/policies", ANY).fault, (403, "NoEdits", ""))
            self.assertEqual(caller.ask(hour=9).status, 200)


class Told(OverFolder):
    """Metrics, and the log of decisions."""

    more = ("--processes", "2", "--decisions", "ROOM/decisions")

    def counts(self):
        text = self.caller().get("/metrics").data.decode()
        self.assertTrue(all(it.startswith("#") or len(it.split(" ")) == 2 for it in text.splitlines()))
        return dict(it.rsplit(" ", 1) for it in text.splitlines() if not it.startswith("#"))

    def test_each_decision_is_told(self):
        callers = [self.caller() for _ in range(8)]
        before = self.counts()
        for at, caller in enumerate(callers * 5):
            caller.post(EVALUATION, evaluation(hour=9 + at), X_Request_ID=f"it {at}")
        self.assertEqual(callers[0].post(EVALUATION, "{").status, 400)
        with open(os.path.join(self.service.room, "decisions"), encoding="utf-8") as it:
            lines = [json.loads(line) for line in it]
        self.assertEqual({it["request"]: it["decision"] for it in lines}, {f"it {at}": "allow" if at < 9 else "deny" for at in range(40)})
        self.assertEqual({it["process"] for it in lines} - set(self.service.workers()), set())
        wanted = {"principal": ALICE, "action": VIEW, "resource": PHOTO, "must": ["policy0"], "may": ["policy0"], "erring": {}, "position": 0}
        self.assertEqual({key: lines[0][key] for key in wanted}, wanted)
        after = self.counts()
        grown = {key: float(after[key]) - float(before.get(key, 0)) for key in after}
        self.assertEqual(grown['cedar_decisions_total{decision="allow"}'], 9)
        self.assertEqual(grown['cedar_decisions_total{decision="deny"}'], 31)
        self.assertEqual(grown['cedar_requests_total{call="evaluation",status="200"}'], 40)
        self.assertEqual(grown['cedar_requests_total{call="evaluation",status="400"}'], 1)
        requests = sum(int(value) for name, value in after.items() if name.startswith("cedar_requests_total"))
        for name in ('cedar_request_seconds_bucket{le="+Inf"}', "cedar_request_seconds_count"):
            self.assertEqual(int(after[name]), requests, name)
        # (each begins when it can)
        until = time.monotonic() + 30
        while self.counts()['cedar_processes{state="ready"}'] != "2" and time.monotonic() < until:
            time.sleep(0.05)
        self.assertEqual(self.counts()['cedar_processes{state="all"}'], "2")

    def test_no_count_goes_back_where_a_process_ends(self):
        caller = self.caller()
        caller.ask(hour=9)
        caller.close()
        before = self.counts()
        for pid in self.service.workers():
            os.kill(pid, signal.SIGKILL)
        self.service.wait()
        key = 'cedar_requests_total{call="ask",status="200"}'
        self.assertGreaterEqual(int(self.counts()[key]), int(before[key]))


class FullLog(OverFolder):
    more = ("--decisions", "/dev/full")

    def test_no_decision_is_given_that_is_not_told(self):
        for path, body in (("/v1/ask", question(hour=9)), (EVALUATION, evaluation(hour=9)), (EVALUATIONS, evaluation(hour=9))):
            self.assertEqual(self.caller().post(path, body).fault, (503, "NoDecisionLog", ""))


class Limits(OverFolder):
    more = ("--limit", "300")

    def test_longer_bodies(self):
        caller = self.caller()
        for path, body in (("/v1/ask", question(hour=9)), (EVALUATION, evaluation(hour=9))):
            longest = json.dumps(body).ljust(300)
            for more in ("", "?position=0"):
                self.assertEqual(caller.post(path + more, longest).status, 200, path + more)
                self.assertEqual(caller.post(path + more, longest + " ").fault, (413, "TooLong", ""), path + more)


class Clients(OverFolder):
    """Slow clients, and those that go."""

    more = ("--seconds", "4")

    def raw(self, seconds=20):
        connection = socket.create_connection(("127.0.0.1", self.service.port), seconds)
        self.addCleanup(connection.close)
        return connection

    def is_answered(self, connection):
        (body,) = self.answers(connection, 1)
        self.assertIn(b'"decision":"allow"', body)

    def test_a_request_in_two_pieces(self):
        """Wherever it is cut."""
        whole = written(json.dumps(question(hour=9)).encode())
        connection = self.raw()
        for at in range(1, len(whole)):
            connection.setsockopt(socket.IPPROTO_TCP, socket.TCP_NODELAY, 1)
            connection.sendall(whole[:at])
            time.sleep(0.001)
            connection.sendall(whole[at:])
            self.is_answered(connection)

    def answers(self, connection, count):
        """The bodies of so many answers."""
        data = b""
        # (a head and its body may come one after the other)
        while data.count(b"HTTP/1.1 200 ") < count or not data.endswith(b"}"):
            more = connection.recv(65536)
            if not more:
                break
            data += more
        return [it.partition(b"\r\n\r\n")[2] for it in data.split(b"HTTP/1.1 ")[1:]]

    def test_requests_in_one_piece(self):
        """Each is answered in its turn, however they are cut."""
        asks = [written(json.dumps(question(hour=hour)).encode()) for hour in (9, 18)]
        health = b"GET /healthz HTTP/1.1\r\nHost: x\r\n\r\n"
        other = asks[0].replace(b"/v1/ask", b"/v1/ask?age=0")
        told = {asks[0]: b'"allow"', asks[1]: b'"deny"', health: b'"serves"', other: b'"allow"'}
        for order in ((0, 1, 0), (0, 2, 1), (2, 0, 2), (3, 1, 0), (1, 3, 3, 2, 0), (0,) * 20 + (1,) * 20):
            requests = [(*asks, health, other)[it] for it in order]
            whole = b"".join(requests)
            for cut in (0, len(requests[0]) // 2, len(requests[0]), len(requests[0]) + 30, len(whole) - 5):
                connection = self.raw()
                connection.sendall(whole[:cut])
                time.sleep(0.02 * (cut > 0))
                connection.sendall(whole[cut:])
                found = self.answers(connection, len(requests))
                self.assertEqual([told[given] in it for given, it in zip(requests, found)], [True] * len(requests), (order, cut, found))

    def test_the_last_request(self):
        for head in (b"Connection: close\r\n", b"connection: Close\r\n"):
            connection = self.raw()
            connection.sendall(written(json.dumps(question(hour=9)).encode()).replace(b"Host:", head + b"Host:"))
            data = b""
            while True:
                more = connection.recv(65536)
                if not more:
                    break
                data += more
            self.assertIn(b'"decision":"allow"', data)
            self.assertIn(b"connection: close\r\n", data)
        connection = self.raw()
        connection.sendall(written(json.dumps(question(hour=9)).encode()).replace(b"HTTP/1.1", b"HTTP/1.0"))
        self.assertIn(b'"allow"', self.answers(connection, 1)[0])
        self.assertEqual(connection.recv(65536), b"")

    def test_lines_between_requests(self):
        """They keep no connection open."""
        connection, since = self.raw(60), time.monotonic()
        connection.sendall(written(json.dumps(question(hour=9)).encode()))
        self.is_answered(connection)
        connection.sendall(b"\r\n")
        self.assertEqual(connection.recv(65536), b"")
        self.assertLess(time.monotonic() - since, 40)

    def test_expectations(self):
        connection = self.raw()
        body = json.dumps(question(hour=9)).encode()
        head, _, _ = written(body).partition(b"\r\n\r\n")
        connection.sendall(head + b"\r\nExpect: 100-continue\r\n\r\n")
        self.assertTrue(connection.recv(65536).startswith(b"HTTP/1.1 100 "))
        connection.sendall(body)
        self.is_answered(connection)

    def test_a_client_that_does_not_read(self):
        """It asks on, until neither side has room for more, and others are answered."""
        connection = self.raw(3)
        with self.assertRaises(OSError):
            while True:
                connection.sendall(written(json.dumps(question(hour=9)).encode()) * 50)
        for _ in range(20):
            self.assertEqual(self.caller().ask(hour=9).status, 200)
        found, connection = 0, connection
        connection.settimeout(5)
        with contextlib.suppress(OSError):
            while found < 100_000:
                data = connection.recv(1 << 20)
                if not data:
                    break
                found += data.count(b'"decision":"allow"')
        self.assertGreater(found, 100)

    def test_a_body_that_does_not_come(self):
        connection = self.raw()
        connection.sendall(written(b'{"principal": ', 500))
        data = connection.recv(65536)
        self.assertIn(b"HTTP/1.1 408 ", data)
        self.assertIn(b'"TooSlow"', data)

    def test_a_head_that_does_not_come(self):
        for begun in (b"", b"POST /v1/ask HT", b"POST /v1/ask HTTP/1.1\r\nHost: x\r\n"):
            connection, since = self.raw(60), time.monotonic()
            connection.sendall(begun)
            self.assertEqual(connection.recv(1000), b"")
            self.assertLess(time.monotonic() - since, 25)

    def test_a_head_byte_by_byte(self):
        connection, since = self.raw(), time.monotonic()
        with self.assertRaises(OSError):
            for byte in written(b"{}") * 10:
                connection.sendall(bytes([byte]))
                time.sleep(0.1)
                if time.monotonic() - since > 25:
                    return
        self.assertEqual(self.caller().ask(hour=9).status, 200)

    def test_others_do_not_wait_for_slow_ones(self):
        slow = [self.raw() for _ in range(50)]
        for it in slow:
            it.sendall(written(b"{", 500))
        for _ in range(20):
            self.assertEqual(self.caller().ask(hour=9).status, 200)

    def test_a_client_that_goes(self):
        for at in range(50):
            connection = self.raw()
            connection.sendall(written(json.dumps(question(hour=9)).encode())[: 40 + at * 4])
            connection.close()
        self.assertEqual(self.caller().ask(hour=9).said["decision"], "allow")


class Many(OverFolder):
    def test_a_thousand_open_connections(self):
        callers = []
        for _ in range(1000):
            callers.append(Caller(self.service.port))
            callers[-1].connection.connect()
        try:
            for caller in callers:
                self.assertEqual(caller.ask(hour=9).said["decision"], "allow")
        finally:
            for it in callers:
                it.close()


if __name__ == "__main__":
    unittest.main()
