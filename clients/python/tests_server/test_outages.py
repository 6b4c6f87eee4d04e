"""Tests of copies whose database is ended, restored, full or silent, whose replies are cut, and whose processes are killed."""

import http.client
import os
import random
import signal
import socket
import threading
import time
import unittest

import psycopg

from tests_server.copying import FORBID, Proxy, Shared, WithLog, setUpModule  # noqa: F401
from tests_server.serving import ADMIN, ANY, Caller, Service

# (the class of errors that a full disk brings about)
FULL = """
CREATE FUNCTION is_full() RETURNS trigger LANGUAGE plpgsql AS $$ BEGIN RAISE EXCEPTION 'no space left on device' USING ERRCODE = '53100'; END $$;
CREATE TRIGGER is_full BEFORE INSERT ON cedar_edits FOR EACH ROW EXECUTE FUNCTION is_full();
"""


class Outages(WithLog):
    def test_the_database_is_restarted(self):
        service = self.service()
        caller = self.caller(service)
        caller.post("/v1/policies", ANY)
        Shared.server.stop("immediate")
        try:
            self.assertEqual(caller.ask().said["decision"], "allow")
            self.assertEqual(service.wait("/readyz").said["position"], 1)
            self.assertEqual(caller.ask(at="/v1/ask?age=0").fault, (503, "LogError", ""))
            self.assertEqual(caller.ask(at="/v1/ask?position=2").fault, (503, "LogError", ""))
            reply = caller.post("/v1/policies", FORBID)
            self.assertEqual(reply.fault, (503, "LogError", ""))
        finally:
            Shared.server.start()
        again = caller.post("/v1/policies", FORBID, Idempotency_Key=reply.said["error"]["key"])
        self.assertEqual((again.status, again.said["position"]), (200, 2))
        self.assertEqual(caller.ask(at="/v1/ask?age=0").said["decision"], "deny")

    def test_a_service_that_begins_while_the_database_is_away(self):
        Shared.server.stop()
        try:
            service = Service("--database", Shared.server.database(), "--log", self.name)
            self.addCleanup(service.remove)
            service.start("/healthz")
            caller = self.caller(service)
            self.assertEqual(caller.get("/readyz").fault, (503, "NotReady", ""))
            self.assertEqual(caller.ask().fault, (503, "NotOpen", ""))
            self.assertEqual(caller.post("/v1/policies", ANY).fault, (503, "NotOpen", ""))
        finally:
            Shared.server.start()
        service.wait()
        self.assertEqual(caller.ask().said["decision"], "deny")

    def test_an_older_backup_is_restored(self):
        """What was answered isn't taken back: who had later edits answers no more, until it begins anew."""
        service = self.service()
        caller = self.caller(service)
        caller.post("/v1/policies", ANY)
        Shared.server.keep()
        caller.post("/v1/policies", FORBID)
        self.assertEqual(caller.ask().said["decision"], "deny")
        Shared.server.restore()
        stopped = service.wait("/readyz", 503, 20)
        self.assertEqual(stopped.fault, (503, "NotReady", ""))
        for reply in (caller.ask(), caller.ask(at="/v1/ask?age=0"), caller.post("/v1/policies", ANY)):
            self.assertEqual(reply.fault, (503, "Stopped", ""))
        service.signal(signal.SIGHUP)
        service.wait()
        self.assertEqual(self.caller(service).ask(at="/v1/ask?age=0").said["position"], 1)

    def test_another_log_has_come_to_the_same_position(self):
        service = self.service()
        caller = self.caller(service)
        caller.post("/v1/policies", ANY)
        with psycopg.connect(Shared.server.database()) as it:
            it.execute("DELETE FROM cedar_edits WHERE log = %s", [self.name])
        self.log.create()
        self.log.append("load", FORBID.encode(), "other")
        self.assertEqual(service.wait("/readyz", 503, 20).fault, (503, "NotReady", ""))
        self.assertEqual(caller.ask().fault, (503, "Stopped", ""))

    def test_the_database_is_full(self):
        caller = self.caller(self.service())
        caller.post("/v1/policies", ANY)
        self.sql(FULL)
        try:
            reply = caller.post("/v1/policies", FORBID)
            self.assertEqual(reply.fault, (503, "LogError", ""))
            self.assertIn("no space left", reply.said["error"]["text"])
            self.assertEqual(caller.ask(at="/v1/ask?age=0").said["decision"], "allow")
        finally:
            self.sql("DROP TRIGGER is_full ON cedar_edits; DROP FUNCTION is_full")
        self.assertEqual(caller.post("/v1/policies", FORBID, Idempotency_Key=reply.said["error"]["key"]).said["position"], 2)
        self.assertEqual(caller.ask().said["decision"], "deny")

    def test_a_database_that_does_not_answer(self):
        """Questions go on, also while an edit waits for it."""
        proxy = Proxy(Shared.server.port)
        service = self.service(port=proxy.port)
        caller = self.caller(service)
        caller.post("/v1/policies", ANY)
        os.kill(self.postmaster(), signal.SIGSTOP)
        stopped = [it for it in self.backends() if self.signal(it, signal.SIGSTOP)]
        try:
            edit = threading.Thread(target=lambda: replies.append(self.caller(service).post("/v1/policies", FORBID)))
            replies = []
            edit.start()
            times = []
            while edit.is_alive():
                since = time.monotonic()
                self.assertEqual(caller.ask().said["decision"], "allow")
                times.append(time.monotonic() - since)
            self.assertEqual(replies[0].fault, (503, "LogError", ""))
            self.assertGreater(len(times), 20)
            self.assertLess(sorted(times)[len(times) * 9 // 10], 1)
        finally:
            for it in (*stopped, self.postmaster()):
                self.signal(it, signal.SIGCONT)
        again = caller.post("/v1/policies", FORBID, Idempotency_Key=replies[0].said["error"]["key"])
        self.assertEqual((again.status, len(self.edits())), (200, 2))

    @staticmethod
    def postmaster():
        with open(os.path.join(Shared.server.data, "postmaster.pid"), encoding="ascii") as it:
            return int(it.readline())

    def backends(self):
        with open(f"/proc/{self.postmaster()}/task/{self.postmaster()}/children", encoding="ascii") as it:
            return [int(pid) for pid in it.read().split()]

    @staticmethod
    def signal(pid, which):
        try:
            os.kill(pid, which)
        except ProcessLookupError:
            return False
        return True


class Cuts(WithLog):
    """Replies that are cut: each edit is done once, given again with its key."""

    def test_replies_of_the_service(self):
        """Behind each of their bytes."""
        service = self.service()
        proxy, whole = Proxy(service.port), self.caller(service)
        since = whole.post("/v1/policies", FORBID, Idempotency_Key="first")
        size = len("HTTP/1.1 200 OK\r\n\r\n") + len(since.data) + sum(len(f"{name}: {value}\r\n") for name, value in since.headers.items())
        failed = 0
        for at in range(size + 20):
            caller, key, policy = Caller(proxy.port, ADMIN), f"cut {at}", f'permit(principal == User::"{at}", action, resource);'
            proxy.left = at
            try:
                said = caller.post("/v1/policies", policy, Idempotency_Key=key).said
            except (OSError, ValueError, http.client.HTTPException):
                failed += 1
                said = whole.post("/v1/policies", policy, Idempotency_Key=key).said
            proxy.left = None
            caller.close()
            self.assertEqual(said, {"ids": [f"policy{at + 1}"], "position": at + 2})
        self.assertTrue(size - 1 <= failed < size + 20, (failed, size))
        self.assertEqual(len(self.edits()), size + 21)

    def test_replies_of_the_database(self):
        proxy = Proxy(Shared.server.port)
        caller = self.caller(self.service(port=proxy.port))
        failed = 0
        for at, left in enumerate(range(0, 900, 11)):
            proxy.left = left
            reply = caller.post("/v1/policies", FORBID, Idempotency_Key=f"cut {left}")
            proxy.left = None
            if reply.status != 200:
                failed += 1
                self.assertEqual(reply.fault, (503, "LogError", ""))
                reply = caller.post("/v1/policies", FORBID, Idempotency_Key=reply.said["error"]["key"])
            self.assertEqual((reply.status, reply.said["position"]), (200, at + 1))
        self.assertGreater(failed, 0)
        self.assertEqual([it for it, _, _ in self.edits()], list(range(1, at + 2)))

    def test_requests_that_are_cut_off(self):
        """An edit whose body didn't come whole is none."""
        service = self.service()
        body = ANY.encode()
        head = b"POST /v1/policies HTTP/1.1\r\nHost: x\r\nAuthorization: Bearer %s\r\nContent-Length: %d\r\n\r\n" % (ADMIN.encode(), len(body))
        for left in range(len(head), len(head + body)):
            with socket.create_connection(("127.0.0.1", service.port), 20) as it:
                it.sendall((head + body)[:left])
        # (each has come, and was none)
        counted, until = f'cedar_requests_total{{call="edit",status="400"}} {len(body)}\n', time.monotonic() + 20
        while counted not in self.caller(service).get("/metrics").data.decode() and time.monotonic() < until:
            time.sleep(0.1)
        self.assertEqual(self.edits(), [])
        self.assertEqual(self.caller(service).post("/v1/policies", ANY).said, {"ids": ["policy0"], "position": 1})

    def test_processes_that_are_killed_in_the_middle_of_an_edit(self):
        service, choose, failed = self.service(), random.Random(7), 0
        for at in range(90):
            if at % 15 == 0:
                (pid,) = service.workers()
                killing = threading.Timer(choose.random() * 0.05, os.kill, (pid, signal.SIGKILL))
                killing.start()
            tries = self.tries(service, f"edit {at}")
            failed += tries > 1
            if at % 15 == 14:
                killing.join()
                service.wait()
        self.assertGreater(failed, 0)
        self.assertEqual(len(self.edits()), 90)

    def tries(self, service, key):
        """Gives an edit until it is done, and says how often."""
        for count in range(1, 600):
            caller = service.caller(ADMIN)
            try:
                if caller.post("/v1/policies", FORBID, Idempotency_Key=key).status == 200:
                    return count
            except (OSError, http.client.HTTPException):
                pass
            finally:
                caller.close()
            time.sleep(0.1)
        raise AssertionError(key)


if __name__ == "__main__":
    unittest.main()
