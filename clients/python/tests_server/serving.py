"""What the tests of the service share: a service that is started as a user starts it, and those who call it. CEDAR_LIBRARY names the shared
object."""

import contextlib
import http.client
import json
import os
import shutil
import signal
import subprocess
import sys
import tempfile
import time

from tests.postgres import free_port

HERE = os.path.dirname(os.path.dirname(os.path.abspath(__file__)))
ADMIN, ASKER = "an admin's token of the tests".replace(" ", "-"), "a token that asks, no more".replace(" ", "-")
ALICE, BOB = {"type": "User", "id": "alice"}, {"type": "User", "id": "bob"}
VIEW, PHOTO = {"type": "Action", "id": "view"}, {"type": "Photo", "id": "1"}
STAFF = 'permit(principal in Group::"staff", action == Action::"view", resource) when { context.hour < 18 };\n'
ENTITIES = [{"uid": ALICE, "attrs": {"level": 3}, "parents": [{"type": "Group", "id": "staff"}]}]
ANY = "permit(principal, action, resource);"


def question(principal=ALICE, **context):
    return {"principal": principal, "action": VIEW, "resource": PHOTO, "context": context}


def evaluation(subject=ALICE, **context):
    return {"subject": subject, "action": {"name": "view"}, "resource": PHOTO, "context": context}


def written(body, length=None):
    """A question as it is sent; its head may say another length."""
    return b"POST /v1/ask HTTP/1.1\r\nHost: x\r\nContent-Length: %d\r\n\r\n%s" % (len(body) if length is None else length, body)


class Reply:
    """What was answered: the status, the headers and the body, JSON where it is that."""

    def __init__(self, response):
        self.status, self.headers, self.data = response.status, response.headers, response.read()

    @property
    def said(self):
        return json.loads(self.data)

    @property
    def fault(self):
        """The kind of a fault, and where it is."""
        error = self.said["error"]
        return self.status, error["kind"], error["at"]


class Caller:
    """A connection to a service, which is kept open between calls."""

    def __init__(self, port, token=None, seconds=60):
        self.connection, self.token = http.client.HTTPConnection("127.0.0.1", port, timeout=seconds), token

    def call(self, method, path, body=None, token=None, **headers):
        data = body if body is None or isinstance(body, (bytes, str)) else json.dumps(body)
        given = {it.replace("_", "-"): value for it, value in headers.items()}
        if token or self.token:
            given["Authorization"] = f"Bearer {token or self.token}"
        self.connection.request(method, path, data, given)
        return Reply(self.connection.getresponse())

    def post(self, path, body, **more):
        return self.call("POST", path, body, **more)

    def get(self, path, **more):
        return self.call("GET", path, **more)

    def ask(self, *given, at="/v1/ask", **context):
        return self.post(at, question(*given, **context))

    def close(self):
        self.connection.close()


class Service:
    """The program, as a process of its own; over a folder that has STAFF and ENTITIES, or over what the words say."""

    def __init__(self, *words, **environment):
        self.room = tempfile.mkdtemp(prefix="cedar-service-")
        self.folder, self.port = os.path.join(self.room, "folder"), free_port()
        os.mkdir(self.folder)
        self.write("staff.cedar", STAFF)
        self.write("users.json", json.dumps(ENTITIES))
        for name, token in (("admins", ADMIN), ("tokens", ASKER)):
            with open(os.path.join(self.room, name), "w", encoding="ascii") as it:
                it.write(token + "\n")
        self.environment, self.process = {**os.environ, **environment}, None
        self.words = [*(words or [self.folder]), "--address", f"127.0.0.1:{self.port}", "--admins", os.path.join(self.room, "admins")]

    def __enter__(self):
        self.start()
        return self

    def __exit__(self, *_):
        self.remove()

    def write(self, name, text):
        with open(os.path.join(self.folder, name), "w", encoding="utf-8") as it:
            it.write(text)

    def start(self, path="/readyz"):
        log = open(os.path.join(self.room, "log"), "ab")
        with log:
            command = [sys.executable, "-B", "-m", "cedar_server", *self.words]
            self.process = subprocess.Popen(command, cwd=HERE, env=self.environment, stdout=log, stderr=log)
        self.wait(path)

    def wait(self, path="/readyz", status=200, seconds=60):
        """Waits until a path is answered so."""
        until, last = time.monotonic() + seconds, None
        while time.monotonic() < until:
            if self.process.poll() is not None:
                raise AssertionError(f"the service has ended: {self.log()}")
            with contextlib.suppress(OSError, http.client.HTTPException):
                with contextlib.closing(self.caller(seconds=5)) as it:
                    last = it.get(path)
                if last.status == status:
                    return last
            time.sleep(0.05)
        raise AssertionError(f"{path} isn't {status}: {last and last.data} {self.log()}")

    def caller(self, token=None, seconds=60):
        return Caller(self.port, token, seconds)

    def log(self):
        with open(os.path.join(self.room, "log"), encoding="utf-8", errors="replace") as it:
            return it.read()[-2000:]

    def workers(self):
        """The processes that serve."""
        with open(f"/proc/{self.process.pid}/task/{self.process.pid}/children", encoding="ascii") as it:
            return [int(pid) for pid in it.read().split()]

    def signal(self, which):
        self.process.send_signal(which)

    def stop(self):
        if self.process is not None and self.process.poll() is None:
            self.process.send_signal(signal.SIGQUIT)
            try:
                self.process.wait(20)
            except subprocess.TimeoutExpired:
                self.process.kill()
                self.process.wait()

    def remove(self):
        self.stop()
        shutil.rmtree(self.room, ignore_errors=True)
