"""Tests of three copies behind haproxy, as tools/three_copies.py starts them."""

import os
import signal
import subprocess
import sys
import tempfile
import time
import unittest

from tests_server.serving import ALICE, BOB, HERE, Caller, Service, free_port

SCRIPT = os.path.join(os.path.dirname(os.path.dirname(HERE)), "tools", "three_copies.py")


class Three(unittest.TestCase):
    def setUp(self):
        self.room, folder = tempfile.TemporaryDirectory(), Service()
        self.addCleanup(self.room.cleanup)
        self.addCleanup(folder.remove)
        self.port = free_port(4)
        command = [sys.executable, "-B", SCRIPT, folder.folder, "--port", str(self.port), "--room", self.room.name]
        self.process = subprocess.Popen(command, stdout=subprocess.PIPE, text=True)
        self.addCleanup(self.end)
        self.said = ""
        while "three copies serve" not in self.said:
            line = self.process.stdout.readline()
            self.assertTrue(line, self.said)
            self.said += line
        with open(os.path.join(self.room.name, "admins"), encoding="ascii") as it:
            self.caller = Caller(self.port, it.read().strip())
        self.addCleanup(self.caller.close)

    def end(self):
        self.process.send_signal(signal.SIGTERM)
        self.process.wait(60)
        self.process.stdout.close()

    def pid_of(self, port):
        ran = subprocess.run(["pgrep", "-P", str(self.process.pid), "-f", f"127.0.0.1:{port}"], capture_output=True, text=True)
        return int(ran.stdout)

    def has_ended(self, pid, seconds=60):
        until = time.monotonic() + seconds
        while time.monotonic() < until:
            with open(f"/proc/{pid}/stat", encoding="ascii") as it:
                # (its parent waits for it at the end)
                if it.read().rpartition(")")[2].split()[0] == "Z":
                    return
            time.sleep(0.05)
        self.fail(f"{pid} goes on")

    def test_they_serve_as_one(self):
        caller = self.caller
        self.assertEqual(caller.ask(hour=9).said["decision"], "allow")
        self.assertEqual(caller.ask(BOB, hour=9).said["decision"], "deny")
        # What was edited by one is seen by all, where it is asked for.
        position = caller.post("/v1/policies", 'permit(principal == User::"bob", action, resource);').said["position"]
        found = [caller.ask(BOB, at=f"/v1/ask?position={position}").said for _ in range(30)]
        self.assertEqual({(it["decision"], it["position"]) for it in found}, {("allow", position)})
        with open(os.path.join(self.room.name, "decisions"), encoding="ascii") as it:
            processes = {line.split('"process":')[1] for line in it}
        self.assertGreater(len(processes), 1)
        # Where one ends the others go on: whoever asks again is answered.
        pid = self.pid_of(self.port + 1)
        os.kill(pid, signal.SIGTERM)
        self.has_ended(pid)
        for _ in range(30):
            self.assertEqual(caller.ask(ALICE, hour=9).status, 200)
        self.assertEqual(caller.post("/v1/policies", 'forbid(principal == User::"bob", action, resource);').status, 200)

    def test_nothing_is_left_behind(self):
        self.end()
        self.assertEqual(self.process.returncode, 0)
        for it in range(4):
            with self.assertRaises(OSError):
                Caller(self.port + it).get("/healthz")


if __name__ == "__main__":
    unittest.main()
