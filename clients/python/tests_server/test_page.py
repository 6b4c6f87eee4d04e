"""Runs what docs/SERVICE.md tells to run, the library's build aside, and compares what it shows."""

import os
import re
import socket
import subprocess
import sys
import tempfile
import unittest

from tests_server.serving import HERE

TOP = os.path.dirname(os.path.dirname(HERE))
BLOCK = re.compile(r"(?ms)^```sh\n(.*?)^```\n(?:\s*It writes\n\n```\n(.*?)^```)?")
# What installs packages, and what makes the library.
ASIDE = ("apt-get ", "python3 tools/build.py ")
PORTS = range(8180, 8184)


def taken():
    """The port of the page that is another program's."""
    for port in PORTS:
        try:
            socket.create_server(("127.0.0.1", port)).close()
        except OSError:
            return port
    return None


class Page(unittest.TestCase):
    def test_what_it_shows(self):
        port = taken()
        if port is not None:
            print(f"left out, since the port {port} is another program's: what docs/SERVICE.md shows")
            self.skipTest("a port is taken")
        with open(os.path.join(TOP, "docs", "SERVICE.md"), encoding="utf-8") as it:
            blocks = [it for it in BLOCK.findall(it.read()) if not it[0].startswith(ASIDE)]
        self.assertEqual(len([it for it in blocks if it[1]]), 2)
        script = "".join(f"{block}echo; echo ----\n" for block, _ in blocks)
        with tempfile.TemporaryDirectory() as room:
            for name, to in (("clients", os.path.join(TOP, "clients")), ("tools", os.path.join(TOP, "tools")), ("python3", sys.executable)):
                os.symlink(to, os.path.join(room, name))
            os.makedirs(os.path.join(room, "out", "cedar", "lib"))
            os.symlink(os.path.realpath(os.environ["CEDAR_LIBRARY"]), os.path.join(room, "out", "cedar", "lib", "libcedar.so"))
            environment = {**os.environ, "PATH": f"{room}:{os.environ['PATH']}", "PYTHONDONTWRITEBYTECODE": "1"}
            ran = subprocess.run(["bash", "-c", script], cwd=room, env=environment, capture_output=True, text=True, timeout=400)
        shown = [it.strip() for it in ran.stdout.split("----\n")]
        self.assertEqual(shown[:-1], [written.strip() for _, written in blocks], ran.stderr)


if __name__ == "__main__":
    unittest.main()
