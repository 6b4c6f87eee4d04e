"""A PostgreSQL server of its own for tests, on loopback, in a temporary folder, by an account that isn't root's. Where TMPDIR says nothing that
folder is in memory, if there is room."""

import contextlib
import glob
import os
import pwd
import random
import shutil
import socket
import subprocess
import tempfile


def tools():
    """Where PostgreSQL's programs are, or None, also where no account may run them."""
    if os.getuid() == 0 and "postgres" not in (it.pw_name for it in pwd.getpwall()):
        return None
    found = sorted(glob.glob("/usr/lib/postgresql/*/bin/initdb"), key=lambda it: int(it.split("/")[4]))
    path = found[-1] if found else shutil.which("initdb")
    return path and os.path.dirname(path)


def free_port(count=1):
    """The first of so many ports that are free, below those that a system gives to clients. Those who share a folder CEDAR_PORTS get none twice."""
    while True:
        port = random.randrange(15_000, 30_000)
        ports = range(port, port + count)
        with contextlib.suppress(OSError), contextlib.ExitStack() as taken:
            for it in ports:
                taken.enter_context(socket.create_server(("127.0.0.1", it)))
            for it in ports if "CEDAR_PORTS" in os.environ else ():
                os.close(os.open(os.path.join(os.environ["CEDAR_PORTS"], f"port-{it}"), os.O_CREAT | os.O_EXCL))
            return port


def _has_room(path):
    return os.access(path, os.W_OK) and shutil.disk_usage(path).free > 1 << 30


class Server:
    """A server that is started, and ended and started again as a test wants."""

    def __init__(self):
        self.account = "postgres" if os.getuid() == 0 else pwd.getpwuid(os.getuid()).pw_name
        in_memory = "TMPDIR" not in os.environ and _has_room("/dev/shm")
        self.room = tempfile.mkdtemp(prefix="cedar-postgres-", dir="/dev/shm" if in_memory else None)
        if os.getuid() == 0:
            shutil.chown(self.room, self.account)
        self.data = os.path.join(self.room, "data")
        self.port = free_port()
        self._run("initdb", "-D", self.data, "-U", "postgres", "-A", "trust", "--no-sync", "-E", "UTF8", "--locale=C")
        settings = ("listen_addresses = '127.0.0.1'", f"port = {self.port}", "unix_socket_directories = ''", "max_connections = 40", "shared_buffers = 32MB")
        with open(os.path.join(self.data, "postgresql.auto.conf"), "a", encoding="utf-8") as it:
            it.write("\n".join(settings) + "\n")
        self.start()

    def database(self, user="postgres", port=None):
        """The connection string."""
        return f"host=127.0.0.1 port={port or self.port} user={user} dbname=postgres"

    def start(self):
        self._run("pg_ctl", "-D", self.data, "-w", "-t", "60", "-l", os.path.join(self.room, "log"), "start")

    def stop(self, mode="fast"):
        """Ends it: `immediate` is as a loss of power."""
        self._run("pg_ctl", "-D", self.data, "-w", "-t", "60", "-m", mode, "stop")

    def keep(self):
        """Keeps a backup of what the server has; it is ended meanwhile."""
        self.stop()
        self._run("cp", "-a", self.data, self.data + ".kept")
        self.start()

    def restore(self):
        """Restores that backup."""
        self.stop()
        shutil.rmtree(self.data)
        self._run("cp", "-a", self.data + ".kept", self.data)
        self.start()

    def remove(self):
        self.stop("immediate")
        shutil.rmtree(self.room)

    def _run(self, tool, *words):
        path = tool if tool == "cp" else os.path.join(tools(), tool)
        given = {"user": self.account, "group": pwd.getpwnam(self.account).pw_gid, "extra_groups": []} if os.getuid() == 0 else {}
        given |= {"cwd": self.room, "stdin": subprocess.DEVNULL, "stdout": subprocess.PIPE, "stderr": subprocess.STDOUT}
        ran = subprocess.run([path, *words], text=True, timeout=120, **given)
        if ran.returncode:
            raise RuntimeError(f"{tool}: {ran.stdout}")
