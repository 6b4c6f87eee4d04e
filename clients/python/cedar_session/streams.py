"""Sessions by the program `cedar_session`, as a child or behind a connection."""

import os
import select
import socket
import subprocess
from time import monotonic
from typing import Optional, Tuple

from .commands import WITHOUT_TYPES, Commands
from .errors import Ended, NotOpen, OtherThread, TimedOut


class Connection(Commands):
    """A session of the program behind a connection. A line that takes longer than so many seconds closes it, and so does whatever
    comes between a command and its line: no later question gets that line."""

    language = WITHOUT_TYPES

    def __init__(self, address: Tuple[str, int], seconds: float = 30):
        try:
            connected = socket.create_connection(address, seconds)
            connected.setsockopt(socket.IPPROTO_TCP, socket.TCP_NODELAY, 1)
        except OSError as why:
            raise NotOpen(str(why)) from why
        self._begin(connected, seconds)

    def _begin(self, connected: socket.socket, seconds: float) -> None:
        super().__init__()
        self._socket: Optional[socket.socket] = connected
        self._seconds, self._process, self._is_in_step = seconds, os.getpid(), True
        self._unasked = select.poll()
        self._unasked.register(connected, select.POLLIN)

    def _check(self) -> None:
        if os.getpid() != self._process:
            raise OtherThread("the session stays in the process that opened it")

    def _exchange(self, verb: str, body: bytes) -> bytes:
        connected = self._socket
        if connected is None or not self._is_in_step:
            raise NotOpen("the session is closed")
        # (it is in step again only where the whole line has come)
        self._is_in_step = False
        try:
            if self._unasked.poll(0):
                raise Ended("the session has ended, or wrote what nobody asked for")
            line = self._line_of(connected, b"%s %d\n%s\n" % (verb.encode(), len(body), body))
        except BaseException:
            self._end()
            raise
        self._is_in_step = True
        return line

    def _line_of(self, connected: socket.socket, frame: bytes) -> bytes:
        until, got, last = monotonic() + self._seconds, [], b""
        try:
            connected.settimeout(self._seconds)
            connected.sendall(frame)
            while not last.endswith(b"\n"):
                connected.settimeout(max(until - monotonic(), 0.001))
                last = connected.recv(65536)
                if not last:
                    raise Ended("the session has ended")
                got.append(last)
        except socket.timeout as why:
            raise TimedOut(f"no line came in {self._seconds} seconds") from why
        except OSError as why:
            raise Ended(str(why)) from why
        return b"".join(got)

    def _end(self) -> None:
        connected, self._socket = self._socket, None
        if connected is not None:
            connected.close()


class Child(Connection):
    """A session of the program as a child of this process. Where it is closed the child ends."""

    def __init__(self, program: str = "cedar_session", seconds: float = 30):
        here, there = socket.socketpair()
        with there:
            try:
                self._child = subprocess.Popen([program], stdin=there.fileno(), stdout=there.fileno())
            except OSError as why:
                here.close()
                raise NotOpen(f"{program}: {why.strerror}") from why
        self._begin(here, seconds)

    def _end(self) -> None:
        was_in_step, self._is_in_step = self._is_in_step, False
        super()._end()
        if os.getpid() != self._process:
            return
        try:
            self._child.wait(1 if was_in_step else 0)
        except subprocess.TimeoutExpired:
            self._child.kill()
            self._child.wait()
