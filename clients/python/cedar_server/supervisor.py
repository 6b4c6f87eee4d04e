"""The supervisor of the processes: gunicorn's, which misses nothing that comes while it begins one."""

import mmap
import signal
import struct
import time
from typing import Any

from gunicorn.arbiter import Arbiter  # type: ignore[import]
from gunicorn.workers.workertmp import WorkerTmp  # type: ignore[import]

_HELD = frozenset((*Arbiter.SIGNALS, signal.SIGABRT, signal.SIGCHLD))


class Supervisor(Arbiter):  # type: ignore[misc]
    """Begins processes, and anew what ends or falls silent."""

    def spawn_worker(self) -> Any:
        """Begins a process. Signals wait meanwhile: the end of one that isn't listed yet would be missed, so that it stayed listed as if it served,
        and what tells a process to end that still has the supervisor's handlers."""
        signal.pthread_sigmask(signal.SIG_BLOCK, _HELD)
        try:
            return super().spawn_worker()
        finally:
            signal.pthread_sigmask(signal.SIG_UNBLOCK, _HELD)


class Beat(WorkerTmp):  # type: ignore[misc]
    """When a process last said that it goes on. It is told by a clock that nobody sets, and that stands while the machine sleeps: where that of the
    day is set forward, or the machine wakes, not all processes look as if they had fallen silent."""

    _TIME = struct.Struct("d")

    def __init__(self, cfg: Any):
        super().__init__(cfg)
        self._told = mmap.mmap(-1, self._TIME.size)
        self.notify()

    def notify(self) -> None:
        self._TIME.pack_into(self._told, 0, time.monotonic())

    def last_update(self) -> float:
        """By the clock of the day, as the supervisor compares it."""
        (told,) = self._TIME.unpack_from(self._told)
        return time.time() - (time.monotonic() - float(told))


def begin_alone() -> None:
    """In a process that was just begun: from here on a signal is its own."""
    for it in _HELD:
        signal.signal(it, signal.SIG_DFL)
    signal.pthread_sigmask(signal.SIG_UNBLOCK, _HELD)
