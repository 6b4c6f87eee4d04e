"""The processes of a service: a supervisor that begins so many, and anew what ends or falls silent, each with a session of its own."""

import ctypes
import gc
import logging
import os
import resource
import signal
from dataclasses import dataclass, field
from typing import Any, List, Optional

from gunicorn.app.base import BaseApplication  # type: ignore[import]
from uvicorn.workers import UvicornWorker  # type: ignore[import]

from . import folder
from .app import Limits, More, Service
from .decisions import Decisions
from .metrics import Metrics
from .page import Page
from .points import CopyPoint, FolderPoint, Point
from .protocol import Protocol
from .supervisor import Beat, Supervisor, begin_alone
from .tokens import Doors

_LOGGER = logging.getLogger("gunicorn.error")
# A reload begins as many processes again before it ends the old ones, and some may be slow to end. (Beyond that they count for themselves.)
_ROWS = 4
# (Linux's PR_SET_PDEATHSIG)
_ON_END_OF_PARENT = 1
_NOTHING: List[folder.Edit] = []


@dataclass(frozen=True)
class Settings:
    """How a service is started: over a folder, or over the log `log` of a database."""

    doors: Doors
    folder: Optional[str] = None
    database: Optional[str] = None
    log: str = "policies"
    address: str = "127.0.0.1:8180"
    processes: int = 1
    limits: Limits = field(default_factory=Limits)
    decisions: Optional[str] = None
    page: bool = False
    # So many seconds the database may take for one answer, and a process may be silent.
    wait: float = 5
    silence: int = 120


class Worker(UvicornWorker):  # type: ignore[misc]
    """A process of the service."""

    CONFIG_KWARGS = {"loop": "auto", "http": Protocol, "ws": "none", "lifespan": "on", "proxy_headers": False, "server_header": False}

    tmp: Any

    def __init__(self, *given: Any, **more: Any):
        super().__init__(*given, **more)
        self.tmp.close()
        self.tmp = Beat(self.cfg)
        # (as often as uvicorn looks, which is once a second)
        self.config.timeout_notify = 0


class Processes(BaseApplication):  # type: ignore[misc]
    """The supervisor. What a folder has it reads, once and where it is told to by a hang-up; so all processes have the same."""

    def __init__(self, settings: Settings):
        self._settings = settings
        self._edits = _NOTHING if settings.folder is None else folder.read(settings.folder)
        self._metrics = Metrics(settings.processes * _ROWS)
        self._free = set(range(self._metrics.rows))
        super().__init__()

    def run(self) -> None:
        Supervisor(self).run()

    def load_config(self) -> None:
        settings, cfg = self._settings, self.cfg
        told = {"bind": settings.address, "workers": settings.processes, "worker_class": f"{__name__}.Worker", "timeout": settings.silence}
        told.update({"keepalive": 75, "graceful_timeout": 30, "loglevel": "warning", "proc_name": "cedar_server"})
        told.update({"pre_fork": self._before, "post_fork": self._after, "child_exit": self._ended, "on_reload": self._again})
        for name, value in told.items():
            cfg.set(name, value)

    def load(self) -> Any:
        """What a process serves."""
        settings, worker = self._settings, self._worker
        Protocol.seconds = settings.limits.seconds
        more = More(None if settings.decisions is None else Decisions(settings.decisions), Page() if settings.page else None)
        service = Service(self._point(), settings.doors, settings.limits, self._metrics, self._metrics.row(worker.row), more)
        Protocol.at_once, app = service.at_once(), service.app()
        # (what stays isn't traced for garbage again and again)
        gc.freeze()
        return app

    def _point(self) -> Point:
        settings = self._settings
        if settings.database is None:
            return FolderPoint(self._edits, self._worker.notify)
        return CopyPoint(settings.database, settings.log, settings.wait, self._worker.notify)

    def _before(self, _: Any, worker: Any) -> None:
        worker.row = min(self._free, default=None)
        self._free.discard(worker.row)

    def _after(self, _: Any, worker: Any) -> None:
        self._worker = worker
        begin_alone()
        _end_with_supervisor(worker.ppid)

    def _ended(self, _: Any, worker: Any) -> None:
        if worker.row is not None:
            self._metrics.leave(worker.row)
            self._free.add(worker.row)

    def _again(self, _: Any) -> None:
        if self._settings.folder is None:
            return
        try:
            self._edits = folder.read(self._settings.folder)
        except folder.NoFolder as why:
            _LOGGER.error("what was read before stays: %s", why)


def _end_with_supervisor(supervisor: int) -> None:
    """Has the system end this process where the supervisor ends, however that is: nobody would look after it then."""
    system = ctypes.CDLL(None)
    if hasattr(system, "prctl"):
        system.prctl(_ON_END_OF_PARENT, signal.SIGKILL)
    if os.getppid() != supervisor:
        os.kill(os.getpid(), signal.SIGKILL)


def serve(settings: Settings) -> None:
    """Serves until it is told to end."""
    most = resource.getrlimit(resource.RLIMIT_NOFILE)[1]
    resource.setrlimit(resource.RLIMIT_NOFILE, (most, most))
    # (libuv takes all connections that wait, unless it is told to leave some to the other processes)
    os.environ.setdefault("UV_TCP_SINGLE_ACCEPT", "1")
    Processes(settings).run()
