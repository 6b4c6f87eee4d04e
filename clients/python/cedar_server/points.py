"""What answers in a process: a session over a folder, or a copy of a log. All of it stays on the thread of the process's event loop, but for
what waits for the database."""

import asyncio
import logging
import secrets
from concurrent.futures import ThreadPoolExecutor
from time import monotonic
from typing import Callable, Iterable, List, Optional, Tuple, TypeVar

import cedar_session as cedar
from cedar_session import CedarError, NotOpen, Refused
from cedar_session.commands import EDITS, Line, encoded, ids_of
from cedar_session.copies import Behind, Broken, Copy, Log, LogError, NoLog, Place, Stopped
from cedar_session.held import Held

from . import folder
from .faults import Fault

T = TypeVar("T")

_LOGGER = logging.getLogger("gunicorn.error")
# So long a process waits before it tries again what failed, and so often it looks at the log where nobody edits.
_AGAIN = 1.0


class Point:
    """What answers questions, and takes edits."""

    position = 0

    def asked(self, question: str) -> Line:
        """The answer as of `position`."""
        raise NotImplementedError

    def why_not(self) -> Optional[str]:
        """Why no question is answered, where that is so."""
        raise NotImplementedError

    def seen(self) -> float:
        """When it last had all that there was, by `monotonic`."""
        return monotonic()

    def held(self) -> Held:
        """What is held, where that is known."""
        raise Fault(409, "NoLog", "what is held stands in the folder; edits take --database")

    async def come(self, position: int, age: Optional[float]) -> None:
        """Comes to a position, and to what there was so many seconds ago."""
        raise NotImplementedError

    async def edit(self, verb: str, body: str, key: Optional[str], expected: Optional[int]) -> Tuple[List[str], int]:
        """Does an edit, and answers the ids and the position that it led to."""
        raise Fault(409, "NoLog", "edit the files of the folder and begin anew, or start the service with --database")

    async def run(self) -> None:
        """Goes on until it is cancelled."""

    def close(self) -> None:
        raise NotImplementedError


class FolderPoint(Point):
    """A session of what a folder had when it was read, by these edits."""

    def __init__(self, edits: Iterable[folder.Edit], beat: Callable[[], None]):
        self._session = cedar.Session()
        for edit in edits:
            beat()
            self._session.command(*edit)

    def asked(self, question: str) -> Line:
        return self._session.asked(question)

    def why_not(self) -> Optional[str]:
        return None

    async def come(self, position: int, age: Optional[float]) -> None:
        if position > 0:
            raise Behind("a folder stands at 0")

    def close(self) -> None:
        self._session.close()


class _Line:
    """A connection to the log on a thread of its own, so that the database keeps nobody waiting but who asks for it."""

    def __init__(self, log: Log):
        self._log, self._thread = log, ThreadPoolExecutor(1)

    async def do(self, use: Callable[[Log], T]) -> T:
        return await asyncio.get_running_loop().run_in_executor(self._thread, use, self._log)

    def close(self) -> None:
        self._thread.submit(self._log.close)
        self._thread.shutdown(wait=False)


class CopyPoint(Point):
    """A copy of a log. `beat` is called before each edit, since those of a long log take long."""

    def __init__(self, database: str, name: str, seconds: float, beat: Callable[[], None]):
        self._own, self._beat = Log(database, name, seconds), beat
        # One watches the log, on the other edits go, and questions look that ask for an age.
        self._watching, self._asking = (_Line(Log(database, name, seconds)) for _ in range(2))
        self._copy: Optional[Copy] = None
        self._why, self._seen = "the copy hasn't begun", 0.0

    @property
    def position(self) -> int:  # type: ignore[override]
        return self._copy.position if self._copy else 0

    def asked(self, question: str) -> Line:
        copy = self._begun()
        try:
            return copy.asked(question)
        except NotOpen as why:
            self._why = str(why)
            raise

    def why_not(self) -> Optional[str]:
        return self._why or None

    def seen(self) -> float:
        return self._seen

    def held(self) -> Held:
        return self._begun().held

    async def come(self, position: int, age: Optional[float]) -> None:
        if self.position < position or (age is not None and monotonic() - self._seen > age):
            await self._look(self._asking)
        if self.position < position:
            raise Behind(f"the log stands at {self.position}")

    async def edit(self, verb: str, body: str, key: Optional[str], expected: Optional[int]) -> Tuple[List[str], int]:
        place, given, named = self._begun().place, encoded(body), key or secrets.token_hex(16)
        try:
            position = await self._asking.do(lambda log: log.append(verb, given, named, expected, place))
            # (by its key it is found in the log, and done here)
            line = self._use(lambda copy: copy.edit(key=named).line(verb, body))
        except Broken:
            self._use(Copy.follow)
            raise
        except (LogError, Stopped) as why:
            why.key = named
            raise
        if line.startswith("refused "):
            raise Refused(line[len("refused ") :])
        return list(ids_of(line)), position

    async def run(self) -> None:
        """Begins, and follows the log. Where that is another's it stops, until the process begins anew."""
        while True:
            try:
                if self._copy is None:
                    await self._begin()
                await self._look(self._watching, _AGAIN)
            except Stopped:
                return
            except Exception as why:
                if not isinstance(why, CedarError):
                    _LOGGER.exception("the log can't be followed")
                if self._copy is None:
                    self._why = f"{type(why).__name__}: {why}"
                await asyncio.sleep(_AGAIN)

    def close(self) -> None:
        for line in (self._watching, self._asking):
            line.close()
        if self._copy is not None:
            self._copy.close()

    def _begun(self) -> Copy:
        if self._copy is None:
            raise NotOpen(self._why)
        return self._copy

    async def _begin(self) -> None:
        # (a database that doesn't answer keeps the other thread waiting)
        await self._watching.do(Log.end)
        since = monotonic()
        self._copy = Copy.begin(self._own, lambda: _Session(self._beat))
        self._why, self._seen = "", since

    async def _look(self, line: _Line, seconds: float = 0) -> None:
        """Looks at the log by another connection, and does here what is new there."""
        place = self._begun().place
        is_same, since = await line.do(lambda log: _is_same(log, place, seconds))
        if not is_same:
            self._use(Copy.follow)
        self._seen = max(self._seen, since)

    def _use(self, do: Callable[[Copy], T]) -> T:
        try:
            return do(self._begun())
        except Stopped as why:
            self._why = str(why)
            raise


class _Session(cedar.Session):
    """A session that says so before each edit: those of a long log take long."""

    def __init__(self, beat: Callable[[], None]):
        super().__init__()
        self._beat = beat

    def line(self, verb: str, body: str) -> str:
        if verb in EDITS:
            self._beat()
        return super().line(verb, body)


def _is_same(log: Log, place: Place, seconds: float) -> Tuple[bool, float]:
    """Whether a log ends at a place, and when it was looked at. Waits so long for what comes behind."""
    if seconds:
        log.wait(place.position, seconds)
    since = monotonic()
    try:
        return log.end() == place.position and not log.after(place, place.position), since
    except (Broken, NoLog):
        # (a copy finds out by itself, and stops)
        return False, since


def fill(log: Log, edits: Iterable[folder.Edit]) -> int:
    """Leads a log to what a folder has, and keeps a snapshot of it. Answers how many edits that took."""
    with Copy.begin(log, cedar.Session) as copy:
        for edit in edits:
            copy.edit(expected=copy.position).command(*edit)
        log.keep(copy.snapshot())
        return copy.position
