"""Copies of a session, on several machines, by one log of edits in a PostgreSQL database.

    log = copies.Log("host=db.example dbname=policies sslmode=verify-full", "shop")
    log.create()                                         # once
    copy = copies.Copy.begin(log, cedar.Session)
    copy.load("permit(principal, action, resource);")    # in the log, for all copies, and done here
    copy.follow()                                        # does what others put there
    copy.position                                        # after so many edits stands what is answered

As a program, `python3 -m cedar_session.copies DATABASE NAME` is one copy: it reads frames, as `cedar_session` does, and writes a line for
each, with the log's position before it. `--create` creates the log, `--keep` keeps a snapshot, from which new copies begin. All copies
of a log have Cedar's types, or none has, by `--without-types`: `log.create(language=WITHOUT_TYPES)` is for sessions that haven't."""

import argparse
import os
import secrets
import sys
from collections import OrderedDict
from time import monotonic
from typing import BinaryIO, Callable, Optional, TypeVar

from .commands import EDITS, EMPTY, LANGUAGE, QUESTIONS, WITHOUT_TYPES, Answer, Commands, Line
from .errors import CedarError, NotOpen, OtherThread
from .held import Held, commands_of, read_frame
from .log import Broken, Edit, KeyTaken, Log, LogError, Moved, NoLog, Place, Snapshot, rules_of
from .session import Session
from .values import Context, Part

__all__ = ["AlreadyDone", "Behind", "Broken", "Copy", "Differs", "KeyTaken", "Log", "LogError", "Moved", "NoLog", "Place", "Snapshot", "Stopped", "Waits"]

T = TypeVar("T")

# Of so many edits the lines are known, where one is given again with its key.
_REMEMBERED = 100


class Differs(CedarError):
    """The log's copies have another limit of depth, or another version of the language."""


class Stopped(NotOpen):
    """The copy answers no more, and says why. Another begins anew, where the log is in order. `key` is that of an edit which was
    given, and may stand in the log."""

    key: Optional[str] = None


class Behind(CedarError):
    """The log hasn't come to the position that the question asks for."""


class AlreadyDone(CedarError):
    """The edit of this key was done at `position`, too long ago for its line to be known."""

    def __init__(self, position: int):
        super().__init__(f"the edit was done at {position}")
        self.position = position


class Waits(CedarError, MemoryError):
    """There was no memory to do an edit of the log here. The copy waits before it, and goes on by `follow`. `key` is that of an edit
    which was given, and stands in the log."""

    key: Optional[str] = None


class Copy(Commands):
    """A session that does what the log has. An edit goes to the log, and is answered once this copy has come to it; a question is
    answered where the copy stands, after as many edits as `position` says."""

    def __init__(self, log: Log, session: Commands, first: Edit):
        super().__init__()
        self.log, self.session, self.held = log, session, Held()
        self.place, self.depth, self.language = Place(0, first.hash), session.depth, session.language
        self._process, self._why, self._fresh = os.getpid(), "", float("-inf")
        self._lines: "OrderedDict[str, bytes]" = OrderedDict()

    @classmethod
    def begin(cls, log: Log, opened: Callable[[], Commands]) -> "Copy":
        """A copy by a new session, which begins from the log's last snapshot."""
        first = log.first()
        session = opened()
        try:
            if first.body != rules_of(session.depth, session.language):
                raise Differs(f"the log has {first.body.decode(errors='replace')}")
            copy = cls(log, session, first)
            snapshot = log.snapshot()
            if snapshot is not None:
                copy._restore(snapshot)
            copy._follow()
        except BaseException:
            session.close()
            raise
        return copy

    @property
    def position(self) -> int:
        """How many edits are done here."""
        return self.place.position

    def ask(self, *, principal: Part, action: Part, resource: Part, context: Context = EMPTY, position: int = 0, age: Optional[float] = None) -> Answer:
        """Asks a question as of a position or a later one, and of what the log had so many seconds ago or later."""
        self.come(position, age)
        return super().ask(principal=principal, action=action, resource=resource, context=context)

    def asked(self, question: str) -> Line:
        self._check()
        return self._alone(self._asked, question)

    def come(self, position: int = 0, age: Optional[float] = None) -> None:
        """Follows, where this copy isn't as far as that position, or hasn't been at the log's end for so many seconds."""
        self._check()
        if self.position < position or (age is not None and monotonic() - self._fresh > age):
            self.follow()
        if self.position < position:
            raise Behind(f"the log stands at {self.position}")

    def edit(self, key: Optional[str] = None, expected: Optional[int] = None) -> Commands:
        """The same commands, for one edit that is done once however often it is given with this key, or behind no other position than
        the one that is expected."""
        return _Edit(self, key, expected)

    def follow(self, seconds: float = 0) -> None:
        """Does the edits that the log has by now; waits so long for one."""
        self._check()
        self._alone(self._follow, seconds)

    def snapshot(self) -> Snapshot:
        """What is held here. All copies at one position have the same."""
        self._check()
        return self._alone(self._snapshot)

    def _check(self) -> None:
        if os.getpid() != self._process:
            raise OtherThread("the copy stays in the process that began it")
        self.session._check()

    def _go_on(self) -> None:
        if self._why:
            raise Stopped(self._why)

    def _asked(self, question: str) -> Line:
        self._go_on()
        return self.session.asked(question)

    def _exchange(self, verb: str, body: bytes) -> bytes:
        return self._given(verb, body, None, None)

    def _end(self) -> None:
        self._why = self._why or "the copy is closed"
        self.log.close()
        self.session.close()

    def _snapshot(self) -> Snapshot:
        self._go_on()
        return Snapshot(self.place, self.held.frames())

    def _given(self, verb: str, body: bytes, key: Optional[str], expected: Optional[int]) -> bytes:
        self._go_on()
        if verb in QUESTIONS:
            return self.session.line(verb, body.decode()).encode() + b"\n"
        named = secrets.token_hex(16) if key is None else key
        try:
            position = self._of_the_log(lambda: self.log.append(verb, body, named, expected, self.place))
            if position > self.position:
                self._reach(position)
        except (LogError, Stopped, Waits) as why:
            why.key = named
            raise
        if named not in self._lines:
            raise AlreadyDone(position)
        return self._lines[named]

    def _follow(self, seconds: float = 0) -> None:
        self._go_on()
        if seconds:
            self._of_the_log(lambda: self.log.wait(self.position, seconds))
        since = monotonic()
        self._reach(self._of_the_log(self.log.end))
        self._fresh = since

    def _reach(self, position: int) -> None:
        """Does the edits up to a position, which the log has."""
        while True:
            edits = self._of_the_log(lambda: self.log.after(self.place, position))
            for edit in edits:
                self._do(edit)
            if self.position >= position:
                return

    def _of_the_log(self, read: Callable[[], T]) -> T:
        """What is read of the log. Where that is another's, the copy stops."""
        try:
            return read()
        except (Broken, NoLog) as why:
            self._why = str(why)
            raise Stopped(self._why) from why

    def _do(self, edit: Edit) -> None:
        # Until all of it is done the copy is one that has stopped, whatever comes between.
        self._why = f"the edit at {edit.position} was broken off"
        if edit.verb not in EDITS:
            raise self._cannot(edit, ValueError(edit.verb))
        try:
            body = edit.body.decode()
            line = self.session.line(edit.verb, body)
            if line != "refused Memory":
                self.held.record(edit.verb, body, line)
        except Exception as why:
            raise self._cannot(edit, why) from why
        if line == "refused Memory":
            self._why = ""
            raise Waits(f"no memory for the edit at {edit.position}")
        self._lines[edit.key] = line.encode() + b"\n"
        while len(self._lines) > _REMEMBERED:
            self._lines.popitem(last=False)
        self.place = Place(edit.position, edit.hash)
        self._why = ""

    def _cannot(self, edit: Edit, why: Exception) -> Stopped:
        self._why = f"the edit at {edit.position} can't be done: {type(why).__name__} {why}"
        return Stopped(self._why)

    def _restore(self, snapshot: Snapshot) -> None:
        """Leads a new session to what the snapshot has, whose place has to be one of the log's."""
        self.log.after(snapshot.place, snapshot.place.position)
        try:
            for verb, body in commands_of(snapshot.frames):
                line = self.session.line(verb, body)
                if line == "refused Memory":
                    raise Waits("no memory for the snapshot")
                self.held.record(verb, body, line)
        except (LookupError, ValueError) as why:
            raise Broken(f"the snapshot at {snapshot.place.position} can't be read: {why}") from why
        if self.held.frames() != snapshot.frames:
            raise Broken(f"the snapshot at {snapshot.place.position} leads elsewhere")
        self.place = snapshot.place


class _Edit(Commands):
    """The commands of a copy, with a key and an expected position."""

    def __init__(self, copy: Copy, key: Optional[str], expected: Optional[int]):
        super().__init__()
        self._copy, self._key, self._expected = copy, key, expected

    def _check(self) -> None:
        self._copy._check()

    def _exchange(self, verb: str, body: bytes) -> bytes:
        return self._copy._alone(self._copy._given, verb, body, self._key, self._expected)

    def _end(self) -> None:
        self._copy.close()


def serve(copy: Copy, frames: BinaryIO, lines: BinaryIO) -> None:
    """Answers frames until they end. A question is asked of all that the log has by then; a tell goes on with it."""
    while True:
        frame = read_frame(frames)
        if frame is None:
            return
        verb, body = frame
        if verb == "ask":
            copy.follow()
        try:
            line = copy.line(verb, body.decode())
        except UnicodeDecodeError:
            line = "refused NotUtf8"
        lines.write(f"{copy.position} {line}\n".encode())
        lines.flush()


def main() -> int:
    asked = argparse.ArgumentParser(usage=__doc__)
    asked.add_argument("database")
    asked.add_argument("name")
    asked.add_argument("--create", action="store_true")
    asked.add_argument("--keep", action="store_true")
    asked.add_argument("--without-types", action="store_true")
    given = asked.parse_args()
    log = Log(given.database, given.name)
    try:
        if given.create:
            log.create(language=WITHOUT_TYPES if given.without_types else LANGUAGE)
            return 0
        with Copy.begin(log, lambda: Session(types=not given.without_types)) as copy:
            if given.keep:
                log.keep(copy.snapshot())
            else:
                serve(copy, sys.stdin.buffer, sys.stdout.buffer)
    except (CedarError, ValueError) as why:
        print(f"{type(why).__name__}: {why}", file=sys.stderr)
        return 1
    return 0


if __name__ == "__main__":
    sys.exit(main())
