"""What the client raises: each is a CedarError."""

import json
from dataclasses import dataclass
from typing import Callable, Optional, Tuple


class CedarError(Exception):
    """What a session can't do."""


@dataclass(frozen=True)
class Fault:
    """What is wrong in a text, and where: lines and characters count from 1, the end is behind the last character, and all four are None
    where no place is known. `kind` is a name, as "UnrecognizedToken" or "Shape", `message` a sentence, `expected` the tokens of which one was
    expected, and `help` what helps, where they are known."""

    line: Optional[int]
    column: Optional[int]
    end_line: Optional[int]
    end_column: Optional[int]
    kind: str
    message: str
    expected: Optional[str]
    help: Optional[str]


def faults_of(listed: bytes) -> Tuple[Fault, ...]:
    """The faults of a JSON list, as `cedar_why` writes it."""
    return tuple(
        Fault(it["line"], it["column"], it["endLine"], it["endColumn"], it["kind"], it["message"], it["expected"], it["help"])
        for it in json.loads(listed)
    )


class Refused(CedarError):
    """A command was refused, and nothing has changed. `word` says why, as "Shape"; "Memory" is want of memory."""

    def __init__(self, word: str, ask: Optional[Callable[[], bytes]] = None):
        super().__init__(word)
        self.word = word
        self._ask = ask
        self._faults: Tuple[Fault, ...] = ()
        self._unasked: Optional[str] = None if ask else "what raised this has no session"

    @property
    def faults(self) -> Tuple[Fault, ...]:
        """What is wrong in the text: of policies each error, of another body each by which it isn't read, or the part that it is refused for.
        The session is asked when this is first read. Empty where no place shows the reason, as where an id is bound, and where the session
        wasn't asked, which `unasked` says."""
        ask, self._ask = self._ask, None
        if ask is not None:
            try:
                self._faults = faults_of(ask())
            except CedarError as why:
                self._unasked = str(why)
        return self._faults

    @property
    def unasked(self) -> Optional[str]:
        """Why the session wasn't asked for the faults, where it wasn't: it is closed, has been given another command since, or can't tell."""
        return self._unasked if self.faults == () else None

    def __reduce__(self) -> Tuple[object, ...]:
        # (what is asked for later stays here)
        return type(self), self.args


class NoCommand(CedarError, ValueError):
    """There is no such verb. Nothing has changed."""


class TooLong(CedarError, ValueError):
    """The body is longer than 1,048,576 bytes. Nothing has changed."""


class NoValue(CedarError, TypeError):
    """What was given is of no kind that the language has. Nothing has changed."""


class BadValue(CedarError, ValueError):
    """A number beyond its range, a text that no UTF-8 has, a type that is no name, what nests too deeply. Nothing has changed."""


class NotCopied(CedarError, TypeError):
    """A session can't be copied or pickled."""


class NotOpen(CedarError):
    """The session is closed, or couldn't be opened."""


class NoLibrary(NotOpen, OSError):
    """The shared object can't be loaded, or is another library, or of another version."""


class NoMemory(CedarError, MemoryError):
    """There was no memory to open a session, or for the line of a command. That command is done, and `last_line` has its line."""


class OtherThread(CedarError):
    """A session stays on the thread, or in the process, that opened it. Nothing has changed."""


class Busy(CedarError):
    """The session is in the middle of a command, into which a signal handler or the like came. Nothing has changed."""


class Ended(CedarError):
    """No line answers the command, so that it may be done or not. The session is closed."""


class TimedOut(Ended, TimeoutError):
    """The line didn't come in time."""
