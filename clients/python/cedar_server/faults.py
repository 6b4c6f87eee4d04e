"""What is refused, and how that is said: a status, and a body in JSON with the kind, the place and words. No fault is a decision."""

from typing import Dict, Tuple, Type

from cedar_session import BadValue, CedarError, NoMemory, NotOpen, NoValue, Refused, TooLong
from cedar_session.copies import AlreadyDone, Behind, Broken, Differs, KeyTaken, LogError, Moved, Waits

# Of the kinds that a client's error is of the first one counts.
_STATUSES: Tuple[Tuple[Type[CedarError], int], ...] = (
    (TooLong, 413),
    (BadValue, 422),
    (NoValue, 422),
    (Moved, 409),
    (KeyTaken, 409),
    (AlreadyDone, 409),
    (Behind, 409),
    (LogError, 503),
    (Broken, 503),
    (Differs, 503),
    (Waits, 503),
    (NoMemory, 503),
    (NotOpen, 503),
)


class Fault(Exception):
    """A request that isn't answered. `at` is where: a JSON pointer into the body (`/context/hour`), a part of the query (`?age`) or a header
    (`Authorization:`)."""

    def __init__(self, status: int, kind: str, text: str, at: str = "", **more: object):
        super().__init__(text)
        self.status, self.kind, self.text, self.at, self.more = status, kind, text, at, more

    def body(self) -> Dict[str, object]:
        """What is answered."""
        said: Dict[str, object] = {"kind": self.kind, "at": self.at, "text": self.text}
        return {"error": {**said, **self.more}}


def fault_of(why: CedarError) -> Fault:
    """The fault that stands for an error of the client. What an edit needs to be given again is told with it."""
    if isinstance(why, Refused):
        # (there may be memory later)
        return Fault(503 if why.word == "Memory" else 422, "Refused", f"refused {why.word}", word=why.word)
    status = next((status for kind, status in _STATUSES if isinstance(why, kind)), 500)
    more = {name: getattr(why, name) for name in ("key", "position") if getattr(why, name, None) is not None}
    return Fault(status, type(why).__name__, str(why), **more)
