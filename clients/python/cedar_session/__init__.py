"""Sessions of the Cedar authorizer.

    import cedar_session as cedar

    with cedar.Session() as session:
        session.load('permit(principal, action, resource) when { context.hour < 18 };')
        alice, view, photo = cedar.Entity("User", "alice"), cedar.Entity("Action", "view"), cedar.Entity("Photo", "1")
        answer = session.ask(principal=alice, action=view, resource=photo, context={"hour": 9})
        answer.decision          # Decision.ALLOW

Questions and entities are given as values, policies as Cedar text, ids as Python's strings. Every error is a CedarError."""

from .commands import BODY_LIMIT, DEPTH, LANGUAGE, WITHOUT_TYPES, Answer, Commands, Decision
from .errors import (
    BadValue,
    Busy,
    CedarError,
    Ended,
    Fault,
    NoCommand,
    NoLibrary,
    NoMemory,
    NotCopied,
    NotOpen,
    NoValue,
    OtherThread,
    Refused,
    TimedOut,
    TooLong,
)
from .session import DEPTH_MAX, Session, SessionThread
from .streams import Child, Connection
from .values import UNKNOWN, Entity, Extension, Unknown, UnknownPart, quoted

__all__ = [
    "BODY_LIMIT",
    "DEPTH",
    "DEPTH_MAX",
    "LANGUAGE",
    "UNKNOWN",
    "WITHOUT_TYPES",
    "Answer",
    "BadValue",
    "Busy",
    "CedarError",
    "Child",
    "Commands",
    "Connection",
    "Decision",
    "Ended",
    "Entity",
    "Extension",
    "Fault",
    "NoCommand",
    "NoLibrary",
    "NoMemory",
    "NoValue",
    "NotCopied",
    "NotOpen",
    "OtherThread",
    "Refused",
    "Session",
    "SessionThread",
    "TimedOut",
    "TooLong",
    "Unknown",
    "UnknownPart",
    "quoted",
]
