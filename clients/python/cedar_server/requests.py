"""What a request brings: its headers, its body, up to a limit, and its query."""

import re
from typing import AbstractSet, Dict, List, Optional, Tuple
from urllib.parse import parse_qsl

from starlette.requests import ClientDisconnect, Request

from .faults import Fault

Headers = List[Tuple[bytes, bytes]]

_POSITION = re.compile(r"0|[1-9][0-9]{0,17}", re.ASCII)
_SECONDS = re.compile(r"[0-9]{1,9}(\.[0-9]{1,9})?", re.ASCII)


def header(headers: Headers, name: bytes) -> Optional[str]:
    """The header of a name, in small letters; the first, where there are several."""
    for key, value in headers:
        if key == name:
            return str(value, "latin-1")
    return None


async def body_of(request: Request, limit: int) -> bytes:
    """The whole body. It raises Fault where that is longer, and ClientDisconnect where it ends before its end."""
    body = b""
    while True:
        message = await request.receive()
        if message["type"] == "http.disconnect":
            raise ClientDisconnect()
        body += message.get("body", b"")
        is_within(body, limit)
        if not message.get("more_body", False):
            return body


def is_within(body: bytes, limit: int) -> None:
    """Raises Fault where a body is longer than that."""
    if len(body) > limit:
        raise Fault(413, "TooLong", f"the body is longer than {limit} bytes")


def query_of(request: Request, allowed: AbstractSet[str]) -> Dict[str, str]:
    """The query, where it has nothing but these names, each once."""
    raw = request.scope["query_string"]
    if not raw:
        return {}
    found: Dict[str, str] = {}
    for name, value in parse_qsl(raw.decode("latin-1"), keep_blank_values=True):
        if name not in allowed:
            raise Fault(400, "UnknownKey", f"there is none but {', '.join(sorted(allowed))}", f"?{name}")
        if name in found:
            raise Fault(400, "DoubledKey", "it stands twice", f"?{name}")
        found[name] = value
    return found


def position_of(query: Dict[str, str], name: str) -> Optional[int]:
    """The position that a query states."""
    if name not in query:
        return None
    if not _POSITION.fullmatch(query[name]):
        raise Fault(400, "NoPosition", "a position is a whole number in digits", f"?{name}")
    return int(query[name])


def age_of(query: Dict[str, str]) -> Optional[float]:
    """The age in seconds that a query states."""
    if "age" not in query:
        return None
    if not _SECONDS.fullmatch(query["age"]):
        raise Fault(400, "NoAge", "an age is a number of seconds, as 2 or 0.5", "?age")
    return float(query["age"])
