"""Who may ask, and who may edit: the tokens of two files, one in a line."""

import hashlib
import hmac
from typing import List, Optional

from .faults import Fault

_LEAST = 16
_SCHEME = "bearer "


class Tokens:
    """The tokens of a file, of which nothing is kept but digests."""

    def __init__(self, digests: List[bytes]):
        self._digests = digests

    @classmethod
    def read(cls, path: str) -> "Tokens":
        """Reads a file. It raises ValueError where that has no token, or one that is short enough to be guessed."""
        with open(path, encoding="utf-8") as it:
            found = it.read().split()
        if not found or min(map(len, found)) < _LEAST:
            raise ValueError(f"{path}: one token of {_LEAST} characters or more stands in each line")
        return cls([_digest(it) for it in found])

    def has(self, token: str) -> bool:
        """Whether it is one of them; what that takes says nothing of how alike they are."""
        given = _digest(token)
        return any([hmac.compare_digest(given, it) for it in self._digests])


def _digest(token: str) -> bytes:
    return hashlib.sha256(token.encode(errors="replace")).digest()


class Doors:
    """What each token opens. Without tokens of those who ask whoever comes may ask; without tokens of those who edit nobody edits."""

    def __init__(self, asking: Optional[Tokens], editing: Optional[Tokens]):
        self._asking, self._editing = asking, editing

    def let_ask(self, header: Optional[str]) -> None:
        """Raises Fault where who sent this header may not ask."""
        if self._asking is None:
            return
        token = _token(header)
        if not self._asking.has(token) and not (self._editing and self._editing.has(token)):
            raise Fault(401, "Unauthorized", "the token isn't one that may ask", "Authorization:")

    def let_edit(self, header: Optional[str]) -> None:
        """Raises Fault where who sent this header may not edit, or see what is held."""
        if self._editing is None:
            raise Fault(403, "NoEdits", "the service was started without tokens of those who edit: --admins")
        token = _token(header)
        if self._editing.has(token):
            return
        if self._asking and self._asking.has(token):
            raise Fault(403, "Forbidden", "the token may ask, and not edit", "Authorization:")
        raise Fault(401, "Unauthorized", "the token isn't one that may edit", "Authorization:")


def _token(header: Optional[str]) -> str:
    if header is None:
        raise Fault(401, "Unauthorized", "a token is wanted: Authorization: Bearer TOKEN", "Authorization:")
    if header[: len(_SCHEME)].lower() != _SCHEME:
        raise Fault(401, "Unauthorized", "the header isn't Bearer TOKEN", "Authorization:")
    return header[len(_SCHEME) :].strip()
