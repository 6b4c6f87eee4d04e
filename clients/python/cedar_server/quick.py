"""The questions that come most, told in few steps: their parts are entities, and nothing of them is unknown. None is told here of what is anything
else, or wrong: that is read step by step, by `questions`, which says where a fault is."""

import json
from typing import Any, Callable, Dict, Optional

from cedar_session import CedarError, values

from .reading import ESCAPES, LEAST, MOST

# So many types are kept that were told to be names.
_KEPT = 1_024
_DECODER = json.JSONDecoder()


class _Types(Dict[str, str]):
    """The types that were told to be names."""

    def __missing__(self, name: str) -> str:
        checked = values.path(name)
        if len(self) >= _KEPT:
            self.clear()
        self[name] = checked
        return checked


class _Other(Exception):
    """Something else stands there."""


_TYPES = _Types()
_WRONG = (LookupError, TypeError, ValueError, RecursionError, CedarError, _Other)


def evaluation(body: bytes) -> Optional[str]:
    """The text of a question of /access/v1/evaluation."""
    return _told(body, "subject", _action, 5)


def asked(body: bytes) -> Optional[str]:
    """The text of a question of /v1/ask."""
    return _told(body, "principal", _entity, 6)


def _told(body: bytes, principal: str, action: Callable[[Any], str], keys: int) -> Optional[str]:
    """The text of a question whose parts have so many keys."""
    try:
        text = body.decode()
        found, end = _DECODER.raw_decode(text)
        told = _question(found, _entity(found[principal]), action(found["action"]))
    except _WRONG:
        return None
    # Where nothing is escaped each text of the body is written alike in the language. Then a key that stands twice, or too much in a part, leaves a
    # colon in the body that the question lacks: that has those of the context's keys and in texts, four behind its own keys, and two in each name.
    is_all = end == len(text) and "\\" not in text and text.count(":") - len(found) - keys == told.count(":") - 10
    return told if is_all else None


def _question(found: Any, principal: str, action: str) -> str:
    resource = _entity(found["resource"])
    if len(found) == 3:
        return f"{{principal:{principal},action:{action},resource:{resource},context:{{}}}}"
    if len(found) != 4:
        raise _Other
    return f'{{principal:{principal},action:{action},resource:{resource},context:{_record(found["context"])}}}'


def _text(value: Any) -> str:
    if type(value) is not str:
        raise _Other
    return f'"{value}"'


def _entity(value: Any) -> str:
    return f'{_TYPES[value["type"]]}::{_text(value["id"])}'


def _action(value: Any) -> str:
    return f'Action::{_text(value["name"])}'


def _record(value: Any) -> str:
    if type(value) is not dict or not ESCAPES.isdisjoint(value):
        raise _Other
    return "{%s}" % ",".join([f'"{key}":{_value(it)}' for key, it in value.items()])


def _value(value: Any) -> str:
    kind = type(value)
    if kind is str:
        return f'"{value}"'
    if kind is bool:
        return "true" if value else "false"
    if kind is int and LEAST <= value <= MOST:
        return str(value)
    if kind is dict:
        return _record(value)
    if kind is list:
        return "[%s]" % ",".join([_value(it) for it in value])
    raise _Other
