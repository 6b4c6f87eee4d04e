"""A folder of policies and entities: policies stand in its files `*.cedar`, entities in its files `*.json`, each a list of them. They are
taken in the order of their names."""

import os
from typing import Iterator, List, Tuple

from cedar_session import CedarError, Session, values
from cedar_session.commands import BODY_LIMIT

from . import reading
from .faults import Fault

# A verb with its body.
Edit = Tuple[str, str]


class NoFolder(CedarError):
    """The folder can't be read, or a file of it isn't taken. The text says which, and where."""


def read(folder: str) -> List[Edit]:
    """The edits that lead a new session to what a folder has, each of which it accepts."""
    found = list(_edits_of(folder))
    with Session() as session:
        for path, edit in found:
            try:
                session.command(*edit)
            except CedarError as why:
                raise NoFolder(f"{path}: {type(why).__name__} {why}") from why
    return [edit for _, edit in found]


def _edits_of(folder: str) -> Iterator[Tuple[str, Edit]]:
    try:
        names = sorted(os.listdir(folder))
    except OSError as why:
        raise NoFolder(f"{folder}: {why.strerror}") from why
    for name in names:
        path = os.path.join(folder, name)
        if name.endswith(".json"):
            yield from ((path, ("put", it)) for it in _puts(path))
        elif name.endswith(".cedar"):
            yield path, ("load", _policies(path))


def _read(path: str) -> bytes:
    try:
        with open(path, "rb") as it:
            return it.read()
    except OSError as why:
        raise NoFolder(f"{path}: {why.strerror}") from why


def _policies(path: str) -> str:
    try:
        return _read(path).decode()
    except UnicodeDecodeError as why:
        raise NoFolder(f"{path}: byte {why.start} isn't UTF-8") from why


def _puts(path: str) -> List[str]:
    """The bodies of the puts, several where one has no room for all."""
    try:
        texts = [values.listed([it])[1:-1] for it in reading.entities(reading.read(_read(path)))]
    except Fault as why:
        raise NoFolder(f"{path}: {why.at} {why.text}") from why
    except CedarError as why:
        raise NoFolder(f"{path}: {why}") from why
    return [f"[{','.join(it)}]" for it in _portions(texts)]


def _portions(texts: List[str]) -> Iterator[List[str]]:
    portion: List[str] = []
    room = BODY_LIMIT - 2
    for text in texts:
        size = len(text.encode()) + 1
        if portion and size > room:
            yield portion
            portion, room = [], BODY_LIMIT - 2
        portion.append(text)
        room -= size
    if portion:
        yield portion
