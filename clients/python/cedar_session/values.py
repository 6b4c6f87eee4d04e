"""Values of the language, and the texts that stand for them. A text that a user typed is quoted here, and nowhere else."""

import re
from collections import abc
from dataclasses import dataclass, field
from functools import lru_cache
from typing import AbstractSet, Any, Collection, Dict, Iterable, List, Mapping, Optional, Union

from .errors import BadValue, NoValue

_LEAST, _MOST = -(2**63), 2**63 - 1
_PATH = re.compile(r"[A-Za-z_][A-Za-z0-9_]*(?:::[A-Za-z_][A-Za-z0-9_]*)*")
_RESERVED = frozenset(("true", "false", "if", "then", "else", "in", "like", "has", "is", "__cedar"))
_MAKERS = frozenset(("decimal", "ip", "datetime", "duration"))
# Few types name most entities: of so many, which aren't longer, it is kept whether they are names.
_MOST_PATHS, _LONGEST_PATH = 256, 256
_ESCAPES = str.maketrans({'"': '\\"', "\\": "\\\\", "\n": "\\n", "\r": "\\r", "\t": "\\t", "\0": "\\0"})


@dataclass(frozen=True)
class Entity:
    """An entity, by its type and id. What else it has counts where entities are added or put; elsewhere, and between two that are
    compared, it stands for its name alone."""

    type: str
    id: str
    attrs: Mapping[str, "Value"] = field(default_factory=dict, compare=False)
    parents: Collection["Entity"] = field(default=(), compare=False)
    tags: Mapping[str, "Value"] = field(default_factory=dict, compare=False)
    _name: str = field(default="", init=False, repr=False, compare=False)

    def __post_init__(self) -> None:
        object.__setattr__(self, "_name", f"{path(self.type)}::{quoted(self.id)}")


@dataclass(frozen=True)
class Extension:
    """A value of one of Cedar's extension types, by the function that makes it (`decimal`, `ip`, `datetime` or `duration`) of a text. A session
    refuses it where the text is none of the type."""

    function: str
    text: str

    def __post_init__(self) -> None:
        if not isinstance(self.function, str):
            raise NoValue(f"a {type(self.function).__name__} is no name of a function")
        if self.function not in _MAKERS:
            raise BadValue(f"no function that makes a value of a text is named {self.function!r}")


@dataclass(frozen=True)
class Unknown:
    """A value of a question's context that isn't known yet, with the name by which it is told."""

    name: str


@dataclass(frozen=True)
class UnknownPart:
    """A part of a question that isn't known yet. The type of a principal or a resource may be."""

    type: Optional[str] = None


# A part of a question of which nothing is known.
UNKNOWN = UnknownPart()

# A list and a set are both the language's set; a record's keys are texts.
Value = Union[bool, int, str, Entity, Extension, Unknown, List[Any], AbstractSet[Any], Dict[str, Any]]
Part = Union[Entity, UnknownPart]
Context = Union[Mapping[str, Value], UnknownPart]


def quoted(text: str) -> str:
    """The string literal of a text."""
    # Most texts stand in quotes as they are: what is printable is no half of a character, and none that is escaped but these two.
    if type(text) is str and text.isprintable() and '"' not in text and "\\" not in text:
        return f'"{text}"'
    if not isinstance(text, str):
        raise NoValue(f"a {type(text).__name__} is no text")
    if not text.isascii() and any("\ud800" <= it <= "\udfff" for it in text):
        raise BadValue("a text holds half a character")
    return f'"{str.translate(text, _ESCAPES)}"'


def name_of(entity: Entity) -> str:
    """The expression of an entity's name."""
    if not isinstance(entity, Entity):
        raise NoValue(f"a {type(entity).__name__} is no entity")
    return entity._name


def names_of(entities: Iterable[Entity]) -> str:
    """The list of entities by their names."""
    return f"[{','.join(map(name_of, entities))}]"


def listed(entities: Iterable[Entity]) -> str:
    """The list of entities with their parents, attributes and tags."""
    return f"[{','.join(map(_entity, entities))}]"


def told(values: Mapping[str, Value]) -> str:
    """The record of values by the names of unknowns."""
    return _record_of(values, False)


def link_of(template: str, link: str, principal: Optional[Entity], resource: Optional[Entity]) -> str:
    """The record of a link."""
    slots = {"principal": principal, "resource": resource}
    given = "".join(f",{slot}:{name_of(entity)}" for slot, entity in slots.items() if entity is not None)
    return f"{{template:{quoted(template)},id:{quoted(link)}{given}}}"


def question_of(principal: Part, action: Part, resource: Part, context: Context) -> str:
    """The record of a question."""
    entities = (_part("principal", principal), _part("action", action), _part("resource", resource))
    known = "" if context is UNKNOWN else f"context:{_record_of(context, True)}"
    return f"{{{','.join(it for it in (*entities, known) if it)}}}"


def _part(slot: str, part: Part) -> str:
    if not isinstance(part, UnknownPart):
        return f"{slot}:{name_of(part)}"
    if part.type is None:
        return ""
    if slot == "action":
        raise BadValue("the type of an action can't be stated")
    return f"{slot}_type:{quoted(path(part.type))}"


def _entity(entity: Entity) -> str:
    data = f"{{uid:{name_of(entity)}"
    if entity.parents:
        data += f",parents:{names_of(entity.parents)}"
    for key, record in (("attrs", entity.attrs), ("tags", entity.tags)):
        if record or not isinstance(record, (dict, abc.Mapping)):
            data += f",{key}:{_record_of(record, False)}"
    return data + "}"


def _record_of(record: object, may_wait: bool) -> str:
    # (to be a dict is told quicker)
    if not isinstance(record, (dict, abc.Mapping)):
        raise NoValue(f"a {type(record).__name__} is no record")
    try:
        return _record(record, may_wait)
    except RecursionError:
        raise BadValue("it nests too deeply, or holds itself") from None


def _text(value: object, may_wait: bool) -> str:
    if isinstance(value, bool):
        return "true" if value else "false"
    if isinstance(value, int):
        if not _LEAST <= value <= _MOST:
            raise BadValue("the number has more than 64 bits")
        return int.__repr__(value)
    if isinstance(value, str):
        return quoted(value)
    if isinstance(value, Entity):
        return name_of(value)
    if isinstance(value, Extension):
        return f"{value.function}({quoted(value.text)})"
    if isinstance(value, Unknown) and may_wait:
        return f"unknown({quoted(value.name)})"
    if isinstance(value, (list, set, frozenset)):
        return f"[{','.join([_text(it, may_wait) for it in value])}]"
    if isinstance(value, dict):
        return _record(value, may_wait)
    raise NoValue(f"a {type(value).__name__} is no value of the language")


def _record(record: Mapping[Any, Any], may_wait: bool) -> str:
    return "{%s}" % ",".join([f"{quoted(key)}:{_text(it, may_wait)}" for key, it in record.items()])


def path(name: str) -> str:
    """The name of a type of entities, where it is one."""
    if not isinstance(name, str):
        raise NoValue(f"a {type(name).__name__} is no type of entities")
    is_one = _is_known_path(name) if type(name) is str and len(name) <= _LONGEST_PATH else _is_path(name)
    if not is_one:
        raise BadValue(f"no type of entities is named {name!r}")
    return name


def _is_path(name: str) -> bool:
    return _PATH.fullmatch(name) is not None and _RESERVED.isdisjoint(name.split("::"))


_is_known_path = lru_cache(_MOST_PATHS)(_is_path)
