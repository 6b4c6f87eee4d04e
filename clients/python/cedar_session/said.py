"""Values of the language as JSON (docs/JSON.md), which a session reads by what is proved of it. Each function answers None where JSON doesn't carry
what it is given as it is: a key of a record would stand for something else, or it nests too deeply."""

from collections import abc
from json import JSONEncoder
from typing import Any, Iterable, Mapping, Optional

from .errors import BadValue, NoValue
from .values import _LEAST, _MOST, UNKNOWN, Context, Entity, Extension, Part, Unknown, UnknownPart, Value, name_of, path

# What these keys of an object stand for is no record.
_ESCAPES = frozenset(("__entity", "__extn", "__expr"))
# JSON nests to 128, of which what stands around a value takes some.
_DEEPEST = 100
_literal = JSONEncoder(ensure_ascii=False).encode


class _NotCarried(Exception):
    """JSON doesn't carry the value as it is."""


def id_of(text: str) -> Optional[str]:
    """The id of a policy, a template or a link."""
    return _string(text)


def names_of(entities: Iterable[Entity]) -> Optional[str]:
    """The list of entities by their names."""
    return f"[{','.join(map(_uid, entities))}]"


def listed(entities: Iterable[Entity]) -> Optional[str]:
    """The list of entities with their parents, attributes and tags."""
    try:
        return f"[{','.join(map(_entity, entities))}]"
    except _NotCarried:
        return None


def told(values: Mapping[str, Value]) -> Optional[str]:
    """The values by the names of unknowns."""
    try:
        return _record_of(values, False)
    except _NotCarried:
        return None


def link_of(template: str, link: str, principal: Optional[Entity], resource: Optional[Entity]) -> Optional[str]:
    """A link, with the entities of its slots."""
    slots = {"?principal": principal, "?resource": resource}
    given = ",".join(f'"{slot}":{_uid(entity)}' for slot, entity in slots.items() if entity is not None)
    return f'{{"templateId":{_string(template)},"newId":{_string(link)},"values":{{{given}}}}}'


def question_of(principal: Part, action: Part, resource: Part, context: Context) -> Optional[str]:
    """A question, as `ask-partial` takes it: what isn't known is left out, but for the context, where it is empty."""
    entities = _part("principal", principal) + _part("action", action) + _part("resource", resource)
    try:
        known = '"unknown"' if context is UNKNOWN else _record_of(context, True)
    except _NotCarried:
        return None
    return f'{{{entities}"context":{known}}}'


def _string(text: str) -> str:
    if not isinstance(text, str):
        raise NoValue(f"a {type(text).__name__} is no text")
    if not text.isascii() and any("\ud800" <= it <= "\udfff" for it in text):
        raise BadValue("a text holds half a character")
    return _literal(text)


def _uid(entity: Entity) -> str:
    # (what makes an entity has looked at its type and its id)
    name_of(entity)
    return f'{{"type":"{entity.type}","id":{_literal(entity.id)}}}'


def _part(slot: str, part: Part) -> str:
    """The part, with the comma that stands behind it, or nothing."""
    if not isinstance(part, UnknownPart):
        return f'"{slot}":{_uid(part)},'
    if part.type is None:
        return ""
    if slot == "action":
        raise BadValue("the type of an action can't be stated")
    return f'"{slot}":{{"type":"{path(part.type)}"}},'


def _entity(entity: Entity) -> str:
    data = f'{{"uid":{_uid(entity)}'
    if entity.parents:
        data += f',"parents":{names_of(entity.parents)}'
    for key, record in (("attrs", entity.attrs), ("tags", entity.tags)):
        if record or not isinstance(record, (dict, abc.Mapping)):
            data += f',"{key}":{_record_of(record, False)}'
    return data + "}"


def _record_of(record: object, may_wait: bool) -> str:
    # (to be a dict is told quicker)
    if not isinstance(record, (dict, abc.Mapping)):
        raise NoValue(f"a {type(record).__name__} is no record")
    return _record(record, may_wait, 0)


def _call(function: str, text: str) -> str:
    return f'{{"__extn":{{"fn":"{function}","arg":{_string(text)}}}}}'


def _long(value: int) -> str:
    if not _LEAST <= value <= _MOST:
        raise BadValue("the number has more than 64 bits")
    return int.__repr__(value)


def _value(value: object, may_wait: bool, depth: int) -> str:
    if isinstance(value, str):
        return _string(value)
    if isinstance(value, bool):
        return "true" if value else "false"
    if isinstance(value, int):
        return _long(value)
    if isinstance(value, Entity):
        return f'{{"__entity":{_uid(value)}}}'
    if isinstance(value, Extension):
        return _call(value.function, value.text)
    if isinstance(value, Unknown) and may_wait:
        return _call("unknown", value.name)
    if depth > _DEEPEST:
        raise _NotCarried
    if isinstance(value, (list, set, frozenset)):
        return f"[{','.join([_value(it, may_wait, depth + 1) for it in value])}]"
    if isinstance(value, dict):
        return _record(value, may_wait, depth)
    raise NoValue(f"a {type(value).__name__} is no value of the language")


def _record(record: Mapping[Any, Any], may_wait: bool, depth: int) -> str:
    if not _ESCAPES.isdisjoint(record):
        raise _NotCarried
    return "{%s}" % ",".join([f"{_string(key)}:{_value(it, may_wait, depth + 1)}" for key, it in record.items()])
