"""JSON as Cedar has it, read into the client's values. What JSON leaves open is refused here, each thing with its place: a key that stands
twice, a number with a fraction or beyond 64 bits, null, half a character."""

import json
from collections import Counter
from typing import AbstractSet, Callable, Dict, List, Tuple, TypeVar

from cedar_session import CedarError, Entity, Extension, Unknown
from cedar_session.values import Value

from .faults import Fault

T = TypeVar("T")

LEAST, MOST = -(2**63), 2**63 - 1
_UID, _CALL = frozenset(("type", "id")), frozenset(("fn", "arg"))
_ENTITY = frozenset(("uid", "attrs", "parents", "tags"))
ESCAPES = frozenset(("__entity", "__extn", "__expr", "__unknown"))
_NONE: AbstractSet[str] = frozenset()
_NAMES = {dict: "an object", list: "a list", str: "a string", bool: "a truth value", int: "a number", type(None): "null"}


class _Wrong:
    """What stands where JSON was well-formed, and yet says nothing that is taken."""

    def __init__(self, kind: str, text: str):
        self.kind, self.text = kind, text


def _object(pairs: List[Tuple[str, object]]) -> object:
    made = dict(pairs)
    if len(made) == len(pairs):
        return made
    twice = next(key for key, count in Counter(key for key, _ in pairs).items() if count > 1)
    return _Wrong("DoubledKey", f"the key {json.dumps(twice)} stands twice")


def _fraction(text: str) -> object:
    return _Wrong("Float", f"{text[:40]} isn't a whole number in digits, as the language has them")


def _whole(text: str) -> object:
    # (20 characters have room for any number of 64 bits, with its sign)
    number = int(text) if len(text) <= 20 else MOST + 1
    return number if LEAST <= number <= MOST else _Wrong("BeyondLong", f"{text[:40]} has more than 64 bits")


_DECODER = json.JSONDecoder(object_pairs_hook=_object, parse_float=_fraction, parse_constant=_fraction, parse_int=_whole)


def read(body: bytes) -> object:
    """What a body in JSON says. It raises Fault where it is none."""
    try:
        return _DECODER.decode(body.decode())
    except UnicodeDecodeError as why:
        raise Fault(400, "NotUtf8", f"byte {why.start} isn't UTF-8") from why
    except json.JSONDecodeError as why:
        raise Fault(400, "NoJson", f"{why.msg} at line {why.lineno} column {why.colno}", line=why.lineno, column=why.colno) from why
    except RecursionError:
        raise _too_deep() from None


def _too_deep() -> Fault:
    return Fault(400, "TooDeep", "the body nests too deeply")


def below(at: str, key: object) -> str:
    """The pointer to what stands under a key or a number there."""
    return f"{at}/{str(key).replace('~', '~0').replace('/', '~1')}"


def no(wanted: str, value: object, at: str) -> Fault:
    """The fault of a value that isn't what is wanted there."""
    if isinstance(value, _Wrong):
        return Fault(400, value.kind, value.text, at)
    return Fault(400, "WrongType", f"{wanted} is wanted, and this is {_NAMES.get(type(value), 'another thing')}", at)


def record(value: object, at: str) -> Dict[str, object]:
    if type(value) is not dict:
        raise no("an object", value, at)
    return value


def fields(value: object, at: str, needed: AbstractSet[str], allowed: AbstractSet[str] = _NONE) -> Dict[str, object]:
    """The fields of an object that has all that are needed, and no other than those and what is allowed."""
    found = record(value, at)
    keys = found.keys()
    if not keys >= needed:
        missing = sorted(needed - keys)[0]
        raise Fault(400, "MissingKey", f'the key "{missing}" is missing', at)
    if not keys <= needed and not keys <= (needed | allowed):
        unknown = sorted(keys - needed - allowed)[0]
        raise Fault(400, "UnknownKey", f"there is no such key: {', '.join(sorted(needed | allowed))}", below(at, unknown))
    return found


def text(value: object, at: str) -> str:
    if type(value) is not str:
        raise no("a string", value, at)
    if not value.isascii() and any("\ud800" <= it <= "\udfff" for it in value):
        raise Fault(400, "HalfCharacter", "the string holds half a character", at)
    return value


def items(value: object, at: str, item: Callable[[object, str], T]) -> List[T]:
    """Each item of a list."""
    if type(value) is not list:
        raise no("a list", value, at)
    return [item(it, f"{at}/{index}") for index, it in enumerate(value)]


def named(type_of: str, name: str, at: str) -> Entity:
    """The entity of a type and an id."""
    try:
        return Entity(type_of, name)
    except CedarError as why:
        raise Fault(400, "NoType", str(why), at) from why


def uid(value: object, at: str) -> Entity:
    """An entity by its name: `{"type": .., "id": ..}`, which may stand under `__entity`."""
    if type(value) is dict and len(value) == 1 and "__entity" in value:
        value, at = value["__entity"], f"{at}/__entity"
    found = fields(value, at, _UID)
    return named(text(found["type"], f"{at}/type"), text(found["id"], f"{at}/id"), f"{at}/type")


def value_of(value: object, at: str, may_wait: bool = False) -> Value:
    """A value of the language. What isn't known yet, `{"__unknown": NAME}`, stands in the contexts of questions that may be open."""
    try:
        if isinstance(value, str):
            return text(value, at)
        if isinstance(value, (bool, int)):
            return value
        if isinstance(value, dict):
            return record_of(value, at, may_wait) if ESCAPES.isdisjoint(value) else _escaped(value, at, may_wait)
        if isinstance(value, list):
            return [value_of(it, f"{at}/{index}", may_wait) for index, it in enumerate(value)]
    except RecursionError:
        raise _too_deep() from None
    raise no("a value of the language", value, at)


def record_of(value: object, at: str, may_wait: bool = False) -> Dict[str, Value]:
    """A record of the language, of attributes, tags or a context."""
    return {text(key, below(at, key)): value_of(it, below(at, key), may_wait) for key, it in record(value, at).items()}


def _escaped(found: Dict[str, object], at: str, may_wait: bool) -> Value:
    if len(found) > 1:
        key = sorted(ESCAPES & found.keys())[0]
        raise Fault(400, "Escape", f"the key {key} stands alone in its object", below(at, key))
    if "__entity" in found:
        return uid(found, at)
    if "__unknown" in found and may_wait:
        return Unknown(text(found["__unknown"], f"{at}/__unknown"))
    if "__unknown" in found:
        raise Fault(400, "Unknown", "what isn't known stands in no value but a context of /v1/ask", f"{at}/__unknown")
    if "__extn" in found:
        return _extension(found["__extn"], f"{at}/__extn")
    raise Fault(400, "Expression", "expressions aren't read from JSON", f"{at}/__expr")


def _extension(value: object, at: str) -> Extension:
    """A value of an extension type, by the function that makes it of a text."""
    found = fields(value, at, _CALL)
    function, argument = (text(found[key], f"{at}/{key}") for key in ("fn", "arg"))
    try:
        return Extension(function, argument)
    except CedarError as why:
        raise Fault(400, "Extension", str(why), f"{at}/fn") from why


def entity(value: object, at: str) -> Entity:
    """An entity with what it has: `uid`, and where wanted `attrs`, `parents` and `tags`."""
    found = fields(value, at, frozenset(("uid",)), _ENTITY)
    name = uid(found["uid"], f"{at}/uid")
    parents = items(found.get("parents", []), f"{at}/parents", uid)
    attrs, tags = (record_of(found.get(key, {}), f"{at}/{key}") for key in ("attrs", "tags"))
    return Entity(name.type, name.id, attrs=attrs, parents=parents, tags=tags)


def entities(value: object, at: str = "") -> List[Entity]:
    """A list of entities, as a file of entities has it."""
    return items(value, at, entity)
