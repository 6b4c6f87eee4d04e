"""The questions that calls ask, read from their bodies: those of /v1/ask, and those of OpenID AuthZEN."""

from dataclasses import dataclass
from typing import Dict, List, Optional

from cedar_session import UNKNOWN, Entity, UnknownPart, values
from cedar_session.values import Context, Part, Value

from .faults import Fault
from .reading import fields, named, no, record_of, text, uid

# So many questions stand in one call at most: all are answered at one position, and nothing else meanwhile.
MOST = 1_000

_UNKNOWN = frozenset(("__unknown",))
_ASKED = frozenset(("principal", "action", "resource"))
_CONTEXT = frozenset(("context",))
_PARTS = frozenset(("subject", "action", "resource"))
_WITH_CONTEXT = _PARTS | _CONTEXT
_TYPED, _NAMED, _PROPERTIES = frozenset(("type", "id")), frozenset(("name",)), frozenset(("properties",))
_SEMANTICS = {"execute_all": None, "deny_on_first_deny": False, "permit_on_first_permit": True}


@dataclass(frozen=True)
class Question:
    """What is asked."""

    principal: Part
    action: Part
    resource: Part
    context: Context

    def text(self) -> str:
        """The text by which a session is asked it."""
        return values.question_of(self.principal, self.action, self.resource, self.context)


@dataclass(frozen=True)
class Evaluations:
    """What a call of AuthZEN asks; it ends behind the first decision that is `last`. `is_one` where no list of questions stands there."""

    questions: List[Question]
    last: Optional[bool] = None
    is_one: bool = False


def question_of(value: object) -> Question:
    """The question of /v1/ask, any part of which may be unknown, where it says so: `{"__unknown": {}}`, or
    `{"__unknown": {"type": ..}}` where its type is known."""
    found = fields(value, "", _ASKED, _CONTEXT)
    principal, action, resource = (_part(found[it], f"/{it}", it != "action") for it in ("principal", "action", "resource"))
    return Question(principal, action, resource, _context(found.get("context", {}), "/context"))


def _part(value: object, at: str, has_type: bool) -> Part:
    if type(value) is not dict or "__unknown" not in value:
        return uid(value, at)
    fields(value, at, _UNKNOWN)
    at = f"{at}/__unknown"
    found = fields(value["__unknown"], at, frozenset(), frozenset(("type",)) if has_type else frozenset())
    if "type" not in found:
        return UNKNOWN
    at = f"{at}/type"
    return UnknownPart(named(text(found["type"], at), "", at).type)


def _context(value: object, at: str) -> Context:
    if type(value) is dict and value.get("__unknown") == {}:
        fields(value, at, _UNKNOWN)
        return UNKNOWN
    return record_of(value, at, True)


def evaluation_of(value: object) -> Question:
    """The question of /access/v1/evaluation."""
    found = fields(value, "", _PARTS, _CONTEXT)
    return _evaluation(found, {key: f"/{key}" for key in found})


def evaluations_of(value: object) -> Evaluations:
    """The questions of /access/v1/evaluations: what an item lacks stands beside the list. Without items it is one question."""
    found = fields(value, "", frozenset(), _WITH_CONTEXT | {"evaluations", "options"})
    listed = found.get("evaluations", [])
    if type(listed) is not list:
        raise no("a list", listed, "/evaluations")
    if len(listed) > MOST:
        raise Fault(400, "TooMany", f"{len(listed)} questions stand in one call, and {MOST} may", "/evaluations")
    last = _semantic(found.get("options", {}))
    beside = {key: found[key] for key in _WITH_CONTEXT if key in found}
    if not listed:
        return Evaluations([evaluation_of(beside)], is_one=True)
    return Evaluations([_item(it, beside, f"/evaluations/{index}") for index, it in enumerate(listed)], last)


def _semantic(options: object) -> Optional[bool]:
    found = fields(options, "/options", frozenset(), frozenset(("evaluations_semantic",)))
    at = "/options/evaluations_semantic"
    semantic = text(found.get("evaluations_semantic", "execute_all"), at)
    if semantic not in _SEMANTICS:
        raise Fault(400, "NoSemantic", f"there is none but {', '.join(_SEMANTICS)}", at)
    return _SEMANTICS[semantic]


def _item(item: object, beside: Dict[str, object], at: str) -> Question:
    own = fields(item, at, frozenset(), _WITH_CONTEXT)
    missing = sorted(_PARTS - own.keys() - beside.keys())
    if missing:
        raise Fault(400, "MissingKey", f'the key "{missing[0]}" is missing, and none stands beside the list', at)
    found = {**beside, **own}
    return _evaluation(found, {key: f"{at}/{key}" if key in own else f"/{key}" for key in found})


def _evaluation(found: Dict[str, object], places: Dict[str, str]) -> Question:
    context: Dict[str, Value] = record_of(found["context"], places["context"]) if "context" in found else {}
    subject, action, resource = (_of_authzen(found[it], places[it], it, context) for it in ("subject", "action", "resource"))
    return Question(subject, action, resource, context)


def _of_authzen(value: object, at: str, part: str, context: Dict[str, Value]) -> Entity:
    """A part of a question. What properties it brings stand in the context, under the part's name: attributes are those that are put."""
    found = fields(value, at, _NAMED if part == "action" else _TYPED, _PROPERTIES)
    if "properties" in found:
        _add(record_of(found["properties"], f"{at}/properties"), f"{at}/properties", part, context)
    if part == "action":
        return named("Action", text(found["name"], f"{at}/name"), f"{at}/name")
    return named(text(found["type"], f"{at}/type"), text(found["id"], f"{at}/id"), f"{at}/type")


def _add(properties: Dict[str, Value], at: str, part: str, context: Dict[str, Value]) -> None:
    if properties and part in context:
        raise Fault(400, "DoubledKey", f'properties stand in the context as "{part}", which it has already', at)
    if properties:
        context[part] = properties
