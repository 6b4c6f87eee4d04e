"""A question with its own policies and entities, as cedar-wasm's isAuthorized has it: answered by a session of its own, of which nothing stays."""

from typing import Callable, Dict, List, TypeVar

import cedar_session as cedar
from cedar_session import CedarError, Commands, Decision, Entity, Refused
from cedar_session.values import Value

from .faults import Fault, fault_of
from .places import with_place
from .reading import below, entities, fields, items, no, record, record_of, text, uid

T = TypeVar("T")

_CALL, _MORE = frozenset(("principal", "action", "resource", "policies")), frozenset(("context", "entities"))
_POLICIES = frozenset(("staticPolicies", "templates", "templateLinks"))
_LINK = frozenset(("templateId", "newId", "values"))
_SLOTS = {"?principal": "principal", "?resource": "resource"}
_NOTHING: Dict[str, object] = {}


class _Ids:
    """The ids of a call's own, by those that the session gave; equal policies share one of these."""

    def __init__(self) -> None:
        self._own: Dict[str, List[str]] = {}
        self._given: Dict[str, str] = {}

    def add(self, own: str, given: str, at: str) -> None:
        if own in self._given:
            raise Fault(400, "DoubledId", f"another policy has the id {own!r}", at)
        self._given[own] = given
        self._own.setdefault(given, []).append(own)

    def given(self, own: str, at: str) -> str:
        if own not in self._given:
            raise Fault(400, "NoTemplate", f"there is no template {own!r}", at)
        return self._given[own]

    def own(self, given: str) -> List[str]:
        return self._own[given]


def answer_of(call: object) -> Dict[str, object]:
    """What a call is answered, as cedar-wasm has it."""
    found = fields(call, "", _CALL, _MORE)
    principal, action, resource = (uid(found[it], f"/{it}") for it in ("principal", "action", "resource"))
    context = record_of(found.get("context", _NOTHING), "/context")
    held = entities(found.get("entities", []), "/entities")
    with cedar.Session() as session:
        policies = _loaded(session, found["policies"])
        if held:
            _do("/entities", lambda: session.put(held))
        return _answered(session, policies, principal, action, resource, context)


def _answered(session: Commands, ids: _Ids, principal: Entity, action: Entity, resource: Entity, context: Dict[str, Value]) -> Dict[str, object]:
    answer = _do("", lambda: session.ask(principal=principal, action=action, resource=resource, context=context))
    reasons = [own for given in answer.must for own in ids.own(given)]
    errors = [{"policyId": own, "error": {"message": kind}} for given, kind in answer.erring.items() for own in ids.own(given)]
    decision = "allow" if answer.decision is Decision.ALLOW else "deny"
    response = {"decision": decision, "diagnostics": {"reason": sorted(reasons), "errors": errors}}
    return {"type": "success", "response": response, "warnings": []}


def _loaded(session: Commands, value: object) -> _Ids:
    found = fields(value, "/policies", frozenset(), _POLICIES)
    policies, templates = _Ids(), _Ids()
    _load_all(session, found.get("staticPolicies", {}), "/policies/staticPolicies", policies)
    for name, template in record(found.get("templates", _NOTHING), "/policies/templates").items():
        at = below("/policies/templates", name)
        templates.add(name, _one(session, template, at, session.remove_static, "a template"), at)
    items(found.get("templateLinks", []), "/policies/templateLinks", lambda it, at: _link(session, it, at, policies, templates))
    return policies


def _load_all(session: Commands, given: object, at: str, ids: _Ids) -> None:
    """Static policies: one text of all, a list of them, or each under its id."""
    if isinstance(given, str):
        for name in _of_text(session, text(given, at), at):
            _want(session.remove_template, name, at, "a static policy")
            ids.add(name, name, at)
        return
    if isinstance(given, list):
        given = {f"policy{index}": it for index, it in enumerate(given)}
    elif not isinstance(given, dict):
        raise no("a text, a list or an object", given, at)
    for name, policy in record(given, at).items():
        where = below(at, name)
        ids.add(name, _one(session, policy, where, session.remove_template, "a static policy"), where)


def _one(session: Commands, policy: object, at: str, remove_other: Callable[[str], None], kind: str) -> str:
    if isinstance(policy, dict):
        raise Fault(400, "JsonPolicy", "policies are read as texts of Cedar, and not as JSON", at)
    loaded = _of_text(session, text(policy, at), at)
    if len(loaded) != 1:
        raise Fault(400, "NotOne", f"one policy is wanted, and these are {len(loaded)}", at)
    _want(remove_other, loaded[0], at, kind)
    return loaded[0]


def _of_text(session: Commands, policies: str, at: str) -> List[str]:
    try:
        return session.load(policies)
    except CedarError as why:
        raise with_place(fault_of(why), policies, at) from why


def _want(remove_other: Callable[[str], None], name: str, at: str, kind: str) -> None:
    """That a policy isn't of the other kind: of that it can't be removed, and stays."""
    try:
        remove_other(name)
    except Refused as why:
        if why.word == "Memory":
            raise fault_of(why) from why
        return
    raise Fault(400, "OtherKind", f"{kind} is wanted", at)


def _link(session: Commands, value: object, at: str, policies: _Ids, templates: _Ids) -> None:
    found = fields(value, at, _LINK)
    template, own = text(found["templateId"], f"{at}/templateId"), text(found["newId"], f"{at}/newId")
    slots = fields(found["values"], f"{at}/values", frozenset(), frozenset(_SLOTS))
    values = {_SLOTS[slot]: uid(it, below(f"{at}/values", slot)) for slot, it in slots.items()}
    # (a name that no policy of the session has)
    given = f"link {own}"
    policies.add(own, given, f"{at}/newId")
    of = templates.given(template, f"{at}/templateId")
    _do(at, lambda: session.link(of, given, values.get("principal"), values.get("resource")))


def _do(at: str, do: Callable[[], T]) -> T:
    """Does it; where the session refuses, that is a fault of the place."""
    try:
        return do()
    except CedarError as why:
        fault = fault_of(why)
        fault.at = at
        raise fault from why
