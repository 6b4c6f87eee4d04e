"""The ten commands of a session, whatever keeps it."""

import enum
import re
import threading
import weakref
from dataclasses import dataclass
from types import MappingProxyType
from typing import Callable, Dict, Iterable, List, Match, NoReturn, Optional, Tuple, TypeVar, cast

from . import said, values
from .errors import BadValue, Busy, CedarError, Ended, NoCommand, NotCopied, NotOpen, NoValue, Refused, TooLong
from .values import Context, Entity, Part, Value

BODY_LIMIT = 1_048_576
DEPTH = 256
# The texts that a session takes: another number where a text is accepted that wasn't, or no longer is. Without Cedar's types their
# functions are none.
LANGUAGE = "2"
WITHOUT_TYPES = "2 without types"
EDITS = ("load", "link", "unlink", "remove-static", "remove-template", "add", "put", "remove")
QUESTIONS = ("ask", "tell")

_QUOTED = r'"[^"\\\n]*(?:\\["\\nrt0][^"\\\n]*)*"'
_IDS = rf"\[(?:{_QUOTED}(?:,{_QUOTED})*)?\]"
_ERRORS = rf"\[(?:{_QUOTED}:[A-Za-z]+(?:,{_QUOTED}:[A-Za-z]+)*)?\]"
_REFUSAL = r"refused (?P<word>[A-Za-z0-9]+)"
_LOADED = re.compile(rf"{_REFUSAL}|ok (?P<ids>{_IDS})")
_DONE = re.compile(rf"{_REFUSAL}|ok")
_ANSWER = re.compile(rf"{_REFUSAL}|(?P<decision>allow|deny|open) must=(?P<must>{_IDS}) may=(?P<may>{_IDS}) erring=(?P<erring>{_ERRORS})")
_FORMS = {"load": _LOADED, **dict.fromkeys(QUESTIONS, _ANSWER), **dict.fromkeys(EDITS[1:], _DONE)}
_ID = re.compile(_QUOTED)
_ERROR = re.compile(rf"({_QUOTED}):([A-Za-z]+)")
_ESCAPED = {"n": "\n", "r": "\r", "t": "\t", "0": "\0"}

# So many lines are kept that were read.
_MOST_KNOWN = 256

EMPTY: Context = MappingProxyType({})

T = TypeVar("T")


class Decision(enum.Enum):
    ALLOW = "allow"
    DENY = "deny"
    OPEN = "open"


_DECISIONS = {it.value: it for it in Decision}

# What a line says to a question: the decision, and as they are written the lists of what must be a reason, of what may be, and of what errs.
Line = Tuple[str, str, str, str]


@dataclass
class Answer:
    """What a question is answered: the decision, the ids of the policies that are reasons whatever is unknown, of those that may
    be, and of those that err, each with the kind of its error."""

    decision: Decision
    must: Tuple[str, ...]
    may: Tuple[str, ...]
    erring: Dict[str, str]


def _unquoted(literal: str) -> str:
    if "\\" not in literal:
        return literal[1:-1]
    return re.sub(r"\\(.)", lambda it: _ESCAPED.get(it[1], it[1]), literal[1:-1])


def ids_of(listed: str) -> Tuple[str, ...]:
    """The ids that a list in a line names."""
    return tuple(map(_unquoted, _ID.findall(listed)))


def errors_of(listed: str) -> Dict[str, str]:
    """The ids that a list of errors in a line names, each with its kind."""
    return {_unquoted(name): kind for name, kind in _ERROR.findall(listed)} if listed != "[]" else {}


def answer_of(line: Line) -> Answer:
    """The answer that a line has."""
    decision, must, may, erring = line
    reasons = ids_of(must)
    return Answer(_DECISIONS[decision], reasons, reasons if may == must else ids_of(may), errors_of(erring))


def _line_of(parts: "Match[str]") -> Line:
    return cast(Line, parts.group("decision", "must", "may", "erring"))


def encoded(body: str) -> bytes:
    """The bytes of a body."""
    if not isinstance(body, str):
        raise NoValue(f"a {type(body).__name__} is no text")
    try:
        given = body.encode()
    except UnicodeEncodeError as why:
        raise BadValue("a text holds half a character") from why
    if len(given) > BODY_LIMIT:
        raise TooLong(f"{len(given)} bytes")
    return given


class Commands:
    """The ten commands of a session. Each raises Refused with the refusal's word. A line that answers no command closes the session.

    One thread at a time uses it, and others wait. Who makes another way to a session writes `_exchange` and `_end`."""

    depth = DEPTH
    language = LANGUAGE
    # Whether commands are built as JSON, where that carries what is given: who sets it writes `_exchange_json`.
    _takes_json = False

    def __init__(self) -> None:
        self._lock, self._is_busy = threading.RLock(), False
        # (few lines answer most questions)
        self._known: Dict[bytes, Line] = {}
        self._count = 0

    def _check(self) -> None:
        """Raises where this caller can't give a command."""

    def _exchange(self, verb: str, body: bytes) -> bytes:
        """The line that answers a command, with its line feed."""
        raise NotImplementedError

    def _exchange_json(self, verb: str, json: bytes) -> bytes:
        """The line that answers a command of which JSON says the body, with its line feed."""
        raise NotImplementedError

    def _faults(self, verb: str, body: bytes) -> bytes:
        """The faults of a command that isn't done, as a JSON list."""
        raise CedarError("this way to a session tells no faults")

    def _end(self) -> None:
        """Closes it, where it isn't yet."""
        raise NotImplementedError

    def _alone(self, do: Callable[..., T], *given: object) -> T:
        """Does it while no one else uses the session: another thread waits, and what comes between on this one is refused."""
        with self._lock:
            if self._is_busy:
                raise Busy("the session is in the middle of a command")
            try:
                self._is_busy = True
                return do(*given)
            finally:
                self._is_busy = False

    def _answered(self, verb: str, body: str) -> "Match[str]":
        if verb not in _FORMS:
            raise NoCommand(verb)
        given = encoded(body)
        self._check()
        return self._alone(self._matched, verb, given)

    def _matched(self, verb: str, body: bytes) -> "Match[str]":
        self._count += 1
        return self._match(self._exchange(verb, body), verb)

    def _refused(self, word: str, verb: str, body: bytes) -> Refused:
        """What is raised where the last command was refused. It keeps no session open."""
        session, given = weakref.ref(self), self._count

        def ask() -> bytes:
            asked = session()
            if asked is None:
                raise NotOpen("the session is closed")
            return asked._why_after(given, verb, body)

        return Refused(word, ask)

    def _why_after(self, given: int, verb: str, body: bytes) -> bytes:
        if given != self._count:
            raise CedarError("the session was given another command since")
        self._check()
        return self._alone(self._faults, verb, body)

    def _match(self, line: bytes, verb: str) -> "Match[str]":
        found = _FORMS[verb].fullmatch(line[:-1].decode(errors="replace")) if line.endswith(b"\n") else None
        if found is None:
            self._end()
            raise Ended(f"no line answers {verb}: {line[:80]!r}")
        return found

    def _done(self, verb: str, body: str) -> "Match[str]":
        found = self._answered(verb, body)
        if found["word"] is not None:
            raise self._refused(found["word"], verb, encoded(body))
        return found

    def _built(self, verb: str, json: Callable[[], Optional[str]], text: Callable[[], str]) -> "Match[str]":
        """What answers a command that was built of values: as JSON, where that carries them, and else as a text."""
        given = json() if self._takes_json else None
        if given is None:
            return self._done(verb, text())
        self._check()
        found = self._alone(self._matched_json, verb, given.encode())
        if found["word"] is not None:
            raise self._refused_json(found["word"], verb, text)
        return found

    def _matched_json(self, verb: str, json: bytes) -> "Match[str]":
        self._count += 1
        return self._match(self._exchange_json(verb, json), verb)

    def _refused_json(self, word: str, verb: str, text: Callable[[], str]) -> CedarError:
        """What is raised where JSON was refused: why is asked of the text that says the same."""
        body = text()
        return TooLong("the body is too long") if word == "Long" else self._refused(word, verb, encoded(body))

    def line(self, verb: str, body: str) -> str:
        """The line that answers a command, a refusal too, without its line feed."""
        return self._answered(verb, body).string

    def command(self, verb: str, body: str) -> str:
        """The line that answers a command, where it isn't refused. The body is a text that nobody else wrote a part of."""
        return self._done(verb, body).string

    def load(self, policies: str) -> List[str]:
        """Loads policies and templates, and answers their ids."""
        return list(ids_of(self._done("load", policies)["ids"]))

    def link(self, template: str, link: str, principal: Optional[Entity] = None, resource: Optional[Entity] = None) -> None:
        """Links a template under an id, with the entities of its slots."""
        given = (template, link, principal, resource)
        self._built("link", lambda: said.link_of(*given), lambda: values.link_of(*given))

    def unlink(self, link: str) -> None:
        self._built("unlink", lambda: said.id_of(link), lambda: values.quoted(link))

    def remove_static(self, policy: str) -> None:
        self._built("remove-static", lambda: said.id_of(policy), lambda: values.quoted(policy))

    def remove_template(self, template: str) -> None:
        self._built("remove-template", lambda: said.id_of(template), lambda: values.quoted(template))

    def add(self, entities: Iterable[Entity]) -> None:
        """Adds entities to those held, which stay as they are."""
        given = list(entities)
        self._built("add", lambda: said.listed(given), lambda: values.listed(given))

    def put(self, entities: Iterable[Entity]) -> None:
        """Puts entities in the place of those held."""
        given = list(entities)
        self._built("put", lambda: said.listed(given), lambda: values.listed(given))

    def remove(self, entities: Iterable[Entity]) -> None:
        given = list(entities)
        self._built("remove", lambda: said.names_of(given), lambda: values.names_of(given))

    def ask(self, *, principal: Part, action: Part, resource: Part, context: Context = EMPTY) -> Answer:
        """Asks a question. What isn't known is UNKNOWN, and has to be said; without a context there is an empty one."""
        given = (principal, action, resource, context)
        json = said.question_of(*given) if self._takes_json else None
        if json is None:
            return answer_of(self.asked(values.question_of(*given)))
        self._check()
        return answer_of(self._alone(self._line_to_json, json.encode(), lambda: values.question_of(*given)))

    def asked(self, question: str) -> Line:
        """Asks a question by its text, which nobody else wrote a part of."""
        given = encoded(question)
        self._check()
        return self._alone(self._line_to, given)

    def _line_to(self, question: bytes) -> Line:
        self._count += 1
        return self._known_line(self._exchange("ask", question), lambda word: self._refused(word, "ask", question))

    def _line_to_json(self, question: bytes, text: Callable[[], str]) -> Line:
        self._count += 1
        return self._known_line(self._exchange_json("ask-partial", question), lambda word: self._refused_json(word, "ask", text))

    def _known_line(self, line: bytes, refused: Callable[[str], CedarError]) -> Line:
        """What a line says to a question."""
        known = self._known.get(line)
        if known is None:
            found = self._match(line, "ask")
            if found["word"] is not None:
                raise refused(found["word"])
            known = _line_of(found)
            if len(self._known) >= _MOST_KNOWN:
                self._known.clear()
            self._known[line] = known
        return known

    def tell(self, /, **known: Value) -> Answer:
        """Tells values by the names of the open question's unknowns, which may be `principal`, `action`, `resource` and `context`."""
        return answer_of(_line_of(self._built("tell", lambda: said.told(known), lambda: values.told(known))))

    def close(self) -> None:
        """Closes the session; a closed one stays closed."""
        self._alone(self._end)

    def __enter__(self: T) -> T:
        return self

    def __exit__(self, *_: object) -> None:
        self.close()

    def __reduce_ex__(self, protocol: object) -> NoReturn:
        raise NotCopied(f"a {type(self).__name__} can't be copied")
