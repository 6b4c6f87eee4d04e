"""The calls: which path leads to which, who may make it, and what is answered."""

import asyncio
import json
import logging
from contextlib import asynccontextmanager
from dataclasses import dataclass
from time import monotonic, perf_counter
from types import MappingProxyType
from typing import AsyncIterator, Awaitable, Callable, Dict, FrozenSet, List, Mapping, Optional, Tuple

from cedar_session import CedarError, Refused, values
from cedar_session.commands import Line
from starlette.applications import Starlette
from starlette.exceptions import HTTPException
from starlette.requests import ClientDisconnect, Request
from starlette.responses import Response
from starlette.routing import Route

from . import answers, quick, reading
from .decisions import Decisions, told_of
from .faults import Fault, fault_of
from .metrics import Metrics, Row
from .page import Page
from .places import with_place
from .points import Point
from .questions import Question, evaluation_of, evaluations_of, question_of
from .remembered import Given, Remembered
from .requests import Headers, age_of, body_of, header, is_within, position_of, query_of
from .tokens import Doors
from .whole import answer_of

Endpoint = Callable[[Request], Awaitable[Response]]
# What answers a question by its body and the headers of its request.
AtOnce = Callable[[bytes, Headers], Response]

_LOGGER = logging.getLogger("gunicorn.error")
_ENCODER = json.JSONEncoder(ensure_ascii=False, separators=(",", ":"))
_QUESTION, _EDIT = frozenset(("position", "age")), frozenset(("expected",))
_NOTHING: FrozenSet[str] = frozenset()
_NO_MORE: Mapping[str, object] = MappingProxyType({})
_LINK, _SLOTS = frozenset(("template", "id")), frozenset(("principal", "resource"))
_TOKEN, _REQUEST, _KEY, _LONGEST = b"authorization", b"x-request-id", b"idempotency-key", 200


@dataclass(frozen=True)
class Limits:
    """How long bodies may be, in bytes; how many seconds they may take; and the age that is asked for where a question says none."""

    body: int = 2_097_152
    seconds: float = 30
    age: Optional[float] = None


@dataclass(frozen=True)
class More:
    """What a service has where it is asked for."""

    decisions: Optional[Decisions] = None
    page: Optional[Page] = None


class Said(Response):
    """JSON that is answered."""

    def __init__(self, text: str) -> None:
        self.status_code, self.background, self.body = 200, None, text.encode()
        self.raw_headers = [(b"content-length", b"%d" % len(self.body)), (b"content-type", b"application/json")]


class Service:
    """The calls, over what answers in this process."""

    def __init__(self, point: Point, doors: Doors, limits: Limits, metrics: Metrics, row: Row, more: More):
        self._point, self._doors, self._limits = point, doors, limits
        self._metrics, self._row, self._decisions, self._page = metrics, row, more.decisions, more.page
        self._remembered = Remembered()

    def app(self) -> Starlette:
        handlers = {HTTPException: self._no_path}
        app = Starlette(routes=self._routes(), exception_handlers=handlers, lifespan=self._lives)  # type: ignore[arg-type]
        # (another path is another path)
        app.router.redirect_slashes = False
        return app

    def at_once(self) -> Dict[bytes, AtOnce]:
        """What answers the calls that ask one question, by their paths, where nothing has to be waited for."""
        if self._limits.age is not None:
            return {}
        return {b"/access/v1/evaluation": self._at_once("evaluation", self._of_evaluation), b"/v1/ask": self._at_once("ask", self._of_ask)}

    def _routes(self) -> List[Route]:
        questions = [
            ("/access/v1/evaluation", "evaluation", self._evaluation),
            ("/v1/ask", "ask", self._ask),
            ("/access/v1/evaluations", "evaluations", self._evaluations),
            ("/v1/is_authorized", "whole", self._whole),
        ]
        edits = [
            ("/v1/policies", "POST", self._load),
            ("/v1/policies/{id:path}", "DELETE", self._removal("remove-static")),
            ("/v1/templates/{id:path}", "DELETE", self._removal("remove-template")),
            ("/v1/links", "POST", self._link),
            ("/v1/links/{id:path}", "DELETE", self._removal("unlink")),
            ("/v1/entities", "PUT", self._entities("put")),
            ("/v1/entities", "POST", self._entities("add")),
            ("/v1/entities/remove", "POST", self._entities("remove")),
        ]
        shown = [("/healthz", "other", self._health), ("/readyz", "other", self._ready), ("/metrics", "other", self._counts), ("/v1/held", "held", self._held)]
        if self._page is not None:
            shown.append(("/", "other", self._page.show))
        return [
            *(Route(path, self._call(call, do), methods=["POST"]) for path, call, do in questions),
            *(Route(path, self._call("edit", do), methods=[method]) for path, method, do in edits),
            *(Route(path, self._call(call, do), methods=["GET"]) for path, call, do in shown),
        ]

    @asynccontextmanager
    async def _lives(self, _: Starlette) -> AsyncIterator[None]:
        running = asyncio.ensure_future(self._point.run())
        standing = asyncio.ensure_future(self._stands())
        try:
            yield
        finally:
            for it in (running, standing):
                it.cancel()
            self._point.close()

    async def _stands(self) -> None:
        """Tells once a second where this process is."""
        while True:
            self._row.stands(self._point.why_not() is None, self._point.position, self._point.seen())
            await asyncio.sleep(1)

    # ---- what all calls have

    def _call(self, call: str, do: Endpoint) -> Endpoint:
        async def answered(request: Request) -> Response:
            since = perf_counter()
            try:
                response = await do(request)
            except Exception as why:
                response = _refusal(why)
            return self._told(request.scope["headers"], call, response, perf_counter() - since)

        return answered

    def _at_once(self, call: str, ask: Callable[[bytes], Given]) -> AtOnce:
        def answered(body: bytes, headers: Headers) -> Response:
            since = perf_counter()
            try:
                self._doors.let_ask(header(headers, _TOKEN))
                is_within(body, self._limits.body)
                response = self._answered(headers, call, body, ask)
            except Exception as why:
                response = _refusal(why)
            return self._told(headers, call, response, perf_counter() - since)

        return answered

    def _told(self, headers: Headers, call: str, response: Response, seconds: float) -> Response:
        self._row.requested(call, response.status_code, seconds)
        given = _name_of(headers)
        if given is not None:
            response.headers["x-request-id"] = given
        return response

    async def _no_path(self, request: Request, why: HTTPException) -> Response:
        said = Fault(405, "NoMethod", f"{request.method} isn't a method of this path") if why.status_code == 405 else None
        response = _refused(said or Fault(404, "NoPath", "there is no such path; docs/SERVICE.md has those that are"))
        response.headers.update(why.headers or {})
        return self._told(request.scope["headers"], "other", response, 0.0)

    async def _json(self, request: Request) -> object:
        return reading.read(await body_of(request, self._limits.body))

    # ---- questions

    async def _asked(self, request: Request) -> bytes:
        """The body of a question, once this process has come to where it is asked."""
        self._doors.let_ask(header(request.scope["headers"], _TOKEN))
        query = query_of(request, _QUESTION)
        position, age = position_of(query, "position"), age_of(query)
        body = await body_of(request, self._limits.body)
        if query or self._limits.age is not None:
            await self._point.come(position or 0, self._limits.age if age is None else age)
        return body

    def _answered(self, headers: Headers, call: str, body: bytes, ask: Callable[[bytes], Given]) -> Response:
        """What one question is answered, from what is remembered where this process answers questions at all."""
        decision, said, line = ask(body) if self._point.why_not() else self._remembered.of(call, body, self._point.position, ask)
        self._tell(headers, decision, line)
        return Said(said)

    def _put(self, body: bytes, quickly: Callable[[bytes], Optional[str]], read: Callable[[object], Question]) -> Tuple[Line, str]:
        """Puts a question to the session: what that says, and what the log of decisions says of it."""
        text = quickly(body) if self._decisions is None else None
        return self._put_read(read(reading.read(body))) if text is None else (self._point.asked(text), "")

    def _put_read(self, question: Question) -> Tuple[Line, str]:
        line = self._point.asked(question.text())
        return line, "" if self._decisions is None else told_of(question, line)

    def _tell(self, headers: Headers, decision: str, line: str) -> None:
        if self._decisions is not None:
            self._decisions.tell(line, self._point.position, _name_of(headers))
        self._row.decided(decision)

    async def _ask(self, request: Request) -> Response:
        return self._answered(request.scope["headers"], "ask", await self._asked(request), self._of_ask)

    def _of_ask(self, body: bytes) -> Given:
        line, told = self._put(body, quick.asked, question_of)
        return line[0], answers.asked(line, self._point.position), told

    async def _evaluation(self, request: Request) -> Response:
        return self._answered(request.scope["headers"], "evaluation", await self._asked(request), self._of_evaluation)

    def _of_evaluation(self, body: bytes) -> Given:
        line, told = self._put(body, quick.evaluation, evaluation_of)
        return line[0], answers.evaluated(line, self._point.position), told

    async def _evaluations(self, request: Request) -> Response:
        asked = evaluations_of(reading.read(await self._asked(request)))
        found = []
        for question in asked.questions:
            line, told = self._put_read(question)
            found.append(answers.evaluated(line, self._point.position))
            self._tell(request.scope["headers"], line[0], told)
            if (line[0] == "allow") is asked.last:
                break
        return Said(found[0] if asked.is_one else f'{{"evaluations":[{",".join(found)}]}}')

    async def _whole(self, request: Request) -> Response:
        self._doors.let_ask(header(request.scope["headers"], _TOKEN))
        query_of(request, _NOTHING)
        try:
            answer = answer_of(await self._json(request))
        except Fault as why:
            return _refused(why, {"type": "failure", "errors": [{"message": f"{why.at} {why.text}".lstrip()}], "warnings": []})
        return _json(answer)

    # ---- edits

    async def _edited(self, request: Request, verb: str, body: str, needs_position: bool = False) -> Tuple[List[str], int]:
        expected = position_of(query_of(request, _EDIT), "expected")
        if needs_position and expected is None:
            raise Fault(428, "NoPosition", "ids are given again once they are free, so a removal states the position that it was read at", "?expected")
        return await self._point.edit(verb, body, _key(request), expected)

    def _let_edit(self, request: Request) -> None:
        self._doors.let_edit(header(request.scope["headers"], _TOKEN))

    async def _load(self, request: Request) -> Response:
        self._let_edit(request)
        body = await body_of(request, self._limits.body)
        try:
            policies = body.decode()
        except UnicodeDecodeError as why:
            raise Fault(400, "NotUtf8", f"byte {why.start} isn't UTF-8") from why
        try:
            ids, position = await self._edited(request, "load", policies)
        except Refused as why:
            raise with_place(fault_of(why), policies) from why
        return _json({"ids": ids, "position": position})

    async def _link(self, request: Request) -> Response:
        self._let_edit(request)
        found = reading.fields(await self._json(request), "", _LINK, _SLOTS)
        template, link = (reading.text(found[key], f"/{key}") for key in ("template", "id"))
        principal, resource = (reading.uid(found[key], f"/{key}") if key in found else None for key in ("principal", "resource"))
        _, position = await self._edited(request, "link", values.link_of(template, link, principal, resource))
        return _json({"position": position})

    def _removal(self, verb: str) -> Endpoint:
        async def removed(request: Request) -> Response:
            self._let_edit(request)
            _, position = await self._edited(request, verb, values.quoted(request.path_params["id"]), True)
            return _json({"position": position})

        return removed

    def _entities(self, verb: str) -> Endpoint:
        async def edited(request: Request) -> Response:
            self._let_edit(request)
            body = await self._json(request)
            listed = values.names_of(reading.items(body, "", reading.uid)) if verb == "remove" else values.listed(reading.entities(body))
            _, position = await self._edited(request, verb, listed)
            return _json({"position": position})

        return edited

    # ---- what is shown

    async def _held(self, request: Request) -> Response:
        self._let_edit(request)
        query_of(request, _NOTHING)
        held, position = self._point.held(), self._point.position
        return _json({"policies": held.policies, "links": held.links, "entities": [it.text() for it in held.entities.values()], "position": position})

    async def _health(self, _: Request) -> Response:
        return _json({"status": "serves"})

    async def _ready(self, _: Request) -> Response:
        why = self._point.why_not()
        if why is not None:
            raise Fault(503, "NotReady", why)
        return _json({"status": "ready", "position": self._point.position, "age": round(max(monotonic() - self._point.seen(), 0.0), 3)})

    async def _counts(self, _: Request) -> Response:
        return Response(self._metrics.text(monotonic()), media_type="text/plain; version=0.0.4")


def _json(said: object, status: int = 200) -> Response:
    return Response(_ENCODER.encode(said), status, media_type="application/json")


def _refused(why: Fault, more: Mapping[str, object] = _NO_MORE) -> Response:
    response = _json({**more, **why.body()}, why.status)
    if why.status == 401:
        response.headers["www-authenticate"] = "Bearer"
    return response


def _refusal(why: Exception) -> Response:
    """What is answered to a call that failed so."""
    if isinstance(why, Fault):
        return _refused(why)
    if isinstance(why, CedarError):
        return _refused(fault_of(why))
    if isinstance(why, ClientDisconnect):
        return _refused(Fault(400, "CutOff", "the body ended before its end"))
    _LOGGER.error("a call failed", exc_info=why)
    return _refused(Fault(500, "Failed", "the service failed; its own log says how"))


def _name_of(headers: Headers) -> Optional[str]:
    """The name that the client gave its request."""
    given = header(headers, _REQUEST)
    return given if given and len(given) <= _LONGEST and given.isprintable() else None


def _key(request: Request) -> Optional[str]:
    """The key by which an edit is done once, however often it is given."""
    key = header(request.scope["headers"], _KEY)
    if key is not None and not (key.isascii() and key.isprintable() and 0 < len(key) <= _LONGEST):
        raise Fault(400, "NoKey", f"a key is 1 to {_LONGEST} characters of ASCII", "Idempotency-Key:")
    return key
