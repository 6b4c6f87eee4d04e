"""How a process speaks HTTP: uvicorn's way, with times for requests, and a short way for questions."""

import asyncio
import json
from typing import Any, Mapping, Optional

from starlette.responses import Response
from uvicorn.protocols.http.flow_control import CLOSE_HEADER  # type: ignore[import]
from uvicorn.protocols.http.httptools_impl import STATUS_LINE, HttpToolsProtocol  # type: ignore[import]

from .app import AtOnce
from .faults import Fault

# So long a connection without a request is kept where the process ends.
_GRACE = 1.0


class Protocol(HttpToolsProtocol):  # type: ignore[misc]
    """HTTP by a parser in C. It closes a connection on which no whole request comes in time; where the process ends, the first request of a
    connection that was just taken is still answered.

    A question that comes in one piece is answered at once, without a task of its own and the layers of the framework, which take longer than the
    answer. Any other request goes that way."""

    seconds = 30.0
    # What answers those questions, by their paths.
    at_once: Mapping[bytes, AtOnce] = {}
    _whole: Optional[asyncio.TimerHandle] = None
    _ask: Optional[AtOnce] = None
    _body = b""
    _is_last = _has_answered = _rests = False

    def connection_made(self, transport: Any) -> None:
        super().connection_made(transport)
        self._wait()

    def data_received(self, data: bytes) -> None:
        self._rests = False
        super().data_received(data)
        if self._ask is not None:
            self._leave()
        if self.cycle is not None and not self.cycle.response_complete and not self.cycle.more_body:
            self._wait_no_more()
        elif self._whole is None and not self._rests:
            self._wait()

    def connection_lost(self, exc: Any) -> None:
        self._wait_no_more()
        super().connection_lost(exc)

    def on_message_begin(self) -> None:
        self._rests = False
        super().on_message_begin()

    def on_headers_complete(self) -> None:
        if self.url in self.at_once and self._may_answer():
            self._ask, self._body = self.at_once[self.url], b""
        else:
            self._begin()

    def on_body(self, body: bytes) -> None:
        if self._ask is None:
            super().on_body(body)
        else:
            self._body = self._body + body if self._body else body

    def on_message_complete(self) -> None:
        if self._ask is None:
            super().on_message_complete()
        else:
            ask, self._ask = self._ask, None
            self._answer(ask(self._body, self.headers))

    def _may_answer(self) -> bool:
        """Whether a question may be answered as soon as it is there: nothing else is under way, and the client reads."""
        parser, waits = self.parser, self._is_last or self.flow.write_paused or self.pipeline or self.transport.is_closing()
        is_plain = parser.get_method() == b"POST" and parser.get_http_version() == "1.1" and not parser.should_upgrade()
        return bool(is_plain and not waits and (self.cycle is None or self.cycle.response_complete))

    def _begin(self) -> None:
        super().on_headers_complete()
        if self._is_last and self.cycle is not None:
            self.cycle.keep_alive = False

    def _leave(self) -> None:
        """Leaves a question whose body isn't there yet to the framework."""
        self._ask = None
        self._begin()
        if self._body:
            super().on_body(self._body)

    def _answer(self, response: Response) -> None:
        stays = self.parser.should_keep_alive()
        headers = [*self.server_state.default_headers, *response.raw_headers]
        if not stays:
            headers.append(CLOSE_HEADER)
        head = b"".join([b"%s: %s\r\n" % it for it in headers])
        self.transport.write(b"%s%s\r\n%s" % (STATUS_LINE[response.status_code], head, response.body))
        self._has_answered = self._rests = True
        if not stays:
            self.transport.close()
        self.on_response_complete()

    def on_response_complete(self) -> None:
        # (from here on uvicorn waits, until more comes)
        self._wait_no_more()
        super().on_response_complete()

    def shutdown(self) -> None:
        if self.cycle is not None or self._has_answered:
            super().shutdown()
        else:
            self._is_last = True
            self.loop.call_later(_GRACE, self._close_unused)

    def _close_unused(self) -> None:
        if self.cycle is None and not self._has_answered:
            self.timeout_keep_alive_handler()

    def _wait(self) -> None:
        self._whole = self.loop.call_later(self.seconds, self._is_late)

    def _wait_no_more(self) -> None:
        waited, self._whole = self._whole, None
        if waited is not None:
            waited.cancel()

    def _is_late(self) -> None:
        if self.cycle is not None and not self.cycle.response_started and not self.transport.is_closing():
            self.transport.write(_late(self.seconds))
        self.timeout_keep_alive_handler()


def _late(seconds: float) -> bytes:
    """What is answered where a body doesn't come."""
    said = json.dumps(Fault(408, "TooSlow", f"the body hasn't come in {seconds:g} seconds").body()).encode()
    head = "HTTP/1.1 408 Request Timeout\r\ncontent-type: application/json\r\nconnection: close\r\n"
    return head.encode() + b"content-length: %d\r\n\r\n%s" % (len(said), said)
