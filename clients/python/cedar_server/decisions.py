"""The log of decisions: a line of JSON for each, with the policies that decided."""

import json
import os
from datetime import datetime, timezone
from typing import Optional

from cedar_session import Entity
from cedar_session.commands import Line
from cedar_session.values import Part

from . import answers
from .faults import Fault
from .questions import Question

_ENCODER = json.JSONEncoder(ensure_ascii=False, separators=(",", ":"))


class Decisions:
    """A file to which each process adds whole lines. A decision that can't be told there isn't given."""

    def __init__(self, path: str):
        self._file = os.open(path, os.O_WRONLY | os.O_APPEND | os.O_CREAT | os.O_CLOEXEC, 0o640)

    def tell(self, told: str, position: int, request: Optional[str]) -> None:
        """Adds the line of a decision, which `told_of` has said."""
        now = datetime.now(timezone.utc).isoformat(timespec="milliseconds")
        name = "null" if request is None else _ENCODER.encode(request)
        data = f'{{"time":"{now}","request":{name},{told},"position":{position},"process":{os.getpid()}}}\n'.encode()
        try:
            written = os.write(self._file, data)
        except OSError as why:
            raise Fault(503, "NoDecisionLog", f"the log of decisions can't be written: {why.strerror}") from why
        if written != len(data):
            raise Fault(503, "NoDecisionLog", "the log of decisions is full")


def told_of(question: Question, line: Line) -> str:
    """What is told of a question and its answer, as fields in JSON. The question's context isn't among them."""
    told = {"principal": _part(question.principal), "action": _part(question.action), "resource": _part(question.resource)}
    return f"{_ENCODER.encode(told)[1:-1]},{answers.fields(line)}"


def _part(part: Part) -> Optional[object]:
    if isinstance(part, Entity):
        return {"type": part.type, "id": part.id}
    return {"__unknown": {} if part.type is None else {"type": part.type}}
