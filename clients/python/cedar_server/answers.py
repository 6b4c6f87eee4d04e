"""What a session's line says to a question, as JSON."""

import json

from cedar_session.commands import Line, errors_of, ids_of

_ENCODER = json.JSONEncoder(ensure_ascii=False, separators=(",", ":"))


def evaluated(line: Line, position: int) -> str:
    """An answer as AuthZEN has it."""
    decision, must, _, erring = line
    allows = "true" if decision == "allow" else "false"
    return f'{{"decision":{allows},"context":{{"reasons":{_ids(must)},"erring":{_errors(erring)},"position":{position}}}}}'


def asked(line: Line, position: int) -> str:
    """An answer of /v1/ask."""
    return f'{{{fields(line)},"position":{position}}}'


def fields(line: Line) -> str:
    decision, must, may, erring = line
    return f'"decision":"{decision}","must":{_ids(must)},"may":{_ids(may)},"erring":{_errors(erring)}'


def _ids(listed: str) -> str:
    # (without what a literal escapes the language and JSON write the same)
    return listed if "\\" not in listed and listed.isprintable() else _ENCODER.encode(ids_of(listed))


def _errors(listed: str) -> str:
    return "{}" if listed == "[]" else _ENCODER.encode(errors_of(listed))
