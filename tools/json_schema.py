#!/usr/bin/env python3
"""json_schema.py SCHEMA [FILE]: whether a file, or standard input, is JSON as a schema has it; status 1 where it isn't, with why.

Of JSON Schema it knows `$ref` into `$defs`, `anyOf`, `type`, `const`, `enum`, `required`, `properties`, `additionalProperties`, `items` and
`minimum`, and refuses a schema that has any other word, so that none is passed over."""

import json
import sys

WORDS = {"$ref", "anyOf", "type", "const", "enum", "required", "properties", "additionalProperties", "items", "minimum"}
SILENT = {"$schema", "$defs", "title", "description"}
TYPES = {
    "null": lambda value: value is None,
    "boolean": lambda value: isinstance(value, bool),
    "integer": lambda value: isinstance(value, int) and not isinstance(value, bool),
    "string": lambda value: isinstance(value, str),
    "array": lambda value: isinstance(value, list),
    "object": lambda value: isinstance(value, dict),
}


class Wrong(Exception):
    """A schema that isn't known."""


def same(value, other):
    """Whether two values are the same in JSON, where true is no number."""
    return type(value) is type(other) and value == other


def faults(schema, value, whole=None, at=""):
    """Why a value isn't as the schema has it: the JSON pointer and the words of each fault."""
    whole = schema if whole is None else whole
    unknown = set(schema) - WORDS - SILENT
    if unknown:
        raise Wrong(f"the schema has {', '.join(sorted(unknown))}")
    if "$ref" in schema:
        return faults(whole["$defs"][schema["$ref"].removeprefix("#/$defs/")], value, whole, at)
    found = []
    if "anyOf" in schema:
        tries = [faults(it, value, whole, at) for it in schema["anyOf"]]
        if all(tries):
            found += min(tries, key=len)
    if "type" in schema and not TYPES[schema["type"]](value):
        return [*found, f"{at or '/'}: no {schema['type']}"]
    if "const" in schema and not same(value, schema["const"]):
        found.append(f"{at or '/'}: not {json.dumps(schema['const'])}")
    if "enum" in schema and not any(same(value, it) for it in schema["enum"]):
        found.append(f"{at or '/'}: none of {json.dumps(schema['enum'])}")
    if "minimum" in schema and value < schema["minimum"]:
        found.append(f"{at or '/'}: below {schema['minimum']}")
    if isinstance(value, dict):
        found += faults_of_object(schema, value, whole, at)
    if isinstance(value, list) and "items" in schema:
        for number, item in enumerate(value):
            found += faults(schema["items"], item, whole, f"{at}/{number}")
    return found


def faults_of_object(schema, value, whole, at):
    found = [f"{at or '/'}: {key!r} is missing" for key in schema.get("required", []) if key not in value]
    others = schema.get("additionalProperties", True)
    for key, item in value.items():
        if key in schema.get("properties", {}):
            found += faults(schema["properties"][key], item, whole, f"{at}/{key}")
        elif others is False:
            found.append(f"{at}/{key}: doesn't belong there")
        elif others is not True:
            found += faults(others, item, whole, f"{at}/{key}")
    return found


def distinct(pairs):
    """An object, no key of which stands twice."""
    if len({key for key, _ in pairs}) < len(pairs):
        raise ValueError("a key stands twice")
    return dict(pairs)


def faults_of_text(schema, text):
    """The same of a text of JSON, in which no key of an object stands twice."""
    try:
        value = json.loads(text, object_pairs_hook=distinct)
    except ValueError as error:
        return [f"no JSON: {error}"]
    return faults(schema, value)


def main():
    words = sys.argv[1:]
    if len(words) not in (1, 2):
        sys.exit(__doc__)
    with open(words[0], encoding="utf-8") as it:
        schema = json.load(it)
    if len(words) == 2:
        with open(words[1], encoding="utf-8") as it:
            text = it.read()
    else:
        text = sys.stdin.read()
    found = faults_of_text(schema, text)
    print("\n".join(found) or "as the schema has it")
    return 1 if found else 0


if __name__ == "__main__":
    sys.exit(main())
