#!/usr/bin/env python3
"""agree.py FOLDER --program PATH, at the top of the repository: whether the program cedar_session answers as a folder of cases in the
layout of Cedar's public integration tests expects.

Each NAME.json below FOLDER with a key `requests` is a case file: `policies` and `entities` name files, from FOLDER or from the file's own
folder, and each request has `principal`, `action`, `resource`, `context`, and the `decision`, `reason` and `errors` that are expected. Entities
and requests are JSON, which is turned into bodies here; schemas are not looked at. A case file is one session: `put`, `load`, then
an `ask` for each request, whose decision, reasons and erring policies must be the same sets.

Left out, each with why, are files whose policies or entities call an extension function that the program doesn't have, those that ask
for groups of actions, which stand in a schema, and numbers that are no longs. All else that is refused differs. Prints each request that differs, how many agree, differ and
are left out, and ends with status 1 where one differs or none agrees."""

import argparse
import collections
import json
import os
import re
import subprocess
import sys

SECONDS = 120
ESCAPES = {ord(it): f"\\u{{{ord(it):x}}}" for it in map(chr, [*range(32), 127])}
ESCAPES.update(str.maketrans({"\\": "\\\\", '"': '\\"', "\n": "\\n", "\r": "\\r", "\t": "\\t", "\0": "\\0"}))
ANSWER = re.compile(r"(allow|deny|open) must=\[(.*?)\] may=\[.*?\] erring=\[(.*)\]")
ID = re.compile(r'"((?:\\.|[^"\\])*)"')
GROUPS = re.compile(r"\baction\s+in\b")
EXTENSION = re.compile(r"(?<![\w.:])(ip|decimal|datetime|duration)\(")


class LeftOut(Exception):
    """Why a case isn't tried."""


# ---- JSON as bodies


def quoted(text):
    return f'"{text.translate(ESCAPES)}"'


def entity_of(data):
    """The name of an entity, with or without its escape."""
    data = data.get("__entity", data) if isinstance(data, dict) else data
    if isinstance(data, str):
        return data
    return f"{data['type']}::{quoted(data['id'])}"


def call_of(data):
    arguments = data["args"] if "args" in data else [data["arg"]]
    return f"{data['fn']}({', '.join(map(value_of, arguments))})"


def value_of(data):
    if isinstance(data, bool):
        return "true" if data else "false"
    if isinstance(data, int):
        return str(data)
    if isinstance(data, str):
        return quoted(data)
    if isinstance(data, list):
        return f"[{', '.join(map(value_of, data))}]"
    if isinstance(data, dict):
        if data.keys() == {"__entity"}:
            return entity_of(data)
        return call_of(data["__extn"]) if data.keys() == {"__extn"} else record_of(data)
    raise LeftOut(f"{json.dumps(data)} is no value of Cedar's")


def record_of(data):
    return f"{{{', '.join(f'{quoted(key)}: {value_of(value)}' for key, value in data.items())}}}"


def listed(entities):
    """The list of entities as a body."""
    return f"[{', '.join(map(listed_one, entities))}]"


def listed_one(data):
    parents = ", ".join(map(entity_of, data.get("parents", [])))
    return f"{{uid: {entity_of(data['uid'])}, parents: [{parents}], attrs: {record_of(data.get('attrs', {}))}, tags: {record_of(data.get('tags', {}))}}}"


def question_of(request):
    parts = {it: entity_of(request[it]) for it in ("principal", "action", "resource") if request.get(it) is not None}
    parts["context"] = record_of(request.get("context") or {})
    return f"{{{', '.join(f'{key}: {text}' for key, text in parts.items())}}}"


# ---- a case file


def read(folder, file, name):
    """The text of a file that a case names."""
    paths = [os.path.join(it, name) for it in (folder, os.path.dirname(file))]
    path = next((it for it in paths if os.path.isfile(it)), None)
    if path is None:
        raise LeftOut(f"there is no file {name}")
    with open(path, encoding="utf-8") as it:
        return it.read()


def frame(verb, body):
    data = body.encode()
    return b"%s %d\n%s\n" % (verb.encode(), len(data), data)


def lines_of(program, frames):
    done = subprocess.run([program], input=b"".join(frames), stdout=subprocess.PIPE, timeout=SECONDS, check=False)
    return done.stdout.decode().splitlines()


def answer_of(line):
    """Decision, reasons and erring policies of a line, or the line."""
    found = ANSWER.fullmatch(line)
    return (found[1], set(ID.findall(found[2])), set(ID.findall(found[3]))) if found else line


def expected_of(request):
    return request["decision"].lower(), set(request.get("reason", request.get("reasons", []))), set(request.get("errors", []))


def session_of(case, folder, file, program):
    """What the program answers to each request, in order."""
    policies = read(folder, file, case["policies"])
    if case.get("schema") and GROUPS.search(policies):
        raise LeftOut("`action in` asks for groups that stand in a schema")
    entities = json.loads(read(folder, file, case["entities"]))
    frames = [frame("put", listed(entities)), frame("load", policies), *(frame("ask", question_of(it)) for it in case["requests"])]
    put, load, *answers = [*lines_of(program, frames), *["no line"] * len(frames)][: len(frames)]
    called = EXTENSION.search(policies) or EXTENSION.search(listed(entities))
    if called and not (put == "ok" and load.startswith("ok")):
        raise LeftOut(f"`{called[1]}` is called, which the program doesn't have")
    if put != "ok" or not load.startswith("ok"):
        return [f"put: {put}, load: {load}"] * len(case["requests"])
    return [answer_of(it) for it in answers]


def faults_of(case, folder, file, program):
    """Of each request the place and what differs, or nothing."""
    got = session_of(case, folder, file, program)
    for number, (request, answer) in enumerate(zip(case["requests"], got)):
        expected = expected_of(request)
        where = f"{file}: request {number}, {request.get('description', 'no description')}"
        yield None if answer == expected else f"{where}: {expected} is expected, not {answer}"


def case_files(folder):
    for path, _, names in sorted(os.walk(folder)):
        for name in sorted(it for it in names if it.endswith(".json")):
            file = os.path.join(path, name)
            with open(file, encoding="utf-8") as it:
                case = json.load(it)
            if isinstance(case, dict) and "requests" in case:
                yield file, case


def main():
    parser = argparse.ArgumentParser(description="agreement with cases in the layout of Cedar's integration tests")
    parser.add_argument("folder", metavar="FOLDER")
    parser.add_argument("--program", required=True, metavar="PATH")
    args = parser.parse_args()
    agree, faults, left_out = 0, [], collections.Counter()
    for file, case in case_files(args.folder):
        try:
            told = list(faults_of(case, args.folder, file, os.path.abspath(args.program)))
        except LeftOut as why:
            left_out[str(why)] += len(case["requests"])
            continue
        agree += told.count(None)
        faults += filter(None, told)
    print("\n".join(faults), end="\n" if faults else "")
    for why, count in sorted(left_out.items()):
        print(f"left out, {count}: {why}")
    print(f"{agree} agree, {len(faults)} differ, {sum(left_out.values())} left out")
    return 1 if faults or not agree else 0


if __name__ == "__main__":
    sys.exit(main())
