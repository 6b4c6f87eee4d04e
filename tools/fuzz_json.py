#!/usr/bin/env python3
"""fuzz_json.py --program PATH [--documents N] [--seed N], at the top of the repository: whether commands given as JSON are answered as
those given as Cedar texts.

Makes random documents of JSON, every second of which is spoilt, each for one command: entities to put, add or remove, questions whole
and in part, what is told, links. The program cedar_cli answers each in a line of JSON ('session --json'), and the Cedar text of it, which
a converter of this file's own makes, in a frame ('session'); where the converter says that a document says nothing, the program has
to say so too. Both sessions go on from command to command, and begin anew after some.

Prints each document that is answered otherwise, then how often each answer came, and ends with status 1 where one differed, or where
documents that said something, or nothing, never came."""

import argparse
import collections
import itertools
import json
import random
import re
import subprocess
import sys

# A line is an object, of which a document is a part.
DEEPEST = 127
LONG = re.compile(r"-?[0-9]+\Z")
IDENT = re.compile(r"[_a-zA-Z][_a-zA-Z0-9]*\Z")
RESERVED = {"true", "false", "if", "then", "else", "in", "is", "like", "has", "__cedar"}
ESCAPES = {"__entity", "__extn", "__expr"}
UID_TEXT = re.compile(r"\s*((?:[_a-zA-Z]\w*\s*::\s*)+)\"((?:[^\"\\]|\\.)*)\"\s*\Z", re.A)
BACKSLASHES = {"n": "\n", "r": "\r", "t": "\t", "0": "\0", "\\": "\\", '"': '"', "'": "'"}
POLICIES = """permit(principal, action, resource) when { context has n && context.n == 1 };
forbid(principal in G::"g", action, resource) unless { principal has ok && principal.ok };
permit(principal == U::"a", action in [Action::"view", Action::"edit"], resource);
permit(principal == ?principal, action, resource in ?resource);
permit(principal, action, resource) when { resource.getTag("t") == "x" || context.s.contains("q") };"""


class Unsaid(Exception):
    """The document says nothing of what is asked for."""


# ---- the converter: a document to the text of a body


class Number(str):
    """A number as it is written."""


class Members(list):
    """The members of an object, in order."""


def document_of(text):
    """The document, with numbers as written and objects as lists of members."""
    try:
        return json.loads(text, parse_int=Number, parse_float=Number, parse_constant=nothing, object_pairs_hook=Members)
    except (ValueError, RecursionError) as why:
        raise Unsaid(str(why)) from why


def nothing(*_):
    raise Unsaid("nothing")


def depth_of(node):
    if isinstance(node, Members):
        return 1 + max((depth_of(it) for _, it in node), default=0)
    return 1 + max(map(depth_of, node), default=0) if isinstance(node, list) else 0


def check(condition, why="nothing"):
    if not condition:
        raise Unsaid(why)


def quoted(text):
    check(not any(0xD800 <= ord(it) < 0xE000 for it in text))
    return '"' + "".join(f"\\u{{{ord(it):x}}}" if it in '"\\' or not it.isprintable() else it for it in text) + '"'


def fields_of(node, allowed):
    """The members of an object that has these keys alone, none twice."""
    check(isinstance(node, Members))
    found = dict(node)
    check(len(found) == len(node) and found.keys() <= set(allowed))
    return found


def name_of(node):
    check(isinstance(node, str) and not isinstance(node, Number))
    check(all(IDENT.match(it) and it not in RESERVED for it in node.split("::")))
    return node


def string_of(node):
    check(isinstance(node, str) and not isinstance(node, Number))
    return quoted(node)


def uid_of(node):
    found = fields_of(node, ["type", "id"])
    check(len(found) == 2)
    return f"{name_of(found['type'])}::{string_of(found['id'])}"


def entity_of(node):
    check(isinstance(node, Members))
    return uid_of(node[0][1]) if [key for key, _ in node] == ["__entity"] else uid_of(node)


def asked_of(node):
    """An entity of a question, perhaps in a string."""
    if not isinstance(node, str) or isinstance(node, Number):
        return entity_of(node)
    found = UID_TEXT.match(node)
    check(found)
    names = [it.strip() for it in found[1].split("::")[:-1]]
    check(all(IDENT.match(it) and it not in RESERVED for it in names))
    return "::".join(names) + "::" + quoted(unescaped(found[2]))


def unescaped(text):
    def one(found):
        if found[1]:
            check(int(found[1], 16) < 0x80)
            return chr(int(found[1], 16))
        if found[2]:
            code = int(found[2], 16)
            check(code < 0x110000 and not 0xD800 <= code < 0xE000)
            return chr(code)
        check(found[3] in BACKSLASHES)
        return BACKSLASHES[found[3]]

    check("\r" not in text)
    return re.sub(r"(?s)\\(?:x([0-9a-fA-F]{2})|u\{([0-9a-fA-F]{1,6})\}|(.))", one, text)


def call_of(node):
    found = fields_of(node, ["fn", "arg", "args"])
    check(len(found) == 2 and "fn" in found)
    if "arg" in found:
        return f"{name_of(found['fn'])}({value_of(found['arg'])})"
    check(isinstance(found["args"], list) and not isinstance(found["args"], Members))
    return f"{name_of(found['fn'])}({', '.join(map(value_of, found['args']))})"


def value_of(node):
    if isinstance(node, bool):
        return "true" if node else "false"
    if isinstance(node, Number):
        check(LONG.match(node) and -(2**63) <= int(node) < 2**63)
        return str(int(node))
    if isinstance(node, str):
        return quoted(node)
    if isinstance(node, Members):
        return object_of(node)
    check(isinstance(node, list))
    return f"[{', '.join(map(value_of, node))}]"


def object_of(node):
    keys = [key for key, _ in node]
    if keys == ["__entity"]:
        return uid_of(node[0][1])
    return call_of(node[0][1]) if keys == ["__extn"] else record_of(node)


def record_of(node):
    check(isinstance(node, Members))
    found = dict(node)
    check(len(found) == len(node) and not found.keys() & ESCAPES)
    return "{" + ", ".join(f"{quoted(key)}: {value_of(it)}" for key, it in node) + "}"


def items_of(node, read):
    check(isinstance(node, list) and not isinstance(node, Members))
    return f"[{', '.join(map(read, node))}]"


def listed_of(node):
    found = fields_of(node, ["uid", "parents", "attrs", "tags"])
    check("uid" in found)
    told = [f"uid: {entity_of(found['uid'])}"]
    if "parents" in found:
        told.append(f"parents: {items_of(found['parents'], entity_of)}")
    told += [f"{key}: {record_of(found[key])}" for key in ("attrs", "tags") if key in found]
    return "{" + ", ".join(told) + "}"


def question_of(node):
    found = fields_of(node, ["principal", "action", "resource", "context"])
    check(len(found.keys() - {"context"}) == 3)
    told = [f"{key}: {asked_of(found[key])}" for key in ("principal", "action", "resource")]
    return "{" + ", ".join([*told, f"context: {record_of(found.get('context', Members()))}"]) + "}"


def part_of(key, node):
    if key != "action" and isinstance(node, Members) and [it for it, _ in node] == ["type"]:
        return f"{key}_type: {quoted(name_of(node[0][1]))}"
    return f"{key}: {asked_of(node)}"


def partial_question_of(node):
    found = fields_of(node, ["principal", "action", "resource", "context"])
    told = [part_of(key, found[key]) for key in ("principal", "action", "resource") if key in found]
    context = found.get("context", Members())
    if context != "unknown" or isinstance(context, Number):
        told.append(f"context: {record_of(context)}")
    return "{" + ", ".join(told) + "}"


def link_of(node):
    check(isinstance(node, Members))
    spelled = next((it for it in (("template_id", "link_id", "args"), ("templateId", "newId", "values")) if {key for key, _ in node} == set(it)), None)
    check(spelled)
    found = fields_of(node, spelled)
    slots = fields_of(found[spelled[2]], ["?principal", "?resource"])
    told = [f"template: {string_of(found[spelled[0]])}", f"id: {string_of(found[spelled[1]])}"]
    return "{" + ", ".join([*told, *[f"{key[1:]}: {asked_of(it)}" for key, it in slots.items()]]) + "}"


COMMANDS = {
    "put": lambda it: items_of(it, listed_of),
    "add": lambda it: items_of(it, listed_of),
    "remove": lambda it: items_of(it, entity_of),
    "ask": question_of,
    "askPartial": partial_question_of,
    "tell": record_of,
    "link": link_of,
    "unlink": string_of,
}


def body_of(command, text):
    """The Cedar text of a document, or None where it says nothing."""
    try:
        node = document_of(text)
        check(depth_of(node) <= DEEPEST)
        return COMMANDS[command](node)
    except Unsaid:
        return None


# ---- documents


class Maker:
    """Random documents: well formed, and then perhaps spoilt."""

    def __init__(self, seed):
        self.random = random.Random(seed)

    def pick(self, *choices):
        return self.random.choice(choices)

    def chance(self, part):
        return self.random.random() < part

    def string(self):
        return self.pick("a", "b", "g", "view", "", "x y", 'q"q', "back\\slash", "tab\t", "line\nline", "\r", "\0", "é", "😀", "{", "::", "U::\"a\"", "\x7f")

    def uid(self):
        node = {"type": self.pick("U", "G", "Action", "A::B", "Photo"), "id": self.pick("a", "b", "g", "view", self.string())}
        if self.chance(0.3):
            node = {key: node[key] for key in ("id", "type")}
        return {"__entity": node} if self.chance(0.4) else node

    def asked(self, *types):
        if self.chance(0.4):
            return self.uid()
        return f'{self.pick(*types)}::"{self.pick("a", "b", "view", "g")}"'

    def value(self, deep=0):
        kind = self.random.randrange(6 if deep > 3 else 10)
        if kind < 2:
            return self.pick(0, 1, -1, 2**63 - 1, -(2**63), self.random.randrange(1000))
        if kind < 3:
            return self.chance(0.5)
        if kind < 5:
            return self.string()
        if kind == 5:
            return {"__entity": {"type": "U", "id": self.string()}}
        if kind == 6:
            return {"__extn": {"fn": self.pick("unknown", "ip", "f"), self.pick("arg", "args"): self.pick("x", "y", ["x"], [])}}
        if kind == 7:
            return [self.value(deep + 1) for _ in range(self.random.randrange(4))]
        return self.record(deep + 1)

    def record(self, deep=0):
        return {self.pick("n", "ok", "s", self.string()): self.value(deep) for _ in range(self.random.randrange(4))}

    def listed(self):
        node = {"uid": self.uid()}
        if self.chance(0.5):
            node["parents"] = [self.uid() for _ in range(self.random.randrange(3))]
        if self.chance(0.5):
            node["attrs"] = self.record()
        if self.chance(0.3):
            node["tags"] = {"t": self.pick("x", 1)}
        return node

    def question(self):
        node = {"principal": self.asked("U"), "action": self.asked("Action"), "resource": self.asked("Photo")}
        if self.chance(0.7):
            node["context"] = self.record()
        return node

    def partial_question(self):
        node = {key: it for key, it in self.question().items() if self.chance(0.7)}
        if self.chance(0.3):
            node[self.pick("principal", "resource")] = {"type": self.pick("U", "Photo", "A B")}
        if self.chance(0.2):
            node["context"] = "unknown"
        return node

    def link(self):
        template, link, values = self.pick(("template_id", "link_id", "args"), ("templateId", "newId", "values"))
        slots = {key: self.asked("U", "Photo") for key in ("?principal", "?resource") if self.chance(0.9)}
        return {template: self.pick("policy3", "policy3", "policy0", "none"), link: f"link{self.random.randrange(5)}", values: slots}

    def node(self, command):
        if command in ("put", "add"):
            return [self.listed() for _ in range(self.random.randrange(4))]
        if command == "remove":
            return [self.uid() for _ in range(self.random.randrange(3))]
        if command == "unlink":
            return f"link{self.random.randrange(5)}"
        made = {"ask": self.question, "askPartial": self.partial_question, "tell": self.record, "link": self.link}
        return made[command]()

    def document(self, command):
        """A document, every second of which is spoilt once or twice."""
        text = json.dumps(self.node(command), ensure_ascii=self.chance(0.5), separators=self.pick((",", ":"), (", ", ": ")))
        for _ in range(self.pick(0, 0, 1, 2)):
            text = self.spoilt(text)
        return text

    def spoilt(self, text):
        at = self.random.randrange(len(text) + 1)
        how = self.random.randrange(6)
        if how == 0:
            return text[:at] + text[at + 1 :]
        if how == 1:
            return text[:at] + self.pick(",", '"', "}", "]", "null", "1.5", "1e3", "-0", "01", " ", "\\", "\ufeff", "\\ud800", "{}") + text[at:]
        if how == 2:
            return text.replace(*self.pick(('"attrs"', '"atrs"'), ('"type"', '"tpye"'), ("1", "9223372036854775808"), ("true", "null"), ("[", "[[")), 1)
        if how == 3:
            return text.replace(*self.pick(('"id"', '"type"'), ('"arg"', '"args"'), ('"uid"', '"parents"'), ("__entity", "__expr"), ("U", "in")), 1)
        if how == 4:
            return re.sub(r'("\w+") ?: ?("[^"\\]*"|\d+)', r"\1:\2,\1:\2", text, count=1)
        return "[" * self.pick(1, 127, 128, 129) + text


# ---- answers


VERBS = {"askPartial": "ask"}
LINE = re.compile(r"(allow|deny|open) must=\[(.*)\] may=\[(.*)\] erring=\[(.*)\]\Z", re.S)
ID = re.compile(r'"((?:\\.|[^"\\])*)"(?::(\w+))?', re.S)
ID_ESCAPES = {"n": "\n", "r": "\r", "t": "\t", "0": "\0"}
PER_SESSION = 200
SECONDS = 300


def ids_in(text):
    return [(re.sub(r"(?s)\\(.)", lambda it: ID_ESCAPES.get(it[1], it[1]), name), kind) for name, kind in ID.findall(text)]


def reply_of(line):
    """The answer of a frame, as a line of JSON says it."""
    if line == "ok" or line.startswith("ok "):
        return {"ok": [name for name, _ in ids_in(line[2:])]}
    if line.startswith("refused "):
        return {"refused": line[8:]}
    found = LINE.match(line)
    names = [[name for name, _ in ids_in(it)] for it in found.group(2, 3)]
    erring = [{"id": name, "kind": kind} for name, kind in ids_in(found[4])]
    return {"answer": {"decision": found[1], "must": names[0], "may": names[1], "erring": erring}}


def answers(program, words, text):
    ran = subprocess.run([program, "session", *words], input=text.encode("utf-8", "surrogatepass"), stdout=subprocess.PIPE, timeout=SECONDS, check=True)
    return ran.stdout.decode().splitlines()


def frame(verb, body):
    return f"{verb} {len(body.encode())}\n{body}\n"


def is_unsaid(reply):
    """Whether a line tells that JSON says no command, and one fault of it, with a place."""
    if reply is None or reply.get("refused") not in ("Json", "Line"):
        return False
    [fault] = reply["faults"]
    return sorted(fault) == ["column", "kind", "line", "message", "pointer"] and fault["line"] >= 1 and fault["column"] >= 1


def try_session(program, maker, count):
    """Tries some documents in one session by JSON and one by frames. Returns the documents that differ, and what was answered how often."""
    commands = [maker.pick("put", "put", "add", "remove", "ask", "ask", "ask", "askPartial", "tell", "link", "unlink") for _ in range(count)]
    documents = [(it, maker.document(it)) for it in commands]
    bodies = [body_of(command, document) for command, document in documents]
    lines = [json.dumps({"load": POLICIES}), *[f'{{"{command}": {document}}}' for command, document in documents]]
    frames = [frame("load", POLICIES), *[frame(VERBS.get(it, it), body) for it, body in zip(commands, bodies) if body is not None]]
    told = answers(program, ["--json"], "".join(f"{it}\n" for it in lines))[1:]
    framed = iter(answers(program, [], "".join(frames))[1:])
    wanted = [{"refused": "unsaid"} if body is None else reply_of(next(framed)) for body in bodies]
    differ, counts = [], collections.Counter()
    for (command, document), line, want in itertools.zip_longest(documents, told, wanted):
        reply = json.loads(line or "null")
        said = {"refused": "unsaid"} if is_unsaid(reply) else reply
        counts[f"refused {want['refused']}" if "refused" in want else next(iter(want))] += 1
        differ += [] if said == want else [f"{command} {document}\n  JSON says {line}\n  the text {json.dumps(want)}"]
    return differ, counts


def main():
    parser = argparse.ArgumentParser(description=__doc__, formatter_class=argparse.RawDescriptionHelpFormatter)
    parser.add_argument("--program", required=True)
    parser.add_argument("--documents", type=int, default=50_000)
    parser.add_argument("--seed", type=int, default=1)
    asked = parser.parse_args()
    maker, differ, counts = Maker(asked.seed), [], collections.Counter()
    for at in range(0, asked.documents, PER_SESSION):
        more, told = try_session(asked.program, maker, min(PER_SESSION, asked.documents - at))
        differ += more
        counts += told
    for it in differ[:20]:
        print(it)
    print(f"{asked.documents} documents, {len(differ)} answered otherwise: {', '.join(f'{it} {count}' for it, count in counts.most_common())}")
    lacks = not counts["ok"] or not counts["answer"] or not counts["refused unsaid"]
    return 1 if differ or lacks else 0


if __name__ == "__main__":
    sys.exit(main())
