#!/usr/bin/env python3
"""shapes.py --program PATH [--seconds N] [NAME..]: runs the program over bodies of 1,048,576 bytes of one shape each, by `load`,
`put` and `ask`, and over 100,000 attributes, 100,000 parents, 10,000 unknowns and 30,000 policies, under a stack of 8 MiB and in
2 GB of memory, and over the deepest clauses and bodies that the limit lets stand under a stack of 1 MiB (2 MiB where operators of
all kinds stand in each level); or over those that are named. Each must be answered by one of the lines that its shape allows, the
`ask {}` behind it as its shape says, and else as in a session that never read it, and the last line must be `end`; none may take
longer than N seconds (20 where none are given). Prints what each took, and fails where one isn't so."""

import argparse
import resource
import subprocess
import sys
import time
from typing import NamedTuple

sys.dont_write_bytecode = True
from cases import frame

SIZE = 1048576
STACK, SMALL_STACK, MEMORY = 8 << 20, 1 << 20, 2 << 30
VERBS = ("load", "put", "ask")
REFUSED = ("refused Text", "refused Depth")
CLAUSE = b"permit(principal, action, resource) when {"

# What one body repeats, what stands before and behind it, and the lines that it may be answered: deep or endless ones are
# outside the grammar or too deep, which of the two is told isn't promised.
REPEATED = {
    "parentheses": (b"(", b"", b""),
    "closed-parentheses": (b")", b"", b""),
    "brackets": (b"[", b"", b""),
    "braces": (b"{", b"", b""),
    "records-in-records": (b"{a:", b"", b""),
    "calls-in-calls": (b"f(", b"", b""),
    "nots": (b"!", b"", b""),
    "minuses": (b"-", b"", b""),
    "ifs": (b"if ", b"", b""),
    "ands": (b"a&&", b"", b""),
    "sums": (b"1+", b"", b""),
    "comparisons": (b"1<", b"", b""),
    "accesses": (b".a", b"a", b""),
    "indices": (b'["a"]', b"a", b""),
    "names": (b"a::", b"", b""),
    "one-name": (b"a", b"", b""),
    "digits": (b"9", b"", b""),
    "quotes": (b'"', b"", b""),
    "an-open-string": (b"a", b'"', b""),
    "backslashes": (b"\\", b'"', b""),
    "commas": (b",", b"[", b"]"),
    "annotations": (b"@a", b"", b""),
    "slots": (b"?principal ", b"", b""),
    "zeros": (b"\0", b"", b""),
    "letters-beyond-ascii": ("é".encode(), b"", b""),
}

# The levels of the deepest text that the limit lets stand.
DEEPEST = 255

DENIED, ALLOWED = "deny must=[] may=[] erring=[]", 'allow must=["policy0"] '
ERRED = 'deny must=[] may=[] erring=["policy0":TypeError]'
TOO_HIGH = "refused Depth"

# What opens a level of a clause, what stands in the last, what closes one, and what `ask {}` is answered with that policy
# loaded; none where the text is outside the grammar.
DEEP_CLAUSES = {
    "groups": (b"(", b"true", b")", ALLOWED),
    "lists": (b"[", b"1", b"]", ERRED),
    "records": (b"{a: ", b"1", b"}", ERRED),
    "indices": (b"a[", b"a", b"]", None),
    "calls": (b"f(", b"1", b")", None),
    "method-calls": (b"[1].contains(", b"1", b")", TOO_HIGH),
    "tests": (b"if ", b"true", b" then true else false", ALLOWED),
    "choices": (b"if true then ", b"true", b" else false", ALLOWED),
    "others": (b"if false then false else ", b"true", b"", ALLOWED),
    "negations": (b"!(", b"false", b")", ALLOWED),
    "minuses": (b"-(", b"1", b")", ERRED),
    "disjunctions": (b"false || (", b"true", b")", ALLOWED),
    "conjunctions": (b"true && (", b"true", b")", ALLOWED),
    "comparisons": (b"1 == (", b"1", b")", DENIED),
    "first-operands": (b"(", b"1", b" == 1)", DENIED),
    "presences": (b"(", b"{}", b" has a)", ERRED),
    "sums": (b"1 + (", b"1", b")", ERRED),
    "products": (b"1 * (", b"1", b")", ERRED),
    "accesses": (b"(", b"{}", b").a", "deny must=[] may=[] erring="),
    "operators": (b"true || true && 1 < 1 + 1 * -(", b"1", b")", ALLOWED),
}

# The same of a body, in which it stands as the value of an attribute, and the line that the body is answered.
DEEP_BODIES = {
    "groups": (b"(", b"1", b")", None),
    "lists": (b"[", b"1", b"]", None),
    "records": (b"{a: ", b"1", b"}", None),
    "indices": (b"a[", b"a", b"]", "refused Text"),
    "calls": (b"f(", b"1", b")", "refused Text"),
    "tests": (b"if ", b"true", b" then true else false", "refused NotRestricted"),
    "negations": (b"!(", b"true", b")", "refused NotRestricted"),
    "minuses": (b"-(", b"1", b")", "refused NotRestricted"),
    "sums": (b"1 + (", b"1", b")", "refused NotRestricted"),
}


class Shape(NamedTuple):
    """A body, the lines that it may be answered, and how what answers the `ask {}` behind it begins, where that isn't told by them."""

    name: str
    verb: str
    body: bytes
    allowed: tuple
    behind: str = ""
    stack: int = STACK


def filled(part, before, behind):
    count = (SIZE - len(before) - len(behind)) // len(part)
    body = before + part * count + behind
    return body + b" " * (SIZE - len(body))


def repeated():
    """Bodies that repeat one thing, and texts of policies that do so where they begin and in a clause: each is refused."""
    for name, (part, before, behind) in REPEATED.items():
        yield f"load-clauses-of-{name}", "load", filled(part, CLAUSE + before, behind + b"};"), REFUSED
        for verb in VERBS:
            yield f"{verb}-{name}", verb, filled(part, before, behind), REFUSED


def wide():
    """Bodies that are wide and not deep: each is answered as the small one of its kind."""
    listed = b"[" + b"1," * ((SIZE - 2) // 2) + b"]"
    yield "load-white", "load", b" " * SIZE, ("ok []",)
    yield "load-a-comment", "load", b"//" + b"a" * (SIZE - 2), ("ok []",)
    yield "put-white-and-nothing", "put", b"[]" + b" " * (SIZE - 2), ("ok",)
    yield "put-comments", "put", b"[]" + b"//\n" * ((SIZE - 2) // 3), ("ok",)
    stars = filled(b"*", CLAUSE + b'"" like "', b'"};')
    yield "load-stars", "load", stars, ('ok ["policy0"]',)
    yield "put-stars", "put", filled(b"*", b'"" like "', b'"'), ("refused NotRestricted",)
    yield "put-numbers", "put", listed, ("refused Shape",)
    yield "remove-one-uid-often", "remove", b"[" + b'T::"a",' * ((SIZE - 2) // 7) + b"]", ("ok",)
    yield "ask-a-wide-set", "ask", b"{context: {a: " + listed[: SIZE - 17] + b"]}}", (DENIED,)
    yield "ask-a-long-string", "ask", b'{context: {a: "' + b"a" * (SIZE - 20) + b'"}}', (DENIED,)


def short(number):
    """A number in few letters, such that many fit in one body."""
    digits = "0123456789abcdefghijklmnopqrstuvwxyz"
    return (short(number // 36) if number >= 36 else "") + digits[number % 36]


def numbered(form, count):
    return ",".join(form.format(short(n)) for n in range(count)).encode()


def many():
    """Many of one thing."""
    yield "attributes", "put", b'[{uid: T::"a", attrs: {' + numbered("a{}:1", 100000) + b"}}]", ("ok",)
    yield "parents", "put", b'[{uid: T::"-", parents: [' + numbered('T::"{}"', 100000) + b"]}]", ("ok",)
    yield "unknowns", "ask", b"{context: {" + numbered('a{0}:unknown("a{0}")', 10000) + b"}}", (DENIED,)
    policies = b"permit(principal,action,resource);" * 30000
    ids = ",".join(f'"policy{n}"' for n in range(30000))
    yield "policies", "load", policies, (f"ok [{ids}]",)


def nested(opens, inner, closes, around):
    """As many levels of this as may stand with so many around them."""
    levels = DEEPEST - around
    return opens * levels + inner + closes * levels


def deep():
    """The deepest clauses and bodies, under a small stack."""
    for name, (opens, inner, closes, asked) in DEEP_CLAUSES.items():
        body = CLAUSE + nested(opens, inner, closes, 0) + b"};"
        allowed = ("refused Text",) if asked is None else ('ok ["policy0"]',)
        stack = 2 * SMALL_STACK if name == "operators" else SMALL_STACK
        yield f"load-deep-{name}", "load", body, allowed, asked or "", stack
    for name, (opens, inner, closes, told) in DEEP_BODIES.items():
        asked = b"{context: {a: " + nested(opens, inner, closes, 2) + b"}}"
        yield f"ask-deep-{name}", "ask", asked, (told or DENIED,), "", SMALL_STACK
        held = b'[{uid: T::"a", attrs: {a: ' + nested(opens, inner, closes, 3) + b"}}]"
        yield f"put-deep-{name}", "put", held, (told or "ok",), "", SMALL_STACK


def cases():
    return [Shape(*it) for it in (*repeated(), *wide(), *many(), *deep())]


def told(program, shape, seconds):
    """The lines that the program writes, its status, and the seconds it took."""

    def bounded():
        resource.setrlimit(resource.RLIMIT_STACK, (shape.stack, shape.stack))
        resource.setrlimit(resource.RLIMIT_AS, (MEMORY, MEMORY))

    began = time.monotonic()
    given = frame(shape.verb, shape.body) + frame("ask", b"{}")
    ran = subprocess.run([program], input=given, stdout=subprocess.PIPE, preexec_fn=bounded, timeout=10 * seconds)
    return ran.stdout.decode().split("\n"), ran.returncode, time.monotonic() - began


def fault(shape, lines, status, took, seconds):
    """What is wrong with what the program wrote; None where nothing is."""
    if status != 0 or len(lines) != 4 or lines[2:] != ["end", ""]:
        return f"status {status}, {len(lines)} lines"
    if lines[0] not in shape.allowed:
        return f"answered {lines[0][:60]}"
    loaded = shape.verb == "load" and lines[0].startswith('ok ["')
    if not lines[1].startswith(shape.behind or ("allow " if loaded else DENIED)):
        return f"then answered {lines[1][:60]}"
    return None if took <= seconds else "too slow"


def main():
    words = argparse.ArgumentParser(description=__doc__)
    words.add_argument("--program", required=True)
    words.add_argument("--seconds", type=float, default=20)
    words.add_argument("names", nargs="*")
    given = words.parse_args()
    known = cases()
    unknown = set(given.names) - {shape.name for shape in known}
    if unknown:
        sys.exit(f"no such shape: {' '.join(sorted(unknown))}")
    failed = 0
    for shape in known:
        if given.names and shape.name not in given.names:
            continue
        lines, status, took = told(given.program, shape, given.seconds)
        wrong = fault(shape, lines, status, took, given.seconds)
        failed += wrong is not None
        print(f"{shape.name}: {len(shape.body)} bytes, {took:.2f} s: {wrong or lines[0][:40]}", flush=True)
    print(f"{len(given.names) or len(known)} shapes, {failed} failed")
    return 1 if failed else 0


if __name__ == "__main__":
    sys.exit(main())
