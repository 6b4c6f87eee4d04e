"""Tests of values: a session reads back each value that is given as what was given. What it has to equal is spelled here by itself,
each letter of a text by its number."""

import random
import time
import unittest

import cedar_session as cedar
from cedar_session import UNKNOWN, Entity, Extension, Unknown, UnknownPart

LETTERS = "\"\\\n\r\t\0',[]:{}()*?/;=ab 09_-é€😀\u2028\x85\xa0\x7f\x1f\u200b\ufeff\u202e\ufffd\ue000\U0010ffff\u0300"
PIECES = ("//", "/*", "\\n", '\\"', "\\u{41}", "\\x41", "must=", "unknown(", '"}', "?principal", "true", "if", "context")
NUMBERS = (0, 1, -1, 2**63 - 1, -(2**63), 2**53, -(2**31))
TYPES = ("User", "A::B", "_a", "principal", "permit", "when", "Is", "in_", "A1::b_2::C", "unknown", "context")
CASES, PORTION = 100_000, 500


class Any:
    """Random values, each with an expression that equals it."""

    def __init__(self, seed):
        self.random = random.Random(seed)

    def text(self):
        choose = self.random
        if choose.random() < 0.1:
            return "".join(choose.choice(PIECES) for _ in range(choose.randrange(4)))
        if choose.random() < 0.1:
            return "".join(chr(it) for it in (choose.randrange(0x110000) for _ in range(choose.randrange(6))) if not 0xD800 <= it < 0xE000)
        return "".join(choose.choice(LETTERS) for _ in range(choose.randrange(6)))

    def entity(self):
        return Entity(self.random.choice(TYPES), self.text())

    def value(self, depth=0):
        choose = self.random
        kind = choose.randrange(7 if depth < 3 else 4)
        if kind == 0:
            return choose.random() < 0.5
        if kind == 1:
            return choose.choice(NUMBERS) if choose.random() < 0.5 else choose.randrange(-(2**63), 2**63)
        if kind == 2:
            return self.text()
        if kind == 3:
            return self.entity()
        if kind == 4:
            return [self.value(depth + 1) for _ in range(choose.randrange(4))]
        if kind == 5:
            return choose.choice((set, frozenset))(choose.choice((self.text(), self.entity(), True, 7)) for _ in range(choose.randrange(4)))
        return {self.text(): self.value(depth + 1) for _ in range(choose.randrange(4))}


def spelled(text):
    return '"' + "".join(f"\\u{{{ord(it):x}}}" for it in text) + '"'


def expression(value):
    """What the value is, with sets and records from behind."""
    if value is True or value is False:
        return ("false", "true")[value]
    if isinstance(value, int):
        return "%d" % value
    if isinstance(value, str):
        return spelled(value)
    if isinstance(value, Entity):
        return f"{value.type} :: {spelled(value.id)}"
    if isinstance(value, dict):
        return "{" + ", ".join(f"{spelled(key)} : {expression(it)}" for key, it in reversed(list(value.items()))) + "}"
    return "[" + ", ".join(reversed([expression(it) for it in value])) + "]"


def nested(depth):
    value = 1
    for _ in range(depth):
        value = [value]
    return value


def other_than(value):
    """A value that isn't the same."""
    if isinstance(value, bool):
        return not value
    if isinstance(value, int):
        return value ^ 1
    if isinstance(value, str):
        return value + "a"
    if isinstance(value, Entity):
        return Entity(value.type, value.id + "a")
    if isinstance(value, dict):
        return {**value, "".join(value) + "a": 1}
    return [*value, "".join(it for it in value if isinstance(it, str)) + "a"]


class Values(unittest.TestCase):
    def test_values_are_read_back(self):
        """Each portion is a context, entities with attributes and tags, and what is told; policies compare each value in it with what
        it has to be, and every seventh with another one."""
        any_value, began = Any(time.time_ns()), time.perf_counter()
        for at in range(0, CASES, PORTION):
            given = [any_value.value() for _ in range(PORTION)]
            wanted = {f"policy{number}" for number in range(PORTION) if number % 7}
            compared = [expression(it if number % 7 else other_than(it)) for number, it in enumerate(given)]
            for way in (self.in_the_context, self.in_attributes, self.told)[: 3 if at % (10 * PORTION) == 0 else 1]:
                answer = way(given, compared)
                if set(answer.must) != wanted or answer.erring:
                    wrong = (number for number in range(PORTION) if (f"policy{number}" in answer.must) != (number % 7 != 0))
                    self.fail([(given[number], compared[number]) for number in wrong][:3])
        print(f"{CASES} values in {time.perf_counter() - began:.1f} s")

    def loaded(self, policies):
        session = cedar.Session()
        self.addCleanup(session.close)
        session.load("".join(policies))
        return session

    def in_the_context(self, given, compared):
        policies = (f"permit(principal, action, resource) when {{ context.k{at} == {it} }};" for at, it in enumerate(compared))
        with self.loaded(policies) as session:
            return session.ask(principal=UNKNOWN, action=UNKNOWN, resource=UNKNOWN, context={f"k{at}": it for at, it in enumerate(given)})

    def in_attributes(self, given, compared):
        policies = (
            f'permit(principal == A::"p", action, resource) when {{ principal.a{at} == {it} && principal.getTag("t{at}") == {it} }};'
            for at, it in enumerate(compared)
        )
        principal = Entity("A", "p", {f"a{at}": it for at, it in enumerate(given)}, (), {f"t{at}": it for at, it in enumerate(given)})
        with self.loaded(policies) as session:
            session.put([principal])
            return session.ask(principal=principal, action=UNKNOWN, resource=UNKNOWN)

    def told(self, given, compared):
        policies = (f"permit(principal, action, resource) when {{ context.k{at} == {it} }};" for at, it in enumerate(compared))
        with self.loaded(policies) as session:
            context = {f"k{at}": Unknown(f"u\n{at}") for at in range(len(given))}
            session.ask(principal=UNKNOWN, action=UNKNOWN, resource=UNKNOWN, context=context)
            return session.tell(**{f"u\n{at}": it for at, it in enumerate(given)})

    def test_entities_are_read_back(self):
        """Principals, parents and slots of any name."""
        any_value = Any(time.time_ns())
        with cedar.Session() as session:
            session.load("permit(principal in ?principal, action, resource == ?resource);")
            for at in range(500):
                child, parent, place = any_value.entity(), any_value.entity(), any_value.entity()
                if child == parent:
                    continue
                link = f"l{at}"
                session.put([Entity(child.type, child.id, parents=[parent])])
                session.link("policy0", link, principal=parent, resource=place)
                scope = f"principal == {expression(child)}, action, resource == {expression(place)}"
                [policy] = session.load(f"permit({scope}) when {{ action == {expression(parent)} }};")
                answer = session.ask(principal=child, action=parent, resource=place)
                self.assertEqual(set(answer.must), {policy, link}, (child, parent, place))
                session.remove([child])
                self.assertEqual(session.ask(principal=child, action=place, resource=parent if parent != place else child).must, ())
                session.unlink(link)
                session.remove_static(policy)

    def test_extension_values_are_read_back(self):
        cases = (("ip", "10.0.0.1/24", "10.0.0.1"), ("decimal", "-1.5", "1.5"), ("datetime", "2026-12-01", "2026-12-02"), ("duration", "1d2h", "1d"))
        for function, text, other in cases:
            given, compared = Extension(function, text), (f"{function}({spelled(it)})" for it in (text, other))
            with self.loaded(f"permit(principal, action, resource) when {{ context.it == {it} }};" for it in compared) as session:
                answer = session.ask(principal=UNKNOWN, action=UNKNOWN, resource=UNKNOWN, context={"it": given})
                self.assertEqual((answer.must, answer.erring), (("policy0",), {}), function)
                with self.assertRaisesRegex(cedar.Refused, "Evaluation"):
                    session.put([Entity("U", "a", {"it": [Extension(function, '"')]})])
        for function, kind in (("isIpv4", cedar.BadValue), ('ip("', cedar.BadValue), ("", cedar.BadValue), (1, cedar.NoValue), (["ip"], cedar.NoValue)):
            with self.subTest(function=function), self.assertRaises(kind):
                Extension(function, "10.0.0.1")
        for text in (1, None, b"10.0.0.1"):
            with self.subTest(text=text), cedar.Session() as session, self.assertRaises(cedar.NoValue):
                session.tell(v=Extension("ip", text))

    def test_what_json_says_otherwise_is_read_back(self):
        """Keys that stand for something in JSON, and what nests as deep as it carries, or deeper."""
        cases = {
            "an entity": {"__entity": {"type": "U", "id": "a"}},
            "a call": {"__extn": {"fn": "ip", "arg": "::1"}},
            "an expression": {"__expr": 'U::"a"'},
            "an entity in a set": [{"__entity": 1}, {"a": {"__entity": "U::a"}}],
            "a record of a type and an id": {"type": "U", "id": "a"},
            **{f"{depth} sets": nested(depth) for depth in (100, 101, 102, 127, 128, 129, 200)},
        }
        for name, value in cases.items():
            for way in (self.in_the_context, self.in_attributes, self.told):
                with self.subTest(name=name, way=way.__name__):
                    answer = way([value, value], [expression(value), expression(other_than(value))])
                    self.assertEqual((answer.must, answer.erring), (("policy0",), {}))

    def test_what_is_too_long(self):
        least = "a" * 1_048_576
        for give in (lambda it: it.tell(v=least), lambda it: it.put([Entity("U", least)]), lambda it: it.unlink(least)):
            with cedar.Session() as session, self.assertRaises(cedar.TooLong):
                give(session)

    def test_other_kinds_are_none(self):
        itself = []
        itself.append(itself)
        for value in (None, 1.0, b"", (), (1,), object, {1: 2}, {None: 1}, [None], {"a": {2}, "b": 1j}, range(2), Unknown, UNKNOWN, UnknownPart("U")):
            with self.subTest(value=value), cedar.Session() as session:
                for use in (lambda it: session.ask(principal=UNKNOWN, action=UNKNOWN, resource=UNKNOWN, context={"v": it}), lambda it: session.tell(v=it)):
                    with self.assertRaises(TypeError) as caught:
                        use(value)
                    self.assertIsInstance(caught.exception, cedar.NoValue)
        for value in (2**63, -(2**63) - 1, "\ud800", {"\udfff": 1}, itself):
            with self.subTest(value=type(value)), cedar.Session() as session, self.assertRaises(cedar.BadValue):
                session.tell(v=value)
        for given in ((1, "a"), ("U", 1), (None, "a"), ("U", None), ("U", b"a")):
            with self.subTest(given=given), self.assertRaises(TypeError):
                Entity(*given)

    def test_an_entity_is_its_name(self):
        self.assertEqual(Entity("U", "a", {"n": 1}), Entity("U", "a"))
        self.assertEqual(len({Entity("U", "a", {"n": 1}), Entity("U", "a"), Entity("V", "a")}), 2)


if __name__ == "__main__":
    unittest.main()
