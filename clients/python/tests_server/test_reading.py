"""Tests of what is read from JSON: each text that says too much, or nothing, is refused by its own word, and with its place."""

import json
import unittest

import cedar_session as cedar
from cedar_session import UNKNOWN, Entity, Extension, Unknown, UnknownPart

from cedar_server import reading
from cedar_server.faults import Fault
from cedar_server.questions import Question, evaluation_of, evaluations_of, question_of

VALUES = (
    ("true", True),
    ("0", 0),
    ("-9223372036854775808", -(2**63)),
    ("9223372036854775807", 2**63 - 1),
    ('"a\\u0000\\ud83d\\ude00"', "a\0😀"),
    ("[]", []),
    ('[1, "1", [false]]', [1, "1", [False]]),
    ('{"a": {"": 1}, "type": "User", "id": "x"}', {"a": {"": 1}, "type": "User", "id": "x"}),
    ('{"__entity": {"type": "A::User", "id": "\\""}}', Entity("A::User", '"')),
    ('[{"__entity": {"id": "", "type": "U"}}]', [Entity("U", "")]),
    ('[{"__extn": {"fn": "ip", "arg": "\\""}}]', [Extension("ip", '"')]),
    ('{"a": {"__extn": {"arg": "1.5", "fn": "decimal"}}}', {"a": Extension("decimal", "1.5")}),
)

# A text, with the kind of its fault and the place.
FAULTS = (
    (b"", "NoJson", ""),
    (b"{", "NoJson", ""),
    (b"{} {}", "NoJson", ""),
    (b"{'a': 1}", "NoJson", ""),
    (b'{"a": 1,}', "NoJson", ""),
    (b'"\n"', "NoJson", ""),
    (b"\xef\xbb\xbf{}", "NoJson", ""),
    (b'"\xff"', "NotUtf8", ""),
    (b"[" * 100_000, "TooDeep", ""),
    (b"null", "WrongType", ""),
    (b'{"a": [1, null]}', "WrongType", "/a/1"),
    (b"1.5", "Float", ""),
    (b'{"a": 1.0}', "Float", "/a"),
    (b'{"a": 1e2}', "Float", "/a"),
    (b"[NaN]", "Float", "/0"),
    (b"[-Infinity]", "Float", "/0"),
    (b"[9223372036854775808]", "BeyondLong", "/0"),
    (b"[-9223372036854775809]", "BeyondLong", "/0"),
    (b"[" + b"1" * 10_000 + b"]", "BeyondLong", "/0"),
    (b'{"a": {"b": 1, "b": 1}}', "DoubledKey", "/a"),
    (b'{"a": 1, "\\u0061": 2}', "DoubledKey", ""),
    (b'["\\ud800"]', "HalfCharacter", "/0"),
    (b'{"\\udfff": 1}', "HalfCharacter", "/\udfff"),
    (b'{"a/b": {"c~d": null}}', "WrongType", "/a~1b/c~0d"),
    (b'{"x": {"__extn": {"fn": "ip(", "arg": "1.1.1.1"}}}', "Extension", "/x/__extn/fn"),
    (b'{"x": {"__extn": {"fn": "isIpv4", "arg": "1.1.1.1"}}}', "Extension", "/x/__extn/fn"),
    (b'{"x": {"__extn": {"fn": ["ip"], "arg": "1.1.1.1"}}}', "WrongType", "/x/__extn/fn"),
    (b'{"x": {"__extn": {"fn": "ip", "arg": 1}}}', "WrongType", "/x/__extn/arg"),
    (b'{"x": {"__extn": {"fn": "ip", "arg": "\\ud800"}}}', "HalfCharacter", "/x/__extn/arg"),
    (b'{"x": {"__extn": {"fn": "ip"}}}', "MissingKey", "/x/__extn"),
    (b'{"x": {"__extn": {"fn": "ip", "arg": "", "args": []}}}', "UnknownKey", "/x/__extn/args"),
    (b'{"x": {"__extn": "ip(1)"}}', "WrongType", "/x/__extn"),
    (b'{"x": {"__extn": {"fn": "ip", "arg": ""}, "y": 1}}', "Escape", "/x/__extn"),
    (b'{"x": {"__expr": "1 + 1"}}', "Expression", "/x/__expr"),
    (b'{"x": {"__unknown": "a"}}', "Unknown", "/x/__unknown"),
    (b'{"__entity": {"type": "User", "id": "a"}, "b": 1}', "Escape", "/__entity"),
    (b'{"__entity": "User::\\"a\\""}', "WrongType", "/__entity"),
    (b'{"__entity": {"type": "User"}}', "MissingKey", "/__entity"),
    (b'{"__entity": {"type": "User", "id": "a", "name": "a"}}', "UnknownKey", "/__entity/name"),
    (b'{"__entity": {"type": "User", "id": 1}}', "WrongType", "/__entity/id"),
    (b'{"__entity": {"type": "User\\"", "id": "a"}}', "NoType", "/__entity/type"),
    (b'{"__entity": {"type": "", "id": "a"}}', "NoType", "/__entity/type"),
)

ALICE = b'{"type": "User", "id": "a"}'
LISTS = (
    (b"{}", "WrongType", ""),
    (b"[1]", "WrongType", "/0"),
    (b"[{}]", "MissingKey", "/0"),
    (b'[{"uid": "User::\\"a\\""}]', "WrongType", "/0/uid"),
    (b'[{"uid": %s, "atrs": {}}]' % ALICE, "UnknownKey", "/0/atrs"),
    (b'[{"uid": %s, "attrs": []}]' % ALICE, "WrongType", "/0/attrs"),
    (b'[{"uid": %s, "attrs": {"a": 0.5}}]' % ALICE, "Float", "/0/attrs/a"),
    (b'[{"uid": %s, "parents": %s}]' % (ALICE, ALICE), "WrongType", "/0/parents"),
    (b'[{"uid": %s, "parents": [%s, null]}]' % (ALICE, ALICE), "WrongType", "/0/parents/1"),
    (b'[{"uid": %s, "tags": {"t": {"__extn": {}}}}]' % ALICE, "MissingKey", "/0/tags/t/__extn"),
)

U, A, R = {"type": "User", "id": "a"}, {"type": "Action", "id": "v"}, {"type": "R", "id": "r"}
QUESTIONS = (
    ({}, "MissingKey", ""),
    ({"principal": U, "action": A, "resource": R, "contxt": {}}, "UnknownKey", "/contxt"),
    ({"principal": None, "action": A, "resource": R}, "WrongType", "/principal"),
    ({"principal": U, "action": {"__unknown": {"type": "Action"}}, "resource": R}, "UnknownKey", "/action/__unknown/type"),
    ({"principal": {"__unknown": {"type": "1"}}, "action": A, "resource": R}, "NoType", "/principal/__unknown/type"),
    ({"principal": {"__unknown": "a"}, "action": A, "resource": R}, "WrongType", "/principal/__unknown"),
    ({"principal": {"__unknown": {}, "id": "a"}, "action": A, "resource": R}, "UnknownKey", "/principal/id"),
    ({"principal": U, "action": A, "resource": R, "context": []}, "WrongType", "/context"),
    ({"principal": U, "action": A, "resource": R, "context": {"a": {"__unknown": 1}}}, "WrongType", "/context/a/__unknown"),
    ({"principal": U, "action": A, "resource": R, "context": {"__unknown": {}, "a": 1}}, "UnknownKey", "/context/a"),
)
S, N = U, {"name": "v"}
EVALUATIONS = (
    ({"subject": S, "action": N}, "MissingKey", ""),
    ({"subject": S, "action": "v", "resource": R}, "WrongType", "/action"),
    ({"subject": S, "action": A, "resource": R}, "MissingKey", "/action"),
    ({"subject": {**S, "role": "x"}, "action": N, "resource": R}, "UnknownKey", "/subject/role"),
    ({"subject": {**S, "properties": []}, "action": N, "resource": R}, "WrongType", "/subject/properties"),
    ({"subject": {**S, "properties": {"a": None}}, "action": N, "resource": R}, "WrongType", "/subject/properties/a"),
    ({"subject": {**S, "properties": {"a": 1}}, "action": N, "resource": R, "context": {"subject": 1}}, "DoubledKey", "/subject/properties"),
    ({"subject": S, "action": N, "resource": R, "context": {"a": {"__unknown": "a"}}}, "Unknown", "/context/a/__unknown"),
)
MANY = (
    ({"evaluations": [{}]}, "MissingKey", "/evaluations/0"),
    ({"subject": S, "action": N, "evaluations": [{"resource": R}, {}]}, "MissingKey", "/evaluations/1"),
    ({"subject": S, "action": N, "evaluations": [{"resource": R}, {"resource": 1}]}, "WrongType", "/evaluations/1/resource"),
    ({"subject": 1, "action": N, "evaluations": [{"resource": R}]}, "WrongType", "/subject"),
    ({"subject": S, "action": N, "resource": R, "evaluations": {}}, "WrongType", "/evaluations"),
    ({"subject": S, "action": N, "resource": R, "evaluations": [{}] * 1001}, "TooMany", "/evaluations"),
    ({"subject": S, "action": N, "resource": R, "evaluations": [{}], "options": {"x": 1}}, "UnknownKey", "/options/x"),
    ({"subject": S, "action": N, "resource": R, "options": {"evaluations_semantic": "all"}}, "NoSemantic", "/options/evaluations_semantic"),
)


class Reads(unittest.TestCase):
    def is_refused(self, read, given, kind, at):
        with self.assertRaises(Fault, msg=repr(given)[:100]) as raised:
            read(given)
        self.assertEqual((raised.exception.kind, raised.exception.at), (kind, at), repr(given)[:100])
        self.assertTrue(400 <= raised.exception.status < 500 and raised.exception.text)


class Values(Reads):
    def test_values(self):
        for text, wanted in VALUES:
            self.assertEqual(reading.value_of(reading.read(text.encode()), ""), wanted, text)

    def test_faults_of_values(self):
        for text, kind, at in FAULTS:
            self.is_refused(lambda it: reading.value_of(reading.read(it), ""), text, kind, at)

    def test_deep_values(self):
        deep = b"[" * 300 + b"]" * 300
        self.assertIsInstance(reading.value_of(reading.read(deep), ""), list)
        self.is_refused(lambda it: reading.value_of(reading.read(it), ""), b'{"a":' * 900 + b"1" + b"}" * 900, "TooDeep", "")

    def test_entities(self):
        given = b'[{"uid": %s, "attrs": {"n": 1}, "parents": [{"__entity": {"type": "G", "id": "g"}}], "tags": {"t": "x"}}, {"uid": %s}]'
        first, second = reading.entities(reading.read(given % (ALICE, ALICE)))
        self.assertEqual((first, first.attrs, first.parents, first.tags), (Entity("User", "a"), {"n": 1}, [Entity("G", "g")], {"t": "x"}))
        self.assertEqual((second, dict(second.attrs), list(second.parents), dict(second.tags)), (Entity("User", "a"), {}, [], {}))
        for text, kind, at in LISTS:
            self.is_refused(lambda it: reading.entities(reading.read(it)), text, kind, at)

    def test_every_json_value_is_read_as_python_does_or_refused(self):
        """What is taken says the same as in Python's own reader."""
        for text, _ in VALUES:
            if "__e" not in text:
                self.assertEqual(reading.value_of(reading.read(text.encode()), ""), json.loads(text))


class Questions(Reads):
    def test_questions(self):
        asked = {"principal": {"__entity": U}, "action": A, "resource": R, "context": {"a": 1}}
        self.assertEqual(question_of(asked), Question(Entity("User", "a"), Entity("Action", "v"), Entity("R", "r"), {"a": 1}))
        unknown = {"principal": {"__unknown": {"type": "User"}}, "action": {"__unknown": {}}, "resource": {"__unknown": {}}}
        self.assertEqual(question_of(unknown), Question(UnknownPart("User"), UNKNOWN, UNKNOWN, {}))
        self.assertIs(question_of({**unknown, "context": {"__unknown": {}}}).context, UNKNOWN)
        self.assertEqual(question_of({**unknown, "context": {"a": {"__unknown": "late"}}}).context, {"a": Unknown("late")})
        for given, kind, at in QUESTIONS:
            self.is_refused(question_of, given, kind, at)

    def test_evaluations(self):
        given = {"subject": {**S, "properties": {"role": "x"}}, "action": {**N, "properties": {}}, "resource": R, "context": {"a": 1}}
        wanted = Question(Entity("User", "a"), Entity("Action", "v"), Entity("R", "r"), {"a": 1, "subject": {"role": "x"}})
        self.assertEqual(evaluation_of(given), wanted)
        for faulty, kind, at in EVALUATIONS:
            self.is_refused(evaluation_of, faulty, kind, at)

    def test_many_evaluations(self):
        beside = {"subject": S, "action": N, "resource": R}
        one, own = evaluations_of(beside), evaluations_of({**beside, "evaluations": [{}, {"subject": {"type": "User", "id": "b"}}]})
        self.assertEqual((one.is_one, [it.principal for it in one.questions]), (True, [Entity("User", "a")]))
        self.assertEqual((own.is_one, own.last, [it.principal for it in own.questions]), (False, None, [Entity("User", "a"), Entity("User", "b")]))
        for given, kind, at in MANY:
            self.is_refused(evaluations_of, given, kind, at)

    def test_no_question_is_another(self):
        """What a user typed stays in its place, whatever it has."""
        nasty = ('root"}//', 'a", context: {admin: true}}//', "\\", "\0\n", "😀")
        with cedar.Session() as session:
            session.load('permit(principal == User::"root", action, resource); permit(principal, action, resource) when { context has admin };')
            for name in nasty:
                given = {"principal": {"type": "User", "id": name}, "action": A, "resource": R, "context": {"x": name}}
                asked = question_of(reading.read(json.dumps(given).encode()))
                answer = session.ask(principal=asked.principal, action=asked.action, resource=asked.resource, context=asked.context)
                self.assertEqual((answer.decision, answer.erring), (cedar.Decision.DENY, {}), name)


if __name__ == "__main__":
    unittest.main()
