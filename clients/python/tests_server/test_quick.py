"""Tests of the short ways: what they tell is what the long ones tell, and nothing where these refuse."""

import json
import random
import time
import unittest

import cedar_session as cedar
from cedar_session import Entity
from cedar_session.commands import answer_of

from cedar_server import answers, quick, reading
from cedar_server.faults import Fault
from cedar_server.questions import evaluation_of, question_of
from tests_server.test_reading import EVALUATIONS, FAULTS, QUESTIONS, VALUES, A, N, R, S, U

WAYS = ((quick.asked, question_of), (quick.evaluation, evaluation_of))
LETTERS = "ab9_é\"\\\n\r\t\0\x01\x7f\u2028 '/:😀"
PLAIN = "ab9_: '/é"
TYPES = ("User", "A::B", "in", "1", "", "User\n", "A::", " A", "é")
KEYS = ("a", "b c", "__entity", "__extn", "__unknown", "__expr", "type", "id", "")
NUMBERS = (0, -1, 2**63 - 1, -(2**63), 2**63, 0.5)


# What makes a question none.
ODD = (("more", 1), ("more", {}), ("context", []), ("context", None), ("resource", {"type": "R", "id": 1}), ("resource", {"type": "R", "id": None}))
ODD += (("resource", {"type": "R"}), ("resource", {"type": 1, "id": "r"}), ("resource", {"type": "R", "id": "r", "x": 1}), ("resource", ["type", "id"]))
ODD += (("action", {"name": 1}), ("action", {"name": "v", "x": 1}), ("action", "v"), ("context", {"a": {"__extn": 1}}), ("context", {"a": 0.5}))


class Any:
    """Random questions, some of which are none."""

    def __init__(self, seed):
        self.random = random.Random(seed)

    def text(self):
        letters = LETTERS if self.random.random() < 0.1 else PLAIN
        it = "".join(self.random.choice(letters) for _ in range(self.random.randrange(4)))
        return it + "\ud800" * (self.random.random() < 0.01)

    def entity(self):
        made = {"type": self.random.choice(TYPES if self.random.random() < 0.1 else TYPES[:2]), "id": self.text()}
        return self.odd(made)

    def value(self, depth=0):
        choose = self.random
        kind = choose.randrange(8 if depth < 3 else 5)
        if kind < 5:
            return (choose.random() < 0.5, choose.choice(NUMBERS[:4]), self.text(), self.text(), choose.choice((None, *NUMBERS)))[kind]
        if kind == 5:
            return [self.value(depth + 1) for _ in range(choose.randrange(3))]
        return self.odd({choose.choice(KEYS[:2]) if choose.random() < 0.9 else choose.choice(KEYS): self.value(depth + 1) for _ in range(choose.randrange(3))})

    def odd(self, made):
        """Most often the same."""
        choose = self.random
        kind = choose.randrange(60)
        if kind == 0:
            return self.value()
        if kind == 1:
            return {"__entity": made}
        if kind == 2:
            return {**made, choose.choice(KEYS): choose.choice(("a", 1, {}))}
        if kind == 3:
            return {key: it for key, it in made.items() if choose.random() < 0.5}
        return made

    def question(self, names):
        made = {names[0]: self.entity(), names[1]: self.entity(), names[2]: self.entity()}
        if names[0] == "subject":
            made["action"] = self.odd({"name": self.text()})
        if self.random.random() < 0.8:
            made["context"] = self.odd({self.text(): self.value() for _ in range(self.random.randrange(4))})
        return self.odd(made)

    def body(self, names):
        """Now and then with a key that stands twice."""
        text = json.dumps(self.question(names), ensure_ascii=self.random.random() < 0.2)
        at = [it for it in range(len(text)) if text.startswith(', "', it)] if self.random.random() < 0.2 else []
        for it in reversed(self.random.sample(at, min(len(at), 1))):
            end = text.find(":", it)
            text = text[:it] + f"{text[it:end]}:1" + text[it:]
        return text.encode(errors="surrogatepass")


def read(body, long):
    """The text of a question, or None where it is refused."""
    try:
        return long(reading.read(body)).text()
    except (Fault, cedar.CedarError):
        return None


class Questions(unittest.TestCase):
    def are_told(self, short, long, body):
        """Whether the short way tells it."""
        told = short(body)
        if told is not None:
            self.assertEqual(told, read(body, long), body)
        return told is not None

    def test_any(self):
        any_question = Any(time.time_ns())
        for (short, long), names in zip(WAYS, (("principal", "action", "resource"), ("subject", "action", "resource"))):
            told = [self.are_told(short, long, any_question.body(names)) for _ in range(20_000)]
            self.assertTrue(0.05 < sum(told) / len(told) < 0.9, sum(told))

    def test_what_comes_most_is_told(self):
        context = {"n": 1, "texts": ["a", "b: c", ""], "more": {"is": True, "é": {}}}
        for body, short, long in (({"principal": U, "action": A, "resource": R}, *WAYS[0]), ({"subject": S, "action": N, "resource": R}, *WAYS[1])):
            for asked in (body, {**body, "context": {}}, {**body, "context": context}):
                self.assertTrue(self.are_told(short, long, json.dumps(asked, ensure_ascii=False).encode()), asked)

    def test_what_is_refused_is_not_told(self):
        bodies = [json.dumps(given).encode() for given, _, _ in (*QUESTIONS, *EVALUATIONS)] + [given for given, _, _ in FAULTS]
        parts = [json.dumps(it).encode() for it in (U, A, R)]
        bodies += [b'{"principal": %s, "action": %s, "resource": %s, "context": {"x": %s}}' % (*parts, it) for it, _, _ in FAULTS]
        whole = {"principal": U, "action": A, "resource": R, "context": {}}, {"subject": S, "action": N, "resource": R, "context": {}}
        bodies += [json.dumps({**it, key: value}).encode() for it in whole for key, value in ODD]
        for body in bodies:
            for short, long in WAYS:
                if read(body, long) is None:
                    self.assertIsNone(short(body), body)

    def test_keys_that_stand_twice(self):
        whole = '{"subject": {"type": "A::B", "id": "a:b"}, "action": {"name": "v"}, "resource": {"type": "R", "id": "r"}, "context": {"a:": {"b": [":"]}}}'
        self.assertTrue(self.are_told(*WAYS[1], whole.encode()))
        pieces = ('"type": "A::B"', '"id": "r"', '"name": "v"', '"b": [":"]', '"context": {"a:": {"b": [":"]}}', '"action": {"name": "v"}')
        for piece in pieces:
            key = piece.split(":")[0]
            for other in (f"{key}: 1, ", f"{key} : {{}}, ", f'{key}: "", ', f'{key}: "\\u003a", ', piece + ", ", piece.replace(":", "\\u003a:", 1) + ", "):
                body = whole.replace(piece, other + piece).encode()
                self.assertIsNone(quick.evaluation(body), body)
            escaped = whole.replace("a:b", "\\u003a").replace(piece, f"{piece}, {piece}").encode()
            self.assertIsNone(quick.evaluation(escaped), escaped)

    def test_what_stands_round_it(self):
        body = json.dumps({"principal": U, "action": A, "resource": R}).encode()
        for given in (b" " + body, body + b" ", body + b"x", body + body, b"", b"\xff", b"null", b"1", b'"x"', *(text.encode() for text, _ in VALUES)):
            self.are_told(*WAYS[0], given)

    def test_unknown_parts(self):
        for part in ("principal", "action", "resource", "context"):
            self.assertIsNone(quick.asked(json.dumps({"principal": U, "action": A, "resource": R, part: {"__unknown": {}}}).encode()), part)


class Answers(unittest.TestCase):
    def test_any_id(self):
        """Links have the ids that their users give."""
        any_text, user = Any(time.time_ns()), Entity("U", "a")
        asked = '{principal:U::"a",action:A::"v",resource:R::"r",context:{}}'
        with cedar.Session() as session:
            scope = "permit(principal == ?principal, action, resource)"
            (fine, errs) = session.load(f"{scope}; {scope} when {{ context.x }};")
            texts = [*LETTERS, *(any_text.text().replace("\ud800", "") for _ in range(300))]
            for at, text in enumerate(texts):
                ids = [f"{text}{it} {at}" for it in range(2)]
                for template, link in zip((fine, errs), ids):
                    session.link(template, link, user)
                line = session.asked(asked)
                answer = answer_of(line)
                self.assertEqual((answer.must, answer.erring), ((ids[0],), {ids[1]: "RecordAttrDoesNotExist"}))
                shown = {"decision": "allow", "must": [ids[0]], "may": [ids[0]], "erring": answer.erring, "position": at}
                self.assertEqual(json.loads(answers.asked(line, at)), shown)
                wanted = {"decision": True, "context": {"reasons": [ids[0]], "erring": answer.erring, "position": at}}
                self.assertEqual(json.loads(answers.evaluated(line, at)), wanted)
                for link in ids:
                    session.unlink(link)


if __name__ == "__main__":
    unittest.main()
