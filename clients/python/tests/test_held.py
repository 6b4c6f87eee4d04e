"""Tests of what copies hold: CEDAR_LIBRARY names the shared object."""

import glob
import os
import unittest

import cedar_session as cedar
from cedar_session import values
from cedar_session.commands import EDITS, QUESTIONS
from cedar_session.held import Held, commands_of, frame_of, read_frame

HERE = os.path.dirname(os.path.abspath(__file__))
CASES = os.path.join(HERE, "../../../crates/cedar_main/cases/*.stdin")
ANY = "permit(principal, action, resource);"


def many(count):
    """A put of so many entities, which takes a session a while."""
    return "[" + ",".join(f'{{uid: User::"{at}", parents: [Group::"{at % 7}", Group::"all"], attrs: {{n: {at}}}}}' for at in range(count)) + "]"


def given(frames, held=None):
    """A session that was given these commands, and their lines."""
    session, lines = cedar.Session(), []
    for verb, body in frames:
        lines.append(session.line(verb, body))
        if held is not None:
            held.record(verb, body, lines[-1])
    return session, lines


class Snapshots(unittest.TestCase):
    def commands(self, path):
        with open(path, "rb") as stream:
            while True:
                try:
                    frame = read_frame(stream)
                    verb, body = frame[0], frame[1].decode()
                except (TypeError, ValueError):
                    return
                if verb in EDITS + QUESTIONS:
                    yield verb, body

    def test_sessions_go_on_from_each_of_their_edits(self):
        """The sessions on which the gate runs the program."""
        begun = 0
        for path in sorted(glob.glob(CASES)):
            commands = list(self.commands(path))
            whole, lines = given(commands)
            whole.close()
            held = Held()
            for at, (verb, body) in enumerate(commands, 1):
                held.record(verb, body, lines[at - 1])
                if verb in EDITS and lines[at - 1].startswith("ok"):
                    with self.subTest(path=os.path.basename(path), edits=at):
                        begun += 1
                        self.goes_on(held, commands[at:], lines[at:])
        self.assertGreater(begun, 200)

    def goes_on(self, held, commands, lines):
        again = Held()
        frames = held.frames()
        session, snapshot = given(commands_of(frames), again)
        self.addCleanup(session.close)
        self.assertEqual([it for it in snapshot if not it.startswith("ok")], [])
        self.assertEqual(again.frames(), frames)
        self.assertEqual([session.line(*it) for it in commands], lines)
        session.close()

    def test_frames_are_whole(self):
        frames = frame_of("load", ANY) + frame_of("link", '{template: "policy0"}')
        self.assertEqual(len(list(commands_of(frames))), 2)
        for end in range(len(frames)):
            if end not in (0, len(frame_of("load", ANY))):
                with self.subTest(end=end), self.assertRaises(ValueError):
                    list(commands_of(frames[:end]))
        for wrong in (b"load 99\n" + ANY.encode(), b"load 1\na", b"load 1\nab\n", b"load 01\na\n", b"junk", b"load 1\n\xff\n", b"load 2000000\n"):
            with self.subTest(wrong=wrong), self.assertRaises(ValueError):
                list(commands_of(wrong))

    def test_texts_of_any_form(self):
        loaded = """// permit;
            @id("a;b") @note permit(principal, action, resource) when { "//;\\"" != context.a }; // forbid;
            forbid (principal == ?principal, action, resource) unless { context["b;"] }; permit(principal,action,resource) // end"""
        commands = [
            ("load", loaded + "\r;\n// behind;"),
            ("link", '({"template": ("policy\\u{31}"), id: "l\\x41\\n\\"", // both\n principal: (A :: B :: "x\\0y")})'),
            ("put", '([({"uid": (U::"\\u{61}b"), "parents": ([(U :: "c"), U::"c", U::"d]"]), attrs: ({"}": ["],{", -1]})}), {uid: U::"c"}])'),
            ("add", '[{tags: {t: true || false}, uid: U::"e", "parents": []}, {uid: U::"ab", parents: [U::"c", U::"d]"], attrs: {"}": [-1, "],{"]}}]'),
            ("remove", '([(U::"\\u{63}"), // none\n Z::"z"])'),
            ("ask", '{principal: A::B::"x\\0y", resource: U::"ab", context: {a: unknown("a"), b: true, "b;": false}}'),
            ("load", "permit(principal in U::\"d]\", action, resource) when { principal[\"}\"].contains(-1) && !(principal in U::\"c\") };"),
            ("ask", '{principal: U::"ab", context: {a: "", "b;": true}}'),
            ("unlink", '("l\\u{41}\\n\\"") // gone'),
            ("remove-template", '"policy\\x31"'),
            ("remove-static", '("policy2")'),
            ("ask", '{principal: U::"ab", context: {a: "", "b;": true}}'),
        ]
        _, lines = given(commands)
        self.assertEqual([it for it in lines if it.startswith("refused")], [])
        self.assertIn('"lA\\n\\""', lines[5])
        held = Held()
        for at, (verb, body) in enumerate(commands, 1):
            held.record(verb, body, lines[at - 1])
            self.goes_on(held, commands[at:], lines[at:])

    def test_values_of_extension_types(self):
        made = {"paid": cedar.Extension("decimal", "12.50"), "more": {"all": [cedar.Extension("ip", "10.0.0.1/8"), cedar.Extension("datetime", "2026-12-01")]}}
        user, held = cedar.Entity("User", "a", made, (), {"until": cedar.Extension("duration", "1d")}), Held()
        given([("put", values.listed([user]))], held)[0].close()
        session, _ = given(commands_of(held.frames()))
        self.addCleanup(session.close)
        of_all = 'principal.more.all.containsAll([ip("10.0.0.1/8"), datetime("2026-12-01")])'
        for clause in ('principal.paid == decimal("12.5")', of_all, 'principal.getTag("until") == duration("24h")'):
            session.load(f"permit(principal, action, resource) when {{ {clause} }};")
        answer = session.ask(principal=user, action=cedar.Entity("Action", "v"), resource=user)
        self.assertEqual((len(answer.must), answer.erring), (3, {}))

    def test_what_is_added_again_stays(self):
        commands = [
            ("put", '[{uid: U::"a", parents: [U::"b"]}, {uid: U::"b", parents: [U::"c"]}]'),
            ("add", '[{uid: U::"a", parents: [U::"b", U::"c"]}]'),
            ("load", 'permit(principal in U::"c", action, resource);'),
            ("ask", '{principal: U::"a"}'),
            ("remove", '[U::"b"]'),
            ("ask", '{principal: U::"a"}'),
        ]
        _, lines = given(commands)
        self.assertEqual([it for it in lines if it.startswith("refused")], [])
        self.assertNotEqual(lines[3], lines[5])
        held = Held()
        for at, (verb, body) in enumerate(commands, 1):
            held.record(verb, body, lines[at - 1])
            self.goes_on(held, commands[at:], lines[at:])

    def test_more_policies_than_one_text_has(self):
        pad = "x" * 8_000
        texts = [f'permit(principal == User::"{at}", action, resource) when {{ context.s != "{pad}" }};' for at in range(200)]
        short = "".join(f'permit(principal == Robot::"{at}", action, resource);' for at in range(300))
        first, second = "".join(texts[:100]), "".join(texts[100:])
        commands = [("load", it) for it in (first, ANY + "".join(texts[100:140]), short, ANY + first, ANY * 2 + second)]
        commands += [("remove-static", f'"policy{at}"') for at in (0, 7, 100, 199, 200, 300)]
        commands += [("load", "permit(principal, action, resource == ?resource);"), ("load", "forbid(principal in ?principal, action, resource);" * 2)]
        commands += [("link", '{template: "policy7", id: "policy200", principal: User::"3"}')]
        held = Held()
        session, _ = given(commands, held)
        self.addCleanup(session.close)
        self.assertGreater(sum(map(len, held.policies.values())), 2 * cedar.BODY_LIMIT)
        self.goes_on(held, *self.rest(session))

    def rest(self, session):
        commands = [("ask", f'{{principal: User::"{at}", action: Action::"a", resource: Doc::"d", context: {{s: ""}}}}') for at in range(0, 200, 7)]
        commands += [("ask", '{principal: User::"3"}'), ("load", ANY * 5), ("remove-static", '"policy301"'), ("ask", '{principal: User::"7"}')]
        return commands, [session.line(*it) for it in commands]

    def test_more_entities_than_one_list_has(self):
        held = Held()
        session, lines = given([("put", many(11_000)), ("put", many(11_000).replace("User", "Robot")), ("remove", '[User::"5"]')], held)
        self.addCleanup(session.close)
        self.assertEqual(lines, ["ok"] * 3)
        self.assertEqual([it for it, _ in commands_of(held.frames())], ["put", "put"])
        commands = [("load", 'permit(principal in Group::"5", action, resource) when { principal.n > 4 };')]
        commands += [("ask", f'{{principal: {kind}::"{at}", context: {{}}}}') for kind in ("User", "Robot") for at in (5, 12, 13)]
        self.goes_on(held, commands, [session.line(*it) for it in commands])


if __name__ == "__main__":
    unittest.main()
