"""Tests of questions that bring their own policies and entities, as cedar-wasm's isAuthorized has them."""

import json
import unittest

from cedar_server import reading
from cedar_server.faults import Fault
from cedar_server.places import place_of
from cedar_server.whole import answer_of
from tests_server.serving import ALICE, ANY, BOB, PHOTO, VIEW, Service

STAFF = {"type": "Group", "id": "staff"}
OF_STAFF = 'permit(principal in Group::"staff", action, resource) when { context.hour < 18 };'
NONE = 'forbid(principal == User::"bob", action, resource);'
TEMPLATE = "permit(principal == ?principal, action, resource in ?resource);"
ENTITIES = [{"uid": {"__entity": ALICE}, "attrs": {}, "parents": [STAFF]}]


def call(policies, principal=ALICE, **more):
    return {"principal": principal, "action": {"__entity": VIEW}, "resource": PHOTO, "context": {"hour": 9}, "policies": policies, "entities": ENTITIES, **more}


def link(own, template="t", **slots):
    return {"templateId": template, "newId": own, "values": {f"?{slot}": it for slot, it in slots.items()}}


def extension(function, argument):
    return {"__extn": {"fn": function, "arg": argument}}


PAID = [{"uid": ALICE, "attrs": {"paid": extension("decimal", "12.50")}, "tags": {"until": extension("datetime", "2026-12-01")}, "parents": []}]
INSIDE = 'permit(principal, action, resource) when { context.from.isInRange(ip("10.0.0.0/8")) };'
MORE = 'permit(principal, action, resource) when { principal.paid.greaterThan(decimal("12.49")) };'
LATER = 'permit(principal, action, resource) when { principal.getTag("until").offset(context.grace) > datetime("2026-12-02") };'

# A call, with the decision, the reasons and those that err.
ANSWERS = (
    (call({}), "deny", [], {}),
    (call({"staticPolicies": ""}), "deny", [], {}),
    (call({"staticPolicies": OF_STAFF + NONE}), "allow", ["policy0"], {}),
    (call({"staticPolicies": OF_STAFF + NONE}, BOB), "deny", ["policy1"], {}),
    (call({"staticPolicies": OF_STAFF}, context={"hour": 18}), "deny", [], {}),
    (call({"staticPolicies": OF_STAFF}, context={}), "deny", [], {"policy0": "RecordAttrDoesNotExist"}),
    (call({"staticPolicies": {"staff by day": OF_STAFF, "no bob": NONE}}), "allow", ["staff by day"], {}),
    (call({"staticPolicies": {"a": ANY, "b": ANY, "c": NONE}}), "allow", ["a", "b"], {}),
    (call({"staticPolicies": [NONE, ANY]}), "allow", ["policy1"], {}),
    (call({"staticPolicies": {"policy1": ANY, "policy0": NONE}}), "allow", ["policy1"], {}),
    (call({"templates": {"t": TEMPLATE}}), "deny", [], {}),
    (call({"templates": {"t": TEMPLATE}, "templateLinks": [link("l", principal=ALICE, resource=PHOTO)]}), "allow", ["l"], {}),
    (call({"templates": {"t": TEMPLATE}, "templateLinks": [link("l", principal=BOB, resource=PHOTO)]}), "deny", [], {}),
    (
        call({"staticPolicies": {"x": ANY}, "templates": {"t": TEMPLATE}, "templateLinks": [link("policy0", principal=ALICE, resource=PHOTO)]}),
        "allow",
        ["policy0", "x"],
        {},
    ),
)
# Values of extension types.
ANSWERS += (
    (call({"staticPolicies": INSIDE}, context={"from": extension("ip", "10.1.2.3")}), "allow", ["policy0"], {}),
    (call({"staticPolicies": INSIDE}, context={"from": extension("ip", "11.1.2.3")}), "deny", [], {}),
    (call({"staticPolicies": MORE}, entities=PAID), "allow", ["policy0"], {}),
    (call({"staticPolicies": LATER}, entities=PAID, context={"grace": extension("duration", "1d1ms")}), "allow", ["policy0"], {}),
    (call({"staticPolicies": LATER}, entities=PAID, context={"grace": extension("duration", "1d")}), "deny", [], {}),
)
ALICES = {"principal": ALICE, "resource": PHOTO}
P = "/policies"
FAULTS = (
    ([], "WrongType", ""),
    ({"principal": ALICE}, "MissingKey", ""),
    (call({}, schema={}), "UnknownKey", "/schema"),
    (call("permit(principal, action, resource);"), "WrongType", P),
    (call({"static": ""}), "UnknownKey", f"{P}/static"),
    (call({"staticPolicies": 1}), "WrongType", f"{P}/staticPolicies"),
    (call({"staticPolicies": "permit("}), "Refused", f"{P}/staticPolicies"),
    (call({"staticPolicies": TEMPLATE}), "OtherKind", f"{P}/staticPolicies"),
    (call({"staticPolicies": {"a": ANY, "b": "permit("}}), "Refused", f"{P}/staticPolicies/b"),
    (call({"staticPolicies": {"a": ANY + NONE}}), "NotOne", f"{P}/staticPolicies/a"),
    (call({"staticPolicies": {"a": ""}}), "NotOne", f"{P}/staticPolicies/a"),
    (call({"staticPolicies": {"a": TEMPLATE}}), "OtherKind", f"{P}/staticPolicies/a"),
    (call({"staticPolicies": {"a": {"effect": "permit"}}}), "JsonPolicy", f"{P}/staticPolicies/a"),
    (call({"staticPolicies": [ANY, {"effect": "permit"}]}), "JsonPolicy", f"{P}/staticPolicies/policy1"),
    (call({"staticPolicies": {"a": 1}}), "WrongType", f"{P}/staticPolicies/a"),
    (call({"templates": {"t": {"effect": "permit"}}}), "JsonPolicy", f"{P}/templates/t"),
    (call({"templates": {"t": ANY}}), "OtherKind", f"{P}/templates/t"),
    (call({"templateLinks": [link("l", **ALICES)]}), "NoTemplate", f"{P}/templateLinks/0/templateId"),
    (call({"templates": {"t": TEMPLATE}, "templateLinks": [link("l", principal=ALICE)]}), "Refused", f"{P}/templateLinks/0"),
    (call({"templates": {"t": TEMPLATE}, "templateLinks": [link("l", action=VIEW)]}), "UnknownKey", f"{P}/templateLinks/0/values/?action"),
    (call({"templates": {"t": TEMPLATE}, "templateLinks": [link("l", **ALICES), link("l", **ALICES)]}), "DoubledId", f"{P}/templateLinks/1/newId"),
    (call({"staticPolicies": {"l": ANY}, "templates": {"t": TEMPLATE}, "templateLinks": [link("l", **ALICES)]}), "DoubledId", f"{P}/templateLinks/0/newId"),
    (call({}, entities=[{"uid": 1}]), "WrongType", "/entities/0/uid"),
    (call({}, entities=[{"uid": ALICE, "parents": [ALICE]}]), "Refused", "/entities"),
    (call({}, context={"a": None}), "WrongType", "/context/a"),
    (call({}, context={"a": extension("ipv4", "10.0.0.1")}), "Extension", "/context/a/__extn/fn"),
    (call({}, context={"a": extension("ip", "10.0.0.256")}), "Refused", ""),
    (call({}, entities=[{"uid": ALICE, "attrs": {"paid": extension("decimal", "1.23456")}}]), "Refused", "/entities"),
)


class Calls(unittest.TestCase):
    def test_answers(self):
        for given, decision, reasons, erring in ANSWERS:
            said = answer_of(given)
            errors = [{"policyId": own, "error": {"message": kind}} for own, kind in erring.items()]
            wanted = {"decision": decision, "diagnostics": {"reason": reasons, "errors": errors}}
            self.assertEqual(said, {"type": "success", "response": wanted, "warnings": []}, given["policies"])

    def test_faults(self):
        for given, kind, at in FAULTS:
            with self.assertRaises(Fault, msg=str(given)) as raised:
                answer_of(reading.read(json.dumps(given).encode()))
            self.assertEqual((raised.exception.kind, raised.exception.at), (kind, at), given)

    def test_places_of_texts(self):
        """Of a text that is refused the first policy is told that no session takes."""
        cases = (
            ("permit(", (1, 1)),
            (f"{ANY}\n\n  permit(principal);\n{ANY}", (3, 3)),
            (f'@id("a;b")\n{ANY} // ; permit(\n{ANY} forbid(principal', (3, 38)),
            (f"{ANY}\n", None),
            ("", None),
            (f"{ANY} // the end", None),
        )
        for policies, wanted in cases:
            self.assertEqual(place_of(policies), wanted, policies)

    def test_over_http(self):
        with Service() as service:
            caller = service.caller()
            self.addCleanup(caller.close)
            reply = caller.post("/v1/is_authorized", call({"staticPolicies": {"it": ANY}}))
            self.assertEqual((reply.status, reply.said["response"]["diagnostics"]["reason"]), (200, ["it"]))
            reply = caller.post("/v1/is_authorized", call({"staticPolicies": "permit("}))
            self.assertEqual(reply.fault, (422, "Refused", "/policies/staticPolicies"))
            message = "/policies/staticPolicies refused Text: the policy at line 1 column 1"
            self.assertEqual((reply.said["type"], reply.said["errors"]), ("failure", [{"message": message}]))
            # Nothing of it stays.
            self.assertEqual(caller.ask(BOB, hour=9).said["decision"], "deny")


if __name__ == "__main__":
    unittest.main()
