"""Tests of the page in Debian's Chromium, by its driver. With CEDAR_PICTURE in the environment the page's picture is written there."""

import os
import time
import unittest

from selenium import webdriver
from selenium.webdriver.chrome.service import Service as Driver
from selenium.webdriver.common.by import By
from selenium.webdriver.common.keys import Keys

from tests_server.serving import ADMIN, ASKER, Service

WORDS = ("--headless=new", "--no-sandbox", "--disable-gpu", "--disable-dev-shm-usage", "--window-size=1400,1000")
# It speaks to this machine alone.
WORDS += ("--disable-background-networking", "--disable-component-update", "--no-proxy-server", "--host-resolver-rules=MAP * ~NOTFOUND, EXCLUDE 127.0.0.1")


class InBrowser(unittest.TestCase):
    more = ("--page",)

    @classmethod
    def setUpClass(cls):
        cls.service = Service()
        cls.addClassCleanup(cls.service.remove)
        cls.service.words += [it.replace("ROOM", cls.service.room) for it in cls.more]
        cls.service.start()
        options = webdriver.ChromeOptions()
        options.binary_location = "/usr/bin/chromium"
        options.set_capability("goog:loggingPrefs", {"browser": "ALL"})
        for it in WORDS:
            options.add_argument(it)
        cls.browser = webdriver.Chrome(service=Driver("/usr/bin/chromedriver"), options=options)
        cls.addClassCleanup(cls.browser.quit)

    def setUp(self):
        self.browser.get_log("browser")
        self.browser.get(f"http://127.0.0.1:{self.service.port}/")

    def one(self, selector):
        return self.browser.find_element(By.CSS_SELECTOR, selector)

    def all(self, selector):
        """The texts of all that there are at one moment, since the page draws them anew."""
        return self.browser.execute_script("return [...document.querySelectorAll(arguments[0])].map(it => it.textContent)", selector)

    def becomes(self, read, wanted, seconds=60):
        until, found = time.monotonic() + seconds, None
        while time.monotonic() < until:
            found = read()
            if found == wanted:
                return
            time.sleep(0.05)
        self.assertEqual(found, wanted)

    def decides(self, wanted):
        self.becomes(lambda: self.one("#decision").text, wanted)

    def write(self, editor, old, new):
        """Replaces a part of a text, as by typing."""
        words = "const it = document.getElementById(arguments[0]), at = it.value.indexOf(arguments[1]);"
        words += "it.focus(); it.setSelectionRange(at, at + arguments[1].length); return at"
        self.assertGreaterEqual(self.browser.execute_script(words, editor, old), 0)
        self.one(f"#{editor}").send_keys(new or Keys.DELETE)

    def marked(self, editor):
        """What is marked in an editor, and what is said below it."""
        return self.all(f".editor:has(#{editor}) mark"), self.all(f".editor:has(#{editor}) + .fault")[0]


class Page(InBrowser):
    def test_what_is_decided_and_why(self):
        self.decides("allow")
        self.assertEqual(self.all("#why li"), ["decided by policy0"])
        if "CEDAR_PICTURE" in os.environ:
            self.browser.save_screenshot(os.environ["CEDAR_PICTURE"])
        self.write("question", '"hour": 9', '"hour": 18')
        self.decides("deny")
        self.assertEqual((self.all("#why li"), self.one("#words").text), ([], "no policy that holds speaks for it"))
        self.write("entities", '"private": false', '"private": true')
        self.becomes(lambda: self.all("#why li"), ["decided by policy1"])
        self.write("question", '"hour": 18', "")
        self.becomes(lambda: self.all("#why li"), ["decided by policy1", "policy0 errs: RecordAttrDoesNotExist"])
        self.assertEqual([it for it in self.browser.get_log("browser") if it["level"] != "DEBUG"], [])

    def test_faults_are_marked_where_they_are(self):
        self.decides("allow")
        self.write("policies", "resource.private }", "resource.private = }")
        self.becomes(lambda: self.marked("policies")[1], "refused Text: the policy at line 6 column 1")
        self.assertTrue(self.marked("policies")[0][0].startswith("forbid(principal, action, resource)\nwhen { resource.private = }"))
        self.assertEqual(self.one("#decision").text, "no decision")
        self.write("policies", "private = }", "private }")
        self.decides("allow")
        self.assertEqual(self.marked("policies"), ([], ""))
        self.write("question", '"hour": 9', '"hour": 9.5')
        self.becomes(lambda: self.marked("question"), (["9.5"], "9.5 isn't a whole number in digits, as the language has them"))
        self.write("question", "9.5", "9, \"hour\": 10")
        self.becomes(lambda: self.marked("question")[1], 'the key "hour" stands twice')
        self.assertEqual(self.marked("question")[0], ['{"hour": 9, "hour": 10}'])
        self.write("question", ', "hour": 10', "")
        self.decides("allow")
        self.write("entities", '"id": "alice"', '"id": 7')
        self.becomes(lambda: self.marked("entities"), (["7"], "a string is wanted, and this is a number"))
        self.write("entities", '"id": 7', '"id" 7')
        self.becomes(lambda: self.one("#words").text, "a text is no JSON")
        self.assertEqual(len(self.marked("entities")[0]), 1)

    def test_entities_and_their_parents(self):
        names = ["Group::\"people\"", "Group::\"staff\"", "Photo::\"1\"", "User::\"alice\"", "User::\"bob\""]
        self.becomes(lambda: sorted(self.all("#hierarchy text")), names)
        edges = [it.get_attribute("data-edge") for it in self.browser.find_elements(By.CSS_SELECTOR, "#hierarchy path")]
        self.assertEqual(sorted(edges), [f"{names[1]} {names[0]}", f"{names[3]} {names[1]}", f"{names[4]} {names[0]}"])
        self.assertEqual((self.all("#hierarchy .unlisted text"), sorted(self.all("#hierarchy .asked text"))), ([names[0]], [names[2], names[3]]))
        height = {it.text: int(it.get_attribute("y")) for it in self.browser.find_elements(By.CSS_SELECTOR, "#hierarchy text")}
        self.assertTrue(height[names[0]] < height[names[1]] < height[names[3]])
        self.write("entities", '"id": "bob"}, "parents"', '"id": "<img src=x onerror=alert(1)>"}, "parents"')
        self.becomes(lambda: 'User::"<img src=x onerror=alert(1)>"' in self.all("#hierarchy text"), True)
        self.decides("allow")

    def test_nothing_else_runs_in_it(self):
        caller = self.service.caller()
        self.addCleanup(caller.close)
        headers = caller.get("/").headers
        self.assertIn("default-src 'none'; script-src 'sha256-", headers["content-security-policy"])
        self.browser.execute_script("const it = document.createElement('script'); it.textContent = 'window.other = 1'; document.body.append(it)")
        self.assertIsNone(self.browser.execute_script("return window.other === undefined ? null : 1"))


class WithTokens(InBrowser):
    more = ("--page", "--tokens", "ROOM/tokens")

    def test_a_token_is_asked_for(self):
        self.becomes(lambda: self.one("#decision").text, "no decision")
        self.assertIn("Unauthorized", self.one("#words").text)
        self.one("#token").send_keys(ASKER, Keys.ENTER)
        self.decides("allow")


class WithoutPage(unittest.TestCase):
    def test_no_page_is_served_where_none_is_asked_for(self):
        with Service() as service:
            caller = service.caller(ADMIN)
            self.addCleanup(caller.close)
            self.assertEqual(caller.get("/").fault, (404, "NoPath", ""))


if __name__ == "__main__":
    unittest.main()
