"""The console's page in a real browser: it walks, queries, sees a fault at its place, and changes
within a transaction that it commits or rolls back, by keys and by what screen readers are told."""

from __future__ import annotations

import time
import unittest
from typing import ClassVar

from .consoled import NASTY, ConsoleTest
from ..support import needs_program
from .webdriver import SECONDS, Browser, needs_browser

ENTER, TAB, CONTROL = "\ue007", "\ue004", "\ue009"
_CONTRASTS = """
const parse = text => text.match(/[\\d.]+/g).map(Number);
const light = rgb => rgb.slice(0, 3).map(it => it / 255)
  .map(it => it <= .03928 ? it / 12.92 : ((it + .055) / 1.055) ** 2.4)
  .reduce((sum, it, at) => sum + it * [.2126, .7152, .0722][at], 0);
const back = it => { for (; it; it = it.parentElement) {
  const found = parse(getComputedStyle(it).backgroundColor);
  if (found.length < 4 || found[3] > 0) return found; } return [255, 255, 255]; };
const bad = [];
for (const it of document.querySelectorAll("body *")) {
  if (!it.getClientRects().length || it.closest(".behind, .skip") || it.disabled) continue;
  if (![...it.childNodes].some(each => each.nodeType === 3 && each.data.trim())) continue;
  const both = [light(parse(getComputedStyle(it).color)), light(back(it))];
  const [one, other] = both.sort((a, b) => b - a);
  if ((one + .05) / (other + .05) < 4.5) bad.push(it.outerHTML.slice(0, 80));
}
return bad;
"""
_NAMELESS = """
return [...document.querySelectorAll("button, input, textarea, select")]
  .filter(it => it.getClientRects().length)
  .filter(it => !(it.getAttribute("aria-label") || it.innerText.trim()
                  || (it.labels && it.labels.length)))
  .map(it => it.outerHTML.slice(0, 80));
"""


@needs_browser
@needs_program
class Page(ConsoleTest):
    browser: ClassVar[Browser]

    @classmethod
    def setUpClass(cls) -> None:
        cls.browser = Browser()
        cls.addClassCleanup(cls.browser.close)

    def setUp(self) -> None:
        super().setUp()
        self.browser.go(self.console.url)
        self.browser.wait_text("2", "#entities")
        self.browser.wait_text("Person 1", "#table")

    def tearDown(self) -> None:
        self.assertEqual(self.browser.faults(), [])

    def ask_query(self, text: str) -> None:
        self.browser.fill("#text", text)
        self.browser.keys(ENTER, CONTROL)

    def test_it_walks_from_object_to_object(self) -> None:
        browser = self.browser
        browser.click("Person 1", "#table button")
        browser.wait_text("7 members", "#object")
        focus = "return document.activeElement.innerText === arguments[0]"
        browser.wait(focus, "Person 1")
        browser.click("Order 3", "#object button")
        browser.wait(focus, "Order 3")
        self.assertIn("Person 1", browser.text(".trail"))
        browser.click("Person 1", "#object .trail button")
        browser.wait(focus, "Person 1")
        browser.click("as a query", "#object button")
        browser.wait_text("Rows 1 to 7, the last", "#range")
        self.assertEqual(browser.run(_NAMELESS), [])

    def test_a_query_is_asked_by_keys_and_its_fault_is_at_its_place(self) -> None:
        browser = self.browser
        browser.fill("#text", "SELECT o FROM Order o WHERE o.amuont > :least")
        browser.wait_text("line 1, column 31", "#mistakes")
        self.assertIn("did you mean 'amount'?", browser.text("#mistakes"))
        self.assertEqual(browser.text("#behind mark"), "o.amuont"[2:])
        self.assertEqual(browser.run("return document.querySelector('#text').ariaInvalid"), "true")
        browser.click("line 1, column 31")
        self.assertEqual(browser.run(
            "const it = document.activeElement;"
            "return it.value.slice(it.selectionStart, it.selectionEnd)"), "amuont")
        browser.keys("amount")
        browser.wait("return !document.querySelector('#mistakes').innerText")
        browser.fill("#params input", "50")
        browser.run("document.querySelector('#text').focus()")
        browser.keys(ENTER, CONTROL)
        browser.wait_text("Rows 1 to 2, the last", "#range")
        self.assertNotIn("Order 5", browser.text("#table"))
        self.assertEqual(browser.run(_NAMELESS), [])

    def test_pages_and_csv(self) -> None:
        browser = self.browser
        with self.app.begin() as manager:
            for number in range(8, 61):
                manager.persist(self.app.new("Order", number=number, amount=1))
        self.ask_query("SELECT o.number FROM Order o ORDER BY o.number")
        browser.wait_text("Rows 1 to 50, and more", "#range")
        browser.click("Next")
        browser.wait_text("Rows 51 to 60, the last", "#range")
        browser.click("Previous")
        browser.wait_text("Rows 1 to 50", "#range")
        browser.click("CSV")
        file, until = browser.downloads / "rows.csv", time.monotonic() + SECONDS
        while not file.exists() and time.monotonic() < until:
            time.sleep(0.05)
        self.assertEqual(file.read_text().split(), ["number", *map(str, range(1, 61))])

    def test_what_is_stored_is_shown_and_never_run(self) -> None:
        browser = self.browser
        browser.wait_text(NASTY, "#table")
        browser.click("Person 2", "#table button")
        browser.wait_text(NASTY, "#object")
        self.assertNotEqual(browser.run("return document.title"), "taken")
        count = "return document.querySelectorAll('#object script, #table script').length"
        self.assertEqual(browser.run(count), 0)

    def test_a_change_is_committed(self) -> None:
        browser = self.browser
        self.ask_query("SELECT o FROM Order o ORDER BY o.number")
        browser.click("Order 3", "#table button")
        browser.click("Edit amount")
        browser.fill("#object form input", "x")
        browser.click("Set amount")
        browser.wait_text("'x' is no whole number of 64 bits", "#object")
        browser.fill("#object form input", "77")
        browser.keys(ENTER)
        browser.wait_text("Order 3: amount: 30 → 77", "#transaction")
        browser.wait_text("77", "#table")
        self.assertEqual(self.amounts()[2], 30)
        browser.click("Commit")
        browser.wait_text("committed: 1 change", "#said")
        browser.wait("return document.querySelector('#transaction').hidden")
        self.assertEqual(self.amounts()[2], 77)

    def test_changes_are_rolled_back(self) -> None:
        browser = self.browser
        browser.click("New Person")
        browser.fill("#object form textarea", "Eve")
        browser.click("Make it")
        browser.wait_text("Person 3: new", "#transaction")
        browser.click("Remove Person 3")
        browser.wait_text("Person 3: removed", "#transaction")
        self.ask_query("UPDATE Order o SET o.amount = 0")
        browser.wait_text("Change does it", "#refused")
        browser.click("Change")
        browser.wait_text("7 objects", "#transaction")
        self.assertEqual(browser.run(_NAMELESS), [])
        browser.click("Roll back")
        browser.wait_text("rolled back: 3 changes", "#said")
        self.assertEqual(self.amounts(), [10, 20, 30, 40, 50, 60, 70])

    def test_all_is_reached_by_tab_and_can_be_read(self) -> None:
        browser = self.browser
        browser.click("Person 1", "#table button")
        browser.wait_text("7 members", "#object")
        browser.click("Edit name")
        self.assertEqual(browser.run(_CONTRASTS), [])
        browser.run("document.querySelector('.skip').focus()")
        reached = set()
        for _ in range(45):
            reached.add(browser.run(
                "const it = document.activeElement; return it.id || it.innerText"))
            browser.keys(TAB)
        for wanted in ("text", "run", "csv", "size", "table", "Person 1", "Close", "Set name"):
            self.assertIn(wanted, reached)


@needs_browser
@needs_program
class ReadOnlyPage(ConsoleTest):
    can_write = False

    def test_it_offers_no_change_and_can_be_read_in_the_dark(self) -> None:
        browser = Browser(is_dark=True)
        self.addCleanup(browser.close)
        browser.go(self.console.url)
        browser.wait_text("Person 1", "#table")
        browser.click("Person 1", "#table button")
        browser.wait_text("7 members", "#object")
        words = browser.run("return [...document.querySelectorAll('button')]"
                            ".filter(it => it.getClientRects().length)"
                            ".map(it => it.getAttribute('aria-label') || it.innerText)")
        for word in words:
            self.assertNotRegex(word, "^(Edit|New|Remove|Change|Commit|Add|Take)")
        self.assertIn("read-only", browser.text("#mode"))
        self.assertTrue(browser.run("return matchMedia('(prefers-color-scheme: dark)').matches"))
        self.assertEqual(browser.run(_CONTRASTS), [])


if __name__ == "__main__":
    unittest.main()
