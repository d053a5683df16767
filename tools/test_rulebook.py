"""The rulebook: that every row of docs/RULES.md is in it, that what a sentence names can be opened, and the page in a real browser."""

import html
import os
import re
import subprocess
import sys
import tempfile
import unittest
from functools import cache
from pathlib import Path

import browser
import check_docs
import rulebook
from book.rows import read_sections
from book.sources import Sources

TOOL = Path(rulebook.__file__)
TOP = TOOL.parents[1]


@cache
def book():
    return rulebook.Book(TOP)


@cache
def page():
    return rulebook.page(book())


def article(identity):
    return re.search(rf'<article id="{identity}">(.*?)</article>', page(), re.DOTALL)[1]


def words(text):
    return html.unescape(re.sub("<[^>]*>", "", text))


class Content(unittest.TestCase):
    def test_every_row(self):
        rules = (TOP / "docs" / "RULES.md").read_text()
        rows = re.findall(r'(?m)^\| (?!sentence |error |law |---|definition )', rules.split("\n## ", 2)[2])
        self.assertGreaterEqual(len(book().rows), 300)
        self.assertEqual(len(book().rows), len([line for line in rows]))
        for row in book().rows:
            self.assertEqual(page().count(f' id="{row.id}"'), 1, row.id)
            self.assertEqual(page().count(f' id="behind-{row.id}"'), 1, row.id)

    def test_the_conditions_are_among_the_sentences(self):
        self.assertIn("A refusal leaves book, holdings, balances, trades and counters as they were.", words(page()))

    def test_ids_and_links(self):
        ids = re.findall(r' id="([^"]+)"', page())
        self.assertEqual(len(ids), len(set(ids)))
        self.assertEqual(sorted(set(re.findall(r'href="#([^"]+)"', page())) - set(ids)), [])

    def test_nothing_is_fetched(self):
        self.assertRegex(page()[:1_000], r"""Content-Security-Policy"\s+content="default-src 'none'; """)
        self.assertEqual(re.findall(r"https?://[\w.]+|src=\"[^\"]*\"|url\(|@import|fetch\(", page()), [])

    def test_every_definition_named_can_be_opened(self):
        """`File: name` in a row is a link to that definition."""
        for row in book().rows:
            for column, cell in row.cells.items():
                for file, names in re.findall(r"\b([A-Z]\w+): ((?:`[^`]+`(?: \([^)|]*\))?(?:, )?)+)", cell):
                    for name in re.findall("`([^` ]+)`", re.sub(r"\([^)]*\)", "", names)):
                        if (file, name) in named_in(file):
                            linked = [cell[one.start : one.end] for one in row.references[column]]
                            self.assertIn(f"`{name}`", linked, f"{row.number}: {file}: {name}")

    def test_every_edit_named_can_be_opened(self):
        for row in book().rows:
            for cell in row.cells.values():
                for name in re.findall(r"(?<![\w/.`])([a-z_]+/[a-z0-9_]+)(?![\w/.*])", cell):
                    if name in book().sources.edits:
                        self.assertIn(book().sources.edits[name].id, row.named("edit"), row.number)

    def test_a_definition_has_plain_words_or_a_comment(self):
        for identity in {one for row in book().rows for one in row.named("definition")}:
            item = book().items[identity]
            self.assertTrue(book().plain_words(item) or item.comment, identity)

    def test_plain_words_are_of_definitions_that_stand(self):
        known = {key for file in {file for file, _ in book().sources.plain_words} for key in named_in(file)}
        self.assertEqual([key for key in book().sources.plain_words if key not in known], [])

    def test_wrong_engines_are_two_line_differences(self):
        shown = words(article("edit-prices-one_middle_for_the_sweep"))
        text = book().sources.edits["prices/one_middle_for_the_sweep"].text
        for kind, mark in (("old", "\u2212"), ("new", "+")):
            for line in re.findall(rf"(?m)^{kind}: *(.*)$", text):
                self.assertIn(f"{mark} {line.strip()}", shown)
        for item in book().sources.edits.values():
            self.assertRegex(item.text, r"(?m)^old:.*\nnew:", item.name)

    def test_one_sentence_all_the_way(self):
        """"Market and best trade at the resting price.": as docs/RULES.md follows it."""
        row = next(row for row in book().rows if row.sentence == '"Market and best trade at the resting price."')
        behind = dict(book().behind[row.id])
        self.assertIn("definition-rules-Matching-trade_price", behind["Definition"])
        self.assertIn("promise-prices-trade_price", behind["Promise"])
        self.assertIn("edit-prices-market_at_the_last_price", behind["Wrong engine, which the prover refuses"])
        self.assertIn("lesson-04-market-and-best", behind["Lesson"])
        shown = words(article("definition-rules-Matching-trade_price"))
        self.assertIn("trade_price method Market price last = price", shown)
        self.assertIn("The price of a trade: a limit order's by the method", shown)
        self.assertIn(row.number, shown)
        self.assertIn("ensures { result ≡ matching.trade_price method condition price last }", words(article("promise-prices-trade_price")))

    def test_every_lesson_of_the_ladder_shows_a_sentence(self):
        for name in book().lessons:
            if re.match(r"(0\d|1[0-4])-", name):
                self.assertTrue(book().cited_in[f"lesson-{name}"], name)

    def test_codes(self):
        """Every code from 0 to 30 is in the index with a meaning and a sentence."""
        rows = re.findall(r'<tr id="code-(\d+)"><td>\d+</td><td>(.*?)</td><td>(.*?)</td></tr>', page())
        self.assertEqual([int(code) for code, _, _ in rows], list(range(31)))
        for code, meaning, sentences in rows:
            self.assertTrue(meaning and "href" in sentences, code)

    def test_decisions_by_the_words_that_leave_them_open(self):
        row = next(row for row in book().rows if "both numbered from 1" in row.sentence)
        self.assertIn(2, book().decisions[row.id] + book().decisions[book().rows[book().rows.index(row) - 1].id])

    def test_what_follows_from_the_rules(self):
        text = (
            "# x\n\n## What follows from the rules\n\nLaws.\n\n### Touch\n\nCases in `MatchingExamples`.\n\n"
            "| law | definition | theorem |\n|---|---|---|\n"
            "| 1. Nobody removes another's order. | Matching: `sweep` | `auction_lots` |\n\n### Money\n\n"
            "| law | definition |\n|---|---|\n| 2. None is made. | Condition3: `MoneyKept` |\n"
        )
        (section,) = read_sections(text, Sources(TOP), {})
        self.assertEqual([part[0] for part in section.parts], ["Touch", "Money"])
        self.assertEqual([row.number for row in section.rows], ["1.1", "1.2"])
        first = section.rows[0]
        self.assertEqual(first.named("definition"), ["definition-rules-Matching-sweep"])
        self.assertEqual(first.named("law"), ["law-theory-AuctionOutcome-auction_lots"])
        self.assertEqual(first.named("case"), ["case-rules-MatchingExamples"])


@cache
def named_in(file):
    return {(file, name) for (_, of), names in book().sources.definitions.items() if of == file for name in names}


def write_papers(folder):
    """Papers with the sentences that docs/RULES.md quotes, in its order."""
    texts = {"00": "# The conditions\n\nWords about them.\n\n", "01": "# What the build includes\n\n", "02": "# Changes\n\n"}
    for section in book().sections:
        if section.heading.startswith("What follows"):
            continue
        quoted = [check_docs.plain(one) for row in section.rows for one in check_docs.quotations(row.sentence)]
        if section.heading == check_docs.CONDITIONS:
            key, head = "00", ""
        elif section.heading.startswith("Document 02"):
            ticket = re.match(r"Document 02, ticket (\d+): (.*)", section.heading)
            key, head = "02", f"**Ticket {ticket[1]}. {ticket[2]}.** " if ticket else ""
        else:
            key, head = "01", f"## {section.heading}\n\n"
        texts[key] += head + " ".join(quoted) + "\n\n"
    for key, text in texts.items():
        Path(folder, f"{key}-paper.md").write_text(text)


class WithPapers(unittest.TestCase):
    def test_running_text(self):
        with tempfile.TemporaryDirectory() as folder:
            write_papers(folder)
            text = rulebook.page(rulebook.Book(TOP, folder))
        for row in book().rows:
            self.assertEqual(text.count(f' id="{row.id}"'), 1, row.id)
        self.assertIn("Ticket", words(text))
        ids = re.findall(r' id="([^"]+)"', text)
        self.assertEqual(sorted(set(re.findall(r'href="#([^"]+)"', text)) - set(ids)), [])

    @unittest.skipUnless(os.environ.get("PAPERS"), "no papers at hand (PAPERS)")
    def test_the_papers(self):
        text = rulebook.page(rulebook.Book(TOP, os.environ["PAPERS"]))
        for row in book().rows:
            self.assertEqual(text.count(f' id="{row.id}"'), 1, row.id)

    def test_no_papers(self):
        ended = subprocess.run([sys.executable, TOOL, "--papers", "/nowhere"], capture_output=True)
        self.assertEqual((ended.returncode, ended.stdout), (2, b""))
        self.assertIn(b"rulebook: /nowhere", ended.stderr)


@unittest.skipUnless(browser.find_browser(), "no browser is installed (apt-get install chromium)")
class InABrowser(unittest.TestCase):
    @classmethod
    def setUpClass(cls):
        folder = tempfile.TemporaryDirectory()
        cls.addClassCleanup(folder.cleanup)
        cls.path = Path(folder.name, "rulebook.html")
        cls.path.write_text(page(), encoding="utf-8")
        cls.browser = browser.Browser()
        cls.addClassCleanup(cls.browser.close)

    def setUp(self):
        self.browser.errors.clear()
        self.browser.requests.clear()

    def tearDown(self):
        self.assertEqual(self.browser.errors, [])
        others = [url for url in self.browser.requests if not url.startswith(("file:", "data:", "about:"))]
        self.assertEqual(others, [])

    def open(self, address="rules"):
        self.browser.call("Page.navigate", url="about:blank")
        self.browser.open(self.path, address)

    def value(self, expression):
        return self.browser.value(expression)

    def panel(self):
        return self.value("document.querySelector('#panel').hidden ? null : document.querySelector('#panel').innerText")

    def test_a_sentence_opens(self):
        self.open()
        self.assertIsNone(self.panel())
        row = next(row for row in book().rows if row.sentence == '"Market and best trade at the resting price."')
        self.value(f"document.getElementById('{row.id}').scrollIntoView({{block: 'center'}})")
        self.browser.click(f"#{row.id}")
        shown = self.panel()
        for part in (
            "trade_price method Market price last = price",
            "The price of a trade: a limit order's by the method",
            "result ≡ matching.trade_price method condition price last",
            "market takes all, each at the resting price",
            "\u2212 PriceCondition::Market | PriceCondition::Best => price,",
            "+ PriceCondition::Market => last,",
            "04-market-and-best",
        ):
            self.assertIn(part, shown)
        self.assertEqual(self.value("location.hash"), f"#{row.id}")
        self.browser.press("Escape")
        self.assertIsNone(self.panel())

    def test_keyboard(self):
        self.open()
        self.value("document.querySelector('.sentence').focus()")
        self.browser.press("Enter")
        self.assertIn("1.1", self.panel())
        self.browser.press("Enter")
        self.assertIsNone(self.panel())
        self.browser.press("/")
        self.assertEqual(self.value("document.activeElement.id"), "search")

    def test_an_address_opens(self):
        self.open("numbers-given-back-12")
        self.assertIn("6.12", self.panel())
        self.value("location.hash = '#edit-rules-best_walks_on'")
        self.browser.wait_for("document.querySelector('#edits').classList.contains('shown')")
        self.assertFalse(self.value("document.querySelector('#rules').classList.contains('shown')"))
        # And back from it to its sentence.
        self.value("document.querySelector('#edit-rules-best_walks_on .back a').click()")
        self.browser.wait_for("document.querySelector('#rules').classList.contains('shown')")
        self.assertIn("best_walks_on", self.panel())

    def test_search(self):
        self.open()
        self.value("document.querySelector('#search').focus()")
        self.value("document.querySelector('#search').value = 'blank contract'; search('blank contract')")
        found = self.value("document.querySelector('#found').innerText")
        self.assertRegex(found, r"Sentences: \d+")
        self.assertIn("rules/blank_contract_exists", found)
        self.value("search('no such words anywhere')")
        self.assertIn("Nothing has all of these words.", self.value("document.querySelector('#found').innerText"))
        self.value("search('')")
        self.assertTrue(self.value("document.querySelector('#rules').classList.contains('shown')"))

    def test_every_sentence_opens(self):
        self.open()
        empty = self.value(
            """(() => {
              const empty = [];
              for (const sentence of document.querySelectorAll(".sentence[id]")) {
                openRows(sentence.dataset.rows.split(" "));
                if (byId("panel").innerText.length < sentence.innerText.length) empty.push(sentence.id);
              }
              return empty;
            })()"""
        )
        self.assertEqual(empty, [])

    def test_nothing_sticks_out(self):
        self.addCleanup(self.resize, 1280, 900)
        for address in ("matching-7", "index", "definitions", "edits", "decisions", "lessons", "the-conditions-14"):
            self.open(address)
            for width, height in ((1920, 1080), (1280, 720), (800, 600), (400, 800)):
                self.resize(width, height)
                reach = self.value("document.documentElement.scrollWidth")
                self.assertLessEqual(reach, width, f"{address} at {width}")

    def resize(self, width, height):
        self.browser.call("Emulation.setDeviceMetricsOverride", width=width, height=height, deviceScaleFactor=1, mobile=False)

    def test_on_paper(self):
        """The rules without a sentence open, and with one what stands behind it on pages of its own."""
        self.open()
        rules = pages_in(self.browser.paper())
        self.open("matching-7")
        self.assertGreater(pages_in(self.browser.paper()), rules)
        self.assertLess(rules, 30)

    def test_without_a_script(self):
        self.browser.call("Emulation.setScriptExecutionDisabled", value=True)
        self.addCleanup(self.browser.call, "Emulation.setScriptExecutionDisabled", value=False)
        self.open("rules")
        shown = "['rules', 'index', 'definitions', 'edits'].map((id) => getComputedStyle(document.getElementById(id)).display)"
        self.assertEqual(self.value(shown), ["block"] * 4)


def pages_in(pdf):
    return len(re.findall(rb"/Type\s*/Page\b", pdf))


if __name__ == "__main__":
    unittest.main()
