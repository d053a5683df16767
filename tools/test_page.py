"""The page of a lesson: what stands in it, and the paper's day stepped through in a real browser."""

import json
import os
import re
import resource
import signal
import subprocess
import sys
import tempfile
import unittest
from functools import cache
from pathlib import Path

import browser
import page
from lessons import lesson

import daytext
import model

TOOL = Path(page.__file__)
TOP = TOOL.parents[1]
SAMPLES = TOP / "samples"
# The texts that are a day: a day file stands beside each.
DAYS = sorted(path for path in SAMPLES.glob("*.txt") if path.with_suffix(".day").exists())
MODEL_AS_RUNNER = f"{sys.executable} {TOP / 'tools' / 'model' / 'model.py'}"

HEAD = "contract multiplier 10 tick 1 reference 100 band 10 limit 1000 rate 1000\naccount 10,000\naccount 10,000\n"


@cache
def page_of_sample(name):
    return page.page(lesson.read(str(SAMPLES / f"{name}.txt")), (SAMPLES / f"{name}.out").read_text())


def page_of_text(text):
    of = lesson.lesson_of("lesson.txt", daytext.pack(text), text)
    return page.page(of, model.run(of.file).decode())


def first_steps(text, count):
    """The page of a lesson that ends after so many commands."""
    whole = lesson.lesson_of("lesson.txt", daytext.pack(text), text)
    day = whole.day._replace(commands=whole.day.commands[:count])
    first = whole._replace(day=day, comments={**whole.comments, "command": whole.comments["command"][:count]})
    lines = lesson.lines_by_command(model.run(whole.file).decode())[: count + 1]
    return page.page(first, "".join(f"{line}\n" for group in lines for line in group))


def data_in(text):
    """The lesson that a page holds."""
    return json.loads(re.search(r'<script id="lesson" type="application/json">(.*?)</script>', text, re.DOTALL)[1])


class Content(unittest.TestCase):
    def test_nothing_is_fetched(self):
        text = page_of_sample("paper-example")
        policy = r"""<meta http-equiv="Content-Security-Policy"\s+content="default-src 'none'; """
        self.assertRegex(text[:1_000], policy)
        self.assertEqual(set(re.findall(r"https?://[^\"' ]*", text)), {"http://www.w3.org/2000/svg"})
        self.assertEqual(
            re.findall(r"(?:src|href)=\"([^\"]*)\"|url\(|@import|fetch\(|XMLHttpRequest", text), ["data:,"]
        )

    def test_every_line_of_the_runner(self):
        for path in DAYS:
            steps = data_in(page_of_sample(path.stem))["steps"]
            lines = [said["line"] for step in steps for said in step["said"] if said["line"]]
            self.assertEqual(lines, path.with_suffix(".out").read_text().splitlines(), path.name)

    def test_a_comment_cannot_end_the_script(self):
        comment = "</script><script>alert(1)</script><!-- & \\u003c"
        text = page_of_text(HEAD + f"settle  # {comment}\n")
        self.assertEqual(data_in(text)["steps"][0]["beside"], comment)
        self.assertEqual(text.count("</script>"), 2)

    def test_a_step_holds_what_it_changed(self):
        steps = data_in(page_of_sample("paper-example"))["steps"]
        self.assertEqual(
            [sorted(step["accounts"]) for step in steps], [[], ["1"], ["1", "2"], ["1"], [], ["1", "2"], [], ["1", "2"]]
        )
        self.assertEqual([sorted(step["books"]) for step in steps], [["1"]] * 8)

    def test_accounts_that_take_no_part(self):
        self.assertEqual(data_in(page_of_sample("largest-file"))["active"], [1, 2])
        self.assertEqual(data_in(page_of_text(HEAD))["active"], [1, 2])

    def test_large_balances_keep_their_digits(self):
        text = page_of_text(HEAD.replace("10,000", "999,999,999,999,999,999", 1) + "deposit 1 1\n")
        step = data_in(text)["steps"][0]
        self.assertEqual(step["accounts"]["1"]["balance"], "1,000,000,000,000,000,000")


class Tool(unittest.TestCase):
    def run_tool(self, *arguments, runner=MODEL_AS_RUNNER):
        return subprocess.run([sys.executable, TOOL, *arguments, "--runner", runner], capture_output=True)

    def test_page(self):
        ended = self.run_tool(SAMPLES / "paper-example.day")
        self.assertEqual((ended.returncode, ended.stderr), (0, b""))
        self.assertEqual(ended.stdout.decode(), page_of_sample("paper-example"))

    def test_no_page(self):
        """Nothing is written where the runner and the model differ, or where there is nothing to show."""
        ended = self.run_tool(SAMPLES / "paper-example.day", runner=f"cat {SAMPLES / 'full-day.out'}")
        self.assertEqual((ended.returncode, ended.stdout), (1, b""))
        self.assertIn(b"page: no page is made: the runner and the model differ at command 2\n", ended.stderr)
        ended = self.run_tool(SAMPLES / "broken" / "tick-0.day")
        self.assertEqual((ended.returncode, ended.stdout), (20, b""))
        self.assertIn(b"tick-0.day: the file is broken", ended.stderr)
        ended = self.run_tool("no such file")
        self.assertEqual((ended.returncode, ended.stderr), (2, b"page: no such file: No such file or directory\n"))

    @unittest.skipUnless(Path("/dev/full").exists(), "no full device")
    def test_full_disk(self):
        words = [sys.executable, TOOL, SAMPLES / "paper-example.day", "--runner", MODEL_AS_RUNNER]
        with open("/dev/full", "wb") as full:
            ended = subprocess.run(words, stdout=full, stderr=subprocess.PIPE)
        self.assertEqual(ended.returncode, 3)
        self.assertEqual(ended.stderr, b"page: standard output: No space left on device\n")

    def test_all_bytes_or_a_word(self):
        """Without a buffer a write may take a part of a page; a reader that has had enough ends it with 141."""
        words = [sys.executable, "-u", TOOL, SAMPLES / "paper-example.day", "--runner", MODEL_AS_RUNNER]
        whole = page_of_sample("paper-example").encode()
        with tempfile.TemporaryFile() as made:
            limit = lambda: (signal.signal(signal.SIGXFSZ, signal.SIG_IGN), resource.setrlimit(resource.RLIMIT_FSIZE, (4096, 4096)))
            ended = subprocess.run(words, stdout=made, stderr=subprocess.PIPE, preexec_fn=limit)
        self.assertEqual((ended.returncode, ended.stderr), (3, b"page: standard output: File too large\n"))
        reading, writing = os.pipe()
        os.close(reading)
        ended = subprocess.run(words, stdout=writing, stderr=subprocess.PIPE)
        os.close(writing)
        self.assertEqual((ended.returncode, ended.stderr), (141, b""))
        self.assertEqual(subprocess.run(words, stdout=subprocess.PIPE).stdout, whole)


# What is on the page, read as it is shown.
SHOWN = """(() => {
  const texts = (selector, within = document) => [...within.querySelectorAll(selector)].map((node) => node.innerText);
  const rows = (selector) => [...document.querySelectorAll(selector)].map((row) => texts("td", row));
  const orders = (row, side) => texts(`.${side} .order`, row).map((text) => text.replace(/\\s+/g, " "));
  return {
    step: Number(document.body.dataset.step),
    asked: document.querySelector("#words .asked") !== null,
    where: document.querySelector("#where").innerText,
    heading: document.querySelector("#words h2").innerText,
    lines: [...document.querySelectorAll("#words .line")].map((node) => node.dataset.line),
    answer: texts("#words .answer > p"),
    words: document.querySelector("#words").innerText,
    current: document.querySelector("#list [aria-current=step]").innerText.replace(/\\s+/g, " ").trim(),
    ladder: Object.fromEntries([...document.querySelectorAll(".ladder tbody tr")].map((row) =>
      [row.dataset.price, [orders(row, "buy"), orders(row, "sell")]]).filter(([, sides]) => sides.flat().length)),
    book: document.querySelector("#book .terms").innerText,
    accounts: rows("#accounts tbody tr"),
    trades: rows("#trades tbody tr"),
    prices: [...document.querySelectorAll("#prices .trade")].map((node) => node.dataset.price),
    settled: [...document.querySelectorAll("#prices .settled")].map((node) => node.dataset.price),
    balances: [...document.querySelectorAll("#balances svg")].map((svg) =>
      [...svg.querySelectorAll("circle")].map((node) => node.dataset.balance)),
  };
})()"""

# Where things stand in the pictures, from side to side aside: that goes by the number of commands.
SCALES = """(() => {
  const all = (selector, name) => [...document.querySelectorAll(selector)].map((node) => node.getAttribute(name));
  return {
    ladder: all(".ladder tbody tr", "data-price"),
    axis: [...document.querySelectorAll("#prices text[text-anchor=end]")].map((node) => node.textContent),
    heights: all("#prices circle, #balances circle", "cy"),
    reference: all("#prices .reference, #balances .reference", "y1"),
  };
})()"""

LIST_PLACE = """(() => {
  const middle = ({ top, height }) => top + height / 2;
  const list = document.querySelector("#list").getBoundingClientRect();
  const row = document.querySelector("#list [aria-current=step]");
  const { bottom } = row.parentNode.nextElementSibling.getBoundingClientRect();
  const place = row.getBoundingClientRect();
  return { middle: middle(list), current: middle(place), row: place.height, next: bottom, bottom: list.bottom };
})()"""

FIRST_TRADE = ["1", "102", "3", "A2 #2 open", "A1 #1 open"]
SECOND_TRADE = ["2", "103", "2", "A1 #4 close", "A2 #3 close"]

# The paper's day: for each step its heading, the runner's lines, the answer, the ladder, the two accounts, the trades.
PAPER_DAY = [
    ("Paper example", [], [], {}, ("none", "10,000", "0"), ("none", "10,000", "0"), []),
    (
        "Contract 1: change to continuous",
        ["C 1 0 0 0 0"],
        ["Accepted. Contract 1 goes from pre-open to continuous."],
        {}, ("none", "10,000", "0"), ("none", "10,000", "0"), [],
    ),
    (
        "Account 1: sell 5 lots of contract 1 to open, limit 102, good for day",
        ["C 2 0 1 0 5"],
        ["Accepted as order 1. Nothing trades: no buy order rests. As it is good for day, 5 lots rest at 102."],
        {"102": [[], ["5 A1 #1"]]}, ("none", "10,000", "500"), ("none", "10,000", "0"), [],
    ),
    (
        "Account 2: buy 3 lots of contract 1 to open, limit 104, good for day",
        ["C 3 0 2 3 0", "T 1 1 102 3 2 1"],
        ["Accepted as order 2. All 3 lots trade."],
        {"102": [[], ["2 A1 #1"]]}, ("3 short", "10,000", "500"), ("3 long", "10,000", "300"), [FIRST_TRADE],
    ),
    (
        "Account 1: cancel order 1 in contract 1",
        ["C 4 0 1 0 2"],
        ["Accepted. Order 1 leaves the book with the 2 lots it still had."],
        {}, ("3 short", "10,000", "300"), ("3 long", "10,000", "300"), [FIRST_TRADE],
    ),
    (
        "Account 2: sell 2 lots of contract 1 to close, limit 103, good for day",
        ["C 5 0 3 0 2"],
        ["Accepted as order 3. Nothing trades: no buy order rests. As it is good for day, 2 lots rest at 103."],
        {"103": [[], ["2 A2 #3"]]}, ("3 short", "10,000", "300"), ("3 long", "10,000", "300"), [FIRST_TRADE],
    ),
    (
        "Account 1: buy 2 lots of contract 1 to close, limit 106, good for day",
        ["C 6 0 4 2 0", "T 2 1 103 2 4 3"],
        ["Accepted as order 4. Both lots trade."],
        {}, ("1 short", "10,000", "100"), ("1 long", "10,000", "100"), [FIRST_TRADE, SECOND_TRADE],
    ),
    (
        "Contract 1: change to closed",
        ["C 7 0 0 0 0"],
        ["Accepted. Contract 1 goes from continuous to closed."],
        {}, ("1 short", "10,000", "100"), ("1 long", "10,000", "100"), [FIRST_TRADE, SECOND_TRADE],
    ),
    (
        "Settle the day",
        ["C 8 0 0 0 0", "P 1 102", "B 1 -20 0 9980 102", "B 2 20 0 10020 102"],
        ["Accepted. Every contract is closed; this is settlement 1."],
        {}, ("1 short", "9,980", "102"), ("1 long", "10,020", "102"), [FIRST_TRADE, SECOND_TRADE],
    ),
]  # fmt: skip


@unittest.skipUnless(browser.find_browser(), "no browser is installed (apt-get install chromium)")
class InABrowser(unittest.TestCase):
    @classmethod
    def setUpClass(cls):
        cls.folder = tempfile.TemporaryDirectory()
        cls.addClassCleanup(cls.folder.cleanup)
        cls.browser = browser.Browser()
        cls.addClassCleanup(cls.browser.close)

    def setUp(self):
        self.browser.requests.clear()
        self.browser.errors.clear()

    def tearDown(self):
        self.assertEqual(self.browser.errors, [])

    def open(self, name, step=None):
        return self.open_page(name, lambda: page_of_sample(name), step)

    def open_page(self, name, made, step=None):
        path = Path(self.folder.name, f"{name}.html")
        if not path.exists():
            path.write_text(made(), encoding="utf-8")
        self.browser.call("Page.navigate", url="about:blank")
        self.browser.open(path, step)
        return path

    def shown(self):
        return self.browser.value(SHOWN)

    def assert_paper_step(self, step):
        heading, lines, answer, ladder, first, second, trades = PAPER_DAY[step]
        shown = self.shown()
        self.assertEqual(shown["step"], step)
        self.assertEqual(shown["where"], f"Step {step} of 8, day 1" if step else "Opening, 8 steps")
        self.assertEqual((shown["heading"], shown["lines"], shown["answer"]), (heading, lines, answer))
        self.assertEqual(shown["current"], f"{step} {heading}" if step else "The opening")
        self.assertEqual(shown["ladder"], ladder)
        self.assertEqual(shown["accounts"], [["1", *first], ["2", *second]])
        self.assertEqual(shown["trades"], trades)
        self.assertEqual(shown["prices"], [trade[1] for trade in trades])
        return shown

    def test_the_papers_day_with_the_keyboard(self):
        path = self.open("paper-example")
        self.assert_paper_step(0)
        for step in range(1, 9):
            self.browser.press("ArrowRight")
            self.assert_paper_step(step)
        self.browser.press("ArrowRight")
        self.assert_paper_step(8)
        for step in range(7, -1, -1):
            self.browser.press("ArrowLeft")
            self.assert_paper_step(step)
        self.browser.press("ArrowLeft")
        self.assert_paper_step(0)
        self.browser.press("End")
        self.assert_paper_step(8)
        self.browser.press("Home")
        self.assert_paper_step(0)
        for key, step in (("PageDown", 1), ("PageDown", 2), ("PageUp", 1)):
            self.browser.press(key)
            self.assert_paper_step(step)
        # The page itself is all that was asked for.
        self.assertEqual(
            [url.split("#")[0] for url in self.browser.requests if url.startswith("file:")], [path.as_uri()]
        )
        others = [url for url in self.browser.requests if not url.startswith(("file:", "data:", "about:"))]
        self.assertEqual(others, [])

    def test_the_workings_of_the_papers_day(self):
        self.open("paper-example")
        self.assertIn("The example of document 01: one contract, two accounts, one day.", self.shown()["words"])
        self.assertIn("The charge for one lot: 10 × 100 × 1,000 / 10,000 = 100.", self.shown()["words"])
        for _ in range(3):
            self.browser.press("ArrowRight")
        words = self.shown()["words"]
        self.assertIn("the middle of 104, 102 and 100", words)
        self.assertIn("102 is the middle of the buy price 104, the sell price 102 and the last price 100.", words)
        self.browser.press("End")
        shown = self.shown()
        for words in (
            "(3 × 102 + 2 × 103) / 5 = 512 / 5 = 102.4, rounded down 102.",
            "2 lots sold at 102 (trade 1), bought back at 103 (trade 2): 2 × (102 - 103) = -2",
            "The balance takes both: 10,000 - 20 + 0 = 9,980",
            "All balances together: 9,980 + 10,020 = 20,000.",
        ):
            self.assertIn(words, shown["words"])
        self.assertEqual(shown["book"], "pre-open; last price 103, reference 102, prices from 92 to 112")
        self.assertEqual(shown["settled"], ["102"])
        self.assertEqual(shown["balances"], [["10,000", "9,980"], ["10,000", "10,020"]])

    def test_mouse_and_slider(self):
        self.open("paper-example")
        for selector, step in (("#next", 1), ("#next", 2), ("#back", 1), ("#last", 8), ("#first", 0)):
            self.browser.click(selector)
            self.assert_paper_step(step)
        self.browser.click("#list [data-step='3']")
        self.assert_paper_step(3)
        self.browser.value("document.querySelector('#slider').focus()")
        self.browser.press("ArrowRight")
        self.assert_paper_step(4)
        self.browser.press("Tab")
        self.assert_paper_step(4)

    def test_the_address_keeps_the_step(self):
        self.open("paper-example", step=6)
        self.assert_paper_step(6)
        self.browser.press("ArrowLeft")
        self.browser.wait_for("location.hash === '#5'")
        for address, step in (("#3", 3), ("#99", 8), ("#x", 0), ("#2.5", 2), ("#-1", 0)):
            self.browser.value(f"location.hash = '{address}'")
            self.browser.wait_for(f"document.body.dataset.step === '{step}'")
            self.assert_paper_step(step)

    def test_answers_ahead_are_not_shown(self):
        """What is on the page at a step tells nothing of the steps after it."""
        self.open("paper-example", step=5)
        self.assertEqual(self.shown()["prices"], ["102"])
        self.assertEqual(self.shown()["settled"], [])
        self.assertEqual(self.shown()["balances"], [["10,000"], ["10,000"]])
        self.open("margin-of-three-days", step=11)
        refused = "[...document.querySelectorAll('#list .refused')].map((node) => node.dataset.step)"
        self.assertEqual(self.browser.value(refused), [])
        self.browser.press("ArrowRight")
        self.assertEqual(self.browser.value(refused), ["12"])

    def test_scales_know_nothing_of_what_lies_ahead(self):
        """The ladder's rows, the axis of prices and the heights in the pictures are those of a lesson that ends here."""
        days = (SAMPLES / "profit-of-five-days.txt").read_text()
        wide = HEAD.replace("band 10", "band 90") + "state 1 continuous\n" + "".join(
            f"insert {account} contract 1 {side} open limit {price} lots 1 day\n"
            for price in (102, 150, 60)
            for account, side in ((1, "sell"), (2, "buy"))
        )
        for name, text, steps in (("five-days", days, (3, 7, 13, 20)), ("wide", wide, (1, 3, 5))):
            for step in steps:
                self.open_page(f"{name}-{step}", lambda: first_steps(text, step), step)
                alone = self.browser.value(SCALES)
                self.open_page(name, lambda: page_of_text(text), step)
                self.assertEqual(self.browser.value(SCALES), alone, f"{name}, step {step}")

    def test_balances_begin_in_the_middle(self):
        self.open("profit-of-five-days", 1)
        heights = "[...document.querySelectorAll('#balances circle')].map((node) => node.getAttribute('cy'))"
        self.assertEqual(len(set(self.browser.value(heights))), 1)

    def test_the_next_commands_are_in_sight(self):
        self.open("full-day")
        for step in (300, 700, 640):
            self.browser.value(f"go({step})")
            place = self.browser.value(LIST_PLACE)
            self.assertLess(abs(place["middle"] - place["current"]), place["row"], f"step {step}")
            self.assertLess(place["next"], place["bottom"])

    def assert_asked(self, step, asked):
        shown = self.shown()
        self.assertEqual((shown["step"], shown["asked"]), (step, asked))
        self.assertEqual(bool(shown["lines"]), not asked and step > 0)
        return shown

    def test_an_exercise_shows_its_command_first(self):
        self.open("14-quotes", step=12)
        book = self.shown()["ladder"]
        self.browser.press("ArrowRight")
        asked = self.assert_asked(13, True)
        self.assertIn("Which orders of its own rest then", asked["words"])
        self.assertEqual(asked["ladder"], book)
        self.browser.wait_for("location.hash === '#13?'")
        self.browser.press("ArrowRight")
        answered = self.assert_asked(13, False)
        self.assertNotEqual(answered["ladder"], book)
        self.browser.press("ArrowRight")
        self.assertIn("Which orders of its own rest then", self.assert_asked(14, True)["words"])
        self.assertNotIn("Answer: order 9", self.shown()["words"])
        self.browser.press("ArrowRight")
        self.assertIn("Answer: order 9", self.assert_asked(14, False)["words"])
        for step, is_asked in ((14, True), (13, False), (13, True), (12, False), (11, False)):
            self.browser.press("ArrowLeft")
            self.assert_asked(step, is_asked)
        self.browser.click("#list [data-step='13']")
        self.assert_asked(13, True)

    def test_command_then_answer(self):
        self.addCleanup(self.browser.value, "chooseAnswers('with')")
        self.open("paper-example")
        self.browser.press("a")
        for step in range(1, 9):
            before = self.shown()
            self.browser.press("PageDown")
            asked = self.assert_asked(step, True)
            for part in ("ladder", "accounts", "trades", "prices", "balances"):
                self.assertEqual(asked[part], before[part])
            self.browser.press("PageDown")
            self.assert_paper_step(step)
        self.browser.press("PageDown")
        self.assert_paper_step(8)
        self.open("paper-example", "3?")
        self.assert_asked(3, True)
        self.assertEqual(self.browser.value("document.querySelector('#answers').value"), "after")
        self.browser.press("a")
        self.assert_paper_step(3)

    def test_a_second_day(self):
        """A lesson that begins from a saved state: its days are counted on, and what is held stands at the opening."""
        text = SAMPLES / "continued" / "second-day.txt"
        made = lambda: page.page(lesson.read(str(text)), text.with_suffix(".out").read_text())
        self.open_page("second-day", made)
        shown = self.shown()
        self.assertEqual([row[1] for row in shown["accounts"]], ["5 short", "5 long", "none"])
        self.assertEqual(self.browser.value("document.querySelector('#trades h3').innerText").lower(), "trades of day 2")
        self.browser.press("End")
        names = "[...document.querySelectorAll('#balances title')].map((node) => node.textContent.split(':')[0])"
        self.assertEqual(self.browser.value(names), ["opening", "day 2"] * 3)

    def test_a_refusal_and_two_contracts(self):
        self.open("margin-of-three-days", step=12)
        shown = self.shown()
        self.assertEqual(
            shown["answer"], ["Refused, code 9: too little money for the charged margin. Nothing changes."]
        )
        self.assertIn("6,600 + 450 = 7,050 would be charged, more than the balance of 7,000.", shown["words"])
        self.assertEqual(shown["ladder"], {"105": [[], ["3 A1 #6"]], "95": [["5 A1 #5"], []]})
        self.browser.press("2")
        self.assertEqual(self.shown()["ladder"], {"105": [[], ["9 A1 #9"]]})
        self.browser.press("1")
        self.assertEqual(self.shown()["ladder"], shown["ladder"])

    def test_on_paper(self):
        self.open("paper-example", step=6)
        self.browser.call("Emulation.setEmulatedMedia", media="print")
        self.browser.value("dispatchEvent(new Event('beforeprint'))")
        printed = self.browser.value(
            """({
          hidden: ["header", "#screen"].map((selector) => getComputedStyle(document.querySelector(selector)).display),
          steps: [...document.querySelectorAll("#handout section[data-step]")].map((section) => section.dataset.step),
          lines: [...document.querySelectorAll("#handout .line")].map((line) => line.dataset.line),
          text: document.querySelector("#handout").innerText,
          pictures: document.querySelectorAll("#handout svg").length,
          details: document.querySelectorAll("#handout details").length,
        })"""
        )
        self.assertEqual(printed["hidden"], ["none", "none"])
        self.assertEqual(printed["steps"], [str(step) for step in range(9)])
        self.assertEqual(printed["lines"], (SAMPLES / "paper-example.out").read_text().splitlines())
        self.assertIn("All balances together: 9,980 + 10,020 = 20,000.", printed["text"])
        self.assertEqual((printed["pictures"], printed["details"]), (3, 0))
        self.browser.value("dispatchEvent(new Event('afterprint'))")
        self.assertEqual(self.browser.value("document.querySelector('#handout').children.length"), 0)
        self.browser.call("Emulation.setEmulatedMedia", media="")
        whole = self.browser.paper()
        self.browser.value("document.querySelector('#paper').value = 'step'")
        one = self.browser.paper()
        self.assertTrue(whole.startswith(b"%PDF") and one.startswith(b"%PDF"))
        self.assertEqual(pages_in(whole), 3)
        self.assertEqual(pages_in(one), 1)
        self.assert_paper_step(6)

    def test_the_pages_of_a_print(self):
        """Their number is told, and many are printed only if they are asked for."""
        self.browser.value("document.querySelector('#paper').value = 'all'")
        for name in ("paper-example", "14-quotes", "profit-of-five-days"):
            self.open(name)
            told = int(self.browser.value("document.querySelector('#paper option').innerText").split()[1])
            self.assertEqual(self.browser.value("document.querySelector('#paper').value"), "all")
            made = pages_in(self.browser.paper())
            self.assertLessEqual(abs(told - made), 1 + made // 10, f"{name}: {told} told, {made} made")
        self.open("full-day", 600)
        self.assertRegex(self.browser.value("document.querySelector('#paper option').innerText"), r"all, \d\d\d pages")
        self.browser.value("fillHandout()")
        printed = self.browser.value("document.querySelector('#handout').textContent")
        self.assertIn("This is one step of 1,049 commands. The whole lesson takes about", printed)
        self.assertEqual(pages_in(self.browser.paper()), 1)

    def test_nothing_sticks_out(self):
        """At the widths of a projector, a small screen and a telephone. A balance of 10^18 may need scrolling."""
        self.addCleanup(self.resize, 1280, 900)
        for name, step in (
            ("paper-example", 8),
            ("margin-of-three-days", 17),
            ("largest-file", 8),
            ("auction-examples", 34),
            ("full-day", 1040),
            ("every-code", 200),
        ):
            self.open(name, step)
            for width, height in ((1920, 1080), (1280, 720), (1024, 768), (800, 600), (400, 800)):
                self.resize(width, height)
                reach = self.browser.value("document.documentElement.scrollWidth")
                if name != "every-code":
                    parts = (
                        "[...document.querySelectorAll('.card *')].map((node) => node.getBoundingClientRect().right)"
                    )
                    reach = max(reach, *self.browser.value(parts))
                self.assertLessEqual(reach, width + 0.5, f"{name} at {width}")

    def test_on_a_telephone(self):
        """The header is one row, and the list stands behind what a step changes."""
        self.addCleanup(self.resize, 1280, 900)
        self.open("paper-example", 3)
        self.resize(400, 800)
        tops = self.browser.value(
            "['words', 'book', 'accounts', 'trades', 'prices', 'list'].map((id) =>"
            " document.getElementById(id).getBoundingClientRect().top)"
        )
        self.assertEqual(tops, sorted(tops))
        self.assertLess(self.browser.value("document.querySelector('header').offsetHeight"), 50)
        self.browser.click("#next")
        self.assert_paper_step(4)

    def resize(self, width, height):
        self.browser.call(
            "Emulation.setDeviceMetricsOverride", width=width, height=height, deviceScaleFactor=1, mobile=False
        )

    def test_every_sample(self):
        """The steps of every sample, of a long one every 50th, are shown without an error, with the runner's lines."""
        for path in DAYS:
            self.open(path.stem)
            groups = lesson.lines_by_command(path.with_suffix(".out").read_text())
            last = len(groups) - 1
            for step in [*range(0, last, 1 if last < 100 else 50), last]:
                self.browser.value(f"go({step})")
                lines = self.browser.value(
                    "[...document.querySelectorAll('#words .line')].map((node) => node.dataset.line)"
                )
                self.assertEqual(lines, groups[step], f"{path.name}, step {step}")
            self.assertEqual(self.browser.errors, [], path.name)


def pages_in(pdf):
    return len(re.findall(rb"/Type\s*/Page\b", pdf))


if __name__ == "__main__":
    unittest.main()
