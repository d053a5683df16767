"""Explanations: the paper's day, the figures behind every code, the workings, and that every sum shown is right."""

import os
import re
import shlex
import subprocess
import sys
import tempfile
import types
import unittest
from fractions import Fraction
from functools import cache
from pathlib import Path

import explain
from lessons import explanation, lesson, refusals
from lessons.margins import charged_by_contract
from lessons.wording import contract_terms

import dayfile
import daytext
import generate
import model

TOOL = Path(explain.__file__)
TOP = TOOL.parents[1]
SAMPLES = TOP / "samples"
MODEL_AS_RUNNER = f"{sys.executable} {TOP / 'tools' / 'model' / 'model.py'}"

# FILES=2000 SEED=3 explains more random files, or others.
FILES = int(os.environ.get("FILES", 40))
SEED = int(os.environ.get("SEED", 1))

CONTRACT = "contract multiplier 10 tick 1 reference 100 band 10 limit 1000 rate 1000\n"
TWO_ACCOUNTS = "account 10,000\naccount 10,000\n"


@cache
def output_of(file):
    return model.run(file).decode()


def told(of, command=0, account=0):
    """The explanation of a lesson, as one text with single spaces."""
    parts = []
    explain.explain(of, output_of(of.file), parts.append, command, account)
    return " ".join(" ".join(parts).split())


@cache
def told_of_sample(name):
    return told(lesson.read(str(SAMPLES / f"{name}.txt")))


def told_of_text(text, command=0, account=0):
    return told(lesson.lesson_of("lesson.txt", daytext.pack(text), text), command, account)


class PaperDay(unittest.TestCase):
    def setUp(self):
        self.paper = lesson.read(str(SAMPLES / "paper-example.txt"))

    def test_opening(self):
        text = told(self.paper)
        self.assertIn("paper-example.txt: 1 contract, 2 accounts, 8 commands # The example of document 01", text)
        self.assertIn("Reference 100, band 10: prices from 90 to 110.", text)
        self.assertIn("The charge for one lot: 10 x 100 x 1,000 / 10,000 = 100.", text)
        self.assertIn("Accounts 1 and 2 open with 10,000.", text)

    def test_trade(self):
        text = told(self.paper, command=3)
        self.assertTrue(
            text.startswith("Day 1 3 Account 2: buy 3 lots of contract 1 to open, limit 104, good for day # "), text
        )
        self.assertIn("the middle of 104, 102 and 100", text)
        self.assertIn(
            " Book of contract 1 before it (continuous, last price 100):"
            " sell 102 5 lots order 1 of account 1, 5 to open"
            " Account 1 before it: balance 10,000, charged margin 500"
            " Contract 1: 0 long against 0 short + 5 resting = 5; the larger counts: 5 x 100 = 500"
            " Account 2 before it: balance 10,000, nothing charged"
            " C 3 0 2 3 0 Accepted as order 2. All 3 lots trade."
            " T 1 1 102 3 2 1 Trade 1: 3 lots of contract 1 at 102: account 2 buys (order 2, to open), account 1 sells"
            " (order 1, to open). 102 is the middle of the buy price 104, the sell price 102 and the last price 100."
            " Book of contract 1 (continuous, last price 102): sell 102 2 lots order 1 of account 1, 2 to open"
            " Account 1: balance 10,000, charged margin 500"
            " Contract 1: 0 long against 3 short + 2 resting = 5; the larger counts: 5 x 100 = 500"
            " Account 2: balance 10,000, charged margin 300"
            " Contract 1: 3 long against 0 short; the larger counts: 3 x 100 = 300",
            text,
        )

    def test_rest_cancel_and_state(self):
        self.assertIn(
            "Accepted as order 1. Nothing trades: no buy order rests. As it is good for day, 5 lots rest at 102.",
            told(self.paper, command=2),
        )
        self.assertIn("Accepted. Order 1 leaves the book with the 2 lots it still had.", told(self.paper, command=4))
        self.assertIn("Accepted. Contract 1 goes from continuous to closed.", told(self.paper, command=7))

    def test_settlement(self):
        text = told(self.paper, command=8)
        for words in (
            "P 1 102 Contract 1 settles at 102: the trades weighted by lots, (3 x 102 + 2 x 103) / 5 = 512 / 5 = 102.4,"
            " rounded down 102.",
            "The next day: reference 102, prices from 92 to 112.",
            "The charge for one lot: 10 x 102 x 1,000 / 10,000 = 102.",
            "B 1 -20 0 9980 102 Account 1: closing profit -20, holding profit 0, balance 9,980, charged margin 102."
            " Contract 1, closing profit: -2 x multiplier 10 = -20"
            " 2 lots sold at 102 (trade 1), bought back at 103 (trade 2): 2 x (102 - 103) = -2"
            " Contract 1, holding profit: 0 x multiplier 10 = 0"
            " 1 lot sold at 102 (trade 1), settled at 102: 1 x (102 - 102) = 0"
            " The balance takes both: 10,000 - 20 + 0 = 9,980"
            " Charged margin, at the new reference: 102"
            " Contract 1: 0 long against 1 short; the larger counts: 1 x 102 = 102",
            "All balances together: 9,980 + 10,020 = 20,000. Paid in: 20,000. The two are equal",
        ):
            self.assertIn(words, text)

    def test_one_account(self):
        text = told(self.paper, account=2)
        self.assertEqual(re.findall(r"[CTPB] [0-9 -]*[0-9]", text)[:9], [
            "C 3 0 2 3 0", "T 1 1 102 3 2 1", "C 5 0 3 0 2", "C 6 0 4 2 0", "T 2 1 103 2 4 3",
            "C 8 0 0 0 0", "P 1 102", "B 2 20 0 10020 102",
        ])  # fmt: skip
        self.assertNotIn("Account 1: balance", text)
        self.assertNotIn("Account 1: closing", text)


class Refusals(unittest.TestCase):
    """The figures behind every code that a file can meet."""

    def assert_refused(self, commands, code, figures, head=CONTRACT + TWO_ACCOUNTS):
        """The last of the commands is refused with the code, for these figures."""
        text = head + "state 1 continuous\n" + commands
        number = len(dayfile.sections(daytext.pack(text)).commands)
        words = told_of_text(text, command=number)
        self.assertIn(f"C {number} {code} 0 0 0 Refused, code {code}: ", words)
        self.assertIn(f". Nothing changes. {figures}", words)

    def test_malformed(self):
        record = "raw {} 01 01 {} 01000000 64000000 00000000 0000000000000000"
        self.assert_refused(record.format("ff", "00"), 1, "There is no kind 255; the kinds are 1 deposit, 2 withdraw,")
        self.assert_refused(
            record.format("01", "00"),
            1,
            "The kind deposit does not use the field contract, which is 1 and should be 0."
            " The kind deposit does not use the field lots, which is 1 and should be 0.",
        )
        self.assert_refused(record.format("03", "0c"), 1, "Price condition 3 is unknown")
        self.assert_refused(record.format("03", "30"), 1, "Time condition 3 is unknown")
        self.assert_refused(record.format("03", "c0"), 1, "Bits 6 and 7 of the flags should be 0; the flags are 192.")
        flags = "raw {} {} 01 {} 00000000 00000000 00000000 0000000000000000"
        self.assert_refused(flags.format("05", "01", "03"), 1, "The flags are 3; they can be 0, or 1 for the operator.")
        self.assert_refused(
            flags.format("06", "00", "09"), 1, "There is no contract state 9; the states are 0 pre-open,"
        )

    def test_absent(self):
        self.assert_refused("deposit 3 1", 2, "There is no account 3; the lesson has accounts 1 and 2.")
        self.assert_refused("pull 1 contract 0", 3, "There is no contract 0; the lesson has contract 1.")

    def test_state(self):
        insert = "insert 1 contract 1 buy open limit 100 lots 1 day"
        self.assert_refused(
            f"state 1 closed\n{insert}", 4, "The state of contract 1 is closed; an insert needs continuous"
        )
        self.assert_refused(
            "state 1 no-trading\npull 1 contract 1",
            4,
            "The state of contract 1 is no trading; cancel and pull need continuous",
        )

    def test_lots_and_conditions(self):
        self.assert_refused(
            "insert 1 contract 1 buy open limit 100 lots 1001 day",
            5,
            "The order is for 1,001 lots; it may be for 1 to 1,000.",
        )
        self.assert_refused(
            "insert 1 contract 1 buy open best lots 1 day", 6, "An order at best has no price to rest at"
        )

    def test_price(self):
        head = CONTRACT.replace("tick 1 reference 100 band 10", "tick 5 reference 100 band 10") + TWO_ACCOUNTS
        for condition, figures in {
            "limit 101": "101 is not a multiple of the tick, 5.",
            "limit 85": "85 is below the day's low, reference 100 - band 10 = 90.",
            "limit 115": "115 is above the day's high, reference 100 + band 10 = 110.",
            "limit 86": "86 is not a multiple of the tick, 5. 86 is below the day's low, reference",
        }.items():
            self.assert_refused(f"insert 1 contract 1 buy open {condition} lots 1 day", 7, figures, head)
        self.assert_refused(
            "insert 1 contract 1 buy open market 100 lots 1 kill",
            7,
            "An order at market names no price; this one names 100.",
        )

    def test_price_at_the_ends_of_all_prices(self):
        insert = "insert 1 contract 1 buy open limit {} lots 1 day"
        head = CONTRACT.replace("tick 1 reference 100 band 10", "tick 7 reference 70 band 700") + TWO_ACCOUNTS
        self.assert_refused(insert.format(0), 7, "0 is below the day's low, which is one tick, 7.", head)
        head = CONTRACT.replace("tick 1 reference 100 band 10", "tick 7 reference 999,992 band 70") + TWO_ACCOUNTS
        figures = (
            "1,000,006 is above the day's high, which is 999,999, the largest multiple of the tick within 1,000,000."
        )
        self.assert_refused(insert.format("1,000,006"), 7, figures, head)

    def test_limit_and_holding(self):
        head = CONTRACT.replace("limit 1000", "limit 10") + TWO_ACCOUNTS
        trade = (
            "insert 1 contract 1 sell open limit 100 lots 4 day\n"
            "insert 2 contract 1 buy open limit 100 lots 4 day\n"
            "insert 1 contract 1 sell open limit 105 lots 1 day\n"
        )
        self.assert_refused(
            trade + "insert 1 contract 1 sell open limit 100 lots 6 day",
            8,
            "4 short + 1 resting to sell open + 6 of this order = 11, above the limit of 10.",
            head,
        )
        self.assert_refused(
            trade
            + "insert 1 contract 1 buy close limit 95 lots 3 day\ninsert 1 contract 1 buy close limit 95 lots 2 day",
            8,
            "4 short - 3 resting to buy close = 1 that can be closed; the order is for 2.",
            head,
        )

    def test_margin(self):
        head = CONTRACT.replace("reference 100", "reference 102") + "account 1,000\naccount 10,000\n"
        self.assert_refused(
            "insert 1 contract 1 buy open limit 102 lots 10 day",
            9,
            "With the lots of this order 1,020 would be charged, more than the balance of 1,000."
            " Contract 1: 0 long + 10 of this order = 10 against 0 short; the larger counts: 10 x 102 = 1,020",
            head,
        )
        self.assert_refused(
            "insert 1 contract 1 buy open limit 102 lots 9 day\nwithdraw 1 83",
            9,
            "1,000 - 83 = 917 would be left, less than the charged margin, 918."
            " Contract 1: 0 long + 9 resting = 9 against 0 short; the larger counts: 9 x 102 = 918",
            head,
        )

    def test_fill_or_kill(self):
        """Document 01's example: sells 7 at 110 and 5 at 111."""
        sells = (
            "insert 1 contract 1 sell open limit 110 lots 7 day\ninsert 1 contract 1 sell open limit 111 lots 5 day\n"
        )
        head = CONTRACT.replace("band 10", "band 20") + TWO_ACCOUNTS
        for order, figures in {
            "limit 110 lots 13": "Fillable: 7 of 13 lots: 7 at 110.",
            "limit 111 lots 13": "Fillable: 12 of 13 lots: 7 at 110 and 5 at 111.",
            "best lots 8": "Fillable: 7 of 8 lots: 7 at 110.",
            "market lots 13": "Fillable: 12 of 13 lots: 7 at 110 and 5 at 111.",
            "limit 109 lots 1": "Fillable: 0 of 1 lot.",
        }.items():
            self.assert_refused(f"{sells}insert 2 contract 1 buy open {order} kill", 11, figures, head)

    def test_full_day_and_full_book(self):
        for name, number, figures in (
            ("full-day", 1030, "1,022 trades made today + 3 more = 1,025; a day has room for 1,024."),
            (
                "full-book",
                66,
                "64 buy orders rest in contract 1, as many as there is room for. Fillable: 0 of 1 lot, so 1",
            ),
            ("full-book", 68, "as many as there is room for. Fillable: 5 of 6 lots, so 1 would have to rest."),
        ):
            self.assertIn(figures, told(lesson.read(str(SAMPLES / f"{name}.txt")), command=number))

    def test_orders(self):
        order = "insert 1 contract 1 buy open limit 95 lots 1 day\n"
        self.assert_refused(
            "cancel 1 contract 1 order 1", 14, "No order has the number 1; the numbers given today: none"
        )
        self.assert_refused(
            f"{order}cancel 1 contract 1 order 2", 14, "No order has the number 2; the numbers given today: 1 to 1"
        )
        self.assert_refused(
            f"{order}pull 1 contract 1\ncancel 1 contract 1 order 1", 14, "Order 1 was given today, but rests no longer"
        )
        self.assert_refused(
            f"{order}cancel 1 contract 2 order 1",
            14,
            "Order 1 rests in contract 1, not in contract 2.",
            CONTRACT * 2 + TWO_ACCOUNTS + "state 2 continuous\n",
        )
        self.assert_refused(f"{order}cancel 2 contract 1 order 1", 15, "Order 1 is account 1's, not account 2's.")

    def test_amounts(self):
        self.assert_refused("deposit 1 0", 16, "The amount is 0; it may be 1 to 1,000,000,000,000,000.")
        self.assert_refused(
            "deposit 1 5",
            16,
            "999,999,999,999,999,999 + 5 = 1,000,000,000,000,000,004, above 1,000,000,000,000,000,000",
            CONTRACT + "account 999,999,999,999,999,999\n",
        )

    def test_state_changes_and_settlements(self):
        self.assert_refused(
            "state 1 pre-open",
            17,
            "The state of contract 1 is continuous; it can go to no trading or closed, and cannot go to pre-open.",
        )
        self.assert_refused(
            "state 1 closed\nstate 1 continuous",
            17,
            "The state of contract 1 is closed until the settlement, and cannot go to continuous.",
        )
        self.assert_refused("settle", 18, "Not closed: contract 1 (continuous).")
        self.assert_refused(
            "state 1 closed\n" + "settle\nstate 1 closed\n" * 250 + "settle",
            19,
            "250 settlements are made, and a run has at most 250.",
        )

    def test_every_code_of_the_sample_has_figures(self):
        """Code 10 is out of a file's reach; its words are held to the code's number all the same."""
        codes = {step.answer.code for step in play("every-code") if explanation.explained(step)}
        self.assertEqual(codes, {*range(20), 23, 24} - {10})
        self.assertEqual(set(refusals.REFUSALS), {*range(1, 20), 23, 24})
        for used_up, words in (("next_order_number", "order numbers"), ("next_stamp", "time stamps")):
            state = model.State({}, {}, {}, {}, **{used_up: 1_000_000})
            step = types.SimpleNamespace(before=state)
            self.assertEqual(refusals.why_numbers(step), [f"All {words} of the day, 1 to 999,999, are given."])


def play(name):
    of = lesson.read(str(SAMPLES / f"{name}.txt"))
    return lesson.play(of, output_of(of.file))


class Prices(unittest.TestCase):
    def test_pairing_methods(self):
        text = told_of_sample("12-pairing-methods")
        for words in (
            "T 2 1 108 2 3 2 Trade 2: 2 lots of contract 1 at 108: account 2 buys (order 3, to open), account 1 sells"
            " (order 2, to open). 108 is the middle of the buy price 108, the sell price 108 and the last price 102.",
            "The average: (108 + 102) / 2 = 105, down to a tick of 2: 104.",
            "First-in: 102 is the resting order's price.",
            "106 is the middle of the buy price 106, the sell price 100 and the last price 108.",
            "An order at market trades at the resting price, 104.",
            "An order at best trades at the resting price, 110.",
        ):
            self.assertIn(words, text)

    def test_average_with_a_half(self):
        text = (
            CONTRACT.replace("rate 1000", "rate 1000 method 1")
            + TWO_ACCOUNTS
            + (
                "state 1 continuous\ninsert 1 contract 1 sell open limit 101 lots 1 day\n"
                "insert 2 contract 1 buy open limit 104 lots 1 day\n"
            )
        )
        self.assertIn("The average: (104 + 101) / 2 = 102.5, rounded down 102.", told_of_text(text))

    def test_remainders(self):
        text = told_of_sample("order-conditions")
        for words in (
            "5 of 7 lots trade: the next sell, at 103, is above its limit. As it is good for day, 2 lots rest at 102.",
            "5 of 7 lots trade: the next sell, at 103, is above its limit. As it is immediate or cancel, 2 lots"
            " vanish.",
            "9 of 12 lots trade: no other sell order rests. As it is immediate or cancel, 3 lots vanish.",
            "5 of 8 lots trade: an order at best stays at the best price, 101. As it is immediate or cancel, 3 lots"
            " vanish.",
            "Nothing trades: no sell order rests. As it is immediate or cancel, 1 lot vanishes.",
            "it meets its own order",
        ):
            self.assertIn(words, text)

    def test_settlement_prices(self):
        text = told_of_sample("settlement-prices")
        for words in (
            "(2 x 100 + 2 x 102) / 4 = 404 / 4 = 101.",
            "(1 x 200 + 2 x 210) / 3 = 620 / 3 = 206.66.., rounded down 206, down to a tick of 5: 205.",
            "no trade; the middle of the best buy 190, the best sell 215 and the reference 205.",
            "no trade; the middle of the best buy 105, the best sell 107 and the reference 102.",
            "no trade, and the sell side is not quoted, so the reference stays.",
            "no trade, and the buy side is not quoted, so the reference stays.",
            "no trade, and neither side is quoted, so the reference stays.",
        ):
            self.assertIn(words, text)

    def test_many_prices(self):
        """More than can be read in one sum: the products stand below it."""
        text = CONTRACT + TWO_ACCOUNTS + "state 1 continuous\n"
        for price in range(91, 101):
            text += f"insert 1 contract 1 sell open limit {price} lots 2 day\n"
            text += f"insert 2 contract 1 buy open limit {price} lots 2 day\n"
        words = told_of_text(text + "state 1 closed\nsettle\n")
        self.assertIn(
            "(2 x 91 + .. + 2 x 100) / 20 = 1,910 / 20 = 95.5, rounded down 95. 2 x 91 = 182 2 x 92 = 184", words
        )


class Workings(unittest.TestCase):
    def test_article_32(self):
        """The third day of the sample: start-of-day lots first, then today's in trade order."""
        text = told_of_sample("profit-of-five-days")
        self.assertIn(
            "Contract 1, closing profit: (2 + 6 - 1) x multiplier 10 = 70"
            " 2 lots long since the start of the day, from the reference 103, sold at 104 (trade 3):"
            " 2 x (104 - 103) = 2"
            " 2 lots bought at 101 (trade 1), sold at 104 (trade 3): 2 x (104 - 101) = 6"
            " 1 lot bought at 105 (trade 2), sold at 104 (trade 3): 1 x (104 - 105) = -1"
            " Contract 1, holding profit: -2 x multiplier 10 = -20"
            " 1 lot bought at 105 (trade 2), settled at 103: 1 x (103 - 105) = -2",
            text,
        )

    def test_several_contracts(self):
        text = told_of_sample("margin-of-three-days")
        self.assertIn(
            "Charged margin, at the new reference: 6,600 + 350 = 6,950"
            " Contract 1: 40 long against 60 short; the larger counts: 60 x 110 = 6,600"
            " Contract 2: 7 long against 0 short; the larger counts: 7 x 50 = 350",
            text,
        )
        self.assertIn("Paid in: 107,000 at the opening + 0 deposited - 250 withdrawn = 106,750.", text)
        self.assertIn("63 against 60 short + 3 resting = 63; equal: 63 x 100 = 6,300", text)

    def test_a_long_day_can_be_read(self):
        """Lots that count alike stand in one line."""
        text = told_of_sample("full-day")
        self.assertIn("958 lots sold at 101 (958 trades, 1 to 958), settled at 101: 958 x (101 - 101) = 0", text)

    def test_a_wrong_working_is_noticed(self):
        steps = list(play("profit-of-five-days"))
        settlement = steps[11]
        prices, accounts = settlement.answer.settlement
        for wrong in ((40, -21, 10_020, 206), (41, -20, 10_020, 206), (40, -20, 10_021, 206), (40, -20, 10_020, 207)):
            answer = model.Answer(0, settlement=model.Settlement(prices, {**accounts, 1: wrong}))
            with self.assertRaises(lesson.Differs):
                explanation.explained(settlement._replace(answer=answer))
        answer = model.Answer(0, settlement=model.Settlement({1: 104}, accounts))
        with self.assertRaises(lesson.Differs):
            explanation.explained(settlement._replace(answer=answer))
        trade = steps[1:][1]
        wrong_trade = trade.answer.trades[0]._replace(price=103)
        answer = model.Answer(0, 2, 5, 0, [wrong_trade])
        with self.assertRaises(lesson.Differs):
            explanation.explained(trade._replace(answer=answer))


@unittest.skipUnless(hasattr(model, "auction_price"), "the model does not know the opening auction")
class Auctions(unittest.TestCase):
    """The match that ends an auction, by the examples of the source documents and ties worked out by hand."""

    def told_of_match(self, orders, reference=100):
        """Orders as (side, price, lots). Account 1 buys, account 2 sells."""
        text = CONTRACT.replace("reference 100 band 10", f"reference {reference} band 20") + TWO_ACCOUNTS.replace(
            "10,000", "1,000,000"
        )
        text += "state 1 auction\n"
        for side, price, lots in orders:
            account = 1 if side == "buy" else 2
            text += f"insert {account} contract 1 {side} open limit {price} lots {lots} day\n"
        return told_of_text(text + "state 1 continuous\n", command=len(orders) + 2)

    def test_largest_volume(self):
        """Source document 001, first example."""
        buys = [("buy", 100, 5), ("buy", 101, 6), ("buy", 102, 4)]
        text = self.told_of_match([*buys, ("sell", 101, 3), ("sell", 102, 7), ("sell", 103, 6)])
        self.assertIn(
            "goes from auction to continuous. The match: 4 lots, best buy with best sell, all at one price, 102.", text
        )
        self.assertIn("103: 0 to buy at or above it, 16 to sell at or below it: volume 0, surplus 16", text)
        self.assertIn("102: 4 to buy at or above it, 10 to sell at or below it: volume 4, surplus 6", text)
        self.assertIn("101: 10 to buy at or above it, 3 to sell at or below it: volume 3, surplus 7", text)
        self.assertIn("Largest volume: 102 T 1 1 102 3 3 4 Trade 1: 3 lots of contract 1 at 102: account 1 buys", text)
        self.assertIn("The buy's limit is 102, the sell's 101.", text)

    def test_smallest_surplus(self):
        """Source document 001, second example, and source document 000."""
        buys = [("buy", 100, 5), ("buy", 101, 6), ("buy", 102, 4)]
        text = self.told_of_match([*buys, ("sell", 101, 4), ("sell", 102, 7), ("sell", 103, 6)])
        self.assertIn("Largest volume: 102 and 101 Smallest surplus: 101 T 1 1 101 4", text)
        buys = [("buy", 1612, 5), ("buy", 1611, 5), ("buy", 1610, 5)]
        text = self.told_of_match([*buys, ("sell", 1607, 10), ("sell", 1608, 6), ("sell", 1609, 3)], 1600)
        self.assertIn("Largest volume: 1,610, 1,609 and 1,608 Smallest surplus: 1,608 T 1 1 1608 5", text)
        self.assertIn("The match: 15 lots, best buy with best sell, all at one price, 1,608", text)

    def test_ties(self):
        for reference, ends in (
            (100, "Nearest to the last price, 100: 101 T 1"),
            (104, "Nearest to the last price, 104: 105 T 1"),
            (103, "Nearest to the last price, 103: 105 and 101 The higher: 105 T 1"),
        ):
            text = self.told_of_match([("buy", 105, 2), ("sell", 101, 1)], reference)
            self.assertIn(f"Largest volume: 105 and 101 Smallest surplus: 105 and 101 {ends}", text)

    def test_no_price(self):
        for orders, words in (
            ([], "No orders rest: there is no price, and nothing trades. Book of contract 1"),
            ([("buy", 100, 2), ("sell", 101, 1)], "No buy meets a sell at any resting price: there is no price"),
            ([("sell", 101, 1)], "No buy meets a sell at any resting price: there is no price"),
        ):
            self.assertIn(words, self.told_of_match(orders))

    def test_orders_rest(self):
        text = CONTRACT + TWO_ACCOUNTS + "state 1 auction\ninsert 1 contract 1 buy open limit 105 lots 2 day\n"
        crossing = text + "insert 2 contract 1 sell open limit 101 lots 1 day\n"
        words = "Accepted as order 2. In an auction nothing trades until the match: 1 lot rests at 101."
        self.assertIn(words, told_of_text(crossing, command=3))
        words = "In an auction an order must be a limit order good for day; this one is limit, fill or kill."
        self.assertIn(words, told_of_text(crossing.replace("lots 1 day", "lots 1 kill"), command=3))
        self.assertIn(
            "The state of contract 1 is auction; it can go to continuous, and cannot go to closed.",
            told_of_text(text + "state 1 closed\n", command=3),
        )

    def test_a_wrong_match_is_noticed(self):
        of = lesson.read(str(SAMPLES / "auction-examples.txt"))
        step = next(step for step in lesson.play(of, output_of(of.file)) if step.answer.trades)
        for changed in ({"price": 101}, {"lots": 2}):
            trades = [step.answer.trades[0]._replace(**changed), *step.answer.trades[1:]]
            with self.assertRaises(lesson.Differs):
                explanation.explained(step._replace(answer=model.Answer(0, 0, 4, 0, trades)))


# Words that may stand between the numbers of a sum. Any other word ends it.
IN_SUMS = (
    "of this order|trades made today|resting to (?:buy|sell) (?:open|close)|resting|long|short|more"
    "|at the opening|deposited|withdrawn"
)
SUM = re.compile(r"[-+*/(). 0-9]+(?:=[-+*/(). 0-9]+)+")


def sums_in(text):
    """Every chain of equal sums in a text, each as its parts: 1 + 2 = 3 as "1 + 2" and "3"."""
    text = re.sub(r"(?<=[0-9]),(?=[0-9]{3})", "", text)
    text = text.replace(" x ", " * ").replace("multiplier ", "").replace("band ", "")
    text = re.sub(rf"(?<=[0-9]) (?:{IN_SUMS})\b", "", text)
    text = re.sub(r"[A-Za-z:;,]+", "#", text)
    return [[part.lstrip(" .").rstrip() for part in found.split("=")] for found in SUM.findall(text)]


def value_of(part):
    """The value of a part, and how far the true one may be above it: decimals that go on are cut off."""
    above = Fraction(1, 100) if part.endswith("..") else 0
    return eval(re.sub(r"[0-9]+(?:\.[0-9]+)?", lambda found: f"Fraction('{found[0]}')", part.rstrip("."))), above


def words_of(of, printed):
    """Every sentence of a lesson's explanation, one by one."""
    opening = model.opening_state(of.day)
    for number, contract in opening.contracts.items():
        yield from contract_terms(number, contract)
    for step in lesson.play(of, printed):
        told = explanation.explained(step)
        for said in told.said:
            yield said.words
            yield from (words for _, words in said.working)
        for account in told.accounts:
            yield from (charged.words() for charged in charged_by_contract(step.after, account))


class Changes(unittest.TestCase):
    """A changed order, its place and why it is refused."""

    BOOK = (
        CONTRACT
        + TWO_ACCOUNTS
        + """state 1 continuous
        insert 1 contract 1 buy open limit 100 lots 4 day
        insert 2 contract 1 buy open limit 100 lots 5 day
        insert 2 contract 1 sell open limit 103 lots 2 day
        """
    )

    def assert_words(self, change, words, text=BOOK):
        self.assertIn(words, told_of_text(text + change, command=len(dayfile.read(daytext.pack(text + change)).commands)))

    def test_places(self):
        self.assert_words(
            "change 1 contract 1 order 1 lots 3 price 100",
            "5 Account 1: change order 1 in contract 1 to 3 lots at 100",
        )
        for lots, price, words in (
            (3, 100, "Accepted. Order 1 goes from 4 to 3 lots and keeps its place: first of 2 at 100."),
            (4, 100, "Accepted. Order 1 is as it was, and nothing changes."),
            (0, 100, "Accepted. Without lots order 1 leaves the book, with the 4 lots it had."),
            (5, 100, "4 to 5 is more lots, so order 1 loses its place and arrives anew under its number. Nothing trades"),
            (5, 100, "5 lots rest at 100. It is last of 2 at 100."),
            (3, 99, "100 to 99 is another price, so order 1 loses its place"),
            (5, 104, "4 to 5 is more lots and 100 to 104 is another price, so order 1 loses its place"),
            (5, 104, "103 is the middle of the buy price 104, the sell price 103 and the last price 100."),
        ):
            self.assert_words(f"change 1 contract 1 order 1 lots {lots} price {price}", words)

    def test_refusals(self):
        limited = self.BOOK.replace("limit 1000 rate", "limit 9 rate")
        for order, lots, price, words, text in (
            (1, 10, 100, "As though the old order were gone: 0 long + 0 resting to buy open + 10 of this order = 10", limited),
            (1, 101, 100, "As though the old order were gone: with the lots of this order 10,100 would be", self.BOOK),
            (1, 4, 111, "111 is above the day's high", self.BOOK),
            (2, 4, 100, "Order 2 is account 2's, not account 1's.", self.BOOK),
            (1, 4, 100, "The state of contract 1 is closed; a change needs continuous.", self.BOOK + "state 1 closed\n"),
        ):
            self.assert_words(f"change 1 contract 1 order {order} lots {lots} price {price}", words, text)


class Quotes(unittest.TestCase):
    """A market maker's quote, and why it is refused."""

    BOOK = (
        CONTRACT
        + "maker 1,000\naccount 10,000\n"
        + """state 1 continuous
        quote 1 contract 1 buy 98 sell 102 lots 4
        insert 2 contract 1 buy open limit 102 lots 1 day
        insert 2 contract 1 sell open limit 101 lots 3 day
        """
    )

    def assert_words(self, command, words, text=BOOK):
        number = len(dayfile.read(daytext.pack(text + command)).commands)
        self.assertIn(words, told_of_text(text + command, command=number))

    def test_accepted(self):
        self.assertIn("Account 1, a market maker, opens with 1,000.", told_of_text(self.BOOK))
        for words in (
            "5 Account 1: quote 5 lots of contract 1, buy at 101 and sell at 103",
            "Accepted. The old quote leaves the book: order 1 (4 lots) and order 2 (3 lots).",
            "Order 5 is the buy at 101. 3 of 5 lots trade: no other sell order rests.",
            "Order 6 is the sell at 103. Nothing trades: the best buy, at 101, is below its limit.",
            "Of both 3 traded and 7 rest.",
            "101 is the middle of the buy price 101, the sell price 101 and the last price 102.",
            "order 6 of account 1, 5 quoted",
        ):
            self.assert_words("quote 1 contract 1 buy 101 sell 103 lots 5", words)

    def test_marks(self):
        words = "Order 1 goes from 4 to 3 lots and keeps its place: alone at 98. It is no longer part of a quote."
        self.assert_words("change 1 contract 1 order 1 lots 3 price 98", words)

    def test_refusals(self):
        for command, words in (
            ("quote 2 contract 1 buy 98 sell 102 lots 1", "Account 2 is no market maker; the makers are account 1."),
            ("quote 1 contract 1 buy 98 sell 98 lots 1", "The buy price 98 is the sell price; it must be below."),
            ("quote 1 contract 1 buy 99 sell 98 lots 1", "The buy price 99 is above the sell price 98; it must be below."),
            ("quote 1 contract 1 buy 98 sell 102 lots 0", "The order is for 0 lots"),
            ("quote 1 contract 1 buy 98 sell 111 lots 1", "111 is above the day's high"),
            (
                "quote 1 contract 1 buy 98 sell 102 lots 10",
                "The sell of the quote, with the old quote gone: with the lots of this order 1,100 would be charged",
            ),
            (
                "quote 1 contract 1 buy 98 sell 102 lots 11",
                "The buy of the quote, with the old quote gone: with the lots of this order 1,100 would be charged",
            ),
        ):
            self.assert_words(command, words)


class Arithmetic(unittest.TestCase):
    """Every sum that an explanation shows is right."""

    def assert_sums(self, sentences):
        """Gives the number of sums in sentences that differ."""
        count = 0
        for sentence in set(sentences):
            for parts in sums_in(sentence):
                if ".. +" in parts[0]:
                    parts = parts[1:]
                count += 1
                first, _ = value_of(parts[0])
                for part in parts[1:]:
                    value, above = value_of(part)
                    self.assertTrue(value <= first <= value + above, sentence)
        return count

    def test_the_check_itself(self):
        self.assertEqual(
            sums_in("1,020 - 20 = 1,000 left, (3 x 2) / 4 = 6 / 4 = 1.5"),
            [["1020 - 20", "1000"], ["(3 * 2) / 4", "6 / 4", "1.5"]],
        )
        self.assertEqual(
            sums_in("Contract 1: 0 long + 5 resting = 5 against 2 short; equal: -2 x multiplier 10 = -20."),
            [["0 + 5", "5"], ["-2 * 10", "-20."]],
        )
        for wrong in ("2 + 2 = 5", "7 / 3 = 2.32..", "7 / 3 = 2.34..", "1 / 4 = 0.2", "-2 x 3 = 6"):
            with self.assertRaises(AssertionError):
                self.assert_sums([wrong])
        self.assertEqual(self.assert_sums(["7 / 3 = 2.33.., and 5 x (102 - 104) = -10"]), 2)

    def test_samples(self):
        for path in sorted(SAMPLES.glob("*.txt")):
            printed = path.with_suffix(".out").read_text()
            self.assertGreater(self.assert_sums(words_of(lesson.read(str(path)), printed)), 10, path.name)

    def test_random_files(self):
        """With the day runner where it is built, otherwise with the model in its place."""
        runner = shlex.split(MODEL_AS_RUNNER)
        if lesson.RUNNER.exists():
            runner = lesson.find_runner(None)
        sums = 0
        for index in range(FILES):
            of = lesson.lesson_of(f"{index}.day", generate.day_file(SEED, index))
            printed = lesson.printed_by(runner, of)
            with self.subTest(seed=SEED, index=index):
                if of.day is None:
                    lesson.check_broken(of, printed)
                else:
                    sums += self.assert_sums(words_of(of, printed))
        self.assertGreater(sums, FILES)


class Tool(unittest.TestCase):
    def run_tool(self, *arguments, runner=MODEL_AS_RUNNER, given=b""):
        words = [sys.executable, TOOL, *arguments, *(["--runner", runner] if runner else [])]
        return subprocess.run(words, input=given, capture_output=True)

    def test_whole_lesson(self):
        ended = self.run_tool(SAMPLES / "paper-example.day")
        self.assertEqual((ended.returncode, ended.stderr), (0, b""))
        self.assertTrue(
            ended.stdout.endswith(b"Explained: 8 of 8 commands. The runner's 13 lines are the model's too.\n")
        )
        self.assertLessEqual(max(map(len, ended.stdout.decode().splitlines())), explain.WIDTH)

    def test_standard_input(self):
        for name in ("paper-example.day", "paper-example.txt"):
            ended = self.run_tool("-", "--command", "6", given=(SAMPLES / name).read_bytes())
            self.assertIn(b"103 is the middle of the buy price 106", ended.stdout)

    def test_choice(self):
        ended = self.run_tool(SAMPLES / "paper-example.day", "--command", "8", "--account", "1")
        self.assertIn(b"Explained: 1 of 8 commands", ended.stdout)
        self.assertIn(b"B 1 -20", ended.stdout)
        self.assertNotIn(b"B 2 20", ended.stdout)
        for choice, message in (
            (["--command", "9"], b"explain: there is no command 9: the lesson has 8\n"),
            (["--command", "0"], b"explain: there is no command 0: the lesson has 8\n"),
            (["--account", "3"], b"explain: there is no account 3: the lesson has 2\n"),
        ):
            ended = self.run_tool(SAMPLES / "paper-example.day", *choice)
            self.assertEqual((ended.returncode, ended.stdout, ended.stderr), (2, b"", message))

    def test_broken_file(self):
        ended = self.run_tool(SAMPLES / "broken" / "band-0.day")
        self.assertEqual(ended.returncode, 0)
        self.assertIn(b"X 20\n   contract 1: band not one tick to 1,000,000\n", ended.stdout)

    def test_difference(self):
        """A runner that is wrong in one line: what comes before is explained, then the tool stops."""
        with tempfile.TemporaryDirectory() as folder:
            wrong = Path(folder, "wrong.out")
            wrong.write_text((SAMPLES / "paper-example.out").read_text().replace("T 2 1 103", "T 2 1 104"))
            for choice in ([], ["--command", "2"]):
                ended = self.run_tool(SAMPLES / "paper-example.day", *choice, runner=f"cat {wrong}")
                self.assertEqual(ended.returncode, 1)
                self.assertIn(b"explain: stopped: the runner and the model differ at command 6\n", ended.stderr)
                self.assertIn(b"  runner: T 2 1 104 2 4 3\n", ended.stderr)
                self.assertIn(b"  model:  T 2 1 103 2 4 3\n", ended.stderr)
                self.assertIn(b"C 2 0 1 0 5", ended.stdout)
                self.assertNotIn(b"C 6 0", ended.stdout)
            ended = self.run_tool(SAMPLES / "broken" / "band-0.day", runner=f"cat {wrong}")
            self.assertEqual((ended.returncode, ended.stdout), (1, b""))

    def test_unusable(self):
        ended = self.run_tool("no such file")
        self.assertEqual((ended.returncode, ended.stderr), (2, b"explain: no such file: No such file or directory\n"))
        ended = self.run_tool("-", given=b"settle now")
        self.assertEqual((ended.returncode, ended.stderr[:13]), (2, b"explain: -: l"))
        self.assertIn(b"'now' is one word too many\n", ended.stderr)
        ended = self.run_tool(SAMPLES / "paper-example.day", runner="no-such-program")
        self.assertEqual((ended.returncode, ended.stderr), (2, b"explain: no program no-such-program\n"))

    def test_a_reader_that_leaves(self):
        command = f"{sys.executable} {TOOL} {SAMPLES / 'every-code.txt'} --runner '{MODEL_AS_RUNNER}' | head -1"
        ended = subprocess.run(["sh", "-c", command], capture_output=True)
        self.assertEqual(
            (ended.stdout, ended.stderr), (b"every-code.txt: 2 contracts, 5 accounts, 1,905 commands\n", b"")
        )

    @unittest.skipUnless(Path("/dev/full").exists(), "no full device")
    def test_full_disk(self):
        for choice in ([], ["--command", "2"]):
            words = [sys.executable, TOOL, SAMPLES / "paper-example.txt", "--runner", MODEL_AS_RUNNER, *choice]
            with open("/dev/full", "wb") as full:
                ended = subprocess.run(words, stdout=full, stderr=subprocess.PIPE)
            self.assertEqual(ended.returncode, 2)
            self.assertEqual(ended.stderr, b"explain: standard output: No space left on device\n")

    @unittest.skipUnless(lesson.RUNNER.exists(), "the day runner is not built")
    def test_the_runner_itself(self):
        for path in sorted(SAMPLES.glob("*.txt")):
            ended = self.run_tool(path, runner=None)
            self.assertEqual((ended.returncode, ended.stderr), (0, b""), path.name)


if __name__ == "__main__":
    unittest.main()
