"""The model against the papers' examples, the readings of docs/DECISIONS.md, and days worked out by hand."""

import copy
import random
import sys
import unittest
from itertools import product
from pathlib import Path

sys.path.insert(0, str(Path(__file__).resolve().parents[1]))

import bounds
import broken
import dayfile
import daytext
import generate
import model

# The contract of the paper's example: its charge is 100.
CONTRACT = "contract multiplier 10 tick 1 reference 100 band 10 limit 1000 rate 1000\n"
TWO_ACCOUNTS = "account 10,000\naccount 10,000\n"
OPEN_DAY = CONTRACT + TWO_ACCOUNTS + "state 1 continuous\n"


def output(text):
    """The output lines for a day file in text form."""
    return model.run(daytext.pack(text)).decode().splitlines()


def answers(text):
    """What the C lines say after the command's number: code, order, traded, rested or removed."""
    return [line.split(" ", 2)[2] for line in output(text) if line.startswith("C ")]


def codes(text):
    return [int(answer.split()[0]) for answer in answers(text)]


def last_answer(text):
    return answers(text)[-1]


def last_code(text):
    return codes(text)[-1]


def lines_of(letter, text):
    return [line for line in output(text) if line.startswith(letter)]


def state_after(text):
    """The state that a text's commands lead to."""
    day = dayfile.read(daytext.pack(text))
    state = model.opening_state(day)
    for command in day.commands:
        model.carry_out(state, command)
    return state


class PaperExamples(unittest.TestCase):
    """Document 01, "Examples"."""

    def test_day_runner(self):
        self.assertEqual(
            output(
                OPEN_DAY
                + """
                insert 1 contract 1 sell open limit 102 lots 5 day
                insert 2 contract 1 buy open limit 104 lots 3 day
                cancel 1 contract 1 order 1
                insert 2 contract 1 sell close limit 103 lots 2 day
                insert 1 contract 1 buy close limit 106 lots 2 day
                state 1 closed
                settle
                """
            ),
            [
                "C 1 0 0 0 0",
                "C 2 0 1 0 5",
                "C 3 0 2 3 0",
                "T 1 1 102 3 2 1",
                "C 4 0 1 0 2",
                "C 5 0 3 0 2",
                "C 6 0 4 2 0",
                "T 2 1 103 2 4 3",
                "C 7 0 0 0 0",
                "C 8 0 0 0 0",
                "P 1 102",
                "B 1 -20 0 9980 102",
                "B 2 20 0 10020 102",
            ],
        )

    def test_middle(self):
        self.assertEqual(model.middle(104, 102, 100), 102)
        self.assertEqual(model.middle(106, 103, 102), 103)
        self.assertEqual(model.middle(112, 111, 110), 111)
        self.assertEqual(model.middle(110, 110, 109), 110)

    def test_charge(self):
        def charge(multiplier, reference, rate):
            return model.charge(model.Contract(multiplier, 1, reference, 1, 1, rate, last_price=reference))

        self.assertEqual(charge(10, 100, 1_000), 100)
        self.assertEqual(charge(10, 102, 1_000), 102)
        self.assertEqual(charge(1, 101, 1), 1)

    def test_settlement_price(self):
        trades = OPEN_DAY + """
            insert 1 contract 1 sell open limit 102 lots 3 day
            insert 2 contract 1 buy open limit 102 lots 3 day
            insert 1 contract 1 sell open limit 103 lots 2 day
            insert 2 contract 1 buy open limit 103 lots 2 day
            """
        self.assertEqual(model.settlement_price(state_after(trades), 1), 102)
        quotes = OPEN_DAY.replace("reference 100", "reference 105")
        quotes += "insert 1 contract 1 buy open limit 99 lots 1 day\n"
        self.assertEqual(model.settlement_price(state_after(quotes), 1), 105)
        quotes += "insert 1 contract 1 sell open limit 103 lots 1 day\n"
        self.assertEqual(model.settlement_price(state_after(quotes), 1), 103)

    # "Sells 7 at 110, 5 at 111"
    SELLS = OPEN_DAY.replace("band 10", "band 20") + """
        insert 1 contract 1 sell open limit 110 lots 7 day
        insert 1 contract 1 sell open limit 111 lots 5 day
        """

    def test_fillable(self):
        contract = state_after(self.SELLS).contracts[1]

        def fillable(limit):
            return model.fillable(contract, model.Arriving(2, 1, "buy", "open", "limit", "day", 1, limit))

        self.assertEqual(fillable(111), 12)
        self.assertEqual(fillable(110), 7)

    def test_fill_or_kill(self):
        twelve = self.SELLS + "insert 2 contract 1 buy open limit 111 lots 12 kill"
        self.assertEqual(last_answer(twelve), "0 3 12 0")
        self.assertEqual(lines_of("T", twelve), ["T 1 1 110 7 3 1", "T 2 1 111 5 3 2"])
        self.assertEqual(last_answer(self.SELLS + "insert 2 contract 1 buy open limit 111 lots 13 kill"), "11 0 0 0")

    def test_lots(self):
        rich = OPEN_DAY.replace("account 10,000", "account 100,000")
        self.assertEqual(last_code(rich + "insert 1 contract 1 buy open limit 100 lots 1000 day"), 0)
        self.assertEqual(last_code(rich + "insert 1 contract 1 buy open limit 100 lots 1001 day"), 5)

    def test_65th_rester(self):
        full = OPEN_DAY + "repeat 64\n insert 1 contract 1 buy open limit 100 lots 1 day\n end\n"
        self.assertEqual(last_answer(full), "0 64 0 1")
        self.assertEqual(last_answer(full + "insert 2 contract 1 buy open limit 100 lots 1 day"), "13 0 0 0")


class Malformed(unittest.TestCase):
    """Code 1: "kind, flag value or unused field is wrong"."""

    def code(self, command):
        day = dayfile.read(daytext.pack(OPEN_DAY))
        return model.carry_out(model.opening_state(day), command).code

    def test_unknown_kinds_whatever_the_rest(self):
        for kind in (0, 10, 255):
            self.assertEqual(self.code(dayfile.Command(kind)), 1)
            self.assertEqual(self.code(dayfile.Command(kind, 1, 1, 0, 1, 100, 0, 0)), 1)

    def test_each_unused_field(self):
        unused = {
            dayfile.deposit(1, 5): ("contract", "flags", "lots", "price", "order_number"),
            dayfile.withdraw(1, 5): ("contract", "flags", "lots", "price", "order_number"),
            dayfile.insert(1, 1, "buy", "open", "limit", 100, 1, "day"): ("order_number", "amount"),
            dayfile.cancel(1, 1, 1): ("lots", "price", "amount"),
            dayfile.pull(1, 1): ("lots", "price", "order_number", "amount"),
            dayfile.state(1, "continuous"): ("account", "lots", "price", "order_number", "amount"),
            dayfile.settle(): ("account", "contract", "flags", "lots", "price", "order_number", "amount"),
            dayfile.quote(1, 1, 95, 105, 1): ("flags", "amount"),
            dayfile.change(1, 1, 1, 1, 100): ("flags", "amount"),
        }
        for command, fields in unused.items():
            self.assertNotEqual(self.code(command), 1)
            for field in fields:
                self.assertEqual(self.code(command._replace(**{field: 1})), 1, (command, field))

    def test_each_flag_value(self):
        insert = dayfile.insert(1, 1, "buy", "open", "limit", 100, 1, "day")
        for flags in range(256):
            is_known = flags >> 2 & 3 != 3 and flags >> 4 & 3 != 3 and flags < 64
            self.assertEqual(self.code(insert._replace(flags=flags)) != 1, is_known)
            self.assertEqual(self.code(dayfile.cancel(1, 1, 1)._replace(flags=flags)) != 1, flags <= 1)
            self.assertEqual(self.code(dayfile.pull(1, 1)._replace(flags=flags)) != 1, flags <= 1)
            self.assertEqual(self.code(dayfile.state(1, "closed")._replace(flags=flags)) != 1, flags <= 4)

    def test_comes_before_absent_account_and_contract(self):
        self.assertEqual(self.code(dayfile.state(9, "closed")._replace(flags=5)), 1)
        self.assertEqual(self.code(dayfile.state(9, "auction")), 3)
        self.assertEqual(self.code(dayfile.deposit(9, 5)._replace(lots=1)), 1)

    def test_market_and_best_have_codes_of_their_own(self):
        for condition in ("market", "best"):
            order = OPEN_DAY + f"insert 1 contract 1 buy open {condition} 5 lots "
            self.assertEqual(last_code(order + "0 day"), 5)
            self.assertEqual(last_code(order + "1 day"), 6)
            self.assertEqual(last_code(order + "1 immediate"), 7)
            self.assertEqual(last_code(order + "1 kill"), 7)


class AccountsAndContracts(unittest.TestCase):
    """Codes 2 and 3: 0 or absent."""

    def test_every_kind(self):
        for absent in (0, 3, 255):
            commands = f"""
                deposit {absent} 5
                withdraw {absent} 5
                insert {absent} contract 1 buy open limit 100 lots 1 day
                cancel {absent} contract 1 order 1
                pull {absent} contract 1
                change {absent} contract 1 order 1 lots 1 price 100
                quote {absent} contract 1 buy 95 sell 105 lots 1
                """
            self.assertEqual(codes(OPEN_DAY + commands), [0, 2, 2, 2, 2, 2, 2, 2])
        for absent in (0, 2, 255):
            commands = f"""
                insert 1 contract {absent} buy open limit 100 lots 1 day
                cancel 1 contract {absent} order 1
                pull 1 contract {absent}
                state {absent} closed
                change 1 contract {absent} order 1 lots 1 price 100
                quote 1 contract {absent} buy 95 sell 105 lots 1
                """
            self.assertEqual(codes(OPEN_DAY + commands), [0, 3, 3, 3, 3, 3, 3])

    def test_account_comes_first(self):
        self.assertEqual(last_code(OPEN_DAY + "insert 0 contract 0 buy open limit 100 lots 1 day"), 2)


class ContractStates(unittest.TestCase):
    """Codes 4, 17 and 18."""

    REACH = {
        "pre-open": "",
        "continuous": "state 1 continuous\n",
        "no-trading": "state 1 continuous\n state 1 no-trading\n",
        "closed": "state 1 closed\n",
        "auction": "state 1 auction\n",
    }

    def in_state(self, state):
        return CONTRACT + TWO_ACCOUNTS + self.REACH[state]

    def test_insert_needs_continuous_or_auction(self):
        for state in dayfile.STATES:
            code = last_code(self.in_state(state) + "insert 1 contract 1 buy open limit 100 lots 1 day")
            self.assertEqual(code, 0 if state in ("continuous", "auction") else 4)

    def test_cancel_and_pull_need_continuous_auction_or_the_operator_in_no_trading(self):
        allowed = {("no-trading", "operator"), *product(("continuous", "auction"), ("", "operator"))}
        for state, operator in product(dayfile.STATES, ("", "operator")):
            pull = last_code(self.in_state(state) + f"pull 1 contract 1 {operator}")
            cancel = last_code(self.in_state(state) + f"cancel 1 contract 1 order 1 {operator}")
            self.assertEqual((pull, cancel), (0, 14) if (state, operator) in allowed else (4, 4))

    def test_changes(self):
        listed = {(0, 1), (0, 3), (1, 2), (2, 1), (1, 3), (2, 3), (0, 4), (4, 1)}
        for before, after in product(range(5), range(5)):
            code = last_code(self.in_state(dayfile.STATES[before]) + f"state 1 {dayfile.STATES[after]}")
            self.assertEqual(code, 0 if (before, after) in listed else 17)

    def test_settle_needs_every_contract_closed(self):
        two = CONTRACT + CONTRACT + TWO_ACCOUNTS + "state 1 closed\n"
        self.assertEqual(last_code(two + "settle"), 18)
        self.assertEqual(last_code(two + "state 2 closed\n settle"), 0)
        auction = two + "state 2 auction\n"
        self.assertEqual(codes(auction + "settle\n state 2 closed\n settle")[-3:], [18, 17, 18])
        self.assertEqual(codes(auction + "state 2 continuous\n state 2 closed\n settle")[-3:], [0, 0, 0])

    def test_settlements_are_250(self):
        days = CONTRACT + TWO_ACCOUNTS + "repeat 250\n state 1 closed\n settle\n end\n"
        self.assertEqual(last_code(days), 0)
        self.assertEqual(last_code(days + "settle"), 18)
        self.assertEqual(last_code(days + "state 1 closed\n settle"), 19)


class Prices(unittest.TestCase):
    """Code 7 and the day's low and high."""

    def is_allowed(self, contract, price):
        text = f"contract multiplier 1 {contract} limit 1000 rate 1\n account 1,000,000\n state 1 continuous\n"
        code = last_code(text + f"insert 1 contract 1 buy open limit {price} lots 1 day")
        self.assertIn(code, (0, 7))
        return code == 0

    def assert_ends(self, contract, low, high, tick):
        self.assertTrue(self.is_allowed(contract, low))
        self.assertTrue(self.is_allowed(contract, high))
        self.assertFalse(self.is_allowed(contract, low - tick))
        self.assertFalse(self.is_allowed(contract, high + tick))

    def test_both_ends_may_be_traded(self):
        self.assert_ends("tick 1 reference 100 band 10", 90, 110, tick=1)
        self.assert_ends("tick 5 reference 100 band 10", 90, 110, tick=5)

    def test_low_is_at_least_one_tick(self):
        self.assert_ends("tick 5 reference 100 band 100", 5, 200, tick=5)
        self.assert_ends("tick 5 reference 100 band 1000", 5, 1_100, tick=5)

    def test_high_is_at_most_the_largest_tick_multiple(self):
        self.assert_ends("tick 1 reference 1000000 band 10", 999_990, 1_000_000, tick=1)
        # 142,857 ticks of 7 make 999,999.
        self.assert_ends("tick 7 reference 999999 band 14", 999_985, 999_999, tick=7)

    def test_off_tick(self):
        self.assertFalse(self.is_allowed("tick 5 reference 100 band 10", 101))

    def test_last_price_is_kept_overnight_outside_the_new_band(self):
        # 9 at 99 and 1 at 101 settle at 99, so 98 to 100 are allowed; 101 is still the last price.
        # The sell at 98 meets the buy at 100: the middle of 100, 98 and 101 is 100.
        text = OPEN_DAY.replace("band 10", "band 1") + """
            insert 1 contract 1 sell open limit 99 lots 9 day
            insert 2 contract 1 buy open limit 99 lots 9 day
            insert 1 contract 1 sell open limit 101 lots 1 day
            insert 2 contract 1 buy open limit 101 lots 1 day
            state 1 closed
            settle
            state 1 continuous
            insert 2 contract 1 buy open limit 100 lots 1 day
            insert 1 contract 1 sell open limit 98 lots 1 day
            """
        self.assertEqual(lines_of("P", text), ["P 1 99"])
        self.assertEqual(lines_of("T", text)[-1], "T 1 1 100 1 1 2")


class HoldingsAndMoney(unittest.TestCase):
    """Codes 8, 9 and 16."""

    TIGHT = OPEN_DAY.replace("limit 1000", "limit 10")

    def test_open_up_to_the_limit(self):
        self.assertEqual(last_code(self.TIGHT + "insert 1 contract 1 buy open limit 100 lots 10 day"), 0)
        self.assertEqual(last_code(self.TIGHT + "insert 1 contract 1 buy open limit 100 lots 11 day"), 8)

    def test_open_counts_holding_and_resting_opens_of_its_side_alone(self):
        # Account 1 holds 4 long and 3 long rest to open: 3 more make 10. Its short side is free.
        held = self.TIGHT + """
            insert 2 contract 1 sell open limit 100 lots 4 day
            insert 1 contract 1 buy open limit 100 lots 7 day
            """
        self.assertEqual(last_answer(held), "0 2 4 3")
        self.assertEqual(last_code(held + "insert 1 contract 1 buy open limit 99 lots 3 day"), 0)
        self.assertEqual(last_code(held + "insert 1 contract 1 buy open limit 99 lots 4 day"), 8)
        self.assertEqual(last_code(held + "insert 1 contract 1 sell open limit 101 lots 10 day"), 0)
        self.assertEqual(last_code(held + "insert 1 contract 1 sell open limit 101 lots 11 day"), 8)

    def test_close_counts_holding_less_own_resting_closes(self):
        # Account 1 holds 7 long, 4 of them rest to be closed.
        held = OPEN_DAY + """
            insert 2 contract 1 sell open limit 100 lots 7 day
            insert 1 contract 1 buy open limit 100 lots 7 day
            insert 1 contract 1 sell close limit 105 lots 4 day
            """
        conditions = ("limit 104 lots {} day", "limit 104 lots {} immediate", "market lots {} immediate")
        for condition in conditions:
            close = held + "insert 1 contract 1 sell close " + condition
            self.assertEqual(last_code(close.format(3)), 0)
            self.assertEqual(last_code(close.format(4)), 8)
        # Without anyone to trade with, fill or kill is 11; one lot more is already 8.
        self.assertEqual(last_code(held + "insert 1 contract 1 sell close best lots 3 kill"), 11)
        self.assertEqual(last_code(held + "insert 1 contract 1 sell close best lots 4 kill"), 8)
        self.assertEqual(last_code(held + "insert 1 contract 1 buy close limit 99 lots 1 day"), 8)

    def test_open_takes_exactly_the_balance(self):
        self.assertEqual(last_code(OPEN_DAY + "insert 1 contract 1 buy open limit 100 lots 100 day"), 0)
        self.assertEqual(last_code(OPEN_DAY + "insert 1 contract 1 buy open limit 100 lots 101 day"), 9)

    def test_margin_runs_over_all_contracts(self):
        # 60 lots at charge 100 leave 4,000 of 10,000: 40 lots at charge 100 in contract 2.
        text = CONTRACT + CONTRACT + TWO_ACCOUNTS + """
            state 1 continuous
            state 2 continuous
            insert 1 contract 1 buy open limit 100 lots 60 day
            """
        self.assertEqual(model.free_balance(state_after(text), 1), 4_000)
        self.assertEqual(last_code(text + "insert 1 contract 2 sell open limit 100 lots 40 day"), 0)
        self.assertEqual(last_code(text + "insert 1 contract 2 sell open limit 100 lots 41 day"), 9)
        self.assertEqual(codes(text + "withdraw 1 4,001\n withdraw 1 4,000\n withdraw 1 1")[-3:], [9, 0, 9])

    def test_close_is_never_refused_for_money_and_carries_no_margin(self):
        # All 10,000 are charged for 100 lots long; their close rests all the same, and charges nothing.
        held = OPEN_DAY + """
            insert 2 contract 1 sell open limit 100 lots 100 day
            insert 1 contract 1 buy open limit 100 lots 100 day
            insert 1 contract 1 sell close limit 101 lots 100 day
            """
        self.assertEqual(last_answer(held), "0 3 0 100")
        self.assertEqual(model.charged_margin(state_after(held), 1), 10_000)

    def test_margin_of_the_larger_side(self):
        # Account 1 is 40 long and 60 short, bids for 5 and offers 3: 63 lots are charged, 6,300 of 10,000.
        both = OPEN_DAY + """
            insert 2 contract 1 sell open limit 100 lots 40 day
            insert 1 contract 1 buy open limit 100 lots 40 day
            insert 2 contract 1 buy open limit 100 lots 60 day
            insert 1 contract 1 sell open limit 100 lots 60 day
            insert 1 contract 1 buy open limit 95 lots 5 day
            insert 1 contract 1 sell open limit 105 lots 3 day
            """
        state = state_after(both)
        self.assertEqual(model.charged_margin(state, 1), 6_300)
        self.assertEqual(model.charged_margin(state, 2), 6_000)
        # 18 more buys add no charge; 55 bring the buys to 100 lots.
        full = both + "withdraw 1 3,700\n"
        self.assertEqual(codes(both + "withdraw 1 3,701\n withdraw 1 3,700\n withdraw 1 1")[-3:], [9, 0, 9])
        for text, side, lots in ((full, "buy", 18), (full, "sell", 0), (both, "buy", 55), (both, "sell", 37)):
            order = text + "insert 1 contract 1 " + side + " open limit 100 lots {} day"
            self.assertEqual(last_code(order.format(lots + 1)), 9)
            if lots > 0:
                self.assertEqual(last_code(order.format(lots)), 0)

    def test_open_that_adds_no_charge_is_refused_where_the_charge_exceeds_the_balance(self):
        # Account 1 sells 10 at 100, which settle at 110 on the second day: a loss of 10 x 10 x 10 leaves 999, and 10
        # lots at 110 are charged 1,100.
        text = CONTRACT + """
            account 1,999
            account 100,000
            state 1 continuous
            insert 1 contract 1 sell open limit 100 lots 10 day
            insert 2 contract 1 buy open limit 100 lots 10 day
            state 1 closed
            settle
            state 1 continuous
            insert 2 contract 1 buy open limit 110 lots 1 day
            insert 2 contract 1 sell open limit 110 lots 1 day
            state 1 closed
            settle
            state 1 continuous
            """
        self.assertEqual(lines_of("B", text)[2], "B 1 0 -1000 999 1100")
        self.assertEqual(last_code(text + "insert 1 contract 1 buy open limit 110 lots 1 day"), 9)
        self.assertEqual(last_code(text + "insert 1 contract 1 buy close limit 110 lots 1 day"), 0)
        # With 101 more the charge is just covered, and 10 lots of the other side pass.
        paid = text + "deposit 1 101\n"
        self.assertEqual(last_code(paid + "insert 1 contract 1 buy open limit 110 lots 10 day"), 0)
        self.assertEqual(last_code(paid + "insert 1 contract 1 buy open limit 110 lots 11 day"), 9)

    def test_charge_is_rounded_up_for_one_lot(self):
        # 1 x 101 x 1 / 10,000 is rounded up to 1 for each of 3 lots.
        text = "contract multiplier 1 tick 1 reference 101 band 10 limit 10 rate 1\n account 3\n state 1 continuous\n"
        self.assertEqual(last_code(text + "insert 1 contract 1 buy open limit 100 lots 3 day"), 0)
        self.assertEqual(last_code(text + "insert 1 contract 1 buy open limit 100 lots 4 day"), 9)

    def test_amounts(self):
        rich = OPEN_DAY.replace("account 10,000", "account 1,000,000,000,000,000")
        for kind in ("deposit", "withdraw"):
            for amount, code in ((0, 16), (1, 0), (10**15, 0), (10**15 + 1, 16), (2**63, 16), (2**64 - 1, 16)):
                self.assertEqual(last_code(rich + f"{kind} 1 {amount}"), code)
        # For a withdrawal 16 tests the amount alone and comes before 9.
        self.assertEqual(last_code(OPEN_DAY + f"withdraw 1 {10**15}"), 9)
        self.assertEqual(last_code(OPEN_DAY + f"withdraw 1 {10**15 + 1}"), 16)

    def test_deposit_lifts_to_at_most_10_to_the_18(self):
        full = CONTRACT + f"account {10**18 - 5}\n"
        self.assertEqual(codes(full + "deposit 1 6\n deposit 1 5\n deposit 1 1"), [16, 0, 16])

    def test_deposit_above_10_to_the_18_by_profit(self):
        # Account 1 buys at 90 what settles at 94 (1 at 90, 1 at 98): 40 above 10^18, so every deposit is refused.
        text = CONTRACT + f"account {10**18}\n account 10,000\n" + """
            state 1 continuous
            insert 2 contract 1 sell open limit 90 lots 1 day
            insert 1 contract 1 buy open limit 90 lots 1 day
            insert 2 contract 1 sell open limit 98 lots 1 day
            insert 2 contract 1 buy open limit 98 lots 1 day
            state 1 closed
            settle
            """
        self.assertEqual(lines_of("B", text)[0], f"B 1 0 40 {10**18 + 40} 94")
        self.assertEqual(codes(text + "deposit 1 1\n withdraw 1 41\n deposit 1 1\n deposit 1 1")[-4:], [16, 0, 0, 16])


class OrderNumbers(unittest.TestCase):
    """Code 10, which no file can reach."""

    def test_999999_is_still_given(self):
        state = state_after(OPEN_DAY)
        state.next_order_number = 999_999
        order = dayfile.insert(1, 1, "buy", "open", "limit", 100, 1, "day")
        self.assertEqual(model.answer(state, order).order_number, 999_999)
        self.assertEqual(model.answer(state, order).code, 10)

    def test_comes_after_9_and_before_11(self):
        state = state_after(OPEN_DAY)
        state.next_order_number = 1_000_000
        too_dear = dayfile.insert(1, 1, "buy", "open", "limit", 100, 101, "kill")
        unfillable = dayfile.insert(1, 1, "buy", "open", "limit", 100, 1, "kill")
        self.assertEqual(model.answer(state, too_dear).code, 9)
        self.assertEqual(model.answer(state, unfillable).code, 10)

    def test_run_over_all_contracts_and_start_again(self):
        text = CONTRACT + CONTRACT + TWO_ACCOUNTS + """
            state 1 continuous
            state 2 continuous
            insert 1 contract 1 buy open limit 100 lots 1 day
            insert 1 contract 2 buy open limit 100 lots 1 day
            insert 2 contract 2 sell open limit 100 lots 1 day
            insert 2 contract 1 sell open limit 100 lots 1 day
            state 1 closed
            state 2 closed
            settle
            state 2 continuous
            insert 1 contract 2 buy open limit 100 lots 1 day
            insert 2 contract 2 sell open limit 100 lots 1 day
            """
        self.assertEqual(lines_of("T", text), ["T 1 2 100 1 2 3", "T 2 1 100 1 1 4", "T 1 2 100 1 1 2"])


class Matching(unittest.TestCase):
    """Counterparts, prices, remainders; codes 11, 12 and 13."""

    # Sells 2 at 101, 3 at 101, 4 at 103.
    SELLS = OPEN_DAY + """
        insert 1 contract 1 sell open limit 101 lots 2 day
        insert 1 contract 1 sell open limit 103 lots 4 day
        insert 1 contract 1 sell open limit 101 lots 3 day
        """

    def test_nothing_to_trade_with(self):
        text = OPEN_DAY + """
            insert 1 contract 1 buy open market lots 5 immediate
            insert 1 contract 1 buy open best lots 5 immediate
            insert 1 contract 1 buy open limit 100 lots 5 immediate
            insert 1 contract 1 buy open limit 100 lots 5 kill
            insert 1 contract 1 buy open limit 100 lots 5 day
            """
        self.assertEqual(answers(text)[1:], ["0 1 0 0", "0 2 0 0", "0 3 0 0", "11 0 0 0", "0 4 0 5"])

    def test_by_price_then_number(self):
        text = self.SELLS + "insert 2 contract 1 buy open market lots 8 immediate"
        self.assertEqual(lines_of("T", text), ["T 1 1 101 2 4 1", "T 2 1 101 3 4 3", "T 3 1 103 3 4 2"])

    def test_best_stays_at_one_price(self):
        self.assertEqual(last_answer(self.SELLS + "insert 2 contract 1 buy open best lots 8 immediate"), "0 4 5 0")
        self.assertEqual(last_answer(self.SELLS + "insert 2 contract 1 buy open best lots 5 kill"), "0 4 5 0")
        self.assertEqual(last_answer(self.SELLS + "insert 2 contract 1 buy open best lots 6 kill"), "11 0 0 0")

    def test_middle_is_worked_out_again_for_each_trade(self):
        # Last price 100. First 101: the middle of 104, 101, 100. Then 103: the middle of 104, 103, 101.
        text = self.SELLS + "insert 2 contract 1 buy open limit 104 lots 9 day"
        self.assertEqual([line.split()[3] for line in lines_of("T", text)], ["101", "101", "103"])

    def test_middle_by_the_last_price(self):
        # Account 2 sells at 105 first, so the last price is 105; then 104, the arriving price, is the middle.
        text = OPEN_DAY + """
            insert 2 contract 1 buy open limit 105 lots 1 day
            insert 1 contract 1 sell open limit 105 lots 1 day
            insert 1 contract 1 sell open limit 101 lots 1 day
            insert 2 contract 1 buy open limit 104 lots 1 day
            """
        self.assertEqual(lines_of("T", text)[-1], "T 2 1 104 1 4 3")

    def test_last_price_on_arrival_gives_the_same_prices(self):
        # No test of the engine can tell the two apart: a later resting price is no better than an earlier one.
        for limit, first, second, last in product(range(1, 7), repeat=4):
            if first <= second <= limit:
                self.assertEqual(
                    model.middle(limit, second, model.middle(limit, first, last)), model.middle(limit, second, last)
                )

    def test_market_and_best_trade_at_the_resting_price(self):
        for condition, method in product(("market", "best"), (0, 1, 2)):
            text = OPEN_DAY.replace("rate 1000", f"rate 1000 method {method}") + f"""
                insert 1 contract 1 sell open limit 109 lots 1 day
                insert 2 contract 1 buy open {condition} lots 1 immediate
                """
            self.assertEqual(lines_of("T", text), ["T 1 1 109 1 2 1"])

    def prices(self, method, arriving):
        """The prices at which an order sweeps the sells, by a method."""
        text = self.SELLS.replace("rate 1000", f"rate 1000 method {method}") + arriving
        return [int(line.split()[3]) for line in lines_of("T", text)]

    def test_average_is_half_the_sum(self):
        # Half of 104 and 101 is 102.5, half of 104 and 103 is 103.5.
        self.assertEqual(self.prices(1, "insert 2 contract 1 buy open limit 104 lots 9 day"), [102, 102, 103])

    def test_first_in_is_the_resting_price(self):
        self.assertEqual(self.prices(2, "insert 2 contract 1 buy open limit 104 lots 9 day"), [101, 101, 103])

    def test_average_is_rounded_down_to_a_tick(self):
        def average(tick, arriving, resting):
            return model.paired_price(model.Contract(1, tick, 100, 1, 1, 1, 100, method=1), arriving, resting, 100)

        self.assertEqual(average(2, 112, 110), 110)
        self.assertEqual(average(5, 120, 105), 110)
        self.assertEqual(average(1_000, 1_000_000, 999_000), 999_000)
        self.assertEqual(average(5, 110, 110), 110)

    def test_every_method_lies_between_the_two(self):
        for method, tick, low, high, last in product((0, 1, 2), (1, 2, 3), range(1, 6), range(1, 6), range(1, 6)):
            if low <= high:
                contract = model.Contract(1, tick, tick, tick, 1, 1, tick, method=method)
                for arriving, resting in ((low, high), (high, low)):
                    price = model.paired_price(contract, arriving * tick, resting * tick, last * tick)
                    self.assertTrue(low * tick <= price <= high * tick and price % tick == 0)

    def test_fill_or_kill_leaves_no_trace(self):
        text = self.SELLS + """
            insert 2 contract 1 buy open limit 104 lots 10 kill
            insert 2 contract 1 buy open limit 104 lots 1 day
            """
        self.assertEqual(answers(text)[-2:], ["11 0 0 0", "0 4 1 0"])
        self.assertEqual(lines_of("T", text), ["T 1 1 101 1 4 1"])

    def test_own_order_is_met(self):
        text = OPEN_DAY + """
            insert 1 contract 1 sell open limit 100 lots 2 day
            insert 1 contract 1 buy open limit 100 lots 2 day
            insert 1 contract 1 buy close limit 100 lots 2 day
            insert 1 contract 1 sell close limit 100 lots 2 day
            """
        self.assertEqual(lines_of("T", text), ["T 1 1 100 2 2 1", "T 2 1 100 2 3 4"])
        self.assertEqual(set(state_after(text).holdings.values()), {0})

    def test_cancel_and_pull_give_lots(self):
        text = self.SELLS + """
            insert 2 contract 1 buy open limit 99 lots 8 day
            insert 2 contract 1 buy open limit 101 lots 1 day
            cancel 1 contract 1 order 1
            cancel 1 contract 1 order 0
            cancel 1 contract 1 order 4
            cancel 2 contract 1 order 2 operator
            pull 1 contract 1
            pull 1 contract 1
            """
        self.assertEqual(answers(text)[-6:], ["0 1 0 1", "14 0 0 0", "15 0 0 0", "15 0 0 0", "0 0 0 7", "0 0 0 0"])

    FULL_SIDE = OPEN_DAY + """
        repeat 64
            insert 1 contract 1 buy open limit 100 lots 1 day
        end
        insert 2 contract 1 sell open limit 103 lots 5 day
        """

    def test_13_needs_all_three(self):
        order = self.FULL_SIDE + "insert 2 contract 1 buy open "
        self.assertEqual(last_answer(order + "limit 103 lots 5 day"), "0 66 5 0")
        self.assertEqual(last_answer(order + "limit 103 lots 6 day"), "13 0 0 0")
        self.assertEqual(last_answer(order + "limit 103 lots 6 immediate"), "0 66 5 0")
        self.assertEqual(last_answer(order + "limit 103 lots 6 kill"), "11 0 0 0")
        self.assertEqual(last_answer(order + "market lots 6 immediate"), "0 66 5 0")

    def test_12_counts_the_trades_that_would_be_made(self):
        # 1,022 trades are made, three sells of 1 lot rest at 102 and the day has room for two trades.
        wide = OPEN_DAY.replace("account 10,000", "account 1,000,000").replace("limit 1000", "limit 100000")
        state = state_after(
            wide
            + """
            insert 1 contract 1 sell open limit 101 lots 1000 day
            insert 1 contract 1 sell open limit 101 lots 22 day
            repeat 1022
                insert 2 contract 1 buy open limit 101 lots 1 immediate
            end
            repeat 3
                insert 1 contract 1 sell open limit 102 lots 1 day
            end
            """
        )
        self.assertEqual(len(state.trades), 1_022)

        def buy(price, lots, time_condition):
            order = dayfile.insert(2, 1, "buy", "open", "limit", price, lots, time_condition)
            return model.carry_out(state, order).code

        for time_condition in dayfile.TIME_CONDITIONS:
            self.assertEqual(buy(102, 3, time_condition), 12)
        self.assertEqual(buy(102, 2, "immediate"), 0)
        self.assertEqual(len(state.trades), 1_024)
        self.assertEqual(buy(102, 1, "day"), 12)
        # Orders that make no trade pass.
        self.assertEqual(buy(101, 1, "immediate"), 0)
        self.assertEqual(buy(101, 1, "day"), 0)
        self.assertTrue(model.well_formed(state))


class Changes(unittest.TestCase):
    """A resting order changed (document 02, ticket 8), and the time stamps that queues go by."""

    # Buys at 100: order 1 of account 1, 2 of account 2, 3 of account 1; order 4 sells at 103. Account 1 has 1,000 for ten
    # lots, of which 7 rest.
    BOOK = CONTRACT + "account 1,000\naccount 10,000\nstate 1 continuous\n" + """
        insert 1 contract 1 buy open limit 100 lots 4 day
        insert 2 contract 1 buy open limit 100 lots 5 day
        insert 1 contract 1 buy open limit 100 lots 3 day
        insert 2 contract 1 sell open limit 103 lots 2 day
        """

    def change(self, order, lots, price, account=1, text=BOOK):
        return text + f"change {account} contract 1 order {order} lots {lots} price {price}\n"

    def queue(self, text, side="buy"):
        """The orders of a queue: number, price, lots and stamp."""
        queue = state_after(text).contracts[1].queues[side]
        return [(order.number, order.price, order.lots, order.stamp) for order in queue]

    def test_fewer_lots_keep_the_place(self):
        text = self.change(1, 1, 100)
        self.assertEqual(last_answer(text), "0 1 0 1")
        self.assertEqual(self.queue(text), [(1, 100, 1, 1), (2, 100, 5, 2), (3, 100, 3, 3)])
        self.assertEqual(state_after(text).next_stamp, 5)

    def test_equal_lots_and_price_change_nothing(self):
        text = self.change(1, 4, 100)
        self.assertEqual(last_answer(text), "0 1 0 4")
        self.assertEqual(state_after(text), state_after(self.BOOK))

    def test_more_lots_lose_the_place(self):
        text = self.change(1, 5, 100)
        self.assertEqual(last_answer(text), "0 1 0 5")
        self.assertEqual(self.queue(text), [(2, 100, 5, 2), (3, 100, 3, 3), (1, 100, 5, 5)])
        self.assertEqual((state_after(text).next_stamp, state_after(text).next_order_number), (6, 5))
        sold = text + "insert 2 contract 1 sell open market lots 9 immediate\n"
        self.assertEqual(lines_of("T", sold), ["T 1 1 100 5 2 5", "T 2 1 100 3 3 5", "T 3 1 100 1 1 5"])

    def test_another_price_loses_the_place_with_fewer_lots_too(self):
        text = self.change(1, 2, 101)
        self.assertEqual(last_answer(text), "0 1 0 2")
        self.assertEqual(self.queue(text), [(1, 101, 2, 5), (2, 100, 5, 2), (3, 100, 3, 3)])
        back = self.change(1, 2, 100, text=text)
        self.assertEqual(self.queue(back), [(2, 100, 5, 2), (3, 100, 3, 3), (1, 100, 2, 6)])

    def test_matched_at_once(self):
        text = self.change(1, 3, 104)
        self.assertEqual(last_answer(text), "0 1 2 1")
        self.assertEqual(lines_of("T", text), ["T 1 1 103 2 1 4"])
        self.assertEqual(self.queue(text)[0], (1, 104, 1, 5))
        self.assertEqual(last_answer(self.change(1, 2, 103)), "0 1 2 0")

    def test_the_changed_order_arrives_for_every_method(self):
        for method, price in ((0, 103), (1, 104), (2, 103)):
            text = self.change(1, 2, 106).replace("rate 1000", f"rate 1000 method {method}")
            self.assertEqual(lines_of("T", text), [f"T 1 1 {price} 2 1 4"])
        # A sell that goes down to a buy at 100: the middle with the last price 100, half of 97 + 100, and the resting 100.
        for method, price in ((0, 100), (1, 98), (2, 100)):
            text = self.change(4, 1, 97, account=2).replace("rate 1000", f"rate 1000 method {method}")
            self.assertEqual(lines_of("T", text), [f"T 1 1 {price} 1 1 4"])

    def test_no_lots_remove_the_order_whatever_the_price(self):
        for price in (0, 100, 1, 2**32 - 1):
            text = self.change(1, 0, price)
            self.assertEqual(last_answer(text), "0 1 0 4")
            self.assertEqual(self.queue(text), [(2, 100, 5, 2), (3, 100, 3, 3)])
            self.assertEqual(state_after(text).next_stamp, 5)

    def test_refusals_in_turn(self):
        for order, lots, price, account, code in (
            (9, 1_001, 1, 1, 14),
            (0, 0, 0, 1, 14),
            (2, 1_001, 1, 1, 15),
            (2, 0, 0, 1, 15),
            (1, 1_001, 1, 1, 5),
            (1, 1_000, 111, 1, 7),
            (1, 4, 89, 1, 7),
            (1, 1_000, 100, 1, 8),
            (1, 8, 100, 1, 9),
            (1, 7, 100, 1, 0),
            (1, 8, 99, 1, 9),
            (1, 7, 99, 1, 0),
        ):
            self.assertEqual(last_code(self.change(order, lots, price, account)), code, (order, lots, price))
        limited = self.BOOK.replace("limit 1000 rate", "limit 9 rate")
        for lots, code in ((6, 0), (7, 8)):
            self.assertEqual(last_code(self.change(1, lots, 100, text=limited)), code)

    def test_in_continuous_only(self):
        for state in ("no-trading", "closed"):
            for lots in (0, 4, 5):
                self.assertEqual(last_code(self.change(1, lots, 100, text=self.BOOK + f"state 1 {state}\n")), 4)
        auction = self.BOOK.replace("continuous", "auction")
        self.assertEqual(last_code(self.change(1, 3, 100, text=auction)), 4)

    def test_closes(self):
        held = self.BOOK + "insert 2 contract 1 sell open limit 100 lots 4 day\n"
        held += "insert 1 contract 1 sell close limit 105 lots 3 day\n"
        self.assertEqual(last_answer(self.change(6, 4, 105, text=held)), "0 6 0 4")
        self.assertEqual(last_code(self.change(6, 5, 105, text=held)), 8)
        # It is sold to order 2, and the 4 lots are closed.
        self.assertEqual(last_answer(self.change(6, 4, 100, text=held)), "0 6 4 0")

    def test_own_order_met(self):
        text = self.BOOK + "insert 1 contract 1 sell open limit 105 lots 2 day\n"
        self.assertEqual(lines_of("T", self.change(5, 5, 100, text=text)), ["T 1 1 100 4 1 5", "T 2 1 100 1 2 5"])

    def test_stamps_end_at_999999(self):
        for lots, price, needs_one in ((5, 100, True), (4, 99, True), (1, 99, True), (4, 104, True), (4, 100, False), (3, 100, False), (0, 0, False)):
            for next_stamp in (999_999, 1_000_000):
                state = state_after(self.BOOK)
                state.next_stamp = next_stamp
                given = model.answer(state, dayfile.change(1, 1, 1, lots, price))
                self.assertEqual(given.code, 10 if needs_one and next_stamp == 1_000_000 else 0)
        state = state_after(self.BOOK)
        state.next_stamp = 1_000_000
        self.assertEqual(model.answer(state, dayfile.insert(2, 1, "buy", "open", "limit", 99, 1, "day")).code, 10)
        # The number stays, so that numbers may be used up.
        state = state_after(self.BOOK)
        state.next_order_number = 1_000_000
        self.assertEqual(model.answer(state, dayfile.change(1, 1, 1, 5, 100)).code, 0)

    def test_every_insert_takes_a_stamp(self):
        text = self.BOOK + "insert 2 contract 1 sell open market lots 1 immediate\n"
        text += "insert 2 contract 1 sell open limit 109 lots 1 immediate\n insert 2 contract 1 buy open limit 95 lots 1 day\n"
        self.assertEqual(self.queue(text)[-1], (7, 95, 1, 7))
        self.assertEqual(state_after(text + "state 1 closed\nsettle").next_stamp, 1)

    def test_a_full_side_gives_no_13(self):
        full = OPEN_DAY + "repeat 64\n insert 1 contract 1 buy open limit 100 lots 1 day\n end\n"
        for lots, price in ((2, 100), (1, 99), (1, 101)):
            self.assertEqual(last_answer(self.change(1, lots, price, text=full)), f"0 1 0 {lots}")

    def test_12(self):
        state = state_after(self.BOOK)
        state.trades = [None] * 1_024
        for lots, price, code in ((4, 103, 12), (4, 102, 0), (5, 100, 0), (3, 100, 0), (0, 103, 0)):
            self.assertEqual(model.change_code(state, dayfile.change(1, 1, 1, lots, price)), code)

    def test_without_changes_stamps_are_numbers(self):
        """Where every resting stamp is its number and the next stamp the next number, all other commands keep it so."""
        for index in range(40):
            day = dayfile.sections(generate.trading_file(random.Random(index)))
            state = model.opening_state(day)
            for command in day.commands:
                if command.kind != dayfile.NUMBER_OF_KIND["change"]:
                    model.carry_out(state, command)
                    orders = [order for contract in state.contracts.values() for queue in contract.queues.values() for order in queue]
                    self.assertTrue(all(order.stamp == order.number for order in orders))
                    self.assertEqual(state.next_stamp, state.next_order_number)


class Quotes(unittest.TestCase):
    """Quotes from market makers (document 02, ticket 7)."""

    # Account 1 is a maker with 1,000 for ten lots, and quotes 4 lots, of whose sell account 2 takes 1.
    HEAD = CONTRACT + "maker 1,000\naccount 10,000\nstate 1 continuous\n"
    BOOK = HEAD + """
        quote 1 contract 1 buy 98 sell 102 lots 4
        insert 2 contract 1 buy open limit 102 lots 1 day
        """

    def quote(self, buy, sell, lots, account=1, text=BOOK):
        return text + f"quote {account} contract 1 buy {buy} sell {sell} lots {lots}\n"

    def queues(self, text):
        """Each order's number, price, lots and mark: the buys, then the sells."""
        queues = state_after(text).contracts[1].queues
        return [
            [(order.number, order.price, order.lots, order.quote) for order in queues[side]] for side in dayfile.SIDES
        ]

    def test_two_orders_and_their_sums(self):
        self.assertEqual(answers(self.BOOK)[1:], ["0 1 0 8", "0 3 1 0"])
        self.assertEqual(self.queues(self.BOOK), [[(1, 98, 4, True)], [(2, 102, 3, True)]])

    def test_the_old_one_goes_first(self):
        text = self.quote(99, 103, 5)
        self.assertEqual(last_answer(text), "0 4 0 10")
        self.assertEqual(self.queues(text), [[(4, 99, 5, True)], [(5, 103, 5, True)]])
        # Beyond its own old prices nothing is met.
        self.assertEqual(last_answer(self.quote(103, 104, 5)), "0 4 0 10")
        self.assertEqual(last_answer(self.quote(95, 96, 5)), "0 4 0 10")
        # What was changed is no quote; what was cancelled is not there.
        changed = self.BOOK + "change 1 contract 1 order 1 lots 3 price 98\n cancel 1 contract 1 order 2\n"
        self.assertEqual(self.queues(changed), [[(1, 98, 3, False)], []])
        self.assertEqual(
            self.queues(self.quote(97, 103, 2, text=changed)), [[(1, 98, 3, False), (4, 97, 2, True)], [(5, 103, 2, True)]]
        )

    def test_each_change_but_the_equal_one_drops_the_mark(self):
        for lots, price, mark in ((4, 98, True), (3, 98, False), (5, 98, False), (4, 97, False), (3, 97, False)):
            text = self.BOOK + f"change 1 contract 1 order 1 lots {lots} price {price}"
            self.assertEqual(self.queues(text)[0], [(1, price, lots, mark)])

    def test_the_buy_trades_or_the_sell(self):
        sells = self.BOOK + "insert 2 contract 1 sell open limit 101 lots 3 day\n"
        self.assertEqual(last_answer(self.quote(101, 103, 5, text=sells)), "0 5 3 7")
        self.assertEqual(lines_of("T", self.quote(101, 103, 5, text=sells))[-1], "T 2 1 101 3 5 4")
        buys = self.BOOK + "insert 2 contract 1 buy open limit 99 lots 3 day\n"
        self.assertEqual(last_answer(self.quote(97, 99, 5, text=buys)), "0 5 3 7")
        self.assertEqual(lines_of("T", self.quote(97, 99, 5, text=buys))[-1], "T 2 1 99 3 4 6")

    def test_refusals_in_turn(self):
        for buy, sell, lots, account, code in (
            (101, 99, 0, 2, 23),
            (98, 102, 1, 2, 23),
            (99, 99, 0, 1, 24),
            (111, 99, 1_001, 1, 24),
            (89, 111, 1_001, 1, 5),
            (89, 111, 0, 1, 5),
            (89, 111, 1, 1, 7),
            (98, 111, 1, 1, 7),
            (98, 102, 1_000, 1, 9),
            (98, 102, 11, 1, 9),
            (98, 102, 10, 1, 9),
            (98, 102, 9, 1, 0),
        ):
            text = self.quote(buy, sell, lots, account)
            self.assertEqual(last_code(text), code, (buy, sell, lots))
            if code:
                self.assertEqual(state_after(text), state_after(self.BOOK))
        # 1 is held short: 10 to buy are within the limit, 10 to sell are not.
        limited = self.BOOK.replace("limit 1000 rate", "limit 10 rate").replace("maker 1,000", "maker 100,000")
        for lots, code in ((9, 0), (10, 8), (11, 8)):
            self.assertEqual(last_code(self.quote(98, 102, lots, text=limited)), code)

    def test_in_continuous_only(self):
        for state in ("no-trading", "closed"):
            self.assertEqual(last_code(self.quote(98, 102, 1, text=self.BOOK + f"state 1 {state}\n")), 4)
        auction = self.HEAD.replace("continuous", "auction")
        self.assertEqual(last_code(self.quote(98, 102, 1, text=auction)), 4)
        self.assertEqual(last_code(self.quote(98, 102, 1, account=2, text=auction)), 4)

    def test_two_numbers_and_two_stamps(self):
        for number, stamp, code in (
            (999_998, 1_000, 0),
            (999_999, 1_000, 10),
            (1_000, 999_998, 0),
            (1_000, 999_999, 10),
            (1_000_000, 1_000, 10),
        ):
            state = state_after(self.BOOK)
            state.next_order_number, state.next_stamp = number, stamp
            self.assertEqual(model.answer(state, dayfile.quote(1, 1, 98, 102, 2)).code, code)

    def test_13_with_the_old_one_gone(self):
        full = self.HEAD.replace("account 10,000", "account 100,000")
        full += "quote 1 contract 1 buy 98 sell 102 lots 1\n"
        full += "repeat 63\n insert 2 contract 1 buy open limit 97 lots 1 day\n end\n"
        self.assertEqual(last_code(self.quote(96, 102, 1, text=full)), 0)
        more = full + "cancel 1 contract 1 order 1\n insert 2 contract 1 buy open limit 97 lots 1 day\n"
        self.assertEqual(last_code(self.quote(96, 102, 1, text=more)), 13)
        sells = more + "insert 2 contract 1 sell open limit 100 lots 1 day\n"
        self.assertEqual(last_code(self.quote(100, 102, 1, text=sells)), 0)
        self.assertEqual(last_code(self.quote(100, 102, 2, text=sells)), 13)

    def test_as_cancels_and_inserts(self):
        """Marks aside, a quote that passes 24 is: cancel what is left of the old one, insert the buy, insert the sell."""
        compared = set()
        for index in range(60):
            day = dayfile.sections(generate.quotes_file(random.Random(index)))
            state = model.opening_state(day)
            for command in day.commands:
                code = model.first_code(state, command)
                if command.kind == dayfile.NUMBER_OF_KIND["quote"] and code not in (1, 2, 3, 4, 23, 24):
                    given, after = self.singly(state, command)
                    before = model.copied(state)
                    answer = model.carry_out(state, command)
                    self.assertEqual(answer.code, given[0])
                    if answer.code:
                        self.assertEqual(state, before)
                    else:
                        self.assertEqual((answer.order_number, answer.lots_traded, answer.lots_rested_or_removed), given[1:])
                        self.assertEqual(self.unmarked(state), self.unmarked(after))
                    compared.add(answer.code)
                else:
                    model.carry_out(state, command)
        self.assertGreaterEqual(compared, {0, 5, 7, 8, 9})

    def singly(self, state, command):
        """The answer and the state of the commands that a quote stands for."""
        state = model.copied(state)
        queues = state.contracts[command.contract].queues
        old = [order.number for queue in queues.values() for order in queue if order.quote and order.account == command.account]
        commands = [dayfile.cancel(command.account, command.contract, number) for number in old]
        for side, price in (("buy", command.price), ("sell", command.order_number)):
            commands.append(dayfile.insert(command.account, command.contract, side, "open", "limit", price, command.lots, "day"))
        given = []
        for single in commands:
            given.append(model.answer(state, single))
            if given[-1].code:
                return (given[-1].code,), None
        buy, sell = given[-2:]
        rested = buy.lots_rested_or_removed + sell.lots_rested_or_removed
        return (0, buy.order_number, buy.lots_traded + sell.lots_traded, rested), state

    def unmarked(self, state):
        state = model.copied(state)
        for contract in state.contracts.values():
            for queue in contract.queues.values():
                for order in queue:
                    order.quote = False
        return state


class Auction(unittest.TestCase):
    """The opening auction: document 02, ticket 4. The last price is 100 where nothing else is said."""

    OPEN = CONTRACT.replace("band 10", "band 90") + "account 1,000,000\naccount 1,000,000\nstate 1 auction\n"
    END = "state 1 continuous\n"

    def orders(self, *orders, contract=1):
        """Inserts to open: account 1 buys, account 2 sells. An order is its side, lots and price: "buy 5 at 100"."""
        account = {"buy": 1, "sell": 2}
        return "".join(
            f"insert {account[side]} contract {contract} {side} open limit {price} lots {lots} day\n"
            for side, lots, _, price in map(str.split, orders)
        )

    def book(self, *orders, last=100):
        """The contract with these orders resting in auction."""
        contract = state_after(self.OPEN + self.orders(*orders)).contracts[1]
        contract.last_price = last
        return contract

    def price(self, *orders, last=100):
        return model.auction_price(self.book(*orders, last=last))

    def match(self, *orders, text=OPEN):
        """The lines of the change that ends an auction of these orders, without the number of the command."""
        lines = output(text + self.orders(*orders) + self.END)
        change = max(place for place, line in enumerate(lines) if line.startswith("C"))
        return [lines[change].split(" ", 2)[2], *lines[change + 1 :]]

    # --- "Source document 001's two examples give 102 and 101; source document 000's gives 1608." ---

    # 4.3.1.1 of source document 001, and 4.3.1.2, which has one lot more at 101.
    BUYS = ("buy 5 at 100", "buy 6 at 101", "buy 4 at 102")
    LARGEST_VOLUME = (*BUYS, "sell 3 at 101", "sell 7 at 102", "sell 6 at 103")
    SMALLEST_SURPLUS = (*BUYS, "sell 4 at 101", "sell 7 at 102", "sell 6 at 103")

    def table(self, contract):
        """As source document 001 prints it: buy lots, sell lots and volume at each price."""
        return {
            price: (*model.lots_at_or_better(contract, price), model.volume(contract, price))
            for price in model.resting_prices(contract)
        }

    def test_first_example_of_001(self):
        table = {100: (15, 0, 0), 101: (10, 3, 3), 102: (4, 10, 4), 103: (0, 16, 0)}
        self.assertEqual(self.table(self.book(*self.LARGEST_VOLUME)), table)
        self.assertEqual(self.price(*self.LARGEST_VOLUME), 102)
        # Order 3 buys 4 lots: the 3 of order 4, at 101 the best sell, and 1 of the 7 of order 5.
        self.assertEqual(self.match(*self.LARGEST_VOLUME), ["0 0 4 0", "T 1 1 102 3 3 4", "T 2 1 102 1 3 5"])

    def test_second_example_of_001(self):
        table = {100: (15, 0, 0), 101: (10, 4, 4), 102: (4, 11, 4), 103: (0, 17, 0)}
        self.assertEqual(self.table(self.book(*self.SMALLEST_SURPLUS)), table)
        # 101 and 102 have volume 4; 6 buys would be left over at 101, 7 sells at 102.
        self.assertEqual(self.price(*self.SMALLEST_SURPLUS), 101)
        self.assertEqual(self.match(*self.SMALLEST_SURPLUS), ["0 0 4 0", "T 1 1 101 4 3 4"])

    def test_example_of_000(self):
        orders = (
            "buy 5 at 1612",
            "buy 5 at 1611",
            "buy 5 at 1610",
            "sell 10 at 1607",
            "sell 6 at 1608",
            "sell 3 at 1609",
        )
        text = self.OPEN.replace("reference 100", "reference 1600")
        contract = state_after(text + self.orders(*orders)).contracts[1]
        volumes = {price: volume for price, (_, _, volume) in self.table(contract).items()}
        self.assertEqual(volumes, {1607: 10, 1608: 15, 1609: 15, 1610: 15, 1611: 10, 1612: 5})
        self.assertEqual([model.surplus(contract, price) for price in (1608, 1609, 1610)], [1, 4, 4])
        trades = ["T 1 1 1608 5 1 4", "T 2 1 1608 5 2 4", "T 3 1 1608 5 3 5"]
        self.assertEqual(self.match(*orders, text=text), ["0 0 15 0", *trades])

    # --- The four steps ---

    def test_nearest_to_the_last_price_not_by_001(self):
        # At 101 and at 105 one lot trades and one buy is left over. By source document 001 it would be 105.
        self.assertEqual(self.price("buy 2 at 105", "sell 1 at 101"), 101)
        self.assertEqual(self.match("buy 2 at 105", "sell 1 at 101"), ["0 0 1 0", "T 1 1 101 1 1 2"])
        # And with one sell left over it would be 101.
        self.assertEqual(self.price("buy 1 at 105", "sell 2 at 101", last=110), 105)

    def test_volume_comes_before_surplus(self):
        # At 99 volume 4 of 10 buys, at 101 volume 3 with 1 sell left over.
        self.assertEqual(self.price("buy 7 at 99", "buy 3 at 101", "sell 4 at 99", last=101), 99)

    def test_surplus_comes_before_nearness(self):
        # Volume 2 at both; nothing is left over at 99, one sell at 101.
        self.assertEqual(self.price("sell 2 at 99", "sell 1 at 101", "buy 2 at 101", last=101), 99)

    def test_surplus_whichever_its_sign(self):
        # Volume 4 at both; at 99 buys are left over, at 101 sells: 2 and 1, 1 and 2, 2 and 2.
        def price(buys, sells, last):
            return self.price("sell 4 at 99", f"buy {buys} at 99", f"sell {sells} at 101", "buy 4 at 101", last=last)

        self.assertEqual((price(2, 1, last=99), price(2, 1, last=101)), (101, 101))
        self.assertEqual((price(1, 2, last=99), price(1, 2, last=101)), (99, 99))
        self.assertEqual((price(2, 2, last=99), price(2, 2, last=101)), (99, 101))

    def test_the_higher_where_both_are_as_near(self):
        self.assertEqual(self.price("sell 1 at 98", "buy 1 at 102"), 102)
        self.assertEqual(self.price("sell 1 at 98", "buy 1 at 102", last=99), 98)
        self.assertEqual(self.price("sell 1 at 98", "buy 1 at 102", last=101), 102)

    def test_four_prices_tie(self):
        # Volume 4 and 2 left over at each of them: buys at 97 and 99, sells at 101 and 103.
        orders = ("sell 4 at 97", "buy 2 at 99", "sell 2 at 101", "buy 4 at 103")
        prices = {90: 97, 97: 97, 98: 99, 99: 99, 100: 101, 101: 101, 102: 103, 110: 103}
        self.assertEqual({last: self.price(*orders, last=last) for last in prices}, prices)

    def test_only_resting_prices(self):
        # 100 itself, the last price, is nobody's price.
        self.assertEqual(self.price("sell 1 at 97", "buy 1 at 102"), 102)

    def test_no_volume(self):
        for orders in (
            (),
            ("buy 1 at 99",),
            ("sell 1 at 99",),
            ("buy 1 at 99", "sell 1 at 101"),
        ):
            self.assertIsNone(self.price(*orders))
            self.assertEqual(self.match(*orders), ["0 0 0 0"])
            before, after = (state_after(self.OPEN + self.orders(*orders) + end) for end in ("", self.END))
            before.contracts[1].state = "continuous"
            self.assertEqual(after, before)

    # --- In auction ---

    def test_orders_rest_without_matching(self):
        text = self.OPEN + self.orders("sell 5 at 95", "buy 5 at 105", "buy 2 at 106", "buy 1 at 105", "sell 1 at 94")
        self.assertEqual(answers(text)[1:], ["0 1 0 5", "0 2 0 5", "0 3 0 2", "0 4 0 1", "0 5 0 1"])
        self.assertEqual(lines_of("T", text), [])
        queues = state_after(text).contracts[1].queues
        self.assertEqual([order.number for order in queues["buy"]], [3, 2, 4])
        self.assertEqual([order.number for order in queues["sell"]], [5, 1])

    def test_6_for_every_other_insert(self):
        for price_condition, time_condition in product(dayfile.PRICE_CONDITIONS, dayfile.TIME_CONDITIONS):
            if (price_condition, time_condition) == ("limit", "day"):
                continue
            price = "100" if price_condition == "limit" else ""
            order = self.OPEN + "insert 1 contract 1 buy open {} {} lots {} {}"
            self.assertEqual(last_code(order.format(price_condition, price, 1, time_condition)), 6)
            # After 5 and before 7.
            self.assertEqual(last_code(order.format(price_condition, price, 0, time_condition)), 5)
            self.assertEqual(last_code(order.format(price_condition, 5_000, 1, time_condition)), 6)

    def test_7_8_and_9_as_ever(self):
        tight = self.OPEN.replace("limit 1000", "limit 20").replace("account 1,000,000\n", "account 1,500\n")
        order = tight + "insert 1 contract 1 buy open limit {} lots {} day"
        self.assertEqual(last_code(order.format(191, 1)), 7)
        self.assertEqual(last_code(order.format(190, 21)), 8)
        self.assertEqual(last_code(order.format(190, 16)), 9)
        self.assertEqual(last_code(order.format(190, 15)), 0)
        # Orders that rest in auction are charged, and only those of the larger side.
        charged = order.format(190, 10) + "\n insert 1 contract 1 sell open limit 10 lots 10 day\n"
        self.assertEqual(codes(charged + "withdraw 1 501\n withdraw 1 500")[-3:], [0, 9, 0])

    def test_10_before_13(self):
        full = state_after(self.OPEN + self.orders(*["buy 1 at 100"] * 64))
        full.next_order_number = 1_000_000
        order = dayfile.insert(1, 1, "buy", "open", "limit", 100, 1, "day")
        self.assertEqual(model.answer(full, order).code, 10)

    def test_13_whenever_the_own_side_has_64(self):
        full = self.OPEN + self.orders(*["buy 1 at 100"] * 64, "sell 5 at 100")
        self.assertEqual(last_answer(full), "0 65 0 5")
        for order in ("buy 1 at 100", "buy 5 at 101", "buy 6 at 101", "buy 1 at 90"):
            self.assertEqual(last_answer(full + self.orders(order)), "13 0 0 0")
        # In continuous an order that is filled at once passes.
        after = full + self.END + self.orders(*["buy 1 at 99"] * 5, "sell 1 at 101", "buy 1 at 101")
        self.assertEqual(answers(after)[-8:], ["0 0 5 0", *[f"0 {66 + i} 0 1" for i in range(6)], "0 72 1 0"])

    def test_cancel_and_pull(self):
        for operator in ("", "operator"):
            text = self.OPEN + self.orders("buy 5 at 105", "sell 3 at 95", "buy 2 at 100", "sell 4 at 101")
            text += f"""
                cancel 1 contract 1 order 1 {operator}
                cancel 1 contract 1 order 1 {operator}
                cancel 1 contract 1 order 2 {operator}
                pull 2 contract 1 {operator}
                pull 2 contract 1 {operator}
                """
            self.assertEqual(answers(text)[-5:], ["0 1 0 5", "14 0 0 0", "15 0 0 0", "0 0 0 7", "0 0 0 0"])

    # --- The match ---

    def test_best_buy_with_best_sell_by_price_and_number(self):
        # At 100 all 7 buys and all 5 sells take part. Order 4 keeps 2 lots and its place.
        orders = ("sell 3 at 100", "sell 2 at 99", "buy 4 at 101", "buy 3 at 100", "buy 1 at 100")
        self.assertEqual(
            self.match(*orders), ["0 0 5 0", "T 1 1 100 2 3 2", "T 2 1 100 2 3 1", "T 3 1 100 1 4 1"]
        )
        contract = state_after(self.OPEN + self.orders(*orders) + self.END).contracts[1]
        self.assertEqual((contract.state, contract.queues["sell"]), ("continuous", []))
        self.assertEqual([(order.number, order.lots) for order in contract.queues["buy"]], [(4, 2), (5, 1)])

    def test_a_better_order_may_be_left(self):
        # At 101, nearer to 100, one of the two buys at 105 trades.
        contract = state_after(self.OPEN + self.orders("buy 2 at 105", "sell 1 at 101") + self.END).contracts[1]
        self.assertEqual([(order.price, order.lots) for order in contract.queues["buy"]], [(105, 1)])

    def test_last_price_becomes_the_auction_s(self):
        # 102. A sell at 99 then meets the buy at 101 at 101, the middle of 101, 99 and 102; from 100 it would be 100.
        text = self.OPEN + self.orders(*self.LARGEST_VOLUME) + self.END + self.orders("sell 1 at 99")
        self.assertEqual(lines_of("T", text)[-1], "T 3 1 101 1 2 7")

    def test_methods_play_no_part(self):
        for method in (0, 1, 2):
            text = self.OPEN.replace("rate 1000", f"rate 1000 method {method}")
            self.assertEqual(
                self.match(*self.LARGEST_VOLUME, text=text), ["0 0 4 0", "T 1 1 102 3 3 4", "T 2 1 102 1 3 5"]
            )

    def test_another_contract_trades_meanwhile(self):
        # Contract 2 trades before the auction of contract 1 ends, and after it.
        text = self.OPEN.replace("account", CONTRACT + "account", 1) + "state 2 continuous\n"
        crossed = self.orders("sell 2 at 100", "buy 2 at 100")
        trade = self.orders("sell 1 at 101", "buy 1 at 101", contract=2)
        self.assertEqual(
            output(text + crossed + trade + self.END + trade)[2:],
            [
                "C 3 0 1 0 2",
                "C 4 0 2 0 2",
                "C 5 0 3 0 1",
                "C 6 0 4 1 0",
                "T 1 2 101 1 4 3",
                "C 7 0 0 2 0",
                "T 2 1 100 2 2 1",
                "C 8 0 5 0 1",
                "C 9 0 6 1 0",
                "T 3 2 101 1 6 5",
            ],
        )

    def test_auctions_on_two_days(self):
        # The first day trades 4 at 102 in the auction and 1 at 105 after it: 513 / 5 is 102.6, so the reference becomes
        # 102 and the last price 105, to which 106 is nearer than 102.
        first_day = self.OPEN + self.orders(*self.LARGEST_VOLUME) + self.END
        first_day += "pull 1 contract 1\n pull 2 contract 1\n" + self.orders("sell 1 at 105", "buy 1 at 105")
        second_day = "state 1 closed\n settle\n state 1 auction\n" + self.orders("sell 1 at 102", "buy 1 at 106")
        lines = output(first_day + second_day + self.END)
        self.assertEqual([line for line in lines if line.startswith("P")], ["P 1 102"])
        self.assertEqual(lines[-2:], ["C 18 0 0 1 0", "T 1 1 106 1 2 1"])

    def test_own_orders_and_closes(self):
        # Account 1 holds 5 long and 5 short from the day before. The sell of 2 at 99 and the buy of 2 at 101 trade at
        # 101, the settlement price: each lot held gains or loses 1 x 10, closed ones and those kept. The charge is 101.
        held = OPEN_DAY + """
            insert 1 contract 1 sell open limit 100 lots 5 day
            insert 1 contract 1 buy open limit 100 lots 5 day
            state 1 closed
            settle
            state 1 auction
            """
        balances = {
            ("open", "open"): "B 1 0 0 10000 707",  # 7 long, 7 short
            ("open", "close"): "B 1 20 -20 10000 505",  # 2 long closed; 3 long, 5 short and 2 opened are kept
            ("close", "open"): "B 1 -20 20 10000 505",  # 2 short closed; 5 long, 3 short and 2 opened are kept
            ("close", "close"): "B 1 0 0 10000 303",  # 2 of each closed
        }
        for (buy, sell), balance in balances.items():
            text = held + f"""
                insert 1 contract 1 sell {sell} limit 99 lots 2 day
                insert 1 contract 1 buy {buy} limit 101 lots 2 day
                state 1 continuous
                state 1 closed
                settle
                """
            self.assertEqual(lines_of("T", text)[-1], "T 1 1 101 2 2 1")
            self.assertEqual(lines_of("B", text)[-2], balance)
        # Resting closes are covered, as ever.
        closes = held + """
            insert 1 contract 1 sell close limit 99 lots 3 day
            insert 1 contract 1 sell close limit 110 lots 3 day
            insert 1 contract 1 sell close limit 110 lots 2 day
            """
        self.assertEqual(codes(closes)[-3:], [0, 8, 0])

    def near_full_day(self, trades):
        """Contract 1 with a crossed book in auction that needs 3 trades, while contract 2 has made so many."""
        text = self.OPEN.replace("account", CONTRACT.replace("limit 1000", "limit 100000") + "account", 1)
        text += "state 2 continuous\n" + self.orders("sell 1000 at 101", "sell 100 at 101", contract=2)
        text += f"repeat {trades}\n insert 1 contract 2 buy open limit 101 lots 1 immediate\n end\n"
        state = state_after(text + self.orders("sell 1 at 99", "sell 1 at 99", "sell 1 at 99", "buy 9 at 101"))
        self.assertEqual(len(state.trades), trades)
        self.first_sell = state.contracts[1].queues["sell"][0].number
        return state

    def test_12_if_the_match_needs_more_room(self):
        state = self.near_full_day(1_022)
        before = copy.deepcopy(state)
        self.assertEqual(model.answer(state, dayfile.state(1, "closed")), model.Answer(17))
        self.assertEqual(model.answer(state, dayfile.state(1, "continuous")), model.Answer(12))
        self.assertEqual(state, before)
        # With one sell less the match has just enough room.
        self.assertEqual(model.answer(state, dayfile.cancel(2, 1, self.first_sell)).code, 0)
        given = model.answer(state, dayfile.state(1, "continuous"))
        self.assertEqual((given.code, given.lots_traded, len(state.trades)), (0, 2, 1_024))
        self.assertTrue(model.well_formed(state))

    def test_12_on_a_full_day(self):
        state = self.near_full_day(1_024)
        # Orders still rest in auction, crossed or not.
        self.assertEqual(model.answer(state, dayfile.insert(1, 1, "buy", "open", "limit", 105, 1, "day")).code, 0)
        self.assertEqual(model.answer(state, dayfile.state(1, "continuous")).code, 12)
        self.assertEqual(model.answer(state, dayfile.settle()).code, 18)
        # Without volume the state changes.
        self.assertEqual(model.answer(state, dayfile.pull(2, 1)).lots_rested_or_removed, 3)
        self.assertEqual(model.answer(state, dayfile.state(1, "continuous")), model.Answer(0))

    def test_every_small_book(self):
        """The match trades the largest volume and leaves the book uncrossed, so trading on while it is crossed would
        pair the same orders."""
        rng = random.Random(4)
        for _ in range(2_000):
            sides = {
                side: [
                    model.Resting(number, 1, "open", rng.randint(1, 7), rng.randint(1, 4), stamp=number)
                    for number in rng.sample(range(100), rng.randint(0, 5))
                ]
                for side in dayfile.SIDES
            }
            contract = model.Contract(1, 1, 1, 1, 1, 1, last_price=rng.randint(1, 7), state="auction")
            contract.queues = {side: model.sort_queue(side, queue) for side, queue in sides.items()}
            pairs = model.auction_pairs(contract)
            volumes = [model.volume(contract, price) for price in range(1, 8)]
            self.assertEqual(sum(lots for _, _, lots in pairs), max(volumes))
            self.assertEqual([(buy.number, sell.number, lots) for buy, sell, lots in pairs], while_crossed(contract))
            price = model.auction_price(contract)
            self.assertTrue(all(sell.price <= price <= buy.price for buy, sell, _ in pairs))


def while_crossed(contract):
    """Best buy with best sell, each the smaller remainder, as long as the book is crossed."""
    buys, sells = ([[order.price, order.number, order.lots] for order in queue] for queue in contract.queues.values())
    pairs = []
    while buys and sells and buys[0][0] >= sells[0][0]:
        lots = min(buys[0][2], sells[0][2])
        pairs.append((buys[0][1], sells[0][1], lots))
        for queue in (buys, sells):
            queue[0][2] -= lots
            if queue[0][2] == 0:
                queue.pop(0)
    return pairs


class SettlementPrices(unittest.TestCase):
    """ "the day's trades weighted by lots, rounded down, then down to a tick"; without a trade the quotes."""

    END = "state 1 closed\n settle\n"

    def price(self, text):
        return int(lines_of("P", text + self.END)[-1].split()[2])

    def test_down_to_a_tick(self):
        # 1 at 95 and 2 at 105, tick 5: 305 / 3 is 101.67, rounded down 101, down to a tick 100.
        text = OPEN_DAY.replace("tick 1", "tick 5") + """
            insert 1 contract 1 sell open limit 95 lots 1 day
            insert 2 contract 1 buy open limit 95 lots 1 day
            insert 1 contract 1 sell open limit 105 lots 2 day
            insert 2 contract 1 buy open limit 105 lots 2 day
            """
        self.assertEqual(self.price(text), 100)

    def test_quotes(self):
        def quoted(*orders):
            return OPEN_DAY + "".join(f"insert 1 contract 1 {order} lots 1 day\n" for order in orders)

        self.assertEqual(self.price(quoted("buy open limit 98", "sell open limit 103")), 100)
        self.assertEqual(self.price(quoted("buy open limit 102", "sell open limit 103")), 102)
        self.assertEqual(self.price(quoted("buy open limit 95", "sell open limit 97")), 97)
        self.assertEqual(self.price(quoted("buy open limit 105")), 100)
        self.assertEqual(self.price(quoted("sell open limit 95")), 100)
        self.assertEqual(self.price(OPEN_DAY), 100)

    def test_last_price_plays_no_part(self):
        # The first day trades 9 at 99 and then 1 at 105: it settles at 99, and 105 is the last price.
        first_day = OPEN_DAY + """
            insert 1 contract 1 sell open limit 99 lots 9 day
            insert 2 contract 1 buy open limit 99 lots 9 day
            insert 1 contract 1 sell open limit 105 lots 1 day
            insert 2 contract 1 buy open limit 105 lots 1 day
            """
        self.assertEqual(self.price(first_day), 99)
        self.assertEqual(self.price(first_day + self.END), 99)

    def test_contract_by_contract(self):
        text = CONTRACT + CONTRACT + TWO_ACCOUNTS + """
            state 1 continuous
            state 2 continuous
            insert 1 contract 1 buy open limit 105 lots 1 day
            insert 2 contract 1 sell open limit 105 lots 1 day
            insert 1 contract 2 buy open limit 102 lots 1 day
            insert 1 contract 2 sell open limit 104 lots 1 day
            state 1 closed
            state 2 closed
            settle
            """
        self.assertEqual(lines_of("P", text), ["P 1 105", "P 2 102"])


class Article32(unittest.TestCase):
    """Profit: days worked out by hand. The multiplier is 10."""

    END = "state 1 closed\n settle\n"

    # Account 1 is 5 long and account 2 is 5 short, all opened at 102, which is the settlement price.
    FIRST_DAY = OPEN_DAY + """
        insert 2 contract 1 sell open limit 102 lots 5 day
        insert 1 contract 1 buy open limit 102 lots 5 day
        """ + END + "state 1 continuous\n"

    def balances(self, text):
        return lines_of("B", text)[-2:]

    def test_opening_day(self):
        # Charge 10 x 102 x 1,000 / 10,000 = 102 for each of 5 lots.
        self.assertEqual(lines_of("B", self.FIRST_DAY), ["B 1 0 0 10000 510", "B 2 0 0 10000 510"])

    def test_start_of_day_lots_are_closed_first(self):
        # 3 more lots are opened at 104, then 6 are closed at 103.
        # Price: (3 x 104 + 6 x 103) / 9 = 930 / 9, rounded down 103; charge 103.
        # Account 1: closes 5 of the start at 103 - 102 = 1 and 1 of today at 103 - 104 = -1: 4 x 10 = 40.
        #   It holds 2 of today: 2 x (103 - 104) x 10 = -20.
        # Account 2 is the other way round.
        text = self.FIRST_DAY + """
            insert 2 contract 1 sell open limit 104 lots 3 day
            insert 1 contract 1 buy open limit 104 lots 3 day
            insert 1 contract 1 sell close limit 103 lots 6 day
            insert 2 contract 1 buy close limit 103 lots 6 day
            """ + self.END
        self.assertEqual(lines_of("P", text)[-1], "P 1 103")
        self.assertEqual(self.balances(text), ["B 1 40 -20 10020 206", "B 2 -40 20 9980 206"])

    def test_lots_opened_today_count_from_their_own_price(self):
        # Opened at 104, closed at 103, the reference is 100: -1 x 2 x 10, not +3 x 2 x 10.
        text = OPEN_DAY + """
            insert 2 contract 1 sell open limit 104 lots 2 day
            insert 1 contract 1 buy open limit 104 lots 2 day
            insert 1 contract 1 sell close limit 103 lots 2 day
            insert 2 contract 1 buy close limit 103 lots 2 day
            """ + self.END
        self.assertEqual(self.balances(text), ["B 1 -20 0 9980 0", "B 2 20 0 10020 0"])

    def test_today_s_lots_are_closed_in_trade_order(self):
        # Opened 2 at 101, then 2 at 105; 3 closed at 103: 2 x (103 - 101) + 1 x (103 - 105) = 2, times 10.
        # Price: (2 x 101 + 2 x 105 + 3 x 103) / 7 = 721 / 7 = 103. Held: 1 x (103 - 105) x 10 = -20.
        text = OPEN_DAY + """
            insert 2 contract 1 sell open limit 101 lots 2 day
            insert 1 contract 1 buy open limit 101 lots 2 day
            insert 2 contract 1 sell open limit 105 lots 2 day
            insert 1 contract 1 buy open limit 105 lots 2 day
            insert 1 contract 1 sell close limit 103 lots 3 day
            insert 2 contract 1 buy close limit 103 lots 3 day
            """ + self.END
        self.assertEqual(self.balances(text), ["B 1 20 -20 10000 103", "B 2 -20 20 10000 103"])

    def test_long_and_short_of_one_account_are_not_netted(self):
        # Account 1 is 5 long from the day before. It sells 5 open at 106 to account 2, who buys to close.
        # Price 106, charge 106. Account 1: long 5 x (106 - 102) x 10 = 200 held, short 5 x (106 - 106) = 0; margin for
        # one side of 5. Account 2: closes 5 short at 106: 5 x (102 - 106) x 10 = -200.
        text = self.FIRST_DAY + """
            insert 1 contract 1 sell open limit 106 lots 5 day
            insert 2 contract 1 buy close limit 106 lots 5 day
            """ + self.END
        self.assertEqual(self.balances(text), ["B 1 0 200 10200 530", "B 2 -200 0 9800 0"])

    def test_held_lots_count_from_the_reference(self):
        # Quotes at 104 and 106 without a trade move the price from 102 to 104: 5 x 2 x 10 for the long.
        text = self.FIRST_DAY + """
            insert 1 contract 1 buy open limit 104 lots 1 day
            insert 1 contract 1 sell open limit 106 lots 1 day
            """ + self.END
        self.assertEqual(self.balances(text), ["B 1 0 100 10100 520", "B 2 0 -100 9900 520"])

    def test_own_order_closes_what_it_opened_before(self):
        # Account 1 holds 5 long at 102. Its resting close of 5 at 104 meets its own open of 5: the close uses the lots
        # of the start, 5 x 2 x 10 = 100, and 5 opened at 104 are held at the price of 104.
        text = self.FIRST_DAY + """
            insert 1 contract 1 sell close limit 104 lots 5 day
            insert 1 contract 1 buy open limit 104 lots 5 day
            """ + self.END
        self.assertEqual(self.balances(text), ["B 1 100 0 10100 520", "B 2 0 -100 9900 520"])

    def test_each_contract_at_its_own_multiplier(self):
        # Contract 1 (times 10): opened at 101, settles at (101 + 105) / 2 = 103: 1 x 2 x 10 held by account 1.
        # Contract 2 (times 7): account 1 sells at 104 and settles at 104: 0. Then closes at 108: (104 - 108) x 7 = -28.
        # Price of contract 2: (104 + 108) / 2 = 106; account 2 holds nothing there.
        # Account 1 also took both sides of the trade at 105: long 103 - 105 = -2, short 105 - 103 = 2, together 0.
        # Charges: contract 1: 103, for account 1 on 2 long, which are more than 1 short; in contract 2 nothing is held.
        text = CONTRACT + CONTRACT.replace("multiplier 10", "multiplier 7") + TWO_ACCOUNTS + """
            state 1 continuous
            state 2 continuous
            insert 2 contract 1 sell open limit 101 lots 1 day
            insert 1 contract 1 buy open limit 101 lots 1 day
            insert 1 contract 1 sell open limit 105 lots 1 day
            insert 1 contract 1 buy open limit 105 lots 1 day
            insert 1 contract 2 sell open limit 104 lots 1 day
            insert 2 contract 2 buy open limit 104 lots 1 day
            insert 2 contract 2 sell close limit 108 lots 1 day
            insert 1 contract 2 buy close limit 108 lots 1 day
            state 1 closed
            state 2 closed
            settle
            """
        self.assertEqual(
            output(text)[-4:], ["P 1 103", "P 2 106", "B 1 -28 20 9992 206", "B 2 28 -20 10008 103"]
        )

    def test_balance_may_fall_below_zero(self):
        # 1 lot at rate 1 is charged 1 x 10 x 100 / 10,000, rounded up 1. Bought at 110, it settles at 93 (1 at 110,
        # 2 at 85): (110 + 170) / 3 = 93.3. The loss of 17 x 10 is more than the balance of 100.
        text = CONTRACT.replace("rate 1000", "rate 1").replace("band 10", "band 20") + """
            account 100
            account 10,000
            state 1 continuous
            insert 2 contract 1 sell open limit 110 lots 1 day
            insert 1 contract 1 buy open limit 110 lots 1 day
            insert 2 contract 1 sell open limit 85 lots 2 day
            insert 2 contract 1 buy open limit 85 lots 2 day
            """ + self.END
        self.assertEqual(self.balances(text)[0], "B 1 0 -170 -70 1")
        # More is charged than the balance: no withdrawal, no open, but the close is accepted.
        after = text + """
            state 1 continuous
            withdraw 1 1
            insert 1 contract 1 buy open limit 93 lots 1 day
            insert 1 contract 1 sell close limit 93 lots 1 day
            """
        self.assertEqual(codes(after)[-3:], [9, 9, 0])


class WellFormed(unittest.TestCase):
    """Each clause, broken on its own, makes every answer 21."""

    def setUp(self):
        # Account 1 holds 5 long from the start of the day; 2 of them rest to be closed, and 1 buy rests to open.
        self.state = state_after(
            Article32.FIRST_DAY
            + """
            insert 1 contract 1 sell close limit 104 lots 2 day
            insert 1 contract 1 buy open limit 100 lots 1 day
            insert 2 contract 1 buy open limit 99 lots 1 day
            insert 2 contract 1 sell open limit 103 lots 1 day
            insert 1 contract 1 buy open limit 103 lots 1 immediate
            """
        )
        self.contract = self.state.contracts[1]
        self.buys = self.contract.queues["buy"]
        self.sells = self.contract.queues["sell"]

    def assert_21(self):
        before = copy.deepcopy(self.state)
        for command in (dayfile.settle(), dayfile.Command(0), dayfile.deposit(1, 1)):
            self.assertEqual(model.answer(self.state, command), model.Answer(21))
        self.assertEqual(self.state, before)

    def replace_trade(self, **fields):
        self.state.trades[0] = self.state.trades[0]._replace(**fields)

    def test_the_state_itself(self):
        self.assertTrue(model.well_formed(self.state))

    def test_next_order_number(self):
        self.state.next_order_number = 1_000_001
        self.assert_21()

    def test_next_stamp(self):
        for next_stamp in (0, 1_000_001):
            self.state.next_stamp = next_stamp
            self.assert_21()
        self.state.next_stamp = 1_000_000
        self.assertTrue(model.well_formed(self.state))

    def test_settlements(self):
        self.state.settlements = 251
        self.assert_21()

    def test_parameters(self):
        self.contract.rate = 0
        self.assert_21()

    def test_method(self):
        self.contract.method = 2
        self.assertTrue(model.well_formed(self.state))
        self.contract.method = 3
        self.assert_21()

    def test_last_price(self):
        self.contract.last_price = 0
        self.assert_21()

    def test_last_price_may_be_outside_the_band(self):
        self.contract.last_price = bounds.TOP_PRICE
        self.assertTrue(model.well_formed(self.state))

    def test_room(self):
        self.state.trades = self.state.trades * 1_025
        self.assert_21()

    def test_queue_order(self):
        self.buys.reverse()
        self.assert_21()

    def test_crossed(self):
        self.buys[0].price = 104
        self.assert_21()

    def test_crossed_in_auction_alone(self):
        self.buys[0].price = 104
        for state in dayfile.STATES:
            self.contract.state = state
            self.assertEqual(model.well_formed(self.state), state == "auction")

    def test_contract_state(self):
        self.contract.state = "another"
        self.assert_21()

    def test_queue_order_in_auction(self):
        self.contract.state = "auction"
        self.buys.reverse()
        self.assert_21()

    def test_resting_lots(self):
        self.buys[0].lots = 0
        self.assert_21()

    def test_resting_account(self):
        self.buys[0].account = 3
        self.assert_21()

    def test_resting_price(self):
        self.buys[1].price = 1
        self.assert_21()

    def test_resting_number_below_the_next(self):
        self.buys[0].number = self.state.next_order_number
        self.assert_21()

    def test_resting_number_used_once(self):
        self.sells[0].number = self.buys[0].number
        self.assert_21()

    def test_resting_stamp_below_the_next(self):
        for stamp in (0, self.state.next_stamp):
            self.buys[0].stamp = stamp
            self.assert_21()

    def test_resting_stamp_used_once(self):
        self.sells[0].stamp = self.buys[0].stamp
        self.assert_21()

    def test_sorted_by_stamp(self):
        self.buys[1].price = self.buys[0].price
        self.buys[0].number, self.buys[1].number = self.buys[1].number, self.buys[0].number
        self.assertTrue(model.well_formed(self.state))
        self.buys[0].stamp, self.buys[1].stamp = self.buys[1].stamp, self.buys[0].stamp
        self.assert_21()

    def test_quotes(self):
        self.buys[0].quote = True
        self.assert_21()
        self.state.makers = frozenset({2})
        self.assert_21()
        self.state.makers = frozenset({1})
        self.assertTrue(model.well_formed(self.state))
        # A close, a second one of the account on that side, and a mark that is none.
        self.sells[0].quote = True
        self.assert_21()
        self.sells[0].quote = False
        self.buys[1].quote = True
        self.assert_21()
        self.state.makers = frozenset({1, 2})
        self.assertTrue(model.well_formed(self.state))
        self.buys[1].account = 1
        self.assert_21()
        self.buys[1].quote = None
        self.assert_21()

    def test_makers_mark(self):
        self.state.marked_otherwise = frozenset({2})
        self.assert_21()

    def test_trade_contract(self):
        self.replace_trade(contract=2)
        self.assert_21()

    def test_trade_numbers_differ(self):
        self.replace_trade(buy_order=self.state.trades[0].sell_order)
        self.assert_21()

    def test_trade_price(self):
        self.replace_trade(price=1)
        self.assert_21()

    def test_trade_lots(self):
        self.replace_trade(lots=0)
        self.assert_21()

    def test_trade_effect(self):
        self.replace_trade(buyer=model.Leg(1, "buy", "neither"))
        self.assert_21()

    def test_replay_below_zero(self):
        self.replace_trade(seller=model.Leg(2, "sell", "close"))
        self.state.holdings[2, 1, "short"] -= 1
        self.state.holdings[2, 1, "long"] -= 1
        self.assert_21()

    def test_replay_gives_the_holdings(self):
        self.state.holdings[2, 1, "long"] += 1
        self.assert_21()

    def test_limit_at_the_start(self):
        # 5 lots at the start, 2 now.
        self.state = state_after(
            Article32.FIRST_DAY
            + """
            insert 1 contract 1 sell close limit 102 lots 3 day
            insert 2 contract 1 buy close limit 102 lots 3 day
            """
        )
        self.state.contracts[1].limit = 5
        self.assertTrue(model.well_formed(self.state))
        self.state.contracts[1].limit = 4
        self.assert_21()

    def test_limit_now(self):
        # Account 1 holds 6 lots long and 1 rests to open.
        self.contract.limit = 7
        self.assertTrue(model.well_formed(self.state))
        self.contract.limit = 6
        self.assert_21()

    def test_resting_closes_are_covered(self):
        self.sells[0].lots = 7
        self.assert_21()

    def test_balance(self):
        self.state.balances[1] = -(10**18 + 3 * 10**15)
        self.assertTrue(model.well_formed(self.state))
        self.state.balances[1] -= 1
        self.assert_21()


class DayFiles(unittest.TestCase):
    """Sound and broken files."""

    def test_no_commands_prints_nothing(self):
        self.assertEqual(output(CONTRACT + TWO_ACCOUNTS), [])

    def test_sound_at_the_ends_of_the_ranges(self):
        for contract in (
            "contract multiplier 1000 tick 1000 reference 1000000 band 1000000 limit 100000 rate 10000\n",
            "contract multiplier 1 tick 1 reference 1 band 1 limit 1 rate 1\n",
            "contract multiplier 1 tick 3 reference 3 band 999999 limit 1 rate 1\n",
        ):
            text = contract * 4 + f"account {10**18}\n" * 32 + "repeat 2000\n settle\n end"
            self.assertEqual(output(text)[-1], "C 2000 18 0 0 0")

    def test_bad_command_fields_do_not_break_a_file(self):
        self.assertEqual(codes(CONTRACT + TWO_ACCOUNTS + "raw " + "ff" * 24), [1])

    def test_each_way_to_break_a_file(self):
        day = dayfile.read(daytext.pack(OPEN_DAY))
        for name, file in broken.broken_files(day).items():
            with self.subTest(name):
                self.assertEqual(model.run(file), b"X 20\n")

    def test_faults_are_told_apart(self):
        files = broken.broken_files(dayfile.read(daytext.pack(OPEN_DAY)))
        for name, fault in (
            ("tick-0", "contract 1: tick not 1 to 1,000"),
            ("tick-1001", "contract 1: tick not 1 to 1,000"),
            ("reference-off-tick", "contract 1: reference off tick"),
            ("band-off-tick", "contract 1: band off tick"),
            ("method-256", "contract 1: method above 2"),
            ("balance-bit-62", "account 1: balance not 0 to 10^18"),
            ("accounts-33", "accounts not 1 to 32"),
            ("commands-2001", "commands not 0 to 2,000"),
            ("one-byte-more", "bytes after the last command"),
            ("cut-in-the-accounts", "cut in the accounts"),
            ("count-of-commands-right-in-32-bits", "cut in the commands"),
        ):
            with self.assertRaises(dayfile.Broken) as caught:
                dayfile.read(files[name])
            self.assertEqual(str(caught.exception), fault)


if __name__ == "__main__":
    unittest.main()
