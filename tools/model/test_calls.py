"""The calls on a state with its areas, by cases worked out by hand; and the form of the vectors."""

import ast
import random
import struct
import sys
import unittest
from collections import Counter
from pathlib import Path

sys.path.insert(0, str(Path(__file__).resolve().parents[1]))

import baskets
import daylines
import delete_tests
import generate
import library_cases
import make_vectors
import memory
import mending
import model
import question
import statements
import tables
import vectors
from casebook import *
from cases_mending import MALFORMED, SOUND, head, records
from cases_statement import lots, postings


class InMemory(unittest.TestCase):
    """What a command writes, and what it leaves."""

    def book(self):
        state = rest(exchange(2), "buy", 1, (95, 2, 1), (90, 3, 2, 2), (85, 4, 3))
        return tempting(rest(state, "buy", 2, (95, 2, 4)))

    def test_what_is_in_use_is_written_back_as_it_was(self):
        state = traded(self.book(), 1, 100, 2, 1, 2)
        again = state.copy()
        memory.put(again, memory.in_use(state))
        self.assertEqual(again, state)

    def test_a_cancel_closes_the_gap_and_clears_the_place(self):
        state = self.book()
        before = dict(state.orders["buy"].contents)
        given = memory.execute(state, dayfile.cancel(1, 1, 1))
        self.assertEqual((given.code, given.order_number, given.lots_rested_or_removed), (0, 1, 2))
        after = state.orders["buy"].contents
        self.assertEqual([after[place] for place in range(3)], [before[1], before[2], memory.NO_ORDER])
        self.assertEqual({place: after[place] for place in after if place > 2}, {k: before[k] for k in before if k > 2})
        self.assertEqual(state.order_counts["buy"][:2], [2, 1])

    def test_an_insert_writes_the_place_behind_the_last(self):
        state = self.book()
        memory.execute(state, insert(2, 1, "buy", 90, 7))
        queue = [state.orders["buy"].contents[place] for place in range(4)]
        self.assertEqual([(order.price, order.number) for order in queue], [(95, 1), (90, 2), (90, 100), (85, 3)])

    def test_a_change_moves_its_order_and_leaves_the_room(self):
        state = rest(exchange(2), "buy", 1, (95, 2, 1), (95, 3, 2, 2), (90, 4, 3), (90, 5, 4, 2))
        state = tempting(state)
        before = state.copy()
        given = memory.execute(state, change(1, 1, 1, 7, 90))
        self.assertEqual((given.code, given.order_number, given.lots_traded, given.lots_rested_or_removed), (0, 1, 0, 7))
        after = state.orders["buy"].contents
        old = before.orders["buy"].contents
        self.assertEqual([after[place] for place in range(4)], [old[1], old[2], old[3], Order(90, 1, 0, 7, OPEN, 700, 0)])
        self.assertEqual({place: after[place] for place in after if place > 3}, {k: old[k] for k in old if k > 3})
        self.assertEqual((state.next, state.next_stamp), (100, 701))
        # Fewer lots alter the lots of that order and nothing else.
        memory.execute(before, change(2, 1, 2, 1, 95))
        before.orders["buy"].contents[1] = before.orders["buy"].contents[1]._replace(lots=3)
        self.assertEqual(before.orders["buy"].contents, old)
        self.assertEqual((before.next, before.next_stamp), (100, 700))

    def test_a_place_between_the_steps_of_a_quote_is_cleared(self):
        """Buys of 1 lot at 100 and 95; 2 lots quoted at 90 and 95: the buy stands third, then the sell fills the others."""
        state = rest(makers(exchange(), 1), "buy", 1, (100, 1, 1, 2), (95, 1, 2, 2))
        state = tempting(state)
        room = dict(state.orders["buy"].contents)
        self.assertNotEqual(room[2], memory.NO_ORDER)
        given = memory.execute(state, quote(1, 1, 90, 95, 2))
        self.assertEqual((given.code, given.order_number, given.lots_traded, given.lots_rested_or_removed), (0, 100, 2, 2))
        after = state.orders["buy"].contents
        rester = Order(90, 100, 0, 2, OPEN, 700, 1)
        self.assertEqual([after[place] for place in range(3)], [rester, memory.NO_ORDER, memory.NO_ORDER])
        self.assertEqual({place: after[place] for place in after if place > 2}, {k: room[k] for k in room if k > 2})
        self.assertEqual((state.next, state.next_stamp, state.order_counts["buy"][0]), (102, 702, 1))

    def test_a_refused_quote_changes_nothing(self):
        state = tempting(rest(quoted(exchange(limit=5), 1, (95, 1, 1), (105, 1, 2)), "sell", 1, (105, 2, 3, 2)))
        for command, code in ((quote(1, 1, 90, 95, 6), 8), (quote(1, 1, 105, 111, 3), 7), (quote(2, 1, 90, 95, 1), 23)):
            before = state.copy()
            self.assertEqual(memory.execute(state, command).code, code)
            self.assertEqual(state, before)

    def test_room_affects_nothing(self):
        bare, full = exchange(2), tempting(exchange(2))
        for command in (insert(1, 1, "sell", 100, 2), insert(2, 1, "buy", 105, 3), dayfile.withdraw(1, 5)):
            self.assertEqual(memory.execute(bare, command), memory.execute(full, command))
        self.assertEqual(memory.in_use(bare), memory.in_use(full))

    def test_a_settlement_clears_what_it_frees(self):
        state = traded(rest(exchange(phase=CLOSED), "sell", 1, (105, 2, 1)), 1, 100, 2, 1, 2)
        memory.execute(state, dayfile.settle())
        self.assertEqual(state.trades.contents[0], memory.NO_TRADE)
        self.assertEqual(state.orders["sell"].contents[0], memory.NO_ORDER)
        self.assertEqual((state.trade_count, state.order_counts["sell"][0], state.next, state.settlements), (0, 0, 1, 1))
        self.assertEqual(state.holdings[0][0], Holding(2, 0, 2, 0))

    def test_a_word_short_is_a_record_less(self):
        for length, room in ((Area(5), 5), (Area(5, 1), 5), (Area(5, -1), 4)):
            self.assertEqual(memory.room_of(length), room)

    def test_sides(self):
        state = self.book()
        first = [state.orders["buy"].contents[place] for place in range(3)]
        self.assertEqual(memory.resting_orders(state.orders, "buy", 1, 2, 3), first)
        self.assertEqual(memory.resting_orders(state.orders, "buy", 2, 2, 1), [Order(95, 4, 0, 2, OPEN, 304, 0)])
        for contract, contracts, count in ((0, 2, 1), (3, 2, 1), (1, 2, 65)):
            self.assertEqual(memory.resting_orders(state.orders, "buy", contract, contracts, count), [])
        areas(state, buys=64)
        self.assertEqual(memory.resting_orders(state.orders, "buy", 2, 2, 1), [])


class Bundles(unittest.TestCase):
    def test_answers_in_turn(self):
        state = counts(exchange(), answers=Area(3))
        commands = [insert(1, 1, "sell", 105, 5), dayfile.Command(0), insert(2, 1, "buy", 110, 3)]
        self.assertEqual(baskets.submit(state, commands), 0)
        self.assertEqual(list(state.answers.contents.values()), [(0, 100, 0, 5), (1, 0, 0, 0), (0, 101, 3, 0)])

    def test_refused_whole(self):
        for commands, area, code in ((101, 101, 22), (2, 1, 22), (100, 100, 0)):
            state = counts(exchange(), answers=Area(area))
            self.assertEqual(baskets.submit(state, [dayfile.deposit(1, 1)] * commands), code)
            self.assertEqual(state.balances[0], RICH + (commands if code == 0 else 0))


class Questions(unittest.TestCase):
    def test_lots_and_orders_read(self):
        state = rest(exchange(), "sell", 1, (105, 2, 1), (105, 3, 2), (110, 4, 3), (115, 5, 4))
        for price, wanted, gets, read in ((105, 1, 1, 1), (105, 2, 2, 1), (105, 5, 5, 2), (105, 6, 5, 3), (110, 9, 9, 3)):
            self.assertEqual(question.gettable(state, insert(1, 1, "buy", price, wanted)), (0, gets, read))
        self.assertEqual(question.gettable(state, insert(1, 1, "buy", 100, 1)), (0, 0, 1))
        self.assertEqual(question.gettable(state, market(1, 1, "buy", 99)), (0, 14, 4))
        self.assertEqual(question.gettable(state, market(1, 1, "sell", 99)), (0, 0, 0))
        self.assertEqual(question.gettable(state, dayfile.deposit(1, 5)), (1, 0, 0))


class Mending(unittest.TestCase):
    def test_list_of_the_dropped(self):
        file = head(count=9) + records(SOUND, MALFORMED, SOUND) + bytes(5)
        mended = mending.mend(file, 1_000, 1_000)
        self.assertEqual(mended.file, head(count=2) + records(SOUND, SOUND))
        self.assertEqual(mended.list, struct.pack("<QQBQB", 2, 2, 1, 4, 2))
        again = mending.mend(mended.file, 1_000, 1_000)
        self.assertEqual((again.file, again.list), (mended.file, bytes(8)))

    def test_surplus(self):
        mended = mending.mend(head() + records(SOUND) * 2_001 + records(MALFORMED), 10**5, 100)
        self.assertEqual(mended.list, struct.pack("<QQBQB", 2, 2_001, 3, 2_002, 1))


class Statements(unittest.TestCase):
    def test_first_in_goes_by_client(self):
        # The account holds 4 long from the start at 100, of which the second client has 1; that client buys 2 at 120 and
        # sells 2 at 130: one of the old lots and one of today's. The settlement price is 125, the multiplier 10.
        state = start(exchange(1, accounts=3), 1, 1, long=4)
        traded(traded(state, 1, 120, 2, 1, 2, 11, 21), 1, 130, 2, 2, 1, 22, 12, sellclose=CLOSE)
        starts = lots({1: (3, 0)}, {1: (1, 0)})
        found = statements.client_statement(state, 1, 2, starts, postings((11, 2), (12, 2)), 200)
        trades = struct.pack("<BBBBIIIBBBBIII", 2, 1, 0, 0, 120, 2, 11, 2, 1, 1, 1, 130, 2, 12)
        holdings = struct.pack("<IIII", 3, 0, 1, 0)
        profits = struct.pack("<qqqq", 0, 3 * 25 * 10, (30 + 10) * 10, 5 * 10)
        told = b"".join(struct.pack("<I", 2) + section for section in (trades, holdings, profits))
        self.assertEqual(found, (0, told))
        # Together the clients gain what the account does, though it would have closed two old lots.
        account = model.profit(memory.in_use(state), 1, 1, 125)
        self.assertEqual(account, (2 * 30 * 10, (2 * 25 + 2 * 5) * 10))
        self.assertEqual(sum(account), 750 + 400 + 50)


class DayLines(unittest.TestCase):
    # However a day is cut into parts: together they are its output, and the state is the one that its commands lead to one by one.
    def test_the_parts_are_the_output(self):
        for seed in range(12):
            rng = random.Random(f"parts/{seed}")
            file = rng.choice((generate.trading_file, generate.auction_file, generate.changes_file, generate.quotes_file))(rng)
            commands = daylines.commands_of(file)
            state, singly = library_cases.opening(random.Random(seed), file), library_cases.opening(random.Random(seed), file)
            cuts = sorted({0, *rng.choices(range(len(commands) + 1), k=3), len(commands)})
            parts = [daylines.part(state, commands, *cut) for cut in zip(cuts, cuts[1:])]
            self.assertEqual(b"".join(parts), model.run(file))
            for command in commands:
                memory.execute(singly, command)
            self.assertEqual(state, singly)

    def test_a_broken_file_has_one_line(self):
        self.assertIsNone(daylines.commands_of(b""))
        self.assertEqual([daylines.part(exchange(), None, place, 1) for place in (0, 1)], [model.run(b""), b""])

    def test_refusals(self):
        room = daylines.ROOM_FOR_A_COMMAND
        wrong = exchange()
        wrong.contract_count = 0
        told = [daylines.refusal(state, file, length) for state in (exchange(), wrong) for file in ([], None) for length in (room, room - 1)]
        self.assertEqual(told, [0, 29, 0, 29, 21, 21, 0, 29])


class Tables(unittest.TestCase):
    def test_worked_examples(self):
        for name, arguments, result in tables.WORKED:
            self.assertEqual(getattr(model, name)(*arguments), result, name)


class Form(unittest.TestCase):
    def test_numbers(self):
        for value, written in ((0, b"\0"), (247, b"\xf7"), (248, b"\xf8\xf8"), (256, b"\xf9\1\0"), (2**63, b"\xff\x80" + bytes(7))):
            self.assertEqual(vectors.number(value), written)
        for value, written in ((0, 0), (1, 2), (-1, 1), (-3, 5)):
            self.assertEqual(vectors.signed(value), vectors.number(written))

    def test_bytes_in_parts(self):
        for content in (b"", b"abc", b"ab" * 5, b"abcd" + b"xy" * 3 + b"z", b"xyxyx"):
            self.assertEqual(self.joined(vectors.byte_parts(content, 2)), content)

    def joined(self, written):
        at, content = 1, b""
        for _ in range(written[0]):
            times, size = written[at : at + 2]
            content += written[at + 2 :][:size] * times
            at += 2 + size
        self.assertEqual(at, len(written))
        return content

    def test_cases_have_names_of_their_own(self):
        for name in make_vectors.NAMES:
            names = Counter((case.call, case.name) for case in make_vectors.cases_of(name))
            self.assertEqual([of for of, times in names.items() if times > 1], [])

    def test_runs_of_orders(self):
        orders = {k: Order(95, 5 + k, 0, 1, OPEN, 305 + k, 0) for k in range(3)}
        orders[3] = Order(95, 8, 0, 1, OPEN, 309, 0)
        self.assertEqual(vectors.runs(orders), [(0, 3, 1, orders[0]), (3, 1, 0, orders[3])])

    def test_runs(self):
        places = {3: (5, 7, 1), 4: (5, 8, 1), 5: (5, 9, 1), 7: (0, 0, 0), 8: (0, 0, 0), 9: (1, 0, 0)}
        self.assertEqual(vectors.runs(places), [(3, 3, 1, (5, 7, 1)), (7, 2, 0, (0, 0, 0)), (9, 1, 0, (1, 0, 0))])


class Deletions(unittest.TestCase):
    def test_edits(self):
        tree = ast.parse("def rule(lots, price):\n    if not 1 <= lots <= MOST:\n        return 5\n    return price == 0 or lots > 2\n")
        words = [edit.what for edit in delete_tests.edits_of("rules", tree)]
        self.assertEqual(len([word for word in words if word.startswith(("never", "always"))]), 2)
        self.assertIn("part 1 dropped: 1 <= lots <= MOST", words)
        self.assertIn("bound 2 moved: 1 <= lots <= MOST", words)
        self.assertIn("dropped: price == 0", words)
        self.assertIn("turned round: lots > 2", words)
        self.assertIn("2 now 3: lots > 2", words)

    def test_refusals_are_exchanged(self):
        tree = ast.parse("def rule(a, b):\n    if a:\n        return 2\n    c = b\n    if c:\n        return 3\n    return 0\n")
        (edit,) = [edit for edit in delete_tests.edits_of("rules", tree) if "exchanged" in edit.what]
        lines = ast.unparse(delete_tests.edited(tree, edit)).splitlines()
        self.assertEqual([line.strip() for line in lines[1:]], ["c = b", "if c:", "return 3", "if a:", "return 2", "return 0"])


if __name__ == "__main__":
    unittest.main()
