"""The package's own tests: its documentation's examples, numbers that do not fit, refusals, type hints."""

import doctest
import inspect
import struct
import typing
import unittest

import zelvorm


class Package(unittest.TestCase):
    def setUp(self):
        terms = zelvorm.Terms(multiplier=10, tick=1, reference=100, band=10, limit=1000, rate=1000)
        self.exchange = zelvorm.Exchange(zelvorm.Opening([terms], [zelvorm.OpeningAccount(10_000, is_maker=True)]))

    def test_documentation(self):
        tried = 0
        for name in ("codes", "commands", "exchange", "files", "library"):
            failed, count = doctest.testmod(getattr(zelvorm, name))
            self.assertEqual(failed, 0, name)
            tried += count
        failed, count = doctest.testfile("README.md")
        self.assertEqual(failed, 0)
        self.assertGreater(tried + count, 30)

    # Every number of every command, at the end of its field and one beyond.
    def test_numbers_that_do_not_fit(self):
        commands = {
            zelvorm.Deposit: {"account": 8, "amount": 64},
            zelvorm.Withdraw: {"account": 8, "amount": 64},
            zelvorm.Insert: {"account": 8, "contract": 8, "lots": 32, "price": 32},
            zelvorm.Cancel: {"account": 8, "contract": 8, "order": 32},
            zelvorm.Pull: {"account": 8, "contract": 8},
            zelvorm.PhaseChange: {"contract": 8},
            zelvorm.Quote: {"account": 8, "contract": 8, "lots": 32, "buy": 32, "sell": 32},
            zelvorm.Change: {"account": 8, "contract": 8, "order": 32, "lots": 32, "price": 32},
        }
        others = {zelvorm.Insert: {"side": zelvorm.Side.BUY}, zelvorm.PhaseChange: {"phase": zelvorm.Phase.CLOSED}}
        for command, fields in commands.items():
            numbers = {name: 1 for name in fields} | others.get(command, {})
            for name, bits in fields.items():
                made = command(**numbers | {name: 2**bits - 1})
                self.assertEqual(zelvorm.command_of(made.record()), made)
                for wrong in (2**bits, -1):
                    with self.assertRaisesRegex(ValueError, f"^{name} is"):
                        command(**numbers | {name: wrong})
                for wrong in (1.0, "1", None, True):
                    with self.assertRaises(TypeError):
                        command(**numbers | {name: wrong})

    # Each field stands where the papers have it.
    def test_each_kind_s_record(self):
        z = zelvorm
        insert = z.Insert(2, 3, z.Side.SELL, 5, z.Price.BEST, z.Effect.CLOSE, z.Time.FILL_OR_KILL)
        for command, wanted in (
            (z.Deposit(account=2, amount=9), (1, 2, 0, 0, 0, 0, 0, 9)),
            (z.Withdraw(account=2, amount=9), (2, 2, 0, 0, 0, 0, 0, 9)),
            (insert, (3, 2, 3, 1 + 2 + 8 + 32, 5, 0, 0, 0)),
            (z.Insert(account=2, contract=3, side=z.Side.BUY, lots=5, price=6), (3, 2, 3, 0, 5, 6, 0, 0)),
            (z.Cancel(account=2, contract=3, order=4, operator=True), (4, 2, 3, 1, 0, 0, 4, 0)),
            (z.Pull(account=2, contract=3), (5, 2, 3, 0, 0, 0, 0, 0)),
            (z.PhaseChange(contract=3, phase=z.Phase.AUCTION), (6, 0, 3, 4, 0, 0, 0, 0)),
            (z.Settle(), (7, 0, 0, 0, 0, 0, 0, 0)),
            (z.Quote(account=2, contract=3, lots=5, buy=7, sell=8), (8, 2, 3, 0, 5, 7, 8, 0)),
            (z.Change(account=2, contract=3, order=4, lots=5, price=6), (9, 2, 3, 0, 5, 6, 4, 0)),
        ):
            self.assertEqual(struct.unpack("<BBBBIIIQ", command.record()), wanted)
            self.assertEqual(z.command_of(command.record()), command)

    def test_what_is_no_enum_is_refused(self):
        for make in (
            lambda: zelvorm.Insert(1, 1, 0, 1, 100),
            lambda: zelvorm.Insert(1, 1, zelvorm.Side.BUY, 1, 100, time=16),
            lambda: zelvorm.PhaseChange(1, 1),
        ):
            with self.assertRaises(TypeError):
                make()

    def test_other_numbers_that_do_not_fit(self):
        for make in (
            lambda: zelvorm.OpeningAccount(2**63),
            lambda: zelvorm.Terms(2**16, 1, 100, 10, 1000, 1000),
            lambda: zelvorm.Posting(2**32, 1),
            lambda: zelvorm.Start([2**32]).words(),
            lambda: zelvorm.Start([0] * 5).words(),
            lambda: self.exchange.statement(2**32, [], []),
            lambda: list(self.exchange.orders(zelvorm.Side.BUY, -1)),
            lambda: self.exchange.execute(bytes(23)),
        ):
            with self.assertRaises(ValueError):
                make()

    def test_a_refusal_changes_nothing(self):
        before = bytes(self.exchange.state)
        with self.assertRaises(zelvorm.Refused) as caught:
            self.exchange.execute(zelvorm.Deposit(account=2, amount=1))
        self.assertEqual((caught.exception.code, caught.exception.words), (zelvorm.Code.NO_ACCOUNT, "no such account"))
        self.assertEqual(bytes(self.exchange.state), before)

    # What is no `bytes` is copied, and the copy must live as long as the call.
    def test_commands_in_any_bytes(self):
        records = zelvorm.files.record_of(zelvorm.Deposit(account=1, amount=1)) * 1000
        for form in (bytes, bytearray, memoryview):
            answers = bytearray(16 * 1000)
            self.assertEqual(self.exchange.run_bytes(form(records), answers), 1000)
            self.assertEqual(answers, bytearray(16 * 1000), form)
        self.assertEqual(self.exchange.state.accounts[0].balance, 10_000 + 3 * 1000)

    def test_every_code_has_words(self):
        self.assertEqual([code.value for code in zelvorm.Code], list(zelvorm.raw.CODE_WORDS))
        self.assertTrue(all(code.words for code in zelvorm.Code))

    def test_quote_and_market_maker(self):
        self.exchange.execute(zelvorm.PhaseChange(1, zelvorm.Phase.CONTINUOUS))
        self.exchange.execute(zelvorm.Quote(account=1, contract=1, lots=2, buy=99, sell=101))
        sells = list(self.exchange.orders(zelvorm.Side.SELL, 1))
        self.assertEqual([(order.number, order.price, order.is_quote) for order in sells], [(2, 101, True)])

    # Every parameter and result of what the package offers is annotated, with names that exist.
    def test_type_hints(self):
        for name in zelvorm.__all__:
            offered = getattr(zelvorm, name)
            own = [value for key, value in vars(offered).items() if not key.startswith("_")] if inspect.isclass(offered) else [offered]
            for call in filter(inspect.isfunction, own):
                hints = typing.get_type_hints(call)
                wanted = {key for key in inspect.signature(call).parameters if key != "self"} | {"return"}
                self.assertEqual(wanted - set(hints), set(), f"{name}: {call.__name__}")


if __name__ == "__main__":
    unittest.main()
