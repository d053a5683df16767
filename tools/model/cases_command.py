"""Cases of one command on a state: each kind, each refusal at its bound and beside it, the order of the refusals, and
what an accepted command leaves (document 01, "Numbers given back", "Matching", "Margin and settlement")."""

from casebook import *
from dayfile import Command


def cases():
    yield from malformed()
    yield from not_well_formed()
    yield from deposits()
    yield from withdrawals()
    yield from refused_inserts()
    yield from refused_by_holding()
    yield from refused_by_money()
    yield from refused_by_book()
    yield from order_of_insert_codes()
    yield from counterparts()
    yield from trade_prices()
    yield from resting_places()
    yield from booked_legs()
    yield from cancels()
    yield from pulls()
    yield from state_changes()
    yield from refused_settlements()
    yield from settlement_prices()
    yield from profits()
    yield from mornings_after()


# A command of each kind and a state in which it is accepted.
def sound_commands():
    def book(**fields):
        return rest(exchange(2, **fields), "buy", 1, (100, 3, 1))

    return {
        "deposit": (book(), dayfile.deposit(1, 5)),
        "withdraw": (book(), dayfile.withdraw(1, 5)),
        "insert": (book(), insert(1, 1, "buy", 100, 1)),
        "cancel": (book(), dayfile.cancel(1, 1, 1)),
        "pull": (book(), dayfile.pull(1, 1)),
        "state": (book(), dayfile.state(1, "closed")),
        "settle": (book(phase=CLOSED), dayfile.settle()),
        "quote": (makers(book(), 1), quote(1, 1, 95, 105, 2)),
        "change": (book(), change(1, 1, 1, 2, 100)),
    }


# "1: kind, flag value or unused field is wrong"
def malformed():
    flags = {
        "insert": (0x0C, 0x30, 0x3C, 0x40, 0x80, 0xC0),
        "cancel": (2, 3, 4, 0x80, 0xFF),
        "pull": (2, 3, 4, 0x80, 0xFF),
        "state": (5, 6, 0x80, 0xFF),
    }
    for kind in sound_commands():
        state, command = sound_commands()[kind]
        yield given(f"{kind}: sound", state, command)
        for name in dayfile.unused_fields(kind):
            size = {"lots": 32, "price": 32, "order_number": 32, "amount": 64}.get(name, 8)
            for value in (1, 2 ** (size - 1)):
                state, command = sound_commands()[kind]
                yield given(f"{kind}: unused {name} {value}", state, command._replace(**{name: value}), 1)
        for value in flags.get(kind, ()):
            state, command = sound_commands()[kind]
            yield given(f"{kind}: flags {value}", state, command._replace(flags=value), 1)
            absent = command._replace(flags=value, account=0 if kind == "state" else 9, contract=9)
            yield given(f"{kind}: flags {value}, nothing there", state.copy(), absent, 1)
    for kind in (0, 10, 255):
        yield given(f"kind {kind}", sound_commands()["deposit"][0], Command(kind), 1)
        yield given(f"kind {kind} with fields", sound_commands()["deposit"][0], Command(kind, 1, 1, 0, 1, 100), 1)


# "21: state not well formed", before all others
def not_well_formed():
    for kind in sound_commands():
        state, command = sound_commands()[kind]
        yield given(f"{kind}: rate 0", terms(state, 1, rate=0), command, 21)
        state, command = sound_commands()[kind]
        yield given(f"{kind}: trade area too short", areas(state, trades=(1_024, -1)), command, 21)
    state, command = sound_commands()["deposit"]
    yield given("kind 0: rate 0", terms(state, 2, rate=0), Command(0), 21)
    # Nothing is written back, whatever the state holds.
    for name, spoilt in spoilt_states():
        yield given(f"deposit: {name}", spoilt, dayfile.deposit(1, 5), 21)
    state, command = sound_commands()["insert"]
    yield given("insert of account 0: buy area too short", areas(state, buys=(128, -1)), command._replace(account=0), 21)


def spoilt_states():
    def book():
        return traded(rest(exchange(2), "buy", 1, (100, 3, 1), (95, 3, 2)), 1, 100, 2, 1, 2)

    yield "five contracts", counts(book(), contract_count=5)
    yield "33 accounts", counts(book(), account_count=33)
    yield "a contract state that has no name", terms(book(), 2, phase=5)
    yield "an order that neither opens nor closes", change_order(book(), "buy", 1, 1, close=2)
    yield "an order of an account past all places", change_order(book(), "buy", 1, 1, account=40)
    yield "a trade that neither opens nor closes", change_trade(book(), 0, buyclose=2)
    yield "a trade of a contract past all places", change_trade(book(), 0, contract=9)
    yield "buys out of order", change_order(book(), "buy", 1, 1, price=105)
    yield "65 buys", counts(book(), order_counts={"buy": [65, 0, 0, 0], "sell": [0] * 4})
    yield "1,025 trades", counts(book(), trade_count=1_025)
    yield "a million and one", counts(book(), next=10**6 + 1)
    yield "an order without a stamp", change_order(book(), "buy", 1, 1, stamp=0)
    yield "a stamp that is still to be given", change_order(book(), "buy", 1, 1, stamp=700)
    yield "one stamp for two orders", change_order(book(), "buy", 1, 1, stamp=301)
    yield "a million and one stamps", counts(book(), next_stamp=10**6 + 1)
    yield "a quote of no maker", change_order(book(), "buy", 1, 1, quote=1)
    yield "a mark that is neither", change_order(makers(book(), 1, 2), "buy", 1, 1, quote=2)
    yield "two quotes on a side", change_order(change_order(makers(book(), 1), "buy", 1, 0, quote=1), "buy", 1, 1, quote=1)
    yield "an account that is neither a maker nor none", maker_mark(book(), 2, 2)


# "2: account 0 or absent", for these two accounts: numbers that have none
NO_ACCOUNT = (0, 3, 32, 33, 255)
NO_CONTRACT = (0, 3, 4, 5, 255)


# "deposit 2, 16": "16: amount not 1 to 10^15, or deposit lifts the balance above 10^18"
def deposits():
    for account in (1, 2):
        yield given(f"deposit for account {account}", exchange(), dayfile.deposit(account, 7))
    yield given("deposit for account 32 of 32", exchange(accounts=32), dayfile.deposit(32, 7))
    for account in NO_ACCOUNT:
        yield given(f"deposit for account {account}", exchange(), dayfile.deposit(account, 7), 2)
    yield given("deposit of nothing for account 0", exchange(), dayfile.deposit(0, 0), 2)
    yield given("deposit of too much for account 3", exchange(), dayfile.deposit(3, 10**15 + 1), 2)
    for amount, code in ((0, 16), (1, 0), (10**15, 0), (10**15 + 1, 16), (2**63, 16), (2**64 - 1, 16)):
        yield given(f"deposit of {amount}", exchange(), dayfile.deposit(1, amount), code)
    top = 10**18
    for before, amount, code in (
        (top - 10**15, 10**15, 0),
        (top - 10**15 + 1, 10**15, 16),
        (top - 1, 1, 0),
        (top, 1, 16),
        (-top, 10**15, 0),
        (-1, 1, 0),
    ):
        state = balance(exchange(), 2, before)
        yield given(f"deposit of {amount} onto {before}", state, dayfile.deposit(2, amount), code)
    above = balance(counts(exchange(), settlements=1), 1, top + 5)
    yield given("deposit onto a balance that profit carried above 10^18", above, dayfile.deposit(1, 1), 16)
    for phase in (PRE_OPEN, NO_TRADING, CLOSED):
        yield given(f"deposit in state {phase}", exchange(phase=phase), dayfile.deposit(1, 7))


# "withdraw 2, 16, 9": "a withdrawal passes if the balance after it is at least the charged margin" (ticket 2)
def withdrawals():
    for account in (1, 2):
        yield given(f"withdrawal for account {account}", exchange(), dayfile.withdraw(account, 7))
    for account in NO_ACCOUNT:
        yield given(f"withdrawal for account {account}", exchange(), dayfile.withdraw(account, 7), 2)
    yield given("withdrawal of nothing for account 0", exchange(), dayfile.withdraw(0, 0), 2)
    most = balance(exchange(), 1, 2 * 10**15)
    for amount, code in ((0, 16), (1, 0), (10**15, 0), (10**15 + 1, 16), (2**63, 16), (2**64 - 1, 16)):
        yield given(f"withdrawal of {amount}", most.copy(), dayfile.withdraw(1, amount), code)
    yield given("withdrawal of nothing, and nothing there", balance(exchange(), 1, 0), dayfile.withdraw(1, 0), 16)
    above = balance(counts(exchange(), settlements=1), 1, 10**18 + 5)
    yield given("withdrawal from above 10^18", above, dayfile.withdraw(1, 1))
    for name, state, free in with_margin():
        yield given(f"withdrawal of all that is free: {name}", state, dayfile.withdraw(1, free))
        yield given(f"withdrawal of one more: {name}", state.copy(), dayfile.withdraw(1, free + 1), 9)
    for short_of in (0, 1):
        ruined = balance(start(exchange(), 1, 1, long=3), 1, 299 + short_of)
        yield given(f"withdrawal with charged margin {1 - short_of} above the balance", ruined, dayfile.withdraw(1, 1), 9)
    yield given("withdrawal below zero", balance(exchange(), 1, -5), dayfile.withdraw(1, 1), 9)


# States in which account 1 has a margin, with what is free of its balance of 10,000. The charge is 100.
def with_margin():
    def poor():
        return balance(exchange(2), 1, 10_000)

    yield "no margin", poor(), 10_000
    yield "3 long", start(poor(), 1, 1, long=3), 9_700
    yield "4 short", start(poor(), 1, 1, short=4), 9_600
    yield "3 long and 4 short", start(poor(), 1, 1, 3, 4), 9_600
    yield "4 long and 3 short", start(poor(), 1, 1, 4, 3), 9_600
    yield "resting opens", rest(rest(poor(), "buy", 1, (95, 6, 1)), "sell", 1, (105, 5, 2)), 9_400
    yield "resting opens, more to sell", rest(rest(poor(), "buy", 1, (95, 5, 1)), "sell", 1, (105, 6, 2)), 9_400
    mixed = rest(rest(start(poor(), 1, 1, 3, 4), "buy", 1, (95, 4, 1)), "sell", 1, (105, 2, 2))
    yield "3 long with 4 to buy, 4 short with 2 to sell", mixed, 9_300
    mixed = rest(rest(start(poor(), 1, 1, 3, 4), "buy", 1, (95, 2, 1)), "sell", 1, (105, 2, 2))
    yield "3 long with 2 to buy, 4 short with 2 to sell", mixed, 9_400
    closes = rest(start(poor(), 1, 1, 5, 5), "buy", 1, (95, 4, 1, 1, CLOSE))
    yield "closes are not charged", rest(closes, "sell", 1, (105, 4, 2, 1, CLOSE)), 9_500
    others = rest(rest(start(start(poor(), 1, 1, 2), 2, 1, 9, 9), "buy", 1, (95, 7, 1, 2)), "sell", 1, (105, 7, 2, 2))
    yield "another's lots and orders are not charged", others, 9_800
    two = start(start(poor(), 1, 1, long=3), 1, 2, short=4)
    yield "lots in two contracts", two, 9_300
    two = rest(start(poor(), 1, 1, long=3), "sell", 2, (105, 4, 1))
    yield "lots in one contract and orders in another", two, 9_300
    own = start(start(terms(poor(), 2, multiplier=3, reference=105, rate=77), 1, 1, long=3), 1, 2, long=4)
    yield "each contract at its own charge, rounded up", own, 10_000 - 300 - 4 * 3
    exact = start(terms(poor(), 2, multiplier=20, reference=105, rate=5_000), 1, 2, long=4)
    yield "a charge that needs no rounding", exact, 10_000 - 4 * 1_050
    least = dict(multiplier=1, tick=1, reference=10_001, band=10, rate=1)
    yield "a charge of 1 and a ten-thousandth", start(terms(poor(), 2, **least), 1, 2, long=4), 10_000 - 4 * 2


# "2", "3", "4", "5", "6", "7"
def refused_inserts():
    for account in (1, 2):
        yield given(f"insert of account {account}", exchange(2), insert(account, 1, "buy", 100, 1))
    yield given("insert of account 32 of 32", exchange(accounts=32), insert(32, 1, "buy", 100, 1))
    for account in NO_ACCOUNT:
        yield given(f"insert of account {account}", exchange(2), insert(account, 1, "buy", 100, 1), 2)
    for contract in (1, 2):
        yield given(f"insert in contract {contract}", exchange(2), insert(1, contract, "sell", 100, 1))
    yield given("insert in contract 4 of 4", exchange(4), insert(1, 4, "sell", 100, 1))
    for contract in NO_CONTRACT:
        yield given(f"insert in contract {contract}", exchange(2), insert(1, contract, "buy", 100, 1), 3)
    for phase in (PRE_OPEN, NO_TRADING, CLOSED):
        yield given(f"insert in state {phase}", exchange(phase=phase), insert(1, 1, "buy", 100, 1), 4)
        mixed = terms(exchange(2), 2, phase=phase)
        yield given(f"insert in state {phase}, other contract continuous", mixed, insert(1, 2, "buy", 100, 1), 4)
        yield given(f"insert in continuous, other contract in {phase}", mixed.copy(), insert(1, 1, "buy", 100, 1))
    for lots, code in ((0, 5), (1, 0), (1_000, 0), (1_001, 5), (2**32 - 1, 5)):
        yield given(f"insert of {lots} lots", exchange(), insert(1, 1, "buy", 100, lots), code)
        yield given(f"market order of {lots} lots", exchange(), market(1, 1, "sell", lots), code)
    for side in dayfile.SIDES:
        for condition in dayfile.PRICE_CONDITIONS:
            for time in dayfile.TIME_CONDITIONS:
                state = rest(rest(exchange(), "sell", 1, (110, 2, 1)), "buy", 1, (90, 2, 2))
                price = 100 if condition == "limit" else 0
                command = insert(1, 1, side, price, 2, time, "open", condition)
                no_fill = 11 if condition == "limit" and time == "kill" else 0
                code = 6 if condition != "limit" and time == "day" else no_fill
                yield given(f"{side} {condition} {time}", state, command, code)
    prices = (0, 5, 45, 49, 50, 51, 99, 100, 101, 149, 150, 151, 155, 10**6, 2**32 - 1)
    for price in prices:
        code = 0 if price in (50, 100, 150) else 7
        yield given(f"limit {price}", exchange(), insert(1, 1, "buy", price, 1), code)
        yield given(f"sell limit {price}", exchange(), insert(1, 1, "sell", price, 1), code)
    for price in (145, 150, 250, 255):
        state = terms(exchange(2), 2, reference=200)
        yield given(f"limit {price}, reference 200", state, insert(1, 2, "buy", price, 1), 0 if price in (150, 250) else 7)
    for price in (0, 5, 40, 45):
        state = exchange(reference=20, band=20)
        yield given(f"limit {price}, reference 20, band 20", state, insert(1, 1, "buy", price, 1), 0 if price in (5, 40) else 7)
    for price in (999_989, 999_990, 10**6, 10**6 + 1):
        state = exchange(tick=1, reference=10**6, band=10, last=10**6)
        code = 0 if price in (999_990, 10**6) else 7
        yield given(f"limit {price}, reference 1,000,000", state, insert(1, 1, "sell", price, 1), code)
    for price in (999_999, 1_000_006):
        state = exchange(tick=7, reference=999_999, band=7, last=7)
        yield given(f"limit {price}, tick 7", state, insert(1, 1, "sell", price, 1), 0 if price == 999_999 else 7)
    for price in (1, 100):
        yield given(f"market order with price {price}", exchange(), market(1, 1, "buy", 1, price=price), 7)
        yield given(f"best order with price {price}", exchange(), best(1, 1, "buy", 1, price=price), 7)


SIDES_HELD = (("buy", "long", "short", 95), ("sell", "short", "long", 105))


# "8: open: holding, resting opens on that side and lots exceed the limit; close: lots exceed holding less own resting
# closes on it"
def refused_by_holding():
    for contract in (1, 2):
        for side, opens, closes, price in SIDES_HELD:
            opposite, far = {"buy": ("sell", 140), "sell": ("buy", 60)}[side]

            def book():
                # Account 1 holds 4 lots that the side opens and 5 that it closes; 3 opens and 2 closes rest there.
                state = terms(exchange(2), contract, limit=10)
                start(state, 1, contract, **{opens: 4, closes: 5})
                start(start(state, 2, contract, 9, 9), 1, 3 - contract, 9, 9)
                mine = [(price, 3, 1), (price, 2, 2, 1, CLOSE), (price, 1, 3, 2), (price, 9, 4, 2, CLOSE)]
                rest(rest(state, side, contract, *mine), side, 3 - contract, (price, 8, 5), (price, 8, 6, 1, CLOSE))
                return rest(state, opposite, contract, (far, 2, 7), (far, 3, 8, 1, CLOSE))

            for effect, most in (("open", 3), ("close", 3)):
                for lots, code in ((most, 0), (most + 1, 8)):
                    where = f"contract {contract}, {side} {effect} of {lots}"
                    yield given(where, book(), insert(1, contract, side, price, lots, effect=effect), code)
                    order = market(1, contract, side, lots, effect=effect)
                    yield given(f"{where}, market", book(), order, code)
                    order = insert(1, contract, side, price, lots, "immediate", effect)
                    yield given(f"{where}, immediate", book(), order, code)
    for side in dayfile.SIDES:
        yield given(f"{side} close of nothing", exchange(), insert(1, 1, side, 100, 1, effect="close"), 8)
        full = start(start(terms(exchange(), 1, limit=10), 1, 1, 10, 10), 2, 1, 1, 1)
        yield given(f"{side} open at the limit", full, insert(1, 1, side, 100, 1), 8)
        yield given(f"{side} close at the limit", full.copy(), insert(1, 1, side, 100, 10, effect="close"))
    large = start(exchange(limit=100_000), 1, 1, 99_000, 99_000)
    for lots, code in ((1_000, 0), (1_001, 5)):
        yield given(f"{lots} lots up to a limit of 100,000", large.copy(), insert(1, 1, "buy", 100, lots), code)
    larger = start(exchange(limit=100_000), 1, 1, 99_001, 99_001)
    yield given("1,000 lots above a limit of 100,000", larger, insert(1, 1, "sell", 100, 1_000), 8)


# "An open passes if all charged margin, its lots included, is at most the balance" (ticket 2). The charge is 100.
def refused_by_money():
    for side, opens, closes, price in SIDES_HELD:
        for time in ("day", "immediate"):
            order = lambda lots, effect="open": insert(1, 1, side, price, lots, time, effect)
            poor = lambda money: balance(exchange(2), 1, money)
            for money, code in ((300, 0), (299, 9)):
                yield given(f"{side} open of 3 with {money}, {time}", poor(money), order(3), code)
                state = start(poor(money), 1, 1, **{opens: 2})
                yield given(f"{side} open of 1 beside 2 {opens}, {money}, {time}", state, order(1), code)
                state = rest(poor(money), side, 1, (price, 2, 1))
                yield given(f"{side} open of 1 beside 2 resting, {money}, {time}", state, order(1), code)
                state = start(poor(money), 1, 1, **{closes: 3})
                yield given(f"{side} open of 1 beside 3 {closes}, {money}, {time}", state, order(1), code)
                state = start(poor(money), 1, 2, **{opens: 2})
                yield given(f"{side} open of 1, 2 in the other contract, {money}, {time}", state, order(1), code)
                state = start(poor(money), 1, 2, **{closes: 2})
                yield given(f"{side} open of 1, 2 on the other side there, {money}, {time}", state, order(1), code)
            state = start(poor(-5), 1, 1, 3, 3)
            yield given(f"{side} close without money, {time}", state, order(3, "close"))
            yield given(f"{side} open without money, {time}", poor(0), order(1), 9)
            yield given(f"{side} open below zero, {time}", poor(-1), order(1), 9)
        yield given(f"market {side} open of 3 with 299", balance(exchange(), 1, 299), market(1, 1, side, 3), 9)
        yield given(f"market {side} open of 3 with 300", balance(exchange(), 1, 300), market(1, 1, side, 3))
    own = terms(balance(exchange(2), 1, 300 + 4 * 3), 2, multiplier=3, reference=105, rate=77)
    own = start(own, 1, 1, long=3)
    yield given("an open at its own contract's charge", own, insert(1, 2, "buy", 100, 4))
    yield given("an open above it", balance(own.copy(), 1, 300 + 4 * 3 - 1), insert(1, 2, "buy", 100, 4), 9)
    other = balance(start(exchange(), 2, 1, 9, 9), 1, 100)
    yield given("another's lots are not charged", other, insert(1, 1, "buy", 100, 1))


# "10: order numbers used up", "11: fill or kill: fillable lots below lots", "12: it would make more trades than the day
# has room for", "13: good for day, own side has 64, fillable lots below lots"
def refused_by_book():
    for next_number, code in ((999_999, 0), (10**6, 10)):
        state = counts(start(exchange(), 1, 1, 5, 5), next=next_number)
        yield given(f"next order number {next_number}", state, insert(1, 1, "buy", 100, 1), code)
        yield given(f"next order number {next_number}, close", state.copy(), insert(1, 1, "buy", 100, 1, effect="close"), code)
        yield given(f"next order number {next_number}, market", state.copy(), market(1, 1, "sell", 1), code)
    for side in dayfile.SIDES:
        opposite, first, second, third = {"buy": ("sell", 105, 110, 115), "sell": ("buy", 95, 90, 85)}[side]

        def book():
            orders = (first, 2, 1, 2), (first, 3, 2, 2), (second, 4, 3, 2), (third, 5, 4, 2)
            return rest(exchange(), opposite, 1, *orders)

        for name, make, fillable in (
            ("limit at the second price", lambda lots: insert(1, 1, side, second, lots, "kill"), 9),
            ("limit at the first price", lambda lots: insert(1, 1, side, first, lots, "kill"), 5),
            ("limit before the first price", lambda lots: insert(1, 1, side, 100, lots, "kill"), 0),
            ("market", lambda lots: market(1, 1, side, lots, "kill"), 14),
            ("best", lambda lots: best(1, 1, side, lots, "kill"), 5),
        ):
            if fillable > 0:
                yield given(f"{side} {name} of {fillable}, fill or kill", book(), make(fillable))
            yield given(f"{side} {name} of {fillable + 1}, fill or kill", book(), make(fillable + 1), 11)
        yield given(f"{side} best on no orders, fill or kill", exchange(), best(1, 1, side, 1, "kill"), 11)
        yield given(f"{side} market on no orders, fill or kill", exchange(), market(1, 1, side, 1, "kill"), 11)

        for made in (1_023, 1_024):
            for trades, lots in ((0, 1), (1, 2), (2, 5), (2, 3)):
                for time in ("day", "immediate"):
                    price = 100 if trades == 0 else second
                    code = 12 if made + trades > 1_024 else 0
                    name = f"{side} {time} of {lots} that makes {trades} trades after {made}"
                    yield given(name, many_trades(book(), made), insert(1, 1, side, price, lots, time), code)

        own = {"buy": 95, "sell": 105}[side]
        behind = {"buy": 90, "sell": 110}[side]
        for resting in (63, 64):

            def full():
                return full_queue(book(), side, 1, own, 5, resting)

            for lots, time, code in ((5, "day", 0), (6, "day", 13), (6, "immediate", 0)):
                code = 0 if resting == 63 else code
                yield given(f"{side} {time} of {lots} where {resting} rest", full(), insert(1, 1, side, first, lots, time), code)
            code = 0 if resting == 63 else 13
            yield given(f"{side} that only rests where {resting} rest", full(), insert(2, 1, side, behind, 1), code)
            yield given(f"{side} market where {resting} rest", full(), market(1, 1, side, 20))
            yield given(f"{opposite} where {resting} {side}s rest", full(), insert(2, 1, opposite, third, 1))
            second_contract = full_queue(exchange(2), side, 1, own, 5, resting)
            yield given(f"{side} in contract 2 where {resting} rest in 1", second_contract, insert(1, 2, side, own, 1))


# Trades of account 2 with itself, as many as are wanted.
def many_trades(state, count):
    for _ in range(count):
        traded(state, 1, 100, 1, 2, 2, 10, 11)
    return state


# "then for insert 2 to 13 rising": of two that apply the lower is given.
def order_of_insert_codes():
    def at(**fields):
        return exchange(2, **fields)

    yield given("2 before 3", at(), insert(0, 0, "buy", 100, 1), 2)
    yield given("2 before 4", at(phase=CLOSED), insert(3, 1, "buy", 100, 1), 2)
    yield given("3 before 5", at(), insert(1, 3, "buy", 100, 0), 3)
    yield given("4 before 5", at(phase=CLOSED), insert(1, 1, "buy", 100, 0), 4)
    yield given("5 before 6", at(), market(1, 1, "buy", 0, "day"), 5)
    yield given("5 before 6 and 7", at(), market(1, 1, "buy", 0, "day", price=5), 5)
    yield given("5 before 7", at(), insert(1, 1, "buy", 101, 1_001), 5)
    yield given("6 before 7", at(), market(1, 1, "buy", 1, "day", price=5), 6)
    yield given("7 for a market order that is immediate", at(), market(1, 1, "buy", 1, price=5), 7)
    yield given("7 before 8, close", at(), insert(1, 1, "buy", 101, 1, effect="close"), 7)
    yield given("7 before 8, open", at(limit=1), insert(1, 1, "buy", 101, 2), 7)
    yield given("8 before 9", balance(at(limit=1), 1, 0), insert(1, 1, "buy", 100, 2), 8)
    used_up = lambda **fields: counts(at(**fields), next=10**6)
    yield given("8 before 10", used_up(), insert(1, 1, "buy", 100, 1, effect="close"), 8)
    yield given("9 before 10", balance(used_up(), 1, 0), insert(1, 1, "buy", 100, 1), 9)
    yield given("9 before 11", balance(at(), 1, 0), insert(1, 1, "buy", 100, 1, "kill"), 9)
    yield given("10 before 11", used_up(), insert(1, 1, "buy", 100, 1, "kill"), 10)
    sells = lambda state: rest(state, "sell", 1, (100, 1, 1, 2), (100, 1, 2, 2))
    yield given("10 before 12", sells(many_trades(used_up(), 1_024)), insert(1, 1, "buy", 100, 1), 10)
    yield given("11 before 12", sells(many_trades(at(), 1_024)), insert(1, 1, "buy", 100, 3, "kill"), 11)
    yield given("12 with fill or kill", sells(many_trades(at(), 1_023)), insert(1, 1, "buy", 100, 2, "kill"), 12)
    full = full_queue(sells(many_trades(at(), 1_023)), "buy", 1, 95, 5)
    yield given("12 before 13", full, insert(1, 1, "buy", 100, 3), 12)
    yield given("13 with room for the trade", full_queue(sells(at()), "buy", 1, 95, 5), insert(1, 1, "buy", 100, 3), 13)
    yield given("10 before 13", full_queue(used_up(), "buy", 1, 95, 5), insert(1, 1, "buy", 95, 1), 10)


# "Counterparts are opposite orders: for a limit order those at its price or better; for market all; for best those at
# the best price standing on arrival. Taken by price, then number, each trades the smaller remainder. The sweep stops at
# the first order that is no counterpart, or when the lots are used up."
def counterparts():
    for side in dayfile.SIDES:
        opposite, first, second, third = {"buy": ("sell", 105, 110, 115), "sell": ("buy", 95, 90, 85)}[side]
        own = {"buy": 100, "sell": 100}[side]
        for contract in (1, 2):

            def book():
                state = rest(exchange(2, accounts=3), side, contract, (own, 1, 20, 3))
                orders = (first, 2, 1, 2), (first, 3, 12, 3), (second, 4, 3, 2), (third, 5, 4, 3)
                return rest(state, opposite, contract, *orders)

            where = f"contract {contract}, {side}"
            for price, fillable in ((own, 0), (first, 5), (second, 9), (third, 14)):
                for lots in {1: {1, 2, 4, 5, 6, fillable, fillable + 1} - {0}, 2: {2, 6}}[contract]:
                    order = insert(1, contract, side, price, lots)
                    yield given(f"{where} limit {price} of {lots}", book(), order)
            for lots in (4, 5, 6, 14, 15) if contract == 1 else (6,):
                order = insert(1, contract, side, second, lots, "immediate")
                yield given(f"{where} limit {second} of {lots}, immediate", book(), order)
                yield given(f"{where} market of {lots}", book(), market(1, contract, side, lots))
                yield given(f"{where} best of {lots}", book(), best(1, contract, side, lots))
            order = insert(1, contract, side, second, 9, "kill")
            yield given(f"{where} limit {second} of 9, fill or kill", book(), order)
        yield given(f"{side} market on no orders", exchange(), market(1, 1, side, 3))
        yield given(f"{side} best on no orders", exchange(), best(1, 1, side, 3))
        yield given(f"{side} immediate limit on no orders", exchange(), insert(1, 1, side, 100, 3, "immediate"))
        elsewhere = rest(exchange(2), opposite, 2, (first, 3, 1, 2))
        yield given(f"{side} market, orders in the other contract", elsewhere, market(1, 1, side, 3))


# "A limit order trades at the middle of buy price, sell price and last price, worked out again for each trade. Market and
# best trade at the resting price." "Average is half the sum of both prices, rounded down to a tick. First-in is the
# resting price." (ticket 6)
def trade_prices():
    for method in (0, 1, 2):
        for side in dayfile.SIDES:
            opposite, prices, limit = {"buy": ("sell", (85, 95, 110), 115), "sell": ("buy", (115, 105, 90), 85)}[side]
            for last in (80, 90, 100, 105, 120):

                def book():
                    state = exchange(accounts=3, method=method, last=last)
                    return rest(state, opposite, 1, *((price, 1, k + 1, 2) for k, price in enumerate(prices)))

                where = f"method {method}, last price {last}, {side}"
                yield given(f"{where} limit", book(), insert(1, 1, side, limit, 3))
                if last == 100:
                    yield given(f"{where} market", book(), market(1, 1, side, 3))
                    yield given(f"{where} best", book(), best(1, 1, side, 3))
    for tick, buy, sell in ((1, 104, 101), (1, 104, 102), (1, 103, 103), (5, 110, 105), (5, 110, 100), (5, 105, 90), (7, 105, 98)):
        for side in dayfile.SIDES:
            state = exchange(method=1, tick=tick, reference=105, band=20 * tick, last=tick)
            opposite, resting, limit = {"buy": ("sell", sell, buy), "sell": ("buy", buy, sell)}[side]
            rest(state, opposite, 1, (resting, 1, 1, 2))
            yield given(f"average of {buy} and {sell} by ticks of {tick}, {side}", state, insert(1, 1, side, limit, 1))
    mixed = terms(terms(exchange(3), 1, method=2), 3, method=1)
    for contract in (1, 2, 3):
        state = rest(mixed.copy(), "sell", contract, (90, 1, 1, 2))
        yield given(f"method of contract {contract} of three", state, insert(1, contract, "buy", 120, 1))


# "A good-for-day remainder rests, and every later order moves one place back." Best price first, then lower number.
def resting_places():
    for side in dayfile.SIDES:
        prices = {"buy": (95, 90, 90, 80), "sell": (105, 110, 110, 120)}[side]
        better = {"buy": 100, "sell": 100}[side]
        worse = {"buy": 75, "sell": 125}[side]
        between = {"buy": 85, "sell": 115}[side]
        for contract in (1, 2):
            for price in (better, *prices[::2], between, prices[3], worse):
                state = exchange(2, accounts=3)
                rest(state, side, contract, *((own, 2, k + 1, 2) for k, own in enumerate(prices)))
                order = insert(3, contract, side, price, 4)
                yield given(f"{side} at {price} in contract {contract}, behind or before {prices}", state, order)
        state = rest(start(exchange(), 1, 1, 5, 5), side, 1, (prices[0], 2, 7, 1, CLOSE))
        yield given(f"{side} close that rests", state, insert(1, 1, side, prices[1], 3, effect="close"))
        yield given(f"first {side} of a contract", exchange(), insert(1, 1, side, 100, 3))
        opposite = {"buy": "sell", "sell": "buy"}[side]
        crossed = rest(rest(exchange(), side, 1, (prices[0], 1, 1, 2)), opposite, 1, (better, 2, 2, 2))
        yield given(f"{side} that trades and rests first", crossed, insert(1, 1, side, better, 5))
        last = counts(full_queue(exchange(), side, 1, prices[1], 1, 63), next=10**6 - 1)
        yield given(f"the 64th {side}, in front", last, insert(1, 1, side, prices[0], 5))


# "An account may meet its own order; the buyer's leg is booked first. Buy open adds long, sell open adds short, sell close
# lowers long, buy close lowers short."
def booked_legs():
    for side in dayfile.SIDES:
        opposite = {"buy": "sell", "sell": "buy"}[side]
        for effect in dayfile.EFFECTS:
            for resting_effect in (OPEN, CLOSE):
                for other in (1, 2):
                    state = exchange(2, accounts=3)
                    for account in (1, 2):
                        start(start(state, account, 1, 6, 7), account, 2, 8, 9)
                    rest(state, opposite, 2, (100, 2, 1, other, resting_effect), (100, 3, 2, other, resting_effect))
                    name = f"{side} {effect} meets account {other}'s {dayfile.EFFECTS[resting_effect]}"
                    yield given(name, state, insert(1, 2, side, 100, 4, effect=effect))
    # The buyer's leg first: what is bought in a trade may be sold in it.
    state = rest(exchange(), "buy", 1, (100, 2, 1))
    yield given("a sell close of lots that are bought in the trade", state, insert(1, 1, "sell", 100, 2, effect="close"), 8)
    held = rest(start(exchange(), 1, 1, long=2), "buy", 1, (100, 2, 1))
    yield given("a sell close against an open of one's own", held, insert(1, 1, "sell", 100, 2, effect="close"))
    held = rest(start(exchange(), 1, 1, short=2), "sell", 1, (100, 2, 1))
    yield given("a buy close against an open of one's own", held, insert(1, 1, "buy", 100, 2, effect="close"))


# "cancel 2, 3, 4, 14, 15"
def cancels():
    def book(**fields):
        state = exchange(2, accounts=3, **fields)
        start(state, 1, 1, 5, 5)
        rest(state, "buy", 1, (95, 2, 1), (95, 3, 2, 2), (90, 4, 3, 3))
        rest(state, "sell", 1, (105, 5, 4, 3), (110, 5, 5, 1, CLOSE), (110, 7, 6, 2))
        return rest(rest(state, "buy", 2, (95, 8, 7, 2)), "sell", 2, (105, 9, 8))

    owners = {1: 1, 2: 2, 3: 3, 4: 3, 5: 1, 6: 2}
    for number, owner in owners.items():
        yield given(f"cancel of order {number}", book(), dayfile.cancel(owner, 1, number))
        for account in (1, 2, 3):
            if account != owner:
                yield given(f"cancel of order {number} by account {account}", book(), dayfile.cancel(account, 1, number), 15)
    yield given("cancel in contract 2", book(), dayfile.cancel(1, 2, 8))
    for number in (0, 7, 8, 9, 97, 98, 99, 100, 2**32 - 1):
        yield given(f"cancel of order {number} in contract 1", book(), dayfile.cancel(2, 1, number), 14)
    yield given("cancel of an order of contract 1 in contract 2", book(), dayfile.cancel(1, 2, 1), 14)
    yield given("cancel of the only order", rest(exchange(), "buy", 1, (95, 2, 1)), dayfile.cancel(1, 1, 1))
    for account in (0, 4, 255):
        yield given(f"cancel of account {account}", book(), dayfile.cancel(account, 1, 1), 2)
    for contract in NO_CONTRACT:
        yield given(f"cancel in contract {contract}", book(), dayfile.cancel(1, contract, 1), 3)
    yield given("cancel: 2 before 3", book(), dayfile.cancel(0, 0, 1), 2)
    yield given("cancel: 2 before 4", book(phase=CLOSED), dayfile.cancel(4, 1, 1), 2)
    yield given("cancel: 2 before 14", book(), dayfile.cancel(4, 1, 9), 2)
    yield given("cancel: 3 before 14", book(), dayfile.cancel(1, 3, 9), 3)
    for phase in (PRE_OPEN, CONTINUOUS, NO_TRADING, CLOSED):
        for operator in (False, True):
            code = 0 if phase == CONTINUOUS or (phase == NO_TRADING and operator) else 4
            where = f"in state {phase}, operator {operator}"
            yield given(f"cancel {where}", book(phase=phase), dayfile.cancel(1, 1, 1, operator), code)
            yield given(f"cancel of nothing {where}", book(phase=phase), dayfile.cancel(1, 1, 9, operator), code or 14)
            yield given(f"cancel of another's {where}", book(phase=phase), dayfile.cancel(3, 1, 1, operator), code or 15)
            yield given(f"pull {where}", book(phase=phase), dayfile.pull(1, 1, operator), code)
            other = terms(book(), 2, phase=phase)
            yield given(f"cancel in contract 2 alone {where}", other, dayfile.cancel(1, 2, 8, operator), code)
            yield given(f"pull in contract 2 alone {where}", other.copy(), dayfile.pull(2, 2, operator), code)
    full = full_queue(exchange(), "buy", 1, 95, 1)
    for number in (1, 32, 64):
        yield given(f"cancel of order {number} of 64", full.copy(), dayfile.cancel(1, 1, number))


# "pull 2, 3, 4": "A pull removes all orders of that account in that contract, perhaps none, and gives order number 0."
def pulls():
    def book(**fields):
        state = exchange(2, accounts=3, **fields)
        start(state, 1, 1, 9, 9)
        rest(state, "buy", 1, (95, 2, 1), (95, 3, 2, 2), (90, 4, 3), (85, 5, 4, 2), (80, 6, 5, 1, CLOSE))
        rest(state, "sell", 1, (105, 5, 6, 2), (110, 5, 7, 1, CLOSE), (110, 7, 8, 2), (115, 2, 9), (120, 3, 10, 2))
        return rest(rest(state, "buy", 2, (95, 8, 11, 2)), "sell", 2, (105, 9, 12))

    for account in (1, 2, 3):
        for contract in (1, 2):
            yield given(f"pull of account {account} in contract {contract}", book(), dayfile.pull(account, contract))
    for account in (0, 4, 255):
        yield given(f"pull of account {account}", book(), dayfile.pull(account, 1), 2)
    for contract in NO_CONTRACT:
        yield given(f"pull in contract {contract}", book(), dayfile.pull(1, contract), 3)
    yield given("pull: 2 before 3", book(), dayfile.pull(4, 3), 2)
    yield given("pull: 2 before 4", book(phase=CLOSED), dayfile.pull(4, 1), 2)
    yield given("pull of nothing in closed", exchange(phase=CLOSED), dayfile.pull(1, 1), 4)
    yield given("pull of nothing in continuous", exchange(), dayfile.pull(1, 1))
    full = full_queue(full_queue(exchange(), "buy", 1, 95, 1), "sell", 1, 105, 65 - 30, 64)
    yield given("pull of 128 orders", counts(renumbered(full), next=200), dayfile.pull(1, 1))


# The sells' numbers and stamps behind the buys'.
def renumbered(state):
    for place in range(64):
        change_order(state, "sell", 1, place, number=101 + place, stamp=401 + place)
    return state


# "state 3, 17": "0 to 1, 0 to 3, 1 to 2, 2 to 1, 1 to 3, 2 to 3"
def state_changes():
    listed = {(0, 1), (0, 3), (1, 2), (2, 1), (1, 3), (2, 3)}
    for before in range(4):
        for after in range(4):
            code = 0 if (before, after) in listed else 17
            book = rest(rest(exchange(phase=before), "buy", 1, (95, 2, 1)), "sell", 1, (105, 2, 2))
            yield given(f"state {before} to {after}", book, Command(6, contract=1, flags=after), code)
    for contract in NO_CONTRACT:
        yield given(f"state of contract {contract}", exchange(2), Command(6, contract=contract, flags=2), 3)
        yield given(f"state of contract {contract}, to itself", exchange(2), Command(6, contract=contract, flags=1), 3)
    for contract in (1, 2, 4):
        state = exchange(4)
        yield given(f"state of contract {contract} of four", state, Command(6, contract=contract, flags=3))
        others = terms(exchange(4, phase=PRE_OPEN), contract, phase=CONTINUOUS)
        yield given(f"state of contract {contract} alone", others, Command(6, contract=contract, flags=2))


# "settle 18, 19": "18: settle: a contract is not closed", "19: settle: 250 made already"
def refused_settlements():
    for contracts in (1, 2, 4):
        yield given(f"settlement of {contracts} contracts", exchange(contracts, phase=CLOSED), dayfile.settle())
        for contract in {1, contracts}:
            for phase in (PRE_OPEN, CONTINUOUS, NO_TRADING):
                state = terms(exchange(contracts, phase=CLOSED), contract, phase=phase)
                yield given(f"settlement, contract {contract} of {contracts} in state {phase}", state, dayfile.settle(), 18)
    for made, code in ((249, 0), (250, 19)):
        state = counts(exchange(phase=CLOSED), settlements=made)
        yield given(f"settlement after {made}", state, dayfile.settle(), code)
    yield given("settlement: 18 before 19", counts(exchange(phase=NO_TRADING), settlements=250), dayfile.settle(), 18)


# "Settlement price: the day's trades weighted by lots, rounded down, then down to a tick (house). No trade: with both
# sides quoted, the middle of best buy, best sell and reference; otherwise the reference (house)."
def settlement_prices():
    def closed(**fields):
        return exchange(2, accounts=3, phase=CLOSED, **fields)

    def with_trades(state, contract, *trades):
        for price, lots in trades:
            traded(state, contract, price, lots, 1, 2)
        return state

    by_one = dict(tick=1, reference=100, band=10)
    for name, state in (
        ("3 at 102 and 2 at 103", with_trades(closed(**by_one), 1, (102, 3), (103, 2))),
        ("2 at 102 and 3 at 103", with_trades(closed(**by_one), 1, (102, 2), (103, 3))),
        ("2 at 102 and 2 at 104", with_trades(closed(**by_one), 1, (102, 2), (104, 2))),
        ("by ticks of 5: 1 at 100 and 9 at 105", with_trades(closed(), 1, (100, 1), (105, 9))),
        ("by ticks of 5: 9 at 105", with_trades(closed(), 1, (105, 9))),
        ("by ticks of 7: 1 at 98 and 2 at 119", with_trades(closed(tick=7, reference=98, band=49, last=7), 1, (98, 1), (119, 2))),
        ("trades in contract 2 alone", with_trades(closed(), 2, (110, 3), (130, 1))),
        ("trades in both", with_trades(with_trades(closed(), 2, (110, 3), (130, 1)), 1, (90, 1))),
        ("trades and quotes", rest(rest(with_trades(closed(), 1, (110, 3)), "buy", 1, (120, 1, 5)), "sell", 1, (125, 1, 6))),
    ):
        yield given(f"settlement price: {name}", state, dayfile.settle())
    for buy, sell in ((90, 95), (95, 105), (105, 110), (100, 105), (95, 100)):
        for contract in (1, 2):
            state = closed(last=140)
            rest(rest(state, "buy", contract, (buy, 1, 1), (60, 9, 2)), "sell", contract, (sell, 1, 3), (130, 9, 4))
            yield given(f"settlement price: buy {buy}, sell {sell}, reference 100, contract {contract}", state, dayfile.settle())
    for side, price in (("buy", 120), ("sell", 80)):
        state = rest(closed(last=140), side, 1, (price, 1, 1))
        yield given(f"settlement price: a {side} alone", state, dayfile.settle())
        split = rest(rest(closed(last=140), "buy", 1, (110, 1, 1)), "sell", 2, (120, 1, 2))
        yield given(f"settlement price: buys and sells in different contracts, {side}", split, dayfile.settle())


# "Profit follows Article 32: closing and holding parts, start-of-day lots against the reference, today's against their
# opening price, times multiplier. The balance takes both." "Closes use start-of-day lots first, then today's in trade
# order (house)."
def profits():
    def closed(**fields):
        return exchange(2, accounts=3, phase=CLOSED, **fields)

    def settled(name, state):
        return given(f"profit: {name}", state, dayfile.settle())

    yield settled("long and short from the start", traded(start(start(closed(), 1, 1, 3, 1), 2, 1, 1, 3), 1, 110, 1, 3, 3))
    yield settled("opened today", traded(traded(closed(), 1, 110, 2, 1, 2), 1, 120, 2, 2, 3))
    for long, opened, closing in ((3, 0, 2), (3, 0, 3), (3, 2, 3), (3, 2, 4), (3, 2, 5), (0, 3, 2)):
        state = start(start(closed(), 1, 1, long=long), 2, 1, short=long)
        if opened:
            traded(state, 1, 110, opened, 1, 2)
        traded(state, 1, 120, closing, 3, 1, sellclose=CLOSE)
        traded(state, 1, 90, closing, 2, 3, buyclose=CLOSE, sellclose=CLOSE)
        yield settled(f"{closing} closed of {long} from the start and {opened} of today", state)
    order = traded(traded(traded(closed(), 1, 90, 1, 1, 2), 1, 110, 2, 1, 2), 1, 120, 1, 1, 2)
    traded(traded(order, 1, 100, 2, 2, 1, buyclose=CLOSE, sellclose=CLOSE), 1, 95, 1, 2, 1, buyclose=CLOSE, sellclose=CLOSE)
    yield settled("today's lots are closed in trade order", order)
    between = traded(traded(traded(closed(), 1, 90, 1, 1, 2), 1, 130, 1, 2, 1, buyclose=CLOSE, sellclose=CLOSE), 1, 110, 1, 1, 2)
    yield settled("a close between two opens", between)
    self_trade = traded(closed(), 1, 110, 2, 1, 1, sellclose=CLOSE)
    yield settled("an account sells what it buys in the trade", traded(self_trade, 1, 130, 1, 2, 3))
    both = traded(start(closed(), 1, 1, 2, 2), 1, 110, 2, 1, 1, buyclose=CLOSE, sellclose=CLOSE)
    yield settled("an account closes both sides with itself", traded(both, 1, 130, 1, 2, 3))
    opens = traded(traded(closed(), 1, 110, 2, 1, 1), 1, 120, 1, 2, 3)
    yield settled("an account opens both sides with itself", opens)
    two = terms(closed(), 2, multiplier=7, reference=200, last=200)
    traded(traded(start(start(two, 1, 1, long=2), 1, 2, short=3), 1, 110, 1, 1, 2), 2, 190, 2, 3, 1)
    yield settled("two contracts, each times its own multiplier", two)
    apart = traded(traded(start(closed(), 1, 2, long=2), 1, 110, 2, 2, 3), 2, 110, 1, 3, 1, sellclose=CLOSE)
    yield settled("trades of other contracts and accounts", apart)
    margin = terms(rest(rest(start(closed(rate=777), 1, 1, 3, 4), "buy", 1, (95, 9, 5)), "sell", 2, (105, 9, 6)), 2, rate=1)
    yield settled("the margin afterwards is of the holdings alone, at the new reference", traded(margin, 1, 120, 5, 2, 3))
    top = 10**18
    rich = balance(balance(traded(traded(closed(), 1, 90, 2, 1, 2), 1, 110, 2, 3, 3), 1, top), 2, -top)
    yield settled("balances that leave the range of a payment", rich)
    largest = exchange(
        multiplier=1_000, tick=1, reference=10**6, band=10**6, limit=100_000, rate=10_000, phase=CLOSED
    )
    start(start(largest, 1, 1, long=100_000), 2, 1, short=100_000)
    yield settled("the largest loss of a day", rest(rest(largest, "buy", 1, (1, 1, 1, 2)), "sell", 1, (2, 1, 2)))


# "Then resting orders go, holdings become start-of-day, trades and order numbers start afresh, the settlement price
# becomes the reference, contracts return to pre-open." The last price "passes from day to day".
def mornings_after():
    state = exchange(3, accounts=4, phase=CLOSED, last=120)
    start(start(state, 1, 1, 2, 3), 2, 2, 4, 5)
    traded(traded(state, 1, 110, 2, 1, 2, 31, 32), 2, 90, 3, 2, 3, 33, 34, buyclose=CLOSE)
    rest(state, "buy", 1, (95, 2, 1), (90, 2, 2, 2))
    rest(state, "sell", 1, (105, 2, 3), (110, 1, 4, 1, CLOSE))
    rest(state, "buy", 3, (95, 2, 5, 4))
    yield given("all that a settlement leaves", state, dayfile.settle())
    full = many_trades(exchange(1, accounts=3, phase=CLOSED), 1_024)
    full_queue(full_queue(full, "buy", 1, 95, 1), "sell", 1, 105, 1)
    yield given("a settlement of a full day", counts(renumbered(full), next=10**6), dayfile.settle())
    for last in (80, 100, 145, 160):
        morning = counts(exchange(reference=100, last=last), settlements=1, next=2)
        rest(morning, "sell", 1, (90, 1, 1, 2))
        yield given(f"the first trade of a morning whose last price is {last}", morning, insert(1, 1, "buy", 150, 1))
