"""Cases of the question how much an order could get (document 02, ticket 3)."""

from casebook import *
from cases_command import NO_ACCOUNT, NO_CONTRACT, many_trades, sound_commands


def asked(name, state, command, code=0):
    return case(name, "question", state, (command,), code)


def cases():
    yield from refusals()
    yield from order_of_refusals()
    yield from no_other_refusals()
    yield from answers()


# "Refusals: 21, 1, 2, 3, 5, 6, 7 as for insert, in that order, with no state test; both numbers are then 0."
def refusals():
    yield asked("21", terms(exchange(), 1, rate=0), insert(1, 1, "buy", 100, 1), 21)
    yield asked("21 before 1", terms(exchange(), 1, rate=0), dayfile.Command(0), 21)
    yield asked("21 for a short area", areas(exchange(), sells=(64, -1)), insert(1, 1, "buy", 100, 1), 21)
    # Every other kind is wrong here, sound or not.
    for kind, (state, command) in sound_commands().items():
        if kind != "insert":
            yield asked(f"a {kind} command", state, command, 1)
            yield asked(f"a malformed {kind} command", state.copy(), command._replace(flags=255, amount=1), 1)
    for kind in (0, 10, 255):
        yield asked(f"kind {kind}", exchange(), dayfile.Command(kind, 1, 1, 0, 1, 100), 1)
    sound = insert(1, 1, "buy", 100, 1)
    for fields in ({"order_number": 1}, {"amount": 1}, {"flags": 0x0C}, {"flags": 0x30}, {"flags": 0x40}, {"flags": 0x80}):
        yield asked(f"an insert with {fields}", exchange(), sound._replace(**fields), 1)
    for account in NO_ACCOUNT:
        yield asked(f"account {account}", exchange(2), insert(account, 1, "buy", 100, 1), 2)
    for contract in NO_CONTRACT:
        yield asked(f"contract {contract}", exchange(2), insert(1, contract, "buy", 100, 1), 3)
    for lots, code in ((0, 5), (1, 0), (1_000, 0), (1_001, 5)):
        yield asked(f"{lots} lots", exchange(), insert(1, 1, "buy", 100, lots), code)
    for condition in ("market", "best"):
        for time, code in (("day", 6), ("immediate", 0), ("kill", 0)):
            yield asked(f"{condition} {time}", exchange(), insert(1, 1, "buy", 0, 1, time, "open", condition), code)
        yield asked(f"{condition} with a price", exchange(), insert(1, 1, "buy", 100, 1, "kill", "open", condition), 7)
    for price, code in ((0, 7), (45, 7), (50, 0), (101, 7), (150, 0), (155, 7)):
        yield asked(f"limit {price}", exchange(), insert(1, 1, "sell", price, 1), code)
    own = terms(exchange(2), 2, reference=200)
    for price, code in ((145, 7), (150, 0), (250, 0), (255, 7)):
        yield asked(f"limit {price} in contract 2", own.copy(), insert(1, 2, "sell", price, 1), code)


def order_of_refusals():
    yield asked("1 before 2", exchange(), insert(0, 1, "buy", 100, 1)._replace(amount=1), 1)
    yield asked("2 before 3", exchange(), insert(0, 0, "buy", 100, 1), 2)
    yield asked("2 before 5", exchange(), insert(0, 1, "buy", 100, 0), 2)
    yield asked("3 before 5", exchange(), insert(1, 2, "buy", 100, 0), 3)
    yield asked("5 before 6", exchange(), market(1, 1, "buy", 0, "day"), 5)
    yield asked("5 before 7", exchange(), insert(1, 1, "buy", 101, 0), 5)
    yield asked("6 before 7", exchange(), market(1, 1, "buy", 1, "day", price=5), 6)


def no_other_refusals():
    sells = lambda state: rest(state, "sell", 1, (100, 2, 1, 2), (100, 2, 2, 2))
    for phase in (PRE_OPEN, NO_TRADING, CLOSED):
        yield asked(f"in state {phase}", sells(exchange(phase=phase)), insert(1, 1, "buy", 100, 3))
    yield asked("a close of nothing", sells(exchange()), insert(1, 1, "buy", 100, 3, effect="close"))
    yield asked("an open above the limit", sells(start(exchange(limit=10), 1, 1, long=10)), insert(1, 1, "buy", 100, 3))
    yield asked("without money", sells(balance(exchange(), 1, -1)), insert(1, 1, "buy", 100, 3))
    yield asked("order numbers used up", sells(counts(exchange(), next=10**6)), insert(1, 1, "buy", 100, 3))
    yield asked("fill or kill that is not filled", sells(exchange()), insert(1, 1, "buy", 100, 5, "kill"))
    yield asked("no room for a trade", sells(many_trades(exchange(), 1_024)), insert(1, 1, "buy", 100, 3))
    full = full_queue(sells(exchange()), "buy", 1, 95, 5)
    yield asked("no room to rest", full, insert(1, 1, "buy", 100, 5))


# "The answer is the smaller of its lots and the fillable lots; the time condition plays no part. Reading ends when the
# lots are covered or an order that is no counterpart is met. Give back the number of resting orders read, that last one
# counted".
def answers():
    for side in dayfile.SIDES:
        opposite, first, second, third = {"buy": ("sell", 105, 110, 115), "sell": ("buy", 95, 90, 85)}[side]

        def book(contracts=1, contract=1):
            orders = (first, 2, 1, 2), (first, 3, 2, 1), (second, 4, 3, 2), (third, 5, 4, 2)
            return rest(exchange(contracts), opposite, contract, *orders)

        for lots in (1, 2, 3, 5, 6, 9, 10, 14, 15):
            for price in (100, first, second, third):
                yield asked(f"{side} limit {price} of {lots}", book(), insert(1, 1, side, price, lots))
            yield asked(f"{side} market of {lots}", book(), market(1, 1, side, lots))
            yield asked(f"{side} best of {lots}", book(), best(1, 1, side, lots))
        for time in ("immediate", "kill"):
            yield asked(f"{side} limit of 10, {time}", book(), insert(1, 1, side, second, 10, time))
        for order in (insert(1, 1, side, 100, 3), market(1, 1, side, 3), best(1, 1, side, 3)):
            yield asked(f"{side} on no orders, flags {order.flags}", exchange(), order)
        yield asked(f"{side} in contract 2", book(2, 2), insert(1, 2, side, second, 10))
        yield asked(f"{side} in contract 1, orders in contract 2", book(2, 2), insert(1, 1, side, second, 10))
        full = full_queue(exchange(), opposite, 1, first, 1, lots=2)
        yield asked(f"{side} over 64 orders", full, insert(1, 1, side, first, 128))
        yield asked(f"{side} over 64 orders, one lot more", full.copy(), insert(1, 1, side, first, 129))
        yield asked(f"{side} over 63 orders and a lot", full.copy(), insert(1, 1, side, first, 127))
