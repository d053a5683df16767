"""Cases of the opening auction (document 02, ticket 4), for every call that meets contract state 4."""

from casebook import *
from cases_bundle import bundle
from cases_command import many_trades
from cases_mending import accepted, head, records
from cases_question import asked as question
from cases_statement import asked as statement
from cases_statement import lots as starting_lots
from dayfile import Command


def cases():
    yield from crossed_books()
    yield from inserts()
    yield from removals()
    yield from state_changes()
    yield from prices()
    yield from matches()
    yield from room_for_trades()
    yield from other_calls()


def auction(contracts=1, accounts=3, **fields):
    return exchange(contracts, accounts, phase=AUCTION, **fields)


TO_CONTINUOUS = Command(6, contract=1, flags=1)


# ""uncrossed" now holds in all other states, in the well-formed rule too"
def crossed_books():
    def book(state, contract, buy=105, sell=95):
        return rest(rest(state, "buy", contract, (buy, 2, 1), (90, 2, 2)), "sell", contract, (sell, 3, 3, 2), (110, 3, 4, 2))

    for contract in (1, 2):
        yield well(f"contract {contract}, crossed", book(auction(2), contract))
        yield well(f"contract {contract}, crossed, the other continuous", book(terms(auction(2), 3 - contract, phase=CONTINUOUS), contract))
        yield ill(f"contract {contract}, crossed in continuous, the other in auction", book(terms(auction(2), contract, phase=CONTINUOUS), contract))
        yield well(f"contract {contract}, best buy at best sell", book(auction(2), contract, 100, 100))
        yield well(f"contract {contract}, uncrossed", book(auction(2), contract, 95, 100))
    yield ill("buys out of order", rest(auction(), "buy", 1, (90, 1, 1), (95, 1, 2)))
    yield ill("sells out of order", rest(auction(), "sell", 1, (95, 1, 1), (90, 1, 2)))
    yield ill("a close of nothing", rest(auction(), "sell", 1, (95, 1, 1, 1, CLOSE)))


# "In auction, limit good-for-day orders rest without matching"; "in auction 6 for any insert not limit good for day, 13
# whenever the own side has 64"
def inserts():
    for side in dayfile.SIDES:
        opposite, crossing, worse = {"buy": ("sell", 110, 85), "sell": ("buy", 90, 115)}[side]

        def book(**fields):
            state = rest(auction(**fields), opposite, 1, (100, 4, 1, 2))
            return rest(start(state, 1, 1, 5, 5), side, 1, (100, 3, 2, 2))

        for price in (crossing, 100, worse):
            yield given(f"{side} at {price}", book(), insert(1, 1, side, price, 2))
            yield given(f"{side} close at {price}", book(), insert(1, 1, side, price, 2, effect="close"))
        for condition in dayfile.PRICE_CONDITIONS:
            for time in dayfile.TIME_CONDITIONS:
                if (condition, time) != ("limit", "day"):
                    price = crossing if condition == "limit" else 0
                    yield given(f"{side} {condition} {time}", book(), insert(1, 1, side, price, 2, time, "open", condition), 6)
        for resting in (63, 64):
            full = full_queue(rest(auction(), opposite, 1, (100, 4, 1, 2)), side, 1, 100, 5, resting)
            code = 13 if resting == 64 else 0
            yield given(f"{side} that would fill, {resting} rest", full, insert(1, 1, side, crossing, 2), code)
            yield given(f"{side} that would not, {resting} rest", full.copy(), insert(1, 1, side, worse, 2), code)
            yield given(f"{opposite}, {resting} {side}s rest", full.copy(), insert(1, 1, opposite, worse, 2))
        yield given(f"{side} after 1,024 trades", many_trades(book(), 1_024), insert(1, 1, side, crossing, 2))
        yield given(f"{side}: 5 before 6", book(), insert(1, 1, side, 100, 0, "kill"), 5)
        yield given(f"{side}: 6 before 7", book(), insert(1, 1, side, 101, 1, "immediate"), 6)
        yield given(f"{side}: 7", book(), insert(1, 1, side, 101, 1), 7)
        yield given(f"{side}: 6 before 8", book(), insert(1, 1, side, 100, 6, "kill", "close"), 6)
        yield given(f"{side}: 8", book(), insert(1, 1, side, 100, 6, effect="close"), 8)
        yield given(f"{side}: 9", balance(book(), 1, 699), insert(1, 1, side, 100, 2), 9)
        yield given(f"{side}: enough money", balance(book(), 1, 700), insert(1, 1, side, 100, 2))
        yield given(f"{side}: 10", counts(book(), next=10**6), insert(1, 1, side, 100, 2), 10)
        full = full_queue(counts(auction(), next=10**6), side, 1, 100, 5)
        yield given(f"{side}: 10 before 13", full, insert(1, 1, side, 100, 2), 10)
    other = terms(rest(exchange(2), "sell", 1, (100, 4, 1, 2)), 2, phase=AUCTION)
    yield given("an insert in continuous, the other contract in auction", other, insert(1, 1, "buy", 100, 2))
    yield given("the other way round", other.copy(), insert(1, 2, "buy", 100, 2))


# "cancel and pull work", with or without the operator bit
def removals():
    def book():
        state = rest(auction(2), "buy", 1, (110, 2, 1), (105, 3, 2, 2))
        return rest(state, "sell", 1, (95, 4, 3), (100, 5, 4, 2))

    for operator in (False, True):
        for number, account, code in ((1, 1, 0), (3, 1, 0), (4, 2, 0), (9, 1, 14), (2, 1, 15), (0, 1, 14)):
            name = f"cancel of order {number} by account {account}, operator {operator}"
            yield given(name, book(), dayfile.cancel(account, 1, number, operator), code)
        for account in (1, 2, 3):
            yield given(f"pull of account {account}, operator {operator}", book(), dayfile.pull(account, 1, operator))


# "reached from pre-open, left only to continuous"; "17 for other exits"
def state_changes():
    for before in range(5):
        for after in range(5):
            if 4 in (before, after):
                code = 0 if (before, after) in ((0, 4), (4, 1)) else 17
                state = rest(rest(exchange(phase=before), "buy", 1, (95, 2, 1)), "sell", 1, (105, 2, 2))
                yield given(f"state {before} to {after}", state, Command(6, contract=1, flags=after), code)
    for contract in (0, 2, 255):
        yield given(f"contract {contract} to auction", exchange(phase=PRE_OPEN), Command(6, contract=contract, flags=4), 3)
    for flags in (5, 12, 255):
        yield given(f"state flags {flags} in auction", auction(), Command(6, contract=1, flags=flags), 1)
    second = terms(exchange(2, phase=PRE_OPEN), 1, phase=CLOSED)
    yield given("contract 2 of 2 to auction", second, Command(6, contract=2, flags=4))
    yield given("a settlement, a contract in auction", terms(exchange(2, phase=CLOSED), 2, phase=AUCTION), dayfile.settle(), 18)
    yield given("a deposit", auction(), dayfile.deposit(1, 7))
    yield given("a withdrawal", auction(), dayfile.withdraw(1, 7))


# "The price is chosen among the resting prices: largest volume [...], then smallest surplus [...] whichever its sign, then
# nearest to the last price, then the higher". By ticks of 1.
def prices():
    for name, buys, sells, last in (
        ("the largest volume", ((104, 5), (102, 5)), ((101, 6), (103, 5)), 100),
        ("the largest volume at a buy", ((104, 9), (102, 1)), ((100, 4), (103, 5)), 100),
        ("the largest volume at a sell", ((104, 9), (101, 1)), ((100, 4), (102, 5)), 104),
        ("the smallest surplus, of buys", ((103, 6), (102, 2)), ((101, 5),), 101),
        ("the smallest surplus, of sells", ((103, 5),), ((101, 6), (102, 2)), 103),
        ("a surplus of 1 buy against one of 2 sells", ((104, 4), (102, 1)), ((101, 4), (103, 2)), 104),
        ("a surplus of 1 sell against one of 2 buys", ((104, 4), (102, 2)), ((101, 4), (104, 1)), 101),
        ("the nearest above", ((104, 5),), ((100, 5),), 103),
        ("the nearest below", ((104, 5),), ((100, 5),), 101),
        ("the nearest, last price far above", ((104, 5),), ((100, 5),), 999),
        ("the nearest, last price far below", ((104, 5),), ((100, 5),), 1),
        ("the higher of two that are as near", ((104, 5),), ((100, 5),), 102),
        ("one price", ((102, 5),), ((102, 3),), 90),
        ("a buy surplus alone at the best price", ((105, 2),), ((101, 1),), 100),
        ("a sell surplus alone at the best price", ((105, 1),), ((101, 2),), 100),
        ("001, first example", ((103, 2), (102, 3), (101, 4)), ((100, 3), (101, 1), (102, 1)), 100),
        ("crossed by nothing", ((100, 5),), ((101, 5),), 100),
        ("touching", ((100, 5), (99, 5)), ((100, 5), (101, 5)), 99),
    ):
        state = auction(tick=1, reference=100, band=10, last=last)
        rest(state, "buy", 1, *((price, lots, 10 + k, 1) for k, (price, lots) in enumerate(buys)))
        rest(state, "sell", 1, *((price, lots, 20 + k, 2) for k, (price, lots) in enumerate(sells)))
        yield given(f"price: {name}", state, TO_CONTINUOUS)


# "All trades are at it, best buy with best sell by price and number". "No volume, no price, no trades."
def matches():
    def matched(name, buys, sells, state=None, **fields):
        state = auction(**fields) if state is None else state
        return given(f"match: {name}", rest(rest(state, "buy", 1, *buys), "sell", 1, *sells), TO_CONTINUOUS)

    yield matched("no orders", (), ())
    yield matched("buys alone", ((100, 2, 1), (95, 2, 2)), ())
    yield matched("sells alone", (), ((100, 2, 1), (105, 2, 2)))
    yield matched("uncrossed", ((95, 2, 1),), ((100, 2, 2, 2),))
    yield matched("one pair, exactly", ((105, 2, 1),), ((95, 2, 2, 2),))
    yield matched("the buy remains", ((105, 5, 1),), ((95, 2, 2, 2),))
    yield matched("the sell remains", ((105, 2, 1),), ((95, 5, 2, 2),))
    yield matched("a buy over three sells", ((105, 9, 1),), ((90, 2, 2, 2), (90, 3, 3, 3), (95, 4, 4, 2)))
    yield matched("a sell over three buys", ((110, 2, 2, 2), (110, 3, 3, 3), (105, 4, 4, 2)), ((95, 9, 1),))
    yield matched("several on both sides", ((110, 3, 1), (105, 4, 2, 2), (100, 5, 3)), ((90, 2, 4, 3), (95, 4, 5, 2), (100, 3, 6)))
    yield matched("orders beyond the price stay", ((110, 3, 1), (90, 4, 2)), ((95, 3, 3, 2), (115, 4, 4, 2)))
    yield matched("buys below the price stay though sells remain", ((110, 3, 1), (90, 4, 2)), ((95, 9, 3, 2),), last=95)
    yield matched("sells above the price stay though buys remain", ((110, 9, 1),), ((95, 3, 3, 2), (115, 4, 4, 2)), last=110)
    yield matched("numbers at one price", ((105, 2, 7), (105, 2, 9, 2)), ((95, 2, 3, 3), (95, 1, 5, 2)))
    yield matched("an account with itself", ((105, 2, 1),), ((95, 2, 2),))
    held = start(start(auction(), 1, 1, 4, 3), 2, 1, 2, 2)
    closes = ((105, 2, 1, 1, CLOSE), (105, 1, 2, 2)), ((95, 2, 3, 2, CLOSE), (95, 1, 4, 1, CLOSE))
    yield matched("closes and opens", *closes, state=held)
    same = start(auction(), 1, 1, 2, 2)
    yield matched("an account closes both sides", ((105, 2, 1, 1, CLOSE),), ((95, 2, 2, 1, CLOSE),), state=same)
    for method in (1, 2):
        yield matched(f"method {method} plays no part", ((110, 2, 1),), ((90, 2, 2, 2),), method=method, last=100)
    later = traded(auction(2), 2, 100, 3, 1, 2, 31, 32)
    rest(later, "buy", 2, (105, 1, 8))
    yield matched("after a trade in another contract", ((105, 2, 1),), ((95, 3, 2, 2),), state=later)
    second = rest(rest(terms(exchange(2), 2, phase=AUCTION), "buy", 2, (110, 2, 1)), "sell", 2, (90, 3, 2, 2))
    yield given("match: contract 2", second, Command(6, contract=2, flags=1))
    full = auction(limit=1_000)
    full_queue(full_queue(full, "buy", 1, 105, 1, lots=2), "sell", 1, 95, 101, lots=3, account=2)
    yield given("match: 64 buys and 64 sells", counts(full, next=200), TO_CONTINUOUS)


# "then 12 for the state change if the match needs more room"
def room_for_trades():
    def crossed(made, **fields):
        state = many_trades(auction(**fields), made)
        return rest(rest(state, "buy", 1, (105, 2, 1), (105, 2, 2)), "sell", 1, (95, 3, 3, 2))

    for made, code in ((1_022, 0), (1_023, 12), (1_024, 12)):
        yield given(f"two trades after {made}", crossed(made), TO_CONTINUOUS, code)
    yield given("no trades after 1,024", many_trades(auction(), 1_024), TO_CONTINUOUS)
    yield given("17 before 12", crossed(1_024), Command(6, contract=1, flags=3), 17)
    yield given("3 before 12", crossed(1_024), Command(6, contract=2, flags=1), 3)
    preopen = terms(rest(many_trades(exchange(phase=PRE_OPEN), 1_024), "buy", 1, (95, 1, 1)), 1, phase=PRE_OPEN)
    yield given("pre-open to continuous after 1,024", preopen, TO_CONTINUOUS)
    yield given("pre-open to auction after 1,024", preopen.copy(), Command(6, contract=1, flags=4))


def other_calls():
    def book():
        state = rest(auction(), "buy", 1, (105, 2, 1), (100, 3, 2))
        return rest(state, "sell", 1, (95, 4, 3, 2), (100, 5, 4, 2))

    # "Ticket 3's answer and its 6 stay as they are, in every state."
    for side in dayfile.SIDES:
        for time in dayfile.TIME_CONDITIONS:
            yield question(f"{side} limit 100, {time}, in auction", book(), insert(1, 1, side, 100, 8, time))
        yield question(f"{side} market, in auction", book(), market(1, 1, side, 8))
        yield question(f"{side} best, in auction", book(), best(1, 1, side, 8))
        yield question(f"{side} market good for day, in auction", book(), market(1, 1, side, 8, "day"), 6)
    yield question("a state command to auction", book(), Command(6, contract=1, flags=4), 1)
    held = start(book(), 1, 1, long=2)
    yield statement("a statement in auction", held, starting_lots({1: (2, 0)}), [])
    change = Command(6, contract=1, flags=4)
    yield accepted("state flag 4 is kept", head() + records(change), 1, 0)
    day = [
        change,
        insert(1, 1, "buy", 105, 3),
        insert(2, 1, "sell", 95, 2),
        insert(2, 1, "sell", 95, 2, "immediate"),
        Command(6, contract=1, flags=3),
        TO_CONTINUOUS,
        insert(2, 1, "sell", 100, 2),
        dayfile.pull(2, 1),
    ]
    yield bundle("a bundle that holds an auction", exchange(phase=PRE_OPEN), day, Area(8))
    spoilt = terms(book(), 1, rate=0)
    yield given("21 in auction", spoilt, TO_CONTINUOUS, 21)
