"""Cases of changing a resting order, and of the time stamps that come with it (document 02, ticket 8), for every call that
meets them."""

from casebook import *
from cases_bundle import bundle
from cases_command import NO_ACCOUNT, NO_CONTRACT, many_trades
from cases_mending import accepted, head, records
from cases_question import asked as question


def cases():
    yield from places_kept()
    yield from places_lost()
    yield from removals()
    yield from refusals()
    yield from refused_by_holding()
    yield from refused_by_money()
    yield from stamps_used_up()
    yield from room_for_trades()
    yield from full_sides()
    yield from order_of_refusals()
    yield from matches()
    yield from booked_legs()
    yield from by_stamp()
    yield from other_calls()


# From the best price of a side to the worst, beyond its own prices those of the other side.
DEEPER, CROSS, BETWEEN, AT, BEHIND, FAR = range(6)
PRICES = {"buy": (110, 105, 100, 95, 90, 85), "sell": (90, 95, 100, 105, 110, 115)}
OPPOSITE = {"buy": "sell", "sell": "buy"}


# Orders 11 to 15 on the side, account 1's but for 12; 21 to 23 on the other side. 15 was given its place before 14 was.
def book(side, contract=1, state=None, **fields):
    price = PRICES[side]
    state = exchange(2, accounts=3, **fields) if state is None else state
    start(start(state, 1, contract, 50, 50), 2, contract, 50, 50)
    own = (price[AT], 5, 11), (price[AT], 4, 12, 2), (price[AT], 6, 13), (price[BEHIND], 3, 15, 1, OPEN, 317), (price[BEHIND], 2, 14, 1, CLOSE, 318)
    rest(state, side, contract, *own)
    return rest(state, OPPOSITE[side], contract, (price[CROSS], 5, 21, 2), (price[CROSS], 4, 22, 3), (price[DEEPER], 6, 23, 2, CLOSE))


# "fewer lots keep the place in the queue", "Equal lots and price change nothing."
def places_kept():
    for side in dayfile.SIDES:
        for contract in (1, 2):
            for order, lots, level, account in ((11, 5, AT, 1), (12, 4, AT, 2), (13, 6, AT, 1), (15, 3, BEHIND, 1), (14, 2, BEHIND, 1)):
                price = PRICES[side][level]
                for now in sorted({1, lots - 1, lots}):
                    name = f"{side} {order} of contract {contract}: {lots} lots to {now}"
                    yield given(name, book(side, contract), change(account, contract, order, now, price))
        alone = rest(exchange(), side, 1, (100, 2, 1))
        yield given(f"the only {side}: 2 lots to 1", alone, change(1, 1, 1, 1, 100))
        large = rest(exchange(), side, 1, (100, 1_000, 1))
        yield given(f"a {side} of 1,000 lots to itself", large, change(1, 1, 1, 1_000, 100))
        yield given(f"a {side} of 1,000 lots to 999", large.copy(), change(1, 1, 1, 999, 100))


# "more lots or another price lose it". What is left rests behind all of its price, with its number and a new stamp.
def places_lost():
    for side in dayfile.SIDES:
        for contract in (1, 2):
            for order, lots, level in ((11, 5, AT), (13, 6, AT), (15, 3, BEHIND), (14, 2, BEHIND)):
                price = PRICES[side][level]
                yield given(f"{side} {order} of contract {contract}: one lot more", book(side, contract), change(1, contract, order, lots + 1, price))
                for to in {1: (BETWEEN, AT, BEHIND, FAR), 2: (BETWEEN, FAR)}[contract]:
                    if to == level:
                        continue
                    for now in sorted({1, lots - 1, lots, lots + 1}):
                        name = f"{side} {order} of contract {contract}: to price {PRICES[side][to]} with {now} lots"
                        yield given(name, book(side, contract), change(1, contract, order, now, PRICES[side][to]))
        alone = rest(exchange(), side, 1, (100, 2, 1))
        yield given(f"the only {side}: one lot more", alone, change(1, 1, 1, 3, 100))
        yield given(f"the only {side}: a tick higher", alone.copy(), change(1, 1, 1, 2, 105))
        yield given(f"the only {side}: a tick lower", alone.copy(), change(1, 1, 1, 2, 95))
        for price in (50, 150):
            yield given(f"the only {side}: to price {price}", alone.copy(), change(1, 1, 1, 2, price))
        yield given(f"the only {side}: to 1,000 lots", alone.copy(), change(1, 1, 1, 1_000, 100))


# "Zero lots removes the order, its price not looked at."
def removals():
    for side in dayfile.SIDES:
        for contract in (1, 2):
            for order in (11, 13, 14, 15):
                own = PRICES[side][AT if order < 14 else BEHIND]
                for price in (0, own, 101, 155, 2**32 - 1) if (contract, order) == (1, 11) else (0,):
                    name = f"{side} {order} of contract {contract}: no lots, price {price}"
                    yield given(name, book(side, contract), change(1, contract, order, 0, price))
        alone = rest(exchange(), side, 1, (100, 2, 1))
        yield given(f"the only {side}: no lots", alone, change(1, 1, 1, 0, 100))
        full = full_queue(exchange(), side, 1, 100, 1)
        for order in (1, 32, 64):
            yield given(f"{side} {order} of 64: no lots", full.copy(), change(1, 1, order, 0, 0))


# "21, 1, 2, 3, 4, 14, 15; then, unless lots are zero, 5 and 7 as for insert"
def refusals():
    buys = lambda **fields: book("buy", **fields)
    sound = change(1, 1, 11, 3, 95)
    for lots, price in ((0, 0), (5, 95), (3, 95), (9, 100)):
        what = f"to {lots} lots at {price}"
        for name, value in (("flags", 1), ("flags", 128), ("amount", 1), ("amount", 2**63)):
            yield given(f"{what}: {name} {value}", buys(), change(1, 1, 11, lots, price)._replace(**{name: value}), 1)
        yield given(f"{what}: 21", terms(buys(), 2, rate=0), change(1, 1, 11, lots, price), 21)
        for account in (0, 4, 255):
            yield given(f"{what}: account {account}", buys(), change(account, 1, 11, lots, price), 2)
        for contract in NO_CONTRACT:
            yield given(f"{what}: contract {contract}", buys(), change(1, contract, 11, lots, price), 3)
        for phase in (PRE_OPEN, NO_TRADING, CLOSED, AUCTION):
            yield given(f"{what}: in state {phase}", buys(phase=phase), change(1, 1, 11, lots, price), 4)
            other = terms(buys(), 2, phase=phase)
            yield given(f"{what}: the other contract in state {phase}", other, change(1, 1, 11, lots, price))
        for order in (0, 1, 99, 100, 2**32 - 1):
            yield given(f"{what}: order {order}", buys(), change(1, 1, order, lots, price), 14)
        elsewhere = rest(buys(), "buy", 2, (95, 5, 31))
        yield given(f"{what}: an order of contract 2", elsewhere, change(1, 1, 31, lots, price), 14)
        yield given(f"{what}: an order of contract 1 in 2", elsewhere.copy(), change(1, 2, 11, lots, price), 14)
        for account, order in ((2, 11), (3, 11), (1, 12), (1, 21), (1, 22)):
            yield given(f"{what}: order {order} by account {account}", buys(), change(account, 1, order, lots, price), 15)
    # A stamp is no number.
    yield given("a stamp for a number", buys(), change(1, 1, 311, 3, 95), 14)
    for account in NO_ACCOUNT:
        yield given(f"account {account} of 2", rest(exchange(), "buy", 1, (95, 5, 11)), change(account, 1, 11, 3, 95), 2)
    last = rest(exchange(4, accounts=32), "sell", 4, (100, 5, 11, 32))
    yield given("account 32 of 32, contract 4 of 4", last, change(32, 4, 11, 6, 100))
    for lots, code in ((1, 0), (1_000, 0), (1_001, 5), (2**31, 5), (2**32 - 1, 5)):
        yield given(f"{lots} lots", buys(), sound._replace(lots=lots), code)
        yield given(f"{lots} lots at another price", buys(), sound._replace(lots=lots, price=90), code)
    for price in (0, 5, 45, 49, 50, 51, 96, 99, 101, 150, 151, 155, 10**6, 2**32 - 1):
        for lots in (3, 5, 7):
            code = 0 if price in (50, 150) else 7
            yield given(f"{lots} lots at {price}", buys(), sound._replace(lots=lots, price=price), code)
    own = rest(terms(exchange(2), 2, reference=200), "sell", 2, (200, 2, 1))
    for price, code in ((145, 7), (150, 0), (250, 0), (255, 7)):
        yield given(f"price {price}, reference 200", own.copy(), change(1, 2, 1, 2, price), code)


# "A change that loses its place is tested as though the old order were gone": 8
def refused_by_holding():
    for contract in (1, 2):
        for side, opens, closes in (("buy", "long", "short"), ("sell", "short", "long")):
            at, behind = PRICES[side][AT], PRICES[side][BEHIND]

            def held():
                # Account 1 holds 4 lots that the side opens and 6 that it closes; 3 and 2 opens rest there, 1 and 3 closes.
                state = terms(exchange(2), contract, limit=12)
                start(state, 1, contract, **{opens: 4, closes: 6})
                start(start(state, 2, contract, 9, 9), 1, 3 - contract, 9, 9)
                mine = (at, 3, 1), (at, 2, 2), (at, 1, 3, 1, CLOSE), (at, 3, 4, 1, CLOSE), (at, 2, 5, 2)
                rest(rest(state, side, contract, *mine), side, 3 - contract, (at, 8, 6), (at, 8, 7, 1, CLOSE))
                return rest(state, OPPOSITE[side], contract, (PRICES[side][CROSS], 2, 8), (PRICES[side][CROSS], 1, 9, 1, CLOSE))

            for order, most in ((1, 6), (2, 5), (3, 3), (4, 5)):
                for lots, code in ((most, 0), (most + 1, 8)):
                    for price in (at, behind):
                        name = f"contract {contract}, {side} {order}: {lots} lots at {price}, up to {most} by the holding"
                        yield given(name, held(), change(1, contract, order, lots, price), code)
    large = rest(start(exchange(limit=100_000), 1, 1, 99_000, 99_000), "buy", 1, (95, 1_000, 1))
    yield given("1,000 lots up to a limit of 100,000", large, change(1, 1, 1, 1_000, 100))
    yield given("1,000 lots, one above it", start(large.copy(), 1, 1, 99_000, 99_000), change(1, 1, 1, 1_001, 100), 5)


# 9, with the old order gone: "An open passes if all charged margin, its lots included, is at most the balance". The
# charge is 100.
def refused_by_money():
    for side, opens, closes in (("buy", "long", "short"), ("sell", "short", "long")):
        at, behind = PRICES[side][AT], PRICES[side][BEHIND]

        def poor(money, **held):
            state = balance(exchange(2), 1, money)
            start(state, 1, 1, **held)
            return rest(state, side, 1, (at, 3, 1), (at, 2, 2))

        for price in (at, behind):
            where = f"{side} 1 to"
            for money, code in ((900, 0), (899, 9)):
                yield given(f"{where} 7 lots at {price} with {money}", poor(money), change(1, 1, 1, 7, price), code)
                state = poor(money, **{opens: 3})
                yield given(f"{where} 4 lots at {price} beside 3 {opens}, {money}", state, change(1, 1, 1, 4, price), code)
                state = poor(money, **{closes: 9})
                yield given(f"{where} 4 lots at {price} against 9 {closes}, {money}", state, change(1, 1, 1, 4, price), code)
                state = start(poor(money), 1, 2, long=3)
                yield given(f"{where} 4 lots at {price}, 3 in contract 2, {money}", state, change(1, 1, 1, 4, price), code)
        # More is charged than the balance, already.
        for money, code in ((500, 0), (499, 9), (0, 9), (-5, 9)):
            yield given(f"{where} 3 lots at {behind} with {money}", poor(money), change(1, 1, 1, 3, behind), code)
            yield given(f"{where} 2 lots at {at} with {money}", poor(money), change(1, 1, 1, 2, at))
            yield given(f"{where} 3 lots at {at} with {money}", poor(money), change(1, 1, 1, 3, at))
            yield given(f"{where} no lots with {money}", poor(money), change(1, 1, 1, 0, at))
        for money, code in ((400, 0), (399, 9)):
            yield given(f"{where} 2 lots at {behind} with {money}", poor(money), change(1, 1, 1, 2, behind), code)
        closing = lambda money: rest(start(balance(exchange(), 1, money), 1, 1, 9, 9), side, 1, (at, 3, 1, 1, CLOSE))
        yield given(f"a {side} close without money", closing(-5), change(1, 1, 1, 9, behind))
    other = start(rest(balance(exchange(), 1, 400), "buy", 1, (95, 3, 1), (95, 9, 2, 2)), 2, 1, 9, 9)
    yield given("another's lots are not charged", other, change(1, 1, 1, 4, 95))


# "10 (stamps used up, for inserts too)". "Stamps end at 999,999 a day."
def stamps_used_up():
    for stamp, code in ((999_998, 0), (999_999, 0), (10**6, 10)):
        held = lambda: counts(book("buy"), next_stamp=stamp)
        for lots, price in ((6, 95), (5, 90), (3, 90), (9, 100), (5, 105), (20, 110)):
            yield given(f"next stamp {stamp}: {lots} lots at {price}", held(), change(1, 1, 11, lots, price), code)
        yield given(f"next stamp {stamp}: a close", held(), change(1, 1, 14, 3, 95), code)
        for lots, price in ((0, 0), (0, 90), (1, 95), (4, 95), (5, 95)):
            yield given(f"next stamp {stamp}: {lots} lots at {price}, no stamp used", held(), change(1, 1, 11, lots, price))
        for order in (
            insert(1, 1, "buy", 95, 1),
            insert(1, 1, "sell", 95, 1, "immediate"),
            insert(1, 1, "sell", 100, 1, "immediate"),
            insert(1, 1, "sell", 95, 1, effect="close"),
            insert(1, 1, "buy", 105, 9, "kill"),
            market(1, 1, "buy", 1),
            best(1, 1, "sell", 1),
        ):
            yield given(f"next stamp {stamp}: an insert, flags {order.flags}, price {order.price}", held(), order, code)
        yield given(f"next stamp {stamp}: a cancel", held(), dayfile.cancel(1, 1, 11))
        yield given(f"next stamp {stamp}: a pull", held(), dayfile.pull(1, 1))
        auction = counts(book("buy", phase=AUCTION), next_stamp=stamp)
        yield given(f"next stamp {stamp}: an insert in auction", auction, insert(1, 1, "sell", 95, 1), code)
        yield given(f"next stamp {stamp}: a match", auction.copy(), dayfile.state(1, "continuous"))
        asked = counts(book("buy"), next_stamp=stamp)
        yield question(f"next stamp {stamp}: a question", asked, insert(1, 1, "buy", 105, 7))
    # Numbers are not looked at where the number stays.
    for lots, price in ((6, 95), (9, 100), (20, 110), (0, 0)):
        used_up = counts(book("buy"), next=10**6)
        yield given(f"numbers used up: {lots} lots at {price}", used_up, change(1, 1, 11, lots, price))
    both = counts(book("buy"), next=10**6, next_stamp=10**6)
    yield given("both used up: an insert", both, insert(1, 1, "buy", 95, 1), 10)
    yield given("numbers used up: an insert", counts(book("buy"), next=10**6), insert(1, 1, "buy", 95, 1), 10)
    for order, code in (
        (insert(3, 1, "buy", 95, 1, effect="close"), 8),
        (insert(1, 1, "buy", 101, 1), 7),
        (insert(1, 1, "buy", 105, 99, "kill"), 10),
        (market(1, 1, "buy", 99, "kill"), 10),
    ):
        used_up = counts(book("buy"), next_stamp=10**6)
        yield given(f"stamps used up: {code} for flags {order.flags}, price {order.price}", used_up, order, code)
    full = counts(full_queue(exchange(), "buy", 1, 95, 5), next_stamp=10**6)
    yield given("stamps used up: 10 before 13", full, insert(1, 1, "buy", 95, 1), 10)


# 12: the trades that the change would make
def room_for_trades():
    for side in dayfile.SIDES:
        price = PRICES[side]
        for made in (1_022, 1_023, 1_024):
            for trades, lots, to in ((0, 7, AT), (0, 5, BETWEEN), (1, 5, CROSS), (1, 4, CROSS), (2, 6, CROSS), (2, 20, CROSS), (3, 20, DEEPER)):
                code = 12 if made + trades > 1_024 else 0
                name = f"{side} 11 to {lots} lots at {price[to]}, {trades} trades after {made}"
                yield given(name, many_trades(book(side), made), change(1, 1, 11, lots, price[to]), code)
        for lots, to in ((0, CROSS), (5, AT), (4, AT)):
            full = many_trades(book(side), 1_024)
            yield given(f"{side} 11 to {lots} lots at {price[to]} after 1,024 trades", full, change(1, 1, 11, lots, price[to]))


# "13 never occurs here."
def full_sides():
    for side in dayfile.SIDES:
        price = PRICES[side]
        for order in (1, 32, 64):

            def full():
                state = full_queue(exchange(accounts=3), side, 1, price[AT], 1, lots=2)
                return rest(state, OPPOSITE[side], 1, (price[CROSS], 3, 70, 2), (price[DEEPER], 3, 71, 3))

            for lots, to in ((3, AT), (2, BETWEEN), (2, BEHIND), (1, FAR), (2, CROSS), (4, CROSS), (9, DEEPER), (0, AT), (1, AT), (2, AT)):
                yield given(f"{side} {order} of 64 to {lots} lots at {price[to]}", full(), change(1, 1, order, lots, price[to]))


# Of two that apply the one that stands first is given.
def order_of_refusals():
    def at(**fields):
        return rest(exchange(2, **fields), "buy", 1, (95, 2, 1))

    yield given("1 before 2", at(), change(0, 1, 1, 2, 95)._replace(flags=1), 1)
    yield given("1 before 4", at(phase=CLOSED), change(1, 1, 1, 2, 95)._replace(amount=1), 1)
    yield given("1 for no lots", at(), change(1, 1, 1, 0, 0)._replace(flags=1), 1)
    yield given("2 before 3", at(), change(0, 0, 1, 2, 95), 2)
    yield given("2 before 4", at(phase=CLOSED), change(3, 1, 1, 2, 95), 2)
    yield given("3 before 14", at(), change(1, 3, 9, 2, 95), 3)
    yield given("4 before 14", at(phase=AUCTION), change(1, 1, 9, 2, 95), 4)
    yield given("4 before 15", at(phase=NO_TRADING), change(2, 1, 1, 2, 95), 4)
    yield given("4 before 5", at(phase=CLOSED), change(1, 1, 1, 1_001, 95), 4)
    yield given("14 before 5", at(), change(1, 1, 9, 1_001, 95), 14)
    yield given("14 before 7", at(), change(1, 1, 9, 2, 101), 14)
    yield given("15 before 5", at(), change(2, 1, 1, 1_001, 95), 15)
    yield given("15 before 7", at(), change(2, 1, 1, 2, 101), 15)
    yield given("15 before 8", at(limit=2), change(2, 1, 1, 3, 95), 15)
    yield given("5 before 7", at(), change(1, 1, 1, 1_001, 101), 5)
    yield given("5 before 8", at(limit=2), change(1, 1, 1, 1_001, 95), 5)
    yield given("7 before 8", at(limit=2), change(1, 1, 1, 3, 101), 7)
    yield given("7 before 9", balance(at(), 1, 0), change(1, 1, 1, 2, 101), 7)
    yield given("7 before 10", counts(at(), next_stamp=10**6), change(1, 1, 1, 2, 101), 7)
    yield given("8 before 9", balance(at(limit=2), 1, 0), change(1, 1, 1, 3, 95), 8)
    yield given("8 before 10", counts(at(limit=2), next_stamp=10**6), change(1, 1, 1, 3, 95), 8)
    yield given("9 before 10", balance(counts(at(), next_stamp=10**6), 1, 0), change(1, 1, 1, 2, 90), 9)
    crossing = lambda state: rest(many_trades(state, 1_024), "sell", 1, (100, 1, 2, 2))
    held = start(crossing(at(limit=1_025)), 1, 1, long=1_020)
    yield given("8 before 12", held, change(1, 1, 1, 6, 100), 8)
    yield given("12 up to the limit", held.copy(), change(1, 1, 1, 5, 100), 12)
    yield given("9 before 12", balance(crossing(at()), 1, 0), change(1, 1, 1, 2, 100), 9)
    yield given("10 before 12", counts(crossing(at()), next_stamp=10**6), change(1, 1, 1, 2, 100), 10)
    yield given("12 alone", crossing(at()), change(1, 1, 1, 2, 100), 12)


# "then matched at once": as an arriving limit order good for day, by the contract's method
def matches():
    for method in (0, 1, 2):
        for side in dayfile.SIDES:
            price = PRICES[side]
            for last in (85, 100, 110):
                for lots, to in ((5, CROSS), (3, CROSS), (9, CROSS), (12, CROSS), (5, DEEPER), (12, DEEPER), (20, DEEPER)):
                    name = f"method {method}, {side} 11 to {lots} lots at {price[to]}, last price {last}"
                    yield given(name, book(side, method=method, last=last), change(1, 1, 11, lots, price[to]))
    for side in dayfile.SIDES:
        price = PRICES[side]
        for contract in (1, 2):
            for order in (13, 15, 14):
                name = f"{side} {order} of contract {contract} to 10 lots at {price[CROSS]}"
                yield given(name, book(side, contract), change(1, contract, order, 10, price[CROSS]))
        # What is left rests behind an order that has its price already.
        behind = rest(exchange(accounts=3), side, 1, (100, 2, 1, 2), (100, 3, 2), (price[AT], 9, 3))
        yield given(f"{side} 3 to the best price, behind the others there", behind, change(1, 1, 3, 9, 100))
        yield given(f"{side} 1 with more lots, behind order 2", behind.copy(), change(2, 1, 1, 3, 100))
        # A last price and trades of the day that were there before.
        later = traded(book(side), 2, 120, 3, 1, 2, 61, 62)
        yield given(f"{side} 11 crosses after a trade in contract 2", later, change(1, 1, 11, 5, price[CROSS]))
        again = traded(book(side), 1, 100, 2, 1, 2, 11, 21) if side == "buy" else traded(book(side), 1, 100, 2, 2, 1, 21, 11)
        yield given(f"{side} 11 meets order 21 once more", again, change(1, 1, 11, 5, price[CROSS]))


# "An account may meet its own order; the buyer's leg is booked first."
def booked_legs():
    for side in dayfile.SIDES:
        price = PRICES[side]
        for effect in (OPEN, CLOSE):
            for resting in (OPEN, CLOSE):
                for other in (1, 2):
                    state = exchange(2, accounts=3)
                    for account in (1, 2):
                        start(start(state, account, 1, 6, 7), account, 2, 8, 9)
                    rest(state, side, 2, (price[AT], 3, 1, 1, effect), (price[AT], 2, 2, 3))
                    rest(state, OPPOSITE[side], 2, (100, 2, 3, other, resting), (100, 3, 4, other, resting))
                    kinds = f"{dayfile.EFFECTS[effect]} meets account {other}'s {dayfile.EFFECTS[resting]}"
                    yield given(f"{side} {kinds}", state, change(1, 2, 1, 4, 100))
    held = rest(rest(start(exchange(), 1, 1, long=2), "sell", 1, (105, 2, 1, 1, CLOSE)), "buy", 1, (100, 2, 2))
    yield given("a sell close against an open of one's own", held, change(1, 1, 1, 2, 100))


# "queues, matching and auction go by price, then stamp"
def by_stamp():
    for side in dayfile.SIDES:
        price, opposite = PRICES[side], OPPOSITE[side]

        def turned(**fields):
            # The higher the number, the lower the stamp.
            state = exchange(accounts=3, **fields)
            orders = (price[CROSS], 2, 24, 2, OPEN, 301), (price[CROSS], 3, 23, 3, OPEN, 302), (price[DEEPER], 4, 22, 2, OPEN, 303)
            rest(state, opposite, 1, *orders, (price[DEEPER], 5, 21, 3, OPEN, 305))
            return rest(state, side, 1, (price[AT], 2, 15, 1, OPEN, 306), (price[AT], 2, 14, 1, OPEN, 307), (price[AT], 2, 99, 2, OPEN, 699))

        for lots in (1, 2, 3, 5, 7, 9, 10, 14):
            yield given(f"{side} limit of {lots} takes by stamp", turned(), insert(1, 1, side, price[DEEPER], lots))
            yield given(f"{side} market of {lots} takes by stamp", turned(), market(1, 1, side, lots))
            yield question(f"{side} of {lots} reads by stamp", turned(), insert(1, 1, side, price[DEEPER], lots))
        yield given(f"{side} best takes by stamp", turned(), best(1, 1, side, 3))
        for to in (BETWEEN, AT, BEHIND):
            yield given(f"{side} rests at {price[to]} by its stamp", turned(), insert(1, 1, side, price[to], 3))
        for lots in (3, 4, 9):
            yield given(f"{side} 15 with {lots} lots takes by stamp", turned(), change(1, 1, 15, lots, price[CROSS]))
        yield given(f"{side} 15 goes behind 99", turned(), change(1, 1, 15, 3, price[AT]))
        yield given(f"{side} 14 keeps its place before 99", turned(), change(1, 1, 14, 1, price[AT]))
        for account, order in ((1, 15), (1, 14), (2, 99), (2, 24), (3, 23)):
            yield given(f"{side}: cancel of order {order}", turned(), dayfile.cancel(account, 1, order))
        yield given(f"{side}: pull of account 2", turned(), dayfile.pull(2, 1))
        # An auction's match: best with best, of one price by stamp.
        auction = exchange(accounts=3, phase=AUCTION)
        rest(auction, side, 1, (100, 2, 9, 1, OPEN, 301), (100, 3, 8, 2, OPEN, 302), (100, 4, 7, 3, OPEN, 304))
        rest(auction, opposite, 1, (100, 4, 6, 3, OPEN, 303), (100, 3, 5, 1, OPEN, 305), (100, 1, 4, 2, OPEN, 306))
        yield given(f"{side}: the match goes by stamp", auction, dayfile.state(1, "continuous"))
        yield given(f"{side}: rests in auction by its stamp", auction.copy(), insert(1, 1, side, 100, 3))
    closed = rest(rest(exchange(phase=CLOSED), "buy", 1, (95, 2, 9, 1, OPEN, 1), (95, 2, 8, 1, OPEN, 2)), "sell", 1, (105, 1, 7))
    yield given("stamps start again with a settlement", counts(closed, next_stamp=10**6), dayfile.settle())
    yield given("a settlement leaves the next stamp 1", counts(exchange(phase=CLOSED), next_stamp=5, next=9), dayfile.settle())
    for number, stamp in ((1, 1), (1, 2), (5, 3), (999_999, 1), (1, 999_999), (999_999, 999_999)):
        state = counts(exchange(), next=number, next_stamp=stamp)
        yield given(f"an insert with number {number} and stamp {stamp}", state, insert(1, 1, "buy", 100, 1))
        yield given(f"a market order with number {number} and stamp {stamp}", state.copy(), market(1, 1, "buy", 1))


def other_calls():
    yield question("a change is no order", book("buy"), change(1, 1, 11, 3, 95), 1)
    commands = [
        insert(1, 1, "buy", 95, 5),
        insert(2, 1, "buy", 95, 4),
        change(1, 1, 100, 6, 95),
        change(1, 1, 100, 3, 95),
        change(1, 1, 101, 1, 95),
        insert(2, 1, "sell", 95, 5),
        change(1, 1, 100, 3, 95),
        change(1, 1, 100, 0, 0),
        change(1, 1, 100, 1, 95),
    ]
    yield bundle("a bundle of changes", exchange(), commands, Area(9))
    yield bundle("the last stamp and one more", counts(exchange(), next_stamp=999_999), commands, Area(9))
    yield accepted("changes are kept", head() + records(change(0, 0, 0, 0, 0), change(9, 9, 9, 9, 9)), 2, 0)
    flagged = change(1, 1, 1, 1, 100)._replace(flags=1)
    yield accepted("changes with flags are dropped", head() + records(flagged, change(1, 1, 1, 1, 100)), 1, 1)
