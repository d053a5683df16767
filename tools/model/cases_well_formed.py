"""Cases of the whole-state test (document 01, "A state is well formed when"): each clause at its bound and beside it, in
the paper's order."""

from casebook import *

# A state is copied by nobody: each case makes its own.


def cases():
    yield from counts_in_range()
    yield from terms_in_range()
    yield from rooms()
    yield from sorted_queues()
    yield from uncrossed_queues()
    yield from resting_orders()
    yield from numbers_used_once()
    yield from stamps_used_once()
    yield from quotes()
    yield from recorded_trades()
    yield from replays()
    yield from limits()
    yield from covered_closes()
    yield from balances()


# Each value makes a state that is well formed, or one that is not.
def each(name, make, inside=(), outside=()):
    for value in inside:
        yield well(f"{name} {value}", make(value))
    for value in outside:
        yield ill(f"{name} {value}", make(value))


# "counts, numbers, [...] keep the ranges above, the next order number 1 to 1,000,000"
# "Stamps end at 999,999 a day." (document 02, ticket 8)
def counts_in_range():
    def contracts(count):
        state = exchange(contracts=min(max(count, 1), 4))
        return areas(counts(state, contract_count=count), buys=320, sells=320)

    def accounts(count):
        return counts(exchange(accounts=min(max(count, 1), 32)), account_count=count)

    def trades(count):
        state = exchange(accounts=1)
        for _ in range(count):
            traded(state, 1, 100, 1, 1, 1)
        return areas(state, trades=1_025)

    def queue(side, contracts, contract):
        price = {"buy": 95, "sell": 105}[side]
        return lambda count: full_queue(exchange(contracts, limit=100), side, contract, price, 1, count)

    yield from each("contracts", contracts, (1, 4), (0, 5, 2**63))
    yield from each("accounts", accounts, (1, 32), (0, 33, 2**63))
    yield from each("trades", trades, (0, 1_024), (1_025,))
    yield ill("2^63 trades", counts(exchange(), trade_count=2**63))
    yield from each("buys", queue("buy", 1, 1), (0, 64), (65,))
    yield from each("sells", queue("sell", 1, 1), (0, 64), (65,))
    yield from each("buys of contract 2", queue("buy", 2, 2), (64,), (65,))
    yield from each("sells of contract 2", queue("sell", 2, 2), (64,), (65,))
    yield ill("2^63 buys", counts(exchange(), order_counts={"buy": [2**63, 0, 0, 0], "sell": [0] * 4}))
    yield from each("next order number", lambda n: counts(exchange(), next=n), (1, 10**6), (0, 10**6 + 1))
    yield from each("next stamp", lambda n: counts(exchange(), next_stamp=n), (1, 10**6), (0, 10**6 + 1, 2**63))
    yield from each("settlements", lambda n: counts(exchange(), settlements=n), (0, 250), (251,))


# "[...] parameters and prices keep the ranges above [...]; references and last prices are tick multiples"
def terms_in_range():
    top = 10**6
    for contract, of in ((1, 1), (1, 2), (2, 2)):

        def field(name, **others):
            return lambda value: terms(exchange(of), contract, **{name: value}, **others)

        def tick(value):
            return terms(exchange(of), contract, tick=value, reference=2 * value, band=value, last=value)

        where = f"contract {contract} of {of}:"
        yield from each(f"{where} multiplier", field("multiplier"), (1, 1_000), (0, 1_001))
        yield from each(f"{where} tick", tick, (1, 1_000), (0, 1_001))
        yield from each(f"{where} reference", field("reference"), (5, top), (0, 99, 101, top + 5))
        yield from each(f"{where} band", field("band"), (5, top), (0, 49, 51, top + 5))
        yield from each(f"{where} limit", field("limit"), (1, 100_000), (0, 100_001))
        yield from each(f"{where} rate", field("rate"), (1, 10_000), (0, 10_001))
        yield from each(f"{where} method", field("method"), (0, 1, 2), (3, 256))
        yield from each(f"{where} state", field("phase"), range(4), (5, 256))
        yield from each(f"{where} last price", field("last"), (5, 45, 155, top), (0, 4, 99, 101, top + 5))
    yield well("largest prices by ticks of 1", exchange(tick=1, reference=top, band=top, last=top))
    yield ill("last price above the largest, by ticks of 1", exchange(tick=1, last=top + 1))
    yield ill("reference above the largest, by ticks of 1", exchange(tick=1, reference=top + 1))
    yield ill("band above the largest, by ticks of 1", exchange(tick=1, band=top + 1))


# "each queue area has room for 64 orders and the trade area for 1,024 trades"
def rooms():
    for contracts in (1, 2, 4):
        orders = 64 * contracts
        for area in ("buys", "sells"):

            def room(length):
                return areas(exchange(contracts), **{area: length})

            lengths = (orders, (orders, 1), orders + 64)
            yield from each(f"{contracts} contracts, room for {area}", room, lengths, ((orders, -1), 0))
    trade_area = lambda length: areas(exchange(), trades=length)
    yield from each("room for trades", trade_area, (1_024, (1_024, 1), 1_025), ((1_024, -1), 1, 0))


# "each queue is sorted best price first, then lower order number"; since ticket 8 "by price, then stamp", whatever the
# numbers
def sorted_queues():
    # From the best to the worst.
    prices = {"buy": (95, 90, 90, 85), "sell": (105, 110, 110, 115)}
    for side in dayfile.SIDES:
        first, second, third, fourth = prices[side]
        for contract in (1, 2):

            for numbers in ((11, 12, 13, 14), (14, 13, 12, 11), (12, 14, 11, 13)):

                def queue(*orders):
                    numbered = zip(numbers, orders)
                    return rest(exchange(2), side, contract, *((price, 1, n, 1, OPEN, stamp) for n, (price, stamp) in numbered))

                where = f"{side} orders of contract {contract} with numbers {numbers}"
                yield well(f"{where}, sorted", queue((first, 9), (second, 3), (third, 7), (fourth, 1)))
                yield ill(f"{where}, first two prices exchanged", queue((second, 3), (first, 9), (third, 7), (fourth, 1)))
                yield ill(f"{where}, last two prices exchanged", queue((first, 9), (second, 3), (fourth, 1), (third, 7)))
                yield ill(f"{where}, stamps exchanged at one price", queue((first, 9), (second, 7), (third, 3), (fourth, 1)))
                yield ill(f"{where}, first two stamps exchanged", queue((first, 5), (first, 4)))
                yield well(f"{where}, first two of one price", queue((first, 4), (first, 5)))
                yield ill(f"{where}, equal stamps at one price", queue((first, 4), (first, 4)))


# "the two are uncrossed (best buy below best sell)"
def uncrossed_queues():
    for contract in (1, 2):
        for phase in (PRE_OPEN, CONTINUOUS, NO_TRADING, CLOSED):

            def book(buy, sell):
                state = exchange(2, phase=phase)
                rest(state, "buy", contract, (buy, 1, 1), (50, 1, 2))
                return rest(state, "sell", contract, (sell, 1, 3), (150, 1, 4))

            where = f"contract {contract} in state {phase}:"
            yield well(f"{where} best buy a tick below best sell", book(100, 105))
            yield ill(f"{where} best buy at best sell", book(100, 100))
            yield ill(f"{where} best buy a tick above best sell", book(105, 100))
    other = rest(rest(exchange(2), "buy", 1, (120, 1, 1)), "sell", 2, (80, 1, 2))
    yield well("a buy in one contract above a sell in another", other)


# "resting orders have 1 to 1,000 lots, an existing account, a price allowed today, and a number below the next"
# And open or close, nothing else. Prices from 50 to 150 are allowed, by ticks of 5.
def resting_orders():
    for side, inner, other in (("buy", 100, "sell"), ("sell", 100, "buy")):
        outer = {"buy": 50, "sell": 150}[side]
        for contract, place in ((1, 0), (1, 1), (2, 1)):

            def changed(**fields):
                state = exchange(2, accounts=2)
                start(start(state, 1, contract, 5, 5), 2, contract, 5, 5)
                rest(state, side, contract, (inner, 1, 11), (inner, 1, 12), (outer, 1, 13))
                return change_order(state, side, contract, place, **fields)

            def field(name):
                return lambda value: changed(**{name: value})

            where = f"{side} {place + 1} of contract {contract}:"
            yield from each(f"{where} lots", field("lots"), (1, 1_000), (0, 1_001))
            yield from each(f"{where} account's place", field("account"), (0, 1), (2, 31, 32, 2**32 - 1))
            yield from each(f"{where} close mark", field("close"), (0, 1), (2, 2**32 - 1))
            yield from each(f"{where} off tick", field("price"), (), (99, 101))
            yield from each(f"{where} number", field("number"), (1, 99), (0, 100, 2**32 - 1))
            yield from each(f"{where} stamp", field("stamp"), ({0: (1,), 1: (699,)}[place]), (0, 700, 2**32 - 1))
            yield from each(f"{where} quote mark", field("quote"), (0,), (1, 2, 2**32 - 1))
        # The best and the worst of a side stand alone, at the two ends of the day's prices.
        alone = lambda price: rest(exchange(), side, 1, (price, 1, 1))
        yield from each(f"{side}, price", alone, (50, 55, 145, 150), (0, 45, 49, 151, 155, 10**6))
        capped = lambda price: rest(exchange(tick=7, reference=700, band=999_999, last=700), side, 1, (price, 1, 1))
        yield from each(f"{side}, wide band, price", capped, (7, 999_999), (0, 1_000_006))
        wide = lambda price: rest(exchange(tick=1, reference=10**6, band=10, last=7), side, 1, (price, 1, 1))
        yield from each(f"{side}, reference of a million, price", wide, (999_990, 10**6), (999_989, 10**6 + 1))
        low = lambda price: rest(exchange(tick=5, reference=20, band=20, last=5), side, 1, (price, 1, 1))
        yield from each(f"{side}, band as large as the reference, price", low, (5, 40), (0, 45))
        own_band = lambda price: rest(terms(exchange(2), 2, reference=200), side, 2, (price, 1, 1))
        yield from each(f"{side}, contract 2 with a reference of its own, price", own_band, (150, 250), (145, 255))


# "used once over all queues"
def numbers_used_once():
    places = [(side, contract) for contract in (1, 2) for side in dayfile.SIDES]
    prices = {"buy": 90, "sell": 110}
    for first in range(len(places)):
        for second in range(first, len(places)):
            for number in (4, 5):
                state = exchange(2)
                for (side, contract), own, stamp in ((places[first], 4, 301), (places[second], number, 302)):
                    rest(state, side, contract, (prices[side], 1, own, 1, OPEN, stamp))
                verdict = well if number == 5 else ill
                where = " and ".join(f"a {side} of contract {contract}" for side, contract in (places[first], places[second]))
                yield verdict(f"numbers 4 and {number}: {where}", state)


# A stamp is "used once, below the next": over all queues (document 02, ticket 8). A stamp may be another's number.
def stamps_used_once():
    places = [(side, contract) for contract in (1, 2) for side in dayfile.SIDES]
    prices = {"buy": (90, 85), "sell": (110, 115)}
    for first in range(len(places)):
        for second in range(first, len(places)):
            for stamp in (4, 5):
                state = exchange(2)
                for (side, contract), number, own, worse in ((places[first], 5, 4, 0), (places[second], 4, stamp, 1)):
                    rest(state, side, contract, (prices[side][worse], 1, number, 1, OPEN, own))
                verdict = well if stamp == 5 else ill
                where = " and ".join(f"a {side} of contract {contract}" for side, contract in (places[first], places[second]))
                yield verdict(f"stamps 4 and {stamp}: {where}", state)
    queue = lambda *stamps: rest(exchange(), "buy", 1, *((95 - 5 * k, 1, 9 - k, 1, OPEN, stamp) for k, stamp in enumerate(stamps)))
    yield well("stamps 3, 2, 1, 699 at falling prices", queue(3, 2, 1, 699))
    yield ill("stamps 3, 2, 1, 3 at falling prices", queue(3, 2, 1, 3))


# A quote is "marked in the book (at most one for each contract, account and side, on a maker's open only; well-formed
# rule too)" (document 02, ticket 7)
def quotes():
    prices = {"buy": (95, 95, 90), "sell": (105, 105, 110)}
    for side in dayfile.SIDES:
        for contract in (1, 2):

            def marked(*marks, accounts=(1, 1, 1), close=OPEN, are_makers=(1,)):
                state = start(start(exchange(2, accounts=3), 1, contract, 9, 9), 2, contract, 9, 9)
                orders = zip(prices[side], (11, 12, 13), accounts, marks)
                rest(state, side, contract, *((price, 1, n, account, close, 300 + n, mark) for price, n, account, mark in orders))
                return makers(state, *are_makers)

            where = f"{side} orders of contract {contract}"
            yield well(f"{where}: a maker's, none marked", marked(0, 0, 0))
            for place in range(3):
                one = [int(other == place) for other in range(3)]
                yield well(f"{where}: a maker's, number {place + 1} marked", marked(*one))
                yield ill(f"{where}: number {place + 1} marked and to close", marked(*one, close=CLOSE))
                yield ill(f"{where}: number {place + 1} marked, another account is the maker", marked(*one, are_makers=(2, 3)))
                yield ill(f"{where}: number {place + 1} marked, no maker", marked(*one, are_makers=()))
                yield ill(f"{where}: number {place + 1} with mark 2", marked(*(2 * mark for mark in one)))
                yield ill(f"{where}: all marked but number {place + 1}", marked(*(1 - mark for mark in one)))
            yield ill(f"{where}: all marked", marked(1, 1, 1))
            yield well(f"{where}: of three makers, all marked", marked(1, 1, 1, accounts=(1, 2, 3), are_makers=(1, 2, 3)))
            yield ill(f"{where}: of two makers, all marked", marked(1, 1, 1, accounts=(1, 2, 1), are_makers=(1, 2)))
            yield well(f"{where}: of two makers, two marked", marked(1, 1, 0, accounts=(1, 2, 1), are_makers=(1, 2)))
            yield ill(f"{where}: two marked, one of no maker", marked(1, 1, 0, accounts=(1, 2, 1), are_makers=(1,)))
    both = quoted(exchange(2), 1, (95, 1, 1), (105, 1, 2))
    yield well("both sides marked", both)
    yield well("both sides marked in two contracts", quoted(both.copy(), 2, (95, 1, 3), (105, 1, 4)))
    yield well("marked in auction, crossed", quoted(exchange(phase=AUCTION), 1, (105, 1, 1), (95, 1, 2)))
    for phase in (PRE_OPEN, NO_TRADING, CLOSED):
        yield well(f"marked in state {phase}", quoted(exchange(phase=phase), 1, (95, 1, 1), (105, 1, 2)))
    yield well("the last account of 32 is a maker", quoted(exchange(4, accounts=32), 4, (95, 1, 1), account=32))
    yield ill("the last account of 32 is none", rest(makers(exchange(4, accounts=32), 31), "buy", 4, (95, 1, 1, 32, OPEN, 301, 1)))
    yield well("every account a maker", makers(exchange(accounts=32), *range(1, 33)))
    # A maker's mark, and a quote's, has no third value; the place behind the last account is not looked at.
    for account in (1, 2, 3):
        with_mark = lambda mark: maker_mark(exchange(accounts=3), account, mark)
        yield from each(f"mark of account {account}", with_mark, (0, 1), (2, 3, 2**32, 2**32 + 1, 2**63, 2**64 - 1))
    yield ill("mark 2 of account 32", maker_mark(exchange(accounts=32), 32, 2))
    yield ill("mark 2 of the one account", maker_mark(exchange(accounts=1), 1, 2))
    yield ill("mark 2 of a maker with a quote", maker_mark(both.copy(), 1, 2))
    yield well("mark 2 behind the last account", maker_mark(exchange(accounts=3), 5, 2))
    for mark in (3, 2**31, 2**32 - 1):
        yield ill(f"quote mark {mark}", change_order(both.copy(), "buy", 1, 0, quote=mark))
        yield ill(f"quote mark {mark} of a sell", change_order(both.copy(), "sell", 1, 0, quote=mark))


# "recorded trades have existing contract and accounts, two different order numbers below the next, a price allowed
# today, 1 to 1,000 lots, and for each leg open or close"
def recorded_trades():
    for place in (0, 1):

        def changed(**fields):
            state = exchange(2, accounts=3, limit=5_000)
            for contract in (1, 2):
                for account in (1, 2, 3):
                    start(state, account, contract, 2_000, 2_000)
            traded(state, 1, 100, 1, 1, 2, 10, 11)
            traded(state, 2, 100, 1, 2, 3, 12, 13)
            return rebooked(change_trade(state, place, **fields), 3)

        def field(name):
            return lambda value: changed(**{name: value})

        where = f"trade {place + 1}:"
        yield from each(f"{where} contract's place", field("contract"), (0, 1), (2, 3, 4, 2**32 - 1))
        for who in ("buyer", "seller"):
            yield from each(f"{where} {who}'s place", field(who), (0, 1, 2), (3, 31, 32, 2**32 - 1))
        for order in ("buyorder", "sellorder"):
            yield from each(f"{where} {order}", field(order), (1, 99), (0, 100, 2**32 - 1))
        yield ill(f"{where} one order number for both", changed(buyorder=20, sellorder=20))
        yield from each(f"{where} price", field("price"), (50, 150), (0, 45, 49, 101, 151, 155))
        yield from each(f"{where} lots", field("lots"), (1, 1_000), (0, 1_001))
        for mark in ("buyclose", "sellclose"):
            yield from each(f"{where} {mark}", field(mark), (0, 1), (2, 2**32 - 1))
    for price, verdict in ((200, well), (100, ill)):
        state = traded(terms(exchange(2), 2, reference=200), 2, price, 1, 1, 2)
        yield verdict(f"a trade at {price} in contract 2, whose reference is 200", state)
    yield well("an order number in two trades", traded(traded(exchange(), 1, 100, 1, 1, 2), 1, 100, 1, 2, 1))
    resting = rest(traded(exchange(), 1, 100, 1, 1, 2, 1, 2), "buy", 1, (90, 1, 1, 2))
    yield well("a traded order's number at an order of another account", resting)


# The holdings now as the recorded trades leave them, as far as each trade says anything; the first accounts' alone.
def rebooked(state, accounts):
    recorded = [state.trades.contents[place] for place in range(state.trade_count)]
    state.trade_count = 0
    for account in range(1, accounts + 1):
        for contract in (1, 2):
            start_now = state.holdings[account - 1][contract - 1]
            hold(state, account, contract, long=start_now.startlong, short=start_now.startshort)
    for trade in recorded:
        legs_exist = trade.contract < 2 and trade.buyer < accounts and trade.seller < accounts
        if legs_exist and trade.buyclose < 2 and trade.sellclose < 2:
            fields = (trade.contract + 1, trade.price, trade.lots, trade.buyer + 1, trade.seller + 1)
            traded(state, *fields, *trade[3:5], *trade[7:9])
        else:
            state.trades.contents[state.trade_count] = trade
            state.trade_count += 1
    return state


# "replaying the day's trades over the starting holdings never goes below zero and gives the holdings now"
def replays():
    # The four holdings of either account in either contract, each wrong by a lot.
    for account in (1, 2):
        for contract in (1, 2):
            for held in ("long", "short"):
                for by in (-1, 1):
                    state = exchange(2)
                    for other in (1, 2):
                        start(state, account, other, 3, 3)
                    traded(traded(state, 1, 100, 2, 1, 2), 2, 100, 2, 2, 1)
                    lots = getattr(state.holdings[account - 1][contract - 1], held)
                    hold(state, account, contract, **{held: lots + by})
                    yield ill(f"{held} of account {account} in contract {contract} off by {by}", state)
    yield well("trades in two contracts", traded(traded(exchange(2), 1, 100, 2, 1, 2), 2, 100, 3, 2, 1))
    yield ill("no trade, and a long lot at the start alone", hold(exchange(), 1, 1, startlong=1))
    yield ill("no trade, and a short lot at the start alone", hold(exchange(), 1, 1, startshort=1))

    for lots, verdict in ((3, well), (4, ill)):
        sell_close = start(exchange(), 2, 1, long=3)
        traded(sell_close, 1, 100, lots, 1, 2, sellclose=CLOSE)
        yield verdict(f"a sell close of {lots} with 3 long", unsigned(sell_close))
        buy_close = start(exchange(), 1, 1, short=3)
        traded(buy_close, 1, 100, lots, 1, 2, buyclose=CLOSE)
        yield verdict(f"a buy close of {lots} with 3 short", unsigned(buy_close))

    # Below zero on the way, and not at the end.
    for lots in (1, 2):
        dip = traded(exchange(), 1, 100, lots, 1, 2, sellclose=CLOSE)
        yield ill(f"a sell close before the buy that opens, {lots} lots", unsigned(traded(dip, 1, 100, lots, 2, 1)))
        dip = traded(exchange(), 1, 100, lots, 1, 2, buyclose=CLOSE)
        yield ill(f"a buy close before the sell that opens, {lots} lots", unsigned(traded(dip, 1, 100, lots, 2, 1)))
    later = traded(traded(exchange(), 1, 100, 2, 2, 1), 1, 100, 2, 1, 2, sellclose=CLOSE)
    yield well("a sell close after the buy that opens", later)
    later = traded(traded(exchange(), 1, 100, 2, 2, 1), 1, 100, 2, 1, 2, buyclose=CLOSE)
    yield well("a buy close after the sell that opens", later)
    yield ill("a close of lots held in another contract", elsewhere())

    # "An account may meet its own order; the buyer's leg is booked first."
    yield well("an account sells the lots that it buys in the trade", traded(exchange(), 1, 100, 2, 1, 1, sellclose=CLOSE))
    yield ill("an account buys back what it sells in the trade", traded(exchange(), 1, 100, 2, 1, 1, buyclose=CLOSE))
    both = traded(start(exchange(), 1, 1, 2, 2), 1, 100, 2, 1, 1, buyclose=CLOSE, sellclose=CLOSE)
    yield well("an account closes both sides with itself", both)


def elsewhere():
    state = start(exchange(2), 2, 1, long=3)
    return unsigned(traded(state, 2, 100, 3, 1, 2, sellclose=CLOSE))


# Lots below zero cannot be held; where a replay would leave them, none are.
def unsigned(state):
    for of_account in state.holdings:
        for place, holding in enumerate(of_account):
            of_account[place] = Holding(*(max(lots, 0) for lots in holding))
    return state


# "starting holdings, and holdings now plus resting opens on that side, keep the limit"
def limits():
    for contract in (1, 2):
        # The other contract's limit is far off.
        def limited(limit=10):
            return terms(exchange(2), contract, limit=limit)

        def starting(held, close_side, lots):
            state = start(limited(), 2, contract, **{held: lots})
            if close_side == "sell":
                return traded(state, contract, 100, 5, 1, 2, sellclose=CLOSE)
            return traded(state, contract, 100, 5, 2, 1, buyclose=CLOSE)

        def now(side, held, lots):
            other = "short" if held == "long" else "long"
            start(start(state := limited(), 1, contract, **{held: 4, other: 9}), 2, contract, 9, 9)
            far, near = {"buy": (80, 90), "sell": (120, 110)}[side]
            rest(state, side, contract, (near, 2, 1), (near, 1, 2, 2), (far, lots - 6, 3))
            rest(state, side, 3 - contract, (near, 9, 4))
            opposite = {"buy": "sell", "sell": "buy"}[side]
            return rest(state, opposite, contract, ({"buy": 110, "sell": 90}[side], 1, 5))

        where = f"contract {contract}, limit 10:"
        for held, side in (("long", "sell"), ("short", "buy")):
            at_start = lambda lots: starting(held, side, lots)
            yield from each(f"{where} {held} at the start, 5 closed since:", at_start, (10,), (11,))
            lots_now = lambda lots: start(limited(), 1, contract, **{held: lots})
            yield from each(f"{where} {held} at the start and now:", lots_now, (10,), (11,))
        for side, held in (("buy", "long"), ("sell", "short")):
            with_opens = lambda lots: now(side, held, lots)
            yield from each(f"{where} {held} and resting {side} opens:", with_opens, (10,), (11,))
            closes = start(start(limited(), 1, contract, 10, 10), 2, contract, 10, 10)
            yield well(f"{where} {side} closes do not count", rest(closes, side, contract, (100, 10, 1, 1, CLOSE)))
    above = traded(traded(terms(exchange(), 1, limit=10), 1, 100, 11, 1, 2), 1, 100, 5, 2, 1, buyclose=CLOSE, sellclose=CLOSE)
    yield well("above the limit within the day, below it now", above)
    over = traded(terms(exchange(), 1, limit=10), 1, 100, 11, 1, 2)
    yield ill("11 lots traded today, limit 10", over)
    second = terms(exchange(accounts=32), 1, limit=10)
    yield ill("the last account of 32 above the limit", start(second, 32, 1, long=11))


# "resting closes are covered by holdings"
def covered_closes():
    for contract in (1, 2):
        for side, held in (("buy", "short"), ("sell", "long")):

            def closes(lots):
                # Account 1 holds 5 lots that may be closed, and more elsewhere; account 2 has closes of its own.
                other = "long" if held == "short" else "short"
                state = start(exchange(2), 1, contract, **{held: 5, other: 9})
                start(start(state, 2, contract, 9, 9), 1, 3 - contract, 9, 9)
                far, near = {"buy": (80, 90), "sell": (120, 110)}[side]
                rest(state, side, contract, (near, 2, 1, 1, CLOSE), (near, 9, 2, 2, CLOSE), (near, 1, 3, 1, OPEN))
                rest(state, side, contract, (far, lots - 2, 4, 1, CLOSE))
                return rest(state, side, 3 - contract, (near, 9, 5, 1, CLOSE))

            yield from each(f"contract {contract}, 5 {held}: {side} closes of", closes, (5,), (6,))
            yield ill(f"contract {contract}: a {side} close of nothing", rest(exchange(2), side, contract, (100, 1, 1, 2, CLOSE)))


# "each balance is within 10^18 plus settlements so far times 3 x 10^15, either sign"
def balances():
    for settlements in (0, 1, 250):
        most = 10**18 + settlements * 3 * 10**15
        for account in (1, 2, 32):
            for sign in (1, -1):

                def with_balance(beyond):
                    state = counts(exchange(accounts=max(account, 2)), settlements=settlements)
                    return balance(state, account, sign * (most + beyond))

                where = f"{settlements} settlements, account {account}, {'-' if sign < 0 else ''}{most} and"
                yield from each(where, with_balance, (0,), (1,))
    yield ill("the smallest balance that a record holds", balance(exchange(), 1, -(2**63)))
    yield ill("the largest balance that a record holds", balance(exchange(), 1, 2**63 - 1))
