"""Cases of market makers' quotes (document 02, ticket 7), for every call that meets them."""

from casebook import *
from cases_bundle import bundle
from cases_command import NO_CONTRACT, many_trades, renumbered
from cases_mending import accepted, head, records
from cases_question import asked as question
from dayfile import Command


def cases():
    yield from placed()
    yield from replaced()
    yield from trading()
    yield from places_between_the_steps()
    yield from refusals()
    yield from refused_by_holding()
    yield from refused_by_money()
    yield from refused_at_the_sell()
    yield from numbers_and_stamps()
    yield from room_for_trades()
    yield from full_sides()
    yield from order_of_refusals()
    yield from marks()
    yield from other_calls()


# Account 1 is a maker and account 2 is none; others' orders rest at 90 and 95, at 105 and 110.
def book(contract=1, state=None, **fields):
    state = makers(exchange(2, accounts=3, **fields) if state is None else state, 1, 3)
    rest(state, "buy", contract, (95, 2, 11, 2), (95, 3, 12, 3), (90, 4, 13, 2))
    return rest(state, "sell", contract, (105, 3, 21, 2), (105, 2, 22, 3), (110, 5, 23, 2))


# The same with a quote of account 1 at 95 and 105, of 6 lots each or what is left of them.
def with_quote(contract=1, buy=6, sell=6, state=None, **fields):
    state = makers(exchange(2, accounts=3, **fields) if state is None else state, 1, 3)
    old = lambda price, lots, number: [(price, lots, number, 1, OPEN, 300 + number, 1)] if lots else []
    rest(state, "buy", contract, (95, 2, 11, 2), *old(95, buy, 15), (95, 3, 18, 3), (90, 4, 19, 2))
    return rest(state, "sell", contract, (105, 3, 21, 2), *old(105, sell, 25), (105, 2, 28, 3), (110, 5, 29, 2))


# "places a buy and a sell good-for-day limit open with equal lots"
def placed():
    for contract in (1, 2):
        for buy, sell in ((95, 105), (100, 105), (95, 100), (90, 110), (85, 115), (50, 150), (50, 100), (100, 150)):
            for lots in (1, 7):
                yield given(f"quote in contract {contract}: {buy} to {sell}, {lots} lots", book(contract), quote(1, contract, buy, sell, lots))
    yield given("quote in an empty book", makers(exchange(), 1), quote(1, 1, 95, 100, 3))
    yield given("quote of 1,000 lots", makers(exchange(), 1), quote(1, 1, 95, 100, 1_000))
    yield given("quote of account 32 of 32, contract 4 of 4", makers(exchange(4, accounts=32), 32), quote(32, 4, 95, 100, 3))
    yield given("quote beside another maker's", quoted(quoted(exchange(), 1, (95, 4, 1), (105, 4, 2), account=2), 1), quote(1, 1, 95, 105, 3))
    yield given("quote beside one's own in the other contract", quoted(exchange(2), 2, (95, 4, 1), (105, 4, 2)), quote(1, 1, 95, 105, 3))
    own = rest(rest(makers(exchange(), 1), "buy", 1, (95, 4, 1)), "sell", 1, (105, 4, 2))
    yield given("quote beside orders of one's own that are none", own, quote(1, 1, 95, 105, 3))
    held = start(makers(exchange(), 1), 1, 1, 5, 5)
    rest(rest(held, "buy", 1, (95, 4, 1, 1, CLOSE)), "sell", 1, (105, 4, 2, 1, CLOSE))
    yield given("quote beside closes of one's own", held, quote(1, 1, 95, 105, 3))


# "The account's earlier quote in that contract [...] is removed first": what is left of it, two orders, one or none
def replaced():
    for left in ((6, 6), (6, 2), (1, 6), (6, 0), (0, 6), (0, 0)):
        for contract in (1, 2):
            for buy, sell in ((95, 105), (90, 110), (100, 105)) if contract == 1 else ((95, 110),):
                state = with_quote(contract, *left)
                yield given(f"contract {contract}, {left} lots left: {buy} to {sell}", state, quote(1, contract, buy, sell, 4))
        other = rest(rest(with_quote(1, *left), "buy", 2, (95, 1, 31)), "sell", 2, (105, 1, 32))
        yield given(f"{left} lots left in contract 1: a quote in contract 2", other, quote(1, 2, 95, 105, 4))
        yield given(f"{left} lots left of account 1: a quote of account 3", with_quote(1, *left), quote(3, 1, 95, 105, 4))
    for account, contract in ((1, 1), (1, 2), (3, 1), (3, 2)):
        four = exchange(2, accounts=3)
        for number, (maker, of) in enumerate(((1, 1), (3, 1), (1, 2), (3, 2))):
            quoted(four, of, (95, 4, 2 * number + 1), (105, 4, 2 * number + 2), account=maker)
        name = f"a quote of account {account} in contract {contract}, where both makers quote both contracts"
        yield given(name, four, quote(account, contract, 90, 105, 3))
    same = quoted(exchange(), 1, (95, 4, 1), (105, 4, 2))
    yield given("the same quote again", same, quote(1, 1, 95, 105, 4))
    yield given("the quote alone in the book, higher", same.copy(), quote(1, 1, 110, 120, 4))
    yield given("the quote alone in the book, lower", same.copy(), quote(1, 1, 80, 90, 4))
    yield given("beyond its own old sell", same.copy(), quote(1, 1, 105, 110, 4))
    yield given("beyond its own old buy", same.copy(), quote(1, 1, 90, 95, 4))


# The buy may trade or the sell, also with the maker's own orders that are no quote.
def trading():
    for method in (0, 1, 2):
        for buy, sell in ((105, 110), (105, 115), (110, 115), (115, 120), (90, 95), (85, 95), (85, 90), (80, 85)):
            for lots in (2, 3, 5, 6, 10, 12):
                if method == 0 or lots in (3, 12):
                    yield given(f"method {method}: {buy} to {sell}, {lots} lots", book(method=method), quote(1, 1, buy, sell, lots))
    for buy, sell in ((105, 110), (110, 115), (90, 95), (85, 90)):
        yield given(f"with an old quote: {buy} to {sell}", with_quote(), quote(1, 1, buy, sell, 7))
        yield given(f"in contract 2: {buy} to {sell}", book(2), quote(1, 2, buy, sell, 7))
        own = rest(rest(makers(exchange(), 1), "buy", 1, (95, 4, 1), (90, 4, 2)), "sell", 1, (105, 4, 3), (110, 4, 4))
        yield given(f"meets orders of its own: {buy} to {sell}", own, quote(1, 1, buy, sell, 7))
        held = start(makers(exchange(), 1), 1, 1, 9, 9)
        rest(rest(held, "buy", 1, (95, 4, 1, 1, CLOSE)), "sell", 1, (105, 4, 2, 1, CLOSE))
        yield given(f"meets closes of its own: {buy} to {sell}", held, quote(1, 1, buy, sell, 7))
        makers_both = quoted(quoted(exchange(), 1, (95, 4, 1), (105, 4, 2), account=2), 1)
        yield given(f"meets another maker's quote: {buy} to {sell}", makers_both, quote(1, 1, buy, sell, 3))
    later = traded(book(), 2, 120, 3, 1, 2, 61, 62)
    yield given("trades after one in contract 2", later, quote(1, 1, 105, 110, 4))


# "a place in use only between the steps is set to zero"
def places_between_the_steps():
    # Buys of 1 lot at 100 and 95, quoted 2 lots at 90 and 95: the buy stands third, then the sell fills both others.
    state = rest(makers(exchange(), 1), "buy", 1, (100, 1, 1, 2), (95, 1, 2, 2))
    yield given("the third place is used between the steps", state, quote(1, 1, 90, 95, 2))
    yield given("the third place stays in use", state.copy(), quote(1, 1, 90, 100, 2))
    by_ones = rest(makers(exchange(tick=1), 1), "buy", 1, (100, 1, 1, 2), (99, 1, 2, 2))
    yield given("buys at 100 and 99, quoted at 90 and 98: the third place is used between the steps", by_ones, quote(1, 1, 90, 98, 2))
    second = rest(makers(exchange(2), 1), "buy", 2, (100, 1, 1, 2), (95, 1, 2, 2))
    yield given("the third place of contract 2 is used between the steps", second, quote(1, 2, 90, 95, 2))
    for orders in (1, 3, 10, 63):
        many = full_queue(makers(exchange(), 1), "buy", 1, 95, 1, orders, account=2)
        yield given(f"place {orders + 1} is used between the steps, {orders} filled", many, quote(1, 1, 90, 95, orders))
        if orders > 1:
            yield given(f"place {orders + 1} is used between the steps, one filled", many.copy(), quote(1, 1, 90, 95, 1))
    # The old quote's place is free for the new one.
    old = quoted(rest(exchange(), "buy", 1, (100, 1, 1, 2), (95, 1, 2, 2)), 1, (95, 5, 3), (105, 5, 4))
    yield given("the old buy's place is used between the steps", old, quote(1, 1, 90, 95, 2))
    # The old quote's sell leaves a place that the new one does not come to.
    sells = quoted(rest(exchange(), "sell", 1, (105, 1, 1, 2)), 1, (95, 5, 3), (105, 5, 4))
    yield given("the old sell's place is used again", sells, quote(1, 1, 90, 110, 2))
    yield given("the old sell's place is left, the new sell filled", rest(sells.copy(), "buy", 1, (85, 9, 5, 2)), quote(1, 1, 80, 85, 2))
    yield given("the buy takes the sells, the sell rests alone", rest(makers(exchange(), 1), "sell", 1, (105, 1, 1, 2), (110, 1, 2, 2)), quote(1, 1, 110, 115, 2))


# "after 4, code 23 if not a maker, then 24 if buy is not below sell, then the buy's code from 5 on, then the sell's"
def refusals():
    for name, value in (("flags", 1), ("flags", 0x80), ("amount", 1), ("amount", 2**63)):
        yield given(f"{name} {value}", with_quote(), quote(1, 1, 95, 105, 3)._replace(**{name: value}), 1)
    for buy, sell, lots in ((95, 105, 3), (105, 95, 3), (95, 105, 0)):
        what = f"{buy} to {sell}, {lots} lots"
        yield given(f"21: {what}", terms(with_quote(), 2, rate=0), quote(1, 1, buy, sell, lots), 21)
        for account in (0, 4, 255):
            yield given(f"account {account}: {what}", with_quote(), quote(account, 1, buy, sell, lots), 2)
        for contract in NO_CONTRACT:
            yield given(f"contract {contract}: {what}", with_quote(), quote(1, contract, buy, sell, lots), 3)
        for phase in (PRE_OPEN, NO_TRADING, CLOSED, AUCTION):
            yield given(f"state {phase}: {what}", with_quote(phase=phase), quote(1, 1, buy, sell, lots), 4)
        yield given(f"no maker: {what}", with_quote(), quote(2, 1, buy, sell, lots), 23)
    for phase in (PRE_OPEN, NO_TRADING, CLOSED, AUCTION):
        yield given(f"the other contract in state {phase}", terms(with_quote(), 2, phase=phase), quote(1, 1, 95, 105, 3))
    for buy, sell in ((100, 100), (105, 100), (100, 99), (0, 0), (2**32 - 1, 2**32 - 1), (2**32 - 1, 0), (155, 150)):
        for lots in (0, 3, 1_001):
            yield given(f"24: {buy} to {sell}, {lots} lots", with_quote(), quote(1, 1, buy, sell, lots), 24)
    for lots, code in ((0, 5), (1, 0), (1_000, 0), (1_001, 5), (2**32 - 1, 5)):
        yield given(f"{lots} lots", with_quote(), quote(1, 1, 95, 105, lots), code)
    for buy, sell, code in (
        (50, 150, 0),
        (45, 150, 7),
        (50, 155, 7),
        (0, 100, 7),
        (0, 2**32 - 1, 7),
        (49, 100, 7),
        (96, 105, 7),
        (95, 106, 7),
        (96, 106, 7),
        (95, 2**32 - 1, 7),
        (95, 151, 7),
    ):
        yield given(f"prices {buy} to {sell}", with_quote(), quote(1, 1, buy, sell, 3), code)
    own = makers(terms(exchange(2), 2, reference=200), 1)
    for buy, sell, code in ((145, 200, 7), (150, 250, 0), (200, 255, 7)):
        yield given(f"prices {buy} to {sell}, reference 200", own.copy(), quote(1, 2, buy, sell, 3), code)


# 8, of the buy and of the sell, with the old quote gone
def refused_by_holding():
    for contract in (1, 2):
        for long, short, most in ((4, 0, 6), (0, 4, 6), (4, 4, 6), (2, 5, 5), (5, 2, 5), (0, 0, 10)):
            for old in (False, True):
                for lots, code in ((most, 0), (most + 1, 8)):
                    state = terms(exchange(2, accounts=3), contract, limit=10)
                    start(state, 1, contract, long, short)
                    quoted(state, contract, (90, 1, 5) if old else None, (110, 1, 6) if old else None)
                    name = f"contract {contract}, {long} long and {short} short, old quote {old}: {lots} lots"
                    yield given(name, state, quote(1, contract, 95, 105, lots), code)
    resting = rest(rest(makers(terms(exchange(), 1, limit=10), 1), "buy", 1, (90, 3, 1)), "sell", 1, (110, 4, 2))
    for lots, code in ((6, 0), (7, 8)):
        yield given(f"{lots} lots beside 3 to buy and 4 to sell", resting.copy(), quote(1, 1, 95, 105, lots), code)
    # The buy trades: what it buys counts on its side, not on the sell's.
    for lots, code in ((6, 0), (7, 8)):
        state = start(rest(makers(terms(exchange(), 1, limit=10), 1), "sell", 1, (105, 9, 1, 2)), 1, 1, 4, 4)
        yield given(f"{lots} lots, the buy trades", state, quote(1, 1, 105, 110, lots), code)


# 9, of the buy and of the sell, with the old quote gone. The charge is 100, the larger side counts.
def refused_by_money():
    for name, held in (("nothing", {}), ("3 long", {"long": 3}), ("3 short", {"short": 3})):
        for old in (False, True):
            for money, code in ((100 * (4 + 3 * bool(held)), 0), (100 * (4 + 3 * bool(held)) - 1, 9)):
                state = start(balance(exchange(2), 1, money), 1, 1, **held)
                quoted(state, 1, (90, 4, 5) if old else None, (110, 4, 6) if old else None)
                yield given(f"4 lots with {money}, {name} held, old quote {old}", state, quote(1, 1, 95, 105, 4), code)
    two = lambda money: start(balance(makers(exchange(2), 1), 1, money), 1, 2, short=3)
    for money, code in ((700, 0), (699, 9)):
        yield given(f"4 lots with {money}, 3 short in contract 2", two(money), quote(1, 1, 95, 105, 4), code)
    # The sell is the larger side, so that the buy passes and the sell does not.
    for money, code in ((700, 0), (699, 9), (400, 9)):
        state = start(balance(makers(exchange(), 1), 1, money), 1, 1, short=3)
        yield given(f"the sell is too dear with {money}", state, quote(1, 1, 95, 105, 4), code)
    # The buy trades with the maker's own offer: nothing of it rests, but the lots are held.
    for money, code in ((800, 0), (799, 9)):
        state = rest(balance(makers(exchange(), 1), 1, money), "sell", 1, (105, 4, 1))
        yield given(f"4 lots that meet one's own 4 with {money}", state, quote(1, 1, 105, 110, 4), code)
    ruined = quoted(balance(exchange(), 1, -5), 1, (95, 1, 5), (105, 1, 6))
    yield given("with a balance below zero", ruined, quote(1, 1, 95, 105, 1), 9)


# "If either would be refused the whole quote is refused and the old one stands": what the buy did before the sell is refused
# is undone, whether it rested, traded or both; the orders that it met, their marks and the last price are as they were.
def refused_at_the_sell():
    rests, trades = (95, 100), (105, 110)
    for left in ((6, 6), (6, 0), (0, 6), (0, 0)):
        for contract in (1, 2):
            made = lambda: with_quote(contract, *left)
            where = f"contract {contract}, {left} lots left"
            for buy, lots in ((85, 4), (95, 4), (100, 4), (105, 2), (105, 3), (105, 4), (105, 9), (110, 12)):
                yield given(f"{where}: the buy at {buy} of {lots} lots, then 7", made(), quote(1, contract, buy, buy + 1, lots), 7)
            for name, prices in (("rests", rests), ("trades", trades)):
                short = terms(start(made(), 1, contract, short=7), contract, limit=13)
                yield given(f"{where}: the buy {name}, then 8", short, quote(1, contract, *prices, 7), 8)
                poor = balance(start(made(), 1, contract, short=3), 1, 699)
                yield given(f"{where}: the buy {name}, then 9", poor, quote(1, contract, *prices, 4), 9)
                last = counts(made(), next=999_999)
                yield given(f"{where}: the buy {name}, then 10", last, quote(1, contract, *prices, 4), 10)
                last = counts(made(), next_stamp=999_999)
                yield given(f"{where}: the buy {name}, then 10 of the stamp", last, quote(1, contract, *prices, 4), 10)
    # 12 of the sell: the buy rests, since of the two just one can trade.
    for left in ((6, 6), (0, 0)):
        for made, buy, sell, lots in ((1_024, 90, 95, 1), (1_023, 85, 95, 3), (1_022, 80, 85, 9)):
            state = many_trades(with_quote(1, *left, limit=2_100), made)
            yield given(f"{left} lots left, {made} trades: the buy at {buy} rests, then 12", state, quote(1, 1, buy, sell, lots), 12)
    # 13 of the sell: it finds 64 sells, although the buy took lots of the first, and others again where it took that whole.
    for old in (None, (90, 2, 90)):
        for lots, code in ((1, 13), (2, 13), (3, 0), (4, 0)):
            state = full_queue(exchange(accounts=3), "sell", 1, 105, 1, 64, lots=3, account=2)
            yield given(f"64 sells of 3 lots, old buy {old}: {lots} lots", quoted(state, 1, old), quote(1, 1, 105, 110, lots), code)
            yield given(f"64 sells of 3 lots, old buy {old}: {lots} lots that rest", state.copy(), quote(1, 1, 100, 110, lots), 13)
    # Whom the buy meets: the maker itself, to open and to close, and another maker's quote.
    for lots in (2, 4, 7):
        own = rest(rest(makers(exchange(), 1), "buy", 1, (95, 4, 1)), "sell", 1, (105, 4, 2))
        yield given(f"the buy of {lots} lots meets one's own, then 7", own, quote(1, 1, 105, 111, lots), 7)
        held = start(makers(exchange(), 1), 1, 1, 9, 9)
        rest(rest(held, "buy", 1, (95, 4, 1, 1, CLOSE)), "sell", 1, (105, 4, 2, 1, CLOSE))
        yield given(f"the buy of {lots} lots meets one's own close, then 7", held, quote(1, 1, 105, 111, lots), 7)
        both = quoted(quoted(exchange(), 1, (95, 4, 1), (105, 4, 2), account=2), 1)
        yield given(f"the buy of {lots} lots meets another maker's quote, then 7", both, quote(1, 1, 105, 111, lots), 7)
    for method in (0, 1, 2):
        state = traded(with_quote(method=method), 1, 120, 3, 2, 3, 61, 62)
        yield given(f"method {method}, after a trade: the buy trades, then 7", state, quote(1, 1, 110, 111, 9), 7)


# 10: "numbers used up" or stamps, of the buy or of the sell
def numbers_and_stamps():
    for number, stamp, code in (
        (999_998, 1_000, 0),
        (999_999, 1_000, 10),
        (10**6, 1_000, 10),
        (1_000, 999_998, 0),
        (1_000, 999_999, 10),
        (1_000, 10**6, 10),
        (999_998, 999_998, 0),
        (999_999, 999_998, 10),
        (999_998, 999_999, 10),
    ):
        state = counts(with_quote(), next=number, next_stamp=stamp)
        yield given(f"next number {number}, next stamp {stamp}", state, quote(1, 1, 95, 105, 3), code)
        yield given(f"next number {number}, next stamp {stamp}, it trades", state.copy(), quote(1, 1, 110, 115, 3), code)


# 12, of the buy or of the sell
def room_for_trades():
    for made in (1_021, 1_022, 1_023, 1_024):
        for buy, sell, lots, trades in ((95, 105, 6, 0), (105, 110, 3, 1), (105, 110, 4, 2), (110, 115, 9, 3), (90, 95, 2, 1), (90, 95, 9, 2), (85, 90, 9, 3)):
            code = 12 if made + trades > 1_024 else 0
            state = many_trades(book(limit=2_100), made)
            yield given(f"{trades} trades after {made}: {buy} to {sell}, {lots} lots", state, quote(1, 1, buy, sell, lots), code)


# 13, of the buy or of the sell, with the old quote gone
def full_sides():
    for side, own, beyond in (("buy", 95, (110, 115)), ("sell", 105, (80, 85))):
        opposite = {"buy": "sell", "sell": "buy"}[side]
        for resting in (62, 63, 64):
            # What a quote would fill on the other side: 2 lots.
            full = full_queue(makers(exchange(accounts=3), 1), side, 1, own, 1, resting, account=2)
            rest(full, opposite, 1, ({"buy": 105, "sell": 95}[side], 2, 90, 3))
            code = 13 if resting == 64 else 0
            yield given(f"{resting} {side}s: nothing trades", full, quote(1, 1, 90, 110, 3), code)
            for lots in (2, 3):
                filled = 13 if resting == 64 and lots == 3 else 0
                yield given(f"{resting} {side}s: {lots} lots, 2 can trade", full.copy(), quote(1, 1, *beyond, lots), filled)
        old = full_queue(exchange(accounts=3), side, 1, own, 1, 63, account=2)
        state = quoted(old, 1, **{side: (own, 3, 70)})
        yield given(f"64 {side}s with the old quote", state, quote(1, 1, 90, 110, 3))
        last = full_queue(makers(exchange(accounts=3), 1), side, 1, own, 1, 64, account=2)
        # The sell that would be the 65th fills a buy, and the buy that would be fills a sell.
        yield given(f"64 {side}s, the other side fills them", last, quote(1, 1, *{"buy": (90, 95), "sell": (105, 110)}[side], 3), 13 if side == "buy" else 0)


# Of two that apply the one that stands first is given; of the two orders the buy's.
def order_of_refusals():
    yield given("1 before 23", with_quote(), quote(2, 1, 95, 105, 3)._replace(flags=1), 1)
    yield given("2 before 3", with_quote(), quote(0, 0, 95, 105, 3), 2)
    yield given("3 before 23", with_quote(), quote(2, 3, 95, 105, 3), 3)
    yield given("4 before 23", with_quote(phase=CLOSED), quote(2, 1, 95, 105, 3), 4)
    yield given("4 before 24", with_quote(phase=AUCTION), quote(1, 1, 105, 95, 3), 4)
    yield given("23 before 24", with_quote(), quote(2, 1, 105, 95, 3), 23)
    yield given("23 before 5", with_quote(), quote(2, 1, 95, 105, 0), 23)
    yield given("24 before 5", with_quote(), quote(1, 1, 100, 100, 0), 24)
    yield given("24 before 7", with_quote(), quote(1, 1, 101, 101, 3), 24)
    yield given("5 before 7", with_quote(), quote(1, 1, 96, 106, 0), 5)
    limited = lambda **held: start(makers(terms(exchange(2), 1, limit=10), 1), 1, 1, **held)
    yield given("the buy's 7 before its 8", limited(long=9), quote(1, 1, 96, 105, 3), 7)
    yield given("the buy's 8 before the sell's 7", limited(long=9), quote(1, 1, 95, 106, 3), 8)
    yield given("the sell's 7 before its 8", limited(short=9), quote(1, 1, 95, 106, 3), 7)
    yield given("the buy's 8 before its 9", balance(limited(long=9), 1, 0), quote(1, 1, 95, 105, 3), 8)
    yield given("the buy's 9 before the sell's 8", balance(limited(short=9), 1, 0), quote(1, 1, 95, 105, 3), 9)
    yield given("the buy's 9 before the sell's 7", balance(limited(), 1, 0), quote(1, 1, 95, 106, 3), 9)
    used_up = lambda state: counts(state, next=10**6)
    yield given("the buy's 9 before its 10", balance(used_up(limited()), 1, 0), quote(1, 1, 95, 105, 3), 9)
    yield given("the buy's 10 before the sell's 8", used_up(limited(short=9)), quote(1, 1, 95, 105, 3), 10)
    one_left = counts(limited(short=9), next=999_999)
    yield given("the sell's 8 before its 10", one_left, quote(1, 1, 95, 105, 3), 8)
    full = full_queue(many_trades(book(), 1_024), "buy", 1, 80, 31, 61, account=2)
    yield given("the buy's 12 before its 13", full, quote(1, 1, 105, 110, 9), 12)
    both = full_queue(full_queue(makers(exchange(accounts=3), 1), "buy", 1, 80, 1, account=2), "sell", 1, 120, 65, account=3)
    yield given("the buy's 13 before the sell's 7", counts(renumbered(both), next=200), quote(1, 1, 95, 106, 3), 13)
    yield given("the sell's 13 alone", full_queue(makers(exchange(), 1), "sell", 1, 120, 1, account=2), quote(1, 1, 95, 105, 3), 13)


# "Cancel and pull treat quote orders as any other." "In a quote, any other change of an order drops that order's mark."
def marks():
    for order, price in ((15, 95), (25, 105)):
        yield given(f"cancel of {order}", with_quote(), dayfile.cancel(1, 1, order))
        yield given(f"cancel of {order} by another", with_quote(), dayfile.cancel(2, 1, order), 15)
        for lots, to in ((6, price), (5, price), (1, price), (7, price), (6, 100), (5, 100), (0, 0)):
            yield given(f"change of {order} to {lots} lots at {to}", with_quote(), change(1, 1, order, lots, to))
        # Where the mark was dropped, the order is none of the next quote.
        dropped = change_order(with_quote(), "buy" if order == 15 else "sell", 1, 1, quote=0)
        yield given(f"a quote after {order} lost its mark", dropped, quote(1, 1, 95, 105, 2))
    used_up = counts(with_quote(), next_stamp=10**6)
    yield given("fewer lots of a quote, stamps used up", used_up, change(1, 1, 15, 5, 95))
    yield given("the same lots of a quote, stamps used up", used_up.copy(), change(1, 1, 15, 6, 95))
    for operator in (False, True):
        yield given(f"pull of a quote, operator {operator}", with_quote(), dayfile.pull(1, 1, operator))
    yield given("pull of another account", with_quote(), dayfile.pull(2, 1))
    for phase, code in ((NO_TRADING, 0), (AUCTION, 0), (CLOSED, 4)):
        yield given(f"cancel of a quote by the operator in state {phase}", with_quote(phase=phase), dayfile.cancel(1, 1, 15, True), code)
        yield given(f"pull of a quote by the operator in state {phase}", with_quote(phase=phase), dayfile.pull(1, 1, True), code)
    # A partial fill keeps the mark, a whole one takes the order away.
    for lots in (1, 2, 3, 7, 8, 9, 11, 12, 15):
        yield given(f"a sell of {lots} lots", with_quote(), insert(2, 1, "sell", 90, lots))
        yield given(f"a buy of {lots} lots", with_quote(), market(2, 1, "buy", lots))
    # So does an auction's match.
    for lots in (4, 6, 9):
        crossed = quoted(exchange(phase=AUCTION, accounts=3), 1, (105, 6, 1), (110, 6, 2))
        rest(crossed, "buy", 1, (100, 2, 4, 2))
        change_order(rest(crossed, "sell", 1, (115, lots, 3, 2)), "sell", 1, 0, price=100)
        yield given(f"a match, {lots} lots of another's sell behind", crossed, dayfile.state(1, "continuous"))
        other = quoted(exchange(phase=AUCTION, accounts=3), 1, (105, 6, 1), None)
        yield given(f"a match with {lots} lots", rest(other, "sell", 1, (100, lots, 3, 2)), dayfile.state(1, "continuous"))
    yield given("a settlement takes quotes away and keeps the makers", with_quote(phase=CLOSED), dayfile.settle())
    for kind in (insert(1, 1, "buy", 95, 1), insert(3, 1, "sell", 105, 1), dayfile.deposit(1, 5), dayfile.withdraw(3, 5)):
        yield given(f"kind {kind.kind} of maker {kind.account}", with_quote(), kind)
    # A maker's mark is 0 or 1, whoever gives a command.
    for account in (1, 2, 3):
        for command in (quote(1, 1, 95, 105, 3), quote(2, 1, 95, 105, 3), dayfile.deposit(2, 5)):
            spoilt = maker_mark(with_quote(), account, 2)
            yield given(f"kind {command.kind} of account {command.account}, mark 2 of account {account}", spoilt, command, 21)


def other_calls():
    yield question("a quote is no order", book(), quote(1, 1, 95, 105, 3), 1)
    for side, price in (("buy", 105), ("sell", 95)):
        yield question(f"a {side} that quotes would fill", with_quote(), insert(2, 1, side, price, 9))
    commands = [
        quote(1, 1, 95, 105, 5),
        insert(2, 1, "sell", 95, 2),
        quote(1, 1, 90, 100, 5),
        quote(1, 1, 100, 100, 5),
        quote(2, 1, 95, 105, 5),
        change(1, 1, 103, 4, 90),
        quote(1, 1, 90, 105, 5),
        dayfile.pull(1, 1),
        Command(8, 1, 1, 1, 5, 95, 105),
    ]
    yield bundle("a bundle of quotes", makers(exchange(), 1), commands, Area(9))
    yield bundle("the last numbers", counts(makers(exchange(), 1), next=999_998), commands, Area(9))
    yield accepted("quotes are kept", head() + records(quote(0, 0, 0, 0, 0), quote(9, 9, 9, 9, 9)), 2, 0)
    flagged = quote(1, 1, 95, 105, 5)._replace(flags=1)
    yield accepted("quotes with flags are dropped", head() + records(flagged, quote(1, 1, 95, 105, 5)), 1, 1)
