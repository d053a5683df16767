"""States made by hand for the cases of the vectors, and the cases' short forms."""

import dayfile
from bounds import MOST_ACCOUNTS, MOST_CONTRACTS, MOST_RESTING
from memory import Area, Contract, Holding, Memory, Order, Trade, room_of
from vectors import Case

PRE_OPEN, CONTINUOUS, NO_TRADING, CLOSED, AUCTION = range(5)
OPEN, CLOSE = 0, 1
RICH = 10**9

# A day in which prices from 50 to 150 by ticks of 5 are allowed. A lot's charge is 100.
TERMS = Contract(
    multiplier=10, tick=5, reference=100, band=50, limit=2_000, rate=1_000, method=0, phase=CONTINUOUS, last=100
)


def exchange(contracts=1, accounts=2, **terms):
    """A state with these contracts, all with the same terms, and rich accounts; no order number from 100 on is given, and
    no stamp from 700 on."""
    state = Memory(contract_count=contracts, account_count=accounts, next=100, next_stamp=700)
    for place in range(contracts):
        state.contracts[place] = TERMS._replace(**terms)
        for counts in state.order_counts.values():
            counts[place] = 0
    for place in range(accounts):
        state.balances[place] = RICH
        state.makers[place] = 0
        for contract in range(contracts):
            state.holdings[place][contract] = Holding()
    return state


def terms(state, contract, **fields):
    state.contracts[contract - 1] = state.contracts[contract - 1]._replace(**fields)
    return state


def counts(state, **fields):
    for name, value in fields.items():
        assert hasattr(state, name)
        setattr(state, name, value)
    return state


def balance(state, account, value):
    state.balances[account - 1] = value
    return state


# An order's stamp is no order's number, unless a case says otherwise.
FIRST_STAMP = 300


def rest(state, side, contract, *orders):
    """Orders at the end of a queue: (price, lots, number, account, OPEN or CLOSE, stamp, quote mark). What is left out is
    account 1, OPEN, a stamp that rises with the number, and no mark."""
    queue_counts = state.order_counts[side]
    for price, lots, number, *more in orders:
        account, close, stamp, mark = (*more, *(1, OPEN, FIRST_STAMP + number, 0)[len(more) :])
        place = MOST_RESTING * (contract - 1) + queue_counts[contract - 1]
        state.orders[side].contents[place] = Order(price, number, account - 1, lots, close, stamp, mark)
        queue_counts[contract - 1] += 1
    return state


def quoted(state, contract, buy=None, sell=None, account=1):
    """A maker, and its quote behind the orders of the two queues: each side's (price, lots, number), or None."""
    makers(state, account)
    for side, order in (("buy", buy), ("sell", sell)):
        if order is not None:
            price, lots, number = order
            rest(state, side, contract, (price, lots, number, account, OPEN, FIRST_STAMP + number, 1))
    return state


def makers(state, *accounts):
    for account in accounts:
        maker_mark(state, account, 1)
    return state


def maker_mark(state, account, mark):
    """An account's mark: 1 of a maker, 0 of another account, any other of none."""
    state.makers[account - 1] = mark
    return state


def change_order(state, side, contract, place, **fields):
    contents = state.orders[side].contents
    at = MOST_RESTING * (contract - 1) + place
    contents[at] = contents[at]._replace(**fields)
    return state


def hold(state, account, contract, **fields):
    of_account = state.holdings[account - 1]
    of_account[contract - 1] = of_account[contract - 1]._replace(**fields)
    return state


def start(state, account, contract, long=0, short=0):
    """Lots held at the start of the day, and now."""
    return hold(state, account, contract, long=long, short=short, startlong=long, startshort=short)


def traded(state, contract, price, lots, buyer, seller, buy_order=1, sell_order=2, buyclose=OPEN, sellclose=OPEN):
    """A recorded trade, with its legs booked. An account's number stands for the buyer and for the seller."""
    trade = Trade(contract - 1, price, lots, buy_order, sell_order, buyer - 1, seller - 1, buyclose, sellclose)
    state.trades.contents[state.trade_count] = trade
    state.trade_count += 1
    for account, side, close in ((buyer, "buy", buyclose), (seller, "sell", sellclose)):
        held = "long" if (side == "buy") == (close == OPEN) else "short"
        lots_now = getattr(state.holdings[account - 1][contract - 1], held)
        hold(state, account, contract, **{held: lots_now + (lots if close == OPEN else -lots)})
    return state


def change_trade(state, place, **fields):
    state.trades.contents[place] = state.trades.contents[place]._replace(**fields)
    return state


def areas(state, buys=None, sells=None, trades=None):
    """Other lengths of areas: records, or (records, words)."""
    for area, length in ((state.orders["buy"], buys), (state.orders["sell"], sells), (state.trades, trades)):
        if length is not None:
            area.length, area.words = length if isinstance(length, tuple) else (length, 0)
    return state


def tempting(state):
    """Room behind each count that looks like more of what is in use: whoever reads it answers otherwise."""
    contracts, accounts = state.contract_count, state.account_count
    if contracts < MOST_CONTRACTS:
        state.contracts[contracts] = TERMS._replace(multiplier=3, phase=PRE_OPEN)
        for side, price in (("buy", 95), ("sell", 105)):
            state.order_counts[side][contracts] = 1
            state.orders[side].contents.setdefault(MOST_RESTING * contracts, Order(price, 98, 0, 7, OPEN, 398, 1))
        state.holdings[0][contracts] = Holding(3, 4, 5, 6)
    if accounts < MOST_ACCOUNTS:
        state.balances[accounts] = 2_000
        state.makers[accounts] = 1
        state.holdings[accounts][0] = Holding(8, 8, 8, 8)
    for side, price in (("buy", 95), ("sell", 105)):
        for contract, count in enumerate(state.order_counts[side][: min(contracts, MOST_CONTRACTS)]):
            if count < MOST_RESTING:
                place = MOST_RESTING * contract + count
                state.orders[side].contents.setdefault(place, Order(price, 99, 0, 7, contract % 2, 399, 1))
    if state.trade_count < room_of(state.trades):
        state.trades.contents.setdefault(state.trade_count, Trade(0, 95, 7, 97, 98, 0, 1, OPEN, OPEN))
    return state


# =====================================================================================================================
# Short forms
# =====================================================================================================================


def case(name, call, state, arguments, expected):
    return Case(name, call, tempting(state), arguments, expected)


def well(name, state):
    return case(name, "well-formed", state, (), 1)


def ill(name, state):
    return case(name, "well-formed", state, (), 0)


def given(name, state, command, code=0):
    return case(name, "command", state, (command,), code)


def insert(account, contract, side, price, lots, time="day", effect="open", condition="limit"):
    return dayfile.insert(account, contract, side, effect, condition, price, lots, time)


def market(account, contract, side, lots, time="immediate", effect="open", price=0):
    return insert(account, contract, side, price, lots, time, effect, "market")


def best(account, contract, side, lots, time="immediate", effect="open", price=0):
    return insert(account, contract, side, price, lots, time, effect, "best")


def quote(account, contract, buy_price, sell_price, lots):
    return dayfile.quote(account, contract, buy_price, sell_price, lots)


def change(account, contract, order_number, lots, price):
    return dayfile.change(account, contract, order_number, lots, price)


def full_queue(state, side, contract, price, first_number, count=MOST_RESTING, lots=1, account=1):
    """A queue of equal orders; numbers and stamps in turn."""
    return rest(state, side, contract, *((price, lots, first_number + k, account) for k in range(count)))


__all__ = [name for name in dir() if not name.startswith("_")]
