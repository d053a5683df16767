"""Cases of a client statement (document 02, ticket 9)."""

from casebook import *


def lots(*clients):
    """The words of the clients' starting lots; each client's as {contract: (long, short)}."""
    words = []
    for of_client in clients:
        for contract in range(1, 5):
            words += of_client.get(contract, (0, 0))
    return words


def postings(*pairs):
    return [word for pair in pairs for word in pair]


# How long the statement is: legs of the account, clients, contracts.
def length(legs, clients, contracts):
    return 12 + 16 * legs + 8 * clients * contracts + 16 * clients


def asked(name, state, starts, posted, code=0, account=1, clients=None, output=1_000):
    clients = len(starts) // 8 if clients is None else clients
    return case(name, "statement", state, (account, clients, starts, posted, output), code)


def cases():
    yield from absent_accounts()
    yield from starting_lots()
    yield from posted_orders()
    yield from closes()
    yield from output_areas()
    yield from order_of_refusals()
    yield from statements()


# Account 1 buys 3 lots by order 11 and sells 2 by order 12; account 2 trades with it.
def two_orders(contracts=2, **fields):
    state = exchange(contracts, accounts=3, **fields)
    return traded(traded(state, 1, 105, 3, 1, 2, 11, 21), 1, 110, 2, 2, 1, 22, 12)


POSTED = postings((11, 1), (12, 2))
NOTHING = lots({}, {})


# "21; 2"
def absent_accounts():
    yield asked("two clients", two_orders(), NOTHING, POSTED)
    yield asked("21", terms(two_orders(), 1, rate=0), NOTHING, POSTED, 21)
    yield asked("21 for a short area", areas(two_orders(), buys=(128, -1)), NOTHING, POSTED, 21)
    for account in (0, 4, 33, 2**32 - 1):
        yield asked(f"account {account}", two_orders(), NOTHING, POSTED, 2, account=account)
    yield asked("account 3, which did not trade", two_orders(), NOTHING, POSTED, account=3)
    yield asked("account 3 without clients", two_orders(), [], [], account=3)
    other = postings((21, 1), (22, 2))
    yield asked("account 2, the other side", two_orders(), NOTHING, other, account=2)


# "25 over 16 clients, or starting holdings don't add up in some contract and side"
def starting_lots():
    for clients, code in ((2, 0), (16, 0), (17, 25), (2**32 - 1, 25)):
        yield asked(f"{clients} clients", two_orders(), [0] * 136, POSTED, code, clients=clients)
    for contract in (1, 2):
        for held in (0, 1):
            for by, code in ((-1, 25), (0, 0), (1, 25)):
                state = start(start(two_orders(), 1, 1, 7, 9), 1, 2, 4, 6)
                state = traded_again(state)
                own = {1: [4, 5], 2: [2, 3]}
                own[contract][held] += by
                starts = lots({1: (3, 4), 2: (2, 3)}, own)
                where = f"contract {contract}, {('long', 'short')[held]} off by {by}"
                yield asked(where, state, starts, POSTED, code)
    yield asked("no clients, lots at the start", traded_again(start(two_orders(), 1, 2, long=1)), [], POSTED, 25, clients=0)
    yield asked("no clients, legs and no lots", two_orders(), [], POSTED, 26, clients=0)
    huge = lots({1: (2**32 - 1, 0)}, {1: (1, 0)})
    yield asked("lots that add up to 2^32", two_orders(), huge, POSTED, 25)
    past = [0] * 4 + [9, 9, 9, 9] + [0] * 4 + [8, 8, 8, 8]
    yield asked("lots in contracts past the count", two_orders(), past, POSTED)
    yield asked("words of further clients", two_orders(), NOTHING + [5] * 8, POSTED, clients=2)
    # A word past the end is 0.
    held = traded_again(start(two_orders(), 1, 1, long=5))
    yield asked("a client whose words are missing", held, lots({1: (5, 0)}), POSTED, clients=2)
    yield asked("words that end within a client", held.copy(), lots({1: (5, 0)}) + [0], POSTED, clients=2)
    yield asked("no words at all", two_orders(), [], POSTED, clients=2)
    yield asked("words that miss the lots", held.copy(), lots({}, {1: (5, 0)})[:8], POSTED, 25, clients=2)
    yield asked("words that end before the short lots", traded_again(start(two_orders(), 1, 1, 5, 5)), [5], POSTED, 25, clients=2)
    full = traded_again(start(two_orders(limit=100_000), 1, 1, 99_000, 99_000))
    yield asked("the most lots", full, lots({1: (99_000, 0)}, {1: (0, 99_000)}), POSTED)


# The trades of `two_orders` booked once more onto holdings that were set afterwards.
def traded_again(state):
    recorded = [state.trades.contents[place] for place in range(state.trade_count)]
    for account in (1, 2, 3):
        for contract in (1, 2):
            at_start = state.holdings[account - 1][contract - 1]
            hold(state, account, contract, long=at_start.startlong, short=at_start.startshort)
    state.trade_count = 0
    for trade in recorded:
        fields = (trade.contract + 1, trade.price, trade.lots, trade.buyer + 1, trade.seller + 1)
        traded(state, *fields, *trade[3:5], *trade[7:9])
    return state


# "26 an order of the account that traded is unposted, posted twice or posted to an unknown client"
# "Postings of orders that didn't trade, or of another account, are passed over."
def posted_orders():
    for name, pairs, code in (
        ("in another order", ((12, 2), (11, 1)), 0),
        ("both to one client", ((11, 2), (12, 2)), 0),
        ("the first unposted", ((12, 2),), 26),
        ("the last unposted", ((11, 1),), 26),
        ("none posted", (), 26),
        ("the first posted twice to one client", ((11, 1), (11, 1), (12, 2)), 26),
        ("the first posted to two clients", ((11, 1), (12, 2), (11, 2)), 26),
        ("the last posted twice", ((11, 1), (12, 2), (12, 2)), 26),
        ("posted to client 0", ((11, 0), (12, 2)), 26),
        ("posted to client 3 of 2", ((11, 1), (12, 3)), 26),
        ("posted to client 2^32 - 1", ((11, 1), (12, 2**32 - 1)), 26),
        ("posted to a known and to an unknown client", ((11, 1), (11, 3), (12, 2)), 26),
        ("orders that did not trade too", ((11, 1), (50, 9), (12, 2), (51, 0), (0, 0), (50, 9)), 0),
        ("orders of another account too", ((21, 9), (11, 1), (22, 0), (12, 2), (21, 9)), 0),
        ("client and order exchanged", ((1, 11), (2, 12)), 26),
    ):
        yield asked(f"postings: {name}", two_orders(), NOTHING, postings(*pairs), code)
    yield asked("a single word behind the postings", two_orders(), NOTHING, POSTED + [11])
    yield asked("a single word in place of the last posting", two_orders(), NOTHING, postings((11, 1)) + [12], 26)
    resting = rest(two_orders(), "sell", 1, (150, 1, 30))
    yield asked("an order that rests needs no posting", resting, NOTHING, POSTED)
    twice = traded(two_orders(), 1, 115, 1, 1, 3, 11, 31)
    yield asked("an order that traded twice", twice, NOTHING, POSTED)
    shared = traded(exchange(2, accounts=3), 1, 105, 3, 1, 2, 11, 21)
    traded(shared, 1, 110, 1, 2, 3, 11, 31)
    yield asked("another account's leg with that number is passed over", shared, NOTHING, postings((11, 1)))
    yield asked("an account meets its own order", own_trade(), NOTHING, postings((11, 1), (12, 2)))
    yield asked("an account meets its own order, one leg unposted", own_trade(), NOTHING, postings((11, 1)), 26)
    yield asked("an account meets its own order, the other unposted", own_trade(), NOTHING, postings((12, 1)), 26)


def own_trade(**fields):
    return traded(exchange(2, accounts=3), 1, 105, 3, 1, 1, 11, 12, **fields)


# "27 a client would close more than it holds"
def closes():
    def held(long=0, short=0):
        return start(start(exchange(2, accounts=3), 1, 1, long, short), 1, 2, long, short)

    for side in dayfile.SIDES:
        place = {"sell": 0, "buy": 1}[side]
        for first_client, code in ((3, 0), (4, 0), (2, 27)):
            of_first, of_second = [0, 0], [0, 0]
            of_first[place], of_second[place] = first_client, 5 - first_client
            both = [0, 0]
            both[place] = 5
            state = held(*both)
            if side == "sell":
                traded(state, 1, 105, 3, 2, 1, 21, 11, sellclose=CLOSE)
            else:
                traded(state, 1, 105, 3, 1, 2, 11, 21, buyclose=CLOSE)
            starts = lots({1: of_first, 2: both}, {1: of_second})
            yield asked(f"a {side} close of 3 where its client holds {first_client}", state, starts, postings((11, 1)), code)
            opened = traded(exchange(2, accounts=3), 1, 100, first_client, *(1, 2) if side == "sell" else (2, 1), 12, 22)
            if first_client >= 3:
                if side == "sell":
                    traded(opened, 1, 105, 3, 2, 1, 21, 11, sellclose=CLOSE)
                else:
                    traded(opened, 1, 105, 3, 1, 2, 11, 21, buyclose=CLOSE)
                number = 12 if side == "sell" else 22
                same = postings((11, 1), (number, 1))
                yield asked(f"a {side} close of what its client opened today, {first_client}", opened, NOTHING, same)
                other = postings((11, 1), (number, 2))
                yield asked(f"a {side} close of what another client opened today, {first_client}", opened.copy(), NOTHING, other, 27)
    # What the account holds in time a client may not: the second client opens, the first one closes before it opens.
    order = start(exchange(2, accounts=3), 1, 1, long=3)
    traded(traded(order, 1, 105, 3, 2, 1, 21, 11, sellclose=CLOSE), 1, 110, 3, 1, 2, 12, 22)
    yield asked("a client closes before it opens", order, lots({}, {1: (3, 0)}), postings((11, 1), (12, 1)), 27)
    yield asked("a client closes and another opens", order.copy(), lots({1: (3, 0)}, {}), postings((11, 1), (12, 2)))
    # "the buyer's first"
    sells_back = own_trade(sellclose=CLOSE)
    yield asked("a client closes in the trade the lots that it opens there", sells_back, NOTHING, postings((11, 1), (12, 1)))
    yield asked("a client closes in the trade what another opens there", own_trade(sellclose=CLOSE), NOTHING, postings((11, 1), (12, 2)), 27)
    held_short = start(exchange(2, accounts=3), 1, 1, short=3)
    buys_back = traded(held_short, 1, 105, 3, 1, 1, 11, 12, buyclose=CLOSE)
    yield asked("a buy close before the sell in one trade", buys_back, lots({1: (0, 3)}, {}), postings((11, 1), (12, 2)))
    yield asked("a buy close of what the trade sells later", buys_back.copy(), lots({}, {1: (0, 3)}), postings((11, 1), (12, 1)), 27)


# "29 output area too short. Nothing is then written." "output bytes beyond the end stay"
def output_areas():
    for legs, state, starts, posted in (
        (2, two_orders(), NOTHING, POSTED),
        (2, two_orders(contracts=3), NOTHING, POSTED),
        (2, two_orders(), [0] * 128, POSTED),
        (0, exchange(1), [], []),
        (0, exchange(4, accounts=1), lots({}), []),
    ):
        clients = len(starts) // 8
        whole = length(legs, clients, state.contract_count)
        for output, code in ((whole, 0), (whole - 1, 29), (whole + 1, 0), (0, 29)):
            name = f"{legs} legs, {clients} clients, {state.contract_count} contracts, area of {output}"
            yield asked(name, state.copy(), starts, posted, code, output=output)


# "Refusals, in order": of two that apply the first is given.
def order_of_refusals():
    spoilt = terms(two_orders(), 1, rate=0)
    yield asked("21 before 2", spoilt, NOTHING, POSTED, 21, account=0)
    yield asked("2 before 25", two_orders(), [0] * 136, POSTED, 2, account=0)
    yield asked("25 before 26, clients", two_orders(), [0] * 136, [], 25)
    yield asked("25 before 26, lots", two_orders(), lots({1: (1, 0)}, {}), [], 25)
    closing = start(exchange(2, accounts=3), 1, 1, long=3)
    traded(traded(closing, 1, 105, 3, 2, 1, 21, 11, sellclose=CLOSE), 1, 110, 3, 1, 2, 12, 22)
    yield asked("26 of a later leg before 27 of an earlier one", closing, lots({}, {1: (3, 0)}), postings((11, 1)), 26)
    yield asked("27 before 29", closing.copy(), lots({}, {1: (3, 0)}), postings((11, 1), (12, 1)), 27, output=0)
    yield asked("26 before 29", two_orders(), NOTHING, [], 26, output=0)
    yield asked("25 before 29", two_orders(), lots({1: (1, 0)}, {}), POSTED, 25, output=0)
    yield asked("2 before 29", two_orders(), NOTHING, POSTED, 2, account=0, output=0)


# "each client's trades, holdings, closing and holding profit are worked out by Article 32, at the settlement price due,
# from the client's own start-of-day lots"
def statements():
    # The day's first trade is another account's close.
    first = start(start(exchange(2, accounts=3), 2, 1, long=5), 3, 1, short=5)
    traded(first, 1, 95, 5, 3, 2, 21, 31, buyclose=CLOSE, sellclose=CLOSE)
    traded(traded(first, 1, 105, 3, 1, 2, 11, 22), 1, 110, 2, 3, 1, 32, 12)
    yield asked("another account's close as the day's first trade", first, NOTHING, POSTED)
    # First-in goes by client: the second client closes lots of today where the account would close older ones.
    by_client = start(exchange(2, accounts=3), 1, 1, long=4)
    traded(by_client, 1, 120, 2, 1, 2, 11, 21)
    traded(by_client, 1, 130, 3, 2, 1, 22, 12, sellclose=CLOSE)
    traded(by_client, 1, 90, 1, 2, 1, 23, 13, sellclose=CLOSE)
    starts = lots({1: (3, 0)}, {1: (1, 0)})
    yield asked("first-in by client", by_client, starts, postings((11, 2), (12, 2), (13, 1)))
    yield asked("first-in by client, posted otherwise", by_client.copy(), starts, postings((11, 1), (12, 1), (13, 2)))
    short = start(exchange(2, accounts=3, multiplier=7), 1, 1, short=4)
    traded(short, 1, 120, 2, 2, 1, 21, 11)
    traded(short, 1, 90, 3, 1, 2, 12, 22, buyclose=CLOSE)
    yield asked("short lots", short, lots({1: (0, 3)}, {1: (0, 1)}), postings((11, 2), (12, 2)))
    # Two contracts, each at its own settlement price and multiplier.
    two = terms(exchange(2, accounts=3), 2, multiplier=3, reference=200)
    start(start(two, 1, 1, 2, 1), 1, 2, 3, 4)
    traded(traded(two, 1, 110, 2, 1, 2, 11, 21), 2, 190, 3, 2, 1, 22, 12, sellclose=CLOSE)
    traded(traded(two, 2, 210, 1, 1, 3, 13, 31), 2, 220, 2, 2, 3, 23, 32)
    starts = lots({1: (2, 0), 2: (0, 4)}, {}, {1: (0, 1), 2: (3, 0)})
    yield asked("two contracts, three clients", two, starts, postings((11, 1), (12, 3), (13, 2)))
    for phase in (PRE_OPEN, NO_TRADING, CLOSED):
        yield asked(f"in state {phase}", two_orders(phase=phase), NOTHING, POSTED)
    # The settlement price due without trades in a contract: from quotes, or the reference.
    for name, orders in (
        ("no quotes", ()),
        ("both sides quoted", (("buy", (110, 1, 5, 2)), ("sell", (120, 1, 6, 2)))),
        ("a buy alone", (("buy", (110, 1, 5, 2)),)),
    ):
        quiet = start(exchange(2, accounts=3), 1, 2, 5, 2)
        for side, order in orders:
            rest(quiet, side, 2, order)
        yield asked(f"lots without trades: {name}", quiet, lots({2: (3, 2)}, {2: (2, 0)}), [])
    yield asked("an account meets its own order, posted the other way", own_trade(), NOTHING, postings((11, 2), (12, 1)))
    sixteen = exchange(4, accounts=2)
    for contract in (1, 2, 3, 4):
        start(sixteen, 1, contract, 16, 16)
    for client in range(1, 17):
        traded(sixteen, 1 + client % 4, 100 + 5 * (client % 3), 1, 1, 2, client, 90, buyclose=client % 2)
    starts = lots(*({contract: (1, 1) for contract in range(1, 5)} for _ in range(16)))
    posted = postings(*((client, 17 - client) for client in range(1, 17)))
    yield asked("16 clients in four contracts", sixteen, starts, posted, output=2_000)
