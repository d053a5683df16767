"""Client statements (document 02, ticket 9)."""

import struct
from typing import NamedTuple

import dayfile
import memory
import model

# "one of up to 16 clients, numbered from 1"
MOST_CLIENTS = 16

# "trades (client 1, contract 1, sell mark 1, close mark 1, price 4, lots 4, order number 4; marks are 0 or 1)",
# "holdings now (long 4, short 4, by client then contract)", "profit (signed closing 8, signed holding 8, by client)"
TRADE = struct.Struct("<BBBBIII")
HOLDING = struct.Struct("<II")
PROFIT = struct.Struct("<qq")
# "section counts take 4 bytes"
COUNT = struct.Struct("<I")


class Statement(NamedTuple):
    """The code, and what is written at the front of the area; bytes beyond stay."""

    code: int
    bytes: bytes = b""


class Start(NamedTuple):
    """A client's start-of-day lots in one contract."""

    long: int
    short: int


class ClientLeg(NamedTuple):
    client: int
    trade: model.Trade
    leg: model.Leg
    order_number: int


# What a broker hands in are words. The starting lots: eight for each client, long and short in each of four contracts; a
# word past the end is 0. The postings: two for each, an order's number and a client's; a single word at the end is none.
# "Refusals, in order: 21; 2; 25 over 16 clients, or starting holdings don't add up in some contract and side; 26 an
# order of the account that traded is unposted, posted twice or posted to an unknown client; 27 a client would close
# more than it holds; 29 output area too short. Nothing is then written."
def client_statement(asked, account, clients, start_words, posting_words, output_length):
    state = memory.in_use(asked)
    if not model.well_formed(state):
        return Statement(21)
    if account not in state.balances:
        return Statement(2)
    if clients > MOST_CLIENTS:
        return Statement(25)
    starts = starts_in(start_words, clients)
    postings = list(zip(posting_words[0::2], posting_words[1::2]))
    if not add_up(state, account, clients, starts):
        return Statement(25)
    numbers = [order_number for _, leg, order_number in account_legs(state, account)]
    if not all(is_posted_once(number, clients, postings) for number in numbers):
        return Statement(26)
    legs = client_legs(state, account, postings)
    holdings = holdings_now(state, clients, starts, legs)
    if holdings is None:
        return Statement(27)
    written = statement_bytes(state, clients, starts, legs, holdings)
    if len(written) > output_length:
        return Statement(29)
    return Statement(0, written)


# The start-of-day lots of each client by number, a Start for each contract by number.
def starts_in(words, clients):
    words = words + [0] * (8 * clients)
    return {
        client: {contract: Start(*words[8 * (client - 1) + 2 * (contract - 1) :][:2]) for contract in range(1, 5)}
        for client in range(1, clients + 1)
    }


# "The clients' start-of-day holdings must add up to the account's."
def add_up(state, account, clients, starts):
    return all(
        sum(starts[client][contract].long for client in range(1, clients + 1))
        == state.holdings_at_start[account, contract, "long"]
        and sum(starts[client][contract].short for client in range(1, clients + 1))
        == state.holdings_at_start[account, contract, "short"]
        for contract in state.contracts
    )


# "one for each leg of the account in trade order, the buyer's first"
def account_legs(state, account):
    return [
        (trade, leg, order_number)
        for trade in state.trades
        for leg, order_number in zip(trade.legs(), (trade.buy_order, trade.sell_order))
        if leg.account == account
    ]


# Posted twice to one client is posted twice too. Client 0 is unknown.
def is_posted_once(order_number, clients, postings):
    posted_to = [client for number, client in postings if number == order_number]
    return len(posted_to) == 1 and 1 <= posted_to[0] <= clients


# "Postings of orders that didn't trade, or of another account, are passed over."
def client_legs(state, account, postings):
    client_of = dict(postings)
    return [
        ClientLeg(client_of[order_number], trade, leg, order_number)
        for trade, leg, order_number in account_legs(state, account)
    ]


# The holdings after the day's legs, by (client, contract, "long" or "short"), or None where "a client would close more
# than it holds".
def holdings_now(state, clients, starts, legs):
    holdings = {
        (client, contract, held): getattr(starts[client][contract], held)
        for client in range(1, clients + 1)
        for contract in state.contracts
        for held in ("long", "short")
    }
    for client, trade, leg, _ in legs:
        model.book(holdings, trade.contract, leg._replace(account=client), trade.lots)
        if holdings[client, trade.contract, model.HELD[leg.side, leg.effect]] < 0:
            return None
    return holdings


# "A client statement has sections in a fixed order, each after its count"
def statement_bytes(state, clients, starts, legs, holdings):
    trades = [
        TRADE.pack(
            client,
            trade.contract,
            dayfile.SIDES.index(leg.side),
            dayfile.EFFECTS.index(leg.effect),
            trade.price,
            trade.lots,
            order_number,
        )
        for client, trade, leg, order_number in legs
    ]
    held = [
        HOLDING.pack(holdings[client, contract, "long"], holdings[client, contract, "short"])
        for client in range(1, clients + 1)
        for contract in state.contracts
    ]
    profits = [PROFIT.pack(*profit(state, client, starts, legs)) for client in range(1, clients + 1)]
    return b"".join(COUNT.pack(len(section)) + b"".join(section) for section in (trades, held, profits))


# "closing and holding profit are worked out by Article 32, at the settlement price due, from the client's own
# start-of-day lots"
def profit(state, client, starts, legs):
    parts = []
    for number, contract in state.contracts.items():
        start = starts[client][number]._asdict()
        own = [(leg.trade, leg.leg) for leg in legs if leg.client == client and leg.trade.contract == number]
        parts.append(model.profit_by_lots(contract, start, own, model.settlement_price(state, number)))
    return sum(closing for closing, _ in parts), sum(holding for _, holding in parts)


# The records of a statement whose sections are whole: trades, holdings, profits. Raises Broken for any other bytes.
def sections(file):
    trades, rest = dayfile.section(file, "trades", TRADE)
    held, rest = dayfile.section(rest, "holdings", HOLDING)
    profits, rest = dayfile.section(rest, "profits", PROFIT)
    if rest:
        raise dayfile.Broken("bytes after the profits", figures=f"{len(rest):,} of them")
    return trades, held, profits
