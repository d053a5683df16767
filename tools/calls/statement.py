"""A client statement (document 02, ticket 9): made by the library, held against the model's, and shown as text, CSV or JSON with
the working of every figure."""

import csv
import io
import json
from typing import NamedTuple

import model
import statements
from engine import Refused
from lessons.lesson import Differs, check
from lessons.settlements import gains_of, lots_by_legs, part_working, put_together
from lessons.wording import added, lots_of
from lines import number_of

import dayfile

# Why a statement is refused.
REASONS = {
    21: "the state is not well formed",
    2: "no such account",
    25: "more than 16 clients, or their starting lots do not add up to the account's",
    26: "an order of the account that traded is posted to no client, twice, or to an unknown one",
    27: "a client would close more than it holds",
    29: "the statement is longer than any can be",
}


class Statement(NamedTuple):
    """A statement with what its working needs."""

    file: bytes
    account: int
    clients: object
    state: model.State
    legs: list  # (client, number of the trade, trade, leg, order number)
    holdings: list  # by client, then contract: (long, short)
    profits: list  # by client: (closing, holding)


def made(exchange, clients, account):
    """The library's statement of the state that it has now. Raises Refused."""
    asked = (account, len(clients.starts), clients.start_words(), clients.posting_words())
    expected = statements.client_statement(exchange.memory(), *asked, 2**40)
    try:
        file = exchange.statement(*asked)
    except Refused as refused:
        if refused.code != expected.code:
            raise Differs(f"the library refuses the statement by {refused}, the model says {expected.code}") from None
        raise
    if (0, file) != tuple(expected):
        raise Differs("the library's statement is not the model's")
    _, held, profits = statements.sections(file)
    state = exchange.in_use()
    return Statement(file, account, clients, state, legs_of(state, account, clients), held, profits)


def legs_of(state, account, clients):
    """Each leg of the account in trade order, with its client."""
    client_of = dict(clients.postings)
    return [
        (client_of[order], number, trade, leg, order)
        for number, trade in enumerate(state.trades, 1)
        for leg, order in zip(trade.legs(), (trade.buy_order, trade.sell_order))
        if leg.account == account
    ]


# --- Text ---


def as_text(found):
    prices = {number: model.settlement_price(found.state, number) for number in found.state.contracts}
    due = ", ".join(f"contract {number} at {price:,}" for number, price in prices.items())
    yield f"Statement of account {found.account} for {number_of(len(found.profits), 'client')}; settlement prices due: {due}."
    for client, (closing, holding) in enumerate(found.profits, 1):
        yield ""
        yield f"Client {client}"
        yield from (f"  {leg_words(leg)}" for leg in found.legs if leg[0] == client)
        yield f"  holds {holdings_words(found, client)}"
        yield f"  closing profit {closing:,}, holding profit {holding:,}"
        yield from (f"    {'  ' * (level - 1)}{words}" for level, words in workings(found, client, prices))
    yield ""
    yield together(found, prices)


def leg_words(leg):
    _, number, trade, part, order = leg
    verb = "buys" if part.side == "buy" else "sells"
    return f"{verb} {lots_of(trade.lots)} of contract {trade.contract} to {part.effect} at {trade.price:,} (order {order}, trade {number})"


def holdings_words(found, client):
    contracts = list(found.state.contracts)
    first = len(contracts) * (client - 1)
    held = [
        f"{lots:,} {side} in contract {number}"
        for number, both in zip(contracts, found.holdings[first : first + len(contracts)])
        for side, lots in zip(("long", "short"), both)
        if lots
    ]
    return " and ".join(held) or "nothing"


def workings(found, client, prices):
    """Lot by lot, as at a settlement; held against the statement's figures."""
    totals, rows = {"closing": 0, "holding": 0}, []
    for number, contract in found.state.contracts.items():
        start = found.clients.starts[client - 1].get(number, (0, 0))
        legs = [(place, trade, leg) for of, place, trade, leg, _ in found.legs if of == client and trade.contract == number]
        parts = lots_by_legs(contract, dict(zip(("long", "short"), start)), legs, prices[number])
        for name, lots, gain in zip(totals, parts, gains_of(contract, *parts)):
            totals[name] += gain
            if lots:
                rows += part_working(contract, number, name, put_together(lots))[1]
    check(f"profit of client {client}", tuple(totals.values()), tuple(found.profits[client - 1]))
    return rows


def together(found, prices):
    """The clients' day profit is the account's, though its two parts may differ."""
    day = [closing + holding for closing, holding in found.profits]
    own = sum(sum(model.profit(found.state, found.account, number, price)) for number, price in prices.items())
    check(f"day profit of account {found.account}", sum(day), own)
    sums = f"{added(day)} = {sum(day):,}" if len(day) > 1 else f"{sum(day):,}"
    return f"All clients' day profit: {sums}, which is the account's."


# --- Tables ---

COLUMNS = ("section", "client", "contract", "side", "effect", "price", "lots", "order", "long", "short", "closing", "holding")


def rows_of(file):
    """Each record of a statement, by its section."""
    trades, held, profits = statements.sections(file)
    for client, contract, sell, close, price, lots, order in trades:
        yield {
            "section": "trade",
            "client": client,
            "contract": contract,
            "side": dayfile.SIDES[sell],
            "effect": dayfile.EFFECTS[close],
            "price": price,
            "lots": lots,
            "order": order,
        }
    contracts = len(held) // max(len(profits), 1)
    for place, (long, short) in enumerate(held):
        client, contract = place // contracts + 1, place % contracts + 1
        yield {"section": "holding", "client": client, "contract": contract, "long": long, "short": short}
    for client, (closing, holding) in enumerate(profits, 1):
        yield {"section": "profit", "client": client, "closing": closing, "holding": holding}


def table(file):
    """A statement's bytes as CSV."""
    made = io.StringIO()
    writer = csv.DictWriter(made, COLUMNS, lineterminator="\n")
    writer.writeheader()
    writer.writerows(rows_of(file))
    return made.getvalue()


def as_csv(found):
    return table(found.file)


def as_json(found):
    rows = list(rows_of(found.file))
    sections = {
        f"{name}s": [{key: value for key, value in row.items() if key != "section"} for row in rows if row["section"] == name]
        for name in ("trade", "holding", "profit")
    }
    return json.dumps({"account": found.account, **sections}, indent=1) + "\n"
