#!/usr/bin/env python3
"""Makes one HTML page of a lesson, a day file or a text of one, for a teacher to open in class.

    page.py samples/paper-example.txt > lesson.html

The page steps through the lesson with the keyboard (left, right, Page Up, Page Down, Home, End): the command and its
answer in words with every working, the book as a ladder, trades, holdings and balances beside it, and pictures of
prices and of balances by day. The key A shows each answer one step after its command, as an exercise's always is. The
page fetches nothing, and prints as a hand-out. Its words are those of explain.py.

Where the day runner and the model differ no page is made, and the status is 1; it is 2 where there is
nothing to show, 3 where not all could be written, 20 for a broken file.
"""

import argparse
import html
import json
import re
from pathlib import Path

import lessons
from lessons import explanation
from lessons.lesson import play
from lessons.making import playable, write_made
from lessons.margins import charged_by_contract
from lessons.wording import STATE_WORDS, contract_terms, figure, holdings_words

import model

PARTS = Path(lessons.__file__).parent


def book_data(contract):
    """What a ladder shows of a contract."""
    return {
        "state": STATE_WORDS[contract.state],
        "last": contract.last_price,
        "reference": contract.reference,
        "tick": contract.tick,
        "low": model.low(contract),
        "high": model.high(contract),
        "buys": queue_data(contract, "buy"),
        "sells": queue_data(contract, "sell"),
    }


def queue_data(contract, side):
    return [
        [level.price, [[order.number, order.account, order.lots, order.effect, order.quote] for order in level.orders]]
        for level in explanation.price_levels(contract, side)
    ]


def account_data(state, account):
    """Figures as they are shown, since a balance may have more digits than a page can count; `value` is drawn."""
    charged = sum(charged.amount() for charged in charged_by_contract(state, account))
    return {
        "holdings": holdings_words(state, account),
        "balance": figure(state.balances[account]),
        "value": state.balances[account],
        "charged": figure(charged),
    }


def state_data(state):
    return {
        "books": {number: book_data(contract) for number, contract in state.contracts.items()},
        "accounts": {account: account_data(state, account) for account in state.balances},
    }


def changed(before, after):
    return {name: value for name, value in after.items() if before[name] != value}


def step_data(step, before, after):
    """A step, with those books and accounts alone that it changed."""
    told = explanation.explained(step)
    first_trade = len(step.before.trades) + 1
    data = {
        "day": step.day,
        "code": step.answer.code,
        "heading": told.heading,
        "above": step.comment.above,
        "beside": step.comment.beside,
        "contract": told.contract,
        "said": [
            {"line": said.line, "words": said.words, "working": said.working, "account": said.account}
            for said in told.said
        ],
        "trades": [trade_data(place, trade) for place, trade in enumerate(step.answer.trades, first_trade)],
        "prices": [[trade.contract, trade.price, trade.lots] for trade in step.answer.trades],
        "books": changed(before["books"], after["books"]),
        "accounts": changed(before["accounts"], after["accounts"]),
    }
    if step.answer.settlement:
        data["settled"] = step.answer.settlement.prices
    return data


def trade_data(place, trade):
    """A row of the table of trades."""
    buyer, seller = (
        f"A{leg.account} #{order} {leg.effect}"
        for leg, order in ((trade.buyer, trade.buy_order), (trade.seller, trade.sell_order))
    )
    return [place, trade.contract, figure(trade.price), figure(trade.lots), buyer, seller]


def page_data(lesson, printed):
    """All that the page shows."""
    state = lesson.opening
    opening = after = state_data(state)
    steps, active = [], set()
    for step in play(lesson, printed):
        before, after = after, state_data(step.after)
        steps.append(step_data(step, before, after))
        if not step.answer.settlement:
            active.update(explanation.accounts_of(step))
    return {
        "title": Path(lesson.name).stem.replace("-", " ").capitalize(),
        "notes": lesson.notes,
        "terms": [
            [*contract_terms(number, contract), *comment_words(comment)]
            for (number, contract), comment in zip(state.contracts.items(), lesson.comments["contract"])
        ],
        "active": sorted(active) or list(state.balances),
        "opening": opening,
        "steps": steps,
    }


def comment_words(comment):
    return [*comment.above, *filter(None, [comment.beside])]


def page(lesson, printed):
    data = page_data(lesson, printed)
    # Within a script element a "<" could end it, or begin a comment.
    embedded = json.dumps(data, ensure_ascii=False, separators=(",", ":")).replace("<", "\\u003c")
    parts = {
        "TITLE": html.escape(data["title"]),
        "STYLE": part("page.css"),
        "SCRIPT": part("page.js"),
        "LESSON": embedded,
    }
    return re.sub("@@([A-Z]+)@@", lambda place: parts[place[1]], part("page.html")) + "\n"


def part(name):
    return (PARTS / name).read_text(encoding="utf-8").rstrip("\n")


def run(arguments):
    return page(*playable(arguments.lesson, arguments.runner))


def main():
    parser = argparse.ArgumentParser(description=__doc__, formatter_class=argparse.RawDescriptionHelpFormatter)
    parser.add_argument("lesson", metavar="LESSON", help="a day file or a text lesson; - for standard input")
    parser.add_argument("--runner", metavar="RUNNER", help="the day runner's command line, if not target/bin/dayrun")
    arguments = parser.parse_args()
    write_made("page", lambda: run(arguments))


if __name__ == "__main__":
    main()
