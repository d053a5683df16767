"""The exchange's words, and numbers and lists as an explanation writes them."""

from typing import NamedTuple

import dayfile
import model

from lessons.lesson import check

PRICE_WORDS = {"limit": "limit", "market": "at market", "best": "at best"}
TIME_WORDS = {"day": "good for day", "immediate": "immediate or cancel", "kill": "fill or kill"}
METHOD_WORDS = ("middle price", "average", "first-in price")
STATE_WORDS = {name: name for name in dayfile.STATES} | {"no-trading": "no trading"}

# A list longer than this is given by its total, with its parts in the lines below it.
MOST_TERMS = 8


class Said(NamedTuple):
    """One line in words. Each line of its working stands at a level, 1 or 2."""

    line: str  # the runner's line; empty for what it does not print
    words: str
    working: tuple | list = ()
    account: int = 0  # whom it is about, where it is about one account


# --- Numbers and lists ---


def figure(value):
    return f"{value:,}"


def lots_of(count):
    return "1 lot" if count == 1 else f"{count:,} lots"


def listed(words, last="and"):
    """one, two and three"""
    words = list(words)
    return f" {last} ".join(filter(None, (", ".join(words[:-1]), *words[-1:])))


def added(terms):
    """5 + 3 - 2"""
    text = "".join(f" - {-term:,}" if term < 0 else f" + {term:,}" for term in terms)
    return text[3:] if text.startswith(" + ") else "-" + text[3:]


def in_brackets(terms):
    """A sum that is about to be multiplied."""
    return added(terms) if len(terms) == 1 else f"({added(terms)})"


def quotient(dividend, divisor):
    """In decimals: whole where they end soon, otherwise cut off, which the two dots show."""
    whole, rest = divmod(dividend, divisor)
    decimals, left_over = divmod(rest * 10_000, divisor)
    if left_over == 0:
        return f"{whole:,}.{decimals:04}".rstrip("0").rstrip(".")
    return f"{whole:,}.{decimals // 100:02}.."


def numbers_from_1(name, count):
    """account 1, accounts 1 and 2, accounts 1 to 3"""
    return f"{name} 1" if count == 1 else f"{name}s 1 {'and' if count == 2 else 'to'} {count}"


def rounding_words(dividend, divisor, tick, result):
    """What is rounded on the way from a quotient to a price, if anything."""
    down = dividend // divisor
    words = "" if down * divisor == dividend else f", rounded down {down:,}"
    return words if down == result else f"{words}, down to a tick of {tick:,}: {result:,}"


# --- The command ---


def command_words(command):
    if model.is_malformed(command):
        fields = zip(("account", "contract", "flags", "lots", "price", "order number", "amount"), command[1:])
        kind = f"kind {command.kind}, {dayfile.KINDS.get(command.kind, 'unknown')}"
        return f"A record of {kind}: " + ", ".join(f"{name} {value:,}" for name, value in fields)
    return COMMAND_WORDS[dayfile.KINDS[command.kind]](command)


def insert_words(command):
    order = model.arriving(command)
    price = PRICE_WORDS[order.price_condition]
    if order.price_condition == "limit":
        price = f"limit {order.price:,}"
    elif order.price != 0:
        price = f"{price} with the price {order.price:,}"
    return (
        f"Account {order.account}: {order.side} {lots_of(order.lots)} of contract {order.contract} to {order.effect},"
        f" {price}, {TIME_WORDS[order.time_condition]}"
    )


def by_operator(command):
    return ", by the operator" if command.flags == 1 else ""


COMMAND_WORDS = {
    "deposit": lambda command: f"Account {command.account}: deposit {command.amount:,}",
    "withdraw": lambda command: f"Account {command.account}: withdraw {command.amount:,}",
    "insert": insert_words,
    "cancel": lambda command: (
        f"Account {command.account}: cancel order {command.order_number} in contract {command.contract}"
        + by_operator(command)
    ),
    "pull": lambda command: (
        f"Account {command.account}: pull all its orders in contract {command.contract}{by_operator(command)}"
    ),
    "quote": lambda command: (
        f"Account {command.account}: quote {lots_of(command.lots)} of contract {command.contract},"
        f" buy at {command.price:,} and sell at {command.order_number:,}"
    ),
    "change": lambda command: (
        f"Account {command.account}: change order {command.order_number} in contract {command.contract} to"
        + (f" {lots_of(command.lots)} at {command.price:,}" if command.lots else " no lots")
    ),
    "state": lambda command: f"Contract {command.contract}: change to {STATE_WORDS[dayfile.STATES[command.flags]]}",
    "settle": lambda command: "Settle the day",
}


# --- What the lesson opens with ---


def holdings_words(state, account):
    """3 long, or with several contracts a line for each: 1: 3 long, 2 short"""
    words = []
    for contract in state.contracts:
        held = [(state.holdings[account, contract, side], side) for side in ("long", "short")]
        sides = ", ".join(f"{lots:,} {side}" for lots, side in held if lots)
        if sides:
            words.append(f"{contract}: {sides}" if len(state.contracts) > 1 else sides)
    return "\n".join(words) or "none"


def contract_terms(number, contract):
    """A contract's terms and what follows from them today."""
    return [
        f"Contract {number}: multiplier {contract.multiplier:,}, tick {contract.tick:,}, holding limit"
        f" {contract.limit:,} lots on a side, pairing method {contract.method} ({METHOD_WORDS[contract.method]}).",
        f"Reference {contract.reference:,}, band {contract.band:,}: {range_today(contract)}.",
        f"The charge for one lot: {charge_working(contract)}.",
    ]


def range_today(contract):
    return f"prices from {model.low(contract):,} to {model.high(contract):,}"


def charge_working(contract):
    product = contract.multiplier * contract.reference * contract.rate
    charge = model.charge(contract)
    check("charge", -(-product // 10_000), charge)
    factors = f"{contract.multiplier:,} x {contract.reference:,} x {contract.rate:,}"
    rounded = "" if charge * 10_000 == product else f", rounded up to {charge:,}"
    return f"{factors} / 10,000 = {quotient(product, 10_000)}{rounded}"
