"""What a lesson's writer expects of a command, written behind => on its line, and held to the day runner's lines.

daytext.py's help has the forms. What is not named is not looked at, except that a command of which no code is expected
is expected to be accepted, and that where one trade is named all are.
"""

from typing import NamedTuple

from words import Wrong

BITS_64 = 2**64 - 1

# What can be expected of a line, by its first word.
EXPECTED_OF = {
    "insert": ("code", "order", "traded", "rested", "trade"),
    "cancel": ("code", "order", "removed"),
    "pull": ("code", "removed"),
    "quote": ("code", "order", "traded", "rested", "trade"),
    "change": ("code", "order", "traded", "rested", "removed", "trade"),
    "state": ("code", "traded", "trade"),
    "deposit": ("code",),
    "withdraw": ("code",),
    "settle": ("code", "contract", "account"),
    "raw": ("code", "order", "traded", "rested", "removed", "trade", "contract", "account"),
    "contract": ("code",),
    "account": ("code",),
    "maker": ("code",),
}

# The fields of the runner's lines, by the words behind =>.
ANSWER_FIELDS = {
    "code": "code",
    "order": "order",
    "traded": "traded",
    "rested": "rested_or_removed",
    "removed": "rested_or_removed",
}
ACCOUNT_FIELDS = {
    "closing": "closing_profit",
    "holding": "holding_profit",
    "balance": "balance",
    "margin": "charged_margin",
}


class Expectation(NamedTuple):
    line: int
    column: int
    name: str
    # A number; for a trade its lots and its price.
    value: object
    # The contract of a price, the account of what is expected of one.
    number: int = 0


# --- From words to expectations ---


def read_expectations(words, line, first_word):
    """The expectations that stand behind =>, on a line with this first word."""
    if not words:
        raise Wrong(words.column(), "nothing stands behind =>")
    while words:
        column = words.column()
        name = words.one_of(EXPECTED_OF[first_word])
        if name == "trade":
            yield Expectation(line, column, name, read_trade(words))
        elif name == "contract":
            number = words.number("contract", BITS_64)
            yield Expectation(line, column, "price", words.named_number("price", BITS_64), number)
        elif name == "account":
            yield from read_account(words, line, EXPECTED_OF[first_word])
        else:
            yield Expectation(line, column, name, words.number(name, BITS_64))


def read_trade(words):
    lots = words.number("lots", BITS_64)
    words.one_of(["at"])
    return lots, words.number("price", BITS_64)


def read_account(words, line, names_after):
    """One account's number and what is expected of it, one thing or more."""
    number = words.number("account", BITS_64)
    while True:
        column = words.column()
        name = words.one_of(list(ACCOUNT_FIELDS))
        yield Expectation(line, column, name, words.signed_number(name, BITS_64), number)
        if not words or words.next() in names_after:
            return


# --- Expectations held to lines ---


def unmet(expectations, command):
    """Each expectation that a command's lines do not meet, with what they say."""
    code = command.answer["code"]
    if code and "code" not in [expectation.name for expectation in expectations]:
        yield expectations[0], f"code {code} where it is expected to be accepted"
        return
    trades = [expectation for expectation in expectations if expectation.name == "trade"]
    made = [(trade["lots"], trade["price"]) for trade in command.trades]
    expected = [expectation.value for expectation in trades]
    if trades and made != expected:
        yield trades[0], f"{trades_in_words(made)} where {trades_in_words(expected)} is expected"
    for expectation in expectations:
        if expectation.name != "trade":
            found = found_for(expectation, command)
            if found is None:
                yield expectation, f"no {subject(expectation)}"
            elif found != expectation.value:
                yield expectation, f"{subject(expectation)}: {found:,} where {expectation.value:,} is expected"


def found_for(expectation, command):
    """What the lines say of it, or None where they say nothing."""
    if expectation.name in ANSWER_FIELDS:
        return command.answer[ANSWER_FIELDS[expectation.name]]
    if expectation.name == "price":
        found = {line["contract"]: line["settlement_price"] for line in command.prices}
    else:
        found = {line["account"]: line[ACCOUNT_FIELDS[expectation.name]] for line in command.accounts}
    return found.get(expectation.number)


def subject(expectation):
    if expectation.name == "price":
        return f"price of contract {expectation.number}"
    if expectation.name in ACCOUNT_FIELDS:
        return f"{expectation.name} of account {expectation.number}"
    return expectation.name


def trades_in_words(trades):
    return ", ".join(f"trade {lots:,} at {price:,}" for lots, price in trades) or "no trade"
