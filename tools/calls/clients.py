"""A broker's clients and the orders that are posted to them, from a small text or from CSV.

    client                                client 1, with nothing at the start of the day
    client contract 1 long 3 short 0      client 2, with these lots; more contracts may follow on the line
    post 2 client 1                       order 2 is posted to client 1
    statement 1                           whose statement it is: account 1

As CSV the columns are client, contract, long, short and order; a row has a contract with its lots, or an order:

    client,contract,long,short,order
    1,1,3,0,
    1,,,,2
"""

import csv
import io
from dataclasses import dataclass, field

from daytext import BITS_8, BITS_32, BadText, Fault
from words import Words, Wrong

LINES = ("client", "post", "statement")
COLUMNS = ("client", "contract", "long", "short", "order")
# "eight words for each client: long and short in each of four contracts"
MOST_CONTRACTS = 4


@dataclass
class Clients:
    """Each client's lots at the start of the day, by contract; the postings; whose statement is asked for, 0 if not said."""

    starts: list = field(default_factory=list)
    postings: list = field(default_factory=list)
    account: int = 0

    def start_words(self):
        """As the library takes them."""
        return [
            lots
            for held in self.starts
            for contract in range(1, MOST_CONTRACTS + 1)
            for lots in held.get(contract, (0, 0))
        ]

    def posting_words(self):
        return [number for posting in self.postings for number in posting]

    def read_words(self, words):
        """One line of the text form."""
        column = words.column()
        first = words.one_of(list(LINES))
        if first == "client":
            self.starts.append(read_start(words))
        elif first == "post":
            order = words.number("order", BITS_32)
            self.postings.append((order, words.named_number("client", BITS_32)))
        else:
            if self.account:
                words.note(column, "a second statement: one account at a time")
            self.account = words.number("account", BITS_8)
        words.end()


def read_start(words):
    held = {}
    while words:
        column = words.column()
        contract = words.named_number("contract", BITS_8)
        if not 1 <= contract <= MOST_CONTRACTS or contract in held:
            words.note(column, f"contract {contract} here, where each of 1 to {MOST_CONTRACTS} may stand once")
        long = words.named_number("long", BITS_32)
        held[contract] = (long, words.named_number("short", BITS_32))
    return held


def read_text(text):
    """The clients that a text tells. Raises BadText with all that is wrong in it."""
    found, faults = Clients(), []
    for number, line in enumerate(text.split("\n"), 1):
        words = Words(line.partition("#")[0], lambda column, message, number=number: faults.append(Fault(number, column, message)))
        try:
            if words:
                found.read_words(words)
        except Wrong as wrong:
            faults.append(Fault(number, wrong.column, str(wrong)))
    if faults:
        raise BadText(sorted(faults))
    return found


def read_csv(text):
    """The clients of a table. Raises BadText."""
    rows = csv.DictReader(io.StringIO(text))
    if rows.fieldnames is None or set(rows.fieldnames) != set(COLUMNS):
        raise BadText([Fault(1, 1, f"the columns are {', '.join(COLUMNS)}")])
    found, faults = Clients(), []
    for row in rows:
        try:
            read_row(found, {name: int(value) for name, value in row.items() if value and value.strip()})
        except (ValueError, KeyError, TypeError):
            faults.append(Fault(rows.line_num, 1, "a row has a client and either contract, long and short or an order, in whole numbers"))
    if faults:
        raise BadText(faults)
    return found


def read_row(found, row):
    client = row["client"]
    if "order" in row:
        found.postings.append((row["order"], client))
        if client > len(found.starts) and 1 <= client <= 16:
            found.starts += [{} for _ in range(client - len(found.starts))]
        return
    if not (1 <= client <= BITS_8 and 1 <= row["contract"] <= MOST_CONTRACTS):
        raise ValueError
    found.starts += [{} for _ in range(client - len(found.starts))]
    found.starts[client - 1][row["contract"]] = (row["long"], row["short"])


def read(text):
    """From either form: a table begins with the names of its columns."""
    return read_csv(text) if text.lstrip().startswith("client,") else read_text(text)
