#!/usr/bin/env python3
"""statement.py: an account's orders posted to its clients, and the statement printed.

    statement.py samples/paper-example.day
"""

import sys
from pathlib import Path

# Not needed where the package is installed.
sys.path.insert(0, str(Path(__file__).resolve().parents[2] / "bindings" / "python"))

from zelvorm import Exchange, Posting, Refused, Start


def print_statement(told):
    for leg in told.legs:
        side = f"{leg.side.name} {leg.effect.name}".lower()
        print(f"client {leg.client}: contract {leg.contract}, {side}, {leg.lots} lots at {leg.price}, order {leg.order}")
    for client, held in enumerate(told.holdings, 1):
        for contract, (long, short) in enumerate(held, 1):
            print(f"client {client}: contract {contract}, long {long}, short {short}")
    for client, profit in enumerate(told.profits, 1):
        print(f"client {client}: closing profit {profit.closing}, holding profit {profit.holding}")


# The day up to its settlement, which is the last command.
day = Exchange.open(Path(sys.argv[1]).read_bytes())
day.exchange.run(day.commands[:-1])

# Account 2 has two clients, without lots in the morning. Order 3 closes what order 2 opened: both are client 1's.
for client in (2, 1):
    try:
        postings = [Posting(order=2, client=1), Posting(order=3, client=client)]
        print_statement(day.exchange.statement(2, [Start(), Start()], postings))
    except Refused as refused:
        print(f"statement refused, {refused}")
