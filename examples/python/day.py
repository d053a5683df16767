#!/usr/bin/env python3
"""day.py: a day file's commands one by one, and the lines that document 01 prints for them.

    day.py samples/paper-example.day
"""

import sys
from pathlib import Path

# Not needed where the package is installed.
sys.path.insert(0, str(Path(__file__).resolve().parents[2] / "bindings" / "python"))

from zelvorm import Answer, Exchange, Refused


def print_settlement(settlement):
    for c, price in enumerate(settlement.prices, 1):
        print("P", c, price)
    for a, account in enumerate(settlement.accounts, 1):
        print("B", a, account.closing, account.holding, account.balance, account.charged)


try:
    day = Exchange.open(Path(sys.argv[1]).read_bytes())
except Refused as refused:
    sys.exit(f"X {refused.code}")
exchange = day.exchange
for k, command in enumerate(day.commands, 1):
    before = exchange.trade_count
    response = exchange.respond(command)
    code, answer = 0, response.answer
    if isinstance(answer, Refused):
        code, answer = answer.code.value, Answer(0, 0, 0)
    print("C", k, code, answer.order, answer.traded, answer.lots)
    for number, t in enumerate(exchange.trades(since=before), before + 1):
        print("T", number, t.contract, t.price, t.lots, t.buy_order, t.sell_order)
    if response.settlement:
        print_settlement(response.settlement)
