#!/usr/bin/env python3
"""asking.py: how much could I get? An order is asked about before it is sent.

    asking.py samples/paper-example.day
"""

import sys
from pathlib import Path

# Not needed where the package is installed.
sys.path.insert(0, str(Path(__file__).resolve().parents[2] / "bindings" / "python"))

from zelvorm import Exchange, Gettable, Insert, Phase, PhaseChange, Refused, Side

exchange = Exchange.open(Path(sys.argv[1]).read_bytes()).exchange


def send(command):
    answer = exchange.execute(command)
    print(f"sent: code 0, traded {answer.traded}, rested {answer.lots}")


def ask(order):
    try:
        code, asked = 0, exchange.gettable(order)
    except Refused as refused:
        code, asked = refused.code.value, Gettable(0, 0)
    print(f"{order.lots} lots at {order.price}: code {code}, would trade {asked.lots}, orders read {asked.orders_read}")


def buy(lots, price):
    return Insert(account=2, contract=1, side=Side.BUY, lots=lots, price=price)


send(PhaseChange(contract=1, phase=Phase.CONTINUOUS))
for lots, price in ((2, 102), (4, 103), (5, 105)):
    send(Insert(account=1, contract=1, side=Side.SELL, lots=lots, price=price))
ask(buy(1, 102))
ask(buy(9, 104))
ask(buy(9, 111))
send(buy(9, 104))
