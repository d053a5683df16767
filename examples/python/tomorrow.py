#!/usr/bin/env python3
"""tomorrow.py: a day is settled and its state written; tomorrow it is read, and trading goes on.

    tomorrow.py samples/paper-example.day
"""

import sys
from pathlib import Path

# Not needed where the package is installed.
sys.path.insert(0, str(Path(__file__).resolve().parents[2] / "bindings" / "python"))

from zelvorm import Exchange, Insert, Phase, PhaseChange, Refused, Side

# The day up to its settlement, which is the last command.
today = Exchange.open(Path(sys.argv[1]).read_bytes())
today.exchange.run(today.commands[:-1])
try:
    today.exchange.write()
except Refused as refused:
    print(f"before the settlement: {refused}")
today.exchange.settle()
saved = today.exchange.write()
print(f"after it: {len(saved)} bytes")

tomorrow = Exchange.read(saved)
print(f"read: settlements {tomorrow.settlements}")
for k, account in enumerate(tomorrow.accounts(), 1):
    held = account.holdings[0]
    print(f"account {k}: balance {account.balance}, long {held.long}, short {held.short}")
tomorrow.execute(PhaseChange(contract=1, phase=Phase.CONTINUOUS))
answer = tomorrow.execute(Insert(account=2, contract=1, side=Side.SELL, lots=1, price=105))
print(f"sent: order {answer.order}, rested {answer.lots}")

try:
    Exchange.read(saved[1:])
except Refused as refused:
    print(f"damaged: {refused}")
