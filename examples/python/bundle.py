#!/usr/bin/env python3
"""bundle.py: a firm's morning orders in one call. One of them is refused, and the others stand.

    bundle.py samples/paper-example.day
"""

import sys
from pathlib import Path

# Not needed where the package is installed.
sys.path.insert(0, str(Path(__file__).resolve().parents[2] / "bindings" / "python"))

from zelvorm import Answer, Exchange, Insert, Phase, PhaseChange, Refused, Side

morning = [
    PhaseChange(contract=1, phase=Phase.CONTINUOUS),
    Insert(account=1, contract=1, side=Side.SELL, lots=5, price=102),
    Insert(account=1, contract=1, side=Side.SELL, lots=3, price=111),  # above the day's high
    Insert(account=1, contract=1, side=Side.BUY, lots=4, price=98),
    Insert(account=2, contract=1, side=Side.BUY, lots=6, price=102),
]
exchange = Exchange.open(Path(sys.argv[1]).read_bytes()).exchange
answers = exchange.bundle(morning)
print("bundle: code 0")
for k, answer in enumerate(answers, 1):
    code = 0
    if isinstance(answer, Refused):
        code, answer = answer.code.value, Answer(0, 0, 0)
    print(f"command {k}: code {code}, order {answer.order}, traded {answer.traded}, rested {answer.lots}")
buys, sells = (len(list(exchange.orders(side, 1))) for side in Side)
print(f"resting: {buys} buys, {sells} sells")
