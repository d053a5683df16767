"""Worked examples of the papers, for the model's functions: (function, arguments, result)."""

from model import Arriving, Contract, Leg, Resting, State, Trade


def contract(tick=1, reference=100, multiplier=10, rate=1_000, buys=(), sells=(), last=100):
    found = Contract(multiplier, tick, reference, band=10, limit=1_000, rate=rate, last_price=last)
    for side, orders in (("buy", buys), ("sell", sells)):
        found.queues[side] = [
            Resting(number, 1, "open", price, lots, stamp=number) for number, (price, lots) in enumerate(orders, 1)
        ]
    return found


def traded(*trades, **terms):
    legs = Leg(1, "buy", "open"), Leg(2, "sell", "open")
    return State({1: contract(**terms)}, {}, {}, {}, [Trade(1, price, lots, 1, 2, *legs) for lots, price in trades])


def buy_limit(price):
    return Arriving(1, 1, "buy", "open", "limit", "day", 20, price)


SELLS = contract(sells=((110, 7), (111, 5)))

WORKED = (
    # "middle of buy, sell, last: 104, 102, 100 gives 102; 106, 103, 102 gives 103; 112, 111, 110 gives 111; 110, 110, 109
    # gives 110"
    ("middle", (104, 102, 100), 102),
    ("middle", (106, 103, 102), 103),
    ("middle", (112, 111, 110), 111),
    ("middle", (110, 110, 109), 110),
    # "Charge for multiplier, reference, rate: 10, 100, 1,000 gives 100; 10, 102, 1,000 gives 102; 1, 101, 1 gives 1."
    ("charge", (contract(),), 100),
    ("charge", (contract(reference=102),), 102),
    ("charge", (contract(reference=101, multiplier=1, rate=1),), 1),
    # "Settlement: 3 at 102 and 2 at 103, tick 1, gives 102; no trade, 99, 103, reference 105 gives 103; no sell side,
    # reference 105, gives 105."
    ("settlement_price", (traded((3, 102), (2, 103)), 1), 102),
    ("settlement_price", (traded(reference=105, buys=((99, 1),), sells=((103, 1),)), 1), 103),
    ("settlement_price", (traded(reference=105, buys=((99, 1),)), 1), 105),
    # "Sells 7 at 110, 5 at 111, buy limit 111: fillable 12; limit 110: 7."
    ("fillable", (SELLS, buy_limit(111)), 12),
    ("fillable", (SELLS, buy_limit(110)), 7),
    # "No volume, no price, no trades." (document 02, ticket 4)
    ("auction_price", (contract(buys=((100, 5),), sells=((101, 5),)),), None),
    ("auction_price", (contract(),), None),
    ("auction_price", (contract(buys=((102, 1),), sells=((102, 1),)),), 102),
)
