"""Cases of the question for one side's resting orders (document 01, "Matching")."""

from casebook import *


def asked(name, state, side, contract, contracts, count, orders):
    return case(name, "side", state, (side, contract, contracts, count), orders)


# "A caller may ask for one side's resting orders: the answer is the queue asked for, as a part of whichever lent area
# holds it. Absent contract, count above 64 or area too short for it: an empty part."
# Any state is answered, a state that is not well formed too.
def cases():
    for side in dayfile.SIDES:
        other = {"buy": "sells", "sell": "buys"}[side]
        area = {"buy": "buys", "sell": "sells"}[side]
        price = {"buy": 95, "sell": 105}[side]

        def book(**lengths):
            state = exchange(4)
            for contract in range(1, 5):
                for own in dayfile.SIDES:
                    first = 1 + 10 * contract + (5 if own == "sell" else 0)
                    rest(state, own, contract, *((price, 2, first + k, 2) for k in range(4)))
            return areas(state, **lengths)

        for contract in (1, 2, 3, 4):
            for count in (0, 1, 4):
                yield asked(f"{side}s of contract {contract}, {count} of them", book(), side, contract, 4, count, count)
            yield asked(f"{side}s of contract {contract} of as many", book(), side, contract, contract, 4, 4)
            yield asked(f"{side}s of contract {contract}, one more than there are", book(), side, contract, contract - 1, 4, 0)
            last = 64 * (contract - 1) + 4
            for length, orders in ((last, 4), ((last, 1), 4), ((last, -1), 0), (last - 1, 0), (0, 0)):
                state = book(**{area: length, other: 0})
                yield asked(f"{side}s of contract {contract}, area of {length}", state, side, contract, 4, 4, orders)
        for contract in (0, 5, 2**32, 2**63, 2**64 - 1):
            yield asked(f"{side}s of contract {contract}", book(), side, contract, 4, 1, 0)
        for contracts in (2**63, 2**64 - 1):
            yield asked(f"{side}s of contract {contracts} of as many", book(), side, contracts, contracts, 1, 0)
            yield asked(f"{side}s of contract 0 of {contracts}", book(), side, 0, contracts, 1, 0)
        full = full_queue(exchange(), side, 1, price, 1, 65)
        for count, orders in ((63, 63), (64, 64), (65, 0), (2**63, 0), (2**64 - 1, 0)):
            yield asked(f"{count} {side}s", full.copy(), side, 1, 1, count, orders)
        spoilt = change_order(terms(book(), 1, rate=0), side, 1, 0, close=7, account=99)
        yield asked(f"{side}s of a state that is not well formed", spoilt, side, 1, 4, 4, 4)
