"""The three states on which calls are measured, and the commands that they get: files for the programs beside this one.

    states.py FOLDER

A state is a day file, NAME.day, whose commands lead to it; NAME.commands has 100 records of 24 bytes, as many as a bundle may have: 40
inserts that rest, 40 cancels and 20 deposits, all accepted. On the opening state a change of phase stands in the place of one deposit."""

import sys
from pathlib import Path

sys.path.insert(0, str(Path(__file__).resolve().parents[2] / "bindings" / "python"))

from zelvorm import Cancel, Deposit, Exchange, Insert, Opening, OpeningAccount, Phase, PhaseChange, Refused, Side, Terms

ACCOUNTS = 32
TERMS = Terms(multiplier=10, tick=1, reference=1000, band=500, limit=100_000, rate=100)
OPENING = Opening([TERMS] * 4, [OpeningAccount(10**12)] * ACCOUNTS)


def account(k):
    return k % ACCOUNTS + 1


def trading():
    return [PhaseChange(contract, Phase.CONTINUOUS) for contract in range(1, 5)]


# Orders that rest on both sides of each contract.
def resting(orders):
    for contract in range(1, 5):
        for k in range(orders):
            yield Insert(account(k), contract, Side.BUY, lots=2, price=900 - k)
            yield Insert(account(k), contract, Side.SELL, lots=2, price=1100 + k)


# Trades: so many sells that rest, taken by one buy.
def traded(sweeps, orders):
    for _ in range(sweeps):
        for k in range(orders):
            yield Insert(account(k), 1, Side.SELL, lots=1, price=1000)
        yield Insert(account(7), 1, Side.BUY, lots=orders, price=1000)


STATES = {
    "opening": [],
    "typical": [*trading(), *traded(10, 10), *resting(16)],
    "full": [*trading(), *traded(16, 64), *resting(64)],
}


def measured(exchange, name):
    """The 100 commands: where there is room an order rests and leaves, on the full state one leaves and rests again."""
    number = exchange.state.next
    commands = [Deposit(account(k), 1) for k in range(20)]
    if name == "opening":
        commands[0] = PhaseChange(1, Phase.CONTINUOUS)
    if name == "full":
        for order in list(exchange.orders(Side.BUY, 1))[:40]:
            commands.append(Cancel(order.account, 1, order.number))
            commands.append(Insert(order.account, 1, Side.BUY, lots=2, price=order.price))
        return commands
    for k in range(40):
        commands.append(Insert(account(k), 1, Side.BUY, lots=2, price=880 - k))
        commands.append(Cancel(account(k), 1, number + k))
    return commands


def main():
    folder = Path(sys.argv[1])
    for name, before in STATES.items():
        exchange = Exchange(OPENING)
        for answer in exchange.run(before):
            assert not isinstance(answer, Refused), (name, answer)
        commands = measured(exchange, name)
        (folder / f"{name}.day").write_bytes(OPENING.day_file(before))
        (folder / f"{name}.commands").write_bytes(b"".join(command.record() for command in commands))
        orders = sum(exchange.state.buycounts) + sum(exchange.state.sellcounts)
        print(f"{name}: {orders} resting orders, {exchange.trade_count} trades")
        for answer in exchange.bundle(commands):
            assert not isinstance(answer, Refused), (name, answer)


if __name__ == "__main__":
    main()
