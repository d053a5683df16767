"""So many rounds of the measured commands on a state, through the Python package: as calls.c."""

import sys
from pathlib import Path

sys.path.insert(0, str(Path(__file__).resolve().parents[2] / "bindings" / "python"))

from zelvorm import Answer, Exchange, command_of


def by_execute(exchange, commands):
    return sum(isinstance(exchange.execute(command), Answer) for command in commands)


def by_bundle(exchange, commands):
    return sum(isinstance(answer, Answer) for answer in exchange.bundle(commands))


def by_run(exchange, commands):
    return sum(isinstance(answer, Answer) for answer in exchange.run(commands))


def by_none(exchange, commands):
    return 0


folder, state, call, rounds = sys.argv[1:]
day = Exchange.open(Path(folder, f"{state}.day").read_bytes())
day.exchange.run(day.commands)
content = Path(folder, f"{state}.commands").read_bytes()
commands = [command_of(content[at : at + 24]) for at in range(0, len(content), 24)]
parts = day.exchange.parts()
play = {"execute": by_execute, "bundle": by_bundle, "run": by_run, "none": by_none}[call]
found = 0
for _ in range(int(rounds)):
    exchange = Exchange._of(*parts)
    found += play(exchange, commands)
print(found)
