#!/usr/bin/env python3
"""Calls of the library through the Python package, for tools/model/compare_wrapper.py python. The requests and results are those of through.rs."""

import struct
import sys
from pathlib import Path

sys.path.insert(0, str(Path(__file__).resolve().parents[3] / "bindings" / "python"))

import zelvorm
from zelvorm import Answer, Effect, Exchange, Posting, Refused, Side, Start, command_of, raw

QUEUE_BYTES = 4 * raw.QUEUE_STRIDE


def main():
    while request := read_parts():
        result = respond(request[0].decode(), request[1:])
        sys.stdout.buffer.write(b"".join([number(len(result)), *(number(len(part)) + part for part in result)]))
        sys.stdout.buffer.flush()


def read_parts():
    head = sys.stdin.buffer.read(4)
    count = int.from_bytes(head, "little") if head else 0
    return [sys.stdin.buffer.read(int.from_bytes(sys.stdin.buffer.read(4), "little")) for _ in range(count)]


def number(value):
    return struct.pack("<I", value)


def respond(call, given):
    if call in ("zelvorm_open", "zelvorm_mend", "zelvorm_read", "zelvorm_lines"):
        return globals()[call.removeprefix("zelvorm_") + "_file"](*given)
    try:
        exchange = Exchange.from_parts(raw.State.from_buffer_copy(given[0]), *given[1:4])
    except Refused as refused:
        return [number(refused.code)]
    if call == "zelvorm_well_formed":
        return [number(0)]
    result = globals()[call.removeprefix("zelvorm_")](exchange, *given[4:])
    check_views(exchange)
    state, *areas = exchange.parts()
    return [*result, bytes(state), *areas]


# The code of a call, and what it gives or what stands in its place.
def tried(call, otherwise):
    try:
        return 0, call()
    except Refused as refused:
        return refused.code, otherwise


# A record that is a command's goes through the command.
def sent(record):
    return command_of(record) or record


# It is told whether it did.
def execute(exchange, record):
    command = command_of(record)
    if isinstance(command, zelvorm.Settle):
        code, settlement = tried(exchange.settle, None)
        return [struct.pack("<4I", code, 0, 0, 0), report_bytes(settlement), b"\1"]
    if command:
        code, answer = tried(lambda: exchange.execute(command), Answer(0, 0, 0))
        return [struct.pack("<4I", code, answer.order, answer.traded, answer.lots), report_bytes(None), b"\1"]
    response = exchange.respond(record)
    return [answer_bytes(response.answer), report_bytes(response.settlement), b"\0"]


def records(commands):
    return [sent(commands[at : at + 24]) for at in range(0, len(commands) - 23, 24)]


# With room for every answer the commands go one by one into a list, otherwise as bytes.
def run(exchange, commands, answers):
    count = len(commands) // 24
    if len(answers) >= 16 * count:
        return [struct.pack("<Q", count), over(answers, exchange.run(records(commands)))]
    area = bytearray(answers)
    return [struct.pack("<Q", exchange.run_bytes(commands, area)), bytes(area)]


def bundle(exchange, commands, answers):
    if len(answers) >= 16 * (len(commands) // 24):
        code, given = tried(lambda: exchange.bundle(records(commands)), [])
        return [number(code), over(answers, given)]
    area = bytearray(answers)
    code, _ = tried(lambda: exchange.bundle_bytes(commands, area), None)
    return [number(code), bytes(area)]


def gettable(exchange, record):
    code, found = tried(lambda: exchange.gettable(sent(record)), zelvorm.Gettable(0, 0))
    return [number(code), number(found.lots), struct.pack("<Q", found.orders_read)]


def side(exchange, sell, contract):
    return [queue(exchange, Side(sell[0]), int.from_bytes(contract, "little"))]


# Missing words of the clients' starting lots are 0, and clients beyond 17 are as good as 17.
def client_statement(exchange, account, clients, starts, postings, _):
    count = min(int.from_bytes(clients, "little"), 17)
    words = (starts + bytes(32 * count))[: 32 * count]
    told = [Start(row[0::2], row[1::2]) for row in struct.iter_unpack("<8I", words)]
    posted = [Posting(*pair) for pair in struct.iter_unpack("<2I", postings[: len(postings) // 8 * 8])]
    code, made = tried(lambda: exchange.statement(int.from_bytes(account, "little"), told, posted), None)
    return [number(code), statement_bytes(made) if made else b""]


def write(exchange, _):
    code, file = tried(exchange.write, b"")
    return [number(code), file]


def open_file(file):
    code, day = tried(lambda: Exchange.open(file), None)
    if day is None:
        return [number(code), b"", bytes(raw.State())]
    check_views(day.exchange)
    return [number(0), b"".join(day.commands), bytes(day.exchange.state)]


def mend_file(file, *_):
    code, mended = tried(lambda: zelvorm.mend(file), None)
    if mended is None:
        return [number(code), b"", b""]
    rows = [struct.pack("<QB", row.place, row.reason) for row in mended.dropped]
    return [number(0), mended.file, struct.pack("<Q", len(rows)) + b"".join(rows)]


def lines_file(file):
    return [zelvorm.day_lines(file)]


def read_file(file, state, *_):
    code, exchange = tried(lambda: Exchange.read(file), None)
    return [number(code), bytes(exchange.state) if exchange else state]


# ---- what the package gives, as it lies in memory


def answer_bytes(answer):
    return number(answer.code) + bytes(12) if isinstance(answer, Refused) else struct.pack("<4I", 0, answer.order, answer.traded, answer.lots)


def over(area, answers):
    given = b"".join(map(answer_bytes, answers))
    return given + area[len(given) :]


def report_bytes(settlement):
    report = raw.Report()
    if settlement:
        report.prices[: len(settlement.prices)] = settlement.prices
        for place, account in enumerate(settlement.accounts):
            report.closing[place], report.holding[place], report.charged[place] = account.closing, account.holding, account.charged
    return bytes(report)


def statement_bytes(told):
    legs = [struct.pack("<BBBBIII", leg.client, leg.contract, leg.side, leg.effect, leg.price, leg.lots, leg.order) for leg in told.legs]
    held = [struct.pack("<II", *lots) for client in told.holdings for lots in client]
    profits = [struct.pack("<qq", profit.closing, profit.holding) for profit in told.profits]
    return b"".join(number(len(section)) + b"".join(section) for section in (legs, held, profits))


def queue(exchange, of, contract):
    return b"".join(
        struct.pack("<7I", o.price, o.number, o.account - 1, o.lots, o.effect, o.stamp, o.is_quote) for o in exchange.orders(of, contract)
    )


# What the iterators tell is what lies in the state and its areas.
def check_views(exchange):
    state, buys, sells, trades = exchange.parts()
    for place, contract in enumerate(exchange.contracts()):
        found, terms = state.contracts[place], contract.terms
        told = [terms.multiplier, terms.tick, terms.reference, terms.band, terms.limit, terms.rate, terms.method, contract.phase, contract.last]
        assert told == [getattr(found, name) for name, _ in raw.Contract._fields_]
        for of, area, count in ((Side.BUY, buys, state.buycounts), (Side.SELL, sells, state.sellcounts)):
            assert queue(exchange, of, place + 1) == area[QUEUE_BYTES * place :][: 28 * count[place]]
    assert len(list(exchange.contracts())) == state.contractcount
    for place, account in enumerate(exchange.accounts()):
        found = state.accounts[place]
        assert (account.balance, account.is_maker) == (found.balance, bool(found.maker))
        for held, lots in zip(account.holdings, found.holdings):
            assert [held.long, held.short, held.start_long, held.start_short] == [lots.long, lots.short, lots.startlong, lots.startshort]
    assert len(list(exchange.accounts())) == state.accountcount
    told = b""
    for t in exchange.trades():
        closes = [effect == Effect.CLOSE for effect in (t.buy_effect, t.sell_effect)]
        told += struct.pack("<9I", t.contract - 1, t.price, t.lots, t.buy_order, t.sell_order, t.buyer - 1, t.seller - 1, *closes)
    assert told == trades[: 36 * exchange.trade_count]
    assert exchange.settlements == state.settlements


if __name__ == "__main__":
    main()
