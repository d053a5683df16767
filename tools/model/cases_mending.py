"""Cases of mending a day file (document 02, ticket 11)."""

import struct

from casebook import *
from dayfile import ContractRecord, DayFile

CONTRACT_RECORD = ContractRecord(10, 5, 100, 50, 2_000, 1_000, 0)
SOUND = dayfile.deposit(1, 7)
MALFORMED = dayfile.Command(3, 1, 1, 0x40, 1, 100)


def records(*commands):
    return b"".join(dayfile.COMMAND.pack(*command) for command in commands)


def head(contracts=(CONTRACT_RECORD,), balances=(5, 10**18), count=0):
    without_commands = dayfile.write(DayFile(list(contracts), list(balances), []))
    return without_commands[:-4] + struct.pack("<I", count)


def mended(name, file, code=0, output=0, listed=0, more=(3, 3)):
    """Areas as long as what is written, and some bytes more."""
    return case(name, "mending", Memory(), (file, output + more[0], listed + more[1]), code)


# A file that is accepted: `kept` records in the mended file, `dropped` ones in the list.
def accepted(name, file, kept, dropped, more=(0, 0), code=0, contracts=1, balances=2):
    output = 12 + 20 * contracts + 8 * balances + 24 * kept
    return mended(name, file, code, output, 8 + 9 * dropped, more)


def cases():
    yield from heads()
    yield from kept_and_dropped()
    yield from surplus()
    yield from areas_too_short()


# "Contracts, accounts and the four bytes of the command count must be whole, contracts and accounts in range too,
# otherwise 20."
def heads():
    yield accepted("no commands", head(), 0, 0)
    whole = head((CONTRACT_RECORD,) * 4, (0,) * 32, 1) + records(SOUND)
    yield accepted("four contracts, 32 accounts", whole, 1, 0, contracts=4, balances=32)
    for length in (0, 3, 4, 23, 24, 27, 28, 35, 43, 44, 47):
        yield mended(f"{length} bytes of a head of 48", (head() + records(SOUND))[:length], 20, 100, 100)
    for count in (0, 5, 2**32 - 1):
        spoilt = struct.pack("<I", count) + head((CONTRACT_RECORD,) * min(count, 5))[4:] + bytes(200)
        yield mended(f"{count} contracts", spoilt, 20, 400, 100)
    for count in (0, 33, 2**32 - 1):
        file = head(balances=(1,) * min(count, 33))
        yield mended(f"{count} accounts", file[:24] + struct.pack("<I", count) + file[28:], 20, 400, 100)
    for name, least, most in (
        ("multiplier", 1, 1_000),
        ("tick", 1, 1_000),
        ("reference", 5, 10**6),
        ("band", 5, 10**6),
        ("limit", 1, 100_000),
        ("rate", 1, 10_000),
        ("method", 0, 2),
    ):
        step = 5 if name in ("reference", "band") else 1
        for place in (0, 1):
            for value, code in ((least, 0), (most, 0), (least - step, 20), (most + step, 20)):
                if value < 0:
                    continue
                # Multiples of the tick, so that nothing else is wrong.
                of_tick = {"reference": max(value, 5), "band": max(value, 5)} if name == "tick" else {}
                contracts = [CONTRACT_RECORD, CONTRACT_RECORD]
                contracts[place] = CONTRACT_RECORD._replace(**of_tick, **{name: value})
                file = head(contracts, count=1) + records(SOUND)
                yield accepted(f"{name} {value} of contract {place + 1}", file, 1, 0, code=code, contracts=2)
    for name in ("reference", "band"):
        contract = CONTRACT_RECORD._replace(**{name: 101})
        yield accepted(f"{name} off tick", head([contract], count=1) + records(SOUND), 1, 0, code=20)
    for place in (0, 1):
        top, mark = 10**18, 2**63
        for value, code in ((0, 0), (top, 0), (top + 1, 20), (mark, 0), (mark + top, 0), (mark + top + 1, 20), (2**64 - 1, 20)):
            balances = [3, 3]
            balances[place] = value
            yield accepted(f"balance {value} of account {place + 1}", head(balances=balances), 0, 0, code=code)


# "Of the commands, drop those that would get code 1, a partial record at the end, and all kept beyond 2,000; the stored
# command count is ignored and rewritten. Kept commands stay in order."
def kept_and_dropped():
    first, second = dayfile.deposit(1, 1), insert(9, 9, "sell", 12_345, 0)
    for count in (0, 1, 2, 3, 2_001, 2**32 - 1):
        yield accepted(f"two records, count {count}", head(count=count) + records(first, second), 2, 0)
    for place in (1, 2, 3):
        commands = [first, second, first]
        commands.insert(place - 1, MALFORMED)
        yield accepted(f"record {place} of 4 malformed", head(count=4) + records(*commands), 3, 1)
    yield accepted("all malformed", head(count=2) + records(MALFORMED, dayfile.Command(0)), 0, 2)
    for partial in (1, 12, 23):
        yield accepted(f"{partial} bytes behind two records", head(count=3) + records(first, second, first)[: 48 + partial], 2, 1)
        yield accepted(f"{partial} bytes alone", head(count=1) + records(first)[:partial], 0, 1)
    malformed_and_partial = records(MALFORMED, first, MALFORMED, second) + records(MALFORMED)[:5]
    yield accepted("malformed ones and a partial one", head(count=9) + malformed_and_partial, 2, 3)
    yield accepted("a mended file", head(count=2) + records(first, second), 2, 0)
    for kind in dayfile.NUMBER_OF_KIND:
        for name in dayfile.unused_fields(kind):
            command = dayfile.Command(dayfile.NUMBER_OF_KIND[kind])._replace(**{name: 1})
            yield accepted(f"{kind} with {name}", head() + records(command), 0, 1)
        yield accepted(f"{kind}, bare", head() + records(dayfile.Command(dayfile.NUMBER_OF_KIND[kind])), 1, 0)
    for kind, flags in (("insert", (0x0C, 0x30, 0x40, 0x80)), ("cancel", (2,)), ("pull", (2,)), ("state", (5,))):
        for value in flags:
            command = dayfile.Command(dayfile.NUMBER_OF_KIND[kind], flags=value)
            yield accepted(f"{kind} with flags {value}", head() + records(command), 0, 1)
    for kind in (10, 255):
        yield accepted(f"kind {kind}", head() + records(dayfile.Command(kind)), 0, 1)


# "1 malformed, 2 partial, 3 surplus"
def surplus():
    def many(*behind, before=(), partial=b""):
        return head(count=2_000) + records(*before) + records(SOUND) * 2_000 + records(*behind) + partial

    yield accepted("2,000 records", many(), 2_000, 0)
    yield accepted("2,001 records", many(SOUND), 2_000, 1)
    yield accepted("2,000 records and a malformed one", many(MALFORMED), 2_000, 1)
    yield accepted("2,000 records and a partial one", many(partial=b"\x01"), 2_000, 1)
    yield accepted("a malformed record, then 2,000", many(before=[MALFORMED]), 2_000, 1)
    behind = many(SOUND, MALFORMED, SOUND, partial=bytes(23), before=[MALFORMED])
    yield accepted("surplus, malformed and partial behind 2,000", behind, 2_000, 5)


# "29 if output or list area is too short, nothing written": 20 before 29
def areas_too_short():
    file = head(count=3) + records(SOUND, MALFORMED, SOUND) + bytes(7)
    for more, code in (
        ((0, 0), 0),
        ((1, 1), 0),
        ((50, 50), 0),
        ((-1, 0), 29),
        ((0, -1), 29),
        ((-1, -1), 29),
        ((50, -1), 29),
        ((-1, 50), 29),
    ):
        yield accepted(f"areas longer by {more}", file, 2, 2, more, code)
    yield accepted("no bytes for the list's count", head(), 0, 0, (0, -1), 29)
    yield accepted("no bytes for the command count", head(), 0, 0, (-1, 0), 29)
    broken_file = head([CONTRACT_RECORD._replace(rate=0)])
    yield mended("20 before 29", broken_file, 20, 0, 0, (0, 0))
    yield mended("29 without areas", head(), 29, 0, 0, (0, 0))
    yield mended("20 for no bytes at all", b"", 20, 0, 0, (0, 0))
