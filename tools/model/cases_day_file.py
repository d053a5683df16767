"""Cases of a day file's soundness, code 20 (document 01, "The day file")."""

import struct

from casebook import *
from cases_mending import CONTRACT_RECORD, MALFORMED, SOUND, records
from dayfile import DayFile


def read(name, file, sound):
    return case(name, "day file", Memory(), (file,), sound)


def file(contracts=(CONTRACT_RECORD,), balances=(5, 10**18), commands=()):
    return dayfile.write(DayFile(list(contracts), list(balances), list(commands)))


def cases():
    yield from counts_and_length()
    yield from values()


# "Sections in a fixed order, each after its 4-byte count: contracts (1 to 4), accounts (1 to 32), commands (0 to 2,000).
# The file ends with the last command."
def counts_and_length():
    for count, sound in ((0, 0), (1, 1), (4, 1), (5, 0)):
        yield read(f"{count} contracts", file(contracts=[CONTRACT_RECORD] * count), sound)
    for count, sound in ((0, 0), (1, 1), (32, 1), (33, 0)):
        yield read(f"{count} accounts", file(balances=[3] * count), sound)
    for count, sound in ((0, 1), (1, 1), (2_000, 1), (2_001, 0)):
        yield read(f"{count} commands", file(commands=[SOUND] * count), sound)
    # "Bad command fields don't break a file."
    yield read("malformed commands", file(commands=[MALFORMED, dayfile.Command(0), dayfile.Command(255)]), 1)
    whole = file(commands=[SOUND, SOUND])
    for length in (0, 3, 4, 23, 24, 27, 28, 43, 44, 47, 48, 71, 72, 95):
        yield read(f"{length} bytes of {len(whole)}", whole[:length], 0)
    yield read("the whole file", whole, 1)
    yield read("a byte more", whole + b"\0", 0)
    yield read("a command more", whole + records(SOUND), 0)
    # The counts stand at bytes 0, 24 and 44.
    for name, at in (("contracts", 0), ("accounts", 24), ("commands", 44)):
        (count,) = struct.unpack_from("<I", whole, at)
        for stored in (count - 1, count + 1, count + 2**8, count + 2**16, count + 2**31, 2**32 - 1):
            spoilt = whole[:at] + struct.pack("<I", stored) + whole[at + 4 :]
            yield read(f"{count} {name} counted as {stored}", spoilt, 0)


# "A contract is 20 bytes: multiplier 2, tick 2, reference 4, band 4, limit 4, rate 2, zero 2." "20 for a method above 2"
# "An account is 8 bytes: opening balance, 0 to 10^18." "Bit 63 of an account's opening balance in the file marks a maker."
def values():
    for name, inside, outside in (
        ("multiplier", (1, 1_000), (0, 1_001, 65_535)),
        ("tick", (1, 1_000), (0, 1_001, 65_535)),
        ("reference", (5, 10**6), (0, 4, 99, 101, 10**6 + 5, 2**32 - 1)),
        ("band", (5, 10**6), (0, 4, 49, 51, 10**6 + 5, 2**32 - 1)),
        ("limit", (1, 100_000), (0, 100_001, 2**32 - 1)),
        ("rate", (1, 10_000), (0, 10_001, 65_535)),
        ("method", (0, 1, 2), (3, 256, 65_535)),
    ):
        for place, of in ((0, 1), (0, 2), (1, 2)):
            for value in (*inside, *outside):
                # Multiples of the tick, so that nothing else is wrong.
                of_tick = {"reference": max(value, 5), "band": max(value, 5)} if name == "tick" else {}
                contracts = [CONTRACT_RECORD] * of
                contracts[place] = CONTRACT_RECORD._replace(**of_tick, **{name: value})
                where = f"{name} {value} of contract {place + 1} of {of}"
                yield read(where, file(contracts, commands=[SOUND]), int(value in inside))
    by_one = CONTRACT_RECORD._replace(tick=1)
    for name in ("reference", "band"):
        for value, sound in ((1, 1), (10**6, 1), (10**6 + 1, 0)):
            yield read(f"{name} {value} by ticks of 1", file([by_one._replace(**{name: value})]), sound)
    for place in (0, 1, 31):
        top = 10**18
        for value, sound in ((0, 1), (top, 1), (top + 1, 0), (2**62, 0), (2**63 - 1, 0), (2**63, 1), (2**63 + 1, 1), (2**63 + top, 1), (2**63 + top + 1, 0), (2**63 + 2**62, 0), (2**64 - 1, 0)):
            balances = [3] * max(place + 1, 2)
            balances[place] = value
            yield read(f"balance {value} of account {place + 1}", file(balances=balances), sound)
