"""Mending a day file (document 02, ticket 11)."""

import struct
from typing import NamedTuple

import dayfile
import model
from bounds import MOST_COMMANDS

# "an 8-byte count, then each dropped record in file order: its place from 1 (8) and a reason (1)"
LIST_COUNT = struct.Struct("<Q")
DROPPED = struct.Struct("<QB")
# "1 malformed, 2 partial, 3 surplus"
MALFORMED, PARTIAL, SURPLUS = 1, 2, 3


class Mended(NamedTuple):
    """The code, and what is written at the front of the two areas; bytes beyond stay."""

    code: int
    file: bytes = b""
    list: bytes = b""


# "Refusals: 20; 29 if output or list area is too short, nothing written."
def mend(file, output_length, list_length):
    try:
        head, rest = whole_head(file)
    except dayfile.Broken:
        return Mended(20)
    kept, dropped = sorted_out(rest)
    mended = head + dayfile.COUNT.pack(len(kept)) + b"".join(kept)
    listed = LIST_COUNT.pack(len(dropped)) + b"".join(DROPPED.pack(place, reason) for place, reason in dropped)
    if len(mended) > output_length:
        return Mended(29)
    if len(listed) > list_length:
        return Mended(29)
    return Mended(0, mended, listed)


# "Contracts, accounts and the four bytes of the command count must be whole, contracts and accounts in range too,
# otherwise 20." The bytes before the command count, and those behind it.
def whole_head(file):
    contracts, rest = dayfile.section(file, "contracts", dayfile.CONTRACT)
    accounts, rest = dayfile.section(rest, "accounts", dayfile.ACCOUNT)
    dayfile.check_contracts([dayfile.ContractRecord(*fields) for fields in contracts])
    dayfile.check_balances([balance for (balance,) in accounts])
    if len(rest) < dayfile.COUNT.size:
        raise dayfile.Broken("cut in the count of commands")
    return file[: len(file) - len(rest)], rest[dayfile.COUNT.size :]


# "Of the commands, drop those that would get code 1, a partial record at the end, and all kept beyond 2,000; the stored
# command count is ignored and rewritten. Kept commands stay in order."
# All bytes behind the command count are records.
def sorted_out(rest):
    kept, dropped = [], []
    size = dayfile.COMMAND.size
    for place in range(1, len(rest) // size + 1):
        record = rest[size * (place - 1) : size * place]
        if model.is_malformed(dayfile.Command(*dayfile.COMMAND.unpack(record))):
            dropped.append((place, MALFORMED))
        elif len(kept) == MOST_COMMANDS:
            dropped.append((place, SURPLUS))
        else:
            kept.append(record)
    if len(rest) % size != 0:
        dropped.append((len(rest) // size + 1, PARTIAL))
    return kept, dropped
