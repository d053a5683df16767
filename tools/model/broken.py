"""Every way to break a day file: one fault at a time, under a name that says which (document 01, code 20)."""

from bounds import MOST_ACCOUNTS, MOST_COMMANDS, MOST_CONTRACTS, TOP_BALANCE, TOP_PRICE
from dayfile import ACCOUNT, COMMAND, CONTRACT, COUNT, maker, settle, write

# The values that spoil a contract. Where one alone would break a second rule too, the others follow it.
CONTRACT_FAULTS = {
    "multiplier-0": {"multiplier": 0},
    "multiplier-1001": {"multiplier": 1_001},
    "tick-0": {"tick": 0},
    "tick-1001": {"tick": 1_001, "reference": 1_001, "band": 1_001},
    "reference-0": {"reference": 0},
    "reference-below-one-tick": {"tick": 10, "reference": 9, "band": 10},
    "reference-off-tick": {"tick": 10, "reference": 101, "band": 10},
    "reference-above-1000000": {"tick": 1, "reference": TOP_PRICE + 1},
    "reference-bit-31": {"tick": 1, "reference": 2**31 + 100},
    "band-0": {"band": 0},
    "band-off-tick": {"tick": 10, "reference": 100, "band": 11},
    "band-above-1000000": {"tick": 1, "band": TOP_PRICE + 1},
    "limit-0": {"limit": 0},
    "limit-100001": {"limit": 100_001},
    "rate-0": {"rate": 0},
    "rate-10001": {"rate": 10_001},
    "method-3": {"method": 3},
    "method-256": {"method": 256},
}

BALANCE_FAULTS = {
    "balance-one-above": TOP_BALANCE + 1,
    "balance-bit-62": 2**62,
    "balance-of-a-maker-one-above": maker(TOP_BALANCE + 1),
    "balance-all-bits": 2**64 - 1,
}


def broken_files(day, contract=0, account=0):
    """A file for each fault, from a sound day. The contract and the account say which record the fault is put in."""
    return {
        **wrong_values(day, contract, account),
        **wrong_numbers_of_records(day),
        **wrong_lengths(day._replace(commands=day.commands or [settle()])),
    }


def wrong_values(day, contract, account):
    files = {}
    for name, fields in CONTRACT_FAULTS.items():
        spoilt = day.contracts[contract]._replace(**fields)
        files[name] = write(day._replace(contracts=replaced(day.contracts, contract, spoilt)))
    for name, balance in BALANCE_FAULTS.items():
        files[name] = write(day._replace(balances=replaced(day.balances, account, balance)))
    return files


def replaced(records, place, record):
    return records[:place] + [record] + records[place + 1 :]


def wrong_numbers_of_records(day):
    """Files that are whole but have too few or too many records."""
    return {
        "contracts-0": write(day._replace(contracts=[])),
        "contracts-5": write(day._replace(contracts=day.contracts[:1] * (MOST_CONTRACTS + 1))),
        "accounts-0": write(day._replace(balances=[])),
        "accounts-33": write(day._replace(balances=day.balances[:1] * (MOST_ACCOUNTS + 1))),
        "commands-2001": write(day._replace(commands=[settle()] * (MOST_COMMANDS + 1))),
    }


def wrong_lengths(day):
    """Files whose length and counts do not agree."""
    file = write(day)
    accounts_start = COUNT.size + CONTRACT.size * len(day.contracts)
    commands_start = accounts_start + COUNT.size + ACCOUNT.size * len(day.balances)
    files = {
        "empty": b"",
        "no-accounts-section": file[:accounts_start],
        "no-commands-section": file[:commands_start],
        "one-byte-less": file[:-1],
        "one-byte-more": file + b"\0",
        "one-command-less": file[: -COMMAND.size],
        "one-command-more": file + COMMAND.pack(*settle()),
    }
    sections = (
        ("contracts", 0, CONTRACT.size, len(day.contracts)),
        ("accounts", accounts_start, ACCOUNT.size, len(day.balances)),
        ("commands", commands_start, COMMAND.size, len(day.commands)),
    )
    for name, start, record_size, records in sections:
        files[f"cut-in-the-count-of-{name}"] = file[: start + COUNT.size - 1]
        files[f"cut-in-the-{name}"] = file[: start + COUNT.size + record_size - 1]
        counts = {
            "one-fewer": records - 1,
            "one-more": records + 1,
            "all-bits": 2**32 - 1,
            # The section's length in bytes would come out right if it were worked out in 32 bits.
            "right-in-32-bits": records + wrap(record_size),
        }
        for count_name, count in counts.items():
            counted = file[:start] + COUNT.pack(count) + file[start + COUNT.size :]
            files[f"count-of-{name}-{count_name}"] = counted
    return files


def wrap(record_size):
    """The fewest records whose length in bytes is a multiple of 2^32."""
    records = 2**32
    while records * record_size // 2 % 2**32 == 0:
        records //= 2
    return records
