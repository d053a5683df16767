"""The day file: its bytes as plain records, and back (document 01, "The day file")."""

import struct
from typing import NamedTuple

from bounds import MOST_ACCOUNTS, MOST_COMMANDS, MOST_CONTRACTS, TOP_BALANCE, contract_fault

# "Little-endian. Sections in a fixed order, each after its 4-byte count"
COUNT = struct.Struct("<I")
# "A contract is 20 bytes: multiplier 2, tick 2, reference 4, band 4, limit 4, rate 2, zero 2."
# "The contract record's last two bytes, zero until now, name the method" (document 02, ticket 6)
CONTRACT = struct.Struct("<HHIIIHH")
# "An account is 8 bytes: opening balance"
ACCOUNT = struct.Struct("<Q")
# "Bit 63 of an account's opening balance in the file marks a maker." (document 02, ticket 7)
MAKER = 1 << 63
# "A command is 24 bytes: kind 1, account 1, contract 1, flags 1, lots 4, price 4, order number 4, amount 8."
COMMAND = struct.Struct("<BBBBIIIQ")


class ContractRecord(NamedTuple):
    multiplier: int
    tick: int
    reference: int
    band: int
    limit: int
    rate: int
    method: int = 0


class Command(NamedTuple):
    kind: int
    account: int = 0
    contract: int = 0
    flags: int = 0
    lots: int = 0
    price: int = 0
    order_number: int = 0
    amount: int = 0


class DayFile(NamedTuple):
    contracts: list
    # An account's eight bytes as they stand in the file: its opening balance, with a maker's mark.
    balances: list
    commands: list


def opening_balance(field):
    return field & ~MAKER


def is_maker(field):
    return field & MAKER != 0


def maker(balance):
    return balance | MAKER


# "1 deposit, 2 withdraw", "3 insert", "4 cancel", "5 pull", "6 state", "7 settle"
# "One command, kind 8, [...] places a buy and a sell" (document 02, ticket 7)
# "Kind 9 [...] gives account, contract, order number, the new remaining lots and the price." (document 02, ticket 8)
KINDS = {
    1: "deposit",
    2: "withdraw",
    3: "insert",
    4: "cancel",
    5: "pull",
    6: "state",
    7: "settle",
    8: "quote",
    9: "change",
}
NUMBER_OF_KIND = {name: number for number, name in KINDS.items()}

# The table's second column: the fields that each kind uses.
FIELDS_USED = {
    "deposit": ("account", "amount"),
    "withdraw": ("account", "amount"),
    "insert": ("account", "contract", "flags", "lots", "price"),
    "cancel": ("account", "contract", "flags", "order_number"),
    "pull": ("account", "contract", "flags"),
    "state": ("contract", "flags"),
    "settle": (),
    # "the price field holds the buy price, the order number field the sell price"
    "quote": ("account", "contract", "lots", "price", "order_number"),
    "change": ("account", "contract", "order_number", "lots", "price"),
}

# "bit 0 sell, bit 1 close, bits 2 and 3 price condition, bits 4 and 5 time condition, bits 6 and 7 zero"
SIDES = ("buy", "sell")
EFFECTS = ("open", "close")
# "limit 0, market 1, best 2"
PRICE_CONDITIONS = ("limit", "market", "best")
# "good for day 0, immediate or cancel 1, fill or kill 2"
TIME_CONDITIONS = ("day", "immediate", "kill")
# "State flags: 0 pre-open, 1 continuous, 2 no trading, 3 closed"
# "Add contract state 4, auction (flags above 4 are unknown)" (document 02, ticket 4)
STATES = ("pre-open", "continuous", "no-trading", "closed", "auction")


def unused_fields(kind):
    """The fields that must be zero in a command of this kind: "Fields not used are zero." """
    return [field for field in Command._fields[1:] if field not in FIELDS_USED[kind]]


def insert_flags(side, effect, price_condition, time_condition):
    return (
        SIDES.index(side)
        | EFFECTS.index(effect) << 1
        | PRICE_CONDITIONS.index(price_condition) << 2
        | TIME_CONDITIONS.index(time_condition) << 4
    )


def insert_flag_values(flags):
    """The five values in an insert's flags: sell, close, price condition, time condition, bits 6 and 7."""
    return flags & 1, flags >> 1 & 1, flags >> 2 & 3, flags >> 4 & 3, flags >> 6


def flags_known(kind, flags):
    """Whether each value in the flags has a meaning for this kind."""
    if kind == "insert":
        _, _, price_condition, time_condition, high_bits = insert_flag_values(flags)
        # "Value 3 is unknown in either."
        return price_condition != 3 and time_condition != 3 and high_bits == 0
    if kind in ("cancel", "pull"):
        # "Cancel and pull flags: bit 0 operator, the rest zero."
        return flags <= 1
    # The kinds that are left do not use their flags, but for state.
    return flags < len(STATES)


# One command of each kind, with the fields that it does not use left zero.


def deposit(account, amount):
    return Command(NUMBER_OF_KIND["deposit"], account=account, amount=amount)


def withdraw(account, amount):
    return Command(NUMBER_OF_KIND["withdraw"], account=account, amount=amount)


def insert(account, contract, side, effect, price_condition, price, lots, time_condition):
    flags = insert_flags(side, effect, price_condition, time_condition)
    return Command(NUMBER_OF_KIND["insert"], account, contract, flags, lots, price)


def cancel(account, contract, order_number, operator=False):
    return Command(NUMBER_OF_KIND["cancel"], account, contract, int(operator), order_number=order_number)


def pull(account, contract, operator=False):
    return Command(NUMBER_OF_KIND["pull"], account, contract, int(operator))


def state(contract, name):
    return Command(NUMBER_OF_KIND["state"], contract=contract, flags=STATES.index(name))


def settle():
    return Command(NUMBER_OF_KIND["settle"])


def quote(account, contract, buy_price, sell_price, lots):
    return Command(NUMBER_OF_KIND["quote"], account, contract, 0, lots, buy_price, sell_price)


def change(account, contract, order_number, lots, price):
    return Command(NUMBER_OF_KIND["change"], account, contract, 0, lots, price, order_number)


class Broken(Exception):
    """The file is broken; `fault` says what is wrong, the message where, and `figures` what was counted."""

    def __init__(self, fault, where="", figures=""):
        super().__init__(where + fault)
        self.fault = fault
        self.figures = figures


def faults(file):
    """All that makes a file broken, in words; nothing for a sound one. Of a file that is cut only the cut is told."""
    try:
        return [str(broken) for broken in range_faults(sections(file))]
    except Broken as broken:
        return [f"{broken} ({broken.figures})"]


def read(file):
    """The records of a sound file. Raises Broken for code 20: "count, length or value out of range"."""
    day = sections(file)
    check_ranges(day)
    return day


def sections(file):
    """The records of a file whose three sections are whole, whatever its counts and values."""
    contracts, rest = section(file, "contracts", CONTRACT)
    accounts, rest = section(rest, "accounts", ACCOUNT)
    commands, rest = section(rest, "commands", COMMAND)
    # "The file ends with the last command."
    if rest:
        raise Broken("bytes after the last command", figures=f"{len(rest):,} of them")
    return DayFile(
        [ContractRecord(*fields) for fields in contracts],
        [balance for (balance,) in accounts],
        [Command(*fields) for fields in commands],
    )


def section(rest, name, record):
    """The records of the section that the bytes begin with, and the bytes after it."""
    if len(rest) < COUNT.size:
        raise Broken(f"cut in the count of {name}", figures=f"{len(rest)} of its {COUNT.size} bytes are there")
    (count,) = COUNT.unpack_from(rest)
    end = COUNT.size + count * record.size
    if len(rest) < end:
        whole = (len(rest) - COUNT.size) // record.size
        raise Broken(f"cut in the {name}", figures=f"{count:,} counted, {whole:,} there whole")
    return list(record.iter_unpack(rest[COUNT.size : end])), rest[end:]


def check_ranges(day):
    """Raises Broken where a count or value is out of range. "Bad command fields don't break a file." """
    for broken in range_faults(day):
        raise broken


def range_faults(day):
    """Each count out of range, then the first value out of range of each contract and account."""
    # "contracts (1 to 4), accounts (1 to 32), commands (0 to 2,000)"
    yield from contracts_faults(day.contracts)
    yield from balances_faults(day.balances)
    if len(day.commands) > MOST_COMMANDS:
        yield Broken("commands not 0 to 2,000")


def contracts_faults(contracts):
    if not 1 <= len(contracts) <= MOST_CONTRACTS:
        yield Broken("contracts not 1 to 4")
    for number, contract in enumerate(contracts, 1):
        fault = contract_fault(contract)
        if fault:
            yield Broken(fault, f"contract {number}: ")


def balances_faults(balances):
    if not 1 <= len(balances) <= MOST_ACCOUNTS:
        yield Broken("accounts not 1 to 32")
    for number, balance in enumerate(balances, 1):
        # "opening balance, 0 to 10^18", a maker's mark aside
        if opening_balance(balance) > TOP_BALANCE:
            whose = "balance of a maker" if is_maker(balance) else "balance"
            yield Broken(f"{whose} not 0 to 10^18", f"account {number}: ")


def check_contracts(contracts):
    for broken in contracts_faults(contracts):
        raise broken


def check_balances(balances):
    for broken in balances_faults(balances):
        raise broken


def write(day):
    """The bytes of a day file with these records, sound or not."""
    return b"".join(
        [
            COUNT.pack(len(day.contracts)),
            *(CONTRACT.pack(*contract) for contract in day.contracts),
            COUNT.pack(len(day.balances)),
            *(ACCOUNT.pack(balance) for balance in day.balances),
            COUNT.pack(len(day.commands)),
            *(COMMAND.pack(*command) for command in day.commands),
        ]
    )
