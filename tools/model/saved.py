"""Continue tomorrow: a state written to a file after settlement, and read again (document 02, ticket 10)."""

import struct
from typing import NamedTuple

import dayfile
import memory
import model
from bounds import MOST_RESTING, MOST_TRADES

# "numbers are little-endian, section counts take 4 bytes" (ticket 9)
COUNT = dayfile.COUNT
# "contracts (the day file's 20 bytes, then last price 4)"
LAST_PRICE = struct.Struct("<I")
CONTRACT = struct.Struct(dayfile.CONTRACT.format + LAST_PRICE.format[1:])
# "accounts (signed balance 8, maker mark 1, its value 0 or 1)"
ACCOUNT = struct.Struct("<qB")
# "holdings (long 4, short 4, by account then contract)"
HOLDING = struct.Struct("<II")
# "then the settlement count (4) as a section of one"
SETTLEMENTS = struct.Struct("<I")


class Written(NamedTuple):
    """The code, and what is written at the front of the area; bytes beyond stay."""

    code: int
    bytes: bytes = b""


# =====================================================================================================================
# Writing
# =====================================================================================================================


# "Refusals, in order: 21; 28 state not writable; 29 output area too short". Nothing is then written.
def write_state(asked, output_length):
    state = memory.in_use(asked)
    if not model.well_formed(state):
        return Written(21)
    if not is_writable(state):
        return Written(28)
    written = state_bytes(state)
    if len(written) > output_length:
        return Written(29)
    return Written(0, written)


# "A state is writable exactly when every contract is in pre-open, its long and short totals are equal, no trades or orders
# exist and the next order number and stamp are 1."
def is_writable(state):
    return (
        all(contract.state == "pre-open" for contract in state.contracts.values())
        and totals_are_equal(state)
        and state.trades == []
        and all(queue == [] for contract in state.contracts.values() for queue in contract.queues.values())
        and state.next_order_number == 1
        and state.next_stamp == 1
    )


# Contract by contract, over all accounts.
def totals_are_equal(state):
    return all(
        sum(state.holdings[account, number, "long"] for account in state.balances)
        == sum(state.holdings[account, number, "short"] for account in state.balances)
        for number in state.contracts
    )


# "Sections in a fixed order, each after its count"
def state_bytes(state):
    contracts = [
        CONTRACT.pack(
            contract.multiplier,
            contract.tick,
            contract.reference,
            contract.band,
            contract.limit,
            contract.rate,
            contract.method,
            contract.last_price,
        )
        for contract in state.contracts.values()
    ]
    accounts = [ACCOUNT.pack(balance, account in state.makers) for account, balance in state.balances.items()]
    holdings = [
        HOLDING.pack(state.holdings[account, number, "long"], state.holdings[account, number, "short"])
        for account in state.balances
        for number in state.contracts
    ]
    sections = (contracts, accounts, holdings, [SETTLEMENTS.pack(state.settlements)])
    return b"".join(COUNT.pack(len(section)) + b"".join(section) for section in sections)


# =====================================================================================================================
# Reading
# =====================================================================================================================


# "reading gives 20 for a broken file or a state not well formed (room of areas aside), then 30 if a contract's long and
# short totals differ, then 29 if an area lent for the state lacks its room"
# There is no 21: whatever the state was is overwritten.
def read_state(lent, file):
    try:
        state = state_in(file)
    except dayfile.Broken:
        return 20
    if not totals_are_equal(state):
        return 30
    if lacks_room(lent, state):
        return 29
    put(lent, state)
    return 0


# The state that the file's bytes tell. Raises Broken for code 20.
def state_in(file):
    state = sections(file)
    if not model.well_formed(state):
        raise dayfile.Broken("the state is not well formed")
    return state


# The state in a file whose sections are whole, whatever its values: in pre-open, without orders and trades, the holdings
# at the start of the day and now alike.
def sections(file):
    contracts, rest = dayfile.section(file, "contracts", CONTRACT)
    accounts, rest = dayfile.section(rest, "accounts", ACCOUNT)
    holdings, rest = dayfile.section(rest, "holdings", HOLDING)
    settlements, rest = dayfile.section(rest, "settlement count", SETTLEMENTS)
    if rest:
        raise dayfile.Broken("bytes after the settlement count", figures=f"{len(rest):,} of them")
    # "holdings [...] by account then contract": one for each.
    if len(holdings) != len(accounts) * len(contracts):
        raise dayfile.Broken("holdings are not accounts times contracts")
    if len(settlements) != 1:
        raise dayfile.Broken("settlement counts are not one")
    for number, (_, maker) in enumerate(accounts, 1):
        if maker > 1:
            raise dayfile.Broken("maker mark not 0 or 1", f"account {number}: ")
    places = [(account, number) for account in range(1, len(accounts) + 1) for number in range(1, len(contracts) + 1)]
    held = {
        (account, number, side): lots
        for (account, number), both in zip(places, holdings)
        for side, lots in zip(("long", "short"), both)
    }
    return model.State(
        contracts={number: contract_of(fields) for number, fields in enumerate(contracts, 1)},
        balances={number: balance for number, (balance, _) in enumerate(accounts, 1)},
        holdings_at_start=dict(held),
        holdings=held,
        settlements=settlements[0][0],
        makers=frozenset(number for number, (_, maker) in enumerate(accounts, 1) if maker),
        # "room of areas aside"
        room_for_orders={side: MOST_RESTING * max(len(contracts), 1) for side in dayfile.SIDES},
        room_for_trades=MOST_TRADES,
    )


def contract_of(fields):
    *terms, last_price = fields
    record = dayfile.ContractRecord(*terms)
    return model.Contract(
        record.multiplier,
        record.tick,
        record.reference,
        record.band,
        record.limit,
        record.rate,
        last_price=last_price,
        method=record.method,
    )


# The areas of buys and of sells need 64 places for each contract in use, the trade area 1,024.
def lacks_room(lent, state):
    orders = MOST_RESTING * len(state.contracts)
    if any(memory.room_of(area) < orders for area in lent.orders.values()):
        return True
    return memory.room_of(lent.trades) < MOST_TRADES


# "Reading leaves places not in use untouched": what was in use before and is no longer stays too, since nothing is put
# out of use place by place. No order and no trade is in use afterwards, so that the areas stay as they are.
def put(lent, state):
    lent.contract_count = len(state.contracts)
    lent.account_count = len(state.balances)
    for counts in lent.order_counts.values():
        counts[: len(state.contracts)] = [0] * len(state.contracts)
    lent.trade_count = 0
    for account in state.balances:
        lent.makers[account - 1] = int(account in state.makers)
    memory.put(lent, state)
