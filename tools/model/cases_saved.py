"""Cases of a state written to a file and read again (document 02, ticket 10)."""

import random
import struct

import generate
import memory
import saved
from casebook import *
from vectors import Case


def written(name, state, code=0, length=None, more=0):
    """An area as long as what is written, and some bytes more."""
    length = size(state) + more if length is None else length
    return case(name, "write", state, (length,), code)


def read(name, file, code=0, lent=None):
    return case(name, "read", used() if lent is None else lent, (file,), code)


def size(state):
    contracts, accounts = state.contract_count, state.account_count
    return 16 + 24 * contracts + 9 * accounts + 8 * contracts * accounts + 4


def cases():
    yield from writing()
    yield from not_writable()
    yield from output_areas()
    yield from reading()
    yield from broken_files()
    yield from states_not_well_formed()
    yield from totals()
    yield from rooms()
    yield from order_of_refusals()
    yield from there_and_back()


# A state after a settlement: lots held, as many long as short; a maker; a last price outside the new day's band.
def morning(contracts=2, accounts=3, **fields):
    state = counts(exchange(contracts, accounts, phase=PRE_OPEN, last=300, **fields), next=1, next_stamp=1, settlements=7)
    for contract in range(1, contracts + 1):
        start(state, 1, contract, 3 + contract, 1)
        start(state, accounts, contract, 1, 3 + contract)
    balance(state, 1, -12_345)
    return makers(state, accounts)


# The file of such a state.
def file(state=None):
    return saved.state_bytes(memory.in_use(morning() if state is None else state))


# What a state is read over: another one, with orders, trades, holdings and contracts of its own.
def used(**lengths):
    state = exchange(4, accounts=5, phase=CONTINUOUS)
    traded(start(state, 4, 1, 9, 9), 1, 100, 2, 1, 2, 31, 32)
    for contract in (1, 3):
        first = 10 * contract
        rest(rest(state, "buy", contract, (95, 2, first), (90, 3, first + 1)), "sell", contract, (105, 2, first + 2, 2))
    makers(state, 1, 5)
    return areas(counts(state, settlements=3), **lengths)


# "contracts (the day file's 20 bytes, then last price 4), accounts (signed balance 8, maker mark 1, its value 0 or 1),
# holdings (long 4, short 4, by account then contract), then the settlement count (4) as a section of one"
def writing():
    for contracts in (1, 2, 3, 4):
        for accounts in (2, 3, 32):
            yield written(f"{contracts} contracts, {accounts} accounts", morning(contracts, accounts))
    opening = counts(exchange(2, phase=PRE_OPEN), next=1, next_stamp=1)
    yield written("the opening state of a day file", opening)
    yield written("one contract, one account", counts(exchange(1, 1, phase=PRE_OPEN), next=1, next_stamp=1))
    own = counts(exchange(1, 1, phase=PRE_OPEN), next=1, next_stamp=1)
    yield written("an account long and short", start(own, 1, 1, 5, 5))
    for contract in (1, 2):
        of_its_own = terms(morning(), contract, multiplier=7, tick=3, reference=300, band=33, limit=77, rate=123, method=2, last=9)
        yield written(f"terms of contract {contract}", of_its_own)
    top = dict(multiplier=1_000, tick=1, reference=10**6, band=10**6, limit=100_000, rate=10_000, method=2, last=10**6)
    largest = counts(exchange(4, 32, phase=PRE_OPEN, **top), next=1, next_stamp=1, settlements=250)
    for account in range(1, 33):
        balance(makers(largest, account), account, (10**18 + 250 * 3 * 10**15) * (-1) ** account)
        for contract in range(1, 5):
            start(largest, account, contract, 100_000, 100_000)
    yield written("the largest of everything", largest)
    for account in (1, 2, 3):
        for value in (-1, 0, 1, -(10**18), 10**18 + 7 * 3 * 10**15):
            yield written(f"balance {value} of account {account}", balance(morning(), account, value))
        yield written(f"account {account} a maker", makers(morning(), account))
    for made in (0, 1, 249, 250):
        state = counts(exchange(phase=PRE_OPEN), next=1, next_stamp=1, settlements=made)
        yield written(f"{made} settlements", state)


# "A state is writable exactly when every contract is in pre-open, its long and short totals are equal, no trades or orders
# exist and the next order number and stamp are 1."
def not_writable():
    for contract in (1, 2):
        for phase in (CONTINUOUS, NO_TRADING, CLOSED, AUCTION):
            yield written(f"contract {contract} in state {phase}", terms(morning(), contract, phase=phase), 28)
        for held in ("long", "short"):
            for by in (-1, 1):
                state = morning()
                lots = getattr(state.holdings[0][contract - 1], held) + by
                hold(state, 1, contract, **{held: lots, f"start{held}": lots})
                yield written(f"contract {contract}: {held} total off by {by}", state, 28)
        for side in dayfile.SIDES:
            order = rest(counts(morning(), next=2, next_stamp=400), side, contract, (100, 1, 1))
            yield written(f"a {side} in contract {contract}", order, 28)
    for name, number, stamp, code in (("both 1", 1, 1, 0), ("number 2", 2, 1, 28), ("stamp 2", 1, 2, 28), ("both 2", 2, 2, 28)):
        yield written(f"next: {name}", counts(morning(), next=number, next_stamp=stamp), code)
    for number, stamp in ((10**6, 1), (1, 10**6)):
        yield written(f"next number {number}, next stamp {stamp}", counts(morning(), next=number, next_stamp=stamp), 28)
    trade = traded(counts(exchange(phase=PRE_OPEN), next=3), 1, 100, 1, 1, 2)
    yield written("a trade", trade, 28)
    crosswise = counts(exchange(2, phase=PRE_OPEN), next=1, next_stamp=1)
    start(start(crosswise, 1, 1, long=2), 2, 2, short=2)
    yield written("equal over both contracts together", crosswise, 28)


# "29 output area too short": exact fits. "output bytes beyond the end stay" (ticket 9)
def output_areas():
    for contracts, accounts in ((1, 1), (2, 3), (4, 32)):
        for more, code in ((-1, 29), (0, 0), (1, 0), (40, 0)):
            state = counts(exchange(contracts, accounts, phase=PRE_OPEN), next=1, next_stamp=1)
            yield written(f"{contracts} contracts, {accounts} accounts, an area longer by {more}", state, code, more=more)
    for length in (0, 1, 4, 19):
        yield written(f"an area of {length} bytes", morning(), 29, length=length)


def reading():
    for contracts in (1, 2, 3, 4):
        for accounts in (2, 3, 32):
            yield read(f"{contracts} contracts, {accounts} accounts", file(morning(contracts, accounts)))
    yield read("over a state that is not well formed", file(), lent=terms(used(), 1, rate=0))
    yield read("over counts out of range", file(), lent=counts(used(), contract_count=9, account_count=99, trade_count=2_000, next=0))
    full = full_queue(used(), "buy", 2, 95, 41)
    yield read("over a full queue", file(), lent=counts(full, order_counts={"buy": [2, 65, 2, 2**63], "sell": [1, 0, 1, 0]}))
    yield read("over a state that no one has written", file(), lent=Memory())
    yield read("over marks that have no meaning", file(), lent=maker_mark(maker_mark(used(), 1, 2), 3, 2**64 - 1))
    yield read("over the state itself", file(), lent=morning())
    top = dict(multiplier=1_000, tick=1, reference=10**6, band=10**6, limit=100_000, rate=10_000, method=2, last=10**6)
    largest = counts(exchange(4, 32, phase=PRE_OPEN, **top), next=1, next_stamp=1, settlements=250)
    for account in range(1, 33):
        balance(makers(largest, account), account, (10**18 + 250 * 3 * 10**15) * (-1) ** account)
        for contract in range(1, 5):
            start(largest, account, contract, 100_000, 100_000)
    yield read("the largest of everything", file(largest))


# Where the sections of the file of `morning` begin: 2 contracts, 3 accounts, 6 holdings, the settlement count.
CONTRACTS, ACCOUNTS, HOLDINGS, SETTLEMENTS, END = 0, 52, 83, 135, 143


# "20 for a broken file"
def broken_files():
    whole = file()
    assert len(whole) == END
    for length in (0, 1, 3, 4, 27, 28, 51, 52, 55, 56, 64, 82, 83, 86, 87, 94, 134, 135, 138, 139, 142):
        yield read(f"{length} bytes of {END}", whole[:length], 20)
    yield read("the whole file", whole)
    for more in (1, 4, 24):
        yield read(f"{more} bytes more", whole + bytes(more), 20)
    for name, at, count in (("contracts", CONTRACTS, 2), ("accounts", ACCOUNTS, 3), ("holdings", HOLDINGS, 6), ("settlement counts", SETTLEMENTS, 1)):
        for stored in sorted({0, count - 1, count + 1, count + 2**8, count + 2**16, count + 2**31, 2**32 - 1}):
            yield read(f"{count} {name} counted as {stored}", whole[:at] + struct.pack("<I", stored) + whole[at + 4 :], 20)
    # Sections that are whole and not as many as they should be.
    none = struct.pack("<I", 0)
    yield read("no contracts", none + whole[ACCOUNTS:HOLDINGS] + none + whole[SETTLEMENTS:], 20)
    yield read("no accounts", whole[:ACCOUNTS] + none + none + whole[SETTLEMENTS:], 20)
    one_less = whole[:HOLDINGS] + struct.pack("<I", 5) + whole[HOLDINGS + 4 : SETTLEMENTS - 8] + whole[SETTLEMENTS:]
    yield read("a holding less", one_less, 20)
    one_more = whole[:HOLDINGS] + struct.pack("<I", 7) + whole[HOLDINGS + 4 : SETTLEMENTS] + bytes(8) + whole[SETTLEMENTS:]
    yield read("a holding more", one_more, 20)
    yield read("no settlement count", whole[:SETTLEMENTS] + none, 20)
    yield read("two settlement counts", whole[:SETTLEMENTS] + struct.pack("<III", 2, 7, 7), 20)
    for contracts, accounts in ((5, 2), (1, 33), (0, 0)):
        yield read(f"{contracts} contracts and {accounts} accounts", plain_file(contracts, accounts), 20)
    for contracts, accounts in ((4, 2), (1, 32), (1, 1)):
        yield read(f"{contracts} contracts and {accounts} accounts", plain_file(contracts, accounts))
    for account in (0, 1, 2):
        at = ACCOUNTS + 4 + 9 * account + 8
        for mark, code in ((0, 0), (1, 0), (2, 20), (3, 20), (128, 20), (255, 20)):
            yield read(f"maker mark {mark} of account {account + 1}", whole[:at] + bytes([mark]) + whole[at + 1 :], code)


# A file with as many records as are wanted, in range but for their number, and nothing held.
def plain_file(contracts, accounts):
    state = memory.in_use(counts(exchange(phase=PRE_OPEN), next=1, next_stamp=1))
    state.contracts = {number: state.contracts[1] for number in range(1, contracts + 1)}
    state.balances = {number: 5 for number in range(1, accounts + 1)}
    held = [(account, number, side) for account in state.balances for number in state.contracts for side in ("long", "short")]
    state.holdings = dict.fromkeys(held, 0)
    return saved.state_bytes(state)


# "or a state not well formed (room of areas aside)"
def states_not_well_formed():
    top = 10**6
    for contract in (1, 2):
        for name, inside, outside in (
            ("multiplier", (1, 1_000), (0, 1_001, 65_535)),
            ("tick", (1, 5), (0, 1_001, 65_535)),
            ("reference", (5, top), (0, 4, 99, 101, top + 5, 2**32 - 1)),
            ("band", (5, top), (0, 4, 49, 51, top + 5, 2**32 - 1)),
            ("limit", (6, 100_000), (0, 100_001, 2**32 - 1)),
            ("rate", (1, 10_000), (0, 10_001, 65_535)),
            ("method", (0, 1, 2), (3, 256, 65_535)),
            ("last", (5, 45, 155, top), (0, 4, 99, 301, top + 5, 2**32 - 1)),
        ):
            for value in (*inside, *outside):
                state = terms(morning(), contract, **{name: value})
                yield read(f"{name} {value} of contract {contract}", file(state), 0 if value in inside else 20)
    for account in (1, 2, 3):
        for settlements in (0, 7, 250):
            most = 10**18 + settlements * 3 * 10**15
            for sign in (1, -1):
                for beyond, code in ((0, 0), (1, 20)):
                    state = balance(counts(morning(), settlements=settlements), account, sign * (most + beyond))
                    name = f"balance {sign * (most + beyond)} of account {account} after {settlements} settlements"
                    yield read(name, file(state), code)
    for value in (2**63 - 1, -(2**63)):
        yield read(f"balance {value}", file(balance(morning(), 2, value)), 20)
    for settlements, code in ((0, 0), (250, 0), (251, 20), (2**32 - 1, 20)):
        yield read(f"{settlements} settlements", file(counts(morning(), settlements=settlements)), code)
    for account in (1, 3):
        for contract in (1, 2):
            for held, other in (("long", "short"), ("short", "long")):
                for lots, code in ((10, 0), (11, 20)):
                    state = terms(counts(exchange(2, 3, phase=PRE_OPEN), next=1, next_stamp=1), contract, limit=10)
                    start(start(state, account, contract, **{held: lots}), 4 - account, contract, **{other: min(lots, 10)})
                    if lots > 10:
                        start(state, 2, contract, **{other: lots - 10})
                    name = f"{lots} {held} of account {account} in contract {contract}, limit 10"
                    yield read(name, file(state), code)
    huge = counts(exchange(phase=PRE_OPEN), next=1, next_stamp=1)
    yield read("2^32 - 1 lots long and short", file(start(huge, 1, 1, 2**32 - 1, 2**32 - 1)), 20)


# "30 if a contract's long and short totals differ"
def totals():
    for contract in (1, 2):
        for held in ("long", "short"):
            for account in (1, 2, 3):
                for by in (-1, 1):
                    state = morning()
                    lots = getattr(state.holdings[account - 1][contract - 1], held) + by
                    if lots >= 0:
                        hold(state, account, contract, **{held: lots, f"start{held}": lots})
                        yield read(f"contract {contract}: {held} of account {account} off by {by}", file(state), 30)
    crosswise = counts(exchange(2, phase=PRE_OPEN), next=1, next_stamp=1)
    start(start(crosswise, 1, 1, long=2), 2, 2, short=2)
    yield read("equal over both contracts together", file(crosswise), 30)
    within = counts(exchange(phase=PRE_OPEN), next=1, next_stamp=1)
    yield read("equal within an account", file(start(within, 1, 1, 3, 3)))


# "29 if an area lent for the state lacks its room"
def rooms():
    for contracts in (1, 2, 4):
        orders = 64 * contracts
        for length, code in ((orders, 0), ((orders, 1), 0), (orders + 64, 0), ((orders, -1), 29), (orders - 1, 29), (0, 29)):
            for area in ("buys", "sells"):
                lent = used(**{area: length})
                yield read(f"{contracts} contracts, {area} of {length}", file(morning(contracts)), code, lent)
        yield read(f"{contracts} contracts, areas of as many", file(morning(contracts)), lent=used(buys=orders, sells=orders, trades=1_024))
    for length, code in ((1_024, 0), ((1_024, 1), 0), ((1_024, -1), 29), (1, 29), (0, 29)):
        yield read(f"trades of {length}", file(), code, used(trades=length))


def order_of_refusals():
    unequal = lambda: start(morning(), 2, 1, long=1)
    yield written("21 before 28", terms(terms(morning(), 1, phase=CLOSED), 2, rate=0), 21)
    yield written("21 before 29", terms(morning(), 2, rate=0), 21, length=0)
    yield written("21 for a short trade area", areas(morning(), trades=(1_024, -1)), 21)
    for account in (1, 2, 3):
        yield written(f"21 for mark 2 of account {account}", maker_mark(morning(), account, 2), 21)
    yield written("a mark of 2 behind the last account", maker_mark(morning(), 5, 2))
    yield written("28 before 29", unequal(), 28, length=0)
    yield read("20 before 30", file(terms(unequal(), 1, rate=0)), 20)
    yield read("20 before 29", file(terms(morning(), 1, rate=0)), 20, used(trades=0))
    yield read("20 for a tail, before 29", file() + b"\0", 20, used(trades=0))
    yield read("30 before 29", file(unequal()), 30, used(trades=0))
    yield read("30 before 29, of the buys", file(unequal()), 30, used(buys=(128, -1)))


# "Reading back what was written gives the same state in every place in use; writing what was read gives the same bytes."
def there_and_back():
    for name, state in (("a morning", morning()), ("four contracts", morning(4, 5)), ("32 accounts", morning(1, 32))):
        again = used()
        assert saved.read_state(again, file(state)) == 0
        assert memory.in_use(again) == memory.in_use(state)
        yield written(f"{name}, read and written again", again)
        assert saved.write_state(again, 10_000).bytes == file(state)
    # Orders, trades and profits of a day that begins from a file.
    loaded = used()
    assert saved.read_state(loaded, file()) == 0
    yield given("a loaded state opens", loaded, dayfile.state(1, "continuous"))
    trading = terms(loaded.copy(), 1, phase=CONTINUOUS)
    yield given("loaded lots are closed", trading, insert(3, 1, "sell", 105, 1, effect="close"))
    yield given("one more than were loaded", trading.copy(), insert(3, 1, "sell", 105, 2, effect="close"), 8)
    # Account 3 is loaded as a maker, account 1 as none, whatever they were before.
    yield given("a loaded maker's quote is refused in pre-open", loaded.copy(), quote(3, 1, 95, 105, 2), 4)
    yield given("a loaded maker quotes", trading.copy(), quote(3, 1, 95, 105, 2))
    yield given("a loaded account that is no maker does not", trading.copy(), quote(1, 1, 95, 105, 2), 23)
    closed = terms(terms(loaded.copy(), 1, phase=CLOSED), 2, phase=CLOSED)
    yield given("a loaded state is settled", closed, dayfile.settle())


# Random states, whole and damaged, read into areas that are long enough or not, and written again. Not among the cases:
# `make_vectors.py random` writes a file of them.
def random_cases(seed, count):
    for index in range(count):
        rng = random.Random(f"saved/{seed}/{index}")
        whole = generate.saved_state(rng)
        content = generate.damaged_state(rng, whole) if rng.random() < 0.6 else whole
        lengths = {"buys": 256, "sells": 256, "trades": 1_024}
        if rng.random() < 0.2:
            lengths[rng.choice(list(lengths))] = rng.choice((0, 63, 64, (64, -1), 128, (128, -1), 256, (1_024, -1)))
        lent = tempting(used(**lengths))
        code = saved.read_state(lent.copy(), content)
        yield Case(f"random state {index}", "read", lent, (content,), code)
        if code == 0:
            again = lent.copy()
            saved.read_state(again, content)
            assert saved.write_state(again, len(content)) == (0, content)
            length = len(content) + rng.choice((-1, 0, 0, 9))
            yield Case(f"random state {index} written", "write", again, (length,), 29 if length < len(content) else 0)
