"""Random cases for the library's calls: states that a day leads to, the same spoiled at a bound, and states of any bytes.

A case is as in `vectors.py`; nothing is expected of it by hand, so its number is None.
"""

import ctypes
import random

import cases_well_formed
import dayfile
import daylines
import generate
import library
import memory
import mending
import model
import saved
import statements
from bounds import (
    BALANCE_STEP,
    LAST_ORDER_NUMBER,
    MOST_ACCOUNTS,
    MOST_COMMANDS,
    MOST_CONTRACTS,
    MOST_LOTS,
    MOST_RESTING,
    MOST_SETTLEMENTS,
    MOST_TRADES,
    TOP_BALANCE,
    TOP_PRICE,
)
from memory import Area, Memory
from vectors import Case
from zelvorm import State

BITS_32 = 2**32 - 1
BITS_64 = 2**64 - 1


def case(seed, index):
    """Case number `index` of a seed. The same two numbers always give the same case."""
    rng = random.Random(f"library/{seed}/{index}")
    name, make = rng.choices(list(MAKERS), list(MAKERS.values()))[0]
    state, arguments = make(rng)
    return Case(f"seed {seed}, case {index}", name, state, arguments, None)


# =====================================================================================================================
# Each bound under each call
# =====================================================================================================================


def at_each_bound():
    """Every state of the cases of "well formed", each clause at its bound and beside it, under every other call that takes a state."""
    for found in cases_well_formed.cases():
        for name, arguments in BOUND_CALLS:
            state = found.state.copy()
            if name in ("run", "bundle"):
                state.answers = Area(len(FEW))
            yield Case(found.name, name, state, arguments, None)


FEW = (
    dayfile.deposit(1, 7),
    dayfile.insert(1, 1, "buy", "open", "limit", 95, 1, "day"),
    dayfile.settle(),
)

FILE_OF_FEW = dayfile.write(dayfile.DayFile([dayfile.ContractRecord(10, 1, 100, 10, 1_000, 1_000)], [10_000, 10_000], list(FEW)))

BOUND_CALLS = (
    ("command", (FEW[1],)),
    ("run", (b"".join(dayfile.COMMAND.pack(*given) for given in FEW),)),
    ("bundle", (b"".join(dayfile.COMMAND.pack(*given) for given in FEW),)),
    ("question", (FEW[1],)),
    ("side", ("buy", 1)),
    ("side", ("sell", 2)),
    ("statement", (1, 1, [0] * 8, [], 200)),
    ("write", (2_000,)),
    ("lines", (FILE_OF_FEW, 0, daylines.ROOM_FOR_A_COMMAND)),
)


# A sound and a broken file in buffers at the bound, from places before and behind the last command; a state that is not well formed.
def lines_by_hand():
    rng = random.Random("lines")
    room = daylines.ROOM_FOR_A_COMMAND
    for file, name in ((FILE_OF_FEW, "a sound file"), (FILE_OF_FEW[:-1], "a broken file"), (b"", "no bytes")):
        for place in (0, 1, len(FEW), len(FEW) + 1, BITS_64):
            for length in (0, room - 1, room, room + 1, library.zelvorm.OUTPUT_BYTES):
                sound = opening(rng, FILE_OF_FEW)
                yield Case(f"{name}, place {place}, {length} bytes", "lines", sound, (file, place, length), None)
                wrong = opening(rng, FILE_OF_FEW)
                wrong.contract_count = 0
                yield Case(f"{name}, place {place}, {length} bytes, no contract", "lines", wrong, (file, place, length), None)


# =====================================================================================================================
# States that a day leads to
# =====================================================================================================================


def some_day(rng):
    """A day at some point of it."""
    if rng.random() < 0.25:
        return day_of_file(rng)
    day = rng.choice((generate.some_day, generate.some_day, generate.wide_day, generate.tight_day))(rng)
    if rng.random() < 0.9:
        generate.open_all(day, by_auction=0.3)
    generate.trade(day, rng.choice((0, 3, 10, 30, 60)), chance_of_end=rng.choice((0, 0, 0.05)))
    return day


def day_of_file(rng):
    """A day file's day up to some command of it."""
    file = generate.pick(rng, SOUND_FILES)(rng)
    records = dayfile.sections(file)
    day = generate.Day(rng, records.contracts, records.balances)
    for command in records.commands[: rng.randint(0, len(records.commands))]:
        day.give(command)
    return day


SOUND_FILES = {
    generate.trading_file: 10,
    generate.quiet_file: 4,
    generate.full_book_file: 4,
    generate.full_day_file: 1,
    generate.auction_file: 5,
    generate.full_auction_file: 1,
    generate.changes_file: 5,
    generate.rich_file: 2,
    generate.ruined_file: 2,
}


def ended_day(rng):
    """A day after its settlement, or before it has begun."""
    day = some_day(rng)
    if rng.random() < 0.9:
        generate.end_of_day(day)
    return day


def laid(rng, day):
    """The day's state as it lies, in areas of some length, with anything in places that are not in use."""
    state = Memory()
    junk(rng, state)
    state.contract_count = len(day.state.contracts)
    state.account_count = len(day.state.balances)
    for counts in state.order_counts.values():
        counts[: state.contract_count] = [0] * state.contract_count
    state.makers[: state.account_count] = [int(account in day.state.makers) for account in day.state.balances]
    memory.put(state, day.state)
    needed = MOST_RESTING * state.contract_count
    for side in dayfile.SIDES:
        lengthen(rng, state.orders[side], rng.choice((needed, needed, needed + 1, MOST_CONTRACTS * MOST_RESTING)))
    lengthen(rng, state.trades, rng.choice((MOST_TRADES, MOST_TRADES, MOST_TRADES + 2)))
    return state


def lengthen(rng, area, length):
    area.length = max(length, max(area.contents, default=-1) + 1)
    area.words = rng.choice((0, 0, 0, 1, 3))


# A contract, an account or a count that is not in use may be anything.
def junk(rng, state):
    for place in range(MOST_CONTRACTS):
        fields = (rng.choice((0, 1, 100, BITS_32)) for _ in memory.Contract._fields)
        record = memory.Contract(*fields)
        state.contracts[place] = record._replace(rate=record.rate & 0xFFFF, method=record.method & 0xFFFF)
        for counts in state.order_counts.values():
            counts[place] = rng.choice((0, 1, 65, BITS_64))
    for place in range(MOST_ACCOUNTS):
        state.balances[place] = rng.choice((0, 1, -1, 2**63 - 1, -(2**63)))
        state.makers[place] = any_mark(rng)
        state.holdings[place] = [
            memory.Holding(*(rng.choice((0, 1, BITS_32)) for _ in memory.Holding._fields)) for _ in range(MOST_CONTRACTS)
        ]


# As wide as the record has it.
def any_mark(rng):
    if MARK is ctypes.c_bool:
        return rng.randint(0, 1)
    return rng.choice((0, 1, 2, 256 ** ctypes.sizeof(MARK) - 1))


MARK = dict(library.zelvorm.Account._fields_)["maker"]


# =====================================================================================================================
# The same spoiled
# =====================================================================================================================


def spoiled(rng, state):
    """Something of the state moved to a bound or just past it, or by one."""
    for _ in range(rng.choice((1, 1, 1, 2))):
        rng.choice(SPOILERS)(rng, state)
    return state


def edges(rng, low, high, most=BITS_32):
    """A value at either end of a range, just outside it, or at an end of what the field holds."""
    return rng.choice([value for value in (low - 1, low, high, high + 1, 0, most) if 0 <= value <= most])


def moved(rng, value, most=BITS_32):
    return min(max(value + rng.choice((-1, 1)), 0), most)


def spoil_terms(rng, state):
    place = rng.randrange(min(state.contract_count, MOST_CONTRACTS) or 1)
    contract = state.contracts[place]
    name = rng.choice(memory.Contract._fields)
    low, high = {
        "multiplier": (1, 1_000),
        "tick": (1, 1_000),
        "limit": (1, 100_000),
        "rate": (1, 10_000),
        "method": (0, 2),
        "phase": (0, 4),
    }.get(name, (contract.tick, TOP_PRICE))
    most = 0xFFFF if name in ("rate", "method") else BITS_32
    value = rng.choice((edges(rng, low, high, most), moved(rng, getattr(contract, name), most)))
    state.contracts[place] = contract._replace(**{name: min(value, most)})


def spoil_counts(rng, state):
    name, low, high, most = rng.choice(
        (
            ("contract_count", 1, MOST_CONTRACTS, BITS_64),
            ("account_count", 1, MOST_ACCOUNTS, BITS_64),
            ("trade_count", 0, MOST_TRADES, BITS_64),
            ("next", 1, LAST_ORDER_NUMBER + 1, BITS_32),
            ("next_stamp", 1, LAST_ORDER_NUMBER + 1, BITS_32),
            ("settlements", 0, MOST_SETTLEMENTS, BITS_32),
        )
    )
    setattr(state, name, rng.choice((edges(rng, low, high, most), moved(rng, getattr(state, name), most))))


def spoil_queue_count(rng, state):
    counts = state.order_counts[rng.choice(dayfile.SIDES)]
    place = rng.randrange(MOST_CONTRACTS)
    counts[place] = rng.choice((edges(rng, 0, MOST_RESTING, BITS_64), moved(rng, counts[place], BITS_64)))


def spoil_order(rng, state):
    contents = state.orders[rng.choice(dayfile.SIDES)].contents
    if not contents:
        return
    place = rng.choice(list(contents))
    name = rng.choice(memory.Order._fields)
    order = contents[place]
    other = getattr(contents[rng.choice(list(contents))], name)
    low, high = {
        "number": (1, state.next - 1),
        "account": (0, state.account_count - 1),
        "lots": (1, MOST_LOTS),
        "close": (0, 1),
        "stamp": (1, state.next_stamp - 1),
        "quote": (0, 1),
    }.get(name, (1, TOP_PRICE))
    value = rng.choice((edges(rng, low, high), moved(rng, getattr(order, name)), other))
    contents[place] = order._replace(**{name: min(max(value, 0), BITS_32)})


def spoil_trade(rng, state):
    contents = state.trades.contents
    if not contents:
        return
    place = rng.choice(list(contents))
    name = rng.choice(memory.Trade._fields)
    trade = contents[place]
    low, high = {
        "contract": (0, state.contract_count - 1),
        "lots": (1, MOST_LOTS),
        "buyorder": (1, state.next - 1),
        "sellorder": (1, state.next - 1),
        "buyer": (0, state.account_count - 1),
        "seller": (0, state.account_count - 1),
        "buyclose": (0, 1),
        "sellclose": (0, 1),
    }.get(name, (1, TOP_PRICE))
    value = rng.choice((edges(rng, low, high), moved(rng, getattr(trade, name))))
    contents[place] = trade._replace(**{name: min(max(value, 0), BITS_32)})


def spoil_holding(rng, state):
    account = rng.randrange(min(state.account_count, MOST_ACCOUNTS) or 1)
    contract = rng.randrange(min(state.contract_count, MOST_CONTRACTS) or 1)
    holding = state.holdings[account][contract]
    name = rng.choice(memory.Holding._fields)
    limit = state.contracts[contract].limit
    value = rng.choice((moved(rng, getattr(holding, name)), edges(rng, 0, limit)))
    state.holdings[account][contract] = holding._replace(**{name: min(max(value, 0), BITS_32)})


# A balance at its bound, which a settlement moves, is still well formed.
def spoil_balance(rng, state):
    account = rng.randrange(min(state.account_count, MOST_ACCOUNTS) or 1)
    most = TOP_BALANCE + min(state.settlements, MOST_SETTLEMENTS) * BALANCE_STEP
    value = rng.choice((most, most + 1, -most, -most - 1, 2**63 - 1, -(2**63), TOP_BALANCE, 0))
    state.balances[account] = value


def spoil_mark(rng, state):
    state.makers[rng.randrange(MOST_ACCOUNTS)] = any_mark(rng)


def spoil_room(rng, state):
    area = rng.choice((state.orders["buy"], state.orders["sell"], state.trades))
    needed = MOST_TRADES if area is state.trades else MOST_RESTING * min(state.contract_count, MOST_CONTRACTS)
    area.length, area.words = rng.choice(((needed, -1), (needed - 1, 0), (0, 0), (1, -1), (needed, 0), (rng.randint(0, needed), 2)))
    area.length = max(area.length, 0)
    if area.length == 0:
        area.words = max(area.words, 0)


SPOILERS = (
    spoil_terms,
    spoil_terms,
    spoil_counts,
    spoil_queue_count,
    spoil_order,
    spoil_order,
    spoil_trade,
    spoil_trade,
    spoil_holding,
    spoil_balance,
    spoil_mark,
    spoil_room,
)


def of_any_bytes(rng, state):
    """Any bytes in the record, or in a part of it, and in areas of any length."""
    record = library.state_record(state)
    size = ctypes.sizeof(State)
    first = rng.choice((0, 0, rng.randrange(size)))
    last = rng.choice((size, rng.randrange(first, size) + 1))
    content = bytes(record)
    content = content[:first] + rng.randbytes(last - first) + content[last:]
    library.model_state(State.from_buffer_copy(without_marks(rng, content)), state)
    for area, form in ((state.orders["buy"], memory.Order), (state.orders["sell"], memory.Order), (state.trades, memory.Trade)):
        if rng.random() < 0.5:
            area.length, area.words = rng.choice((0, 1, 63, 64, 65, 256, 1_024)), rng.randint(0, 6)
            area.contents = {
                place: form(*(rng.choice((0, 1, 2, 100, rng.getrandbits(32))) for _ in form._fields)) for place in range(area.length)
            }
    return state


# A mark that is a `bool` has no other value than 0 and 1.
def without_marks(rng, content):
    if MARK is not ctypes.c_bool:
        return content
    made = bytearray(content)
    account = ctypes.sizeof(library.zelvorm.Account)
    for place in range(MOST_ACCOUNTS):
        made[State.accounts.offset + account * place + library.zelvorm.Account.maker.offset] = rng.randint(0, 1)
    return bytes(made)


# Well formed still: the last order numbers, time stamps and settlements.
def at_an_end(rng, state):
    name, values = rng.choice(
        (
            ("next", (LAST_ORDER_NUMBER, LAST_ORDER_NUMBER + 1)),
            ("next_stamp", (LAST_ORDER_NUMBER, LAST_ORDER_NUMBER + 1)),
            ("settlements", (MOST_SETTLEMENTS - 1, MOST_SETTLEMENTS)),
        )
    )
    setattr(state, name, rng.choice(values))
    return state


def some_state(rng, day):
    """The day's state, mostly as it is."""
    state = laid(rng, day)
    how = rng.random()
    if how < 0.5:
        return state
    if how < 0.6:
        return at_an_end(rng, state)
    return spoiled(rng, state) if how < 0.92 else of_any_bytes(rng, state)


# =====================================================================================================================
# The calls
# =====================================================================================================================


def some_command(rng, day):
    """A command near the edge of what the rules accept, the same with a field spoiled, or any 24 bytes."""
    how = rng.random()
    if how < 0.8:
        return generate.pick(rng, generate.ANY)(day)
    if how < 0.9:
        command = generate.pick(rng, generate.ANY)(day)
        name = rng.choice(dayfile.Command._fields)
        most = {"lots": BITS_32, "price": BITS_32, "order_number": BITS_32, "amount": BITS_64}.get(name, 255)
        return command._replace(**{name: rng.choice((0, 1, 2, 3, most, rng.randint(0, most)))})
    return dayfile.Command(*dayfile.COMMAND.unpack(bytes([rng.randint(0, 10)]) + rng.randbytes(23)))


def well_formed(rng):
    return some_state(rng, some_day(rng)), ()


def command(rng):
    day = some_day(rng)
    if rng.random() < 0.06:
        return settling(rng, day)
    return some_state(rng, day), (some_command(rng, day),)


def settling(rng, day):
    """A settlement of a day whose contracts are closed, all of them or not."""
    for number, contract in day.state.contracts.items():
        if contract.state == "auction":
            generate.leave_auction(day, number)
        if rng.random() < 0.95:
            day.give(dayfile.state(number, "closed"))
    return some_state(rng, day), (dayfile.settle(),)


def question(rng):
    day = some_day(rng)
    state = some_state(rng, day)
    return state, (generate.some_insert(day) if rng.random() < 0.8 else some_command(rng, day),)


def commands_of(rng, day, count):
    """Commands that follow one another, beside the state that they lead to, and some bytes behind them."""
    run = generate.Day(rng, day.records.contracts, day.records.balances)
    run.state = model.copied(day.state)
    for _ in range(count):
        run.give(some_command(rng, run))
    content = b"".join(dayfile.COMMAND.pack(*given) for given in run.records.commands)
    return content + rng.randbytes(rng.choice((0, 0, 0, 1, 23)))


def room_for_answers(rng, state, count):
    state.answers = Area(max(count + rng.choice((-2, -1, 0, 0, 0, 1, 5)), 0))
    state.answers.words = rng.choice((0, 0, 1, 3)) if state.answers.length == 0 else rng.choice((-1, 0, 0, 1, 3))


def run(rng):
    day = some_day(rng)
    state = some_state(rng, day)
    count = rng.choice((0, 1, 2, 5, 12, 30, 130))
    content = commands_of(rng, day, count)
    room_for_answers(rng, state, len(content) // dayfile.COMMAND.size)
    return state, (content,)


def bundle(rng):
    day = some_day(rng)
    state = some_state(rng, day)
    content = commands_of(rng, day, rng.choice((0, 1, 2, 5, 12, 30, 99, 100, 101)))
    room_for_answers(rng, state, len(content) // dayfile.COMMAND.size)
    return state, (content,)


def side(rng):
    day = some_day(rng)
    state = some_state(rng, day)
    queues = [(of, number) for number, contract in day.state.contracts.items() for of, queue in contract.queues.items() if queue]
    if queues and rng.random() < 0.7:
        return state, rng.choice(queues)
    return state, (rng.choice(dayfile.SIDES), rng.choice((0, 1, 2, 3, 4, 5, state.contract_count, BITS_64)))


def some_file(rng):
    """A day file of some sort, or one to be mended: with wrong and partial records, with more than there may be."""
    how = rng.random()
    if how < 0.5:
        return generate.pick(rng, generate.FILES)(rng)
    day = some_day(rng)
    kept = [some_command(rng, day) for _ in range(rng.choice((0, 1, 5, 20, 20, MOST_COMMANDS + 3) if how < 0.6 else (0, 1, 5, 20)))]
    records = b"".join(dayfile.COMMAND.pack(*given) for given in kept)
    head = dayfile.write(dayfile.DayFile(day.records.contracts, day.records.balances, []))
    if rng.random() < 0.2:
        head = generate.torn_file(rng)
    return head[:-4] + rng.choice((len(kept), 0, BITS_32)).to_bytes(4, "little") + records + rng.randbytes(rng.choice((0, 0, 1, 23)))


def mend(rng):
    file = some_file(rng)
    whole = mending.mend(file, BITS_32, BITS_32)
    lengths = (around(rng, len(whole.file)), around(rng, len(whole.list)))
    return Memory(), (file, *lengths)


def around(rng, length):
    return max(length + rng.choice((-1, 0, 0, 0, 1, 9, -length)), 0)


def opened(rng):
    return Memory(), (some_file(rng),)


def traded_day(rng):
    """A day with trades, if one comes up soon."""
    for _ in range(5):
        day = some_day(rng)
        if day.state.trades:
            break
    return day


def statement(rng):
    day = traded_day(rng)
    state = some_state(rng, day)
    account = day.account() if rng.random() < 0.93 else rng.choice((0, len(day.state.balances) + 1, 33, BITS_32))
    clients = rng.choice((1, 1, 2, 2, 2, 3, 3, 16, 0)) if rng.random() < 0.95 else rng.choice((17, BITS_32))
    starts, postings = shares(rng, day, account, min(clients, 17))
    whole = statements.client_statement(state, account, clients, starts, postings, BITS_32)
    return state, (account, clients, starts, postings, around(rng, len(whole.bytes)))


def shares(rng, day, account, clients):
    """The account's starting lots and orders, shared among its clients; now and then not quite."""
    words = [0] * (8 * clients)
    numbers = []
    if account in day.state.balances and clients:
        main = rng.randint(1, clients)
        for contract in day.state.contracts:
            for place, held in enumerate(("long", "short")):
                lots = day.state.holdings_at_start[account, contract, held]
                given = lots if rng.random() < 0.7 else rng.randint(0, lots)
                words[8 * (main - 1) + 2 * (contract - 1) + place] += given
                words[8 * (rng.randint(1, clients) - 1) + 2 * (contract - 1) + place] += lots - given
        numbers = sorted({number for _, _, number in statements.account_legs(day.state, account)})
        postings = [(number, main if rng.random() < 0.8 else rng.randint(1, clients)) for number in numbers]
    else:
        postings = []
    postings += [(rng.randint(1, 2_000_000), rng.randint(0, 20)) for _ in range(rng.choice((0, 0, 2)))]
    rng.shuffle(postings)
    spoil = rng.random()
    if spoil < 0.1 and postings:
        postings.append((rng.choice(postings)[0], rng.randint(0, clients + 1)))
    elif spoil < 0.2 and postings:
        postings.pop()
    elif spoil < 0.3 and words:
        words[rng.randrange(len(words))] += 1
    elif spoil < 0.35:
        words = words[: rng.randint(0, len(words))]
    flat = [word for pair in postings for word in pair] + ([7] if rng.random() < 0.1 else [])
    return words, flat


def write(rng):
    day = ended_day(rng)
    state = some_state(rng, day)
    whole = saved.write_state(state, BITS_32)
    return state, (around(rng, len(whole.bytes)),)


def read(rng):
    file = generate.saved_state(rng)
    if rng.random() < 0.6:
        file = generate.damaged_state(rng, file)
    return some_state(rng, some_day(rng)), (file,)


def opening(rng, file):
    """The state that a sound file's run begins with, as it lies."""
    records = dayfile.sections(file)
    return laid(rng, generate.Day(rng, records.contracts, records.balances))


# Most from their own opening and their first command on, others from any place on a state that has nothing to do with the file. In the
# shortest buffer each command is a part by itself, so that long files get a longer one.
def lines(rng):
    file = generate.pick(rng, generate.FILES)(rng)
    room = daylines.ROOM_FOR_A_COMMAND
    commands = daylines.commands_of(file)
    longer = (room + 2_000, room + 9_000, library.zelvorm.OUTPUT_BYTES, 250_000)
    length = rng.choice((0, room - 1, room, room, room + 1, room + 100, *longer) if len(file) < 2_000 else longer)
    if commands is not None and rng.random() < 0.6:
        return opening(rng, file), (file, 0, length)
    last = len(commands or ())
    return some_state(rng, some_day(rng)), (file, rng.choice((0, 0, 1, rng.randint(0, last), last, last + 1, BITS_64)), length)


MAKERS = {
    ("well-formed", well_formed): 2,
    ("command", command): 6,
    ("run", run): 2,
    ("bundle", bundle): 2,
    ("question", question): 3,
    ("side", side): 2,
    ("mending", mend): 2,
    ("open", opened): 2,
    ("statement", statement): 3,
    ("write", write): 2,
    ("read", read): 2,
    ("lines", lines): 2,
}
