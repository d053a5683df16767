"""zelvorm.py. Made by tools/make_header.py from crates/exports and the records that it uses. Do not edit.

The engine of a practice futures exchange: order book, accounts, margin and settlement.

A state is a record of its own and three areas of 32-bit words, which the caller keeps and lends to each call: the buy
queues and the sell queues (QUEUES_WORDS have room for every contract) and the day's trades (TRADES_WORDS). An order and
a trade lie there word by word as their records below do. The library keeps nothing between two calls, so that calls on
different states may run at the same time; it asks for no memory, and takes up to 100 KB of stack.

An area is lent as a pointer and a number of elements; with 0 elements the pointer may be null. What a call writes must
not overlap anything else that it is lent. That is all that a call asks for: on any state, any areas, of any length, and
any command it answers, with a code where something is wrong, and touches nothing outside the areas.

In the records a place counts from 0 and a number from 1; commands name accounts, contracts and orders by number.
"""

import ctypes

# The version that this file belongs to. Programs go on with any library of the same major version.
VERSION = "1.0.0"

# "Numbers that bound everything", by the names that they have in specs/ (Bounds, Memory, DayFile).
MAX_CONTRACTS = 4
MAX_ACCOUNTS = 32
MAX_RESTING = 64
MAX_TRADES = 1024
MAX_SETTLEMENTS = 250
NUMBERS_END = 1000000
MAX_LOTS = 1000
MAX_PRICE = 1000000
MAX_MULTIPLIER = 1000
MAX_TICK = 1000
MAX_LIMIT = 100000
MAX_RATE = 10000
MAX_BALANCE = 1000000000000000000
MAX_AMOUNT = 1000000000000000
MAX_DAY_PROFIT = 3000000000000000
MAX_METHOD = 2
MAX_COMMANDS = 2000

# How many bytes the count of a section, a contract, an account and a command take in a day file.
COUNT_WIDTH = 4
CONTRACT_WIDTH = 20
ACCOUNT_WIDTH = 8
COMMAND_WIDTH = 24

# How many words an order, all the places of one queue, a trade and an answer take in the lent areas.
ORDER_STRIDE = 7
QUEUE_STRIDE = 448
TRADE_STRIDE = 9
ANSWER_STRIDE = 4

# How many words the areas of buys and of sells need for every contract, and the area of trades for a day.
QUEUES_WORDS = 1792
TRADES_WORDS = 9216

# The words of an order that hold its number and its time stamp.
NUMBER_WORD = 1
STAMP_WORD = 5

# A contract's phases, and the largest of them.
PRE_OPEN = 0
CONTINUOUS = 1
NO_TRADING = 2
CLOSED = 3
AUCTION = 4
MAX_PHASE = 4

# The flags of an insert: what is not set is a buy, an open, limit and good for day.
FLAG_SELL = 1
FLAG_CLOSE = 2
FLAG_MARKET = 4
FLAG_BEST = 8
FLAG_IMMEDIATE_OR_CANCEL = 16
FLAG_FILL_OR_KILL = 32

# The flag of a cancel and of a pull. The flags of a phase command are the phase.
FLAG_OPERATOR = 1

# A buffer for a day file's lines: room for the longest lines of one command (134,875 bytes), and for the usual lines of
# some thousand.
OUTPUT_BYTES = 200000

# How many bytes are enough for any day file, for any saved state (write) and for any client statement.
DAY_FILE_BYTES = 48348
SAVED_BYTES = 1428
STATEMENT_BYTES = 33548

# How many commands a bundle may have, and how many clients a statement.
MAX_BUNDLE = 100
MAX_CLIENTS = 16

# The kinds of a command. The fields of its record that a kind does not use are 0: otherwise the code is 1.

# uses account, amount
KIND_DEPOSIT = 1

# uses account, amount
KIND_WITHDRAW = 2

# uses account, contract, flags, lots, price. The flags are those of an insert; a market and a best order have price 0.
KIND_INSERT = 3

# uses account, contract, flags, number. `number` is the order's; the flags are 0, or 1 for the operator.
KIND_CANCEL = 4

# uses account, contract, flags. The flags are 0, or 1 for the operator.
KIND_PULL = 5

# uses contract, flags. The flags are the phase that the contract goes to.
KIND_PHASE = 6

# uses no field
KIND_SETTLE = 7

# uses account, contract, lots, price, number. `price` is the buy price and `number` the sell price. The answer has the
# buy's order number; the sell's is 1 more.
KIND_QUOTE = 8

# uses account, contract, lots, price, number. `number` is the order's, `lots` its new remaining lots (0 removes it),
# `price` its new price.
KIND_CHANGE = 9

# The codes. Where several apply, the first one in the papers' order is given.

# accepted
CODE_ACCEPTED = 0

# the kind, a flag or an unused field of the command is wrong
CODE_MALFORMED = 1

# no such account
CODE_NO_ACCOUNT = 2

# no such contract
CODE_NO_CONTRACT = 3

# the contract's state does not permit it now
CODE_PHASE_FORBIDS = 4

# fewer than 1 or more than 1,000 lots (a change to 0 lots removes the order)
CODE_LOTS = 5

# a market or best order must not be good for day; in auction, every order must be limit good for day
CODE_CONDITIONS = 6

# the limit is off the tick or outside the day's low to high; or a market or best order names a price
CODE_PRICE = 7

# an open would pass the holding limit; or a close is for more lots than are held and not yet offered
CODE_HOLDING = 8

# an open: all charged margin, its lots included, would be above the balance; a withdrawal: less than the charged margin
# would be left
CODE_MARGIN = 9

# the day's order numbers are used up, or its time stamps (of a change, the time stamps alone; a quote needs two of
# each)
CODE_NUMBERS_USED_UP = 10

# fill or kill: not all lots can be filled
CODE_NOT_FILLABLE = 11

# it would make more trades than the day has room for: an order, or the match when a contract leaves auction
CODE_NO_ROOM_FOR_TRADES = 12

# the order would have to rest, and its side is full (in auction every order rests)
CODE_SIDE_FULL = 13

# no such order rests in that contract
CODE_NO_ORDER = 14

# the order belongs to another account
CODE_ORDER_OF_ANOTHER = 15

# the amount is not 1 to 10^15; or the deposit would lift the balance above 10^18
CODE_AMOUNT = 16

# the contract cannot go from its state to that one
CODE_PHASE_CHANGE = 17

# settle: a contract is not closed
CODE_NOT_CLOSED = 18

# settle: 250 settlements are made already
CODE_SETTLEMENTS_USED_UP = 19

# the day file or the file of a saved state is broken (of a day file printed as X 20, and no command is carried out); a
# file to be mended: its contracts or its accounts are not whole and in range, or the four bytes of its command count
# are not whole
CODE_BROKEN_FILE = 20

# the state is not well formed (cannot happen in a day file's run)
CODE_NOT_WELL_FORMED = 21

# a bundle has more than 100 commands, or the area for their answers is too short
CODE_BUNDLE = 22

# a quote: the account is no market maker
CODE_NOT_A_MAKER = 23

# a quote: its buy price is not below its sell price
CODE_QUOTE_PRICES = 24

# a client statement: more than 16 clients, or their starting lots do not add up to the account's
CODE_CLIENTS = 25

# a client statement: an order of the account that traded is posted to no client, twice, or to an unknown one
CODE_POSTINGS = 26

# a client statement: a client would close more than it holds
CODE_CLIENT_HOLDING = 27

# the state cannot be saved: a contract is not in pre-open, orders or trades exist, an order number or time stamp is
# used, or a contract's long and short lots are not equal
CODE_NOT_WRITABLE = 28

# the area for a client statement, for a mended file, for the list of what it lost or for a saved state is too short; or
# an area lent for a state to be read has no room for it
CODE_AREA_TOO_SHORT = 29

# a saved state: a contract's long and short lots are not equal
CODE_TOTALS_DIFFER = 30

# The words of a code, as they stand above it.
CODE_WORDS = {
    CODE_ACCEPTED: "accepted",
    CODE_MALFORMED: "the kind, a flag or an unused field of the command is wrong",
    CODE_NO_ACCOUNT: "no such account",
    CODE_NO_CONTRACT: "no such contract",
    CODE_PHASE_FORBIDS: "the contract's state does not permit it now",
    CODE_LOTS: "fewer than 1 or more than 1,000 lots (a change to 0 lots removes the order)",
    CODE_CONDITIONS: "a market or best order must not be good for day; in auction, every order must be limit good for day",
    CODE_PRICE: "the limit is off the tick or outside the day's low to high; or a market or best order names a price",
    CODE_HOLDING: "an open would pass the holding limit; or a close is for more lots than are held and not yet offered",
    CODE_MARGIN: "an open: all charged margin, its lots included, would be above the balance; a withdrawal: less than the charged margin would be left",
    CODE_NUMBERS_USED_UP: "the day's order numbers are used up, or its time stamps (of a change, the time stamps alone; a quote needs two of each)",
    CODE_NOT_FILLABLE: "fill or kill: not all lots can be filled",
    CODE_NO_ROOM_FOR_TRADES: "it would make more trades than the day has room for: an order, or the match when a contract leaves auction",
    CODE_SIDE_FULL: "the order would have to rest, and its side is full (in auction every order rests)",
    CODE_NO_ORDER: "no such order rests in that contract",
    CODE_ORDER_OF_ANOTHER: "the order belongs to another account",
    CODE_AMOUNT: "the amount is not 1 to 10^15; or the deposit would lift the balance above 10^18",
    CODE_PHASE_CHANGE: "the contract cannot go from its state to that one",
    CODE_NOT_CLOSED: "settle: a contract is not closed",
    CODE_SETTLEMENTS_USED_UP: "settle: 250 settlements are made already",
    CODE_BROKEN_FILE: "the day file or the file of a saved state is broken (of a day file printed as X 20, and no command is carried out); a file to be mended: its contracts or its accounts are not whole and in range, or the four bytes of its command count are not whole",
    CODE_NOT_WELL_FORMED: "the state is not well formed (cannot happen in a day file's run)",
    CODE_BUNDLE: "a bundle has more than 100 commands, or the area for their answers is too short",
    CODE_NOT_A_MAKER: "a quote: the account is no market maker",
    CODE_QUOTE_PRICES: "a quote: its buy price is not below its sell price",
    CODE_CLIENTS: "a client statement: more than 16 clients, or their starting lots do not add up to the account's",
    CODE_POSTINGS: "a client statement: an order of the account that traded is posted to no client, twice, or to an unknown one",
    CODE_CLIENT_HOLDING: "a client statement: a client would close more than it holds",
    CODE_NOT_WRITABLE: "the state cannot be saved: a contract is not in pre-open, orders or trades exist, an order number or time stamp is used, or a contract's long and short lots are not equal",
    CODE_AREA_TOO_SHORT: "the area for a client statement, for a mended file, for the list of what it lost or for a saved state is too short; or an area lent for a state to be read has no room for it",
    CODE_TOTALS_DIFFER: "a saved state: a contract's long and short lots are not equal",
}


# A contract's terms for the day, with the number of its pairing method, its phase (the paper's contract state) and its
# last price. Both numbers are the C interface's. Rate and method are as wide as in the day file: four contracts then
# take 128 bytes, which a compiler still copies in place.
class Contract(ctypes.Structure):
    _fields_ = [
        ("multiplier", ctypes.c_uint32),
        ("tick", ctypes.c_uint32),
        ("reference", ctypes.c_uint32),
        ("band", ctypes.c_uint32),
        ("limit", ctypes.c_uint32),
        ("rate", ctypes.c_uint16),
        ("method", ctypes.c_uint16),
        ("phase", ctypes.c_uint32),
        ("last", ctypes.c_uint32),
    ]


assert ctypes.sizeof(Contract) == 32


# What one account holds in one contract: lots now, and lots at the start of the day.
class Holding(ctypes.Structure):
    _fields_ = [
        ("long", ctypes.c_uint32),
        ("short", ctypes.c_uint32),
        ("startlong", ctypes.c_uint32),
        ("startshort", ctypes.c_uint32),
    ]


assert ctypes.sizeof(Holding) == 16


# `maker` is 1 for a market maker and 0 for others, as the C interface has it.
class Account(ctypes.Structure):
    _fields_ = [
        ("balance", ctypes.c_int64),
        ("holdings", Holding * 4),
        ("maker", ctypes.c_uint64),
    ]


assert ctypes.sizeof(Account) == 80


# All of the state that does not lie in lent areas. The areas hold the queues and the day's trades, the counts here say
# how many of each are in use: orders by contract, contracts, accounts, trades of the day. `next` is the next order
# number, `nextstamp` the next time stamp.
class State(ctypes.Structure):
    _fields_ = [
        ("contracts", Contract * 4),
        ("accounts", Account * 32),
        ("buycounts", ctypes.c_size_t * 4),
        ("sellcounts", ctypes.c_size_t * 4),
        ("contractcount", ctypes.c_size_t),
        ("accountcount", ctypes.c_size_t),
        ("tradecount", ctypes.c_size_t),
        ("next", ctypes.c_uint32),
        ("nextstamp", ctypes.c_uint32),
        ("settlements", ctypes.c_uint32),
    ]


assert ctypes.sizeof(State) == 2792


# 0, or 20 where the file is broken; the place of the first command's first byte in the file, and the number of
# commands, 24 bytes each; the state that the file's run begins with. With 20 all else is zero, and a call that tests
# the state refuses it with 21.
class Opened(ctypes.Structure):
    _fields_ = [
        ("code", ctypes.c_uint32),
        ("first", ctypes.c_size_t),
        ("commands", ctypes.c_size_t),
        ("state", State),
    ]


assert ctypes.sizeof(Opened) == 2816


# A command's 24 bytes, field by field, whatever they hold: `command_of` reads the kind and the flags.
class Record(ctypes.Structure):
    _fields_ = [
        ("kind", ctypes.c_uint8),
        ("account", ctypes.c_uint8),
        ("contract", ctypes.c_uint8),
        ("flags", ctypes.c_uint8),
        ("lots", ctypes.c_uint32),
        ("price", ctypes.c_uint32),
        ("number", ctypes.c_uint32),
        ("amount", ctypes.c_uint64),
    ]


assert ctypes.sizeof(Record) == 24


# "Each answer holds a code, an order number, lots traded and lots rested (insert; a vanished remainder isn't counted)
# or removed (cancel, pull)."
class Answer(ctypes.Structure):
    _fields_ = [
        ("code", ctypes.c_uint32),
        ("number", ctypes.c_uint32),
        ("traded", ctypes.c_uint32),
        ("lots", ctypes.c_uint32),
    ]


assert ctypes.sizeof(Answer) == 16


# What a settlement reports: each contract's settlement price; each account's closing and holding profit, and its
# charged margin after the settlement. All zero where there was none.
class Report(ctypes.Structure):
    _fields_ = [
        ("prices", ctypes.c_uint32 * 4),
        ("closing", ctypes.c_int64 * 32),
        ("holding", ctypes.c_int64 * 32),
        ("charged", ctypes.c_uint64 * 32),
    ]


assert ctypes.sizeof(Report) == 784


# An answer, the state after it and the report.
class Response(ctypes.Structure):
    _fields_ = [
        ("answer", Answer),
        ("state", State),
        ("report", Report),
    ]


assert ctypes.sizeof(Response) == 3592


# How many commands were played, and the state after them.
class Ran(ctypes.Structure):
    _fields_ = [
        ("played", ctypes.c_size_t),
        ("state", State),
    ]


assert ctypes.sizeof(Ran) == 2800


# 0, or the code that refuses the whole bundle, and the state after it. The C interface needs the code's number.
class Receipt(ctypes.Structure):
    _fields_ = [
        ("code", ctypes.c_uint32),
        ("state", State),
    ]


assert ctypes.sizeof(Receipt) == 2800


# The code, the lots that would trade, and the number of resting orders read to know it. The C interface needs the
# code's number, 0 for none.
class Reading(ctypes.Structure):
    _fields_ = [
        ("code", ctypes.c_uint32),
        ("lots", ctypes.c_uint32),
        ("read", ctypes.c_size_t),
    ]


assert ctypes.sizeof(Reading) == 16


# A part of an area: its first word, and how many words it has. An empty part begins at 0.
class Part(ctypes.Structure):
    _fields_ = [
        ("first", ctypes.c_size_t),
        ("words", ctypes.c_size_t),
    ]


assert ctypes.sizeof(Part) == 16


# 0, or the code that refuses, and how many bytes of the two areas are written.
class Mended(ctypes.Structure):
    _fields_ = [
        ("code", ctypes.c_uint32),
        ("length", ctypes.c_size_t),
        ("listed", ctypes.c_size_t),
    ]


assert ctypes.sizeof(Mended) == 24


# 0, or the code that refuses, and how many bytes are written.
class Statement(ctypes.Structure):
    _fields_ = [
        ("code", ctypes.c_uint32),
        ("length", ctypes.c_size_t),
    ]


assert ctypes.sizeof(Statement) == 16


# 0, or the code that refuses, and how many bytes are written.
class Saved(ctypes.Structure):
    _fields_ = [
        ("code", ctypes.c_uint32),
        ("length", ctypes.c_size_t),
    ]


assert ctypes.sizeof(Saved) == 16


# 0, or the code that refuses, and the state: the file's, or the one given where the file is refused.
class Loaded(ctypes.Structure):
    _fields_ = [
        ("code", ctypes.c_uint32),
        ("state", State),
    ]


assert ctypes.sizeof(Loaded) == 2800


# What a call printed: 0, or 21 where the state is not well formed, 29 where the buffer cannot hold the longest lines of
# one command; nothing is printed then. `length` bytes from the buffer's start are the part. `next` is the place of the
# next command, from 0, and with `state` goes into the next call, if there is more. The C interface needs the code's
# number and a flag.
class Printed(ctypes.Structure):
    _fields_ = [
        ("code", ctypes.c_uint32),
        ("length", ctypes.c_size_t),
        ("next", ctypes.c_size_t),
        ("more", ctypes.c_bool),
        ("state", State),
    ]


assert ctypes.sizeof(Printed) == 2824


# A resting order: its remaining lots, the account's place, 1 for a close and 0 for an open, its time stamp, 1 where it
# is part of a quote and 0 elsewhere: each a word of the lent area.
class Order(ctypes.Structure):
    _fields_ = [
        ("price", ctypes.c_uint32),
        ("number", ctypes.c_uint32),
        ("account", ctypes.c_uint32),
        ("lots", ctypes.c_uint32),
        ("close", ctypes.c_uint32),
        ("stamp", ctypes.c_uint32),
        ("quote", ctypes.c_uint32),
    ]


assert ctypes.sizeof(Order) == 28


# A trade: the contract's place, the two orders' numbers, the two accounts' places, and for each leg 1 for a close and 0
# for an open: each a word of the lent area.
class Trade(ctypes.Structure):
    _fields_ = [
        ("contract", ctypes.c_uint32),
        ("price", ctypes.c_uint32),
        ("lots", ctypes.c_uint32),
        ("buyorder", ctypes.c_uint32),
        ("sellorder", ctypes.c_uint32),
        ("buyer", ctypes.c_uint32),
        ("seller", ctypes.c_uint32),
        ("buyclose", ctypes.c_uint32),
        ("sellclose", ctypes.c_uint32),
    ]


assert ctypes.sizeof(Trade) == 36


# Which engine this is, so that a certificate can name it: the version, the Rattle kit that proved it, and the hash of
# the sources that were proved, as tools/version prints it.
class Identity(ctypes.Structure):
    _fields_ = [
        ("version", ctypes.c_char_p),
        ("kit", ctypes.c_char_p),
        ("sources", ctypes.c_char_p),
    ]


# The result and the parameters of each call.
CALLS = {
    # Opens a day file: the state that its run begins with, and where its commands stand. The sections of a day file,
    # each after its count of 4 bytes, little-endian: contracts of 20 bytes (multiplier 2, tick 2, reference 4, band 4,
    # limit 4, rate 2, pairing method 2), accounts of 8 (opening balance, with bit 63 set for a market maker), commands
    # of 24. The state has no orders and no trades, so the areas lent with it may hold anything.
    "zelvorm_open": (
        Opened,
        ctypes.POINTER(ctypes.c_uint8),
        ctypes.c_size_t,
    ),
    # Whether a state and the areas lent with it are well formed. Every other call that has code 21 makes this test
    # itself.
    "zelvorm_well_formed": (
        ctypes.c_bool,
        State,
        ctypes.POINTER(ctypes.c_uint32),
        ctypes.c_size_t,
        ctypes.POINTER(ctypes.c_uint32),
        ctypes.c_size_t,
        ctypes.POINTER(ctypes.c_uint32),
        ctypes.c_size_t,
    ),
    # Carries out one command. A refusal leaves the state and the areas as they were. The whole state is tested first,
    # for code 21. That costs more than most commands do by themselves, tens of thousands of instructions on an opening
    # state and hundreds of thousands on a full one: it grows with the resting orders and the day's trades.
    # `zelvorm_run` and `zelvorm_bundle` test once for all their commands.
    "zelvorm_execute": (
        Response,
        State,
        ctypes.POINTER(ctypes.c_uint32),
        ctypes.c_size_t,
        ctypes.POINTER(ctypes.c_uint32),
        ctypes.c_size_t,
        ctypes.POINTER(ctypes.c_uint32),
        ctypes.c_size_t,
        Record,
    ),
    # Carries out a list of commands, 24 bytes each, and writes the answer to each, four words, one after the other. It
    # plays as many commands as there are places for answers, and says how many. A settlement's report is given by
    # `zelvorm_execute` alone. Fewer than 24 bytes at the end of `commands` are no command and are passed over, as are
    # fewer than four words at the end of `answers`. Where the state is not well formed, each answer is 21.
    "zelvorm_run": (
        Ran,
        State,
        ctypes.POINTER(ctypes.c_uint32),
        ctypes.c_size_t,
        ctypes.POINTER(ctypes.c_uint32),
        ctypes.c_size_t,
        ctypes.POINTER(ctypes.c_uint32),
        ctypes.c_size_t,
        ctypes.POINTER(ctypes.c_uint8),
        ctypes.c_size_t,
        ctypes.POINTER(ctypes.c_uint32),
        ctypes.c_size_t,
    ),
    # Carries out a bundle of up to 100 commands, or refuses it whole: 21, then 22. Fewer than 24 bytes at the end of
    # `commands` are passed over. Words of `answers` behind the last answer stay.
    "zelvorm_bundle": (
        Receipt,
        State,
        ctypes.POINTER(ctypes.c_uint32),
        ctypes.c_size_t,
        ctypes.POINTER(ctypes.c_uint32),
        ctypes.c_size_t,
        ctypes.POINTER(ctypes.c_uint32),
        ctypes.c_size_t,
        ctypes.POINTER(ctypes.c_uint8),
        ctypes.c_size_t,
        ctypes.POINTER(ctypes.c_uint32),
        ctypes.c_size_t,
    ),
    # How much could I get: the lots that an insert would trade now, and how many resting orders were read to know it.
    # Nothing is changed.
    "zelvorm_gettable": (
        Reading,
        State,
        ctypes.POINTER(ctypes.c_uint32),
        ctypes.c_size_t,
        ctypes.POINTER(ctypes.c_uint32),
        ctypes.c_size_t,
        ctypes.POINTER(ctypes.c_uint32),
        ctypes.c_size_t,
        Record,
    ),
    # One side's resting orders: which part of `buys` or of `sells` holds them. The contract is named by its number.
    "zelvorm_side": (
        Part,
        State,
        ctypes.POINTER(ctypes.c_uint32),
        ctypes.c_size_t,
        ctypes.POINTER(ctypes.c_uint32),
        ctypes.c_size_t,
        ctypes.c_bool,
        ctypes.c_size_t,
    ),
    # Mends a day file: what is kept goes into `out`, the list of what is dropped into `list`. As many bytes as the file
    # has are enough for `out`, and LIST_BYTES for `list`. The list is a count of 8 bytes, then 9 bytes for each command
    # that is dropped, in the file's order: its place among the commands, from 1 (8), and the reason (1): 1 malformed, 2
    # partial, at the end of the file, 3 beyond the most commands of a day file.
    "zelvorm_mend": (
        Mended,
        ctypes.POINTER(ctypes.c_uint8),
        ctypes.c_size_t,
        ctypes.POINTER(ctypes.c_uint8),
        ctypes.c_size_t,
        ctypes.POINTER(ctypes.c_uint8),
        ctypes.c_size_t,
    ),
    # A statement of an account's clients. `starts` has eight words for each client: long and short lots at the start of
    # the day in each of four contracts. `postings` has two words for each posting: an order's number and a client's.
    # STATEMENT_BYTES are enough for `out`; 12 + 32 x trades of the day + clients x (16 + 8 x contracts) are too.
    # Written are three sections, each after its count of 4 bytes: the account's legs in the order of the trades, the
    # buyer's first, of 16 bytes (client 1, contract 1, a mark for a sell 1, a mark for a close 1, price 4, lots 4,
    # order number 4); holdings now by client, then contract, of 8 (long 4, short 4); profit by client, of 16 (closing
    # 8, holding 8, both signed). Words that `starts` lacks are 0; a single word at the end of `postings` is passed
    # over.
    "zelvorm_client_statement": (
        Statement,
        State,
        ctypes.POINTER(ctypes.c_uint32),
        ctypes.c_size_t,
        ctypes.POINTER(ctypes.c_uint32),
        ctypes.c_size_t,
        ctypes.POINTER(ctypes.c_uint32),
        ctypes.c_size_t,
        ctypes.c_uint32,
        ctypes.c_uint32,
        ctypes.POINTER(ctypes.c_uint32),
        ctypes.c_size_t,
        ctypes.POINTER(ctypes.c_uint32),
        ctypes.c_size_t,
        ctypes.POINTER(ctypes.c_uint8),
        ctypes.c_size_t,
    ),
    # Writes a state after its settlement, to be read tomorrow. SAVED_BYTES are enough for `out`; it takes 20 + 24 x
    # contracts + accounts x (9 + 8 x contracts). The sections, each after its count of 4 bytes: contracts of 24 bytes
    # (the day file's 20, last price 4), accounts of 9 (signed balance 8, a mark for a market maker 1), holdings by
    # account, then contract, of 8 (long 4, short 4), and one of 4, the settlement count.
    "zelvorm_write": (
        Saved,
        State,
        ctypes.POINTER(ctypes.c_uint32),
        ctypes.c_size_t,
        ctypes.POINTER(ctypes.c_uint32),
        ctypes.c_size_t,
        ctypes.POINTER(ctypes.c_uint32),
        ctypes.c_size_t,
        ctypes.POINTER(ctypes.c_uint8),
        ctypes.c_size_t,
    ),
    # Reads a state that was written. The areas are those that it is to be used with: they are looked at for their room
    # alone. Of the state given nothing is looked at; places that the file's state does not use stay as they are there.
    "zelvorm_read": (
        Loaded,
        ctypes.POINTER(ctypes.c_uint8),
        ctypes.c_size_t,
        State,
        ctypes.POINTER(ctypes.c_uint32),
        ctypes.c_size_t,
        ctypes.POINTER(ctypes.c_uint32),
        ctypes.c_size_t,
        ctypes.POINTER(ctypes.c_uint32),
        ctypes.c_size_t,
    ),
    # The next part of a day file's lines, in the buffer `out`: what a day runner prints of it. The first call takes the
    # state of `zelvorm_open` and `next` 0; each call gives the state and `next` for the following one, as long as it
    # tells of more. A buffer of `OUTPUT_BYTES` is enough, and a longer one takes fewer calls.
    "zelvorm_lines": (
        Printed,
        ctypes.POINTER(ctypes.c_uint8),
        ctypes.c_size_t,
        State,
        ctypes.c_size_t,
        ctypes.POINTER(ctypes.c_uint32),
        ctypes.c_size_t,
        ctypes.POINTER(ctypes.c_uint32),
        ctypes.c_size_t,
        ctypes.POINTER(ctypes.c_uint32),
        ctypes.c_size_t,
        ctypes.POINTER(ctypes.c_uint8),
        ctypes.c_size_t,
    ),
    # Which engine is linked. This call is a help: it stands beside the proved ones, in an object of its own.
    "zelvorm_engine": (Identity,),
}


def list_bytes(file_bytes):
    """How many bytes are enough for the list of what a mended file lost, by the bytes of the file."""
    return 8 + 9 * (file_bytes // 24 + 1)


# An area of so many words, or of so many bytes, zero at first; `lent` has what a call takes of it.
def words(count):
    return (ctypes.c_uint32 * count)()


def room(count):
    return (ctypes.c_uint8 * count)()


def lent(area):
    """The pointer and the number of elements of an area, or of bytes that are only read."""
    if isinstance(area, (bytes, bytearray)):
        area = (ctypes.c_uint8 * len(area)).from_buffer_copy(area)
    return ctypes.cast(area, ctypes.POINTER(area._type_)), len(area)


def load(path):
    """The shared library at a path, each call with its types."""
    library = ctypes.CDLL(str(path))
    for name, (result, *parameters) in CALLS.items():
        call = getattr(library, name)
        call.restype = result
        call.argtypes = parameters
    return library
