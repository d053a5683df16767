"""Document 01, "Numbers that bound everything": each bound once, under its sentence."""

# "Contracts 1 to 4, accounts 1 to 32, both numbered from 1."
MOST_CONTRACTS = 4
MOST_ACCOUNTS = 32

# "Resting orders: 64 on each side of a contract. Trades: 1,024 a day. Settlements: 250 a run."
MOST_RESTING = 64
MOST_TRADES = 1_024
MOST_SETTLEMENTS = 250

# "Order numbers: 1 to 999,999 each day", "Lots per order: 1 to 1,000", "Prices: 1 to 1,000,000".
LAST_ORDER_NUMBER = 999_999
# "Stamps end at 999,999 a day." (document 02, ticket 8)
LAST_STAMP = 999_999
MOST_LOTS = 1_000
TOP_PRICE = 1_000_000

# "commands (0 to 2,000)"
MOST_COMMANDS = 2_000

# "opening balance, 0 to 10^18", "amount not 1 to 10^15, or deposit lifts the balance above 10^18"
TOP_BALANCE = 10**18
TOP_AMOUNT = 10**15

# "each balance is within 10^18 plus settlements so far times 3 x 10^15, either sign"
BALANCE_STEP = 3 * 10**15


# "A contract has multiplier 1 to 1,000, tick 1 to 1,000, reference and band (each a multiple of the tick, from one
# tick to 1,000,000), holding limit 1 to 100,000, margin rate 1 to 10,000 in ten-thousandths."
# "20 for a method above 2; 21 for a state holding one" (document 02, ticket 6)
# In this order, since a tick of 0 has no multiples.
CONTRACT_RULES = (
    ("multiplier not 1 to 1,000", lambda contract: 1 <= contract.multiplier <= 1_000),
    ("tick not 1 to 1,000", lambda contract: 1 <= contract.tick <= 1_000),
    ("reference not one tick to 1,000,000", lambda contract: contract.tick <= contract.reference <= TOP_PRICE),
    ("reference off tick", lambda contract: contract.reference % contract.tick == 0),
    ("band not one tick to 1,000,000", lambda contract: contract.tick <= contract.band <= TOP_PRICE),
    ("band off tick", lambda contract: contract.band % contract.tick == 0),
    ("limit not 1 to 100,000", lambda contract: 1 <= contract.limit <= 100_000),
    ("rate not 1 to 10,000", lambda contract: 1 <= contract.rate <= 10_000),
    ("method above 2", lambda contract: contract.method <= 2),
)


def contract_fault(contract):
    """What is out of range in a contract's parameters, or None."""
    for fault, holds in CONTRACT_RULES:
        if not holds(contract):
            return fault
    return None
