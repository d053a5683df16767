"""The words of practice that call the library beyond a day's commands, and what can be expected of them behind =>."""

import daytext
from calls import mended, statement
from calls.clients import Clients
from engine import Refused
from lessons.refusals import REFUSALS
from lines import number_of
from words import Wrong

# What can be expected of each word.
EXPECTED_OF = {
    "ask": ("code", "lots", "read"),
    "bundle": ("code",),
    "tomorrow": ("code",),
    "statement": ("code", "client"),
    "mend": ("code", "kept", "dropped", "record"),
}


def read_expected(words, first):
    """Each thing expected, by its name, with its value."""
    if not words:
        raise Wrong(words.column(), "nothing stands behind =>")
    while words:
        name = words.one_of(EXPECTED_OF[first])
        if name == "client":
            client = words.number("client", daytext.BITS_8)
            while True:
                part = words.one_of(["closing", "holding"])
                yield f"{part} of client {client}", words.signed_number(part, daytext.BITS_63)
                if words.next() not in ("closing", "holding"):
                    break
        elif name == "record":
            place = words.number("record", daytext.BITS_32)
            yield f"record {place}", words.one_of(list(mended.WORDS))
        else:
            yield name, words.number(name, daytext.BITS_64)


def ask(session, words):
    """What ticket 3 answers: the figures by name, and the lines that show them."""
    if words.next() == "insert":
        words.take("insert")
    command = daytext.read_insert(words)
    words.end()
    found = session.ask(command)
    if found.code:
        return found._asdict(), [f"refused, code {found.code}: {REFUSALS[found.code][0]}"]
    orders = "1 resting order is" if found.read == 1 else f"{found.read} resting orders are"
    return found._asdict(), [f"{found.lots:,} of {command.lots:,} would trade now; {orders} read to know it. Nothing is sent."]


def statement_of(session, clients, words):
    account = words.number("account", daytext.BITS_8)
    words.end()
    session.need_library("a statement")
    try:
        found = statement.made(session.exchange, clients, account)
    except Refused as refused:
        return {"code": refused.code}, [f"refused, code {refused.code}: {statement.REASONS[refused.code]}"]
    figures = {"code": 0}
    for client, (closing, holding) in enumerate(found.profits, 1):
        figures[f"closing of client {client}"], figures[f"holding of client {client}"] = closing, holding
    return figures, list(statement.as_text(found))


def mend(session, words):
    """The day so far as a file, cut where it is said, and mended. The session stays as it is."""
    cut = words.named_number("cut", daytext.BITS_32) if words else 0
    words.end()
    session.need_library("mend")
    file = session.day_file()
    file = file[: max(len(file) - cut, 0)]
    found = mended.mended(session.exchange.calls, file)
    if found.code:
        return {"code": found.code}, [f"refused, code {found.code}: the contracts, the accounts or the count of commands are not whole"]
    figures = {"code": 0, "kept": found.kept(), "dropped": len(found.dropped)}
    figures.update({f"record {place}": reason for place, reason in found.dropped})
    return figures, list(mended.in_words(file, found))


def tomorrow(session, words):
    words.end()
    code, told = session.tomorrow()
    return {"code": code}, [told]


def bundle(session, commands, show):
    """The commands in one call; each answer is shown as singly."""
    code, steps = session.bundle(commands)
    if code:
        return {"code": code}, [f"refused whole, code {code}: more than 100 commands"]
    for step in steps:
        show(step)
    return {"code": 0}, [f"{number_of(len(steps), 'command')} in one call, answered as singly"]


def no_clients():
    return Clients()
