"""interface.py: what the library exports, read from its Rattle source: constants, records, calls, codes.

A reader of the few forms that stand there (`pub const`, `#[repr(C)] pub struct`, `#[unsafe(no_mangle)] pub extern "C" fn`), not of the
language. What it does not know it refuses.
"""

import re
from dataclasses import dataclass
from pathlib import Path

TOP = Path(__file__).resolve().parent.parent

# Size and alignment on x86-64.
NUMBERS = {
    "bool": 1,
    "u8": 1,
    "u16": 2,
    "u32": 4,
    "u64": 8,
    "usize": 8,
    "i64": 8,
}


class Unknown(Exception):
    """A form that is not read here."""


@dataclass
class Constant:
    name: str
    type: str
    value: int
    words: list


@dataclass
class Array:
    """An array in a record; `length` is its number of elements."""

    of: object
    length: int


@dataclass
class Slice:
    """An area that is lent, to be read or also to be written."""

    of: str
    is_written: bool


@dataclass
class Field:
    name: str
    type: object
    offset: int


@dataclass
class Struct:
    name: str
    fields: list
    words: list
    size: int
    alignment: int


@dataclass
class Call:
    name: str
    parameters: list
    result: object
    words: list


@dataclass
class Kind:
    """A command's kind, and the fields of its record that it uses."""

    name: str
    number: int
    uses: list


@dataclass
class Code:
    number: int
    name: str
    sentence: str


# Names for the codes of the papers' tables; the sentences are those of docs/CODES.md.
CODES = {
    0: "ACCEPTED",
    1: "MALFORMED",
    2: "NO_ACCOUNT",
    3: "NO_CONTRACT",
    4: "PHASE_FORBIDS",
    5: "LOTS",
    6: "CONDITIONS",
    7: "PRICE",
    8: "HOLDING",
    9: "MARGIN",
    10: "NUMBERS_USED_UP",
    11: "NOT_FILLABLE",
    12: "NO_ROOM_FOR_TRADES",
    13: "SIDE_FULL",
    14: "NO_ORDER",
    15: "ORDER_OF_ANOTHER",
    16: "AMOUNT",
    17: "PHASE_CHANGE",
    18: "NOT_CLOSED",
    19: "SETTLEMENTS_USED_UP",
    20: "BROKEN_FILE",
    21: "NOT_WELL_FORMED",
    22: "BUNDLE",
    23: "NOT_A_MAKER",
    24: "QUOTE_PRICES",
    25: "CLIENTS",
    26: "POSTINGS",
    27: "CLIENT_HOLDING",
    28: "NOT_WRITABLE",
    29: "AREA_TOO_SHORT",
    30: "TOTALS_DIFFER",
}


class Interface:
    """All that the library's users see."""

    def __init__(self, top=TOP):
        self.top = top
        self.structs = {}
        self.version = (top / "VERSION").read_text().strip()
        self.constants = constants_in(source_of(top, "rules"))
        self.constants += constants_in(source_of(top, "exports"), self.constants)
        self.sizes = sizes(self.constants)
        self.kinds = kinds(top)
        self.codes = codes(top)
        self.calls = self.exported_calls()
        # Orders and trades lie in the areas as these records do.
        for name in ("Order", "Trade"):
            self.struct(name, source_of(top, "rules"))
            check_words(top, self.structs[name])

    def exported_calls(self):
        source = source_of(self.top, "exports")
        return [self.call(found, source) for found in CALL.finditer(source.text)]

    def call(self, found, source):
        parameters = [pair.split(":", 1) for pair in split_list(found["parameters"])]
        return Call(
            found["name"],
            [(name.strip(), self.type(form.strip(), source)) for name, form in parameters],
            self.type(found["result"].strip(), source),
            words_above(source.text, found.start()),
        )

    # The type that a form names in a file.
    def type(self, form, source):
        if form in NUMBERS:
            return form
        if slice_of := re.fullmatch(r"&(?:'\w+ )?(mut )?\[(\w+)\]", form):
            return Slice(self.type(slice_of[2], source), slice_of[1] is not None)
        if array := re.fullmatch(r"\[(\w+); ([\w:]+)\]", form):
            return Array(self.type(array[1], source), value_of(array[2], self.constants))
        if re.fullmatch(r"[A-Z]\w*", form):
            return self.struct(form, source)
        raise Unknown(f"{source.path}: the type {form}")

    # The record of this name: of this file, or of the one that it is taken from by `use`.
    def struct(self, name, source):
        if not (found := re.search(STRUCT % name, source.text)):
            used = re.search(rf"^use ([\w:]+)::(?:{name}|\{{[^}}]*\b{name}\b[^}}]*\}});", source.text, re.MULTILINE)
            if not used:
                raise Unknown(f"{source.path}: no record {name} with #[repr(C)]")
            return self.struct(name, source_of(self.top, used[1], source.crate))
        if name in self.structs:
            return self.structs[name]
        fields, at, alignment = [], 0, 1
        for pair in split_list(found["fields"]):
            field, form = pair.removeprefix("pub ").split(":", 1)
            made = self.type(form.strip(), source)
            size, step = size_of(made)
            at = -(-at // step) * step
            fields.append(Field(field.strip(), made, at))
            at += size
            alignment = max(alignment, step)
        size = -(-at // alignment) * alignment
        self.structs[name] = Struct(name, fields, words_above(source.text, found.start()), size, alignment)
        return self.structs[name]


STRUCT = r"#\[repr\(C\)\]\n(?:#\[derive\([^\n]*\)\]\n)?pub struct %s \{(?P<fields>[^}]*)\}"
CALL = re.compile(
    r'#\[unsafe\(no_mangle\)\]\npub extern "C" fn (?P<name>\w+)(?:<[^>]*>)?\((?P<parameters>[^)]*)\) -> (?P<result>[^\n]+)'
)


@dataclass
class Source:
    path: Path
    crate: str
    text: str


# The file of a crate or of a module in it, named as by `use`.
def source_of(top, name, crate=None):
    first, *modules = name.split("::")
    if first == "crate":
        first = crate
    path = top / "crates" / first / "src" / ("/".join(modules) + ".rt" if modules else "lib.rt")
    if not path.is_file():
        raise Unknown(f"no file {path} for {name}")
    return Source(path, first, path.read_text())


def split_list(text):
    """The entries of a list between commas; those inside brackets do not count."""
    entries = re.split(r",(?![^\[]*\])", re.sub(r"//[^\n]*", "", text))
    return [" ".join(entry.split()) for entry in entries if entry.strip()]


def words_above(text, at):
    """The comment that stands directly above a place."""
    words = []
    for line in reversed(text[:at].splitlines()):
        if not line.startswith("//"):
            break
        words.append(line.removeprefix("//").strip())
    return words[::-1]


def size_of(made):
    """Size and alignment."""
    if isinstance(made, str):
        return NUMBERS[made], NUMBERS[made]
    if isinstance(made, Array):
        size, step = size_of(made.of)
        return size * made.length, step
    return made.size, made.alignment


def constants_in(source, known=()):
    found = []
    for match in re.finditer(r"^pub const (\w+): (\w+) = ([^;]+);", source.text, re.MULTILINE):
        value = value_of(match[3], [*known, *found])
        found.append(Constant(match[1], match[2], value, words_above(source.text, match.start())))
    return found


# A number, a constant, or a product of them.
def value_of(form, constants):
    known = {constant.name: constant.value for constant in constants}
    value = 1
    for factor in form.split("*"):
        factor = factor.strip().removeprefix("rules::")
        if factor not in known and not factor.replace("_", "").isdigit():
            raise Unknown(f"the number {form}")
        value *= known[factor] if factor in known else int(factor)
    return value


# "Take up to 100 commands in one call" (document 02, ticket 1); "one of up to 16 clients" (ticket 9).
MAX_BUNDLE, MAX_CLIENTS = 100, 16

# Ticket 9's sections: "trades (client 1, contract 1, sell mark 1, close mark 1, price 4, lots 4, order number 4)", "holdings now
# (long 4, short 4, ..)", "profit (signed closing 8, signed holding 8, ..)".
LEG_WIDTH, HOLDING_WIDTH, PROFIT_WIDTH = 16, 8, 16

# Ticket 10's: "contracts (the day file's 20 bytes, then last price 4)", "accounts (signed balance 8, maker mark 1, ..)", "holdings
# (long 4, short 4, ..)", "the settlement count (4)".
SAVED_CONTRACT_WIDTH, SAVED_ACCOUNT_WIDTH, SETTLEMENTS_WIDTH = 24, 9, 4


def sizes(known):
    """How many bytes are enough for each file that a call writes, and what else bounds a call."""
    of = {constant.name: constant.value for constant in known}
    contracts, accounts = of["MAX_CONTRACTS"], of["MAX_ACCOUNTS"]
    day = (contracts * of["CONTRACT_WIDTH"], accounts * of["ACCOUNT_WIDTH"], of["MAX_COMMANDS"] * of["COMMAND_WIDTH"])
    saved = (contracts * SAVED_CONTRACT_WIDTH, accounts * SAVED_ACCOUNT_WIDTH, accounts * contracts * HOLDING_WIDTH, SETTLEMENTS_WIDTH)
    statement = (2 * of["MAX_TRADES"] * LEG_WIDTH, MAX_CLIENTS * contracts * HOLDING_WIDTH, MAX_CLIENTS * PROFIT_WIDTH)
    # Each section stands after its count.
    needed = [sum(sections) + of["COUNT_WIDTH"] * len(sections) for sections in (day, saved, statement)]
    words = "How many bytes are enough for any day file, for any saved state (write) and for any client statement."
    return [
        Constant("DAY_FILE_BYTES", "usize", needed[0], [words]),
        Constant("SAVED_BYTES", "usize", needed[1], []),
        Constant("STATEMENT_BYTES", "usize", needed[2], []),
        Constant("MAX_BUNDLE", "usize", MAX_BUNDLE, ["How many commands a bundle may have, and how many clients a statement."]),
        Constant("MAX_CLIENTS", "u32", MAX_CLIENTS, []),
    ]


# The table's second column: the fields of its record that each kind uses.
USED = {
    "deposit": ["account", "amount"],
    "withdraw": ["account", "amount"],
    "insert": ["account", "contract", "flags", "lots", "price"],
    "cancel": ["account", "contract", "flags", "number"],
    "pull": ["account", "contract", "flags"],
    "phase": ["contract", "flags"],
    "settle": [],
    "quote": ["account", "contract", "lots", "price", "number"],
    "change": ["account", "contract", "lots", "price", "number"],
}


def kinds(top):
    """The kinds of a command, as the reading of a record has them."""
    text = source_of(top, "commands").text
    body = text[text.index("pub fn command_of") :]
    rows = re.findall(r"^ +(\d+) => (\w+)_of\(r\),$", body, re.MULTILINE)
    return [Kind(name, int(number), USED[name]) for number, name in rows]


def codes(top):
    """The table of codes in docs/CODES.md."""
    rows = re.findall(r"^\| (\d+) \| (.+) \|$", (top / "docs" / "CODES.md").read_text(), re.MULTILINE)
    return [Code(int(number), CODES[int(number)], sentence.replace("`", "")) for number, sentence in rows]


def check_words(top, struct):
    """The words of a record in its area stand in the order of its fields."""
    text = (top / "crates/rules/specs/Memory.antt").read_text()
    name = struct.name.lower() + "_words"
    told = re.search(rf"^{name} \w+ =\s*(.+)$", text, re.MULTILINE)
    if not told or re.findall(r"\.(\w+) ∷", told[1]) != [field.name for field in struct.fields]:
        raise Unknown(f"the words of {struct.name} are not its fields in turn")
