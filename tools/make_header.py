#!/usr/bin/env python3
"""make_header.py: makes include/zelvorm.h, and the same for Rust and for Python, from the Rattle source.

    tools/make_header.py            makes include/zelvorm.h, include/zelvorm.rs, include/zelvorm.py, and include/zelvorm.map, and the
                                    copies for Rust and Python in bindings/
    tools/make_header.py check      tells which of them is not what this tool makes; status 1 where there is one

zelvorm.map names the calls for the linker: the shared library shows them and nothing else.
"""

import re
import sys
import textwrap

from interface import TOP, Array, Interface, Slice, size_of

FOLDER = TOP / "include"

# The wrappers have their own copy: the gate refuses links.
COPIES = {"bindings/python/zelvorm/raw.py": "zelvorm.py", "bindings/rust/src/raw.rs": "zelvorm.rs"}

MADE = "Made by tools/make_header.py from crates/exports and the records that it uses. Do not edit."

ABOUT = """\
The engine of a practice futures exchange: order book, accounts, margin and settlement.

A state is a record of its own and three areas of 32-bit words, which the caller keeps and lends to each call: the buy queues and the \
sell queues (QUEUES_WORDS have room for every contract) and the day's trades (TRADES_WORDS). An order and a trade lie there word by \
word as their records below do. The library keeps nothing between two calls, so that calls on different states may run at the same \
time; it asks for no memory, and takes up to 100 KB of stack.

An area is lent as a pointer and a number of elements; with 0 elements the pointer may be null. What a call writes must not overlap \
anything else that it is lent. That is all that a call asks for: on any state, any areas, of any length, and any command it answers, \
with a code where something is wrong, and touches nothing outside the areas.

In the records a place counts from 0 and a number from 1; commands name accounts, contracts and orders by number."""

# The one call that is no part of the proved source: tools/build_library writes it and links it in as an object of its own.
ENGINE = "zelvorm_engine"

IDENTITY_WORDS = "Which engine this is, so that a certificate can name it: the version, the Rattle kit that proved it, and the hash of \
the sources that were proved, as tools/version prints it."

ENGINE_WORDS = "Which engine is linked. This call is a help: it stands beside the proved ones, in an object of its own."

KINDS_WORDS = "The kinds of a command. The fields of its record that a kind does not use are 0: otherwise the code is 1."

KIND_WORDS = {
    "insert": "The flags are those of an insert; a market and a best order have price 0.",
    "cancel": "`number` is the order's; the flags are 0, or 1 for the operator.",
    "pull": "The flags are 0, or 1 for the operator.",
    "phase": "The flags are the phase that the contract goes to.",
    "quote": "`price` is the buy price and `number` the sell price. The answer has the buy's order number; the sell's is 1 more.",
    "change": "`number` is the order's, `lots` its new remaining lots (0 removes it), `price` its new price.",
}

# What a caller has to know beside the words of the source: sizes, layouts, costs.
CALL_WORDS = {
    "zelvorm_open": "The sections of a day file, each after its count of 4 bytes, little-endian: contracts of 20 bytes (multiplier 2, \
tick 2, reference 4, band 4, limit 4, rate 2, pairing method 2), accounts of 8 (opening balance, with bit 63 set for a market maker), \
commands of 24. The state has no orders and no trades, so the areas lent with it may hold anything.",
    "zelvorm_execute": "The whole state is tested first, for code 21. That costs more than most commands do by themselves, tens of \
thousands of instructions on an opening state and hundreds of thousands on a full one: it grows with the resting orders and the day's \
trades. `zelvorm_run` and `zelvorm_bundle` test once for all their commands.",
    "zelvorm_run": "Fewer than 24 bytes at the end of `commands` are no command and are passed over, as are fewer than four words at \
the end of `answers`. Where the state is not well formed, each answer is 21.",
    "zelvorm_bundle": "Fewer than 24 bytes at the end of `commands` are passed over. Words of `answers` behind the last answer stay.",
    "zelvorm_mend": "As many bytes as the file has are enough for `out`, and LIST_BYTES for `list`. The list is a count of 8 bytes, then 9 \
bytes for each command that is dropped, in the file's order: its place among the commands, from 1 (8), and the reason (1): 1 malformed, \
2 partial, at the end of the file, 3 beyond the most commands of a day file.",
    "zelvorm_client_statement": "STATEMENT_BYTES are enough for `out`; 12 + 32 x trades of the day + clients x (16 + 8 x contracts) are too. \
Written are three sections, each after its count of 4 bytes: the account's legs in the order of the trades, the buyer's first, of 16 \
bytes (client 1, contract 1, a mark for a sell 1, a mark for a close 1, price 4, lots 4, order number 4); holdings now by client, then \
contract, of 8 (long 4, short 4); profit by client, of 16 (closing 8, holding 8, both signed). Words that `starts` lacks are 0; a \
single word at the end of `postings` is passed over.",
    "zelvorm_write": "SAVED_BYTES are enough for `out`; it takes 20 + 24 x contracts + accounts x (9 + 8 x contracts). The sections, each \
after its count of 4 bytes: contracts of 24 bytes (the day file's 20, last price 4), accounts of 9 (signed balance 8, a mark for a \
market maker 1), holdings by account, then contract, of 8 (long 4, short 4), and one of 4, the settlement count.",
}

LIST_WORDS = "How many bytes are enough for the list of what a mended file lost, by the bytes of the file."

CODE_WORDS_WORDS = "The words of a code, as they stand above it."

NO_CODE = "no such code"

VERSION_WORDS = "The version that this file belongs to. Programs go on with any library of the same major version."

C_TYPES = {
    "bool": "bool",
    "u8": "uint8_t",
    "u16": "uint16_t",
    "u32": "uint32_t",
    "u64": "uint64_t",
    "usize": "size_t",
    "i64": "int64_t",
}

C_KEYWORDS = {"long", "short"}

ELEMENTS = {"u8": "bytes", "u32": "words"}


# What stands above a kind, and above a call.
def words_of_kind(kind):
    uses = f"uses {', '.join(kind.uses) or 'no field'}"
    return f"{uses}. {KIND_WORDS[kind.name]}" if kind.name in KIND_WORDS else uses


def words_of_call(call):
    return [*call.words, *([CALL_WORDS[call.name]] if call.name in CALL_WORDS else [])]


def snake(name):
    return re.sub(r"(?<!^)(?=[A-Z])", "_", name).lower()


def wrapped(words, first, rest, width=120):
    text = " ".join(words) if isinstance(words, list) else words
    return textwrap.wrap(text, width, initial_indent=first, subsequent_indent=rest, break_on_hyphens=False)


def paragraphs(text, prefix):
    lines = []
    for part in text.split("\n\n"):
        lines += [*([prefix.rstrip()] if lines else []), *wrapped(part, prefix, prefix)]
    return lines


# Constants in groups: those that stand under one comment.
def groups(constants):
    found = []
    for constant in constants:
        if constant.words or not found:
            found.append((constant.words, []))
        found[-1][1].append(constant)
    return found


# =====================================================================================================================
# C
# =====================================================================================================================


def c_comment(words):
    lines = wrapped(words, "/* ", " * ")
    return [*lines[:-1], lines[-1] + " */"] if lines else []


def c_value(constant):
    if constant.value < 2**31:
        return f"{constant.value}u"
    return f"UINT64_C({constant.value})"


def c_name(field):
    return field + "_" if field in C_KEYWORDS else field


def c_type(made):
    return C_TYPES[made] if isinstance(made, str) else "zelvorm_" + snake(made.name)


def c_field(field):
    if isinstance(field.type, Array):
        return f"{c_type(field.type.of)} {c_name(field.name)}[{field.type.length}];"
    return f"{c_type(field.type)} {c_name(field.name)};"


# Where a record has bytes that belong to no field: the first and the last of each row of them.
def padding(struct):
    ends = [field.offset + size_of(field.type)[0] for field in struct.fields]
    begins = [*(field.offset for field in struct.fields[1:]), struct.size]
    return [(end, begin - 1) for end, begin in zip(ends, begins) if end < begin]


def c_padding(struct):
    rows = " and ".join(f"{first} to {last}" for first, last in padding(struct))
    return [f"Bytes {rows} are padding: no answer depends on them, and what they hold after a call is not promised."] if rows else []


def c_struct(struct):
    name = c_type(struct)
    yield from c_comment([*struct.words, *c_padding(struct)])
    yield f"typedef struct {name} {{"
    yield from ("    " + c_field(field) for field in struct.fields)
    yield f"}} {name};"
    yield ""
    yield f"ZELVORM_ASSERT(sizeof({name}) == {struct.size});"
    for field in struct.fields:
        yield f"ZELVORM_ASSERT(offsetof({name}, {c_name(field.name)}) == {field.offset});"


def c_parameter(name, made):
    if isinstance(made, Slice):
        const = "" if made.is_written else "const "
        return f"{const}{C_TYPES[made.of]} *{name}, size_t {name}_{ELEMENTS[made.of]}"
    return f"{c_type(made)} {name}"


def c_call(call):
    yield from c_comment(words_of_call(call))
    yield f"{c_type(call.result)} {call.name}("
    parameters = [c_parameter(*parameter) for parameter in call.parameters]
    yield from (f"    {parameter}," for parameter in parameters[:-1])
    yield f"    {parameters[-1]});"


def c_version(version):
    yield from ["", *c_comment(VERSION_WORDS), f'#define ZELVORM_VERSION "{version}"']
    for part, number in zip(("MAJOR", "MINOR", "PATCH"), version.split(".")):
        yield f"#define ZELVORM_VERSION_{part} {number}"


def c_engine():
    yield from c_comment(IDENTITY_WORDS)
    yield from ["typedef struct zelvorm_identity {", "    const char *version;", "    const char *kit;", "    const char *sources;"]
    yield from ["} zelvorm_identity;", "", *c_comment(ENGINE_WORDS), f"zelvorm_identity {ENGINE}(void);"]


def c_code_words(codes):
    yield from c_comment(CODE_WORDS_WORDS)
    yield from ["static inline const char *zelvorm_code_words(uint32_t code) {", "    switch (code) {"]
    for code in codes:
        yield from [f"    case ZELVORM_CODE_{code.name}:", f'        return "{code.sentence}";']
    yield from ["    default:", f'        return "{NO_CODE}";', "    }", "}"]


def c_header(interface):
    yield from ["/*", *paragraphs(f"zelvorm.h. {MADE}", " * "), " *", *paragraphs(ABOUT, " * "), " */"]
    yield from ["#ifndef ZELVORM_H", "#define ZELVORM_H", ""]
    yield from ["#include <stdbool.h>", "#include <stddef.h>", "#include <stdint.h>", ""]
    yield from ["#ifdef __cplusplus", 'extern "C" {', "#define ZELVORM_ASSERT(test) static_assert(test, #test)"]
    yield from ["#else", "#define ZELVORM_ASSERT(test) _Static_assert(test, #test)", "#endif"]
    yield from c_version(interface.version)
    for words, constants in groups([*interface.constants, *interface.sizes]):
        yield from ["", *c_comment(words)]
        yield from (f"#define ZELVORM_{constant.name} {c_value(constant)}" for constant in constants)
    yield from ["", *c_comment(LIST_WORDS), "#define ZELVORM_LIST_BYTES(file_bytes) (8u + 9u * ((file_bytes) / 24u + 1u))"]
    yield from ["", *c_comment(KINDS_WORDS)]
    for kind in interface.kinds:
        yield from ["", *c_comment(words_of_kind(kind)), f"#define ZELVORM_KIND_{kind.name.upper()} {kind.number}u"]
    yield from ["", *c_comment("The codes. Where several apply, the first one in the papers' order is given.")]
    for code in interface.codes:
        yield from ["", *c_comment(code.sentence), f"#define ZELVORM_CODE_{code.name} {code.number}u"]
    yield from ["", *c_code_words(interface.codes)]
    for struct in interface.structs.values():
        yield from ["", *c_struct(struct)]
    for call in interface.calls:
        yield from ["", *c_call(call)]
    yield from ["", *c_engine()]
    yield from ["", "#ifdef __cplusplus", "}", "#endif", "", "#endif"]


# What the linker lets the shared library show, each symbol with the major version.
def linker_map(interface):
    yield f"/* zelvorm.map. {MADE} */"
    yield f"ZELVORM_{interface.version.split('.')[0]} {{"
    yield "    global:"
    yield from (f"        {name};" for name in [*(call.name for call in interface.calls), ENGINE])
    yield from ["    local:", "        *;", "};"]


# =====================================================================================================================
# Rust
# =====================================================================================================================


def rust_type(made):
    if isinstance(made, Array):
        return f"[{rust_type(made.of)}; {made.length}]"
    return made if isinstance(made, str) else made.name


def rust_comment(words):
    return wrapped(words, "/// ", "/// ")


def rust_struct(struct):
    yield from rust_comment(struct.words)
    yield from ["#[repr(C)]", "#[derive(Clone, Copy, Debug, PartialEq)]", f"pub struct {struct.name} {{"]
    yield from (f"    pub {field.name}: {rust_type(field.type)}," for field in struct.fields)
    yield "}"
    yield ""
    yield f"const _: () = assert!(size_of::<{struct.name}>() == {struct.size});"


def rust_linked(call):
    parameters = []
    for name, made in call.parameters:
        if isinstance(made, Slice):
            parameters += [f"{name}: *{'mut' if made.is_written else 'const'} {made.of}", f"{name}_{ELEMENTS[made.of]}: usize"]
        else:
            parameters.append(f"{name}: {rust_type(made)}")
    yield f"        pub fn {call.name}("
    yield from (f"            {parameter}," for parameter in parameters)
    yield f"        ) -> {rust_type(call.result)};"


def rust_call(call):
    parameters, given = [], []
    for name, made in call.parameters:
        if isinstance(made, Slice):
            parameters.append(f"{name}: &{'mut ' if made.is_written else ''}[{made.of}]")
            given += [f"{name}.as_{'mut_' if made.is_written else ''}ptr()", f"{name}.len()"]
        else:
            parameters.append(f"{name}: {rust_type(made)}")
            given.append(name)
    name = call.name.removeprefix("zelvorm_")
    yield from rust_comment(words_of_call(call))
    if len(parameters) > 7:
        yield "#[allow(clippy::too_many_arguments)]"
    yield f"pub fn {name}("
    yield from (f"    {parameter}," for parameter in parameters)
    yield f") -> {rust_type(call.result)} {{"
    yield f"    unsafe {{ linked::{call.name}({', '.join(given)}) }}"
    yield "}"


RUST_IDENTITY = """\
#[derive(Clone, Copy, Debug, PartialEq)]
pub struct Identity {
    pub version: &'static str,
    pub kit: &'static str,
    pub sources: &'static str,
}"""

RUST_LINKED_IDENTITY = """\
    #[repr(C)]
    pub struct Identity {
        pub version: *const c_char,
        pub kit: *const c_char,
        pub sources: *const c_char,
    }"""

RUST_AS_THEY_LIE = """\
/// The bytes of commands, as they lie: a record is its 24 bytes, little-endian, with nothing between.
pub fn command_bytes(commands: &[Record]) -> &[u8] {
    const { assert!(cfg!(target_endian = "little")) };
    unsafe { std::slice::from_raw_parts(commands.as_ptr().cast(), size_of_val(commands)) }
}

/// The words of answers, as they lie.
pub fn answer_words(answers: &mut [Answer]) -> &mut [u32] {
    let words = size_of_val(answers) / size_of::<u32>();
    unsafe { std::slice::from_raw_parts_mut(answers.as_mut_ptr().cast(), words) }
}"""

RUST_ENGINE = f"""\
pub fn engine() -> Identity {{
    // The library's own texts: they end with a zero byte and are there as long as the program.
    let text = |at: *const c_char| unsafe {{ CStr::from_ptr(at) }}.to_str().unwrap_or("");
    let found = unsafe {{ linked::{ENGINE}() }};
    Identity {{ version: text(found.version), kit: text(found.kit), sources: text(found.sources) }}
}}"""


RUST_LIST_BYTES = """\
pub const fn list_bytes(file_bytes: usize) -> usize {
    8 + 9 * (file_bytes / 24 + 1)
}"""


def rust_code_words(codes):
    yield from rust_comment(CODE_WORDS_WORDS)
    yield from ["pub const fn code_words(code: u32) -> &'static str {", "    match code {"]
    yield from (f'        CODE_{code.name} => "{code.sentence}",' for code in codes)
    yield from [f'        _ => "{NO_CODE}",', "    }", "}"]


def rust_module(interface):
    yield from paragraphs(f"zelvorm.rs. {MADE}", "//! ")
    yield from ["//!", *paragraphs(ABOUT, "//! "), "//!"]
    yield from paragraphs("A slice is valid and what is written is lent to nobody else, so every call is safe.", "//! ")
    yield from ["#![allow(dead_code)]", "", "use std::ffi::{c_char, CStr};", "use std::mem::{size_of, size_of_val};"]
    yield from ["", *rust_comment(VERSION_WORDS), f'pub const VERSION: &str = "{interface.version}";']
    for words, constants in groups([*interface.constants, *interface.sizes]):
        yield from ["", *wrapped(words, "// ", "// ")]
        yield from (f"pub const {constant.name}: {constant.type} = {constant.value};" for constant in constants)
    yield from ["", *rust_comment(LIST_WORDS), *RUST_LIST_BYTES.splitlines()]
    yield from ["", *wrapped(KINDS_WORDS, "// ", "// ")]
    for kind in interface.kinds:
        yield from ["", *rust_comment(words_of_kind(kind)), f"pub const KIND_{kind.name.upper()}: u8 = {kind.number};"]
    yield from ["", "// The codes. Where several apply, the first one in the papers' order is given."]
    for code in interface.codes:
        yield from ["", *rust_comment(code.sentence), f"pub const CODE_{code.name}: u32 = {code.number};"]
    yield from ["", *rust_code_words(interface.codes)]
    for struct in interface.structs.values():
        yield from ["", *rust_struct(struct)]
    yield from ["", *rust_comment(IDENTITY_WORDS), *RUST_IDENTITY.splitlines()]
    yield from ["", "mod linked {", "    use super::*;", "", *RUST_LINKED_IDENTITY.splitlines(), "", '    unsafe extern "C" {']
    for call in interface.calls:
        yield from rust_linked(call)
    yield from [f"        pub fn {ENGINE}() -> Identity;", "    }", "}"]
    for call in interface.calls:
        yield from ["", *rust_call(call)]
    yield from ["", *rust_comment(ENGINE_WORDS), *RUST_ENGINE.splitlines()]
    yield from ["", *RUST_AS_THEY_LIE.splitlines()]


# =====================================================================================================================
# Python
# =====================================================================================================================

PYTHON_TYPES = {
    "bool": "c_bool",
    "u8": "c_uint8",
    "u16": "c_uint16",
    "u32": "c_uint32",
    "u64": "c_uint64",
    "usize": "c_size_t",
    "i64": "c_int64",
}

PYTHON_LOADING = f'''\
def list_bytes(file_bytes):
    """{LIST_WORDS}"""
    return 8 + 9 * (file_bytes // 24 + 1)


''' + '''\
# An area of so many words, or of so many bytes, zero at first; `lent` has what a call takes of it.
def words(count):
    return (ctypes.c_uint32 * count)()


def room(count):
    return (ctypes.c_uint8 * count)()


def lent(area):
    """The pointer and the number of elements of an area, or of bytes that are only read."""
    if isinstance(area, (bytes, bytearray)):
        area = (ctypes.c_uint8 * len(area)).from_buffer_copy(area)
    return ctypes.cast(area, ctypes.POINTER(area._type_)), len(area)


def load(path):
    """The shared library at a path, each call with its types."""
    library = ctypes.CDLL(str(path))
    for name, (result, *parameters) in CALLS.items():
        call = getattr(library, name)
        call.restype = result
        call.argtypes = parameters
    return library'''


def python_type(made):
    if isinstance(made, Array):
        return f"{python_type(made.of)} * {made.length}"
    return "ctypes." + PYTHON_TYPES[made] if isinstance(made, str) else made.name


def python_struct(struct):
    yield from wrapped(struct.words, "# ", "# ")
    yield f"class {struct.name}(ctypes.Structure):"
    yield "    _fields_ = ["
    yield from (f'        ("{field.name}", {python_type(field.type)}),' for field in struct.fields)
    yield "    ]"
    yield ""
    yield ""
    yield f"assert ctypes.sizeof({struct.name}) == {struct.size}"


def python_call(call):
    yield from wrapped(words_of_call(call), "    # ", "    # ")
    parameters = []
    for _, made in call.parameters:
        if isinstance(made, Slice):
            parameters += [f"ctypes.POINTER({python_type(made.of)})", "ctypes.c_size_t"]
        else:
            parameters.append(python_type(made))
    yield f'    "{call.name}": ('
    yield f"        {python_type(call.result)},"
    yield from (f"        {parameter}," for parameter in parameters)
    yield "    ),"


PYTHON_IDENTITY = """\
class Identity(ctypes.Structure):
    _fields_ = [
        ("version", ctypes.c_char_p),
        ("kit", ctypes.c_char_p),
        ("sources", ctypes.c_char_p),
    ]"""


def python_module(interface):
    yield from [f'"""zelvorm.py. {MADE}', "", *paragraphs(ABOUT, ""), '"""', "", "import ctypes"]
    yield from ["", *wrapped(VERSION_WORDS, "# ", "# "), f'VERSION = "{interface.version}"']
    for words, constants in groups([*interface.constants, *interface.sizes]):
        yield from ["", *wrapped(words, "# ", "# ")]
        yield from (f"{constant.name} = {constant.value}" for constant in constants)
    yield from ["", *wrapped(KINDS_WORDS, "# ", "# ")]
    for kind in interface.kinds:
        yield from ["", *wrapped(words_of_kind(kind), "# ", "# "), f"KIND_{kind.name.upper()} = {kind.number}"]
    yield from ["", "# The codes. Where several apply, the first one in the papers' order is given."]
    for code in interface.codes:
        yield from ["", *wrapped(code.sentence, "# ", "# "), f"CODE_{code.name} = {code.number}"]
    yield from ["", *wrapped(CODE_WORDS_WORDS, "# ", "# "), "CODE_WORDS = {"]
    yield from (f'    CODE_{code.name}: "{code.sentence}",' for code in interface.codes)
    yield "}"
    for struct in interface.structs.values():
        yield from ["", "", *python_struct(struct)]
    yield from ["", "", *wrapped(IDENTITY_WORDS, "# ", "# "), *PYTHON_IDENTITY.splitlines()]
    yield from ["", "", "# The result and the parameters of each call.", "CALLS = {"]
    for call in interface.calls:
        yield from python_call(call)
    yield from [*wrapped(ENGINE_WORDS, "    # ", "    # "), f'    "{ENGINE}": (Identity,),']
    yield from ["}", "", "", PYTHON_LOADING]


# =====================================================================================================================


def made_files(top=TOP):
    """The content of every file that is made, by its path."""
    interface = Interface(top)
    makers = {"zelvorm.h": c_header, "zelvorm.rs": rust_module, "zelvorm.py": python_module, "zelvorm.map": linker_map}
    files = {top / "include" / name: "\n".join(maker(interface)) + "\n" for name, maker in makers.items()}
    return files | {top / copy: files[top / "include" / name] for copy, name in COPIES.items()}


def main():
    files = made_files()
    if sys.argv[1:] == ["check"]:
        stale = [path for path, text in files.items() if not path.is_file() or path.read_text() != text]
        for path in stale:
            print(f"{path.relative_to(TOP)} is not what tools/make_header.py makes")
        sys.exit(1 if stale else 0)
    if sys.argv[1:]:
        sys.exit(__doc__)
    FOLDER.mkdir(exist_ok=True)
    for path, text in files.items():
        path.write_text(text)


if __name__ == "__main__":
    main()
