"""The interface read from the Rattle source, what is made of it for C, Rust and Python, and the examples over the built library."""

import shutil
import subprocess
import sys
import tempfile
import unittest
from pathlib import Path

import interface
import make_header

sys.path[:0] = [str(interface.TOP / "tools" / "model"), str(interface.TOP / "include")]

import dayfile
import mending
import saved
import statements
import zelvorm
from interface import TOP, Array, Interface, Slice, Unknown

LIBRARY = TOP / "target" / "library"
EXAMPLES = TOP / "examples"
DAY = TOP / "samples" / "paper-example.day"
WANTED = {name: TOP / "samples" / "paper-example.out" for name in ("day", "lines")} | {
    name: EXAMPLES / f"{name}.out" for name in ("bundle", "asking", "statement", "tomorrow")
}


def needs(tool):
    return unittest.skipUnless(shutil.which(tool), f"no {tool} here")


def library_is_current():
    return subprocess.run([TOP / "tools" / "build_library", "current"]).returncode == 0


def compiled(*words):
    return subprocess.run([str(word) for word in words], capture_output=True, text=True)


class Made(unittest.TestCase):
    def test_files_are_what_the_tool_makes(self):
        for path, text in make_header.made_files().items():
            self.assertEqual(path.read_text(), text, f"{path.name}: run tools/make_header.py")

    @needs("cc")
    def test_header_is_c(self):
        checked = compiled("cc", "-std=c11", "-Wall", "-Wextra", "-Wpedantic", "-Werror", "-fsyntax-only", "-x", "c", TOP / "include/zelvorm.h")
        self.assertEqual((checked.returncode, checked.stderr), (0, ""))

    @needs("c++")
    def test_header_is_cpp(self):
        checked = compiled("c++", "-std=c++14", "-Wall", "-Wextra", "-Werror", "-fsyntax-only", "-x", "c++", TOP / "include/zelvorm.h")
        self.assertEqual((checked.returncode, checked.stderr), (0, ""))

    def test_python_knows_every_call(self):
        self.assertEqual(list(zelvorm.CALLS), [*(call.name for call in Interface().calls), make_header.ENGINE])


class Source(unittest.TestCase):
    def setUp(self):
        self.found = Interface()

    def test_calls(self):
        names = [call.name for call in self.found.calls]
        self.assertEqual(len(names), len(set(names)))
        self.assertTrue(all(name.startswith("zelvorm_") for name in names))
        execute = {call.name: call for call in self.found.calls}["zelvorm_execute"]
        self.assertEqual([name for name, _ in execute.parameters], ["state", "buys", "sells", "trades", "command"])
        self.assertEqual(execute.parameters[1][1], Slice("u32", True))
        self.assertEqual(execute.result.name, "Response")
        self.assertTrue(all(call.words for call in self.found.calls))

    def test_no_name_is_a_call_and_a_record(self):
        calls = {call.name for call in self.found.calls}
        self.assertEqual(calls & {make_header.c_type(struct) for struct in self.found.structs.values()}, set())

    # A command's record is its 24 bytes.
    def test_record(self):
        record = self.found.structs["Record"]
        self.assertEqual((record.size, [field.offset for field in record.fields]), (24, [0, 1, 2, 3, 4, 8, 12, 16]))

    def test_codes_are_readme_s(self):
        self.assertEqual([code.number for code in self.found.codes][:23], list(range(23)))
        self.assertTrue(all(code.sentence for code in self.found.codes))

    def test_kinds(self):
        numbers = {kind.name: kind.number for kind in self.found.kinds}
        self.assertEqual((numbers["deposit"], numbers["change"]), (1, 9))

    # The fields that the model's table has for each kind.
    def test_fields_of_a_kind(self):
        names = {"state": "phase", "order_number": "number"}
        told = {names.get(kind, kind): {names.get(field, field) for field in used} for kind, used in dayfile.FIELDS_USED.items()}
        self.assertEqual({kind.name: set(kind.uses) for kind in self.found.kinds}, told)

    # What the model writes at most.
    def test_sizes(self):
        count, held = dayfile.COUNT.size, 32 * 4 * saved.HOLDING.size
        sizes = {size.name: size.value for size in self.found.sizes}
        day = 3 * count + 4 * dayfile.CONTRACT.size + 32 * dayfile.ACCOUNT.size + 2000 * dayfile.COMMAND.size
        state = 4 * count + 4 * saved.CONTRACT.size + 32 * saved.ACCOUNT.size + held + saved.SETTLEMENTS.size
        legs, clients = 2 * 1024 * statements.TRADE.size, 16 * (4 * statements.HOLDING.size + statements.PROFIT.size)
        self.assertEqual(sizes["DAY_FILE_BYTES"], day)
        self.assertEqual(sizes["SAVED_BYTES"], state)
        self.assertEqual(sizes["STATEMENT_BYTES"], 3 * count + legs + clients)
        self.assertEqual((sizes["MAX_BUNDLE"], sizes["MAX_CLIENTS"]), (100, statements.MOST_CLIENTS))

    # Every byte behind the head is a command that is dropped; with a head as short as may be the bound is nearly met.
    def test_list_of_a_mended_file(self):
        head = dayfile.COUNT.pack(1) + dayfile.CONTRACT.pack(10, 1, 100, 10, 1000, 1000, 0) + dayfile.COUNT.pack(1) + dayfile.ACCOUNT.pack(5)
        for length in (0, 1, 23, 24, 25, 24 * 100, 24 * 100 + 7):
            file = head + dayfile.COUNT.pack(0) + b"\xff" * length
            mended = mending.mend(file, len(file), zelvorm.list_bytes(len(file)))
            self.assertEqual(mended.code, 0)
            self.assertLessEqual(zelvorm.list_bytes(len(file)) - len(mended.list), 3 * mending.DROPPED.size)

    def test_padding(self):
        self.assertEqual(make_header.padding(self.found.structs["State"]), [(2788, 2791)])
        self.assertEqual(make_header.padding(self.found.structs["Receipt"]), [(4, 7)])
        self.assertEqual(make_header.padding(self.found.structs["Record"]), [])

    def test_layout(self):
        with crates(exports=HEAD + "#[repr(C)]\npub struct Small {\n    pub a: u8,\n    pub b: u64,\n    pub c: [u16; 3],\n}\n") as top:
            small = Interface.struct(Bare(top), "Small", interface.source_of(top, "exports"))
        self.assertEqual((small.size, small.alignment), (24, 8))
        self.assertEqual([(field.name, field.offset) for field in small.fields], [("a", 0), ("b", 8), ("c", 16)])
        self.assertEqual(small.fields[2].type, Array("u16", 3))

    def test_unknown_forms_are_refused(self):
        for fields in ("pub a: f64", "pub a: &'static [u8; 2]", "pub a: Other"):
            with crates(exports=HEAD + f"#[repr(C)]\npub struct Small {{\n    {fields},\n}}\n") as top:
                with self.assertRaises(Unknown):
                    Interface.struct(Bare(top), "Small", interface.source_of(top, "exports"))
        # a record without #[repr(C)]
        with crates(exports="pub struct Small {\n    pub a: u8,\n}\n") as top:
            with self.assertRaises(Unknown):
                Interface.struct(Bare(top), "Small", interface.source_of(top, "exports"))


class CodeWords(unittest.TestCase):
    """Each language has the words of docs/CODES.md for each code, and the same sizes."""

    def setUp(self):
        folder = tempfile.TemporaryDirectory()
        self.addCleanup(folder.cleanup)
        self.room = Path(folder.name)
        codes = {code.number: code.sentence for code in Interface().codes}
        self.wanted = "".join(f"{codes.get(number, make_header.NO_CODE)}\n" for number in range(32)) + "1428 9008\n"

    def assert_tells(self, made):
        self.assertEqual((made.returncode, made.stderr), (0, ""))
        self.assertEqual(compiled(self.room / "told").stdout, self.wanted)

    C = """#include <stdio.h>
#include "zelvorm.h"
int main(void) {
    for (uint32_t code = 0; code < 32; code++) puts(zelvorm_code_words(code));
    printf("%u %zu\\n", ZELVORM_SAVED_BYTES, (size_t)ZELVORM_LIST_BYTES((size_t)24 * 999));
    return 0;
}
"""

    @needs("cc")
    def test_c(self):
        (self.room / "told.c").write_text(self.C)
        options = ("-std=c11", "-Wall", "-Wextra", "-Wpedantic", "-Werror", "-I", TOP / "include")
        self.assert_tells(compiled("cc", *options, self.room / "told.c", "-o", self.room / "told"))

    @needs("rustc")
    def test_rust(self):
        (self.room / "told.rs").write_text(
            f'#[path = "{TOP}/include/zelvorm.rs"]\nmod zelvorm;\nfn main() {{\n'
            '    (0..32).for_each(|code| println!("{}", zelvorm::code_words(code)));\n'
            '    println!("{} {}", zelvorm::SAVED_BYTES, zelvorm::list_bytes(24 * 999));\n}\n'
        )
        self.assert_tells(compiled("rustc", "--edition", "2021", "-D", "warnings", self.room / "told.rs", "-o", self.room / "told"))

    def test_python(self):
        told = "".join(f"{zelvorm.CODE_WORDS.get(number, make_header.NO_CODE)}\n" for number in range(32))
        self.assertEqual(told + f"{zelvorm.SAVED_BYTES} {zelvorm.list_bytes(24 * 999)}\n", self.wanted)


HEAD = "// A file.\n\n"


class Bare:
    """What an interface needs to read one record."""

    def __init__(self, top):
        self.top, self.structs, self.constants = top, {}, []

    type = Interface.type
    struct = Interface.struct


class crates:
    """A folder with the source of some crates."""

    def __init__(self, **sources):
        self.sources = sources

    def __enter__(self):
        self.folder = tempfile.TemporaryDirectory()
        top = Path(self.folder.name)
        for name, text in self.sources.items():
            (top / "crates" / name / "src").mkdir(parents=True)
            (top / "crates" / name / "src" / "lib.rt").write_text(text)
        return top

    def __exit__(self, *_):
        self.folder.cleanup()


@unittest.skipUnless(library_is_current(), "target/library is not built for these sources: tools/build_library builds it")
class Examples(unittest.TestCase):
    """Each example in each language prints what stands beside it."""

    def setUp(self):
        folder = tempfile.TemporaryDirectory()
        self.addCleanup(folder.cleanup)
        self.room = Path(folder.name)

    def assert_prints(self, name, *words):
        ran = compiled(*words)
        self.assertEqual((ran.returncode, ran.stderr), (0, ""), words)
        self.assertEqual(ran.stdout, WANTED[name].read_text(), words)

    @needs("cc")
    def test_c(self):
        warnings = ("-Wall", "-Wextra", "-Wpedantic", "-Werror")
        for name in WANTED:
            program = self.room / name
            made = compiled("cc", "-std=c11", *warnings, "-I", TOP / "include", EXAMPLES / "c" / f"{name}.c", LIBRARY / "libzelvorm.a", "-o", program)
            self.assertEqual((made.returncode, made.stderr), (0, ""))
            self.assert_prints(name, program, DAY)

    @needs("cargo")
    def test_rust(self):
        folder = TOP / "target" / "cargo"
        quietly = ("--offline", "--quiet", "--target-dir", folder)
        made = compiled("cargo", "build", *quietly, "--manifest-path", EXAMPLES / "rust" / "Cargo.toml")
        self.assertEqual((made.returncode, made.stderr), (0, ""))
        for name in WANTED:
            self.assert_prints(name, folder / "debug" / name, DAY)

    def test_python(self):
        for name in WANTED:
            self.assert_prints(name, sys.executable, EXAMPLES / "python" / f"{name}.py", DAY)

    # A day file of another day, a broken one among them, prints what the runner prints for it.
    @needs("cc")
    def test_days(self):
        for name in ("day", "lines"):
            program = self.room / name
            compiled("cc", "-std=c11", "-I", TOP / "include", EXAMPLES / "c" / f"{name}.c", LIBRARY / "libzelvorm.a", "-o", program)
            for day in sorted((TOP / "samples").glob("*.day")):
                ran = compiled(program, day)
                self.assertEqual(ran.stdout, day.with_suffix(".out").read_text(), f"{name}: {day.name}")
            for day in sorted((TOP / "samples" / "broken").glob("*.day")):
                self.assertEqual(compiled(program, day).stdout, "X 20\n", f"{name}: {day.name}")


if __name__ == "__main__":
    unittest.main()
