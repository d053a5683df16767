"""Calls on different states at the same time: 8 threads and a million commands between them, as one thread gives; no data that is written;
no word from helgrind."""

import re
import shutil
import subprocess
import tempfile
import unittest
from pathlib import Path

from interface import TOP

ARCHIVE = TOP / "target" / "library" / "libzelvorm.a"
DAYS = sorted((TOP / "samples").glob("*.day"))


def library_is_current():
    return subprocess.run([TOP / "tools" / "build_library", "current"]).returncode == 0


def ran(*words):
    return subprocess.run([str(word) for word in words], capture_output=True, text=True)


@unittest.skipUnless(library_is_current(), "target/library is not built for these sources: tools/build_library builds it")
class Threads(unittest.TestCase):
    def setUp(self):
        room = tempfile.TemporaryDirectory()
        self.addCleanup(room.cleanup)
        self.program = Path(room.name) / "threads"

    def build(self, *options):
        words = ("-std=c11", "-Wall", "-Wextra", "-Wpedantic", "-Werror", "-I", TOP / "include", *options)
        made = ran("cc", *words, TOP / "tools" / "threads" / "threads.c", ARCHIVE, "-pthread", "-o", self.program)
        self.assertEqual((made.returncode, made.stderr), (0, ""))

    @unittest.skipUnless(shutil.which("cc"), "no cc here")
    def test_a_million_commands(self):
        self.build("-O2")
        played = ran(self.program, 8, 1_000_000, *DAYS)
        self.assertRegex(played.stdout, r"^8 threads, 1000\d\d\d commands, 0 differ\n$")
        self.assertEqual(played.returncode, 0)

    @unittest.skipUnless(shutil.which("cc") and shutil.which("valgrind"), "no cc or valgrind here")
    def test_helgrind_is_quiet(self):
        self.build("-O1", "-g")
        played = ran("valgrind", "--tool=helgrind", "--error-exitcode=9", self.program, 8, 4_000, *DAYS[:8])
        self.assertEqual(played.returncode, 0, played.stderr)
        self.assertIn("ERROR SUMMARY: 0 errors", played.stderr)

    # In nm's words: code (T, t), data that is only read (R, r), and what the C library has (U).
    @unittest.skipUnless(shutil.which("nm"), "no nm here")
    def test_no_data_is_written(self):
        listed = ran("nm", "--no-demangle", ARCHIVE).stdout
        kinds = dict(re.findall(r"^(?:[0-9a-f]{16}| {16}) (\w) (.+)$", listed, re.MULTILINE))
        self.assertGreater(len(kinds), 0)
        self.assertEqual(set(kinds) - set("TtRrU"), set(), listed)
        used = set(re.findall(r"^ {16} U (\S+)$", listed, re.MULTILINE))
        self.assertEqual(used - {"memcpy", "memmove", "memset"}, set())

    # Sections too: what has no name would not be in nm's list.
    @unittest.skipUnless(shutil.which("size"), "no size here")
    def test_no_section_is_written(self):
        for line in ran("size", ARCHIVE).stdout.splitlines()[1:]:
            _, data, bss, *_ = line.split()
            self.assertEqual((data, bss), ("0", "0"), line)


if __name__ == "__main__":
    unittest.main()
