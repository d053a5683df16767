"""What a firm does: the library built (with a stand-in for the Rattle kit), installed, used from outside the repository, removed.

The programs and commands of docs/EMBED.md are run as they stand there, from an empty prefix with an empty HOME."""

import os
import re
import shutil
import subprocess
import sys
import tempfile
import unittest
from pathlib import Path

import make_header
from interface import TOP, Interface

VERSION = (TOP / "VERSION").read_text().strip()
MAJOR = VERSION.split(".")[0]
CALLS = sorted([*(call.name for call in Interface().calls), make_header.ENGINE])


def has(*tools):
    return all(shutil.which(tool) for tool in tools)


def library_is_current():
    return subprocess.run([TOP / "tools" / "build_library", "current"]).returncode == 0


def said(*words, **others):
    """What a command prints, its status having to be 0."""
    ran = subprocess.run([str(word) for word in words], capture_output=True, text=True, **others)
    if ran.returncode != 0:
        raise AssertionError(f"{words}: status {ran.returncode}\n{ran.stdout}{ran.stderr}")
    return ran.stdout


class InRoom(unittest.TestCase):
    def setUp(self):
        room = tempfile.TemporaryDirectory()
        self.addCleanup(room.cleanup)
        self.room = Path(room.name)


class Version(InRoom):
    def test_lines(self):
        version, kit, sources = said(TOP / "tools" / "version").splitlines()
        self.assertEqual(version, f"zelvorm {VERSION}")
        self.assertRegex(kit, "^kit .+$")
        self.assertRegex(sources, "^sources [0-9a-f]{64}$")

    def test_number(self):
        self.assertRegex(VERSION, r"^\d+\.\d+\.\d+$")


# Proves nothing: tells two crates, and leaves an archive with one call.
KIT = """#!/bin/sh
kit={kit}
proved() {{
    echo "crate $1: modules loaded=0 checked=1"
    echo "logic=proved functions=1"
}}
case $1 in
version) cat "$kit/version" ;;
lib)
    echo "$* ${{PWD##*/}}" >>"$kit/calls"
    proved one
    if [ -e "$kit/edit" ]; then rm "$kit/edit"; echo more >>../one/src/lib.rt; fi
    if [ -e "$kit/fails" ]; then echo "logic=not-proved"; exit 1; fi
    proved exports
    mkdir -p out
    echo 'int zelvorm_open(void) {{ return 0; }} int inner(void) {{ return 1; }}' >"$kit/stub.c"
    cc -fPIC -c "$kit/stub.c" -o "$kit/stub.o" && ar rc out/libexports.a "$kit/stub.o"
    ;;
esac
"""


@unittest.skipUnless(has("cc", "ar", "flock"), "no cc, ar or flock here")
class Built(InRoom):
    """A small repository with build_library, and the stand-in kit beside it."""

    def setUp(self):
        super().setUp()
        self.top, self.kit, self.bin = self.room / "a folder", self.room / "kit", self.room / "bin"
        for folder in (self.top / "tools", self.top / "crates" / "one" / "src", self.top / "crates" / "exports", self.kit, self.bin):
            folder.mkdir(parents=True)
        for name in ("build_library", "proving.sh", "version"):
            shutil.copy(TOP / "tools" / name, self.top / "tools")
        shutil.copytree(TOP / "include", self.top / "include")
        shutil.copy(TOP / "VERSION", self.top)
        (self.top / "crates.txt").write_text("one:\ntwo: one\nexports staticlib: two\nother: one\n")
        self.source = self.top / "crates" / "one" / "src" / "lib.rt"
        self.source.write_text("one\n")
        (self.kit / "version").write_text("kit 1\nmore\n")
        (self.bin / "rt").write_text(KIT.format(kit=self.kit))
        (self.bin / "rt").chmod(0o755)
        self.library = self.top / "target" / "library"

    def start(self, *words):
        return subprocess.Popen(
            [self.top / "tools" / "build_library", *words],
            env={"PATH": f"{self.bin}:{os.environ['PATH']}"},
            stdout=subprocess.PIPE,
            stderr=subprocess.PIPE,
            text=True,
        )

    def build(self, *words):
        started = self.start(*words)
        output, errors = started.communicate()
        return started.returncode, output, errors

    def is_current(self):
        return self.build("current")[0] == 0

    def calls(self):
        path = self.kit / "calls"
        return len(path.read_text().splitlines()) if path.exists() else 0

    def test_tells_what_it_proves(self):
        status, output, errors = self.build()
        self.assertEqual(status, 0, errors)
        self.assertIn("proving and building the library, 3 crates", errors)
        self.assertIn("1 of 3: one proved", errors)
        self.assertNotIn("two proved", errors)
        self.assertIn("3 of 3: exports proved", errors)
        self.assertIn("target/library/libzelvorm.so", output)
        self.assertTrue(self.is_current())
        self.assertEqual(self.build()[2], "")
        self.assertEqual(self.calls(), 1)

    def test_shows_the_calls_alone(self):
        self.build()
        shown = said("nm", "-D", "--defined-only", self.library / "libzelvorm.so")
        self.assertNotIn("inner", shown)
        self.assertIn("zelvorm_open", shown)
        self.assertIn(f"libzelvorm.so.{MAJOR}]", said("readelf", "-d", self.library / "libzelvorm.so"))

    # By kit, sources and hashes.
    def test_what_makes_it_stale(self):
        def another_kit():
            (self.kit / "version").write_text("kit 2\n")

        def longer(path):
            path.write_bytes(path.read_bytes() + b"\n")

        changes = {
            "a source": lambda: self.source.write_text("another\n"),
            "a new source": lambda: (self.source.parent / "more.rt").write_text(""),
            "the crates": lambda: (self.top / "crates.txt").write_text("one:\ntwo: one\nexports staticlib: two\n"),
            "the version": lambda: (self.top / "VERSION").write_text("1.0.9\n"),
            "the header": lambda: longer(self.top / "include" / "zelvorm.h"),
            "the kit": another_kit,
            "the library": lambda: longer(self.library / "libzelvorm.so"),
            "no archive": lambda: (self.library / "libzelvorm.a").unlink(),
            "no stamp": lambda: (self.library / "stamp").unlink(),
        }
        for name, change in changes.items():
            self.build()
            self.assertTrue(self.is_current(), name)
            change()
            self.assertFalse(self.is_current(), name)
        self.assertEqual(self.build()[0], 0)
        self.assertEqual(self.calls(), len(changes) + 1)

    def test_without_the_kit_it_is_believed(self):
        self.build()
        (self.bin / "rt").unlink()
        bare = self.room / "bare"
        bare.mkdir()
        for tool in "cat cut dirname find head sed sh sha256sum sort".split():
            (bare / tool).symlink_to(shutil.which(tool))
        ran = subprocess.run([self.top / "tools" / "build_library", "current"], env={"PATH": str(bare)})
        self.assertEqual(ran.returncode, 0)

    def test_a_source_changed_meanwhile(self):
        (self.kit / "edit").touch()
        self.assertEqual(self.build()[0], 0)
        self.assertEqual(self.calls(), 2)
        self.assertTrue(self.is_current())

    def test_not_proved(self):
        self.build()
        self.source.write_text("wrong\n")
        (self.kit / "fails").touch()
        status, _, errors = self.build()
        self.assertEqual(status, 1)
        self.assertIn("logic=not-proved", errors)
        self.assertFalse(self.is_current())

    def test_takes_the_lock_of_run(self):
        self.assertIn("take_lock ", (TOP / "run").read_text())
        holder = subprocess.Popen(["flock", self.top / ".run.lock", "cat"], stdin=subprocess.PIPE, stdout=subprocess.DEVNULL)
        while subprocess.run(["flock", "-n", self.top / ".run.lock", "true"]).returncode == 0:
            pass
        started = self.start()
        self.assertIn("waiting for another run", started.stderr.readline())
        self.assertEqual(self.calls(), 0)
        holder.communicate()
        started.communicate()
        self.assertEqual((started.returncode, self.calls()), (0, 1))

    def test_usage(self):
        self.assertEqual(self.build("--help")[0], 0)
        self.assertEqual(self.build("nonsense")[0], 2)


def blocks(path):
    """The fenced blocks of a document, each with its language."""
    return re.findall(r"^```(\w+)\n(.*?)^```$", path.read_text(), re.MULTILINE | re.DOTALL)


# A program begins with a comment that has its name first.
def name_of(program):
    return re.match(r"\W*([\w.]+)", program)[1]


@unittest.skipUnless(library_is_current(), "target/library is not built for these sources: tools/build_library builds it")
class Installed(InRoom):
    def setUp(self):
        super().setUp()
        self.prefix, self.home, self.work = self.room / "prefix", self.room / "home", self.room / "work"
        for folder in (self.prefix, self.home, self.work):
            folder.mkdir()

    def install(self, *words, prefix=None):
        command = [TOP / "tools" / "install_library", *words, prefix or self.prefix]
        ran = subprocess.run(command, capture_output=True, text=True, cwd=self.work)
        return ran.returncode, ran.stderr

    def files(self):
        return sorted(str(path.relative_to(self.prefix)) for path in self.prefix.rglob("*") if not path.is_dir())

    # A HOME with nothing in it, and of the caller's variables the path alone.
    def environment(self):
        path = [str(Path(sys.executable).parent), os.environ["PATH"]]
        if has("rustc"):
            path.insert(0, said("rustc", "--print", "sysroot").strip() + "/bin")
        return {
            "PATH": ":".join(path),
            "HOME": str(self.home),
            "PKG_CONFIG_PATH": str(self.prefix / "lib" / "pkgconfig"),
            "CMAKE_PREFIX_PATH": str(self.prefix),
            "PREFIX": str(self.prefix),
        }

    def test_there_and_gone(self):
        self.assertEqual(self.install()[0], 0)
        self.assertEqual(os.readlink(self.prefix / "lib" / "libzelvorm.so"), f"libzelvorm.so.{MAJOR}")
        self.assertEqual(os.readlink(self.prefix / "lib" / f"libzelvorm.so.{MAJOR}"), f"libzelvorm.so.{VERSION}")
        for name in ("include/zelvorm.h", "lib/libzelvorm.a", "lib/pkgconfig/zelvorm.pc", "lib/cmake/zelvorm/zelvorm-config.cmake"):
            self.assertIn(name, self.files())
        self.assertEqual([path for path in self.files() if ".zelvorm." in path], [])
        self.assertEqual(self.install("--remove")[0], 0)
        self.assertEqual(list(self.prefix.iterdir()), [])
        status, errors = self.install("--remove")
        self.assertEqual(status, 1)
        self.assertIn("nothing is installed", errors)

    def test_what_was_there_stays(self):
        (self.prefix / "lib").mkdir()
        (self.prefix / "lib" / "libother.so").write_text("other")
        self.install()
        self.install()
        (self.prefix / "share" / "other").write_text("other")
        self.install("--remove")
        self.assertEqual(self.files(), ["lib/libother.so", "share/other"])
        self.assertFalse((self.prefix / "include").exists())

    def test_an_earlier_one_is_replaced(self):
        self.install()
        listed = self.prefix / "share" / "zelvorm" / "installed"
        (self.prefix / "lib" / "libzelvorm.so.0.9.0").write_text("old")
        listed.write_text(listed.read_text() + "lib/libzelvorm.so.0.9.0\n")
        before = self.files()
        self.assertEqual(self.install()[0], 0)
        self.assertEqual(self.files(), [name for name in before if not name.endswith("0.9.0")])

    def test_a_file_of_someone_else_is_left_alone(self):
        (self.prefix / "include").mkdir()
        (self.prefix / "include" / "zelvorm.h").write_text("mine")
        status, errors = self.install()
        self.assertEqual(status, 1)
        self.assertIn("include/zelvorm.h is there and was not installed by this command", errors)
        self.assertEqual(self.files(), ["include/zelvorm.h"])
        self.assertEqual((self.prefix / "include" / "zelvorm.h").read_text(), "mine")

    # A list that names something outside the prefix removes nothing there.
    def test_a_damaged_list(self):
        self.install()
        outside = self.room / "outside"
        outside.touch()
        (self.prefix / "share" / "zelvorm" / "installed").write_text("../outside\n")
        self.assertEqual(self.install("--remove")[0], 1)
        self.assertTrue(outside.exists())

    def test_a_prefix_that_is_not_fit(self):
        path = self.room / "file"
        path.touch()
        status, errors = self.install(prefix=path)
        self.assertEqual(status, 1)
        self.assertIn("cannot be written to", errors)

    def test_usage(self):
        for words in ((), ("--nonsense", "x"), ("a", "b"), ("",)):
            self.assertEqual(subprocess.run([TOP / "tools" / "install_library", *words], capture_output=True).returncode, 2)
        self.assertIn("PREFIX", said(TOP / "tools" / "install_library", "--help"))

    @unittest.skipUnless(has("nm"), "no nm here")
    def test_the_calls_and_nothing_else(self):
        self.install()
        library = self.prefix / "lib" / f"libzelvorm.so.{MAJOR}"
        lines = said("nm", "-D", "--defined-only", library).splitlines()
        names = sorted(line.split()[2].split("@")[0] for line in lines if line.split()[1] != "A")
        self.assertEqual(names, CALLS)

    @unittest.skipUnless(has("cc", "c++", "cmake", "make", "pkg-config", "cargo"), "not every compiler of the document is here")
    def test_the_document_s_programs(self):
        self.install()
        printed = None
        for language, text in blocks(TOP / "docs" / "EMBED.md"):
            if language == "text":
                self.assertEqual(printed, text)
            elif language == "sh":
                if "install_library" not in text:
                    printed = said("sh", "-eu", "-c", self.remembered + text, cwd=self.work, env=self.environment())
                    self.remembered += "".join(f"{line}\n" for line in text.splitlines() if re.match(r"\w+=", line))
            else:
                (self.work / name_of(text)).write_text(text)

    # Variables that a block sets are there in the next one.
    remembered = ""

    @unittest.skipUnless(has("cc", "pkg-config"), "no cc or pkg-config here")
    def test_identity(self):
        self.install()
        program = self.work / "which.c"
        program.write_text(
            '#include <stdio.h>\n#include <zelvorm.h>\nint main(void) {\n'
            '    zelvorm_identity e = zelvorm_engine();\n'
            '    return printf("zelvorm %s\\nkit %s\\nsources %s\\n", e.version, e.kit, e.sources) < 0;\n}\n'
        )
        build = 'cc -std=c11 -Wall -Wextra -Wpedantic -Werror which.c $(pkg-config --cflags zelvorm) "$PREFIX"/lib/libzelvorm.a -o which && ./which'
        told = said("sh", "-c", build, cwd=self.work, env=self.environment())
        self.assertEqual(told, said(TOP / "tools" / "version"))

    @unittest.skipUnless(has("rustc"), "no rustc here")
    def test_rust(self):
        self.install()
        for edition in ("2021", "2024"):
            (self.work / "which.rs").write_text(
                f'#[path = "{self.prefix}/share/zelvorm/zelvorm.rs"]\nmod zelvorm;\n'
                'fn main() {\n    println!("{} {}", zelvorm::engine().version, zelvorm::open(&[]).code);\n}\n'
            )
            build = f'rustc -D warnings --edition {edition} -L native="$PREFIX/lib" -l static=zelvorm which.rs && ./which'
            self.assertEqual(said("sh", "-c", build, cwd=self.work, env=self.environment()), f"{VERSION} 20\n")

    def test_python(self):
        self.install()
        program = "import os, zelvorm\nlibrary = zelvorm.load(os.environ['PREFIX'] + '/lib/libzelvorm.so')\n"
        program += "print(library.zelvorm_engine().version.decode(), library.zelvorm_open(*zelvorm.lent(b'')).code)\n"
        environment = self.environment() | {"PYTHONPATH": str(self.prefix / "share" / "zelvorm")}
        self.assertEqual(said(sys.executable, "-c", program, cwd=self.work, env=environment), f"{VERSION} 20\n")
        self.install("--remove")
        self.assertEqual(list(self.prefix.iterdir()), [])


if __name__ == "__main__":
    unittest.main()
