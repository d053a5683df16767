#!/usr/bin/env python3
"""Compares a wrapper of the library with the model, as compare_library.py compares the library itself.

    tools/model/compare_wrapper.py rust --cases 2000 --seed 1
    tools/model/compare_wrapper.py python --cases 2000 --seed 1

The cases are those of compare_library.py. A program in the wrapper's language (`through/`) makes each call through the wrapper and gives
back what it tells; its iterators are held to what lies in the areas. A wrapper owns its state, which is well formed: of a state that is
not, it is only seen that the wrapper refuses it. A wrapper lends enough room for what is written, so no area is too short for that.
Stops at the first difference, with status 1.
"""

import argparse
import ctypes
import os
import struct
import subprocess
import sys
from pathlib import Path

import compare_library
import dayfile
import daylines
import library
import memory
import model
from compare_library import Comparison, hold, hold_bytes
from library import zelvorm

TOP = Path(__file__).resolve().parents[2]
THROUGH = Path(__file__).resolve().parent / "through"
AREAS = ("buys", "sells", "trades")


class Wrapper:
    """The calls made by a program at the other end of two pipes, in place of `library.Library`."""

    def __init__(self, command):
        self.program = subprocess.Popen([str(word) for word in command], stdin=subprocess.PIPE, stdout=subprocess.PIPE)

    def close(self):
        self.program.stdin.close()
        self.program.stdout.close()
        return self.program.wait()

    def asked(self, *parts):
        """What the program answers, part by part."""
        request = [struct.pack("<I", len(parts))]
        for part in parts:
            request += [struct.pack("<I", len(part)), part]
        self.program.stdin.write(b"".join(request))
        self.program.stdin.flush()
        return [self.received(self.number()) for _ in range(self.number())]

    def received(self, length):
        found = self.program.stdout.read(length)
        if len(found) != length:
            raise compare_library.Differs(f"the program that calls the wrapper ended, status {self.program.wait()}")
        return found

    def number(self):
        return struct.unpack("<I", self.received(4))[0]

    def call(self, name, rng, *arguments):
        """As `Library.call`."""
        given = {argument[0]: argument[1] for argument in arguments if isinstance(argument, tuple)}
        if name in ("zelvorm_side", "zelvorm_execute"):
            given["last"] = arguments[-2:]
        found = self.asked(name.encode(), *map(part_of, arguments))
        return getattr(self, name.removeprefix("zelvorm_"))(given, *found)

    # Each makes the library's record of what the program tells, and gives the areas afterwards.

    def well_formed(self, given, code):
        return code == number(0), {}

    def execute(self, given, answer, report, sent, state, *areas):
        hold("sent as a command", is_command(given["last"][1]), sent == b"\1")
        made = zelvorm.Response(record(zelvorm.Answer, answer), record(zelvorm.State, state), record(zelvorm.Report, report))
        return made, dict(zip(AREAS, areas))

    def run(self, given, played, answers, state, *areas):
        made = zelvorm.Ran(int.from_bytes(played, "little"), record(zelvorm.State, state))
        return made, dict(zip(AREAS, areas)) | {"commands": given["commands"], "answers": answers}

    def bundle(self, given, code, answers, state, *areas):
        made = zelvorm.Receipt(int.from_bytes(code, "little"), record(zelvorm.State, state))
        return made, dict(zip(AREAS, areas)) | {"commands": given["commands"], "answers": answers}

    def gettable(self, given, code, lots, read, state, *areas):
        return zelvorm.Reading(*(int.from_bytes(part, "little") for part in (code, lots, read))), dict(zip(AREAS, areas))

    # The orders told have to stand in their area.
    def side(self, given, orders, state, *areas):
        sell, contract = given["last"]
        first = zelvorm.QUEUE_STRIDE * (contract - 1) if orders else 0
        hold("the orders", areas[sell][4 * first :][: len(orders)], orders)
        return zelvorm.Part(first, len(orders) // 4), dict(zip(AREAS, areas))

    def client_statement(self, given, code, told, state, *areas):
        made = zelvorm.Statement(int.from_bytes(code, "little"), len(told))
        unchanged = {name: given[name] for name in ("starts", "postings")}
        return made, dict(zip(AREAS, areas)) | unchanged | {"out": over(told, given["out"])}

    def write(self, given, code, file, state, *areas):
        made = zelvorm.Saved(int.from_bytes(code, "little"), len(file))
        return made, dict(zip(AREAS, areas)) | {"out": over(file, given["out"])}

    def read(self, given, code, state):
        return zelvorm.Loaded(int.from_bytes(code, "little"), record(zelvorm.State, state)), {"file": given["file"]}

    def open(self, given, code, commands, state):
        file = given["file"]
        if code == number(0):
            hold("the commands", file[len(file) - len(commands) :], commands)
        counts = (len(file) - len(commands), len(commands) // 24) if code == number(0) else (0, 0)
        return zelvorm.Opened(int.from_bytes(code, "little"), *counts, record(zelvorm.State, state)), {"file": file}

    def mend(self, given, code, file, listed):
        made = zelvorm.Mended(int.from_bytes(code, "little"), len(file), len(listed))
        return made, {"file": given["file"], "out": over(file, given["out"]), "list": over(listed, given["list"])}

    def lines(self, given, lines):
        return lines, {}


def is_command(record):
    """Whether a record is one that a command has: not malformed, and no price beside market or best."""
    command = dayfile.Command(*library.values(record))
    if model.is_malformed(command):
        return False
    is_priced = dayfile.KINDS[command.kind] != "insert" or dayfile.insert_flag_values(command.flags)[2] == 0
    return is_priced or command.price == 0


def number(value):
    return struct.pack("<I", value)


def record(form, content):
    return form.from_buffer_copy(content)


# What was written, at the front of an area.
def over(written, area):
    return written + area[len(written) :]


def part_of(argument):
    if isinstance(argument, tuple):
        return argument[1]
    if isinstance(argument, ctypes.Structure):
        return bytes(argument)
    return bytes([argument]) if isinstance(argument, bool) else struct.pack("<Q", argument)


class WrapperComparison(Comparison):
    """One case on both sides, the library's through its wrapper."""

    # A wrapper takes no state that is not well formed. `open`, `mend`, `read` and the lines of a day file take none at all.
    def run(self):
        if self.case.call in ("open", "day file", "mending", "read", "lines"):
            return super().run()
        if self.case.call == "side" and len(self.case.arguments) > 2:
            return "a state of its own"
        if not memory.well_formed(self.after):
            result, _ = self.call("zelvorm_well_formed")
            hold("well formed", False, result)
            return "not well formed"
        return super().run()

    # All three areas belong to an exchange.
    def call(self, name, *arguments, areas=AREAS, first=()):
        return super().call(name, *arguments, areas=AREAS, first=first)

    def mending(self, file, out_length, list_length):
        return super().mending(file, len(file), zelvorm.list_bytes(len(file)))

    def statement(self, account, clients, starts, postings, length):
        return super().statement(account, clients, starts, postings, zelvorm.STATEMENT_BYTES)

    def write(self, length):
        return super().write(zelvorm.SAVED_BYTES)

    # All parts in one call, from the file's own opening on.
    def lines(self, file, place, length):
        found, _ = self.linked.call("zelvorm_lines", self.rng, ("file", file, "bytes"))
        hold_bytes("the lines", model.run(file), found)
        return "broken" if found == daylines.BROKEN else "lines"

    # Into an exchange that is new: all zero, with room for everything.
    def read(self, file):
        self.state = compare_library.opened(b"")[3]
        self.state.orders = {side: memory.Area(256) for side in self.state.orders}
        self.state.trades = memory.Area(1024)
        self.before = library.areas_of(self.state, 0)
        self.after = self.state.copy()
        return super().read(file)


def compared(command, cases):
    """What was reached, the first difference or None, and the status of the program that calls the wrapper."""
    wrapper = Wrapper(command)
    reached, difference = compare_library.compare(command, cases, lambda number: None, lambda path: wrapper, WrapperComparison)
    return reached, difference, wrapper.close()


def programs(folder):
    """The command that makes calls through each wrapper; the Rust one is built first, into a folder."""
    environment = {**os.environ, "CARGO_TARGET_DIR": str(folder)}

    def rust():
        build = ["cargo", "build", "--offline", "--quiet", "--release", "--manifest-path", str(THROUGH / "Cargo.toml")]
        subprocess.run(build, check=True, env=environment)
        return [Path(folder) / "release" / "through"]

    def python():
        return [sys.executable, THROUGH / "through.py"]

    return {"rust": rust, "python": python}


def main():
    parser = argparse.ArgumentParser(description=__doc__, formatter_class=argparse.RawDescriptionHelpFormatter)
    parser.add_argument("wrapper", choices=("rust", "python"), help="which wrapper")
    parser.add_argument("--cases", type=int, default=2_000, metavar="N", help="how many random cases (2000)")
    parser.add_argument("--seed", type=int, default=1, metavar="S", help="which of them (1)")
    parser.add_argument("--random-only", action="store_true", help="leave the cases out that were chosen by hand")
    arguments = parser.parse_args()
    command = programs(TOP / "target" / "through")[arguments.wrapper]()

    def cases():
        if not arguments.random_only:
            yield from compare_library.chosen_cases()
        yield from compare_library.random_cases(arguments.seed, arguments.cases)

    sys.exit(compare_library.compare_apart(command, cases, Wrapper, WrapperComparison))


if __name__ == "__main__":
    main()
