#!/usr/bin/env python3
"""measure.py: what a call costs its users, for the library as it is linked: commands a second and instructions a command.

    bench/calls/measure.py                  # needs target/library (tools/build_library), cc, cargo and valgrind; some minutes
    bench/calls/measure.py --instructions   # without the seconds, which a busy machine spoils

In C, through the Rust crate and through the Python package, by `execute`, by bundle and by list, on three states (states.py says which
commands). Instructions are counted by valgrind's callgrind, seconds are the processor's, the smallest of five runs. What a round takes to
copy the state that it begins from is measured too and left out. Prints the tables that stand in bench/README.md. Status 1 where a command is
refused, or where the Rust crate takes more than 5 % more instructions than C.
"""

import os
import re
import subprocess
import sys
import tempfile
from pathlib import Path

HERE = Path(__file__).resolve().parent
TOP = HERE.parents[1]
LIBRARY = TOP / "target" / "library"
STATES = ("opening", "typical", "full")
CALLS = ("execute", "bundle", "run")
COMMANDS = 100
# The most that the Rust crate may add, in parts of a hundred.
MOST_ADDED = 5


def ran(*words, **others):
    return subprocess.run([str(word) for word in words], check=True, capture_output=True, text=True, **others).stdout


def built(folder):
    """The command line of each language's program."""
    ran("cc", "-std=c11", "-O2", "-Wall", "-Wextra", "-Werror", "-I", LIBRARY, HERE / "calls.c", LIBRARY / "libzelvorm.a", "-o", folder / "calls-c")
    environment = {**os.environ, "ZELVORM_LIB_DIR": str(LIBRARY)}
    ran("cargo", "build", "--offline", "--quiet", "--release", "--target-dir", folder / "cargo", "--manifest-path", HERE / "Cargo.toml", env=environment)
    return {"C": [folder / "calls-c"], "Rust": [folder / "cargo" / "release" / "calls"], "Python": [sys.executable, HERE / "calls.py"]}


class Refused(Exception):
    """A measured command that is not accepted."""


# Of the processor, for the whole program.
def seconds(program, folder, state, call, rounds):
    words = [str(word) for word in (*program, folder, state, call, rounds)]
    with subprocess.Popen(words, stdout=subprocess.PIPE, text=True) as started:
        found = int(started.stdout.read() or 0)
        _, status, used = os.wait4(started.pid, 0)
        started.returncode = os.waitstatus_to_exitcode(status)
    if started.returncode != 0 or call != "none" and found != COMMANDS * rounds:
        raise Refused(f"{words[0]}, {call} on the {state} state: {found} of {COMMANDS * rounds} commands are accepted")
    return used.ru_utime + used.ru_stime


# Enough rounds for a fifth of a second, measured five times. What the program takes to begin drops out with the copies.
def rate(program, folder, state, call):
    rounds = 4
    while seconds(program, folder, state, call, rounds) < 0.2:
        rounds *= 2
    whole, copies = (min(seconds(program, folder, state, what, rounds) for _ in range(5)) for what in (call, "none"))
    return COMMANDS * rounds / (whole - copies)


def counted(program, folder, state, call, rounds):
    out = folder / "callgrind.out"
    ran("valgrind", "--tool=callgrind", f"--callgrind-out-file={out}", *program, folder, state, call, rounds)
    return int(re.search(r"^(?:totals|summary): (\d+)", out.read_text(), re.MULTILINE)[1])


# A second count of more rounds has all that a first one has, and so many rounds more.
def instructions(program, folder, state, call):
    seconds(program, folder, state, call, 1)
    few, more = 2, 6
    whole, copies = (counted(program, folder, state, what, more) - counted(program, folder, state, what, few) for what in (call, "none"))
    return (whole - copies) / (COMMANDS * (more - few))


# Each call in each language, by state: commands a second, and beside it instructions a command.
def table(rates, counts):
    rows = ["| | " + " | ".join(f"{state} | instructions" for state in STATES) + " |", "|---|" + "---|---|" * len(STATES)]
    for call in CALLS:
        for language in counts:
            cells = []
            for state in STATES:
                told = f"{float(f'{rates[language][call, state]:.2g}'):,.0f}" if rates else ""
                cells += [told, f"{counts[language][call, state]:,.0f}"]
            rows.append(f"| {call}, {language} | " + " | ".join(cells) + " |")
    return "\n".join(rows)


def main():
    with tempfile.TemporaryDirectory() as room:
        folder = Path(room)
        programs = built(folder)
        print(ran(sys.executable, HERE / "states.py", folder))
        rows = [(call, state) for call in CALLS for state in STATES]

        def measured(measure):
            return {name: {(call, state): measure(program, folder, state, call) for call, state in rows} for name, program in programs.items()}

        rates = None if "--instructions" in sys.argv else measured(rate)
        counts = measured(instructions)
    print(table(rates, counts))
    added = max(100 * (counts["Rust"][row] / counts["C"][row] - 1) for row in rows)
    print(f"\nThe Rust crate adds at most {added:.1f} % to the instructions of C.")
    if added > MOST_ADDED:
        sys.exit(f"that is more than {MOST_ADDED} %")


if __name__ == "__main__":
    try:
        main()
    except Refused as refused:
        sys.exit(str(refused))
    except subprocess.CalledProcessError as failed:
        sys.exit(f"{failed.cmd}: {failed.stderr}")
