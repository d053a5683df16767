#!/usr/bin/env python3
"""Runs a day runner on generated files and compares its output with the model's, byte for byte.

Stops at the first difference: names it, keeps the file and the model's output, and ends with status 1. Either way it
prints which codes the files have reached, and how many of the branches of the rules; with --branches it lists these, and
those that were not reached. Every few seconds it tells on standard error how far it is.
"""

import argparse
import shlex
import shutil
import subprocess
import sys
import time
from collections import Counter
from itertools import zip_longest
from pathlib import Path

import branches
import generate
import model

SECONDS_A_FILE = 60

# How often it is told how far the comparison is.
SECONDS_QUIET = 5


class Reached:
    """What the files so far have reached."""

    def __init__(self):
        self.files = 0
        self.commands = 0
        self.codes = Counter()
        self.branches = Counter()

    def run_model(self, file):
        """The model's output for a file, which is counted in."""
        self.files += 1
        self.branches.update(branches.met_by_file(file))
        output = model.run(file, watch=lambda state, command: self.branches.update(branches.met(state, command)))
        for line in output.decode().splitlines():
            words = line.split()
            if words[0] == "C":
                self.commands += 1
                self.codes[int(words[2])] += 1
            elif words[0] == "X":
                self.codes[int(words[1])] += 1
        return output

    def report(self, with_branches=False):
        reached = [f"  {self.branches[name]:>9,} {name}" for name in branches.NAMES if self.branches[name]]
        missed = [f"  {name}" for name in branches.NAMES if not self.branches[name]]
        told = [
            f"files {self.files:,}, commands {self.commands:,}",
            "codes (10 and 21 are out of a file's reach):",
            *(f"  {code:>2} {self.codes[code]:>9,}" for code in (*range(22), 23, 24)),
            f"branches reached: {len(reached)} of {len(branches.NAMES)}",
        ]
        if with_branches:
            told += [*reached, f"branches not reached: {len(missed)}", *missed]
        return "\n".join(told)


class Progress:
    """Tells now and then how far the comparison is."""

    def __init__(self, files, tell):
        self.files, self.tell = files, tell
        self.began = self.told = time.monotonic()

    def reached(self, done):
        now = time.monotonic()
        if now - self.told >= SECONDS_QUIET:
            self.told = now
            left = (now - self.began) / done * (self.files - done)
            self.tell(f"{done:,} of {self.files:,} files, no difference so far; roughly {left:,.0f} s left")


def run_runner(runner, file):
    """The runner's output, or a line that says how it failed. The papers give no meaning to its exit status."""
    try:
        ended = subprocess.run(runner, input=file, capture_output=True, timeout=SECONDS_A_FILE)
    except subprocess.TimeoutExpired:
        return b"(no end within %d seconds)\n" % SECONDS_A_FILE
    if ended.returncode < 0:
        return ended.stdout + b"(stopped by signal %d)\n" % -ended.returncode
    return ended.stdout


def first_difference(expected, found):
    """The number of the first line that differs, and both lines; None if every byte is the same."""
    pairs = zip_longest(expected.splitlines(keepends=True), found.splitlines(keepends=True))
    for number, (expected_line, found_line) in enumerate(pairs, 1):
        if expected_line != found_line:
            return number, shown(expected_line), shown(found_line)
    return None


def shown(line):
    return "(no line)" if line is None else repr(line.decode(errors="backslashreplace"))


def compare(runner, files, seed, folder, tell=lambda words: None):
    """Compares up to the first difference. Gives what was reached and the difference as text, or None."""
    reached = Reached()
    progress = Progress(files, tell)
    for index in range(files):
        file = generate.day_file(seed, index)
        expected = reached.run_model(file)
        difference = first_difference(expected, run_runner(runner, file))
        if difference:
            kept = folder / f"difference-{seed}-{index}.day"
            kept.write_bytes(file)
            kept.with_suffix(".out").write_bytes(expected)
            line, expected_line, found_line = difference
            return reached, (
                f"difference: seed {seed}, file {index}, line {line}\n"
                f"  model:  {expected_line}\n"
                f"  runner: {found_line}\n"
                f"  kept: {kept} and the model's output beside it"
            )
        progress.reached(index + 1)
    return reached, None


def tell(words):
    print(words, file=sys.stderr, flush=True)


def main():
    parser = argparse.ArgumentParser(description=__doc__, formatter_class=argparse.RawDescriptionHelpFormatter)
    parser.add_argument("runner", metavar="RUNNER", help="the day runner's command line, in one argument")
    parser.add_argument("--files", type=int, default=1_000, metavar="N", help="how many files (1000)")
    parser.add_argument("--seed", type=int, default=1, metavar="S", help="which files (1)")
    parser.add_argument("--branches", action="store_true", help="list the branches that were reached, and the others")
    arguments = parser.parse_args()
    runner = shlex.split(arguments.runner)
    if not shutil.which(runner[0]):
        parser.error(f"no program {runner[0]}")
    reached, difference = compare(runner, arguments.files, arguments.seed, Path("."), tell)
    print(reached.report(arguments.branches))
    if difference:
        print(difference)
        sys.exit(1)
    print("no difference")


if __name__ == "__main__":
    main()
