#!/usr/bin/env python3
"""Runs the tests of every tool and of ./run, several at a time. Called by tools/test.

    tools/test                     all of them
    tools/test quick               those that take a moment: what test-seconds.txt names is left out
    tools/test test_run model.test_saved test_front.Files ..     modules or classes by name
    tools/test --jobs 1            one at a time

Every module is read by a process of its own, so that none gets what another one has loaded; a class that takes long has a
process for itself. The long ones begin first: test-seconds.txt says how long they take.

Exit status: 0 all passed; 1 some did not; 2 it was not called rightly.
"""

import argparse
import importlib.util
import json
import os
import signal
import subprocess
import sys
import tempfile
import time
import unittest
from concurrent.futures import ThreadPoolExecutor, as_completed
from pathlib import Path
from typing import NamedTuple

TOOLS = Path(__file__).resolve().parent
FOLDERS = (TOOLS, TOOLS / "model")


class Part(NamedTuple):
    """What one process runs: one class of a module, or all but some."""

    name: str
    path: str
    only: str = ""
    without: tuple = ()
    seconds: float = 1


class Ran(NamedTuple):
    name: str
    tests: int
    seconds: float
    faults: list  # (test, traceback)
    skipped: list  # reasons


# --- What is run ---


def seconds_listed(folder):
    """How long the long classes take, by their names."""
    rows = [line.split() for line in (folder / "test-seconds.txt").read_text().splitlines() if line.strip()]
    return {name: float(seconds) for name, seconds in rows}


def all_parts(folders, listed):
    """Every module: its long classes one by one, and the rest together."""
    for folder in folders:
        for path in sorted(folder.glob("test_*.py")):
            # Two folders may have modules of one name.
            name = path.stem if folder == folders[0] else f"{folder.name}.{path.stem}"
            long = [one.rpartition(".")[2] for one in listed if one.rpartition(".")[0] == name]
            for one in long:
                yield Part(f"{name}.{one}", str(path), only=one, seconds=listed[f"{name}.{one}"])
            yield Part(name, str(path), without=tuple(long))


def chosen(names, parts, listed):
    """The parts that are asked for."""
    if names == ["quick"]:
        return [part for part in parts if not part.only]
    found = []
    for asked in names:
        plain = asked.removesuffix(".py").replace("/", ".")
        matching = [part for part in parts if part.name == plain or part.name.startswith(f"{plain}.")]
        module, _, one = plain.rpartition(".")
        if not matching:
            matching = [part._replace(name=plain, only=one, without=()) for part in parts if part.name == module and not part.only]
        if not matching:
            sys.exit(f"no tests {asked}")
        found += matching
    return found or list(parts)


# --- One process ---


def run_part(path, only, without):
    """What a process that is started for a part does: its result as JSON."""
    path = Path(path)
    sys.path[:0] = [str(folder) for folder in (path.parent, TOOLS, TOOLS / "model") if str(folder) not in sys.path]
    spec = importlib.util.spec_from_file_location(path.stem, path)
    module = sys.modules[path.stem] = importlib.util.module_from_spec(spec)
    spec.loader.exec_module(module)
    result = unittest.TestResult()
    result.buffer = True
    for suite in unittest.defaultTestLoader.loadTestsFromModule(module):
        names = {type(test).__qualname__ for test in suite}
        if (only and only not in names) or names & set(without):
            continue
        suite.run(result)
    faults = [(str(test), told) for test, told in [*result.failures, *result.errors]]
    faults += [(str(test), "it passed, and should not") for test in result.unexpectedSuccesses]
    return {"tests": result.testsRun, "faults": faults, "skipped": [reason for _, reason in result.skipped]}


def run_in_process(part):
    began = time.monotonic()
    with tempfile.TemporaryDirectory() as folder:
        to = Path(folder, "result")
        words = [sys.executable, __file__, "--part", json.dumps([part.path, part.only, part.without, str(to)])]
        ended = subprocess.run(words, stdin=subprocess.DEVNULL, capture_output=True, text=True, errors="replace", cwd=TOOLS)
        passed = time.monotonic() - began
        if not to.exists():
            return Ran(part.name, 0, passed, [(part.name, ended.stderr or f"it ended with status {ended.returncode}")], [])
        return Ran(part.name, seconds=passed, **json.loads(to.read_text()))


# --- All of them ---


def run_all(parts, jobs, write):
    """Whether all passed."""
    parts = sorted(parts, key=lambda part: -part.seconds)
    began, done = time.monotonic(), []
    with ThreadPoolExecutor(jobs) as pool:
        for future in as_completed([pool.submit(run_in_process, part) for part in parts]):
            ran = future.result()
            done.append(ran)
            if ran.tests or ran.faults:
                skips = f", {len(ran.skipped)} skipped" if ran.skipped else ""
                write(f"{'FAIL' if ran.faults else 'ok  '} {ran.seconds:6.1f} s  {ran.name} ({ran.tests} tests{skips})")
    for ran in done:
        for test, told in ran.faults:
            write(f"\n{test}\n{told}")
    for reason in sorted({reason for ran in done for reason in ran.skipped}):
        write(f"skipped: {reason}")
    failed = sum(len(ran.faults) for ran in done)
    total, busy = sum(ran.tests for ran in done), sum(ran.seconds for ran in done)
    passed = "all passed" if not failed else f"{failed} failed"
    write(f"{total} tests in {time.monotonic() - began:.0f} s, {jobs} at a time ({busy:.0f} s one by one): {passed}")
    return not failed


def main():
    parser = argparse.ArgumentParser(description=__doc__, formatter_class=argparse.RawDescriptionHelpFormatter)
    parser.add_argument("names", nargs="*", metavar="NAME", help="quick, or modules and classes of tests")
    parser.add_argument("--jobs", type=int, default=os.cpu_count() or 1, metavar="N", help="how many at a time (the processors)")
    parser.add_argument("--part", help=argparse.SUPPRESS)
    arguments = parser.parse_args()
    # Where this is run in the background Ctrl-C is ignored, and so it would be by what the tests start.
    signal.signal(signal.SIGINT, signal.default_int_handler)
    if arguments.part:
        path, only, without, to = json.loads(arguments.part)
        Path(to).write_text(json.dumps(run_part(path, only, without)))
        return
    listed = seconds_listed(FOLDERS[0])
    parts = list(all_parts(FOLDERS, listed))
    is_right = run_all(chosen(arguments.names, parts, listed), max(arguments.jobs, 1), lambda line: print(line, flush=True))
    sys.exit(0 if is_right else 1)


if __name__ == "__main__":
    main()
