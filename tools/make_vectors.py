#!/usr/bin/env python3
"""make_vectors.py: makes the files of the program `test_vectors`: the vectors in its data folder with their list, and what
it must write. The cases are chosen by hand (`model/cases_*.py`), what must come out is the model's.

    tools/make_vectors.py                  makes the files
    tools/make_vectors.py random SEED N TO a file of N random saved states, whole and damaged, read and written
    tools/make_vectors.py names FILE       the cases of a file by number, to find one that the program says differs
"""

import importlib
import sys
from pathlib import Path

TOP = Path(__file__).resolve().parent.parent
CRATE = TOP / "crates" / "test_vectors"
DATA = CRATE / "data"

sys.path.insert(0, str(TOP / "tools" / "model"))

import vectors  # noqa: E402

# A file for each module of cases.
NAMES = ("well-formed", "command", "change", "quote", "auction", "bundle", "run", "question", "statement", "side", "mending", "day-file", "saved")


# The program reads a file into an area of so many bytes: cases that need more stand in several files.
LONGEST = 400_000


def parts_of(name):
    """The files of a module's cases: name and cases of each."""
    cases = cases_of(name)
    parts = len(vectors.vector_file(cases)) // LONGEST + 1
    each = -(-len(cases) // parts)
    for k in range(parts):
        yield name if k == 0 else f"{name}-{k + 1}", cases[k * each : (k + 1) * each]


def cases_of(name):
    return list(importlib.import_module("cases_" + name.replace("-", "_")).cases())


def made_files():
    """The content of every file that is made, by its path."""
    files, wanted, names = {}, "", ""
    for module in NAMES:
        for name, cases in parts_of(module):
            files[DATA / name] = vectors.vector_file(cases)
            wanted += f"{name}: {len(cases)} vectors, 0 differ\n"
            names += name + "\n"
    files[DATA / "list"] = names.encode()
    files[CRATE / "stdout"] = wanted.encode()
    return files


def files_present():
    return set(DATA.glob("*")) | set(CRATE.glob("stdout"))


def main():
    if sys.argv[1:2] == ["random"]:
        import cases_saved

        seed, count, to = sys.argv[2:5]
        Path(to).write_bytes(vectors.vector_file(list(cases_saved.random_cases(int(seed), int(count)))))
        return
    if sys.argv[1:2] == ["names"]:
        for number, case in enumerate(cases_of(sys.argv[2]), 1):
            print(f"{number} {case.call}: {case.name}: {case.expected}")
        return
    files = made_files()
    for path in files_present() - set(files):
        path.unlink()
    DATA.mkdir(parents=True, exist_ok=True)
    for path, content in files.items():
        path.write_bytes(content)
    sys.stdout.write(files[CRATE / "stdout"].decode())


if __name__ == "__main__":
    main()
