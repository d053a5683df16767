#!/usr/bin/env python3
"""make_test_days.py: makes the files of the program `test_days` from `samples/`: the day files with their list in its data
folder, and what it must write, from the model's outputs."""
from pathlib import Path

TOP = Path(__file__).resolve().parent.parent
SAMPLES = TOP / "samples"
CRATE = TOP / "crates" / "test_days"
DATA = CRATE / "data"

# The files that `test_days` prints to a descriptor that takes no bytes: a sound one and a broken one.
UNWRITABLE = ("paper-example.day", "broken-empty.day")


def made_files():
    """The content of every file that is made, by its path."""
    files, names, wanted = {}, "", b""
    for path in sorted(SAMPLES.glob("*.day")) + sorted(SAMPLES.glob("broken/*.day")):
        is_broken = path.parent != SAMPLES
        name = ("broken-" if is_broken else "") + path.name
        files[DATA / name] = path.read_bytes()
        names += name + "\n"
        wanted += name.encode() + b"\n" + (b"X 20\n" if is_broken else path.with_suffix(".out").read_bytes())
    name = "broken-largest-file-one-byte-more.day"
    files[DATA / name] = (SAMPLES / "largest-file.day").read_bytes() + b"\0"
    names += name + "\n"
    wanted += name.encode() + b"\nX 20\n"
    for name in UNWRITABLE:
        wanted += name.encode() + b": write failed\n"
    files[DATA / "list"] = names.encode()
    files[CRATE / "stdout"] = wanted
    return files


def files_present():
    return set(DATA.glob("*")) | set(CRATE.glob("stdout"))


def main():
    files = made_files()
    for path in files_present() - set(files):
        path.unlink()
    DATA.mkdir(exist_ok=True)
    for path, content in files.items():
        path.write_bytes(content)
    print(f"{len(files)} files made")


if __name__ == "__main__":
    main()
