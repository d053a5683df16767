#!/usr/bin/env python3
"""Makes the sample day files and their expected outputs again from the sample texts, and the broken files; of the lesson
over two days the state between them too, and a file to be mended."""

import sys
from pathlib import Path

sys.path.insert(0, str(Path(__file__).resolve().parents[1]))

import dayfile
import daytext
import model
import saved
import statetext
from broken import broken_files

SAMPLES = Path(__file__).resolve().parents[2] / "samples"


def made_files():
    """The content of every file that is made, by its path."""
    files = {}
    for text in sorted(SAMPLES.glob("*.txt")):
        file = daytext.pack(text.read_text())
        files[text.with_suffix(".day")] = file
        files[text.with_suffix(".out")] = model.run(file)
    files.update(continued_files(SAMPLES / "continued"))
    example = dayfile.read(files[SAMPLES / "paper-example.day"])
    files[SAMPLES / "calls" / "cut-in-transfer.day"] = cut_in_transfer(example)
    for name, file in broken_files(example).items():
        files[SAMPLES / "broken" / f"{name}.day"] = file
    return files


def continued_files(folder):
    """The first day, the state that it leaves, and what the second prints."""
    first = daytext.pack((folder / "first-day.txt").read_text())
    second = statetext.read_continued((folder / "second-day.txt").read_text())
    return {
        folder / "first-day.day": first,
        folder / "first-day.out": model.run(first),
        folder / "first-day.state": saved.state_bytes(statetext.state_after(first)),
        folder / "second-day.out": statetext.output_of(second),
    }


def cut_in_transfer(example):
    """The paper's day with a record in it that has no kind, and without its last 5 bytes."""
    commands = [*example.commands[:3], dayfile.Command(10, 1, 1), *example.commands[3:]]
    return dayfile.write(example._replace(commands=commands))[:-5]


MADE = ("*.day", "*.out", "broken/*", "calls/*.day", "continued/*.day", "continued/*.out", "continued/*.state")


def files_present():
    return {path for pattern in MADE for path in SAMPLES.glob(pattern)}


def main():
    files = made_files()
    for path in files_present() - set(files):
        path.unlink()
    for path, content in files.items():
        path.parent.mkdir(exist_ok=True)
        path.write_bytes(content)
    print(f"{len(files)} files made")


if __name__ == "__main__":
    main()
