"""Proof files to begin with: those that `rt check --start` writes, without what no proof keeps."""

import re
from pathlib import Path

from proofs import kit

WITHOUT = re.compile(r"fn (\S+): no proof\b")
SOURCE_PLACE = re.compile(r"(?m)^ *-- src/\S+:\d+:\d+\n")


def tidy(text):
    """A file that was written without the places of the source, which do not stay."""
    return SOURCE_PLACE.sub("", text).lstrip("\n")


def header(path):
    """The first line of a proof file: whose it is. The functions of a cycle of calls share the folder +NAME."""
    crate, _, *modules, folder, file = Path(path).parts[1:]
    name = f"`{'::'.join([crate, *modules, folder.lstrip('+')])}`"
    if file == "Invariants.antt":
        return f"-- {name}: what its loops keep, and what becomes less. Assumes nothing."
    if folder.startswith("+"):
        return f"-- The functions of the cycle {name} meet their contracts. Assumes nothing."
    return f"-- {name} meets its contract. Assumes nothing."


def files(folder):
    return {path for path in (folder / "proofs").rglob("*.antt") if path.is_file()}


def own_folder(folder, function):
    """Where the files of a function are, by its name with the crate's."""
    return folder.joinpath("proofs", *function.split("::")[1:])


def started(root, crate, function, write):
    """Has rt write the files of a function that has none. How many were written."""
    folder = root / "crates" / crate
    before = files(folder)
    kit.check_lines(root, crate, "--start", function)
    new = sorted(files(folder) - before)
    for path in new:
        where, text = path.relative_to(root).as_posix(), tidy(path.read_text(encoding="utf-8"))
        path.write_text(f"{header(where)}\n{text}", encoding="utf-8")
        holes = len(re.findall(r"(?<!\S)\?", text))
        write(f"wrote {where}: {holes} {'hole' if holes == 1 else 'holes'}")
    return len(new)


def run(root, arguments, write):
    """Writes the files of each function that has no proof and no file yet. Ends with rt's status where the crate was not reached."""
    folder = kit.crate_folder(root, arguments.crate)
    status, lines = kit.check_lines(root, arguments.crate)
    for line in lines:
        if ": error" in line or (line.startswith(("fn ", "logic=")) and not line.endswith(": proved")):
            write(line[:400])
    without = [found.group(1) for line in lines if (found := WITHOUT.match(line))]
    written = sum(
        started(root, arguments.crate, function, write)
        for function in dict.fromkeys(without)
        if function.startswith(f"{arguments.crate}::") and not own_folder(folder, function).exists()
    )
    if not written:
        write("wrote nothing: no function without a proof is without a file")
    return 0 if any(line.startswith("logic=") for line in lines) else status
