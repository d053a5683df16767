"""The Rattle kit as these helps use it: `rt check`, whose lines come as they are printed, and the repository that it works on."""

import contextlib
import os
import re
import signal
import subprocess
import sys
from pathlib import Path


class NotUsable(Exception):
    """Something is to be installed, written or called otherwise first."""


def repository():
    """The folder with crates.txt, from the working folder upwards as rt looks for it; otherwise the one of this tool."""
    here = Path.cwd().resolve()
    for folder in (here, *here.parents):
        if (folder / "crates.txt").is_file():
            return folder
    return Path(__file__).resolve().parents[2]


def crate_folder(root, crate):
    folder = root / "crates" / crate
    if not (folder / "src").is_dir():
        raise NotUsable(f"there is no crate {crate}: crates/{crate}/src is not here")
    return folder


@contextlib.contextmanager
def check(root, crate, *words):
    """`rt check WORDS..` in the crate's folder while it runs. It ends with the caller, however that one ends."""
    try:
        process = subprocess.Popen(
            ["rt", "check", *words],
            cwd=crate_folder(root, crate),
            stdin=subprocess.DEVNULL,
            stdout=subprocess.PIPE,
            stderr=subprocess.STDOUT,
            encoding="utf-8",
            errors="replace",
            start_new_session=True,
        )
    except FileNotFoundError:
        raise NotUsable("rt is not here: proofs need the Rattle kit (docs/INSTALL.md)") from None
    try:
        yield process
    finally:
        if process.poll() is None:
            # It has a session of its own, so that the prover below it ends too.
            with contextlib.suppress(ProcessLookupError):
                os.killpg(process.pid, signal.SIGTERM)
        process.stdout.close()
        process.wait()


def check_lines(root, crate, *words):
    """Its status and all its lines."""
    with check(root, crate, *words) as process:
        lines = [plain(root, crate, line) for line in process.stdout]
        return process.wait(), lines


def formatted(root, crate):
    """Has the kit lay out every file of a crate."""
    subprocess.run(["rt", "fmt"], cwd=crate_folder(root, crate), stdin=subprocess.DEVNULL, stdout=subprocess.DEVNULL, stderr=subprocess.DEVNULL, check=False)


def progress(words):
    """What is going on, beside what is told."""
    print(words, file=sys.stderr, flush=True)


# A path of the crate, as rt prints it.
OWN = re.compile(r"(?<![\w./])(?:\./)?(?=(?:proofs|specs|src)/[\w/+-]+\.(?:antt|rt)\b)")


def plain(root, crate, line):
    """A line with no end, its paths as they stand in the repository."""
    return OWN.sub(f"crates/{crate}/", line.rstrip("\n").replace(f"{root}/crates/{crate}/", "./"))
