"""What is installed and what is built. Nothing is built for it."""

import importlib.util
import platform
import shutil
import subprocess
import sys
from pathlib import Path

from front import TOP
from front.statuses import DONE, NOT_PROVED, NOT_USABLE

import engine

# A program, what it is for, and whether one cannot do without it.
PROGRAMS = (
    ("rt", "proves and builds: the Rattle kit", True),
    ("flock", "./run; of util-linux", True),
    ("setsid", "./run; of util-linux", True),
    ("cc", "the library for programs in other languages", False),
    ("rustc", "programs in Rust that use it", False),
    ("chromium", "the tests of the pages", False),
)


def first_line(*words):
    """The first line that a program prints, or None where it cannot be run."""
    try:
        ended = subprocess.run(words, capture_output=True, text=True, timeout=60)
    except (OSError, subprocess.TimeoutExpired):
        return None
    return (ended.stdout.splitlines() or [""])[0] if ended.returncode == 0 else None


def built_with():
    """The kit's identity that the runner was built with, from its stamp."""
    stamp = TOP / "target" / "run.stamp"
    return stamp.read_text().splitlines()[0] if stamp.is_file() else None


def doctor(arguments, write):
    write(f"system    {platform.system()} {platform.machine()}, {platform.libc_ver()[0]} {platform.libc_ver()[1]}")
    write(f"python    {platform.python_version()}, {sys.executable}")
    lacking = []
    for name, purpose, is_needed in PROGRAMS:
        found = shutil.which(name)
        write(f"{name:<9} {found or 'not here'}" + ("" if found else f" ({purpose})"))
        lacking += [name] if is_needed and not found else []
    write(f"editing   {'there' if importlib.util.find_spec('readline') else 'not here (the line editing of practice: readline)'}")
    kit = first_line("rt", "version") if shutil.which("rt") else None
    if kit:
        write(f"kit       {kit}")
    unbuilt = []
    for name, words, is_there in (("runner", *runner_words(kit)), ("library", *library_words())):
        write(f"{name:<9} {words}")
        unbuilt += [] if is_there else [name]
    if lacking:
        write(f"Install {' and '.join(lacking)}: docs/INSTALL.md says how.")
    elif unbuilt:
        how = {"runner": "./run samples/paper-example.txt", "library": "./zelvorm library"}
        write("To be built: " + ", ".join(f"the {name} ({how[name]})" for name in unbuilt) + ".")
    else:
        write("All is there.")
    # Without the kit a runner and a library that are built go on working.
    if unbuilt and lacking:
        return NOT_USABLE
    return NOT_PROVED if unbuilt else DONE


def runner_words(kit):
    if subprocess.run([TOP / "run", "--built"], capture_output=True).returncode == 0:
        return "built from these sources: target/bin/dayrun", True
    if not (TOP / "target" / "bin" / "dayrun").is_file():
        return "not built", False
    other = kit and built_with() not in (None, kit)
    return f"built {'with another kit' if other else 'from other sources, or not by ./run'}", False


def library_words():
    if engine.is_current():
        return "built from these sources: target/library", True
    return ("built from other sources" if Path(engine.LIBRARY).is_file() else "not built"), False
