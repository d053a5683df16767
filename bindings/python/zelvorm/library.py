"""The shared library, found and loaded."""

from __future__ import annotations

import ctypes
import os
from dataclasses import dataclass
from pathlib import Path

from . import raw

HERE = Path(__file__).resolve().parent
MAJOR = raw.VERSION.split(".")[0]


@dataclass(frozen=True)
class Identity:
    """Which engine is loaded: the version, the Rattle kit that proved it, and the hash of the sources that were proved."""

    version: str
    kit: str
    sources: str


# The one that ZELVORM_LIBRARY names; in this package; in the repository; beside the installed package; wherever the system finds it.
def _path() -> str:
    named = os.environ.get("ZELVORM_LIBRARY")
    if named:
        return named
    beside = [HERE / "libzelvorm.so", HERE.parents[2] / "target" / "library" / "libzelvorm.so"]
    beside += [folder / "lib" / f"libzelvorm.so.{MAJOR}" for folder in HERE.parents[3:4]]
    found = [path for path in beside if path.is_file()]
    return str(found[0]) if found else f"libzelvorm.so.{MAJOR}"


def _loaded() -> ctypes.CDLL:
    path = _path()
    try:
        library = raw.load(path)
    except (OSError, AttributeError) as reason:
        raise ImportError(f"the engine's library {path} cannot be used: {reason}") from reason
    version = library.zelvorm_engine().version.decode()
    if version.split(".")[0] != MAJOR:
        raise ImportError(f"the engine's library {path} is of version {version}, this package of {raw.VERSION}")
    return library


calls = _loaded()


def engine() -> Identity:
    """Which engine is loaded, so that a certificate can name it.

    >>> engine().version.split(".")[0] == raw.VERSION.split(".")[0]
    True
    """
    found = calls.zelvorm_engine()
    return Identity(found.version.decode(), found.kit.decode(), found.sources.decode())
