"""The exit statuses, for every command the same. Their table stands in exit-statuses.txt, which ./run prints too."""

from pathlib import Path

TABLE = Path(__file__).resolve().parent / "exit-statuses.txt"

DONE, NOT_PROVED, NOT_USABLE, NOT_WRITTEN, NOT_AS_EXPECTED, BROKEN = 0, 1, 2, 3, 4, 20
INTERRUPTED, READER_LEFT = 130, 141


class Ended(Exception):
    """Why a command cannot go on, in words for its user, and the status that it ends with."""

    def __init__(self, status, words=""):
        super().__init__(words)
        self.status = status


def rows():
    """Each status or range of statuses, and its meaning."""
    table = TABLE.read_text(encoding="utf-8").splitlines()
    return [tuple(part.strip() for part in line.split("  ", 1)) for line in table]
