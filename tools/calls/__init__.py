"""The library's calls beyond a day's commands, in a person's hands: mending, client statements, bundles. Every answer is the
built library's and is held against the model's."""

import sys
from pathlib import Path

TOOLS = Path(__file__).resolve().parents[1]
sys.path[:0] = [str(folder) for folder in (TOOLS, TOOLS / "model") if str(folder) not in sys.path]
