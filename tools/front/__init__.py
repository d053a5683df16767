"""The front door: what ./zelvorm offers, told once, and carried out by the tools beside this folder."""

import sys
from pathlib import Path

TOOLS = Path(__file__).resolve().parents[1]
TOP = TOOLS.parent
sys.path[:0] = [str(folder) for folder in (TOOLS, TOOLS / "model") if str(folder) not in sys.path]
