"""Practice at the keyboard: a trainee's lines answered one by one by the proved engine, in the model's words."""

import sys
from pathlib import Path

TOOLS = Path(__file__).resolve().parents[1]
sys.path[:0] = [str(folder) for folder in (TOOLS, TOOLS / "model") if str(folder) not in sys.path]
