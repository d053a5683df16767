"""What the tools share that explain a lesson: reading and playing it, and its steps in words."""

import sys
from pathlib import Path

TOOLS = Path(__file__).resolve().parents[1]
sys.path[:0] = [str(folder) for folder in (TOOLS, TOOLS / "model") if str(folder) not in sys.path]
