#!/usr/bin/env python3
"""lines.py: a day file in, its lines out, without a day runner.

    lines.py samples/paper-example.day
"""

import sys
from pathlib import Path

# Not needed where the package is installed.
sys.path.insert(0, str(Path(__file__).resolve().parents[2] / "bindings" / "python"))

from zelvorm import day_lines

sys.stdout.buffer.write(day_lines(Path(sys.argv[1]).read_bytes()))
