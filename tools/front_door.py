#!/usr/bin/env python3
"""What ./zelvorm calls: the commands of the front door. ./zelvorm --help has them."""

import sys

from front import door

if __name__ == "__main__":
    sys.exit(door.main(sys.argv[1:]))
