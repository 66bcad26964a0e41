"""Runs `overlayd-serve` without an installation: `python3 -m overlayd.supervisor`."""

import sys

from .command import main

if __name__ == "__main__":
    sys.exit(main())
