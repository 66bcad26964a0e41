"""Runs `overlayd-status` without an installation: `python3 -m overlayd.status`."""

import sys

from .command import main

if __name__ == "__main__":
    sys.exit(main())
