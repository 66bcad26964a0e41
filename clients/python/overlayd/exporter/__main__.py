"""Runs `overlayd-export` without an installation: `python3 -m overlayd.exporter`."""

import sys

from .command import main

if __name__ == "__main__":
    sys.exit(main())
