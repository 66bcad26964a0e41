"""Runs `overlayd-import` without an installation: `python3 -m overlayd.importer`."""

import sys

from .command import main

if __name__ == "__main__":
    sys.exit(main())
