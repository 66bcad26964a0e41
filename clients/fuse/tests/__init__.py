"""Tests of the bridge. They use the Python client's test server and what it stands on."""

import pathlib
import signal
import sys

PYTHON = pathlib.Path(__file__).resolve().parents[2] / "python"
for folder in (PYTHON / "tests", PYTHON):
    sys.path.insert(0, str(folder))

# Tests that are run in the background come with SIGINT ignored, and so would what they start.
signal.signal(signal.SIGINT, signal.default_int_handler)
