"""Tests of the client and of the tools that stand on it."""

import signal

# Tests that are run in the background come with SIGINT ignored, and so would what they start.
signal.signal(signal.SIGINT, signal.default_int_handler)
