"""Bridges on a server, each with a kernel that the test plays.

With TRANSPORT=inside in the environment they have their requests from the transport in their own
process, by a library that passes all on to that server (passing.c).
"""

import os
import pathlib
import subprocess
import unittest

import real_server
from overlayd import Client

from .kernel import WAIT, Kernel, pair

INSIDE = os.environ.get("TRANSPORT") == "inside"
OUT = pathlib.Path(__file__).resolve().parents[3] / "out"
PROGRAM = os.environ.get("OVERLAYD_FUSE", str(
    OUT / ("overlayd-fuse-passing" if INSIDE else "overlayd-fuse-checked")))
# How long the bridge waits for an answer where a test says nothing, on a machine that may be busy.
PATIENCE = str(int(WAIT))
NO_SERVER = real_server.why_not()
ENVIRONMENT = dict(os.environ, OVERLAYD=real_server.program() or "",
                   ASAN_OPTIONS="detect_leaks=1:abort_on_error=0:exitcode=99",
                   UBSAN_OPTIONS="halt_on_error=1:exitcode=99:print_stacktrace=1")


def has_engine(program):
    """Whether a bridge is there that was built with the engine."""
    if not os.path.exists(program):
        return False
    done = subprocess.run([program, "--manifest", os.devnull, "--kernel", "0"], text=True,
                          stdin=subprocess.DEVNULL, capture_output=True, check=False)
    return "isn't built in" not in done.stderr


# The bridge with the engine inside; where it isn't built, the one whose library starts the program,
# which tells no places and has its memory elsewhere.
CHECKED, PASSING = str(OUT / "overlayd-fuse-checked"), str(OUT / "overlayd-fuse-passing")
HAS_ENGINE = has_engine(CHECKED)
ENGINE = CHECKED if HAS_ENGINE else os.environ.get("OVERLAYD_FUSE_PASSING", PASSING)
of_engine = unittest.skipUnless(HAS_ENGINE, "of the engine as a library alone")


def why_no_engine():
    """Why no bridge has a mount inside, or None."""
    if HAS_ENGINE:
        return None
    return NO_SERVER or (None if os.path.exists(ENGINE) else f"{ENGINE} isn't built")


of_sockets = unittest.skipIf(INSIDE, "of a server's socket alone")


def place(path, options):
    """The words that name what a bridge shows, and what else it finds in its environment."""
    if not INSIDE:
        return [path], {}
    if "--shared" in options:
        raise unittest.SkipTest("--shared is for a server")
    times = [] if "--times" in options else ["--no-times"]
    return ["--manifest", os.devnull, *times], {"OVERLAYD_SOCKET": path}


def run(*words):
    """The bridge by itself, until it ends."""
    return subprocess.run([PROGRAM, *words], stdin=subprocess.DEVNULL, capture_output=True,
                          text=True, timeout=WAIT, env=ENVIRONMENT)


class Bridge:
    """A bridge that speaks to a kernel that the test plays; its end must be a good one."""

    def __init__(self, path, *options, init=True, environment=None, engine=False):
        """Of a server's socket; with `engine`, of a manifest, by the library itself."""
        near, far = pair()
        words, more = (["--manifest", path], {}) if engine else place(path, options)
        self.status = 0
        self.process = subprocess.Popen(
            [ENGINE if engine else PROGRAM, *words, "--kernel", str(far.fileno()), "--verbose",
             "--wait", PATIENCE, "--keep", "0", *options],
            pass_fds=[far.fileno()], stdin=subprocess.DEVNULL, stderr=subprocess.PIPE, text=True,
            env=dict(environment or ENVIRONMENT, **more))
        far.close()
        self.link = near
        self.kernel = Kernel(near)
        self.told = None
        if init:
            self.wanted = self.kernel.init()

    def __enter__(self):
        return self.kernel

    def __exit__(self, kind, error, trace):
        self.end()

    def end(self):
        """Ends it as an unmount does; what it told, where it didn't fail."""
        if self.told is None:
            self.link.close()
            self.told = self.process.communicate(timeout=WAIT)[1]
            if self.process.returncode != self.status:
                raise AssertionError(f"status {self.process.returncode}: {self.told}")
        return self.told

    def trips(self):
        """How many round trips it has made, once it has ended."""
        words = self.end().split()
        return int(words[words.index("round") - 1])


class ServerCase(unittest.TestCase):
    """A test on the program itself, which serves a manifest."""

    MANIFEST = "layer = [{}, {}]"

    def setUp(self):
        if NO_SERVER:
            self.skipTest(NO_SERVER)

    def served(self, manifest=None):
        server = real_server.Server("history = 1000000\n" + (manifest or self.MANIFEST))
        self.addCleanup(server.__exit__, None, None, None)
        server.client().close()
        return server

    def client(self, server):
        client = Client.from_socket(server.connected(), timeout=WAIT)
        self.addCleanup(client.close)
        return client

    def bridge(self, server, *options):
        """A bridge that must end well when the test does."""
        bridge = Bridge(server.path, *options)
        self.addCleanup(bridge.end)
        return bridge.kernel

    def refused(self, number, call, *words, **named):
        with self.assertRaises(OSError) as refusal:
            call(*words, **named)
        self.assertEqual(refusal.exception.errno, number, os.strerror(refusal.exception.errno))
