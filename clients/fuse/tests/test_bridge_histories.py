"""What a bridge makes of the file that the server's --status writes."""

import os
import pathlib
import subprocess
import tempfile
import time
import unittest

import real_server

from .bridges import ENVIRONMENT, NO_SERVER, PROGRAM, Bridge, of_sockets
from .kernel import ROOT, WAIT
from .played import Played

TOLD = """state {}
workers 8
clients 4
sessions 4
unattached 0
turned_away 0
calls 4
temps 0
places {}
"""
KEPT = "the server keeps a history of 10 places, and refuses each call when it is full; " \
    "serve with --no-history"
NO_STATUS = "it isn't what a server's --status writes"


class Case(unittest.TestCase):
    def setUp(self):
        folder = tempfile.TemporaryDirectory()
        self.addCleanup(folder.cleanup)
        self.status = os.path.join(folder.name, "status")

    def mounted(self, socket, *options):
        """What a bridge told that mounted."""
        bridge = Bridge(socket, "--sessions", "1", "--status", self.status, *options)
        self.addCleanup(bridge.end)
        self.assertEqual(bridge.kernel.getattr(ROOT).mode & 0o7777, 0o755)
        return [line for line in bridge.end().splitlines() if self.status in line]

    def refused(self, socket):
        """What one told that had to mount nothing: one line."""
        done = subprocess.run([PROGRAM, socket, "--kernel", "0", "--sessions", "1", "--strict",
                               "--status", self.status], stdin=subprocess.DEVNULL, text=True,
                              capture_output=True, timeout=WAIT, env=ENVIRONMENT, check=False)
        self.assertEqual((done.returncode, done.stdout), (1, ""))
        return done.stderr.splitlines()

    def told(self, why):
        return [f"overlayd-fuse: {self.status}: {why}"]


@of_sockets
class WhatFilesSay(Case):
    def setUp(self):
        super().setUp()
        self.server = Played()
        self.server.__enter__()
        self.addCleanup(self.server.__exit__, None, None, None)

    def says(self, text):
        pathlib.Path(self.status).write_text(text)

    def both(self, why):
        """It is told, and with --strict nothing is mounted."""
        self.assertEqual(self.mounted(self.server.path), self.told(why))
        self.assertEqual(self.refused(self.server.path), self.told(why))

    def test_no_history(self):
        for state in ("begins", "serves"):
            self.says(TOLD.format(state, "none"))
            self.assertEqual(self.mounted(self.server.path, "--strict"), [])

    def test_a_history(self):
        self.says(TOLD.format("serves", "10\nplaces_used 3\nroom 1"))
        self.both(KEPT)

    def test_a_server_that_is_gone(self):
        self.says(TOLD.format("ended", "none"))
        self.both("the server has ended")
        self.says(TOLD.format("serves", "none"))
        old = time.time() - 3600
        os.utime(self.status, (old, old))
        self.both("the server doesn't write it any more")

    def test_what_is_no_such_file(self):
        self.both("No such file or directory")
        for text in ("", "state serves\n", "places none\n", "x" * 9000,
                     TOLD.format("serves", "some"), TOLD.format("serves", "none of it"),
                     TOLD.format("serves", "10")[:-1], TOLD.replace("places", "places_used"),
                     TOLD.format("serves", "10").replace("state ", " state ")):
            with self.subTest(text[:80]):
                self.says(text)
                self.both(NO_STATUS)
        os.unlink(self.status)
        os.mkfifo(self.status)
        self.both(NO_STATUS)

    def test_words_that_go_together(self):
        for words in (("s", "--strict"), ("--manifest", os.devnull, "--status", "s"),
                      ("--manifest", os.devnull, "--strict")):
            done = subprocess.run([PROGRAM, *words, "--kernel", "0"], stdin=subprocess.DEVNULL,
                                  text=True, capture_output=True, timeout=WAIT, env=ENVIRONMENT,
                                  check=False)
            self.assertEqual(done.returncode, 2)
            self.assertIn("--strict goes with --status, and both with a server", done.stderr)


@of_sockets
@unittest.skipIf(NO_SERVER, NO_SERVER)
class WhatServersWrite(Case):
    def served(self, *options):
        folder = os.path.dirname(self.status)
        pathlib.Path(folder, "m.toml").write_text("history = 10\nlayer = [{}, {}]")
        socket = os.path.join(folder, "s")
        server = subprocess.Popen([real_server.program(), "serve", os.path.join(folder, "m.toml"),
                                   socket, "--status", self.status, *options],
                                  stdin=subprocess.DEVNULL)
        self.addCleanup(server.wait)
        self.addCleanup(server.kill)
        limit = time.monotonic() + WAIT
        while not os.path.exists(socket):
            self.assertLess(time.monotonic(), limit)
            time.sleep(0.02)
        return socket

    def test_a_server_without_a_history(self):
        self.assertEqual(self.mounted(self.served("--no-history"), "--strict"), [])

    def test_a_server_with_one(self):
        socket = self.served()
        self.assertEqual(self.refused(socket), self.told(KEPT))
        self.assertEqual(self.mounted(socket), self.told(KEPT))


if __name__ == "__main__":
    unittest.main()
