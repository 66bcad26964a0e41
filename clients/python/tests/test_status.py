"""`overlayd-status`: on a server that the tests play, and on the program where it is built."""

import contextlib
import io
import os
import pathlib
import socket
import tempfile
import threading
import time
import unittest

from overlayd.status.command import main

from . import import_tools as tools
from . import real_server
from .scripted import DETACHED, h, take

COUNTED = "state serves\nworkers 8\nclients 1\ncalls 5\nplaces none\n"
ROOT = h("00000022 00 0000000000000001 01 000001ed 00000000 00000000 0000000000000000 00000001")
MANIFEST = """layer = [{}, {entry = [{path = "/d", kind = "dir"},
  {path = "/d/f", kind = "file", text = "old"}, {path = "/gone", kind = "file", text = "1234"}]}]
"""


def ran(*words):
    """The exit status, what was printed by its words, and standard error."""
    printed, told = io.StringIO(), io.StringIO()
    with contextlib.redirect_stdout(printed), contextlib.redirect_stderr(told):
        status = main([str(word) for word in words])
    return status, dict(line.split(" ") for line in printed.getvalue().splitlines()), told.getvalue()


class Played(unittest.TestCase):
    def setUp(self):
        folder = tempfile.TemporaryDirectory()
        self.addCleanup(folder.cleanup)
        self.folder = pathlib.Path(folder.name)
        self.socket, self.counted = self.folder / "s", self.folder / "counted"

    def serve(self, *steps):
        """A server of one connection, which takes so many bytes, and answers each time."""
        listener = socket.socket(socket.AF_UNIX)
        self.addCleanup(listener.close)
        listener.bind(str(self.socket))
        listener.listen()

        def answer():
            link, _ = listener.accept()
            with link:
                for count, reply in steps:
                    take(link, count)
                    link.sendall(reply)
                while link.recv(1_000):
                    pass

        thread = threading.Thread(target=answer, daemon=True)
        thread.start()
        self.addCleanup(thread.join, real_server.WAIT)

    def test_what_is_counted_and_that_it_answers(self):
        self.serve((8, ROOT), (5, DETACHED))
        self.counted.write_text(COUNTED)
        os.utime(self.counted, (time.time() - 50,) * 2)
        status, found, told = ran("--counted", self.counted, self.socket)
        self.assertEqual((status, told), (0, ""))
        self.assertEqual(list(found), ["state", "workers", "clients", "calls", "places",
                                       "counted_ago", "answered_in"])
        self.assertEqual((found["calls"], found["places"]), ("5", "none"))
        self.assertGreaterEqual(float(found["counted_ago"]), 50)
        self.assertLess(float(found["answered_in"]), real_server.WAIT)

    def test_a_server_that_has_no_free_worker(self):
        self.serve((0, h("00000002 02 10")))
        self.assertEqual(ran(self.socket),
                         (1, {}, "overlayd-status: the server has no free worker\n"))

    def test_a_server_that_says_nothing(self):
        self.serve()
        status, found, told = ran("--timeout", "0.1", self.socket)
        self.assertEqual((status, found), (1, {}))
        self.assertRegex(told, r"\Aoverlayd-status: no reply came within 0.1 [^\n]*\n\Z")

    def test_no_server_and_no_file(self):
        self.assertEqual(ran(self.socket), (
            1, {}, f"overlayd-status: {self.socket}: No such file or directory\n"))
        self.assertEqual(ran("--counted", self.counted, self.socket), (
            1, {}, f"overlayd-status: {self.counted}: No such file or directory\n"))
        for text in ("", "state serves\na\x1b[2Jb\n", "mode 1\n", "\xff" * 9):
            self.counted.write_text(text)
            self.assertEqual(ran("--counted", self.counted, self.socket), (
                1, {}, f"overlayd-status: {self.counted}: it isn't a file of `overlayd serve "
                       "--status`\n"))

    def test_wrong_usage(self):
        for words in ([], ["--timeout", "0", "s"], ["a", "b"]):
            with self.subTest(words), contextlib.redirect_stderr(io.StringIO()):
                with self.assertRaises(SystemExit) as ended:
                    main(words)
                self.assertEqual(ended.exception.code, 2)


class OnTheProgram(unittest.TestCase):
    """How large the upper is: names and bytes that clients changed, and none before."""

    def test_an_upper(self):
        reason = real_server.why_not()
        if reason:
            tools.skip(self.id(), reason)
        with real_server.Server(MANIFEST) as server, tempfile.TemporaryDirectory() as folder:
            described = pathlib.Path(folder, "m.toml")
            described.write_text(MANIFEST)
            with server.client() as client:
                self.assertEqual(self.upper(server, described), ("0", "0"))
                client.write_text("/d/f", "newer")
                client.link("/d/f", "/d/g")
                client.unlink("/gone")
                client.mkdir("/e")
                client.write_bytes("/e/x", bytes(1_000))
                # Two names of one file, a whiteout, a directory and the file in it.
                self.assertEqual(self.upper(server, described), ("5", "1005"))

    def upper(self, server, described):
        status, found, told = ran("--timeout", real_server.WAIT, "--upper", described, server.path)
        self.assertEqual((status, told), (0, ""))
        return found["upper_names"], found["upper_bytes"]


if __name__ == "__main__":
    unittest.main()
