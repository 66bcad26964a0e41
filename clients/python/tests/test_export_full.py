"""Exports of a server whose history is full, which answers no call: by what it saves in the end."""

import contextlib
import errno
import io
import os
import re
import shlex
import signal
import socket
import subprocess
import sys
import tarfile
import tempfile
import time
import unittest
from pathlib import Path
from typing import Iterator, List
from unittest import mock

from overlayd import Client
from overlayd.exporter import Unsayable
from overlayd.exporter.command import main
from overlayd.exporter.full import Ending, advice, end, ending_of

from . import real_server
from .real_server import WAIT

CLIENTS = Path(__file__).resolve().parents[1]
FULL = """history = 9
layer = [{}, { entry = [{ path = "/f", kind = "file", text = "lower" }] }]
"""
BEGIN = "the server's history is full, and with it no call is answered: "


def filled(client: Client) -> int:
    """Makes directories until none can be made; how many were."""
    for made in range(100):
        try:
            client.mkdir(f"/{made}")
        except OSError as error:
            assert error.errno == errno.ENOSPC, error
            return made
    raise AssertionError("the history has no end")


class FullCase(unittest.TestCase):
    """A manifest whose history has a few places."""

    def setUp(self) -> None:
        folder = tempfile.TemporaryDirectory()
        self.addCleanup(folder.cleanup)
        self.folder = Path(folder.name)
        self.manifest, self.saved, self.layer = (
            self.folder / name for name in ("m.toml", "saved upper", "change.tar"))
        self.manifest.write_text(FULL)

    def export(self, *words: str, status: int = 0) -> str:
        """What the command says."""
        errors = io.StringIO()
        with contextlib.redirect_stderr(errors):
            self.assertEqual(main([str(self.manifest), *words]), status, errors.getvalue())
        return errors.getvalue()

    def names(self) -> List[str]:
        """What the layer has."""
        with tarfile.open(self.layer) as layer:
            return sorted(layer.getnames())

    def by_hand(self) -> str:
        """The command that exports what was saved."""
        return shlex.join(["overlayd-export", str(self.manifest), "--manifest", str(self.saved),
                           "--layer", str(self.layer)])


class ServedTest(FullCase):
    """On the program."""

    def setUp(self) -> None:
        super().setUp()
        if real_server.why_not() is not None:
            self.skipTest(str(real_server.why_not()))

    @contextlib.contextmanager
    def supervised(self, *words: str, places: int = 9) -> Iterator["subprocess.Popen[str]"]:
        """A server of overlayd-serve, whose socket is at `self.socket`."""
        self.socket = str(self.folder / "s")
        command = [sys.executable, "-m", "overlayd.supervisor", "--program",
                   str(real_server.program()), *words, str(self.manifest), self.socket,
                   "--", "--history", str(places)]
        process = subprocess.Popen(command, cwd=self.folder, text=True, stderr=subprocess.PIPE,
                                   env={**os.environ, "PYTHONPATH": str(CLIENTS)})
        try:
            limit = time.monotonic() + WAIT
            while not os.path.exists(self.socket):
                self.assertLess(time.monotonic(), limit)
                self.assertIsNone(process.poll())
                time.sleep(0.01)
            yield process
        finally:
            process.terminate()
            process.communicate()

    def client(self) -> Client:
        """A client, once the server listens, which is after its socket is there."""
        limit = time.monotonic() + WAIT
        while True:
            try:
                client = Client(self.socket, timeout=WAIT)
                break
            except ConnectionRefusedError:
                self.assertLess(time.monotonic(), limit)
                time.sleep(0.01)
        self.addCleanup(client.close)
        return client

    def test_a_server_that_ends_with_its_input(self) -> None:
        with real_server.Server(FULL, workers=2, save=str(self.saved)) as server:
            with server.client() as client:
                made = filled(client)
            for more in ([], ["--end-if-full"]):
                told = self.export(server.path, "--layer", str(self.layer), *more, status=1)
                self.assertEqual(told, (
                    f"overlayd-export: {BEGIN}process {server.process.pid} saves the upper to "
                    f"{self.saved} as its standard input ends, but not by a signal; have whoever "
                    f"started it end that, and then: {self.by_hand()}\n"))
            self.assertFalse(self.layer.exists())
            self.assertEqual(server.end(), 0)
        self.assertEqual(self.export(*shlex.split(self.by_hand())[2:]),
                         f"overlayd-export: {made} objects, 0 whiteouts\n")
        self.assertEqual(self.names(), [str(number) for number in range(made)])

    def test_the_line_of_a_server_of_overlayd_serve_can_be_followed(self) -> None:
        with self.supervised("--save", self.saved.name) as process:
            made = filled(self.client())
            told = self.export(self.socket, "--layer", str(self.layer), status=1)
            self.assertEqual(told, (
                f"overlayd-export: {BEGIN}`kill -TERM {process.pid}` ends it in order, which saves "
                f"the upper to {self.saved}, and then: {self.by_hand()}; --end-if-full does "
                "both\n"))
            self.assertIsNone(process.poll())
            os.kill(process.pid, signal.SIGTERM)
            self.assertEqual(process.wait(WAIT), 0)
        self.export(*shlex.split(self.by_hand())[2:])
        self.assertEqual(self.names(), [str(number) for number in range(made)])

    def test_a_full_server_is_ended_in_one_go(self) -> None:
        """What another save has left is no export, and what isn't said isn't ended."""
        self.saved.write_text("[[layer]]\n")
        with self.supervised("--save", str(self.saved)) as process:
            made = filled(self.client())
            told = self.export(self.socket, "--layer", str(self.layer), "--end-if-full")
            self.assertEqual(told, (
                "overlayd-export: the server's history was full: it is ended, and saved its upper "
                f"to {self.saved}, which is exported\n"
                f"overlayd-export: {made} objects, 0 whiteouts\n"))
            self.assertEqual(process.wait(WAIT), 0)
        self.assertEqual(self.names(), [str(number) for number in range(made)])

    def test_a_history_that_gets_full_under_the_export(self) -> None:
        with self.supervised("--save", str(self.saved)):
            self.client().mkdir("/a")
            self.export(self.socket, "--layer", str(self.layer), "--end-if-full")
        self.assertEqual(self.names(), ["a"])

    def test_a_server_that_has_room_goes_on(self) -> None:
        with self.supervised("--save", str(self.saved), places=99) as process:
            client = self.client()
            client.mkdir("/a")
            told = self.export(self.socket, "--layer", str(self.layer), "--end-if-full")
            self.assertEqual(told, "overlayd-export: 1 objects, 0 whiteouts\n")
            client.mkdir("/b")
            self.assertIsNone(process.poll())
            self.assertFalse(self.saved.exists())

    def test_what_saves_nothing_is_never_ended(self) -> None:
        with self.supervised() as process:
            filled(self.client())
            for more in ([], ["--end-if-full"]):
                told = self.export(self.socket, "--layer", str(self.layer), *more, status=1)
                self.assertRegex(told, f"^overlayd-export: {BEGIN}process [0-9]+ saves nothing, as "
                                 "it has no --save, and what was changed will be lost; serve with "
                                 "--no-history\n$")
            self.assertIsNone(process.poll())


class EndingTest(FullCase):
    """Without a server of its own."""

    def test_a_server_of_which_nothing_is_known(self) -> None:
        path = str(self.folder / "s")
        self.assertEqual(ending_of(path), Ending(0, None, 0))
        with socket.socket(socket.AF_UNIX) as link:
            link.bind(path)
            link.listen()
            self.assertEqual(ending_of(path), Ending(0, None, 0))
        self.assertEqual(advice(Ending(0, None, 0), "COMMAND"), BEGIN + (
            "have it end in order, which saves the upper to the file of its --save (by SIGTERM to "
            "overlayd-serve, or the end of the input of a server with --until-eof), and then: "
            "COMMAND"))

    def test_a_file_that_is_another_one_here(self) -> None:
        """As of a server in a container: its name leads elsewhere, and nothing is said of it."""
        with self.listening("serve", "--save=/nonexistent/saved") as process:
            self.assertEqual(ending_of(self.path), Ending(0, None, 0))
            self.assertIsNone(process.poll())
        with self.listening("serve", f"--save={self.folder}/x", "--save", "saved") as process:
            self.assertEqual(ending_of(self.path),
                             Ending(process.pid, f"{self.folder.resolve()}/saved", 0))

    @contextlib.contextmanager
    def listening(self, *words: str) -> Iterator["subprocess.Popen[bytes]"]:
        """A process with a command line, which listens."""
        self.path = str(self.folder / "l")
        listens = ("import socket, sys; link = socket.socket(socket.AF_UNIX); "
                   f"link.bind({self.path!r}); link.listen(); print(flush=True); sys.stdin.read()")
        with subprocess.Popen([sys.executable, "-c", listens, *words], cwd=self.folder,
                              stdin=subprocess.PIPE, stdout=subprocess.PIPE) as process:
            assert process.stdout is not None
            process.stdout.readline()
            try:
                yield process
            finally:
                process.kill()
                os.unlink(self.path)

    def test_a_server_that_ended_meanwhile_or_saved_nothing(self) -> None:
        self.saved.write_text("of another time")
        with subprocess.Popen(["sleep", "1000"]) as process:
            told = Ending(process.pid, str(self.saved), process.pid)
            with self.assertRaisesRegex(Unsayable, "^the server has ended meanwhile$"):
                end(str(self.folder / "s"), told)
            self.assertIsNone(process.poll())
            with mock.patch("overlayd.exporter.full.ending_of", lambda path: told):
                with self.assertRaisesRegex(Unsayable, "^the server has ended, and saved nothing "
                                            f"to {re.escape(str(self.saved))}$"):
                    end("", told)
            self.assertEqual(process.wait(WAIT), -signal.SIGTERM)

    def test_with_what_was_saved_there_is_nothing_to_end(self) -> None:
        with contextlib.redirect_stderr(io.StringIO()) as told, self.assertRaises(SystemExit):
            main(["--manifest", str(self.saved), "--layer", "x", "--end-if-full"])
        self.assertIn("--end-if-full is for a SOCKET", told.getvalue())


if __name__ == "__main__":
    unittest.main()
