"""Warnings of --check, and the check of scripts."""

import contextlib
import io
import subprocess
import tempfile
import unittest
from pathlib import Path
from typing import List, Tuple

from overlayd.importer.checking import check
from overlayd.importer.command import main
from overlayd.importer.scripts import check_script

from . import import_tools as tools

ENTRY = '[[layer.entry]]\npath = "{}"\nkind = "{}"\n'
META = "1 b 64768 1.000000000 1.000000000 1.000000000"


def doubts(text: str) -> List[Tuple[int, str]]:
    """The lines and places of warnings."""
    found = check(text.encode())
    assert found.first is None, found
    return [(doubt.line, doubt.place) for doubt in found.doubts]


class DoubtTest(unittest.TestCase):
    """What is likely a mistake."""

    def test_modes(self) -> None:
        """Decimal digits that read as an octal mode, where what they say is odd."""
        for mode, is_odd in (("755", True), ("644", True), ("0o755", False), ("493", False),
                             ("420", False), ("0o1363", False), ("640", True),
                             ("700", True), ("777", True), ("511", False)):
            text = "[[layer]]\n[[layer]]\n" + ENTRY.format("/f", "file") + f"mode = {mode}\n"
            with self.subTest(mode):
                self.assertEqual(doubts(text),
                                 [(6, "layer 1 entry 0: /f: mode")] if is_odd else [])

    def test_empty_layers(self) -> None:
        """No entry anywhere; a lower layer of several without one. An empty upper is usual."""
        self.assertEqual(doubts("[[layer]]\n[[layer]]\n"), [(1, "layer")])
        entry = ENTRY.format("/f", "file")
        self.assertEqual(doubts(f"[[layer]]\n[[layer]]\n{entry}"), [])
        self.assertEqual(doubts(f"[[layer]]\n[[layer]]\n{entry}[[layer]]\n"), [(6, "layer 2")])

    def test_redirects(self) -> None:
        """One that leads to nothing, and one that leads to a directory."""
        head = "[[layer]]\n" + ENTRY.format("/d", "dir")
        for redirect, count in (("/e", 0), ("e", 0), ("/none", 1), ("none", 1), ("/f", 1)):
            text = (head + f'redirect = "{redirect}"\n[[layer]]\n' + ENTRY.format("/e", "dir")
                    + ENTRY.format("/f", "file"))
            with self.subTest(redirect):
                self.assertEqual(doubts(text), [(5, "layer 0 entry 0: /d: redirect")] * count)

    def test_devices(self) -> None:
        """An attribute that makes a device on a mount."""
        text = ("[[layer]]\n[[layer]]\n" + ENTRY.format("/f", "file")
                + f'attrs = [["user.overlayd.meta", "{META}"]]\n')
        self.assertEqual(doubts(text), [(6, "layer 1 entry 0: /f: attrs")])

    def test_command(self) -> None:
        """Warnings are lines, and the status is 0."""
        with tempfile.TemporaryDirectory() as folder:
            path = Path(folder, "m.toml")
            path.write_text("[[layer]]\n[[layer]]\n")
            out, errors = io.StringIO(), io.StringIO()
            with contextlib.redirect_stdout(out), contextlib.redirect_stderr(errors):
                self.assertEqual(main(["--check", str(path)]), 0)
        self.assertIn(":1: layer: warning: no layer has an entry", out.getvalue())
        self.assertIn("warnings: 1", errors.getvalue())


BASE = "[[layer]]\n[[layer]]\n" + ENTRY.format("/etc", "dir")
# Files of one layer, and what overlayd says of each with --upper.
UPPERS = [
    ("[[layer]]\n", None),
    ("layer = [{}]\n", None),
    ("[[layer]]\n" + ENTRY.format("/f", "file") + "zeros = 1048577\n", "layer 0 entry 0: value"),
    ("[[layer]]\n" + ENTRY.format("/a", "dir") + ENTRY.format("/a", "dir")
     + ENTRY.format("/b", "dri"), "layer 0 entry 1: exists"),
    ("[[layer]]\nentri = []\n" + ENTRY.format("/a", "dri"), "manifest: key"),
]


class SavedUpperTest(unittest.TestCase):
    """One layer and nothing else is no manifest, and may be an upper that --save has left."""

    def test_faults(self) -> None:
        """The fault of the whole, and what is said of the layer itself."""
        for text, said in UPPERS:
            with self.subTest(text):
                found = check(text.encode())
                self.assertTrue(found.is_upper)
                self.assertEqual(found.first, "manifest: key" if said == "manifest: key"
                                 else "manifest: layers")
                # how large its files may be is what the manifest says that it goes on with
                self.assertEqual(found.first_above, None if "zeros" in text else said)

    def test_others(self) -> None:
        """What is no saved upper: another key beside it, no layer, more than one."""
        for text in ("history = 5\n[[layer]]\n", "layer = []\n", "", BASE, "layer = 1\n"):
            with self.subTest(text):
                found = check(text.encode())
                self.assertEqual((found.is_upper, found.first_above), (False, None))

    def test_in_the_program(self) -> None:
        """It says the same of each of them."""
        program = tools.overlayd()
        if program is None:
            tools.skip(self.id(), "no overlayd was built (environment variable OVERLAYD)")
        with tempfile.TemporaryDirectory() as folder:
            base, saved = Path(folder, "m.toml"), Path(folder, "saved.toml")
            base.write_text(BASE)
            for text, said in UPPERS:
                saved.write_text(text)
                done = subprocess.run([program, "show", str(base), "--upper", str(saved)],
                                      check=False, capture_output=True, text=True)
                with self.subTest(text):
                    self.assertEqual((done.returncode, done.stderr),
                                     (1, f"overlayd: {saved}: {said}\n") if said else (0, ""))

    def test_command(self) -> None:
        """The line of the layer's own fault, and both in the last line."""
        with tempfile.TemporaryDirectory() as folder:
            path = Path(folder, "saved.toml")
            path.write_text("[[layer]]\n" + ENTRY.format("/a", "dir") + "mode = 4096\n")
            out, errors = io.StringIO(), io.StringIO()
            with contextlib.redirect_stdout(out), contextlib.redirect_stderr(errors):
                self.assertEqual(main(["--check", str(path)]), 1)
        first, second = out.getvalue().splitlines()
        self.assertTrue(first.startswith(f"{path}:1: layer: "), first)
        self.assertIn("--upper", first)
        self.assertEqual(second, f"{path}:5: layer 0 entry 0: /a: mode: from 0 to 0o7777, "
                         "and not 4096")
        self.assertEqual(errors.getvalue(), f"overlayd-import: {path}: 2 faults; overlayd says "
                         "`manifest: layers`, with --upper `layer 0 entry 0: value`\n")


# Lines, and whether one of them is a bad command of a client 0 that is attached.
LINES = [
    ("0 stat /", True), ("0 stat", False), ("0 stat / /", False), ("0 open r /f", True),
    ("0 open rw /f", False), ("0 open wct /f 644", True), ("0 open wcc /f", False),
    ("0 mkdir 0o755 /d", False), ("0 mkdir 755 /d", True), ("0 mkdir 1234567 /d", False),
    ("0  stat /", False), ("0 stat / ", False), (" 0 stat /", False), ("0\tstat /", False),
    ("1 stat /", False), ("0 stta /", False), ("0 read 3 10", True), ("0 read 3 -1", False),
    ("0 seek 3 -5 cur", True), ("0 seek 3 5 here", False), ("0 arm 3 18 /", True),
    ("0 arm 256 18 /", False), ("0 arm 3 123456789 /", False), ("0 write 3 a\\x0a", True),
    ("0 write 3 a\\x0A", False), ("0 write 3 \\-", True), ("0 write 3 a\\-", False),
    ("0 setattr / user.a \\x41", True), (f"{'0' * 50} stat /", True),
    (f"0 read 3 {'0' * 50}7", True), ("0 seek 3 -9223372036854775808 set", True),
    ("0 seek 3 9223372036854775808 set", False), ("0 step 0", False), ("4294967296 stat /", False),
 ("0 truncate 3 18446744073709551615", True),
    ("0 truncate 3 18446744073709551616", False), ("layer 0", True), ("layer", False),
    ("merge", True), ("merge 1", False), ("work", True), ("# any", True), ("", True),
    ("0 start stat /", True), ("0 start", False), ("0 start step", False), ("0 notices 5", True),
    ("hello", False), ("0", False), ("0 chown 1 2 /", True), ("0 chown 1 4294967296 /", False),
]


class ScriptTest(unittest.TestCase):
    """Scripts of play."""

    def test_lines(self) -> None:
        """Each line, alone."""
        for line, is_right in LINES:
            with self.subTest(line):
                found = list(check_script(io.BytesIO(f"attach\n{line}\n".encode())))
                self.assertEqual([fault.line for fault in found], [] if is_right else [2])

    def test_in_the_program(self) -> None:
        """It says the same of each of them."""
        program = tools.overlayd()
        if program is None:
            tools.skip(self.id(), "no overlayd was built (environment variable OVERLAYD)")
        with tempfile.TemporaryDirectory() as folder:
            path = Path(folder, "m.toml")
            path.write_text("[[layer]]\n[[layer]]\n")
            for line, is_right in LINES:
                done = subprocess.run([program, "play", str(path)], check=False,
                                      input=f"attach\n{line}\n".encode(), capture_output=True)
                with self.subTest(line):
                    self.assertEqual(done.returncode, 0 if is_right else 2, done.stderr)

    def test_words(self) -> None:
        """The line, the word at fault and what is allowed."""
        with tempfile.TemporaryDirectory() as folder:
            path = Path(folder, "s")
            path.write_bytes(b"attach\n# a comment\n0 open rw /f\n0 detach\n0 stat /\r\n")
            out, errors = io.StringIO(), io.StringIO()
            with contextlib.redirect_stdout(out), contextlib.redirect_stderr(errors):
                self.assertEqual(main(["--check-script", str(path)]), 1)
        self.assertEqual(out.getvalue().splitlines(), [
            f"{path}:3: rw: FLAGS is r, w or b, and then c, x, t, a and d, each once",
            f"{path}:5: the line ends with a carriage return; a line feed alone ends one"])
        self.assertEqual(errors.getvalue(), f"overlayd-import: {path}: 2 faults\n")


if __name__ == "__main__":
    unittest.main()
