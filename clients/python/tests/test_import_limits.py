"""The most bytes of a file: what a manifest says of it, and what is left out for it."""

import contextlib
import io
import os
import tempfile
import unittest
from pathlib import Path
from typing import List, Optional, Tuple
from unittest import mock

from overlayd.importer.checking import check
from overlayd.importer.command import main
from overlayd.importer.plan import Wish, Writable, file_limit_of

from . import import_tools as tools
from .import_tools import file, tar_of

MIB = 1 << 20
# How many bytes the largest file has, and the file_limit for it.
NEEDED: List[Tuple[int, int]] = [
    (MIB + 1, 2 * MIB), (2 * MIB - 1, 2 * MIB), (2 * MIB, 2 * MIB), (2 * MIB + 1, 3 * MIB)]


def head(manifest: str) -> str:
    """What a manifest says before its first layer."""
    return manifest.partition("[[layer]]")[0].strip()


class LimitTest(unittest.TestCase):
    """Files about as large as a mount lets them be."""

    def setUp(self) -> None:
        folder = tempfile.TemporaryDirectory()
        self.addCleanup(folder.cleanup)
        self.folder = Path(folder.name)

    def directory(self, name: str, sizes: List[int]) -> str:
        """A directory with a file of each size, the first one below another directory."""
        top = self.folder / name
        (top / "d").mkdir(parents=True)
        for number, size in enumerate(sizes):
            path = top / ("d/f" if number == 0 else f"f{number}")
            path.touch()
            os.truncate(path, size)
        return str(top)

    def tar(self, name: str, sizes: List[int]) -> str:
        """A tar with a file of each size."""
        members = [file(f"d/f{number}", bytes(size)) for number, size in enumerate(sizes)]
        (self.folder / name).write_bytes(tar_of(members))
        return str(self.folder / name)

    def test_nothing_is_said(self) -> None:
        """Where each file fits without the key."""
        for source in (self.directory("none", []), self.directory("some", [MIB, 1]),
                       self.tar("tar", [1, MIB])):
            run = tools.run_import(source)
            self.assertEqual((run.status, head(run.manifest)), (0, ""), source)

    def test_what_the_largest_file_needs(self) -> None:
        """As many whole MiB, of whatever source the file is, and nothing is left out."""
        for size, limit in NEEDED:
            sources = [self.directory(f"large{size}", [size, MIB]), self.tar("large", [2, size])]
            for words in (sources[:1], sources[1:], ["--history", "7", *sources],
                          [self.directory(f"upper{size}", [3]), *sources]):
                run = tools.run_import(*words)
                lines = ["history = 7"] if "--history" in words else []
                self.assertEqual(head(run.manifest).splitlines(),
                                 [*lines, f"file_limit = {limit}"])
                self.assertIn("nothing left out", run.errors[-1])
                self.assertIn(f"zeros = {size}\n", run.manifest)
                self.assertEqual(check(run.manifest.encode()).faults, [])

    def test_what_is_asked_for(self) -> None:
        """The number is written whether a file needs it or not, and a byte more is left out."""
        for source in (self.directory("asked", [11, 10]), self.tar("asked.tar", [11, 10])):
            for limit in (11, 12, MIB, 1 << 40):
                run = tools.run_import(source, "--file-limit", str(limit))
                self.assertEqual(head(run.manifest), f"file_limit = {limit}")
                self.assertIn("nothing left out", run.errors[-1])
            run = tools.run_import(source, "--file-limit", "10")
            self.assertEqual(head(run.manifest), "file_limit = 10")
            self.assertRegex(run.errors[0], "a file of 11 bytes; at most 10 fit$")
            self.assertIn("1 over the limit", run.errors[-1])
            self.assertEqual(check(run.manifest.encode()).faults, [])

    def test_a_file_that_grows_meanwhile(self) -> None:
        """One that was looked at before and is larger now than the manifest says is left out."""
        source = self.directory("grown", [5])

        def then_grow(wish: Wish, layers: List[Writable]) -> Optional[int]:
            limit = file_limit_of(wish, layers)
            os.truncate(Path(source, "d", "f"), MIB + 1)
            return limit

        errors = io.StringIO()
        manifest = self.folder / "m.toml"
        with mock.patch("overlayd.importer.command.file_limit_of", then_grow), \
                contextlib.redirect_stderr(errors):
            status = main([source, "-o", str(manifest)])
        self.assertEqual(status, 0)
        self.assertIn("a file of 1,048,577 bytes; at most 1,048,576 fit", errors.getvalue())
        self.assertEqual(head(manifest.read_text("utf-8")), "")

    def test_numbers_that_are_none(self) -> None:
        """Wrong usage, by which nothing is written."""
        for number in ("0", "-1", "1099511627777", "1M", ""):
            errors = io.StringIO()
            with self.subTest(number=number), contextlib.redirect_stderr(errors), \
                    self.assertRaises(SystemExit) as ended:
                main([str(self.folder), f"--file-limit={number}"])
            self.assertEqual(ended.exception.code, 2)
            self.assertIn("--file-limit", errors.getvalue())
