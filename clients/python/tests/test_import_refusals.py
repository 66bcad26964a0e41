"""What a manifest can't carry: told, or refused by --strict; and the command's own manners."""

import io
import os
import re
import subprocess
import sys
import tarfile
import tempfile
import unittest
from pathlib import Path
from typing import List
from unittest import mock

from overlayd.importer.telling import Report

from . import import_tools as tools
from .import_tools import Member, directory, file, tar_of

PYTHON = str(Path(__file__).resolve().parents[1])
COMMAND = [sys.executable, "-m", "overlayd.importer"]
MISSING = Member("sub/lost", tarfile.LNKTYPE, link="nowhere")
LONG = "n" * 250 + "/"
# What is left out of a tar, and the line that tells it behind the tar's name.
LEFT_OUT = [
    (Member("fifo", tarfile.FIFOTYPE), "/fifo: a fifo"),
    (Member("null", tarfile.CHRTYPE, device=(1, 3)), "/null: a character device"),
    (Member("disk", tarfile.BLKTYPE, device=(8, 0)), "/disk: a block device"),
    (file("large", b"x" * 1_048_577),
     "/large: a file of 1,048,577 bytes; at most 1,048,576 fit"),
    (file(b"sub/\xff"), "/sub/\\xff: its name isn't UTF-8"),
    (file("../up"), "/../up: its name is none that a layer can have"),
    (file("n" * 256), f"/{'n' * 256}: its name is longer than 255 bytes"),
    (directory(LONG * 17), f"/{(LONG * 17)[:-1]}: its path is longer than 4,095 bytes"),
    (Member("way", tarfile.SYMTYPE, link="x" * 4096),
     "/way: a symbolic link to a path longer than 4,095 bytes"),
    (file("caps", attrs={"security.capability": "x"}),
     "/caps: attribute security.capability: no user attribute"),
    (file("acl", headers={"SCHILY.acl.access": "user::rw-"}),
     "/acl: attribute SCHILY.acl.access: no user attribute"),
    (file("bare", attrs={"user.": "x"}), "/bare: attribute user.: no user attribute"),
    (file("big", attrs={"user.v": "x" * 1025}),
     "/big: attribute user.v: its value is longer than 1,024 bytes"),
    (MISSING, "/sub/lost: a hard link to /nowhere, which is no file of this layer or one below"),
    (file(".wh..wh.plnk"), "/.wh..wh.plnk: a mark that says nothing of the layer"),
    (file("plain/below"), "/plain/below: what is above it in this layer is no directory"),
]
# What hides the same things of a lower layer.
COVERED = """[[layer]]

[[layer.entry]]
path = "/fifo"
kind = "whiteout"

[[layer.entry]]
path = "/large"
kind = "whiteout"

[[layer.entry]]
path = "/sub"
kind = "dir"

[[layer.entry]]
path = "/sub/lost"
kind = "whiteout"

[[layer]]

[[layer.entry]]
path = "/sub"
kind = "dir"

[[layer.entry]]
path = "/fifo"
kind = "file"

[[layer.entry]]
path = "/large"
kind = "file"
"""
# At most 1 MiB a file, as where a manifest says nothing of it.
LIMIT = ("--file-limit", "1048576")
BASE = [directory("sub/"), file("plain"), file("kept", b"kept")]


class RefusalTest(unittest.TestCase):
    """Things that are left out."""

    maxDiff = None

    def setUp(self) -> None:
        folder = tempfile.TemporaryDirectory()
        self.addCleanup(folder.cleanup)
        self.folder = Path(folder.name)

    def tar(self, name: str, members: List[Member]) -> str:
        """A tar in the test's folder; its path."""
        (self.folder / name).write_bytes(tar_of(members))
        return str(self.folder / name)

    def test_one_line_each(self) -> None:
        """Each thing is told, the rest is imported; with --strict each is refused."""
        for member, told in LEFT_OUT:
            with self.subTest(told=told):
                path = self.tar("layer.tar", [*BASE, member])
                run = tools.run_import(path, *LIMIT)
                self.assertEqual(run.status, 0, run.errors)
                self.assertEqual(run.errors[:-1], [f"overlayd-import: left out: {path}: {told}"])
                self.assertIn("; 1 left out (1 ", run.errors[-1])
                self.assertIn('text = "kept"', run.manifest)
                run = tools.run_import(path, "--strict", *LIMIT)
                self.assertEqual(run, tools.Run(1, "", [
                    f"overlayd-import: {path}: {told} (--strict)"]))

    def test_nothing_older_shows(self) -> None:
        """A whiteout stands where something was left out over a lower layer, in no other place."""
        members = [member for member, _ in LEFT_OUT if member.name in ("fifo", "large")]
        upper = self.tar("upper.tar", [*members, MISSING])
        lower = self.tar("lower.tar", [directory("sub/"), file("fifo"), file("large"), *members])
        run = tools.run_import(upper, lower, "--quiet", *LIMIT)
        self.assertEqual(run.manifest, "file_limit = 1048576\n\n" + COVERED)
        self.assertEqual(run.errors, [
            "overlayd-import: 2 layers, 7 objects, 0 bytes; 5 left out (2 of another kind, "
            "2 over the limit, 1 without what they lead to)"])

    def test_directories_tell_too(self) -> None:
        """A fifo, a large file, and a name that isn't UTF-8 with all that is in it."""
        top = self.folder / "layer"
        top.mkdir()
        os.mkfifo(top / "fifo")
        (top / "large").write_bytes(bytes(1_048_577))
        (top / "fits").write_bytes(bytes(1_048_576))
        try:
            os.mkdir(os.fsencode(top) + b"/\xff")
        except OSError:
            tools.skip(self.id(), "this file system has UTF-8 names alone")
        Path(os.fsdecode(os.fsencode(top) + b"/\xff/in")).touch()
        run = tools.run_import(str(top), *LIMIT)
        where = f"overlayd-import: left out: {top}: "
        # the roots are entries where they don't belong to 0:0
        roots = 2 if (os.getuid(), os.getgid()) != (0, 0) else 0
        self.assertEqual(run.errors, [
            f"{where}/fifo: a fifo",
            f"{where}/large: a file of 1,048,577 bytes; at most 1,048,576 fit",
            f"{where}/\\xff: its name isn't UTF-8, and all in it",
            f"overlayd-import: 2 layers, {roots + 1} objects, 1,048,576 bytes; 3 left out "
            "(1 names and targets, 1 of another kind, 1 over the limit)"])
        self.assertIn("zeros = 1048576", run.manifest)
        self.assertEqual(tools.run_import(str(top), "--strict").errors,
                         [f"overlayd-import: {top}: /fifo: a fifo (--strict)"])


class CommandTest(unittest.TestCase):
    """The command line."""

    def setUp(self) -> None:
        folder = tempfile.TemporaryDirectory()
        self.addCleanup(folder.cleanup)
        self.folder = Path(folder.name)
        self.folder.chmod(0o755)
        self.layer = self.folder / "layer.tar"
        self.layer.write_bytes(tar_of([file("a", b"1"), file("b/c", b"2")]))

    def run_command(self, *words: str, data: bytes = b"") -> "subprocess.CompletedProcess[bytes]":
        """Runs the command as a program of its own."""
        return subprocess.run([*COMMAND, *words], input=data, capture_output=True, check=False,
                              cwd=self.folder, env={**os.environ, "PYTHONPATH": PYTHON})

    def test_standard_streams(self) -> None:
        """`-` is standard input and output, also for what is strict."""
        self.assertEqual(self.run_command("layer.tar", "-o", "m.toml").returncode, 0)
        expected = (self.folder / "m.toml").read_bytes()
        self.assertIn(b'path = "/b/c"', expected)
        self.assertEqual(self.run_command("layer.tar").stdout, expected)
        self.assertEqual(self.run_command("layer.tar", "-o", "-", "--strict").stdout, expected)
        self.assertEqual(self.run_command("-", data=self.layer.read_bytes()).stdout, expected)

    def test_usage(self) -> None:
        """Wrong usage is status 2; help is status 0 and names every option."""
        for words in ([], ["layer.tar", "--history", "1"], ["layer.tar", "--redirect-dir", "x"],
                      ["layer.tar", "--metacopy", "x"], ["layer.tar", "--unknown"],
                      ["layer.tar", "--read-only", "--empty-upper"]):
            self.assertEqual(self.run_command(*words).returncode, 2, words)
        for words in ([], ["--redirect-dir", "off"]):
            done = self.run_command("layer.tar", "--metacopy", "on", *words)
            self.assertEqual(done.returncode, 2, words)
            self.assertTrue(done.stderr.endswith(
                b"overlayd-import: error: --metacopy on needs --redirect-dir on, or "
                b"--read-only\n"), done.stderr)
        helped = self.run_command("--help")
        self.assertEqual(helped.returncode, 0)
        for word in ("--strict", "--quiet", "--empty-upper", "--read-only", "--image",
                     "--platform", "--history", "--redirect-dir", "--metacopy", "--output",
                     "exit status"):
            self.assertIn(word, helped.stdout.decode())

    def test_failures(self) -> None:
        """A failure is status 1 and one line; an earlier manifest stays as it was."""
        (self.folder / "m.toml").write_text("before")
        (self.folder / "dir").mkdir()
        for words, line in (
                (["none"], "none: No such file or directory"),
                (["layer.tar", "-o", "no/m.toml"], "no/m.toml: No such file or directory"),
                (["dir:layer.tar"], "layer.tar: no directory"),
                (["tar:dir"], "dir: a directory and no tar"),
                (["image:dir"], "dir: no archive of docker save and no OCI layout"),
                (["image:layer.tar"], "layer.tar: no archive of docker save and no OCI layout")):
            done = self.run_command("-o", "m.toml", *words)
            self.assertEqual(done.returncode, 1, words)
            self.assertEqual(done.stderr.decode(), f"overlayd-import: {line}\n")
            self.assertEqual((self.folder / "m.toml").read_text(), "before")
            self.assertEqual(sorted(os.listdir(self.folder)), ["dir", "layer.tar", "m.toml"])

    def test_mode_of_the_manifest(self) -> None:
        """The manifest has the mode that any new file has."""
        mask = os.umask(0o027)
        try:
            self.assertEqual(self.run_command("layer.tar", "-o", "m.toml").returncode, 0)
        finally:
            os.umask(mask)
        self.assertEqual((self.folder / "m.toml").stat().st_mode & 0o777, 0o640)

    def test_output_inside_the_source(self) -> None:
        """The unfinished manifest is no part of the directory that is imported."""
        self.assertEqual(self.run_command(".", "-o", "m.toml").returncode, 0)
        manifest = (self.folder / "m.toml").read_text()
        self.assertEqual(re.findall('path = "(/.+)"', manifest), ["/layer.tar"])

    def test_a_stream_as_output(self) -> None:
        """What is no file is written to, and stays what it is."""
        fifo = self.folder / "fifo"
        os.mkfifo(fifo)
        for words in ([], ["--strict"]):
            with subprocess.Popen(["cat", str(fifo)], stdout=subprocess.PIPE) as cat:
                done = self.run_command("layer.tar", "-o", "fifo", *words)
                got = cat.communicate()[0]
            self.assertEqual(done.returncode, 0, done.stderr)
            self.assertEqual(got.count(b"[[layer.entry]]"), 3)
        self.assertTrue(fifo.is_fifo())

    def test_nobody_reads(self) -> None:
        """A closed standard output is a failure with one line."""
        reader, writer = os.pipe()
        os.close(reader)
        with open(writer, "wb") as closed:
            done = subprocess.run([*COMMAND, str(self.layer)], stdout=closed, check=False,
                                  stderr=subprocess.PIPE,
                                  env={**os.environ, "PYTHONPATH": PYTHON})
        self.assertEqual(done.returncode, 1)
        self.assertEqual(done.stderr, b"overlayd-import: nobody reads the output any more\n")


class Terminal(io.StringIO):
    """A standard error that is a terminal."""

    def isatty(self) -> bool:
        return True


class ReportTest(unittest.TestCase):
    """What is said on the way."""

    def test_progress(self) -> None:
        """On a terminal a line that is drawn over, at most five times a second, and wiped."""
        out = Terminal()
        with mock.patch("time.monotonic", side_effect=[0.0, 0.4, 0.6, 0.6, 0.7, 0.9, 0.9]):
            report = Report(out)
            report.progress("layer 1 of 2", 10)
            report.progress("layer 1 of 2", 2000, 5_000_000)
            report.progress("layer 1 of 2", 2001, 5_000_000)
            report.progress("layer 2 of 2", 3, 6_000_000)
        report.sum_up(2, 3, 4)
        first = "\roverlayd-import: layer 1 of 2: 2,000 objects, 5 MB"
        second = "\roverlayd-import: layer 2 of 2: 3 objects, 6 MB    "
        self.assertEqual(out.getvalue(), first + second + "\r" + " " * 46 + "\r"
                         "overlayd-import: 2 layers, 3 objects, 4 bytes; nothing left out but "
                         "times\n")

    def test_no_terminal(self) -> None:
        """Elsewhere there is no progress."""
        out = io.StringIO()
        with mock.patch("time.monotonic", return_value=9.0):
            report = Report(out)
        report.progress("layer 1 of 2", 10)
        self.assertEqual(out.getvalue(), "")
