"""Directories, and uppers of the kernel's overlayfs by their attributes."""

import os
import tempfile
import unittest
from pathlib import Path
from typing import List

from . import import_tools as tools

# The layer of an upper with all marks, by hand.
MARKED = """
[[layer.entry]]
path = "/lost"
kind = "dir"
opaque = true

[[layer.entry]]
path = "/moved"
kind = "dir"
redirect = "/from/there"

[[layer.entry]]
path = "/near"
kind = "dir"
redirect = "name"

[[layer.entry]]
path = "/opaque"
kind = "dir"
opaque = true

[[layer.entry]]
path = "/white"
kind = "dir"

[[layer.entry]]
path = "/white/f"
kind = "whiteout"

[[layer.entry]]
path = "/white/not"
kind = "file"
text = "x"
"""


class DirectoryTest(unittest.TestCase):
    """Layers that are directories."""

    maxDiff = None

    def setUp(self) -> None:
        folder = tempfile.TemporaryDirectory()
        self.addCleanup(folder.cleanup)
        self.folder = Path(folder.name)
        self.mask = os.umask(0o022)
        self.addCleanup(os.umask, self.mask)
        self.upper = self.folder / "upper"
        self.lower = self.folder / "lower"
        self.upper.mkdir()
        self.lower.mkdir()
        self.owner = f"uid = {os.getuid()}\n" if os.getuid() else ""
        self.owner += f"gid = {os.getgid()}\n" if os.getgid() else ""

    def set(self, path: Path, name: str, value: bytes) -> None:
        """Sets an attribute; the test is skipped where that can't be."""
        tools.set_attribute(self.id(), path, name, value)

    def layers(self, run: tools.Run) -> List[str]:
        """The text of each layer, without the test's own owner; nothing failed."""
        self.assertEqual(run.status, 0, run.errors)
        manifest = run.manifest
        if self.owner:
            root = '[[layer.entry]]\npath = "/"\nkind = "dir"\n'
            manifest = manifest.replace(self.owner, "").replace(root, "")
        return [layer.strip() for layer in manifest.split("[[layer]]\n")[1:]]

    def test_plain_directory(self) -> None:
        """Modes, names by their bytes, links, and an empty upper over it."""
        top = self.lower
        (top / "b").mkdir(mode=0o711)
        (top / "b" / "x").write_bytes(b"\xff\x00")
        (top / "b" / "x").chmod(0o4711)
        (top / "a b").write_text("text\n")
        (top / "\u00e9").symlink_to("b/x")
        os.link(top / "b" / "x", top / "c")
        self.assertEqual(self.layers(tools.run_import(str(top))), ["", r"""
[[layer.entry]]
path = "/a b"
kind = "file"
text = "text\n"

[[layer.entry]]
path = "/b"
kind = "dir"
mode = 0o711

[[layer.entry]]
path = "/b/x"
kind = "file"
mode = 0o4711
hex = "ff00"

[[layer.entry]]
path = "/c"
kind = "link"
to = "/b/x"

[[layer.entry]]
path = "/é"
kind = "symlink"
target = "b/x"
""".strip()])

    def test_upper_over_lower(self) -> None:
        """The first source is the upper; options are written."""
        (self.upper / "u").touch()
        (self.lower / "l").touch()
        run = tools.run_import(str(self.upper), str(self.lower), "--redirect-dir", "on",
                               "--history", "7")
        self.assertTrue(run.manifest.startswith('redirect_dir = "on"\nhistory = 7\n\n[[layer]]'))
        self.assertEqual(self.layers(run), ['[[layer.entry]]\npath = "/u"\nkind = "file"',
                                            '[[layer.entry]]\npath = "/l"\nkind = "file"'])
        run = tools.run_import(str(self.upper), str(self.lower), "--empty-upper")
        self.assertEqual(len(self.layers(run)), 3)

    def test_read_only(self) -> None:
        """Each directory is a lower layer, and the manifest says so before its options."""
        (self.upper / "u").touch()
        (self.lower / "l").touch()
        run = tools.run_import(str(self.upper), str(self.lower), "--read-only", "--metacopy", "on")
        self.assertTrue(run.manifest.startswith('upper = false\nmetacopy = "on"\n\n[[layer]]'))
        self.assertEqual(self.layers(run), ['[[layer.entry]]\npath = "/u"\nkind = "file"',
                                            '[[layer.entry]]\npath = "/l"\nkind = "file"'])

    def test_read_only_alone(self) -> None:
        """One directory alone gets an empty layer below it, so that there are two."""
        self.lower.chmod(0o700)
        run = tools.run_import(str(self.lower), "--read-only")
        first, second = self.layers(run)
        self.assertIn("mode = 0o700", first)
        self.assertEqual(second, "")

    def test_read_only_many(self) -> None:
        """16 directories are 16 layers; of 17 the lowest two are made one."""
        folders = []
        for number in range(17):
            folder = self.folder / str(number)
            folder.mkdir()
            (folder / f"f{number}").touch()
            folders.append(str(folder))
        run = tools.run_import(*folders[:16], "--read-only")
        self.assertEqual((len(self.layers(run)), len(run.errors)), (16, 1))
        run = tools.run_import(*folders, "--read-only")
        self.assertEqual(run.errors[0], "overlayd-import: 17 lower layers, of which 16 fit: the "
                                        "lowest 2 are made one")
        self.assertEqual(self.layers(run)[14:], [
            '[[layer.entry]]\npath = "/f14"\nkind = "file"',
            '[[layer.entry]]\npath = "/f15"\nkind = "file"\n\n'
            '[[layer.entry]]\npath = "/f16"\nkind = "file"'])

    def test_user_attributes(self) -> None:
        """They are kept by their names; others are told."""
        path = self.lower / "f"
        path.touch()
        self.set(path, "user.b", b"2")
        self.set(path, "user.a", b"\xc3\xa9\n")
        self.set(path, "user.bad", b"\xff")
        self.set(path, "user.long", b"x" * 1025)
        run = tools.run_import(str(self.lower))
        self.assertEqual(self.layers(run)[1], r"""[[layer.entry]]
path = "/f"
kind = "file"
attrs = [["user.a", "é\n"], ["user.b", "2"]]""")
        where = f"overlayd-import: left out: {self.lower}: /f: attribute"
        self.assertEqual(run.errors, [
            f"{where} user.bad: its value isn't UTF-8",
            f"{where} user.long: its value is longer than 1,024 bytes",
            f"overlayd-import: 2 layers, {3 if self.owner else 1} objects, 0 bytes; 2 left out "
            "(2 attributes)"])

    def test_user_marks(self) -> None:
        """The marks of overlayfs with `user.` before them."""
        self.marks("user.")

    def test_trusted_marks(self) -> None:
        """The marks of overlayfs with `trusted.` before them."""
        self.marks("trusted.")

    def marks(self, prefix: str) -> None:
        """Opaque, redirects, whiteouts by attribute; what the kernel keeps for itself isn't told.
        """
        for name in ("moved", "near", "opaque", "white", "lost"):
            (self.upper / name).mkdir()
        (self.upper / "white" / "f").touch()
        (self.upper / "white" / "not").write_text("x")
        self.set(self.upper / "moved", f"{prefix}overlay.redirect", b"/from/there")
        self.set(self.upper / "near", f"{prefix}overlay.redirect", b"name")
        self.set(self.upper / "lost", f"{prefix}overlay.redirect", b"\xff")
        self.set(self.upper / "opaque", f"{prefix}overlay.opaque", b"y")
        self.set(self.upper / "white", f"{prefix}overlay.opaque", b"x")
        self.set(self.upper / "white" / "f", f"{prefix}overlay.whiteout", b"y")
        self.set(self.upper / "white" / "not", f"{prefix}overlay.whiteout", b"y")
        self.set(self.upper / "near", f"{prefix}overlay.origin", b"\0\xff")
        run = tools.run_import(str(self.upper), str(self.lower))
        self.assertEqual(self.layers(run)[0], MARKED.strip())
        self.assertEqual(len(run.errors), 2, run.errors)
        self.assertEqual(run.errors[0], f"overlayd-import: left out: {self.upper}: /lost: redirect "
                         "\\xff: none that a manifest can say; nothing below is shown")

    def test_devices(self) -> None:
        """0/0 is a whiteout; other devices are told."""
        if os.getuid() != 0:
            tools.skip(self.id(), "only root makes devices")
        try:
            os.mknod(self.upper / "gone", 0o20000, 0)
            os.mknod(self.upper / "null", 0o20666, os.makedev(1, 3))
        except PermissionError:
            tools.skip(self.id(), "devices can't be made here")
        run = tools.run_import(str(self.upper), str(self.lower))
        self.assertEqual(self.layers(run)[0], """
[[layer.entry]]
path = "/gone"
kind = "whiteout"

[[layer.entry]]
path = "/null"
kind = "whiteout"
""".strip())
        self.assertEqual(
            run.errors[0],
            f"overlayd-import: left out: {self.upper}: /null: a character device")

    def test_a_directory_that_is_an_image_by_its_names(self) -> None:
        """`dir:` takes it as a directory."""
        (self.lower / "oci-layout").write_text("{}")
        (self.lower / "index.json").write_text("{}")
        self.assertEqual(tools.run_import(str(self.lower)).errors, [
            f"overlayd-import: {self.lower}: its index has no manifests"])
        self.assertEqual(len(self.layers(tools.run_import(f"dir:{self.lower}"))), 2)

    def test_deep(self) -> None:
        """A tree deeper than Python's calls may be, up to the longest path."""
        handle = os.open(self.lower, os.O_RDONLY)
        for _ in range(1500):
            os.mkdir("d", dir_fd=handle)
            below = os.open("d", os.O_RDONLY, dir_fd=handle)
            os.close(handle)
            handle = below
        os.close(handle)
        self.addCleanup(os.removedirs, f"{self.lower}{'/d' * 1500}")
        layer = self.layers(tools.run_import(str(self.lower)))[1]
        self.assertEqual(layer.count('kind = "dir"'), 1500)
        self.assertIn(f'path = "{"/d" * 1500}"', layer)
