"""A whole root of Debian in and out: what tar or umoci makes of the export is the same tree, with
times to the nanosecond, owners, links, devices and attributes. The variable DEBIAN names the root:

    debootstrap --variant=minbase bookworm DIRECTORY
"""

import contextlib
import hashlib
import io
import os
import shutil
import stat
import subprocess
import tempfile
import unittest
from pathlib import Path
from typing import Any, Dict, Tuple

from overlayd.exporter.command import main as export
from overlayd.importer.command import main as load

from . import import_tools as tools

Tree = Dict[str, Tuple[Any, ...]]


def tree_of(root: Path) -> Tree:
    """What stands in a directory, by its paths."""
    found: Tree = {}
    first: Dict[Tuple[int, int], str] = {}
    for folder, directories, files in os.walk(root):
        for name in (".", *directories, *files):
            path = os.path.join(folder, name)
            inside = os.path.relpath(path, root)
            status = os.lstat(path)
            is_file, is_link = stat.S_ISREG(status.st_mode), stat.S_ISLNK(status.st_mode)
            identity = (status.st_dev, status.st_ino)
            found[inside] = (
                oct(status.st_mode), status.st_uid, status.st_gid, status.st_mtime_ns,
                status.st_rdev if status.st_mode & 0o020000 and not is_link else 0,
                "" if stat.S_ISDIR(status.st_mode) else first.setdefault(identity, inside),
                os.readlink(path) if is_link else "",
                hashlib.sha256(Path(path).read_bytes()).digest() if is_file else b"",
                [(key, os.getxattr(path, key, follow_symlinks=False))
                 for key in sorted(os.listxattr(path, follow_symlinks=False))])
    return found


class DebianTest(unittest.TestCase):
    """The root that is named."""

    def setUp(self) -> None:
        root = os.environ.get("DEBIAN")
        if not root or os.geteuid() != 0:
            tools.skip(self.id(), "root alone, and with the variable DEBIAN")
        folder = tempfile.TemporaryDirectory()
        self.addCleanup(folder.cleanup)
        self.root, self.folder = Path(root or ""), Path(folder.name)

    def run_command(self, command: Any, *words: object) -> str:
        """What a command says."""
        with contextlib.redirect_stderr(io.StringIO()) as errors:
            self.assertEqual(command([*map(str, words)]), 0, errors.getvalue())
        return errors.getvalue()

    def test_round_trip(self) -> None:
        """As a layer over nothing, and as an image."""
        whole, empty, layer = (self.folder / name for name in ("whole", "empty", "layer.tar"))
        told = self.run_command(load, "--devices", "--xattrs", "--blobs", self.root, "-o", whole)
        self.assertTrue(told.endswith("; nothing left out\n"), told)
        head, _, base = whole.read_text().split("[[layer]]")
        whole.write_text(f"{head}[[layer]]{base}")
        empty.write_text("[[layer]]\n[[layer]]\n")
        wanted = tree_of(self.root)
        self.run_command(export, empty, "--manifest", whole, "--layer", layer)
        (self.folder / "tar").mkdir()
        subprocess.run(["tar", "xpf", layer, "-C", self.folder / "tar", "--numeric-owner",
                        "--xattrs", "--xattrs-include=*"], check=True, stderr=subprocess.DEVNULL)
        self.compare(wanted, self.folder / "tar")
        if shutil.which("umoci") is None:
            print(f"skipped: {self.id()}: no umoci")
            return
        layout, bundle = self.folder / "oci", self.folder / "bundle"
        self.run_command(export, empty, "--manifest", whole, "--image-out", f"{layout}:deb")
        subprocess.run(["umoci", "unpack", "--image", f"{layout}:deb", bundle], check=True,
                       capture_output=True)
        self.compare(wanted, bundle / "rootfs")

    def compare(self, wanted: Tree, root: Path) -> None:
        """Each path, one by one, so that a difference can be read."""
        found = tree_of(root)
        self.assertEqual(sorted(found), sorted(wanted))
        for path, one in wanted.items():
            self.assertEqual(found[path], one, path)


if __name__ == "__main__":
    unittest.main()
