"""The difference of two trees, as a layer says it, and as tars and upper directories."""

import contextlib
import io
import os
import signal
import socket
import stat
import subprocess
import sys
import tarfile
import tempfile
import unittest
from pathlib import Path
from typing import List, Tuple

from overlayd.exporter import (Change, Entry, MemoryTree, Unsayable, changes, write_layer,
                               write_upper)

from overlayd.exporter.command import main

from . import import_tools as tools
from . import test_import_kernel as kernel
from .export_tools import ExportCase

LOWER = MemoryTree([
    Entry("/bin", "dir"), Entry("/bin/sh", "file", 0o755), Entry("/bin/old", "file", 0o755),
    Entry("/etc", "dir"), Entry("/etc/motd", "file", 0o644),
    Entry("/etc/rc", "dir"), Entry("/etc/rc/1", "file", 0o644), Entry("/etc/rc/2", "symlink"),
    Entry("/srv", "dir"), Entry("/srv/www", "dir"), Entry("/srv/www/index", "file", 0o644),
    Entry("/usr", "dir"), Entry("/usr/lib", "symlink", 0o777, target="/lib"),
    Entry("/var", "dir", 0o755), Entry("/var/x", "file", 0o644),
], {"/bin/sh": b"shell", "/etc/motd": b"hello", "/etc/rc/1": b"1", "/srv/www/index": b"i"})
MOUNTED = MemoryTree([
    Entry("/bin", "dir"), Entry("/bin/sh", "file", 0o755), Entry("/bin/sh2", "file", 0o755),
    Entry("/etc", "dir"), Entry("/etc/motd", "file", 0o644),
    Entry("/etc/rc", "dir"), Entry("/etc/rc/3", "file", 0o600, 1, 2, (("user.a", b"\xff"),)),
    Entry("/srv", "file", 0o644),
    Entry("/usr", "dir"), Entry("/usr/lib", "symlink", 0o777, target="/lib64"),
    Entry("/var", "dir", 0o700), Entry("/var/x", "file", 0o644),
], {"/bin/sh": b"shell", "/bin/sh2": b"shell", "/etc/motd": b"HELLO", "/srv": b"now a file"})
# What stands in the layer, by hand: path, kind or `-` for a whiteout, and what is special.
EXPECTED = [
    ("/", "dir", "same"), ("/bin", "dir", "same"), ("/bin/old", "-", ""),
    ("/bin/sh2", "file", ""), ("/etc", "dir", "same"), ("/etc/motd", "file", ""),
    ("/etc/rc", "dir", "opaque"), ("/etc/rc/3", "file", ""), ("/srv", "file", ""),
    ("/usr", "dir", "same"), ("/usr/lib", "symlink", ""), ("/var", "dir", ""),
]


def short(found: List[Change]) -> List[tuple]:
    """Changes as `EXPECTED` has them."""
    return [(change.path, change.entry.kind if change.entry else "-",
             "same" if change.is_same else "opaque" if change.opaque
             else f"link {change.link_to}" if change.link_to else "") for change in found]


class ChangesTest(unittest.TestCase):
    """Trees in memory."""

    def test_changes(self) -> None:
        """New, changed and removed names, an opaque directory, and a file over a directory."""
        self.assertEqual(short(changes(LOWER, MOUNTED)), EXPECTED)

    def test_nothing(self) -> None:
        """Equal trees have no difference."""
        self.assertEqual(changes(MOUNTED, MOUNTED), [])

    def test_each_attribute(self) -> None:
        """Each of mode, owner, group, attributes, bytes and target is a difference."""
        plain = Entry("/f", "file", 0o644)
        lower = MemoryTree([plain, Entry("/l", "symlink", target="a")], {"/f": b"x"})
        for entry, data in ((plain._replace(mode=0o600), b"x"), (plain._replace(uid=1), b"x"),
                            (plain._replace(gid=1), b"x"), (plain, b"y"), (plain, b"xx"),
                            (plain._replace(links=2), b"x"),
                            (plain._replace(attrs=(("user.a", b""),)), b"x")):
            with self.subTest(entry=entry, data=data):
                mounted = MemoryTree([entry, Entry("/l", "symlink", target="a")], {"/f": data})
                self.assertEqual(short(changes(lower, mounted)),
                                 [("/", "dir", "same"), ("/f", "file", "")])
        mounted = MemoryTree([plain, Entry("/l", "symlink", target="b")], {"/f": b"x"})
        self.assertEqual(short(changes(lower, mounted)),
                         [("/", "dir", "same"), ("/l", "symlink", "")])

    def test_order_of_attributes(self) -> None:
        """The order of user attributes is no difference."""
        pairs = (("user.a", b"1"), ("user.b", b"2"))
        self.assertEqual(changes(MemoryTree([Entry("/d", "dir", attrs=pairs)]),
                                 MemoryTree([Entry("/d", "dir", attrs=pairs[::-1])])), [])

    def test_names_of_one_object(self) -> None:
        """A new name brings the others along; what is unchanged stays below."""
        lower = MemoryTree([Entry("/a", "file", same=1), Entry("/b", "file", same=2)])
        mounted = MemoryTree([Entry("/a", "file", same=1), Entry("/b", "file", same=2),
                              Entry("/c", "file", same=1)])
        self.assertEqual(short(changes(lower, mounted)),
                         [("/", "dir", "same"), ("/a", "file", ""), ("/c", "file", "link /a")])

    def test_root(self) -> None:
        """The root has no whiteout and is never opaque."""
        self.assertEqual(short(changes(MemoryTree([Entry("/a", "file")]), MemoryTree([]))),
                         [("/", "dir", "same"), ("/a", "-", "")])
        self.assertEqual(
            short(changes(MemoryTree([]), MemoryTree([Entry("/", "dir", 0o700)]))),
            [("/", "dir", "")])


class LayerTest(unittest.TestCase):
    """Tars of layers."""

    def test_layer(self) -> None:
        """The members, in their order, with what they have."""
        stream = io.BytesIO()
        write_layer(changes(LOWER, MOUNTED), MOUNTED, stream)
        with tarfile.open(fileobj=io.BytesIO(stream.getvalue()), errors="surrogateescape") as tar:
            members = tar.getmembers()
            self.assertEqual([member.name for member in members], [
                "bin", "bin/.wh.old", "bin/sh2", "etc", "etc/motd", "etc/rc",
                "etc/rc/.wh..wh..opq", "etc/rc/3", "srv", "usr", "usr/lib", "var"])
            self.assertEqual({member.mtime for member in members}, {0})
            three, lib = tar.getmember("etc/rc/3"), tar.getmember("usr/lib")
            self.assertEqual((three.mode, three.uid, three.gid), (0o600, 1, 2))
            self.assertEqual(three.pax_headers["SCHILY.xattr.user.a"], "\udcff")
            self.assertEqual((lib.type, lib.linkname), (tarfile.SYMTYPE, "/lib64"))
            motd = tar.extractfile("etc/motd")
            assert motd is not None
            self.assertEqual(motd.read(), b"HELLO")

    def test_a_name_that_is_a_mark(self) -> None:
        """An image can't say it."""
        mounted = MemoryTree([Entry("/.wh.x", "file")])
        with self.assertRaises(Unsayable) as caught:
            write_layer(changes(MemoryTree([]), mounted), mounted, io.BytesIO())
        self.assertEqual(str(caught.exception), "/.wh.x: a layer of an image can't have a name "
                                                "that begins with .wh.")

    def test_an_attribute_that_is_a_mark(self) -> None:
        """Who unpacks the layer would read it as a mark."""
        mounted = MemoryTree([Entry("/d", "dir", attrs=(("user.overlay.opaque", b"y"),))])
        with self.assertRaises(Unsayable) as caught:
            write_layer(changes(MemoryTree([]), mounted), mounted, io.BytesIO())
        self.assertEqual(str(caught.exception), "/d: attribute user.overlay.opaque: in a layer it "
                                                "would be a mark of overlayfs")


class UpperTest(unittest.TestCase):
    """Upper directories."""

    def setUp(self) -> None:
        folder = tempfile.TemporaryDirectory()
        self.addCleanup(folder.cleanup)
        self.folder = Path(folder.name)

    def test_upper(self) -> None:
        """Whiteouts as devices, the opaque mark, modes, owners and bytes."""
        if os.geteuid() != 0:
            tools.skip(self.id(), "only root makes whiteouts")
        upper = self.folder / "upper"
        try:
            write_upper(changes(LOWER, MOUNTED), MOUNTED, str(upper))
        except PermissionError as error:
            tools.skip(self.id(), f"an upper can't be made here: {error}")
        self.assertEqual(os.listdir(self.folder), ["upper"])
        gone = (upper / "bin" / "old").stat()
        self.assertTrue(stat.S_ISCHR(gone.st_mode))
        self.assertEqual(gone.st_rdev, 0)
        self.assertEqual(os.getxattr(upper / "etc" / "rc", "trusted.overlay.opaque"), b"y")
        three = (upper / "etc" / "rc" / "3").stat()
        self.assertEqual((three.st_mode & 0o7777, three.st_uid, three.st_gid), (0o600, 1, 2))
        self.assertEqual((upper / "var").stat().st_mode & 0o7777, 0o700)
        self.assertEqual((upper / "srv").read_bytes(), b"now a file")
        self.assertEqual(os.readlink(upper / "usr" / "lib"), "/lib64")
        self.assertFalse((upper / "var" / "x").exists())

    def test_nothing_half_done(self) -> None:
        """A directory that is there is left alone; a failure leaves nothing."""
        (self.folder / "upper").mkdir()
        with self.assertRaises(FileExistsError):
            write_upper(changes(LOWER, MOUNTED), MOUNTED, str(self.folder / "upper"))
        missing = MemoryTree([Entry("/a", "file")])
        missing.read = self.fail_to_read  # type: ignore[method-assign]
        with self.assertRaises(OSError):
            write_upper([Change("/", Entry("/", "dir")), Change("/a", Entry("/a", "file"))],
                        missing, str(self.folder / "other"))
        self.assertEqual(os.listdir(self.folder), ["upper"])

    def test_what_it_cannot_say(self) -> None:
        """An owner that no file system has, and an attribute that would be a mark."""
        for entry, why in (
                (Entry("/a", "file", uid=4294967295),
                 "a directory can't have what has owner or group 4294967295"),
                (Entry("/a", "symlink", gid=4294967295, target="b"),
                 "a directory can't have what has owner or group 4294967295"),
                (Entry("/a", "dir", attrs=(("user.overlay.redirect", b"x"),)),
                 "attribute user.overlay.redirect: in a layer it would be a mark of overlayfs")):
            with self.subTest(entry=entry), self.assertRaises(Unsayable) as caught:
                mounted = MemoryTree([entry])
                write_upper(changes(MemoryTree([]), mounted), mounted, str(self.folder / "upper"))
            self.assertEqual(str(caught.exception), f"/a: {why}")
        self.assertEqual(os.listdir(self.folder), [])

    @staticmethod
    def fail_to_read(entry: Entry) -> bytes:
        """A tree whose bytes can't be had."""
        raise OSError(5, entry.path)


class CommandTest(unittest.TestCase):
    """The command, where no server is."""

    def ended(self, *words: str) -> Tuple[int, str]:
        """Its status, and what it says."""
        errors = io.StringIO()
        with contextlib.redirect_stderr(errors):
            return main(["/nonexistent/m.toml", "/nonexistent/socket", *words]), errors.getvalue()

    def test_the_target_is_asked_for_first(self) -> None:
        """Before the manifest is read, and the mount, which would make its history longer."""
        with tempfile.TemporaryDirectory() as folder:
            self.assertEqual(self.ended("--upper", folder),
                             (1, f"overlayd-export: {folder}: File exists\n"))
        for form in ("--upper", "--layer"):
            self.assertEqual(self.ended(form, "/nonexistent/out"),
                             (1, "overlayd-export: /nonexistent: No such file or directory\n"))
        status, told = self.ended("--layer", "-")
        self.assertEqual((status, "m.toml" in told), (1, True))


    def test_signals(self) -> None:
        """One line, and nothing half done, where it is ended while it waits for a server."""
        with tempfile.TemporaryDirectory() as folder:
            manifest, layer = Path(folder, "m.toml"), Path(folder, "out", "l.tar")
            manifest.write_text("[[layer]]\n[[layer]]\n")
            layer.parent.mkdir()
            for number, wanted in ((signal.SIGINT, (130, "overlayd-export: interrupted\n")),
                                   (signal.SIGTERM, (143, ""))):
                with self.subTest(number), socket.socket(socket.AF_UNIX) as server:
                    server.bind(f"{folder}/s{number}")
                    server.listen()
                    self.assertEqual(asked_and_ended(server, number, str(manifest), str(layer)),
                                     wanted)
                    self.assertEqual(os.listdir(layer.parent), [])


def asked_and_ended(server: socket.socket, number: int, manifest: str,
                    layer: str) -> Tuple[int, str]:
    """The status and the lines of an export that a signal ends when it has asked a server."""
    with subprocess.Popen(
            [sys.executable, "-m", "overlayd.exporter", manifest, server.getsockname(), "--layer",
             layer], stderr=subprocess.PIPE, text=True,
            env={**os.environ, "PYTHONPATH": str(Path(__file__).resolve().parents[1])}) as export:
        with server.accept()[0] as asked:
            asked.recv(1)
            export.send_signal(number)
            told = export.communicate(timeout=120)[1]
    return export.returncode, told


class KernelTest(ExportCase):
    """Random changes: the kernel shows them of the upper, the program of the layer."""

    def test_changed_copies(self) -> None:
        """A base, and a copy of it that was changed; 20 seeds."""
        for seed in range(20):
            with self.subTest(seed=seed):
                base = self.start(seed)
                (base / "new").mkdir()
                kernel.Changes(str(base / "new"), seed).make(60)
                kernel.Changes(str(base / "new"), seed + 1000).make(60)
                self.compare(base, *self.export(base, "new"))

    def test_changed_mounts(self) -> None:
        """A base, and a mount over it that was changed; 20 seeds."""
        for seed in range(100, 120):
            with self.subTest(seed=seed):
                base = self.start(seed)
                (base / "first").mkdir()
                self.mount(base, "first")
                try:
                    kernel.Changes(str(base / "m"), seed + 1000).make(60)
                    shown = self.export(base, "m")
                finally:
                    kernel.unmount(base)
                self.compare(base, *shown)
