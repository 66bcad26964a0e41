"""The command `overlayd-export`: manifests, mounts, and what comes of them."""

import contextlib
import errno
import io
import os
import stat
import sys
import tarfile
import tempfile
import unittest
from pathlib import Path
from typing import Any, Dict, List
from unittest import mock

from overlayd import Mask
from overlayd.exporter import DirectoryTree, Entry, LowerTree, MountTree, Unsayable
from overlayd.exporter.command import main

from . import import_tools as tools
from . import real_server
from . import test_import_kernel as kernel
from .export_tools import ExportCase
from .folder_client import FolderClient

LINES = r"""redirect_dir = "on"
metacopy = "on"
# the upper, which isn't looked at
[[layer]]
[[layer.entry]]
path = "/upper"
kind = "file"

[[layer]]

[[layer.entry]]
path = "/a"
kind = "dir"
mode = 0o1777
uid = 1
attrs = [["user.k", "v\n"]]
[[layer.entry]]
path = "/a/gone"
kind = "whiteout"
[[layer.entry]]
path = "/a/new"
kind = "dir"
opaque = true
[[layer.entry]]
path = "/moved"
kind = "dir"
redirect = "/old"
[[layer.entry]]
path = "/old"
kind = "whiteout"

[[layer]]
[[layer.entry]]
path = "/"
kind = "dir"
mode = 0o700
[[layer.entry]]
path = "/a"
kind = "dir"
[[layer.entry]]
path = "/a/gone"
kind = "file"
[[layer.entry]]
path = "/a/new"
kind = "dir"
[[layer.entry]]
path = "/a/new/hidden"
kind = "file"
[[layer.entry]]
path = "/a/text"
kind = "file"
text = "\u00e9 = \"x\"\n"
[[layer.entry]]
path = "/old"
kind = "dir"
[[layer.entry]]
path = "/old/hex"
kind = "file"
mode = 493
hex = "00ff"
[[layer.entry]]
path = "/old/link"
kind = "link"
to = "/old/hex"
[[layer.entry]]
path = "/s"
kind = "symlink"
gid = 4294967295
target = "a/text"
[[layer.entry]]
path = "/zeros"
kind = "file"
zeros = 3
"""
# What the two lower layers show, by hand; the number of links stands apart.
SHOWN = [
    Entry("/", "dir", 0o755),
    Entry("/a", "dir", 0o1777, 1, 0, (("user.k", b"v\n"),)),
    Entry("/a/new", "dir", 0o755),
    Entry("/a/text", "file", 0o644, size=9),
    Entry("/moved", "dir", 0o755),
    Entry("/moved/hex", "file", 0o755, size=2, links=2),
    Entry("/moved/link", "file", 0o755, size=2, links=2),
    Entry("/s", "symlink", 0o777, 0, 4294967295, target="a/text"),
    Entry("/zeros", "file", 0o644, size=3),
]
BYTES = {"/a/text": '\u00e9 = "x"\n'.encode(), "/moved/hex": b"\0\xff", "/moved/link": b"\0\xff",
         "/zeros": b"\0\0\0"}
INLINE = "layer = [{}, {entry = [{path = '/f', kind = 'file', text = '''a\nb''', uid = 1_0}]}]\n"


class LowerTest(unittest.TestCase):
    """The lower layers of manifests."""

    def setUp(self) -> None:
        folder = tempfile.TemporaryDirectory()
        self.addCleanup(folder.cleanup)
        self.path = os.path.join(folder.name, "m.toml")

    def tree(self, manifest: str) -> LowerTree:
        """The tree of a manifest."""
        Path(self.path).write_text(manifest, "utf-8")
        return LowerTree(self.path)

    def test_lines(self) -> None:
        """A manifest of lines: marks, links, bytes of three forms."""
        tree = self.tree(LINES)
        entries = list(tree.entries())
        self.assertEqual([entry._replace(same=None) for entry in entries], SHOWN)
        self.assertEqual({entry.path: tree.read(entry) for entry in entries
                          if entry.kind == "file"}, BYTES)
        same = [entry.same for entry in entries if entry.path.startswith("/moved/")]
        self.assertIsNotNone(same[0])
        self.assertEqual(same[0], same[1])

    def test_another_form(self) -> None:
        """Python 3.11 reads it; before, it is refused by its name."""
        if sys.version_info < (3, 11):
            with self.assertRaises(Unsayable) as caught:
                self.tree(INLINE)
            self.assertTrue(str(caught.exception).startswith(f"{self.path}: not as overlayd-"))
            return
        tree = self.tree(INLINE)
        root, entry = tree.entries()
        self.assertEqual(root, Entry("/", "dir"))
        self.assertEqual(entry, Entry("/f", "file", 0o644, 10, size=3))
        self.assertEqual(tree.read(entry), b"a\nb")

    def test_without_an_upper(self) -> None:
        """All layers are lower ones, and the tree says that there is no upper."""
        text = '[[layer]]\n[[layer.entry]]\npath = "/%s"\nkind = "dir"\n'
        for head, shown in (("", ["/", "/low"]), ("upper = true\n", ["/", "/low"]),
                            ("upper = false\n", ["/", "/high", "/low"])):
            with self.subTest(head=head):
                tree = self.tree(head + text % "high" + text % "low")
                self.assertEqual([entry.path for entry in tree.entries()], shown)
                self.assertEqual(tree.has_upper, head != "upper = false\n")

    def test_another_form_without_an_upper(self) -> None:
        """The same where the manifest is read whole."""
        if sys.version_info < (3, 11):
            tools.skip(self.id(), "this Python has no tomllib")
        for head, has_upper in (("", True), ("upper = true\n", True), ("upper = false\n", False)):
            with self.subTest(head=head):
                tree = self.tree(head + "layer = [{entry = [{path = '/h', kind = 'dir'}]}, {}]\n")
                self.assertEqual([entry.path for entry in tree.entries()],
                                 ["/"] if has_upper else ["/", "/h"])
                self.assertEqual(tree.has_upper, has_upper)

    def test_no_manifest(self) -> None:
        """What is no manifest is refused in one line."""
        for text in ("[[layer]]\n", "", "[[layer]]\n[[layer]]\n[[layer.entry]]\n"
                     'path = "/a/b"\nkind = "file"\n'):
            with self.subTest(text=text), self.assertRaises(Unsayable):
                self.tree(text)


def export(root: str, *words: str) -> List[str]:
    """Runs the command on a folder in place of a mount; its lines."""
    errors = io.StringIO()
    with mock.patch("overlayd.exporter.command.Client", lambda path: FolderClient(root)):
        with contextlib.redirect_stderr(errors):
            status = main(list(words))
    assert status == 0, errors.getvalue()
    return errors.getvalue().splitlines()


class MountTest(unittest.TestCase):
    """A mount, read by a client."""

    def setUp(self) -> None:
        folder = tempfile.TemporaryDirectory()
        self.addCleanup(folder.cleanup)
        self.root = Path(folder.name, "root")
        self.root.mkdir()

    def test_entries(self) -> None:
        """They are those of the directory, but that names of one object aren't known."""
        if os.geteuid() != 0:
            tools.skip(self.id(), "only root reads all files, whatever their modes")
        kernel.Changes(str(self.root), 1).make(200)
        for number in range(300):
            (self.root / f"f{number}").write_text(str(number))
        tree = MountTree(FolderClient(str(self.root)))  # type: ignore[arg-type]
        there = DirectoryTree(str(self.root))
        expected = {entry.path: entry._replace(same=None) for entry in there.entries()}
        found = {entry.path: entry._replace(attrs=tuple(sorted(entry.attrs)))
                 for entry in tree.entries()}
        self.assertEqual(found, expected)
        self.assertEqual(tree.read(found["/f17"]), b"17")

    def test_what_goes_away(self) -> None:
        """A name that is gone by the time it is asked about is passed over."""
        (self.root / "f").touch()
        client = FolderClient(str(self.root))
        client.listdir = lambda path: ["f", "lost"]  # type: ignore[method-assign]
        tree = MountTree(client)  # type: ignore[arg-type]
        self.assertEqual([entry.path for entry in tree.entries()], ["/", "/f"])

    def test_a_refusal(self) -> None:
        """Another refusal ends the reading."""
        client = FolderClient(str(self.root))
        client.open = mock.Mock(  # type: ignore[method-assign]
            side_effect=OSError(errno.EIO, "no"))
        with self.assertRaises(OSError) as caught:
            list(MountTree(client).entries())  # type: ignore[arg-type]
        self.assertEqual(caught.exception.errno, errno.EIO)

    def test_names_that_are_none(self) -> None:
        """A name that no directory has, one that is there twice, and a file that is longer than
        was said, end the reading; nothing is written for them."""
        for names in (["s", "s/pwned"], ["q/../../x"], [""], ["."], [".."], ["a\0b"], ["x" * 256],
                      ["a", "a"]):
            client = FolderClient(str(self.root))
            listing = mock.MagicMock()
            listing.__enter__.return_value.names.side_effect = [names, []]
            client.open = mock.Mock(return_value=listing)  # type: ignore[method-assign]
            with self.subTest(names), self.assertRaises(Unsayable):
                list(MountTree(client).entries())  # type: ignore[arg-type]

    def test_bytes_without_an_end(self) -> None:
        """More bytes than the size that was told, and a size over the manifest's limit."""
        (self.root / "f").write_bytes(b"x")
        tree = MountTree(FolderClient(str(self.root)))  # type: ignore[arg-type]
        entry = next(entry for entry in tree.entries() if entry.path == "/f")
        (self.root / "f").write_bytes(b"x" * 5000)
        with self.assertRaises(Unsayable):
            tree.read(entry)
        with self.assertRaises(Unsayable):
            list(MountTree(FolderClient(str(self.root)), 4999).entries())  # type: ignore[arg-type]

    def test_command(self) -> None:
        """A layer of what was changed, and lines that say how much it is."""
        manifest = self.root.parent / "m.toml"
        (self.root / "kept").write_text("1")
        (self.root / "gone").write_text("2")
        tools.import_to(manifest, [str(self.root)])
        (self.root / "gone").unlink()
        (self.root / "new").write_text("3")
        os.link(self.root / "new", self.root / "more")
        layer = self.root.parent / "layer.tar"
        os.symlink("to", self.root / "way")
        os.link(self.root / "way", self.root / "way2", follow_symlinks=False)
        self.assertEqual(export(str(self.root), str(manifest), "socket", "--layer", str(layer)), [
            "overlayd-export: 2 names of objects that have several are written as objects of their "
            "own", "overlayd-export: 4 objects, 1 whiteouts"])
        with tarfile.open(layer) as tar:
            self.assertEqual([(member.name, member.type, member.linkname) for member in tar], [
                (".wh.gone", b"0", ""), ("more", b"0", ""), ("new", b"1", "more"),
                ("way", b"2", "to"), ("way2", b"2", "to")])

    def test_nothing_to_export(self) -> None:
        """A mount without an upper is refused, before the server is asked and anything written."""
        manifest = self.root.parent / "m.toml"
        tools.import_to(manifest, [str(self.root), "--read-only"])
        for form in ("--layer", "--upper"):
            errors, target = io.StringIO(), self.root.parent / "target"
            with contextlib.redirect_stderr(errors):
                status = main([str(manifest), "/nonexistent/socket", form, str(target)])
            self.assertEqual((status, errors.getvalue()), (
                1, f"overlayd-export: {manifest}: nothing to export: upper = false, so nothing can "
                "be changed\n"))
            self.assertFalse(target.exists())

    def test_failures(self) -> None:
        """One line, and status 1; wrong usage is status 2."""
        for words, line in ((["none", "socket"], "none: No such file or directory"),):
            errors = io.StringIO()
            with contextlib.redirect_stderr(errors):
                self.assertEqual(main([*words, "--layer", "-"]), 1)
            self.assertEqual(errors.getvalue(), f"overlayd-export: {line}\n")
        with self.assertRaises(SystemExit) as caught, contextlib.redirect_stderr(io.StringIO()):
            main(["manifest", "socket"])
        self.assertEqual(caught.exception.code, 2)


class KernelTest(ExportCase):
    """Random changes of a mount of the kernel's, read as over a socket."""

    def test_random_changes(self) -> None:
        """Import, change, export, and show again; 20 seeds."""
        for seed in range(20):
            with self.subTest(seed=seed):
                base = self.start(seed)
                (base / "first").mkdir()
                tools.import_to(base / "lower.toml", [str(base / "low")])
                self.mount(base, "first")
                try:
                    kernel.Changes(str(base / "m"), seed + 1000).make(60)
                    words = (str(base / "m"), str(base / "lower.toml"), "socket")
                    export(*words, "--upper", str(base / "up"))
                    export(*words, "--layer", str(base / "layer.tar"))
                    lines, answers = self.shown(base / "m")
                finally:
                    kernel.unmount(base)
                self.compare(base, self.links_alone(base, lines), answers)

    @staticmethod
    def links_alone(base: Path, lines: List[str]) -> List[str]:
        """The symbolic links that the upper has are objects of their own."""
        alone = []
        for line in lines:
            words = line.split(" ")
            raw = words[6].encode("ascii").decode("unicode_escape").encode("latin-1")
            with contextlib.suppress(FileNotFoundError):
                status = os.lstat(os.fsencode(base / "up") + raw)
                words[5] = "1" if stat.S_ISLNK(status.st_mode) else words[5]
            alone.append(" ".join(words))
        return alone


class ServerTest(unittest.TestCase):
    """The program's own server."""

    def setUp(self) -> None:
        reason = real_server.why_not()
        if reason:
            tools.skip(self.id(), reason)

    def test_names_of_one_file(self) -> None:
        """Files that are alike in all but that are told apart, and the mount stays as it is."""
        with tempfile.TemporaryDirectory() as name:
            folder = Path(name)
            (folder / "low").mkdir()
            (folder / "low/a").write_text("x")
            os.link(folder / "low/a", folder / "low/b")
            tools.import_to(folder / "m.toml", [str(folder / "low")])
            with real_server.Server((folder / "m.toml").read_text()) as server:
                with server.client() as client:
                    for path in ("/m", "/n"):
                        client.write_bytes(path, b"y")
                        client.link(path, path + "2")
                    client.link("/n", "/n3")
                    client.chmod("/a", 0o600)
                    named: Dict[Any, List[str]] = {}
                    for entry in MountTree(client).entries():
                        if entry.links > 1 and entry.kind == "file":
                            self.assertIsNotNone(entry.same)
                            named.setdefault(entry.same, []).append(entry.path)
                    self.assertEqual(sorted(named.values()), [
                        ["/b"], ["/m", "/m2"], ["/n", "/n2", "/n3"]])
                    client.arm(9, "/", Mask.ATTRIB)
                    for entry in MountTree(client).entries():
                        self.assertIsNone(entry.same)
                    client.chmod("/m", 0o600)
                    self.assertEqual(client.notices()[-1].name, "m")

    def test_session(self) -> None:
        """Import, serve, change by the client, export, import again, show."""
        with tempfile.TemporaryDirectory() as name:
            folder = Path(name)
            (folder / "low" / "etc").mkdir(parents=True)
            for path, text in (("etc/motd", "hello"), ("etc/old", "old"), ("kept", "kept")):
                (folder / "low" / path).write_text(text)
            (folder / "low").chmod(0o755)
            manifest = folder / "m.toml"
            tools.import_to(manifest, [str(folder / "low")])
            with real_server.Server(manifest.read_text()) as server:
                with server.client() as client:
                    client.unlink("/etc/old")
                    client.mkdir("/etc/new", 0o700)
                    with client.open("/etc/new/f", os.O_WRONLY | os.O_CREAT) as file:
                        file.write(b"new")
                    client.setxattr("/etc/motd", "user.k", b"v")
                layer = folder / "layer.tar"
                with contextlib.redirect_stderr(io.StringIO()):
                    self.assertEqual(main([str(manifest), server.path, "--layer", str(layer)]), 0)
            tools.import_to(manifest, [str(layer), str(folder / "low")])
            owner = f"{os.getuid()} {os.getgid()}"
            self.assertEqual(tools.show(tools.overlayd() or "", manifest), [
                f"d 0755 {owner} 0 1 /", f"d 0755 {owner} 0 1 /etc",
                f"f 0644 {owner} 5 1 /etc/motd", "d 0700 0 0 0 1 /etc/new",
                "f 0644 0 0 3 1 /etc/new/f", f"f 0644 {owner} 4 1 /kept"])
