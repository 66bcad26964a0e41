"""Files of a directory: the short way of plain ones, and what the system copies of long ones."""

import contextlib
import errno
import io
import os
import tempfile
import unittest
from pathlib import Path
from typing import Any, Dict, Iterator, List, Tuple
from unittest import mock

from overlayd.importer.command import main
from overlayd.importer.plain_files import PlainFiles

MIB = 1 << 20
# What stands in a manifest for these bytes, by the rules of TOML: the shortest of three forms.
FORMS: Dict[bytes, str] = {
    b"": "",
    b"plain ~": 'text = "plain ~"\n',
    b"a\tb\n": 'text = "a\\tb\\n"\n',
    b'"\\': 'text = "\\"\\\\"\n',
    b"long enough\x01\x7f": 'text = "long enough\\u0001\\u007f"\n',
    b"\x01a\x02": 'hex = "016102"\n',
    "gr\u00fcn\u20ac".encode(): 'text = "gr\u00fcn\u20ac"\n',
    b"\xff\n": 'hex = "ff0a"\n',
    b"\0\0\0": "zeros = 3\n",
    b"\0x": 'hex = "0078"\n',
}


class PlainFilesTest(unittest.TestCase):
    """A directory with files of all kinds."""

    def setUp(self) -> None:
        folder = tempfile.TemporaryDirectory()
        self.addCleanup(folder.cleanup)
        self.folder = Path(folder.name)
        self.source = self.folder / "source"
        self.source.mkdir(mode=0o755)
        os.utime(self.source, ns=(0, 0))

    def add(self, name: str, data: bytes = b"", mode: int = 0o644, mtime: int = 0) -> Path:
        """A file of the source."""
        path = self.source / name
        path.parent.mkdir(exist_ok=True)
        path.write_bytes(data)
        path.chmod(mode)
        os.utime(path, ns=(mtime, mtime))
        return path

    def imported(self, *words: str) -> Tuple[bytes, bytes, List[str]]:
        """The manifest, the file beside it, and what was told."""
        output = self.folder / "m.toml"
        with contextlib.redirect_stderr(io.StringIO()) as errors:
            status = main([str(self.source), "-o", str(output), *words])
        self.assertEqual(status, 0, errors.getvalue())
        beside = self.folder / "m.toml.bytes"
        found = beside.read_bytes() if beside.exists() else b""
        return output.read_bytes(), found, errors.getvalue().splitlines()

    def test_forms(self) -> None:
        """The bytes of a file, its mode and its time."""
        for data, line in FORMS.items():
            with self.subTest(data):
                self.add("f", data, 0o600, -1)
                manifest = self.imported()[0].decode("utf-8")
                time = "-1.999999999"
                self.assertTrue(manifest.endswith(
                    '\n[[layer.entry]]\npath = "/f"\nkind = "file"\nmode = 0o600\n' + _owner() +
                    f'attrs = [["user.overlayd.meta", "1 - 0 {time} {time} {time}"]]\n{line}'))

    def fill(self) -> None:
        """Files that go the short way and such that don't, in turn."""
        for number, data in enumerate(FORMS):
            self.add(f"d{number}", data, 0o4755 if number % 2 else 0o644, number * 10 ** 9 + 1)
            self.add(f"d/e{number}", data * 1000)
        for name in ('quote"', "back\\slash", "tab\t", "gr\u00fcn", "n" * 255):
            self.add(name, b"x")
        self.add("mib", b"m" * MIB)
        self.add("more", b"m" * (MIB + 1))
        self.add("zeros", bytes(MIB + 1))
        os.link(self.source / "d0", self.source / "d/zlinked")
        (self.source / "way").symlink_to("d0")
        os.mkfifo(self.source / "fifo")
        with contextlib.suppress(OSError):
            os.setxattr(self.source / "d1", "user.a", b"b")

    def test_both_ways(self) -> None:
        """The short way and the long one write the same, with each choice of options."""
        self.fill()

        def none(_: PlainFiles, entries: Iterator[Any], *more: Any) -> Any:
            return next(entries, None)

        for words in ([], ["--no-times"], ["--blobs"], ["--file-limit", "1000"], ["--devices"]):
            with self.subTest(words):
                short = self.imported(*words)
                with mock.patch.object(PlainFiles, "write", none):
                    self.assertEqual(self.imported(*words), short)

    def test_a_file_that_grows(self) -> None:
        """One that is longer when it is read than it was when it was seen is written whole."""
        path = self.add("f", b"short")

        def grow(where: Any, **_: Any) -> List[str]:
            if isinstance(where, int) and os.path.sameopenfile(where, found.fileno()):
                path.write_bytes(b"longer than that")
            return []

        with open(path, "rb") as found, mock.patch("os.listxattr", grow, create=True):
            self.assertTrue(self.imported("--no-times")[0].endswith(b'text = "longer than that"\n'))

    def test_copies(self) -> None:
        """A long file with a hole goes beside the manifest, whoever copies it."""
        path = self.add("f")
        with open(path, "r+b") as stream:
            stream.write(b"a" * 70_000)
            stream.seek(3 * MIB)
            stream.write(b"b" * MIB)
            stream.truncate(5 * MIB)
        self.add("g", b"behind")
        refused = OSError(errno.EXDEV, os.strerror(errno.EXDEV))
        for told in ({"side_effect": refused}, {"return_value": 0}, None):
            patched = (mock.patch("os.copy_file_range", create=True, **told) if told
                       else contextlib.nullcontext())
            with self.subTest(told), patched:
                manifest, beside, _ = self.imported("--blobs", "--no-times")
                self.assertEqual(beside, path.read_bytes() + b"behind")
                self.assertTrue(manifest.endswith(b"at = %d\nsize = 6\n" % (5 * MIB)))
        blocks = os.stat(self.folder / "m.toml.bytes").st_blocks
        self.assertLessEqual(blocks, os.stat(path).st_blocks + 64)

    def test_a_copy_that_ends_early(self) -> None:
        """A file that is shorter when it is copied ends the import; nothing stays."""
        path = self.add("f", b"x" * (2 * MIB))

        def cut(*_: Any) -> int:
            os.truncate(path, MIB)
            return 0

        output = self.folder / "out" / "m.toml"
        output.parent.mkdir()
        with mock.patch("os.copy_file_range", cut, create=True), \
                contextlib.redirect_stderr(io.StringIO()) as errors:
            status = main([str(self.source), "-o", str(output), "--blobs"])
        self.assertEqual((status, errors.getvalue()), (
            1, f"overlayd-import: {self.source}: /f: it was changed while it was read\n"))
        self.assertEqual(os.listdir(output.parent), [])


def _owner() -> str:
    """The lines that an owner takes, who isn't root."""
    return "".join(f"{key} = {number}\n" for key, number in (
        ("uid", os.getuid()), ("gid", os.getgid())) if number)


if __name__ == "__main__":
    unittest.main()
