"""What an export keeps of a tree, and the headers that it writes, compared with `tarfile`."""

import contextlib
import io
import os
import random
import tarfile
import tempfile
import unittest
from pathlib import Path

from overlayd.exporter import Entry, MemoryTree, Tree, Unsayable, changes
from overlayd.exporter.command import main
from overlayd.exporter.headers import header
from overlayd.exporter.shelves import Shelves, packed, place_in, unpacked

META = b"1 - 0 5.000000007 5.000000007 5.000000007"
ENTRIES = [
    Entry("/d", "dir", 0o700, 1, 2, (("user.a", b"\xff"),)),
    Entry("/d/e", "dir", 0o755, told=META, mtime=5_000_000_007),
    Entry("/d/e/f", "file", 0o4755, 4294967295, 7, (("user.b", b""),), 1 << 40, links=3),
    Entry("/d/e/\udcff\u00e9", "symlink", 0o777, target="\udc80/..", mtime=-1, told=b"-1"),
    Entry("/d/link", "file", same=("file", 5), links=2),
    Entry("/n", "character device", device=1 << 40, mtime=5_000_000_007, told=META),
    Entry("/o", "file", told=b"1 - 0 5.0 6.0 7.0", mtime=6),
]


class Given(Tree):
    """A tree of these entries, in their order, without any that isn't among them."""

    def __init__(self, *entries: Entry) -> None:
        self._entries = entries

    def entries(self) -> "tuple[Entry, ...]":
        return self._entries

    def read(self, entry: Entry) -> bytes:
        return b""


class ShelvesTest(unittest.TestCase):
    """Entries that were given one by one."""

    def test_packed(self) -> None:
        """An entry is what it was, and so is the place of its bytes."""
        for entry in ENTRIES:
            with self.subTest(entry.path):
                data = packed(entry._replace(same=None), ("text", 1 << 50))
                self.assertEqual(unpacked(entry.path, data), entry._replace(same=None))
                self.assertEqual(place_in(data), ("text", 1 << 50))

    def test_any_order(self) -> None:
        """What is in a directory may come before it; a later entry takes an earlier one's place."""
        chance = random.Random(3)
        wanted = [Entry("/", "dir"), *sorted(ENTRIES, key=Entry.key)]
        for _ in range(20):
            order = [*wanted]
            chance.shuffle(order)
            order.insert(0, Entry("/d/e/f", "symlink", target="earlier"))
            found = changes(Given(), Given(*order))
            self.assertEqual([change.entry for change in found], wanted)

    def test_below_no_directory(self) -> None:
        """What is below a file, or below nothing, is refused of what is shown."""
        root = Entry("/", "dir")
        for entries in ([Entry("/f", "file"), Entry("/f/x", "file")],
                        [Entry("/f/x", "file"), Entry("/f", "file")],
                        [Entry("/no/x", "dir")], [Entry("/d", "dir"), Entry("/d/a/b/c", "file")]):
            with self.subTest(entries), self.assertRaises(Unsayable) as refused:
                changes(MemoryTree([]), Given(root, *entries))
            self.assertIn("what is above it is no directory", str(refused.exception))
        with self.assertRaises(Unsayable):
            changes(MemoryTree([]), Given(Entry("/x", "file")))

    def test_kept_as_it_is(self) -> None:
        """What can't be said in bytes is kept too."""
        odd = Entry("/f", "file", told=object())  # type: ignore[arg-type]
        top = Shelves([Entry("/", "dir"), odd, ENTRIES[0], ENTRIES[4]]).top
        folder = top.at("d")
        self.assertIs(folder.at("link"), ENTRIES[4])  # type: ignore[union-attr]
        self.assertTrue(top.has_several)
        self.assertIs(top.at("f"), odd)


class HeaderTest(unittest.TestCase):
    """Headers of members."""

    def test_as_tarfile_has_them(self) -> None:
        """The same bytes, at each bound."""
        chance = random.Random(1)
        names = ["a", "a/", "x" * 99, "x" * 100, "x" * 101, "\u00e9", "\udcff", "./", "d" * 100]
        kinds = [tarfile.REGTYPE, tarfile.DIRTYPE, tarfile.SYMTYPE, tarfile.LNKTYPE,
                 tarfile.CHRTYPE, tarfile.FIFOTYPE]
        times = ["1.5", "-1", "0.000000001", "1600000000.123456789", f"{-1 << 63}.999999999"]
        for _ in range(2000):
            info = tarfile.TarInfo(chance.choice(names))
            info.type = chance.choice(kinds)
            info.linkname = chance.choice(["", "b", "y" * 100, "y" * 101, "\u00fc"])
            info.mode = chance.choice([0, 0o7777, 0o644])
            info.uid = chance.choice([0, 8 ** 7 - 1, 8 ** 7, 4294967295])
            info.gid = chance.choice([0, 5, 8 ** 7])
            info.size = chance.choice([0, 5, 8 ** 11 - 1, 8 ** 11])
            info.mtime = chance.choice([0, 5, 8 ** 11 - 1, 8 ** 11, -5])
            if chance.random() < 0.6:
                info.pax_headers = {"mtime": chance.choice(times)}
            if chance.random() < 0.1:
                info.pax_headers = {"SCHILY.xattr.user.a": "b", **info.pax_headers}
            self.assertEqual(header(info), info.tobuf(tarfile.PAX_FORMAT, "utf-8",
                                                      "surrogateescape"), info.get_info())


class RefusedTest(unittest.TestCase):
    """Exports that fail while they are written."""

    def test_nothing_is_left(self) -> None:
        """No layer, no directory and no layout, of a name that a layer can't have."""
        with tempfile.TemporaryDirectory() as name:
            folder = Path(name)
            (folder / "base.toml").write_text("[[layer]]\n[[layer]]\n")
            head = '[[layer.entry]]\nkind = "file"\npath = '
            (folder / "saved.toml").write_text(f'[[layer]]\n{head}"/a"\n{head}"/.wh.b"\n')
            os.mkdir(folder / "empty")
            for words in (["--layer", "l.tar"], ["--image-out", "new:t"], ["--image-out",
                                                                           "empty:t"]):
                with contextlib.redirect_stderr(io.StringIO()) as errors:
                    status = main([str(folder / "base.toml"), "--manifest",
                                   str(folder / "saved.toml"), words[0], f"{folder}/{words[1]}"])
                self.assertEqual((status, errors.getvalue().count("\n")), (1, 1))
                self.assertEqual(sorted(os.listdir(folder)), ["base.toml", "empty", "saved.toml"])
                self.assertEqual(os.listdir(folder / "empty"), [])


if __name__ == "__main__":
    unittest.main()
