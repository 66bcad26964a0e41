"""Bytes by reference: a manifest names tars, and where in them the bytes of files are."""

import contextlib
import gzip
import io
import re
import tarfile
import tempfile
import unittest
from pathlib import Path
from typing import Dict, List, NamedTuple, Optional, Tuple

from overlayd.exporter.manifests import LowerTree
from overlayd.importer.checking import check
from overlayd.importer.command import main

from . import import_tools as tools
from .import_tools import directory, file, saved_image, tar_of

BYTES: Dict[str, bytes] = {"a": bytes(range(256)) * 5, "d/b": b"text\n", "zero": bytes(1000)}
MEMBERS = [directory("d"), *(file(name, data) for name, data in BYTES.items()), file("empty"),
           tools.Member("d/again", tarfile.LNKTYPE, link="a")]


class Placed(NamedTuple):
    """What an entry says of the bytes of its file."""

    blob: int
    at: int
    size: int


def head(manifest: str) -> List[str]:
    """The lines before the first layer."""
    return manifest.partition("[[layer]]")[0].split("\n")


def placed(manifest: str) -> Dict[str, Placed]:
    """The entries by path that take bytes of a blob."""
    found = re.findall(r'path = "/([^"]*)"\nkind = "file"\n(?:[a-z]+ = (?!\d+\nat)[^\n]*\n)*'
                       r"blob = (\d+)\nat = (\d+)\nsize = (\d+)\n", manifest)
    return {path: Placed(*map(int, numbers)) for path, *numbers in found}


class BlobTest(unittest.TestCase):
    """A folder with tars in it."""

    def setUp(self) -> None:
        found = tempfile.TemporaryDirectory()
        self.addCleanup(found.cleanup)
        self.folder = Path(found.name)

    def write(self, name: str, data: bytes) -> str:
        """A file of the folder."""
        path = self.folder / name
        path.parent.mkdir(exist_ok=True)
        path.write_bytes(data)
        return str(path)

    def manifest(self, *words: str, name: str = "m.toml") -> str:
        """The manifest of an import that says nothing."""
        path = self.folder / name
        tools.import_to(path, words)
        return path.read_text("utf-8")

    def assert_bytes(self, path: str, manifest: str, wanted: Dict[str, bytes]) -> None:
        """The stretches of a file are the bytes that are wanted."""
        data = Path(path).read_bytes()
        found = placed(manifest)
        self.assertEqual(found.keys(), wanted.keys())
        for name, where in found.items():
            self.assertEqual(data[where.at:where.at + where.size], wanted[name], name)


class ImportTest(BlobTest):
    """Manifests with --blobs, and those that it leaves as they are."""

    def test_a_tar(self) -> None:
        """Each file that isn't empty is where the manifest says, and no byte of it is there."""
        tar = self.write("l.tar", tar_of(MEMBERS))
        manifest = self.manifest("--blobs", tar)
        self.assertEqual(head(manifest), ['blobs = ["l.tar"]', "", ""])
        self.assert_bytes(tar, manifest, BYTES)
        self.assertNotRegex(manifest, r"(?m)^(text|hex|zeros) = ")
        self.assertIsNone(check(manifest.encode(), str(self.folder)).first)

    def test_names(self) -> None:
        """From the manifest's folder below it, and else from the root."""
        tar = self.write("in/l.tar", tar_of([file("f", b"x")]))
        for name, wanted in (("m", "in/l.tar"), ("in/m", "l.tar"), ("other/m", tar)):
            (self.folder / name).parent.mkdir(exist_ok=True)
            with self.subTest(name):
                manifest = self.manifest("--blobs", tar, name=name)
                self.assertEqual(head(manifest)[0], f'blobs = ["{wanted}"]')
        other = self.write("x/a.tar", tar_of([file("f", b"y")]))
        (self.folder / "x/deep").mkdir()
        (self.folder / "y").mkdir()
        (self.folder / "y/way").symlink_to(self.folder / "x/deep")
        (self.folder / "away").mkdir()
        named = self.manifest("--blobs", str(self.folder / "y/way/../a.tar"), name="away/m")
        self.assertEqual(head(named)[0], f'blobs = ["{other}"]')
        with contextlib.redirect_stdout(io.TextIOWrapper(io.BytesIO())) as out, \
                contextlib.redirect_stderr(io.StringIO()):
            self.assertEqual(main(["--blobs", "-q", tar]), 0)
            out.seek(0)
            self.assertEqual(head(out.read())[0], f'blobs = ["{tar}"]')

    def test_other_sources(self) -> None:
        """The bytes of what is no tar that stands in a file as it is read go beside the manifest;
        where there are none there is no such file."""
        (self.folder / "dir").mkdir()
        self.write("dir/f", b"x")
        self.write("dir/g", b"yz")
        self.write("dir/z", bytes(3))
        compressed = self.write("l.tar.gz", gzip.compress(tar_of(MEMBERS)))
        nothing = self.write("none.tar", tar_of([directory("d"), file("empty")]))
        self.assertEqual(self.manifest("--blobs", nothing), self.manifest(nothing))
        self.assertFalse((self.folder / "m.toml.bytes").exists())
        found = self.manifest("--blobs", str(self.folder / "dir"))
        self.assertEqual(head(found)[0], 'blobs = ["m.toml.bytes"]')
        self.assertIn("blob = 0\nat = 1\nsize = 2\n", found)
        self.assertIn("zeros = 3", found)
        self.assertEqual((self.folder / "m.toml.bytes").read_bytes(), b"xyz")
        self.manifest("--blobs", compressed)
        kept = (self.folder / "m.toml.bytes").read_bytes()
        self.assertEqual(kept, b"".join(member.data for member in MEMBERS
                                         if member.data.strip(b"\0")))

    def test_several(self) -> None:
        """Numbers are those of the files, each of which is named once; others lie between."""
        high = self.write("high.tar", tar_of([file("h", b"high")]))
        low = self.write("low.tar", tar_of([file("l", b"low")]))
        (self.folder / "dir").mkdir()
        self.write("dir/f", b"x")
        manifest = self.manifest("--blobs", high, str(self.folder / "dir"), low, high)
        self.assertEqual(head(manifest)[0], 'blobs = ["high.tar", "low.tar", "m.toml.bytes"]')
        self.assertEqual([found[0] for found in re.findall(r"blob = (\d+)", manifest)],
                         ["0", "2", "1", "0"])

    def test_an_image(self) -> None:
        """Of an archive the archive is named; a layer in it begins somewhere in it."""
        lower = {"f": b"lower file", "g": bytes(range(256))}
        image = self.write("image.tar", saved_image([
            tar_of(file(name, data) for name, data in lower.items()), tar_of(MEMBERS)]))
        manifest = self.manifest("--blobs", image)
        self.assertEqual(head(manifest)[0], 'blobs = ["image.tar"]')
        self.assert_bytes(image, manifest, {**BYTES, **lower})

    def test_a_layer_that_ends_too_early(self) -> None:
        """It is refused, also where no byte of it is read."""
        tar = self.write("l.tar", tar_of([file("f", bytes(5000))])[:3000])
        run = tools.run_import("--blobs", tar)
        self.assertEqual(run.status, 1)
        self.assertIn("no tar, or not a whole one", run.errors[-1])

    def test_in_the_program(self) -> None:
        """It shows and reads the same with references as with bytes."""
        program = tools.overlayd()
        if program is None:
            tools.skip(self.id(), "no overlayd was built (environment variable OVERLAYD)")
        tar = self.write("l.tar", tar_of(MEMBERS))
        script = "attach\n0 open r /a\n0 read 0 2000\n0 open r /d/b\n0 read 1 9\nmerge\n"
        told = []
        for words in ((tar,), ("--blobs", tar)):
            path = self.folder / f"{len(words)}.toml"
            tools.import_to(path, words)
            told.append((tools.show(program, path), tools.play(program, path, script)))
        self.assertEqual(told[0], told[1])


# The head of a manifest, where BLOB has ten bytes, the keys of a file's entry, and the first fault.
FAULTS: List[Tuple[str, str, Optional[str]]] = [
    ('blobs = ["BLOB"]', "blob = 0", None),
    ('blobs = ["BLOB"]', "blob = 0\nat = 10", None),
    ('blobs = ["BLOB"]', "blob = 0\nat = 3\nsize = 7", None),
    ('blobs = ["BLOB"]', "blob = 0\nsize = 10", None),
    ('blobs = ["none", "BLOB"]', "blob = 1", "cannot read blob 0"),
    ('blobs = ["none"]\nhistory = 1', "", "manifest: history"),
    ('blobs = ["none"]', "blob = 1", "cannot read blob 0"),
    ('blobs = ["."]', "", "cannot read blob 0"),
    ("blobs = []", "", None),
    ("blobs = [1]", "", "manifest: blobs"),
    ('blobs = "BLOB"', "", "manifest: blobs"),
    ("blobs = 1\nfile_limit = 0", "", "manifest: file_limit"),
    ('blobs = ["BLOB"]', "blob = 1", "layer 0 entry 0: value"),
    ('blobs = ["BLOB"]', "blob = -1", "layer 0 entry 0: value"),
    ('blobs = ["BLOB"]', "blob = 0\nat = 11", "layer 0 entry 0: value"),
    ('blobs = ["BLOB"]', "blob = 0\nat = -1", "layer 0 entry 0: value"),
    ('blobs = ["BLOB"]', "blob = 0\nat = 3\nsize = 8", "layer 0 entry 0: value"),
    ('blobs = ["BLOB"]', "blob = 0\nsize = -1", "layer 0 entry 0: value"),
    ('blobs = ["BLOB"]\nfile_limit = 9', "blob = 0", "layer 0 entry 0: value"),
    ('blobs = ["BLOB"]\nfile_limit = 9', "blob = 0\nsize = 10", "layer 0 entry 0: value"),
    ('blobs = ["BLOB"]\nfile_limit = 9', "blob = 0\nat = 1", None),
    ('blobs = ["BLOB"]', "blob = 0\nzeros = 1", "layer 0 entry 0: key"),
    ('blobs = ["BLOB"]', 'blob = "BLOB"', "layer 0 entry 0: key"),
    ("", "at = 0", "layer 0 entry 0: key"),
    ("", "size = 0", "layer 0 entry 0: key"),
    ("", "blob = 0", "layer 0 entry 0: value"),
]


class CheckTest(BlobTest):
    """What --check, and the program, say of manifests with blobs."""

    def manifests(self) -> List[Tuple[Path, Optional[str]]]:
        """Each manifest with its first fault."""
        self.write("blob", b"0123456789")
        found = []
        for number, (top, keys, wanted) in enumerate(FAULTS):
            path = self.folder / f"{number}.toml"
            path.write_text(f"{top}\n[[layer]]\n[[layer.entry]]\npath = \"/f\"\nkind = \"file\"\n"
                            f"{keys}\n[[layer]]\n".replace("BLOB", "blob"), "utf-8")
            found.append((path, wanted))
        return found

    def test_check(self) -> None:
        """The first fault is the one that overlayd tells; where there is none, none is told."""
        for path, wanted in self.manifests():
            with self.subTest(path.read_text("utf-8")):
                checked = check(path.read_bytes(), str(self.folder))
                self.assertEqual(checked.first, wanted)
                self.assertEqual(bool(checked.faults), wanted is not None)

    def test_program(self) -> None:
        """It says the same."""
        program = tools.overlayd()
        if program is None:
            tools.skip(self.id(), "no overlayd was built (environment variable OVERLAYD)")
        for path, wanted in self.manifests():
            with self.subTest(path.read_text("utf-8")):
                told = [] if wanted is None else [f"overlayd: {wanted}"]
                self.assertEqual(tools.faults(program, path), told)


class ExportTest(BlobTest):
    """The lower layers of a manifest that refers to bytes."""

    def test_lower_tree(self) -> None:
        """It has the bytes of the blobs, in a manifest of lines and in any other."""
        tar = self.write("l.tar", tar_of(MEMBERS))
        self.manifest("--blobs", tar)
        whole = self.write("w.toml", b'blobs = [\n"l.tar"]\nlayer = [{}, {entry = [{path = "/a", '
                                     b'kind = "file", blob = 0, at = 257}]}]')
        found = LowerTree(str(self.folder / "m.toml"))
        files = {entry.path[1:]: found.read(entry) for entry in found.entries()
                 if entry.kind == "file" and entry.path != "/empty"}
        self.assertEqual(files, {**BYTES, "d/again": BYTES["a"]})
        if _has_tomllib():
            found = LowerTree(whole)
            entry = next(entry for entry in found.entries() if entry.kind == "file")
            self.assertEqual(found.read(entry), Path(tar).read_bytes()[257:])
            self.assertEqual(entry.size, Path(tar).stat().st_size - 257)


def _has_tomllib() -> bool:
    try:
        __import__("tomllib")
    except ImportError:
        return False
    return True


if __name__ == "__main__":
    unittest.main()
