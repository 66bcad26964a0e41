"""Exports of saved uppers: times, kinds, attributes and hard links, without a server."""

import contextlib
import io
import json
import os
import shutil
import stat
import subprocess
import sys
import tarfile
import tempfile
import unittest
from pathlib import Path
from typing import Dict, List
from unittest import mock

from overlayd.exporter import Change, Entry, MemoryTree, Unsayable, write_upper
from overlayd.exporter.command import main as export
from overlayd.importer.checking import check
from overlayd.importer.command import main as load

from . import import_tools as tools
from .import_tools import file, tar_of

TIME = 1_600_000_000_123_456_789
META = "1 {} {} 5.000000000 1600000001.000000007 6.000000000"
HIDDEN = '["user.overlayd.xattr.security.x", "00ff"]'
# What a server saves: a further name of a file, a device, a fifo, a capability and times.
SAVED = f"""[[layer]]

[[layer.entry]]
path = "/a"
kind = "file"
mode = 0o4755
uid = 7
attrs = [["user.overlayd.meta", "{META.format('-', 0)}"], {HIDDEN}]
text = "new"

[[layer.entry]]
path = "/b"
kind = "link"
to = "/a"

[[layer.entry]]
path = "/gone"
kind = "whiteout"

[[layer.entry]]
path = "/null"
kind = "file"
attrs = [["user.overlayd.meta", "{META.format('c', os.makedev(1, 3))}"]]

[[layer.entry]]
path = "/pipe"
kind = "file"
attrs = [["user.overlayd.meta", "{META.format('p', 0)}"]]
"""
CHANGED = 1_600_000_001_000_000_007


class SavedCase(unittest.TestCase):
    """A base of a directory with a time, in a folder."""

    def setUp(self) -> None:
        folder = tempfile.TemporaryDirectory()
        self.addCleanup(folder.cleanup)
        self.folder = Path(folder.name)
        root = self.folder / "root"
        root.mkdir()
        for name in ("gone", "kept"):
            (root / name).write_text(name)
            os.utime(root / name, ns=(TIME, TIME))
        os.utime(root, ns=(TIME, TIME))
        self.base = str(self.folder / "base.toml")
        self.run_command(load, "--times", str(root), "-o", self.base)

    def run_command(self, command: object, *words: str, status: int = 0) -> List[str]:
        """What a command says."""
        errors = io.StringIO()
        with contextlib.redirect_stderr(errors):
            self.assertEqual(command([*words]), status, errors.getvalue())  # type: ignore[operator]
        return errors.getvalue().splitlines()

    def saved(self, text: str = SAVED) -> str:
        """A file with a saved upper."""
        path = self.folder / "saved.toml"
        path.write_text(text)
        return str(path)

    def layer(self, *words: str) -> Dict[str, tarfile.TarInfo]:
        """The members of the layer that is exported."""
        path = str(self.folder / "layer.tar")
        self.run_command(export, *words, "--layer", path)
        with tarfile.open(path) as tar:
            return {member.name: member for member in tar}


class LayerTest(SavedCase):
    """Layers."""

    def test_all_kinds(self) -> None:
        """Times, a further name, a device, a fifo, another attribute; none of the bridge's own."""
        found = self.layer(self.base, "--manifest", self.saved())
        self.assertEqual({name: member.type for name, member in found.items()}, {
            "a": tarfile.REGTYPE, "b": tarfile.LNKTYPE, ".wh.gone": tarfile.REGTYPE,
            "null": tarfile.CHRTYPE, "pipe": tarfile.FIFOTYPE})
        self.assertEqual(found["b"].linkname, "a")
        self.assertEqual((found["null"].devmajor, found["null"].devminor), (1, 3))
        self.assertEqual(found["a"].pax_headers["mtime"], "1600000001.000000007")
        self.assertEqual((found["a"].mode, found["a"].uid), (0o4755, 7))
        self.assertEqual(found["a"].pax_headers["SCHILY.xattr.security.x"], "\0\udcff")
        self.assertNotIn(b"overlayd", (self.folder / "layer.tar").read_bytes())

    def test_source_date_epoch(self) -> None:
        """No time is later, and what has none gets it."""
        with mock.patch.dict(os.environ, {"SOURCE_DATE_EPOCH": "1500000000"}):
            found = self.layer(self.base, "--manifest", self.saved())
        self.assertEqual({member.mtime for member in found.values()}, {1_500_000_000})

    def test_times_that_are_changed(self) -> None:
        """A file of another time is written; one of other bytes and the same words has none."""
        kept = next(pair for entry in Path(self.base).read_text().split("[[layer.entry]]")
                    if '"/kept"' in entry for pair in [entry.split("attrs = ")[1].split("\n")[0]])
        head = '[[layer]]\n\n[[layer.entry]]\npath = "/kept"\nkind = "file"\n'
        touched = kept.replace("1600000000", "1600000009")
        for attrs, text, wanted in ((kept, "kept", {}), (kept, "kepd", {"kept": 0.0}),
                                    (touched, "kept", {"kept": 1600000009.1234567})):
            saved = self.saved(f'{head}attrs = {attrs}\ntext = "{text}"\n')
            with self.subTest(text=text, attrs=attrs):
                found = self.layer(self.base, "--manifest", saved)
                self.assertEqual({name: member.mtime for name, member in found.items()}, wanted)

    def test_round_trip(self) -> None:
        """What is imported again over the base has the same attributes to the nanosecond."""
        self.layer(self.base, "--manifest", self.saved())
        again = tools.run_import("--times", "--devices", "--xattrs",
                                 str(self.folder / "layer.tar"), str(self.folder / "root"))
        self.assertIn(HIDDEN, again.manifest)
        self.assertIn("1600000001.000000007", again.manifest)
        self.assertIn(f"1 c {os.makedev(1, 3)} ", again.manifest)
        self.assertIn('kind = "link"', again.manifest)
        self.assertIn("1600000000.123456789", again.manifest)


class UpperTest(SavedCase):
    """Upper directories."""

    def test_all_kinds(self) -> None:
        """As root: the same on the disk."""
        if os.geteuid() != 0:
            tools.skip(self.id(), "only root makes devices")
        upper = self.folder / "up"
        saved = self.saved(SAVED.replace("security.x", "user.x"))
        self.run_command(export, self.base, "--manifest", saved, "--upper", str(upper))
        a, null = os.stat(upper / "a"), os.stat(upper / "null")
        self.assertEqual((a.st_mtime_ns, a.st_mode & 0o7777, a.st_uid, a.st_nlink, a.st_ino),
                         (CHANGED, 0o4755, 7, 2, os.stat(upper / "b").st_ino))
        self.assertTrue(stat.S_ISCHR(null.st_mode) and null.st_rdev == os.makedev(1, 3))
        self.assertTrue(stat.S_ISFIFO(os.stat(upper / "pipe").st_mode))
        self.assertEqual(os.listxattr(upper / "a"), ["user.x"])
        self.assertEqual(os.getxattr(upper / "a", "user.x"), b"\0\xff")
        self.assertTrue(stat.S_ISCHR(os.lstat(upper / "gone").st_mode))

    def test_nothing_outside(self) -> None:
        """What is below a link, or below nothing that was made, isn't written."""
        victim = self.folder / "victim"
        victim.mkdir()
        tree = MemoryTree([], {"/s/pwned": b"x"})
        for changes in (
                [Change("/", Entry("/", "dir")),
                 Change("/s", Entry("/s", "symlink", target=str(victim))),
                 Change("/s/pwned", Entry("/s/pwned", "file", 0o6755))],
                [Change("/", Entry("/", "dir")), Change("/../pwned", Entry("/../pwned", "file"))],
                [Change("/", Entry("/", "dir")), Change("/s/pwned", Entry("/s/pwned", "file"))]):
            with self.subTest(changes[-1].path), self.assertRaises(Unsayable):
                write_upper(changes, tree, str(self.folder / "up"))
        self.assertEqual(os.listdir(victim), [])
        self.assertEqual(sorted(os.listdir(self.folder)), ["base.toml", "root", "victim"])


class JoinTest(SavedCase):
    """A saved upper over the base's lower layers."""

    def test_joined(self) -> None:
        """The manifest has no fault, and says what the two say together."""
        apart = self.layer(self.base, "--manifest", self.saved())
        joined = str(self.folder / "in" / "joined.toml")
        os.mkdir(os.path.dirname(joined))
        self.run_command(load, "--upper", self.saved(), self.base, "-o", joined)
        self.assertIsNone(check(Path(joined).read_bytes(), os.path.dirname(joined)).first)
        found = self.layer("--manifest", joined)
        self.assertEqual(list(found), list(apart))
        program = tools.overlayd()
        if program is not None:
            self.assertIn("f 4755 7 0 3 2 /b", tools.show(program, Path(joined)))

    def test_other_forms(self) -> None:
        """A base in another form of TOML, with a blob, which is named from the new place."""
        (self.folder / "blob").write_bytes(b"12345")
        Path(self.base).write_text(
            'file_limit = 5\nblobs = ["blob"]\nlayer = [{}, { entry = [{ path = "/f", '
            "kind = 'file', blob = 0, at = 1, mode = 0o600 }] }]\n")
        os.mkdir(self.folder / "in")
        joined = self.folder / "in" / "joined.toml"
        self.run_command(load, "--upper", self.saved(), self.base, "-o", str(joined))
        self.assertIsNone(check(joined.read_bytes(), str(joined.parent)).first)
        self.assertIn(f'blobs = ["{os.path.realpath(self.folder)}/blob"]', joined.read_text())

    def test_refused(self) -> None:
        """What is no saved upper, and what has none; nothing is written."""
        wrong = [(self.base, self.base), (self.saved(), self.saved()),
                 (self.saved("[[layer]\n"), self.base)]
        for number, (saved, base) in enumerate(wrong):
            with self.subTest(number):
                out = self.folder / "out.toml"
                lines = self.run_command(load, "--upper", saved, base, "-o", str(out), status=1)
                self.assertEqual((len(lines), out.exists()), (1, False), lines)


class LayoutTest(SavedCase):
    """Images as OCI layouts."""

    def test_above_an_image(self) -> None:
        """A new layout, and then a layer above it; each blob has the digest of its name."""
        layout = str(self.folder / "oci")
        first = self.saved('[[layer]]\n\n[[layer.entry]]\npath = "/first"\nkind = "file"\n')
        self.run_command(export, self.base, "--manifest", first, "--image-out", f"{layout}:a")
        self.run_command(export, self.base, "--manifest", self.saved(), "--image-out",
                         f"{layout}:a", "--as", "b")
        shown = [tools.run_import(f"oci:{layout}:{tag}", "--devices").manifest for tag in "ab"]
        self.assertEqual([text.count('path = "/first"') for text in shown], [1, 1])
        self.assertEqual([text.count('path = "/null"') for text in shown], [0, 1])
        index = json.loads((self.folder / "oci/index.json").read_text())
        self.assertEqual(len(index["manifests"]), 2)
        for program, words in (("skopeo", ["copy", f"oci:{layout}:b", f"dir:{self.folder}/sk"]),
                               ("umoci", ["unpack", "--rootless", "--image", f"{layout}:b",
                                          f"{self.folder}/bundle"])):
            if shutil.which(program) is None:
                print(f"skipped: {self.id()}: no {program}")
                continue
            if program == "skopeo":
                words.insert(0, "--insecure-policy")
            done = subprocess.run([program, *words], capture_output=True, check=False)
            self.assertEqual(done.returncode, 0, done.stderr)
        if shutil.which("skopeo"):
            self.assertEqual(tools.run_import(f"{self.folder}/sk", "--devices").manifest, shown[1])
        if shutil.which("umoci"):
            found = self.folder / "bundle/rootfs/a"
            self.assertEqual(os.stat(found).st_nlink, 2)
            self.assertEqual(os.stat(found).st_mtime_ns, CHANGED)

    def test_what_is_no_layout(self) -> None:
        """It is left as it is."""
        (self.folder / "other").mkdir()
        (self.folder / "other/f").write_text("x")
        lines = self.run_command(export, self.base, "--manifest", self.saved(), "--image-out",
                                 f"{self.folder}/other:t", status=1)
        self.assertEqual((len(lines), os.listdir(self.folder / "other")), (1, ["f"]))


class SourceTest(SavedCase):
    """Tars by zstd, and tars that end without an end."""

    def put(self, name: str, data: bytes) -> str:
        """A file of the folder."""
        path = self.folder / name
        path.write_bytes(data)
        return str(path)

    def test_zstd(self) -> None:
        """It is read by Python or by the program; where there is neither, that is told."""
        program = shutil.which("zstd")
        plain = self.put("layer.tar", tar_of([file("f", b"x" * 5000)]))
        if program is not None:
            packed = plain + ".zst"
            subprocess.run([program, "-q", plain, "-o", packed], check=True)
            self.assertEqual(tools.run_import(packed).manifest, tools.run_import(plain).manifest)
        broken = self.put("broken.zst", b"\x28\xb5\x2f\xfd" + b"x" * 1000)
        self.assertEqual((tools.run_import(broken).status, len(tools.run_import(broken).errors)),
                         (1, 1))
        if sys.version_info < (3, 14):
            with mock.patch("shutil.which", return_value=None):
                self.assertEqual(tools.run_import(broken), tools.Run(1, "", [
                    f"overlayd-import: {broken}: compressed by zstd, which this Python can't read, "
                    "and there is no program zstd"]))

    def test_no_end(self) -> None:
        """It is read and told; where bytes of a file are missing it is refused."""
        path = self.folder / "t.tar"
        whole = tar_of([file("f", b"x" * 600)])[:512 + 600]
        path.write_bytes(whole)
        run = tools.run_import(str(path))
        self.assertEqual(run.status, 0)
        self.assertIn("this tar has no end", run.errors[0])
        path.write_bytes(whole[:-1])
        self.assertEqual(tools.run_import(str(path)).status, 1)


if __name__ == "__main__":
    unittest.main()
