"""Times of symbolic links: by attributes of their directories into a manifest and out of it."""

import contextlib
import io
import os
import tarfile
import tempfile
import unittest
from pathlib import Path
from typing import Dict, List

from overlayd.exporter.command import main as export
from overlayd.importer.command import main as load
from overlayd.importer.meta import links_texts, read_links

from .import_tools import Member, tar_of

OLD, NEW, EARLY = 981_173_106_123_456_789, 1_600_000_000_000_000_001, -1_500_000_000


def link(name: str, mtime: str) -> Member:
    """A symbolic link in a tar."""
    return Member(name, tarfile.SYMTYPE, link="x", headers={"mtime": mtime})


class FormTest(unittest.TestCase):
    """The values of the attributes."""

    def test_written(self) -> None:
        """Links of one time follow it."""
        found = links_texts({"b": OLD, "a": OLD, "c": EARLY}, 1024, 48)
        self.assertEqual(found, (["-2.500000000/c//981173106.123456789/a/b"], 0))
        self.assertEqual(links_texts({}, 1024, 48), ([], 0))

    def test_room(self) -> None:
        """As many values as fit, each within its bytes; the links that are over are counted."""
        times = {f"{number:03}" + "\u00e9" * 40: number for number in range(100)}
        values, left = links_texts(times, 1024, 4)
        self.assertEqual((len(values), max(len(value.encode()) for value in values) <= 1024),
                         (4, True))
        found = read_links((f"user.overlayd.links.{n}", value) for n, value in enumerate(values))
        self.assertEqual(found, dict([*times.items()][:100 - left]))
        self.assertGreater(len(found), 30)
        self.assertEqual(links_texts(times, 1024, 0), ([], 100))

    def test_other_forms(self) -> None:
        """What has another form says nothing."""
        for value in ("", "1.5/a", "x", "1.000000000", "/a", "\u0661.000000000/a",
                      f"{1 << 63}.000000000/a"):
            self.assertEqual(read_links([("user.overlayd.links.0", value)]), {}, value)

    def test_numbers(self) -> None:
        """Attributes from 0 to 47 count, in this order; others, as to the bridge, say nothing."""
        for name in ("linkx", "links", "links.", "links.x", "links.00", "links.01", "links.+1",
                     "links.-1", "links.48", "links.100", "links.1 ", "links.1\n", "links.\u0661"):
            self.assertEqual(read_links([(f"user.overlayd.{name}", "1.000000000/a")]), {}, name)
        twice = [("user.overlayd.links.47", "3.000000000/a"),
                 ("user.overlayd.links.10", "2.000000000/a/b"),
                 ("user.overlayd.links.2", "1.000000000/a/b/c")]
        self.assertEqual(read_links(twice),
                         {"a": 3_000_000_000, "b": 2_000_000_000, "c": 1_000_000_000})


class LinkCase(unittest.TestCase):
    """A base with links in several directories."""

    def setUp(self) -> None:
        folder = tempfile.TemporaryDirectory()
        self.addCleanup(folder.cleanup)
        self.folder = Path(folder.name)
        self.base = self.folder / "base"
        (self.base / "d").mkdir(parents=True)
        self.add(self.base / "top", OLD)
        self.add(self.base / "d/one", NEW)
        self.add(self.base / "d/\u00e9", EARLY)
        os.link(self.base / "d/one", self.base / "d/two", follow_symlinks=False)

    @staticmethod
    def add(path: Path, mtime: int, target: str = "nowhere") -> None:
        """A symbolic link."""
        os.symlink(target, path)
        os.utime(path, ns=(mtime, mtime), follow_symlinks=False)

    def run_command(self, command: object, *words: str) -> List[str]:
        """What a command says."""
        with contextlib.redirect_stderr(io.StringIO()) as errors:
            self.assertEqual(command([*words]), 0, errors.getvalue())  # type: ignore[operator]
        return errors.getvalue().splitlines()

    def loaded(self, *sources: object) -> Path:
        """The manifest of sources."""
        manifest = self.folder / "m.toml"
        self.run_command(load, *map(str, sources), "-o", str(manifest))
        return manifest

    def shown(self, manifest: Path) -> Dict[str, int]:
        """The times of the links that a manifest shows, as an upper directory that is exported
        over nothing has them."""
        saved, empty, upper = (self.folder / name for name in ("saved", "empty", "upper"))
        saved.write_text("[[layer]]" + manifest.read_text().split("[[layer]]")[-1])
        empty.write_text("[[layer]]\n[[layer]]\n")
        self.run_command(export, str(empty), "--manifest", str(saved), "--upper", str(upper))
        return {str(path.relative_to(upper)): path.lstat().st_mtime_ns
                for path in sorted(upper.rglob("*")) if path.is_symlink()}


class RoundTripTest(LinkCase):
    """In, and out again."""

    def test_every_time(self) -> None:
        """Of a directory, to the nanosecond, with further names; none without times."""
        manifest = self.loaded(self.base)
        self.assertEqual(self.shown(manifest),
                         {"d/one": NEW, "d/two": NEW, "d/\u00e9": EARLY, "top": OLD})
        self.run_command(load, "--no-times", str(self.base), "-o", str(manifest))
        self.assertNotIn("overlayd", manifest.read_text())

    def test_layer(self) -> None:
        """The layer of a change has a link of another time, and of another target; none that only
        lies beside them."""
        change = self.folder / "change"
        (change / "d").mkdir(parents=True)
        for path in (change, change / "d"):
            below = os.stat(self.base / path.relative_to(change))
            os.utime(path, ns=(below.st_mtime_ns, below.st_mtime_ns))
        self.add(change / "top", NEW)
        self.add(change / "d/\u00e9", EARLY - 10 ** 9, "elsewhere")
        manifest = self.loaded(change, self.base)
        layer = str(self.folder / "layer.tar")
        self.run_command(export, "--manifest", str(manifest), "--layer", layer)
        with tarfile.open(layer) as tar:
            found = {one.name: one.pax_headers.get("mtime") for one in tar if one.issym()}
        self.assertEqual(found, {"top": "1600000000.000000001", "d/\u00e9": "-2.5"})

    def test_layers_of_tars(self) -> None:
        """A directory of the higher tar has the times of the links below that it shows, too."""
        high, low = self.folder / "high.tar", self.folder / "low.tar"
        high.write_bytes(tar_of([link("d/new", "5.5"), link("d/over", "6"),
                                 Member("d/.wh.gone", tarfile.REGTYPE)]))
        low.write_bytes(tar_of([link("d/old", "7"), link("d/over", "8"), link("d/gone", "9")]))
        text = self.loaded(high, low).read_text().split("[[layer]]")[1]
        self.assertIn('"user.overlayd.links.0", "5.500000000/new//6.000000000/over//7.000000000/'
                      'old//', text)

    def test_changed_by_others(self) -> None:
        """A link with the same words for its time and another target has no time that is known."""
        manifest = self.loaded(self.base)
        saved = self.folder / "saved.toml"
        line = next(line for line in manifest.read_text().splitlines() if "/top" in line
                    and "links" in line)
        saved.write_text(f'[[layer]]\n[[layer.entry]]\npath = "/"\nkind = "dir"\n{line}\n'
                         '[[layer.entry]]\npath = "/top"\nkind = "symlink"\ntarget = "new"\n')
        layer = str(self.folder / "layer.tar")
        self.run_command(export, str(manifest), "--manifest", str(saved), "--layer", layer)
        with tarfile.open(layer) as tar:
            self.assertEqual([(one.name, one.mtime) for one in tar], [("top", 0)])

    def test_too_many(self) -> None:
        """Where the attributes have no room, how many lost their times is told."""
        for number in range(1, 100):
            self.add(self.base / f"{number:0200}", number * 10 ** 9)
        for number in range(60):
            os.setxattr(self.base, f"user.{number}", b"x")
        lines = self.run_command(load, str(self.base), "-o", str(self.folder / "m.toml"))
        self.assertTrue(lines[0].endswith("layer 1 of 2: /: the times of 88 symbolic links in it"),
                        lines)


if __name__ == "__main__":
    unittest.main()
