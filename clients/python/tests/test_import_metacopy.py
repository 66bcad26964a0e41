"""Files whose bytes are in a layer below: the marks `overlay.metacopy` and `overlay.redirect`."""

import os
import random
import tempfile
import unittest
from pathlib import Path
from typing import Any, Dict, List, Optional, Tuple

from overlayd.exporter import LowerTree

from . import import_tools as tools
from . import test_import_kernel as kernel
from .import_tools import directory, file, tar_of

OPTIONS = "redirect_dir=on,index=off,xino=off,metacopy=on"
SEEDS = 15
# What a file of a lower layer is like: its mode and its bytes.
Shown = Dict[str, Tuple[int, bytes]]


def layers_of(test: str, folder: Path, layers: List[Dict[str, Any]], prefix: str) -> List[str]:
    """Makes a directory for each layer, the highest first. The value of a path is the bytes of a
    file, or the marks of what is a file where it has `metacopy` and a directory where not; all
    that is marked is a file of mode 0600."""
    made = []
    for number, layer in enumerate(layers):
        root = folder / f"layer{number}"
        root.mkdir()
        for path, what in layer.items():
            there = root / path.lstrip("/")
            if isinstance(what, bytes):
                there.write_bytes(what)
            elif "metacopy" in what:
                there.touch()
                there.chmod(0o600)
            else:
                there.mkdir()
            for mark, value in what.items() if isinstance(what, dict) else ():
                tools.set_attribute(test, there, f"{prefix}overlay.{mark}", value)
        made.append(str(root))
    return made


def marked(redirect: Optional[bytes] = None) -> Dict[str, bytes]:
    """The marks of a file whose bytes are below."""
    return {"metacopy": b""} if redirect is None else {"metacopy": b"", "redirect": redirect}


# What the layers show, the highest first.
FOLLOWED: List[Tuple[str, List[Dict[str, Any]], Dict[str, bytes]]] = [
    ("at its own path", [{"/f": marked()}, {"/f": b"1"}], {"/f": b"1"}),
    ("two layers below", [{"/f": marked()}, {}, {"/f": b"1"}], {"/f": b"1"}),
    ("at a path from the root", [{"/d": {}, "/d/g": marked(b"/f")}, {"/f": b"1"}],
     {"/d/g": b"1", "/f": b"1"}),
    ("beside it", [{"/g": marked(b"f")}, {"/f": b"1", "/g": b"2"}], {"/g": b"1", "/f": b"1"}),
    ("in what its directory was", [{"/d": {"redirect": b"/e"}, "/d/f": marked()},
                                   {"/e": {}, "/e/f": b"1"}], {"/d/f": b"1", "/e/f": b"1"}),
    ("beside that", [{"/d": {"redirect": b"e"}, "/d/g": marked(b"f")}, {"/e": {}, "/e/f": b"1"}],
     {"/d/f": b"1", "/d/g": b"1", "/e/f": b"1"}),
    ("beyond an opaque directory", [{"/d": {"opaque": b"y"}, "/d/g": marked(b"/d/f")},
                                    {"/d": {}, "/d/f": b"1"}], {"/d/g": b"1"}),
    ("through a redirect of a lower layer", [{"/f": marked(b"/d/g")}, {"/d": {"redirect": b"/e"}},
                                             {"/e": {}, "/e/g": b"1"}],
     {"/f": b"1", "/d/g": b"1", "/e/g": b"1"}),
    ("from mark to mark", [{"/f": marked(b"/g")}, {"/g": marked(b"h")}, {"/h": marked()},
                           {"/h": b"1"}], {"/f": b"1", "/g": b"1", "/h": b"1"}),
    ("a mark below one without", [{"/f": b"2"}, {"/f": marked()}, {"/f": b"1"}], {"/f": b"2"}),
]
# What has no bytes, and where they were looked for.
ASTRAY: List[Tuple[List[Dict[str, Any]], str]] = [
    ([{"/f": marked()}, {}], "its path"),
    ([{"/f": marked()}, {"/f": {}}], "its path"),
    ([{"/g": marked(b"/f")}, {"/g": b"1"}], "its redirect, /f"),
    ([{"/g": marked(b"a/b")}, {"/g": b"1"}], "its redirect, a/b"),
    ([{"/g": marked(b"/\xff")}, {"/g": b"1"}], "its redirect, /\\xff"),
    ([{"/g": marked(b"/")}, {"/g": b"1"}], "its redirect, /"),
    ([{"/d": {"opaque": b"y"}, "/d/f": marked()}, {"/d": {}, "/d/f": b"1"}], "its path"),
    ([{"/d": {"opaque": b"y"}, "/d/g": marked(b"f")}, {"/d": {}, "/d/f": b"1"}],
     "its redirect, f"),
]


class MetacopyTest(unittest.TestCase):
    """Layers whose marks are set by hand."""

    def setUp(self) -> None:
        folder = tempfile.TemporaryDirectory()
        self.addCleanup(folder.cleanup)
        self.folder = Path(folder.name)

    def shown(self, *sources: str) -> Shown:
        """The files that the sources show together, as lower layers."""
        manifest = self.folder / "m.toml"
        tools.import_to(manifest, [*sources, "--empty-upper"])
        tree = LowerTree(str(manifest))
        return {entry.path: (entry.mode, tree.read(entry)) for entry in tree.entries()
                if entry.kind == "file"}

    def test_bytes_are_followed(self) -> None:
        """By the kernel's rules; with 17 layers in between, which are made one with the lowest."""
        for between in (0, 17):
            for what, layers, wanted in FOLLOWED:
                with self.subTest(what, between=between), tempfile.TemporaryDirectory() as name:
                    there = [layers[0], *[{}] * between, *layers[1:]]
                    found = self.shown(*layers_of(self.id(), Path(name), there, "user."))
                    self.assertEqual({path: data for path, (_, data) in found.items()}, wanted)

    def test_attributes_are_its_own(self) -> None:
        """Mode and user attributes; of a file with two names too, which it keeps."""
        upper, lower = layers_of(self.id(), self.folder, [
            {"/a": b"own", "/f": marked(b"/low")}, {"/low": b"bytes"}], "user.")
        tools.set_attribute(self.id(), Path(upper, "f"), "user.k", b"v")
        os.link(Path(upper, "f"), Path(upper, "g"))
        run = tools.run_import(upper, lower)
        self.assertEqual(run.status, 0, run.errors)
        layer = run.manifest.split("[[layer]]\n")[1]
        owner = f"uid = {os.getuid()}\n" if os.getuid() else ""
        owner += f"gid = {os.getgid()}\n" if os.getgid() else ""
        self.assertTrue(layer.endswith(f'''
[[layer.entry]]
path = "/f"
kind = "file"
mode = 0o600
{owner}attrs = [["user.k", "v"]]
text = "bytes"

[[layer.entry]]
path = "/g"
kind = "link"
to = "/f"

'''), layer)

    def test_marks_of_root(self) -> None:
        """The marks with `trusted.` before them."""
        layers = layers_of(self.id(), self.folder, [{"/g": marked(b"f")}, {"/f": b"1"}],
                           "trusted.")
        self.assertEqual(self.shown(*layers), {"/f": (0o644, b"1"), "/g": (0o600, b"1")})

    def test_tars(self) -> None:
        """Marks in tars, bytes in tars, and a directory in between."""
        attrs = {"trusted.overlay.metacopy": "", "trusted.overlay.redirect": "/d/g"}
        top, low = self.folder / "top.tar", self.folder / "low.tar"
        top.write_bytes(tar_of([file("f", bytes(4), mode=0o600, attrs=attrs), file("own", b"own")]))
        low.write_bytes(tar_of([directory("d"), *[file(f"d/{name}", name.encode() * 4)
                                                  for name in "efgh"]]))
        self.assertEqual(self.shown(str(top), str(low))["/f"], (0o600, b"gggg"))
        middle = layers_of(self.id(), self.folder, [
            {"/d": {}, "/d/g": marked(b"/d/h"), "/e": marked(b"/d/e"), "/own": b"2"}], "user.")
        found = self.shown(str(top), *middle, str(low))
        self.assertEqual(found["/f"], (0o600, b"hhhh"))
        self.assertEqual(found["/d/g"], (0o600, b"hhhh"))
        self.assertEqual((found["/e"][1], found["/own"][1]), (b"eeee", b"own"))

    def test_a_tar_over_a_whiteout(self) -> None:
        """It is refused as a directory is."""
        tars = [self.folder / name for name in ("top.tar", "middle.tar", "low.tar")]
        for tar, member in zip(tars, (file("d/f", attrs={"trusted.overlay.metacopy": ""}),
                                      file("d/.wh.f"), file("d/f", b"1"))):
            tar.write_bytes(tar_of([member]))
        self.assertEqual(tools.run_import(*map(str, tars)).errors, [
            f"overlayd-import: {tars[0]}: /d/f: a file whose bytes are in a lower layer "
            "(metacopy), and no layer below has a file at its path"])

    def test_no_bytes(self) -> None:
        """What leads to no file is refused, with the place where it was looked for."""
        for layers, where in ASTRAY:
            with self.subTest(where=where), tempfile.TemporaryDirectory() as name:
                made = layers_of(self.id(), Path(name), layers, "user.")
                path = next(path for path, what in layers[0].items() if "metacopy" in what)
                self.assertEqual(tools.run_import(*made), tools.Run(1, "", [
                    f"overlayd-import: {made[0]}: {path}: a file whose bytes are in a lower layer "
                    f"(metacopy), and no layer below has a file at {where}"]))

    def test_too_large(self) -> None:
        """The mark's own size is that of the bytes; over the limit it is left out as others are."""
        made = layers_of(self.id(), self.folder, [{"/f": marked()}, {"/f": b"1"}], "user.")
        for layer in made:
            os.truncate(Path(layer, "f"), 1_048_577)
        run = tools.run_import(*made, "--file-limit", "1048576")
        self.assertEqual(run.errors[:2], [
            f"overlayd-import: left out: {layer}: /f: a file of 1,048,577 bytes; at most 1,048,576 "
            "fit" for layer in made])


class OptionTest(unittest.TestCase):
    """The option of the manifest."""

    def test_it_is_written(self) -> None:
        """Behind redirect_dir, without which there is none."""
        with tempfile.TemporaryDirectory() as source:
            for words, lines in (
                    (["--redirect-dir", "on", "--metacopy", "on", "--history", "7"],
                     'redirect_dir = "on"\nmetacopy = "on"\nhistory = 7\n'),
                    (["--redirect-dir", "on", "--metacopy", "off"],
                     'redirect_dir = "on"\nmetacopy = "off"\n'),
                    (["--metacopy", "off"], 'metacopy = "off"\n')):
                run = tools.run_import(source, *words)
                self.assertEqual(run.manifest.partition("\n[[layer]]")[0], lines)


class Changes(kernel.Changes):
    """Random changes, most of which leave the bytes of a file where they are."""

    def __init__(self, root: str, seed: int) -> None:
        super().__init__(root, seed)
        self._more = random.Random(seed)

    def make(self, count: int) -> None:
        for _ in range(count):
            change = self._more.choice([
                self._chmod, self._chmod, self._chown, self._setxattr, self._link, self._rename,
                self._rename, self._rename, self._mkdir, self._append, self._unlink,
                self._replace])
            try:
                change()
            except OSError:
                pass

    def _path(self) -> str:
        """A path as others are, or one of a file that is there."""
        there = [os.path.join(base, name) for base, _, names in sorted(os.walk(self._root))
                 for name in sorted(names)]
        return self._more.choice(there) if there and self._more.random() < 0.4 else super()._path()


def marks_in(root: Path) -> int:
    """How many files of a directory are marked."""
    count = 0
    for base, _, names in os.walk(root):
        for name in names:
            path = os.path.join(base, name)
            count += "trusted.overlay.metacopy" in os.listxattr(path, follow_symlinks=False)
    return count


class KernelTest(kernel.KernelCase):
    """Layers that the kernel made with `metacopy=on`: the program shows what the kernel shows."""

    changes = Changes

    def make_base(self, root: str, seed: int) -> None:
        super().make_base(root, seed)
        for number, (base, _, _) in enumerate(list(os.walk(root))):
            for name in "cde":
                path = Path(base, name)
                if not os.path.lexists(path):
                    path.write_text(f"{number} {name}")

    def test_two_layers(self) -> None:
        """An upper over a base."""
        marks = 0
        for seed in range(SEEDS):
            with self.subTest(seed=seed), tempfile.TemporaryDirectory() as name:
                layers = self.stack(Path(name), seed, 1, 60, OPTIONS)
                marks += marks_in(Path(name, layers[0]))
                self.compare(Path(name), layers, OPTIONS)
        self.assertGreater(marks, 3 * SEEDS)

    def test_many_layers(self) -> None:
        """19 uppers over a base, of which the lowest four layers are made one."""
        for seed in range(3):
            with self.subTest(seed=seed), tempfile.TemporaryDirectory() as name:
                self.compare(Path(name), self.stack(Path(name), seed, 19, 10, OPTIONS), OPTIONS)


if __name__ == "__main__":
    unittest.main()
