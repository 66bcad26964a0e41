"""What the tests of the exporter share: random changes, and what is shown of an export."""

import os
import tempfile
import unittest
from collections import Counter
from pathlib import Path
from typing import List, Tuple

from overlayd.exporter import Change, DirectoryTree, changes, write_layer, write_upper

from . import import_tools as tools
from . import test_import_kernel as kernel


class ExportCase(unittest.TestCase):
    """Exports of random changes, where the kernel and the program can be asked."""

    @classmethod
    def setUpClass(cls) -> None:
        reason = kernel.why_not()
        if reason is not None:
            tools.skip(f"{cls.__module__}.{cls.__name__}", reason)

    def setUp(self) -> None:
        folder = tempfile.TemporaryDirectory()
        self.addCleanup(folder.cleanup)
        self.folder = Path(folder.name)

    def start(self, seed: int) -> Path:
        """A folder with a base."""
        base = self.folder / str(seed)
        for name in (".", "low", "m", "work"):
            (base / name).mkdir()
        kernel.Changes(str(base / "low"), seed).make(60)
        return base

    def mount(self, base: Path, upper: str) -> None:
        """Mounts an upper over the base."""
        options = f"lowerdir=low,upperdir={upper},workdir=work,{kernel.OPTIONS}"
        self.assertEqual(kernel.mount(base, options), 0)

    def shown(self, root: Path) -> Tuple[List[str], List[List[str]]]:
        """The object lines of a tree, and a script with its answers."""
        paths = kernel.paths_below(str(root))
        lines = [kernel.object_line(str(root), path) for path in paths]
        return lines, kernel.script_and_answers(str(root), paths)

    def export(self, base: Path, name: str) -> Tuple[List[str], List[List[str]]]:
        """Writes what a tree has over the base as `up` and `layer.tar`; what it shows."""
        tree = DirectoryTree(str(base / name))
        found = changes(DirectoryTree(str(base / "low")), tree)
        write_upper(found, tree, str(base / "up"))
        with open(base / "layer.tar", "wb") as stream:
            write_layer(found, tree, stream)
        lines, answers = self.shown(base / name)
        return self.with_names_counted(lines, found, tree), answers

    @staticmethod
    def with_names_counted(lines: List[str], found: List[Change], tree: DirectoryTree) -> List[str]:
        """The kernel counts names of a lower file that are hidden. A file of the layer has as many
        links as it has names."""
        names = Counter(entry.same for entry in tree.entries())
        links = {tools.escaped(os.fsencode(change.path)): names[change.entry.same]
                 if change.entry.same else 1
                 for change in found if change.entry and change.entry.kind != "dir"}
        counted = []
        for line in lines:
            words = line.split(" ")
            words[5] = str(links.get(words[6], words[5]))
            counted.append(" ".join(words))
        return counted

    def compare(self, base: Path, lines: List[str], answers: List[List[str]]) -> None:
        """Compares the upper by the kernel and the layer by the program with what was shown."""
        self.mount(base, "up")
        try:
            self.assertEqual(self.shown(base / "m"), (lines, answers))
        finally:
            kernel.unmount(base)
        manifest = base / "manifest.toml"
        tools.import_to(manifest, [str(base / "layer.tar"), str(base / "low")])
        program = tools.overlayd() or ""
        self.assertEqual(tools.show(program, manifest), lines)
        self.assertEqual(tools.play(program, manifest, "\n".join(answers[0])), answers[1])
