"""Images of many random layers: the program shows the last state of what they were made from."""

import io
import os
import shutil
import subprocess
import tempfile
import unittest
from pathlib import Path
from typing import List

from overlayd.exporter import DirectoryTree, MemoryTree, Tree, changes, write_layer

from . import import_tools as tools
from .test_import_kernel import Changes, object_line, paths_below, script_and_answers


class ChainTest(unittest.TestCase):
    """Each layer is what was changed since the last one; directories that are as they were are
    left out, so that their attributes come from the layers below."""

    def setUp(self) -> None:
        if tools.overlayd() is None:
            tools.skip(self.id(), "no overlayd was built (environment variable OVERLAYD)")
        if os.geteuid() != 0:
            tools.skip(self.id(), "only root reads all files, whatever their modes")
        folder = tempfile.TemporaryDirectory()
        self.addCleanup(folder.cleanup)
        self.folder = Path(folder.name)

    def layers(self, root: Path, seed: int, count: int) -> List[bytes]:
        """So many layers, from the lowest; the root has the state of the last."""
        before = self.folder / "before"
        below: Tree = MemoryTree([])
        layers = []
        for number in range(count):
            Changes(str(root), seed * 100 + number).make(40 if number == 0 else 15)
            tree = DirectoryTree(str(root))
            found = [change for change in changes(below, tree) if not change.is_same]
            stream = io.BytesIO()
            write_layer(found, tree, stream)
            layers.append(stream.getvalue())
            shutil.rmtree(before, ignore_errors=True)
            subprocess.run(["cp", "-a", str(root), str(before)], check=True)
            below = DirectoryTree(str(before))
        shutil.rmtree(before)
        return layers

    def test_chains(self) -> None:
        """10 seeds of 3 layers, 10 of 20."""
        for seed in range(20):
            with self.subTest(seed=seed):
                root = self.folder / f"root{seed}"
                root.mkdir()
                layers = self.layers(root, seed, 3 if seed < 10 else 20)
                image, manifest = self.folder / "image.tar", self.folder / "manifest.toml"
                image.write_bytes(tools.saved_image(layers))
                tools.import_to(manifest, [str(image)])
                paths = paths_below(str(root))
                lines = [object_line(str(root), path) for path in paths]
                script, answers = script_and_answers(str(root), paths)
                program = tools.overlayd() or ""
                self.assertEqual(tools.show(program, manifest), lines)
                self.assertEqual(tools.play(program, manifest, "\n".join(script)), answers)
