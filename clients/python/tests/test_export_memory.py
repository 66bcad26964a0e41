"""How much memory an export takes for each object."""

import os
import subprocess
import sys
import tempfile
import unittest
from pathlib import Path
from typing import Iterator

from . import import_tools as tools

# Runs an export, and prints the most memory that it had, in KiB.
PROGRAM = """
import sys
from overlayd.exporter.command import main
status = main(sys.argv[1:])
lines = open("/proc/self/status").read().splitlines()
print([line.split()[1] for line in lines if line.startswith("VmHWM")][0])
sys.exit(status)
"""
FEW, MANY = 2_000, 20_000
# What 18,000 objects more take at most, in KiB: 400 bytes for each.
MORE = (MANY - FEW) * 400 // 1024


def lines_of(count: int) -> Iterator[str]:
    """The manifest of one layer of so many objects, a hundred in a directory."""
    yield "[[layer]]\n"
    for number in range(count):
        folder, below = f"/folder{number // 100}", number % 100
        yield "\n[[layer.entry]]\n"
        time = f"{1_600_000_000 + number}.{number:09d}"
        attrs = f'attrs = [["user.overlayd.meta", "1 - 0 {time} {time} {time}"]]\n'
        if below == 0:
            yield f'path = "{folder}"\nkind = "dir"\n{attrs}'
        elif below == 1:
            yield f'path = "{folder}/link"\nkind = "symlink"\ntarget = "file-{number + 1}.txt"\n'
        else:
            yield f'path = "{folder}/file-{number}.txt"\nkind = "file"\n{attrs}'
            yield f'text = "{number}\\n"\n'


class MemoryTest(unittest.TestCase):
    """Exports of few objects and of many, by programs of their own."""

    def setUp(self) -> None:
        if not os.path.exists("/proc/self/status"):
            tools.skip(self.id(), "the system doesn't tell how much memory a program had")
        folder = tempfile.TemporaryDirectory()
        self.addCleanup(folder.cleanup)
        self.folder = Path(folder.name)
        self.base = self.folder / "base.toml"
        self.base.write_text("[[layer]]\n[[layer]]\n")

    def taken(self, count: int, *words: str) -> int:
        """How many KiB an export of so many objects took at most."""
        saved = self.folder / f"{count}.toml"
        saved.write_text("".join(lines_of(count)))
        done = subprocess.run([sys.executable, "-c", PROGRAM, str(self.base), "--manifest",
                               str(saved), *words], stdout=subprocess.PIPE, text=True,
                              stderr=subprocess.PIPE, cwd=Path(__file__).parent.parent,
                              check=False)
        self.assertEqual(done.returncode, 0, done.stderr)
        self.assertIn(f"{count} objects", done.stderr)
        return int(done.stdout)

    def test_layer(self) -> None:
        """What is written isn't held, and of what is read little."""
        layer = str(self.folder / "layer.tar")
        few, many = (self.taken(count, "--layer", layer) for count in (FEW, MANY))
        self.assertLess(many - few, MORE)

    def test_upper(self) -> None:
        """The same of a directory."""
        if os.geteuid() != 0:
            tools.skip(self.id(), "only root gives files away")
        few, many = (self.taken(count, "--upper", str(self.folder / f"upper{count}"))
                     for count in (FEW, MANY))
        self.assertLess(many - few, MORE)


if __name__ == "__main__":
    unittest.main()
