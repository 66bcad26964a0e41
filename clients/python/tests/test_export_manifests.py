"""Manifests that nobody means well with, given to an export: one line and status 1."""

import contextlib
import io
import random
import tempfile
import unittest
from pathlib import Path
from typing import List

from overlayd.exporter.command import main

VALUES = ["5", "-1", '"x"', "'l'", "true", "[]", "[1]", '[["user.a"]]', '[["user.a", "b"]]',
          '[["user.overlayd.links.0", "5.000000000/s"]]', '"/a/b"', '"/"', '""', '"/.."', "1.5",
          "{}", "{ a = 1 }", "0o7777", "99999999999999999999999", '"\\u0000"', '"""\na\n"""',
          '"\\ud800"', "nan", "1979-05-27"]
KEYS = ["path", "kind", "mode", "uid", "gid", "attrs", "text", "hex", "zeros", "blob", "at", "size",
        "to", "target", "opaque", "redirect", "bogus"]
TOP = ["upper", "redirect_dir", "metacopy", "history", "file_limit", "blobs", "layer", "bogus"]
KINDS = ['"dir"', '"file"', '"symlink"', '"whiteout"', '"link"']
PATHS = ['"/"', '"/a"', '"/a/b"', '"/s"', '"/f"', '"/a/c"', "'/q'"]
BROKEN = ["[layer]", "x", "= 1", "a.b = 1", "[[layer.entry.x]]", '"path" = 1', "\0", 'text = """']


def document(chance: random.Random) -> str:
    """A manifest with some things wrong."""
    lines = [f"{chance.choice(TOP)} = {chance.choice(VALUES)}" for _ in range(chance.randrange(2))]
    for _ in range(chance.randrange(4)):
        lines.append("[[layer]]")
        for _ in range(chance.randrange(5)):
            entry = {"path": chance.choice(PATHS), "kind": chance.choice(KINDS)}
            entry.update({'"symlink"': {"target": '"t"'}, '"link"': {"to": '"/f"'}}.get(
                entry["kind"], {}))
            entry.update((chance.choice(KEYS), chance.choice(VALUES))
                         for _ in range(chance.randrange(3)))
            lines += ["[[layer.entry]]", *(f"{key} = {value}" for key, value in entry.items())]
    if chance.random() < 0.1:
        lines.insert(chance.randrange(len(lines) + 1), chance.choice(BROKEN))
    return "\n".join(lines) + "\n"


class ManifestTest(unittest.TestCase):
    """Manifests in place of saved uppers and of those of a mount."""

    def setUp(self) -> None:
        folder = tempfile.TemporaryDirectory()
        self.addCleanup(folder.cleanup)
        self.folder = Path(folder.name)
        self.base, self.saved = self.folder / "base.toml", self.folder / "saved.toml"
        self.base.write_text("[[layer]]\n[[layer]]\n")

    def exported(self, *words: str) -> List[str]:
        """What an export says, which is one line where it is refused."""
        with contextlib.redirect_stderr(io.StringIO()) as errors:
            status = main([*words, "--layer", str(self.folder / "layer.tar")])
        lines = errors.getvalue().splitlines()
        self.assertTrue(status == 0 or (status, len(lines)) == (1, 1), lines)
        return lines

    def test_random(self) -> None:
        """They end so, whatever is in them."""
        chance = random.Random(84)
        for _ in range(100):
            text = document(chance)
            with self.subTest(text):
                self.saved.write_text(text)
                self.exported(str(self.base), "--manifest", str(self.saved))
                self.exported("--manifest", str(self.saved))

    def test_each_fault(self) -> None:
        """The line names the file and what is wrong."""
        head = '[[layer]]\n[[layer.entry]]\npath = "/f"\nkind = "file"\n'
        for text, what in ((head + "mode = true", "/f: mode"), (head + "mode = 4096", "mode"),
                           (head + 'hex = "0"', "digit"), (head + "zeros = -1", "bytes"),
                           (head + "attrs = [[1, 2]]", "attrs"), (head + "at = -1", "below 0"),
                           (head + 'attrs = [["trusted.a", "b"]]', "attrs"),
                           ('[[layer]]\n[[layer.entry]]\npath = "/../x"\nkind = "dir"', "no path"),
                           ('[[layer]]\n[[layer.entry]]\npath = "/x"\nkind = "link"', "to"),
                           ("layer = 5", "array"), ("x = " + "[" * 100_000, "no TOML"),
                           ("x = '\udcff'", "no TOML")):
            with self.subTest(text[:80]):
                self.saved.write_bytes(text.encode("utf-8", "surrogateescape"))
                line, = self.exported(str(self.base), "--manifest", str(self.saved))
                self.assertIn(str(self.saved), line)
                self.assertIn(what, line)


if __name__ == "__main__":
    unittest.main()
