"""Manifests of lines, read piece by piece: the four forms of texts, wherever a piece ends."""

import io
import json
import os
import random
import subprocess
import sys
import tarfile
import tempfile
import unittest
from pathlib import Path
from typing import Iterator, List
from unittest import mock

from overlayd.importer import lines
from overlayd.importer.lines import Lines, OtherForm
from overlayd.importer.toml import read

PYTHON = str(Path(__file__).resolve().parents[1])
PARTS = ["\\", '"', "'", "\n", "a", "\t", "\u00e9", "\x01", "xyz", '"""', "'''", "\u20ac" * 3]
SHORT = {"\\": "\\\\", '"': '\\"', "\n": "\\n", "\t": "\\t"}
# What a command does, and the most memory that it had, in KiB.
CHILD = """
import json, re, sys
from overlayd.{}.command import main
status = main(json.load(sys.stdin))
print(status, re.search(r"VmHWM:\\s*(\\d+)", open("/proc/self/status").read())[1])
"""


def basic(text: str, over_lines: bool) -> str:
    """The inside of a text with escapes, as overlayd writes it."""
    found, row = "", 0
    for char in text:
        is_kept = over_lines and (char == "\n" or char == '"' and row < 2)
        if not is_kept and (char in SHORT or char < " "):
            found += SHORT.get(char, f"\\u{ord(char):04x}")
        else:
            found += char
        row = row + 1 if char == '"' and is_kept else 0
    return found


def forms(text: str) -> Iterator[str]:
    """The forms of TOML that say a text."""
    yield f'"{basic(text, False)}"'
    yield f'"""\n{basic(text, True)}"""'
    if all(char in "\n\t" or char >= " " for char in text):
        if "'" not in text and "\n" not in text:
            yield f"'{text}'"
        if "'''" not in text:
            yield f"'''\n{text}'''"


class FormsTest(unittest.TestCase):
    """Random texts, by each form, as a file's bytes and as another value."""

    def assert_read(self, text: str, form: str) -> None:
        """What is found in a manifest that has the text by this form three times."""
        document = (f'[[layer]]\n\n[[layer.entry]]\ntext = {form}\npath = {form} # more\n'
                    f'attrs = [["a", {form}], [{form}, "b"]]\nmode = 0o755').encode()
        found = Lines(io.BytesIO(document))
        layer, entry, data, *others = found.all()
        self.assertEqual([layer.value, entry.value], [b"[[layer]]", b"[[layer.entry]]"])
        self.assertEqual(b"".join(found.pieces(data.value)), text.encode(), document)
        self.assertEqual((data.key, data.value.size), ("text", len(text.encode())))
        self.assertEqual([tuple(line) for line in others], [
            ("path", text), ("attrs", [["a", text], [text, "b"]]), ("mode", 0o755)], document)
        self.assertEqual([*found.layers()], [0, len(document)])
        told = read(document).members["layer"].value[0].value.members["entry"].value[0]
        self.assertEqual(told.value.members["text"].value, text, document)

    def test_each_form(self) -> None:
        """Pieces and lines of all lengths."""
        chance = random.Random(8)
        for piece in (1, 11, 64, 1 << 16):
            for line in (40, 1 << 16):
                with mock.patch.multiple(lines, _FIRST_READ=piece, _READ=piece, _LINE_MOST=line):
                    for _ in range(10):
                        text = "".join(chance.choices(PARTS, k=chance.randrange(30)))
                        for form in forms(text):
                            self.assert_read(text, form)

    def test_digits(self) -> None:
        """Bytes by their digits, in pieces of an odd length."""
        with mock.patch.multiple(lines, _FIRST_READ=13, _READ=13, _LINE_MOST=30):
            found = Lines(io.BytesIO(b'hex = "' + b"00fe" * 20 + b'"\nzeros = 0x3'))
            data, zeros = (line.value for line in found.all())
            self.assertEqual((data.size, b"".join(found.pieces(data))), (40, b"\0\xfe" * 20))
            self.assertEqual((zeros.size, b"".join(found.pieces(zeros))), (3, bytes(3)))

    def test_other_forms(self) -> None:
        """What isn't of lines is told, and never misread."""
        for text in ('text = "a', "text = '''a''", 'text = """a\\\n b"""', 'text = "\\ud800"',
                     "text = 'a' b", "text = a", 'hex = "0g"', "path = [1", "path = 1.5.2",
                     "a b = 1", "text = '''\udcff\n'''"):
            with self.subTest(text), self.assertRaises(OtherForm):
                raw = text.encode("utf-8", "surrogateescape")
                found = Lines(io.BytesIO(raw))
                for line in found.all():
                    b"".join(found.pieces(line.value))


class MemoryTest(unittest.TestCase):
    """A saved upper of long texts over several lines."""

    BYTES, MEBIBYTES = 12 << 20, 40

    def run_within(self, package: str, words: List[str]) -> None:
        """Runs a command in a process of its own; it works, within the memory."""
        done = subprocess.run([sys.executable, "-c", CHILD.format(package)], check=False,
                              input=json.dumps(words).encode(), capture_output=True,
                              env={**os.environ, "PYTHONPATH": PYTHON})
        status, kibibytes = map(int, done.stdout.split())
        self.assertEqual(status, 0, done.stderr)
        self.assertLess(kibibytes / 1024, self.MEBIBYTES)

    def test_bounded(self) -> None:
        """It is joined and exported by few bytes at a time."""
        line = 'it\'s "one" line\n'
        text = line * (self.BYTES // len(line))
        with tempfile.TemporaryDirectory() as name:
            folder = Path(name)
            entries = "".join(f'\n[[layer.entry]]\npath = "/{form}"\nkind = "file"\n{key} = {value}'
                              for form, key, value in (
                                  ("f", "text", f'"""\n{text}"""\n'),
                                  ("g", "text", json.dumps(text) + "\n"),
                                  ("h", "hex", f'"{text.encode().hex()}"\n')))
            (folder / "saved.toml").write_text(f"[[layer]]\n{entries}")
            (folder / "base.toml").write_text(f"file_limit = {1 << 30}\n[[layer]]\n[[layer]]\n")
            saved, base, joined, tar = (str(folder / name) for name in (
                "saved.toml", "base.toml", "joined.toml", "layer.tar"))
            self.run_within("importer", ["--upper", saved, base, "-o", joined])
            self.run_within("exporter", ["--manifest", joined, "--layer", tar])
            with tarfile.open(tar) as members:
                for member in members:
                    stream = members.extractfile(member)
                    self.assertTrue(stream and stream.read() == text.encode(), member.name)
                self.assertEqual(members.getnames(), ["f", "g", "h"])


if __name__ == "__main__":
    unittest.main()
