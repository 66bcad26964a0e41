"""`overlayd-import --check`: all faults of a manifest, with lines; the first is overlayd's."""

import contextlib
import io
import re
import subprocess
import tempfile
import unittest
from pathlib import Path
from typing import Iterator, List, Optional, Tuple

from overlayd.importer.checking import check
from overlayd.importer.command import main

from . import import_tools as tools
from .import_tools import directory, file, tar_of
from .scripts import unescaped

ROWS = tools.REPOSITORY / "crates" / "side_by_side" / "data"
FAULTY = """\
redirect_dir = "yes"
colour = 3

[[layer]]

[[layer]]

[[layer.entry]]
path = "/etc/motd"
kind = "file"
mode = 4096
txet = "hello"

[[layer.entry]]
path = "etc"
kind = "folder"
uid = -1

[[layer.entry]]
path = "/l"
kind = "link"
to = "/nowhere"

[[layer.entry]]
path = "/l"
kind = "dir"
redirect = "a/b"
attrs = [["user.a", "1"], ["trusted.b", "2"]]
"""
TOLD = """\
m:1: redirect_dir: "on" or "off", and not "yes"
m:2: colour: no such key; at the top there are layer, upper, redirect_dir, metacopy, history, \
file_limit and blobs
m:9: layer 1 entry 0: /etc/motd: path: /etc is not described before; an earlier entry of kind dir \
has to be
m:11: layer 1 entry 0: /etc/motd: mode: from 0 to 0o7777, and not 4096
m:12: layer 1 entry 0: /etc/motd: txet: no such key; kind file has path, kind, mode, uid, gid, \
attrs, text, hex, zeros, blob, at, size
m:15: layer 1 entry 1: etc: path: a path begins with "/", and not "etc"
m:16: layer 1 entry 1: etc: kind: dir, file, symlink, whiteout or link, and not "folder"
m:17: layer 1 entry 1: etc: uid: from 0 to 4294967295, and not -1
m:22: layer 1 entry 2: /l: to: the path of an earlier entry of kind file or symlink of this layer; \
nothing is described there before
m:25: layer 1 entry 3: /l: path: an earlier entry of this layer describes it
m:27: layer 1 entry 3: /l: redirect: a redirect is one name, or a path from / with a name, and not \
"a/b"
m:28: layer 1 entry 3: /l: attrs: a name begins with user., has more, and 255 bytes at most: \
"trusted.b"
"""
# The beginning of a manifest, what is told of it, and what overlayd says.
METACOPY = [
    ('redirect_dir = "on"\nmetacopy = "on"', [], None),
    ('metacopy = "on"\nredirect_dir = "on"', [], None),
    ('metacopy = "off"', [], None),
    ('redirect_dir = "off"\nmetacopy = "off"', [], None),
    ('metacopy = "on"', [(1, '"off", where redirect_dir isn\'t "on", and not "on"')], "metacopy"),
    ('redirect_dir = "off"\n\nmetacopy = "on"',
     [(3, '"off", where redirect_dir isn\'t "on", and not "on"')], "metacopy"),
    ('redirect_dir = "on"\nmetacopy = "maybe"', [(2, '"on" or "off", and not "maybe"')],
     "metacopy"),
    ("metacopy = true", [(1, 'a text, "off", where redirect_dir isn\'t "on"; it is true or false')],
     "key"),
    ('history = 1\nmetacopy = "on"\nredirect_dir = "yes"',
     [(1, "from 2 to 1000000, and not 1"),
      (2, '"off", where redirect_dir isn\'t "on", and not "on"'),
      (3, '"on" or "off", and not "yes"')], "redirect_dir"),
    ('history = 1\nredirect_dir = "on"\nmetacopy = ""',
     [(1, "from 2 to 1000000, and not 1"), (3, '"on" or "off", and not ""')], "metacopy"),
]
# The same of the key `upper`, with how many layers there are; they stand in the line behind it.
UPPER = [
    ("upper = true", 2, [], None),
    ("upper = true", 17, [], None),
    ("upper = true", 1, [(2, "2 to 17 layers, the upper and then 1 to 16 lower ones from the top, "
                             "and not 1")], "layers"),
    ("upper = true", 18, [(2, "2 to 17 layers, the upper and then 1 to 16 lower ones from the top, "
                              "and not 18")], "layers"),
    ("upper = false", 2, [], None),
    ("upper = false", 16, [], None),
    ("upper = false", 0, [(2, "2 to 16 layers, all lower ones, from the top, and not 0")],
     "layers"),
    ("upper = false", 1, [(2, "2 to 16 layers, all lower ones, from the top, and not 1")],
     "layers"),
    ("upper = false", 17, [(2, "2 to 16 layers, all lower ones, from the top, and not 17")],
     "layers"),
    ('upper = "no"', 2, [(1, "true or false; it is a text")], "key"),
    ("upper = 0", 17, [(1, "true or false; it is a whole number")], "key"),
    ('redirect_dir = "yes"\nupper = "no"', 2,
     [(1, '"on" or "off", and not "yes"'), (2, "true or false; it is a text")], "key"),
    ('upper = false\nmetacopy = "on"', 2, [], None),
    ('metacopy = "on"\nredirect_dir = "off"\nupper = false', 2, [], None),
    ('upper = true\nmetacopy = "on"', 2,
     [(2, '"off", where redirect_dir isn\'t "on", and not "on"')], "metacopy"),
    ('upper = false\nmetacopy = "maybe"', 2, [(2, '"on" or "off", and not "maybe"')], "metacopy"),
    ('upper = false\nmetacopy = "on"\nredirect_dir = "yes"', 2,
     [(3, '"on" or "off", and not "yes"')], "redirect_dir"),
    ("upper = false\nmetacopy = true", 2, [(2, 'a text, "on" or "off"; it is true or false')],
     "key"),
]
# The same of the key `file_limit`, with how many layers there are.
FILE_LIMIT = [
    ("file_limit = 1", 2, [], None),
    ("file_limit = 1099511627776", 2, [], None),
    ("file_limit = 0", 2, [(1, "from 1 to 1099511627776, and not 0")], "file_limit"),
    ("file_limit = -1", 2, [(1, "from 1 to 1099511627776, and not -1")], "file_limit"),
    ("file_limit = 1099511627777", 2, [(1, "from 1 to 1099511627776, and not 1099511627777")],
     "file_limit"),
    ('file_limit = "1"', 2, [(1, "a whole number, from 1 to 1099511627776; it is a text")], "key"),
    ("file_limit = 0\nhistory = 1", 0,
     [(1, "from 1 to 1099511627776, and not 0"), (2, "from 2 to 1000000, and not 1"),
      (3, "2 to 17 layers, the upper and then 1 to 16 lower ones from the top, and not 0")],
     "history"),
    ("file_limit = 0", 0,
     [(1, "from 1 to 1099511627776, and not 0"),
      (2, "2 to 17 layers, the upper and then 1 to 16 lower ones from the top, and not 0")],
     "file_limit"),
]
# What gives a file four bytes, and what is told of it where the limit is three.
FOUR_BYTES = [
    ('text = "abcd"', "at most 3 bytes"),
    ('hex = "61626364"', "at most 3 bytes"),
    ("zeros = 4", "from 0 to 3, and not 4"),
]
# What is no TOML, the line, and the end of what is told.
NO_TOML = [
    (b"a = 1\nb = \xff\n", 2, "bytes that aren't UTF-8"),
    (b"a = 1\na = 2\n", 2, "a is there already, from line 1 on"),
    (b"[a]\n\n[a]\n", 3, "a is there already, from line 1 on"),
    (b"a = {b = 1}\na.c = 1\n", 2, "a is there already, from line 1 on"),
    (b"a = 'x\n", 1, "a text ends with ' in its line"),
    (b'a = """x\n\ny', 3, 'a text ends with """'),
    (b'a = "\\q"\n', 1, "no such escape, and not 'q\"'"),
    (b"a = 01\n", 1, "a value: a text in quotes, a number, true, false, an array or a table, and "
                     "not '01'"),
    (b"a = 9223372036854775808\n", 1, "a whole number has at most 64 bits, and not "
                                      "'922337203685'"),
    (b"a = [1 2]\n", 1, "a comma or ] follows a value of an array, and not '2]'"),
    (b"a = 1 b = 2\n", 1, "a line ends after its value or header, and not 'b = 2'"),
    (b"a\n", 1, "= follows a key"),
    (b"[a\n", 1, "a header ends with ]"),
    (b"a = " + b"[" * 81 + b"]" * 81, 1,
     "arrays and inline tables are nested at most 80 deep, and not '[" + "]" * 11 + "'"),
]


def expanded(manifest: str) -> bytes:
    """The manifest of a row, in which <3*ab> stands for ababab."""
    return re.sub(rb"<(\d+)\*([^>]*)>", lambda found: int(found[1]) * unescaped(found[2].decode()),
                  manifest.encode("utf-8"))


def rows() -> Iterator[Tuple[str, bytes, Optional[str]]]:
    """The manifests that the gate plays, each with the fault that its row wants, if any."""
    for path in sorted(ROWS.glob("*.rows")):
        for row in re.split(r"^== ", path.read_text("utf-8"), flags=re.M)[1:]:
            parts = dict(re.findall(r"^-- (\w+)\n(.*?)(?=^-- |\Z)", row, re.M | re.S))
            wanted = re.match(r"manifest: .*|layer \d+ entry \d+: .*", parts.get("wanted", ""))
            if "manifest" in parts:
                yield f"{path.name}: {row.splitlines()[0]}", expanded(parts["manifest"]), \
                    wanted.group() if wanted else None


def run(*words: str) -> Tuple[int, List[str], str]:
    """The status of the command, its lines, and what it says on standard error."""
    out, err = io.StringIO(), io.StringIO()
    with contextlib.redirect_stdout(out), contextlib.redirect_stderr(err):
        status = main(list(words))
    return status, out.getvalue().splitlines(), err.getvalue()


class Checks(unittest.TestCase):
    """Each fault with its line."""

    def test_the_first_is_the_one_that_overlayd_reports(self) -> None:
        """On each manifest of the rows."""
        found = list(rows())
        self.assertGreater(len(found), 500)
        for name, manifest, wanted in found:
            with self.subTest(name):
                checked = check(manifest, str(ROWS))
                self.assertEqual(checked.first, wanted)
                self.assertEqual(bool(checked.faults), wanted is not None)

    def test_all_are_told(self) -> None:
        """In the order of their lines."""
        with tempfile.TemporaryDirectory() as folder:
            path = Path(folder, "m")
            path.write_text(FAULTY, "utf-8")
            status, lines, error = run("--check", str(path))
        told = [line.replace(f"{folder}/", "") for line in lines]
        self.assertEqual((status, told), (1, TOLD.splitlines()))
        self.assertEqual(error, f"overlayd-import: {path}: 12 faults; overlayd says "
                         "`manifest: key`\n")

    def test_metacopy(self) -> None:
        """It needs redirects, and is judged after them and before the history."""
        for head, told, word in METACOPY:
            with self.subTest(head):
                checked = check(f"{head}\nlayer = [{{}}, {{}}]\n".encode())
                self.assertEqual([(fault.line, fault.what) for fault in checked.faults], told)
                self.assertEqual(checked.first, word and f"manifest: {word}")

    def test_upper(self) -> None:
        """It is true or false, and says how many layers there may be and what metacopy needs."""
        for head, count, told, word in UPPER:
            with self.subTest(head, count=count):
                checked = check(f"{head}\nlayer = [{', '.join(['{}'] * count)}]\n".encode())
                self.assertEqual([(fault.line, fault.what) for fault in checked.faults], told)
                self.assertEqual(checked.first, word and f"manifest: {word}")

    def test_file_limit(self) -> None:
        """It has its range, and is judged after the history and before layers."""
        for head, count, told, word in FILE_LIMIT:
            with self.subTest(head, count=count):
                checked = check(f"{head}\nlayer = [{', '.join(['{}'] * count)}]\n".encode())
                self.assertEqual([(fault.line, fault.what) for fault in checked.faults], told)
                self.assertEqual(checked.first, word and f"manifest: {word}")

    def test_files_at_the_limit(self) -> None:
        """A file of more bytes is at fault, and isn't where the limit is."""
        for given, what in FOUR_BYTES:
            entry = f'layer = [{{}}, {{entry = [{{path = "/f", kind = "file", {given}}}]}}]\n'
            with self.subTest(given):
                checked = check(f"file_limit = 3\n{entry}".encode())
                self.assertEqual([(fault.line, fault.what) for fault in checked.faults],
                                 [(2, what)])
                self.assertEqual(checked.first, "layer 1 entry 0: value")
                self.assertEqual(check(f"file_limit = 4\n{entry}".encode()).faults, [])
                checked = check(f"file_limit = 0\n{entry}".encode())
                self.assertEqual([fault.word for fault in checked.faults], ["file_limit"])

    def test_layers_without_an_upper(self) -> None:
        """They count from 0 as well."""
        checked = check(b"upper = false\nlayer = [{entry = [{path = '/f', kind = 'x'}]}, "
                        b"{entry = [{path = '/a/b', kind = 'dir'}]}]\n")
        self.assertEqual([fault.place for fault in checked.faults],
                         ["layer 0 entry 0: /f: kind", "layer 1 entry 0: /a/b: path"])
        self.assertEqual(checked.first, "layer 0 entry 0: kind")

    def test_options_in_the_program(self) -> None:
        """It says the same."""
        program = tools.overlayd()
        if program is None:
            tools.skip(self.id(), "no overlayd was built (environment variable OVERLAYD)")
        with tempfile.TemporaryDirectory() as folder:
            path = Path(folder, "m")
            for head, count, word in [(head, 2, word) for head, _, word in METACOPY] + [
                    (head, count, word) for head, count, _, word in UPPER + FILE_LIMIT]:
                path.write_text(f"{head}\nlayer = [{', '.join(['{}'] * count)}]\n", "utf-8")
                done = subprocess.run([program, "show", str(path)], capture_output=True,
                                      check=False)
                with self.subTest(head, count=count):
                    self.assertEqual(done.stderr.decode(),
                                     f"overlayd: manifest: {word}\n" if word else "")

    def test_what_is_no_toml(self) -> None:
        """The first place at which it is none."""
        for data, line, what in NO_TOML:
            with self.subTest(data[:30]):
                checked = check(data)
                self.assertEqual([fault[0::3] for fault in checked.faults], [(line, what)])
                self.assertEqual(checked.first, "manifest: not TOML")

    def test_what_an_import_writes(self) -> None:
        """Has no fault."""
        members = [directory("etc"), file("etc/motd", b"a\x7f\n\"b\"", attrs={"user.v": "1"}),
                   file("bytes", b"\xff\0")]
        with tempfile.TemporaryDirectory() as folder:
            source, path = Path(folder, "layer.tar"), Path(folder, "m.toml")
            source.write_bytes(tar_of(members))
            for words in (["--redirect-dir", "on", "--history", "2"],
                          ["--read-only", "--metacopy", "on"]):
                tools.import_to(path, [str(source), *words])
                status, lines, error = run("--check", str(path))
                self.assertEqual((status, lines), (0, []))
                self.assertEqual(error, f"overlayd-import: {path}: no fault; layers: 2, "
                                 "entries: 3\n")

    def test_usage(self) -> None:
        """Either sources or a manifest; and one that isn't there."""
        for words in ([], ["--check", "m", "source"]):
            with self.assertRaises(SystemExit) as ended:
                run(*words)
            self.assertEqual(ended.exception.code, 2)
        status, lines, error = run("--check", "/nonexistent/m")
        self.assertEqual((status, lines), (1, []))
        self.assertIn("No such file or directory", error)


if __name__ == "__main__":
    unittest.main()
