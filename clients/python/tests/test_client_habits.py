"""What Python programs do with files, on the program's own server and beside the system's."""

import errno
import glob
import io
import os
import pathlib
import tempfile
import unittest

from overlayd import Disconnected, MountPath
from overlayd.calls import READ_LIMIT

from . import real_server
from .real_server import Server

MANIFEST = """
layer = [{}, {entry = [
    {path = '/d', kind = 'dir'}, {path = '/d/x', kind = 'file', text = 'hi'},
    {path = '/d/.h', kind = 'file'}, {path = '/d/e', kind = 'dir', mode = 0o700},
    {path = '/d/e/y.txt', kind = 'file', text = "one\\ntwo\\n", mode = 0o6755},
    {path = '/d/l', kind = 'symlink', target = '/d/e'},
    {path = '/f', kind = 'file', text = 'old'}, {path = '/g.txt', kind = 'file'},
]}]
"""


class Case(unittest.TestCase):
    """One server for all tests, each of which leaves what it found."""

    @classmethod
    def setUpClass(cls):
        reason = real_server.why_not()
        if reason:
            raise unittest.SkipTest(reason)
        cls.server = Server(MANIFEST)
        cls.c = cls.server.client()

    @classmethod
    def tearDownClass(cls):
        cls.c.close()
        cls.server.__exit__(None, None, None)

    def setUp(self):
        folder = tempfile.TemporaryDirectory()
        self.addCleanup(folder.cleanup)
        self.folder = pathlib.Path(folder.name)


class Habits(Case):
    def test_what_is_there(self):
        c = self.c
        there = "/", "/d", "/f", "/d/l"
        absent = "/n", "/f/x", "/d/l/x", "x", "/" + 300 * "n"
        self.assertEqual([c.exists(path) for path in (*there, *absent)], [True] * 4 + [False] * 5)
        self.assertEqual([c.isdir("/d"), c.isdir("/f"), c.isdir("/d/l"), c.isdir("/n")],
                         [True, False, False, False])
        self.assertEqual([c.isfile("/d"), c.isfile("/f"), c.islink("/d/l"), c.islink("/f")],
                         [False, True, True, False])

    def test_a_lost_server_is_no_absence(self):
        client = self.server.client()
        client._drop("the test cuts it off")
        for ask in (client.exists, client.isdir, client.listdir,
                    lambda path: list(client.walk(path))):
            with self.assertRaises(Disconnected):
                ask("/")

    def test_directories(self):
        with self.c.scandir("/d") as entries:
            self.assertEqual([(one.name, one.path, one.is_dir(), one.is_file(), one.is_symlink(),
                               one.stat().st_size) for one in entries], [
                (".h", "/d/.h", False, True, False, 0), ("e", "/d/e", True, False, False, 0),
                ("l", "/d/l", False, False, True, 4), ("x", "/d/x", False, True, False, 2)])
        below = ("/d", ["e"], [".h", "l", "x"]), ("/d/e", [], ["y.txt"])
        self.assertEqual(list(self.c.walk("/d")), list(below))
        self.assertEqual(list(self.c.walk("/d", topdown=False)), list(reversed(below)))
        for directory, directories, _ in self.c.walk("/"):
            directories.clear()
        self.assertEqual(directory, "/")
        self.assertEqual(list(self.c.walk("/n")), [])
        refused = []
        self.assertEqual(list(self.c.walk("/f", onerror=refused.append)), [])
        self.assertIsInstance(refused[0], NotADirectoryError)

    def test_directories_are_made_and_removed_with_all_in_them(self):
        c = self.c
        c.makedirs("/n/a/b", 0o700)
        self.assertEqual([c.stat(path).st_mode & 0o777 for path in ("/n", "/n/a", "/n/a/b")],
                         [0o755, 0o755, 0o700])
        c.makedirs("/n/a/b", exist_ok=True)
        for path in ("/n/a/b", "/f"):
            with self.assertRaises(FileExistsError):
                c.makedirs(path, exist_ok=path == "/f")
        c.symlink("/f", "/n/l")
        c.write_text("/n/a/t", "x")
        c.rmtree("/n")
        self.assertEqual((c.exists("/n"), c.read_text("/f")), (False, "old"))
        with self.assertRaises(FileNotFoundError):
            c.rmtree("/n")
        with self.assertRaises(NotADirectoryError):
            c.rmtree("/f")

    def test_patterns_match_as_those_of_the_system(self):
        self.c.copy_out("/d", self.folder / "d")
        for pattern in ("d/*", "d/?", "*/x", "d/[ex]", "d/.*", "d/*/*.txt", "d/n*", "d/x", "n/*",
                        "**", "**/*.txt", "d/**", "**/y.txt", "d/e/**/y.txt"):
            wanted = [f"/{os.path.relpath(path, self.folder)}"
                      for path in glob.glob(f"{self.folder}/{pattern}", recursive=True)]
            found = [path for path in self.c.glob(f"/{pattern}", recursive=True)
                     if path.startswith("/d")]
            with self.subTest(pattern):
                # The system's go into links to directories, which lead nowhere there.
                self.assertEqual(sorted(found), sorted(set(wanted) - {"/."}))
                self.assertEqual(len(found), len(set(found)))

    def test_whole_files(self):
        c = self.c
        self.assertEqual(c.write_text("/w", "é\nß", newline="\r\n"), 3)
        self.assertEqual(c.read_bytes("/w"), "é\r\nß".encode())
        self.assertEqual(c.read_text("/w"), "é\nß")
        self.assertEqual(c.write_bytes("/w", bytes(200_000)), 200_000)
        c.truncate("/w", 3)
        self.assertEqual(c.read_bytes("/w"), bytes(3))
        c.unlink("/w")

    def test_copies_in_and_out(self):
        source = self.folder / "s"
        (source / "e").mkdir(parents=True)
        (source / "f").write_bytes(bytes(range(256)) * 1_000)
        (source / "f").chmod(0o4640)
        (source / "e").chmod(0o555)
        (source / "l").symlink_to("/f")
        self.c.copy_in(source, "/in")
        self.assertEqual(list(self.c.walk("/in")), [("/in", ["e"], ["f", "l"]), ("/in/e", [], [])])
        self.assertEqual((self.c.stat("/in/f").st_mode & 0o7777, self.c.readlink("/in/l")),
                         (0o4640, "/f"))
        self.c.copy_out("/in", self.folder / "o")
        self.assertEqual((self.folder / "o/f").read_bytes(), (source / "f").read_bytes())
        self.assertEqual(os.readlink(self.folder / "o/l"), "/f")
        self.assertEqual([os.stat(self.folder / "o" / name).st_mode & 0o7777 for name in "ef"],
                         [0o555, 0o640])
        for again in (lambda: self.c.copy_in(source, "/in"),
                      lambda: self.c.copy_out("/in", self.folder / "o"),
                      lambda: self.c.copy_out("/in/f", self.folder / "o/f")):
            with self.assertRaises(FileExistsError):
                again()
        self.c.rmtree("/in")

    def test_what_is_no_file_is_not_copied_in(self):
        os.mkfifo(self.folder / "p")
        with self.assertRaises(OSError) as refused:
            self.c.copy_in(self.folder / "p", "/p")
        self.assertEqual((refused.exception.errno, self.c.exists("/p")), (errno.EINVAL, False))

    def test_no_link_is_followed_out(self):
        (self.folder / "kept").write_text("kept")
        (self.folder / "to").symlink_to(self.folder / "kept")
        with self.assertRaises(FileExistsError):
            self.c.copy_out("/f", self.folder / "to")
        self.assertEqual((self.folder / "kept").read_text(), "kept")


class Texts(Case):
    MODES = ["r", "w", "a", "x", "r+", "w+", "a+", "x+", "rb", "wb", "ab", "rb+", "w+b"]

    def run_on(self, opened, exists):
        """What a file answers a few calls, opened by a function."""
        told = []
        for mode in self.MODES:
            try:
                with opened(mode) as file:
                    told.append([file.mode if "b" not in mode else "", file.readable(),
                                 file.writable(), file.tell()])
                    data = "1\n2é\n" if "b" not in mode else b"1\n2\n"
                    if file.writable():
                        told.append(file.write(data))
                        file.flush()
                    if file.readable():
                        file.seek(0)
                        told.append([file.readline(), file.read()])
            except FileExistsError:
                told.append("is there")
            told.append(exists())
        return told

    def test_files_answer_as_those_of_the_system(self):
        path = self.folder / "t"
        path.write_bytes(b"old\r\nlines\n")
        self.c.write_bytes("/t", b"old\r\nlines\n")
        wanted = self.run_on(
            lambda mode: open(path, mode, encoding=None if "b" in mode else "utf-8"),
            path.read_bytes)
        found = self.run_on(lambda mode: self.c.open("/t", mode), lambda: self.c.read_bytes("/t"))
        self.assertEqual(found, wanted)
        self.c.unlink("/t")

    def test_layers(self):
        with self.c.open("/f", "rb", buffering=0) as raw:
            self.assertIsInstance(raw, io.RawIOBase)
        with self.c.open("/f", mode="rb") as buffered:
            self.assertIsInstance(buffered, io.BufferedReader)
        with self.c.open("/t", "wb") as file:
            file.write(bytes(3 * READ_LIMIT + 1))
        self.assertEqual(self.c.stat("/t").st_size, 3 * READ_LIMIT + 1)
        with self.c.open("/t", "w", buffering=1, encoding="latin-1") as file:
            file.write("é\n")
            self.assertEqual(self.c.read_bytes("/t"), b"\xe9\n")
        self.c.unlink("/t")
        with self.assertRaises(FileNotFoundError):
            self.c.open("/t")


class Paths(Case):
    def test_texts(self):
        path = self.c.path("/d") / "e/y.txt"
        self.assertEqual((str(path), path.name, path.stem, path.suffix, str(path.parent)),
                         ("/d/e/y.txt", "y.txt", "y", ".txt", "/d/e"))
        self.assertEqual([str(one) for one in path.parents], ["/d/e", "/d", "/"])
        self.assertEqual(str(path.with_suffix(".c")), "/d/e/y.c")
        self.assertEqual(str(path.with_name("z")), "/d/e/z")
        self.assertEqual(str(path.relative_to("/d")), "e/y.txt")
        self.assertEqual(repr(path), "MountPath('/d/e/y.txt')")
        self.assertEqual(path, self.c.path("/d/e//y.txt"))
        self.assertLess(self.c.path("/a"), path)
        self.assertEqual(len({path, self.c.path("d", "e", "y.txt")}), 1)
        with self.assertRaises(TypeError):
            os.fspath(path)

    def test_what_is_there(self):
        d = self.c.path("/d")
        self.assertEqual([d.exists(), d.is_dir(), d.is_file(), (d / "l").is_symlink()],
                         [True, True, False, True])
        self.assertEqual([one.name for one in d.iterdir()], [".h", "e", "l", "x"])
        self.assertEqual([str(one) for one in d.glob("*/*.txt")], ["/d/e/y.txt"])
        self.assertEqual([str(one) for one in self.c.path("/").rglob("*.txt")],
                         ["/g.txt", "/d/e/y.txt"])
        self.assertEqual((d / "l").readlink(), "/d/e")
        self.assertEqual((d / "e/y.txt").read_text(), "one\ntwo\n")

    def test_changes(self):
        new = self.c.path("/new/a[1]")
        new.mkdir(parents=True)
        new.mkdir(exist_ok=True)
        file = new / "f"
        file.touch()
        with self.assertRaises(FileExistsError):
            file.touch(exist_ok=False)
        self.assertEqual(file.write_text("text"), 4)
        with file.open("a") as stream:
            stream.write("!")
        file.chmod(0o600)
        moved = file.rename(new / "g")
        self.assertEqual((moved.read_bytes(), moved.stat().st_mode & 0o777), (b"text!", 0o600))
        (new / "l").symlink_to("g")
        (new / "h").hardlink_to(moved)
        self.assertEqual([str(one) for one in new.glob("*")],
                         ["/new/a[1]/g", "/new/a[1]/h", "/new/a[1]/l"])
        for name in "ghl":
            (new / name).unlink()
        (new / "g").unlink(missing_ok=True)
        new.rmdir()
        new.parent.rmdir()
        self.assertIsInstance(new, MountPath)


if __name__ == "__main__":
    unittest.main()
