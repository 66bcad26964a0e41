"""What pip installs, with no network; and the class of fsspec, where that is installed."""

import importlib.util
import os
import pathlib
import subprocess
import sys
import tempfile
import unittest
import zipfile

from . import import_tools as tools
from . import real_server

CLIENTS = pathlib.Path(__file__).resolve().parents[1]


class Wheels(unittest.TestCase):
    def setUp(self):
        folder = tempfile.TemporaryDirectory()
        self.addCleanup(folder.cleanup)
        self.folder = pathlib.Path(folder.name)

    def test_pip_installs_it_without_an_index(self):
        pip = [sys.executable, "-m", "pip"]
        if importlib.util.find_spec("pip") is None:
            tools.skip(self.id(), "there is no pip")
        done = subprocess.run(
            [*pip, "install", "-q", "--no-index", "--no-deps", "--disable-pip-version-check",
             "--target", self.folder / "there", CLIENTS],
            stdout=subprocess.PIPE, stderr=subprocess.STDOUT, text=True, check=False)
        self.assertEqual(done.returncode, 0, done.stdout)
        environment = {**os.environ, "PYTHONPATH": str(self.folder / "there")}
        self.assertEqual(sorted(os.listdir(self.folder / "there/bin")),
                         ["overlayd-export", "overlayd-import", "overlayd-serve", "overlayd-status"])
        told = subprocess.run([self.folder / "there/bin/overlayd-serve", "--version"],
                              stdout=subprocess.PIPE, text=True, check=True, env=environment)
        self.assertRegex(told.stdout, r"^overlayd-serve [\d.]+\n$")

    def test_a_wheel_has_all_modules_and_one_form(self):
        sys.path.insert(0, str(CLIENTS))
        self.addCleanup(sys.path.remove, str(CLIENTS))
        import wheel_backend
        found = []
        for name in ("a", "b"):
            (self.folder / name).mkdir()
            path = self.folder / name / wheel_backend.build_wheel(str(self.folder / name))
            found.append(path.read_bytes())
            with zipfile.ZipFile(path) as archive:
                self.assertIsNone(archive.testzip())
                names = set(archive.namelist())
                record = archive.read(next(one for one in names if one.endswith("/RECORD")))
        self.assertEqual(found[0], found[1])
        paths = CLIENTS.glob("overlayd/**/*.py")
        modules = {path.relative_to(CLIENTS).as_posix() for path in paths}
        self.assertLessEqual(modules | {"overlayd/py.typed"}, names)
        self.assertEqual({line.split(",")[0] for line in record.decode().splitlines()}, names)
        self.assertTrue(wheel_backend.build_sdist(str(self.folder)).endswith(".tar.gz"))


class FsSpec(unittest.TestCase):
    MANIFEST = "layer = [{}, {entry = [{path = '/d', kind = 'dir'}, {path = '/d/f', " \
               "kind = 'file', text = 'hi'}, {path = '/l', kind = 'symlink', target = 'd'}]}]"

    def setUp(self):
        try:
            import fsspec
        except ImportError:
            tools.skip(self.id(), "fsspec isn't installed")
        self.fsspec = fsspec
        reason = real_server.why_not()
        if reason:
            tools.skip(self.id(), reason)

    def test_what_fsspec_does(self):
        from overlayd.fsspec_files import OverlaydFileSystem
        with real_server.Server(self.MANIFEST) as server:
            server.client().close()
            files = OverlaydFileSystem(server.path, timeout=real_server.WAIT)
            self.addCleanup(files.client.close)
            self.assertEqual(files.ls("/", detail=False), ["/d", "/l"])
            self.assertEqual([one["type"] for one in files.ls("overlayd:///")],
                             ["directory", "link"])
            self.assertEqual((files.info("/d/f")["size"], files.size("/d/f")), (2, 2))
            self.assertEqual((files.exists("/d/f"), files.exists("/n"), files.isdir("/d"),
                              files.isfile("/d/f")), (True, False, True, True))
            self.assertEqual((files.cat("/d/f"), files.find("/")), (b"hi", ["/d/f", "/l"]))
            with files.open("/d/g", "w") as file:
                file.write("text\n")
            with files.open("overlayd:///d/g", "rb") as file:
                self.assertEqual(file.read(), b"text\n")
            files.makedirs("/n/m")
            files.copy("/d/g", "/n/m/g")
            files.mv("/n/m/g", "/n/h")
            self.assertEqual(files.glob("/*/h"), ["/n/h"])
            self.assertEqual([one[0] for one in files.walk("/n")], ["/n", "/n/m"])
            with self.assertRaises(FileNotFoundError):
                files.info("/x")
            files.rm("/n", recursive=True)
            files.rm_file("/d/g")
            self.assertEqual(files.find("/", withdirs=True), ["/d", "/d/f", "/l"])


if __name__ == "__main__":
    unittest.main()
