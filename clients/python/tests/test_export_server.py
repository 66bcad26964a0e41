"""Exports of a mount of the program's own server: the kernel, and an import, show the same tree."""

import contextlib
import io
import os
import random
import stat
from pathlib import Path
from typing import List, Tuple

from overlayd import Client, File
from overlayd.exporter.command import main

from . import import_tools as tools
from . import real_server
from . import test_import_kernel as kernel
from .export_tools import ExportCase

SEEDS = 20


class ClientChanges:
    """Random changes of a mount by a client, on the names that `kernel.Changes` has."""

    def __init__(self, client: Client, seed: int) -> None:
        self._client = client
        self._random = random.Random(seed)

    def make(self, count: int) -> int:
        """Makes so many changes, of which some are refused; how many were made."""
        made = 0
        for _ in range(count):
            change = self._random.choice([
                self._mkdir, self._mkdir, self._write, self._write, self._append, self._overwrite,
                self._overwrite, self._truncate, self._symlink, self._link, self._unlink,
                self._remove, self._rename, self._rename, self._chmod, self._chown,
                self._setxattr, self._removexattr, self._replace])
            with contextlib.suppress(OSError):
                change()
                made += 1
        return made

    def _path(self) -> str:
        """A path that is there, or whose last name may be new."""
        path = ""
        for _ in range(self._random.randint(1, 4)):
            path = f"{path}/{self._random.choice(kernel.NAMES)}"
            if not self._is_directory(path):
                break
        return path

    def _is_directory(self, path: str) -> bool:
        try:
            return stat.S_ISDIR(self._client.stat(path).st_mode)
        except OSError:
            return False

    def _open(self, flags: int) -> File:
        return self._client.open(self._path(), flags, self._random.choice([0o644, 0o755, 0o600]))

    def _mkdir(self) -> None:
        self._client.mkdir(self._path(), self._random.choice([0o755, 0o700, 0o1777]))

    def _write(self) -> None:
        with self._open(os.O_WRONLY | os.O_CREAT | os.O_EXCL) as file:
            file.write(self._random.choice([b"", b"text\n", bytes(9), bytes(range(200)), b"x"]))

    def _append(self) -> None:
        with self._open(os.O_WRONLY | os.O_APPEND) as file:
            file.write(b"more")

    def _overwrite(self) -> None:
        with self._open(os.O_WRONLY) as file:
            file.write(b"Z")

    def _truncate(self) -> None:
        with self._open(os.O_RDWR) as file:
            file.truncate(self._random.choice([0, 3, 5_000]))

    def _symlink(self) -> None:
        self._client.symlink(self._random.choice(["a", "/b/c", "../x y"]), self._path())

    def _link(self) -> None:
        self._client.link(self._path(), self._path())

    def _unlink(self) -> None:
        self._client.unlink(self._path())

    def _remove(self) -> None:
        self._remove_all(self._path())

    def _remove_all(self, path: str) -> None:
        for name in self._client.listdir(path):
            below = f"{path}/{name}"
            if self._is_directory(below):
                self._remove_all(below)
            else:
                self._client.unlink(below)
        self._client.rmdir(path)

    def _replace(self) -> None:
        path = self._path()
        self._remove_all(path)
        self._client.mkdir(path, 0o711)

    def _rename(self) -> None:
        self._client.rename(self._path(), self._path())

    def _chmod(self) -> None:
        self._client.chmod(self._path(), self._random.choice([0o600, 0o4755, 0o2750, 0o0]))

    def _chown(self) -> None:
        self._client.chown(self._path(), self._random.randint(0, 3),
                           self._random.choice([0, 4294967294]))

    def _setxattr(self) -> None:
        self._client.setxattr(self._path(), "user." + self._random.choice("pqr"),
                              self._random.choice([b"", b"1", b"a b"]))

    def _removexattr(self) -> None:
        self._client.removexattr(self._path(), "user." + self._random.choice("pqr"))


class Shown:
    """What a client sees of a mount: its object lines, and a script with its answers, as
    `kernel.script_and_answers` has them."""

    def __init__(self, client: Client) -> None:
        self._client = client
        self.lines: List[str] = []
        self.script, self.answers = ["attach"], ["client 0"]
        self._look("/")

    def _look(self, path: str) -> None:
        found = self._client.stat(path)
        kind, size, more = "f", found.st_size, ""
        shown = tools.escaped(os.fsencode(path))
        if stat.S_ISDIR(found.st_mode):
            kind, size = "d", 0
        elif stat.S_ISLNK(found.st_mode):
            kind, more = "l", " -> " + tools.escaped(os.fsencode(self._client.readlink(path)))
        self.lines.append(f"{kind} {stat.S_IMODE(found.st_mode):04o} {found.st_uid} {found.st_gid} "
                          f"{size} {found.st_nlink} {shown}{more}")
        if kind == "f":
            with self._client.open(path) as file:
                data = file.read(65_536)
            self._asked(f"open r {shown}", "0", "read 0 65536", tools.escaped(data), "close 0", "")
        if kind != "l":
            self._look_at_attributes(path, shown)
        if kind == "d":
            for name in self._client.listdir(path):
                self._look(os.path.join(path, name))

    def _look_at_attributes(self, path: str, shown: str) -> None:
        names = sorted(self._client.listxattr(path))
        self._asked(f"attrs {shown}", " ".join(names))
        for name in names:
            value = self._client.getxattr(path, name)
            self._asked(f"getattr {shown} {name}", tools.escaped(value))

    def _asked(self, *pairs: str) -> None:
        """Notes calls and their answers, in turn."""
        self.script += [f"0 {call}" for call in pairs[::2]]
        self.answers += [f"0 ok {answer}".rstrip() for answer in pairs[1::2]]


def export(manifest: Path, socket: str, *words: str) -> List[str]:
    """Runs the command; its lines."""
    errors = io.StringIO()
    with contextlib.redirect_stderr(errors):
        status = main([str(manifest), socket, *words])
    assert status == 0, errors.getvalue()
    return errors.getvalue().splitlines()


class ServedTest(ExportCase):
    """Imported, served, changed by a client, exported; mounted by the kernel, and imported."""

    @classmethod
    def setUpClass(cls) -> None:
        super().setUpClass()
        reason = real_server.why_not()
        if reason is not None:
            tools.skip(f"{cls.__module__}.{cls.__name__}", reason)

    def test_random_changes(self) -> None:
        """20 seeds, each with an upper from the start; every other one makes redirects, and every
        fourth one files without bytes of their own too."""
        for seed in range(SEEDS):
            with self.subTest(seed=seed):
                base = self.start(seed)
                self.first_upper(base, seed)
                options = ["--redirect-dir", "on"] if seed % 2 else []
                options += ["--metacopy", "on"] if seed % 4 == 3 else []
                tools.import_to(base / "m.toml", [*options, str(base / "first"), str(base / "low")])
                shown, told = self.change(base, seed)
                lines = self.links_alone(base / "up", shown.lines)
                self.compare(base, lines, [shown.script, shown.answers])
                self.again(base, lines, any("several" in line for line in told))

    def first_upper(self, base: Path, seed: int) -> None:
        """An upper with marks of the kernel's."""
        (base / "first").mkdir()
        self.mount(base, "first")
        try:
            kernel.Changes(str(base / "m"), seed + 1000).make(30)
        finally:
            kernel.unmount(base)

    def change(self, base: Path, seed: int) -> Tuple[Shown, List[str]]:
        """Serves the manifest, changes the mount, and exports it in both forms."""
        manifest = base / "m.toml"
        with real_server.Server(manifest.read_text("utf-8"), workers=1) as server:
            with server.client() as client:
                self.assertGreater(ClientChanges(client, seed + 2000).make(80), 10)
                shown = Shown(client)
            export(manifest, server.path, "--upper", str(base / "up"))
            told = export(manifest, server.path, "--layer", str(base / "layer.tar"))
        return shown, told

    @staticmethod
    def links_alone(upper: Path, lines: List[str]) -> List[str]:
        """The symbolic links that the upper has are objects of their own: that is what no export
        from a server says."""
        alone = []
        for line in lines:
            words = line.split(" ")
            raw = words[6].encode("ascii").decode("unicode_escape").encode("latin-1")
            with contextlib.suppress(FileNotFoundError, NotADirectoryError):
                os.lstat(os.fsencode(upper) + raw)
                words[5] = "1" if words[0] == "l" else words[5]
            alone.append(" ".join(words))
        return alone

    def again(self, base: Path, lines: List[str], several: bool) -> None:
        """The export is imported, served and exported once more, twice. Each time it shows the same
        tree, and it is the same manifest at once; or, where names of one file became files, as soon
        as those are left out that are now as they are below."""
        manifests, layer = [], base / "layer.tar"
        for number in range(3):
            manifest = base / f"again{number}.toml"
            tools.import_to(manifest, [str(layer), str(base / "low")])
            self.assertEqual(tools.show(tools.overlayd() or "", manifest), lines)
            manifests.append(manifest.read_text("utf-8"))
            layer = base / f"again{number}.tar"
            with real_server.Server(manifests[-1], workers=1) as server:
                server.client().close()
                self.assertEqual(len(export(manifest, server.path, "--layer", str(layer))), 1)
        self.assertEqual(manifests[1], manifests[2])
        if not several:
            self.assertEqual(manifests[0], manifests[1])
