"""Layers made by the kernel's overlayfs: the program shows what the kernel shows."""

import os
import random
import shutil
import stat
import subprocess
import tempfile
import unittest
from pathlib import Path
from typing import List, Optional

from . import import_tools as tools

SEEDS = 50
OPTIONS = "redirect_dir=on,index=off,xino=off,metacopy=off"
USER_OPTIONS = "userxattr,index=off,xino=off"
NAMES = ["a", "b", "c", "d", "e", "a b", "\u00e9", "f\\g"]


def why_not() -> Optional[str]:
    """Why the kernel can't be asked here."""
    if tools.overlayd() is None:
        return "no overlayd was built (environment variable OVERLAYD)"
    if not hasattr(os, "geteuid") or os.geteuid() != 0:
        return "not root"
    try:
        if "overlay" not in Path("/proc/filesystems").read_text("ascii"):
            return "this kernel has no overlayfs"
    except OSError:
        return "no /proc"
    with tempfile.TemporaryDirectory() as folder:
        for name in ("l", "u", "w", "m"):
            os.mkdir(os.path.join(folder, name))
        if mount(Path(folder), "lowerdir=l,upperdir=u,workdir=w") != 0:
            return "overlayfs can't be mounted here"
        unmount(Path(folder))
    return None


def mount(folder: Path, options: str) -> int:
    """Mounts at `m` of the folder; the exit status of mount(8)."""
    words = ["mount", "-t", "overlay", "overlay", "-o", options, "m"]
    return subprocess.run(words, cwd=folder, capture_output=True, check=False).returncode


def unmount(folder: Path) -> None:
    """Takes the mount away."""
    subprocess.run(["umount", "m"], cwd=folder, check=True)


class Changes:
    """Random changes of a tree."""

    def __init__(self, root: str, seed: int) -> None:
        self._root = root
        self._random = random.Random(seed)

    def make(self, count: int) -> None:
        """So many changes, of which some are refused."""
        for _ in range(count):
            change = self._random.choice([
                self._mkdir, self._mkdir, self._write, self._write, self._append, self._symlink,
                self._link, self._unlink, self._remove, self._rename, self._rename, self._chmod,
                self._chown, self._setxattr, self._replace])
            try:
                change()
            except OSError:
                pass

    def _path(self) -> str:
        """A path that is there, or whose last name may be new."""
        path = self._root
        for _ in range(self._random.randint(1, 4)):
            path = os.path.join(path, self._random.choice(NAMES))
            if not os.path.isdir(path) or os.path.islink(path):
                break
        return path

    def _mkdir(self) -> None:
        os.mkdir(self._path(), self._random.choice([0o755, 0o700, 0o1777]))

    def _write(self) -> None:
        with open(self._path(), "xb") as stream:
            stream.write(self._random.choice([b"", b"text\n", b"\0" * 9, bytes(range(200)), b"x"]))

    def _append(self) -> None:
        with open(self._path(), "r+b") as stream:
            stream.seek(0, os.SEEK_END)
            stream.write(b"more")

    def _symlink(self) -> None:
        os.symlink(self._random.choice(["a", "/b/c", "../x y"]), self._path())

    def _link(self) -> None:
        os.link(self._path(), self._path(), follow_symlinks=False)

    def _unlink(self) -> None:
        os.unlink(self._path())

    def _remove(self) -> None:
        path = self._path()
        if os.path.isdir(path) and not os.path.islink(path):
            shutil.rmtree(path)

    def _replace(self) -> None:
        self._remove()
        self._mkdir()

    def _rename(self) -> None:
        os.rename(self._path(), self._path())

    def _chmod(self) -> None:
        os.chmod(self._path(), self._random.choice([0o600, 0o4755, 0o2750, 0o0]),
                 follow_symlinks=True)

    def _chown(self) -> None:
        os.chown(self._path(), self._random.randint(0, 3), self._random.choice([0, 4294967294]),
                 follow_symlinks=False)

    def _setxattr(self) -> None:
        os.setxattr(self._path(), "user." + self._random.choice("pqr"),
                    self._random.choice([b"", b"1", b"a b"]), follow_symlinks=False)


def paths_below(root: str) -> List[str]:
    """The root and all paths in it, depth first, names by their bytes."""
    found = [root]
    for raw in sorted(os.listdir(os.fsencode(root))):
        path = os.path.join(root, os.fsdecode(raw))
        try:
            status = os.lstat(path)
        except FileNotFoundError:
            # a whiteout, which the kernel lists in a directory of one layer alone
            continue
        found += paths_below(path) if stat.S_ISDIR(status.st_mode) else [path]
    return found


def shown_path(root: str, path: str) -> str:
    """The path in the mount as the program prints it."""
    return tools.escaped(os.fsencode(path[len(root):] or "/"))


def object_line(root: str, path: str) -> str:
    """What the kernel has at a path, as the program prints it."""
    status = os.lstat(path)
    mode, size, links, more = stat.S_IMODE(status.st_mode), status.st_size, status.st_nlink, ""
    kind = "f"
    if stat.S_ISDIR(status.st_mode):
        kind, size, links = "d", 0, 1
    elif stat.S_ISLNK(status.st_mode):
        kind, more = "l", " -> " + tools.escaped(os.fsencode(os.readlink(path)))
    return (f"{kind} {mode:04o} {status.st_uid} {status.st_gid} {size} {links} "
            f"{shown_path(root, path)}{more}")


def script_and_answers(root: str, paths: List[str]) -> List[List[str]]:
    """Lines that ask for bytes and attributes, and what the kernel's mount says to each."""
    script, answers = ["attach"], ["client 0"]
    for path in paths:
        if os.path.islink(path):
            continue
        shown = shown_path(root, path)
        if os.path.isfile(path):
            data = tools.escaped(Path(path).read_bytes())
            script += [f"0 open r {shown}", "0 read 0 65536", "0 close 0"]
            answers += ["0 ok 0", f"0 ok {data}", "0 ok"]
        names = sorted(name for name in os.listxattr(path) if name.startswith("user."))
        script.append(f"0 attrs {shown}")
        answers.append(" ".join(["0 ok", *names]))
        for name in names:
            script.append(f"0 getattr {shown} {name}")
            answers.append(f"0 ok {tools.escaped(os.getxattr(path, name))}")
    return [script, answers]


class KernelCase(unittest.TestCase):
    """Random layers that the kernel made; the uppers by changes of this class."""

    program = ""
    changes = Changes

    @classmethod
    def setUpClass(cls) -> None:
        reason = why_not()
        if reason is not None:
            tools.skip(f"{cls.__module__}.{cls.__name__}", reason)
        cls.program = tools.overlayd() or ""

    def make_base(self, root: str, seed: int) -> None:
        """Fills the lowest layer."""
        Changes(root, seed).make(60)

    def stack(self, folder: Path, seed: int, uppers: int, changes: int,
              kept: str = OPTIONS) -> List[str]:
        """Makes a base and so many uppers over it, each by changes of a mount; the layers' names,
        the highest first."""
        for name in ("m", "0"):
            (folder / name).mkdir()
        (folder / "0").chmod(0o750)
        self.make_base(str(folder / "0"), seed)
        layers = ["0"]
        for number in range(1, uppers + 1):
            upper, work = str(number), f"w{number}"
            (folder / upper).mkdir()
            (folder / work).mkdir()
            options = f"lowerdir={':'.join(layers)},upperdir={upper},workdir={work},{kept}"
            self.assertEqual(mount(folder, options), 0)
            self.changes(str(folder / "m"), seed * 100 + number).make(changes)
            unmount(folder)
            layers.insert(0, upper)
        return layers

    def compare(self, folder: Path, layers: List[str], kept: str = OPTIONS, *words: str) -> None:
        """Imports the layers, and compares what the program shows with what the kernel shows."""
        manifest = folder / "manifest.toml"
        tools.import_to(manifest, [*(str(folder / layer) for layer in layers), *words])
        root = str(folder / "m")
        self.assertEqual(mount(folder, f"lowerdir={':'.join(layers)},{kept}"), 0)
        try:
            paths = paths_below(root)
            lines = [object_line(root, path) for path in paths]
            script, answers = script_and_answers(root, paths)
        finally:
            unmount(folder)
        self.assertEqual(tools.show(self.program, manifest), lines)
        self.assertEqual(tools.play(self.program, manifest, "\n".join(script)), answers)


class KernelTest(KernelCase):
    """Layers without marks of files."""

    def test_two_layers(self) -> None:
        """An upper over a base."""
        for seed in range(SEEDS):
            with self.subTest(seed=seed), tempfile.TemporaryDirectory() as name:
                self.compare(Path(name), self.stack(Path(name), seed, 1, 60))

    def test_without_an_upper(self) -> None:
        """The same layers, all of them lower ones."""
        for seed in range(10):
            with self.subTest(seed=seed), tempfile.TemporaryDirectory() as name:
                layers = self.stack(Path(name), seed, 1 + seed % 3, 40)
                self.compare(Path(name), layers, OPTIONS, "--read-only")

    def test_marks_of_users(self) -> None:
        """An upper whose marks are `user.` attributes."""
        for seed in range(10):
            with self.subTest(seed=seed), tempfile.TemporaryDirectory() as name:
                layers = self.stack(Path(name), seed, 1, 60, USER_OPTIONS)
                self.compare(Path(name), layers, USER_OPTIONS)

    def test_many_layers(self) -> None:
        """19 uppers over a base, of which the lowest four layers are made one."""
        for seed in range(10):
            with self.subTest(seed=seed), tempfile.TemporaryDirectory() as name:
                self.compare(Path(name), self.stack(Path(name), seed, 19, 10))
