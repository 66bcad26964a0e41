"""What a Python program reaches for beside the calls: the functions of `os`, `glob` and `shutil`.

Each is made of calls of the protocol, between which other clients may have theirs. Symbolic links
aren't followed by any of them.
"""

from __future__ import annotations

import errno
import fnmatch
import os
import shutil
import stat
from typing import (TYPE_CHECKING, Any, Callable, Iterable, Iterator, List, Optional, Tuple)

from .calls import Path
from .errors import Disconnected
from .frames import Stat

if TYPE_CHECKING:
    from .client import Client

__all__ = ["DirEntry", "Habits"]

# How many calls are sent in one write.
_TOGETHER = 256
# By these refusals nothing is at a path.
_ABSENT = (errno.ENOENT, errno.ENOTDIR, errno.ELOOP, errno.EINVAL, errno.ENAMETOOLONG)
_MAGIC = frozenset("*?[")


def text_of(path: Path) -> str:
    """A path as text, as `os.fsdecode` has it."""
    found = os.fspath(path)
    return found if isinstance(found, str) else found.decode("utf-8", "surrogateescape")


def joined(directory: str, name: str) -> str:
    """The path of a name in a directory."""
    return f"{directory.rstrip('/')}/{name}"


class DirEntry:
    """What `scandir` gives of a name, as `os.DirEntry`: what it is was asked with the listing."""

    __slots__ = ("name", "path", "_status")

    def __init__(self, name: str, path: str, status: Stat) -> None:
        self.name, self.path, self._status = name, path, status

    def __repr__(self) -> str:
        return f"<overlayd.DirEntry {self.name!r}>"

    def stat(self) -> Stat:
        """What it was when it was listed; no call is made."""
        return self._status

    def is_dir(self) -> bool:
        """Whether it is a directory."""
        return stat.S_ISDIR(self._status.st_mode)

    def is_file(self) -> bool:
        """Whether it is a file."""
        return stat.S_ISREG(self._status.st_mode)

    def is_symlink(self) -> bool:
        """Whether it is a symbolic link."""
        return stat.S_ISLNK(self._status.st_mode)


class _Scan:
    """An iterator that may be closed, as that of `os.scandir`."""

    def __init__(self, entries: Iterator[DirEntry]) -> None:
        self._entries = entries

    def __iter__(self) -> Iterator[DirEntry]:
        return self

    def __next__(self) -> DirEntry:
        return next(self._entries)

    def __enter__(self) -> _Scan:
        return self

    def __exit__(self, kind: Any, error: Any, trace: Any) -> None:
        self.close()

    def close(self) -> None:
        """Ends it."""
        self._entries = iter(())


class Habits:
    """Methods of a `Client` that are made of its calls."""

    def status_or_none(self: Client, path: Path) -> Optional[Stat]:  # type: ignore[misc]
        """What is at a path, as `stat`; None where nothing is."""
        try:
            return self.stat(path)
        except OSError as error:
            if isinstance(error, Disconnected) or error.errno not in _ABSENT:
                raise
            return None

    def exists(self: Client, path: Path) -> bool:  # type: ignore[misc]
        """Whether something is at a path; a link that leads nowhere is there too."""
        return self.status_or_none(path) is not None

    lexists = exists

    def isdir(self: Client, path: Path) -> bool:  # type: ignore[misc]
        """Whether a directory is at a path."""
        found = self.status_or_none(path)
        return found is not None and stat.S_ISDIR(found.st_mode)

    def isfile(self: Client, path: Path) -> bool:  # type: ignore[misc]
        """Whether a file is at a path."""
        found = self.status_or_none(path)
        return found is not None and stat.S_ISREG(found.st_mode)

    def islink(self: Client, path: Path) -> bool:  # type: ignore[misc]
        """Whether a symbolic link is at a path."""
        found = self.status_or_none(path)
        return found is not None and stat.S_ISLNK(found.st_mode)

    # Directories.

    def scandir(self: Client, path: Path = "/") -> _Scan:  # type: ignore[misc]
        """The entries of a directory, in the order of their names' bytes; what goes meanwhile is
        passed over."""
        directory = text_of(path)
        return _Scan(_entries(self, directory, self.listdir(directory)))

    def walk(self: Client, top: Path = "/", topdown: bool = True,  # type: ignore[misc]
             onerror: Optional[Callable[[OSError], Any]] = None,
             ) -> Iterator[Tuple[str, List[str], List[str]]]:
        """As `os.walk`: each directory with the names of the directories and of all else in it."""
        left: List[Any] = [text_of(top)]
        while left:
            at = left.pop()
            if isinstance(at, tuple):
                yield at
                continue
            try:
                entries = list(self.scandir(at))
            except OSError as error:
                if isinstance(error, Disconnected):
                    raise
                if onerror is not None:
                    onerror(error)
                continue
            directories = [entry.name for entry in entries if entry.is_dir()]
            found = at, directories, [entry.name for entry in entries if not entry.is_dir()]
            if topdown:
                yield found
            else:
                left.append(found)
            left += [joined(at, name) for name in reversed(directories)]

    def makedirs(self: Client, path: Path, mode: int = 0o755,  # type: ignore[misc]
                 exist_ok: bool = False) -> None:
        """Makes a directory and the missing ones above it, which get the mode 0755."""
        names = [name for name in text_of(path).split("/") if name]
        for count in range(1, len(names)):
            parent = "/" + "/".join(names[:count])
            if not self.exists(parent):
                _tolerating(FileExistsError, lambda: self.mkdir(parent))
        try:
            self.mkdir("/" + "/".join(names), mode)
        except FileExistsError:
            if not exist_ok or not self.isdir(path):
                raise

    def rmtree(self: Client, path: Path) -> None:  # type: ignore[misc]
        """Removes a directory and all that is in it; the first refusal ends it."""
        for directory, _, names in self.walk(path, topdown=False, onerror=_raise):
            for some in _pieces(names):
                with self.pipeline() as batch:
                    removed = [batch.unlink(joined(directory, name)) for name in some]
                for answer in removed:
                    _tolerating(FileNotFoundError, answer.result)
            self.rmdir(directory)

    def glob(self: Client, pattern: str,  # type: ignore[misc]
             recursive: bool = False) -> List[str]:
        """The paths that a pattern of the module `glob` matches, in the order of a tree.

        `*`, `?` and `[..]` match within a name, and names that begin with a dot only after one in
        the pattern; with `recursive`, `**` stands for any number of directories.
        """
        found = ["/"]
        parts = [part for part in pattern.split("/") if part]
        for part in parts:
            found = list(dict.fromkeys(path for at in found
                                       for path in _matches(self, at, part, recursive)))
        return found

    # Whole files.

    def read_bytes(self: Client, path: Path) -> bytes:  # type: ignore[misc]
        """The bytes of a file."""
        with self.open(path) as file:
            return file.read()

    def read_text(self: Client, path: Path, encoding: str = "utf-8",  # type: ignore[misc]
                  errors: Optional[str] = None) -> str:
        """The text of a file, with each end of a line as `\\n`."""
        with self.open(path, "r", encoding=encoding, errors=errors) as file:
            return file.read()

    def write_bytes(self: Client, path: Path, data: Any) -> int:  # type: ignore[misc]
        """Makes a file of these bytes, or gives them to the one that is there; how many."""
        with self.open(path, "wb") as file:
            return file.write(data)

    def write_text(self: Client, path: Path, text: str,  # type: ignore[misc]
                   encoding: str = "utf-8", errors: Optional[str] = None,
                   newline: Optional[str] = None) -> int:
        """Makes a file of a text, or gives it to the one that is there; how many characters."""
        with self.open(path, "w", encoding=encoding, errors=errors, newline=newline) as file:
            return file.write(text)

    def truncate(self: Client, path: Path, length: int) -> None:  # type: ignore[misc]
        """Cuts a file to a length, or fills it with zero bytes up to it."""
        with self.open(path, os.O_WRONLY) as file:
            file.truncate(length)

    # In and out.

    def copy_in(self: Client, source: Path, path: Path) -> None:  # type: ignore[misc]
        """Copies a file, link or directory of the system to a path of the mount, with modes.

        A file takes the place of one that is there; a directory must not be there. Owners, times
        and attributes aren't copied, and what is of another kind ends it with EINVAL.
        """
        left = [(os.fsdecode(os.fspath(source)), text_of(path))]
        while left:
            at, to = left.pop()
            found = os.lstat(at)
            if stat.S_ISDIR(found.st_mode):
                self.mkdir(to, stat.S_IMODE(found.st_mode))
                left += [(os.path.join(at, name), joined(to, name)) for name in os.listdir(at)]
            elif stat.S_ISLNK(found.st_mode):
                self.symlink(os.readlink(at), to)
            else:
                _copy_file_in(self, at, to)

    def copy_out(self: Client, path: Path, target: Path) -> None:  # type: ignore[misc]
        """Copies what is at a path of the mount to one of the system, with its permissions.

        What is made is new: nothing is written over, and no link is followed. Owners, times,
        attributes and the set-user-ID, set-group-ID and sticky bits aren't copied.
        """
        left = [(text_of(path), os.fsdecode(os.fspath(target)), self.stat(path))]
        modes = []
        while left:
            at, to, found = left.pop()
            if stat.S_ISDIR(found.st_mode):
                os.mkdir(to, 0o700)
                modes.append((to, found.st_mode & 0o777))
                left += [(entry.path, os.path.join(to, entry.name), entry.stat())
                         for entry in self.scandir(at)]
            elif stat.S_ISLNK(found.st_mode):
                os.symlink(self.readlink(at), to)
            else:
                _copy_file_out(self, at, to, found.st_mode & 0o777)
        for made, mode in reversed(modes):
            os.chmod(made, mode)


def _raise(error: OSError) -> None:
    raise error


def _tolerating(kind: type, make: Callable[[], Any]) -> None:
    try:
        make()
    except kind:
        pass


def _pieces(names: List[str]) -> Iterable[List[str]]:
    return (names[first:first + _TOGETHER] for first in range(0, len(names), _TOGETHER))


def _entries(client: Client, directory: str, names: List[str]) -> Iterator[DirEntry]:
    for some in _pieces(names):
        with client.pipeline() as batch:
            asked = [batch.stat(joined(directory, name)) for name in some]
        for name, answer in zip(some, asked):
            if isinstance(answer.exception(), (FileNotFoundError, NotADirectoryError)):
                continue
            yield DirEntry(name, joined(directory, name), answer.result())


def _matches(client: Client, at: str, part: str, recursive: bool) -> Iterator[str]:
    """The paths in a directory, or below it, that a part of a pattern matches."""
    if recursive and part == "**":
        yield at
        for directory, directories, names in client.walk(at):
            directories[:] = [name for name in directories if not name.startswith(".")]
            for name in sorted([*directories, *(one for one in names if not one.startswith("."))]):
                yield joined(directory, name)
    elif not _MAGIC & set(part):
        if client.exists(joined(at, part)):
            yield joined(at, part)
    elif client.isdir(at):
        for name in client.listdir(at):
            if name.startswith(".") <= part.startswith(".") and fnmatch.fnmatchcase(name, part):
                yield joined(at, name)


def _copy_file_in(client: Client, at: str, to: str) -> None:
    descriptor = os.open(at, os.O_RDONLY | os.O_NOFOLLOW | os.O_NONBLOCK | os.O_CLOEXEC)
    with open(descriptor, "rb") as source:
        found = os.fstat(descriptor)
        if not stat.S_ISREG(found.st_mode):
            raise OSError(errno.EINVAL, "no file, directory or symbolic link", at)
        with client.open(to, "wb") as file:
            shutil.copyfileobj(source, file, 1 << 16)
        client.chmod(to, stat.S_IMODE(found.st_mode))


def _copy_file_out(client: Client, at: str, to: str, mode: int) -> None:
    flags = os.O_WRONLY | os.O_CREAT | os.O_EXCL | os.O_NOFOLLOW | os.O_CLOEXEC
    with client.open(at) as source, open(os.open(to, flags, 0o600), "wb") as file:
        shutil.copyfileobj(source, file, 1 << 16)
        os.fchmod(file.fileno(), mode)
