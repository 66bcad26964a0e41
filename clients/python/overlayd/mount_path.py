"""Paths of a mount, with methods as those of `pathlib.Path`."""

from __future__ import annotations

import functools
import os
import pathlib
import stat
from typing import TYPE_CHECKING, Any, Iterator, List, Optional, Tuple, Union

from .frames import Stat

if TYPE_CHECKING:
    from .client import Client

__all__ = ["MountPath"]


@functools.total_ordering
class MountPath:
    """A path of a client's mount; `client.path("/etc") / "hostname"`.

    It has no `__fspath__`, so that no function of the system takes it for a path of its own.
    """

    __slots__ = ("client", "_pure")

    def __init__(self, client: Client, *parts: Union[str, pathlib.PurePosixPath]) -> None:
        self.client = client
        """The client over which it asks."""
        self._pure = pathlib.PurePosixPath("/", *parts)

    def __str__(self) -> str:
        return str(self._pure)

    def __repr__(self) -> str:
        return f"MountPath({str(self)!r})"

    def __hash__(self) -> int:
        return hash((id(self.client), self._pure))

    def __eq__(self, other: object) -> bool:
        if not isinstance(other, MountPath):
            return NotImplemented
        return self.client is other.client and self._pure == other._pure

    def __lt__(self, other: MountPath) -> bool:
        return self._pure < other._pure

    def __truediv__(self, name: Union[str, pathlib.PurePosixPath]) -> MountPath:
        return self.joinpath(name)

    # Its text.

    @property
    def parts(self) -> Tuple[str, ...]:
        """`/` and the names."""
        return self._pure.parts

    @property
    def name(self) -> str:
        """The last name; empty for the root."""
        return self._pure.name

    @property
    def stem(self) -> str:
        """The last name without its suffix."""
        return self._pure.stem

    @property
    def suffix(self) -> str:
        """What follows the last name's last dot, with the dot."""
        return self._pure.suffix

    @property
    def parent(self) -> MountPath:
        """The directory above; the root's is itself."""
        return MountPath(self.client, self._pure.parent)

    @property
    def parents(self) -> List[MountPath]:
        """The directories above, the nearest first."""
        return [MountPath(self.client, one) for one in self._pure.parents]

    def joinpath(self, *names: Union[str, pathlib.PurePosixPath]) -> MountPath:
        """A path below this one."""
        return MountPath(self.client, self._pure.joinpath(*names))

    def with_name(self, name: str) -> MountPath:
        """The same path with another last name."""
        return MountPath(self.client, self._pure.with_name(name))

    def with_suffix(self, suffix: str) -> MountPath:
        """The same path with another suffix."""
        return MountPath(self.client, self._pure.with_suffix(suffix))

    def relative_to(self, other: Union[str, MountPath]) -> pathlib.PurePosixPath:
        """The names by which it is below another path."""
        return self._pure.relative_to(str(other))

    # What is there.

    def stat(self) -> Stat:
        """What is there; a symbolic link is told itself."""
        return self.client.stat(str(self))

    lstat = stat

    def exists(self) -> bool:
        """Whether something is there."""
        return self.client.exists(str(self))

    def is_dir(self) -> bool:
        """Whether a directory is there."""
        return self.client.isdir(str(self))

    def is_file(self) -> bool:
        """Whether a file is there."""
        return self.client.isfile(str(self))

    def is_symlink(self) -> bool:
        """Whether a symbolic link is there."""
        return self.client.islink(str(self))

    def readlink(self) -> str:
        """Where the symbolic link leads."""
        return self.client.readlink(str(self))

    def iterdir(self) -> Iterator[MountPath]:
        """What is in the directory."""
        for name in self.client.listdir(str(self)):
            yield self / name

    def glob(self, pattern: str) -> Iterator[MountPath]:
        """What a pattern matches below it; `**` stands for any number of directories."""
        for path in self.client.glob(f"{_escaped(str(self))}/{pattern}", recursive=True):
            yield MountPath(self.client, path)

    def rglob(self, pattern: str) -> Iterator[MountPath]:
        """What a pattern matches anywhere below it."""
        return self.glob(f"**/{pattern}")

    def walk(self) -> Iterator[Tuple[MountPath, List[str], List[str]]]:
        """As `Client.walk`."""
        for directory, directories, names in self.client.walk(str(self)):
            yield MountPath(self.client, directory), directories, names

    # What changes it.

    def open(self, mode: str = "r", buffering: int = -1, encoding: Optional[str] = None,
             errors: Optional[str] = None, newline: Optional[str] = None) -> Any:
        """Opens the file, as the built-in `open` does."""
        return self.client.open(str(self), mode, buffering=buffering, encoding=encoding,
                                errors=errors, newline=newline)

    def read_bytes(self) -> bytes:
        """The file's bytes."""
        return self.client.read_bytes(str(self))

    def read_text(self, encoding: str = "utf-8", errors: Optional[str] = None) -> str:
        """The file's text."""
        return self.client.read_text(str(self), encoding, errors)

    def write_bytes(self, data: Any) -> int:
        """Makes the file of these bytes."""
        return self.client.write_bytes(str(self), data)

    def write_text(self, text: str, encoding: str = "utf-8", errors: Optional[str] = None) -> int:
        """Makes the file of a text."""
        return self.client.write_text(str(self), text, encoding, errors)

    def touch(self, mode: int = 0o644, exist_ok: bool = True) -> None:
        """Makes an empty file, if nothing is there."""
        flags = os.O_WRONLY | os.O_CREAT | (0 if exist_ok else os.O_EXCL)
        self.client.open(str(self), flags, mode).close()

    def mkdir(self, mode: int = 0o755, parents: bool = False, exist_ok: bool = False) -> None:
        """Makes the directory, with `parents` also those above that are missing."""
        if parents:
            self.client.makedirs(str(self), mode, exist_ok)
            return
        try:
            self.client.mkdir(str(self), mode)
        except FileExistsError:
            if not exist_ok or not self.is_dir():
                raise

    def chmod(self, mode: int) -> None:
        """Gives it another mode."""
        self.client.chmod(str(self), stat.S_IMODE(mode))

    def unlink(self, missing_ok: bool = False) -> None:
        """Removes the file or symbolic link."""
        try:
            self.client.unlink(str(self))
        except FileNotFoundError:
            if not missing_ok:
                raise

    def rmdir(self) -> None:
        """Removes the directory, which shows no name."""
        self.client.rmdir(str(self))

    def rename(self, target: Union[str, MountPath]) -> MountPath:
        """Moves it, in place of what is there; its new path."""
        self.client.rename(str(self), str(target))
        return MountPath(self.client, str(target))

    replace = rename

    def symlink_to(self, target: str) -> None:
        """Makes it a symbolic link that leads to a target."""
        self.client.symlink(target, str(self))

    def hardlink_to(self, target: Union[str, MountPath]) -> None:
        """Makes it a further name of a file."""
        self.client.link(str(target), str(self))


def _escaped(path: str) -> str:
    """A path as a pattern that matches itself alone."""
    return "".join(f"[{one}]" if one in "*?[" else one for one in path)
