"""Changes as an upper directory of the kernel's overlayfs."""

import contextlib
import os
import shutil
import stat
import tempfile
from typing import Iterable, Iterator, List, Optional, Set, Tuple, Union

from ..importer.descriptors import DIRECTORY_FLAGS, opened_below
from ..importer.telling import shown
from .comparing import Change
from .trees import (BLOCK, CHARACTER, DIRECTORY, FIFO, FILE, SOCKET, SYMLINK, Entry, Tree,
                    raw_of)
from .unsayable import Unsayable, check_attributes, check_device, check_owner

_UPPER = b"upper"
_NEW = os.O_WRONLY | os.O_CREAT | os.O_EXCL | os.O_NOFOLLOW | os.O_CLOEXEC
_SPECIAL = {FIFO: stat.S_IFIFO, SOCKET: stat.S_IFSOCK, CHARACTER: stat.S_IFCHR,
            BLOCK: stat.S_IFBLK}


def write_upper(found: Iterable[Change], mounted: Tree, path: str, user: bool = False) -> None:
    """Writes a new directory, which appears when it is whole.

    Whiteouts are 0/0 character devices, which only root can make, as only root gives files away.
    Opaque directories have the attribute `trusted.overlay.opaque`, or with `user` the one that the
    kernel reads with the option `userxattr`, `user.overlay.opaque`. Raises `Unsayable` for the
    owner 4294967295 and for attributes that would be marks.
    """
    above, name = os.path.split(os.path.abspath(path))
    if os.path.lexists(path):
        raise FileExistsError(17, os.strerror(17), path)
    partial = tempfile.mkdtemp(prefix=f".{name}.", suffix=".part", dir=above)
    try:
        with _opened(partial) as folder:
            _Writing(folder, mounted, "user." if user else "trusted.").write(found)
        os.rename(os.path.join(partial, "upper"), path)
    finally:
        shutil.rmtree(partial)


@contextlib.contextmanager
def _opened(path: Union[str, bytes], above: Optional[int] = None) -> Iterator[int]:
    """A descriptor of a directory that was made here, and is no link."""
    descriptor = os.open(path, DIRECTORY_FLAGS, dir_fd=above)
    try:
        yield descriptor
    finally:
        os.close(descriptor)


class _Writing:
    """Writes below one directory, of which a descriptor is given. The way to each name is opened
    below descriptors, and leads through directories that were made here."""

    def __init__(self, folder: int, mounted: Tree, prefix: str) -> None:
        self._folder = folder
        self._mounted = mounted
        self._prefix = prefix
        self._made: Set[bytes] = {b""}
        self._way: Tuple[bytes, int] = b"", os.dup(folder)

    def write(self, found: Iterable[Change]) -> None:
        """Writes each name; directories get their modes when what is in them is there."""
        try:
            self._write_all(found)
        finally:
            os.close(self._way[1])

    def _write_all(self, found: Iterable[Change]) -> None:
        directories: List[Entry] = []
        for change in found:
            raw = _raw(change.path)
            if change.entry is not None:
                check_attributes(change.entry)
                check_owner(change.entry)
            if change.entry is not None and change.entry.kind == DIRECTORY:
                os.mkdir(_name(raw), 0o700, dir_fd=self._above(raw))
                self._made.add(raw)
                directories.append(change.entry)
                if change.opaque:
                    with _opened(_name(raw), self._above(raw)) as made:
                        os.setxattr(made, f"{self._prefix}overlay.opaque", b"y")
            else:
                self._write_other(raw, change)
        if not directories:
            os.mkdir(_UPPER, dir_fd=self._folder)
        for entry in reversed(directories):
            raw = _raw(entry.path)
            with _opened(_name(raw), self._above(raw)) as made:
                self._describe(made, entry)

    def _above(self, raw: bytes) -> int:
        """The directory above a path, which has to be one that was made here."""
        above = raw.rpartition(b"/")[0]
        if above not in self._made:
            raise Unsayable(f"{shown(raw[len(_UPPER):])}: what is above it is no directory")
        if self._way[0] == above:
            return self._way[1]
        found = opened_below(self._folder, above)
        os.close(self._way[1])
        self._way = above, found
        return found

    def _write_other(self, raw: bytes, change: Change) -> None:
        entry, above, name = change.entry, self._above(raw), _name(raw)
        if entry is None:
            os.mknod(name, stat.S_IFCHR, os.makedev(0, 0), dir_fd=above)
        elif change.link_to is not None:
            self._link(_raw(change.link_to), raw)
        elif entry.kind == SYMLINK:
            os.symlink(raw_of(entry.target), name, dir_fd=above)
            os.chown(name, entry.uid, entry.gid, dir_fd=above, follow_symlinks=False)
            if entry.mtime is not None:
                os.utime(name, ns=(entry.mtime, entry.mtime), dir_fd=above, follow_symlinks=False)
        elif entry.kind == FILE:
            descriptor = os.open(name, _NEW, 0o600, dir_fd=above)
            with open(descriptor, "wb") as stream:
                for piece in self._mounted.pieces(entry):
                    stream.write(piece)
                stream.flush()
                self._describe(descriptor, entry)
        else:
            check_device(entry)
            os.mknod(name, _SPECIAL[entry.kind] | 0o600, entry.device, dir_fd=above)
            self._describe(b"/proc/self/fd/%d/%b" % (above, name), entry)

    def _link(self, first: bytes, raw: bytes) -> None:
        above, name = os.dup(self._above(first)), _name(first)
        try:
            os.link(name, _name(raw), src_dir_fd=above, dst_dir_fd=self._above(raw),
                    follow_symlinks=False)
        finally:
            os.close(above)

    @staticmethod
    def _describe(made: Union[int, bytes], entry: Entry) -> None:
        """Gives what was made its owner, attributes, mode and time, in this order."""
        os.chown(made, entry.uid, entry.gid)
        for name, value in entry.attrs:
            os.setxattr(made, raw_of(name), value)
        os.chmod(made, entry.mode)
        if entry.mtime is not None:
            os.utime(made, ns=(entry.mtime, entry.mtime))


def _raw(path: str) -> bytes:
    """The path below the folder in which the directory is made."""
    return _UPPER if path == "/" else _UPPER + raw_of(path)


def _name(raw: bytes) -> bytes:
    return raw.rpartition(b"/")[2]
