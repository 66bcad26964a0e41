"""Opening what is below a directory by descriptors, so that no link leads out of it."""

import errno
import os
import stat
import weakref
from typing import Iterator, List, NamedTuple, Optional, Tuple

from .objects import PIECE, ZEROS, zeros
from .telling import Refused, shown

Identity = Tuple[int, int]
DIRECTORY_FLAGS = os.O_RDONLY | os.O_DIRECTORY | os.O_NOFOLLOW | os.O_CLOEXEC
FILE_FLAGS = os.O_RDONLY | os.O_NOFOLLOW | os.O_NONBLOCK | os.O_CLOEXEC
# How many directories of a way are open at once.
_OPEN_MOST = 64
# How many bytes at once are looked at to find one that isn't zero.
_LOOKED_AT = 1 << 16
# Why a system may not copy from this file to that one.
_NOT_COPIED = (errno.EXDEV, errno.EINVAL, errno.ENOSYS, errno.EOPNOTSUPP, errno.EPERM,
               errno.EBADF, errno.ETXTBSY)
_CHANGED = (errno.ELOOP, errno.ENOTDIR, errno.ENXIO)


class Place(NamedTuple):
    """Where a file was seen: its path from the root of the layer, and what it was."""

    raw: bytes
    device: int
    inode: int


def changed(name: str) -> Refused:
    """What ends an import of what isn't any more what it was."""
    return Refused(f"{name}: it was changed while it was read")


def identity_of(status: os.stat_result) -> Identity:
    """What tells an object from all others."""
    return status.st_dev, status.st_ino


def opened_below(top: int, raw: bytes) -> int:
    """A descriptor of the directory at a path below another one, of which no name may be a link."""
    found = os.dup(top)
    for name in raw.split(b"/") if raw else ():
        above = found
        try:
            found = os.open(name, DIRECTORY_FLAGS, dir_fd=above)
        finally:
            os.close(above)
    return found


class Root:
    """The directory that was given, which may be named by a link."""

    def __init__(self, path: str) -> None:
        self.name = path
        self.descriptor = os.open(path, os.O_RDONLY | os.O_DIRECTORY | os.O_CLOEXEC)
        weakref.finalize(self, os.close, self.descriptor)
        self._way: Optional[Tuple[bytes, int]] = None

    def open_file(self, place: Place) -> int:
        """Opens a file that was seen; refused where it isn't there any more."""
        above, _, name = place.raw.rpartition(b"/")
        try:
            found = os.open(name, FILE_FLAGS, dir_fd=self._directory(above))
        except OSError as error:
            raise self._told(error, place.raw) from None
        status = os.fstat(found)
        if identity_of(status) != place[1:] or not stat.S_ISREG(status.st_mode):
            os.close(found)
            raise changed(shown(os.path.join(os.fsencode(self.name), place.raw)))
        return found

    def open_below(self, raw: bytes) -> int:
        """Opens a file by its path, of which no name may be a link."""
        above, _, name = raw.rpartition(b"/")
        return os.open(name, FILE_FLAGS, dir_fd=self._directory(above))

    def link_below(self, raw: bytes) -> Optional[bytes]:
        """Where a symbolic link leads; None where there is none."""
        above, _, name = raw.rpartition(b"/")
        try:
            return os.fsencode(os.readlink(name, dir_fd=self._directory(above)))
        except OSError:
            return None

    def _told(self, error: OSError, raw: bytes) -> Exception:
        path = os.path.join(os.fsencode(self.name), raw)
        if error.errno in _CHANGED:
            return changed(shown(path))
        return OSError(error.errno, error.strerror, os.fsdecode(path))

    def _directory(self, raw: bytes) -> int:
        """A descriptor of a directory below, kept until another one is asked for."""
        if self._way is not None:
            if self._way[0] == raw:
                return self._way[1]
            os.close(self._way[1])
            self._way = None
        found = opened_below(self.descriptor, raw)
        self._way = raw, found
        return found

    def __del__(self) -> None:
        way = getattr(self, "_way", None)
        if way is not None:
            os.close(way[1])


class Ways:
    """The directories from a root to where a walk is. Of a long way the ones above are closed, and
    opened again by `..`, which has to lead to what was there before."""

    def __init__(self, root: Root) -> None:
        self._name = root.name
        self._open: List[Tuple[int, Identity]] = []
        self._begin(os.dup(root.descriptor))

    def _begin(self, descriptor: int) -> None:
        self._open.append((descriptor, identity_of(os.fstat(descriptor))))
        if len(self._open) > _OPEN_MOST:
            above, identity = self._open[-_OPEN_MOST - 1]
            if above >= 0:
                os.close(above)
                self._open[-_OPEN_MOST - 1] = -1, identity

    @property
    def here(self) -> int:
        """The directory where the walk is."""
        return self._open[-1][0]

    def down(self, descriptor: int) -> None:
        """Goes into a directory that was opened, which is closed in its time."""
        self._begin(descriptor)

    def up(self) -> None:
        """Goes back to the directory above."""
        below, _ = self._open.pop()
        try:
            if self._open and self._open[-1][0] < 0:
                above = os.open("..", DIRECTORY_FLAGS, dir_fd=below)
                identity = self._open[-1][1]
                self._open[-1] = above, identity
                if identity_of(os.fstat(above)) != identity:
                    raise changed(shown(self._name))
        finally:
            os.close(below)

    def close(self) -> None:
        """Lets all go."""
        while self._open:
            descriptor, _ = self._open.pop()
            if descriptor >= 0:
                os.close(descriptor)


def open_at(name: str, directory: int, is_directory: bool) -> int:
    """Opens a file or directory that a listing has, and no link."""
    return os.open(name, DIRECTORY_FLAGS if is_directory else FILE_FLAGS, dir_fd=directory)


def is_change(error: OSError) -> bool:
    """Whether an open was refused since another object stands there now."""
    return error.errno in _CHANGED


def read_small(descriptor: int, most: int) -> bytes:
    """The bytes of a file, at most so many."""
    data = os.read(descriptor, most)
    while data and len(data) < most:
        more = os.read(descriptor, most - len(data))
        if not more:
            break
        data += more
    return data


def pieces(descriptor: int, size: int, name: str, most: int = PIECE) -> Iterator[bytes]:
    """The bytes of a long file, in pieces of at most `most`; its holes aren't read."""
    at = 0
    while at < size:
        begin, end = _stretch(descriptor, at, size)
        yield from zeros(begin - at)
        at = begin
        while at < end:
            data = os.pread(descriptor, min(most, end - at), at)
            if not data:
                raise changed(name)
            yield data
            at += len(data)


def _stretch(descriptor: int, at: int, size: int) -> Tuple[int, int]:
    """Where the next bytes are that aren't a hole, from a place on."""
    try:
        begin = min(os.lseek(descriptor, at, os.SEEK_DATA), size)
        return begin, size if begin == size else min(os.lseek(descriptor, begin, os.SEEK_HOLE),
                                                     size)
    except OSError as error:
        return (size, size) if error.errno == errno.ENXIO else (at, size)


def copy(descriptor: int, size: int, out: int, place: int, name: str) -> bool:
    """Copies a long file to a place of another one, where its holes are left as they are. Nothing
    is written, and False returned, where all of its bytes are zeros."""
    at = _zeros_before(descriptor, size, name)
    if at == size:
        return False
    while at < size:
        begin, end = _stretch(descriptor, at, size)
        _copy_stretch(descriptor, begin, end, out, place + begin, name)
        at = end
    return True


def _zeros_before(descriptor: int, size: int, name: str) -> int:
    """How many zeros are before the first piece that has more than zeros."""
    count = 0
    for piece in pieces(descriptor, size, name, _LOOKED_AT):
        if piece is not ZEROS and piece.strip(b"\0"):
            return count
        count += len(piece)
    return count


def _copy_stretch(descriptor: int, begin: int, end: int, out: int, place: int, name: str) -> None:
    """Copies a stretch, by the system where it does so between these files."""
    is_by_system = hasattr(os, "copy_file_range")
    while begin < end:
        count = 0
        try:
            if is_by_system:
                count = os.copy_file_range(descriptor, out, end - begin, begin, place)
        except OSError as error:
            if error.errno not in _NOT_COPIED:
                raise
        is_by_system = count > 0
        if not count:
            data = os.pread(descriptor, min(PIECE, end - begin), begin)
            count = os.pwrite(out, data, place) if data else 0
            if not count:
                raise changed(name)
        begin, place = begin + count, place + count
