"""Changes as a layer of an OCI image."""

import os
import tarfile
from typing import BinaryIO, Iterable, Iterator, List, Optional

from ..importer.meta import SECOND
from ..importer.telling import shown
from .comparing import Change
from .headers import header
from .trees import (BLOCK, CHARACTER, DIRECTORY, FIFO, FILE, SOCKET, SYMLINK, Entry, Tree)
from .unsayable import Unsayable, check_attributes, check_device

_MARK = ".wh."
_OPAQUE = ".wh..wh..opq"
_TYPES = {DIRECTORY: tarfile.DIRTYPE, FILE: tarfile.REGTYPE, SYMLINK: tarfile.SYMTYPE,
          FIFO: tarfile.FIFOTYPE, CHARACTER: tarfile.CHRTYPE, BLOCK: tarfile.BLKTYPE}
# What a header of 11 octal digits can say.
_SECONDS_MOST = 8 ** 11
# How many bytes are written at once.
_WRITTEN = 1 << 16


def write_layer(found: Iterable[Change], mounted: Tree, stream: BinaryIO,
                epoch: Optional[int] = None) -> None:
    """Writes the tar of a layer: the same changes are the same bytes. Times that aren't known are
    `epoch`, in seconds since 1970, or else 0, and none is later than `epoch`. A socket, which no
    tar has, is left out. Raises `Unsayable` for a name, a device or an attribute that an image
    would read as a mark."""
    tar = _Tar(stream)
    for change in found:
        _write(tar, change, mounted, epoch)
    tar.end()


def _write(tar: "_Tar", change: Change, mounted: Tree, epoch: Optional[int]) -> None:
    above, _, name = change.path[1:].rpartition("/")
    inside = f"{above}/" if above else ""
    if name.startswith(_MARK):
        raise Unsayable(f"{shown(change.path)}: a layer of an image can't have a name that begins "
                        "with .wh.")
    if change.entry is None or change.entry.kind == SOCKET and change.covers:
        tar.add(_timed(tarfile.TarInfo(f"{inside}{_MARK}{name}"), None, epoch))
        return
    if change.path == "/" and change.is_same or change.entry.kind == SOCKET:
        return
    check_attributes(change.entry)
    check_device(change.entry)
    info = _timed(_member(change, change.entry), change.entry.mtime, epoch)
    if change.entry.kind == FILE and change.link_to is None:
        tar.add(info, mounted.pieces(change.entry))
    else:
        tar.add(info)
    if change.opaque:
        tar.add(_timed(tarfile.TarInfo(f"{change.path[1:]}/{_OPAQUE}"), None, epoch))


def _timed(info: tarfile.TarInfo, mtime: Optional[int], epoch: Optional[int]) -> tarfile.TarInfo:
    """Gives a member its time, to the nanosecond where a pax header is needed for that."""
    latest = None if epoch is None else epoch * SECOND
    if mtime is None:
        mtime = latest or 0
    elif latest is not None:
        mtime = min(mtime, latest)
    seconds, below = divmod(mtime, SECOND)
    info.mtime = seconds
    if below or not 0 <= seconds < _SECONDS_MOST:
        info.pax_headers = {**info.pax_headers, "mtime": _pax_time(mtime)}
    return info


def _pax_time(mtime: int) -> str:
    """A time as a pax header has it: a number with up to nine digits behind the point."""
    seconds, below = divmod(abs(mtime), SECOND)
    digits = f".{below:09d}".rstrip("0") if below else ""
    return f"{'-' if mtime < 0 else ''}{seconds}{digits}"


def _member(change: Change, entry: Entry) -> tarfile.TarInfo:
    info = tarfile.TarInfo(change.path[1:] or "./")
    info.uid, info.gid, info.mode = entry.uid, entry.gid, entry.mode
    if change.link_to is not None:
        info.type = tarfile.LNKTYPE
        info.linkname = change.link_to[1:]
        return info
    info.type = _TYPES[entry.kind]
    info.size = entry.size if entry.kind == FILE else 0
    info.linkname = entry.target
    if entry.kind in (CHARACTER, BLOCK):
        info.devmajor, info.devminor = os.major(entry.device), os.minor(entry.device)
    info.pax_headers = {f"SCHILY.xattr.{name}": value.decode("utf-8", "surrogateescape")
                        for name, value in entry.attrs}
    return info


class _Tar:
    """Writes members one behind the other; unlike `tarfile` it keeps none of them."""

    def __init__(self, stream: BinaryIO) -> None:
        self._stream = stream
        self._size = 0
        self._parts: List[bytes] = []
        self._waiting = 0

    def add(self, info: tarfile.TarInfo, pieces: Iterator[bytes] = iter(())) -> None:
        """Writes a member, and of the pieces as many bytes as it has."""
        self._put(header(info))
        left = info.size
        while left:
            piece = next(pieces, b"")[:left]
            if not piece:
                raise Unsayable(f"{shown(info.name)}: it has fewer bytes than it had before")
            self._put(piece)
            left -= len(piece)
        self._put(bytes(-info.size % tarfile.BLOCKSIZE))

    def end(self) -> None:
        """Writes the end, up to a whole record."""
        end = 2 * tarfile.BLOCKSIZE
        self._put(bytes(end + -(self._size + end) % tarfile.RECORDSIZE))
        self._flush()

    def _put(self, data: bytes) -> None:
        """Few bytes wait for more."""
        self._parts.append(data)
        self._size += len(data)
        self._waiting += len(data)
        if self._waiting >= _WRITTEN:
            self._flush()

    def _flush(self) -> None:
        self._stream.write(b"".join(self._parts))
        self._parts.clear()
        self._waiting = 0
