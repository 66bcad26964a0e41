"""Bytes that can be read from their start again and again, plain or compressed."""

import io
import lzma
import os
import stat
import tempfile
import weakref
import zlib
from contextlib import contextmanager
from typing import BinaryIO, Iterator, Optional, Tuple, cast

from . import limits
from .telling import Refused, shown
from .unpacking import form_of, unpacking

_CHUNK = 1 << 20


class Broken(Exception):
    """What is read isn't of the form that it should be."""


class _Kept:
    """A file that is closed when nobody reads it any more."""

    def __init__(self, descriptor: int) -> None:
        self.descriptor = descriptor
        weakref.finalize(self, os.close, descriptor)


@contextmanager
def reading(name: str) -> Iterator[None]:
    """Turns what is wrong with the form of a file into one line."""
    try:
        yield
    except (Broken, EOFError, zlib.error, lzma.LZMAError, ValueError, OverflowError, IndexError,
            RecursionError) as error:
        raise Refused(f"{shown(name)}: no tar, or not a whole one: {error}") from None
    except OSError as error:
        if error.errno is not None:
            raise
        raise Refused(f"{shown(name)}: not decompressed: {error}") from None


class Blob:
    """A stretch of an open file; `path` is that of the file, if it has one that stays. At most
    `most` bytes are unpacked from it, where that is said. `has_end` is false of a tar that was
    read and has no end."""

    def __init__(self, name: str, kept: _Kept, offset: int, size: int,
                 path: Optional[str] = None, most: Optional[int] = None) -> None:
        self.name = name
        self._kept = kept
        self._offset = offset
        self.size = size
        self._path = path
        self._most = most
        self._form: Optional[str] = None
        self._asked = False
        self.has_end = True

    @classmethod
    def of_path(cls, path: str, most: Optional[int] = None) -> "Blob":
        """A whole file; what can't be read twice is kept in a temporary file."""
        with open(path, "rb", buffering=0) as file:
            return cls.of_descriptor(path, file.fileno(), os.path.realpath(path), most)

    @classmethod
    def of_descriptor(cls, name: str, descriptor: int, path: Optional[str],
                      most: Optional[int] = None) -> "Blob":
        """What a descriptor has, which the caller closes."""
        status = os.fstat(descriptor)
        if not stat.S_ISREG(status.st_mode):
            with open(descriptor, "rb", buffering=0, closefd=False) as file:
                return cls.of_stream(name, cast(BinaryIO, file), most)
        return cls(name, _Kept(os.dup(descriptor)), 0, status.st_size, path, most)

    @classmethod
    def of_stream(cls, name: str, stream: BinaryIO, most: Optional[int] = None) -> "Blob":
        """What a stream has, kept in a temporary file without a name."""
        bound = limits.UNPACKED_MOST if most is None else most
        with tempfile.TemporaryFile(prefix="overlayd-import-", buffering=0) as file:
            size = 0
            while True:
                data = stream.read(_CHUNK)
                if not data:
                    return cls(name, _Kept(os.dup(file.fileno())), 0, size, None, most)
                size += len(data)
                if size > bound:
                    raise Refused(f"{shown(name)}: more than {bound:,} bytes (--unpack-limit)")
                view = memoryview(data)
                while view:
                    view = view[file.write(view):]

    def part(self, name: str, offset: int, size: int) -> "Blob":
        """A stretch of this one."""
        return Blob(f"{self.name}: {name}", self._kept, self._offset + offset, size, self._path,
                    self._most)

    def in_file(self) -> Optional[Tuple[str, int]]:
        """The path of the file that has these bytes as they are read, and where they begin there;
        None where they are compressed, or in a temporary file."""
        if self._path is None or self.is_compressed():
            return None
        return self._path, self._offset

    def raw(self) -> BinaryIO:
        """A stream of the bytes as they stand."""
        stretch = _Stretch(self._kept, self._offset, self.size)
        return cast(BinaryIO, io.BufferedReader(stretch, 1 << 16))

    def is_compressed(self) -> bool:
        """Whether the bytes begin as one of the compressed forms does."""
        return self._in_form() is not None

    def _in_form(self) -> Optional[str]:
        if not self._asked:
            with self.raw() as stream:
                self._form = form_of(stream.read(6))
            self._asked = True
        return self._form

    def plain(self) -> BinaryIO:
        """A stream of the bytes, decompressed where they are compressed."""
        form = self._in_form()
        if form is None:
            return self.raw()
        unpacked = _Bounded(unpacking(form, self.raw(), shown(self.name)), self._bound(),
                            shown(self.name))
        return cast(BinaryIO, io.BufferedReader(unpacked, 1 << 16))

    def _bound(self) -> int:
        """How many bytes may be unpacked."""
        if self._most is not None:
            return self._most
        return min(limits.UNPACKED_MOST, max(limits.UNPACKED_LEAST, limits.GROWTH * self.size))

    def unpacked(self) -> "Blob":
        """A blob of the decompressed bytes, in a temporary file without a name."""
        with reading(self.name), self.plain() as stream:
            return Blob.of_stream(self.name, stream, self._most)



class _Stretch(io.RawIOBase):
    """Reads a stretch of a file, whoever else reads the file meanwhile."""

    def __init__(self, kept: _Kept, offset: int, size: int) -> None:
        self._kept = kept
        self._offset = offset
        self._size = size
        self._place = 0

    def readable(self) -> bool:
        return True

    def seekable(self) -> bool:
        return True

    def readinto(self, buffer: "bytearray") -> int:  # type: ignore[override]
        count = max(0, min(len(buffer), self._size - self._place))
        data = os.pread(self._kept.descriptor, count, self._offset + self._place)
        buffer[:len(data)] = data
        self._place += len(data)
        return len(data)

    def seek(self, offset: int, whence: int = os.SEEK_SET) -> int:
        base = {os.SEEK_SET: 0, os.SEEK_CUR: self._place, os.SEEK_END: self._size}[whence]
        self._place = base + offset
        return self._place

    def tell(self) -> int:
        return self._place


class _Bounded(io.RawIOBase):
    """What is unpacked, up to a bound, behind which it is refused."""

    def __init__(self, stream: io.RawIOBase, most: int, name: str) -> None:
        self._stream = stream
        self._most = most
        self._name = name
        self._count = 0

    def readable(self) -> bool:
        return True

    def readinto(self, buffer: "bytearray") -> int:  # type: ignore[override]
        count = self._stream.readinto(buffer) or 0
        self._count += count
        if self._count > self._most:
            raise Refused(f"{self._name}: more than {self._most:,} bytes are in it when it is "
                          "unpacked (--unpack-limit)")
        return count

    def close(self) -> None:
        self._stream.close()
        super().close()


def skip(stream: BinaryIO, count: int) -> None:
    """Goes so many bytes forward."""
    if isinstance(stream, io.BufferedReader) and isinstance(stream.raw, _Stretch):
        stream.seek(count, os.SEEK_CUR)
        return
    while count > 0:
        got = len(stream.read(min(count, _CHUNK)))
        if got == 0:
            raise EOFError("it ends too early")
        count -= got
