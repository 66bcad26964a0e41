"""A file beside a manifest with the bytes that no other file has as they are read."""

import os
import tempfile
from typing import BinaryIO, Callable, Optional, Set, Tuple, cast

from .objects import ZEROS, Data, Long, Part

ENDING = ".bytes"


class Store:
    """Takes bytes one behind the other; `number` is that of the blob that it is. It appears under
    its name when it is whole."""

    def __init__(self, path: str, number: int) -> None:
        self.number = number
        self._path = path
        self._size = 0
        folder, name = os.path.split(path)
        descriptor, self._partial = tempfile.mkstemp(prefix=f".{name}.", suffix=".part",
                                                     dir=folder or ".")
        self._stream = cast(BinaryIO, os.fdopen(descriptor, "wb", buffering=1 << 20))

    def identities(self) -> Set[Tuple[int, int]]:
        """The unfinished file, which no source should be read to have."""
        status = os.fstat(self._stream.fileno())
        return {(status.st_dev, status.st_ino)}

    def keep(self, data: Data) -> Data:
        """Where the bytes are then; those of a part stay where they are, and zeros are none."""
        if isinstance(data, bytes):
            return self.keep_bytes(data) or data
        if isinstance(data, Part):
            return data
        return self._keep_long(data) if data.copy is None else self._copy_long(data, data.copy)

    def keep_bytes(self, data: bytes) -> Optional[Part]:
        """Where the bytes are then; None of zeros, which aren't kept."""
        if not data or not data[0] and not data.strip(b"\0"):
            return None
        self._stream.write(data)
        return self._part(len(data))

    def _copy_long(self, data: Long, copy: Callable[[int, int], bool]) -> Data:
        """What the system itself copies."""
        self._stream.flush()
        if not copy(self._stream.fileno(), self._size):
            return data
        os.ftruncate(self._stream.fileno(), self._size + data.size)
        self._stream.seek(self._size + data.size)
        return self._part(data.size)

    def _keep_long(self, data: Long) -> Data:
        """The holes of a sparse file are holes here too; one of zeros alone isn't here."""
        count, is_zero = 0, True
        for piece in data.pieces():
            if piece is ZEROS:
                self._stream.seek(len(piece), os.SEEK_CUR)
            else:
                is_zero = is_zero and not piece.strip(b"\0")
                self._stream.write(piece)
            count += len(piece)
        self._stream.flush()
        os.ftruncate(self._stream.fileno(), self._size + (0 if is_zero else count))
        if is_zero:
            self._stream.seek(self._size)
            return data
        return self._part(count)

    def _part(self, count: int) -> Part:
        self._size += count
        return Part(self.number, self._size - count, count)

    def finish(self) -> None:
        """All is there."""
        mask = os.umask(0)
        os.umask(mask)
        os.fchmod(self._stream.fileno(), 0o666 & ~mask)
        self._stream.close()
        os.replace(self._partial, self._path)

    def drop(self) -> None:
        """Nothing of it stays."""
        self._stream.close()
        if os.path.exists(self._partial):
            os.unlink(self._partial)
