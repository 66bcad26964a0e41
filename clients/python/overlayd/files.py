"""What `Client.open` gives: a file or directory of the mount, as a raw file of the module `io`."""

from __future__ import annotations

import io
import os
from typing import TYPE_CHECKING, Any, List, Optional, TypeVar

from . import calls
from .calls import READ_LIMIT, Call, Path
from .errors import BadReply, Disconnected
from .frames import Stat

if TYPE_CHECKING:
    from .client import Client

__all__ = ["File", "flags_of", "over", "wire_flags"]

T = TypeVar("T")

_ACCESS = os.O_RDONLY | os.O_WRONLY | os.O_RDWR
_WIRE = {os.O_CREAT: 4, os.O_EXCL: 8, os.O_TRUNC: 16, os.O_APPEND: 32, os.O_DIRECTORY: 64}
_UNKNOWN = 128

# They ask for what is so anyway: no program inherits a descriptor, and no link is followed.
_HELD = os.O_CLOEXEC | os.O_NOFOLLOW | getattr(os, "O_LARGEFILE", 0)


def wire_flags(flags: int) -> int:
    """The protocol's flags for flags of `os.open`; the server refuses those that it hasn't."""
    access = {os.O_RDONLY: 0, os.O_WRONLY: 1, os.O_RDWR: 2}.get(flags & _ACCESS, 3)
    rest = flags & ~_ACCESS & ~_HELD
    wire = access
    for flag, bit in _WIRE.items():
        if rest & flag == flag:
            wire |= bit
            rest &= ~flag
    return wire | (_UNKNOWN if rest else 0)


# As many bytes are read before the file's size is asked.
_UNASKED = 1 << 20

_MODES = {"r": os.O_RDONLY, "w": os.O_WRONLY | os.O_CREAT | os.O_TRUNC,
          "a": os.O_WRONLY | os.O_CREAT | os.O_APPEND, "x": os.O_WRONLY | os.O_CREAT | os.O_EXCL}


def flags_of(mode: str, buffering: int = -1, encoding: Optional[str] = None,
             errors: Optional[str] = None, newline: Optional[str] = None) -> int:
    """The flags of `os.open` for a mode of the built-in `open`; `ValueError` for no such mode."""
    kinds = [letter for letter in mode if letter in _MODES]
    if len(kinds) != 1 or len(set(mode)) != len(mode) or set(mode) - set("rwaxbt+"):
        raise ValueError(f"invalid mode: {mode!r}")
    if "b" in mode and "t" in mode:
        raise ValueError("can't have text and binary mode at once")
    if "b" in mode and (encoding, errors, newline) != (None, None, None):
        raise ValueError("binary mode doesn't take an encoding, errors or newline argument")
    if buffering == 0 and "b" not in mode:
        raise ValueError("can't have unbuffered text I/O")
    flags = _MODES[kinds[0]]
    return flags & ~_ACCESS | os.O_RDWR if "+" in mode else flags


def over(raw: File, mode: str, buffering: int, encoding: Optional[str], errors: Optional[str],
         newline: Optional[str]) -> Any:
    """What the built-in `open` puts over a raw file for this mode."""
    if buffering == 0:
        return raw
    size = buffering if buffering > 1 else READ_LIMIT
    if "a" in mode:
        raw.seek(0, os.SEEK_END)
    if "+" in mode:
        buffered: Any = io.BufferedRandom(raw, size)
    elif "r" in mode:
        buffered = io.BufferedReader(raw, size)
    else:
        buffered = io.BufferedWriter(raw, size)
    if "b" in mode:
        return buffered
    text = io.TextIOWrapper(buffered, encoding or "utf-8", errors, newline, buffering == 1)
    text.mode = mode  # type: ignore[misc]
    return text


class File(io.RawIOBase):
    """An open descriptor of a client, for bytes; `io.BufferedReader` and the like go over it.

    Closing it closes the descriptor, and so does leaving a `with` block. More than 65,536 bytes
    are read or written by several calls, between which other clients may have theirs.
    """

    def __init__(self, client: Client, descriptor: int, path: Path, flags: int) -> None:
        super().__init__()
        self._client = client
        self._descriptor = descriptor
        self._access = flags & _ACCESS
        self.name = path
        """The path by which it was opened."""

    def __repr__(self) -> str:
        state = " closed" if self.closed else ""
        return f"<overlayd.File{state} descriptor={self._descriptor} name={self.name!r}>"

    @property
    def descriptor(self) -> int:
        """The descriptor's number at the server; `ValueError` once the file is closed."""
        if self.closed:
            raise ValueError("I/O operation on closed file.")
        return self._descriptor

    def _call(self, call: Call[T]) -> T:
        return self._client.call(call.about(self.name))

    def readable(self) -> bool:
        """Whether it was opened for reading."""
        return self._access != os.O_WRONLY

    def writable(self) -> bool:
        """Whether it was opened for writing."""
        return self._access != os.O_RDONLY

    def seekable(self) -> bool:
        """True."""
        return True

    def read(self, size: Optional[int] = -1) -> bytes:
        """At most `size` bytes, fewer only at the end of the file; all without a size."""
        if size is None or size < 0:
            return self.readall()
        pieces: List[bytes] = []
        while True:
            wanted = min(size, READ_LIMIT)
            pieces.append(self._call(calls.read(self.descriptor, wanted)))
            size -= wanted
            if len(pieces[-1]) < wanted or not size:
                return b"".join(pieces)

    def readall(self) -> bytes:
        """All bytes from the place to the end of the file.

        A server that goes on for longer than it says that the file is, is `BadReply`.
        """
        pieces: List[bytes] = []
        size, times = _UNASKED, 0
        while True:
            pieces.append(self._call(calls.read(self.descriptor, READ_LIMIT)))
            if len(pieces[-1]) < READ_LIMIT:
                return b"".join(pieces)
            gathered = len(pieces) * READ_LIMIT
            if gathered > size:
                size = self.fstat().st_size
                # Once it may be that the file was cut between a read and this.
                times = times + 1 if gathered > size + READ_LIMIT else 0
                if times > 1:
                    raise self._client._bad("the server sent more of a file than it has")

    def readinto(self, buffer: Any) -> int:
        """Fills a buffer from the place, as far as the file goes; how many bytes came."""
        view = memoryview(buffer).cast("B")
        data = self.read(len(view))
        view[:len(data)] = data
        return len(data)

    def write(self, data: Any) -> int:
        """Writes at the place, or at the end with O_APPEND; how many bytes were written.

        They are fewer than there are where the file meets the size limit, or a later piece of
        many bytes is refused; the next `write` then tells why.
        """
        view = memoryview(data).cast("B")
        written = 0
        while True:
            piece = view[written:written + READ_LIMIT]
            try:
                count = self._call(calls.write(self.descriptor, piece))
            except Disconnected:
                raise
            except OSError:
                if not written:
                    raise
                return written
            written += count
            if count < len(piece) or written >= len(view):
                return written

    def seek(self, offset: int, whence: int = os.SEEK_SET) -> int:
        """Moves the place, and tells it; in a directory only to 0, which lets its listing go."""
        return self._call(calls.seek(self.descriptor, offset, whence))

    def truncate(self, size: Optional[int] = None) -> int:
        """Cuts the file to a size, or fills it with zero bytes; the size, by default the place."""
        wanted = self.tell() if size is None else size
        self._call(calls.truncate(self.descriptor, wanted))
        return wanted

    def fstat(self) -> Stat:
        """What the descriptor has open, also where it has no name any more."""
        return self._call(calls.fstat(self.descriptor))

    def names(self, count: int = 256) -> List[str]:
        """The next names of a directory, at most 256; none at its end.

        The listing is made by the first call, and stays as it is until `seek(0)`.
        """
        return self._call(calls.names(self.descriptor, count))

    def close(self) -> None:
        """Closes the descriptor. Where the client is detached or lost, the server has done it."""
        if not self.closed:
            self.forget()
            self._client.close_descriptor(self._descriptor, self.name)

    def forget(self) -> None:
        """Marks the file as closed, without a call: for who closes its descriptor otherwise."""
        super().close()
