"""A mount in this process, by the engine's C library: no server, no socket.

    import overlayd

    with overlayd.mount(open("mount.toml", "rb").read()) as mounted, mounted.attach() as client:
        print(client.listdir("/"))
        mounted.save("upper.toml")
"""

from __future__ import annotations

import ctypes
import os
import struct
import threading
from typing import Any, Optional, Sequence, Tuple, Union

from .client import Client
from .errors import refusal
from .new_file import NewFile

__all__ = ["Mount", "mount"]

_LIBRARY = "liboverlayd.so.0"
_VERSION = 0x00010000
_REPLY_MOST = 65_807
_TEXT_MOST = 4_096
_DETACH = b"\x00\x00\x00\x01\x1a"
_NOT_TAKEN = b"\x00\x00\x00\x02\x02\x0c"
_PIECE = 1 << 20
_OK, _NOT_MOUNTED, _NO_MEMORY, _FULL, _FAULT, _NO_UPPER, _UPPER_FAULT = 0, 2, 7, 8, 9, 14, 15
_ENFILE, _ENOMEM = 23, 12


class _Handle(ctypes.Structure):
    _fields_ = [("at", ctypes.c_void_p)]


def _loaded(name: Optional[str]) -> Any:
    """The library at a path, or that of the environment's OVERLAYD_LIBRARY, or the system's."""
    library = ctypes.CDLL(name or os.environ.get("OVERLAYD_LIBRARY") or _LIBRARY)
    size, handle = ctypes.c_size_t, ctypes.POINTER(_Handle)
    sizes, numbers = ctypes.POINTER(size), ctypes.POINTER(ctypes.c_uint64)
    # What no argument is written to is bytes, which Python doesn't copy.
    bytes_of = [ctypes.c_char_p, size]
    mounting = [*bytes_of, *bytes_of, sizes, size, ctypes.c_char_p, *bytes_of, sizes]
    arguments = {
        "ovl_mount_manifest": [handle, *mounting],
        "ovl_mount_upper": [handle, *bytes_of, *mounting],
        "ovl_unmount": [handle],
        "ovl_attach": [handle, numbers],
        "ovl_detach": [handle, ctypes.c_uint64, numbers],
        "ovl_call": [handle, ctypes.c_uint64, *bytes_of, *bytes_of, sizes],
        "ovl_save": [handle, sizes, numbers],
        "ovl_saved": [handle, size, *bytes_of, sizes],
    }
    for function, types in arguments.items():
        getattr(library, function).argtypes = types
        getattr(library, function).restype = ctypes.c_int32
    library.ovl_unmount.restype = None
    library.ovl_version.restype = ctypes.c_uint32
    if library.ovl_version() >> 16 != _VERSION >> 16:
        raise OSError(f"{_LIBRARY} has version {library.ovl_version():#x}, not {_VERSION:#x}")
    return library


class Mount:
    """A mount of this process; at the end of its block it is let go, with all its clients.

    Threads may share it, and its clients: one lock is held for each call.
    """

    def __init__(self, manifest: Union[bytes, str], blobs: Sequence[bytes] = (), *,
                 upper: Union[bytes, str, None] = None, library: Optional[str] = None) -> None:
        """Mounts what the text of a manifest tells, whose blobs have these bytes; with `upper`,
        what was saved takes the place of its upper.

        What is at fault is `ValueError`, with the text that the program has for it.
        """
        self._library = _loaded(library)
        self._lock, self._saving = threading.Lock(), threading.Lock()
        self._handle = _Handle()
        self._room = ctypes.create_string_buffer(_REPLY_MOST)
        lengths = (ctypes.c_size_t * max(1, len(blobs)))(*map(len, blobs))
        joined, fault = b"".join(blobs), ctypes.create_string_buffer(_TEXT_MOST)
        texts = [text.encode() if isinstance(text, str) else bytes(text)
                 for text in (upper, manifest) if text is not None]
        length = ctypes.c_size_t()
        made = self._library.ovl_mount_manifest if upper is None else self._library.ovl_mount_upper
        status = made(
            self._handle, *[word for text in texts for word in (text, len(text))],
            joined, len(joined), lengths, len(blobs), os.urandom(16), fault, _TEXT_MOST, length)
        if status in (_FAULT, _UPPER_FAULT):
            told = fault.raw[:min(length.value, _TEXT_MOST)].decode("utf-8", "replace")
            raise ValueError(told if status == _FAULT else f"upper: {told}")
        if status != _OK:
            raise MemoryError("no memory for a mount")

    def __enter__(self) -> Mount:
        return self

    def __exit__(self, kind: Any, error: Any, trace: Any) -> None:
        self.close()

    def __del__(self) -> None:
        if hasattr(self, "_handle"):
            self.close()

    def close(self) -> None:
        """Lets the mount go; its clients are of no use from then on."""
        with self._lock:
            self._library.ovl_unmount(self._handle)

    def attach(self) -> Client:
        """A client of the mount, which makes its calls in this process."""
        number = ctypes.c_uint64()
        with self._lock:
            status = self._library.ovl_attach(self._handle, number)
        if status == _NOT_MOUNTED:
            raise ValueError("the mount is closed")
        if status != _OK:
            raise refusal(_ENFILE if status == _FULL else _ENOMEM, None, ())
        return Client.from_socket(_Link(self, number.value))  # type: ignore[arg-type]

    def save(self, path: Union[str, os.PathLike[str]]) -> int:
        """Writes the upper to a file, as `overlayd serve --save` does: how many objects no manifest
        can say, which aren't in it.

        A new file takes that name once all of it is on the disk. What stands there and is no
        regular file stays: `FileExistsError`. A mount without an upper is `ValueError`.
        """
        with self._saving:
            length, left_out = self._save()
            with NewFile(path) as new:
                for at in range(0, length, _PIECE):
                    new.stream.write(self._saved(at))
                new.sync()
                new.keep()
        return left_out

    def _save(self) -> Tuple[int, int]:
        """Has the library keep the text of the upper: its length, and what isn't in it."""
        length, left_out = ctypes.c_size_t(), ctypes.c_uint64()
        with self._lock:
            status = self._library.ovl_save(self._handle, length, left_out)
        if status in (_NOT_MOUNTED, _NO_UPPER):
            raise ValueError("the mount is closed" if status == _NOT_MOUNTED
                             else "the mount has no upper layer")
        if status != _OK:
            raise MemoryError("no memory for the text of the upper")
        return length.value, left_out.value

    def _saved(self, at: int) -> bytes:
        """A piece of that text."""
        room, count = ctypes.create_string_buffer(_PIECE), ctypes.c_size_t()
        with self._lock:
            status = self._library.ovl_saved(self._handle, at, room, _PIECE, count)
        if status != _OK:
            raise ValueError("the mount is closed")
        return room.raw[:count.value]

    def reply_to(self, client: int, frame: bytes) -> Optional[bytes]:
        """The frame of the reply to a client's request; None where there can be none."""
        if frame == _DETACH:
            return self._detached(client)
        length = ctypes.c_size_t()
        with self._lock:
            status = self._library.ovl_call(
                self._handle, client, frame, len(frame), self._room, _REPLY_MOST, length)
            if status == _OK:
                return ctypes.string_at(self._room, length.value)
        return _NOT_TAKEN if status == _NO_MEMORY else None

    def _detached(self, client: int) -> Optional[bytes]:
        place = ctypes.c_uint64()
        with self._lock:
            status = self._library.ovl_detach(self._handle, client, place)
        return struct.pack(">IBQ", 9, 0, place.value) if status == _OK else None


class _Link:
    """What a `Client` has in the place of a connected socket: what is sent is answered at once."""

    def __init__(self, mounted: Mount, client: int) -> None:
        self._mount, self._client = mounted, client
        self._sent, self._replies = bytearray(), bytearray()
        self._open = True

    def setblocking(self, flag: bool) -> None:
        """A link never waits."""

    def send(self, piece: bytes) -> int:
        """Takes in the bytes of requests, and makes the calls of those that are whole."""
        if not self._open:
            raise BrokenPipeError
        self._sent += piece
        while len(self._sent) >= 4:
            end = 4 + int.from_bytes(self._sent[:4], "big")
            if len(self._sent) < end:
                break
            reply = self._mount.reply_to(self._client, bytes(self._sent[:end]))
            del self._sent[:end]
            if reply is None:
                self._open = False
                break
            self._replies += reply
        return len(piece)

    def recv(self, count: int) -> bytes:
        """The next bytes of replies; none where the client is detached."""
        piece = bytes(self._replies[:count])
        del self._replies[:count]
        return piece

    def close(self) -> None:
        """Detaches the client, unless that is done."""
        if self._open:
            self._open = False
            self._mount.reply_to(self._client, _DETACH)


def mount(manifest: Union[bytes, str], blobs: Sequence[bytes] = (), *,
          upper: Union[bytes, str, None] = None, library: Optional[str] = None) -> Mount:
    """A mount in this process of what the text of a manifest tells, whose blobs have these bytes;
    it goes on with what was saved where `upper` is that text.

    The library is `liboverlayd.so.0`, or the one at the path `library`, or the one that the
    environment's OVERLAYD_LIBRARY names.
    """
    return Mount(manifest, blobs, upper=upper, library=library)
