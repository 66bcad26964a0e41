"""Compressed bytes, unpacked as they are read: gzip, bzip2, xz, and zstd by Python or `zstd`."""

import bz2
import importlib
import io
import lzma
import shutil
import subprocess
import threading
import zlib
from typing import Any, BinaryIO, Callable, Dict, Optional

from .telling import Refused

_MAGIC = {b"\x1f\x8b": "gzip", b"BZh": "bzip2", b"\xfd7zXZ\0": "xz", b"\x28\xb5\x2f\xfd": "zstd"}
_CHUNK = 1 << 16
# What a dictionary may take: xz -9 needs 65 MiB.
_XZ_MEMORY = 1 << 27


class _Gzip:
    """A member of a gzip file, with the interface of the other two."""

    def __init__(self) -> None:
        self._whole = zlib.decompressobj(31)

    @property
    def eof(self) -> bool:
        """Whether the member is at its end."""
        return self._whole.eof

    @property
    def unused_data(self) -> bytes:
        """What follows the member."""
        return self._whole.unused_data

    @property
    def needs_input(self) -> bool:
        """Whether it has unpacked all that it was given."""
        return not self._whole.unconsumed_tail

    def decompress(self, data: bytes, most: int) -> bytes:
        """At most so many bytes of what it was given."""
        return self._whole.decompress(self._whole.unconsumed_tail + data, most)


_MAKERS: Dict[str, Callable[[], Any]] = {
    "gzip": _Gzip,
    "bzip2": bz2.BZ2Decompressor,
    "xz": lambda: lzma.LZMADecompressor(lzma.FORMAT_XZ, memlimit=_XZ_MEMORY),
}
try:
    _MAKERS["zstd"] = importlib.import_module("compression.zstd").ZstdDecompressor
except ImportError:
    pass


def form_of(head: bytes) -> Optional[str]:
    """The compressed form that begins so."""
    for magic, form in _MAGIC.items():
        if head.startswith(magic):
            return form
    return None


def unpacking(form: str, stream: BinaryIO, name: str) -> io.RawIOBase:
    """What a stream of a compressed form has, unpacked."""
    if form in _MAKERS:
        return _Unpacking(stream, form)
    program = shutil.which(form)
    if program is None:
        raise Refused(f"{name}: compressed by {form}, which this Python can't read, and there is "
                      f"no program {form}")
    return _ByProgram(program, stream, name)


class _Unpacking(io.RawIOBase):
    """Unpacks by Python; further members follow, and zeros may at the end."""

    def __init__(self, stream: BinaryIO, form: str) -> None:
        self._stream = stream
        self._form = form
        self._one = _MAKERS[form]()
        self._given = b""
        self._has_ended = False

    def readable(self) -> bool:
        return True

    def readinto(self, buffer: "bytearray") -> int:  # type: ignore[override]
        while not self._has_ended:
            data = self._next(len(buffer))
            if data:
                buffer[:len(data)] = data
                return len(data)
        return 0

    def _next(self, most: int) -> bytes:
        """Some bytes; maybe none yet."""
        if self._one.eof:
            self._follow(self._one.unused_data)
            return b""
        more = b""
        if self._one.needs_input:
            more = self._given or self._stream.read(_CHUNK)
            self._given = b""
            if not more:
                raise EOFError("it ends too early")
        data: bytes = self._one.decompress(more, most)
        return data

    def _follow(self, rest: bytes) -> None:
        """What follows a member: another one, or zeros to the end."""
        rest = rest.lstrip(b"\0")
        while not rest:
            more = self._stream.read(_CHUNK)
            if not more:
                self._has_ended = True
                return
            rest = more.lstrip(b"\0")
        if len(rest) < 6:
            rest += self._stream.read(6)
        if form_of(rest) != self._form:
            raise EOFError("something else follows what is compressed")
        self._one, self._given = _MAKERS[self._form](), rest

    def close(self) -> None:
        self._stream.close()
        super().close()


class _ByProgram(io.RawIOBase):
    """Unpacks by a program that reads standard input and writes standard output."""

    def __init__(self, program: str, stream: BinaryIO, name: str) -> None:
        self._name = name
        self._stream = stream
        self._process = subprocess.Popen(
            [program, "-dcq"], stdin=subprocess.PIPE, stdout=subprocess.PIPE,
            stderr=subprocess.DEVNULL)
        self._feeder = threading.Thread(target=self._feed, daemon=True)
        self._feeder.start()

    def _feed(self) -> None:
        assert self._process.stdin is not None
        try:
            with self._process.stdin as to:
                shutil.copyfileobj(self._stream, to, _CHUNK)
        except (OSError, ValueError):
            pass

    def readable(self) -> bool:
        return True

    def readinto(self, buffer: "bytearray") -> int:  # type: ignore[override]
        assert self._process.stdout is not None
        data = self._process.stdout.read(min(len(buffer), _CHUNK))
        if not data and self._process.wait() != 0:
            raise EOFError("the program that unpacks it says that it is broken")
        buffer[:len(data)] = data
        return len(data)

    def close(self) -> None:
        if not self.closed:
            assert self._process.stdout is not None
            self._process.kill()
            self._process.stdout.close()
            self._process.wait()
            self._feeder.join()
            self._stream.close()
        super().close()
