"""Where a command writes: files that appear when they are whole."""

import contextlib
import gc
import os
import shutil
import signal
import sys
import tempfile
import threading
from typing import BinaryIO, Iterator, Optional, Set, cast

from .descriptors import Identity
from .telling import PROGRAM


class Output:
    """A file that appears when it is whole; or a stream, which with `waits` gets the manifest when
    it is whole."""

    def __init__(self, path: str, waits: bool) -> None:
        self._path = path
        self._partial = ""
        self._final: Optional[BinaryIO] = None
        if path == "-":
            self._final = cast(BinaryIO, sys.stdout.buffer)
        elif os.path.exists(path) and not os.path.isfile(path):
            self._final = open(path, "wb")
        if self._final is None:
            self.stream = self._beside()
        elif waits:
            self.stream = cast(BinaryIO, tempfile.TemporaryFile(prefix=f"{PROGRAM}-"))
        else:
            self.stream = self._final

    def _beside(self) -> BinaryIO:
        """A file with another name in the same folder."""
        folder, name = os.path.split(self._path)
        try:
            descriptor, self._partial = tempfile.mkstemp(
                prefix=f".{name}.", suffix=".part", dir=folder or ".")
        except OSError as error:
            raise OSError(error.errno, error.strerror, self._path) from None
        return os.fdopen(descriptor, "wb", buffering=1 << 20)

    def identities(self) -> Set[Identity]:
        """The unfinished file, which no source should be read to have."""
        if not self._partial:
            return set()
        status = os.fstat(self.stream.fileno())
        return {(status.st_dev, status.st_ino)}

    def is_beside(self) -> bool:
        """Whether it is a file, beside which another one may be."""
        return self._final is None

    def keep(self) -> None:
        """The manifest is whole."""
        if self._final is None:
            mask = os.umask(0)
            os.umask(mask)
            os.fchmod(self.stream.fileno(), 0o666 & ~mask)
            self.stream.close()
            os.replace(self._partial, self._path)
            return
        if self.stream is not self._final:
            self.stream.seek(0)
            shutil.copyfileobj(self.stream, self._final, 1 << 20)
        self._final.flush()

    def drop(self) -> None:
        """It isn't; nothing of it stays."""
        if self._partial:
            self.stream.close()
            os.unlink(self._partial)


@contextlib.contextmanager
def unwound_by_sigterm() -> Iterator[None]:
    """Lets SIGTERM end the process so that unfinished files go."""
    if threading.current_thread() is not threading.main_thread():
        yield
        return
    before = signal.signal(signal.SIGTERM, lambda number, frame: sys.exit(128 + number))
    try:
        yield
    finally:
        signal.signal(signal.SIGTERM, before)


@contextlib.contextmanager
def without_collection() -> Iterator[None]:
    """No looking for cycles among objects of which nearly all are kept to the end."""
    was_enabled = gc.isenabled()
    gc.disable()
    try:
        yield
    finally:
        if was_enabled:
            gc.enable()
