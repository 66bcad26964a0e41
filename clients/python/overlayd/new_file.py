"""A file that takes the place of another when it is whole and on the disk."""

from __future__ import annotations

import errno
import os
import stat
import tempfile
from typing import Any, Union


class NewFile:
    """A new file beside a path, whose place it takes by `keep`; else nothing of it stays.

    What stands at the path and is no regular file, such as a link, stays: `FileExistsError`.
    """

    def __init__(self, path: Union[str, os.PathLike[str]]) -> None:
        self._path = os.path.abspath(os.fspath(path))
        self._folder, name = os.path.split(self._path)
        self._check()
        descriptor, self._part = tempfile.mkstemp(
            prefix=f".{name}.", suffix=".part", dir=self._folder)
        self.stream = os.fdopen(descriptor, "wb", buffering=1 << 20)

    def __enter__(self) -> NewFile:
        return self

    def __exit__(self, kind: Any, error: Any, trace: Any) -> None:
        try:
            self.stream.close()
        finally:
            if self._part:
                os.unlink(self._part)

    def sync(self) -> None:
        """Has the disk keep its bytes."""
        self.stream.flush()
        os.fsync(self.stream.fileno())

    def keep(self) -> None:
        """It takes the place, for good."""
        self._check()
        os.replace(self._part, self._path)
        self._part = ""
        folder = os.open(self._folder, os.O_RDONLY | os.O_DIRECTORY)
        try:
            os.fsync(folder)
        finally:
            os.close(folder)

    def _check(self) -> None:
        try:
            found = os.lstat(self._path)
        except FileNotFoundError:
            return
        if not stat.S_ISREG(found.st_mode):
            raise FileExistsError(errno.EEXIST, "is there and no regular file", self._path)
