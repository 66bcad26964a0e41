"""Files of which there is little to say, written as they are read.

Most files of a tree have one name, no attributes and few bytes. They go this short way, by as few
calls as can be; all else is handed back.
"""

import os
import stat
from typing import Iterator, List, Optional, Set, Tuple

from . import limits
from .descriptors import FILE_FLAGS, Identity
from .objects import PIECE
from .writing import LayerWriter, entry_head, is_plain, mode_and_owner, time_line

_LONGEST = "x" * limits.NAME_BYTES
Entries = Iterator["os.DirEntry[str]"]


def _none(_: int) -> List[str]:
    return []


class PlainFiles:
    """Writes plain files of at most `most` bytes into a layer, with their times or without. What
    is in `skip` isn't plain."""

    def __init__(self, layer: LayerWriter, times: bool, most: int, skip: Set[Identity]) -> None:
        self._layer = layer
        self._times = times
        self._most = min(most, PIECE)
        self._skip = {inode for _, inode in skip}
        self._attributes = getattr(os, "listxattr", _none)

    def write(self, entries: Entries, directory: int, base: str) -> Optional["os.DirEntry[str]"]:
        """Writes plain files of an open directory up to the next entry that is none, and returns
        that; None at the end. `base` is the directory's path and a `/`."""
        if limits.path_fault(base + _LONGEST) is not None:
            return next(entries, None)
        head = entry_head(base)
        for entry in entries:
            name = entry.name
            if not entry.is_file(follow_symlinks=False) or not is_plain(name):
                return entry
            said = self._said(name, directory)
            if said is None:
                return entry
            lines, data = said
            self._layer.plain_file(b'%b%b"\nkind = "file"\n%b' % (head, name.encode(), lines), data)
        return None

    def _said(self, name: str, directory: int) -> Optional[Tuple[bytes, bytes]]:
        """The lines of a file's entry behind its path and kind, and its bytes; None where it isn't
        plain, or can't be read."""
        try:
            descriptor = os.open(name, FILE_FLAGS, dir_fd=directory)
        except OSError:
            return None
        try:
            status = os.fstat(descriptor)
            size = status.st_size
            if (status.st_nlink != 1 or size > self._most or status.st_ino in self._skip
                    or not stat.S_ISREG(status.st_mode) or self._attributes(descriptor)):
                return None
            data = os.read(descriptor, size + 1)
        except OSError as error:
            if error.errno in limits.NO_ATTRIBUTES:
                self._attributes = _none
            return None
        finally:
            os.close(descriptor)
        return (self._lines(status), data) if len(data) == size else None

    def _lines(self, status: os.stat_result) -> bytes:
        """The lines that say mode, owner and time."""
        lines = mode_and_owner(status.st_mode, status.st_uid, status.st_gid)
        return lines + time_line(status.st_mtime_ns) if self._times else lines
