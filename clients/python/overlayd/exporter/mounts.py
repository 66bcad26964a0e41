"""A mount as a tree, read by a client of `overlayd serve`."""

import errno
import os
import stat
from typing import Iterator, List, Tuple

from ..client import Client
from ..frames import Stat
from ..importer.limits import FILE_LIMIT_MOST, NAME_BYTES, PATH_BYTES
from ..importer.objects import PIECE
from ..importer.telling import shown
from ..pipeline import Pending
from .described import LinkTimes
from .same_files import SameFiles
from .trees import DIRECTORY, FILE, SYMLINK, Entry, Tree, raw_of
from .unsayable import Unsayable

# How many names are asked about in one write, are listed at once, and are read in all.
_TOGETHER = 128
_LISTED_MOST = 1 << 20
_READ_MOST = 1 << 23


class MountTree(Tree):
    """What a mount shows. Each name takes some calls, and each call a place of the history.

    Which names lead to one file is told by watches of the client at slot 9, where it has none of
    its own; of symbolic links it isn't. Nobody should change the mount
    meanwhile; what goes away between two calls is passed over. What the server says is judged: a
    name that is none, a name twice, a file of more than `most` bytes or one that doesn't end are
    refused.
    """

    def __init__(self, client: Client, most: int = FILE_LIMIT_MOST) -> None:
        self._client = client
        self._most = most
        self._count = 0
        self._times = LinkTimes()

    def entries(self) -> Iterator[Entry]:
        for entry in self._described([("/", self._client.stat("/"))]):
            if entry.kind != DIRECTORY:
                raise Unsayable("/: the server says that the root is no directory")
            yield entry
        todo, several = ["/"], []
        while todo:
            directory = todo.pop()
            try:
                names = self._listed(directory)
            except FileNotFoundError:
                continue
            for first in range(0, len(names), _TOGETHER):
                paths = [os.path.join(directory, name)
                         for name in names[first:first + _TOGETHER]]
                for entry in self._described(self._found(paths)):
                    if entry.links > 1 and entry.kind not in (DIRECTORY, SYMLINK):
                        several.append(entry)
                        continue
                    yield entry
                    if entry.kind == DIRECTORY:
                        todo.append(entry.path)
        yield from SameFiles(self._client).told(several)

    def _listed(self, directory: str) -> List[str]:
        """The names of a directory, judged."""
        names: List[str] = []
        with self._client.open(directory, os.O_RDONLY | os.O_DIRECTORY) as listing:
            while True:
                more = listing.names()
                if not more:
                    break
                names += more
                if len(names) > _LISTED_MOST:
                    raise Unsayable(f"{shown(directory)}: more than {_LISTED_MOST:,} names")
        self._count += len(names)
        if self._count > _READ_MOST:
            raise Unsayable(f"more than {_READ_MOST:,} names in the mount")
        for name in names:
            _judge(directory, name)
        if len(set(names)) < len(names):
            raise Unsayable(f"{shown(directory)}: the server lists a name twice")
        return names

    def read(self, entry: Entry) -> bytes:
        return b"".join(self.pieces(entry))

    def pieces(self, entry: Entry) -> Iterator[bytes]:
        if entry.kind != FILE:
            return
        count = 0
        with self._client.open(entry.path) as file:
            while True:
                data = file.read(PIECE)
                count += len(data)
                if count > entry.size:
                    raise Unsayable(f"{shown(entry.path)}: it has more bytes than the server said")
                yield data
                if len(data) < PIECE:
                    break
        if count != entry.size:
            raise Unsayable(f"{shown(entry.path)}: it has fewer bytes than the server said")

    def _found(self, paths: List[str]) -> List[Tuple[str, Stat]]:
        with self._client.pipeline() as batch:
            pending = [batch.stat(path) for path in paths]
        return [(path, answer.result()) for path, answer in zip(paths, pending)
                if not _is_gone(answer)]

    def _described(self, found: List[Tuple[str, Stat]]) -> Iterator[Entry]:
        """The entries of objects, with the targets or the user attributes."""
        with self._client.pipeline() as batch:
            targets = {path: batch.readlink(path) for path, status in found
                       if stat.S_ISLNK(status.st_mode)}
            names = {path: batch.listxattr(path) for path, status in found
                     if not stat.S_ISLNK(status.st_mode)}
        with self._client.pipeline() as batch:
            values = {path: [(name, batch.getxattr(path, name)) for name in asked.result()]
                      for path, asked in names.items() if not _is_gone(asked)}
        for path, status in found:
            mode, links = stat.S_IMODE(status.st_mode), status.st_nlink
            plain = Entry(path, DIRECTORY, mode, status.st_uid, status.st_gid)
            if path in targets and not _is_gone(targets[path]):
                yield self._times.described(plain._replace(
                    kind=SYMLINK, target=targets[path].result(), links=links))
            elif path in values:
                attrs = tuple((name, value.result()) for name, value in values[path]
                              if not _is_gone(value))
                if stat.S_ISDIR(status.st_mode):
                    yield self._times.described(plain._replace(attrs=attrs))
                elif not 0 <= status.st_size <= self._most:
                    raise Unsayable(f"{shown(path)}: a file of {status.st_size:,} bytes, where the "
                                    f"manifest has {self._most:,} at most")
                else:
                    yield self._times.described(plain._replace(
                        kind=FILE, attrs=attrs, links=links, size=status.st_size))


def _judge(directory: str, name: str) -> None:
    """Refuses a name that no directory has, or that makes a path too long."""
    raw = raw_of(name)
    if not 0 < len(raw) <= NAME_BYTES or "/" in name or "\0" in name or name in (".", ".."):
        raise Unsayable(f"{shown(directory)}: the server lists a name that is none: {shown(name)}")
    if len(raw_of(directory)) + 1 + len(raw) > PATH_BYTES + 1:
        raise Unsayable(f"{shown(directory)}: a path of more than {PATH_BYTES:,} bytes")


def _is_gone(answer: "Pending[object]") -> bool:
    """Whether a call found nothing any more; what else is refused is raised by its result."""
    error = answer.exception()
    if isinstance(error, (FileNotFoundError, NotADirectoryError)):
        return True
    return isinstance(error, OSError) and error.errno == errno.ENODATA
