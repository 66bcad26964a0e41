"""Trees that can be compared: what stands at which path, and the bytes of files."""

import os
import stat
from typing import (Dict, Hashable, Iterable, Iterator, List, NamedTuple, Optional, Sequence, Tuple,
                    Union)

DIRECTORY = "dir"
FILE = "file"
SYMLINK = "symlink"
FIFO, SOCKET, CHARACTER, BLOCK = "fifo", "socket", "character device", "block device"
SPECIAL = {"p": FIFO, "s": SOCKET, "c": CHARACTER, "b": BLOCK}

Key = Tuple[bytes, ...]


class Entry(NamedTuple):
    """What stands at a path.

    Paths begin with `/`; bytes of names and targets that aren't UTF-8 are written as
    `os.fsdecode` does. `links` is the count of names that is shown of a file or symbolic link.
    Entries with the same `same` are names of one object; None says nothing. `mtime` is the time of
    the last change in nanoseconds, where it is known, and `told` the attribute that said it.
    """

    path: str
    kind: str
    mode: int = 0o755
    uid: int = 0
    gid: int = 0
    attrs: Tuple[Tuple[str, bytes], ...] = ()
    size: int = 0
    target: str = ""
    links: int = 1
    same: Optional[Hashable] = None
    device: int = 0
    mtime: Optional[int] = None
    told: Optional[bytes] = None

    def key(self) -> Key:
        """Its place in the order of a tree."""
        return key_of(self.path)


def raw_of(text: str) -> bytes:
    """The bytes of a path, name or target."""
    return text.encode("utf-8", "surrogateescape")


def key_of(path: str) -> Key:
    """The place of a path in the order of a tree: a directory before what is in it, names by
    their bytes."""
    return tuple(raw_of(name) for name in path.split("/") if name)


def parent_of(path: str) -> str:
    """The directory that a path other than the root is in."""
    return path.rpartition("/")[0] or "/"


def name_of(path: str) -> str:
    """The last name of a path."""
    return path.rpartition("/")[2]


def path_in(directory: str, name: str) -> str:
    """The path of a name in a directory."""
    return f"/{name}" if directory == "/" else f"{directory}/{name}"


class Folder:
    """A directory of a tree, by which its names are found; `entry` is what stands at its path.
    `has_several` says of a root whether anything in the tree may have several names."""

    __slots__ = ("path", "entry", "has_several")

    def __init__(self, path: str, entry: Optional[Entry] = None) -> None:
        self.path = path
        self.entry = entry
        self.has_several = False

    def names(self) -> Sequence[str]:
        """The names in it, by their bytes."""
        raise NotImplementedError

    def has(self, name: str) -> bool:
        """Whether a name is in it."""
        raise NotImplementedError

    def at(self, name: str) -> "Found":
        """What stands at a name."""
        raise NotImplementedError


Found = Union[Folder, Entry, None]


class Tree:
    """A tree of directories, files and symbolic links."""

    def entries(self) -> Iterable[Entry]:
        """What stands in it, the root too, in any order."""
        raise NotImplementedError

    def read(self, entry: Entry) -> bytes:
        """The bytes of a file of this tree."""
        raise NotImplementedError

    def pieces(self, entry: Entry) -> Iterator[bytes]:
        """The bytes of a file, piece by piece; of any other object none."""
        if entry.kind == FILE:
            yield self.read(entry)

    def place(self, entry: Entry) -> Optional[Hashable]:
        """Where the bytes of a file are: the same place has the same ones. None says nothing."""
        return None

    def top(self) -> Optional[Folder]:
        """The root, where directories lead from one to the next, so that few entries are held at
        once; None where all have to be asked for."""
        return None


class MemoryTree(Tree):
    """A tree that is said entry by entry; a root as roots are by default unless one is said."""

    def __init__(self, entries: Iterable[Entry], data: Optional[Dict[str, bytes]] = None) -> None:
        self._data = dict(data or {})
        self._entries = {"/": Entry("/", DIRECTORY)}
        for entry in entries:
            size = len(self._data.get(entry.path, b""))
            self._entries[entry.path] = entry._replace(size=size) if entry.kind == FILE else entry

    def entries(self) -> Iterable[Entry]:
        return self._entries.values()

    def read(self, entry: Entry) -> bytes:
        return self._data.get(entry.path, b"")


class DirectoryTree(Tree):
    """A directory of the file system with its user attributes; a mount of the kernel's, say.

    What is no directory, file or symbolic link is passed over."""

    _KINDS = {stat.S_IFDIR: DIRECTORY, stat.S_IFREG: FILE, stat.S_IFLNK: SYMLINK}

    def __init__(self, path: str) -> None:
        self._path = os.fsencode(path)

    def entries(self) -> Iterator[Entry]:
        todo = ["/"]
        while todo:
            path = todo.pop()
            entry = self._entry(path)
            if entry is None:
                continue
            yield entry
            if entry.kind == DIRECTORY:
                todo += [os.path.join(path, raw.decode("utf-8", "surrogateescape"))
                         for raw in os.listdir(self._raw(path))]

    def read(self, entry: Entry) -> bytes:
        with open(self._raw(entry.path), "rb") as stream:
            return stream.read()

    def _raw(self, path: str) -> bytes:
        return self._path + raw_of(path)

    def _entry(self, path: str) -> Optional[Entry]:
        raw = self._raw(path)
        try:
            status = os.lstat(raw)
        except FileNotFoundError:
            # a whiteout, which the kernel lists in a directory of one layer alone
            return None
        kind = self._KINDS.get(stat.S_IFMT(status.st_mode))
        if kind is None:
            return None
        entry = Entry(path, kind, stat.S_IMODE(status.st_mode), status.st_uid, status.st_gid,
                      self._attributes(raw, kind))
        if kind == DIRECTORY:
            return entry
        same = (status.st_dev, status.st_ino) if status.st_nlink > 1 else None
        entry = entry._replace(links=status.st_nlink, same=same)
        if kind == SYMLINK:
            return entry._replace(target=os.readlink(raw).decode("utf-8", "surrogateescape"))
        return entry._replace(size=status.st_size)

    @staticmethod
    def _attributes(raw: bytes, kind: str) -> Tuple[Tuple[str, bytes], ...]:
        if kind == SYMLINK or not hasattr(os, "listxattr"):
            return ()
        names: List[str] = [name for name in os.listxattr(raw) if name.startswith("user.")]
        return tuple((name, os.getxattr(raw, name)) for name in sorted(names))
