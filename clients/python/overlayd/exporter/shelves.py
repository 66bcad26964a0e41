"""Trees in little memory: their directories, and of each other object a few bytes."""

import marshal
from typing import Dict, Hashable, Iterable, List, Optional, Tuple, Union

from ..importer.meta import changed_at
from ..importer.telling import shown
from .trees import DIRECTORY, Entry, Folder, Found, name_of, parent_of, path_in, raw_of
from .unsayable import Unsayable


def packed(entry: Entry, place: Tuple[Hashable, ...] = ()) -> bytes:
    """A few bytes that say what an entry does, but for its path and what it is the same as, and
    the place of the file's bytes. Raises ValueError where they can't."""
    told: object = entry.told
    if told is not None and entry.mtime is not None and told == _usual(entry.mtime):
        told = True
    _, kind, mode, uid, gid, attrs, size, target, links, _, device, mtime, _ = entry
    return marshal.dumps((kind, mode, uid, gid, attrs, size, target, links, device, mtime, told,
                          place))


def unpacked(path: str, data: bytes) -> Entry:
    """The entry of a path that such bytes say."""
    (kind, mode, uid, gid, attrs, size, target, links, device, mtime, told,
     _) = marshal.loads(data)
    if told is True:
        told = _usual(mtime)
    return Entry(path, kind, mode, uid, gid, attrs, size, target, links, None, device, mtime, told)


def place_in(data: bytes) -> Tuple[Hashable, ...]:
    """The place that such bytes say."""
    place: Tuple[Hashable, ...] = marshal.loads(data)[-1]
    return place


def _usual(mtime: int) -> bytes:
    """The attribute that tells a time of most objects."""
    return changed_at(mtime).encode("ascii")


class Shelf(Folder):
    """A directory of which the entries were given one by one, in any order."""

    __slots__ = ("held",)

    def __init__(self, path: str, entry: Optional[Entry] = None) -> None:
        super().__init__(path, entry)
        self.held: Dict[str, Union[Shelf, Entry, bytes]] = {}

    def names(self) -> List[str]:
        return sorted(self.held, key=raw_of)

    def has(self, name: str) -> bool:
        return name in self.held

    def at(self, name: str) -> Found:
        found = self.held.get(name)
        return unpacked(path_in(self.path, name), found) if isinstance(found, bytes) else found


class Shelves:
    """All directories of a tree."""

    def __init__(self, entries: Iterable[Entry]) -> None:
        self.top = Shelf("/")
        self._folders: Dict[str, Shelf] = {"/": self.top}
        for entry in entries:
            self._hold(entry)

    def _hold(self, entry: Entry) -> None:
        """Keeps an entry; one that may have further names as it is, of most others a few bytes."""
        if entry.same is not None:
            self.top.has_several = True
        if entry.kind == DIRECTORY or entry.path in self._folders:
            self._folder(entry.path).entry = entry
            return
        held: Union[Entry, bytes] = entry
        if entry.same is None:
            try:
                held = packed(entry)
            except ValueError:
                pass
        self._folder(parent_of(entry.path)).held[name_of(entry.path)] = held

    def _folder(self, path: str) -> Shelf:
        """What holds the names below a path."""
        missing = []
        while path not in self._folders:
            missing.append(path)
            path = parent_of(path)
        found = self._folders[path]
        for path in reversed(missing):
            there = found.at(name_of(path))
            here = Shelf(path, there if isinstance(there, Entry) else None)
            found.held[name_of(path)] = self._folders[path] = found = here
        return found

    def judge(self) -> None:
        """Refuses what is below no directory, as no tree has it."""
        for path, folder in self._folders.items():
            if folder.held and (folder.entry is None or folder.entry.kind != DIRECTORY):
                below = path_in(path, next(iter(folder.held)))
                raise Unsayable(f"{shown(below)}: what is above it is no directory")
