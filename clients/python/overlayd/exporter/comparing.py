"""What one tree has that another hasn't, as a layer says it."""

from typing import Dict, Hashable, Iterator, List, NamedTuple, Optional, Sequence, Set, Tuple

from .shelves import Shelves
from .trees import DIRECTORY, FILE, SYMLINK, Entry, Folder, Found, Tree, path_in, raw_of


class Change(NamedTuple):
    """One name of the layer.

    Without an entry it is a whiteout. `opaque` says that nothing below shows in this directory.
    `link_to` is an earlier path of the same object. `is_same` says that the directory is as it is
    below, and stands here for what is in it; `covers`, that something stands below at its path.
    """

    path: str
    entry: Optional[Entry] = None
    opaque: bool = False
    link_to: Optional[str] = None
    is_same: bool = False
    covers: bool = False


class _Met(NamedTuple):
    """A path with what is shown there and what is below; `opaque` is of a directory that keeps no
    name of what it has below."""

    path: str
    entry: Optional[Entry]
    below: Optional[Entry]
    opaque: bool = False


class _Opened(NamedTuple):
    """A directory that is shown, the one below it, and the names that are still to be met."""

    here: Folder
    below: Optional[Folder]
    names: Iterator[str]


class _Comparison:
    """Compares a tree with the one below it, directory by directory."""

    def __init__(self, lower: Tree, mounted: Tree) -> None:
        self._lower = lower
        self._mounted = mounted
        self._below = lower.top() or Shelves(lower.entries()).top
        self._shown = mounted.top() or _judged(mounted)
        self._first: Dict[Hashable, str] = {}

    def changes(self) -> Iterator[Change]:
        """The names of the layer in the order of a tree."""
        objects = self._objects() if self._shown.has_several else set()
        # directories that are as they are below, and in which nothing was written yet
        waiting: List[Change] = []
        for met in self._met():
            while waiting and not _is_above(waiting[-1].path, met.path):
                waiting.pop()
            entry, below = met.entry, met.below
            if entry is None:
                change = Change(met.path)
            elif met.opaque or (entry.same in objects if entry.same is not None
                                else self._differs(entry, below)):
                change = Change(met.path, self._timed(entry, below), met.opaque,
                                self._earlier(entry), covers=below is not None)
            elif entry.kind == DIRECTORY:
                waiting.append(Change(met.path, entry, is_same=True, covers=True))
                continue
            else:
                continue
            yield from waiting
            waiting.clear()
            yield change

    def _objects(self) -> Set[Hashable]:
        """The objects of several names of which one is written, so that all are: they are one
        object then too."""
        return {met.entry.same for met in self._met()
                if met.entry is not None and met.entry.same is not None
                and (met.opaque or self._differs(met.entry, met.below))}

    def _met(self) -> Iterator[_Met]:
        """Each path that is shown, and those below that need a whiteout."""
        if self._shown.entry is None:
            return
        yield _Met("/", self._shown.entry, self._below.entry)
        stack = [_Opened(self._shown, self._below, iter(self._names(self._shown, self._below)[0]))]
        while stack:
            here, below, names = stack[-1]
            name = next(names, None)
            if name is None:
                stack.pop()
                continue
            found = here.at(name)
            under = None if below is None else below.at(name)
            entry, is_opaque = _entry_of(found), False
            if isinstance(found, Folder):
                folder = under if isinstance(under, Folder) else None
                inside, is_opaque = self._names(found, folder)
                stack.append(_Opened(found, folder, iter(inside)))
            path = path_in(here.path, name) if entry is None else entry.path
            yield _Met(path, entry, _entry_of(under), is_opaque)

    @staticmethod
    def _names(here: Folder, below: Optional[Folder]) -> Tuple[Sequence[str], bool]:
        """The names in a directory, with those that need a whiteout; and whether it needs none
        because it keeps none of them. The root isn't said to be so."""
        if not (_is_directory(here) and below is not None and _is_directory(below)):
            return here.names(), False
        had = below.names()
        gone = [name for name in had if not here.has(name)]
        if not gone:
            return here.names(), False
        if len(gone) == len(had) and here.path != "/":
            return here.names(), True
        return sorted([*here.names(), *gone], key=raw_of), False

    def _differs(self, entry: Entry, below: Optional[Entry]) -> bool:
        """Whether what is shown at a path isn't what is below."""
        if below is None or below.kind != entry.kind:
            return True
        if (below.uid, below.gid, below.links) != (entry.uid, entry.gid, entry.links):
            return True
        if entry.mtime is not None and below.mtime != entry.mtime:
            return True
        if entry.kind == SYMLINK:
            return below.target != entry.target
        if (below.mode, below.device) != (entry.mode, entry.device):
            return True
        if dict(below.attrs) != dict(entry.attrs):
            return True
        return entry.kind == FILE and (below.size != entry.size or not self._has_same(below, entry))

    def _has_same(self, below: Entry, entry: Entry) -> bool:
        """Whether two files have the same bytes."""
        place = self._lower.place(below)
        if place is not None and place == self._mounted.place(entry):
            return True
        return same_bytes(self._lower.pieces(below), self._mounted.pieces(entry))

    def _timed(self, entry: Entry, below: Optional[Entry]) -> Entry:
        """What is shown at a path. A time that stands there word for word as below, where all else
        was changed, is that of a client that keeps no times, and so isn't known."""
        if below is None or entry.told is None or entry.told != below.told:
            return entry
        if entry.kind not in (FILE, SYMLINK) or below.kind == entry.kind == SYMLINK \
                and below.target == entry.target:
            return entry
        if below.kind == entry.kind == FILE and below.size == entry.size \
                and self._has_same(below, entry):
            return entry
        return entry._replace(mtime=None)

    def _earlier(self, entry: Entry) -> Optional[str]:
        """The first name of an object, where this is a further one."""
        if entry.same is None or entry.kind == DIRECTORY:
            return None
        first = self._first.setdefault(entry.same, entry.path)
        return None if first == entry.path else first


def _judged(tree: Tree) -> Folder:
    """The root of a tree in which all is below directories."""
    shelves = Shelves(tree.entries())
    shelves.judge()
    return shelves.top


def _entry_of(found: Found) -> Optional[Entry]:
    return found.entry if isinstance(found, Folder) else found


def _is_directory(folder: Folder) -> bool:
    return folder.entry is not None and folder.entry.kind == DIRECTORY


def _is_above(directory: str, path: str) -> bool:
    return directory == "/" or path.startswith(directory + "/")


def same_bytes(one: Iterator[bytes], other: Iterator[bytes]) -> bool:
    """Whether the pieces are the same bytes, however they are cut."""
    left = right = b""
    while True:
        left, right = left or next(one, b""), right or next(other, b"")
        count = min(len(left), len(right))
        if not count:
            return not left and not right
        if left[:count] != right[:count]:
            return False
        left, right = left[count:], right[count:]


def each_change(lower: Tree, mounted: Tree) -> Iterator[Change]:
    """What a layer over `lower` says so that `mounted` is shown: each directory before what is in
    it, names by their bytes. A directory that was moved is written whole. The trees are read
    first; the bytes of files are compared as the changes are asked for."""
    return _Comparison(lower, mounted).changes()


def changes(lower: Tree, mounted: Tree) -> List[Change]:
    """The same changes, all at once."""
    return list(each_change(lower, mounted))
