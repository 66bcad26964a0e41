"""What layers of manifests show together, as a tree."""

import errno
import os
from typing import Any, Dict, Hashable, Iterable, Iterator, List, Optional, Sequence, Tuple, cast

from ..importer import objects
from ..importer.limits import FILE_LIMIT
from ..importer.merging import Merge, Place, TreeLayer
from .described import described, link_times_in, timed
from .shelves import place_in, unpacked
from .trees import (DIRECTORY, FILE, SYMLINK, Entry, Folder, Found, Tree, name_of, parent_of,
                    path_in, raw_of)


class PackedFile(bytes, objects.Object):
    """A file of a layer, in the few bytes of `packed`, with the place of its bytes."""

    __slots__ = ()


class Source:
    """Where entries come from: None begins a layer. A file's entry has `bytes`: how many, and their
    place. The options are right when the first of them came."""

    path = ""
    has_upper = True
    file_limit = FILE_LIMIT

    def entries(self) -> Iterable[Optional[Dict[str, Any]]]:
        """Layers and entries in their order."""
        raise NotImplementedError

    def pieces(self, size: int, place: Sequence[Any]) -> Iterator[bytes]:
        """So many bytes at a place."""
        raise NotImplementedError


class LayeredTree(Tree):
    """What layers of manifests show together, the highest first, each with the source of its files'
    bytes; `links` has how many names those objects have that have several, by identity."""

    def __init__(self, layers: List[objects.Directory], sources: List[Source],
                 links: Dict[int, int]) -> None:
        self._merge = Merge([TreeLayer(layer) for layer in layers])
        self._sources = sources
        self._links = links
        self._near = self.top()

    def top(self) -> "_Merged":
        found = _Merged("/", self._merge.roots(), self._merge, self._links)
        found.has_several = bool(self._links)
        return found

    def entries(self) -> Iterator[Entry]:
        top = self.top()
        yield top.entry
        todo = [(top, iter(top.names()))]
        while todo:
            folder, names = todo[-1]
            name = next(names, None)
            if name is None:
                todo.pop()
                continue
            found = folder.at(name)
            if isinstance(found, _Merged):
                yield found.entry
                todo.append((found, iter(found.names())))
            elif isinstance(found, Entry):
                yield found

    def read(self, entry: Entry) -> bytes:
        return b"".join(self.pieces(entry))

    def pieces(self, entry: Entry) -> Iterator[bytes]:
        if entry.kind == FILE:
            found = self._file(entry)
            if found is None:
                raise FileNotFoundError(errno.ENOENT, os.strerror(errno.ENOENT), entry.path)
            yield from found[0].pieces(entry.size, found[1])

    def place(self, entry: Entry) -> Optional[Hashable]:
        return self._file(entry)

    def _file(self, entry: Entry) -> Optional[Tuple[Source, Tuple[Hashable, ...]]]:
        """Where the bytes of a file are; files of one directory are asked for one by one, mostly.
        """
        above = parent_of(entry.path)
        if self._near.path != above:
            places = self._merge.places(names_of(above))
            if not places:
                return None
            self._near = _Merged(above, places, self._merge, self._links)
        for index, node in self._near.found(name_of(entry.path)):
            if isinstance(node, PackedFile):
                return self._sources[index], place_in(node)
        return None


class _Merged(Folder):
    """A directory that layers show together."""

    __slots__ = ("_places", "_merge", "_links", "_times")

    entry: Entry

    def __init__(self, path: str, places: List[Place], merge: Merge, links: Dict[int, int]) -> None:
        node = places[0][1]
        raw = Entry(path, DIRECTORY, node.mode, node.uid, node.gid,
                    tuple((name, value.encode("utf-8")) for name, value in node.attrs))
        super().__init__(path, described(raw))
        self._places = places
        self._merge = merge
        self._links = links
        self._times = link_times_in(raw)

    def names(self) -> List[str]:
        names: Iterable[str] = self._places[0][1].children
        if len(self._places) > 1:
            names = set().union(*(node.children for _, node in self._places))
        return sorted(filter(self.has, names), key=raw_of)

    def has(self, name: str) -> bool:
        return bool(self.found(name))

    def found(self, name: str) -> List[Tuple[int, objects.Object]]:
        """What the layers have at a name, by their numbers."""
        return self._merge.child(self._places, name)

    def at(self, name: str) -> Found:
        found = self.found(name)
        if not found:
            return None
        node, path = found[0][1], path_in(self.path, name)
        if isinstance(node, objects.Directory):
            return _Merged(path, cast(List[Place], found), self._merge, self._links)
        if isinstance(node, PackedFile):
            entry = unpacked(path, node)
        else:
            assert isinstance(node, objects.Symlink)
            link = Entry(path, SYMLINK, node.mode, node.uid, node.gid, target=node.target)
            entry = timed(link, self._times.get(name, node.mtime))
        links = self._links.get(id(node))
        return entry if links is None else entry._replace(links=links, same=id(node))


def names_of(path: str) -> objects.Names:
    """The names of a path."""
    return tuple(path[1:].split("/")) if path != "/" else ()
