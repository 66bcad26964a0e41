"""What stands in a layer, in the terms of a manifest."""

from typing import Callable, Dict, Iterable, Iterator, List, NamedTuple, Optional, Tuple, Union

Attributes = Tuple[Tuple[str, str], ...]
Names = Tuple[str, ...]


class Object:
    """What a name of a layer leads to."""

    __slots__ = ()


class Whiteout(Object):
    """The mark that hides what the layers below have at a name."""

    __slots__ = ()


WHITEOUT = Whiteout()


class Inode(Object):
    """An object with an owner; all but symbolic links have a mode and user attributes too.

    `mtime` is when it was changed, in nanoseconds since 1970, where that is kept.
    """

    __slots__ = ("mode", "uid", "gid", "attrs", "mtime")

    def __init__(self, mode: int, uid: int, gid: int, attrs: Attributes = ()) -> None:
        self.mode = mode
        self.uid = uid
        self.gid = gid
        self.attrs = attrs
        self.mtime: Optional[int] = None


class Directory(Inode):
    """A directory; `opaque` and `redirect` are the marks of overlayfs.

    `implied` says that its source didn't describe it: what is in it did. `fresh` says that it
    stands beside a whiteout of its own name, and so has nothing in common with what is below.
    `links` has times of symbolic links that it shows and that aren't among its children.
    """

    __slots__ = ("children", "opaque", "redirect", "implied", "fresh", "links")

    def __init__(self, mode: int, uid: int, gid: int, attrs: Attributes = ()) -> None:
        super().__init__(mode, uid, gid, attrs)
        self.children: Dict[str, Object] = {}
        self.opaque = False
        self.redirect: Optional[str] = None
        self.implied = False
        self.fresh = False
        self.links: Dict[str, int] = {}


class Part(NamedTuple):
    """Bytes that stand in a blob of the manifest: its number, where they begin, how many."""

    blob: int
    at: int
    size: int


class Long(NamedTuple):
    """Bytes that are too many to be held at once: how many, and what gives them from their start,
    piece by piece, as often as it is called. Of a file `copy` writes them to a descriptor, from a
    place on, without its holes; where all of them are zeros it writes none, and returns False."""

    size: int
    pieces: Callable[[], Iterator[bytes]]
    copy: Optional[Callable[[int, int], bool]] = None


Data = Union[bytes, Part, Long]
# What is read at once, and the most bytes that are held at once.
PIECE = 1 << 20
ZEROS = bytes(PIECE)


def zeros(count: int) -> Iterator[bytes]:
    """So many zero bytes."""
    while count > PIECE:
        yield ZEROS
        count -= PIECE
    if count > 0:
        yield ZEROS[:count]


class Content:
    """Where the bytes of files come from."""

    def read_each(self, files: Iterable["File"]) -> Iterator[Tuple["File", Data]]:
        """Each of the files with its bytes, in the order that suits the source."""
        raise NotImplementedError


_NOWHERE = Content()


class File(Inode):
    """A file. `place` tells its source where the bytes are; `linked`, that it may have more names;
    `special`, the letter of a fifo, socket or device, and its number, of one that stands for it.
    """

    __slots__ = ("source", "place", "size", "linked", "special")

    def __init__(self, mode: int, uid: int, gid: int, attrs: Attributes, size: int) -> None:
        super().__init__(mode, uid, gid, attrs)
        self.size = size
        self.source: Content = _NOWHERE
        self.place: object = None
        self.linked = False
        self.special: Optional[Tuple[str, int]] = None

    def copied_up(self) -> "File":
        """A file of another layer with the same bytes and attributes."""
        copy = File(self.mode, self.uid, self.gid, self.attrs, self.size)
        copy.source = self.source
        copy.place = self.place
        copy.special = self.special
        copy.mtime = self.mtime
        return copy


class Symlink(Inode):
    """A symbolic link."""

    __slots__ = ("target", "linked")

    def __init__(self, uid: int, gid: int, target: str) -> None:
        super().__init__(0o777, uid, gid)
        self.target = target
        self.linked = False

    def copied_up(self) -> "Symlink":
        """A symbolic link of another layer that leads to the same place."""
        copy = Symlink(self.uid, self.gid, self.target)
        copy.mtime = self.mtime
        return copy


def link_times(directory: Directory) -> Dict[str, int]:
    """The times of the symbolic links in a directory, by their names, where they are kept."""
    own = {name: child.mtime for name, child in directory.children.items()
           if isinstance(child, Symlink) and child.mtime is not None}
    return {**directory.links, **own}


def at(root: Directory, names: Names) -> Optional[Object]:
    """What stands at these names from the root of one layer."""
    found: Optional[Object] = root
    for name in names:
        if not isinstance(found, Directory):
            return None
        found = found.children.get(name)
    return found


def path_text(names: Names) -> str:
    """The path of these names from the root."""
    return "/" + "/".join(names)


def all_in(root: Directory) -> Iterator[Object]:
    """What stands in a tree below its root, in any order."""
    todo = [root]
    while todo:
        for node in todo.pop().children.values():
            if isinstance(node, Directory):
                todo.append(node)
            yield node


def walk(root: Directory) -> Iterator[Tuple[str, Object]]:
    """Each path of a tree with what stands there: a directory before what is in it, names by
    their bytes."""
    yield "/", root
    stack: List[Tuple[str, Iterator[str], Directory]] = [("/", iter(sorted(root.children)), root)]
    while stack:
        base, names, directory = stack[-1]
        name = next(names, None)
        if name is None:
            stack.pop()
            continue
        node = directory.children[name]
        yield base + name, node
        if isinstance(node, Directory):
            stack.append((base + name + "/", iter(sorted(node.children)), node))
