"""Trees of tars: what each member says of a layer, and what the layers below have to do with it."""

import os
from typing import TYPE_CHECKING, Dict, List, Optional, Tuple, Union

from . import limits, marks
from .blobs import Blob
from .meta import KINDS
from .members import (BLOCK_DEVICE, CHARACTER, FIFO, LINK, SYMLINK, Member, members)
from .merging import Merge
from .metacopy import read_through
from .objects import (WHITEOUT, Directory, File, Inode, Names, Object, Symlink, at, path_text,
                      walk)
from .telling import ATTRIBUTE, LOST, OTHER_KIND, OVER_LIMIT, UNSAYABLE, Refused, Report, shown

if TYPE_CHECKING:
    from .tars import TarLayer

_LETTERS = {FIFO: "p", CHARACTER: "c", BLOCK_DEVICE: "b"}
_XATTR = "SCHILY.xattr."
_LIBARCHIVE = "LIBARCHIVE.xattr."
_OTHERS = ("SCHILY.acl.", "SCHILY.fflags", "RHT.security.")
_MARK = ".wh."
_META = ".wh..wh."
_OPAQUE = ".wh..wh..opq"
# How deep the names of a tar may be; a path has at most 2,047 names.
_NAMES_MOST = 2048


class Unresolved(Object):
    """A hard link to what the tar hasn't shown before it."""

    __slots__ = ("target",)

    def __init__(self, target: Names) -> None:
        self.target = target


def raw_of(text: str) -> bytes:
    """The bytes of a name in a tar."""
    return text.encode("utf-8", "surrogateescape")


def read_tree(layer: "TarLayer", blob: Blob, report: Report, below: Merge) -> Directory:
    """What stands in a tar over the layers below, without bytes."""
    return _Reading(layer, blob, report, below).tree()


class _Reading:
    """Builds the tree of one tar."""

    def __init__(self, layer: "TarLayer", blob: Blob, report: Report, below: Merge) -> None:
        self._layer = layer
        self._blob = blob
        self._report = report
        self._below = below
        self._root = Directory(0o755, 0, 0)
        self._root.implied = True
        self._hidden: List[Names] = []
        self._unresolved: List[Names] = []
        self._implied: List[Names] = [()]
        self._marked: Dict[File, Optional[bytes]] = {}
        self._keep = layer.keep
        self._last: Tuple[Names, Optional[Directory]] = ((), self._root)

    def tree(self) -> Directory:
        """Reads the tar, and then what it says of the layers below."""
        what = f"looking through {shown(self._layer.name)}"
        for count, member in enumerate(members(self._blob)):
            self._take(member)
            self._report.progress(what, count, member.offset)
        if not self._blob.has_end:
            self._report.note(f"{shown(self._layer.name)}: this tar has no end: more may be "
                              "missing")
        self._hide()
        merge = self._below.under(self._root)
        self._resolve(merge)
        self._read_through(merge)
        self._give_attributes(merge)
        if self._keep.times:
            merge.give_links(self._root)
        return self._root

    def _take(self, member: Member) -> None:
        names = self._names(member, member.name)
        if names is None:
            return
        if _MARK in member.name and any(name.startswith(_MARK) for name in names):
            self._mark(member, names)
            return
        if not names:
            self._take_root(member)
            return
        parent = self._parent(names)
        if parent is None:
            self._leave_out(member, LOST, "what is above it in this layer is no directory")
            return
        there = parent.children.get(names[-1])
        node = self._object(member, names, there)
        if node is None and self._layer.covers:
            node = WHITEOUT
        if node is not None:
            if isinstance(there, Directory) or isinstance(node, Directory):
                self._last = (), self._root
            parent.children[names[-1]] = node

    def _names(self, member: Member, path: str, what: str = "") -> Optional[Names]:
        """The names of a path in the tar from its root; None where the member was left out."""
        parts = tuple(_parts(path))
        if path.isascii() and len(path) <= limits.NAME_BYTES and ".." not in path \
                and "\0" not in path:
            return parts
        fault = None
        if len(parts) > _NAMES_MOST:
            fault = limits.path_fault("/" * (limits.PATH_BYTES + 1))
        for part in parts if fault is None else ():
            fault = fault or limits.name_fault(raw_of(part))
        fault = fault or limits.path_fault(path_text(parts))
        if fault is not None:
            self._leave_out(member, UNSAYABLE, what + fault)
            return None
        return parts

    def _mark(self, member: Member, names: Names) -> None:
        """A member whose name is a mark: a whiteout, or that its directory is opaque."""
        name = names[-1]
        is_below = any(above.startswith(_MARK) for above in names[:-1])
        is_other = name.startswith(_META) or name[len(_MARK):] in ("", ".", "..")
        if is_below or (is_other and name != _OPAQUE):
            self._leave_out(member, OTHER_KIND, "a mark that says nothing of the layer")
            return
        parent = self._parent(names)
        if parent is None:
            self._leave_out(member, LOST, "what is above it in this layer is no directory")
        elif name == _OPAQUE:
            parent.opaque = True
        else:
            self._hidden.append(names[:-1] + (name[len(_MARK):],))

    def _take_root(self, member: Member) -> None:
        if not member.is_directory():
            self._leave_out(member, OTHER_KIND, "the root is no directory")
            return
        self._describe(self._root, member)

    def _parent(self, names: Names) -> Optional[Directory]:
        """The directory of these names, made where the tar left it out."""
        above = names[:-1]
        if self._last[0] != above:
            self._last = above, self._made_parent(names)
        return self._last[1]

    def _made_parent(self, names: Names) -> Optional[Directory]:
        node = self._root
        for depth, name in enumerate(names[:-1], 1):
            child = node.children.get(name)
            if child is None:
                child = Directory(0o755, 0, 0)
                child.implied = True
                self._implied.append(names[:depth])
                node.children[name] = child
            if not isinstance(child, Directory):
                return None
            node = child
        return node

    def _object(self, member: Member, names: Names,
                there: Optional[Object]) -> Optional[Object]:
        """What a member puts at its name; None where it was left out."""
        if member.is_directory():
            node = there if isinstance(there, Directory) else Directory(0, 0, 0)
            self._describe(node, member)
            return node
        if member.type == LINK:
            return self._link(member, names)
        if member.type == SYMLINK:
            return self._symlink(member)
        if member.is_file():
            return self._file(member)
        if member.type == CHARACTER and member.device == (0, 0):
            return WHITEOUT
        return self._special(member)

    def _special(self, member: Member) -> Optional[Object]:
        """A fifo or device, which is an empty file with an attribute."""
        letter = _LETTERS.get(member.type)
        if letter is None or not self._keep.devices:
            kind = KINDS[letter] if letter else f"a member of type {member.type!r}"
            self._leave_out(member, OTHER_KIND, kind)
            return None
        major, minor = member.device
        if not (0 <= major < 1 << 12 and 0 <= minor < 1 << 20):
            self._leave_out(member, OTHER_KIND, f"{KINDS[letter]} of a number that none has")
            return None
        found = self._marks(member)
        uid, gid = self._owner(member)
        file = File(member.mode & limits.MODE_BITS, uid, gid, found.attrs, 0)
        file.source = self._layer
        file.special = letter, os.makedev(major, minor)
        self._give_time(file, member, found)
        return file

    def _give_time(self, node: Inode, member: Member, found: marks.Marks) -> None:
        node.mtime = member.mtime if self._keep.times and not found.has_meta else None

    def _describe(self, node: Directory, member: Member) -> None:
        """Gives a directory what its member says of it; the root has no marks."""
        found = self._marks(member)
        node.mode = member.mode & limits.MODE_BITS
        node.uid, node.gid = self._owner(member)
        node.attrs = found.attrs
        self._give_time(node, member, found)
        node.implied = False
        if node is self._root:
            return
        node.opaque = node.opaque or found.opaque
        if found.redirect is not None and not node.opaque:
            node.redirect, node.opaque = marks.redirect_text(found.redirect,
                                                             self._teller(member))

    def _file(self, member: Member) -> Optional[Object]:
        found = self._marks(member)
        if found.whiteout and member.size == 0:
            return WHITEOUT
        fault = self._size_fault(member)
        if fault is not None:
            self._leave_out(member, OVER_LIMIT, fault)
            return None
        uid, gid = self._owner(member)
        file = File(member.mode & limits.MODE_BITS, uid, gid, found.attrs, member.size)
        file.source = self._layer
        sparse = member.sparse
        file.place = member.offset if sparse is None else (member.offset, sparse)
        self._give_time(file, member, found)
        if found.metacopy:
            self._marked[file] = found.redirect
        return file

    def _size_fault(self, member: Member) -> Optional[str]:
        """Why a file is too large; None where it isn't. Refused where nobody said how large one
        may be, and it is so many times what the tar has of it."""
        if member.size > self._keep.most:
            return limits.size_fault(member.size, self._keep.most)
        if self._keep.asked or member.sparse is None or member.size <= limits.FILE_LIMIT:
            return None
        if member.size <= limits.GROWTH * member.stored:
            return None
        raise Refused(f"{shown(self._layer.name)}: {shown(member.name)}: a file of "
                      f"{member.size:,} bytes, of which the tar has {member.stored:,}: "
                      "--file-limit says whether it is taken")

    def _symlink(self, member: Member) -> Optional[Object]:
        fault = limits.target_fault(raw_of(member.linkname))
        if fault is not None:
            self._leave_out(member, UNSAYABLE, fault)
            return None
        for name, _ in self._marks(member).attrs:
            self._leave_out(member, ATTRIBUTE, f"attribute {shown(name)} of a symbolic link")
        uid, gid = self._owner(member)
        link = Symlink(uid, gid, member.linkname)
        link.mtime = member.mtime if self._keep.times else None
        return link

    def _link(self, member: Member, names: Names) -> Optional[Object]:
        target = self._names(member, member.linkname, "a hard link, and of what it leads to ")
        if target is None:
            return None
        there = at(self._root, target)
        if isinstance(there, (File, Symlink)):
            there.linked = True
            return there
        self._unresolved.append(names)
        return Unresolved(there.target if isinstance(there, Unresolved) else target)

    def _hide(self) -> None:
        """Puts the whiteouts where they hide something of the layers below alone."""
        for names in self._hidden:
            parent = self._parent(names)
            if parent is None:
                continue
            there = parent.children.setdefault(names[-1], WHITEOUT)
            if isinstance(there, Directory):
                there.opaque = True
                there.fresh = True

    def _resolve(self, merge: Merge) -> None:
        """Leads the hard links to what the layers below, or later members, have."""
        copies: Dict[Names, Union[File, Symlink]] = {}
        for names in self._unresolved:
            here = at(self._root, names)
            if not isinstance(here, Unresolved):
                continue
            found = self._led_to(here.target, merge, copies)
            parent = self._parent(names)
            assert parent is not None
            if found is not None:
                found.linked = True
                parent.children[names[-1]] = found
                continue
            self._report.leave_out(self._layer.name, path_text(names), LOST,
                                   f"a hard link to {shown(path_text(here.target))}, which is no "
                                   "file of this layer or one below")
            if self._layer.covers:
                parent.children[names[-1]] = WHITEOUT
            else:
                del parent.children[names[-1]]

    def _led_to(self, target: Names, merge: Merge,
                copies: Dict[Names, Union[File, Symlink]]) -> Union[File, Symlink, None]:
        """The object of a hard link: of this layer, or a copy of one below, which stands at its
        own name too where this layer doesn't hide it."""
        there = at(self._root, target)
        if isinstance(there, (File, Symlink)):
            return there
        if target in copies:
            return copies[target]
        below = self._below.lookup(target)
        if not isinstance(below, (File, Symlink)):
            return None
        copies[target] = below.copied_up()
        if merge.lookup(target) is below:
            parent = self._parent(target)
            if parent is not None:
                parent.children.setdefault(target[-1], copies[target])
        return copies[target]

    def _read_through(self, merge: Merge) -> None:
        """Gives the files whose bytes are in a layer below what the layers below have for them."""
        if not self._marked:
            return
        for path, node in walk(self._root):
            if isinstance(node, File) and node in self._marked:
                redirect = self._marked.pop(node)
                fault = read_through(node, tuple(path[1:].split("/")), redirect, merge)
                if fault is not None:
                    raise Refused(f"{shown(self._layer.name)}: {shown(path)}: {fault}")

    def _give_attributes(self, merge: Merge) -> None:
        """Gives directories that the tar left out what the layers below say of them."""
        for names in self._implied:
            node = at(self._root, names)
            if isinstance(node, Directory) and node.implied and not node.fresh:
                below = merge.below(names)
                if isinstance(below, Directory):
                    _take_over(node, below)

    def _marks(self, member: Member) -> marks.Marks:
        pairs = _pairs(member) if member.headers else []
        if not pairs:
            return marks.NONE
        return marks.read_marks(pairs, self._teller(member), self._keep)

    def _teller(self, member: Member) -> marks.Tell:
        return lambda group, why: self._leave_out(member, group, why)

    def _owner(self, member: Member) -> Tuple[int, int]:
        uid, gid = member.uid, member.gid
        if 0 <= uid <= limits.OWNER_MOST and 0 <= gid <= limits.OWNER_MOST:
            return uid, gid
        self._leave_out(member, ATTRIBUTE, f"owner {member.uid}:{member.gid}: 0:0 is written")
        return 0, 0

    def _leave_out(self, member: Member, group: str, why: str) -> None:
        path = raw_of(path_text(tuple(_parts(member.name))))
        self._report.leave_out(self._layer.name, path, group, why)


def _parts(path: str) -> List[str]:
    """The names in a path of a tar."""
    return [part for part in path.split("/") if part and part != "."]


def _take_over(node: Inode, below: Inode) -> None:
    node.mode, node.uid, node.gid, node.attrs = below.mode, below.uid, below.gid, below.attrs
    node.mtime = below.mtime


def _pairs(member: Member) -> List[Tuple[bytes, bytes]]:
    """The extended attributes of a member, and others under the names that tars give them."""
    found = {}
    for key, value in member.headers.items():
        if key.startswith(_XATTR):
            found[key[len(_XATTR):]] = value
        elif key.startswith(_LIBARCHIVE):
            # beside one of the same name it says the same in another form
            if _XATTR + key[len(_LIBARCHIVE):] not in member.headers:
                found[key] = value
        elif key.startswith(_OTHERS):
            found[key] = value
    return [(raw_of(name), raw_of(value)) for name, value in found.items()]
