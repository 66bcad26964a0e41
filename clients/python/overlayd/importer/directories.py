"""Layers that are directories: plain ones, and uppers and lowers of the kernel's overlayfs.

Nothing outside of the directory is read, whoever changes it meanwhile: names are opened below
descriptors, links aren't followed, and what is read is the object that was seen.
"""

import os
import stat
from operator import attrgetter
from typing import Dict, Iterable, Iterator, List, NamedTuple, Optional, Set, Tuple, Union

from . import limits, marks
from .descriptors import (Identity, Place, Root, Ways, changed, copy, identity_of, is_change,
                          open_at, pieces, read_small)
from .keeping import Keep
from .merging import Layer, Merge
from .meta import KINDS
from .metacopy import read_through
from .objects import PIECE, WHITEOUT, Content, Data, Directory, File, Inode, Long, Object, Symlink
from .plain_files import PlainFiles
from .telling import ATTRIBUTE, OTHER_KIND, OVER_LIMIT, UNSAYABLE, Refused, Report, shown
from .writing import Files, LayerWriter, write_tree

_HAS_ATTRIBUTES = hasattr(os, "listxattr")
_NAME_OF = attrgetter("name")
_LETTERS = {stat.S_IFIFO: "p", stat.S_IFSOCK: "s", stat.S_IFCHR: "c", stat.S_IFBLK: "b"}


class Step(NamedTuple):
    """One name on a walk: its path in the layer, its directory, what stands there, and of a file
    the descriptor, which is open until the next step."""

    path: str
    name: str
    parent: Directory
    node: Object
    descriptor: int = -1


class _Open(NamedTuple):
    """A directory whose names are being walked; `raw` is its path from the root and a `/`."""

    raw: bytes
    base: str
    entries: Iterator["os.DirEntry[str]"]
    node: Directory


class _Sizes:
    """What a look at the sizes in one directory found: the largest, and the directories in it."""

    def __init__(self) -> None:
        self.largest = 0
        self.names: List[str] = []


class DirectoryLayer(Content, Layer):
    """A directory of the file system as a layer; `below` has the layers under it. What `keep`
    doesn't say is left out."""

    def __init__(self, path: str, report: Report, skip: Set[Identity], below: Merge,
                 keep: Keep) -> None:
        self.name = path
        self.covers = True
        self.most = keep.most
        self._keep = keep
        self._root = Root(path)
        self._report = report
        self._skip = skip
        self._below = below
        self._tree: Optional[Directory] = None
        self._largest: Optional[int] = None
        self._shared: Dict[Identity, Union[File, Symlink]] = {}
        self._warned = False

    def tree(self) -> Directory:
        """All that stands in it, without bytes; read once."""
        if self._tree is None:
            root = self.root()
            for count, step in enumerate(self._walk(root)):
                step.parent.children[step.name] = step.node
                self._report.progress(f"looking through {shown(self.name)}", count)
            self._tree = root
        return self._tree

    def root(self) -> Directory:
        """The root alone."""
        status = os.fstat(self._root.descriptor)
        found = self._marks(self._root.descriptor, "/")
        root = Directory(status.st_mode & limits.MODE_BITS, status.st_uid, status.st_gid,
                         found.attrs)
        self._give_time(root, status, found)
        self._give_links(root, _listed(self._root.descriptor), self._root.descriptor)
        return root

    def largest(self) -> int:
        """How many bytes its largest file has. Where no tree was needed before, none is made:
        sizes alone are asked for, once."""
        if self._tree is not None:
            return super().largest()
        if self._largest is None:
            self._largest = self._largest_below()
        return self._largest

    def _largest_below(self) -> int:
        ways, largest = Ways(self._root), 0
        todo = [self._looked(ways.here)]
        try:
            while todo:
                largest = max(largest, todo[-1].largest)
                if todo[-1].names:
                    name = todo[-1].names.pop()
                    ways.down(self._opened(name, ways, os.fsencode(name), True))
                    todo.append(self._looked(ways.here))
                else:
                    todo.pop()
                    ways.up()
        finally:
            ways.close()
        return largest

    def _looked(self, directory: int) -> "_Sizes":
        """The largest size of the files in an open directory, and what directories are in it. What
        is left out for its size doesn't count, nor does the unfinished manifest."""
        found = _Sizes()
        with os.scandir(directory) as entries:
            for entry in entries:
                if entry.is_dir(follow_symlinks=False):
                    found.names.append(entry.name)
                elif entry.is_file(follow_symlinks=False):
                    status = entry.stat(follow_symlinks=False)
                    if (found.largest < status.st_size <= self.most
                            and identity_of(status) not in self._skip):
                        found.largest = status.st_size
        return found

    def write(self, layer: LayerWriter) -> None:
        """Writes the layer, as it is walked where no tree was needed before."""
        if self._tree is not None:
            write_tree(layer, self._tree)
            return
        root, later = self.root(), Files()
        layer.plain("/", root)
        plain = PlainFiles(layer, self._keep.times, self.most, self._skip)
        for step in self._walk(root, plain):
            self._write_step(layer, step, later)
        later.write(layer)

    def _write_step(self, layer: LayerWriter, step: Step, later: Files) -> None:
        """Writes one name; a file whose bytes are in another layer is left for later."""
        node = step.node
        if isinstance(node, File) and node.source is not self:
            later.add(step.path, node)
        elif layer.again(step.path, node):
            pass
        elif isinstance(node, File):
            data = self._read(node, step.descriptor, step.path)
            if data is not None:
                layer.file(step.path, node, data)
            elif self.covers:
                layer.plain(step.path, WHITEOUT)
        else:
            if isinstance(node, Directory):
                # of the tree the way to what is walked is all that is asked for, and kept
                step.parent.children = {step.name: node}
            layer.plain(step.path, node)

    def read_each(self, files: Iterable[File]) -> Iterator[Tuple[File, Data]]:
        """The files with their bytes, in the order in which they are asked for."""
        for file in files:
            if file.special is not None:
                yield file, b""
                continue
            assert isinstance(file.place, Place)
            descriptor = self._root.open_file(file.place)
            try:
                data = self._read(file, descriptor, os.fsdecode(b"/" + file.place.raw))
                if data is not None:
                    yield file, data
            finally:
                os.close(descriptor)

    def _walk(self, root: Directory, plain: Optional[PlainFiles] = None) -> Iterator[Step]:
        """Each name below the root, a directory before what is in it, names by their bytes; but
        those of plain files, which `plain` writes."""
        ways = Ways(self._root)
        stack = [_Open(b"", "/", iter(_listed(ways.here)), root)]
        merge = self._below.under(root)
        try:
            while stack:
                here = stack[-1]
                entry = (next(here.entries, None) if plain is None
                         else plain.write(here.entries, ways.here, here.base))
                if entry is None:
                    stack.pop()
                    ways.up()
                else:
                    yield from self._step(entry, stack, ways, merge)
        finally:
            ways.close()

    def _step(self, entry: "os.DirEntry[str]", stack: List[_Open], ways: Ways,
              merge: Merge) -> Iterator[Step]:
        """What stands at one name; a directory is gone into."""
        here, name = stack[-1], entry.name
        is_directory = entry.is_dir(follow_symlinks=False)
        if not (name.isascii() and len(name) <= limits.NAME_BYTES):
            fault = limits.name_fault(os.fsencode(name))
            if fault is not None:
                below = ", and all in it" if is_directory else ""
                self._report.leave_out(self.name, os.fsencode(here.base + name), UNSAYABLE,
                                       fault + below)
                return
        path = here.base + name
        fault = limits.path_fault(path)
        if fault is not None:
            self._report.leave_out(self.name, path, UNSAYABLE, fault)
            return
        raw = here.raw + os.fsencode(name)
        is_file = not is_directory and entry.is_file(follow_symlinks=False)
        descriptor = self._opened(name, ways, raw, is_directory) if is_file or is_directory else -1
        try:
            node = self._object(name, path, raw, descriptor, ways, merge)
            if isinstance(node, Directory):
                ways.down(descriptor)
                descriptor, entries = -1, _listed(ways.here)
                self._give_links(node, entries, ways.here)
                yield Step(path, name, here.node, node)
                stack.append(_Open(raw + b"/", path + "/", iter(entries), node))
            elif node is not None:
                yield Step(path, name, here.node, node, descriptor)
        finally:
            if descriptor >= 0:
                os.close(descriptor)

    def _opened(self, name: str, ways: Ways, raw: bytes, is_directory: bool) -> int:
        try:
            return open_at(name, ways.here, is_directory)
        except OSError as error:
            path = os.path.join(os.fsencode(self.name), raw)
            if is_change(error):
                raise changed(shown(path)) from None
            raise OSError(error.errno, error.strerror, os.fsdecode(path)) from None

    def _object(self, name: str, path: str, raw: bytes, descriptor: int, ways: Ways,
                merge: Merge) -> Optional[Object]:
        """What stands there, or None where there is nothing to write. `merge` has the way to it
        over the layers below."""
        if descriptor >= 0:
            status = os.fstat(descriptor)
        else:
            status = os.stat(name, dir_fd=ways.here, follow_symlinks=False)
        if self._skip and identity_of(status) in self._skip:
            return None
        kind = stat.S_IFMT(status.st_mode)
        node: Optional[Object]
        if kind == stat.S_IFREG and descriptor >= 0:
            node = self._file(raw, path, descriptor, status, merge)
        elif kind == stat.S_IFDIR and descriptor >= 0:
            node = self._directory(path, descriptor, status)
        elif kind == stat.S_IFLNK:
            node = self._symlink(name, path, ways, status)
        elif kind == stat.S_IFCHR and status.st_rdev == 0:
            self._warn()
            node = WHITEOUT
        elif kind in _LETTERS:
            node = self._special(name, path, _LETTERS[kind], ways, status)
        else:
            raise changed(f"{shown(self.name)}: {shown(path)}")
        return WHITEOUT if node is None and self.covers else node

    def _special(self, name: str, path: str, letter: str, ways: Ways,
                 status: os.stat_result) -> Optional[Object]:
        """A fifo, socket or device, which is an empty file with an attribute."""
        if not self._keep.devices:
            self._report.leave_out(self.name, path, OTHER_KIND, KINDS[letter])
            return None
        identity = identity_of(status)
        if identity in self._shared:
            return self._shared[identity]
        found = self._marks(_by_name(ways.here, name), path)
        node = File(status.st_mode & limits.MODE_BITS, status.st_uid, status.st_gid, found.attrs, 0)
        node.source = self
        node.special = letter, status.st_rdev if letter in "cb" else 0
        self._give_time(node, status, found)
        return self._maybe_shared(node, status)

    def _warn(self) -> None:
        """Says once that a user who isn't root can't see the marks of an upper."""
        if not self._warned and os.geteuid() != 0:
            self._warned = True
            self._report.note(f"{shown(self.name)}: it has whiteouts, but only root can read "
                              "`trusted.overlay.` attributes: opaque directories, redirects and "
                              "files whose bytes are in a lower layer may be missed")

    def _file(self, raw: bytes, path: str, descriptor: int, status: os.stat_result,
              merge: Merge) -> Optional[Object]:
        if status.st_nlink > 1 and identity_of(status) in self._shared:
            return self._shared[identity_of(status)]
        found = self._marks(descriptor, path)
        if found.whiteout and status.st_size == 0:
            return WHITEOUT
        if status.st_size > self.most:
            self._too_large(path, status.st_size)
            return None
        file = File(status.st_mode & limits.MODE_BITS, status.st_uid, status.st_gid, found.attrs,
                    status.st_size)
        file.source = self
        file.place = Place(raw, status.st_dev, status.st_ino)
        self._give_time(file, status, found)
        if found.metacopy:
            fault = read_through(file, tuple(path[1:].split("/")), found.redirect, merge)
            if fault is not None:
                raise Refused(f"{shown(self.name)}: {shown(path)}: {fault}")
        return self._maybe_shared(file, status)

    def _maybe_shared(self, node: Union[File, Symlink], status: os.stat_result) -> Object:
        if status.st_nlink > 1:
            node.linked = True
            self._shared[identity_of(status)] = node
        return node

    def _give_time(self, node: Inode, status: os.stat_result, found: marks.Marks) -> None:
        if self._keep.times and not found.has_meta:
            node.mtime = status.st_mtime_ns

    def _give_links(self, node: Directory, entries: Iterable["os.DirEntry[str]"],
                    descriptor: int) -> None:
        """Gives a directory, which is open, the times of the symbolic links in it."""
        if not self._keep.times:
            return
        for entry in entries:
            if entry.is_symlink() and limits.name_fault(os.fsencode(entry.name)) is None:
                status = os.stat(entry.name, dir_fd=descriptor, follow_symlinks=False)
                node.links[entry.name] = status.st_mtime_ns

    def _too_large(self, path: str, size: int) -> None:
        self._report.leave_out(self.name, path, OVER_LIMIT,
                               limits.size_fault(size, self.most))

    def _directory(self, path: str, descriptor: int, status: os.stat_result) -> Directory:
        found = self._marks(descriptor, path)
        node = Directory(status.st_mode & limits.MODE_BITS, status.st_uid, status.st_gid,
                         found.attrs)
        node.opaque = found.opaque
        self._give_time(node, status, found)
        if found.redirect is not None and not found.opaque:
            node.redirect, node.opaque = marks.redirect_text(found.redirect, self._teller(path))
        return node

    def _symlink(self, name: str, path: str, ways: Ways,
                 status: os.stat_result) -> Optional[Object]:
        identity = identity_of(status)
        if status.st_nlink > 1 and identity in self._shared:
            return self._shared[identity]
        target = os.fsencode(os.readlink(name, dir_fd=ways.here))
        fault = limits.target_fault(target)
        if fault is not None:
            self._report.leave_out(self.name, path, UNSAYABLE, fault)
            return None
        for attribute, _ in self._marks(_by_name(ways.here, name), path, is_link=True).attrs:
            self._teller(path)(ATTRIBUTE, f"attribute {shown(attribute)} of a symbolic link")
        link = Symlink(status.st_uid, status.st_gid, target.decode())
        link.mtime = status.st_mtime_ns if self._keep.times else None
        return self._maybe_shared(link, status)

    def _marks(self, where: Union[int, bytes], path: str, is_link: bool = False) -> marks.Marks:
        pairs = _attributes(where)
        if not pairs:
            return marks.NONE
        keep = Keep() if is_link else self._keep
        return marks.read_marks(pairs, self._teller(path), keep)

    def _teller(self, path: str) -> marks.Tell:
        return lambda group, why: self._report.leave_out(self.name, path, group, why)

    def _read(self, file: File, descriptor: int, path: str) -> Optional[Data]:
        """The bytes of a file; None where it has grown over the limit meanwhile."""
        if file.special is not None:
            return b""
        if file.size > PIECE:
            size = os.fstat(descriptor).st_size
            if size > self.most:
                self._too_large(path, size)
                return None
            name = f"{shown(self.name)}: {shown(path)}"
            return Long(size, lambda: pieces(descriptor, size, name),
                        lambda out, at: copy(descriptor, size, out, at, name))
        data = os.read(descriptor, file.size + 1)
        if len(data) != file.size:
            data += read_small(descriptor, self.most + 1 - len(data))
        if len(data) > self.most:
            self._too_large(path, len(data))
            return None
        return data


def _listed(descriptor: int) -> List["os.DirEntry[str]"]:
    """The names of a directory by their bytes."""
    with os.scandir(descriptor) as entries:
        return sorted(entries, key=_NAME_OF)


def _by_name(directory: int, name: str) -> bytes:
    """A path of what stands in an open directory and can't be opened itself."""
    return b"/proc/self/fd/%d/%b" % (directory, os.fsencode(name))


def _attributes(where: Union[int, bytes]) -> List[Tuple[bytes, bytes]]:
    """The extended attributes; none where the system or the file system has none."""
    if not _HAS_ATTRIBUTES:
        return []
    follows = isinstance(where, int)
    try:
        names = os.listxattr(where, follow_symlinks=follows)
        return [(os.fsencode(name), os.getxattr(where, name, follow_symlinks=follows))
                for name in names] if names else []
    except OSError as error:
        if error.errno in limits.NO_ATTRIBUTES or not follows and not os.path.exists("/proc/self"):
            return []
        raise
