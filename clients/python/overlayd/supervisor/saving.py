"""Saves of an upper while its mount is served, by a client."""

import contextlib
import errno
import threading
from typing import Any, BinaryIO, Callable, List, Optional, Set, Tuple, TypeVar

from ..client import Client
from ..errors import Disconnected
from ..exporter import Change, Entry, LowerTree, MountTree, Tree, Unsayable, changes
from ..importer import objects
from ..importer.telling import shown
from ..importer.writing import ManifestWriter
from ..new_file import NewFile

T = TypeVar("T")

# How often a save begins anew where the mount was changed under it.
_TRIES = 3


class Saver(threading.Thread):
    """Writes what a mount has over its lower layers to a file, each time after so many seconds."""

    def __init__(self, manifest: str, path: str, target: str, every: float,
                 say: Callable[[str], None]) -> None:
        super().__init__(daemon=True)
        self._manifest, self._path, self._target = manifest, path, target
        self._every, self._say = every, say
        self._ending = threading.Event()
        self._lock = threading.Lock()

    def stop(self) -> None:
        """From now on no save takes the file's name: the server writes the last one."""
        self._ending.set()
        with self._lock:
            pass

    def run(self) -> None:
        client = self._attached(None)
        while not self._ending.wait(self._every):
            client = self._attached(client)
            if client is not None:
                self._told(self._save, client)

    def _attached(self, client: Optional[Client]) -> Optional[Client]:
        """The client, or another one in place of one that lost its connection, as by --idle."""
        if client is not None:
            with contextlib.suppress(Disconnected):
                client.stat("/")
                return client
        client = self._told(lambda path: Client(path, timeout=60), self._path)
        return client if client is not None and self._told(client.stat, "/") else None

    def _told(self, make: Callable[[Any], T], what: Any) -> Optional[T]:
        """What is made, or a line on why it isn't."""
        try:
            return make(what)
        except (OSError, Unsayable, MemoryError) as error:
            if not self._ending.is_set():
                self._say(f"not saved: {error or 'out of memory'}")
            return None

    def _save(self, client: Client) -> None:
        lower = LowerTree(self._manifest)
        for left in reversed(range(_TRIES)):
            try:
                self._replace(lower, client)
                return
            except (FileNotFoundError, NotADirectoryError, Unsayable):
                if not left or client.closed:
                    raise

    def _replace(self, lower: Tree, client: Client) -> None:
        """Writes a file beside the target, which takes its name when it is on the disk."""
        found = _found(lower, MountTree(client))
        with NewFile(self._target) as new:
            left_out = write_upper_manifest(found, Mounted(client), new.stream)
            new.sync()
            with self._lock:
                if self._ending.is_set():
                    return
                new.keep()
        if left_out:
            self._say(f"saved without {len(left_out)} objects that no manifest can say, the first "
                      f"of them {shown(left_out[0])}")


def _found(lower: Tree, mounted: Tree) -> List[Change]:
    """What the mount has over the lower layers; its root in any case, which is the upper's."""
    found = changes(lower, mounted)
    if found and found[0].path == "/":
        return found
    return [Change("/", next(iter(mounted.entries()))), *found]


class Mounted:
    """The attributes and bytes of what a mount shows, as the server has them."""

    def __init__(self, client: Client) -> None:
        self._client = client

    def attributes(self, path: str) -> List[Tuple[str, bytes]]:
        """The user attributes of a file or directory, in their order."""
        names = self._client.listxattr(path)
        with self._client.pipeline() as batch:
            values = [batch.getxattr(path, name) for name in names]
        return [(name, value.result()) for name, value in zip(names, values)]

    def read(self, path: str) -> bytes:
        """The bytes of a file."""
        return self._client.read_bytes(path)


def write_upper_manifest(found: List[Change], mounted: Mounted, stream: BinaryIO) -> List[str]:
    """Writes changes as a manifest of one layer, as `overlayd serve --save` does; the paths of
    what no manifest can say, which is left out with what is in it. What has gone meanwhile is a
    whiteout."""
    writer = ManifestWriter(stream)
    writer.layer()
    left_out: List[str] = []
    files: Set[str] = set()
    for change in found:
        if left_out and change.path.startswith(left_out[-1] + "/"):
            continue
        try:
            _write(writer, change, mounted, files)
        except UnicodeError:
            left_out.append(change.path)
    return left_out


def _write(writer: ManifestWriter, change: Change, mounted: Mounted, files: Set[str]) -> None:
    """Writes one change; `UnicodeError` before anything is written where it can't be said. `files`
    has the files that were written, to which further names can lead."""
    entry, path = change.entry, change.path
    path.encode("utf-8")
    if entry is None:
        writer.whiteout(path)
    elif change.link_to in files:
        writer.link(path, change.link_to or "")
    elif entry.kind == "symlink":
        writer.symlink(path, objects.Symlink(entry.uid, entry.gid, entry.target))
    elif entry.kind == "dir":
        attrs = _sayable(mounted.attributes(path))
        node = objects.Directory(entry.mode, entry.uid, entry.gid, attrs)
        node.opaque = change.opaque
        writer.root(node) if path == "/" else writer.directory(path, node)
    elif _write_file(writer, change, entry, mounted):
        files.add(path)


def _write_file(writer: ManifestWriter, change: Change, entry: Entry, mounted: Mounted) -> bool:
    """Writes a file; False where it is there no more, and a whiteout is written."""
    try:
        attrs, data = _sayable(mounted.attributes(change.path)), mounted.read(change.path)
    except OSError as error:
        if error.errno not in (errno.ENOENT, errno.ENOTDIR, errno.EISDIR, errno.ENODATA):
            raise
        writer.whiteout(change.path)
        return False
    node = objects.File(entry.mode, entry.uid, entry.gid, attrs, len(data))
    writer.file(change.path, node, data)
    return True


def _sayable(attrs: List[Tuple[str, bytes]]) -> Tuple[Tuple[str, str], ...]:
    """Attributes as the texts of a manifest; `UnicodeError` where they are none."""
    return tuple((name.encode("utf-8").decode("utf-8"), value.decode("utf-8"))
                 for name, value in attrs)
