"""The layers that manifests describe, as trees."""

from typing import Any, BinaryIO, Dict, Iterator, List, Optional, Sequence, Tuple

from ..importer import objects
from ..importer.limits import FILE_LIMIT
from ..importer.lines import BYTES, ENTRY, Bytes, Lines, OtherForm
from ..importer.meta import read_links
from ..importer.objects import Part
from ..importer.telling import shown
from .described import described
from .judging import judge, refusal
from .layered import LayeredTree, PackedFile, Source, names_of
from .shelves import packed
from .stretches import Blobs
from .trees import FILE, Entry, name_of, parent_of
from .unsayable import Unsayable

_DIRECTORY_MODE, _FILE_MODE = 0o755, 0o644
_LINKED = (PackedFile, objects.Symlink)
_NO_BYTES: Tuple[Any, Tuple[Any, ...]] = 0, ()


class Manifest:
    """The layers that a manifest describes; `has_upper` says whether the first one is an upper,
    without which nothing can be changed, and `file_limit` how many bytes a file has at most.

    A manifest of lines, as `overlayd-import` writes it, is read as a stream, and the bytes of a
    file when they are asked for; any other one is read whole, from Python 3.11 on.
    """

    def __init__(self, path: str) -> None:
        self.path = path
        # of objects with further names how many there are, by identity, for which they are kept
        self.links: Dict[int, int] = {}
        self._linked: List[objects.Object] = []
        self._last: Tuple[Optional[objects.Directory], str, Optional[objects.Object]]
        try:
            self.source: Source = _OfLines(path)
            self.layers = self._read(self.source)
        except OtherForm as fault:
            self.source = _Whole(path, str(fault))
            self.layers = self._read(self.source)
        self.has_upper = self.source.has_upper
        self.file_limit = self.source.file_limit

    def lowers(self) -> List[objects.Directory]:
        """The lower layers, of a manifest of a mount."""
        if len(self.layers) < 2:
            raise Unsayable(f"{shown(self.path)}: a manifest has two layers or more")
        return self.layers[1:] if self.has_upper else self.layers

    def _read(self, source: "Source") -> List[objects.Directory]:
        layers: List[objects.Directory] = []
        self.links.clear()
        self._last = None, "", None
        for entry in source.entries():
            if entry is None:
                layers.append(objects.Directory(0o755, 0, 0))
            elif layers:
                self._place(layers[-1], entry)
            else:
                raise OtherForm("an entry before the first layer")
        return layers

    def _place(self, root: objects.Directory, entry: Dict[str, Any]) -> None:
        """Puts what an entry describes into its layer."""
        path, kind = entry["path"], entry["kind"]
        if path == "/":
            if kind != "dir":
                raise refusal(self.path, "/ is a directory")
            _describe(root, entry)
            return
        parent, name = self._parent(root, parent_of(path)), name_of(path)
        node = objects.at(root, names_of(entry["to"])) if kind == "link" else _node(entry)
        if node is None or not isinstance(parent, objects.Directory) \
                or kind == "link" and not isinstance(node, _LINKED):
            raise refusal(self.path, shown(path))
        if kind == "link":
            self._linked.append(node)
            self.links[id(node)] = self.links.get(id(node), 1) + 1
        if isinstance(node, objects.Symlink):
            node.mtime = parent.links.get(name, node.mtime)
        if isinstance(node, objects.Directory) \
                or isinstance(parent.children.get(name), objects.Directory):
            self._last = None, "", None
        parent.children[name] = node

    def _parent(self, root: objects.Directory, path: str) -> Optional[objects.Object]:
        """What stands at the path of a directory; entries of one follow each other, mostly."""
        if self._last[0] is not root or self._last[1] != path:
            self._last = root, path, objects.at(root, names_of(path))
        return self._last[2]


class LowerTree(LayeredTree):
    """What the lower layers of a manifest show together."""

    def __init__(self, path: str) -> None:
        self.manifest = Manifest(path)
        self.has_upper = self.manifest.has_upper
        lowers = self.manifest.lowers()
        super().__init__(lowers, [self.manifest.source] * len(lowers), self.manifest.links)


class SavedTree(LayeredTree):
    """What a saved upper shows over lower layers. Its hard links are known."""

    def __init__(self, saved: Manifest, lower: LowerTree) -> None:
        lowers = lower.manifest.lowers()
        super().__init__([saved.layers[0], *lowers],
                         [saved.source, *[lower.manifest.source] * len(lowers)],
                         {**saved.links, **lower.manifest.links})


def _describe(node: objects.Directory, entry: Dict[str, Any]) -> None:
    node.mode = entry.get("mode", _DIRECTORY_MODE)
    node.uid, node.gid = entry.get("uid", 0), entry.get("gid", 0)
    node.attrs = tuple((name, value) for name, value in entry.get("attrs", ()))
    node.links = read_links(node.attrs)


def _node(entry: Dict[str, Any]) -> Optional[objects.Object]:
    """What an entry other than a link describes."""
    kind = entry["kind"]
    if kind == "whiteout":
        return objects.WHITEOUT
    if kind == "symlink":
        return objects.Symlink(entry.get("uid", 0), entry.get("gid", 0), entry["target"])
    if kind == "file":
        return _file(entry)
    if kind == "dir":
        directory = objects.Directory(0, 0, 0)
        directory.opaque = entry.get("opaque", False)
        directory.redirect = entry.get("redirect")
        _describe(directory, entry)
        return directory
    return None


def _file(entry: Dict[str, Any]) -> PackedFile:
    """A file, in the few bytes that are kept of it."""
    size, place = entry["bytes"]
    attrs = tuple((name, value.encode("utf-8")) for name, value in entry.get("attrs", ()))
    said = Entry("", FILE, entry.get("mode", _FILE_MODE), entry.get("uid", 0), entry.get("gid", 0),
                 attrs, size)
    return PackedFile(packed(described(said), place))


class _OfLines(Source):
    """A manifest of lines: headers of tables, and `key = value`."""

    def __init__(self, path: str) -> None:
        self.path = path
        self._stream: BinaryIO = open(path, "rb")
        self._lines = Lines(self._stream)
        self._blobs = Blobs(path, [])

    def __del__(self) -> None:
        if hasattr(self, "_stream"):
            self._stream.close()

    def entries(self) -> Iterator[Optional[Dict[str, Any]]]:
        entry: Optional[Dict[str, Any]] = None
        data = _NO_BYTES
        for key, value in self._lines.all():
            if not key:
                if entry is not None:
                    yield self._checked(entry, data)
                entry, data = ({}, _NO_BYTES) if value == ENTRY else (None, _NO_BYTES)
                if entry is None:
                    yield None
            elif entry is None:
                self._option(key, value)
            elif key in BYTES:
                data = value.size, (value.key, value.place)
            else:
                entry[key] = value
        if entry is not None:
            yield self._checked(entry, data)

    def _checked(self, entry: Dict[str, Any], data: Tuple[Any, Tuple[Any, ...]]) -> Dict[str, Any]:
        """An entry with all its lines."""
        judge(self.path, entry)
        part = self._blobs.part(entry)
        if part is not None:
            data = part.size, ("blob", part.at, part.blob)
        if type(data[0]) is not int or data[0] < 0:
            raise refusal(self.path, f"{shown(entry['path'])}: its bytes")
        entry["bytes"] = data
        return entry

    def _option(self, key: str, value: Any) -> None:
        """A line before the first entry of a layer."""
        if key == "upper" and isinstance(value, bool):
            self.has_upper = value
        elif key == "blobs" and _are_texts(value):
            self._blobs = Blobs(self.path, value)
        elif key == "file_limit" and isinstance(value, int):
            self.file_limit = value
        elif key not in ("redirect_dir", "metacopy", "history"):
            raise OtherForm(f"the key {key} before the first entry")

    def pieces(self, size: int, place: Sequence[Any]) -> Iterator[bytes]:
        if place and place[0] == "blob":
            yield from self._blobs.pieces(Part(place[2], place[1], size))
        elif place:
            try:
                yield from self._lines.pieces(Bytes(size, *place))
            except OtherForm as fault:
                raise refusal(self.path, str(fault)) from None


class _Whole(Source):
    """Any manifest, read whole."""

    def __init__(self, path: str, why: str) -> None:
        self.path = path
        try:
            import tomllib
        except ImportError:
            raise Unsayable(f"{path}: not as overlayd-import writes manifests ({why}); Python "
                            "reads others from 3.11 on") from None
        with open(path, "rb") as stream:
            try:
                self._manifest = tomllib.load(stream)
            except (ValueError, RecursionError) as fault:
                raise Unsayable(f"{path}: no TOML: {fault}") from None
        self.has_upper = self._manifest.get("upper") is not False
        self.file_limit = self._manifest.get("file_limit", FILE_LIMIT)
        names = self._manifest.get("blobs", [])
        if not isinstance(self.file_limit, int) or not _are_texts(names):
            raise refusal(path, "file_limit or blobs")
        self._blobs = Blobs(path, names)

    def entries(self) -> Iterator[Optional[Dict[str, Any]]]:
        for number, layer in enumerate(self._listed(self._manifest, "layer")):
            yield None
            for index, entry in enumerate(self._listed(layer, "entry")):
                judge(self.path, entry)
                part = self._blobs.part(entry)
                size = _count(entry) if part is None else part.size
                yield {**entry, "bytes": (size, (number, index))}

    def _listed(self, table: Any, key: str) -> List[Any]:
        """What stands at a key of a table, which is an array."""
        found = table.get(key, []) if isinstance(table, dict) else None
        if not isinstance(found, list):
            raise refusal(self.path, f"{key}: an array of tables")
        return found

    def pieces(self, size: int, place: Sequence[Any]) -> Iterator[bytes]:
        layer, index = place
        entry = self._manifest["layer"][layer]["entry"][index]
        part = self._blobs.part(entry)
        if part is not None:
            yield from self._blobs.pieces(part)
        elif "text" in entry:
            yield entry["text"].encode("utf-8")
        elif "hex" in entry:
            yield bytes.fromhex(entry["hex"])
        else:
            yield from objects.zeros(size)


def _are_texts(found: Any) -> bool:
    return isinstance(found, list) and all(isinstance(one, str) for one in found)


def _count(entry: Dict[str, Any]) -> int:
    """How many bytes an entry says, of those that stand in the manifest."""
    if "text" in entry:
        return len(entry["text"].encode("utf-8"))
    return len(entry["hex"]) // 2 if "hex" in entry else int(entry.get("zeros", 0))
