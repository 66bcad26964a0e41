"""Writes manifests, entry by entry."""

import codecs
import re
from binascii import hexlify
from functools import lru_cache
from typing import BinaryIO, Dict, Iterator, List, Optional, Sequence, Tuple

from .limits import ATTRIBUTES_MOST, MODE_BITS, VALUE_BYTES, text_of
from .meta import LINKS, LINKS_MOST, META, SECOND, Meta, changed_at, links_texts, meta_text
from .objects import (ZEROS, Attributes, Content, Data, Directory, File, Inode, Long, Object,
                      Part, Symlink, Whiteout, link_times, walk)
from .stores import Store
from .telling import ATTRIBUTE, Refused, Report, shown

_CONTROLS = bytes(set(range(0x20)) - set(b"\n\t")) + b"\x7f"
_SHORT = b"\\\"\n\t"
_PRINTABLE = bytes(set(range(0x20, 0x7F)) - set(_SHORT))
_SHORT_ESCAPES = [(b"\\", b"\\\\"), (b'"', b'\\"'), (b"\n", b"\\n"), (b"\t", b"\\t")]
_ESCAPES = [(bytes([code]), b"\\u%04x" % code) for code in _CONTROLS]
# Whether a text of TOML has these characters as they are.
is_plain = re.compile(r'[ !#-\[\]-~]*').fullmatch
_UTF8 = codecs.getincrementaldecoder("utf-8")
_ZERO_DIGITS = hexlify(ZEROS)
# The modes that a manifest doesn't say.
_FILE_MODE, _DIRECTORY_MODE = 0o644, 0o755
_META = META.encode("ascii")


def _special(raw: bytes) -> bytes:
    """Those of the bytes that don't stand for themselves in a TOML text of ASCII alone."""
    return raw.translate(None, _PRINTABLE)


def _added(special: bytes) -> int:
    """How many bytes escapes add to what has these special ones."""
    others = special.translate(None, _SHORT)
    return len(special) - len(others) + (5 * _controls(others) if others else 0)


def _controls(raw: bytes) -> int:
    return len(raw) - len(raw.translate(None, _CONTROLS))


def _escaped(raw: bytes, special: bytes) -> bytes:
    """The inside of a TOML text, of bytes that are UTF-8 and have these special ones."""
    if not special.strip(b"\n"):
        return raw.replace(b"\n", b"\\n")
    for plain, escape in _SHORT_ESCAPES:
        if plain in special:
            raw = raw.replace(plain, escape)
    if _controls(special):
        for plain, escape in _ESCAPES:
            raw = raw.replace(plain, escape)
    return raw


def quoted(text: str) -> str:
    """A TOML text."""
    if is_plain(text):
        return f'"{text}"'
    raw = text.encode("utf-8")
    return f'"{_escaped(raw, _special(raw)).decode("utf-8")}"'


def entry_head(base: str) -> bytes:
    """The beginning of an entry, to which the end of its path, of plain characters, is added."""
    return f"\n[[layer.entry]]\npath = {quoted(base)[:-1]}".encode("utf-8")


@lru_cache(maxsize=4096)
def mode_and_owner(mode: int, uid: int, gid: int) -> bytes:
    """The lines of a file's entry that say so much."""
    node = File(mode & MODE_BITS, uid, gid, (), 0)
    return "".join(f"{line}\n" for line in _inode_lines(node, _FILE_MODE)).encode("utf-8")


def time_line(mtime: int) -> bytes:
    """The line of an entry that says the time, and nothing more of attributes."""
    time = b"%d.%09d" % divmod(mtime, SECOND)
    return b'attrs = [["%b", "1 - 0 %b %b %b"]]\n' % (_META, time, time, time)


def bytes_line(data: bytes) -> bytes:
    """The line of an entry that says a file's bytes, in the shortest of the three forms."""
    if not data:
        return b""
    if not data[0] and not data.strip(b"\0"):
        return b"zeros = %d\n" % len(data)
    special = _special(data)
    if _added(special) <= len(data) and (special.isascii() or text_of(data) is not None):
        return b'text = "%b"\n' % _escaped(data, special)
    return b'hex = "%b"\n' % hexlify(data)


def part_lines(part: Part) -> bytes:
    """The lines that say where a file's bytes stand in a blob."""
    return b"blob = %d\nat = %d\nsize = %d\n" % part


def long_lines(data: Long, path: str) -> Iterator[bytes]:
    """The line that says bytes that are too many to be held, piece by piece. Refused where they
    aren't the same when they are read again."""
    form = _form_of(data)
    if form == "zeros":
        yield b"zeros = %d\n" % data.size
        return
    yield b'%b = "' % form.encode()
    count = 0
    decoder = _UTF8()
    for piece in data.pieces():
        count += len(piece)
        if form == "text":
            _go_on(decoder, piece, path)
            yield _escaped(piece, _special(piece))
        else:
            yield _ZERO_DIGITS if piece is ZEROS else hexlify(piece)
    if form == "text":
        _go_on(decoder, b"", path)
    if count != data.size:
        raise _changed(path)
    yield b'"\n'


def _changed(path: str) -> Refused:
    return Refused(f"{shown(path)}: it was changed while it was read")


def _go_on(decoder: codecs.IncrementalDecoder, piece: bytes, path: str) -> None:
    """The next piece of a text, or its end; refused where it is none any more."""
    try:
        decoder.decode(piece, not piece)
    except UnicodeDecodeError:
        raise _changed(path) from None


def _form_of(data: Long) -> str:
    """The shortest form for bytes: `zeros`, `text` or `hex`."""
    decoder, is_text, added, is_zero = _UTF8(), True, 0, True
    for piece in data.pieces():
        is_zero = is_zero and (piece is ZEROS or not piece.strip(b"\0"))
        if is_text:
            try:
                decoder.decode(piece)
                added += 5 * len(piece) if piece is ZEROS else _added(_special(piece))
            except UnicodeDecodeError:
                is_text = False
        if not is_text and not is_zero:
            return "hex"
    if is_zero:
        return "zeros"
    try:
        decoder.decode(b"", True)
    except UnicodeDecodeError:
        return "hex"
    return "text" if added <= data.size else "hex"


class ManifestWriter:
    """Writes a manifest to a binary stream: options first, then layers and their entries."""

    def __init__(self, out: BinaryIO, redirect_dir: Optional[str] = None,
                 metacopy: Optional[str] = None, history: Optional[int] = None,
                 upper: bool = True, file_limit: Optional[int] = None,
                 blobs: Sequence[str] = (), store: Optional[Store] = None) -> None:
        self._out = out
        self._store = store
        self._began = False
        self.layers = 0
        self.objects = 0
        self.bytes = 0
        if not upper:
            self._line("upper = false")
        if redirect_dir is not None:
            self._line(f"redirect_dir = {quoted(redirect_dir)}")
        if metacopy is not None:
            self._line(f"metacopy = {quoted(metacopy)}")
        if history is not None:
            self._line(f"history = {history}")
        if file_limit is not None:
            self._line(f"file_limit = {file_limit}")
        if blobs:
            self._line(f"blobs = [{', '.join(quoted(name) for name in blobs)}]")

    def layer(self) -> None:
        """Begins a layer."""
        if self._began:
            self._out.write(b"\n")
        self._line("[[layer]]")
        self.layers += 1

    def root(self, node: Directory) -> None:
        """Says what the root of the layer is like, where it isn't as a root is by default."""
        plain = (node.mode, node.uid, node.gid, node.attrs, node.mtime, link_times(node))
        if plain != (0o755, 0, 0, (), None, {}):
            self._entry("/", "dir", _inode_lines(node, _DIRECTORY_MODE))

    def directory(self, path: str, node: Directory) -> None:
        """A directory other than the root."""
        lines = _inode_lines(node, _DIRECTORY_MODE)
        if node.opaque:
            lines.append("opaque = true")
        if node.redirect is not None:
            lines.append(f"redirect = {quoted(node.redirect)}")
        self._entry(path, "dir", lines)

    def file(self, path: str, node: File, data: Data) -> None:
        """A file with its bytes."""
        lines = _file_lines(path, node)
        if isinstance(data, bytes):
            self.plain_file(lines, data)
            return
        self._out.write(lines)
        self.objects += 1
        self.bytes += data.size
        kept = data if self._store is None else self._store.keep(data)
        if isinstance(kept, Part):
            self._out.write(part_lines(kept))
        elif isinstance(kept, Long):
            self._out.writelines(long_lines(kept, path))

    def plain_file(self, lines: bytes, data: bytes) -> None:
        """A file whose entry is there but for its bytes, and these."""
        kept = None if self._store is None else self._store.keep_bytes(data)
        self._out.write(lines + (bytes_line(data) if kept is None else part_lines(kept)))
        self.objects += 1
        self.bytes += len(data)

    def symlink(self, path: str, node: Symlink) -> None:
        """A symbolic link."""
        lines = [f"target = {quoted(node.target)}"]
        self._entry(path, "symlink", _owner_lines(node) + lines)

    def whiteout(self, path: str) -> None:
        """The mark that hides what is below."""
        self._entry(path, "whiteout", [])

    def link(self, path: str, to: str) -> None:
        """A further name of what was written at `to`."""
        self._entry(path, "link", [f"to = {quoted(to)}"])

    def _line(self, line: str) -> None:
        self._out.write(line.encode("utf-8") + b"\n")
        self._began = True

    def _entry(self, path: str, kind: str, lines: List[str]) -> None:
        self._out.write(_entry_lines(path, kind, lines))
        self.objects += 1


def _entry_lines(path: str, kind: str, lines: List[str]) -> bytes:
    head = ["\n[[layer.entry]]", f"path = {quoted(path)}", f'kind = "{kind}"']
    return "\n".join([*head, *lines, ""]).encode("utf-8")


def _file_lines(path: str, node: File) -> bytes:
    """The lines of a file's entry but for its bytes."""
    if node.attrs or node.special is not None:
        return _entry_lines(path, "file", _inode_lines(node, _FILE_MODE))
    return b'\n[[layer.entry]]\npath = %b\nkind = "file"\n%b%b' % (
        quoted(path).encode("utf-8"), mode_and_owner(node.mode, node.uid, node.gid),
        b"" if node.mtime is None else time_line(node.mtime))


def _owner_lines(node: Inode) -> List[str]:
    lines = []
    if node.uid:
        lines.append(f"uid = {node.uid}")
    if node.gid:
        lines.append(f"gid = {node.gid}")
    return lines


def _inode_lines(node: Inode, mode: int) -> List[str]:
    """The lines of an entry for what isn't as it is by default, `mode`."""
    lines = [f"mode = 0o{node.mode:o}"] if node.mode != mode else []
    lines += _owner_lines(node)
    pairs = _pairs(node)
    if pairs:
        lines.append(f"attrs = [{', '.join(pairs)}]")
    return lines


def link_attributes(node: Inode) -> Tuple[Attributes, int]:
    """The attributes with the times of the symbolic links in a directory; and of how many there is
    no room for them beside those of the directory."""
    times = link_times(node) if isinstance(node, Directory) else {}
    if not times or any(name.startswith(LINKS) for name, _ in node.attrs):
        return (), 0
    room = min(LINKS_MOST, ATTRIBUTES_MOST - 1 - len(node.attrs))
    values, left = links_texts(times, VALUE_BYTES, room)
    return tuple((f"{LINKS}{number}", value) for number, value in enumerate(values)), left


def _pairs(node: Inode) -> List[str]:
    """The user attributes of an object, with the one that has its kind and times, if it fits."""
    special = node.special if isinstance(node, File) else None
    attrs = node.attrs + link_attributes(node)[0]
    if special is not None:
        attrs = tuple(pair for pair in attrs if pair[0] != META)
    found = [f"[{quoted(name)}, {quoted(value)}]" for name, value in attrs]
    time = node.mtime or 0
    if len(found) < ATTRIBUTES_MOST:
        if special is not None:
            found.append(f'["{META}", "{meta_text(Meta(*special, time, time, time))}"]')
        elif node.mtime is not None:
            found.append(f'["{META}", "{changed_at(time)}"]')
    return found


class LayerWriter:
    """Writes what one layer has; a second name of one object becomes a link."""

    def __init__(self, writer: ManifestWriter, what: str, report: Report) -> None:
        self._writer = writer
        self._what = what
        self._report = report
        self._first: Dict[int, Tuple[Object, str]] = {}
        writer.layer()

    def again(self, path: str, node: Object) -> bool:
        """Writes a further name of what stands already; False where this is its first."""
        first = self._first.get(id(node))
        if first is None:
            return False
        self._writer.link(path, first[1])
        return True

    def has(self, node: Object) -> bool:
        """Whether an object that may have more names was written."""
        return id(node) in self._first

    def first(self, path: str, node: Object) -> None:
        """Keeps the first name of an object that may have more."""
        if isinstance(node, (File, Symlink)) and node.linked:
            self._first[id(node)] = (node, path)

    def plain(self, path: str, node: Object) -> None:
        """Writes what has no bytes: a directory, a symbolic link or a whiteout."""
        self._report.progress(self._what, self._writer.objects, self._writer.bytes)
        if isinstance(node, Inode) and len(node.attrs) >= ATTRIBUTES_MOST:
            self._untimed(path, node)
        if isinstance(node, Directory):
            left = link_attributes(node)[1]
            if left:
                self._report.leave_out(self._what, path, ATTRIBUTE,
                                       f"the times of {left} symbolic links in it")
            if path == "/":
                self._writer.root(node)
            else:
                self._writer.directory(path, node)
        elif isinstance(node, Symlink):
            self._writer.symlink(path, node)
            self.first(path, node)
        elif isinstance(node, Whiteout):
            self._writer.whiteout(path)

    def _untimed(self, path: str, node: Inode) -> None:
        """Tells of what has as many user attributes as fit, so that its own isn't written."""
        if node.mtime is not None or isinstance(node, File) and node.special is not None:
            self._report.leave_out(self._what, path, ATTRIBUTE,
                                   "its kind and times: it has 64 user attributes")

    def plain_file(self, lines: bytes, data: bytes) -> None:
        """Writes a file that has one name, of which all is said but the bytes."""
        self._report.progress(self._what, self._writer.objects, self._writer.bytes)
        self._writer.plain_file(lines, data)

    def file(self, path: str, node: File, data: Data) -> None:
        """Writes a file under its first name."""
        self._report.progress(self._what, self._writer.objects, self._writer.bytes)
        if len(node.attrs) >= ATTRIBUTES_MOST:
            self._untimed(path, node)
        self._writer.file(path, node, data)
        self.first(path, node)


class Files:
    """Files that are written when all else of their layer is there."""

    def __init__(self) -> None:
        self._paths: Dict[Content, Dict[File, List[str]]] = {}
        self._again: List[Tuple[str, Object]] = []

    def add(self, path: str, file: File) -> None:
        """A path at which a file stands. Where it has no further names and stands at several, as
        below two directories that lead to one, it is a file of its own at each."""
        paths = self._paths.setdefault(file.source, {}).setdefault(file, [])
        if paths and file.linked:
            self.add_again(path, file)
        else:
            paths.append(path)

    def add_again(self, path: str, node: Object) -> None:
        """A further name of what is written by then, or of one of the files."""
        self._again.append((path, node))

    def write(self, layer: LayerWriter) -> None:
        """Writes the files of each source, as they come there, the source of the first path first;
        then further names."""
        for source, paths in self._paths.items():
            for file, data in source.read_each(paths):
                for path in paths[file]:
                    layer.file(path, file, data)
        for path, node in self._again:
            layer.again(path, node)


def write_tree(layer: LayerWriter, root: Directory) -> None:
    """Writes a whole tree: first what has no bytes, by paths; then the files."""
    files = Files()
    for path, node in walk(root):
        if isinstance(node, File):
            files.add(path, node)
        elif layer.has(node):
            files.add_again(path, node)
        else:
            layer.plain(path, node)
    files.write(layer)
