"""Layers that are tars, with the whiteouts of image layers or the marks of overlayfs."""

import tempfile
from typing import BinaryIO, Callable, Iterable, Iterator, Optional, Tuple, cast

from .blobs import Blob, reading, skip
from .keeping import Keep
from .members import Stretches
from .merging import Layer, Merge
from .objects import PIECE, Content, Data, Directory, File, Long, Object, Part, all_in, zeros
from .references import References
from .tar_trees import read_tree
from .telling import Report
from .writing import LayerWriter, write_tree


class TarLayer(Content, Layer):
    """A tar as a layer; `below` has the layers under it. What `keep` doesn't say is left out."""

    def __init__(self, blob: Blob, report: Report, below: Merge, keep: Keep) -> None:
        self.name = blob.name
        self.covers = True
        self.keep = keep
        self._blob = blob
        self._report = report
        self._below = below
        self._tree: Optional[Directory] = None
        self._number: Optional[int] = None
        self._begin = 0

    def tree(self) -> Directory:
        """All that stands in it, without bytes; read once."""
        if self._tree is None:
            self._tree = read_tree(self, self._blob, self._report, self._below)
        return self._tree

    def refer(self, references: References) -> None:
        """Has the bytes of its files referred to, where it is a file that can be, and has some."""
        in_file = self._blob.in_file()
        if in_file is not None and any(map(self._refers_to, all_in(self.tree()))):
            self._number = references.number(in_file[0])
            self._begin = in_file[1]

    def has_own_bytes(self) -> bool:
        """Whether it has bytes that aren't referred to."""
        return any(isinstance(node, File) and node.source is self and node.size > 0
                   and (self._number is None or not self._refers_to(node))
                   for node in all_in(self.tree()))

    def _refers_to(self, node: Object) -> bool:
        return (isinstance(node, File) and node.source is self and node.size > 0
                and _place(node)[1] is None)

    def _part(self, offset: int, size: int) -> Part:
        """Where the bytes of a file are in the blob."""
        if offset + size > self._blob.size:
            raise EOFError("it ends too early")
        assert self._number is not None
        return Part(self._number, self._begin + offset, size)

    def write(self, layer: LayerWriter) -> None:
        """Writes the layer; the tar is read once more, for the bytes."""
        write_tree(layer, self.tree())

    def read_each(self, files: Iterable[File]) -> Iterator[Tuple[File, Data]]:
        """The files with their bytes, as they come in the tar; some may have the same place."""
        is_plain = not self._blob.is_compressed()
        here, last, data = 0, -1, cast(Data, b"")
        with reading(self.name), self._blob.plain() as stream:
            for file in sorted(files, key=_offset):
                if not file.size:
                    yield file, b""
                    continue
                place = file.place
                offset, stretches = (place, None) if isinstance(place, int) else _place(file)
                if self._number is not None and stretches is None:
                    yield file, self._part(offset, file.size)
                    continue
                if offset != last and file.size > PIECE and is_plain:
                    data = self._long(self._blob.raw, offset, file.size, stretches)
                    last = offset
                elif offset != last:
                    skip(stream, offset - here)
                    stored = _stored(file.size, stretches)
                    data = self._taken(stream, file.size, stored, stretches)
                    here, last = offset + stored, offset
                yield file, data

    def _taken(self, stream: BinaryIO, size: int, stored: int, stretches: Stretches) -> Data:
        """The bytes of a file that begins here; long ones are kept in a temporary file."""
        if size <= PIECE and stored <= PIECE:
            if stretches is not None:
                return b"".join(_pieces(stream, size, stretches))
            data = stream.read(size)
            if len(data) < size:
                raise EOFError("it ends too early")
            return data
        kept = cast(BinaryIO, tempfile.TemporaryFile(prefix="overlayd-import-"))
        for piece in _read(stream, stored):
            kept.write(piece)
        return self._long(lambda: kept, 0, size, stretches)

    def _long(self, opened: Callable[[], BinaryIO], offset: int, size: int,
              stretches: Stretches) -> Long:
        """The bytes of a long file, from a stream that can be read again and again."""

        def pieces() -> Iterator[bytes]:
            with reading(self.name):
                stream = opened()
                stream.seek(offset)
                yield from _pieces(stream, size, stretches)

        return Long(size, pieces)


def _place(file: File) -> Tuple[int, Stretches]:
    place = file.place
    if isinstance(place, int):
        return place, None
    assert isinstance(place, tuple)
    return place


def _offset(file: File) -> int:
    place = file.place
    if isinstance(place, int):
        return place
    return 0 if place is None else _place(file)[0]


def _stored(size: int, stretches: Stretches) -> int:
    """How many bytes the tar has of a file."""
    return size if stretches is None else sum(length for _, length in stretches)


def _read(stream: BinaryIO, count: int) -> Iterator[bytes]:
    """So many bytes of a stream, piece by piece."""
    while count > 0:
        data = stream.read(min(count, PIECE))
        if not data:
            raise EOFError("it ends too early")
        yield data
        count -= len(data)


def _pieces(stream: BinaryIO, size: int, stretches: Stretches) -> Iterator[bytes]:
    """The bytes of a file that begins here; of a sparse one its stretches follow each other."""
    at = 0
    for start, length in [(0, size)] if stretches is None else stretches:
        yield from zeros(start - at)
        yield from _read(stream, length)
        at = start + length
    yield from zeros(size - at)
