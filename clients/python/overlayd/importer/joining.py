"""Going on: a saved upper over the lower layers of the manifest of a mount, as one manifest."""

import os
from itertools import chain
from typing import Any, BinaryIO, Dict, Iterator, List, Optional, Tuple

from . import limits
from .lines import Lines, OtherForm
from .output import Output
from .references import References
from .telling import Refused, shown
from .toml import Found, NotToml, Table, read
from .writing import quoted

_PIECE = 1 << 20
_HEAD_BYTES = 1 << 24


def join(saved: str, base: str, output: str) -> None:
    """Writes a manifest: the options of `base`, the one layer of `saved`, the lower layers of
    `base`, whose blobs are named from where the manifest will be."""
    with open(saved, "rb") as first, open(base, "rb") as second:
        _join(_Layers(saved, first), _Layers(base, second), saved, base, output)


def _join(upper: "_Layers", whole: "_Layers", saved: str, base: str, output: str) -> None:
    if whole.options.get("upper") is False:
        raise Refused(f"{shown(base)}: upper = false: nothing of it could be changed, or saved")
    if len(upper.places) != 1 or set(upper.options) - {"file_limit"}:
        raise Refused(f"{shown(saved)}: no saved upper, which is one layer and nothing else")
    if not limits.LAYERS_LEAST <= len(whole.places) <= limits.LOWERS_MOST + 1:
        raise Refused(f"{shown(base)}: a manifest has 2 to 17 layers, and not "
                      f"{len(whole.places)}")
    out = Output(output, waits=False)
    try:
        out.stream.write(_head(whole.options, base, output))
        out.stream.writelines(chain(upper.written(0, 1), whole.written(1, None)))
        out.keep()
    except BaseException:
        out.drop()
        raise


def _head(options: Dict[str, Any], base: str, output: str) -> bytes:
    """The lines of the options."""
    lines = []
    for key, value in options.items():
        if key == "blobs":
            names = References(None if output == "-" else os.path.dirname(output))
            folder = os.path.realpath(os.path.dirname(base))
            for one in value:
                names.add(os.path.join(folder, one.value))
            value = [Found(name, 0) for name in names.names()]
        lines.append(f"{key} = {_text_of(value)}\n")
    return "".join(lines).encode("utf-8")


class _Layers:
    """The options and layers of one manifest. Of one of lines, as overlayd writes them, `places`
    says where in the file each layer begins and ends; another one is read whole."""

    def __init__(self, path: str, stream: BinaryIO) -> None:
        self._path = path
        self._stream = stream
        self._tables: Optional[List[Found]] = None
        self.places, head = self._looked_through()
        top = self._read(head)
        if not self.places:
            top = self._read(self._rest())
            found = top.members.pop("layer", Found([], 1)).value
            if not isinstance(found, list) or not all(isinstance(one.value, Table)
                                                      for one in found):
                raise Refused(f"{shown(path)}: layer: an array of tables")
            self._tables = found
            self.places = [(0, 0)] * len(found)
        self.options = {key: found.value for key, found in top.members.items()}
        blobs = self.options.get("blobs", [])
        if not isinstance(blobs, list) or not all(isinstance(one.value, str) for one in blobs):
            raise Refused(f"{shown(path)}: blobs: an array of texts")

    def _rest(self) -> bytes:
        self._stream.seek(0)
        return self._stream.read()

    def _read(self, data: bytes) -> Table:
        try:
            return read(data)
        except NotToml as fault:
            raise Refused(f"{shown(self._path)}:{fault.line}: {fault}") from None

    def _looked_through(self) -> Tuple[List[Tuple[int, int]], bytes]:
        """Where the layers are, and what is before them; no places where the file has another
        form."""
        try:
            begins = list(Lines(self._stream).layers())
        except OtherForm:
            return [], b""
        if len(begins) < 2 or begins[0] > _HEAD_BYTES:
            return [], b""
        self._stream.seek(0)
        return [*zip(begins, begins[1:])], self._stream.read(begins[0])

    def written(self, first: int, end: Optional[int]) -> Iterator[bytes]:
        """The lines of the layers from one on."""
        for number in range(len(self.places))[first:end]:
            if self._tables is not None:
                yield _layer_text(self._tables[number].value, self._path)
                continue
            begin, until = self.places[number]
            self._stream.seek(begin)
            yield b"\n"
            while begin < until:
                piece = self._stream.read(min(_PIECE, until - begin))
                if not piece:
                    raise Refused(f"{shown(self._path)}: it was changed while it was read")
                begin += len(piece)
                yield piece


def _layer_text(layer: Table, path: str) -> bytes:
    """A layer as lines."""
    entries = layer.members.get("entry", Found([], 1)).value
    if set(layer.members) - {"entry"} or not isinstance(entries, list):
        raise Refused(f"{shown(path)}: a layer has entry alone, an array of tables")
    parts = ["\n[[layer]]\n"]
    for entry in entries:
        if not isinstance(entry.value, Table):
            raise Refused(f"{shown(path)}:{entry.line}: entry: an array of tables")
        lines = (f"{key} = {_text_of(found.value)}\n" for key, found in
                 entry.value.members.items())
        parts.append("\n[[layer.entry]]\n" + "".join(lines))
    return "".join(parts).encode("utf-8")


def _text_of(value: Any) -> str:
    """A value as TOML has it."""
    if isinstance(value, bool):
        return "true" if value else "false"
    if isinstance(value, int):
        return str(value)
    if isinstance(value, str):
        return quoted(value)
    if isinstance(value, list):
        return f"[{', '.join(_text_of(one.value) for one in value)}]"
    raise Refused("a manifest that overlayd doesn't take: see --check")
