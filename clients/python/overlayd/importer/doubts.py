"""What is no fault of a manifest and is likely a mistake."""

import posixpath
import re
from typing import Any, Dict, Iterator, List, NamedTuple, Tuple

from .meta import DEVICES, KINDS, META, read_meta
from .toml import Found, Table

_DECIMAL_MODE = re.compile(rb"\bmode[ \t]*=[ \t]*([1-7][0-7]{2,3})\b")


class Doubt(NamedTuple):
    """What is odd in a line."""

    line: int
    place: str
    what: str


def doubts_of(top: Table, data: bytes) -> List[Doubt]:
    """The doubts of a manifest without a fault, by their lines."""
    layers: List[List[Found]] = [_entries(layer) for layer in top.members["layer"].value]
    lines = data.split(b"\n")
    found = list(_empty(top, layers))
    below: List[Dict[str, Any]] = [{_value(entry, "path"): entry.value.members
                                    for entry in entries} for entries in layers]
    for number, entries in enumerate(layers):
        for index, entry in enumerate(entries):
            place = f"layer {number} entry {index}: {_value(entry, 'path')}"
            for key, what in (*_mode(entry, lines), *_redirect(entry, below[number + 1:]),
                              *_device(entry)):
                found.append(Doubt(entry.value.members[key].line, f"{place}: {key}", what))
    return sorted(found)


def _entries(layer: Found) -> List[Found]:
    entries = layer.value.members.get("entry")
    return entries.value if entries is not None else []


def _value(entry: Found, key: str) -> Any:
    found = entry.value.members.get(key)
    return None if found is None else found.value


def _empty(top: Table, layers: List[List[Found]]) -> Iterator[Doubt]:
    """Layers without entries: all of them, or a lower one of several."""
    listed = top.members["layer"]
    if not any(layers):
        yield Doubt(listed.line, "layer", "no layer has an entry; entries stand under "
                    "[[layer.entry]], behind the [[layer]] that they are of")
        return
    has_upper = "upper" not in top.members or top.members["upper"].value
    for number, entries in enumerate(layers):
        if not entries and number >= has_upper and len(layers) > 2:
            yield Doubt(listed.value[number].line, f"layer {number}",
                        "a lower layer without entries, which shows nothing")


def _mode(entry: Found, lines: List[bytes]) -> Iterator[Tuple[str, str]]:
    """A decimal mode of octal digits, where the mode that it says is an odd one."""
    mode = _value(entry, "mode")
    if mode is None or _is_usual(mode):
        return
    line = lines[entry.value.members["mode"].line - 1]
    if any(int(digits) == mode for digits in _DECIMAL_MODE.findall(line)):
        yield "mode", f"{mode} is decimal, and says 0o{mode:o}; is 0o{mode} meant?"


def _is_usual(mode: int) -> bool:
    """Whether the owner may read, and nobody may what those before him may not."""
    owner, group, other = mode >> 6 & 7, mode >> 3 & 7, mode & 7
    return bool(owner & 4) and not group & ~owner and not other & ~group


def _redirect(entry: Found, below: List[Dict[str, Any]]) -> Iterator[Tuple[str, str]]:
    """A redirect to a path at which no layer below has a directory."""
    redirect = _value(entry, "redirect")
    if redirect is None or _value(entry, "opaque"):
        return
    path = redirect if redirect.startswith("/") else posixpath.join(
        posixpath.dirname(_value(entry, "path")), redirect)
    above = path
    while above != "/":
        for layer in below:
            there = layer.get(above)
            if there is not None and (above == path and there["kind"].value == "dir"
                                      or above != path and "redirect" in there):
                return
        above = posixpath.dirname(above)
    if not redirect.startswith("/") and posixpath.dirname(_value(entry, "path")) != "/":
        return
    yield "redirect", f"no layer below has a directory at {path}, so it leads to nothing"


def _device(entry: Found) -> Iterator[Tuple[str, str]]:
    """The attribute by which a file is a device on a mount."""
    for pair in _value(entry, "attrs") or ():
        name, value = (part.value for part in pair.value)
        meta = read_meta(value) if name == META else None
        if meta is not None and meta.kind in DEVICES:
            yield "attrs", (f"{META} says that this file is {KINDS[meta.kind]}, number "
                            f"{meta.device}")
