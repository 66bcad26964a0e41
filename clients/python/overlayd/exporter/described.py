"""What attributes of the bridge's own say of an object: its kind, its times, other attributes."""

from typing import Dict, Optional, Tuple

from ..importer.meta import LINKS, META, PRIVATE, read_links, read_meta, shown_by
from .trees import DIRECTORY, FILE, SPECIAL, SYMLINK, Entry, name_of, parent_of

Attributes = Tuple[Tuple[str, bytes], ...]


def described(entry: Entry) -> Entry:
    """The entry as these attributes describe it, and without them."""
    attrs: Attributes = entry.attrs
    told: Optional[bytes] = None
    if len(attrs) == 1 and attrs[0][0] == META:  # as of most objects
        attrs, told = (), attrs[0][1]
    elif any(name.startswith(PRIVATE) for name, _ in attrs):
        attrs, told = _parted(attrs)
    else:
        return entry
    meta = None if told is None else read_meta(told.decode("utf-8", "replace"))
    if meta is None:
        return entry._replace(attrs=attrs)
    if entry.kind != FILE or meta.kind not in SPECIAL:
        return entry._replace(attrs=attrs, mtime=meta.change, told=told)
    return entry._replace(attrs=attrs, mtime=meta.change, told=told, kind=SPECIAL[meta.kind],
                          device=meta.device, size=0)


def _parted(attrs: Attributes) -> Tuple[Attributes, Optional[bytes]]:
    """The attributes that an object has by these, and the one that tells of its kind and times."""
    plain = {name: value for name, value in attrs if not name.startswith(PRIVATE)}
    told: Optional[bytes] = None
    for name, value in attrs:
        kept = shown_by(name, value)
        if kept is not None:
            plain.setdefault(*kept)
        elif name == META:
            told = value
    return tuple(plain.items()), told


def link_times_in(entry: Entry) -> Dict[str, int]:
    """The times of symbolic links that the attributes of their directory say."""
    return read_links((name, value.decode("utf-8", "replace"))
                      for name, value in entry.attrs if name.startswith(LINKS))


def timed(link: Entry, told: Optional[int]) -> Entry:
    """The entry of a symbolic link with the time that its directory says."""
    return link if told is None else link._replace(mtime=told, told=b"%d" % told)


class LinkTimes:
    """The times of symbolic links, which the attributes of their directories say. A directory comes
    before what is in it."""

    def __init__(self) -> None:
        self._told: Dict[str, Dict[str, int]] = {}

    def described(self, entry: Entry) -> Entry:
        """The entry as attributes of its own describe it, or its directory's."""
        if entry.kind == DIRECTORY:
            found = link_times_in(entry)
            if found:
                self._told[entry.path] = found
        if entry.kind != SYMLINK:
            return described(entry)
        return timed(entry, self._told.get(parent_of(entry.path), {}).get(name_of(entry.path)))
