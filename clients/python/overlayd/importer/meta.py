"""What the bridge to FUSE keeps in attributes of its own: kinds, times, and other attributes.

The names and forms are told in clients/python/ATTRIBUTES.md.
"""

import re
from typing import Dict, Iterable, List, NamedTuple, Optional, Tuple

PRIVATE = "user.overlayd."
META = PRIVATE + "meta"
XATTR = PRIVATE + "xattr."
LINKS = PRIVATE + "links."
XATTR_BYTES = 512
LINKS_MOST = 48
SECOND = 1_000_000_000
KINDS = {"p": "a fifo", "s": "a socket", "c": "a character device", "b": "a block device"}
DEVICES = "cb"
_META = re.compile(r"1 ([-pscb]) (\d{1,20}) " + " ".join([r"(-?\d{1,19})\.(\d{9})"] * 3))
_TIME = re.compile(r"(-?\d{1,19})\.(\d{9})")
_LINKS = re.compile(re.escape(LINKS) + "(0|[1-9][0-9]?)")
_HEX = re.compile(rb"(?:[0-9a-f]{2})*")
_TIME_MOST = 1 << 63
_DEVICE_MOST = 1 << 64


class Meta(NamedTuple):
    """What the attribute says: `-` or the letter of a kind, a device's number, and the times of
    access, change and status, in nanoseconds."""

    kind: str = "-"
    device: int = 0
    access: int = 0
    change: int = 0
    status: int = 0


def is_time(nanoseconds: int) -> bool:
    """Whether the attribute can say this time."""
    return -_TIME_MOST <= nanoseconds // SECOND < _TIME_MOST


def meta_text(meta: Meta) -> str:
    """The value of the attribute."""
    times = (f"{time // SECOND}.{time % SECOND:09d}" for time in meta[2:])
    return f"1 {meta.kind} {meta.device} {' '.join(times)}"


def _time_text(nanoseconds: int) -> str:
    return f"{nanoseconds // SECOND}.{nanoseconds % SECOND:09d}"


def changed_at(mtime: int) -> str:
    """The value for what has no kind of its own and one time, in nanoseconds."""
    time = _time_text(mtime)
    return f"1 - 0 {time} {time} {time}"


def links_texts(times: Dict[str, int], most: int, room: int) -> Tuple[List[str], int]:
    """The values of a directory's attributes with the times of the symbolic links in it, by their
    names, each of at most `most` bytes and `room` in all; and for how many links there is none."""
    values: List[str] = []
    here, size, before, left = "", 0, None, 0
    for time, name in sorted((time, name) for name, time in times.items()):
        head, count = _time_text(time), len(name.encode()) + 1
        if here and size + count + (0 if time == before else len(head) + 2) > most:
            values.append(here)
            here, size, before = "", 0, None
        if len(values) >= room:
            left += 1
            continue
        if time != before:
            here += ("//" if here else "") + head
        here, before = f"{here}/{name}", time
        size = len(here.encode())
    return values + [here] * bool(here), left


def read_links(pairs: Iterable[Tuple[str, str]]) -> Dict[str, int]:
    """The times of symbolic links that the attributes of their directory say. Of a name that stands
    twice the later value counts, by the attributes' numbers."""
    values: Dict[int, str] = {}
    for key, value in pairs:
        told = _LINKS.fullmatch(key)
        if told is not None and int(told[1]) < LINKS_MOST:
            values[int(told[1])] = value
    found: Dict[str, int] = {}
    for _, value in sorted(values.items()):
        for part in value.split("//"):
            time, *names = part.split("/")
            told = _TIME.fullmatch(time)
            if told is not None and time.isascii() and is_time(int(told[1]) * SECOND):
                found.update(dict.fromkeys(names, int(told[1]) * SECOND + int(told[2])))
    return found


def read_meta(text: str) -> Optional[Meta]:
    """What a value says; None where it has another form."""
    found = _META.fullmatch(text)
    if found is None or not text.isascii():
        return None
    kind, device, *parts = found.groups()
    times = [int(parts[i]) * SECOND + int(parts[i + 1]) for i in range(0, 6, 2)]
    if int(device) >= _DEVICE_MOST or not all(map(is_time, times)):
        return None
    return Meta(kind, int(device) if kind in DEVICES else 0, *times)


def hidden(name: bytes, value: bytes) -> Optional[Tuple[str, str]]:
    """The attribute that keeps another one; None where none can."""
    try:
        text = XATTR + name.decode("utf-8")
    except UnicodeDecodeError:
        return None
    if len(value) > XATTR_BYTES or len(text.encode()) > 255 or b"\0" in name:
        return None
    return text, value.hex()


def shown_by(name: str, value: bytes) -> Optional[Tuple[str, bytes]]:
    """The attribute that an attribute keeps, by its name and value; None where it keeps none."""
    if not name.startswith(XATTR) or name == XATTR or _HEX.fullmatch(value) is None:
        return None
    return name[len(XATTR):], bytes.fromhex(value.decode("ascii"))
