"""Watches: the masks of `arm`, and the notices that it brings."""

from __future__ import annotations

import enum
from typing import NamedTuple

__all__ = ["Mask", "Notice"]


class Mask(enum.IntFlag):
    """Events and options of watches, by their names in inotify(7) without `IN_`.

    `arm` takes one or more events, from ACCESS to MOVE_SELF, and the options ONLYDIR, MASK_ADD
    and ONESHOT. Q_OVERFLOW, IGNORED and ISDIR are in notices alone.
    """

    ACCESS = 0x1
    MODIFY = 0x2
    ATTRIB = 0x4
    CLOSE_WRITE = 0x8
    CLOSE_NOWRITE = 0x10
    OPEN = 0x20
    MOVED_FROM = 0x40
    MOVED_TO = 0x80
    CREATE = 0x100
    DELETE = 0x200
    DELETE_SELF = 0x400
    MOVE_SELF = 0x800
    Q_OVERFLOW = 0x4000
    IGNORED = 0x8000
    ONLYDIR = 0x1000000
    MASK_ADD = 0x20000000
    ISDIR = 0x40000000
    ONESHOT = 0x80000000
    CLOSE = 0x18
    MOVE = 0xC0
    ALL_EVENTS = 0xFFF

    def __str__(self) -> str:
        """The names of its bits, as `CREATE|ISDIR`; bits without one in hexadecimal."""
        bits = {name: int(one) for name, one in Mask.__members__.items() if _is_bit(int(one))}
        names = [name for name, bit in bits.items() if int(self) & bit]
        rest = int(self) & ~sum(bits.values())
        return "|".join([*names, hex(rest)] if rest or not names else names)

    def __format__(self, form: str) -> str:
        return format(int(self), form) if form else str(self)


def _is_bit(number: int) -> bool:
    return number & (number - 1) == 0


class Notice(NamedTuple):
    """What a watch heard."""

    wd: int
    """The watch's number; -1 where notices were lost (Q_OVERFLOW)."""
    mask: Mask
    """The event, and ISDIR beside it where it concerns a directory."""
    cookie: int
    """The same number in MOVED_FROM and MOVED_TO of one rename, else 0."""
    name: str
    """The name in the watched directory; empty where the event is the object's own."""
