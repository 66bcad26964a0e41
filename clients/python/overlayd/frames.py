"""The frames that a client and the server exchange, as bytes.

A frame is a length of four bytes and as many bytes as it says. Nothing here speaks to a server:
`request` gives the bytes of a request, `Splitter` cuts what comes back into the bodies of
replies, and `reply` reads one of them by the op that it answers.
"""

from __future__ import annotations

import enum
import operator
import stat
import struct
from typing import Any, Callable, Dict, List, NamedTuple, Optional, Tuple

from .errors import BadReply
from .watches import Mask, Notice

__all__ = ["FRAME_LIMIT", "TEXT_LIMIT", "Op", "Reply", "Splitter", "Stat", "TooLong",
           "reply", "request"]

FRAME_LIMIT = 70_000
"""The most bytes that a frame has behind its length."""

TEXT_LIMIT = 65_535
"""The most bytes of a text, such as a path, in a frame."""


class Op(enum.IntEnum):
    """The op of each operation, under the name that the client has for it."""

    STAT = 1
    READLINK = 2
    CHMOD = 3
    CHOWN = 4
    SETXATTR = 5
    GETXATTR = 6
    REMOVEXATTR = 7
    LISTXATTR = 8
    MKDIR = 9
    SYMLINK = 10
    OPEN = 11
    UNLINK = 12
    RMDIR = 13
    LINK = 14
    RENAME = 15
    READ = 16
    WRITE = 17
    SEEK = 18
    TRUNCATE = 19
    FSTAT = 20
    NAMES = 21
    CLOSE = 22
    ARM = 23
    DISARM = 24
    NOTICES = 25
    DETACH = 26


class TooLong(ValueError):
    """No frame can carry what was to be sent."""


class Stat(NamedTuple):
    """What `stat` and `fstat` answer, by the names of `os.stat_result`."""

    st_mode: int
    """Type and mode, for the functions of the module `stat`."""
    st_nlink: int
    st_uid: int
    st_gid: int
    st_size: int


class Reply(NamedTuple):
    """One reply: an answer, or the number by which the call was refused."""

    place: Optional[int]
    """The call's place in the history; None where no call was made."""
    refused: Optional[int]
    """The error number of a refusal; None where the call was made."""
    answer: Any
    """What the call answered; None where it answers nothing, or was refused."""


# Requests.

Field = Callable[[Any], bytes]


def _number(form: str) -> Field:
    packed = struct.Struct(">" + form)

    def put(value: Any) -> bytes:
        try:
            return packed.pack(operator.index(value))
        except struct.error:
            raise ValueError(f"{value} doesn't fit into {packed.size} bytes") from None

    return put


_u8, _u32, _u64, _i32, _i64 = (_number(form) for form in "BIQiq")


def _text(value: bytes) -> bytes:
    if len(value) > TEXT_LIMIT:
        raise TooLong(f"a text of {len(value)} bytes")
    return len(value).to_bytes(2, "big") + value


def _block(value: bytes) -> bytes:
    if len(value) > FRAME_LIMIT:
        raise TooLong(f"a block of {len(value)} bytes")
    return len(value).to_bytes(4, "big") + value


_FIELDS: Dict[Op, Tuple[Field, ...]] = {
    Op.STAT: (_text,),
    Op.READLINK: (_text,),
    Op.CHMOD: (_u32, _text),
    Op.CHOWN: (_u32, _u32, _text),
    Op.SETXATTR: (_text, _text, _text),
    Op.GETXATTR: (_text, _text),
    Op.REMOVEXATTR: (_text, _text),
    Op.LISTXATTR: (_text,),
    Op.MKDIR: (_u32, _text),
    Op.SYMLINK: (_text, _text),
    Op.OPEN: (_u8, _u32, _text),
    Op.UNLINK: (_text,),
    Op.RMDIR: (_text,),
    Op.LINK: (_text, _text),
    Op.RENAME: (_text, _text),
    Op.READ: (_u32, _u32),
    Op.WRITE: (_u32, _block),
    Op.SEEK: (_u32, _i64, _u8),
    Op.TRUNCATE: (_u32, _u64),
    Op.FSTAT: (_u32,),
    Op.NAMES: (_u32, _u32),
    Op.CLOSE: (_u32,),
    Op.ARM: (_u8, _u32, _text),
    Op.DISARM: (_i32,),
    Op.NOTICES: (_u32,),
    Op.DETACH: (),
}


def request(op: Op, *values: Any) -> bytes:
    """The frame of a request: an op, and its fields in the order of the formats.

    Texts and blocks are bytes. It raises `TooLong` where no frame can carry them, and
    `ValueError` for a number that its field can't hold.
    """
    fields = _FIELDS[op]
    if len(values) != len(fields):
        raise TypeError(f"{op.name} has {len(fields)} fields, not {len(values)}")
    body = bytes((op,)) + b"".join(put(value) for put, value in zip(fields, values))
    if len(body) > FRAME_LIMIT:
        raise TooLong(f"a frame of {len(body)} bytes")
    return len(body).to_bytes(4, "big") + body


# Replies.


class _Reader:
    """The fields of a reply's body, one after the other."""

    def __init__(self, body: bytes) -> None:
        self._body = body
        self._at = 0

    def take(self, count: int) -> bytes:
        end = self._at + count
        if end > len(self._body):
            raise BadReply("a reply lacks bytes")
        taken = self._body[self._at:end]
        self._at = end
        return taken

    def number(self, count: int, signed: bool = False) -> int:
        return int.from_bytes(self.take(count), "big", signed=signed)

    def text(self) -> bytes:
        return self.take(self.number(2))

    def end(self) -> None:
        if self._at != len(self._body):
            raise BadReply("a reply has bytes behind its end")


_MODE_LIMIT, _SIZE_LIMIT, _NAME_LIMIT, _TARGET_LIMIT = 0o7777, 2**63 - 1, 255, 4_095

_KINDS = {1: stat.S_IFDIR, 2: stat.S_IFREG, 3: stat.S_IFLNK}


def _stat(reader: _Reader) -> Stat:
    kind = _KINDS.get(reader.number(1))
    if kind is None:
        raise BadReply("a reply has an object of an unknown kind")
    mode, uid, gid = reader.number(4), reader.number(4), reader.number(4)
    size, links = reader.number(8), reader.number(4)
    if mode > _MODE_LIMIT or size > _SIZE_LIMIT:
        raise BadReply("a reply has an object whose mode or size nothing has")
    return Stat(kind | mode, links, uid, gid, size)


def _texts(reader: _Reader) -> List[bytes]:
    return [reader.text() for _ in range(reader.number(2))]


def _is_name(name: bytes) -> bool:
    """Whether a directory may have a name."""
    return (1 <= len(name) <= _NAME_LIMIT and name not in (b".", b"..")
            and not {0, 47} & set(name))


def _target(reader: _Reader) -> bytes:
    target = reader.text()
    if not 1 <= len(target) <= _TARGET_LIMIT or 0 in target:
        raise BadReply("a reply has a target that no symbolic link has")
    return target


def _attributes(reader: _Reader) -> List[bytes]:
    names = _texts(reader)
    if not all(1 <= len(name) <= _NAME_LIMIT and 0 not in name for name in names):
        raise BadReply("a reply has a name that no attribute has")
    return names


def _names(reader: _Reader) -> List[bytes]:
    """Names of a directory, which lead to nothing outside of it, in the order of their bytes."""
    names = _texts(reader)
    if not all(map(_is_name, names)):
        raise BadReply("a reply has a name that no directory has")
    if any(one >= other for one, other in zip(names, names[1:])):
        raise BadReply("a reply has names that are out of order")
    return names


def _notice(reader: _Reader) -> Notice:
    wd, mask, cookie = reader.number(4, signed=True), reader.number(4), reader.number(4)
    name = reader.text()
    if name and not _is_name(name):
        raise BadReply("a notice has a name that no directory has")
    return Notice(wd, Mask(mask), cookie, name.decode("utf-8", "surrogateescape"))


def _notices(reader: _Reader) -> List[Notice]:
    return [_notice(reader) for _ in range(reader.number(2))]


_ANSWERS: Dict[Op, Callable[[_Reader], Any]] = {
    Op.STAT: _stat,
    Op.FSTAT: _stat,
    Op.READLINK: _target,
    Op.GETXATTR: _Reader.text,
    Op.READ: lambda reader: reader.take(reader.number(4)),
    Op.OPEN: lambda reader: reader.number(4),
    Op.WRITE: lambda reader: reader.number(4),
    Op.SEEK: lambda reader: reader.number(8),
    Op.NAMES: _names,
    Op.LISTXATTR: _attributes,
    Op.ARM: lambda reader: reader.number(4, signed=True),
    Op.NOTICES: _notices,
}


def reply(op: Op, body: bytes) -> Reply:
    """The reply that a frame's body holds, to a request of this op; `BadReply` if it holds none."""
    reader = _Reader(body)
    status = reader.number(1)
    place = refused = answer = None
    if status in (0, 1):
        place = reader.number(8)
    if status in (1, 2):
        refused = reader.number(1)
        # A number that docs/FORMATS.md doesn't have is a refusal too, of a server that is newer.
        if not refused:
            raise BadReply("a reply refuses by the error 0, which is none")
    elif status == 0:
        answer = _ANSWERS[op](reader) if op in _ANSWERS else None
    else:
        raise BadReply(f"a reply has the unknown status {status}")
    reader.end()
    return Reply(place, refused, answer)


class Splitter:
    """Cuts the bytes of a stream, in whatever pieces they come, into the bodies of frames."""

    def __init__(self) -> None:
        self._bytes = bytearray()

    def feed(self, piece: bytes) -> None:
        """Takes the next bytes of the stream."""
        self._bytes += piece

    def is_empty(self) -> bool:
        """Whether there is no byte of a further frame."""
        return not self._bytes

    def body(self) -> Optional[bytes]:
        """The body of the next frame; None as long as it isn't whole."""
        if len(self._bytes) < 4:
            return None
        length = int.from_bytes(self._bytes[:4], "big")
        if not 1 <= length <= FRAME_LIMIT:
            raise BadReply(f"a reply of {length} bytes")
        if len(self._bytes) < 4 + length:
            return None
        body = bytes(self._bytes[4:4 + length])
        del self._bytes[:4 + length]
        return body
