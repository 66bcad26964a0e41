"""The members of a tar, read by a reader of its own: ustar, pax and GNU headers, sparse files.

Nothing that a header says makes it slow or large: each header rises in the tar, extended ones have
a bound, and what is of another form is `Broken`.
"""

from functools import lru_cache
from typing import BinaryIO, Dict, Iterator, List, Optional, Tuple
from zlib import adler32

from .blobs import Blob, Broken, reading, skip
from .meta import SECOND, is_time

BLOCK = 512
REGULAR, LINK, SYMLINK, CHARACTER, BLOCK_DEVICE, DIRECTORY, FIFO = (
    b"0", b"1", b"2", b"3", b"4", b"5", b"6")
_WITHOUT_BYTES = frozenset((LINK, SYMLINK, CHARACTER, BLOCK_DEVICE, DIRECTORY, FIFO))
_EXTENDED = frozenset((b"x", b"X", b"g", b"L", b"K"))
_EXTENDED_BYTES = 1 << 20
_EXTENDED_MOST = 16
# What is read rather than sought past.
_READ_PAST = 1 << 16
_STRETCHES_MOST = 1 << 17
_SIZE_MOST = 1 << 62
_EMPTY = bytes(BLOCK)
_BLANKS = b" " * 8
_BLANKS_SUM = 8 * 0x20
_CHARSETS = ("BINARY", "ISO-IR 10646 2000 UTF-8")
Headers = Dict[str, str]
Stretches = Optional[List[Tuple[int, int]]]


class Member:
    """One member: its names as `os.fsdecode` has them, `mtime` in nanoseconds, and where its bytes
    begin. `sparse` has the stretches of a sparse file, of `size` bytes, that follow each other."""

    __slots__ = ("name", "type", "mode", "uid", "gid", "size", "mtime", "linkname", "device",
                 "headers", "offset", "sparse", "stored")

    def __init__(self, kind: bytes, name: str, size: int) -> None:
        self.type = kind
        self.name = name
        self.size = size
        self.mode = self.uid = self.gid = 0
        self.mtime: Optional[int] = None
        self.linkname = ""
        self.device = (0, 0)
        self.headers: Headers = {}
        self.offset = 0
        self.sparse: Stretches = None
        # how many bytes the tar has of it, without what fills the last block
        self.stored = size

    def is_file(self) -> bool:
        """Whether it is a regular file."""
        return self.type == REGULAR

    def is_directory(self) -> bool:
        """Whether it is a directory."""
        return self.type == DIRECTORY


def members(blob: Blob) -> Iterator[Member]:
    """The members of a tar in their order, none of them kept. `blob.has_end` says in the end
    whether the tar had one."""
    with reading(blob.name), blob.plain() as stream:
        yield from _Reader(stream, None if blob.is_compressed() else blob.size, blob).members()


def text_of(raw: bytes) -> str:
    """A name in a tar, up to a NUL."""
    return raw.partition(b"\0")[0].decode("utf-8", "surrogateescape")


def _number(field: bytes) -> int:
    """A number of a header: octal digits, or in base 256."""
    digits = field[:-1]
    if not field[-1] and digits.isdigit():
        return _octal(digits)
    if field[0] in (0x80, 0xFF):
        return int.from_bytes(field[1:], "big") - (256 ** (len(field) - 1) if field[0] & 1 else 0)
    digits = field.partition(b"\0")[0].strip()
    if not digits:
        return 0
    if not digits.isdigit():
        raise Broken("a header with a number of another form")
    return _octal(digits)


@lru_cache(maxsize=4096)
def _mode_and_owner(fields: bytes) -> Tuple[int, int, int]:
    """The mode, the owner and the group of a header, which are the same again and again."""
    return _number(fields[:8]), _number(fields[8:16]), _number(fields[16:])


def _octal(digits: bytes) -> int:
    """A number by its octal digits."""
    try:
        return int(digits, 8)
    except ValueError:
        raise Broken("a header with a number of another form") from None


def _whole(digits: bytes) -> int:
    """A whole number of at most 20 digits."""
    try:
        if len(digits) <= 20 and (digits.isdigit() or digits[:1] == b"-" and digits[1:].isdigit()):
            return int(digits)
    except ValueError:
        pass
    raise Broken("a header with a number of another form")


def _check_sum(block: bytes) -> None:
    """Whether the sum of a header, in which the place of the sum counts as blanks, is right, by
    bytes with or without a sign. The lower half of an Adler-32 is one more than the sum of up to
    256 bytes."""
    field = block[148:156]
    is_usual = field[6:] == b"\0 " and field[:6].isdigit()
    told = _number(field[:7] if is_usual else field)
    if (adler32(block[:256]) & 0xFFFF) + (adler32(block[256:]) & 0xFFFF) - 1 \
            - (adler32(field) & 0xFFFF) + _BLANKS_SUM == told:
        return
    rest = block[:148] + _BLANKS + block[156:]
    if sum(byte - 256 if byte > 127 else byte for byte in rest) != told:
        raise Broken("a header whose sum is wrong")


class _Reader:
    """Goes through one tar from its start."""

    def __init__(self, stream: BinaryIO, whole: Optional[int], blob: Blob) -> None:
        self._stream = stream
        self._whole = whole
        self._blob = blob
        self._at = 0
        self._global: Headers = {}

    def members(self) -> Iterator[Member]:
        """Each member, once all headers before it were read."""
        extended: List[Tuple[bytes, bytes]] = []
        block = self._block()
        if not block:
            raise Broken("it is empty")
        while block and block != _EMPTY:
            _check_sum(block)
            kind, size = block[156:157], _number(block[124:136])
            if kind in _EXTENDED:
                extended.append((kind, self._extension(size)))
                if len(extended) > _EXTENDED_MOST:
                    raise Broken("too many headers for one member")
            else:
                member = self._member(block, kind, size, extended)
                extended = []
                yield member
                self._go_on(member)
            block = self._block()
        if extended:
            raise Broken("it ends after a header")
        self._blob.has_end = bool(block)

    def _block(self) -> bytes:
        block = self._stream.read(BLOCK)
        self._at += len(block)
        if len(block) not in (0, BLOCK):
            if block.strip(b"\0"):
                raise EOFError("it ends too early")
            return b""
        return block

    def _extension(self, size: int) -> bytes:
        """The bytes of a header that tells of the next member."""
        if not 0 <= size <= _EXTENDED_BYTES:
            raise Broken("a header of more than 1 MiB")
        data = self._read(size)
        self._read(-size % BLOCK)
        return data

    def _read(self, count: int) -> bytes:
        data = self._stream.read(count)
        if len(data) < count:
            raise EOFError("it ends too early")
        self._at += count
        return data

    def _member(self, block: bytes, kind: bytes, size: int,
                extended: List[Tuple[bytes, bytes]]) -> Member:
        """The member that a header and those before it tell of."""
        name = text_of(block[:100])
        if block[257:263] == b"ustar\0" and block[345]:
            name = f"{text_of(block[345:500])}/{name}"
        if kind in (b"\0", b"0", b"7", b"S"):
            is_old_directory = kind == b"\0" and name.endswith("/")
            kind_of = DIRECTORY if is_old_directory else REGULAR
        else:
            kind_of = kind
        member = Member(kind_of, name, size)
        member.mode, member.uid, member.gid = _mode_and_owner(block[100:124])
        member.mtime = _number(block[136:148]) * SECOND
        if kind_of in (LINK, SYMLINK):
            member.linkname = text_of(block[157:257])
        elif kind_of in (CHARACTER, BLOCK_DEVICE):
            member.device = _number(block[329:337]), _number(block[337:345])
        if extended or self._global:
            self._extend(member, extended)
        self._place(member, block if kind == b"S" else b"")
        return member

    def _extend(self, member: Member, extended: List[Tuple[bytes, bytes]]) -> None:
        """Gives a member what the headers before it say."""
        stretches: List[Tuple[int, int]] = []
        headers = dict(self._global)
        for kind, data in extended:
            if kind == b"L":
                member.name = text_of(data)
            elif kind == b"K":
                member.linkname = text_of(data)
            elif kind == b"g":
                self._global.update(_records(data, []))
                headers = {**self._global, **headers}
            else:
                headers.update(_records(data, stretches))
        if headers.get("hdrcharset", "BINARY") not in _CHARSETS:
            raise Broken("a header in another charset than UTF-8")
        member.headers = headers
        _describe(member, headers)
        if "GNU.sparse.size" in headers:
            told = headers.get("GNU.sparse.map")
            member.sparse = stretches if told is None else _pairs(told.split(","))

    def _place(self, member: Member, old: bytes) -> None:
        """Where the bytes of a member are, and how many."""
        if not 0 <= member.size < _SIZE_MOST:
            raise Broken("a size that no file has")
        if member.type in _WITHOUT_BYTES:
            member.size = member.stored = 0
        else:
            member.stored = member.size
        stored, begin = member.stored, self._at
        headers = member.headers
        if old:
            member.sparse = self._old_sparse(member, old)
        elif member.sparse is not None:
            member.size = _size(headers["GNU.sparse.size"])
        elif headers.get("GNU.sparse.major") == "1":
            member.sparse = self._sparse_before(stored)
            member.size = _size(headers.get("GNU.sparse.realsize", ""))
            member.stored = stored - (self._at - begin)
        if "GNU.sparse.name" in headers:
            member.name = headers["GNU.sparse.name"]
        member.offset = self._at
        if member.sparse is not None:
            _judge(member)
        if self._whole is not None and member.offset + member.stored > self._whole:
            raise EOFError("it ends too early")

    def _old_sparse(self, member: Member, block: bytes) -> List[Tuple[int, int]]:
        """The stretches of a sparse file of GNU's old form."""
        member.size = _number(block[483:495])
        found = _old_stretches(block[386:482])
        more = block[482]
        while more:
            block = self._read(BLOCK)
            found += _old_stretches(block[:504])
            more = block[504]
            if len(found) > _STRETCHES_MOST:
                raise Broken("a sparse file of too many stretches")
        return found

    def _sparse_before(self, stored: int) -> List[Tuple[int, int]]:
        """The stretches of a sparse file that stand before its bytes."""
        begin, rest = self._at, b""
        words: List[bytes] = []
        while not words or len(words) <= 2 * _whole(words[0]):
            if self._at - begin >= stored or len(words) > 2 * _STRETCHES_MOST:
                raise Broken("a sparse file without the end of its map")
            more = (rest + self._read(BLOCK)).split(b"\n")
            rest = more.pop()
            if len(rest) > 20:
                rest = rest if not rest.strip(b"\0") else b"-"
            words += more
        return _pairs([word.decode("ascii", "replace")
                       for word in words[1:1 + 2 * _whole(words[0])]])

    def _go_on(self, member: Member) -> None:
        """Goes to the next header; the bytes that fill the last block may be missing at the end."""
        count = member.stored
        whole = count + -count % BLOCK
        if self._whole is not None:
            whole = min(whole, self._whole - self._at)
        if whole <= _READ_PAST:
            if len(self._stream.read(whole)) < count:
                raise EOFError("it ends too early")
        else:
            skip(self._stream, count)
            self._stream.read(whole - count)
        self._at += whole


def _records(data: bytes, stretches: List[Tuple[int, int]]) -> Headers:
    """What a pax header says. The stretches of a sparse file, whose keys are there again and again,
    go to a list of their own."""
    found: Headers = {}
    at, end, begin = 0, len(data), 0
    while at < end and data[at]:
        space = data.find(b" ", at, at + 12)
        digits = data[at:space] if space > 0 else b""
        if not digits.isdigit():
            raise Broken("a pax header of another form")
        until = at + int(digits)
        key, equals, value = data[space + 1:until - 1].partition(b"=")
        if until > end or until <= space + 1 or data[until - 1] != 0x0A or not equals:
            raise Broken("a pax header of another form")
        if key == b"GNU.sparse.offset":
            begin = _whole(value)
        elif key == b"GNU.sparse.numbytes":
            stretches.append((begin, _whole(value)))
        else:
            found[key.decode("utf-8", "surrogateescape")] = value.decode("utf-8",
                                                                         "surrogateescape")
        at = until
    return found


def _describe(member: Member, headers: Headers) -> None:
    """Gives a member what a pax header says in place of its own."""
    if headers.get("path"):
        member.name = headers["path"]
    if headers.get("linkpath"):
        member.linkname = headers["linkpath"]
    if headers.get("size"):
        member.size = _size(headers["size"])
    if headers.get("uid"):
        member.uid = _whole(headers["uid"].encode("utf-8", "replace"))
    if headers.get("gid"):
        member.gid = _whole(headers["gid"].encode("utf-8", "replace"))
    if headers.get("mtime"):
        member.mtime = _time(headers["mtime"])


def _time(text: str) -> Optional[int]:
    """A time of a pax header in nanoseconds; None where the attribute can't say it."""
    seconds, _, parts = text.encode("utf-8", "replace").partition(b".")
    if parts and not parts.isdigit():
        raise Broken("a header with a number of another form")
    below = int(parts[:9].ljust(9, b"0"))
    time = _whole(seconds) * SECOND + (-below if seconds[:1] == b"-" else below)
    return time if is_time(time) else None


def _size(text: str) -> int:
    size = _whole(text.encode("utf-8", "replace"))
    if not 0 <= size < _SIZE_MOST:
        raise Broken("a size that no file has")
    return size


def _old_stretches(raw: bytes) -> List[Tuple[int, int]]:
    entries = (raw[at:at + 24] for at in range(0, len(raw), 24))
    return [(_number(entry[:12]), _number(entry[12:])) for entry in entries if entry[0]]


def _pairs(words: List[str]) -> List[Tuple[int, int]]:
    """Stretches of which the beginnings and the lengths follow each other."""
    numbers = [_whole(word.encode("utf-8", "replace")) for word in words if word]
    if len(numbers) % 2 or len(numbers) > 2 * _STRETCHES_MOST:
        raise Broken("a sparse file with a map of another form")
    return list(zip(numbers[::2], numbers[1::2]))


def _judge(member: Member) -> None:
    """Whether the stretches of a sparse file follow each other within it and have their bytes."""
    assert member.sparse is not None
    end = there = 0
    for start, length in member.sparse:
        if not end <= start <= start + length <= member.size:
            raise Broken("a stretch of a sparse file lies outside of it")
        end, there = start + length, there + length
    if not 0 <= member.size < _SIZE_MOST or there > member.stored:
        raise Broken("a sparse file without its bytes")
