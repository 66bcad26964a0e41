"""Manifests of lines, as overlayd and the importer write them, read piece by piece.

A line is a header of a table or `key = value`. A value is a number, a truth, an array, or a text of
one of TOML's four forms, two of which go over several lines. However long the texts of files are,
few of their bytes are held at once.
"""

import json
import re
from binascii import Error, unhexlify
from codecs import getincrementaldecoder
from typing import Any, BinaryIO, Iterator, NamedTuple, Optional, Tuple

from .objects import zeros
from .toml import Found, NotToml, read

LAYER, ENTRY = b"[[layer]]", b"[[layer.entry]]"
BYTES = ("text", "hex", "zeros")
# The most bytes of a value other than a file's bytes, of a line that is read at once, and of what
# is read on in a text.
_HELD_MOST = 1 << 22
_LINE_MOST = 1 << 16
_FIRST_READ, _READ = 1 << 11, 1 << 16
# How many bytes at the end of what was read may belong together with those behind it.
_AHEAD = 10
_KEY = re.compile(rb"[ \t]*([A-Za-z_]+)[ \t]*=[ \t]*")
_LONG_QUOTES = (b'"""', b"'''")
# What stands between the quotes of each form.
_INSIDE = {
    b'"': re.compile(rb'[^"\\\n]*(?:\\[^\n][^"\\\n]*)*'),
    b"'": re.compile(rb"[^'\n]*"),
    b'"""': re.compile(rb'[^"\\]*(?:(?:\\.|"(?!""))[^"\\]*)*', re.DOTALL),
    b"'''": re.compile(rb"[^']*(?:'(?!'')[^']*)*"),
}
# What stands between the texts and brackets of an array.
_BETWEEN = re.compile(rb"[^\"'\[\]#]*")
_ESCAPES = [(b"\\n", b"\n"), (b'\\"', b'"'), (b"\\t", b"\t"), (b"\\r", b"\r"), (b"\\b", b"\b"),
            (b"\\f", b"\f"), (b"\\e", b"\x1b")]
_CODE = re.compile(rb"\\(?:x([0-9A-Fa-f]{2})|u([0-9A-Fa-f]{4})|U([0-9A-Fa-f]{8}))")
# A text that says what it has between its quotes.
_PLAIN = re.compile(rb'"([ !#-\[\]-~]*)"')
_of_json = json.JSONDecoder().decode
_UTF8 = getincrementaldecoder("utf-8")


class OtherForm(Exception):
    """What is read isn't of lines as these programs write them, though it may say the same."""


class Bytes(NamedTuple):
    """The bytes of a file: how many, their key, and where in the manifest the value stands."""

    size: int
    key: str
    place: int


class Line(NamedTuple):
    """A key with its value, which of a file's bytes is a `Bytes`; or a header, which has no key and
    its text as the value."""

    key: str
    value: Any


class Lines:
    """The lines of a stream in which can be sought. Raises `OtherForm`."""

    def __init__(self, stream: BinaryIO) -> None:
        self._stream = stream

    def all(self) -> Iterator[Line]:
        """Each header and each key."""
        begin = 0
        self._stream.seek(0)
        while True:
            line = self._stream.readline(_LINE_MOST)
            words = line.strip()
            if words in (ENTRY, LAYER):
                yield Line("", words)
            elif words and words[:1] != b"#":
                key, value, end = self._pair(line, begin)
                yield Line(key, value)
                begin = end
                continue
            elif not line:
                return
            begin += len(line)

    def layers(self) -> Iterator[int]:
        """Where each layer begins, and then where the last one ends."""
        begin = 0
        self._stream.seek(0)
        while True:
            line = self._stream.readline(_LINE_MOST)
            words = line.strip()
            if words == LAYER:
                yield begin
            elif not line:
                break
            elif words[:1] != b"#" and (len(line) == _LINE_MOST or b'"""' in line
                                        or b"'''" in line):
                begin = self._pair(line, begin)[2]
                continue
            begin += len(line)
        yield begin

    def pieces(self, data: Bytes) -> Iterator[bytes]:
        """The bytes of a file."""
        if data.key == "zeros":
            yield from zeros(data.size)
        elif data.size:
            short = self._short(data) if data.size < _FIRST_READ else None
            if short is None:
                yield from _pieces(data.key, _Cursor(self._stream, data.place))
            else:
                yield short

    def _short(self, data: Bytes) -> Optional[bytes]:
        """The few bytes of a text of one line; None where it is of a seldom form."""
        self._stream.seek(data.place)
        value = self._stream.readline(_LINE_MOST).strip()
        try:
            found = None if value[:3] in _LONG_QUOTES else _said(data.key, value)
        except (ValueError, OtherForm):
            return None
        return found if found is not None and len(found) == data.size else None

    def _pair(self, line: bytes, begin: int) -> Tuple[str, Any, int]:
        """The key of a line and its value, and where the next line begins."""
        found = _KEY.match(line)
        if found is None:
            raise OtherForm("a line that is no `key = value`")
        key, end = found[1].decode("ascii"), found.end()
        place, value = begin + end, line[end:].strip()
        if len(line) < _LINE_MOST and value[:3] not in _LONG_QUOTES:
            try:
                data = _size(key, value) if key in BYTES else _value(value)
                return key, Bytes(data, key, place) if key in BYTES else data, begin + len(line)
            except (ValueError, RecursionError):
                pass
        cursor = _Cursor(self._stream, place)
        if key == "text" or key == "hex":
            data = Bytes(sum(map(len, _pieces(key, cursor))), key, place)
            return key, data, self._line_behind(cursor.place)
        return self._longer(key, cursor)

    def _longer(self, key: str, cursor: "_Cursor") -> Tuple[str, Any, int]:
        """The same of a value that goes over several lines, or is of a seldom form."""
        place = cursor.place
        _go_past(cursor)
        end = cursor.place
        self._stream.seek(place)
        try:
            found = read(b"value = " + self._stream.read(end - place)).members["value"]
        except NotToml:
            raise OtherForm("a value of another form") from None
        value = _plain(found)
        return key, Bytes(value, key, place) if key in BYTES else value, self._line_behind(end)

    def _line_behind(self, end: int) -> int:
        """Where the line begins that follows a value."""
        self._stream.seek(end)
        rest = self._stream.readline(_LINE_MOST)
        if rest.strip() and not rest.strip().startswith(b"#") or len(rest) == _LINE_MOST:
            raise OtherForm("a value with something behind it")
        return end + len(rest)


def _size(key: str, value: bytes) -> int:
    """How many bytes a value of one line says. Raises ValueError where it is of a seldom form."""
    if key == "zeros":
        return int(value.decode("ascii"), 0)
    if key == "hex":
        digits = _between_quotes(value)
        if len(digits) % 2:
            raise ValueError
        return len(digits) // 2
    return len(_said(key, value))


def _said(key: str, value: bytes) -> bytes:
    """The bytes that a text or digits of one line say. Raises ValueError where it is of a seldom
    form."""
    inside = _between_quotes(value)
    if key == "hex":
        return unhexlify(inside)
    if not inside.isascii():
        inside.decode("utf-8")
    quotes = value[:1]
    if b"\\" not in inside or quotes == b"'":
        if quotes in inside:
            raise ValueError
        return inside
    if _INSIDE[quotes].fullmatch(inside) is None:
        raise ValueError
    return _without_escapes(inside)


def _between_quotes(value: bytes) -> bytes:
    """What stands between the quotes of a value of one line."""
    quotes = value[:1]
    if len(value) < 2 or value[-1:] != quotes or quotes not in _INSIDE:
        raise ValueError
    return value[1:-1]


def _value(value: bytes) -> Any:
    """The value of a line; texts of TOML on one line are written as JSON has them, mostly. Raises
    ValueError where it is of a seldom form."""
    plain = _PLAIN.fullmatch(value)
    if plain is not None:
        return plain[1].decode("ascii")
    if value[:1] in (b'"', b"["):
        if b"\\u" in value:
            raise ValueError
        return _of_json(value.decode("utf-8"))
    if value in (b"true", b"false"):
        return value == b"true"
    return int(value.decode("ascii"), 0)


def _plain(found: Found) -> Any:
    """A value without the lines of its parts."""
    if isinstance(found.value, list):
        return [_plain(one) for one in found.value]
    return found.value


class _Cursor:
    """A place in a stream, and what was read from there on."""

    def __init__(self, stream: BinaryIO, place: int) -> None:
        self._stream = stream
        self._stream.seek(place)
        self._count = _FIRST_READ
        self.place = place
        self.data = b""

    def more(self) -> bool:
        """Reads on; False at the end of the stream."""
        self._stream.seek(self.place + len(self.data))
        more = self._stream.read(self._count)
        self._count = _READ
        self.data += more
        return bool(more)

    def has(self, count: int) -> bool:
        """Whether so many bytes follow."""
        while len(self.data) < count:
            if not self.more():
                return False
        return True

    def skip(self, count: int) -> None:
        """Goes on by so many bytes of the data."""
        self.data = self.data[count:]
        self.place += count


def _inside(cursor: _Cursor) -> Iterator[bytes]:
    """What stands between the quotes of the text that begins at the cursor, in pieces that end at
    no part of an escape. Then the cursor is behind it."""
    cursor.has(5)
    quotes = cursor.data[:3] if cursor.data[:3] in _LONG_QUOTES else cursor.data[:1]
    if quotes not in _INSIDE:
        raise OtherForm("a value of another form")
    cursor.skip(len(quotes))
    if len(quotes) == 3 and cursor.data[:1] == b"\n":
        cursor.skip(1)
    while True:
        found = _INSIDE[quotes].match(cursor.data)
        end = 0 if found is None else found.end()
        if len(cursor.data) - end >= _AHEAD:
            break
        count = _sure(cursor.data[:end], quotes)
        yield cursor.data[:count]
        cursor.skip(count)
        if not cursor.more():
            end -= count
            break
    behind = cursor.data[end:end + 5]
    if not behind.startswith(quotes):
        raise OtherForm("a text without an end")
    if len(quotes) == 3:
        end += len(behind) - len(behind.lstrip(quotes[:1])) - 3
    yield cursor.data[:end]
    cursor.skip(end + len(quotes))


def _sure(inside: bytes, quotes: bytes) -> int:
    """How many of the bytes say the same whatever follows them."""
    if len(quotes) == 3:
        inside = inside.rstrip(quotes[:1])
    last = inside.rfind(b"\\", max(0, len(inside) - _AHEAD))
    if quotes[:1] == b"'" or last < 0:
        return len(inside)
    row = last + 1 - len(inside[:last + 1].rstrip(b"\\"))
    return last if row % 2 else len(inside)


def _pieces(key: str, cursor: _Cursor) -> Iterator[bytes]:
    """The bytes that the text at the cursor says."""
    has_escapes = cursor.has(1) and cursor.data[:1] == b'"'
    decoder, half = _UTF8(), b""
    try:
        for piece in _inside(cursor):
            if key == "hex":
                piece = half + piece
                half = piece[len(piece) & ~1:]
                yield unhexlify(piece[:len(piece) & ~1])
            else:
                if not piece.isascii():
                    decoder.decode(piece)
                yield _without_escapes(piece) if has_escapes else piece
        decoder.decode(b"", True)
    except (Error, UnicodeDecodeError):
        raise OtherForm("a text of other bytes") from None
    if half:
        raise OtherForm("an odd number of digits")


def _without_escapes(inside: bytes) -> bytes:
    """What a text with escapes says."""
    if b"\\" not in inside:
        return inside
    return b"\\".join(map(_without_others, inside.split(b"\\\\")))


def _without_others(part: bytes) -> bytes:
    """The same where no escape stands for a backslash."""
    for escape, byte in _ESCAPES:
        if b"\\" not in part:
            return part
        part = part.replace(escape, byte)
    if b"\\" in part:
        part = _CODE.sub(_of_code, part)
        if b"\\" in part:
            raise OtherForm("a text with another escape")
    return part


def _of_code(found: "re.Match[bytes]") -> bytes:
    try:
        return chr(int(found[1] or found[2] or found[3], 16)).encode("utf-8")
    except (ValueError, OverflowError):
        raise OtherForm("a text with an escape for no character") from None


def _go_past(cursor: _Cursor) -> None:
    """Leads the cursor behind a value that is an array, or one of another kind in one line."""
    end, depth = cursor.place + _HELD_MOST, 0
    while cursor.has(1):
        first = cursor.data[:1]
        if first in (b'"', b"'"):
            for _ in _inside(cursor):
                pass
        elif first in (b"[", b"]"):
            depth += 1 if first == b"[" else -1
            cursor.skip(1)
        elif first == b"#" or cursor.place > end:
            raise OtherForm("a value of another form")
        else:
            found = _BETWEEN.match(cursor.data)
            between = b"" if found is None else found[0]
            if depth == 0 and b"\n" in between:
                cursor.skip(between.index(b"\n"))
                return
            cursor.skip(len(between))
            continue
        if depth <= 0:
            return
