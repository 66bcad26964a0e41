"""Reads TOML 1.1 and keeps the line of each value, which no reader of Python's own tells.

It is for manifests that a person has written: what it refuses is told with its line.
"""

import math
import re
from bisect import bisect_left
from typing import Any, Dict, List, NamedTuple, Tuple

DEPTH_MOST = 80
_NEWLINE = re.compile(r"\r?\n")
_BLANK = re.compile(r"[ \t]*")
_COMMENT = re.compile(r"#[^\x00-\x08\x0a-\x1f\x7f]*")
_BARE = re.compile(r"[A-Za-z0-9_-]+")
_PLAIN = re.compile(r'[^"\\\x00-\x08\x0a-\x1f\x7f]+')
_LITERAL = re.compile(r"[^'\x00-\x08\x0a-\x1f\x7f]*")
_WORD = re.compile(r"[0-9A-Za-z_+.:-]+")
_DAY = re.compile(r"\d{4}-\d\d-\d\d")
_TIME = re.compile(r"[Tt ](?=\d\d:\d\d)")
_MOMENT = re.compile(r"(\d{4}-\d\d-\d\d)?([Tt ]?\d\d:\d\d(:\d\d(\.\d+)?)?([Zz]|[+-]\d\d:\d\d)?)?")
_DECIMAL = re.compile(r"[+-]?(0|[1-9](_?\d)*)")
_BASED = re.compile(r"0(x[0-9A-Fa-f](_?[0-9A-Fa-f])*|o[0-7](_?[0-7])*|b[01](_?[01])*)")
_FLOAT = re.compile(r"[+-]?((0|[1-9](_?\d)*)(\.\d(_?\d)*)?([eE][+-]?\d(_?\d)*)?|inf|nan)")
_DIGITS = {"x": 2, "u": 4, "U": 8}
_ESCAPES = {"b": "\b", "t": "\t", "n": "\n", "f": "\f", "r": "\r", "e": "\x1b", '"': '"',
            "\\": "\\"}


class NotToml(Exception):
    """What is wrong with a document, and in which line."""

    def __init__(self, line: int, what: str) -> None:
        super().__init__(what)
        self.line = line


class Found(NamedTuple):
    """A value and its line: a text, a whole number, a truth, a list, a table, or another."""

    value: Any
    line: int


class Other(NamedTuple):
    """A value of a kind that no manifest has: a float or a moment."""

    text: str


class Table:
    """A table: its keys with what they lead to, and how it came to be."""

    def __init__(self, made: str) -> None:
        self.made = made
        self.members: Dict[str, Found] = {}


class Tables(List[Found]):
    """An array that headers in double brackets have made."""


def read(data: bytes) -> Table:
    """The top table of a document. Raises `NotToml`."""
    try:
        text = data.decode("utf-8")
    except UnicodeDecodeError as fault:
        line = data.count(b"\n", 0, fault.start) + 1
        raise NotToml(line, "bytes that aren't UTF-8") from None
    return _Reader(text).document()


class _Reader:
    """Goes through a text from left to right."""

    def __init__(self, text: str) -> None:
        self._text = text
        self._at = 0
        self._breaks = [found.start() for found in re.finditer("\n", text)]

    def document(self) -> Table:
        """The whole of it."""
        top = Table("header")
        table = top
        while True:
            self._skip(_BLANK)
            if self._looks("["):
                table = self._header(top)
            elif not self._looks("#", "\n", "\r\n") and self._at < len(self._text):
                self._pair(table, 0)
            if self._end_of_line():
                return top

    # what there is next

    def _line(self) -> int:
        return bisect_left(self._breaks, self._at) + 1

    def _fail(self, what: str) -> NotToml:
        rest = self._text[self._at:self._at + 12].split("\n")[0]
        return NotToml(self._line(), f"{what}, and not {rest!r}" if rest else what)

    def _looks(self, *texts: str) -> bool:
        return self._text.startswith(texts, self._at)

    def _take(self, text: str) -> bool:
        if not self._text.startswith(text, self._at):
            return False
        self._at += len(text)
        return True

    def _skip(self, pattern: "re.Pattern[str]") -> str:
        found = pattern.match(self._text, self._at)
        if found is None:
            return ""
        self._at = found.end()
        return found.group()

    def _end_of_line(self) -> bool:
        """Goes past the end of a line; whether that is the end of the text."""
        self._skip(_BLANK)
        self._skip(_COMMENT)
        if self._at == len(self._text):
            return True
        if not self._skip(_NEWLINE):
            raise self._fail("a line ends after its value or header")
        return False

    def _gap(self) -> None:
        """Goes past blanks, comments and line ends, as they may stand inside brackets."""
        while self._skip(_BLANK) or self._skip(_COMMENT) or self._skip(_NEWLINE):
            pass

    # keys and headers

    def _key(self) -> List[str]:
        """The parts of a key."""
        parts = []
        while True:
            self._skip(_BLANK)
            if self._looks('"', "'"):
                parts.append(self._one_line_text())
            else:
                word = self._skip(_BARE)
                if not word:
                    raise self._fail("a key has letters, digits, _ and -, or quotes round it")
                parts.append(word)
            self._skip(_BLANK)
            if len(parts) > DEPTH_MOST:
                raise self._fail(f"a key has at most {DEPTH_MOST} parts")
            if not self._take("."):
                return parts

    def _header(self, top: Table) -> Table:
        """The table that a header begins."""
        line, many = self._line(), self._text.startswith("[[", self._at)
        close = "]]" if many else "]"
        self._at += len(close)
        parts = self._key()
        if not self._take(close):
            raise self._fail(f"a header ends with {close}")
        table = top
        for part in parts[:-1]:
            table = self._below(table, part, line, "implied")
        return self._begun(table, parts[-1], line, many)

    def _begun(self, table: Table, key: str, line: int, many: bool) -> Table:
        """The table under the last part of a header's key."""
        there = table.members.get(key)
        begun = Table("header")
        if many:
            if there is None:
                there = table.members[key] = Found(Tables(), line)
            if not isinstance(there.value, Tables):
                raise NotToml(line, f"{key} is there already, and is no array of tables")
            there.value.append(Found(begun, line))
        elif there is None:
            table.members[key] = Found(begun, line)
        elif isinstance(there.value, Table) and there.value.made == "implied":
            there.value.made = "header"
            return there.value
        else:
            raise NotToml(line, f"{key} is there already, from line {there.line} on")
        return begun

    def _below(self, table: Table, key: str, line: int, made: str) -> Table:
        """The table under a part of a key that isn't its last, made where it isn't there."""
        there = table.members.get(key)
        if there is None:
            there = table.members[key] = Found(Table(made), line)
        value = there.value
        if made == "implied" and isinstance(value, Tables):
            value = value[-1].value
        if isinstance(value, Table) and value.made != "inline":
            if made == "implied" or value.made == made:
                return value
        raise NotToml(line, f"{key} is there already, from line {there.line} on")

    def _pair(self, table: Table, depth: int) -> None:
        """A key and its value."""
        line = self._line()
        parts = self._key()
        if not self._take("="):
            raise self._fail("= follows a key")
        self._skip(_BLANK)
        for part in parts[:-1]:
            table = self._below(table, part, line, "dotted")
        if parts[-1] in table.members:
            there = table.members[parts[-1]]
            raise NotToml(line, f"{parts[-1]} is there already, from line {there.line} on")
        table.members[parts[-1]] = self._value(depth)

    # values

    def _value(self, depth: int) -> Found:
        """A value, inside so many brackets."""
        line = self._line()
        if depth == DEPTH_MOST and self._looks("[", "{"):
            raise self._fail(f"arrays and inline tables are nested at most {DEPTH_MOST} deep")
        if self._looks('"""'):
            return Found(self._long_text(), line)
        if self._looks("'''"):
            return Found(self._long_literal(), line)
        if self._looks('"', "'"):
            return Found(self._one_line_text(), line)
        if self._take("["):
            return Found(self._array(depth + 1), line)
        if self._take("{"):
            return Found(self._inline(depth + 1), line)
        return Found(self._scalar(), line)

    def _array(self, depth: int) -> List[Found]:
        found: List[Found] = []
        self._gap()
        while not self._take("]"):
            found.append(self._value(depth))
            self._gap()
            if not self._take(",") and not self._looks("]"):
                raise self._fail("a comma or ] follows a value of an array")
            self._gap()
        return found

    def _inline(self, depth: int) -> Table:
        table = Table("dotted")
        self._gap()
        while not self._take("}"):
            self._pair(table, depth)
            self._gap()
            if not self._take(",") and not self._looks("}"):
                raise self._fail("a comma or } follows a value of an inline table")
            self._gap()
        _close(table)
        return table

    def _scalar(self) -> Any:
        begin = self._at
        word = self._skip(_WORD)
        if _DAY.fullmatch(word) and _TIME.match(self._text, self._at):
            self._at += 1
            word += " " + self._skip(_WORD)
        if word in ("true", "false"):
            return word == "true"
        if _DECIMAL.fullmatch(word) or _BASED.fullmatch(word):
            number = int(word.replace("_", ""), 0 if _BASED.fullmatch(word) else 10)
            if -1 << 63 <= number < 1 << 63:
                return number
            self._at = begin
            raise self._fail("a whole number has at most 64 bits")
        is_large = "e" in word.lower() and _FLOAT.fullmatch(word) and math.isinf(float(word))
        if not is_large and word and (_FLOAT.fullmatch(word) or _MOMENT.fullmatch(word)):
            return Other(word)
        self._at = begin
        raise self._fail("a value: a text in quotes, a number, true, false, an array or a table")

    # texts

    def _one_line_text(self) -> str:
        if self._take("'"):
            text = self._skip(_LITERAL)
            if not self._take("'"):
                raise self._fail("a text ends with ' in its line")
            return text
        self._at += 1
        parts = []
        while not self._take('"'):
            parts.append(self._skip(_PLAIN) or self._escape("a text ends with \" in its line"))
        return "".join(parts)

    def _escape(self, otherwise: str) -> str:
        """What a backslash and the letter behind it say."""
        if not self._take("\\"):
            raise self._fail(otherwise)
        letter = self._text[self._at:self._at + 1]
        count = _DIGITS.get(letter, 0)
        digits = self._text[self._at + 1:self._at + 1 + count]
        if count and re.fullmatch(r"[0-9A-Fa-f]{%d}" % count, digits):
            code = int(digits, 16)
            if code < 0x110000 and not 0xD800 <= code < 0xE000:
                self._at += 1 + count
                return chr(code)
        elif letter in _ESCAPES and letter:
            self._at += 1
            return _ESCAPES[letter]
        raise self._fail("no such escape")

    def _long_text(self) -> str:
        self._at += 3
        self._skip(_NEWLINE)
        parts: List[str] = []
        while not self._looks('"""'):
            if self._take('"'):
                parts.append('"')
            elif self._folded():
                continue
            else:
                parts.append(self._skip(_PLAIN) or self._skip(_NEWLINE)
                             or self._escape('a text ends with """'))
        return "".join(parts) + self._closing('"')

    def _folded(self) -> bool:
        """Goes past a backslash at the end of a line, and all blank that follows."""
        found = re.compile(r"\\[ \t]*\r?\n[ \t\r\n]*").match(self._text, self._at)
        if found is not None:
            self._at = found.end()
        return found is not None

    def _long_literal(self) -> str:
        self._at += 3
        self._skip(_NEWLINE)
        parts: List[str] = []
        while not self._looks("'''"):
            part = self._skip(_LITERAL) or self._skip(_NEWLINE)
            if not part and not self._take("'"):
                raise self._fail("a text ends with '''")
            parts.append(part or "'")
        return "".join(parts) + self._closing("'")

    def _closing(self, quote: str) -> str:
        """The one or two quotes that stand before the three that end a text."""
        more = 0
        while more < 2 and self._text.startswith(quote, self._at + 3 + more):
            more += 1
        self._at += 3 + more
        return quote * more


def _close(table: Table) -> None:
    """An inline table, and those that its keys have made, take no more keys."""
    waiting: List[Tuple[Table, str]] = [(table, "dotted")]
    while waiting:
        one, made = waiting.pop()
        one.made = "inline"
        waiting += [(below.value, made) for below in one.members.values()
                    if isinstance(below.value, Table) and below.value.made == made]
