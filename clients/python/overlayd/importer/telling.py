"""What is said on standard error: what was left out, how far it is, and the sum of it."""

import time
from typing import Dict, Optional, TextIO, Tuple, Union

PROGRAM = "overlayd-import"
_LINES_MOST = 32

OTHER_KIND = "of another kind"
OVER_LIMIT = "over the limit"
UNSAYABLE = "names and targets"
ATTRIBUTE = "attributes"
MARK = "marks of overlayfs"
LOST = "without what they lead to"


class Refused(Exception):
    """The import ends, for the reason that this says in one line."""


def _raw_of(text: str) -> bytes:
    try:
        return text.encode("utf-8", "surrogateescape")
    except UnicodeEncodeError:
        return text.encode("utf-8", "surrogatepass")


def shown(path: Union[bytes, str]) -> str:
    """A path on one line: bytes that aren't printable as `\\x` and two digits."""
    raw = path if isinstance(path, bytes) else _raw_of(path)
    text = raw.decode("utf-8", "surrogateescape")
    if text.isprintable() and "\\" not in text:
        return text
    return "".join(chr(b) if 0x20 <= b < 0x7F and b != 0x5C else f"\\x{b:02x}" for b in raw)


class Report:
    """Tells what the manifest can't carry, each thing in one line; or refuses the first of them."""

    def __init__(self, err: TextIO, strict: bool = False, quiet: bool = False) -> None:
        self._err = err
        self._strict = strict
        self._quiet = quiet
        self._terminal = err.isatty()
        self._drawn = 0
        self._next_drawing = time.monotonic() + 0.5
        self.left_out: Dict[str, int] = {}
        self._about = ("", "")
        self._lines = 0

    def leave_out(self, source: str, path: Union[bytes, str], group: str, why: str) -> None:
        """Tells that what is at `path` of a source isn't in the manifest; `group` is for the sum.
        """
        line = f"{source}: {shown(path)}: {why}"
        if self._strict:
            raise Refused(f"{line} (--strict)")
        self.left_out[group] = self.left_out.get(group, 0) + 1
        self._count((source, shown(path)))
        if not self._quiet and self._lines <= _LINES_MOST:
            self._say(f"left out: {line}")

    def _count(self, about: Tuple[str, str]) -> None:
        """Counts the lines for one object; those over the bound are told in one."""
        if about != self._about:
            self._tell_rest()
            self._about, self._lines = about, 0
        self._lines += 1

    def _tell_rest(self) -> None:
        if self._lines > _LINES_MOST and not self._quiet:
            source, path = self._about
            self._say(f"left out: {source}: {path}: {self._lines - _LINES_MOST:,} things more")
        self._lines = 0

    def note(self, line: str) -> None:
        """Tells something that leaves nothing out."""
        if not self._quiet:
            self._say(line)

    def progress(self, what: str, count: int, size: Optional[int] = None) -> None:
        """Says on a terminal how far it is, five times a second."""
        if not self._terminal or time.monotonic() < self._next_drawing:
            return
        self._next_drawing = time.monotonic() + 0.2
        text = f"{PROGRAM}: {what}: {count:,} objects"
        if size is not None:
            text += f", {size / 1e6:,.0f} MB"
        self._err.write("\r" + text[:100].ljust(self._drawn))
        self._err.flush()
        self._drawn = len(text[:100])

    def sum_up(self, layers: int, objects: int, size: int, lost: str = "times") -> None:
        """The last line: what was written and what was left out; `lost`, what isn't told before."""
        self._tell_rest()
        count = sum(self.left_out.values())
        parts = ", ".join(f"{n} {group}" for group, n in sorted(self.left_out.items()))
        nothing = f"nothing left out{lost and ' but '}{lost}"
        left = f"{count} left out ({parts})" if count else nothing
        self._say(f"{layers} layers, {objects:,} objects, {size:,} bytes; {left}")

    def end(self, line: str) -> int:
        """Says why the import ends; the exit status."""
        self._say(line)
        return 1

    def clear(self) -> None:
        """Takes the line of progress from the terminal."""
        if self._drawn:
            self._err.write("\r" + " " * self._drawn + "\r")
            self._drawn = 0

    def _say(self, line: str) -> None:
        self.clear()
        self._err.write(f"{PROGRAM}: {line}\n")
        self._err.flush()
