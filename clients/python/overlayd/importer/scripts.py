"""Finds the faults of a script of `overlayd play`: the line, the word, and what is allowed."""

import re
import sys
from typing import BinaryIO, Dict, Iterator, List, NamedTuple, Optional, Set

from .telling import PROGRAM, shown

_U32 = (1 << 32) - 1
_BYTES = re.compile(rb"(?:[!-\[\]-~]|\\x[0-9a-f]{2})+|\\-")
_FLAGS = re.compile(rb"[rwb][cxtad]*")
_MODE = re.compile(rb"[0-7]{1,6}")
_MASK = re.compile(rb"[0-9A-Fa-f]{1,8}")
_WORD_MOST = 40
# What a word may be: what stands for it, and what is allowed, in words.
_KINDS: Dict[str, str] = {
    "PATH": "a path", "OLD": "a path", "NEW": "a path", "TARGET": "where a link leads",
    "NAME": "the name of an attribute", "VALUE": "a value", "DATA": "bytes",
    "MODE": "1 to 6 octal digits", "FLAGS": "r, w or b, and then c, x, t, a and d, each once",
    "MASK": "1 to 8 hexadecimal digits", "WHENCE": "set, cur or end",
    "UID": f"a number from 0 to {_U32}", "GID": f"a number from 0 to {_U32}",
    "FD": f"a number from 0 to {_U32}", "N": f"a number from 0 to {_U32}",
    "SLOT": "a number from 0 to 255", "WD": "a number from 0 to 2147483647",
    "SIZE": "a number from 0 to 18446744073709551615",
    "OFFSET": "a number from -9223372036854775808 to 9223372036854775807",
    "STEPS": "a number from 1 to 18446744073709551615", "LAYER": "the number of a layer",
}
_MOST = {"SLOT": 255, "WD": (1 << 31) - 1, "SIZE": (1 << 64) - 1, "STEPS": (1 << 64) - 1}
_AS_BYTES = frozenset(("PATH", "OLD", "NEW", "TARGET", "NAME", "VALUE", "DATA"))
_CALLS: Dict[str, str] = {
    "stat": "PATH", "readlink": "PATH", "chmod": "MODE PATH", "chown": "UID GID PATH",
    "setattr": "PATH NAME VALUE", "getattr": "PATH NAME", "delattr": "PATH NAME", "attrs": "PATH",
    "mkdir": "MODE PATH", "symlink": "TARGET PATH", "link": "OLD NEW", "rename": "OLD NEW",
    "unlink": "PATH", "rmdir": "PATH", "open": "FLAGS PATH [MODE]", "read": "FD N",
    "write": "FD DATA", "seek": "FD OFFSET WHENCE", "truncate": "FD SIZE", "fstat": "FD",
    "list": "FD N", "close": "FD", "arm": "SLOT MASK PATH", "disarm": "WD", "notices": "N",
}
_OTHERS = {"step": "[STEPS]", "drop": "", "detach": ""}
_ALONE = ("attach", "merge", "work")


class ScriptFault(NamedTuple):
    """What is wrong in a line."""

    line: int
    what: str


def check_script_file(path: str) -> int:
    """Tells each fault of a script in a line of its own; the exit status."""
    name = "standard input" if path == "-" else shown(path)
    count = 0
    if path == "-":
        faults = check_script(sys.stdin.buffer)
        count = _tell(name, faults)
    else:
        with open(path, "rb") as stream:
            count = _tell(name, check_script(stream))
    sys.stdout.flush()
    told = f"{count} fault{'s' * (count > 1)}" if count else "no fault"
    print(f"{PROGRAM}: {name}: {told}", file=sys.stderr)
    return 1 if count else 0


def _tell(name: str, faults: Iterator[ScriptFault]) -> int:
    count = 0
    for count, fault in enumerate(faults, 1):
        print(f"{name}:{fault.line}: {fault.what}")
    return count


def check_script(stream: BinaryIO) -> Iterator[ScriptFault]:
    """The faults of a script, the first of each line."""
    script = _Script()
    for number, line in enumerate(stream, 1):
        line = line[:-1] if line.endswith(b"\n") else line
        if line and not line.startswith(b"#"):
            fault = script.fault(line)
            if fault is not None:
                yield ScriptFault(number, fault)


class _Script:
    """What a script has said so far."""

    def __init__(self) -> None:
        self._attached = 0
        self._detached: Set[int] = set()

    def fault(self, line: bytes) -> Optional[str]:
        """What is wrong with a line; None where nothing is."""
        if line.endswith(b"\r"):
            return "the line ends with a carriage return; a line feed alone ends one"
        if b"\t" in line:
            return "a tab; words have one space between"
        words = line.split(b" ")
        if b"" in words:
            return "words have one space between, and none before or behind them"
        first = words[0].decode("ascii", "replace")
        if first in _ALONE:
            self._attached += first == "attach"
            return None if len(words) == 1 else f"{_word(words[1])}: {first} has no more words"
        if first == "layer":
            return _arguments("layer", "LAYER", words[1:])
        if not words[0].isdigit():
            return (f"{_word(words[0])}: a line begins with attach, merge, work, layer or the "
                    "number of a client")
        return self._of_client(words)

    def _of_client(self, words: List[bytes]) -> Optional[str]:
        client = words[0]
        number = _number(client)
        if number >= self._attached:
            return f"{_word(client)}: that many clients aren't attached before: {self._attached}"
        if number in self._detached:
            return f"{_word(client)}: this client was detached before"
        if len(words) == 1:
            return f"{_word(client)}: a call follows the number of a client"
        call = words[1].decode("ascii", "replace")
        if call == "start":
            if len(words) == 2:
                return "start: a call follows"
            call, words = words[2].decode("ascii", "replace"), words[1:]
            if call not in _CALLS:
                return f"{_word(words[1])}: no call; there are {', '.join(_CALLS)}"
        elif call not in _CALLS and call not in _OTHERS:
            return (f"{_word(words[1])}: no call; there are {', '.join(_CALLS)}, start, "
                    f"{', '.join(_OTHERS)}")
        fault = _arguments(call, _CALLS.get(call, _OTHERS.get(call, "")), words[2:])
        if fault is None and call == "detach":
            self._detached.add(number)
        return fault


def _word(word: bytes) -> str:
    """A word at fault, the beginning of a long one."""
    return shown(word if len(word) <= _WORD_MOST else word[:_WORD_MOST] + b"..")


def _arguments(call: str, wanted: str, words: List[bytes]) -> Optional[str]:
    """What is wrong with the words behind a call."""
    kinds = wanted.split()
    needed = sum(not kind.startswith("[") for kind in kinds)
    if not needed <= len(words) <= len(kinds):
        return f"{call}: {call} {wanted}".rstrip() + f", and not {len(words)} words"
    for kind, word in zip(kinds, words):
        kind = kind.strip("[]")
        if not _is(kind, word):
            return f"{_word(word)}: {kind} is {_KINDS[kind]}" + _escapes(kind)
    return None


def _escapes(kind: str) -> str:
    if kind not in _AS_BYTES:
        return ""
    return r", of which a byte that isn't from ! to ~, and \, is \x and two digits; none is \-"


def _number(digits: bytes) -> int:
    """A number, which may begin with zeros; a larger one than any word can say, where it is long.
    """
    significant = digits.lstrip(b"0")
    return int(significant or b"0") if len(significant) <= 20 else 1 << 70


def _is(kind: str, word: bytes) -> bool:
    """Whether a word is of a kind."""
    if kind in _AS_BYTES:
        return _BYTES.fullmatch(word) is not None
    if kind == "MODE":
        return _MODE.fullmatch(word) is not None
    if kind == "MASK":
        return _MASK.fullmatch(word) is not None
    if kind == "FLAGS":
        return _FLAGS.fullmatch(word) is not None and len(set(word)) == len(word)
    if kind == "WHENCE":
        return word in (b"set", b"cur", b"end")
    digits = word[1:] if kind == "OFFSET" and word.startswith(b"-") else word
    if not digits.isdigit():
        return False
    number = -_number(digits) if digits is not word else _number(digits)
    if kind == "OFFSET":
        return -(1 << 63) <= number < 1 << 63
    return (1 if kind == "STEPS" else 0) <= number <= _MOST.get(kind, _U32)
