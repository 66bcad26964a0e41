"""The command `overlayd-status`."""

import argparse
import os
import sys
import time
from typing import Iterator, List, Optional, Tuple

from ..client import Client
from ..command_line import parser_of
from ..exporter import LowerTree, MountTree, Unsayable, each_change
from ..importer.output import unwound_by_sigterm
from ..importer.telling import shown

PROGRAM = "overlayd-status"
_ABOUT = "Tells whether a server answers, what it counts, and how large its upper is."
_MORE = """\
Each line is a word and what it says. The server is asked one call, by a client that takes a worker
for that moment; of --upper two calls or more for each name.

  of --counted        the lines of the file that `overlayd serve --status` writes, as they are
  counted_ago S       how many seconds ago that was; a server that runs writes every second
  answered_in S       how many seconds the call took, with the time to get a worker
  upper_names N       how many names are other ones than in the lower layers, or have gone
  upper_bytes N       how many bytes the files among them have, those of several names once

exit status: 0 the server answers; 1 it doesn't, or a file can't be read, with one line on standard
error; 2 wrong usage.
"""


def parser() -> argparse.ArgumentParser:
    """The command line."""
    words = parser_of(PROGRAM, _ABOUT, _MORE)
    words.add_argument("--counted", metavar="FILE", help="the file of the server's --status")
    words.add_argument("--upper", metavar="MANIFEST",
                       help="tell how large the upper over the manifest's lower layers is")
    words.add_argument("--timeout", metavar="SECONDS", type=_seconds, default=10.0,
                       help="how long the server may take to answer a call (10)")
    words.add_argument("socket", metavar="SOCKET", help="the socket of the server")
    return words


def _seconds(text: str) -> float:
    count = float(text)
    if not 0.01 <= count <= 86_400:
        raise argparse.ArgumentTypeError("not from 0.01 to 86400")
    return count


def counted(path: str) -> Iterator[Tuple[str, str]]:
    """What a server counts, and how long ago it said so; `Unsayable` for another file."""
    with open(path, "rb") as file:
        text, at = file.read(1 << 16), os.fstat(file.fileno()).st_mtime
    lines = [line.split(" ") for line in text.decode("utf-8", "replace").splitlines()]
    if not lines or lines[0][0] != "state" or any(len(line) != 2 for line in lines):
        raise Unsayable(f"{shown(path)}: it isn't a file of `overlayd serve --status`")
    yield from ((word, shown(value)) for word, value in lines)
    yield "counted_ago", f"{max(0.0, time.time() - at):.1f}"


def upper(client: Client, manifest: str) -> Iterator[Tuple[str, str]]:
    """How large what a mount has over its lower layers is."""
    lower = LowerTree(manifest)
    names = size = 0
    for change in each_change(lower, MountTree(client, lower.manifest.file_limit)):
        names += not change.is_same
        if change.entry is not None and change.link_to is None and not change.is_same:
            size += change.entry.size
    yield "upper_names", str(names)
    yield "upper_bytes", str(size)


def _told(words: argparse.Namespace) -> Iterator[Tuple[str, str]]:
    if words.counted is not None:
        yield from counted(words.counted)
    began = time.monotonic()
    with Client(words.socket, timeout=words.timeout) as client:
        client.stat("/")
        yield "answered_in", f"{time.monotonic() - began:.6f}"
        if words.upper is not None:
            yield from upper(client, words.upper)


def _end(line: str) -> int:
    print(f"{PROGRAM}: {line}", file=sys.stderr)
    return 1


def main(arguments: Optional[List[str]] = None) -> int:
    """Runs the command; the exit status."""
    words = parser().parse_args(arguments)
    try:
        with unwound_by_sigterm():
            for word, value in _told(words):
                print(word, value, flush=True)
        return 0
    except Unsayable as unsayable:
        return _end(str(unsayable))
    except OSError as error:
        name = f"{shown(error.filename)}: " if error.filename else ""
        return _end(f"{name}{error.strerror or error}")
    except MemoryError:
        return _end("out of memory")
    except KeyboardInterrupt:
        _end("interrupted")
        return 130
