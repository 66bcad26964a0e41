"""A server whose history is full: it answers no call, and its upper comes out by what it saves."""

import contextlib
import os
import select
import signal
import socket
import struct
from typing import Iterator, List, NamedTuple, Optional, Tuple

from ..importer.telling import shown
from ..stream import connected
from .unsayable import Unsayable

# How long a server may take to let itself be connected to, in seconds.
_PATIENCE = 5.0


class Ending(NamedTuple):
    """How a server ends, as far as this machine tells."""

    process: int  # the server's, or 0 where nothing is known of it
    saved: Optional[str]  # the file that it saves its upper to
    supervisor: int  # the process of overlayd-serve that ends it in order, or 0


_UNKNOWN = Ending(0, None, 0)


def ending_of(path: str) -> Ending:
    """How the server on a socket ends: by the command lines of its process and its parent."""
    try:
        with connected(path, _PATIENCE) as link:
            told = link.getsockopt(socket.SOL_SOCKET, socket.SO_PEERCRED, 12)
        process: int = struct.unpack("3i", told)[0]
        words = _words_of(process)
        if "serve" not in words:
            return _UNKNOWN
        parent = _parent_of(process)
        supervisor = parent if _is_supervisor(_words_of(parent)) else 0
        return Ending(process, _saved_by(process, words), supervisor)
    except (OSError, ValueError):
        return _UNKNOWN


def _words_of(process: int) -> List[str]:
    """The command line of a process."""
    with open(f"/proc/{process}/cmdline", "rb") as file:
        return [os.fsdecode(word) for word in file.read().split(b"\0")[:-1]]


def _parent_of(process: int) -> int:
    with open(f"/proc/{process}/stat", "rb") as file:
        return int(file.read().rpartition(b")")[2].split()[1])


def _is_supervisor(words: List[str]) -> bool:
    """Whether a command line is one of overlayd-serve, installed or not."""
    return words[1:3] == ["-m", "overlayd.supervisor"] or any(
        os.path.basename(word) == "overlayd-serve" for word in words[:2])


def _saved_by(process: int, words: List[str]) -> Optional[str]:
    """The file of `--save`, from the server's own directory; ValueError where that file isn't the
    one that has the name here, as where the server runs in a container."""
    name: Optional[str] = None
    for word, following in zip(words, [*words[1:], ""]):
        if word == "--save" or word.startswith("--save="):
            name = following if word == "--save" else word[len("--save="):]
    if not name:
        return None
    path = os.path.join(os.readlink(f"/proc/{process}/cwd"), name)
    folder = os.path.dirname(path)
    if not os.path.samefile(folder, f"/proc/{process}/root{folder}"):
        raise ValueError(path)
    return path


def advice(ending: Ending, command: str) -> str:
    """What is said of a full server. The command exports what it saved, to the file `FILE` where
    that isn't known."""
    full = "the server's history is full, and with it no call is answered: "
    if not ending.process:
        return full + ("have it end in order, which saves the upper to the file of its --save (by "
                       "SIGTERM to overlayd-serve, or the end of the input of a server with "
                       f"--until-eof), and then: {command}")
    if ending.saved is None:
        return full + (f"process {ending.process} saves nothing, as it has no --save, and what was "
                       "changed will be lost; serve with --no-history")
    if not ending.supervisor:
        return full + (f"process {ending.process} saves the upper to {shown(ending.saved)} as its "
                       "standard input ends, but not by a signal; have whoever started it end "
                       f"that, and then: {command}")
    return full + (f"`kill -TERM {ending.supervisor}` ends it in order, which saves the upper to "
                   f"{shown(ending.saved)}, and then: {command}; --end-if-full does both")


def end(path: str, ending: Ending) -> None:
    """Has overlayd-serve end the server on a socket, and waits until it has saved its upper."""
    saved = ending.saved or ""
    with _held(ending.process) as server, _held(ending.supervisor) as supervisor:
        if ending_of(path) != ending:
            raise Unsayable("the server has ended meanwhile")
        before = _identity(saved)
        signal.pidfd_send_signal(supervisor, signal.SIGTERM)
        ended = select.poll()
        ended.register(server, select.POLLIN)
        ended.poll()
    if _identity(saved) in (None, before):
        raise Unsayable(f"the server has ended, and saved nothing to {shown(saved)}")


@contextlib.contextmanager
def _held(process: int) -> Iterator[int]:
    """A descriptor of a process, which names no other one when it has ended."""
    descriptor = os.pidfd_open(process)
    try:
        yield descriptor
    finally:
        os.close(descriptor)


def _identity(path: str) -> Optional[Tuple[int, int]]:
    """What tells a file from one that takes its name."""
    try:
        found = os.lstat(path)
    except FileNotFoundError:
        return None
    return found.st_ino, found.st_ctime_ns
