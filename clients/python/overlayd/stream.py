"""One connection to a server: requests out, and the bodies of the replies in their order."""

from __future__ import annotations

import errno
import os
import select
import socket
import struct
import warnings
from typing import Iterator, Optional

from . import frames
from .calls import Path
from .errors import BadReply, Disconnected, NoReply

__all__ = ["NO_WORKER", "Stream", "connected"]

NO_WORKER = ("the server may have no free worker: each connection holds one until it ends "
             "(`overlayd serve --workers N`)")
"""What a first call without a reply may come of."""

_PIECE = 1 << 17
_GONE = (BrokenPipeError, ConnectionResetError)


def connected(path: Path, timeout: Optional[float]) -> socket.socket:
    """A socket that is connected to the Unix socket at a path, or the `OSError` with that path."""
    link = socket.socket(socket.AF_UNIX, socket.SOCK_STREAM)
    try:
        if timeout is not None:
            # How long a connect waits for room in the server's queue; a socket that doesn't
            # block would not wait at all.
            seconds, rest = divmod(timeout, 1)
            wait = struct.pack("@ll", int(seconds), int(rest * 1_000_000))
            link.setsockopt(socket.SOL_SOCKET, socket.SO_SNDTIMEO, wait)
        link.connect(os.fspath(path))
    except OSError as error:
        link.close()
        if error.errno == errno.EAGAIN:
            raise NoReply(f"the server at {path!r} took no connection within {timeout:g} seconds; "
                          f"{NO_WORKER}")
        if error.errno is None:
            raise
        raise OSError(error.errno, error.strerror, path) from None
    return link


class Stream:
    """The frames of one connected socket, which is the stream's own from then on."""

    patience = 5.0
    """How many seconds nothing may come before who has no timeout is warned, once."""

    def __init__(self, link: socket.socket, timeout: Optional[float]) -> None:
        link.setblocking(False)
        self._link = link
        self._timeout = timeout
        self._input = frames.Splitter()
        self._is_new = True

    def close(self) -> None:
        """Closes the socket."""
        self._link.close()

    def replies(self, requests: bytes, count: int) -> Iterator[bytes]:
        """Sends the bytes of so many requests, and gives the bodies of their replies as they come.

        What doesn't fit into the socket at once is sent while replies are read, so that neither
        side waits for the other for ever. An iteration that isn't run to its end leaves the
        stream out of step.
        """
        unsent = memoryview(requests)
        for _ in range(count):
            body = self._input.body()
            while body is None:
                unsent = self._go_on(unsent)
                body = self._input.body()
            yield body
        if unsent or not self._input.is_empty():
            raise BadReply("the server sent a reply to nothing that it was asked")

    def _go_on(self, unsent: memoryview) -> memoryview:
        """Sends some bytes, or else takes some in; what is left to send."""
        if unsent:
            try:
                return unsent[self._link.send(unsent):]
            except BlockingIOError:
                pass
            except _GONE:
                return unsent[:0]
        self._receive(bool(unsent))
        return unsent

    def _receive(self, or_sendable: bool) -> None:
        """Takes in what has come; without anything it waits, also for room to send if asked to."""
        try:
            piece = self._link.recv(_PIECE)
        except BlockingIOError:
            self._wait(select.POLLIN | (select.POLLOUT if or_sendable else 0))
            return
        except _GONE:
            piece = b""
        if not piece:
            raise Disconnected("the server went away")
        self._is_new = False
        self._input.feed(piece)

    def _wait(self, events: int) -> None:
        poll = select.poll()
        poll.register(self._link, events)
        if self._is_new and self._timeout is None:
            if poll.poll(self.patience * 1000):
                return
            self._is_new = False
            warnings.warn(f"no reply came within {self.patience:g} seconds; {NO_WORKER}; it is "
                          "waited for further", RuntimeWarning, stacklevel=2)
        if not poll.poll(None if self._timeout is None else self._timeout * 1000):
            raise NoReply(f"no reply came within {self._timeout:g} seconds")
