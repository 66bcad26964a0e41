"""What a call may raise: the refusals of the server, and the loss of the server itself."""

from __future__ import annotations

import errno
import os
from typing import Any, Optional

__all__ = ["BadReply", "Disconnected", "NoReply", "UnknownRefusal", "place_of", "refusal"]


NO_FREE_WORKER = "the server has no free worker"
"""What a server says by EBUSY that turns a client away."""


class Disconnected(ConnectionError):
    """The connection is of no use any more; the text says what was being asked."""


class NoReply(Disconnected, TimeoutError):
    """The server didn't go on within the client's timeout."""


class BadReply(Disconnected):
    """The server sent bytes that are no reply to what it was asked."""


class UnknownRefusal(OSError):
    """A refusal by a number from which Python would conclude that the connection is lost."""


# What Python makes of numbers that say something about a connection or a signal. No call is
# refused by one of them; should a server do so, it is still a refusal, and the connection stands.
_NO_REFUSALS = (ConnectionError, BlockingIOError, InterruptedError, TimeoutError)


def refusal(number: int, place: Optional[int], paths: tuple[Any, ...]) -> OSError:
    """The exception of a refused call, with its paths as `os` has them.

    Its class is the one that Python has for the number, as `FileNotFoundError`. Its attribute
    `place` is the call's place in the history, or None where no call was made.
    """
    text = os.strerror(number)
    if place is None and number in (errno.ENFILE, errno.EMFILE):
        # No call is answered so: the server refuses the client itself.
        text, paths = f"{text}: the client wasn't attached", ()
    elif place is None and number == errno.EBUSY:
        # Nor so: a server with --refuse turns the client away.
        text, paths = NO_FREE_WORKER, ()
    first, second = (*paths, None, None)[:2]
    parts = (number, text, first, None, second)
    error = OSError(*parts)
    if isinstance(error, _NO_REFUSALS):
        error = UnknownRefusal(*parts)
    setattr(error, "place", place)
    return error


def place_of(error: BaseException) -> Optional[int]:
    """The place in the history of a call that was refused with this error; None without one."""
    return getattr(error, "place", None)
