"""A client of `overlayd serve`."""

from __future__ import annotations

import collections
import contextlib
import errno
import os
import socket
import threading
from typing import Any, Deque, Iterator, List, Optional, Sequence, TypeVar, Union, overload

from . import calls, frames
from .calls import Call, Path
from .errors import NO_FREE_WORKER, BadReply, Disconnected, NoReply
from .files import File, flags_of, over, wire_flags
from .frames import Reply, Stat
from .habits import Habits
from .mount_path import MountPath
from .pipeline import Pending, Pipeline
from .stream import NO_WORKER, Stream, connected
from .tree_watch import CHANGES, TreeWatch
from .watches import Notice

__all__ = ["Client"]

T = TypeVar("T")

# Why a server may have refused to attach a client. Its one frame looks like a reply.
_UNATTACHED = (errno.ENOMEM, errno.EBUSY, errno.ENFILE, errno.EMFILE, errno.ENOSPC)


def _raw(name: str) -> bytes:
    return name.encode("utf-8", "surrogateescape")


class Client(Habits):
    """A client that is attached to a mount, over the Unix socket of its server.

    Methods are named as those of `os` are, and a refused call raises `OSError` with its number
    and path; the exception's attribute `place` is the refusal's place in the history. Symbolic
    links aren't followed. A server that goes away, or sends what is no reply, is `Disconnected`,
    a `ConnectionError` that says what was being asked; the client is of no use from then on.

    A client may be used by several threads: one lock is held from a request to its reply, and
    through the flush of a pipeline. Threads that shouldn't wait for each other take a client
    each. Methods that make several calls (`listdir`, and `File.read` and `write` of more than
    65,536 bytes) let go of the lock between them.
    """

    def __init__(self, path: Path, *, timeout: Optional[float] = None) -> None:
        """Connects to the socket at a path.

        With a timeout, a server that doesn't go on for so many seconds is `NoReply`, which is a
        `TimeoutError` too; else the client waits. A server whose workers all have a client waits
        with a further one's calls until a worker is free, of which a `RuntimeWarning` tells who
        has no timeout; with --refuse the first one is EBUSY.
        """
        if timeout is not None and timeout <= 0:
            raise ValueError("a timeout is more than 0 seconds")
        self._begin(connected(path, timeout), timeout)
        self._path = path

    @classmethod
    def from_socket(cls, link: socket.socket, *, timeout: Optional[float] = None) -> Client:
        """A client over a connected socket, which becomes its own."""
        client = cls.__new__(cls)
        client._begin(link, timeout)
        return client

    def _begin(self, link: socket.socket, timeout: Optional[float]) -> None:
        self._stream: Optional[Stream] = Stream(link, timeout)
        self._path: Optional[Path] = None
        self._timeout = timeout
        self._lock = threading.RLock()
        self._busy = False
        self._first = True
        self._lost = ""
        self._hint = ""
        self._own = threading.local()
        self._left_open: Deque[int] = collections.deque()

    def __repr__(self) -> str:
        return f"<overlayd.Client{' closed' if self.closed else ''}>"

    def __enter__(self) -> Client:
        return self

    def __exit__(self, kind: Any, error: Any, trace: Any) -> None:
        self.close()

    @property
    def closed(self) -> bool:
        """Whether the client is detached, or lost its server."""
        return self._stream is None

    @property
    def last_place(self) -> Optional[int]:
        """The place in the history of the last reply that this thread got.

        None before the first, and where the last call wasn't made (a path text that is refused,
        or want of memory or history). Several calls at once have theirs in `Pending.place`.
        """
        return getattr(self._own, "place", None)

    # How calls are made.

    def call(self, call: Call[T]) -> T:
        """Makes a call of the module `calls`."""
        pending = Pending(call)
        self.make([pending])
        try:
            return pending.result()
        finally:
            del pending  # a refusal's traceback leads here, which would be a circle

    def pipeline(self) -> Pipeline:
        """A list of calls to be sent in one write: `with client.pipeline() as batch: ...`."""
        return Pipeline(self)

    def make(self, batch: Sequence[Pending[Any]]) -> None:
        """Sends the calls of a batch in one write, and settles each with its reply."""
        if not batch:
            return
        with self._lock:
            if self._busy:
                raise RuntimeError("a call inside another one, by a signal's handler or collector")
            left = self._left_open
            closes = [Pending(calls.close(left.popleft())) for _ in range(len(left))]
            try:
                self._busy = True
                self._exchange([*closes, *batch])
            finally:
                self._busy = False

    def _exchange(self, batch: Sequence[Pending[Any]]) -> None:
        settled = 0
        try:
            for reply in self._replies(batch):
                self._own.place = reply.place
                batch[settled].settle(reply)
                settled += 1
            if batch[-1].call.op is frames.Op.DETACH:
                self._drop("the client is detached")
        except BaseException as error:
            self._give_up(error, batch[settled:])
            # Refusals stay in their calls, so that an OSError here is the connection's.
            if settled == len(batch) or not isinstance(error, OSError):
                raise
        if settled < len(batch):
            batch[settled].result()

    def _give_up(self, error: BaseException, unsettled: Sequence[Pending[Any]]) -> None:
        """Drops a connection that is lost or out of step, and tells each call without a reply."""
        if self._first and isinstance(error, NoReply):
            self._hint = f"; {NO_WORKER}"
        reason = (str(error) or type(error).__name__) + self._hint
        self._drop(reason)
        kind = type(error) if isinstance(error, Disconnected) else Disconnected
        for pending in unsettled:
            pending.fail(kind(f"{reason}; it was being asked: {pending.call}"))

    def _replies(self, batch: Sequence[Pending[Any]]) -> Iterator[Reply]:
        """The replies to a batch's calls, in their order."""
        if self._stream is None:
            raise Disconnected(f"nothing can be asked any more, since {self._lost}")
        requests = b"".join(pending.call.frame for pending in batch)
        asked = iter(batch)
        for body in self._stream.replies(requests, len(batch)):
            call = next(asked).call
            reply = frames.reply(call.op, body)
            if reply.refused is None and not call.fits(reply.answer):
                raise BadReply("a reply has more than was asked for, or less than it must have")
            if self._first and reply.place is None and reply.refused in _UNATTACHED:
                why = os.strerror(reply.refused)
                if reply.refused == errno.EBUSY:
                    why = NO_FREE_WORKER
                self._hint = f" (its first reply was: {why})"
            self._first = False
            yield reply

    def _drop(self, reason: str) -> None:
        """Gives up the connection, if there is one still."""
        stream, self._stream = self._stream, None
        if stream is not None:
            self._lost = reason
            stream.close()

    def close_descriptor(self, descriptor: int, path: Path) -> None:
        """Closes a descriptor, where there is still a connection; for `File.close`.

        The collector may ask for it in the middle of another call: then it goes with the next.
        """
        with self._lock:
            if self._busy:
                self._left_open.append(descriptor)
            elif self._stream is not None:
                self.call(calls.close(descriptor).about(path))

    def detach(self) -> None:
        """Detaches: what is open is closed, watches end, and the connection with them.

        `last_place` is the detach's own then.
        """
        self.call(calls.detach())

    def close(self) -> None:
        """Detaches, unless that is done or the server is gone, which detaches the client too."""
        with self._lock:
            if self._stream is not None:
                with contextlib.suppress(OSError):
                    self.detach()

    names_limit = 1_048_576
    """The most names that `listdir` gathers."""

    # By path.

    def stat(self, path: Path) -> Stat:
        """What is at a path, as `os.lstat`: a symbolic link is told itself."""
        return self.call(calls.stat(path))

    lstat = stat

    def readlink(self, path: Path) -> str:
        """Where a symbolic link leads."""
        return self.call(calls.readlink(path))

    def chmod(self, path: Path, mode: int) -> None:
        """Gives a file or directory another mode, 0 to 0o7777."""
        self.call(calls.chmod(path, mode))

    def chown(self, path: Path, uid: int, gid: int) -> None:
        """Gives a file or directory another owner and group; -1 doesn't leave one as it is."""
        self.call(calls.chown(path, uid, gid))

    def setxattr(self, path: Path, attribute: Path, value: bytes) -> None:
        """Sets a user attribute; one that is set again keeps its place, another goes last."""
        self.call(calls.setxattr(path, attribute, value))

    def getxattr(self, path: Path, attribute: Path) -> bytes:
        """The value of a user attribute."""
        return self.call(calls.getxattr(path, attribute))

    def removexattr(self, path: Path, attribute: Path) -> None:
        """Deletes a user attribute."""
        self.call(calls.removexattr(path, attribute))

    def listxattr(self, path: Path) -> List[str]:
        """The names of the user attributes, in their order."""
        return self.call(calls.listxattr(path))

    def mkdir(self, path: Path, mode: int = 0o755) -> None:
        """Makes a directory. No mask is taken off its mode."""
        self.call(calls.mkdir(path, mode))

    def symlink(self, src: Path, dst: Path) -> None:
        """Makes a symbolic link at `dst` that leads to `src`."""
        self.call(calls.symlink(src, dst))

    def unlink(self, path: Path) -> None:
        """Removes a name of a file or symbolic link."""
        self.call(calls.unlink(path))

    remove = unlink

    def rmdir(self, path: Path) -> None:
        """Removes a directory that shows no name."""
        self.call(calls.rmdir(path))

    def link(self, src: Path, dst: Path) -> None:
        """Gives the file or symbolic link at `src` the further name `dst`."""
        self.call(calls.link(src, dst))

    def rename(self, src: Path, dst: Path) -> None:
        """Moves what is at `src` to `dst`, in place of what is there."""
        self.call(calls.rename(src, dst))

    replace = rename

    def listdir(self, path: Path = "/") -> List[str]:
        """The names in a directory, in the order of their bytes, as they are at one moment.

        It opens the directory, asks for 256 names at a time, and closes it. More than
        `names_limit` names are EOVERFLOW.
        """
        found: List[str] = []
        with self.open(path, os.O_RDONLY | os.O_DIRECTORY) as directory:
            while True:
                some = directory.names()
                if found and some and _raw(found[-1]) >= _raw(some[0]):
                    raise self._bad("the server sent names that are out of order")
                found += some
                if len(some) < 256:
                    return found
                if len(found) > self.names_limit:
                    raise OSError(errno.EOVERFLOW, f"more than {self.names_limit} names", path)

    def _bad(self, reason: str) -> BadReply:
        """The error of replies that contradict each other, after which nothing is asked."""
        self._drop(reason)
        return BadReply(reason)

    @overload
    def open(self, path: Path, flags: int = os.O_RDONLY, mode: int = 0o644) -> File: ...

    @overload
    def open(self, path: Path, flags: str, mode: int = 0o644, *, buffering: int = -1,
             encoding: Optional[str] = None, errors: Optional[str] = None,
             newline: Optional[str] = None) -> Any: ...

    @overload
    def open(self, path: Path, *, mode: str, buffering: int = -1, encoding: Optional[str] = None,
             errors: Optional[str] = None, newline: Optional[str] = None) -> Any: ...

    def open(self, path: Path, flags: Union[int, str] = os.O_RDONLY,
             mode: Union[int, str] = 0o644, *, buffering: int = -1,
             encoding: Optional[str] = None, errors: Optional[str] = None,
             newline: Optional[str] = None) -> Any:
        """Opens a file or directory, or makes a file, by the flags of `os.open`: a raw `File`.

        They are O_RDONLY, O_WRONLY or O_RDWR, with O_CREAT, O_EXCL, O_TRUNC, O_APPEND and
        O_DIRECTORY; O_CLOEXEC and O_NOFOLLOW say what is so anyway, and others are EINVAL.

        In place of flags there may be a text, as "r", "wb" or "a+": then it is what the built-in
        `open` gives, with its further arguments. A text's encoding is UTF-8 if none is said.
        """
        if isinstance(mode, str):
            flags, mode = mode, 0o644
        if isinstance(flags, str):
            words, flags = flags, flags_of(flags, buffering, encoding, errors, newline)
            raw = self.open(path, flags, mode)
            return over(raw, words, buffering, encoding, errors, newline)
        descriptor = self.call(calls.open(path, wire_flags(flags), mode))
        return File(self, descriptor, path, flags)

    def path(self, *parts: str) -> MountPath:
        """A path of the mount, with methods as those of `pathlib.Path`."""
        return MountPath(self, *parts)

    # Watches.

    def arm(self, slot: int, path: Path, mask: int) -> int:
        """Watches what is at a path through the hook of a slot, for a `Mask`; its number.

        Through the slot that watches the object already, it changes that watch's mask.
        """
        return self.call(calls.arm(slot, path, mask))

    def disarm(self, wd: int) -> None:
        """Ends a watch, which leaves a notice with IGNORED."""
        self.call(calls.disarm(wd))

    def notices(self, count: int = 65) -> List[Notice]:
        """Takes out the first unread notices, at most 65; it doesn't wait for one."""
        return self.call(calls.notices(count))

    def watch_tree(self, path: Path = "/", mask: int = CHANGES, *, clients: int = 7,
                   interval: float = 0.1) -> TreeWatch:
        """Hears of all that happens below a directory: `for notice in client.watch_tree("/src")`.

        It has clients of its own, at most so many, each of which watches ten directories and
        takes a worker of the server. It asks them for notices, after `interval` seconds at the
        latest. API.md tells what it can't promise.
        """
        if self._path is None:
            raise ValueError("a client over a socket of its own can't make further ones")
        timeout = self._timeout or 30.0

        def attached() -> Client:
            client = Client(self._path or "", timeout=timeout)
            client.stat("/")
            return client

        return TreeWatch(attached, os.fsdecode(os.fspath(path)), mask, clients, interval)
