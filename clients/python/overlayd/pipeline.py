"""Several calls in one write."""

from __future__ import annotations

import os
from typing import TYPE_CHECKING, Any, Generic, List, Optional, TypeVar, Union

from . import calls
from .calls import Call, Path
from .errors import refusal
from .files import File, wire_flags
from .frames import Reply, Stat
from .watches import Notice

if TYPE_CHECKING:
    from .client import Client

__all__ = ["Pending", "Pipeline"]

T = TypeVar("T")

Descriptor = Union[File, int]


class Pending(Generic[T]):
    """The result of a call, once its reply is there."""

    def __init__(self, call: Call[T]) -> None:
        self.call = call
        self.place: Optional[int] = None
        """The call's place in the history; None before its reply, and where no call was made."""
        self._done = False
        self._result: Any = None
        self._error: Optional[Exception] = None

    def __repr__(self) -> str:
        state = "pending" if not self._done else "refused" if self._error else "done"
        return f"<overlayd.Pending {state} {self.call}>"

    def done(self) -> bool:
        """Whether the call is over, answered or not."""
        return self._done

    def exception(self) -> Optional[Exception]:
        """Why there is no result; None where there is one."""
        self._check()
        return self._error

    def result(self) -> T:
        """The call's result, or the exception that the client's method would raise."""
        self._check()
        error = self._error
        if error is None:
            return self._result
        try:
            raise error
        finally:
            del self, error  # the traceback in the error leads here, which would be a circle

    def _check(self) -> None:
        if not self._done:
            raise RuntimeError(f"the call wasn't sent yet: {self.call}")

    def settle(self, reply: Reply) -> None:
        """Takes the reply; for the client."""
        self._done = True
        self.place = reply.place
        if reply.refused is not None:
            self._error = refusal(reply.refused, reply.place, self.call.paths)
            return
        try:
            self._result = self.call.finish(reply.answer)
        except Exception as error:  # by a caller's own `then`; the client goes on
            self._error = error

    def fail(self, error: Exception) -> None:
        """Takes the reason why no reply comes; for the client."""
        self._done = True
        self._error = error


def _descriptor(file: Descriptor) -> int:
    return file if isinstance(file, int) else file.descriptor


class Pipeline:
    """Calls that are collected, and then sent together; their replies are read in one go.

    Each method notes a call and gives its `Pending`. `flush`, or the end of a `with` block that
    wasn't left by an exception, makes the calls in their order. A refused call doesn't keep the
    later ones from being made. Nothing of a block that is left by an exception is sent.
    """

    def __init__(self, client: Client) -> None:
        self._client = client
        self._noted: List[Pending[Any]] = []

    def __enter__(self) -> Pipeline:
        return self

    def __exit__(self, kind: Any, error: Any, trace: Any) -> None:
        if kind is None:
            self.flush()
        else:
            self._noted.clear()

    def __len__(self) -> int:
        return len(self._noted)

    def add(self, call: Call[T]) -> Pending[T]:
        """Notes a call."""
        pending = Pending(call)
        self._noted.append(pending)
        return pending

    def flush(self) -> None:
        """Makes the calls that are noted; `Disconnected` if the server goes away meanwhile.

        Refusals are told by each call's `Pending` alone.
        """
        noted, self._noted = self._noted, []
        self._client.make(noted)

    def _on_file(self, file: Descriptor, call: Call[T]) -> Pending[T]:
        return self.add(call if isinstance(file, int) else call.about(file.name))

    # The calls, as in `Client` and `File`.

    def stat(self, path: Path) -> Pending[Stat]:
        """As `Client.stat`."""
        return self.add(calls.stat(path))

    def readlink(self, path: Path) -> Pending[str]:
        """As `Client.readlink`."""
        return self.add(calls.readlink(path))

    def chmod(self, path: Path, mode: int) -> Pending[None]:
        """As `Client.chmod`."""
        return self.add(calls.chmod(path, mode))

    def chown(self, path: Path, uid: int, gid: int) -> Pending[None]:
        """As `Client.chown`."""
        return self.add(calls.chown(path, uid, gid))

    def setxattr(self, path: Path, attribute: Path, value: bytes) -> Pending[None]:
        """As `Client.setxattr`."""
        return self.add(calls.setxattr(path, attribute, value))

    def getxattr(self, path: Path, attribute: Path) -> Pending[bytes]:
        """As `Client.getxattr`."""
        return self.add(calls.getxattr(path, attribute))

    def removexattr(self, path: Path, attribute: Path) -> Pending[None]:
        """As `Client.removexattr`."""
        return self.add(calls.removexattr(path, attribute))

    def listxattr(self, path: Path) -> Pending[List[str]]:
        """As `Client.listxattr`."""
        return self.add(calls.listxattr(path))

    def mkdir(self, path: Path, mode: int = 0o755) -> Pending[None]:
        """As `Client.mkdir`."""
        return self.add(calls.mkdir(path, mode))

    def symlink(self, src: Path, dst: Path) -> Pending[None]:
        """As `Client.symlink`."""
        return self.add(calls.symlink(src, dst))

    def open(self, path: Path, flags: int = os.O_RDONLY, mode: int = 0o644) -> Pending[File]:
        """As `Client.open`."""
        call = calls.open(path, wire_flags(flags), mode)
        return self.add(call.then(lambda number: File(self._client, number, path, flags)))

    def unlink(self, path: Path) -> Pending[None]:
        """As `Client.unlink`."""
        return self.add(calls.unlink(path))

    def rmdir(self, path: Path) -> Pending[None]:
        """As `Client.rmdir`."""
        return self.add(calls.rmdir(path))

    def link(self, src: Path, dst: Path) -> Pending[None]:
        """As `Client.link`."""
        return self.add(calls.link(src, dst))

    def rename(self, src: Path, dst: Path) -> Pending[None]:
        """As `Client.rename`."""
        return self.add(calls.rename(src, dst))

    def read(self, file: Descriptor, count: int) -> Pending[bytes]:
        """One call: at most `count` bytes, up to 65,536."""
        return self._on_file(file, calls.read(_descriptor(file), count))

    def write(self, file: Descriptor, data: bytes) -> Pending[int]:
        """One call: at most 65,536 bytes; how many were written."""
        return self._on_file(file, calls.write(_descriptor(file), data))

    def seek(self, file: Descriptor, offset: int, whence: int = os.SEEK_SET) -> Pending[int]:
        """As `File.seek`."""
        return self._on_file(file, calls.seek(_descriptor(file), offset, whence))

    def truncate(self, file: Descriptor, size: int) -> Pending[None]:
        """Cuts a file to a size, or fills it with zero bytes."""
        return self._on_file(file, calls.truncate(_descriptor(file), size))

    def fstat(self, file: Descriptor) -> Pending[Stat]:
        """As `File.fstat`."""
        return self._on_file(file, calls.fstat(_descriptor(file)))

    def names(self, file: Descriptor, count: int = 256) -> Pending[List[str]]:
        """As `File.names`."""
        return self._on_file(file, calls.names(_descriptor(file), count))

    def close(self, file: Descriptor) -> Pending[None]:
        """As `File.close`: closes the file's descriptor."""
        call = calls.close(_descriptor(file))
        if not isinstance(file, int):
            opened = file
            call = call.then(lambda _: opened.forget())
        return self._on_file(file, call)

    def arm(self, slot: int, path: Path, mask: int) -> Pending[int]:
        """As `Client.arm`."""
        return self.add(calls.arm(slot, path, mask))

    def disarm(self, wd: int) -> Pending[None]:
        """As `Client.disarm`."""
        return self.add(calls.disarm(wd))

    def notices(self, count: int = 65) -> Pending[List[Notice]]:
        """As `Client.notices`."""
        return self.add(calls.notices(count))
