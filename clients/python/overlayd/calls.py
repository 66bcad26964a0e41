"""The 26 calls of the protocol, each as a value that can be sent.

A `Call` is the frame of a request, and what its reply comes to. `Client.call` makes one,
`Pipeline.add` one of many. The methods of `Client`, `File` and `Pipeline` stand on these, and
are what most programs want; here descriptors are plain numbers.

Paths are what `os` takes, `str`, `bytes` or an object with `__fspath__`. Texts are UTF-8, and
bytes that aren't are told by surrogates, as `os.fsdecode` does it.
"""

from __future__ import annotations

import dataclasses
import errno
import os
from typing import Any, Callable, Generic, List, Sequence, Tuple, TypeVar, Union

from . import frames
from .errors import refusal
from .frames import Op, Stat
from .watches import Notice

__all__ = [
    "Call", "Path", "READ_LIMIT", "arm", "chmod", "chown", "close", "detach", "disarm", "fstat",
    "getxattr", "link", "listxattr", "mkdir", "names", "notices", "open", "read", "readlink",
    "removexattr", "rename", "rmdir", "seek", "setxattr", "stat", "symlink", "truncate", "unlink",
    "write",
]

Path = Union[str, bytes, "os.PathLike[str]", "os.PathLike[bytes]"]

T = TypeVar("T")
S = TypeVar("S")

READ_LIMIT = 65_536
"""The most bytes of one `read` or `write`."""

_PATH_LIMIT, _NAME_LIMIT, _VALUE_LIMIT = 4_095, 255, 1_024


@dataclasses.dataclass(frozen=True)
class Call(Generic[T]):
    """A request, and what becomes of its answer."""

    op: Op
    frame: bytes
    """The bytes that are sent."""
    paths: Tuple[Any, ...]
    """The paths that a refusal tells, as they were given."""
    words: str
    """The call as it is told to a reader."""
    finish: Callable[[Any], T]
    """Makes the call's result of the answer in its reply."""
    fits: Callable[[Any], bool] = lambda answer: True
    """Whether the answer may be one to this request; else the reply is bad."""

    def __str__(self) -> str:
        return self.words

    def then(self, change: Callable[[T], S]) -> Call[S]:
        """The same request, whose result is what `change` makes of this one's."""
        finish = self.finish
        return dataclasses.replace(  # type: ignore[return-value]
            self, finish=lambda answer: change(finish(answer)))  # type: ignore[arg-type]

    def about(self, path: Any) -> Call[T]:
        """The same call, whose refusals tell the path of what its descriptor has open."""
        words = f"{self.words} on {path!r}"
        return dataclasses.replace(self, paths=(path,), words=words)


# A text or block of a request, the most bytes that the server takes, and else its refusal.
_Size = Tuple[bytes, int, int]


def _bytes(text: Path) -> bytes:
    value = os.fspath(text)
    return value.encode("utf-8", "surrogateescape") if isinstance(value, str) else value


def _str(value: bytes) -> str:
    return value.decode("utf-8", "surrogateescape")


def _data(value: bytes) -> bytes:
    return memoryview(value).tobytes()


def _same(answer: Any) -> Any:
    return answer


def _call(op: Op, values: Sequence[Any], shown: Sequence[Any], paths: Tuple[Any, ...] = (),
          sizes: Sequence[_Size] = (), finish: Callable[[Any], Any] = _same) -> Call[Any]:
    """A call; what no frame can carry is refused here, with the server's number for it."""
    try:
        frame = frames.request(op, *values)
    except frames.TooLong:
        for value, limit, number in sizes:
            if len(value) > limit:
                raise refusal(number, None, paths) from None
        raise
    words = f"{op.name.lower()}({', '.join(map(repr, shown))})"
    return Call(op, frame, paths, words, finish)


def _on_path(op: Op, path: Path, *numbers: int, finish: Callable[[Any], Any] = _same) -> Call[Any]:
    text = _bytes(path)
    sizes = [(text, _PATH_LIMIT, errno.ENAMETOOLONG)]
    return _call(op, (*numbers, text), (path, *numbers), (path,), sizes, finish)


def _on_two(op: Op, first: Path, second: Path) -> Call[None]:
    texts = _bytes(first), _bytes(second)
    sizes = [(text, _PATH_LIMIT, errno.ENAMETOOLONG) for text in texts]
    return _call(op, texts, (first, second), (first, second), sizes)


def _on_attribute(op: Op, path: Path, attribute: Path) -> Call[Any]:
    texts = _bytes(path), _bytes(attribute)
    sizes = [(texts[0], _PATH_LIMIT, errno.ENAMETOOLONG), (texts[1], _NAME_LIMIT, errno.EINVAL)]
    return _call(op, texts, (path, attribute), (path,), sizes)


def _on_numbers(op: Op, *numbers: int) -> Call[Any]:
    return _call(op, numbers, numbers)


def _at_most(count: int, call: Call[Any]) -> Call[Any]:
    """The same call, which may not be answered by more than so many bytes, names or notices."""
    return dataclasses.replace(call, fits=lambda answer: len(answer) <= count)


# By path.


def stat(path: Path) -> Call[Stat]:
    """What is at a path; a symbolic link is told itself."""
    return _on_path(Op.STAT, path)


def readlink(path: Path) -> Call[str]:
    """Where a symbolic link leads."""
    return _on_path(Op.READLINK, path, finish=_str)


def chmod(path: Path, mode: int) -> Call[None]:
    """Gives a file or directory another mode, 0 to 0o7777."""
    return _on_path(Op.CHMOD, path, mode)


def chown(path: Path, uid: int, gid: int) -> Call[None]:
    """Gives a file or directory another owner and group, both as they are written."""
    return _on_path(Op.CHOWN, path, uid, gid)


def setxattr(path: Path, attribute: Path, value: bytes) -> Call[None]:
    """Sets a user attribute."""
    data = _data(value)
    texts = _bytes(path), _bytes(attribute), data
    limits = (_PATH_LIMIT, _NAME_LIMIT, _VALUE_LIMIT)
    sizes = list(zip(texts, limits, (errno.ENAMETOOLONG, errno.EINVAL, errno.EFBIG)))
    return _call(Op.SETXATTR, texts, (path, attribute, data), (path,), sizes)


def getxattr(path: Path, attribute: Path) -> Call[bytes]:
    """The value of a user attribute."""
    return _on_attribute(Op.GETXATTR, path, attribute)


def removexattr(path: Path, attribute: Path) -> Call[None]:
    """Deletes a user attribute."""
    return _on_attribute(Op.REMOVEXATTR, path, attribute)


def _strs(texts: List[bytes]) -> List[str]:
    return [_str(text) for text in texts]


def listxattr(path: Path) -> Call[List[str]]:
    """The names of the user attributes, in their order."""
    return _on_path(Op.LISTXATTR, path, finish=_strs)


def mkdir(path: Path, mode: int = 0o755) -> Call[None]:
    """Makes a directory."""
    return _on_path(Op.MKDIR, path, mode)


def symlink(src: Path, dst: Path) -> Call[None]:
    """Makes a symbolic link at `dst` that leads to `src`."""
    return _on_two(Op.SYMLINK, src, dst)


def open(path: Path, flags: int, mode: int = 0o644) -> Call[int]:
    """Opens a file or directory, by the protocol's own flags; the lowest free descriptor."""
    text = _bytes(path)
    sizes = [(text, _PATH_LIMIT, errno.ENAMETOOLONG)]
    return _call(Op.OPEN, (flags, mode, text), (path, flags, mode), (path,), sizes)


def unlink(path: Path) -> Call[None]:
    """Removes a name of a file or symbolic link."""
    return _on_path(Op.UNLINK, path)


def rmdir(path: Path) -> Call[None]:
    """Removes a directory that shows no name."""
    return _on_path(Op.RMDIR, path)


def link(src: Path, dst: Path) -> Call[None]:
    """Gives the file or symbolic link at `src` the further name `dst`."""
    return _on_two(Op.LINK, src, dst)


def rename(src: Path, dst: Path) -> Call[None]:
    """Moves what is at `src` to `dst`, in place of what is there."""
    return _on_two(Op.RENAME, src, dst)


# By descriptor.


def read(descriptor: int, count: int) -> Call[bytes]:
    """At most `count` bytes, up to READ_LIMIT, from the place, which moves after them."""
    return _at_most(count, _on_numbers(Op.READ, descriptor, count))


class _Length(int):
    """Bytes, told by how many they are."""

    def __repr__(self) -> str:
        return f"{int(self)} bytes"


def write(descriptor: int, data: bytes) -> Call[int]:
    """Writes at most READ_LIMIT bytes at the place, or at the end; how many fitted."""
    block = _data(data)
    shown = (descriptor, _Length(len(block)))
    sizes = [(block, READ_LIMIT, errno.EINVAL)]
    call = _call(Op.WRITE, (descriptor, block), shown, sizes=sizes)
    return dataclasses.replace(call, fits=lambda answer: min(len(block), 1) <= answer <= len(block))


def seek(descriptor: int, offset: int, whence: int = os.SEEK_SET) -> Call[int]:
    """Moves the place, and tells it; in a directory only to 0, which lets its listing go."""
    return _on_numbers(Op.SEEK, descriptor, offset, whence)


def truncate(descriptor: int, size: int) -> Call[None]:
    """Cuts a file to a size, or fills it with zero bytes up to it."""
    return _on_numbers(Op.TRUNCATE, descriptor, size)


def fstat(descriptor: int) -> Call[Stat]:
    """What the descriptor has open."""
    return _on_numbers(Op.FSTAT, descriptor)


def names(descriptor: int, count: int = 256) -> Call[List[str]]:
    """The next names of a directory, 1 to 256; none at its end."""
    return _at_most(count, _on_numbers(Op.NAMES, descriptor, count)).then(_strs)


def close(descriptor: int) -> Call[None]:
    """Closes a descriptor."""
    return _on_numbers(Op.CLOSE, descriptor)


# Watches, and the end.


def arm(slot: int, path: Path, mask: int) -> Call[int]:
    """Watches what is at a path through the hook of a slot; the watch's number."""
    text = _bytes(path)
    sizes = [(text, _PATH_LIMIT, errno.ENAMETOOLONG)]
    return _call(Op.ARM, (slot, mask, text), (slot, path, mask), (path,), sizes)


def disarm(wd: int) -> Call[None]:
    """Ends a watch."""
    return _on_numbers(Op.DISARM, wd)


def notices(count: int = 65) -> Call[List[Notice]]:
    """Takes out the first unread notices, at most 65."""
    return _at_most(count, _on_numbers(Op.NOTICES, count))


def detach() -> Call[None]:
    """Closes what the client has open, and ends the session."""
    return _on_numbers(Op.DETACH)
