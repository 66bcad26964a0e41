"""A client that reads a folder, in place of one that reads a mount."""

import contextlib
import errno
import os
from typing import Any, Callable, Dict, Iterator, List


class Answer:
    """A call's result, as the client's pipeline has it."""

    def __init__(self, call: Callable[[], Any]) -> None:
        self._error = None
        try:
            self._result = call()
        except OSError as error:
            self._error = error

    def exception(self) -> Any:
        """Why there is none."""
        return self._error

    def result(self) -> Any:
        """The result or the refusal."""
        if self._error is not None:
            raise self._error
        return self._result


class FolderClient:
    """The calls of a client that reads, on a folder; it keeps count of them."""

    def __init__(self, root: str) -> None:
        self._root = root
        self.calls = 0
        self.hooks: Dict[int, int] = {}

    def __enter__(self) -> "FolderClient":
        return self

    def __exit__(self, *what: Any) -> None:
        pass

    def _at(self, path: str) -> str:
        self.calls += 1
        return self._root + path

    def stat(self, path: str) -> os.stat_result:
        """As `os.lstat`."""
        return os.lstat(self._at(path))

    def open(self, path: str, flags: int = os.O_RDONLY) -> Any:
        """A file to read, or a directory to list."""
        there = self._at(path)
        return FolderListing(there) if flags & os.O_DIRECTORY else open(there, "rb")

    def arm(self, slot: int, path: str, mask: int) -> int:
        """Watches what is there; the hook takes nothing else."""
        status = os.lstat(self._at(path))
        if self.hooks.setdefault(slot, status.st_ino) != status.st_ino:
            raise OSError(errno.EBUSY, os.strerror(errno.EBUSY))
        return slot + 1

    def disarm(self, watch: int) -> None:
        """Ends a watch."""
        self.calls += 1
        del self.hooks[watch - 1]

    @contextlib.contextmanager
    def pipeline(self) -> Iterator["FolderPipeline"]:
        """Calls that are made at once."""
        yield FolderPipeline(self, self._at)


class FolderListing:
    """An open directory, as the engine lists it: without the whiteouts that the kernel lists."""

    def __init__(self, path: str) -> None:
        self._names = [name for name in os.listdir(path)
                       if os.path.lexists(os.path.join(path, name))]

    def __enter__(self) -> "FolderListing":
        return self

    def __exit__(self, *what: Any) -> None:
        pass

    def names(self, count: int = 256) -> List[str]:
        """The next names."""
        found, self._names = self._names[:count], self._names[count:]
        return found


class FolderPipeline:
    """The calls of a pipeline."""

    def __init__(self, client: FolderClient, at: Callable[[str], str]) -> None:
        self._client = client
        self._at = at

    def stat(self, path: str) -> Answer:
        """As the client's."""
        return Answer(lambda: self._client.stat(path))

    def readlink(self, path: str) -> Answer:
        """As the client's."""
        return Answer(lambda: os.readlink(self._at(path)))

    def listxattr(self, path: str) -> Answer:
        """As the client's: user attributes alone."""
        return Answer(lambda: [name for name in os.listxattr(self._at(path))
                               if name.startswith("user.")])

    def getxattr(self, path: str, name: str) -> Answer:
        """As the client's."""
        return Answer(lambda: os.getxattr(self._at(path), name))

    def arm(self, slot: int, path: str, mask: int) -> Answer:
        """As the client's."""
        return Answer(lambda: self._client.arm(slot, path, mask))
