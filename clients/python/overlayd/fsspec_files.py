"""A mount as a file system of fsspec, where that is installed.

    fsspec.filesystem("overlayd", socket="/run/overlay.socket").ls("/etc")
    fsspec.open("overlayd:///etc/hostname", "r", socket="/run/overlay.socket")
"""

from __future__ import annotations

import stat
from typing import Any, Dict, List

from fsspec import AbstractFileSystem

from .client import Client
from .frames import Stat

__all__ = ["OverlaydFileSystem"]

_KINDS = {stat.S_IFDIR: "directory", stat.S_IFREG: "file", stat.S_IFLNK: "link"}


def _told(path: str, found: Stat) -> Dict[str, Any]:
    return {"name": path, "size": found.st_size, "type": _KINDS[stat.S_IFMT(found.st_mode)],
            "mode": found.st_mode, "uid": found.st_uid, "gid": found.st_gid,
            "nlink": found.st_nlink}


class OverlaydFileSystem(AbstractFileSystem):  # type: ignore[misc]
    """The mount behind a socket. Links aren't followed; nothing is kept of a listing."""

    protocol = "overlayd"
    root_marker = "/"

    def __init__(self, socket: str, timeout: Any = None, **words: Any) -> None:
        super().__init__(**{**words, "use_listings_cache": False})
        self.client = Client(socket, timeout=timeout)

    @classmethod
    def _strip_protocol(cls, path: Any) -> Any:
        if isinstance(path, list):
            return [cls._strip_protocol(one) for one in path]
        text = str(path)
        if text.startswith("overlayd://"):
            text = text[len("overlayd://"):]
        return "/" + "/".join(name for name in text.split("/") if name)

    def ls(self, path: str, detail: bool = True, **words: Any) -> List[Any]:
        """What is in a directory, or a file itself."""
        path = self._strip_protocol(path)
        try:
            found = [_told(one.path, one.stat()) for one in self.client.scandir(path)]
        except NotADirectoryError:
            found = [self.info(path)]
        return found if detail else [one["name"] for one in found]

    def info(self, path: str, **words: Any) -> Dict[str, Any]:
        """What is at a path."""
        path = self._strip_protocol(path)
        return _told(path, self.client.stat(path))

    def exists(self, path: str, **words: Any) -> bool:
        """Whether something is at a path."""
        return self.client.exists(self._strip_protocol(path))

    def _open(self, path: str, mode: str = "rb", block_size: Any = None,
              autocommit: bool = True, cache_options: Any = None, **words: Any) -> Any:
        return self.client.open(self._strip_protocol(path), mode)

    def mkdir(self, path: str, create_parents: bool = True, **words: Any) -> None:
        """Makes a directory."""
        path = self._strip_protocol(path)
        self.client.makedirs(path) if create_parents else self.client.mkdir(path)

    def makedirs(self, path: str, exist_ok: bool = False) -> None:
        """Makes a directory and the missing ones above it."""
        self.client.makedirs(self._strip_protocol(path), exist_ok=exist_ok)

    def rmdir(self, path: str) -> None:
        """Removes a directory that shows no name."""
        self.client.rmdir(self._strip_protocol(path))

    def _rm(self, path: str) -> None:
        self.client.unlink(self._strip_protocol(path))

    def rm_file(self, path: str) -> None:
        """Removes a file."""
        self._rm(path)

    def rm(self, path: Any, recursive: bool = False, maxdepth: Any = None) -> None:
        """Removes a path, or each of a list, with `recursive` with what is in it."""
        for one in path if isinstance(path, list) else [path]:
            one = self._strip_protocol(one)
            if not self.client.isdir(one):
                self.client.unlink(one)
            elif recursive:
                self.client.rmtree(one)
            else:
                self.client.rmdir(one)

    def mv(self, path1: str, path2: str, **words: Any) -> None:
        """Moves a path; for a directory of a lower layer the mount needs `redirect_dir`."""
        self.client.rename(self._strip_protocol(path1), self._strip_protocol(path2))

    def cp_file(self, path1: str, path2: str, **words: Any) -> None:
        """Copies a file, or makes a directory."""
        path1, path2 = self._strip_protocol(path1), self._strip_protocol(path2)
        if self.client.isdir(path1):
            self.client.makedirs(path2, exist_ok=True)
        else:
            self.client.write_bytes(path2, self.client.read_bytes(path1))
