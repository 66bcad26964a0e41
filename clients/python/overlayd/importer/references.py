"""The blobs of a manifest: files that it names, and from which it takes bytes."""

import os
from typing import List, Optional

from .limits import text_of
from .stores import ENDING, Store


class References:
    """Gives files their numbers. `folder` is where the manifest will be, if that is known."""

    def __init__(self, folder: Optional[str]) -> None:
        self._within = None if folder is None else os.path.join(os.path.realpath(folder), "")
        self._paths: List[str] = []

    def number(self, path: str) -> Optional[int]:
        """The number of a file; None where no text names it."""
        if text_of(os.fsencode(path)) is None:
            return None
        if path not in self._paths:
            self._paths.append(path)
        return self._paths.index(path)

    def add(self, path: str) -> None:
        """Gives a file the next number, whatever its name is."""
        self._paths.append(path)

    def store(self, manifest: str) -> Store:
        """A file beside a manifest for bytes that no other file has, which gets the next number."""
        folder, name = os.path.split(manifest)
        path = os.path.join(os.path.realpath(folder), name + ENDING)
        self._paths.append(path)
        return Store(path, len(self._paths) - 1)

    def names(self) -> List[str]:
        """The files by their numbers: from the manifest's folder where they are below it."""
        return [self._name(path) for path in self._paths]

    def _name(self, path: str) -> str:
        if self._within is not None and path.startswith(self._within):
            return path[len(self._within):]
        return path
