"""The bytes that entries of a manifest take from its blobs."""

import os
from typing import Any, Dict, Iterator, List, Optional

from ..importer.objects import PIECE, Part
from ..importer.telling import shown
from .unsayable import Unsayable


class Blobs:
    """The files that a manifest names, from the folder where it is."""

    def __init__(self, manifest: str, names: List[str]) -> None:
        self._manifest = manifest
        self._paths = [os.path.join(os.path.dirname(manifest), name) for name in names]

    def part(self, entry: Dict[str, Any]) -> Optional[Part]:
        """Where the bytes of a file's entry are; None where it names no blob."""
        number = entry.get("blob")
        if number is None:
            return None
        if not 0 <= number < len(self._paths):
            raise self._fault(entry)
        start = entry.get("at", 0)
        whole = os.path.getsize(self._paths[number])
        size = entry.get("size", whole - start)
        if not 0 <= start <= start + size <= whole:
            raise self._fault(entry)
        return Part(number, start, size)

    def pieces(self, part: Part) -> Iterator[bytes]:
        """The bytes, piece by piece."""
        left = part.size
        with open(self._paths[part.blob], "rb") as stream:
            stream.seek(part.at)
            while left:
                data = stream.read(min(left, PIECE))
                if not data:
                    raise Unsayable(f"{shown(self._paths[part.blob])}: it ends too early")
                yield data
                left -= len(data)

    @staticmethod
    def _fault(entry: Dict[str, Any]) -> Unsayable:
        return Unsayable(f"a manifest that overlayd doesn't take: {entry['path']}")
