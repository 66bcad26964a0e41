"""Which names of a mount lead to one file, as a server's watches tell it.

No reply says so, but a hook watches one object and takes no other one: armed at two names, it is
refused at the second one unless both lead to the same file. Symbolic links can't be watched.
"""

from typing import Dict, Iterable, Iterator, List, Tuple

from ..client import Client
from ..errors import Disconnected
from ..watches import Mask
from .trees import Entry

# The last of the hooks that answer each event as it is, and an event that is rare.
SLOT, _EVENTS = 9, Mask.DELETE_SELF
# How many names are asked about at once, and in all.
_TOGETHER, _ASKED_MOST = 64, 1 << 20


class SameFiles:
    """Asks a server by watches of a client, which end again, so that the mount stays as it is. The
    client should have no watch of its own at that hook: where it has, names stay untold, or its
    watch ends."""

    def __init__(self, client: Client) -> None:
        self._client = client
        self._left = _ASKED_MOST

    def told(self, entries: Iterable[Entry]) -> Iterator[Entry]:
        """The entries of files that have several names; those of one file have the same `same`,
        and no other one has it."""
        alike: Dict[Entry, List[Entry]] = {}
        for entry in entries:
            alike.setdefault(entry._replace(path=""), []).append(entry)
        for names in alike.values():
            yield from self._told_apart(names)

    def _told_apart(self, names: List[Entry]) -> Iterator[Entry]:
        while names:
            ones, names = self._names_of_first(names)
            yield from ones

    def _names_of_first(self, names: List[Entry]) -> Tuple[List[Entry], List[Entry]]:
        """The names that lead to where the first one does, and the others."""
        if self._left <= 0:
            return names, []
        try:
            watch = self._client.arm(SLOT, names[0].path, _EVENTS)
        except Disconnected:
            raise
        except OSError:
            return names[:1], names[1:]
        ones, others, rest = names[:1], [], names[1:]
        while rest and len(ones) < names[0].links:
            some, rest = rest[:_TOGETHER], rest[_TOGETHER:]
            for entry, is_one in zip(some, self._lead_there(some, watch)):
                (ones if is_one else others).append(entry)
        try:
            self._client.disarm(watch)
        except Disconnected:
            raise
        except OSError:
            return ones, others + rest
        return [entry._replace(same=("file", watch)) for entry in ones], others + rest

    def _lead_there(self, names: List[Entry], watch: int) -> List[bool]:
        """Of each name, whether it leads to the file of the watch."""
        self._left -= len(names)
        with self._client.pipeline() as batch:
            asked = [batch.arm(SLOT, entry.path, _EVENTS) for entry in names]
        return [answer.exception() is None and answer.result() == watch for answer in asked]
