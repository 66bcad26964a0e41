"""A watch of all that is below a directory, by as many clients as that takes."""

from __future__ import annotations

import collections
import errno
import stat
import threading
import time
from typing import (TYPE_CHECKING, Any, Callable, Deque, Dict, Iterator, List, NamedTuple,
                    Optional, Set, Tuple)

from .watches import Mask, Notice

if TYPE_CHECKING:
    from .client import Client

__all__ = ["CHANGES", "TreeNotice", "TreeWatch"]

CHANGES = (Mask.MODIFY | Mask.ATTRIB | Mask.CLOSE_WRITE | Mask.MOVE | Mask.CREATE | Mask.DELETE
           | Mask.DELETE_SELF | Mask.MOVE_SELF)
"""What changes something: all events but ACCESS, OPEN and CLOSE_NOWRITE."""

# The hooks that forward each event as it is, of the 16 with which a client is attached.
_PLAIN_SLOTS = range(10)
# What is asked for in any case, so that directories are followed.
_FOLLOWED = Mask.CREATE | Mask.DELETE | Mask.MOVE | Mask.ONLYDIR
_TOGETHER = 256
_FIRST_PAUSE = 0.002
# After so many seconds it is asked where directories are, though there are notices still.
_SETTLED = 1.0


class TreeNotice(NamedTuple):
    """What was heard of somewhere in a tree."""

    path: str
    """The path of what it concerns, by the names that the directories above it have now."""
    mask: Mask
    """The event, and ISDIR beside it where it concerns a directory; or Q_OVERFLOW alone."""
    cookie: int
    """The same number in MOVED_FROM and MOVED_TO of one rename, else 0."""


class _Ear:
    """A client that only watches."""

    def __init__(self, client: Client) -> None:
        self.client = client
        self.free = list(reversed(_PLAIN_SLOTS))
        self.watched: Dict[int, _Directory] = {}


class _Directory:
    """A directory that is watched. `found` are names that were told when it was listed."""

    __slots__ = ("parent", "name", "children", "ear", "slot", "found", "gone")

    def __init__(self, parent: Optional[_Directory], name: str, ear: _Ear, slot: int) -> None:
        self.parent, self.name = parent, name
        self.ear, self.slot = ear, slot
        self.children: Dict[str, _Directory] = {}
        self.found: Set[str] = set()
        self.gone = False

    def path(self) -> str:
        """Where it stands, as far as is known."""
        names: List[str] = []
        at: Optional[_Directory] = self
        while at is not None:
            names.append(at.name)
            at = at.parent
        return "/".join(reversed(names)) or "/"

    def below(self, name: str) -> str:
        """The path of a name in it."""
        return f"{self.path().rstrip('/')}/{name}"


class TreeWatch:
    """Hears of what happens below a directory; `Client.watch_tree` makes one.

    It is an iterator that waits for the next `TreeNotice`, and ends when the directory itself has
    gone or the watch is closed. Its clients are its own, so the notices of others stay theirs.
    """

    def __init__(self, attach: Callable[[], Client], path: str, mask: int, clients: int,
                 interval: float) -> None:
        self._attach, self._path, self._most = attach, path, clients
        self._mask, self._interval = Mask(mask), interval
        self._closing = threading.Event()
        self._lock = threading.RLock()
        self._ready: Deque[TreeNotice] = collections.deque()
        self._error: Optional[OSError] = None
        try:
            self._begin()
        except BaseException:
            self.close()
            raise
        if self._error is not None:
            self.close()
            raise self._error

    def _begin(self) -> None:
        """Watches all that is there, by new clients."""
        self._ears: List[_Ear] = []
        self._moving: Dict[int, _Directory] = {}
        self._fresh: List[_Directory] = []
        self._unlisted: List[_Directory] = []
        self._touched: Dict[int, _Directory] = {}
        self._check_at: Optional[float] = None
        self._ended = False
        self._root = self._arm(None, self._path.rstrip("/"))
        self._follow(self._root, None)

    def __enter__(self) -> TreeWatch:
        return self

    def __exit__(self, kind: Any, error: Any, trace: Any) -> None:
        self.close()

    def __iter__(self) -> Iterator[TreeNotice]:
        return self

    def __next__(self) -> TreeNotice:
        heard = self.read(most=1)
        if not heard:
            raise StopIteration
        return heard[0]

    @property
    def directories(self) -> int:
        """How many directories are watched."""
        return sum(len(ear.watched) for ear in self._ears)

    @property
    def closed(self) -> bool:
        """Whether nothing more will be heard: it was closed, or the directory has gone."""
        return self._closing.is_set() or self._ended

    def close(self) -> None:
        """Ends it, and what waits for it in another thread; its clients are detached."""
        self._closing.set()
        with self._lock:
            self._drop()

    def _drop(self) -> None:
        ears, self._ears = getattr(self, "_ears", []), []
        for ear in ears:
            ear.client.close()

    def read(self, timeout: Optional[float] = None, most: Optional[int] = None) -> List[TreeNotice]:
        """What was heard since the last time, at most so much; where there is nothing, it waits.

        Without a timeout it waits until there is something; nothing is given after so many
        seconds, or where the watch has ended. `OSError` with ENOSPC says that a directory is
        there which isn't watched, since all clients watch as many as they can; others are heard.
        """
        until = None if timeout is None else time.monotonic() + timeout
        pause = _FIRST_PAUSE
        while not self._ready and not self.closed:
            if self._error is not None:
                error, self._error = self._error, None
                raise error
            with self._lock:
                if not self._closing.is_set():
                    self._listen()
            if self._ready or self._ended or until is not None and time.monotonic() >= until:
                break
            self._closing.wait(pause)
            pause = min(self._interval, 2 * pause)
        count = len(self._ready) if most is None else min(most, len(self._ready))
        return [self._ready.popleft() for _ in range(count)]

    # What is heard.

    def _listen(self) -> None:
        """Takes the notices of all clients, tells what they say and follows new directories."""
        fresh, self._fresh = self._fresh, []
        heard = self._heard()
        if any(notice.mask & Mask.Q_OVERFLOW for _, notice in heard):
            self._drop()
            self._ready.append(TreeNotice(self._path, Mask.Q_OVERFLOW, 0))
            self._begin()
            return
        for ear, notice in heard:
            self._hear(ear, notice)
        for directory in self._moving.values():
            self._leave(directory)
        self._moving.clear()
        unlisted, self._unlisted = self._unlisted, []
        for directory in unlisted:
            if not directory.gone:
                self._follow(directory, self._ready)
        if self._check_at is not None and (not heard or time.monotonic() > self._check_at):
            self._check()
        again = {id(directory) for directory in self._fresh}
        for directory in fresh:
            if id(directory) not in again:
                directory.found.clear()

    def _heard(self) -> List[Tuple[_Ear, Notice]]:
        """The notices of all clients; renames, of which each has its number, in their order."""
        queues = [(ear, ear.client.notices()) for ear in self._ears]
        moves = [notice for _, queue in queues for notice in queue
                 if notice.cookie and notice.mask & Mask.ISDIR]
        if len(moves) != 2 * len({notice.cookie for notice in moves}):
            # The other half of a rename may have come to a client that was asked before.
            queues = [(ear, [*queue, *ear.client.notices()]) for ear, queue in queues]
        keyed = []
        for ear, queue in queues:
            cookie = 0
            for notice in queue:
                cookie = max(cookie, notice.cookie)
                first = notice.cookie == cookie and notice.mask & Mask.MOVED_FROM
                keyed.append(((cookie, not first), ear, notice))
        keyed.sort(key=lambda one: one[0])
        return [(ear, notice) for _, ear, notice in keyed]

    def _hear(self, ear: _Ear, notice: Notice) -> None:
        directory = ear.watched.get(notice.wd)
        if directory is None:
            return
        if notice.mask & Mask.IGNORED:
            self._forget(ear, notice.wd, directory)
        elif directory.gone:
            return
        elif notice.name:
            self._hear_of_a_name(directory, notice)
        elif directory is self._root and notice.mask & self._mask & Mask.ALL_EVENTS:
            self._ready.append(TreeNotice(self._path, notice.mask, notice.cookie))

    def _hear_of_a_name(self, directory: _Directory, notice: Notice) -> None:
        name, mask = notice.name, notice.mask
        told_before = name in directory.found and mask & Mask.CREATE
        if mask & (Mask.CREATE | Mask.DELETE | Mask.MOVED_FROM):
            directory.found.discard(name)
        if mask & self._mask & Mask.ALL_EVENTS and not told_before:
            self._ready.append(TreeNotice(directory.below(name), mask, notice.cookie))
        if not mask & Mask.ISDIR:
            return
        self._touched[id(directory)] = directory
        if mask & (Mask.DELETE | Mask.MOVE):
            self._doubt()
        if mask & (Mask.DELETE | Mask.MOVED_FROM):
            left = directory.children.pop(name, None)
            if left is not None and mask & Mask.MOVED_FROM:
                self._moving[notice.cookie] = left
        elif mask & Mask.MOVED_TO and notice.cookie in self._moving:
            moved = self._moving.pop(notice.cookie)
            moved.parent, moved.name = directory, name
            directory.children[name] = moved
        elif mask & (Mask.CREATE | Mask.MOVED_TO) and name not in directory.children:
            self._follow(self._arm_below(directory, name), self._ready)

    def _forget(self, ear: _Ear, wd: int, directory: _Directory) -> None:
        """The watch of a directory has ended, so that its slot is free."""
        del ear.watched[wd]
        directory.gone = True
        ear.free.append(directory.slot)
        parent = directory.parent
        if parent is not None and parent.children.get(directory.name) is directory:
            del parent.children[directory.name]
        if directory is self._root:
            self._ended = True

    def _leave(self, directory: _Directory) -> None:
        """Ends the watches of a directory that was moved out of the tree, and of those in it."""
        left = [directory]
        while left:
            one = left.pop()
            one.gone = True
            left += one.children.values()
            for wd in [wd for wd, its in one.ear.watched.items() if its is one]:
                try:
                    one.ear.client.disarm(wd)
                except OSError as error:
                    if error.errno != errno.EINVAL:  # it ended meanwhile
                        raise

    def _doubt(self) -> None:
        """Directories may not be where they are believed to be, as when one was made, moved and
        made again before the first of it was heard."""
        if self._check_at is None:
            self._check_at = time.monotonic() + _SETTLED

    def _check(self) -> None:
        """Asks of each directory whether it is where it is believed to be: its hook can be armed
        there anew. Those that aren't are left, and where there were changes it is looked anew."""
        self._check_at = None
        touched, self._touched = self._touched, {}
        reached = [self._root]
        for directory in reached:
            reached += directory.children.values()
        known = {id(directory) for directory in reached}
        lost = [directory for ear in self._ears for directory in self._misplaced(ear, known)]
        if self._root in lost or self._root.gone:
            return
        for directory in lost:
            self._leave(directory)
            parent = directory.parent
            if parent is not None:
                touched[id(parent)] = parent
                if parent.children.get(directory.name) is directory:
                    del parent.children[directory.name]
        for directory in touched.values():
            if not directory.gone and id(directory) in known:
                for name, is_directory in self._names(directory):
                    if is_directory and name not in directory.children:
                        self._follow(self._arm_below(directory, name), self._ready)

    def _misplaced(self, ear: _Ear, known: Set[int]) -> List[_Directory]:
        """The directories of a client that nothing leads to, or that aren't at their paths."""
        with ear.client.pipeline() as batch:
            asked = [(wd, one, batch.arm(one.slot, one.path(), self._asked()))
                     for wd, one in ear.watched.items() if not one.gone]
        found = []
        for wd, one, answer in asked:
            if answer.exception() is not None or answer.result() != wd:
                if answer.exception() is None:
                    ear.client.disarm(answer.result())
                found.append(one)
            elif id(one) not in known:
                found.append(one)
        return found

    # What is watched.

    def _follow(self, top: Optional[_Directory], told: Optional[Deque[TreeNotice]]) -> None:
        """Watches the directories below a watched one; with `told` the names there are told."""
        left = [top]
        while left:
            directory = left.pop()
            if directory is None:
                continue
            self._fresh.append(directory)
            for name, is_directory in self._names(directory):
                if told is not None and name not in directory.found:
                    mask = Mask.CREATE | (Mask.ISDIR if is_directory else Mask(0))
                    if mask & self._mask & Mask.ALL_EVENTS:
                        told.append(TreeNotice(directory.below(name), mask, 0))
                directory.found.add(name)
                if is_directory and self._error is None and name not in directory.children:
                    left.append(self._arm_below(directory, name))

    def _arm_below(self, parent: _Directory, name: str) -> Optional[_Directory]:
        """Watches a directory below another one, unless it has gone or moved meanwhile."""
        try:
            return self._arm(parent, name)
        except OSError as error:
            if error.errno == errno.ENOSPC:
                self._error = self._error or error
            elif error.errno not in (errno.ENOENT, errno.ENOTDIR, errno.EBUSY, errno.ELOOP):
                raise
            self._touched[id(parent)] = parent
            self._doubt()
            return None

    def _names(self, directory: _Directory) -> Iterator[Tuple[str, bool]]:
        """The names in a directory, each with whether it is one of a directory. Where something
        isn't there any more, it may be the directory that was moved: it is listed again later."""
        client, is_whole = directory.ear.client, False
        try:
            names = client.listdir(directory.path())
            is_whole = True
            for first in range(0, len(names), _TOGETHER):
                some = names[first:first + _TOGETHER]
                with client.pipeline() as batch:
                    asked = [batch.stat(directory.below(name)) for name in some]
                for name, answer in zip(some, asked):
                    if answer.exception() is None:
                        yield name, stat.S_ISDIR(answer.result().st_mode)
                    else:
                        is_whole = False
        except (FileNotFoundError, NotADirectoryError):
            pass
        if not is_whole:
            self._unlisted.append(directory)

    def _arm(self, parent: Optional[_Directory], name: str) -> _Directory:
        """Watches a directory by a client that has room, or else by a further one."""
        path = (parent.below(name) if parent is not None else name) or "/"
        if not self._ears or not any(ear.free for ear in self._ears):
            if len(self._ears) >= self._most:
                raise OSError(errno.ENOSPC, f"{self.directories} directories are watched by "
                              f"{len(self._ears)} clients, and no further one may be", path)
            self._ears.append(_Ear(self._attach()))
        ear = next(ear for ear in self._ears if ear.free)
        slot = ear.free[-1]
        wd = ear.client.arm(slot, path, self._asked())
        ear.free.pop()
        directory = _Directory(parent, name, ear, slot)
        ear.watched[wd] = directory
        if parent is not None:
            parent.children[name] = directory
        return directory

    def _asked(self) -> Mask:
        """What each watch is for."""
        return (self._mask & Mask.ALL_EVENTS) | _FOLLOWED
