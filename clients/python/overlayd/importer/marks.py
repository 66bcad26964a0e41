"""Extended attributes of a layer: the marks of overlayfs, user attributes, and others."""

from typing import Callable, Dict, Iterable, List, NamedTuple, Optional, Tuple

from .keeping import Keep
from .limits import ATTRIBUTES_MOST, attribute_fault, redirect_of
from .meta import META, PRIVATE, hidden
from .objects import Attributes
from .telling import ATTRIBUTE, MARK, shown

Pairs = Iterable[Tuple[bytes, bytes]]
Tell = Callable[[str, str], None]

_PREFIXES = (b"trusted.overlay.", b"user.overlay.")
# What the kernel keeps for itself in an upper: nothing of it shows in the mount.
_BOOKKEEPING = frozenset((b"origin", b"impure", b"nlink", b"uuid", b"upper"))
_READ = frozenset((b"opaque", b"redirect", b"whiteout", b"metacopy"))
# Attributes that a system keeps outside of `user.`, by how their names begin.
_SYSTEM = (b"security.", b"system.", b"trusted.", b"user.")


class Marks(NamedTuple):
    """What the extended attributes of one object say. `attrs` are its user attributes; `has_meta`,
    that the one with its times is among them."""

    attrs: Attributes = ()
    opaque: bool = False
    redirect: Optional[bytes] = None
    whiteout: bool = False
    metacopy: bool = False
    has_meta: bool = False


NONE = Marks()


def _mark_of(name: bytes) -> Optional[bytes]:
    """The name of a mark of overlayfs behind its prefix; None for another attribute."""
    for prefix in _PREFIXES:
        if name.startswith(prefix):
            return name[len(prefix):]
    return None


def _kept(name: bytes, value: bytes, keep: Keep) -> Tuple[Optional[Tuple[str, str]], str]:
    """The attribute that a manifest has for this one; or None, and why."""
    if name.startswith(PRIVATE.encode()) and not keep.private:
        return None, "it is overlayd's own (--keep-private)"
    fault = attribute_fault(name, value)
    if fault is None:
        return (name.decode(), value.decode()), ""
    if keep.xattrs and name.startswith(_SYSTEM):
        return hidden(name, value), fault
    return None, fault


def read_marks(pairs: Pairs, tell: Tell, keep: Keep = Keep()) -> Marks:
    """Reads the attributes of an object; `tell` hears of each that can't be kept."""
    marks: Dict[bytes, bytes] = {}
    users: List[Tuple[str, str]] = []
    # `trusted.` comes before `user.`, so its mark wins where both are there.
    for name, value in sorted(pairs):
        mark = _mark_of(name)
        if mark in _READ:
            marks.setdefault(mark, value)
        elif mark is not None:
            if mark not in _BOOKKEEPING:
                tell(ATTRIBUTE, f"attribute {shown(name)}: an unknown mark of overlayfs")
        else:
            kept, fault = _kept(name, value, keep)
            if kept is None:
                tell(ATTRIBUTE, f"attribute {shown(name)}: {fault}")
            elif len(users) == ATTRIBUTES_MOST:
                tell(ATTRIBUTE, f"attribute {shown(name)}: over 64 user attributes")
            else:
                users.append(kept)
    opaque = marks.get(b"opaque") == b"y"
    return Marks(tuple(users), opaque, marks.get(b"redirect"), b"whiteout" in marks,
                 b"metacopy" in marks, any(name == META for name, _ in users))


def redirect_text(raw: bytes, tell: Tell) -> Tuple[Optional[str], bool]:
    """The redirect that a manifest can say, and whether the directory is opaque for want of it."""
    redirect = redirect_of(raw)
    if redirect is None:
        tell(MARK, f"redirect {shown(raw)}: none that a manifest can say; nothing below is shown")
        return None, True
    return redirect, False
