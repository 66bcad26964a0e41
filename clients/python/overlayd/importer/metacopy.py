"""Files whose bytes are in a layer below: the mark `overlay.metacopy`."""

from typing import Optional

from .limits import redirect_of
from .merging import Merge
from .objects import File, Names
from .telling import shown


def read_through(file: File, names: Names, redirect: Optional[bytes],
                 merge: Merge) -> Optional[str]:
    """Gives a marked file, which the first of the layers has at these names, the bytes that the
    layers below have for it, by the kernel's rules; or says why it has none.

    Their files are read through already, so the first one that is found has the bytes."""
    text = None if redirect is None else redirect_of(redirect)
    found = None
    if redirect is None or text is not None:
        found = merge.bytes_of(names, text)
    if found is None:
        where = "its path" if redirect is None else f"its redirect, {shown(redirect)}"
        return ("a file whose bytes are in a lower layer (metacopy), and no layer below has a file "
                f"at {where}")
    file.source, file.place, file.size = found.source, found.place, found.size
    return None
