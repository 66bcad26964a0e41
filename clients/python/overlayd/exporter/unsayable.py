"""What an export can't say."""

from ..importer.telling import shown
from .trees import CHARACTER, Entry

_MARKS = ("user.overlay.", "trusted.overlay.")
# As an owner it stands for "as it is" in the system's calls, so nothing can have it.
_NOBODY = 4_294_967_295


class Unsayable(Exception):
    """The form that was asked for has no way to say this; the text names it in one line."""


def check_attributes(entry: Entry) -> None:
    """Raises `Unsayable` for a user attribute that overlayfs or an import takes for a mark."""
    for name, _ in entry.attrs:
        if name.startswith(_MARKS):
            raise Unsayable(f"{shown(entry.path)}: attribute {shown(name)}: in a layer it would be "
                            "a mark of overlayfs")


def check_owner(entry: Entry) -> None:
    """Raises `Unsayable` for an owner or group that no file system can have."""
    if _NOBODY in (entry.uid, entry.gid):
        raise Unsayable(f"{shown(entry.path)}: a directory can't have what has owner or group "
                        f"{_NOBODY}")


def check_device(entry: Entry) -> None:
    """Raises `Unsayable` for the device that in a layer is a whiteout."""
    if entry.kind == CHARACTER and entry.device == 0:
        raise Unsayable(f"{shown(entry.path)}: a character device 0/0 would be a whiteout")
