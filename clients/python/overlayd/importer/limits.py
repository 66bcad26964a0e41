"""What a manifest can say: the limits of names, paths, attributes and files."""

import errno
from typing import Optional

NAME_BYTES = 255
PATH_BYTES = 4095
TARGET_BYTES = 4095
FILE_LIMIT = 1_048_576
FILE_LIMIT_LEAST = 1
FILE_LIMIT_MOST = 1 << 40
# What a file has at most where no --file-limit is given, and how many times the bytes that are
# there a sparse one, or what is unpacked, may be.
FILE_UNASKED = 1 << 30
GROWTH = 1000
UNPACKED_LEAST = 1 << 25
UNPACKED_MOST = 1 << 34
LAYERS_READ = 128
ATTRIBUTES_MOST = 64
VALUE_BYTES = 1024
OWNER_MOST = 4_294_967_295
LAYERS_LEAST = 2
LOWERS_MOST = 16
HISTORY_LEAST = 2
HISTORY_MOST = 1_000_000
MODE_BITS = 0o7777
NO_ATTRIBUTES = (errno.ENOTSUP, errno.EOPNOTSUPP)


def text_of(raw: bytes) -> Optional[str]:
    """The text that these bytes spell in UTF-8, if they do."""
    try:
        return raw.decode("utf-8")
    except UnicodeDecodeError:
        return None


def name_fault(raw: bytes) -> Optional[str]:
    """Why a manifest can't say this name of an object; None where it can."""
    if len(raw) > NAME_BYTES:
        return "its name is longer than 255 bytes"
    if raw in (b"", b".", b"..") or b"\0" in raw or b"/" in raw:
        return "its name is none that a layer can have"
    if text_of(raw) is None:
        return "its name isn't UTF-8"
    return None


def limit_for(largest: int) -> Optional[int]:
    """The file_limit of a manifest whose largest file has so many bytes: as many MiB as it needs;
    None where the limit that holds without the key is enough."""
    if largest <= FILE_LIMIT:
        return None
    return -(-largest // FILE_LIMIT) * FILE_LIMIT


def size_fault(size: int, most: int) -> str:
    """Why a file of so many bytes is left out, of which there may be `most`."""
    return f"a file of {size:,} bytes; at most {most:,} fit"


def path_fault(path: str) -> Optional[str]:
    """Why this path is too long for a manifest; None where it isn't."""
    if len(path) * 4 > PATH_BYTES and len(path.encode()) > PATH_BYTES:
        return "its path is longer than 4,095 bytes"
    return None


def target_fault(raw: bytes) -> Optional[str]:
    """Why a manifest can't say that a symbolic link leads there; None where it can."""
    if not raw or b"\0" in raw:
        return "a symbolic link that leads nowhere"
    if len(raw) > TARGET_BYTES:
        return "a symbolic link to a path longer than 4,095 bytes"
    if text_of(raw) is None:
        return "a symbolic link to a path that isn't UTF-8"
    return None


def attribute_fault(name: bytes, value: bytes) -> Optional[str]:
    """Why a manifest can't say this user attribute; None where it can."""
    if not name.startswith(b"user.") or name == b"user.":
        return "no user attribute"
    if len(name) > NAME_BYTES or b"\0" in name or text_of(name) is None:
        return "its name is none that a manifest can say"
    if len(value) > VALUE_BYTES:
        return "its value is longer than 1,024 bytes"
    if text_of(value) is None:
        return "its value isn't UTF-8"
    return None


def redirect_of(raw: bytes) -> Optional[str]:
    """The redirect that these bytes spell; None where a manifest can't say it."""
    text = text_of(raw)
    if text is None or path_fault(text):
        return None
    names = text[1:].split("/") if text.startswith("/") else [text]
    if any(name_fault(name.encode()) for name in names):
        return None
    return text
