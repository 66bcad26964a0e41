"""Headers of tars as `tarfile` writes them in the form of pax."""

import tarfile
from zlib import adler32

from ..importer.members import BLOCK

_TIME = {"mtime"}
_USUAL = frozenset((tarfile.REGTYPE, tarfile.DIRTYPE, tarfile.SYMTYPE, tarfile.LNKTYPE))
_NAME_BYTES = 100
# What 7 and 11 octal digits can say.
_OWNERS, _SIZES = 8 ** 7, 8 ** 11


def header(info: tarfile.TarInfo) -> bytes:
    """The header of a member, after one of pax where it needs that: the bytes of `tobuf`, of a
    usual member by few steps."""
    is_bare_directory = info.type == tarfile.DIRTYPE and not info.name.endswith("/")
    name = f"{info.name}/" if is_bare_directory else info.name
    if not (info.type in _USUAL and info.pax_headers.keys() <= _TIME
            and _fits(name) and _fits(info.linkname) and 0 <= info.uid < _OWNERS
            and 0 <= info.gid < _OWNERS and 0 <= info.size < _SIZES
            and (info.pax_headers or 0 <= info.mtime < _SIZES)):
        return info.tobuf(tarfile.PAX_FORMAT, "utf-8", "surrogateescape")
    seconds = info.mtime if 0 <= info.mtime < _SIZES else 0
    owners = b"%07o\0%07o\0%07o" % (info.mode & 0o7777, info.uid, info.gid)
    block = _block(name, owners, info.size, int(seconds), info.type, info.linkname)
    time = info.pax_headers.get("mtime")
    return block if time is None else _time_before(time.encode("ascii")) + block


def _fits(name: str) -> bool:
    return len(name) <= _NAME_BYTES and name.isascii()


def _time_before(time: bytes) -> bytes:
    """A header of pax that says the time of the next member; its length has two digits."""
    record = b"%d mtime=%b\n" % (len(time) + 10, time)
    block = _block("././@PaxHeader", b"0000000\0" * 2 + b"0000000", len(record), 0,
                   tarfile.XHDTYPE, "")
    return block + record.ljust(BLOCK, b"\0")


def _block(name: str, owners: bytes, size: int, seconds: int, kind: bytes, link: str) -> bytes:
    """One block; its sum counts itself as blanks."""
    head = b"%b%b\0%011o\0%011o\0" % (name.encode("ascii").ljust(_NAME_BYTES, b"\0"), owners, size,
                                      seconds)
    rest = (b" %b%b" % (kind, link.encode("ascii").ljust(_NAME_BYTES, b"\0"))
            + tarfile.POSIX_MAGIC).ljust(BLOCK - 155, b"\0")
    return b"%b%06o\0%b" % (head, _sum(head) + 7 * 0x20 + _sum(rest[:256]) + _sum(rest[256:]), rest)


def _sum(part: bytes) -> int:
    """The sum of up to 256 bytes: the lower half of their Adler-32 is one more."""
    return (adler32(part) & 0xFFFF) - 1
