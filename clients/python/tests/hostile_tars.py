"""Tars and images that nobody means well with: named ones, and random ones by a seed."""

import bz2
import io
import json
import random
import tarfile
from typing import Callable, Dict, List

from .import_tools import Member, directory, file, saved_image, tar_of

BLOCK = 512
END = bytes(2 * BLOCK)


def summed(block: bytearray) -> bytes:
    """A header with its right sum."""
    block[148:156] = b" " * 8
    block[148:156] = b"%06o\0 " % sum(block)
    return bytes(block)


def header(name: str, kind: bytes = b"0", size: bytes = b"00000000000\0", link: str = "") -> bytes:
    """A header of a member, with a size as it stands there."""
    info = tarfile.TarInfo(name)
    info.type, info.linkname = kind, link
    block = bytearray(info.tobuf(tarfile.USTAR_FORMAT)[:BLOCK])
    block[124:136] = size
    return summed(block)


def base256(number: int) -> bytes:
    """A number in base 256."""
    first = b"\xff" if number < 0 else b"\x80"
    return first + (number % 256 ** 11).to_bytes(11, "big")


def octal(number: int) -> bytes:
    """A number of eleven octal digits."""
    return b"%011o\0" % number


def padded(data: bytes) -> bytes:
    """Bytes with zeros to the end of their block."""
    return data + bytes(-len(data) % BLOCK)


def pax(records: bytes, name: str = "f", data: bytes = b"") -> bytes:
    """A member behind a pax header of these bytes."""
    return (header("x", b"x", octal(len(records))) + padded(records)
            + header(name, size=octal(len(data))) + padded(data) + END)


def record(key: bytes, value: bytes) -> bytes:
    """A record of a pax header."""
    length = len(key) + len(value) + 3
    while len(b"%d" % length) + len(key) + len(value) + 3 != length:
        length = len(b"%d" % length) + len(key) + len(value) + 3
    return b"%d %b=%b\n" % (length, key, value)


def sparse(headers: Dict[str, str], data: bytes = b"") -> bytes:
    """A tar with a sparse file of pax headers."""
    return pax(b"".join(record(key.encode(), value.encode()) for key, value in headers.items()),
               "s", data)


def _large_zeros() -> bytes:
    """The beginning of a compressed tar with a file of 1 GiB of zeros, in some hundred bytes."""
    packer = bz2.BZ2Compressor()
    parts = [packer.compress(header("f", size=octal(1 << 30)))]
    parts += [packer.compress(bytes(1 << 20)) for _ in range(64)]
    return b"".join(parts) + packer.flush()


def _large_image() -> bytes:
    packer = bz2.BZ2Compressor()
    listed = json.dumps([{"Layers": ["l"]}]).encode()
    parts = [packer.compress(header("manifest.json", size=octal(len(listed))) + padded(listed)
                             + header("l", size=octal(1 << 30)))]
    parts += [packer.compress(bytes(1 << 20)) for _ in range(64)]
    return b"".join(parts) + packer.flush()


OLD_SPARSE = bytearray(header("s", b"S", octal(0)))
OLD_SPARSE[483:495] = octal(1 << 30)
NEW = {"GNU.sparse.major": "1", "GNU.sparse.minor": "0", "GNU.sparse.name": "s"}

# Each of them is refused in one line.
REFUSED: Dict[str, Callable[[], bytes]] = {
    "a size below zero behind another": lambda: (
        header("a", size=octal(512)) + bytes(512) + header("b", size=base256(-512)) + END),
    "a size below zero first": lambda: header("a", size=base256(-512)) + END,
    "a size below zero by pax": lambda: (
        header("a", size=octal(512)) + bytes(512) + pax(record(b"size", b"-1536"))),
    "a size over 2^63": lambda: header("a", size=base256(1 << 63)) + END,
    "a size of 30 digits": lambda: pax(record(b"size", b"9" * 30)),
    "a pax header of digits": lambda: pax(b"1" * 400_000),
    "a pax length of 5,000 digits": lambda: pax(b"1" * 5000 + b" a=b\n"),
    "a pax header of garbage": lambda: pax(b"garbage without a length"),
    "a pax header in another charset": lambda: pax(record(b"hdrcharset", b"ISO-8859-1")
                                                   + record(b"path", b"long")),
    "a sparse file of 1 GiB": lambda: summed(OLD_SPARSE) + END,
    "a sparse map with a letter": lambda: sparse({"GNU.sparse.map": "0,x", "GNU.sparse.size": "9"}),
    "a sparse size with a letter": lambda: sparse({**NEW, "GNU.sparse.realsize": "x"},
                                                  b"0\n" + bytes(510)),
    "a sparse size below zero": lambda: sparse({**NEW, "GNU.sparse.realsize": "-5"},
                                               b"0\n" + bytes(510)),
    "a sparse map of letters": lambda: sparse({**NEW, "GNU.sparse.realsize": "9"},
                                              b"abc\n" * 128),
    "a sparse map without an end": lambda: sparse({**NEW, "GNU.sparse.realsize": "9"},
                                                  b"9" * 512),
    "2,000 long names in a row": lambda: (
        (header("x", b"L", octal(2)) + padded(b"n\0")) * 2000 + header("f") + END),
    "3,000 pax headers in a row": lambda: (
        (header("x", b"x", octal(9)) + padded(record(b"a", b"bc"))) * 3000 + header("f") + END),
    "1 GiB of zeros by bzip2": _large_zeros,
    "an image of 1 GiB by bzip2": _large_image,
    "a layer a thousand times": lambda: tar_of([
        file("l.tar", tar_of([file("f")])),
        file("manifest.json", json.dumps([{"Layers": ["l.tar"] * 1000}]).encode())]),
    "a layer's name of half a pair": lambda: tar_of([
        file("manifest.json", b'[{"Layers": ["\\ud800"]}]')]),
    "an index of 6 MB": lambda: tar_of([
        file("oci-layout", b"{}"), file("index.json", b"[" + b"[]," * 2_000_000 + b"[]]")]),
    "cut off": lambda: tar_of([file("f", b"x" * 5000)])[:2000],
    "nothing": lambda: b"",
}


def _basis(chance: random.Random) -> bytes:
    """A tar or an image that is right."""
    members: List[Member] = [directory("d")]
    for number in range(chance.randrange(1, 6)):
        name = chance.choice(["d/", "", "e/f/", ".wh.", "n" * 120 + "/"]) + f"m{number}"
        kind = chance.choice([tarfile.REGTYPE] * 4 + [tarfile.LNKTYPE, tarfile.SYMTYPE,
                                                     tarfile.CHRTYPE, tarfile.FIFOTYPE])
        data = bytes(chance.randrange(0, 1500)) if kind == tarfile.REGTYPE else b""
        attrs = {"user.a": "b"} if chance.random() < 0.3 else None
        headers = {}
        if kind == tarfile.REGTYPE and chance.random() < 0.3:
            headers = {"GNU.sparse.map": f"0,{len(data)}", "GNU.sparse.size": str(len(data) + 9),
                       "mtime": "1.5"}
        members.append(Member(name, kind, data, link="d/m0", attrs=attrs, headers=headers))
    tar = tar_of(members)
    return saved_image([tar]) if chance.random() < 0.3 else tar


def _broken(data: bytearray, chance: random.Random) -> None:
    """Changes one thing: a field of a header, whose sum is put right; or any bytes."""
    blocks = [at for at in range(0, len(data) - BLOCK + 1, BLOCK)
              if data[at + 257:at + 262] == b"ustar"]
    if blocks and chance.random() < 0.8:
        at = chance.choice(blocks)
        begin, end = chance.choice([(0, 100), (100, 108), (108, 116), (124, 136), (136, 148),
                                    (156, 157), (157, 257), (329, 345), (345, 500)])
        value = chance.choice([
            bytes(chance.randrange(256) for _ in range(end - begin)), b"\xff" * 12,
            base256(chance.getrandbits(80)), base256(-chance.getrandbits(60)),
            octal(chance.getrandbits(33)),
            chance.choice([b"S", b"x", b"g", b"L", b"K", b"1", b"2", b"3", b"5", b"7", b"V"])])
        data[at + begin:at + end] = value[:end - begin].ljust(end - begin, b"\0")
        data[at:at + BLOCK] = summed(bytearray(data[at:at + BLOCK]))
    elif data:
        at = chance.randrange(len(data))
        piece = bytes(chance.randrange(256) for _ in range(chance.randrange(1, 20)))
        data[at:at + len(piece)] = piece


def hostile(seed: int) -> bytes:
    """A tar or an image with some things wrong."""
    chance = random.Random(seed)
    data = bytearray(_basis(chance))
    for _ in range(chance.randrange(1, 5)):
        _broken(data, chance)
    if chance.random() < 0.1:
        del data[chance.randrange(len(data)):]
    if chance.random() < 0.1:
        out = io.BytesIO(bz2.compress(bytes(data)))
        return out.getvalue()
    return bytes(data)
