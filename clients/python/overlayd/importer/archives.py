"""The files of an image: of a directory or a tar, by their names, with the digests that they have.
"""

import errno
import hashlib
import json
import os
import posixpath
import re
import stat
from typing import Any, Dict, List, Optional, Set, Tuple, Union

from .blobs import Blob
from .descriptors import Root
from .members import LINK, SYMLINK, Member, members
from .telling import Refused, shown

_JSON_BYTES = 1 << 22
# How many values a description has at most, so that it is small in memory too.
_JSON_VALUES = 100_000
_LINKS = 8
_MEMBERS_MOST = 100_000
_ALGORITHMS = {"sha256": 64, "sha384": 96, "sha512": 128}
_SKOPEO = "Directory Transport Version: "
_CHUNK = 1 << 20


def _integer(digits: str) -> int:
    """A number of a description; none of them counts, and a long one would take long."""
    return int(digits[:20])


class Archive:
    """The files of an image, by their names."""

    name = ""

    def __init__(self) -> None:
        self._expected: Dict[str, Tuple[str, str]] = {}
        self._compared: Set[str] = set()

    def _find(self, name: str) -> Optional[Blob]:
        raise NotImplementedError

    def open(self, name: str) -> Optional[Blob]:
        """The file of this name, if there is one. Refused where its digest isn't the one that is
        expected."""
        blob = self._find(name)
        if blob is not None and name in self._expected and name not in self._compared:
            self._compared.add(name)
            _compare(blob, *self._expected[name])
        return blob

    def expect(self, name: str, algorithm: str, digits: str) -> None:
        """Says which digest a file has to have, before it is opened."""
        length = _ALGORITHMS.get(algorithm, 0)
        if not length or re.fullmatch("[0-9a-f]{%d}" % length, digits) is None:
            raise Refused(f"{shown(self.name)}: a digest of another form, "
                          f"{shown(algorithm[:20])}:{shown(digits[:20])}")
        self._expected[name] = algorithm, digits

    def json(self, name: str) -> Any:
        """The JSON that a file has; None where there is no such file."""
        blob = self.open(name)
        if blob is None:
            return None
        if blob.size > _JSON_BYTES:
            raise Refused(f"{shown(blob.name)}: too long for a description of an image")
        with blob.raw() as stream:
            data = stream.read()
        if sum(data.count(mark) for mark in (b",", b"[", b"{")) > _JSON_VALUES:
            raise Refused(f"{shown(blob.name)}: too long for a description of an image")
        try:
            return json.loads(data, parse_int=_integer)
        except (ValueError, RecursionError):
            raise Refused(f"{shown(blob.name)}: no JSON") from None

    def is_image(self) -> bool:
        """Whether it is an archive of `docker save`, an OCI layout, or a directory of skopeo."""
        if self.open("oci-layout") is not None and self.open("index.json") is not None:
            return True
        if self.open("manifest.json") is None:
            return False
        try:
            return is_saved(self.json("manifest.json")) or _is_skopeo(self)
        except Refused:
            return False


def _compare(blob: Blob, algorithm: str, digits: str) -> None:
    """Compares the digest of a file with what is said of it."""
    found = hashlib.new(algorithm)
    with blob.raw() as stream:
        for piece in iter(lambda: stream.read(_CHUNK), b""):
            found.update(piece)
    if found.hexdigest() != digits:
        raise Refused(f"{shown(blob.name)}: its bytes have another digest, "
                      f"{algorithm}:{found.hexdigest()}")


class DirectoryArchive(Archive):
    """An image as a directory. Links in it are followed as far as they lead to files in it; of what
    is compressed at most `most` bytes are unpacked, where that is said."""

    def __init__(self, path: str, most: Optional[int] = None) -> None:
        super().__init__()
        self.name = path
        self._most = most
        self._root = Root(path)

    def _find(self, name: str) -> Optional[Blob]:
        plain: Optional[str] = plain_name(name)
        for _ in range(_LINKS):
            if plain is None or plain[:2] == "..":
                return None
            found = self._opened(plain)
            if isinstance(found, int):
                try:
                    return self._blob(plain, found)
                finally:
                    os.close(found)
            plain = found
        return None

    def _opened(self, plain: str) -> Union[int, str, None]:
        """A descriptor of a file; or where a link in its place leads; None where there is neither.
        """
        try:
            return self._root.open_below(os.fsencode(plain))
        except ValueError:
            return None
        except OSError as error:
            if error.errno not in (errno.ELOOP, errno.ENOENT, errno.ENOTDIR, errno.ENAMETOOLONG):
                raise
            if error.errno != errno.ELOOP:
                return None
        leads = self._root.link_below(os.fsencode(plain))
        return None if leads is None else plain_name(
            posixpath.join(posixpath.dirname(plain), os.fsdecode(leads)))

    def _blob(self, plain: str, descriptor: int) -> Optional[Blob]:
        if not stat.S_ISREG(os.fstat(descriptor).st_mode):
            return None
        path = os.path.join(os.path.realpath(self.name), plain)
        return Blob.of_descriptor(os.path.join(self.name, plain), descriptor, path, self._most)


class TarArchive(Archive):
    """An image as a tar, which must not be compressed."""

    def __init__(self, blob: Blob) -> None:
        super().__init__()
        self.name = blob.name
        self._blob = blob
        self._parts: Dict[str, Union[str, Blob]] = {}
        for member in members(blob):
            self._keep(member)
            if len(self._parts) > _MEMBERS_MOST:
                raise Refused(f"{shown(self.name)}: more than {_MEMBERS_MOST:,} files")

    def _keep(self, member: Member) -> None:
        name = plain_name(member.name)
        if member.is_file() and member.sparse is None:
            self._parts[name] = self._blob.part(name, member.offset, member.size)
        elif member.type == SYMLINK:
            above = posixpath.dirname(name)
            self._parts[name] = plain_name(posixpath.join(above, member.linkname))
        elif member.type == LINK:
            self._parts[name] = plain_name(member.linkname)

    def _find(self, name: str) -> Optional[Blob]:
        part: Union[str, Blob, None] = plain_name(name)
        for _ in range(_LINKS):
            if not isinstance(part, str):
                return part
            part = self._parts.get(part)
        return None


def plain_name(name: str) -> str:
    """A name without `.`, `..` and doubled `/`, as far as these can go."""
    return posixpath.normpath(name).lstrip("/")


def is_saved(found: Any) -> bool:
    """Whether this is the list of images that `docker save` writes."""
    return (isinstance(found, list) and bool(found)
            and all(isinstance(image, dict) and are_texts(image.get("Layers"))
                    for image in found))


def are_texts(found: Any) -> bool:
    return isinstance(found, list) and all(isinstance(item, str) for item in found)


def _is_skopeo(archive: Archive) -> bool:
    """Whether it is a directory as skopeo's `dir:` writes it."""
    version = archive.open("version")
    if version is None or version.size > len(_SKOPEO) + 10:
        return False
    with version.raw() as stream:
        return stream.read().startswith(_SKOPEO.encode())


def skopeo_digests(archive: Archive) -> Optional[List[str]]:
    """The layers, from the lowest, of a directory as skopeo's `dir:` writes it; None where it is
    none."""
    if not _is_skopeo(archive):
        return None
    manifest = archive.json("manifest.json")
    layers = manifest.get("layers") if isinstance(manifest, dict) else None
    digests = [layer.get("digest") if isinstance(layer, dict) else None
               for layer in layers] if isinstance(layers, list) else [None]
    if not are_texts(digests):
        raise Refused(f"{shown(archive.name)}: its manifest has no layers with digests")
    names = []
    for digest in digests:
        algorithm, _, digits = digest.partition(":")
        archive.expect(digits, algorithm, digits)
        names.append(digits)
    return names
