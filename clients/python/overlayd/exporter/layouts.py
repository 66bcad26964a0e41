"""OCI layouts: a layer put above an image, by the image specification of the Open Containers
Initiative, version 1.
"""

import contextlib
import gzip
import hashlib
import io
import json
import os
import platform
import tempfile
import time
from typing import Any, BinaryIO, Dict, Iterable, List, Optional, Tuple, cast

from ..importer.archives import DirectoryArchive
from ..importer.telling import Refused, shown
from .comparing import Change
from .layers import write_layer
from .trees import Tree
from .unsayable import Unsayable

Json = Dict[str, Any]
_NAME = "org.opencontainers.image.ref.name"
_TYPE = "application/vnd.oci.image."
_MACHINES = {"x86_64": "amd64", "aarch64": "arm64", "armv7l": "arm", "i686": "386"}
_CHUNK = 1 << 20


def add_layer(found: Iterable[Change], mounted: Tree, folder: str, base: str, tag: str,
              epoch: Optional[int] = None) -> None:
    """Puts the layer above the image of a tag, as the image of another tag or the same one; where
    there is no layout, a new one has this layer alone. The index is replaced last, so that until
    then the layout is what it was."""
    try:
        layout = _Layout(folder)
        index = layout.index()
        config, manifest = layout.image(index, base)
        digest, size, plain = layout.put_layer(found, mounted, epoch)
        moment = time.strftime("%Y-%m-%dT%H:%M:%SZ", time.gmtime(epoch))
        config["created"] = moment
        config["rootfs"]["diff_ids"].append(f"sha256:{plain}")
        config["history"].append({"created": moment, "created_by": "overlayd-export"})
        manifest["config"] = layout.put_json(config, "config.v1+json")
        manifest["layers"].append({"mediaType": _TYPE + "layer.v1.tar+gzip",
                                   "digest": digest, "size": size})
        described = layout.put_json(manifest, "manifest.v1+json")
        layout.put_index(index, described, tag)
    except Refused as fault:
        raise Unsayable(str(fault)) from None


class _Layout:
    """A directory that is an OCI layout, or becomes one."""

    def __init__(self, folder: str) -> None:
        self._folder = folder
        self._blobs = os.path.join(folder, "blobs", "sha256")
        self._archive: Optional[DirectoryArchive] = None
        if os.path.isdir(folder) and os.listdir(folder):
            self._archive = DirectoryArchive(folder)
            if self._archive.open("oci-layout") is None:
                raise Unsayable(f"{shown(folder)}: no OCI layout")

    def index(self) -> Json:
        """The index that is there, or an empty one."""
        if self._archive is None:
            return {"schemaVersion": 2, "manifests": []}
        found = self._archive.json("index.json")
        if not isinstance(found, dict) or not _are_tables(found.get("manifests")):
            raise self._fault("its index has no manifests")
        return found

    def _fault(self, why: str) -> Unsayable:
        return Unsayable(f"{shown(self._folder)}: {why}")

    def image(self, index: Json, tag: str) -> Tuple[Json, Json]:
        """The configuration and the manifest of the image of a tag; those of an empty image where
        the layout is new."""
        if self._archive is None:
            machine = platform.machine()
            config: Json = {"os": "linux", "architecture": _MACHINES.get(machine, machine),
                            "config": {}, "rootfs": {"type": "layers", "diff_ids": []},
                            "history": []}
            return config, {"schemaVersion": 2, "mediaType": _TYPE + "manifest.v1+json",
                            "layers": []}
        tagged = [one for one in index["manifests"] if _tag_of(one) == tag]
        if len(tagged) != 1:
            raise self._fault(f"it has {len(tagged)} images of the tag {shown(tag)}")
        manifest = self._json(tagged[0])
        config = self._json(manifest.get("config"))
        rootfs = config.get("rootfs")
        if not _are_tables(manifest.get("layers")) or not isinstance(rootfs, dict) \
                or not isinstance(rootfs.get("diff_ids"), list):
            raise self._fault("an image without layers")
        if not isinstance(config.setdefault("history", []), list):
            raise self._fault("an image without a history")
        return config, manifest

    def _json(self, descriptor: Any) -> Json:
        """The description to which a descriptor leads, by its digest."""
        digest = descriptor.get("digest") if isinstance(descriptor, dict) else None
        if not isinstance(digest, str) or self._archive is None:
            raise self._fault("a descriptor without a digest")
        algorithm, _, digits = digest.partition(":")
        name = f"blobs/{algorithm}/{digits}"
        self._archive.expect(name, algorithm, digits)
        found = self._archive.json(name)
        if not isinstance(found, dict):
            raise self._fault(f"there is no description {shown(digest)}")
        return found

    def put_layer(self, found: Iterable[Change], mounted: Tree,
                  epoch: Optional[int]) -> Tuple[str, int, str]:
        """Writes a layer compressed by gzip: its digest and size, and the digest of its tar. Where
        that fails, directories that were made for it go."""
        made = [path for path in (self._blobs, os.path.dirname(self._blobs), self._folder)
                if not os.path.isdir(path)]
        os.makedirs(self._blobs, exist_ok=True)
        try:
            return self._packed_layer(found, mounted, epoch)
        except BaseException:
            for path in made:
                with contextlib.suppress(OSError):
                    os.rmdir(path)
            raise

    def _packed_layer(self, found: Iterable[Change], mounted: Tree,
                      epoch: Optional[int]) -> Tuple[str, int, str]:
        with tempfile.NamedTemporaryFile(dir=self._blobs, prefix=".layer.", delete=False) as part:
            try:
                plain = hashlib.sha256()
                with gzip.GzipFile("", "wb", 6, cast(BinaryIO, part), mtime=0) as packed:
                    write_layer(found, mounted, cast(BinaryIO, _Digesting(packed, plain)), epoch)
                part.flush()
                size = part.tell()
                digits = _digest_of(part.name)
                self._place(part.name, digits)
            except BaseException:
                os.unlink(part.name)
                raise
        return f"sha256:{digits}", size, plain.hexdigest()

    def _place(self, part: str, digits: str) -> None:
        os.chmod(part, 0o644)
        os.replace(part, os.path.join(self._blobs, digits))

    def put_json(self, value: Json, kind: str) -> Json:
        """Writes a description; its descriptor."""
        data = _encoded(value)
        digits = hashlib.sha256(data).hexdigest()
        self._write(os.path.join(self._blobs, digits), data)
        return {"mediaType": _TYPE + kind, "digest": f"sha256:{digits}", "size": len(data)}

    def put_index(self, index: Json, described: Json, tag: str) -> None:
        """Writes the index, in which a tag leads to an image and to no other."""
        manifests: List[Json] = [one for one in index["manifests"] if _tag_of(one) != tag]
        index["manifests"] = [*manifests, {**described, "annotations": {_NAME: tag}}]
        if self._archive is None:
            self._write(os.path.join(self._folder, "oci-layout"),
                        _encoded({"imageLayoutVersion": "1.0.0"}))
        self._write(os.path.join(self._folder, "index.json"), _encoded(index))

    @staticmethod
    def _write(path: str, data: bytes) -> None:
        """Writes a file that appears when it is whole."""
        descriptor, part = tempfile.mkstemp(prefix=".part.", dir=os.path.dirname(path))
        try:
            with os.fdopen(descriptor, "wb") as stream:
                stream.write(data)
            os.chmod(part, 0o644)
            os.replace(part, path)
        except BaseException:
            os.unlink(part)
            raise


class _Digesting(io.RawIOBase):
    """Passes on what is written, and takes its digest."""

    def __init__(self, to: gzip.GzipFile, digest: Any) -> None:
        self._to = to
        self._digest = digest

    def writable(self) -> bool:
        return True

    def write(self, data: Any) -> int:
        self._digest.update(data)
        return self._to.write(data)


def _digest_of(path: str) -> str:
    digest = hashlib.sha256()
    with open(path, "rb") as stream:
        for piece in iter(lambda: stream.read(_CHUNK), b""):
            digest.update(piece)
    return digest.hexdigest()


def _encoded(value: Json) -> bytes:
    return json.dumps(value, separators=(",", ":"), ensure_ascii=True).encode()


def _are_tables(found: Any) -> bool:
    return isinstance(found, list) and all(isinstance(one, dict) for one in found)


def _tag_of(descriptor: Json) -> Optional[str]:
    annotations = descriptor.get("annotations")
    return annotations.get(_NAME) if isinstance(annotations, dict) else None
