"""Whole images: archives of `docker save` and OCI layouts, as directories or tars."""

from typing import Any, Dict, List, NamedTuple, Optional

from . import limits
from .archives import Archive, TarArchive, are_texts, is_saved, plain_name, skopeo_digests
from .blobs import Blob
from .members import members
from .telling import Refused, shown

_INDEXES = ("application/vnd.oci.image.index.v1+json",
            "application/vnd.docker.distribution.manifest.list.v2+json")
_NAMES = ("org.opencontainers.image.ref.name", "io.containerd.image.name")
_REFERENCE = "vnd.docker.reference.type"
_DEPTH = 3
_MEMBERS = 10_000
_DESCRIPTORS_MOST = 4096


class Choice(NamedTuple):
    """Which image of an archive is meant."""

    image: Optional[str] = None
    platform: Optional[str] = None


def archive_in(blob: Blob) -> Optional[Archive]:
    """The image that a tar is; None where it is a layer. A compressed image is unpacked into a
    temporary file."""
    if not _may_be_image(blob):
        return None
    return TarArchive(blob.unpacked() if blob.is_compressed() else blob)


def _may_be_image(blob: Blob) -> bool:
    """Whether a tar has what an image has, few members and nothing more than three names deep."""
    tops = set()
    for member in members(blob):
        name = plain_name(member.name)
        if name.count("/") >= _DEPTH or name.rpartition("/")[2].startswith(".wh."):
            return False
        tops.add(name)
        if len(tops) > _MEMBERS:
            return False
    return "manifest.json" in tops or {"oci-layout", "index.json"} <= tops


def layers_of(archive: Archive, choice: Choice) -> List[Blob]:
    """The layers of the image that is meant, the highest first."""
    saved = archive.json("manifest.json")
    is_layout = archive.open("oci-layout") is not None
    if is_saved(saved) and not (choice.platform and is_layout):
        names = _saved_layers(archive, saved, choice)
    elif is_layout:
        names = _layout_layers(archive, choice)
    elif skopeo_digests(archive) is not None:
        names = skopeo_digests(archive) or []
    else:
        raise Refused(f"{shown(archive.name)}: no archive of docker save and no OCI layout")
    if len(names) > limits.LAYERS_READ:
        raise Refused(f"{shown(archive.name)}: {len(names):,} layers; at most "
                      f"{limits.LAYERS_READ} are read")
    return [_layer(archive, name) for name in reversed(names)]


def _layer(archive: Archive, name: str) -> Blob:
    blob = archive.open(name)
    if blob is None:
        raise Refused(f"{shown(archive.name)}: the layer {shown(name)} isn't there")
    return blob


def _saved_layers(archive: Archive, images: List[Dict[str, Any]], choice: Choice) -> List[str]:
    if choice.image is not None:
        images = [image for image in images if choice.image in _tags(image)]
    if choice.platform is not None:
        images = [image for image in images
                  if _is_for(archive.json(str(image.get("Config"))), choice.platform)]
    _one_of(archive, images, [tag for image in images for tag in _tags(image)])
    layers: List[str] = images[0]["Layers"]
    return layers


def _tags(image: Dict[str, Any]) -> List[str]:
    """The names that `docker save` gives an image."""
    tags = image.get("RepoTags")
    return tags if are_texts(tags) else []


def _one_of(archive: Archive, found: List[Any], names: List[str]) -> None:
    """Refuses none and more than one."""
    if not found:
        raise Refused(f"{shown(archive.name)}: it has no image of that name and platform")
    if len(found) > 1:
        listed = ", ".join(shown(name) for name in names[:16]) or "they have no names"
        raise Refused(f"{shown(archive.name)}: it has {len(found)} images: {listed}; say which "
                      "by --image or --platform")


def _layout_layers(archive: Archive, choice: Choice) -> List[str]:
    index = archive.json("index.json")
    images = _manifests(archive, index)
    if choice.image is not None:
        images = [image for image in images if choice.image in _names(image)]
    nested = [image for image in images if image.get("mediaType") in _INDEXES]
    images = [image for image in images if image not in nested]
    for image in nested:
        images += _manifests(archive, archive.json(_blob_name(archive, image)))
        if len(images) > _DESCRIPTORS_MOST:
            raise Refused(f"{shown(archive.name)}: more than {_DESCRIPTORS_MOST:,} images")
    if choice.platform is not None:
        images = [image for image in images if _has_platform(archive, image, choice.platform)]
    names = [" ".join(filter(None, (*_names(image)[:1], _platform(image)))) for image in images]
    _one_of(archive, images, [name for name in names if name])
    manifest = archive.json(_blob_name(archive, images[0]))
    layers = manifest.get("layers") if isinstance(manifest, dict) else None
    if not isinstance(layers, list):
        raise Refused(f"{shown(archive.name)}: its manifest has no layers")
    return [_blob_name(archive, layer) for layer in layers]


def _manifests(archive: Archive, index: Any) -> List[Dict[str, Any]]:
    """The descriptors in an index, but those of attestations."""
    found = index.get("manifests") if isinstance(index, dict) else None
    if not isinstance(found, list) or not all(isinstance(item, dict) for item in found):
        raise Refused(f"{shown(archive.name)}: its index has no manifests")
    if len(found) > _DESCRIPTORS_MOST:
        raise Refused(f"{shown(archive.name)}: more than {_DESCRIPTORS_MOST:,} images")
    return [item for item in found if _REFERENCE not in _annotations(item)]


def _annotations(image: Dict[str, Any]) -> Dict[str, Any]:
    found = image.get("annotations")
    return found if isinstance(found, dict) else {}


def _names(image: Dict[str, Any]) -> List[str]:
    """The names that the index gives an image."""
    annotations = _annotations(image)
    return [annotations[key] for key in _NAMES if isinstance(annotations.get(key), str)]


def _platform(image: Dict[str, Any]) -> Optional[str]:
    """`OS/ARCHITECTURE` or `OS/ARCHITECTURE/VARIANT`, where the index says it."""
    platform = image.get("platform")
    return _platform_text(platform) if isinstance(platform, dict) else None


def _platform_text(platform: Dict[str, Any]) -> str:
    parts = [platform.get(key) for key in ("os", "architecture", "variant")]
    return "/".join(part for part in parts if isinstance(part, str) and part)


def _is_for(config: Any, wanted: str) -> bool:
    """Whether an image's configuration says that it is for a platform."""
    said = _platform_text(config) if isinstance(config, dict) else ""
    return said == wanted or said.startswith(wanted + "/")


def _has_platform(archive: Archive, image: Dict[str, Any], wanted: str) -> bool:
    """Whether an image is for a platform, as its descriptor or else its configuration says."""
    if isinstance(image.get("platform"), dict):
        return _is_for(image["platform"], wanted)
    manifest = archive.json(_blob_name(archive, image))
    config = manifest.get("config") if isinstance(manifest, dict) else None
    return _is_for(archive.json(_blob_name(archive, config)), wanted)


def _blob_name(archive: Archive, descriptor: Any) -> str:
    """The name of the file that a descriptor leads to."""
    digest = descriptor.get("digest") if isinstance(descriptor, dict) else None
    if not isinstance(digest, str) or digest.count(":") != 1 or "/" in digest:
        raise Refused(f"{shown(archive.name)}: a descriptor without a digest")
    algorithm, _, digits = digest.partition(":")
    archive.expect(f"blobs/{algorithm}/{digits}", algorithm, digits)
    return f"blobs/{algorithm}/{digits}"
