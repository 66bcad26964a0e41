"""From sources to a manifest: which layers there are, and writing them."""

import os
import sys
from typing import List, NamedTuple, Optional, Set, Tuple, Union

from . import limits
from .archives import DirectoryArchive
from .blobs import Blob
from .descriptors import Identity
from .directories import DirectoryLayer
from .images import Choice, archive_in, layers_of
from .keeping import Keep
from .merging import Merge, TreeLayer, flatten
from .objects import Directory, link_times
from .references import References
from .tars import TarLayer
from .telling import Refused, Report, shown
from .writing import LayerWriter, ManifestWriter, write_tree

Writable = Union[DirectoryLayer, TarLayer, TreeLayer]
Source = Union[str, Blob]


class Wish(NamedTuple):
    """What is asked for: sources from the top, and how to read them. What is `read_only` has no
    upper."""

    sources: List[str]
    choice: Choice = Choice()
    empty_upper: bool = False
    redirect_dir: Optional[str] = None
    metacopy: Optional[str] = None
    history: Optional[int] = None
    read_only: bool = False
    file_limit: Optional[int] = None
    keep: Keep = Keep()
    unpack_limit: Optional[int] = None


def _sources(text: str, choice: Choice, most: Optional[int]) -> Tuple[List[Source], bool]:
    """The layers of one source, the highest first, and whether it is an image. Of each at most
    `most` bytes are unpacked, where that is said."""
    kind, colon, rest = text.partition(":")
    if kind == "oci" and colon:
        return list(layers_of(*_layout(rest, choice, most))), True
    if not (colon and kind in ("dir", "tar", "image")):
        kind, rest = "", text
    if rest != "-" and os.path.isdir(rest):
        archive = DirectoryArchive(rest, most)
        if kind == "image" or (kind == "" and archive.is_image()):
            return list(layers_of(archive, choice)), True
        if kind == "tar":
            raise Refused(f"{shown(rest)}: a directory and no tar")
        return [rest], False
    if kind == "dir":
        raise Refused(f"{shown(rest)}: no directory")
    if rest == "-":
        blob = Blob.of_stream("standard input", sys.stdin.buffer, most)
    else:
        blob = Blob.of_path(rest, most)
    found = None if kind == "tar" else archive_in(blob)
    if found is not None and (kind == "image" or found.is_image()):
        return list(layers_of(found, choice)), True
    if kind == "image":
        raise Refused(f"{shown(blob.name)}: no archive of docker save and no OCI layout")
    return [blob], False


def _layout(text: str, choice: Choice, most: Optional[int]) -> Tuple[DirectoryArchive, Choice]:
    """The OCI layout and the image of `DIR:TAG`, or of `DIR`."""
    folder, colon, tag = text.rpartition(":")
    if not colon or os.path.isdir(text):
        folder, tag = text, ""
    if not os.path.isdir(folder):
        raise Refused(f"{shown(folder)}: no directory")
    return DirectoryArchive(folder, most), choice._replace(image=tag) if tag else choice


def plan(wish: Wish, report: Report, skip: Set[Identity],
         references: Optional[References] = None) -> List[Writable]:
    """The layers of the manifest: an upper and 1 to 16 lower ones, or 2 to 16 lower ones alone.
    The bytes of tars are referred to where references are wanted."""
    found: List[Source] = []
    needs_upper = wish.empty_upper
    for number, text in enumerate(wish.sources):
        sources, is_image = _sources(text, wish.choice, wish.unpack_limit)
        found += sources
        needs_upper = needs_upper or (number == 0 and is_image)
    layers = _layers(found, report, skip, wish.keep, references)
    needs_upper = not wish.read_only and (needs_upper or len(layers) == 1)
    lowers = len(layers) - (0 if needs_upper or wish.read_only else 1)
    if lowers > limits.LOWERS_MOST:
        count = lowers - limits.LOWERS_MOST + 1
        report.note(f"{lowers} lower layers, of which 16 fit: the lowest {count} are made one")
        layers[-count:] = [TreeLayer(flatten(layers[-count:]))]
    if needs_upper:
        layers.insert(0, TreeLayer(_empty_over(layers[:1])))
    while len(layers) < limits.LAYERS_LEAST:
        layers.append(TreeLayer(Directory(0o755, 0, 0)))
    return layers


def _layers(sources: List[Source], report: Report, skip: Set[Identity], keep: Keep,
            references: Optional[References]) -> List[Writable]:
    """The layers of the sources, the highest first, down to one that hides all below it."""
    layers: List[Writable] = []
    if len(sources) > limits.LAYERS_READ:
        raise Refused(f"{len(sources):,} layers; at most {limits.LAYERS_READ} are read")
    for source in reversed(sources):
        layer: Union[DirectoryLayer, TarLayer]
        if isinstance(source, Blob):
            layer = TarLayer(source, report, Merge(layers), keep)
        else:
            layer = DirectoryLayer(source, report, skip, Merge(layers), keep)
        layer.covers = bool(layers)
        if isinstance(layer, TarLayer) and layer.tree().opaque:
            report.note(f"{shown(layer.name)}: its root is opaque: what is below it is left away")
            layers = []
            layer.tree().opaque = False
        if isinstance(layer, TarLayer) and references is not None:
            layer.refer(references)
        layers.insert(0, layer)
    return layers


def _empty_over(below: List[Writable]) -> Directory:
    """A directory with nothing in it and the attributes of the root below."""
    if not below:
        return Directory(0o755, 0, 0)
    root = below[0].root()
    empty = Directory(root.mode, root.uid, root.gid, root.attrs)
    empty.mtime = root.mtime
    empty.links = link_times(root)
    return empty


def file_limit_of(wish: Wish, layers: List[Writable]) -> Optional[int]:
    """The most bytes of a file that the manifest says: what is asked for, or what its largest file
    needs; None where it says nothing. A file that grows over it meanwhile is left out."""
    limit = wish.file_limit
    if limit is None:
        limit = limits.limit_for(max(layer.largest() for layer in layers))
    for layer in layers:
        if isinstance(layer, DirectoryLayer):
            layer.most = limit or limits.FILE_LIMIT
    return limit


def has_own_bytes(layers: List[Writable]) -> bool:
    """Whether there are bytes that no tar has for references: of directories, and of tars that are
    compressed, sparse, or nowhere in a file."""
    for layer in layers:
        if isinstance(layer, TarLayer):
            if layer.has_own_bytes():
                return True
        elif layer.largest():
            return True
    return False


def write(layers: List[Writable], writer: ManifestWriter, report: Report) -> None:
    """Writes the layers one after the other."""
    for number, layer in enumerate(layers, 1):
        out = LayerWriter(writer, f"layer {number} of {len(layers)}", report)
        if isinstance(layer, TreeLayer):
            write_tree(out, layer.tree())
        else:
            layer.write(out)
