"""The command `overlayd-import`."""

import argparse
import os
import sys
from typing import List, Optional

from ..command_line import parser_of
from . import limits
from .checking import check
from .joining import join
from .images import Choice
from .keeping import Keep
from .output import Output, unwound_by_sigterm, without_collection
from .plan import Wish, file_limit_of, has_own_bytes, plan, write
from .references import References
from .scripts import check_script_file
from .stores import Store
from .telling import PROGRAM, Refused, Report, shown
from .writing import ManifestWriter

_ABOUT = "Writes a manifest for overlayd from directories, layer tars and container images."
_MORE = """\
sources, the highest layer first:
  a directory        a plain one, or an upper or lower directory of the kernel's overlayfs:
                     0/0 character devices, and empty files with the attribute overlay.whiteout,
                     are whiteouts; overlay.opaque, overlay.redirect and overlay.metacopy are read
                     with trusted. and user. before them (trusted. only by root)
  a tar              one layer, also compressed by gzip, bzip2, xz or zstd (by Python from 3.14
                     on, else by the program zstd), with whiteouts as images have them (.wh.NAME,
                     .wh..wh..opq) or as overlayfs has them
  an image           an archive of docker save or an OCI layout, as a directory or a tar, or a
                     directory of skopeo (dir:), with all its layers; a compressed archive is
                     unpacked into a temporary file first
  oci:DIR:TAG        the image TAG of the OCI layout DIR
  -                  a tar or an image on standard input, kept in a temporary file
What a source is is guessed from it; dir:SOURCE, tar:SOURCE or image:SOURCE says it.

layers: the first source is the upper layer. An empty upper is put above it where it is an image,
where it is the only layer, and with --empty-upper. With --read-only there is no upper: each source
is a lower layer, and an empty one is put below one alone. Of more than 16 lower layers the lowest
are made one. A directory that a tar leaves out has the attributes that the layers below give it, or
else mode 0755 and owner 0:0. A hard link to a file of a lower layer makes a copy of that file. A
file whose bytes are in a lower layer (metacopy) is written with its own attributes and these bytes.

times: the time of the last change of each file and directory is kept in its user attribute
user.overlayd.meta, and that of each symbolic link in the attributes user.overlayd.links.0 and so on
of its directory. The bridge to FUSE (--times) and overlayd-export take them from there. --no-times
leaves them out.

left out, each in one line on standard error (--quiet: not), with a sum at the end:
  fifos, sockets and devices (--devices keeps them, by the same attribute); attributes other than
  user. ones (--xattrs keeps them, under names that begin with user.overlayd.xattr.); attributes
  that begin with user.overlayd. (--keep-private keeps them: with them a source says of any file
  that it is a device); files of more bytes than --file-limit says; names, targets and attributes
  that aren't UTF-8 or are longer than a manifest takes (name 255 bytes, path and target 4,095,
  value 1,024, or 512 with --xattrs; 64 attributes).
In the place of what is left out stands a whiteout where there are layers below, so that nothing
older shows there. With --strict the first such thing ends the import, and nothing is written.
Refused in any case: files whose bytes are in a lower layer (metacopy) where the layers below have
none for them; tars that aren't whole; blobs of an OCI layout whose digest is another; what changes
while it is read.

bounds: without --file-limit a file of more than 1 GiB is left out, and a sparse one in a tar of
more than 1 MiB and 1,000 times what the tar has of it ends the import. Of what is compressed at
most 1,000 times its size, or 32 MiB, and never more than 16 GiB is unpacked, and no more is read
from a stream; --unpack-limit N says N bytes instead. An image has at most 128 layers, and its
descriptions 4 MiB each.

the most bytes of a file: a mount lets files grow to 1,048,576 bytes (1 MiB) where its manifest says
no other file_limit. With --file-limit N the manifest says N. Without it, it says nothing where each
file fits, and else as many whole MiB as the largest file needs. That leaves this file less than a
MiB to grow: give --file-limit where programs are to write larger ones.

bytes by reference: with --blobs the manifest has no bytes of a tar that isn't compressed, or of a
layer in an archive that isn't: it names the file (blobs), from its own folder where it is below
that, and tells of each file of the layer where its bytes begin (blob, at, size). overlayd reads the
tar then, so it has to stay as it is for as long as the manifest is used. The bytes of directories,
of compressed tars, of standard input and of sparse files go into a file beside the manifest, FILE
and `.bytes` behind it; where the manifest goes to standard output they are written as ever.

going on: --upper SAVED BASE writes the manifest of a mount that goes on where another one ended:
the layer of SAVED, which `overlayd serve --save SAVED` wrote, over the lower layers of the manifest
BASE, with BASE's options.

checking a manifest: --check FILE reads one that is there, whole, and prints a line for each of its
faults: file, line, layer and entry, path, key, and what is allowed. What overlayd says of it, which
is the first fault alone and in one word, stands in the last line, on standard error. The status is
1 where there is a fault. Where there is none, warnings tell what is likely a mistake: a decimal
mode that reads as an octal one, layers without entries, a redirect that leads to nothing, an
attribute that makes a device. A file of one layer and nothing else is a fault, too, and likely a
saved upper: the last line has also what overlayd says of it with --upper. Its blobs and how large
its files are aren't looked at then: that counts by the manifest that it goes on with.

checking a script: --check-script FILE reads commands of `overlayd play` and prints a line for each
that is none: file, line, the word and what is allowed.

memory: a MiB of one file at a time; besides, for tars, for directories that are made one and for
those below a file whose bytes are in a lower layer, some 500 bytes for each object. A tar is read
twice, in its order.

exit status: 0 done; 1 refused or failed, with one line on standard error; 2 wrong usage.
"""


def parser() -> argparse.ArgumentParser:
    """The command line."""
    words = parser_of(PROGRAM, _ABOUT, _MORE)
    words.add_argument("sources", nargs="*", metavar="SOURCE", help="a layer or an image")
    words.add_argument("--check", metavar="FILE",
                       help="tell the faults of a manifest; - is standard input")
    words.add_argument("--check-script", metavar="FILE",
                       help="tell the faults of a script of overlayd play; - is standard input")
    words.add_argument("--upper", metavar="SAVED",
                       help="a saved upper, over the lower layers of the one manifest SOURCE")
    words.add_argument("-o", "--output", metavar="FILE", default="-",
                       help="the manifest, which appears when it is whole; - is standard output "
                            "(the default)")
    words.add_argument("--strict", action="store_true",
                       help="refuse what a manifest can't carry, and write nothing then")
    words.add_argument("-q", "--quiet", action="store_true",
                       help="no line for each thing that is left out, the sum alone")
    upper = words.add_mutually_exclusive_group()
    upper.add_argument("--empty-upper", action="store_true",
                       help="put an empty upper layer above the sources")
    upper.add_argument("--read-only", action="store_true",
                       help="no upper layer: each source is a lower one, and nothing can be "
                            "changed")
    _add_manifest_options(words)
    _add_keeping(words)
    return words


def _add_manifest_options(words: argparse.ArgumentParser) -> None:
    """The options that say which image is meant, and what the manifest says at its top."""
    words.add_argument("--image", metavar="NAME", help="the image of an archive that has several")
    words.add_argument("--platform", metavar="OS/ARCH",
                       help="the platform of an OCI image that has several")
    words.add_argument("--redirect-dir", choices=("on", "off"),
                       help="the manifest's redirect_dir (off where it isn't said)")
    words.add_argument("--metacopy", choices=("on", "off"),
                       help="the manifest's metacopy (off where it isn't said); on needs "
                            "--redirect-dir on, or --read-only")
    words.add_argument("--history", type=_history, metavar="N",
                       help="the manifest's history, 2 to 1000000 (100000 where it isn't said)")
    words.add_argument("--file-limit", type=_file_limit, metavar="N",
                       help="the manifest's file_limit, the most bytes of a file, 1 to "
                            "1099511627776 (what the largest file needs where it isn't said)")
    words.add_argument("--unpack-limit", type=_unpack_limit, metavar="N",
                       help="the most bytes that are unpacked from a source or read from a stream")
    words.add_argument("--blobs", action="store_true",
                       help="name the tars that aren't compressed, and where in them the bytes of "
                            "files are, in place of these bytes; all others go into FILE.bytes")


def _add_keeping(words: argparse.ArgumentParser) -> None:
    """The options that say what is kept."""
    times = words.add_mutually_exclusive_group()
    times.add_argument("--times", action="store_true", default=True,
                       help="keep times, in user.overlayd.meta (the default)")
    times.add_argument("--no-times", action="store_false", dest="times", help="keep none")
    words.add_argument("--devices", action="store_true",
                       help="keep devices, fifos and sockets, in the same attribute")
    words.add_argument("--xattrs", action="store_true",
                       help="keep attributes outside of user., as user.overlayd.xattr.NAME")
    words.add_argument("--keep-private", action="store_true",
                       help="keep the attributes user.overlayd. that the sources have")


def _history(text: str) -> int:
    count = int(text)
    if not limits.HISTORY_LEAST <= count <= limits.HISTORY_MOST:
        raise argparse.ArgumentTypeError("not from 2 to 1000000")
    return count


def _file_limit(text: str) -> int:
    count = int(text)
    if not limits.FILE_LIMIT_LEAST <= count <= limits.FILE_LIMIT_MOST:
        raise argparse.ArgumentTypeError("not from 1 to 1099511627776")
    return count


def _unpack_limit(text: str) -> int:
    count = int(text)
    if count < 1:
        raise argparse.ArgumentTypeError("not from 1")
    return count


def check_manifest(path: str) -> int:
    """Tells each fault of a manifest in a line of its own; the exit status."""
    if path == "-":
        data = sys.stdin.buffer.read()
    else:
        with open(path, "rb") as stream:
            data = stream.read()
    found = check(data, "" if path == "-" else os.path.dirname(path))
    name = "standard input" if path == "-" else shown(path)
    for fault in found.faults:
        print(": ".join(part for part in (f"{name}:{fault.line}", fault.place, fault.what) if part))
    for doubt in found.doubts:
        print(f"{name}:{doubt.line}: {doubt.place}: warning: {doubt.what}")
    sys.stdout.flush()
    count = len(found.faults)
    if found.first is None:
        warned = f", warnings: {len(found.doubts)}" if found.doubts else ""
        told = f"no fault; layers: {found.layers}, entries: {found.entries}{warned}"
    else:
        told = f"{count} fault{'s' * (count > 1)}; overlayd says `{found.first}`"
    if found.is_upper:
        above = f"`{found.first_above}`" if found.first_above else "nothing"
        told += f", with --upper {above}"
    print(f"{PROGRAM}: {name}: {told}", file=sys.stderr)
    return 0 if found.first is None else 1


def run(words: argparse.Namespace, report: Report) -> None:
    """Imports what the command line says."""
    keep = Keep(words.times, words.devices, words.xattrs, words.keep_private,
                words.file_limit or limits.FILE_UNASKED, words.file_limit is not None)
    wish = Wish(words.sources, Choice(words.image, words.platform), words.empty_upper,
                words.redirect_dir, words.metacopy, words.history, words.read_only,
                words.file_limit, keep, words.unpack_limit)
    folder = None if words.output == "-" else os.path.dirname(words.output)
    references = References(folder)
    output = Output(words.output, waits=words.strict)
    store: Optional[Store] = None
    try:
        unfinished = output.identities()
        layers = plan(wish, report, unfinished, references if words.blobs else None)
        if words.blobs and output.is_beside() and has_own_bytes(layers):
            store = references.store(words.output)
            unfinished.update(store.identities())
        writer = ManifestWriter(output.stream, wish.redirect_dir, wish.metacopy, wish.history,
                                upper=not wish.read_only, file_limit=file_limit_of(wish, layers),
                                blobs=references.names(), store=store)
        write(layers, writer, report)
        if store is not None:
            store.finish()
        output.keep()
    except BaseException:
        if store is not None:
            store.drop()
        output.drop()
        raise
    report.sum_up(writer.layers, writer.objects, writer.bytes, "" if keep.times else "times")


def main(arguments: Optional[List[str]] = None) -> int:
    """Runs the command; the exit status."""
    command = parser()
    words = command.parse_args(arguments)
    asked = [bool(words.sources), words.check is not None, words.check_script is not None]
    if sum(asked) != 1:
        command.error("either SOURCE, one or more, or --check FILE, or --check-script FILE")
    if words.upper is not None and len(words.sources) != 1:
        command.error("--upper SAVED takes one SOURCE, a manifest")
    if words.metacopy == "on" and words.redirect_dir != "on" and not words.read_only:
        command.error("--metacopy on needs --redirect-dir on, or --read-only")
    report = Report(sys.stderr, words.strict, words.quiet)
    try:
        if words.check is not None:
            return check_manifest(words.check)
        if words.check_script is not None:
            return check_script_file(words.check_script)
        with unwound_by_sigterm(), without_collection():
            if words.upper is not None:
                join(words.upper, words.sources[0], words.output)
            else:
                run(words, report)
        return 0
    except Refused as refused:
        return report.end(str(refused))
    except BrokenPipeError:
        # what is left in the buffer must not fail once more at the end
        os.dup2(os.open(os.devnull, os.O_WRONLY), sys.stdout.fileno())
        return report.end("nobody reads the output any more")
    except OSError as error:
        name = error.filename if error.filename is not None else words.output
        return report.end(f"{shown(name) if name else 'stream'}: {error.strerror or error}")
    except MemoryError:
        return report.end("out of memory")
    except KeyboardInterrupt:
        report.end("interrupted")
        return 130
