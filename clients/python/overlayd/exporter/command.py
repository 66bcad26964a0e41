"""The command `overlayd-export`."""

import argparse
import contextlib
import errno
import os
import shlex
import sys
import warnings
from typing import Iterable, Iterator, List, Optional

from ..client import Client
from ..command_line import parser_of
from ..importer.output import Output, unwound_by_sigterm
from ..importer.telling import shown
from .comparing import Change, each_change
from .full import advice, end, ending_of
from .layers import write_layer
from .layouts import add_layer
from .manifests import LowerTree, Manifest, SavedTree
from .mounts import MountTree
from .trees import SOCKET, Tree
from .unsayable import Unsayable
from .uppers import write_upper

PROGRAM = "overlayd-export"
_ABOUT = "Writes what a mount has over the lower layers of its manifest."
_MORE = """\
The mount is read over the socket of `overlayd serve`, name by name, and compared with the lower
layers of the manifest. What differs is written: what the manifest's upper had, and what was
changed since. Nobody should change the mount meanwhile. Each name takes two or more calls, each of
which takes a place of the mount's history. With --manifest SAVED no server is asked: SAVED is what
`overlayd serve --save SAVED` wrote, over the lower layers of MANIFEST, or a whole manifest of its
own, as overlayd-import --upper writes it.

  --upper DIR    an upper directory of the kernel's overlayfs, a new one. Whiteouts are 0/0
                 character devices, so root has to write it; opaque directories are marked by
                 trusted.overlay.opaque, with --userxattr by user.overlay.opaque
  --layer FILE   the layer of an OCI image, a tar: .wh.NAME, .wh..wh..opq. The same changes are the
                 same bytes
  --image-out DIR:TAG
                 the layer, put above the image TAG of the OCI layout DIR, which gets the tag; with
                 --as TAG another one. Without the layout a new one is made, of this layer alone
  --end-if-full  a server whose history is full answers no call, and it is told how to have it end
                 in order and to export what it saves. With this that is done, where overlayd-serve
                 runs it with --save: it gets SIGTERM, and what the server saved is exported

Times, devices, fifos, sockets and attributes outside of user. are those that the attributes
user.overlayd. say, as overlayd-import and the bridge to FUSE write them; these are never written
themselves. The time of a symbolic link is in those of its directory. A layer has 0 where no time is
known; with the environment variable SOURCE_DATE_EPOCH that many seconds, which then is the latest
time too. A file with other bytes and with the time of the file below, word for word, was changed by
a client that keeps no times: its time isn't known. Neither is that of a link that leads elsewhere.

A mount without an upper layer (upper = false) can't be changed: there is nothing to export of it,
which is refused.

A directory that was moved is written whole, and so is a file that was copied up without its bytes
(metacopy). Several names of one file are written as one: a server tells by watches which they are.
It watches no symbolic links, so that names of one are written as links of their own, which is told;
with --manifest they are one too. A socket isn't in a layer, which is told. Refused are attributes
that begin with user.overlay. or trusted.overlay., as they would be marks of overlayfs, and a
character device 0/0; in a layer names that begin with .wh.; and in an upper the owner and the group
4294967295, which no file system has. What a server says is judged: a name that is none, or a file
over the manifest's file_limit, ends the export.

The manifest is read as a stream where it has one `key = value` on each line, as overlayd-import
writes it. Others are read whole, from Python 3.11 on.

memory: some 250 bytes for each object, more for directories and for files that have several names,
and a MiB of one file at a time. What was written isn't kept.

exit status: 0 done; 1 refused or failed, with one line on standard error; 2 wrong usage.
"""


def parser() -> argparse.ArgumentParser:
    """The command line."""
    words = parser_of(PROGRAM, _ABOUT, _MORE)
    words.add_argument("manifest", metavar="MANIFEST", nargs="?",
                       help="the manifest that is served, or was")
    words.add_argument("socket", metavar="SOCKET", nargs="?", help="the socket of the server")
    words.add_argument("--manifest", metavar="SAVED", dest="saved",
                       help="a saved upper, or a whole manifest, in place of a server")
    form = words.add_mutually_exclusive_group(required=True)
    form.add_argument("--upper", metavar="DIR", help="write an upper directory")
    form.add_argument("--layer", metavar="FILE", help="write a layer; - is standard output")
    form.add_argument("--image-out", metavar="DIR:TAG", help="put a layer above an image")
    words.add_argument("--as", metavar="TAG", dest="tag",
                       help="the tag of the new image; that of --image-out where it isn't said")
    words.add_argument("--userxattr", action="store_true",
                       help="mark opaque directories as the mount option userxattr reads them")
    words.add_argument("--end-if-full", action="store_true",
                       help="where the server's history is full, end it in order by overlayd-serve "
                       "and export what it saved")
    return words


def _fault(words: argparse.Namespace) -> Optional[str]:
    """What is wrong with the words of the command."""
    if words.saved is None and words.socket is None:
        return "MANIFEST and SOCKET, or --manifest SAVED"
    if words.saved is not None and words.socket is not None:
        return "with --manifest there is no SOCKET"
    if words.saved is not None and words.end_if_full:
        return "--end-if-full is for a SOCKET"
    if words.tag is not None and words.image_out is None:
        return "--as is for --image-out"
    if words.image_out is not None and not all(words.image_out.rpartition(":")):
        return "--image-out takes DIR:TAG"
    return None


def main(arguments: Optional[List[str]] = None) -> int:
    """Runs the command; the exit status."""
    command = parser()
    words = command.parse_args(arguments)
    fault = _fault(words)
    if fault is not None:
        command.error(fault)
    try:
        with unwound_by_sigterm():
            _ask_target(words)
            _export(words, _epoch())
        return 0
    except Unsayable as unsayable:
        return _end(str(unsayable))
    except OSError as error:
        name = f"{shown(error.filename)}: " if error.filename else ""
        return _end(f"{name}{error.strerror or error}")
    except MemoryError:
        return _end("out of memory")
    except KeyboardInterrupt:
        _end("interrupted")
        return 130


def _epoch() -> Optional[int]:
    """The seconds of SOURCE_DATE_EPOCH; None without it."""
    text = os.environ.get("SOURCE_DATE_EPOCH")
    if text is None or text == "":
        return None
    if not (text.isascii() and text.isdigit() and len(text) <= 12):
        raise Unsayable("SOURCE_DATE_EPOCH: not a number of seconds since 1970")
    return int(text)


def _ask_target(words: argparse.Namespace) -> None:
    """Whether the export can appear where it is asked for: before the mount is read, whose history
    each call makes longer."""
    path = words.upper if words.upper is not None else words.layer
    if path is None:
        path = words.image_out.rpartition(":")[0]
    if words.upper is not None and os.path.lexists(path):
        raise FileExistsError(errno.EEXIST, os.strerror(errno.EEXIST), path)
    folder = os.path.dirname(os.path.abspath(path))
    if path != "-" and not os.path.isdir(folder):
        raise FileNotFoundError(errno.ENOENT, os.strerror(errno.ENOENT), folder)


def _export(words: argparse.Namespace, epoch: Optional[int]) -> None:
    """Reads, compares and writes."""
    saved = None if words.saved is None else Manifest(words.saved)
    if saved is not None and words.manifest is None:
        saved.lowers()
    lower = LowerTree(words.manifest if words.manifest is not None else words.saved)
    if not lower.has_upper or saved is not None and not saved.has_upper:
        raise Unsayable(f"{shown(lower.manifest.path)}: nothing to export: upper = false, so "
                        "nothing can be changed")
    if saved is None:
        saved = _export_served(words, lower, epoch)
    if saved is not None:
        if not saved.layers:
            raise Unsayable(f"{shown(saved.path)}: it has no layer")
        _write(words, lower, SavedTree(saved, lower), epoch)


def _export_served(words: argparse.Namespace, lower: LowerTree,
                   epoch: Optional[int]) -> Optional[Manifest]:
    """Exports what a server has; where its history is full, what it saved in the end is left."""
    with _warnings_told(), Client(words.socket) as client:
        try:
            _write(words, lower, MountTree(client, lower.manifest.file_limit), epoch)
            return None
        except OSError as error:
            if error.errno != errno.ENOSPC or client.last_place is not None:
                raise
    ending = ending_of(words.socket)
    if not (words.end_if_full and ending.supervisor and ending.saved is not None):
        raise Unsayable(advice(ending, _command(words, ending.saved or "FILE")))
    end(words.socket, ending)
    _say(f"the server's history was full: it is ended, and saved its upper to "
         f"{shown(ending.saved)}, which is exported")
    return Manifest(ending.saved)


def _command(words: argparse.Namespace, saved: str) -> str:
    """The command that exports to the same place what was saved."""
    form = [("--upper", words.upper), ("--layer", words.layer), ("--image-out", words.image_out),
            ("--as", words.tag)]
    told = [word for flag, value in form if value is not None for word in (flag, value)]
    if words.userxattr:
        told.append("--userxattr")
    return shown(shlex.join([PROGRAM, words.manifest, "--manifest", saved, *told]))


@contextlib.contextmanager
def _warnings_told() -> Iterator[None]:
    """Has what a client warns of told as a line, as that the server may have no free worker."""
    with warnings.catch_warnings():
        warnings.simplefilter("always", RuntimeWarning)
        warnings.showwarning = lambda message, *_: _say(str(message))
        yield


def _write(words: argparse.Namespace, lower: LowerTree, mounted: Tree,
           epoch: Optional[int]) -> None:
    total = _Sum()
    found = total.counted(each_change(lower, mounted))
    if words.upper is not None:
        write_upper(found, mounted, words.upper, words.userxattr)
    elif words.image_out is not None:
        folder, _, tag = words.image_out.rpartition(":")
        add_layer(found, mounted, folder, tag, words.tag or tag, epoch)
    else:
        _write_layer(words.layer, found, mounted, epoch)
    total.tell(words.upper is None)


def _write_layer(path: str, found: Iterable[Change], mounted: Tree, epoch: Optional[int]) -> None:
    output = Output(path, waits=True)
    try:
        write_layer(found, mounted, output.stream, epoch)
        output.keep()
    except BaseException:
        output.drop()
        raise


class _Sum:
    """What was written, and which names were one object, counted while it is written."""

    def __init__(self) -> None:
        self._objects = self._whiteouts = self._linked = 0
        self._sockets: List[str] = []

    def counted(self, found: Iterable[Change]) -> Iterator[Change]:
        """The same changes, each of which is counted."""
        for change in found:
            entry = change.entry
            if entry is None:
                self._whiteouts += 1
            else:
                self._objects += not change.is_same
                self._linked += entry.links > 1 and entry.same is None
                if entry.kind == SOCKET:
                    self._sockets.append(change.path)
            yield change

    def tell(self, is_layer: bool) -> None:
        """Says it; a layer has no sockets."""
        if self._linked:
            _say(f"{self._linked} names of objects that have several are written as objects of "
                 "their own")
        for path in self._sockets if is_layer else ():
            _say(f"left out: {shown(path)}: a socket")
        _say(f"{self._objects} objects, {self._whiteouts} whiteouts")


def _say(line: str) -> None:
    print(f"{PROGRAM}: {line}", file=sys.stderr)


def _end(line: str) -> int:
    _say(line)
    return 1
