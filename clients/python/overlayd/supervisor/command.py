"""The command `overlayd-serve`."""

import argparse
import contextlib
import os
import queue
import signal
import socket
import stat
import struct
import subprocess
import sys
import threading
from typing import Any, Dict, List, Optional

from ..command_line import parser_of
from ..importer import telling
from ..importer.joining import join
from ..importer.telling import shown
from ..stream import connected
from .saving import Saver

PROGRAM = "overlayd-serve"
_ABOUT = "Serves a manifest by `overlayd serve`, and ends the server in order."
_MORE = """\
SIGTERM and SIGINT end the server as the end of its standard input does: it takes no connection any
more, stops calls, detaches its clients and writes the upper to the file of --save. So does the end
of overlayd-serve itself, however it comes. systemd is told where it asks ($NOTIFY_SOCKET): that the
server listens, and that it ends. The server keeps no history, unless an OPTION says --history.

  --every SECONDS  a client of the server reads the mount, compares it with the manifest's lower
                   layers and writes what it has over them to the file of --save. That takes one
                   of the server's workers for as long as it runs, and two calls or more for each
                   name. What others change meanwhile may be in it or not; what is saved in the
                   end is exact
  --restart        goes on from the file of --save where it is there: the server gets a manifest of
                   that upper and of the lower layers of MANIFEST, which is made at FILE.mount

The file of --save is made anew beside itself, and takes its name when it is whole and on the disk.
A name that is there already and is no regular file, such as a link, is refused.

exit status: that of the server, 128 and the number of the signal that ended it; 1 where it can't be
started, with one line on standard error; 2 wrong usage.
"""


def parser() -> argparse.ArgumentParser:
    """The command line."""
    words = parser_of(PROGRAM, _ABOUT, _MORE)
    words.add_argument("--program", metavar="PATH", default="overlayd",
                       help="the program (overlayd, as the shell finds it)")
    words.add_argument("--save", metavar="FILE", help="write the upper to FILE in the end")
    words.add_argument("--every", metavar="SECONDS", type=_seconds,
                       help="write it now and then too, after so many seconds each time")
    words.add_argument("--restart", action="store_true", help="go on from FILE, if it is there")
    words.add_argument("manifest", metavar="MANIFEST", help="the manifest that is served")
    words.add_argument("socket", metavar="SOCKET", help="the path of the socket that is made")
    words.add_argument("options", metavar="OPTION", nargs="*",
                       help="behind `--`: further options of `overlayd serve`, as --workers 16")
    return words


def _seconds(text: str) -> float:
    count = float(text)
    if not 0.1 <= count <= 86_400 * 365:
        raise argparse.ArgumentTypeError("not from 0.1 to 31536000")
    return count


class Refused(Exception):
    """Nothing is started, for the reason that this says in one line."""


def command_of(words: argparse.Namespace) -> List[str]:
    """The command line of the server; `Refused` where the program can't do what is asked."""
    manifest = words.manifest
    if words.save is not None and _is_there(words.save) and words.restart:
        manifest = _going_on(words.save, manifest)
    command = [words.program, "serve", manifest, words.socket, "--until-eof", "--unlink"]
    asked = {option.partition("=")[0] for option in words.options}
    if "--history" not in asked:
        command.append("--no-history")
    try:
        told = subprocess.run([words.program, "serve", "--help"], stdin=subprocess.DEVNULL,
                              stdout=subprocess.PIPE, check=False).stdout.decode("utf-8", "replace")
    except OSError as error:
        raise Refused(f"{shown(words.program)}: {error.strerror}") from None
    if "--explain" in told:
        command.append("--explain")
    if words.save is not None:
        _refuse_one_file_for_both(words.save, words.options)
        command += ["--save", words.save]
    return command + [option for option in words.options
                      if option not in command or not option.startswith("-")]


def _refuse_one_file_for_both(saved: str, options: List[str]) -> None:
    """A status that is written to the file of the upper would take its place."""
    for option, following in zip(options, [*options[1:], ""]):
        name, _, value = option.partition("=")
        status = value or following
        if name == "--status" and status and os.path.realpath(status) == os.path.realpath(saved):
            raise Refused(f"{shown(saved)}: --save and --status name one file")


def _going_on(saved: str, manifest: str) -> str:
    """A manifest of a saved upper over the lower layers of another manifest, beside the saved."""
    joined = f"{saved}.mount"
    _is_there(joined)
    try:
        join(saved, manifest, joined)
    except telling.Refused as refused:
        raise Refused(str(refused)) from None
    except OSError as error:
        raise Refused(f"{shown(error.filename or joined)}: {error.strerror or error}") from None
    return joined


def _is_there(path: str) -> bool:
    """Whether a file is there; `Refused` where its name is one of something else."""
    try:
        found = os.lstat(path)
    except FileNotFoundError:
        return False
    except OSError as error:
        raise Refused(f"{shown(path)}: {error.strerror}") from None
    if not stat.S_ISREG(found.st_mode):
        raise Refused(f"{shown(path)}: is there, and no regular file")
    return True


def notify(state: str) -> None:
    """Tells systemd where it asks to be told, as sd_notify(3) does."""
    path = os.environ.get("NOTIFY_SOCKET", "")
    if path:
        with contextlib.suppress(OSError), socket.socket(socket.AF_UNIX, socket.SOCK_DGRAM) as link:
            link.connect("\0" + path[1:] if path.startswith("@") else path)
            link.sendall(state.encode())


class Server:
    """A server that runs. `events` has a signal's number for each that came, and 0 for its end."""

    def __init__(self, command: List[str]) -> None:
        self.events: "queue.SimpleQueue[int]" = queue.SimpleQueue()
        for number in (signal.SIGTERM, signal.SIGINT):
            signal.signal(number, lambda got, frame: self.events.put(got))
        # A session of its own: what a terminal interrupts is the supervisor alone.
        self.process = subprocess.Popen(command, stdin=subprocess.PIPE, start_new_session=True,
                                        env=_environment())
        threading.Thread(target=self._wait, daemon=True).start()

    def _wait(self) -> None:
        self.process.wait()
        self.events.put(0)

    def listens(self, path: str) -> bool:
        """Whether this very server, and no other one, takes connections on a socket."""
        try:
            with connected(path, 1.0) as link:
                told = link.getsockopt(socket.SOL_SOCKET, socket.SO_PEERCRED, 12)
                return os.getsid(struct.unpack("3i", told)[0]) == self.process.pid
        except OSError:
            return False

    def end(self) -> None:
        """Ends it in order."""
        if self.process.stdin is not None:
            self.process.stdin.close()


def _environment() -> Dict[str, str]:
    return {name: value for name, value in os.environ.items() if name != "NOTIFY_SOCKET"}


def supervise(server: Server, words: argparse.Namespace) -> int:
    """Waits for the server's end, and brings it about by a signal; the exit status."""
    saver: Optional[Saver] = None
    is_ready = is_ending = False
    while True:
        try:
            event = server.events.get(timeout=None if is_ready or is_ending else 0.05)
        except queue.Empty:
            is_ready = server.listens(words.socket)
            if is_ready:
                notify("READY=1\nSTATUS=serving")
                if words.every is not None:
                    saver = Saver(words.manifest, words.socket, words.save, words.every, say)
                    saver.start()
            continue
        if not is_ending:
            is_ending = True
            notify("STOPPING=1\nSTATUS=ending")
        if saver is not None:
            saver.stop()
        if event == 0:
            break
        server.end()
    if saver is not None:
        saver.join(10)
    status = server.process.returncode
    return 128 - status if status < 0 else status


def say(line: str) -> None:
    """A line on standard error."""
    print(f"{PROGRAM}: {line}", file=sys.stderr, flush=True)


def main(arguments: Optional[List[str]] = None) -> int:
    """Runs the command; the exit status."""
    command = parser()
    words: Any = command.parse_args(arguments)
    if words.save is None and (words.every is not None or words.restart):
        command.error("--every and --restart need --save FILE")
    try:
        server = Server(command_of(words))
    except Refused as refused:
        say(str(refused))
        return 1
    except OSError as error:
        say(f"{shown(words.program)}: {error.strerror}")
        return 1
    return supervise(server, words)
