"""Servers that are started for a test, and connections that check what comes back."""
import contextlib
import os
import resource
import select
import shutil
import signal
import socket
import struct
import subprocess
import sys
import tempfile
import threading
import time
from pathlib import Path

TOP = Path(__file__).resolve().parent.parent.parent
sys.path.insert(0, str(TOP / "clients" / "python"))
from overlayd import frames  # noqa: E402
from overlayd.frames import Op  # noqa: E402

SECONDS = 60
MANIFEST = """
[[layer]]
[[layer]]
entry = [{ path = "/f", kind = "file" }]
"""
SHOWN_ROOT = bytes.fromhex("01 000001ed 00000000 00000000 0000000000000000 00000001")

# The worked frames: `stat /`, `mkdir 755 /a`, `stat /x`, `stat x` and `detach`.
STAT_ROOT = bytes.fromhex("00000004 01 0001 2f")
MKDIR = bytes.fromhex("00000009 09 000001ed 0002 2f61")
STAT_ABSENT = bytes.fromhex("00000005 01 0002 2f78")
STAT_NO_PATH = bytes.fromhex("00000004 01 0001 78")
DETACH = bytes.fromhex("00000001 1a")
WORKED = STAT_ROOT + MKDIR + STAT_ABSENT + STAT_NO_PATH + DETACH

# The file of the manifest is opened, and watched; a notice of its watch tells that it was closed.
OPEN_FILE = frames.request(Op.OPEN, 0, 0, b"/f")
ARM_FILE = frames.request(Op.ARM, 0, 8 | 16, b"/f")
NOTICES = frames.request(Op.NOTICES, 65)
CLOSED = struct.pack(">HiIIH", 1, 1, 16, 0, 0)

DONE, REFUSED, NOT_MADE = 0, 1, 2
ENOENT, EBADF, ENOMEM, EEXIST, EINVAL, ENOSPC = 2, 9, 12, 17, 22, 28


class Wrong(Exception):
    """What a test found."""


def expect(got, wanted, what):
    if got != wanted:
        raise Wrong(f"{what}: {got!r}, and not {wanted!r}")


class Peer:
    """A connection that sends bytes as they are, and checks what comes back."""

    def __init__(self, path):
        self.link = socket.socket(socket.AF_UNIX)
        self.link.settimeout(SECONDS)
        self.connect(str(path))
        self.places = []

    def __enter__(self):
        return self

    def __exit__(self, *_):
        self.link.close()

    def connect(self, path):
        """Connects; a socket's file is there a moment before it can be connected to."""
        until = time.monotonic() + SECONDS
        while True:
            try:
                return self.link.connect(path)
            except ConnectionRefusedError:
                if time.monotonic() > until:
                    raise
                time.sleep(0.005)

    def send(self, data):
        self.link.sendall(data)

    def take(self, count):
        """So many bytes; fewer where the stream ends."""
        data = b""
        while len(data) < count:
            piece = self.link.recv(count - len(data))
            if not piece:
                break
            data += piece
        return data

    def reply(self):
        """The status, the place and the rest of the next reply."""
        body = self.take(int.from_bytes(self.take(4), "big"))
        if not body:
            raise Wrong("the stream ended before a reply")
        if body[0] == NOT_MADE:
            expect(len(body), 2, "length of a status 2")
            return NOT_MADE, None, body[1]
        place = int.from_bytes(body[1:9], "big")
        if self.places and place <= self.places[-1]:
            raise Wrong(f"place {place} behind {self.places[-1]}")
        self.places.append(place)
        return body[0], place, body[9] if body[0] == REFUSED else body[9:]

    def answered(self, status, rest, what):
        got = self.reply()
        expect((got[0], got[2]), (status, rest), what)

    def ask(self, request, status, rest, what):
        self.send(request)
        self.answered(status, rest, what)

    def ask_until(self, notices, wanted):
        """Reads notices until these have come, and no others before."""
        until = time.monotonic() + SECONDS
        while time.monotonic() < until:
            self.send(notices)
            status, _, rest = self.reply()
            expect(status, DONE, "notices")
            if rest == wanted:
                return
            expect(rest, b"\0\0", "no notice yet")
            time.sleep(0.002)
        raise Wrong("a client that vanished isn't detached")

    def ended(self, what):
        """The server closed the stream, and sent nothing before."""
        try:
            rest = self.link.recv(1)
        except ConnectionResetError:
            rest = b""
        expect(rest, b"", what)


class Server:
    """A server on a socket of its own, which is to end by itself."""

    def __init__(self, program, folder, workers, sessions, manifest=MANIFEST, more=(), files=None,
                 stack=None, closed=(), stdin=subprocess.DEVNULL):
        self.socket = folder / "socket"
        (folder / "manifest.toml").write_text(manifest)
        words = [program, "serve", "manifest.toml", "socket", "--workers", str(workers)]
        if sessions is not None:
            words += ["--sessions", str(sessions)]

        def begin():
            # A program that is started in the background may come with SIGINT ignored.
            signal.signal(signal.SIGINT, signal.SIG_DFL)
            if files is not None:
                resource.setrlimit(resource.RLIMIT_NOFILE, (files, files))
            if stack is not None:
                resource.setrlimit(resource.RLIMIT_STACK, (stack, resource.RLIM_INFINITY))
            for number in closed:
                os.close(number)

        self.run = subprocess.Popen(words + list(more), cwd=folder, stdin=stdin,
                                    stdout=subprocess.PIPE, stderr=subprocess.PIPE, bufsize=0,
                                    preexec_fn=begin)
        self.wait_until_it_listens()

    def wait_until_it_listens(self):
        until = time.monotonic() + SECONDS
        while True:
            # A connection would count as a session, so the file alone is looked for.
            if self.socket.exists():
                return
            if self.run.poll() is not None or time.monotonic() > until:
                raise Wrong(f"no socket: {self.run.communicate(timeout=5)}")
            time.sleep(0.005)

    def peer(self):
        return Peer(self.socket)

    def peer_at_once(self):
        """Connects, or fails where nobody listens."""
        with socket.socket(socket.AF_UNIX) as link:
            link.connect(str(self.socket))

    def first_line(self):
        """The line that it tells first on standard error."""
        if not select.select([self.run.stderr], [], [], SECONDS)[0]:
            raise Wrong("nothing is told")
        return self.run.stderr.readline().decode()

    def serve_who_waits(self):
        """Gives a connection to each worker that waits for one still, until the server ends."""
        until = time.monotonic() + SECONDS
        while self.run.poll() is None and time.monotonic() < until:
            with contextlib.suppress(OSError), socket.socket(socket.AF_UNIX) as link:
                link.settimeout(1)
                link.connect(str(self.socket))
                link.sendall(DETACH)
                link.recv(100)
            time.sleep(0.01)

    def end(self, status=0):
        """What it told on standard error since, once it has ended by itself."""
        out, told = self.run.communicate(timeout=SECONDS)
        expect(self.run.returncode, status, f"exit status ({told.decode(errors='replace')})")
        expect(out, b"", "standard output")
        expect(self.socket.exists(), True, "the socket's file is left")
        return told.decode()

    def stop(self):
        if self.run.poll() is None:
            self.run.kill()
            self.run.communicate()


@contextlib.contextmanager
def serving(program, workers, sessions, left=False, **more):
    """A server; where `left` is said, on the path of a socket that another one left."""
    folder = Path(tempfile.mkdtemp(prefix="overlayd-"))
    server = None
    try:
        if left:
            leave_behind(folder / "socket")
        server = Server(program, folder, workers, sessions, **more)
        yield server
    finally:
        if server:
            server.stop()
        shutil.rmtree(folder)


def together(count, work):
    """Runs `work(0)` .. `work(count - 1)` in threads; the results, or the first fault."""
    results, faults = [None] * count, []

    def run(index):
        try:
            results[index] = work(index)
        except Exception as fault:  # noqa: BLE001: it is raised again below
            faults.append(fault)

    threads = [threading.Thread(target=run, args=(index,), daemon=True) for index in range(count)]
    for thread in threads:
        thread.start()
    until = time.monotonic() + SECONDS
    for thread in threads:
        thread.join(max(0.0, until - time.monotonic()))
        if thread.is_alive():
            raise Wrong("clients don't get on")
    if faults:
        raise faults[0]
    return results


@contextlib.contextmanager
def runs(program):
    """A folder with a manifest, and a function that runs the program in it."""
    folder = Path(tempfile.mkdtemp(prefix="overlayd-"))

    def run(*words):
        ran = subprocess.run([program, *words], cwd=folder, stdin=subprocess.DEVNULL,
                             capture_output=True, timeout=SECONDS)
        return ran.returncode, ran.stdout.decode(), ran.stderr.decode()

    try:
        (folder / "manifest.toml").write_text(MANIFEST)
        yield folder, run
    finally:
        shutil.rmtree(folder)


def leave_behind(path):
    """Leaves the file of a socket on which nobody listens."""
    with socket.socket(socket.AF_UNIX) as link:
        link.bind(str(path))
