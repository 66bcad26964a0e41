"""The program itself, for tests that need it: where it is, and a server of it."""

import errno
import os
import pathlib
import stat
import subprocess
import tempfile
import time

from overlayd import Client
from overlayd.stream import connected

ROOT = pathlib.Path(__file__).resolve().parents[3]
# How long anything may take, on a machine that may be busy.
WAIT = 120.0


def program():
    """The program that OVERLAYD names, or that was built here; None without one."""
    named = os.environ.get("OVERLAYD")
    if named:
        return os.path.abspath(named)
    built = ROOT / "out" / "overlayd"
    return str(built) if built.is_file() else None


def why_not():
    """Why there can be no server; None where there can be one."""
    found = program()
    if found is None:
        return "overlayd isn't built, and OVERLAYD doesn't name it"
    asked = subprocess.run([found, "serve", "--help"], stdin=subprocess.DEVNULL,
                           stdout=subprocess.DEVNULL, stderr=subprocess.DEVNULL, timeout=WAIT)
    return None if asked.returncode == 0 else f"{found} has no serve"


def played(manifest, script):
    """What the program prints for a script, and its exit status."""
    with tempfile.TemporaryDirectory() as folder:
        path = os.path.join(folder, "m.toml")
        pathlib.Path(path).write_text(manifest)
        done = subprocess.run([program(), "play", path], input="\n".join(script) + "\n",
                              stdout=subprocess.PIPE, stderr=subprocess.PIPE, text=True,
                              timeout=WAIT)
    return done.stdout.splitlines(), done.returncode


def check_first_client(case, client):
    """What the first client of two empty layers is answered, and the places of its calls."""
    found = client.stat("/")
    case.assertEqual((found.st_mode, found.st_nlink), (stat.S_IFDIR | 0o755, 1))
    case.assertEqual(client.last_place, 1)
    client.mkdir("/a", 0o755)
    case.assertEqual(client.last_place, 2)
    with case.assertRaises(FileNotFoundError) as refused:
        client.stat("/x")
    case.assertEqual(refused.exception.place, 3)
    with case.assertRaises(OSError) as refused:
        client.stat("x")
    case.assertEqual((refused.exception.errno, refused.exception.place), (errno.EINVAL, None))
    client.detach()
    case.assertEqual(client.last_place, 4)


class Server:
    """A running `serve` of a manifest; at the end of its block it is ended.

    With `sessions`, each worker ends after so many, and `status` waits for the program's own end.
    With `save`, its upper is saved to that file, where `end` has it end.
    """

    def __init__(self, manifest, workers=64, sessions=None, save=None):
        self._folder = tempfile.TemporaryDirectory()
        self.path = os.path.join(self._folder.name, "s")
        described = os.path.join(self._folder.name, "m.toml")
        pathlib.Path(described).write_text(manifest)
        command = [program(), "serve", described, self.path, "--workers", str(workers)]
        if sessions is not None:
            command += ["--sessions", str(sessions)]
        if save is not None:
            command += ["--until-eof", "--save", save]
        self.process = subprocess.Popen(command, stdin=subprocess.PIPE if save is not None
                                        else subprocess.DEVNULL)

    def __enter__(self):
        return self

    def __exit__(self, kind, error, trace):
        self.process.kill()
        self.process.wait()
        self._folder.cleanup()

    def client(self):
        """A client, once the server listens."""
        return Client.from_socket(self.connected(), timeout=WAIT)

    def connected(self):
        """A connected socket, once the server listens."""
        limit = time.monotonic() + WAIT
        while True:
            try:
                link = connected(self.path, WAIT)
                link.settimeout(WAIT)
                return link
            except (FileNotFoundError, ConnectionRefusedError):
                if time.monotonic() > limit or self.process.poll() is not None:
                    raise
                time.sleep(0.005)

    def end(self):
        """Ends the input, with which it ends; its exit status."""
        self.process.stdin.close()
        return self.status()

    def status(self):
        """The program's exit status, once it has ended by itself."""
        return self.process.wait(WAIT)
