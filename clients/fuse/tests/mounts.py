"""Mounts of this machine: one through the bridge, and the kernel's overlayfs beside it."""

import contextlib
import errno
import hashlib
import io
import os
import pathlib
import shutil
import stat
import subprocess
import tempfile
import time
import unittest

import real_server
from overlayd.importer.command import main as import_command

from .bridges import ENGINE, ENVIRONMENT, INSIDE, NO_SERVER, PATIENCE, PROGRAM, why_no_engine
from .kernel import WAIT

FUSE = "/dev/fuse"
LARGE = 1 << 16
OVERLAY = "redirect_dir=on,index=off,xino=off,metacopy=off"


def why_not():
    """Why nothing can be mounted here, or None."""
    reason = why_no_engine() if INSIDE else NO_SERVER
    if reason:
        return reason
    if os.geteuid() != 0:
        return "not root"
    if not os.path.exists(FUSE):
        return f"no {FUSE}"
    return None


def why_no_overlay():
    """Why the kernel's overlayfs can't stand beside it, or None."""
    with tempfile.TemporaryDirectory() as folder:
        for name in ("l", "u", "w", "m"):
            os.mkdir(os.path.join(folder, name))
        options = f"lowerdir=l,upperdir=u,workdir=w,{OVERLAY}"
        if subprocess.run(["mount", "-t", "overlay", "overlay", "-o", options, "m"], cwd=folder,
                          capture_output=True, check=False).returncode:
            return "overlayfs can't be mounted here"
        subprocess.run(["umount", "m"], cwd=folder, check=True)
    return None


class Mounted:
    """A directory as lower layer of both: `here` through the bridge, `there` by the kernel.

    Their paths are of one length, since programs write them into files.
    """

    def __init__(self, fill, *options, overlay=True):
        self.folder = tempfile.mkdtemp()
        base = pathlib.Path(self.folder, "base")
        base.mkdir()
        fill(base)
        self.server = self.serve(base)
        self.here, self.there = self.path("here"), self.path("over")
        os.mkdir(self.here)
        self.options, self.process = options, None
        self.mount()
        self.has_overlay = overlay
        if overlay:
            self.mount_overlay()

    def path(self, name):
        return os.path.join(self.folder, name)

    def serve(self, base):
        """A server of the directory; inside there is none, but a manifest."""
        imported = self.path("imported.toml")
        with contextlib.redirect_stderr(io.StringIO()) as told:
            if import_command(["-q", "--no-times", str(base), "-o", imported]) != 0:
                raise AssertionError(told.getvalue())
        manifest = pathlib.Path(imported).read_text("utf-8")
        manifest = 'history = 1000000\nredirect_dir = "on"\n' + manifest
        if INSIDE:
            pathlib.Path(self.path("mount.toml")).write_text(manifest, "utf-8")
            return None
        server = real_server.Server(manifest)
        server.client().close()
        return server

    def words(self):
        """What a bridge shows; inside it goes on with what another one has saved."""
        if not INSIDE:
            return [PROGRAM, self.server.path]
        saved = self.path("saved.toml")
        upper = ["--upper", saved] if os.path.exists(saved) else []
        return [ENGINE, "--manifest", self.path("mount.toml"), "--devices", "--save", saved, *upper]

    def mount(self):
        self.process = subprocess.Popen(
            [*self.words(), self.here, "-f", "--verbose", "--wait", PATIENCE, *self.options],
            stdin=subprocess.DEVNULL, stderr=subprocess.PIPE, text=True, env=ENVIRONMENT)
        limit = time.monotonic() + WAIT
        while not os.path.ismount(self.here):
            if time.monotonic() > limit or self.process.poll() is not None:
                raise AssertionError("no mount: " + self.process.stderr.read())
            time.sleep(0.01)

    def mount_overlay(self):
        for name in ("upper", "work", "over"):
            os.mkdir(self.path(name))
        options = f"lowerdir=base,upperdir=upper,workdir=work,{OVERLAY}"
        subprocess.run(["mount", "-t", "overlay", "overlay", "-o", options, "over"],
                       cwd=self.folder, check=True)

    def unmount(self):
        """What the bridge told in the end."""
        subprocess.run(["umount", "--lazy", self.here], check=True)
        told = self.process.communicate(timeout=WAIT)[1]
        status, self.process = self.process.returncode, None
        if status != 0:
            raise AssertionError(f"status {status}: {told}")
        return told

    def remount(self):
        """A new bridge and an empty cache: what is there then is what the server has, or what was
        saved."""
        self.unmount()
        self.mount()

    def end(self):
        """Unmounts both; what the bridge told in the end."""
        try:
            return self.unmount() if self.process else None
        finally:
            if self.has_overlay:
                subprocess.run(["umount", "--lazy", self.there], check=True)
            if self.server:
                self.server.__exit__(None, None, None)
            shutil.rmtree(self.folder)


def trips(told):
    words = told.split()
    return int(words[words.index("round") - 1])


def is_of_overlay(name):
    """Whether the kernel's overlayfs keeps something for itself in an attribute."""
    return name.startswith("trusted.overlay.")


def value_of(path, name):
    """An attribute's value, or why the kernel gives none, as of a capability that is empty."""
    try:
        return os.getxattr(path, name, follow_symlinks=False)
    except OSError as error:
        return errno.errorcode[error.errno]


def attributes(path):
    return sorted((name, value_of(path, name))
                  for name in os.listxattr(path, follow_symlinks=False)
                  if not is_of_overlay(name))


def bytes_of(path, root):
    """A file's bytes, but for where it is; of a large one their sum."""
    data = pathlib.Path(path).read_bytes().replace(os.fsencode(root), b"ROOT")
    return data if len(data) <= LARGE else hashlib.sha256(data).hexdigest()


def described(path, root, with_bytes=True):
    """What an object is, but for times, numbers, and what a directory's size and links are."""
    found = os.lstat(path)
    told = [oct(found.st_mode), found.st_uid, found.st_gid, found.st_rdev]
    if not stat.S_ISDIR(found.st_mode):
        told += [found.st_size, found.st_nlink]
    if stat.S_ISLNK(found.st_mode):
        told.append(os.readlink(path))
    elif stat.S_ISREG(found.st_mode) or stat.S_ISDIR(found.st_mode):
        told.append(attributes(path))
    if stat.S_ISREG(found.st_mode) and with_bytes:
        told.append(bytes_of(path, root))
    return told


def refuse(error):
    """A directory that can't be listed is no empty one."""
    raise error


def tree(root, leaves_out=(), link_owners=True):
    """All objects below a directory; of files whose names end so not the bytes and sizes."""
    found = {}
    for folder, folders, files in os.walk(root, onerror=refuse):
        for name in folders + files:
            path = os.path.join(folder, name)
            told = described(path, root, not name.endswith(leaves_out))
            if name.endswith(leaves_out):
                told[4:5] = []
            if os.path.islink(path) and not link_owners:
                told[1:3] = []
            found[os.path.relpath(path, root)] = told
    return found


def times(root, links=True):
    """When each object was changed, its bytes and all else of it; a link, with `links`, its bytes
    alone."""
    found = {}
    for folder, folders, files in os.walk(root, onerror=refuse):
        for name in folders + files:
            told = os.lstat(os.path.join(folder, name))
            is_link = stat.S_ISLNK(told.st_mode)
            if links or not is_link:
                path = os.path.relpath(os.path.join(folder, name), root)
                found[path] = (told.st_mtime_ns, None if is_link else told.st_ctime_ns)
    return found


class MountedCase(unittest.TestCase):
    """Tests on one pair of mounts, each in a folder of its own."""

    OPTIONS = ()
    mounted = None

    @staticmethod
    def fill(base):
        """What the lower layer has."""

    @classmethod
    def setUpClass(cls):
        reason = why_not() or why_no_overlay()
        if not reason and INSIDE and "--shared" in cls.OPTIONS:
            reason = "--shared is for a server"
        if reason:
            raise unittest.SkipTest(reason)
        cls.mounted = Mounted(cls.fill, *cls.OPTIONS)

    @classmethod
    def tearDownClass(cls):
        if cls.mounted:
            cls.mounted.end()
