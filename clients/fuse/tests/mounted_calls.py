"""Random system calls, one by one on a mount and on the kernel's overlayfs beside it: each has the
same outcome on both, and at the end the trees are the same."""

import errno
import os
import random
import stat
import unittest

from .bridges import INSIDE
from .mounts import MountedCase, is_of_overlay, tree

SEEDS = int(os.environ.get("SEEDS", "10"))
CALLS = 2000
NAMES = ["a", "b", "c", "d", "e", "lower", "link"]
NO_FILE = 1 << 20  # a descriptor that nobody has
SIZES = [0, 1, 7, 100, 4095, 4096, 4097, 9000, 65536, 70000]
ATTRIBUTES = ["user.a", "user.b", "trusted.t", "security.s", "security.capability", "system.s",
              "trusted_.x"]
VALUE_SIZES = [0, 1, 50, 500, 512, 513, 1000, 1024, 1025, 4096, 65536, 65537]
CAPABILITY = bytes.fromhex("0100000200040000000000000000000000000000")
SETS = {"setxattr": ("getxattr", "removexattr"), "fsetxattr": ("fgetxattr", "fremovexattr")}


def fits(name, value):
    """Whether an attribute's value is one that a mount of the bridge takes."""
    try:
        is_text = value.decode("utf-8") is not None
    except UnicodeDecodeError:
        is_text = False
    return len(value) <= (1024 if name.startswith("user.") and (is_text or not INSIDE) else 512)


class Caller:
    """Makes calls in one folder; each gives what it answered, or the number of its refusal."""

    def __init__(self, root):
        self.root = root
        self.files = {}

    def call(self, name, *words):
        try:
            return getattr(self, name)(*words)
        except OSError as error:
            return errno.errorcode[error.errno]

    def number(self, slot):
        return self.files.get(slot, NO_FILE)

    def at(self, path):
        return os.path.join(self.root, path)

    def told(self, found):
        words = [oct(found.st_mode), found.st_uid, found.st_gid]
        return words if stat.S_ISDIR(found.st_mode) else words + [found.st_size, found.st_nlink]

    def stat(self, path):
        return self.told(os.lstat(self.at(path)))

    def follow(self, path):
        return self.told(os.stat(self.at(path)))

    def access(self, path, mode):
        return os.access(self.at(path), mode)

    def readlink(self, path):
        return os.readlink(self.at(path))

    def listing(self, path):
        return sorted(os.listdir(self.at(path)))

    def chmod(self, path, mode):
        os.chmod(self.at(path), mode)

    def chown(self, path, uid, gid):
        os.lchown(self.at(path), uid, gid)

    def times(self, path, second):
        os.utime(self.at(path), (second, second), follow_symlinks=False)
        return os.lstat(self.at(path)).st_mtime

    def mkdir(self, path, mode):
        os.mkdir(self.at(path), mode)

    def rmdir(self, path):
        os.rmdir(self.at(path))

    def unlink(self, path):
        os.unlink(self.at(path))

    def symlink(self, target, path):
        os.symlink(target, self.at(path))

    def link(self, old, new):
        os.link(self.at(old), self.at(new), follow_symlinks=False)

    def rename(self, old, new):
        os.rename(self.at(old), self.at(new))

    def setxattr(self, path, name, value, flags):
        os.setxattr(self.at(path), name, value, flags)

    def getxattr(self, path, name):
        return os.getxattr(self.at(path), name)

    def listxattr(self, path):
        return self.names(self.at(path))

    def removexattr(self, path, name):
        os.removexattr(self.at(path), name)

    @staticmethod
    def names(of):
        return sorted(name for name in os.listxattr(of) if not is_of_overlay(name))

    def fsetxattr(self, slot, name, value, flags):
        os.setxattr(self.number(slot), name, value, flags)

    def fgetxattr(self, slot, name):
        return os.getxattr(self.number(slot), name)

    def flistxattr(self, slot):
        return self.names(self.number(slot))

    def fremovexattr(self, slot, name):
        os.removexattr(self.number(slot), name)

    def fchown(self, slot, uid, gid):
        os.fchown(self.number(slot), uid, gid)

    def mkfifo(self, path):
        os.mkfifo(self.at(path), 0o640)

    def truncate(self, path, size):
        os.truncate(self.at(path), size)

    def open(self, slot, path, flags, mode):
        if slot in self.files:
            self.close(slot)
        self.files[slot] = os.open(self.at(path), flags | os.O_NONBLOCK, mode)

    def close(self, slot):
        os.close(self.files.pop(slot, NO_FILE))

    def pread(self, slot, count, place):
        return os.pread(self.number(slot), count, place)

    def pwrite(self, slot, data, place):
        return os.pwrite(self.number(slot), data, place)

    def read(self, slot, count):
        return os.read(self.number(slot), count)

    def write(self, slot, data):
        return os.write(self.number(slot), data)

    def seek(self, slot, place, whence):
        number = self.number(slot)
        if stat.S_ISDIR(os.fstat(number).st_mode):
            return None  # places in a directory are the file system's own
        return os.lseek(number, place, whence)

    def ftruncate(self, slot, size):
        os.ftruncate(self.number(slot), size)

    def fstat(self, slot):
        return self.told(os.fstat(self.number(slot)))

    def fchmod(self, slot, mode):
        os.fchmod(self.number(slot), mode)

    def fsync(self, slot):
        os.fsync(self.number(slot))


class Calls:
    """Random calls by a seed, as names and words."""

    def __init__(self, seed):
        self.random = random.Random(seed)

    def path(self):
        return "/".join(self.random.choices(NAMES, k=self.random.choice((1, 1, 2, 2, 3))))

    def mode(self):
        return self.random.choice((0, 0o600, 0o644, 0o755, 0o1777, 0o2755, 0o4755, 0o7777))

    def data(self):
        return bytes(self.random.choices(range(256), k=8)) * (self.random.choice(SIZES) // 8 + 1)

    def value(self, name):
        if name == "security.capability" and self.random.random() < 0.8:
            return CAPABILITY
        size = self.random.choice(VALUE_SIZES)
        piece = self.random.choice((b"text. ", self.data()[:8]))
        return (piece * (size // len(piece) + 1))[:size]

    def slot(self):
        return self.random.randrange(6)

    def flags(self):
        flags = self.random.choice((os.O_RDONLY, os.O_WRONLY, os.O_RDWR))
        for flag, odds in ((os.O_CREAT, 0.6), (os.O_EXCL, 0.1), (os.O_TRUNC, 0.2),
                           (os.O_APPEND, 0.2), (os.O_NOFOLLOW, 0.2)):
            if self.random.random() < odds:
                flags |= flag
        if not flags & os.O_CREAT:
            flags &= ~os.O_EXCL  # says nothing without
        return flags

    def next(self):
        pick = self.random
        size, place = pick.choice(SIZES), pick.choice(SIZES)
        name, at, flags = pick.choice(ATTRIBUTES), self.path(), pick.choice((0, 0, 0, 1, 2))
        choices = [
            (4, "stat", self.path()), (2, "follow", self.path()), (2, "readlink", self.path()),
            (3, "listing", self.path()), (2, "chmod", self.path(), self.mode()),
            (2, "chown", self.path(), pick.choice((-1, 0, 5)), pick.choice((-1, 0, 6))),
            (1, "times", self.path(), pick.randrange(2000000000)),
            (8, "mkdir", self.path(), self.mode()), (2, "rmdir", self.path()),
            (3, "unlink", self.path()), (2, "symlink", self.path(), self.path()),
            (3, "link", self.path(), self.path()), (5, "rename", self.path(), self.path()),
            (3, "setxattr", at, name, self.value(name), flags), (2, "getxattr", at, name),
            (1, "listxattr", at), (1, "removexattr", at, name),
            (3, "fsetxattr", self.slot(), name, self.value(name), flags),
            (2, "fgetxattr", self.slot(), name), (2, "flistxattr", self.slot()),
            (1, "fremovexattr", self.slot(), name),
            (1, "fchown", self.slot(), pick.choice((-1, 0, 5)), pick.choice((-1, 0, 6))),
            (1, "mkfifo", self.path()), (2, "truncate", self.path(), size),
            (10, "open", self.slot(), self.path(), self.flags(), self.mode()),
            (2, "close", self.slot()), (3, "pread", self.slot(), size, place),
            (4, "pwrite", self.slot(), self.data(), place), (3, "read", self.slot(), size),
            (3, "write", self.slot(), self.data()),
            (2, "seek", self.slot(), place, pick.randrange(3)),
            (2, "ftruncate", self.slot(), size), (4, "fstat", self.slot()),
            (1, "fchmod", self.slot(), self.mode()), (1, "fsync", self.slot()),
            (1, "access", self.path(), pick.randrange(8)),
        ]
        return pick.choices([one[1:] for one in choices], [one[0] for one in choices])[0]


class RandomCalls(MountedCase):
    """Each seed has a folder of the lower layer, with names of the same form."""

    @staticmethod
    def fill(base):
        for seed in range(SEEDS):
            folder = base / str(seed)
            for path in ("a", "b", "a/lower", "c", "c/d", "lower", "lower/a"):
                (folder / path).mkdir(parents=True, exist_ok=True)
            for path in ("a/b", "b/a", "c/d/e", "d", "lower/e"):
                (folder / path).write_bytes(path.encode() * 1000)
            (folder / "link").symlink_to("a")
            (folder / "c" / "link").symlink_to("../d")
            os.setxattr(folder / "d", "user.a", b"lower")

    OPTIONS = ("--times",)

    def test_calls(self):
        outcomes = 0
        for seed in range(SEEDS):
            with self.subTest(seed=seed):
                outcomes += self.play(seed)
        self.assertGreater(outcomes, CALLS * SEEDS // 5)  # so many weren't refused
        self.mounted.remount()
        here, there = (tree(root, link_owners=False)
                       for root in (self.mounted.here, self.mounted.there))
        for path, told in there.items():
            self.assertEqual(here.pop(path), told, path)
        self.assertEqual(here, {})

    def play(self, seed):
        callers = [Caller(os.path.join(root, str(seed)))
                   for root in (self.mounted.here, self.mounted.there)]
        try:
            made = self.compare(Calls(seed), *callers)
        finally:
            for caller in callers:
                for slot in list(caller.files):
                    caller.close(slot)
        self.assertEqual(*(tree(caller.root) for caller in callers))
        return made

    def compare(self, calls, here, there):
        made = 0
        for number in range(CALLS):
            name, *words = calls.next()
            if name in SETS and not fits(*words[1:3]):
                one, other = self.too_large(name, words, here, there)
            else:
                one, other = here.call(name, *words), there.call(name, *words)
            self.assertEqual(one, other, f"call {number}: {name} {words!r}"[:300])
            made += one not in errno.errorcode.values()
        return made

    @staticmethod
    def too_large(name, words, here, there):
        """What the bridge has no room for is as it was on the other, which may have room."""
        get, remove = SETS[name]
        slot, attribute = words[:2]
        before = there.call(get, slot, attribute)
        one, other = here.call(name, *words), there.call(name, *words)
        if one != "ENOSPC":
            return one, other
        if other is None and isinstance(before, bytes):
            there.call(name, slot, attribute, before, 0)
        elif other is None:
            there.call(remove, slot, attribute)
        return (one, one) if other in (None, "ENOSPC", "EEXIST", "ENODATA") else (one, other)


class RandomCallsShared(RandomCalls):
    """The same where the kernel keeps nothing."""

    OPTIONS = ("--shared", "--times")


if __name__ == "__main__":
    unittest.main()
