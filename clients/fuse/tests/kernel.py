"""The kernel's side of FUSE, by the structs of linux/fuse.h, over a socket in /dev/fuse's place."""

import enum
import errno
import os
import socket
import struct
import time
from typing import NamedTuple

WAIT = 120.0
ROOT = 1
CLOCK_REALTIME_COARSE = 5


def tick():
    """The time of the last tick, as the bridge has it, in whole seconds."""
    return int(time.clock_gettime(CLOCK_REALTIME_COARSE))


class Op(enum.IntEnum):
    LOOKUP = 1
    FORGET = 2
    GETATTR = 3
    SETATTR = 4
    READLINK = 5
    SYMLINK = 6
    MKNOD = 8
    MKDIR = 9
    UNLINK = 10
    RMDIR = 11
    LINK = 13
    OPEN = 14
    READ = 15
    WRITE = 16
    STATFS = 17
    RELEASE = 18
    FSYNC = 20
    SETXATTR = 21
    GETXATTR = 22
    LISTXATTR = 23
    REMOVEXATTR = 24
    FLUSH = 25
    INIT = 26
    OPENDIR = 27
    READDIR = 28
    RELEASEDIR = 29
    CREATE = 35
    BATCH_FORGET = 42
    FALLOCATE = 43
    READDIRPLUS = 44
    RENAME2 = 45


class Flag(enum.IntFlag):
    """Of INIT."""
    ATOMIC_O_TRUNC = 1 << 3
    AUTO_INVAL_DATA = 1 << 12
    DO_READDIRPLUS = 1 << 13
    READDIRPLUS_AUTO = 1 << 14
    WRITEBACK_CACHE = 1 << 16
    HANDLE_KILLPRIV = 1 << 19
    MAX_PAGES = 1 << 22
    CACHE_SYMLINKS = 1 << 23
    HANDLE_KILLPRIV_V2 = 1 << 28


# What a kernel of 2023 or later can do, but for splicing and for what it isn't asked here.
CAPABLE = 0x1 | 0x2 | 0x20 | 0x40 | 0x400 | 0x8000 | 0x40000 | sum(Flag)

SET_MODE, SET_UID, SET_GID, SET_SIZE, SET_ATIME, SET_MTIME, SET_FH = 1, 2, 4, 8, 16, 32, 64
SET_CTIME, SET_KILLS = 1024, 2048
WRITE_CACHE, WRITE_KILLS = 1, 4
OPEN_KILLS = 1
OPEN_DIRECT, OPEN_KEEP_CACHE, OPEN_CACHE_DIR = 1, 2, 8


class Attr(NamedTuple):
    ino: int
    size: int
    blocks: int
    atime: int
    mtime: int
    ctime: int
    atimensec: int
    mtimensec: int
    ctimensec: int
    mode: int
    nlink: int
    uid: int
    gid: int
    rdev: int
    blksize: int
    flags: int


class Entry(NamedTuple):
    nodeid: int
    entry_valid: int
    attr_valid: int
    attr: Attr


class Opened(NamedTuple):
    fh: int
    flags: int


class Dirent(NamedTuple):
    name: bytes
    ino: int
    off: int
    type: int
    entry: Entry


ATTR = struct.Struct("=QQQqqqIIIIIIIIII")
ENTRY = struct.Struct("=QQQQII")


def attr_of(data):
    return Attr(*ATTR.unpack_from(data))


def entry_of(data):
    nodeid, _, entry_valid, attr_valid, _, _ = ENTRY.unpack_from(data)
    return Entry(nodeid, entry_valid, attr_valid, attr_of(data[ENTRY.size:]))


def text(value):
    return (value.encode() if isinstance(value, str) else value) + b"\0"


class Kernel:
    """Sends requests over a socket and reads the replies; a refusal is an OSError."""

    def __init__(self, link, uid=0, gid=0):
        self.wire = link
        self.wire.settimeout(WAIT)
        self.uid, self.gid = uid, gid
        self.unique = 0
        self.told = []

    def send(self, op, node, body=b""):
        self.unique += 2
        head = struct.pack("=IIQQIIIHH", 40 + len(body), op, self.unique, node, self.uid,
                           self.gid, os.getpid(), 0, 0)
        self.wire.sendall(head + body)

    def take(self, count):
        data = bytearray()
        while len(data) < count:
            piece = self.wire.recv(count - len(data))
            if not piece:
                raise EOFError("the bridge is gone")
            data += piece
        return bytes(data)

    def ask(self, op, node, body=b""):
        self.send(op, node, body)
        length, error, unique = struct.unpack("=IiQ", self.take(16))
        while unique == 0:  # what the bridge tells by itself
            self.told.append((error, self.take(length - 16)))
            length, error, unique = struct.unpack("=IiQ", self.take(16))
        if unique != self.unique:
            raise AssertionError(f"a reply to {unique} instead of {self.unique}")
        data = self.take(length - 16)
        if error:
            if data:
                raise AssertionError("a refusal with an answer")
            raise OSError(-error, os.strerror(-error))
        return data

    def init(self, minor=38, flags=CAPABLE):
        """What the bridge asks for, of what the kernel can do."""
        answer = self.ask(Op.INIT, 0, struct.pack("=IIII", 7, minor, 131072, flags))
        major, _, _, wanted = struct.unpack_from("=IIII", answer)
        if major != 7:
            raise AssertionError(f"major version {major}")
        return wanted

    # Operations, each by the name of its op.

    def lookup(self, parent, name):
        return entry_of(self.ask(Op.LOOKUP, parent, text(name)))

    def walk(self, path):
        """The entry at a path from the root, looked up name by name."""
        node = ROOT
        for name in path.strip("/").split("/"):
            entry = self.lookup(node, name)
            node = entry.nodeid
            if not node:
                raise FileNotFoundError(errno.ENOENT, path)
        return entry

    def forget(self, node, count=1):
        self.send(Op.FORGET, node, struct.pack("=Q", count))

    def batch_forget(self, *nodes):
        body = struct.pack("=II", len(nodes), 0)
        self.send(Op.BATCH_FORGET, 0, body + b"".join(struct.pack("=QQ", n, 1) for n in nodes))

    def getattr(self, node, fh=None):
        body = struct.pack("=IIQ", fh is not None, 0, fh or 0)
        return attr_of(self.ask(Op.GETATTR, node, body)[16:])

    def attr_valid(self, node):
        return struct.unpack_from("=Q", self.ask(Op.GETATTR, node, bytes(16)))[0]

    def setattr(self, node, valid, fh=0, size=0, atime=(0, 0), mtime=(0, 0), ctime=(0, 0),
                mode=0, uid=0, gid=0):
        body = struct.pack("=IIQQQqqqIIIIIIII", valid, 0, fh, size, 0, atime[0], mtime[0],
                           ctime[0], atime[1], mtime[1], ctime[1], mode, 0, uid, gid, 0)
        return attr_of(self.ask(Op.SETATTR, node, body)[16:])

    def readlink(self, node):
        return self.ask(Op.READLINK, node)

    def symlink(self, parent, name, target):
        return entry_of(self.ask(Op.SYMLINK, parent, text(name) + text(target)))

    def mknod(self, parent, name, mode, rdev=0):
        body = struct.pack("=IIII", mode, rdev, 0, 0) + text(name)
        return entry_of(self.ask(Op.MKNOD, parent, body))

    def mkdir(self, parent, name, mode=0o755):
        return entry_of(self.ask(Op.MKDIR, parent, struct.pack("=II", mode, 0) + text(name)))

    def unlink(self, parent, name):
        self.ask(Op.UNLINK, parent, text(name))

    def rmdir(self, parent, name):
        self.ask(Op.RMDIR, parent, text(name))

    def link(self, node, parent, name):
        return entry_of(self.ask(Op.LINK, parent, struct.pack("=Q", node) + text(name)))

    def rename(self, parent, name, to, new, flags=0):
        body = struct.pack("=QII", to, flags, 0) + text(name) + text(new)
        self.ask(Op.RENAME2, parent, body)

    def open(self, node, flags=os.O_RDONLY, how=0):
        fh, how, _ = struct.unpack("=QII", self.ask(Op.OPEN, node, struct.pack("=II", flags, how)))
        return Opened(fh, how)

    def create(self, parent, name, flags=os.O_RDWR, mode=0o644):
        body = struct.pack("=IIII", flags | os.O_CREAT, mode, 0, 0) + text(name)
        answer = self.ask(Op.CREATE, parent, body)
        fh, how, _ = struct.unpack_from("=QII", answer, 128)
        return entry_of(answer), Opened(fh, how)

    def read(self, node, fh, offset, size):
        return self.ask(Op.READ, node, struct.pack("=QQIIQII", fh, offset, size, 0, 0, 0, 0))

    def write(self, node, fh, offset, data, flags=0):
        body = struct.pack("=QQIIQII", fh, offset, len(data), flags, 0, 0, 0) + data
        return struct.unpack_from("=I", self.ask(Op.WRITE, node, body))[0]

    def release(self, node, fh):
        self.ask(Op.RELEASE, node, struct.pack("=QIIQ", fh, 0, 0, 0))

    def statfs(self, node=ROOT):
        return struct.unpack_from("=QQQQQIII", self.ask(Op.STATFS, node))

    def setxattr(self, node, name, value, flags=0):
        body = struct.pack("=II", len(value), flags) + text(name) + value
        self.ask(Op.SETXATTR, node, body)

    def getxattr(self, node, name, size=65536):
        answer = self.ask(Op.GETXATTR, node, struct.pack("=II", size, 0) + text(name))
        return answer if size else struct.unpack("=II", answer)[0]

    def listxattr(self, node, size=65536):
        answer = self.ask(Op.LISTXATTR, node, struct.pack("=II", size, 0))
        return answer.split(b"\0")[:-1] if size else struct.unpack("=II", answer)[0]

    def removexattr(self, node, name):
        self.ask(Op.REMOVEXATTR, node, text(name))

    def fallocate(self, node, fh, offset, length, mode=0):
        self.ask(Op.FALLOCATE, node, struct.pack("=QQQII", fh, offset, length, mode, 0))

    def opendir(self, node):
        fh, how, _ = struct.unpack("=QII", self.ask(Op.OPENDIR, node, bytes(8)))
        return Opened(fh, how)

    def releasedir(self, node, fh):
        self.ask(Op.RELEASEDIR, node, struct.pack("=QIIQ", fh, 0, 0, 0))

    def page(self, node, fh, at, size=4096, plus=True):
        """A page of a directory, from a place on."""
        op = Op.READDIRPLUS if plus else Op.READDIR
        data = self.ask(op, node, struct.pack("=QQIIQII", fh, at, size, 0, 0, 0, 0))
        found = []
        while data:
            entry, data = (entry_of(data), data[128:]) if plus else (None, data)
            ino, off, length, kind = struct.unpack_from("=QQII", data)
            found.append(Dirent(data[24:24 + length], ino, off, kind, entry))
            data = data[(24 + length + 7) // 8 * 8:]
        return found

    def listing(self, node, plus=True, size=4096):
        """All that a directory has, page by page."""
        fh = self.opendir(node).fh
        found, at = [], 0
        while True:
            page = self.page(node, fh, at, size, plus)
            if not page:
                break
            found += page
            at = page[-1].off
        self.releasedir(node, fh)
        return found


def pair():
    """Both ends of what stands for /dev/fuse."""
    return socket.socketpair(socket.AF_UNIX, socket.SOCK_STREAM)
