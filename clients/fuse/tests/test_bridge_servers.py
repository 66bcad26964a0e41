"""Servers that answer wrong, short, late or not at all: EIO, and then all goes on."""

import errno
import os
import struct
import time
import unittest

from . import played
from .bridges import Bridge, of_sockets, run
from .kernel import ROOT
from .played import Played, attr, frame, made, refused, texts


def fill(number, count):
    return number.to_bytes(count, "big")


def u32(number):
    return fill(number, 4)


# How a wrong command line is told.
ONE_LINE = r"\Aoverlayd-fuse: [^\n]*; overlayd-fuse --help tells more\n\Z"

# Those of the table in docs/FORMATS.md.
ERROR_NUMBERS = (1, 2, 9, 12, 16, 17, 18, 20, 21, 22, 23, 24, 27, 28, 30, 36, 39, 40, 61, 75, 95)

# What is no answer to any request.
NO_REPLIES = {
    "a length of 0": u32(0),
    "a length over 70,000": u32(70001) + bytes(70001),
    "a status that isn't there": frame(b"\3"),
    "status 0 with half a place": frame(b"\0\0\0\0\0"),
    "status 1 without a number": frame(b"\1" + bytes(8)),
    "status 2 without a number": frame(b"\2"),
    "an error number of 0": refused(0),
    "an error number that no call has": refused(5),
    "a byte behind a refusal": frame(b"\1" + bytes(8) + b"\2\0"),
}

# For each call of a kernel, the op that is answered wrong, and wrong answers to it.
KINDS = [attr(kind=0), attr(kind=4), attr(mode=0o10000), attr(size=1 << 63), attr()[:-1],
         attr() + b"\0", b""]
NAMES = [texts(b""), texts(b"."), texts(b".."), texts(b"a/b"), texts(b"a\0b"), texts(b"n" * 256),
         texts(*[b"%d" % n for n in range(257)]), texts(b"a") + b"\0", texts(b"a")[:-1], b"\0",
         struct.pack(">H", 2) + texts(b"a")[2:], struct.pack(">HH", 1, 65535) + b"a"]
LIES = [
    ("lookup", lambda k, f, fh: k.lookup(ROOT, "f"), played.STAT, KINDS),
    ("readlink", lambda k, f, fh: k.readlink(f), played.READLINK,
     [b"\0\0", b"\0\2a\0", b"\0\3to", b"\0\2to\0", b"\0", fill(4096, 2) + b"x" * 4096]),
    ("mkdir", lambda k, f, fh: k.mkdir(ROOT, "d"), played.MKDIR, [b"\0"]),
    ("open", lambda k, f, fh: k.open(k.lookup(ROOT, "g").nodeid, os.O_RDWR), played.OPEN,
     [u32(0), u32(2), u32(64), b"\0\0\0", u32(1) + b"\0"]),
    ("read", lambda k, f, fh: k.read(f, fh, 0, 9), played.READ,
     [u32(10) + bytes(10), u32(3) + bytes(2), u32(3) + bytes(4), b"\0\0", u32(2 ** 32 - 1)]),
    ("seek", lambda k, f, fh: k.read(f, fh, 7, 9), played.SEEK, [fill(6, 8), b"", fill(7, 9)]),
    ("write", lambda k, f, fh: k.write(f, fh, 0, b"abc"), played.WRITE,
     [u32(4), u32(0), b"\0\0\0", u32(3) + b"\0"]),
    ("getxattr", lambda k, f, fh: k.getxattr(f, "user.a"), played.GETATTR,
     [b"\0\4one", b"\0\3one\0", b"\0", b""]),
    ("listxattr", lambda k, f, fh: k.listxattr(f), played.ATTRS,
     [texts(b""), texts(b"user.\0"), texts(b"a") + b"\0", texts(b"a")[:-1], b"\0"]),
    ("readdirplus", lambda k, f, fh: k.page(ROOT, k.opendir(ROOT).fh, 0), played.LIST, NAMES),
    ("unlink", lambda k, f, fh: k.unlink(ROOT, "f"), played.UNLINK, [b"\0"]),
    ("rename", lambda k, f, fh: k.rename(ROOT, "f", ROOT, "g"), played.RENAME, [u32(0)]),
    ("setattr", lambda k, f, fh: k.setattr(f, 1, mode=0o600), played.CHMOD, [b"\0"]),
    ("create", lambda k, f, fh: k.create(ROOT, "new"), played.OPEN, [u32(0), u32(63), b""]),
]


class PlayedCase(unittest.TestCase):
    def setUp(self):
        self.server = self.enter(Played())

    def enter(self, context):
        value = context.__enter__()
        self.addCleanup(context.__exit__, None, None, None)
        return value

    def bridge(self, *options, sessions=1):
        bridge = Bridge(self.server.path, "--sessions", str(sessions), *options)
        self.addCleanup(bridge.end)
        return bridge.kernel

    def refused(self, number, call, *words, **named):
        with self.assertRaises(OSError) as refusal:
            call(*words, **named)
        self.assertEqual(refusal.exception.errno, number, os.strerror(refusal.exception.errno))


class Lies(PlayedCase):
    def check(self, kernel, call, op, lie):
        """EIO where it lies; what was open is lost, and all else goes on."""
        node = kernel.lookup(ROOT, "f").nodeid
        fh = kernel.open(node, os.O_RDWR).fh
        self.server.lies[op] = lie
        before = self.server.accepted
        self.refused(errno.EIO, call, kernel, node, fh)
        self.assertFalse(self.server.lies, "the op wasn't asked")
        self.assertEqual(kernel.lookup(ROOT, "f").attr.size, 4)
        self.assertEqual(self.server.accepted, before + 1)
        self.refused(errno.EIO, kernel.read, node, fh, 0, 4)
        self.refused(errno.EIO, kernel.write, node, fh, 0, b"x")
        kernel.release(node, fh)
        fh = kernel.open(node, os.O_RDWR).fh
        self.assertEqual(kernel.read(node, fh, 0, 9), b"four")
        kernel.release(node, fh)

    def test_answers_of_another_form(self):
        kernel = self.bridge()
        for told, call, op, answers in LIES:
            for answer in answers:
                with self.subTest(told, answer=answer[:40]):
                    self.check(kernel, call, op, made(answer))

    def test_what_is_no_reply(self):
        kernel = self.bridge()
        for told, reply in NO_REPLIES.items():
            for name, call, op, _ in LIES:
                with self.subTest(told, call=name):
                    self.check(kernel, call, op, reply)

    @of_sockets
    def test_two_replies_to_one_request(self):
        """Where the second is taken for another request's it is known by what is left over."""
        kernel = self.bridge()
        self.check(kernel, *LIES[0][1:3], made(attr()) + made(attr(size=5)))
        for _ in range(3):
            self.server.lies[played.MKDIR] = made() + made(attr(played.DIRECTORY, size=0))
            try:
                kernel.mkdir(ROOT, "d")
                self.assertTrue(self.server.has_answered(bytes((played.STAT, 0, 2)) + b"/d"))
            except OSError as error:
                self.assertEqual(error.errno, errno.EIO)
            self.assertEqual(kernel.lookup(ROOT, "f").attr.size, 4)

    def test_refusals_are_told(self):
        kernel = self.bridge()
        node = kernel.lookup(ROOT, "f").nodeid
        for number in ERROR_NUMBERS:
            self.server.lies[played.CHMOD] = refused(number)
            self.refused(number, kernel.setattr, node, 1, mode=0o600)
            self.server.lies[played.CHMOD] = frame(bytes((2, number)))
            self.refused(number, kernel.setattr, node, 1, mode=0o600)
        self.assertEqual(self.server.accepted, 1)

    def test_a_change_that_is_made_in_part_is_looked_at_anew(self):
        kernel = self.bridge()
        node = kernel.lookup(ROOT, "f").nodeid
        self.server.lies[played.CHOWN] = refused(12)
        self.refused(errno.ENOMEM, kernel.setattr, node, 1 | 2, mode=0o600, uid=5)
        self.server.lies[played.STAT] = made(attr(mode=0o600))
        self.assertEqual(kernel.getattr(node).mode & 0o7777, 0o600)
        self.server.lies[played.CHOWN] = refused(12)
        self.refused(errno.ENOMEM, kernel.setattr, node, 2, uid=5)
        self.server.lies[played.STAT] = made(attr(played.DIRECTORY))
        self.refused(errno.ESTALE, kernel.setattr, node, 1, mode=0o640)

    def test_replies_in_single_bytes(self):
        kernel = self.bridge()

        def slow(session, body):
            for byte in session.answer(body[0], body[1:]):
                session.link.sendall(bytes((byte,)))
            return True

        for _ in range(3):
            self.server.lies[played.STAT] = slow
            self.assertEqual(kernel.lookup(ROOT, "f").attr.size, 4)
        self.assertEqual(self.server.accepted, 1)


class Losses(PlayedCase):
    def test_a_server_that_goes_away_at_each_byte_of_a_reply(self):
        kernel = self.bridge()
        whole = made(attr())
        for length in range(len(whole)):
            def cut(session, _, length=length):
                session.link.sendall(whole[:length])
                return False

            self.server.lies[played.STAT] = cut
            self.refused(errno.EIO, kernel.lookup, ROOT, "f")
            self.assertEqual(kernel.lookup(ROOT, "f").attr.size, 4)
        self.assertEqual(self.server.accepted, 1 + len(whole))

    @of_sockets
    def test_bytes_that_nobody_asked_for(self):
        kernel = self.bridge()
        kernel.lookup(ROOT, "f")
        self.server.links[-1].sendall(made(attr(size=5)))
        self.assertEqual(kernel.lookup(ROOT, "f").attr.size, 4)
        self.assertEqual(self.server.accepted, 2)

    @of_sockets
    def test_a_connection_that_ends_between_calls_is_made_anew(self):
        kernel = self.bridge()
        node = kernel.lookup(ROOT, "f").nodeid
        fh = kernel.open(node).fh
        self.server.links[-1].shutdown(2)
        self.assertEqual(kernel.lookup(ROOT, "f").nodeid, node)
        self.refused(errno.EIO, kernel.read, node, fh, 5, 4)
        self.refused(errno.EIO, kernel.setattr, node, 8 | 64, fh, size=1)
        kernel.release(node, fh)
        fh = kernel.open(node).fh
        self.assertEqual(kernel.read(node, fh, 0, 9), b"four")

    @of_sockets
    def test_other_connections_keep_what_is_open_on_them(self):
        kernel = self.bridge(sessions=2)
        nodes = [kernel.lookup(ROOT, name).nodeid for name in ("f", "g")]
        opened = [(node, kernel.open(node, os.O_RDWR).fh) for node in nodes]
        self.server.links[0].shutdown(2)
        reads = []
        for node, fh in opened:
            try:
                reads.append(kernel.read(node, fh, 0, 9))
            except OSError as error:
                reads.append(error.errno)
        self.assertEqual(sorted(reads, key=str), [errno.EIO, b"four"])

    @of_sockets
    def test_a_server_that_is_gone_and_comes_back(self):
        kernel = self.bridge()
        node = kernel.lookup(ROOT, "f").nodeid
        fh = kernel.open(node, os.O_RDWR).fh
        self.server.stop()
        for _ in range(2):
            self.refused(errno.EIO, kernel.lookup, ROOT, "f")
            self.refused(errno.EIO, kernel.read, node, fh, 5, 4)
            self.refused(errno.EIO, kernel.write, node, fh, 0, b"x")
            self.refused(errno.EIO, kernel.open, node)
            self.refused(errno.EIO, kernel.create, ROOT, "new")
            self.refused(errno.EIO, kernel.mkdir, ROOT, "new")
            self.refused(errno.EIO, kernel.page, ROOT, kernel.opendir(ROOT).fh, 0)
            self.refused(errno.EIO, kernel.getxattr, node, "user.a")
        self.assertGreater(kernel.statfs()[0], 0)
        kernel.release(node, fh)
        self.server.listen()
        self.assertEqual(kernel.lookup(ROOT, "f").nodeid, node)
        fh = kernel.open(node).fh
        self.assertEqual(kernel.read(node, fh, 0, 9), b"four")

    @of_sockets
    def test_a_server_that_says_nothing(self):
        kernel = self.bridge("--wait", "1")
        self.server.lies[played.STAT] = lambda session, body: True
        since = time.monotonic()
        self.refused(errno.EIO, kernel.lookup, ROOT, "f")
        self.assertGreater(time.monotonic() - since, 0.9)
        self.assertEqual(kernel.lookup(ROOT, "f").attr.size, 4)

    @of_sockets
    def test_a_server_that_never_ends_a_reply(self):
        kernel = self.bridge("--wait", "1")

        def trickles(session, _):
            try:
                for byte in u32(60000) + bytes(60000):
                    session.link.sendall(bytes((byte,)))
                    time.sleep(0.2)
            except OSError:
                pass
            return False

        self.server.lies[played.STAT] = trickles
        self.refused(errno.EIO, kernel.lookup, ROOT, "f")
        self.assertEqual(kernel.lookup(ROOT, "f").attr.size, 4)

    def test_a_listing_that_never_ends(self):
        kernel = self.bridge()
        names = made(texts(*[b"%d" % number for number in range(256)]))

        def endless(session, body):
            self.server.lies[played.LIST] = endless
            session.link.sendall(names)
            return True

        self.server.lies[played.LIST] = endless
        self.refused(errno.ENOMEM, kernel.page, ROOT, kernel.opendir(ROOT).fh, 0)
        self.server.lies.clear()
        self.assertEqual(len(kernel.page(ROOT, kernel.opendir(ROOT).fh, 0)), 4)

    @of_sockets
    def test_who_cannot_be_attached(self):
        kernel = self.bridge()

        def full(session, _):
            session.link.sendall(frame(bytes((2, 23))))
            return False

        self.server.lies[played.STAT] = full
        self.refused(errno.ENFILE, kernel.lookup, ROOT, "f")
        self.assertEqual(kernel.lookup(ROOT, "f").attr.size, 4)

    @of_sockets
    def test_an_open_that_is_refused_with_what_goes_with_it(self):
        kernel = self.bridge()
        node = kernel.lookup(ROOT, "f").nodeid
        self.server.lies[played.OPEN] = refused(12)
        self.server.lies[played.READ] = refused(9)
        self.refused(errno.ENOMEM, kernel.open, node)
        fh = kernel.open(node).fh
        self.assertEqual(kernel.read(node, fh, 0, 9), b"four")


@of_sockets
class Beginnings(PlayedCase):
    def test_no_server(self):
        done = run("/nowhere/s", "/mnt")
        self.assertEqual(done.returncode, 1)
        self.assertEqual(done.stderr.splitlines()[0],
                         "overlayd-fuse: /nowhere/s: No such file or directory")

    def test_a_path_that_is_too_long(self):
        done = run("/" + "s" * 108, "/mnt")
        self.assertEqual(done.returncode, 1)
        self.assertIn("File name too long", done.stderr)

    def test_a_server_with_too_few_workers(self):
        server = self.enter(Played(sessions=2))
        done = run(server.path, "/mnt", "--sessions", "4", "--wait", "1")
        self.assertEqual(done.returncode, 1)
        self.assertEqual(done.stderr, "overlayd-fuse: the server answers 2 of 4 sessions: serve "
                         "with more --workers, or mount with fewer --sessions\n")

    def test_a_server_that_turns_away(self):
        """It says that no worker is free, and is gone before or after it is asked."""
        server = self.enter(Played(sessions=2, turns_away=True))
        for _ in range(5):
            server.links.clear()
            done = run(server.path, "/mnt", "--sessions", "4")
            self.assertEqual(done.returncode, 1)
            self.assertEqual(done.stderr, "overlayd-fuse: the server answers 2 of 4 sessions, and "
                             "has no free worker: serve with more --workers, or mount with fewer "
                             "--sessions\n")

    def test_command_lines(self):
        for words in ((), ("s",), ("s", "m", "x"), ("s", "m", "--sessions", "0"),
                      ("s", "m", "--sessions", "65"), ("s", "m", "--wait", "x"),
                      ("s", "m", "--wait", "0"), ("s", "m", "--unknown"), ("s", "m", "--wait"),
                      ("s", "m", "--kernel", "3"), ("s", "m", "--keep", "-1"),
                      ("s", "m", "--sessions", "5", "--max-sessions", "4"),
                      ("s", "m", "--map-uids", "0:1"), ("s", "m", "--map-uids", "0:1:0"),
                      ("s", "m", "--map-uids", "0:1:x"), ("s", "m", "--map-uids", "0:4294967290:9"),
                      ("s", "m", "--map-gids", "0:0:9", "--map-gids", "8:20:1"),
                      ("s", "m", "--map-gids", "0:0:9", "--map-gids", "20:8:1"),
                      ("s", "m", "--map-uids", "0:0:9", "--squash"),
                      ("--manifest", "s"), ("--manifest", "s", "m", "x"),
                      ("--manifest", "", "m"), ("--manifest", "s", "--manifest", "s", "m"),
                      ("--manifest", "s", "m", "--shared"), ("s", "m", "--save", "x"),
                      ("s", "m", "--upper", "x"), ("s", "m", "--size", "4096"),
                      ("--manifest", "s", "m", "--size", "0"), ("s", "m", "-o", "size"),
                      ("--manifest", "s", "m", "--size", "1K"), ("s", "m", "-o", "shared=1"),
                      ("--manifest", "s", "m", "--save", "x", "-o", "save=y"),
                      ("s", "m", "--poll", "1001"), ("s", "m", "-o", "ro,wait=0")):
            done = run(*words)
            self.assertEqual(done.returncode, 2, words)
            self.assertRegex(done.stderr, ONE_LINE)
        done = run("--version")
        self.assertEqual((done.returncode, done.stderr), (0, ""))
        self.assertRegex(done.stdout, r"\Aoverlayd-fuse \d+\.\d+\.\d+\n\Z")
        done = run("--help")
        self.assertEqual((done.returncode, done.stderr), (0, ""))
        self.assertIn("overlayd-fuse SOCKET MOUNTPOINT", done.stdout)


if __name__ == "__main__":
    unittest.main()
