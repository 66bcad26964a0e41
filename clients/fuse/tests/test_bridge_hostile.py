"""What users of a mount could do to each other, and to the bridge: each of these did harm once."""

import errno
import os
import pathlib
import stat
import struct
import subprocess
import time
import unittest

from . import played
from .bridges import ENVIRONMENT, PROGRAM, Bridge, of_sockets
from .kernel import (CAPABLE, OPEN_KILLS, ROOT, SET_CTIME, SET_FH, SET_KILLS, SET_MTIME, SET_SIZE,
                     WRITE_CACHE, WRITE_KILLS, Flag)
from .played import attr, frame, made, refused, texts
from .test_bridge_servers import PlayedCase

NOBODY = 65534
OLD_KERNEL = CAPABLE & ~Flag.HANDLE_KILLPRIV_V2
TOOLS = pathlib.Path(PROGRAM).parent


def asked(body):
    """An op, and the mode where it is one of those that have it."""
    if body[0] in (played.CHMOD, played.MKDIR):
        return body[0], int.from_bytes(body[1:5], "big")
    if body[0] == played.OPEN:
        return body[0], int.from_bytes(body[2:6], "big")
    return body[0], None


class HostileCase(PlayedCase):
    def asked_by(self, call, *words, **named):
        """What the server is asked while a call is made."""
        before = len(self.server.asked)
        call(*words, **named)
        return [asked(body) for body in self.server.asked[before:]]

    def begun(self, flags, *options):
        bridge = Bridge(self.server.path, "--sessions", "1", *options, init=False)
        self.addCleanup(bridge.end)
        bridge.kernel.init(flags=flags)
        return bridge.kernel


class Privileges(HostileCase):
    """Set-user-ID and set-group-ID go before the bytes change."""

    GONE = (played.CHMOD, 0o777)

    def changes(self, kernel, node, fh):
        """Each way to change bytes, by who isn't told to be allowed to keep the bits."""
        yield played.WRITE, lambda: kernel.write(node, fh, 0, b"evil", WRITE_KILLS)
        yield played.TRUNCATE, lambda: kernel.setattr(node, SET_SIZE | SET_FH | SET_KILLS, fh)
        yield played.TRUNCATE, lambda: kernel.setattr(node, SET_SIZE | SET_KILLS)
        yield played.TRUNCATE, lambda: kernel.fallocate(node, fh, 0, 99)
        yield (played.OPEN, played.TRUNCATE), lambda: kernel.open(
            node, os.O_WRONLY | os.O_TRUNC, OPEN_KILLS)

    def check(self, flags, *options):
        kernel = self.begun(flags, *options)
        self.server.mode = 0o6777
        for number in range(5):
            node = kernel.lookup(ROOT, f"f{number}").nodeid
            fh = kernel.open(node, os.O_RDWR).fh
            kernel.uid = NOBODY
            op, change = list(self.changes(kernel, node, fh))[number]
            told = self.asked_by(change)
            ops = [one for one, _ in told]
            self.assertIn(self.GONE, told, number)
            first = min(ops.index(one) for one in (op if isinstance(op, tuple) else (op,))
                        if one in ops)
            self.assertLess(told.index(self.GONE), first)
            kernel.uid = 0
            if not options:
                self.assertEqual(kernel.getattr(node).mode & 0o7777, 0o777)
                self.assertIn((2, struct.pack("=Qqq", node, -1, 0)), kernel.told)

    def test_a_kernel_that_tells(self):
        for options in ((), ("--shared",)):
            self.check(CAPABLE, *options)

    def test_a_kernel_that_does_not(self):
        for options in ((), ("--shared",)):
            self.check(OLD_KERNEL, *options)

    def test_an_open_that_empties(self):
        """Of what isn't open yet."""
        for flags in (CAPABLE, OLD_KERNEL):
            kernel = self.begun(flags)
            self.server.mode = 0o4711
            node = kernel.lookup(ROOT, "f").nodeid
            kernel.uid = NOBODY
            told = self.asked_by(kernel.open, node, os.O_WRONLY | os.O_TRUNC, OPEN_KILLS)
            self.assertEqual([op for op, _ in told], [played.CHMOD, played.OPEN, played.DELATTR])
            self.assertEqual(told[0][1], 0o711)

    def test_a_capability_goes_with_what_root_changes(self):
        """Where the kernel doesn't take it: what it doesn't keep, and an open that empties."""
        kernel = self.begun(CAPABLE, "--shared")
        node = kernel.lookup(ROOT, "f").nodeid
        fh = kernel.open(node, os.O_RDWR).fh
        ops = [op for op, _ in self.asked_by(kernel.write, node, fh, 0, b"more")]
        self.assertLess(ops.index(played.DELATTR), ops.index(played.WRITE))
        for options in ((), ("--shared",)):
            kernel = self.begun(CAPABLE, *options)
            node = kernel.lookup(ROOT, "f").nodeid
            for expected in (played.OPEN, played.TRUNCATE if not options else played.OPEN):
                told = self.asked_by(kernel.open, node, os.O_WRONLY | os.O_TRUNC)
                self.assertEqual([op for op, _ in told], [expected, played.DELATTR])

    def test_who_may_keep_them(self):
        """Root, what the kernel writes back, and whom the kernel lets keep them."""
        for flags, uid, how in ((CAPABLE, 0, 0), (OLD_KERNEL, 0, 0), (CAPABLE, NOBODY, 0),
                                (OLD_KERNEL, 0, WRITE_CACHE)):
            kernel = self.begun(flags)
            self.server.mode = 0o6777
            node = kernel.lookup(ROOT, "f").nodeid
            fh = kernel.open(node, os.O_RDWR).fh
            kernel.uid = uid
            told = self.asked_by(kernel.write, node, fh, 0, b"more", how)
            self.assertEqual([op for op, _ in told], [played.WRITE])

    def test_a_change_of_owner_that_leaves_both(self):
        """The kernel asks for nothing then, or for the time; an older one sets the mode itself."""
        for flags, asks, wanted in ((CAPABLE, SET_CTIME, [self.GONE]), (CAPABLE, 0, [self.GONE]),
                                    (OLD_KERNEL, SET_CTIME, []), (CAPABLE, SET_MTIME, [])):
            kernel = self.begun(flags)
            self.server.mode = 0o6777
            node = kernel.lookup(ROOT, "f").nodeid
            self.assertEqual(self.asked_by(kernel.setattr, node, asks), wanted)

    def test_group_bits_without_the_right_to_run(self):
        kernel = self.begun(CAPABLE)
        self.server.mode = 0o2664
        node = kernel.lookup(ROOT, "f").nodeid
        fh = kernel.open(node, os.O_RDWR).fh
        told = self.asked_by(kernel.write, node, fh, 0, b"more", WRITE_KILLS)
        self.assertEqual([op for op, _ in told], [played.WRITE])

    def test_bits_that_cannot_be_taken_refuse_the_write(self):
        kernel = self.begun(CAPABLE)
        self.server.mode = 0o6777
        node = kernel.lookup(ROOT, "f").nodeid
        fh = kernel.open(node, os.O_RDWR).fh
        self.server.lies[played.CHMOD] = refused(28)
        told = self.asked_by(self.refused, errno.ENOSPC, kernel.write, node, fh, 0, b"evil",
                             WRITE_KILLS)
        self.assertEqual([op for op, _ in told], [played.CHMOD])


class Made(HostileCase):
    """What is made for a user is root's alone until it is the user's."""

    MAKES = (
        (lambda kernel: kernel.create(ROOT, "new", mode=0o4755), played.OPEN, 0o4755,
         played.UNLINK),
        (lambda kernel: kernel.mkdir(ROOT, "new", 0o1777), played.MKDIR, 0o1777, played.RMDIR),
        (lambda kernel: kernel.mknod(ROOT, "new", stat.S_IFIFO | 0o666), played.OPEN, 0o666,
         played.UNLINK),
    )

    def test_the_order(self):
        kernel = self.bridge()
        kernel.uid, kernel.gid = 1000, 100
        for make, op, mode, _ in self.MAKES:
            told = self.asked_by(make, kernel)
            self.assertEqual(told[0], (op, mode & 0o700))
            ops = [one for one, _ in told]
            self.assertLess(ops.index(played.CHOWN), told.index((played.CHMOD, mode)))

    def test_what_root_makes_is_whole_at_once(self):
        kernel = self.bridge()
        for make, op, mode, _ in self.MAKES:
            told = self.asked_by(make, kernel)
            self.assertEqual(told[0], (op, mode))
            self.assertNotIn(played.CHOWN, [one for one, _ in told])

    def test_what_cannot_be_given_away_is_removed(self):
        kernel = self.bridge()
        kernel.uid = 1000
        for refusal in (played.CHOWN, played.CHMOD):
            for make, _, _, removal in self.MAKES:
                self.server.lies[refusal] = refused(28)
                told = self.asked_by(self.refused, errno.ENOSPC, make, kernel)
                self.assertIn(removal, [one for one, _ in told])


class Listings(HostileCase):
    """A directory of 10,240 names, of which a listing takes some two megabytes."""

    LISTS = 40

    def setUp(self):
        super().setUp()
        self.left = 0
        self.keep(played.OPEN, self.opened)
        self.keep(played.LIST, self.listed)

    def keep(self, op, answer):
        def lie(session, body):
            self.server.lies[op] = lie
            session.link.sendall(answer(session, body))
            return True
        self.server.lies[op] = lie

    def opened(self, session, body):
        self.left = self.LISTS
        return session.answer(body[0], body[1:])

    def listed(self, session, body):
        self.left -= 1
        return made(texts(*[b"%d-%d" % (self.left, number) for number in range(256)])
                    if self.left >= 0 else texts())

    @staticmethod
    def memory(bridge):
        status = pathlib.Path(f"/proc/{bridge.process.pid}/status").read_text("ascii")
        return int(status.split("VmRSS:")[1].split()[0]) * 1024

    def begun_bridge(self):
        bridge = Bridge(self.server.path, "--sessions", "1")
        self.addCleanup(bridge.end)
        return bridge

    def test_readers_share_one(self):
        bridge = self.begun_bridge()
        kernel = bridge.kernel
        kernel.page(ROOT, kernel.opendir(ROOT).fh, 0, plus=False)
        before = self.memory(bridge)
        for _ in range(60):
            fh = kernel.opendir(ROOT).fh
            self.assertEqual(len(kernel.page(ROOT, fh, 0, plus=False)), 128)
        self.assertLess(self.memory(bridge) - before, 8 << 20)

    def test_all_have_a_bound(self):
        """Each listing is another one, since something was changed before it."""
        kernel = self.begun_bridge().kernel
        kernel.uid = 1000
        with self.assertRaises(OSError) as refusal:
            for _ in range(200):
                kernel.mkdir(ROOT, "d")
                kernel.page(ROOT, kernel.opendir(ROOT).fh, 0, plus=False)
        self.assertEqual(refusal.exception.errno, errno.ENOMEM)
        for uid in (1001, 0):
            kernel.uid = uid
            kernel.mkdir(ROOT, "d")
            self.assertEqual(len(kernel.page(ROOT, kernel.opendir(ROOT).fh, 0, plus=False)), 128)


@of_sockets
class Silence(PlayedCase):
    """A server with --idle ends who is silent, and with a connection all that is open on it."""

    PING = bytes((played.STAT, 0, 1)) + b"x"

    def test_each_connection_is_asked_in_time(self):
        kernel = self.bridge("--keep", "1", sessions=3)
        node = kernel.lookup(ROOT, "f").nodeid
        fh = kernel.open(node).fh
        kernel.release(node, fh)
        time.sleep(4)
        self.assertGreaterEqual(self.server.asked.count(self.PING), 6)
        self.assertTrue(any(body[0] == played.CLOSE for body in self.server.asked))
        self.assertEqual(self.server.accepted, 3)

    def test_nothing_is_asked_where_that_is_not_wanted(self):
        kernel = self.bridge("--keep", "0", sessions=2)
        kernel.lookup(ROOT, "f")
        time.sleep(2)
        self.assertNotIn(self.PING, self.server.asked)


class Clock(PlayedCase):
    def test_a_clock_that_is_set_ends_no_connection(self):
        """It jumps by an hour at each look; a reply of single bytes needs many."""
        preload = TOOLS / "overlayd-fuse-clock.so"
        if not preload.exists():
            self.skipTest(f"no {preload}")
        options = ENVIRONMENT["ASAN_OPTIONS"] + ":verify_asan_link_order=0"
        bridge = Bridge(self.server.path, "--sessions", "1", environment=dict(
            ENVIRONMENT, LD_PRELOAD=str(preload), ASAN_OPTIONS=options))
        self.addCleanup(bridge.end)

        def slow(session, body):
            for byte in session.answer(body[0], body[1:]):
                session.link.sendall(bytes((byte,)))
                time.sleep(0.002)
            return True

        self.server.lies[played.STAT] = slow
        self.assertEqual(bridge.kernel.lookup(ROOT, "f").attr.size, 4)
        self.assertEqual(self.server.accepted, 1)


class Units(unittest.TestCase):
    def test_names(self):
        """Names that collide without a key, and 300,000 levels on a stack of 256 KiB."""
        units = TOOLS / "overlayd-fuse-units"
        if not units.exists():
            self.skipTest(f"no {units}")
        done = subprocess.run(["bash", "-c", f"ulimit -s 256; exec '{units}'"], text=True,
                              capture_output=True, env=ENVIRONMENT, timeout=600, check=False)
        self.assertEqual((done.returncode, done.stdout, done.stderr), (0, "", ""))


class Full(PlayedCase):
    def test_a_full_history_is_told_once(self):
        bridge = Bridge(self.server.path, "--sessions", "1")
        for _ in range(3):
            self.server.lies[played.STAT] = frame(bytes((2, 28)))
            self.refused(errno.ENOSPC, bridge.kernel.lookup, ROOT, "f")
        self.server.lies[played.STAT] = made(attr())
        bridge.kernel.lookup(ROOT, "f")
        told = bridge.end()
        self.assertEqual(told.count("history is full"), 1, told)
        self.assertIn("overlayd-export tells how to keep what was changed", told)
        self.assertIn("--no-history", told)


if __name__ == "__main__":
    unittest.main()
