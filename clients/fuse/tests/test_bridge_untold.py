"""Opens that the kernel needn't tell: what it asks by the node alone. In the bridge's own process
only, so that each of these has the kernel that can do without them."""

import errno
import os
import unittest

from .bridges import INSIDE, Bridge, ServerCase
from .kernel import CAPABLE, ROOT, SET_MODE, SET_SIZE, WRITE_CACHE, Flag

NO_OPENS = 1 << 17
MANIFEST = """layer = [{ entry = [{ path = "/up", kind = "file", text = "upper" }] },
 { entry = [
  { path = "/f", kind = "file", mode = 0o640, uid = 5, text = "0123456789",
    attrs = [["user.a", "one"]] },
  { path = "/g", kind = "file", text = "other" },
  { path = "/d", kind = "dir" },
 ] }]"""


@unittest.skipUnless(INSIDE, "opens are told where a server is asked")
class Untold(ServerCase):
    MANIFEST = MANIFEST

    def setUp(self):
        super().setUp()
        self.server = self.served()
        self.beside = self.client(self.server)
        self.kernel = self.begun()

    def begun(self, *options):
        bridge = Bridge(self.server.path, *options, init=False)
        self.addCleanup(bridge.end)
        self.wanted = bridge.kernel.init(flags=CAPABLE | NO_OPENS)
        return bridge.kernel

    def node(self, path):
        return self.kernel.walk(path).nodeid

    def test_what_the_kernel_is_told(self):
        self.assertFalse(self.wanted & Flag.ATOMIC_O_TRUNC)
        self.refused(errno.ENOSYS, self.kernel.open, self.node("/f"))
        folder = self.kernel.opendir(ROOT).fh
        self.assertNotEqual(folder, 0)
        self.kernel.release(self.node("/f"), 0)
        self.assertEqual(len(self.kernel.page(ROOT, folder, 0)), 6)

    def test_a_mount_without_an_upper_tells_opens(self):
        """Only so can one for writing be refused."""
        self.server = self.served("upper = false\n" + MANIFEST)
        self.kernel = self.begun()
        self.assertEqual(self.kernel.read(self.node("/g"), self.kernel.open(self.node("/g")).fh, 0,
                                          9), b"other")
        self.refused(errno.EROFS, self.kernel.open, self.node("/g"), os.O_RDWR)

    def test_bytes_by_the_node(self):
        node = self.node("/f")
        self.assertEqual(self.kernel.read(node, 0, 2, 3), b"234")
        self.assertEqual(self.beside.stat("/f").st_mode & 0o777, 0o640)
        self.assertEqual(self.kernel.write(node, 0, 8, b"abcd", WRITE_CACHE), 4)
        self.assertEqual(self.kernel.read(node, 0, 0, 99), b"01234567abcd")
        self.assertEqual(self.kernel.getattr(node, 0).size, 12)
        self.assertEqual(self.beside.open("/f").read(), b"01234567abcd")

    def test_cuts(self):
        node = self.node("/f")
        self.assertEqual(self.kernel.read(node, 0, 0, 99), b"0123456789")
        for size, left in ((4, b"0123"), (6, b"0123\0\0"), (0, b""), (2, b"\0\0")):
            self.assertEqual(self.kernel.setattr(node, SET_SIZE, size=size).size, size)
            self.assertEqual(self.kernel.read(node, 0, 0, 99), left)
            self.assertEqual(self.beside.open("/f").read(), left)
        self.kernel.fallocate(node, 0, 0, 5)
        self.assertEqual(self.kernel.read(node, 0, 0, 99), bytes(5))

    def test_what_is_made_needs_no_handle(self):
        entry, opened = self.kernel.create(ROOT, "new", os.O_WRONLY)
        self.assertEqual(opened.fh, 0)
        self.assertEqual(self.kernel.write(entry.nodeid, 0, 0, b"new"), 3)
        self.kernel.unlink(ROOT, "new")
        self.assertEqual(self.kernel.read(entry.nodeid, 0, 0, 9), b"new")
        self.assertEqual(self.kernel.write(entry.nodeid, 0, 3, b"er"), 2)
        self.assertEqual(self.kernel.read(entry.nodeid, 0, 0, 9), b"newer")
        self.assertEqual(self.kernel.getattr(entry.nodeid).nlink, 0)
        self.kernel.forget(entry.nodeid)
        self.assertEqual(self.kernel.lookup(ROOT, "new").nodeid, 0)

    def test_a_file_of_a_lower_layer_that_is_gone(self):
        """It may be open, also for writing: what is written then is a copy's, which nobody sees."""
        node = self.node("/f")
        self.kernel.unlink(ROOT, "f")
        self.assertEqual(self.kernel.read(node, 0, 0, 99), b"0123456789")
        self.assertEqual(self.kernel.getxattr(node, "user.a"), b"one")
        self.assertEqual(self.kernel.write(node, 0, 3, b"xyz"), 3)
        self.assertEqual(self.kernel.read(node, 0, 0, 99), b"012xyz6789")
        self.assertEqual(self.kernel.setattr(node, SET_SIZE, size=5).size, 5)
        self.assertEqual(self.kernel.read(node, 0, 0, 99), b"012xy")
        self.assertEqual(self.kernel.setattr(node, SET_MODE, mode=0o600).mode & 0o777, 0o600)
        self.assertEqual(sorted(self.beside.listdir("/")), ["d", "g", "up"])
        self.kernel.forget(node)
        self.assertEqual(sorted(self.beside.listdir("/")), ["d", "g", "up"])

    def test_a_file_that_another_takes_the_place_of(self):
        for name, text in (("g", b"other"), ("up", b"upper")):
            entry, _ = self.kernel.create(ROOT, "new")
            self.kernel.write(entry.nodeid, 0, 0, b"new")
            node = self.node("/" + name)
            self.kernel.rename(ROOT, "new", ROOT, name)
            self.assertEqual(self.kernel.read(node, 0, 0, 9), text)
            self.assertEqual(self.kernel.write(node, 0, 0, b"O"), 1)
            self.assertEqual(self.kernel.read(node, 0, 0, 9), b"O" + text[1:])
            self.assertEqual(self.kernel.read(entry.nodeid, 0, 0, 9), b"new")
            self.assertEqual(self.beside.open("/" + name).read(), b"new")

    def test_who_reads_sees_what_was_copied_up(self):
        node = self.node("/f")
        self.assertEqual(self.kernel.read(node, 0, 0, 3), b"012")
        self.kernel.setattr(node, SET_MODE, mode=0o600)
        self.assertEqual(self.kernel.read(node, 0, 3, 3), b"345")
        self.kernel.write(node, 0, 4, b"X", WRITE_CACHE)
        self.assertEqual(self.kernel.read(node, 0, 3, 3), b"3X5")

    def test_more_files_than_are_kept_open(self):
        """Among them some that have lost their names, which aren't let go."""
        nodes = []
        for number in range(1200):
            entry, _ = self.kernel.create(ROOT, str(number))
            self.kernel.write(entry.nodeid, 0, 0, b"%d" % number)
            nodes.append(entry.nodeid)
            if number % 100 == 0:
                self.kernel.unlink(ROOT, str(number))
        for number, node in enumerate(nodes):
            self.assertEqual(self.kernel.read(node, 0, 0, 9), b"%d" % number)
        for number, node in enumerate(nodes):
            if number % 100:
                self.kernel.unlink(ROOT, str(number))
            self.assertEqual(self.kernel.read(node, 0, 0, 9), b"%d" % number)
            self.kernel.forget(node)
        self.assertEqual(len(self.kernel.listing(ROOT)), 6)


if __name__ == "__main__":
    unittest.main()
