"""What changes a mount through the bridge: made, removed, moved, modes, owners, times."""

import errno
import os
import stat
import time
import unittest

from .bridges import Bridge, ServerCase
from .kernel import (ROOT, SET_ATIME, SET_CTIME, SET_FH, SET_GID, SET_MODE, SET_MTIME, SET_SIZE,
                     SET_UID)

NOREPLACE, EXCHANGE, WHITEOUT = 1, 2, 4
TREE = """redirect_dir = "on"
layer = [{}, { entry = [
{ path = "/d", kind = "dir" },
{ path = "/d/f", kind = "file", text = "four" },
{ path = "/d/e", kind = "dir" },
{ path = "/g", kind = "dir", mode = 0o2775, gid = 42 },
{ path = "/one", kind = "file", text = "1" },
{ path = "/two", kind = "link", to = "/one" },
] }]"""


class Makes(ServerCase):
    MANIFEST = TREE

    def test_directories_files_and_links_and_their_owners(self):
        server = self.served()
        kernel = self.bridge(server)
        kernel.uid, kernel.gid = 1000, 100
        made = [kernel.mkdir(ROOT, "dir", 0o1750), kernel.create(ROOT, "file", mode=0o4711)[0],
                kernel.symlink(ROOT, "link", "to"),
                kernel.mknod(ROOT, "node", stat.S_IFREG | 0o600)]
        modes = [stat.S_IFDIR | 0o1750, stat.S_IFREG | 0o4711, stat.S_IFLNK | 0o777,
                 stat.S_IFREG | 0o600]
        self.assertEqual([one.attr.mode for one in made], modes)
        self.assertEqual({(one.attr.uid, one.attr.gid) for one in made}, {(1000, 100)})
        client = self.client(server)
        told = client.stat("/file")
        self.assertEqual((told.st_mode, told.st_uid, told.st_gid), (modes[1], 1000, 100))
        for name in ("dir", "file", "link", "node"):
            self.assertEqual(kernel.lookup(ROOT, name).attr.uid, 1000)
            self.refused(errno.EEXIST, kernel.mkdir, ROOT, name)

    def test_the_group_of_a_directory_that_gives_it_on(self):
        server = self.served()
        kernel = self.bridge(server)
        kernel.uid, kernel.gid = 1000, 100
        g = kernel.walk("/g").nodeid
        made = kernel.mkdir(g, "dir", 0o750)
        self.assertEqual((made.attr.mode, made.attr.gid), (stat.S_IFDIR | 0o2750, 42))
        file = kernel.create(g, "file", mode=0o640)[0]
        self.assertEqual((file.attr.mode, file.attr.gid), (stat.S_IFREG | 0o640, 42))
        self.assertEqual(self.client(server).stat("/g/dir").st_gid, 42)

    def test_a_file_that_is_made_alone(self):
        kernel = self.bridge(self.served())
        kernel.create(ROOT, "new", os.O_WRONLY | os.O_EXCL)
        self.refused(errno.EEXIST, kernel.create, ROOT, "new", os.O_WRONLY | os.O_EXCL)

    def test_a_file_that_another_client_made_meanwhile_keeps_its_owner(self):
        server = self.served()
        kernel = self.bridge(server, "--shared")
        kernel.uid, kernel.gid = 1000, 100
        client = self.client(server)
        client.open("/new", os.O_WRONLY | os.O_CREAT, 0o600).write(b"there")
        self.refused(errno.EEXIST, kernel.create, ROOT, "new", os.O_RDWR | os.O_EXCL)
        entry, opened = kernel.create(ROOT, "new", os.O_RDWR, 0o644)
        self.assertEqual((entry.attr.mode, entry.attr.uid), (stat.S_IFREG | 0o600, 0))
        self.assertEqual(kernel.read(entry.nodeid, opened.fh, 0, 10), b"there")
        self.assertEqual(client.stat("/new").st_uid, 0)

    def test_links_are_names_of_one_node(self):
        kernel = self.bridge(self.served())
        f = kernel.walk("/d/f").nodeid
        linked = kernel.link(f, ROOT, "again")
        self.assertEqual((linked.nodeid, linked.attr.nlink), (f, 2))
        self.assertEqual(kernel.walk("/again").nodeid, f)
        kernel.unlink(kernel.walk("/d").nodeid, "f")
        self.assertEqual(kernel.getattr(f).nlink, 1)
        fh = kernel.open(f).fh
        self.assertEqual(kernel.read(f, fh, 0, 9), b"four")
        self.refused(errno.EPERM, kernel.link, kernel.walk("/d").nodeid, ROOT, "dir")
        self.refused(errno.EEXIST, kernel.link, f, ROOT, "one")

    def test_counts_of_links_that_a_layer_has(self):
        kernel = self.bridge(self.served())
        one, two = kernel.walk("/one").nodeid, kernel.walk("/two").nodeid
        self.assertEqual(kernel.getattr(one).nlink, 2)
        kernel.setattr(one, SET_MODE, mode=0o600)  # copied up, it stands alone
        self.assertEqual(kernel.getattr(one).nlink, 1)
        self.assertEqual(kernel.getattr(one).mode, stat.S_IFREG | 0o600)
        self.assertEqual(kernel.getattr(two).mode, stat.S_IFREG | 0o644)

    def test_fifos_sockets_and_devices(self):
        server = self.served()
        kinds = {"p": stat.S_IFIFO, "s": stat.S_IFSOCK, "c": stat.S_IFCHR, "b": stat.S_IFBLK}
        with Bridge(server.path, "--times") as kernel:
            for name, kind in kinds.items():
                made = kernel.mknod(ROOT, name, kind | 0o640, 0x0103)
                self.assertEqual(made.attr.mode, kind | 0o640)
                self.assertEqual(made.attr.rdev, 0x0103 if name in "cb" else 0)
                self.assertEqual(kernel.lookup(ROOT, name).nodeid, made.nodeid)
                self.assertEqual(kernel.listxattr(made.nodeid), [])
        self.assertTrue(stat.S_ISREG(self.client(server).stat("/p").st_mode))
        with Bridge(server.path, "--times") as kernel:
            self.assertTrue(stat.S_ISREG(kernel.lookup(ROOT, "c").attr.mode))
            self.assertTrue(stat.S_ISREG(kernel.lookup(ROOT, "b").attr.mode))
            self.assertTrue(stat.S_ISSOCK(kernel.lookup(ROOT, "s").attr.mode))
        with Bridge(server.path, "--times", "--devices") as kernel:
            found = {one.name.decode(): one.entry.attr for one in kernel.listing(ROOT)
                     if one.name.decode() in kinds}
            for name, kind in kinds.items():
                self.assertEqual(kernel.lookup(ROOT, name).attr.mode, kind | 0o640)
                self.assertEqual(found[name].mode, kind | 0o640)
            self.assertEqual(found["c"].rdev, 0x0103)
        with Bridge(server.path, "--times", "--devices", "--shared") as kernel:
            self.assertTrue(stat.S_ISFIFO(kernel.lookup(ROOT, "p").attr.mode))
            self.assertTrue(stat.S_ISREG(kernel.lookup(ROOT, "c").attr.mode))


class Removes(ServerCase):
    MANIFEST = TREE

    def test_refusals(self):
        kernel = self.bridge(self.served())
        d = kernel.walk("/d").nodeid
        self.refused(errno.ENOTEMPTY, kernel.rmdir, ROOT, "d")
        self.refused(errno.EISDIR, kernel.unlink, ROOT, "d")
        self.refused(errno.ENOTDIR, kernel.rmdir, d, "f")
        self.refused(errno.ENOENT, kernel.unlink, d, "x")

    def test_what_was_removed_is_gone_and_can_be_made_again(self):
        server = self.served()
        kernel = self.bridge(server)
        d, f = kernel.walk("/d").nodeid, kernel.walk("/d/f").nodeid
        kernel.unlink(d, "f")
        self.assertEqual(kernel.lookup(d, "f").nodeid, 0)
        kernel.rmdir(d, "e")
        kernel.rmdir(ROOT, "d")
        self.assertEqual(kernel.lookup(ROOT, "d").nodeid, 0)
        made = kernel.mkdir(ROOT, "d")
        self.assertNotIn(made.nodeid, (d, f))
        self.assertEqual(len(kernel.listing(made.nodeid)), 2)
        self.assertEqual(self.client(server).listdir("/d"), [])

    def test_an_unlinked_file_that_is_open(self):
        kernel = self.bridge(self.served())
        entry, opened = kernel.create(ROOT, "t")
        node, fh = entry.nodeid, opened.fh
        kernel.write(node, fh, 0, b"abcdef")
        kernel.unlink(ROOT, "t")
        self.assertEqual(kernel.getattr(node).nlink, 0)
        kernel.write(node, fh, 6, b"ghi")
        self.assertEqual(kernel.read(node, fh, 4, 10), b"efghi")
        self.assertEqual(kernel.setattr(node, SET_SIZE, size=3).size, 3)
        changed = kernel.setattr(node, SET_MODE | SET_UID | SET_GID, mode=0o400, uid=3, gid=4)
        self.assertEqual((changed.mode, changed.uid, changed.gid), (stat.S_IFREG | 0o400, 3, 4))
        self.assertEqual(kernel.getattr(node, fh).size, 3)
        self.assertEqual(kernel.read(node, fh, 0, 10), b"abc")
        again = kernel.open(node).fh  # as by /proc/self/fd
        self.assertEqual(kernel.read(node, again, 0, 10), b"abc")
        kernel.release(node, again)
        kernel.release(node, fh)
        self.refused(errno.ENOENT, kernel.open, node)


class Moves(ServerCase):
    MANIFEST = TREE

    def test_a_number_goes_along(self):
        kernel = self.bridge(self.served())
        d, f = kernel.walk("/d").nodeid, kernel.walk("/d/f").nodeid
        kernel.rename(ROOT, "d", ROOT, "moved")
        self.assertEqual(kernel.lookup(ROOT, "d").nodeid, 0)
        self.assertEqual(kernel.walk("/moved").nodeid, d)
        self.assertEqual(kernel.walk("/moved/f").nodeid, f)
        fh = kernel.open(f).fh
        self.assertEqual(kernel.read(f, fh, 0, 9), b"four")
        kernel.rename(d, "f", ROOT, "f")
        self.assertEqual(kernel.walk("/f").nodeid, f)
        self.assertEqual([one.name for one in kernel.listing(d)[2:]], [b"e"])

    def test_what_is_replaced_lives_on_where_it_is_open(self):
        kernel = self.bridge(self.served())
        d, f, one = (kernel.walk(path).nodeid for path in ("/d", "/d/f", "/one"))
        fh = kernel.open(f).fh
        kernel.rename(ROOT, "one", d, "f")
        self.assertEqual(kernel.walk("/d/f").nodeid, one)
        self.assertEqual(kernel.read(f, fh, 0, 9), b"four")
        self.assertEqual(kernel.getattr(f).nlink, 0)
        kernel.release(f, fh)

    def test_refusals(self):
        kernel = self.bridge(self.served())
        d, e, g = (kernel.walk(path).nodeid for path in ("/d", "/d/e", "/g"))
        self.refused(errno.EEXIST, kernel.rename, ROOT, "one", d, "f", NOREPLACE)
        self.refused(errno.EINVAL, kernel.rename, ROOT, "one", ROOT, "o", WHITEOUT)
        self.refused(errno.EINVAL, kernel.rename, ROOT, "d", e, "x")
        self.refused(errno.EISDIR, kernel.rename, ROOT, "one", ROOT, "g")
        self.refused(errno.ENOTDIR, kernel.rename, ROOT, "g", ROOT, "one")
        self.refused(errno.ENOTEMPTY, kernel.rename, ROOT, "g", ROOT, "d")
        self.refused(errno.ENOENT, kernel.rename, g, "x", g, "y")
        self.assertEqual(kernel.walk("/one").attr.size, 1)

    def test_a_directory_of_a_lower_layer_without_redirects(self):
        manifest = TREE.replace('redirect_dir = "on"', "")
        kernel = self.bridge(self.served(manifest))
        self.refused(errno.EXDEV, kernel.rename, ROOT, "d", ROOT, "moved")
        self.assertEqual(kernel.walk("/d/f").attr.size, 4)

    def test_noreplace_and_exchange(self):
        server = self.served()
        kernel = self.bridge(server)
        d, f, one, g = (kernel.walk(path).nodeid for path in ("/d", "/d/f", "/one", "/g"))
        kernel.rename(ROOT, "one", d, "new", NOREPLACE)
        self.assertEqual(kernel.walk("/d/new").nodeid, one)
        kernel.rename(d, "new", d, "f", EXCHANGE)
        self.assertEqual((kernel.walk("/d/new").nodeid, kernel.walk("/d/f").nodeid), (f, one))
        kernel.rename(ROOT, "d", ROOT, "g", EXCHANGE)
        self.assertEqual((kernel.walk("/g").nodeid, kernel.walk("/d").nodeid), (d, g))
        self.assertEqual(kernel.walk("/g/new").nodeid, f)
        client = self.client(server)
        self.assertEqual(client.listdir("/"), ["d", "g", "two"])
        self.assertEqual(client.listdir("/g"), ["e", "f", "new"])
        self.refused(errno.ENOENT, kernel.rename, ROOT, "g", ROOT, "no", EXCHANGE)

    def test_a_rename_between_two_names_of_one_file(self):
        server = self.served()
        kernel = self.bridge(server)
        f = kernel.walk("/d/f").nodeid
        kernel.link(f, ROOT, "again")
        kernel.rename(kernel.walk("/d").nodeid, "f", ROOT, "again")
        self.assertEqual((kernel.walk("/d/f").nodeid, kernel.walk("/again").nodeid), (f, f))
        self.assertEqual(self.client(server).stat("/d/f").st_nlink, 2)


class Sets(ServerCase):
    MANIFEST = TREE

    def test_modes_and_owners(self):
        server = self.served()
        kernel = self.bridge(server)
        f = kernel.walk("/d/f").nodeid
        self.assertEqual(kernel.setattr(f, SET_MODE, mode=stat.S_IFREG | 0o6755).mode,
                         stat.S_IFREG | 0o6755)
        changed = kernel.setattr(f, SET_UID, uid=11)
        self.assertEqual((changed.uid, changed.gid), (11, 0))
        self.assertEqual(changed.mode, stat.S_IFREG | 0o755)  # as chown(2) of Linux takes them
        kernel.setattr(f, SET_MODE, mode=0o2745)
        changed = kernel.setattr(f, SET_GID, gid=12)
        self.assertEqual((changed.uid, changed.gid), (11, 12))
        self.assertEqual(kernel.getattr(f), changed)
        told = self.client(server).stat("/d/f")
        self.assertEqual((told.st_mode, told.st_uid, told.st_gid),
                         (stat.S_IFREG | 0o2745, 11, 12))

    def test_the_owner_of_a_link(self):
        kernel = self.bridge(self.served())
        link = kernel.symlink(ROOT, "l", "x").nodeid
        kernel.setattr(link, SET_UID | SET_GID, uid=7, gid=8)
        found = kernel.lookup(ROOT, "l").attr
        self.assertEqual((found.uid, found.gid), (7, 8))
        self.refused(errno.EOPNOTSUPP, kernel.setattr, link, SET_MODE, mode=0o600)

    def test_sizes(self):
        server = self.served()
        kernel = self.bridge(server)
        f = kernel.walk("/d/f").nodeid
        self.assertEqual(kernel.setattr(f, SET_SIZE, size=2).size, 2)
        fh = kernel.open(f, os.O_RDWR).fh
        self.assertEqual(kernel.setattr(f, SET_SIZE | SET_FH, fh, size=6).size, 6)
        self.assertEqual(kernel.read(f, fh, 0, 9), b"fo\0\0\0\0")
        self.refused(errno.EFBIG, kernel.setattr, f, SET_SIZE, size=1048577)
        self.assertEqual(kernel.setattr(f, SET_SIZE, size=1048576).size, 1048576)
        self.assertEqual(self.client(server).stat("/d/f").st_size, 1048576)

    def test_times(self):
        server = self.served()
        with Bridge(server.path) as kernel:
            f = kernel.walk("/d/f").nodeid
            before = kernel.getattr(f)
            changed = kernel.setattr(f, SET_ATIME | SET_MTIME | SET_CTIME, atime=(1, 2),
                                     mtime=(3, 4), ctime=(5, 6))
            self.assertEqual(changed[3:9], (1, 3, 5, 2, 4, 6))
            self.assertEqual(kernel.getattr(f), changed)
        with Bridge(server.path) as kernel:
            self.assertGreaterEqual(kernel.walk("/d/f").attr.mtime, before.mtime)

    def test_times_that_outlive_the_bridge(self):
        server = self.served()
        with Bridge(server.path, "--times") as kernel:
            f = kernel.walk("/d/f").nodeid
            kernel.setattr(f, SET_ATIME | SET_MTIME | SET_CTIME, atime=(-1, 2), mtime=(3, 4),
                           ctime=(5, 6))
            made = kernel.mkdir(ROOT, "made").attr
        with Bridge(server.path, "--times") as kernel:
            f = kernel.walk("/d/f")
            self.assertEqual(f.attr[3:9], (-1, 3, 5, 2, 4, 6))
            self.assertEqual(kernel.walk("/made").attr[3:9], made[3:9])
            listed = {one.name: one.entry.attr for one in kernel.listing(ROOT)}
            self.assertEqual(listed[b"made"][3:9], made[3:9])

    def test_times_of_what_was_never_changed(self):
        """They are those of all bridges that keep times, and else those of the mount."""
        server = self.served()
        for options, wanted in ((("--times",), 315532800), ((), None)):
            with Bridge(server.path, *options) as kernel:
                found = kernel.walk("/d/f").attr
                self.assertEqual(found.mtime, found.ctime)
                self.assertEqual(found.mtime, found.atime)
                if wanted:
                    self.assertEqual((found.mtime, found.mtimensec), (wanted, 0))
                else:
                    self.assertAlmostEqual(found.mtime, time.time(), delta=3600)

    def test_times_of_what_is_written_and_unlinked(self):
        server = self.served()
        for options in (("--times",), ("--times", "--shared")):
            with Bridge(server.path, *options) as kernel:
                d, f = kernel.walk("/d").nodeid, kernel.walk("/d/f").nodeid
                kernel.setattr(f, SET_MTIME | SET_CTIME, mtime=(7, 0), ctime=(7, 0))
                kernel.link(f, d, "g")
                fh = kernel.open(f, os.O_WRONLY).fh
                kernel.write(f, fh, 0, b"x")
                kernel.release(f, fh)
                kernel.unlink(d, "g")
                written = kernel.getattr(f)
                self.assertGreater(written.mtime, 7)
            with Bridge(server.path, *options) as kernel:
                self.assertEqual(kernel.walk("/d/f").attr[3:9], written[3:9])

    def test_times_that_are_no_times(self):
        server = self.served()
        client = self.client(server)
        time = b"1.000000000"
        times = b" ".join([time] * 3)
        for told in (b"", b"1 ", b"2 - 0 1.0 1.0 1.0", b"1 - 0 1.0 1.0", b"1 p 0 1.0 1.0 x",
                     b"2 - 0 " + times, b"1 x 0 " + times, b"1 -  0 " + times, b"1\t- 0 " + times,
                     b"1 - -1 " + times, b"1 - 18446744073709551616 " + times, b"1 - " + times,
                     b"1 - 0 " + times + b" ", b"1 - 0 " + times + b"\0", b"1 - 0  " + times,
                     b"1 - 0 1.5 1.5 1.5", b"1 - 0 +" + times, b"1 - 0 " + time + b" " + time,
                     b"1 - " + b"9" * 300):
            client.setxattr("/d/f", "user.overlayd.meta", told)
            with Bridge(server.path, "--times") as kernel:
                found = kernel.walk("/d/f").attr
                self.assertTrue(stat.S_ISREG(found.mode), told)
                self.assertGreater(found.mtime, 1, told)

    def test_what_changes_a_directory_changes_its_times(self):
        kernel = self.bridge(self.served())
        d = kernel.walk("/d").nodeid
        for change in (lambda: kernel.create(d, "n"), lambda: kernel.mkdir(d, "m"),
                       lambda: kernel.unlink(d, "n"), lambda: kernel.rmdir(d, "m"),
                       lambda: kernel.rename(d, "f", d, "h")):
            kernel.setattr(d, SET_MTIME | SET_CTIME, mtime=(1, 0), ctime=(1, 0))
            change()
            after = kernel.getattr(d)
            self.assertGreater(after.mtime, 1)
            self.assertGreater(after.ctime, 1)


class WithoutAnUpper(ServerCase):
    """Where nothing can be changed: EROFS, and what is open stays open."""

    MANIFEST = "upper = false\n" + TREE

    def test_what_would_change_something(self):
        server = self.served()
        kernel = self.bridge(server, "--sessions", "1")
        d, f, one, _ = (kernel.walk(path).nodeid for path in ("/d", "/d/f", "/one", "/two"))
        fh = kernel.open(f).fh
        changes = ((kernel.mkdir, ROOT, "new"), (kernel.symlink, ROOT, "new", "x"),
                   (kernel.create, ROOT, "new"), (kernel.mknod, ROOT, "new", stat.S_IFREG),
                   (kernel.link, f, ROOT, "new"), (kernel.rename, ROOT, "one", ROOT, "new"),
                   (kernel.unlink, d, "f"), (kernel.rmdir, d, "e"), (kernel.open, f, os.O_RDWR),
                   (kernel.open, f, os.O_WRONLY | os.O_TRUNC), (kernel.setattr, f, SET_SIZE),
                   (kernel.setattr, f, SET_MODE), (kernel.setattr, f, SET_UID, 0, 0),
                   (kernel.setxattr, f, "user.a", b"x"), (kernel.rename, ROOT, "one", ROOT, "two",
                                                          EXCHANGE))
        for call, *words in changes:
            with self.subTest(call.__name__):
                self.refused(errno.EROFS, call, *words)
        self.refused(errno.EEXIST, kernel.mkdir, ROOT, "d")
        self.refused(errno.ENOENT, kernel.unlink, ROOT, "nothing")
        self.assertEqual(kernel.read(f, fh, 0, 9), b"four")
        self.assertEqual(kernel.walk("/one").nodeid, one)
        self.assertEqual([entry.name for entry in kernel.listing(ROOT)][2:],
                         [b"d", b"g", b"one", b"two"])


if __name__ == "__main__":
    unittest.main()
