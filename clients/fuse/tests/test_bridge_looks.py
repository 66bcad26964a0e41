"""What the bridge shows of a mount: look-ups, attributes, links, directories."""

import errno
import os
import stat
import unittest

from .bridges import Bridge, ServerCase, of_sockets
from .kernel import OPEN_CACHE_DIR, ROOT, Flag

TREE = """layer = [{}, { entry = [
{ path = "/d", kind = "dir", mode = 0o2751, uid = 7, gid = 8 },
{ path = "/d/f", kind = "file", mode = 0o640, uid = 5, gid = 6, text = "four" },
{ path = "/d/l", kind = "symlink", target = "../nowhere" },
{ path = "/one", kind = "file", text = "1" },
{ path = "/two", kind = "link", to = "/one" },
] }]"""


class Looks(ServerCase):
    MANIFEST = TREE

    def test_what_is_asked_of_the_kernel(self):
        server = self.served()
        with Bridge(server.path, init=False) as kernel:
            alone = kernel.init()
        with Bridge(server.path, "--shared", init=False) as kernel:
            shared = kernel.init()
        for flag in (Flag.WRITEBACK_CACHE, Flag.CACHE_SYMLINKS):
            self.assertTrue(alone & flag, flag)
            self.assertFalse(shared & flag, flag)
        for wanted in (alone, shared):
            self.assertTrue(wanted & Flag.DO_READDIRPLUS)
            self.assertFalse(wanted & Flag.READDIRPLUS_AUTO)
            self.assertFalse(wanted & Flag.HANDLE_KILLPRIV)

    def test_attributes(self):
        kernel = self.bridge(self.served())
        d, f, link = kernel.walk("/d"), kernel.walk("/d/f"), kernel.walk("/d/l")
        self.assertEqual(d.attr.mode, stat.S_IFDIR | 0o2751)
        self.assertEqual((d.attr.uid, d.attr.gid, d.attr.size, d.attr.nlink), (7, 8, 0, 1))
        self.assertEqual(f.attr.mode, stat.S_IFREG | 0o640)
        self.assertEqual((f.attr.uid, f.attr.gid, f.attr.size, f.attr.nlink), (5, 6, 4, 1))
        self.assertEqual(f.attr.blocks, 1)
        self.assertEqual(link.attr.mode, stat.S_IFLNK | 0o777)
        self.assertEqual((link.attr.size, link.attr.nlink), (len("../nowhere"), 1))
        self.assertEqual(kernel.getattr(ROOT).mode, stat.S_IFDIR | 0o755)
        self.assertEqual(kernel.getattr(f.nodeid), f.attr)
        self.assertEqual(f.attr.ino, f.nodeid)

    def test_a_number_stays_and_is_nobody_elses(self):
        kernel = self.bridge(self.served())
        seen = {path: kernel.walk(path).nodeid for path in ("/d", "/d/f", "/d/l", "/one", "/two")}
        self.assertEqual(len(set(seen.values())), 5)
        self.assertNotIn(ROOT, seen.values())
        for path, number in seen.items():
            self.assertEqual(kernel.walk(path).nodeid, number)

    def test_what_is_not_there(self):
        server = self.served()
        kernel = self.bridge(server)
        nothing = kernel.lookup(ROOT, "nothing")
        self.assertEqual(nothing.nodeid, 0)
        self.assertGreater(nothing.entry_valid, 0)
        shared = self.bridge(server, "--shared")
        self.refused(errno.ENOENT, shared.lookup, ROOT, "nothing")
        self.refused(errno.ENOTDIR, kernel.lookup, kernel.walk("/d/f").nodeid, "x")

    def test_what_the_kernel_may_keep(self):
        server = self.served()
        kernel = self.bridge(server)
        self.assertGreater(kernel.walk("/d/f").attr_valid, 3600)
        self.assertGreater(kernel.walk("/d/f").entry_valid, 3600)
        self.assertEqual(kernel.walk("/one").attr_valid, 0)  # "/two" may change it
        shared = self.bridge(server, "--shared")
        self.assertEqual((shared.walk("/d").attr_valid, shared.walk("/d").entry_valid), (0, 0))

    def test_long_names(self):
        kernel = self.bridge(self.served())
        longest = "n" * 255
        made = kernel.mkdir(ROOT, longest)
        self.assertEqual(kernel.lookup(ROOT, longest).nodeid, made.nodeid)
        self.refused(errno.ENAMETOOLONG, kernel.lookup, ROOT, "n" * 256)
        self.refused(errno.ENAMETOOLONG, kernel.mkdir, ROOT, "n" * 256)
        self.refused(errno.ENAMETOOLONG, kernel.create, ROOT, "n" * 256)
        self.refused(errno.ENAMETOOLONG, kernel.rename, ROOT, longest, ROOT, "n" * 256)

    def test_a_path_has_at_most_4095_bytes(self):
        kernel = self.bridge(self.served())
        node = ROOT
        for _ in range(15):
            node = kernel.mkdir(node, "n" * 255).nodeid
        self.assertEqual(kernel.mkdir(node, "m" * 254).attr.mode, stat.S_IFDIR | 0o755)
        self.refused(errno.ENAMETOOLONG, kernel.mkdir, node, "m" * 255)
        last = kernel.lookup(node, "m" * 254).nodeid
        self.refused(errno.ENAMETOOLONG, kernel.create, last, "f")
        self.assertEqual(len(kernel.listing(node)), 3)

    def test_links(self):
        kernel = self.bridge(self.served())
        self.assertEqual(kernel.readlink(kernel.walk("/d/l").nodeid), b"../nowhere")
        self.refused(errno.EINVAL, kernel.readlink, kernel.walk("/d/f").nodeid)
        made = kernel.symlink(ROOT, "s", "x" * 4095)
        self.assertEqual(kernel.readlink(made.nodeid), b"x" * 4095)
        self.refused(errno.EEXIST, kernel.symlink, ROOT, "s", "y")

    @of_sockets
    def test_numbers_of_the_file_system(self):
        blocks, free, available, _, _, size, longest, fragment = self.bridge(self.served()).statfs()
        self.assertEqual((blocks, available, longest, size), (free, free, 255, fragment))
        self.assertGreater(blocks * size, 1 << 30)

    def test_nodes_and_handles_that_nobody_knows(self):
        kernel = self.bridge(self.served())
        self.refused(errno.ESTALE, kernel.getattr, 99999)
        self.refused(errno.ESTALE, kernel.lookup, 99999, "x")
        self.refused(errno.ESTALE, kernel.opendir, 99999)
        self.refused(errno.EIO, kernel.read, ROOT, 99999, 0, 1)
        self.refused(errno.EBADF, kernel.release, ROOT, 99999)
        kernel.forget(99999)
        kernel.batch_forget(99999, 4711)
        self.assertEqual(kernel.getattr(ROOT).ino, ROOT)


class Directories(ServerCase):
    MANIFEST = TREE

    def test_names_kinds_and_numbers(self):
        kernel = self.bridge(self.served())
        d = kernel.walk("/d").nodeid
        for plus in (True, False):
            found = kernel.listing(d, plus)
            self.assertEqual([one.name for one in found], [b".", b"..", b"f", b"l"])
            self.assertEqual((found[0].ino, found[1].ino), (d, ROOT))
            for one in found[2:]:
                self.assertEqual(one.ino, kernel.lookup(d, one.name).nodeid)
        f, link = kernel.listing(d)[2:]
        self.assertEqual((f.type, link.type), (stat.S_IFREG >> 12, stat.S_IFLNK >> 12))
        self.assertEqual(f.entry.attr, kernel.walk("/d/f").attr)

    def test_an_empty_directory(self):
        kernel = self.bridge(self.served())
        made = kernel.mkdir(ROOT, "e")
        self.assertEqual([one.name for one in kernel.listing(made.nodeid)], [b".", b".."])

    def test_ten_thousand_names(self):
        names = [f"n{number:05}" for number in range(10000)]
        entries = "".join(f'{{ path = "/{name}", kind = "file" }},' for name in names)
        kernel = self.bridge(self.served(f"layer = [{{}}, {{ entry = [{entries}] }}]"))
        found = kernel.listing(ROOT, size=65536)
        self.assertEqual([one.name.decode() for one in found], [".", ".."] + names)
        numbers = {one.ino for one in found[2:]}
        self.assertEqual(len(numbers), 10000)
        self.assertEqual(found[-1].entry.attr.mode, stat.S_IFREG | 0o644)

    def test_pages_of_any_size(self):
        names = ["x" * length for length in range(1, 256)]
        entries = "".join(f'{{ path = "/{name}", kind = "dir" }},' for name in names)
        kernel = self.bridge(self.served(f"layer = [{{}}, {{ entry = [{entries}] }}]"))
        for size in (448, 1000, 4096, 131072):
            found = kernel.listing(ROOT, size=size)
            self.assertEqual([one.name.decode() for one in found], [".", ".."] + names)
        fh = kernel.opendir(ROOT).fh
        self.refused(errno.EINVAL, kernel.page, ROOT, fh, 0, 100)

    def test_a_page_from_any_place(self):
        kernel = self.bridge(self.served())
        fh = kernel.opendir(ROOT).fh
        whole = kernel.page(ROOT, fh, 0)
        self.assertEqual([one.name for one in whole], [b".", b"..", b"d", b"one", b"two"])
        for number, one in enumerate(whole):
            rest = kernel.page(ROOT, fh, one.off)
            self.assertEqual([each.name for each in rest],
                             [each.name for each in whole[number + 1:]])
        self.assertEqual(kernel.page(ROOT, fh, 4711), [])

    def test_what_changes_between_pages(self):
        kernel = self.bridge(self.served())
        fh = kernel.opendir(ROOT).fh
        first = kernel.page(ROOT, fh, 0, size=500)
        self.assertEqual([one.name for one in first], [b".", b"..", b"d"])
        kernel.unlink(ROOT, "one")
        two = kernel.lookup(ROOT, "two").nodeid
        kernel.setattr(two, 1, mode=0o600)
        rest = kernel.page(ROOT, fh, first[-1].off)
        self.assertEqual([one.name for one in rest], [b"two"])
        self.assertEqual(rest[0].entry.attr.mode, stat.S_IFREG | 0o600)
        again = kernel.page(ROOT, fh, 0)
        self.assertEqual([one.name for one in again], [b".", b"..", b"d", b"two"])

    def test_a_removed_directory_that_is_open(self):
        kernel = self.bridge(self.served())
        made = kernel.mkdir(ROOT, "e")
        fh = kernel.opendir(made.nodeid).fh
        kernel.rmdir(ROOT, "e")
        self.assertEqual([one.name for one in kernel.page(made.nodeid, fh, 0)], [b".", b".."])
        self.assertEqual(kernel.getattr(made.nodeid).nlink, 0)

    def test_listings_are_kept_where_nobody_else_changes_them(self):
        server = self.served()
        self.assertTrue(self.bridge(server).opendir(ROOT).flags & OPEN_CACHE_DIR)
        self.assertFalse(self.bridge(server, "--shared").opendir(ROOT).flags)


class Forgetting(ServerCase):
    MANIFEST = TREE

    def test_what_the_kernel_forgets_is_found_again(self):
        kernel = self.bridge(self.served())
        d, f = kernel.walk("/d"), kernel.walk("/d/f")
        kernel.batch_forget(f.nodeid, d.nodeid, d.nodeid)
        self.refused(errno.ESTALE, kernel.getattr, f.nodeid)
        self.assertEqual(kernel.walk("/d/f").attr.size, 4)

    def test_a_directory_stays_as_long_as_what_is_in_it(self):
        kernel = self.bridge(self.served())
        d, f = kernel.walk("/d"), kernel.walk("/d/f")
        kernel.forget(d.nodeid, 2)
        fh = kernel.open(f.nodeid).fh
        self.assertEqual(kernel.read(f.nodeid, fh, 0, 10), b"four")
        kernel.release(f.nodeid, fh)
        kernel.forget(f.nodeid)
        self.refused(errno.ESTALE, kernel.getattr, d.nodeid)

    def test_an_open_file_stays(self):
        kernel = self.bridge(self.served())
        f = kernel.walk("/d/f")
        fh = kernel.open(f.nodeid).fh
        kernel.forget(f.nodeid)
        self.assertEqual(kernel.read(f.nodeid, fh, 1, 2), b"ou")
        kernel.release(f.nodeid, fh)
        self.refused(errno.ESTALE, kernel.getattr, f.nodeid)

    def test_times_that_were_set_stay_though_forgotten(self):
        kernel = self.bridge(self.served())
        f = kernel.walk("/d/f")
        kernel.setattr(f.nodeid, 32, mtime=(1000000000, 5))
        kernel.forget(f.nodeid)
        again = kernel.walk("/d/f")
        self.assertEqual((again.attr.mtime, again.attr.mtimensec), (1000000000, 5))
        self.assertEqual(again.nodeid, f.nodeid)


if __name__ == "__main__":
    unittest.main()
