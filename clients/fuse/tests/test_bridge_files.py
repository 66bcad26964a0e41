"""Files through the bridge: reading, writing, and many of them open."""

import errno
import os
import unittest

from .bridges import Bridge, ServerCase
from .kernel import OPEN_DIRECT, OPEN_KEEP_CACHE, ROOT, SET_MODE, SET_SIZE, WRITE_CACHE

LIMIT = 1048576
TREE = """layer = [{}, { entry = [
{ path = "/f", kind = "file", text = "0123456789" },
{ path = "/z", kind = "file", zeros = 1048576 },
] }]"""
METACOPY = """redirect_dir = "on"
metacopy = "on"
"""


def pattern(count):
    """Bytes of which no two pieces are alike."""
    return b"".join(number.to_bytes(4, "big") for number in range((count + 3) // 4))[:count]


class Files(ServerCase):
    MANIFEST = TREE

    def test_reads_at_any_place(self):
        kernel = self.bridge(self.served())
        f = kernel.walk("/f").nodeid
        for _ in range(2):
            fh = kernel.open(f).fh
            for place, size, wanted in ((0, 4, b"0123"), (2, 3, b"234"), (0, 99, b"0123456789"),
                                        (8, 99, b"89"), (10, 5, b""), (4711, 5, b""), (1, 0, b"")):
                self.assertEqual(kernel.read(f, fh, place, size), wanted)
            kernel.release(f, fh)

    def test_writes_at_any_place(self):
        server = self.served()
        kernel = self.bridge(server)
        f = kernel.walk("/f").nodeid
        fh = kernel.open(f, os.O_RDWR).fh
        self.assertEqual(kernel.write(f, fh, 3, b"abc"), 3)
        self.assertEqual(kernel.write(f, fh, 6, b"d"), 1)
        self.assertEqual(kernel.write(f, fh, 12, b"xy"), 2)
        self.assertEqual(kernel.read(f, fh, 0, 99), b"012abcd789\0\0xy")
        self.assertEqual(kernel.getattr(f).size, 14)
        with self.client(server).open("/f") as other:
            self.assertEqual(other.read(), b"012abcd789\0\0xy")

    def test_a_whole_file_in_pieces(self):
        server = self.served()
        kernel = self.bridge(server)
        entry, opened = kernel.create(ROOT, "n")
        data = pattern(LIMIT)
        for at in range(0, LIMIT, 131072):
            self.assertEqual(kernel.write(entry.nodeid, opened.fh, at, data[at:at + 131072]),
                             131072)
        again = b"".join(kernel.read(entry.nodeid, opened.fh, at, 131072)
                         for at in range(0, LIMIT, 131072))
        self.assertEqual(again, data)
        self.assertEqual(kernel.read(entry.nodeid, opened.fh, 65535, 65538),
                         data[65535:65535 + 65538])
        with self.client(server).open("/n") as other:
            self.assertEqual(other.read(), data)

    def test_what_goes_beyond_the_limit(self):
        kernel = self.bridge(self.served())
        z = kernel.walk("/z").nodeid
        fh = kernel.open(z, os.O_RDWR).fh
        self.refused(errno.EFBIG, kernel.write, z, fh, LIMIT, b"x")
        self.assertEqual(kernel.write(z, fh, LIMIT - 3, b"abcdef"), 3)
        self.refused(errno.EFBIG, kernel.write, z, fh, LIMIT - 3, b"abcdef", WRITE_CACHE)
        self.assertEqual(kernel.write(z, fh, LIMIT - 70000, bytes(131072)), 70000)
        self.assertEqual(kernel.read(z, fh, LIMIT - 3, 9), bytes(3))
        self.assertEqual(kernel.write(z, fh, 0, b""), 0)
        self.assertEqual(kernel.getattr(z).size, LIMIT)

    def test_a_file_that_is_emptied_as_it_is_opened(self):
        kernel = self.bridge(self.served())
        f = kernel.walk("/f").nodeid
        fh = kernel.open(f, os.O_WRONLY | os.O_TRUNC).fh
        self.assertEqual(kernel.getattr(f).size, 0)
        self.assertEqual(kernel.read(f, fh, 0, 9), b"")  # the cache reads what it writes
        z = kernel.walk("/z").nodeid
        kernel.open(z, os.O_RDONLY | os.O_TRUNC)
        self.assertEqual(kernel.getattr(z).size, 0)

    def test_who_reads_sees_what_is_written_later(self):
        kernel = self.bridge(self.served())
        f = kernel.walk("/f").nodeid
        readers = [kernel.open(f).fh for _ in range(3)]
        self.assertEqual(kernel.read(f, readers[0], 0, 99), b"0123456789")
        writer = kernel.open(f, os.O_WRONLY).fh
        kernel.write(f, writer, 0, b"new")
        kernel.unlink(ROOT, "f")
        for reader in readers:
            self.assertEqual(kernel.read(f, reader, 0, 99), b"new3456789")

    def test_who_reads_sees_it_after_a_chmod_too(self):
        kernel = self.bridge(self.served())
        f = kernel.walk("/f").nodeid
        reader = kernel.open(f).fh
        kernel.setattr(f, SET_MODE, mode=0o600)
        writer = kernel.open(f, os.O_WRONLY).fh
        kernel.write(f, writer, 0, b"new")
        self.assertEqual(kernel.read(f, reader, 0, 99), b"new3456789")

    def test_what_was_read_ahead_is_not_shown_once_it_changed(self):
        kernel = self.bridge(self.served())
        entry, opened = kernel.create(ROOT, "n")
        kernel.write(entry.nodeid, opened.fh, 0, b"before")
        reader = kernel.open(entry.nodeid).fh
        kernel.write(entry.nodeid, opened.fh, 0, b"behind")
        self.assertEqual(kernel.read(entry.nodeid, reader, 0, 99), b"behind")

    def test_a_page_of_a_mapping_goes_to_its_place(self):
        kernel = self.bridge(self.served())
        entry, opened = kernel.create(ROOT, "n", os.O_WRONLY | os.O_APPEND)
        kernel.write(entry.nodeid, opened.fh, 0, b"abcdef")
        kernel.write(entry.nodeid, opened.fh, 1, b"XY", WRITE_CACHE)
        self.assertEqual(kernel.read(entry.nodeid, opened.fh, 0, 99), b"aXYdef")

    def test_what_the_kernel_keeps_of_files(self):
        server = self.served()
        kernel, shared = self.bridge(server), self.bridge(server, "--shared")
        self.assertEqual(kernel.open(kernel.walk("/f").nodeid).flags, OPEN_KEEP_CACHE)
        self.assertEqual(shared.open(shared.walk("/f").nodeid).flags, OPEN_DIRECT)
        self.assertEqual(shared.create(ROOT, "n")[1].flags, OPEN_DIRECT)

    def test_fallocate(self):
        kernel = self.bridge(self.served())
        f = kernel.walk("/f").nodeid
        fh = kernel.open(f, os.O_RDWR).fh
        kernel.fallocate(f, fh, 5, 10)
        self.assertEqual(kernel.read(f, fh, 0, 99), b"0123456789" + bytes(5))
        kernel.fallocate(f, fh, 0, 3)
        self.assertEqual(kernel.getattr(f).size, 15)
        kernel.fallocate(f, fh, 0, 100, 1)  # keeps the size
        self.assertEqual(kernel.getattr(f).size, 15)
        self.refused(errno.EOPNOTSUPP, kernel.fallocate, f, fh, 0, 3, 3)  # a hole
        self.refused(errno.EFBIG, kernel.fallocate, f, fh, 0, LIMIT + 1)


class LargerFiles(ServerCase):
    """Where the manifest lets files grow further."""

    MOST = 3000000
    MANIFEST = """file_limit = 3000000
layer = [{}, { entry = [{ path = "/z", kind = "file", zeros = 2500000 }] }]"""

    def test_up_to_the_limit_and_not_beyond(self):
        server = self.served()
        kernel = self.bridge(server)
        entry, opened = kernel.create(ROOT, "n")
        n, fh = entry.nodeid, opened.fh
        self.assertEqual(kernel.write(n, fh, self.MOST - 5, b"abcdefgh"), 5)
        self.refused(errno.EFBIG, kernel.write, n, fh, self.MOST, b"x")
        self.refused(errno.EFBIG, kernel.write, n, fh, self.MOST - 5, b"abcdefgh", WRITE_CACHE)
        self.assertEqual(kernel.read(n, fh, self.MOST - 7, 99), b"\0\0abcde")
        self.refused(errno.EFBIG, kernel.setattr, n, SET_SIZE, size=self.MOST + 1)
        self.refused(errno.EFBIG, kernel.fallocate, n, fh, 0, self.MOST + 1)
        self.assertEqual(kernel.setattr(n, SET_SIZE, size=LIMIT + 1).size, LIMIT + 1)
        self.assertEqual(self.client(server).stat("/n").st_size, LIMIT + 1)

    def test_a_file_of_a_lower_layer(self):
        kernel = self.bridge(self.served())
        entry = kernel.walk("/z")
        self.assertEqual(entry.attr.size, 2500000)
        z, reader = entry.nodeid, kernel.open(entry.nodeid).fh
        self.assertEqual(kernel.read(z, reader, 2499999, 99), b"\0")
        writer = kernel.open(z, os.O_WRONLY).fh
        self.assertEqual(kernel.write(z, writer, 2000000, b"new"), 3)
        self.assertEqual(kernel.read(z, reader, 1999999, 5), b"\0new\0")
        self.assertEqual(kernel.getattr(z).size, 2500000)


class ManyFiles(ServerCase):
    MANIFEST = TREE

    def test_a_thousand_open_files(self):
        kernel = self.bridge(self.served(), "--sessions", "16")
        opened = []
        for number in range(1000):
            entry, file = kernel.create(ROOT, f"n{number}")
            kernel.write(entry.nodeid, file.fh, 0, b"%d" % number)
            opened.append((entry.nodeid, file.fh))
        for number, (node, fh) in enumerate(opened):
            self.assertEqual(kernel.read(node, fh, 0, 9), b"%d" % number)
        for node, fh in opened:
            kernel.release(node, fh)
        self.assertEqual(len(kernel.listing(ROOT)), 2 + 2 + 1000)

    def test_more_than_the_sessions_hold(self):
        """One descriptor of each session is kept back, so that all else goes on."""
        kernel = self.bridge(self.served(), "--sessions", "2", "--max-sessions", "2")
        f = kernel.walk("/f").nodeid
        reader = kernel.open(f).fh
        opened = []
        for number in range(125):
            entry, file = kernel.create(ROOT, f"n{number}")
            opened.append((entry.nodeid, file.fh))
        z = kernel.walk("/z").nodeid
        self.refused(errno.ENFILE, kernel.open, z)
        self.refused(errno.ENFILE, kernel.create, ROOT, "n")
        self.assertEqual(kernel.lookup(ROOT, "n").nodeid, 0)
        self.assertEqual(len(kernel.listing(ROOT)), 2 + 2 + 125)
        self.assertEqual(kernel.setattr(z, SET_SIZE, size=5).size, 5)
        kernel.setattr(f, SET_MODE, mode=0o600)  # copied up, it is opened anew
        self.assertEqual(kernel.read(f, reader, 0, 99), b"0123456789")
        kernel.mknod(ROOT, "p", 0o010600)
        kernel.release(*opened.pop())
        self.assertEqual(kernel.read(z, kernel.open(z).fh, 0, 99), bytes(5))

    def test_handles_on_a_file_share_a_descriptor(self):
        server = self.served()
        kernel = self.bridge(server, "--sessions", "1", "--max-sessions", "1")
        f = kernel.walk("/f").nodeid
        readers = [kernel.open(f).fh for _ in range(500)]
        writers = [kernel.open(f, os.O_RDWR).fh for _ in range(500)]
        self.assertEqual(kernel.write(f, writers[7], 2, b"new"), 3)
        for fh in (readers + writers)[::99]:
            self.assertEqual(kernel.read(f, fh, 0, 99), b"01new56789")
        for fh in readers + writers[1:]:
            kernel.release(f, fh)
        self.assertEqual(kernel.write(f, writers[0], 0, b"X"), 1)
        emptied = kernel.open(f, os.O_WRONLY | os.O_TRUNC).fh
        self.assertEqual(kernel.read(f, writers[0], 0, 99), b"")
        kernel.write(f, emptied, 0, b"end")
        self.assertEqual(self.client(server).open("/f").read(), b"end")

    def test_further_sessions_are_made_as_they_are_needed(self):
        """Ten thousand handles, on more files than the first session holds."""
        server = self.served()
        kernel = self.bridge(server, "--sessions", "1", "--max-sessions", "8")
        opened = []
        for number in range(400):
            entry, file = kernel.create(ROOT, f"n{number}")
            kernel.write(entry.nodeid, file.fh, 0, b"%d" % number)
            opened += [(entry.nodeid, file.fh)] + [(entry.nodeid, kernel.open(entry.nodeid).fh)
                                                   for _ in range(24)]
        self.assertEqual(len(opened), 10000)
        for at in range(0, 10000, 625):
            self.assertEqual(kernel.read(*opened[at], 0, 9), b"%d" % (at // 25))
        for node, fh in opened:
            kernel.release(node, fh)

    def test_one_user_has_three_quarters(self):
        """Who opens all that he can stops nobody else."""
        kernel = self.bridge(self.served(), "--sessions", "2", "--max-sessions", "2")
        kernel.uid = 1000
        for number in range(94):
            kernel.create(ROOT, f"n{number}")
        self.refused(errno.ENFILE, kernel.create, ROOT, "n")
        f = kernel.walk("/f").nodeid
        self.refused(errno.ENFILE, kernel.open, f)
        kernel.uid = 1001
        self.assertEqual(kernel.read(f, kernel.open(f).fh, 0, 3), b"012")
        self.assertEqual(len(kernel.listing(ROOT)), 2 + 2 + 94)
        kernel.uid = 0
        opened = [kernel.create(ROOT, f"root{number}") for number in range(31)]
        self.assertEqual(len(opened), 31)

    def test_handles_of_directories_need_no_descriptor(self):
        kernel = self.bridge(self.served(), "--sessions", "1")
        opened = [kernel.opendir(ROOT).fh for _ in range(200)]
        for fh in opened:
            self.assertEqual(len(kernel.page(ROOT, fh, 0)), 4)
            kernel.releasedir(ROOT, fh)


class Shared(ServerCase):
    MANIFEST = TREE

    def test_what_others_do_is_seen(self):
        server = self.served()
        kernel, client = self.bridge(server, "--shared"), self.client(server)
        f = kernel.walk("/f").nodeid
        fh = kernel.open(f, os.O_RDWR).fh
        client.chmod("/f", 0o400)
        with client.open("/f", os.O_WRONLY) as other:
            other.write(b"abc")
        self.assertEqual(kernel.read(f, fh, 0, 99), b"abc3456789")
        self.assertEqual(kernel.getattr(f).mode & 0o7777, 0o400)
        client.rename("/f", "/g")
        self.refused(errno.ENOENT, kernel.lookup, ROOT, "f")
        self.assertEqual(kernel.lookup(ROOT, "g").attr.size, 10)
        self.assertEqual(kernel.getattr(f, fh).size, 10)
        client.mkdir("/f")
        self.assertNotEqual(kernel.lookup(ROOT, "f").nodeid, f)

    def test_who_reads_a_lower_file_keeps_its_bytes_from_others(self):
        server = self.served()
        kernel, client = self.bridge(server, "--shared"), self.client(server)
        f = kernel.walk("/f").nodeid
        reader = kernel.open(f).fh
        with client.open("/f", os.O_WRONLY) as other:
            other.write(b"abc")
        self.assertEqual(kernel.read(f, reader, 0, 99), b"0123456789")
        self.assertEqual(kernel.read(f, kernel.open(f).fh, 0, 99), b"abc3456789")
        writer = kernel.open(f, os.O_WRONLY).fh
        kernel.write(f, writer, 0, b"X")
        self.assertEqual(kernel.read(f, reader, 0, 99), b"Xbc3456789")

    def test_who_reads_a_file_without_bytes_of_its_own_sees_what_is_written(self):
        server = self.served(METACOPY + TREE)
        kernel, client = self.bridge(server, "--shared"), self.client(server)
        f = kernel.walk("/f").nodeid
        kernel.setattr(f, SET_MODE, mode=0o600)
        reader = kernel.open(f).fh
        writer = kernel.open(f, os.O_WRONLY).fh
        kernel.write(f, writer, 0, b"abc")
        self.assertEqual(kernel.read(f, reader, 0, 99), b"abc3456789")
        kernel.setattr(f, SET_SIZE, size=4)
        self.assertEqual(kernel.getattr(f, reader).size, 4)
        self.assertEqual(kernel.read(f, reader, 0, 99), b"abc3")
        self.assertEqual(client.stat("/f").st_mode & 0o7777, 0o600)

    def test_a_size_gives_a_file_its_bytes(self):
        server = self.served(METACOPY + TREE)
        kernel = self.bridge(server, "--shared")
        f = kernel.walk("/f").nodeid
        kernel.setattr(f, SET_MODE, mode=0o600)
        reader = kernel.open(f).fh
        kernel.setattr(f, SET_SIZE, size=4)
        self.assertEqual(kernel.getattr(f, reader).size, 4)
        self.assertEqual(kernel.read(f, reader, 0, 99), b"0123")

    def test_two_bridges_append(self):
        server = self.served()
        one, other = self.bridge(server, "--shared"), self.bridge(server, "--shared")
        ends = []
        for kernel in (one, other):
            node = kernel.walk("/f").nodeid
            ends.append((kernel, node, kernel.open(node, os.O_WRONLY | os.O_APPEND).fh))
        for number in range(100):
            for kernel, node, fh in ends:
                self.assertEqual(kernel.write(node, fh, 0, b"%03d\n" % number), 4)
        with self.client(server).open("/f") as whole:
            lines = whole.read()[10:].decode().splitlines()
        self.assertEqual(lines, [f"{number:03}" for number in range(100) for _ in range(2)])

    def test_a_close_is_not_put_off(self):
        server = self.served()
        kernel, client = self.bridge(server, "--shared"), self.client(server)
        f = kernel.walk("/f").nodeid
        fh = kernel.open(f, os.O_WRONLY).fh
        client.arm(0, "/f", 0x8)
        kernel.release(f, fh)
        self.assertEqual([int(notice.mask) for notice in client.notices()], [0x8])


class RoundTrips(ServerCase):
    """As a kernel asks that has nothing in its cache, at a depth of four."""

    MANIFEST = "layer = [{}, { entry = [%s] }]" % ",".join(
        ['{ path = "%s", kind = "dir" }' % ("/a/b/c"[:length]) for length in (2, 4, 6)]
        + ['{ path = "/a/b/c/z", kind = "file", zeros = 1048576 }']
        + ['{ path = "/a/n%03d", kind = "file" }' % number for number in range(200)])

    def trips(self, server, does):
        with Bridge(server.path) as kernel:
            pass
        bridge, none = Bridge(server.path), Bridge(server.path)
        does(bridge.kernel)
        return bridge.trips() - none.trips()

    def test_a_listing_of_200_names(self):
        def does(kernel):
            a = kernel.walk("/a").nodeid
            self.assertEqual(len(kernel.listing(a)), 203)
        self.assertLessEqual(self.trips(self.served(), does), 5)

    def test_reading_a_mebibyte(self):
        def does(kernel):
            node = kernel.walk("/a/b/c/z").nodeid
            fh = kernel.open(node).fh
            for at in range(0, LIMIT, 131072):
                self.assertEqual(kernel.read(node, fh, at, 131072), bytes(131072))
            kernel.release(node, fh)
        self.assertLessEqual(self.trips(self.served(), does), 14)

    def test_writing_a_mebibyte(self):
        """The kernel's cache takes writes of 4 KiB together to one of a mebibyte."""
        def does(kernel):
            parent = kernel.walk("/a/b/c").nodeid
            self.assertEqual(kernel.lookup(parent, "n").nodeid, 0)
            entry, opened = kernel.create(parent, "n", os.O_WRONLY)
            data = pattern(LIMIT)
            self.assertEqual(kernel.write(entry.nodeid, opened.fh, 0, data, WRITE_CACHE), LIMIT)
            kernel.setattr(entry.nodeid, 32 | 1024, mtime=(5, 0), ctime=(5, 0))
            kernel.release(entry.nodeid, opened.fh)
        self.assertLessEqual(self.trips(self.served(), does), 8)


if __name__ == "__main__":
    unittest.main()
