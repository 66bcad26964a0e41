"""Mounts with the engine inside: what is saved and gone on with, inode numbers, and the bound."""

import errno
import os
import pathlib
import stat
import subprocess
import tempfile
import time
import unittest

from .bridges import ENGINE, ENVIRONMENT, Bridge, of_engine, why_no_engine
from .kernel import (CAPABLE, ROOT, SET_ATIME, SET_GID, SET_MODE, SET_MTIME, SET_UID, WAIT, Flag,
                     tick)

NO_ENGINE = why_no_engine()
NO_OPENS = 1 << 17  # of INIT: the kernel can do without telling opens
MANIFEST = """redirect_dir = "on"
layer = [{}, { entry = [
{ path = "/d", kind = "dir" },
{ path = "/d/f", kind = "file", text = "lower", attrs = [["user.a", "one"],
  ["user.overlayd.meta", "1 - 0 5.000000007 6.000000008 7.000000009"]] },
{ path = "/d/g", kind = "link", to = "/d/f" },
{ path = "/h", kind = "file", uid = 5, text = "0123456789" },
{ path = "/l", kind = "symlink", target = "h" },
] }, { entry = [{ path = "/low", kind = "dir" }, { path = "/low/x", kind = "file" }] }]
"""


@unittest.skipIf(NO_ENGINE, NO_ENGINE)
class EngineCase(unittest.TestCase):
    def setUp(self):
        folder = tempfile.TemporaryDirectory()
        self.addCleanup(folder.cleanup)
        self.folder = pathlib.Path(folder.name)
        self.saved = self.folder / "saved.toml"
        self.manifest(MANIFEST)

    def manifest(self, text):
        (self.folder / "m.toml").write_text(text)

    def bridge(self, *options, status=0):
        bridge = Bridge(str(self.folder / "m.toml"), *options, engine=True)
        bridge.status = status
        self.addCleanup(bridge.end)
        return bridge

    def run_it(self, *words):
        return subprocess.run([ENGINE, *words], stdin=subprocess.DEVNULL, capture_output=True,
                              text=True, timeout=WAIT, env=ENVIRONMENT, cwd=self.folder,
                              check=False)

    def refused(self, number, call, *words, **named):
        with self.assertRaises(OSError) as refusal:
            call(*words, **named)
        self.assertEqual(refusal.exception.errno, number, os.strerror(refusal.exception.errno))

    def bytes_of(self, kernel, path):
        node = kernel.walk(path).nodeid
        fh = kernel.open(node).fh
        data = kernel.read(node, fh, 0, 1 << 20)
        kernel.release(node, fh)
        return data

    def written(self, kernel, parent, name, data):
        entry, opened = kernel.create(parent, name)
        self.assertEqual(kernel.write(entry.nodeid, opened.fh, 0, data), len(data))
        kernel.release(entry.nodeid, opened.fh)
        return entry.nodeid


class Saving(EngineCase):
    def change(self, kernel):
        folder = kernel.mkdir(ROOT, "new", 0o750).nodeid
        file = self.written(kernel, folder, "f", b"\0\1 new")
        kernel.setattr(file, SET_MODE | SET_UID | SET_GID, mode=0o4640, uid=7, gid=8)
        kernel.setxattr(file, "user.b", b"two")
        kernel.setxattr(file, "trusted.t", b"\xff")
        for value in (b"said", b"\xfe\xff\0"):
            kernel.setxattr(file, "user.raw", value)
        for value in (b"\xed\xa0\x80", "\u20ac".encode()):
            kernel.setxattr(file, "user.text", value)
        kernel.setxattr(file, "user.gone", b"\xff")
        kernel.removexattr(file, "user.gone")
        kernel.setattr(file, SET_ATIME | SET_MTIME, atime=(11, 1), mtime=(22, 2))
        kernel.link(file, ROOT, "again")
        kernel.symlink(folder, "to", "../h")
        kernel.mknod(folder, "fifo", stat.S_IFIFO | 0o600)
        kernel.unlink(kernel.lookup(ROOT, "d").nodeid, "f")
        kernel.rename(ROOT, "low", folder, "moved")
        kernel.unlink(ROOT, "h")

    def compare(self, kernel):
        file = kernel.walk("/new/f")
        self.assertEqual(self.bytes_of(kernel, "/again"), b"\0\1 new")
        found = file.attr
        self.assertEqual((found.mode, found.uid, found.gid, found.nlink),
                         (stat.S_IFREG | 0o4640, 7, 8, 2))
        self.assertEqual((found.atime, found.atimensec, found.mtime, found.mtimensec),
                         (11, 1, 22, 2))
        self.assertEqual(sorted(kernel.listxattr(file.nodeid)),
                         [b"trusted.t", b"user.b", b"user.raw", b"user.text"])
        self.assertEqual(kernel.getxattr(file.nodeid, "user.raw"), b"\xfe\xff\0")
        self.assertEqual(kernel.getxattr(file.nodeid, "user.text"), "\u20ac".encode())
        self.assertEqual(kernel.getxattr(file.nodeid, "trusted.t"), b"\xff")
        self.assertEqual(kernel.readlink(kernel.walk("/new/to").nodeid), b"../h")
        self.assertEqual(kernel.walk("/new/fifo").attr.mode, stat.S_IFIFO | 0o600)
        self.assertEqual(kernel.walk("/new/moved/x").attr.size, 0)
        self.assertEqual(kernel.walk("/new").attr.mode, stat.S_IFDIR | 0o750)
        for name in ("h", "low"):
            self.assertEqual(kernel.lookup(ROOT, name).nodeid, 0)
        folder = kernel.lookup(ROOT, "d").nodeid
        self.assertEqual([one.name for one in kernel.listing(folder)][2:], [b"g"])
        self.assertEqual(self.bytes_of(kernel, "/d/g"), b"lower")

    def test_what_was_saved_is_there_again(self):
        bridge = self.bridge("--save", str(self.saved))
        self.change(bridge.kernel)
        self.compare(bridge.kernel)
        bridge.end()
        self.assertEqual(os.listdir(self.folder).count("saved.toml"), 1)
        self.assertEqual(len(os.listdir(self.folder)), 2)
        for _ in range(2):
            bridge = self.bridge("--upper", str(self.saved), "--save", str(self.saved))
            self.compare(bridge.kernel)
            bridge.end()

    def test_the_first_time_there_is_nothing_to_go_on_with(self):
        """Which is no fault where it is saved to that file."""
        words = ("--upper", str(self.saved), "--save", str(self.saved))
        bridge = self.bridge(*words)
        self.change(bridge.kernel)
        bridge.end()
        self.compare(self.bridge(*words).kernel)

    def test_what_is_too_large_to_go_on_with_is_told(self):
        few = str(len(MANIFEST) + 9)
        bridge = self.bridge("--save", str(self.saved), "--manifest-limit", few)
        self.written(bridge.kernel, ROOT, "new", b"text" * 999)
        told = bridge.end()
        enough = str(self.saved.stat().st_size)
        self.assertIn(f"--upper takes it with --manifest-limit {enough}\n", told)
        words = ("--manifest", "m.toml", "--upper", str(self.saved), "--manifest-limit")
        done = self.run_it(*words, few, "--kernel", "0")
        self.assertEqual(done.returncode, 1)
        self.assertIn(f"{self.saved}: File too large; --manifest-limit ", done.stderr)
        kernel = self.bridge("--upper", str(self.saved), "--manifest-limit", enough).kernel
        self.assertEqual(self.bytes_of(kernel, "/new"), b"text" * 999)

    def test_nothing_is_saved_that_is_not_asked_for(self):
        bridge = self.bridge()
        self.change(bridge.kernel)
        bridge.end()
        self.assertEqual(os.listdir(self.folder), ["m.toml"])

    def test_places_where_nothing_is_saved(self):
        """Told before anything is shown; what is there stays."""
        other = self.folder / "other"
        other.write_text("other")
        self.saved.symlink_to(other)
        os.mkfifo(self.folder / "fifo")
        (self.folder / "folder").mkdir()
        for name in ("saved.toml", "fifo", "folder", "none/x", "/dev/null", "folder/", "."):
            done = self.run_it("--manifest", "m.toml", "--save", name, "--kernel", "0")
            self.assertEqual((done.returncode, done.stdout), (1, ""), name)
            self.assertRegex(done.stderr, r"\Aoverlayd-fuse: cannot save to [^\n]*\n\Z")
        self.assertEqual(other.read_text(), "other")
        self.assertTrue(stat.S_ISCHR(os.stat("/dev/null").st_mode))
        self.assertEqual(sorted(os.listdir(self.folder)),
                         ["fifo", "folder", "m.toml", "other", "saved.toml"])

    def test_what_comes_to_stand_there_meanwhile(self):
        bridge = self.bridge("--save", str(self.saved), status=1)
        self.change(bridge.kernel)
        (self.folder / "other").write_text("other")
        self.saved.symlink_to("other")
        told = bridge.end()
        self.assertIn("cannot save to", told)
        kept = told.partition("the upper layer is in ")[2].split("\n")[0]
        self.addCleanup(os.unlink, kept)
        self.assertEqual((self.folder / "other").read_text(), "other")
        self.assertEqual(sorted(os.listdir(self.folder)), ["m.toml", "other", "saved.toml"])
        self.assertEqual(stat.S_IMODE(os.stat(kept).st_mode), 0o600)
        self.compare(self.bridge("--upper", kept).kernel)

    @of_engine
    def test_what_no_manifest_can_say(self):
        bridge = self.bridge("--save", str(self.saved), status=1)
        bridge.kernel.mkdir(ROOT, b"\xff")
        bridge.kernel.mkdir(ROOT, b"said")
        self.assertIn("not saved, since no manifest can say them: 1 objects", bridge.end())
        kernel = self.bridge("--upper", str(self.saved)).kernel
        self.assertTrue(kernel.lookup(ROOT, "said").nodeid)

    def test_faults_are_told_in_a_line(self):
        (self.folder / "bad.toml").write_text("layer = 5")
        for words, told in ((("none",), "none: No such file or directory"),
                            (("bad.toml",), "bad.toml: manifest: key; overlayd-import --check "),
                            (("m.toml", "--upper", "bad.toml"), "bad.toml: "),
                            (("m.toml", "--upper", "none"), "none: No such file or directory"),
                            (("m.toml", "--manifest-limit", "9"), "m.toml: File too large")):
            done = self.run_it("--manifest", *words, "--kernel", "0")
            self.assertEqual((done.returncode, done.stdout), (1, ""), words)
            self.assertIn(told, done.stderr)
            self.assertRegex(done.stderr, r"\Aoverlayd-fuse: [^\n]*\n\Z")

    @of_engine
    def test_blobs(self):
        (self.folder / "b").mkdir()
        (self.folder / "b/one").write_bytes(b"0123456789")
        self.manifest('blobs = ["b/one"]\nlayer = [{}, { entry = [{ path = "/f", kind = "file", '
                      'blob = 0, at = 2, size = 5 }] }]')
        self.assertEqual(self.bytes_of(self.bridge().kernel, "/f"), b"23456")


@of_engine
class Numbers(EngineCase):
    """Inode numbers, by the place at which an object lies."""

    def test_names_of_one_lower_file_have_one(self):
        kernel = self.bridge().kernel
        one, other = kernel.walk("/d/f"), kernel.walk("/d/g")
        self.assertEqual((one.attr.ino, one.attr.nlink), (other.attr.ino, 2))
        listed = {entry.name: entry.ino for entry in kernel.listing(kernel.walk("/d").nodeid)}
        self.assertEqual((listed[b"f"], listed[b"g"]), (one.attr.ino, one.attr.ino))
        self.assertNotEqual(one.attr.ino, kernel.walk("/h").attr.ino)

    def test_one_that_is_copied_up_is_another_file(self):
        kernel = self.bridge().kernel
        one, other = kernel.walk("/d/f"), kernel.walk("/d/g")
        changed = kernel.setattr(one.nodeid, SET_MODE, mode=0o600)
        self.assertNotEqual(changed.ino, other.attr.ino)
        self.assertEqual(kernel.getattr(other.nodeid).ino, other.attr.ino)
        self.assertEqual(stat.S_IMODE(kernel.getattr(other.nodeid).mode), 0o644)

    def test_it_stays_through_copies_and_renames_and_when_the_kernel_forgets(self):
        kernel = self.bridge().kernel
        for path in ("/h", "/low"):
            name = path[1:]
            entry = kernel.walk(path)
            self.assertEqual(kernel.setattr(entry.nodeid, SET_MODE, mode=0o700).ino,
                             entry.attr.ino)
            kernel.rename(ROOT, name, ROOT, name + "2")
            self.assertEqual(kernel.walk(path + "2").attr.ino, entry.attr.ino)
            kernel.forget(entry.nodeid, 2)
            self.assertEqual(kernel.walk(path + "2").attr.ino, entry.attr.ino)
        made = [kernel.mkdir(ROOT, str(number)).attr.ino for number in range(50)]
        self.assertEqual(len(set(made)), 50)

    def test_names_of_one_file_of_the_upper_are_one_node(self):
        """Also in a new mount, where one is found after the other."""
        bridge = self.bridge("--save", str(self.saved))
        node = self.written(bridge.kernel, ROOT, "a", b"one")
        bridge.kernel.link(node, ROOT, "b")
        bridge.end()
        kernel = self.bridge("--upper", str(self.saved)).kernel
        one, other = kernel.lookup(ROOT, "a"), kernel.lookup(ROOT, "b")
        self.assertEqual((one.nodeid, one.attr.ino, one.attr.nlink),
                         (other.nodeid, other.attr.ino, 2))
        fh = kernel.open(one.nodeid, os.O_RDWR).fh
        kernel.write(one.nodeid, fh, 0, b"ONE")
        self.assertEqual(self.bytes_of(kernel, "/b"), b"ONE")
        kernel.unlink(ROOT, "a")
        self.assertEqual(kernel.getattr(other.nodeid).nlink, 1)
        kernel.forget(one.nodeid, 2)
        self.assertEqual(kernel.lookup(ROOT, "b").attr.nlink, 1)

    def test_one_number_at_one_time(self):
        """Of all that is there, also where something was removed and made anew."""
        kernel = self.bridge().kernel
        seen = set()
        for number in range(30):
            kernel.mkdir(ROOT, f"d{number}")
            kernel.forget(self.written(kernel, ROOT, f"f{number}", b"x"), 1)
            if number % 3 == 0:
                kernel.unlink(ROOT, f"f{number}")
        for entry in kernel.listing(ROOT)[2:]:
            self.assertNotIn(entry.entry.attr.ino, seen)
            seen.add(entry.entry.attr.ino)


class Times(EngineCase):
    def test_they_come_from_the_manifest_and_programs_do_not_see_how(self):
        kernel = self.bridge().kernel
        entry = kernel.walk("/d/f")
        found = entry.attr
        self.assertEqual((found.atime, found.atimensec, found.mtime, found.mtimensec, found.ctime,
                          found.ctimensec), (5, 7, 6, 8, 7, 9))
        self.assertEqual(kernel.listxattr(entry.nodeid), [b"user.a"])
        self.assertEqual(kernel.walk("/h").attr.mtime, 315532800)

    def test_without_them_all_is_as_new_as_the_mount(self):
        before = tick()
        found = self.bridge("--no-times").kernel.walk("/d/f").attr
        self.assertTrue(before <= found.mtime <= time.time())


@of_engine
class Bound(EngineCase):
    SIZE = 4 << 20

    def test_what_would_take_more_is_refused_and_nothing_is_lost(self):
        kernel = self.bridge("--size", str(self.SIZE)).kernel
        piece, files = bytes(range(256)) * 256, []
        with self.assertRaises(OSError) as full:
            for number in range(1000):
                files.append(self.written(kernel, ROOT, f"f{number}", piece))
        self.assertEqual(full.exception.errno, errno.ENOSPC)
        self.assertGreater(len(files), 10)
        self.assertLessEqual(len(files), self.SIZE // len(piece))
        for number in range(len(files)):
            self.assertEqual(self.bytes_of(kernel, f"/f{number}"), piece)
        self.refused(errno.ENOSPC, kernel.setattr, files[0], 8, size=self.SIZE)
        for number in range(len(files)):
            kernel.unlink(ROOT, f"f{number}")
            kernel.forget(files[number], 100)
        self.written(kernel, ROOT, "after", piece)

    def test_the_kernel_keeps_nothing_back(self):
        for options, kept in ((("--size", "9999"), False), ((), True)):
            self.assertEqual(bool(self.bridge(*options).wanted & Flag.WRITEBACK_CACHE), kept)

    def test_what_is_told(self):
        kernel = self.bridge("--size", str(self.SIZE)).kernel
        blocks, free, *_ = kernel.statfs()
        self.assertEqual(blocks, self.SIZE // 4096)
        self.assertGreater(free, blocks // 2)
        self.written(kernel, ROOT, "f", bytes(1 << 20))
        self.assertGreaterEqual(free - kernel.statfs()[1], 256)

    def test_without_a_bound_the_machine_tells(self):
        blocks, free, *_ = self.bridge().kernel.statfs()
        told = pathlib.Path("/proc/meminfo").read_text("ascii").split("MemTotal:")[1].split()[0]
        self.assertGreater(free, 0)
        self.assertLessEqual(free, int(told) // 4)
        self.assertGreater(blocks, free)


class Many(EngineCase):
    def test_ten_thousand_open_files(self):
        entries = "".join(f'{{ path = "/{n}", kind = "file", text = "{n}" }},\n'
                          for n in range(4000))
        self.manifest(f"layer = [{{}}, {{ entry = [\n{entries}] }}]")
        kernel = self.bridge().kernel
        nodes = [kernel.lookup(ROOT, str(number)).nodeid for number in range(4000)]
        opened = [(number % 4000, kernel.open(nodes[number % 4000]).fh)
                  for number in range(10000)]
        for number, fh in opened[::7]:
            self.assertEqual(kernel.read(nodes[number], fh, 0, 9), b"%d" % number)
        self.assertEqual(len(kernel.listing(ROOT)), 4002)
        for number, fh in opened:
            kernel.release(nodes[number], fh)

    @of_engine
    def test_more_files_are_made_than_can_be_open(self):
        """The kernel tells no closes here, so what was made longest ago is closed."""
        bridge = Bridge(str(self.folder / "m.toml"), init=False, engine=True)
        self.addCleanup(bridge.end)
        kernel = bridge.kernel
        kernel.init(flags=CAPABLE | NO_OPENS)
        nodes = [kernel.create(ROOT, str(number))[0].nodeid for number in range(4500)]
        for node in nodes[::500]:
            self.assertEqual(kernel.write(node, 0, 0, b"bytes"), 5)
            self.assertEqual(kernel.read(node, 0, 0, 9), b"bytes")

    def test_large_files(self):
        self.manifest("file_limit = 16777216\nlayer = [{}, {}]")
        kernel = self.bridge().kernel
        data = b"".join(number.to_bytes(4, "big") for number in range(1 << 19))
        entry, opened = kernel.create(ROOT, "large")
        for at in range(0, len(data), 1 << 17):
            kernel.write(entry.nodeid, opened.fh, at, data[at:at + (1 << 17)])
        for at in (0, 5, 65536, 1 << 20, len(data) - 9):
            self.assertEqual(kernel.read(entry.nodeid, opened.fh, at, 300000),
                             data[at:at + 300000])
        self.assertEqual(kernel.read(entry.nodeid, opened.fh, len(data), 9), b"")
        self.refused(errno.EFBIG, kernel.write, entry.nodeid, opened.fh, 1 << 24, b"x")


if __name__ == "__main__":
    unittest.main()
