"""A mount in this process, by the C library: the same calls as over a server's socket."""

import errno
import os
import pathlib
import re
import tempfile
import threading
import unittest

import overlayd

from . import real_server, scripts

ROOT = pathlib.Path(__file__).resolve().parents[3]
ROWS = ROOT / "crates" / "side_by_side" / "data"
TWO_EMPTY = "layer = [{}, {}]\n"
ONE_FILE = "layer = [{}, {entry = [{path = '/f', kind = 'file', text = 'hello'}]}]\n"


def library():
    """The library that OVERLAYD_LIBRARY names, or that was built here; None without one."""
    built = ROOT / "out" / "liboverlayd.so.0"
    named = os.environ.get("OVERLAYD_LIBRARY")
    return named or (str(built) if built.is_file() else None)


def setUpModule():
    if library() is None:
        raise unittest.SkipTest("make lib made no library, and OVERLAYD_LIBRARY names none")


def mounted(manifest, blobs=(), upper=None):
    return overlayd.mount(manifest, blobs, upper=upper, library=library())


class Sessions(unittest.TestCase):
    def test_places_and_refusals(self):
        with mounted(TWO_EMPTY) as mount:
            client = mount.attach()
            real_server.check_first_client(self, client)
            with self.assertRaises(ConnectionError):
                client.stat("/")

    def test_files_and_notices_of_two_clients(self):
        with mounted(ONE_FILE) as mount, mount.attach() as first, mount.attach() as second:
            first.arm(0, "/f", 0x18)
            with second.open("/f", os.O_RDWR) as file:
                self.assertEqual(file.read(), b"hello")
                file.write(b", " + bytes(70_000))
            self.assertEqual(second.stat("/f").st_size, 70_007)
            self.assertEqual([(n.wd, int(n.mask)) for n in first.notices()], [(1, 8)])

    def test_pipelines(self):
        with mounted(TWO_EMPTY) as mount, mount.attach() as client:
            with client.pipeline() as batch:
                pending = [batch.mkdir(f"/d{n}") for n in range(100)]
            self.assertEqual([it.place for it in pending], list(range(1, 101)))

    def test_blobs(self):
        manifest = ("blobs = ['a', 'b']\nlayer = [{}, {entry = ["
                    "{path = '/a', kind = 'file', blob = 0, at = 1, size = 2},"
                    "{path = '/b', kind = 'file', blob = 1}]}]\n")
        with mounted(manifest, [b"abc", b"xyz"]) as mount, mount.attach() as client:
            with client.open("/a") as a, client.open("/b") as b:
                self.assertEqual((a.read(), b.read()), (b"bc", b"xyz"))

    def test_faults(self):
        for manifest, fault in (("", "manifest: layers"), ("x", "manifest: not TOML"),
                                ("layer = [{entry = [{}]}, {}]", "layer 0 entry 0: kind")):
            with self.assertRaisesRegex(ValueError, f"^{re.escape(fault)}$"):
                mounted(manifest)

    def test_faults_of_a_saved_upper(self):
        for upper, fault in (("", "upper: manifest: layers"), ("x", "upper: manifest: not TOML"),
                             ("layer = [{entry = [{}]}]", "upper: layer 0 entry 0: kind")):
            with self.assertRaisesRegex(ValueError, f"^{re.escape(fault)}$"):
                mounted(TWO_EMPTY, upper=upper)
        with self.assertRaisesRegex(ValueError, "^layer 1 entry 0: kind$"):
            mounted("layer = [{}, {entry = [{}]}]", upper="layer = [{}]")

    def test_at_most_64_clients_and_none_of_a_closed_mount(self):
        mount = mounted(TWO_EMPTY)
        clients = [mount.attach() for _ in range(64)]
        with self.assertRaises(OSError) as refused:
            mount.attach()
        self.assertEqual(refused.exception.errno, errno.ENFILE)
        clients[5].close()
        mount.attach().stat("/")
        mount.close()
        with self.assertRaises(ValueError):
            mount.attach()
        with self.assertRaises(ConnectionError):
            clients[0].stat("/")

    def test_threads_share_a_mount(self):
        done = []

        def work(number):
            with mount.attach() as client:
                for _ in range(100):
                    client.mkdir(f"/t{number}")
                    client.rmdir(f"/t{number}")
            done.append(number)

        with mounted(TWO_EMPTY) as mount:
            threads = [threading.Thread(target=work, args=(n,)) for n in range(8)]
            for thread in threads:
                thread.start()
            for thread in threads:
                thread.join()
            with mount.attach() as client:
                self.assertEqual(client.listdir("/"), [])
        self.assertEqual(sorted(done), list(range(8)))


class Saving(unittest.TestCase):
    def setUp(self):
        folder = tempfile.TemporaryDirectory()
        self.addCleanup(folder.cleanup)
        self.folder = pathlib.Path(folder.name)
        self.path = self.folder / "upper.toml"

    def test_a_mount_goes_on_with_what_was_saved(self):
        manifest = ("file_limit = 4194304\n[[layer]]\n[[layer]]\n"
                    "entry = [{path = '/f', kind = 'file', text = 'hello'}]\n")
        with mounted(manifest) as mount, mount.attach() as client:
            client.mkdir("/d", 0o750)
            client.write_bytes("/d/big", bytes(range(256)) * 10_000)
            client.unlink("/f")
            self.assertEqual(mount.save(self.path), 0)
        saved = self.path.read_text()
        self.assertGreater(len(saved), 2 * 2_560_000)
        with mounted(manifest, upper=saved) as mount, mount.attach() as client:
            self.assertEqual(client.listdir("/"), ["d"])
            self.assertEqual(client.stat("/d").st_mode & 0o7777, 0o750)
            self.assertEqual(client.read_bytes("/d/big"), bytes(range(256)) * 10_000)
            mount.save(str(self.path))
        self.assertEqual(self.path.read_text(), saved)
        self.assertEqual(os.listdir(self.folder), ["upper.toml"])

    def test_what_no_manifest_can_say_is_counted(self):
        with mounted(TWO_EMPTY) as mount, mount.attach() as client:
            client.mkdir(b"/\xff")
            self.assertEqual(mount.save(self.path), 1)
        self.assertEqual(self.path.read_bytes(), b"[[layer]]\n")

    def test_nothing_but_a_regular_file_is_replaced(self):
        other = self.folder / "other"
        other.write_text("other")
        (self.folder / "link").symlink_to(other)
        (self.folder / "folder").mkdir()
        os.mkfifo(self.folder / "fifo")
        with mounted(TWO_EMPTY) as mount:
            for name in ("link", "folder", "fifo"):
                with self.assertRaises(FileExistsError):
                    mount.save(self.folder / name)
            with self.assertRaises(FileNotFoundError):
                mount.save(self.folder / "none" / "x")
            mount.save(other)
        self.assertEqual(other.read_bytes(), b"[[layer]]\n")
        self.assertEqual(sorted(os.listdir(self.folder)), ["fifo", "folder", "link", "other"])

    def test_no_upper_and_no_mount(self):
        mount = mounted("upper = false\n" + TWO_EMPTY)
        with self.assertRaisesRegex(ValueError, "no upper layer"):
            mount.save(self.path)
        mount.close()
        with self.assertRaisesRegex(ValueError, "closed"):
            mount.save(self.path)
        self.assertEqual(os.listdir(self.folder), [])


def rows():
    """Each worked script that clients can make, with what the program plays."""
    for name, manifest, script in scripts.rows(ROWS):
        if "history" in manifest or "blob" in manifest:
            continue
        wanted, status = real_server.played(manifest, script)
        if status == 0 and not any(line.startswith("not attached") for line in wanted):
            yield name, manifest, script, wanted


class Rows(unittest.TestCase):
    def setUp(self):
        reason = real_server.why_not()
        if reason:
            self.skipTest(reason)

    def test_rows(self):
        count = 0
        for name, manifest, script, wanted in rows():
            with self.subTest(name), mounted(manifest) as mount:
                self.assertEqual(scripts.played_through(mount.attach, script), wanted)
            count += 1
        self.assertGreater(count, 100)

    def test_rows_are_saved_as_the_program_saves_them(self):
        count = 0
        with tempfile.TemporaryDirectory() as folder:
            ours, programs = (os.path.join(folder, name) for name in ("ours", "programs"))
            for name, manifest, script, _ in rows():
                if "upper = false" in manifest:
                    continue
                with self.subTest(name), mounted(manifest) as mount:
                    scripts.played_through(mount.attach, script)
                    left_out = mount.save(ours)
                    with real_server.Server(manifest, save=programs) as server:
                        scripts.played_through(server.client, script)
                        self.assertEqual(server.end(), 1 if left_out else 0)
                    self.assertEqual(pathlib.Path(ours).read_bytes(),
                                     pathlib.Path(programs).read_bytes())
                count += 1
        self.assertGreater(count, 100)


if __name__ == "__main__":
    unittest.main()
