"""Watches of whole trees, on the program's own server."""

import errno
import random
import socket
import threading
import time
import unittest

from overlayd import Client, Mask, NoReply, TreeNotice

from . import real_server
from .real_server import WAIT, Server

MANIFEST = """
layer = [{}, {entry = [
    {path = '/t', kind = 'dir'}, {path = '/t/d', kind = 'dir'}, {path = '/t/d/e', kind = 'dir'},
    {path = '/t/f', kind = 'file'}, {path = '/other', kind = 'dir'},
]}]
"""
DIR = Mask.ISDIR


def setUpModule():
    reason = real_server.why_not()
    if reason:
        raise unittest.SkipTest(reason)


class Case(unittest.TestCase):
    def serve(self, manifest=MANIFEST, **options):
        self.server = Server(manifest, **options)
        self.addCleanup(self.server.__exit__, None, None, None)
        self.server.client().close()
        self.c = Client(self.server.path, timeout=WAIT)
        self.addCleanup(self.c.close)

    def watch(self, path="/t", **words):
        watch = self.c.watch_tree(path, **words)
        self.addCleanup(watch.close)
        return watch

    def until(self, watch, path, mask):
        """What is heard up to a notice of a path, without what files' bytes bring."""
        heard = []
        limit = time.monotonic() + WAIT
        while not heard or (heard[-1].path, heard[-1].mask) != (path, mask):
            self.assertLess(time.monotonic(), limit, heard)
            heard += watch.read(timeout=1, most=1)
        return heard


class Trees(Case):
    def test_all_below_is_heard_of(self):
        self.serve()
        with self.watch() as watch:
            self.assertEqual(watch.directories, 3)
            self.assertEqual(watch.read(timeout=0), [])
            self.c.mkdir("/other/x")
            self.c.write_text("/t/d/e/f", "x")
            self.c.chmod("/t/d", 0o700)
            self.c.unlink("/t/f")
            self.assertEqual(self.until(watch, "/t/f", Mask.DELETE), [
                TreeNotice("/t/d/e/f", Mask.CREATE, 0), TreeNotice("/t/d/e/f", Mask.MODIFY, 0),
                TreeNotice("/t/d/e/f", Mask.CLOSE_WRITE, 0),
                TreeNotice("/t/d", Mask.ATTRIB | DIR, 0), TreeNotice("/t/f", Mask.DELETE, 0)])
            self.assertEqual(self.c.notices(), [])

    def test_new_directories_are_followed(self):
        self.serve()
        with self.watch(mask=Mask.CREATE | Mask.DELETE) as watch:
            self.c.makedirs("/t/n/a/b")
            self.c.write_text("/t/n/a/b/f", "x")
            heard = self.until(watch, "/t/n/a/b/f", Mask.CREATE)
            self.assertEqual([(one.path, one.mask) for one in heard], [
                ("/t/n", Mask.CREATE | DIR), ("/t/n/a", Mask.CREATE | DIR),
                ("/t/n/a/b", Mask.CREATE | DIR), ("/t/n/a/b/f", Mask.CREATE)])
            self.assertEqual(watch.directories, 6)
            self.c.mkdir("/t/n/a/b/c")
            self.until(watch, "/t/n/a/b/c", Mask.CREATE | DIR)
            self.c.rmtree("/t/n")
            heard = self.until(watch, "/t/n", Mask.DELETE | DIR)
            self.assertEqual([one.path for one in heard],
                             ["/t/n/a/b/c", "/t/n/a/b/f", "/t/n/a/b", "/t/n/a", "/t/n"])
            watch.read(timeout=0.2)
            self.assertEqual(watch.directories, 3)

    def test_directories_that_move_keep_their_watches(self):
        self.serve("redirect_dir = 'on'\n" + MANIFEST)
        with self.watch() as watch:
            self.c.rename("/t/d", "/t/m")
            first = self.until(watch, "/t/m", Mask.MOVED_TO | DIR)
            self.c.mkdir("/t/m/e/n")
            self.assertEqual(self.until(watch, "/t/m/e/n", Mask.CREATE | DIR)[0].path, "/t/m/e/n")
            self.c.rename("/t/m/e", "/t/e")
            second = self.until(watch, "/t/e", Mask.MOVED_TO | DIR)
            self.assertEqual(len({one.cookie for one in first} | {one.cookie for one in second}), 2)
            self.c.write_text("/t/e/n/f", "x")
            self.until(watch, "/t/e/n/f", Mask.CLOSE_WRITE)
            self.c.rename("/t/e", "/other/e")
            self.until(watch, "/t/e", Mask.MOVED_FROM | DIR)
            self.c.write_text("/other/e/n/f", "gone")
            self.c.rename("/other/e", "/t/back")
            heard = self.until(watch, "/t/back/n/f", Mask.CREATE)
            self.assertEqual([(one.path, one.mask) for one in heard], [
                ("/t/back", Mask.MOVED_TO | DIR), ("/t/back/n", Mask.CREATE | DIR),
                ("/t/back/n/f", Mask.CREATE)])
            watch.read(timeout=0.2)
            self.assertEqual(watch.directories, 4)

    def test_it_takes_as_many_clients_as_it_needs_and_may(self):
        self.serve()
        with self.c.pipeline() as batch:
            for number in range(20):
                batch.mkdir(f"/t/d/{number:02}")
        with self.watch(clients=3) as watch:
            self.assertEqual(watch.directories, 23)
            with self.c.pipeline() as batch:
                for number in range(20):
                    batch.mkdir(f"/t/d/{number:02}/n")
            with self.assertRaises(OSError) as refused:
                while True:
                    watch.read(timeout=WAIT)
            self.assertEqual(refused.exception.errno, errno.ENOSPC)
            self.assertRegex(str(refused.exception), "30 directories are watched by 3 clients")
            self.c.write_text("/t/d/00/g", "x")
            self.until(watch, "/t/d/00/g", Mask.CLOSE_WRITE)
        with self.assertRaises(OSError) as refused:
            self.c.watch_tree("/t", clients=4)
        self.assertEqual(refused.exception.errno, errno.ENOSPC)

    def test_a_queue_that_is_full(self):
        self.serve()
        with self.watch() as watch:
            with self.c.pipeline() as batch:
                for number in range(70):
                    batch.open(f"/t/{number}", 0o101, 0o644)
                batch.mkdir("/t/new")
            self.assertIn(TreeNotice("/t", Mask.Q_OVERFLOW, 0),
                          self.until(watch, "/t", Mask.Q_OVERFLOW))
            self.c.write_text("/t/new/f", "x")
            self.until(watch, "/t/new/f", Mask.CLOSE_WRITE)

    def test_it_ends_with_the_directory_or_by_another_thread(self):
        self.serve()
        with self.watch("/t/d/e") as watch:
            self.c.rmdir("/t/d/e")
            self.assertEqual([(one.path, one.mask) for one in watch],
                             [("/t/d/e", Mask.DELETE_SELF)])
            self.assertTrue(watch.closed)
        watch = self.watch()
        timer = threading.Timer(0.2, watch.close)
        timer.start()
        self.assertEqual(list(watch), [])
        timer.join()
        for path, kind in [("/n", FileNotFoundError), ("/t/f", NotADirectoryError)]:
            with self.assertRaises(kind):
                self.c.watch_tree(path)

    def test_a_server_without_a_free_worker(self):
        self.serve(workers=1)
        self.c.stat("/")
        self.c._timeout = 0.3
        with self.assertRaisesRegex(NoReply, "may have no free worker"):
            self.c.watch_tree("/t")
        with Client.from_socket(socket.socketpair()[0]) as other:
            with self.assertRaises(ValueError):
                other.watch_tree("/t")


class Random(Case):
    """Whatever is made, moved and removed: in the end each directory that is there is watched."""

    def work(self, seed):
        chance = random.Random(seed)
        names = [*(f"/t/{one}" for one in "abc"), "/other/o",
                 *(f"/t/{one}/{two}" for one in "abc" for two in "ab")]
        with Client(self.server.path, timeout=WAIT) as client:
            for _ in range(100):
                one, other = chance.choice(names), chance.choice(names)
                try:
                    chance.choice([lambda: client.mkdir(one), lambda: client.mkdir(other),
                                   lambda: client.rename(one, other), lambda: client.rmdir(one)])()
                except OSError:
                    pass
                if chance.random() < 0.3:
                    time.sleep(0.005)

    def test_each_directory_is_watched_in_the_end(self):
        self.serve("redirect_dir = 'on'\n[[layer]]\n[[layer]]\n")
        self.c.mkdir("/t")
        self.c.mkdir("/other")
        watch = self.watch(clients=20)
        worker = threading.Thread(target=self.work, args=(7,))
        worker.start()
        while worker.is_alive():
            watch.read(timeout=0.05)
        while watch.read(timeout=0.3):
            pass
        there = [path for path, _, _ in self.c.walk("/t")]
        self.assertEqual(watch.directories, len(there))
        for path in there:
            self.c.write_text(f"{path}/probe", "x")
        heard = set()
        while len(heard) < len(there):
            some = watch.read(timeout=WAIT)
            self.assertTrue(some)
            heard |= {one.path for one in some if one.mask == Mask.CLOSE_WRITE}
        self.assertEqual(heard, {f"{path}/probe" for path in there})


if __name__ == "__main__":
    unittest.main()
