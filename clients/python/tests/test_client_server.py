"""The client on the program's own server; skipped where the program isn't built."""

import errno
import io
import os
import pathlib
import random
import resource
import stat
import subprocess
import sys
import threading
import unittest

from overlayd import Mask, Notice, calls

from . import real_server, scripts
from .real_server import Server

EMPTY = "[[layer]]\n[[layer]]\n"
ONE_OF_EACH = """
layer = [{}, {entry = [
    {path = '/d', kind = 'dir'}, {path = '/d/x', kind = 'file', text = 'hi'},
    {path = '/f', kind = 'file', text = 'old', attrs = [['user.a', '1']]},
    {path = '/s', kind = 'symlink', target = 'f'}, {path = '/e', kind = 'dir'},
]}]
"""


def setUpModule():
    reason = real_server.why_not()
    if reason:
        raise unittest.SkipTest(reason)


class OneSession(unittest.TestCase):
    def test_places_refusals_and_the_programs_end(self):
        with Server(EMPTY, workers=1, sessions=1) as server:
            with server.client() as c:
                real_server.check_first_client(self, c)
            self.assertEqual(server.status(), 0)

    def test_a_full_history(self):
        with Server("history = 3\n" + EMPTY) as server, server.client() as c:
            c.stat("/")
            with self.assertRaises(OSError) as refused:
                c.stat("/")
            self.assertEqual((refused.exception.errno, refused.exception.place),
                             (errno.ENOSPC, None))
            with server.client() as second:
                with self.assertRaises(OSError) as refused:
                    second.stat("/")
                self.assertEqual(refused.exception.errno, errno.ENOSPC)
                with self.assertRaisesRegex(ConnectionError, "No space left.*asked: stat"):
                    second.stat("/")
            c.detach()
            self.assertEqual(c.last_place, 2)


class WithoutAnUpper(unittest.TestCase):
    def test_what_would_change_is_refused(self):
        with Server("upper = false\n" + ONE_OF_EACH) as server, server.client() as c:
            for call in (
                    lambda: c.chmod("/f", 0o600), lambda: c.chown("/f", 1, 2),
                    lambda: c.setxattr("/f", "user.b", b""),
                    lambda: c.removexattr("/f", "user.a"), lambda: c.mkdir("/n"),
                    lambda: c.symlink("to", "/n"), lambda: c.link("/f", "/n"),
                    lambda: c.rename("/f", "/n"), lambda: c.unlink("/f"), lambda: c.rmdir("/e"),
                    lambda: c.open("/f", os.O_RDWR), lambda: c.open("/n", os.O_CREAT)):
                with self.assertRaises(OSError) as refused:
                    call()
                self.assertEqual(refused.exception.errno, errno.EROFS)
            with self.assertRaises(FileExistsError):
                c.mkdir("/d")
            c.rename("/f", "/f")
            self.assertEqual(c.listdir("/"), ["d", "e", "f", "s"])
            with c.open("/f", os.O_CREAT) as file:
                self.assertEqual(file.read(), b"old")


class Operations(unittest.TestCase):
    def setUp(self):
        self.server = Server(ONE_OF_EACH)
        self.addCleanup(self.server.__exit__, None, None, None)
        self.c = self.server.client()
        self.addCleanup(self.c.close)

    def words(self, found):
        return (stat.filemode(found.st_mode), found.st_uid, found.st_gid, found.st_size,
                found.st_nlink)

    def test_what_is_shown(self):
        c = self.c
        self.assertEqual(c.listdir("/"), ["d", "e", "f", "s"])
        self.assertEqual(self.words(c.stat("/f")), ("-rw-r--r--", 0, 0, 3, 1))
        self.assertEqual(self.words(c.stat("/s")), ("lrwxrwxrwx", 0, 0, 1, 1))
        self.assertEqual(c.readlink("/s"), "f")

    def test_what_changes(self):
        c = self.c
        c.chmod("/f", 0o600)
        c.chown("/f", 1, 2)
        self.assertEqual(self.words(c.stat("/f")), ("-rw-------", 1, 2, 3, 1))
        c.link("/f", "/g")
        self.assertEqual(c.stat("/g").st_nlink, 2)
        c.rename("/g", "/d/h")
        c.unlink("/f")
        c.mkdir("/n", 0o700)
        c.symlink("to", "/n/l")
        c.rmdir("/e")
        self.assertEqual(c.listdir("/"), ["d", "n", "s"])
        self.assertEqual(c.listdir("/d"), ["h", "x"])
        self.assertEqual(c.readlink("/n/l"), "to")

    def test_attributes(self):
        c = self.c
        c.setxattr("/f", "user.b", b"\0\xff")
        c.setxattr("/f", "user.a", b"3")
        self.assertEqual(c.listxattr("/f"), ["user.a", "user.b"])
        self.assertEqual(c.getxattr("/f", "user.b"), b"\0\xff")
        c.removexattr("/f", "user.a")
        self.assertEqual(c.listxattr("/f"), ["user.b"])

    def test_files(self):
        c = self.c
        with c.open("/f") as frozen, c.open("/f", os.O_RDWR | os.O_TRUNC) as file:
            self.assertEqual(file.write(b"new bytes"), 9)
            self.assertEqual(file.seek(-5, os.SEEK_END), 4)
            self.assertEqual(file.read(3), b"byt")
            self.assertEqual(file.tell(), 7)
            self.assertEqual(file.truncate(5), 5)
            self.assertEqual(file.fstat().st_size, 5)
            self.assertEqual(frozen.read(), b"old")
        with c.open("/f", os.O_WRONLY | os.O_APPEND) as file:
            file.write(b"!")
        with io.TextIOWrapper(io.BufferedReader(c.open("/f"))) as text:
            self.assertEqual(text.read(), "new b!")

    def test_more_than_one_call_carries(self):
        data = bytes(range(256)) * 2_000
        with self.c.open("/n", os.O_RDWR | os.O_CREAT | os.O_EXCL, 0o600) as file:
            self.assertEqual(file.write(data), len(data))
            file.seek(0)
            self.assertEqual(file.read(len(data) + 1), data)
            file.seek(1_048_570)
            self.assertEqual(file.write(bytes(100_000)), 6)
            with self.assertRaises(OSError) as refused:
                file.write(b"x")
            self.assertEqual(refused.exception.errno, errno.EFBIG)

    def test_a_long_listing(self):
        with self.c.pipeline() as batch:
            for number in range(600):
                batch.mkdir(f"/e/{number:03}")
        self.assertEqual(self.c.listdir("/e"), [f"{number:03}" for number in range(600)])

    def test_watches(self):
        with self.server.client() as other:
            self.assertEqual(self.c.arm(0, "/", Mask.ALL_EVENTS), 1)
            self.assertEqual(self.c.arm(1, "/f", Mask.OPEN | Mask.CLOSE | Mask.DELETE_SELF), 2)
            file = other.open("/f")
            other.mkdir("/n")
            other.rename("/f", "/g")
            self.assertEqual(self.c.notices(), [
                Notice(1, Mask.OPEN, 0, "f"), Notice(2, Mask.OPEN, 0, ""),
                Notice(1, Mask.CREATE | Mask.ISDIR, 0, "n"), Notice(1, Mask.MOVED_FROM, 1, "f"),
                Notice(1, Mask.MOVED_TO, 1, "g")])
            file.close()
            self.assertEqual(self.c.notices(), [
                Notice(1, Mask.CLOSE_NOWRITE, 0, "g"), Notice(2, Mask.CLOSE_NOWRITE, 0, "")])
            self.c.disarm(1)
            self.assertEqual(self.c.notices(9), [Notice(1, Mask.IGNORED, 0, "")])

    def test_a_pipeline(self):
        with self.c.pipeline() as batch:
            made, opened = batch.mkdir("/n"), batch.open("/f", os.O_RDWR)
            missing, found = batch.unlink("/x"), batch.stat("/n")
        self.assertIsNone(made.result())
        self.assertIsInstance(missing.exception(), FileNotFoundError)
        self.assertTrue(stat.S_ISDIR(found.result().st_mode))
        self.assertEqual([p.place for p in (made, opened, missing, found)], [1, 2, 3, 4])
        with opened.result() as file, self.c.pipeline() as batch:
            read, written = batch.read(file, 9), batch.write(file, b"er")
            batch.seek(file, 0)
            again, size = batch.read(file, 9), batch.fstat(file)
        self.assertEqual((read.result(), written.result(), again.result(), size.result().st_size),
                         (b"old", 2, b"older", 5))

    def test_who_goes_away_is_detached(self):
        with self.server.client() as other:
            self.c.arm(0, "/f", Mask.CLOSE)
            other.open("/f")
            other.call(calls.stat("/"))
            other._drop("the test cuts it off")
            limit = threading.Event()
            for _ in range(500):
                heard = self.c.notices()
                if heard:
                    break
                limit.wait(0.01)
            self.assertEqual(heard, [Notice(1, Mask.CLOSE_NOWRITE, 0, "")])

    def test_places_of_several_clients(self):
        places = []

        def work():
            with self.server.client() as client:
                mine = []
                for _ in range(50):
                    client.stat("/")
                    mine.append(client.last_place)
                self.assertEqual(mine, sorted(mine))
                client.detach()
                places.extend([*mine, client.last_place])

        threads = [threading.Thread(target=work) for _ in range(4)]
        for thread in threads:
            thread.start()
        for thread in threads:
            thread.join(real_server.WAIT)
        self.assertEqual((len(places), len(set(places))), (204, 204))
        self.assertEqual(max(places), 208)


class Refused(unittest.TestCase):
    """Each number that a server can answer, with what brings it about. ENFILE is none: a server
    has 64 workers at most, and so as many clients, and others wait."""

    def setUp(self):
        self.server = Server(ONE_OF_EACH)
        self.addCleanup(self.server.__exit__, None, None, None)
        self.c = self.server.client()
        self.addCleanup(self.c.close)

    def refused(self, number, call):
        with self.assertRaises(OSError) as refused:
            call()
        self.assertEqual(errno.errorcode[refused.exception.errno], errno.errorcode[number])
        self.assertFalse(self.c.closed)

    def test_calls_by_path(self):
        c = self.c
        for number, call in [
            (errno.EPERM, lambda: c.link("/d", "/n")), (errno.ENOENT, lambda: c.stat("/x")),
            (errno.EBUSY, lambda: c.rmdir("/")), (errno.EEXIST, lambda: c.mkdir("/d")),
            (errno.EXDEV, lambda: c.rename("/d", "/n")), (errno.ENOTDIR, lambda: c.stat("/f/x")),
            (errno.EISDIR, lambda: c.unlink("/d")), (errno.EINVAL, lambda: c.stat("x")),
            (errno.ENAMETOOLONG, lambda: c.stat("/" + 256 * "n")),
            (errno.ENAMETOOLONG, lambda: c.stat("/" + 2_048 * "n/")),
            (errno.ENOTEMPTY, lambda: c.rmdir("/d")), (errno.ELOOP, lambda: c.open("/s")),
            (errno.ENODATA, lambda: c.getxattr("/f", "user.x")),
            (errno.EOPNOTSUPP, lambda: c.setxattr("/f", "trusted.x", b"1")),
            (errno.EFBIG, lambda: c.setxattr("/f", "user.x", bytes(1_025))),
            (errno.EINVAL, lambda: c.open("/f", os.O_SYNC)),
            (errno.EINVAL, lambda: c.arm(0, "/f", Mask.ONLYDIR)),
            (errno.EINVAL, lambda: c.disarm(1)), (errno.EINVAL, lambda: c.notices(66)),
        ]:
            with self.subTest(errno.errorcode[number]):
                self.refused(number, call)

    def test_calls_by_descriptor(self):
        self.refused(errno.EBADF, lambda: self.c.call(calls.close(5)))
        with self.c.open("/f", os.O_RDWR) as file:
            self.refused(errno.EFBIG, lambda: file.truncate(1_048_577))
            file.seek(2**63 - 1)
            self.refused(errno.EOVERFLOW, lambda: file.seek(1, os.SEEK_CUR))
            self.refused(errno.EINVAL, lambda: file.seek(-1))
            self.refused(errno.ENOTDIR, file.names)
        with self.c.open("/f") as file:
            self.refused(errno.EBADF, lambda: file.write(b"x"))
        with self.c.open("/d") as directory:
            self.refused(errno.EISDIR, lambda: directory.read(1))

    def test_descriptors_are_limited(self):
        files = [self.c.open("/f") for _ in range(64)]
        self.assertEqual([file.descriptor for file in files], list(range(64)))
        self.refused(errno.EMFILE, lambda: self.c.open("/f"))
        files[7].close()
        self.assertEqual(self.c.open("/f").descriptor, 7)


@unittest.skipUnless(hasattr(resource, "prlimit"), "no limit can be put on another process")
class Memory(unittest.TestCase):
    """A server that has 8 MiB more than it has taken, until it has all that it asks for."""

    def limit(self, server, more):
        """Bounds what the server may take; what bounded it before."""
        process = server.process.pid
        pages = int(pathlib.Path(f"/proc/{process}/statm").read_text().split()[0])
        before = resource.prlimit(process, resource.RLIMIT_AS)
        most = pages * resource.getpagesize() + more
        resource.prlimit(process, resource.RLIMIT_AS, (most, before[1]))
        return before

    def test_a_call_without_memory_is_refused_and_the_session_goes_on(self):
        with Server(ONE_OF_EACH, workers=1) as server, server.client() as c:
            self.assertEqual(c.listdir("/e"), [])
            before = self.limit(server, 8 << 20)
            with self.assertRaises(OSError) as refused:
                for number in range(100):
                    with c.open(f"/e/{number}", os.O_WRONLY | os.O_CREAT) as file:
                        for written in range(16):
                            file.write(bytes(65_536))
            self.assertEqual((refused.exception.errno, refused.exception.place),
                             (errno.ENOMEM, None))
            self.assertEqual(c.stat(f"/e/{number}").st_size, written * 65_536)
            resource.prlimit(server.process.pid, resource.RLIMIT_AS, before)
            with c.open(f"/e/{number}", os.O_WRONLY | os.O_APPEND) as file:
                file.write(bytes(65_536))
                self.assertEqual(file.fstat().st_size, (written + 1) * 65_536)


class Example(unittest.TestCase):
    PYTHON = real_server.ROOT / "clients" / "python"

    def test_watch_and_change(self):
        with Server("layer = [{}, {entry = [{path = '/etc', kind = 'dir'}]}]") as server:
            with server.client():
                done = subprocess.run(
                    [sys.executable, self.PYTHON / "examples" / "watch_and_change.py", server.path,
                     "/etc"], stdout=subprocess.PIPE, text=True, check=True,
                    timeout=real_server.WAIT,
                    env={**os.environ, "PYTHONPATH": str(self.PYTHON)})
        self.assertEqual(done.stdout.splitlines(), [
            "/etc/final has 13 bytes", "refused: File exists",
            "watch 1 heard CREATE of draft", "watch 1 heard MODIFY of draft",
            "watch 1 heard MOVED_FROM of draft, of rename 1",
            "watch 1 heard MOVED_TO of final, of rename 1", "removed: True, again: False",
            "their places in the history rise: True", "watch 1 heard DELETE of final"])


class History(unittest.TestCase):
    """What several clients are answered at once is one run, in the order of its places."""

    PATHS = ["/", "/d", "/d/x", "/e", "/e/y", "/f", "/s", "/n", "/n/x"]
    CALLS = [
        "stat P", "readlink P", "chmod 600 P", "chown 1 2 P", "setattr P user.a v", "attrs P",
        "getattr P user.a", "delattr P user.a", "mkdir 755 P", "symlink t P", "link P P",
        "rename P P", "unlink P", "rmdir P", "open b P", "open wc P", "open rd P", "open wt P",
        "read D 9", "write D some", "seek D 1 set", "truncate D 3", "fstat D", "list D 9",
        "close D", "arm 0 fff P", "arm 1 fff P", "disarm 1", "notices 65",
    ]

    def command(self, chance):
        """A call that chance gives, on few names, so that clients meet."""
        words = chance.choice(self.CALLS).split(" ")
        given = {"P": lambda: chance.choice(self.PATHS), "D": lambda: str(chance.randrange(3))}
        return " ".join(given[word]() if word in given else word for word in words)

    def work(self, client, number, log):
        chance = random.Random(number)
        commands = [f"{number} {self.command(chance)}" for _ in range(300)]
        for command in [*commands, f"{number} detach"]:
            line = scripts.line_of(client, command)
            log.append((client.last_place, command, line))

    def test_replies_are_those_of_one_run(self):
        log = []
        with Server(ONE_OF_EACH) as server:
            clients = [server.client() for _ in range(4)]
            threads = [threading.Thread(target=self.work, args=(client, number, log))
                       for number, client in enumerate(clients)]
            for thread in threads:
                thread.start()
            for thread in threads:
                thread.join(real_server.WAIT)
        log.sort()
        self.assertEqual(len({place for place, _, _ in log}), 4 * 301)
        script = ["attach"] * 4 + [command for _, command, _ in log]
        printed, status = real_server.played(ONE_OF_EACH, script)
        self.assertEqual(status, 0)
        for (place, command, line), wanted in zip(log, printed[4:]):
            self.assertEqual(line, wanted, f"{command} at place {place}")
        self.assertEqual(len(printed), len(script))


class Scripts(unittest.TestCase):
    """The engine's own worked scripts, made by clients, answer as `play` prints."""

    FOLDER = real_server.ROOT / "crates" / "side_by_side" / "data"

    def test_scripts(self):
        compared = 0
        for name, manifest, script in scripts.rows(self.FOLDER):
            printed, status = real_server.played(manifest, script)
            if status != 0 or any(line.startswith("not attached") for line in printed):
                continue
            with self.subTest(name), Server(manifest) as server:
                self.assertEqual(scripts.played_through(server.client, script), printed)
            compared += 1
        self.assertGreaterEqual(compared, 20)


if __name__ == "__main__":
    unittest.main()
