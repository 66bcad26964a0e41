"""Each operation of the client, by the bytes that it sends and what it makes of the reply."""

import errno
import os
import pathlib
import stat
import unittest

from overlayd import BadReply, Client, Mask, Notice, Stat, UnknownRefusal, calls, place_of
from overlayd.files import wire_flags

from .scripted import ScriptedCase, h

DONE = "00000009 00 0000000000000002"
ROOT = "00000022 00 0000000000000001 01 000001ed 00000000 00000000 0000000000000000 00000001"
OPENED = "0000000d 00 0000000000000003 00000000"

# A call by its method, the request's bytes, the reply's bytes, and the result.
BY_PATH = [
    (lambda c: c.stat("/"), "00000004 01 0001 2f", ROOT, Stat(stat.S_IFDIR | 0o755, 1, 0, 0, 0)),
    (lambda c: c.lstat("/"), "00000004 01 0001 2f", ROOT, Stat(stat.S_IFDIR | 0o755, 1, 0, 0, 0)),
    (lambda c: c.readlink("/s"), "00000005 02 0002 2f73", "0000000c 00 0000000000000002 0001 74",
     "t"),
    (lambda c: c.chmod("/f", 0o600), "00000009 03 00000180 0002 2f66", DONE, None),
    (lambda c: c.chown("/f", 1, 2), "0000000d 04 00000001 00000002 0002 2f66", DONE, None),
    (lambda c: c.setxattr("/f", "user.a", b"1"),
     "00000010 05 0002 2f66 0006 757365722e61 0001 31", DONE, None),
    (lambda c: c.getxattr("/f", "user.a"), "0000000d 06 0002 2f66 0006 757365722e61",
     "0000000c 00 0000000000000002 0001 33", b"3"),
    (lambda c: c.removexattr("/f", "user.a"), "0000000d 07 0002 2f66 0006 757365722e61", DONE,
     None),
    (lambda c: c.listxattr("/f"), "00000005 08 0002 2f66",
     "0000001b 00 0000000000000003 0002 0006 757365722e61 0006 757365722e62",
     ["user.a", "user.b"]),
    (lambda c: c.mkdir("/a"), "00000009 09 000001ed 0002 2f61", DONE, None),
    (lambda c: c.mkdir("/a", 0o700), "00000009 09 000001c0 0002 2f61", DONE, None),
    (lambda c: c.symlink("t", "/s"), "00000008 0a 0001 74 0002 2f73", DONE, None),
    (lambda c: c.unlink("/f"), "00000005 0c 0002 2f66", DONE, None),
    (lambda c: c.remove("/f"), "00000005 0c 0002 2f66", DONE, None),
    (lambda c: c.rmdir("/a"), "00000005 0d 0002 2f61", DONE, None),
    (lambda c: c.link("/f", "/g"), "00000009 0e 0002 2f66 0002 2f67", DONE, None),
    (lambda c: c.rename("/a", "/b"), "00000009 0f 0002 2f61 0002 2f62", DONE, None),
    (lambda c: c.replace("/a", "/b"), "00000009 0f 0002 2f61 0002 2f62", DONE, None),
    (lambda c: c.arm(0, "/f", Mask.MODIFY), "0000000a 17 00 00000002 0002 2f66",
     "0000000d 00 0000000000000001 00000001", 1),
    (lambda c: c.arm(11, "/f", Mask.ALL_EVENTS | Mask.ONLYDIR | Mask.ONESHOT),
     "0000000a 17 0b 81000fff 0002 2f66", "0000000d 00 0000000000000001 00000002", 2),
    (lambda c: c.disarm(1), "00000005 18 00000001", DONE, None),
    (lambda c: c.notices(9), "00000005 19 00000009",
     "00000019 00 0000000000000005 0001 00000001 00000010 00000000 0000",
     [Notice(1, Mask.CLOSE_NOWRITE, 0, "")]),
    (lambda c: c.notices(), "00000005 19 00000041", "0000000b 00 0000000000000005 0000", []),
]

# The numbers of refusals that a server has, and the classes that Python has for some.
NUMBERS = {
    errno.EPERM: PermissionError, errno.ENOENT: FileNotFoundError, errno.EBADF: OSError,
    errno.ENOMEM: OSError, errno.EBUSY: OSError, errno.EEXIST: FileExistsError,
    errno.EXDEV: OSError, errno.ENOTDIR: NotADirectoryError, errno.EISDIR: IsADirectoryError,
    errno.EINVAL: OSError, errno.ENFILE: OSError, errno.EMFILE: OSError, errno.EFBIG: OSError,
    errno.ENOSPC: OSError, errno.EROFS: OSError, errno.ENAMETOOLONG: OSError,
    errno.ENOTEMPTY: OSError, errno.ELOOP: OSError, errno.ENODATA: OSError,
    errno.EOVERFLOW: OSError, errno.EOPNOTSUPP: OSError,
}


class Calls(ScriptedCase):
    def test_each_call_by_path(self):
        for call, asked, answer, wanted in BY_PATH:
            for piece in (0, 1):
                with self.subTest(asked, piece=piece):
                    with self.client((asked, answer), piece=piece) as c:
                        self.assertEqual(call(c), wanted)

    def test_a_session_and_its_places(self):
        for piece in (0, 1, 7):
            with self.client(
                ("00000004 01 0001 2f", ROOT), ("00000009 09 000001ed 0002 2f61", DONE),
                ("00000005 01 0002 2f78", "0000000a 01 0000000000000003 02"),
                ("00000004 01 0001 78", "00000002 02 16"),
                ("00000001 1a", "00000009 00 0000000000000004"), piece=piece,
            ) as c:
                self.check_session(c)

    def check_session(self, c):
        self.assertIsNone(c.last_place)
        self.assertTrue(stat.S_ISDIR(c.stat("/").st_mode))
        self.assertEqual(c.last_place, 1)
        c.mkdir("/a", 0o755)
        self.assertEqual(c.last_place, 2)
        with self.assertRaises(FileNotFoundError) as refused:
            c.stat("/x")
        self.assertEqual((c.last_place, place_of(refused.exception)), (3, 3))
        with self.assertRaises(OSError) as refused:
            c.stat("x")
        self.assertEqual(refused.exception.errno, errno.EINVAL)
        self.assertEqual((c.last_place, place_of(refused.exception)), (None, None))
        c.detach()
        self.assertEqual(c.last_place, 4)
        self.assertTrue(c.closed)

    def test_leaving_the_block_detaches(self):
        with self.client(("00000001 1a", "00000009 00 0000000000000001")) as c:
            with c as entered:
                self.assertIs(entered, c)
            self.assertTrue(c.closed)
            c.close()

    def test_calls_as_values(self):
        with self.client(("00000005 16 00000005", "0000000a 01 0000000000000001 09")) as c:
            with self.assertRaises(OSError) as refused:
                c.call(calls.close(5))
            self.assertEqual(refused.exception.errno, errno.EBADF)
            self.assertIsNone(refused.exception.filename)

    def test_what_then_makes_of_a_result(self):
        with self.client(("00000004 01 0001 2f", ROOT), ("00000004 01 0001 2f", ROOT)) as c:
            size = calls.stat("/").then(lambda found: found.st_size)
            self.assertEqual(c.call(size), 0)
            with self.assertRaises(ZeroDivisionError):
                c.call(size.then(lambda number: 1 // number))
            self.assertFalse(c.closed)


class Paths(ScriptedCase):
    def test_bytes_and_path_objects(self):
        asked = "00000005 0c 0002 2f66"
        with self.client(*[(asked, DONE)] * 3) as c:
            for path in ("/f", b"/f", pathlib.PurePosixPath("/f")):
                c.unlink(path)

    def test_names_that_are_no_utf_8(self):
        with self.client(
            ("00000006 0c 0003 2f41ff", DONE), ("00000006 0c 0003 2f41ff", DONE),
            ("00000005 02 0002 2f73", "0000000d 00 0000000000000002 0002 41ff"),
        ) as c:
            c.unlink("/A\udcff")
            c.unlink(b"/A\xff")
            self.assertEqual(c.readlink("/s"), "A\udcff")

    def test_names_beyond_ascii(self):
        with self.client(("00000006 0d 0003 2fc3a4", DONE)) as c:
            c.rmdir("/\u00e4")

    def test_what_is_no_path(self):
        with self.client() as c:
            for path in (None, 5, ["/"]):
                with self.assertRaises(TypeError):
                    c.stat(path)
            with self.assertRaises(TypeError):
                c.setxattr("/f", "user.a", "text")
            with self.assertRaises(TypeError):
                c.setxattr("/f", "user.a", 5)


class Sizes(ScriptedCase):
    """What no frame can carry is refused before a byte is sent."""

    def refused(self, number, call, path="/f"):
        with self.client() as c:
            with self.assertRaises(OSError) as refused:
                call(c)
            self.assertEqual(refused.exception.errno, number)
            self.assertEqual(refused.exception.filename, path)
            self.assertIsNone(place_of(refused.exception))

    def test_long_paths(self):
        path = "/" + "x" * 65_535
        for call in (Client.stat, Client.unlink, Client.listxattr, Client.mkdir, Client.open):
            self.refused(errno.ENAMETOOLONG, lambda c: call(c, path), path)
        self.refused(errno.ENAMETOOLONG, lambda c: c.arm(0, path, Mask.OPEN), path)
        self.refused(errno.ENAMETOOLONG, lambda c: c.symlink(path, "/f"), path)
        self.refused(errno.ENAMETOOLONG, lambda c: c.rename("/f", path))
        half = "/" + "x" * 35_000
        self.refused(errno.ENAMETOOLONG, lambda c: c.link(half, half), half)

    def test_long_attributes(self):
        self.refused(errno.EINVAL, lambda c: c.getxattr("/f", "user." + "n" * 65_531))
        self.refused(errno.EINVAL, lambda c: c.removexattr("/f", "user." + "n" * 65_531))
        self.refused(errno.EINVAL, lambda c: c.setxattr("/f", "user." + "n" * 65_531, b""))
        self.refused(errno.EFBIG, lambda c: c.setxattr("/f", "user.a", b"v" * 65_536))

    def test_blocks(self):
        self.refused(errno.EINVAL, lambda c: c.call(calls.write(0, bytes(69_992))), None)

    def test_what_a_frame_can_carry_is_left_to_the_server(self):
        path = "/" + "x" * 4_095
        refused = "00000002 02 24"
        with self.client((h("00001003 01 1000") + path.encode(), refused)) as c:
            with self.assertRaises(OSError) as raised:
                c.stat(path)
            self.assertEqual(raised.exception.errno, errno.ENAMETOOLONG)

    def test_numbers_that_their_fields_cannot_hold(self):
        with self.client() as c:
            for call in (
                lambda: c.chmod("/f", -1), lambda: c.chown("/f", -1, 0),
                lambda: c.mkdir("/f", 2**32), lambda: c.arm(256, "/f", 1),
                lambda: c.notices(-1), lambda: c.disarm(2**31),
            ):
                with self.assertRaises(ValueError):
                    call()


class Refusals(ScriptedCase):
    def refused(self, status, number, call, asked):
        answer = h("0000000a 01 0000000000000009" if status == 1 else "00000002 02")
        with self.client((asked, answer + bytes((number,)))) as c:
            with self.assertRaises(OSError) as refused:
                call(c)
            self.assertFalse(c.closed)
            self.assertEqual(c.last_place, 9 if status == 1 else None)
            return refused.exception

    def test_each_number_of_the_server(self):
        for number, kind in NUMBERS.items():
            error = self.refused(1, number, lambda c: c.stat("/x"), "00000005 01 0002 2f78")
            with self.subTest(number):
                self.assertIs(type(error), kind)
                self.assertEqual((error.errno, error.filename), (number, "/x"))
                self.assertEqual(error.strerror, os.strerror(number))
                self.assertEqual(error.place, 9)

    def test_each_number_without_a_place(self):
        for number in (errno.EINVAL, errno.ENAMETOOLONG, errno.ENOMEM, errno.ENOSPC):
            error = self.refused(2, number, lambda c: c.stat("/x"), "00000005 01 0002 2f78")
            self.assertEqual((error.errno, error.filename, error.place), (number, "/x", None))

    def test_all_other_numbers_are_refusals_too(self):
        for number in set(range(1, 256)) - set(NUMBERS):
            error = self.refused(1, number, lambda c: c.stat("/x"), "00000005 01 0002 2f78")
            with self.subTest(number):
                self.assertEqual((error.errno, error.filename, error.place), (number, "/x", 9))
                self.assertNotIsInstance(error, (ConnectionError, BlockingIOError, TimeoutError))

    def test_a_number_that_would_speak_of_the_connection(self):
        error = self.refused(1, errno.EPIPE, lambda c: c.stat("/x"), "00000005 01 0002 2f78")
        self.assertIs(type(error), UnknownRefusal)

    def test_a_call_after_a_number_that_is_unknown(self):
        refused = h("0000000a 01 0000000000000009") + bytes((133,))
        with self.client(("00000005 01 0002 2f78", refused),
                         ("00000005 0c 0002 2f66", "00000009 00 000000000000000a")) as c:
            with self.assertRaises(OSError):
                c.stat("/x")
            c.unlink("/f")
            self.assertEqual(c.last_place, 10)

    def test_the_number_0_is_no_refusal(self):
        answer = h("0000000a 01 0000000000000009 00")
        with self.client(("00000005 01 0002 2f78", answer)) as c:
            with self.assertRaises(BadReply):
                c.stat("/x")
            self.assertTrue(c.closed)

    def test_both_paths_are_told(self):
        error = self.refused(1, errno.EXDEV, lambda c: c.rename("/a", "/b"),
                             "00000009 0f 0002 2f61 0002 2f62")
        self.assertEqual((error.filename, error.filename2), ("/a", "/b"))
        self.assertEqual(str(error), "[Errno 18] Invalid cross-device link: '/a' -> '/b'")

    def test_each_call_tells_its_path(self):
        for call, asked, _, _ in BY_PATH:
            error = self.refused(1, errno.ENOENT, call, asked)
            with self.subTest(asked):
                by_path = h(asked)[4] not in (24, 25)
                self.assertEqual(error.filename is not None, by_path)


class Flags(unittest.TestCase):
    def test_each_flag(self):
        for flags, wire in [
            (os.O_RDONLY, 0), (os.O_WRONLY, 1), (os.O_RDWR, 2), (3, 3), (os.O_CREAT, 4),
            (os.O_CREAT | os.O_EXCL, 12), (os.O_WRONLY | os.O_TRUNC, 17),
            (os.O_WRONLY | os.O_APPEND, 33), (os.O_DIRECTORY, 64),
            (os.O_RDWR | os.O_CREAT | os.O_EXCL | os.O_TRUNC | os.O_APPEND, 62),
            (os.O_RDONLY | os.O_CLOEXEC | os.O_NOFOLLOW, 0),
            (os.O_SYNC, 128), (os.O_NONBLOCK | os.O_RDWR, 130),
            (getattr(os, "O_TMPFILE", os.O_SYNC) | os.O_WRONLY, 193),
        ]:
            with self.subTest(flags=oct(flags)):
                self.assertEqual(wire_flags(flags), wire)


class Masks(unittest.TestCase):
    def test_bits(self):
        self.assertEqual([int(Mask[name]) for name in (
            "ACCESS", "MODIFY", "ATTRIB", "CLOSE_WRITE", "CLOSE_NOWRITE", "OPEN", "MOVED_FROM",
            "MOVED_TO", "CREATE", "DELETE", "DELETE_SELF", "MOVE_SELF")],
            [1 << bit for bit in range(12)])
        self.assertEqual(int(Mask.Q_OVERFLOW), 0x4000)
        self.assertEqual(int(Mask.IGNORED), 0x8000)
        self.assertEqual(int(Mask.ONLYDIR), 0x01000000)
        self.assertEqual(int(Mask.MASK_ADD), 0x20000000)
        self.assertEqual(int(Mask.ISDIR), 0x40000000)
        self.assertEqual(int(Mask.ONESHOT), 0x80000000)
        self.assertEqual(int(Mask.ALL_EVENTS), 0xFFF)
        self.assertEqual(Mask.CLOSE, Mask.CLOSE_WRITE | Mask.CLOSE_NOWRITE)
        self.assertEqual(Mask.MOVE, Mask.MOVED_FROM | Mask.MOVED_TO)

    def test_names(self):
        for mask, name in [
            (Mask.CREATE, "CREATE"), (Mask.ISDIR | Mask.CREATE, "CREATE|ISDIR"),
            (Mask.CLOSE, "CLOSE_WRITE|CLOSE_NOWRITE"), (Mask(0), "0x0"),
            (Mask(0x2001), "ACCESS|0x2000"), (Mask(0x80000000), "ONESHOT"),
        ]:
            self.assertEqual((str(mask), f"{mask}"), (name, name))
        self.assertEqual(f"{Mask.ONESHOT | Mask.ACCESS:08x}", "80000001")


if __name__ == "__main__":
    unittest.main()
