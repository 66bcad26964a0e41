"""Open files: what they send, how they cut what is large, and how `io` goes over them."""

import contextlib
import errno
import io
import os
import socket
import stat
import threading
import unittest

from overlayd import Client, Stat

from .scripted import WAIT, ScriptedCase, h, take

DONE = "00000009 00 0000000000000002"
OPEN = ("0000000a 0b 02 000001a4 0002 2f66", "0000000d 00 0000000000000003 00000001")
CLOSE = ("00000005 16 00000001", DONE)
TELL = "0000000e 12 00000001 0000000000000000 01"


def reading(count, data):
    """The step of a `read` of so many bytes that gives these."""
    answer = bytes(9) + len(data).to_bytes(4, "big") + data
    return (h("00000009 10 00000001") + count.to_bytes(4, "big"),
            len(answer).to_bytes(4, "big") + answer)


def writing(data, count):
    """The step of a `write` of these bytes of which so many fit."""
    return ((len(data) + 9).to_bytes(4, "big") + h("11 00000001") + len(data).to_bytes(4, "big")
            + data, h("0000000d 00 0000000000000004") + count.to_bytes(4, "big"))


def seeking(offset, whence, place):
    """The step of a `seek` that leads to a place."""
    return (h("0000000e 12 00000001") + offset.to_bytes(8, "big", signed=True) + bytes((whence,)),
            h("00000011 00 0000000000000004") + place.to_bytes(8, "big"))


class FileCase(ScriptedCase):
    @contextlib.contextmanager
    def file(self, *steps, flags=os.O_RDWR, piece=0):
        """A file of descriptor 1 on `/f`."""
        asked = h(OPEN[0])[:5] + bytes((flags,)) + h(OPEN[0])[6:]
        with self.client((asked, OPEN[1]), *steps, CLOSE, piece=piece) as c:
            with c.open("/f", flags) as file:
                yield file
            self.assertTrue(file.closed)


class Opening(FileCase):
    def test_flags_and_mode(self):
        for flags, mode, asked in [
            (os.O_RDONLY, 0o644, "0000000a 0b 00 000001a4 0002 2f66"),
            (os.O_WRONLY | os.O_CREAT | os.O_EXCL, 0o600, "0000000a 0b 0d 00000180 0002 2f66"),
            (os.O_RDWR | os.O_TRUNC | os.O_APPEND, 0, "0000000a 0b 32 00000000 0002 2f66"),
            (os.O_RDONLY | os.O_DIRECTORY, 0o644, "0000000a 0b 40 000001a4 0002 2f66"),
            (os.O_RDONLY | os.O_SYNC, 0o644, "0000000a 0b 80 000001a4 0002 2f66"),
        ]:
            with self.client((asked, OPEN[1]), CLOSE) as c, c.open("/f", flags, mode) as file:
                self.assertEqual((file.descriptor, file.name), (1, "/f"))
                self.assertEqual(file.readable(), flags & 3 != os.O_WRONLY)
                self.assertEqual(file.writable(), flags & 3 != os.O_RDONLY)
                self.assertTrue(file.seekable())

    def test_the_defaults(self):
        with self.client(("0000000a 0b 00 000001a4 0002 2f66", OPEN[1]), CLOSE) as c:
            c.open("/f").close()

    def test_a_closed_file_asks_nothing(self):
        with self.file() as file:
            file.close()
            file.close()
            for use in (file.read, file.readall, file.fstat, file.names, file.tell,
                        lambda: file.write(b"x"), lambda: file.seek(0), lambda: file.truncate(0),
                        lambda: file.readinto(bytearray(1)), lambda: file.descriptor):
                with self.assertRaises(ValueError):
                    use()

    def test_the_descriptor_is_none_of_this_process(self):
        with self.file() as file:
            with self.assertRaises(io.UnsupportedOperation):
                file.fileno()

    def test_a_file_outlives_its_client_without_an_error(self):
        with self.client(OPEN) as c:
            file = c.open("/f", os.O_RDWR)
            c.close()
            with self.assertRaises(ConnectionError):
                file.read(1)
            file.close()

    def test_refusals_tell_the_path(self):
        refused = "0000000a 01 0000000000000009 16"
        for use, asked in [
            (lambda f: f.read(9), "00000009 10 00000001 00000009"),
            (lambda f: f.write(b"x"), "0000000a 11 00000001 00000001 78"),
            (lambda f: f.seek(-1), "0000000e 12 00000001 ffffffffffffffff 00"),
            (lambda f: f.truncate(5), "0000000d 13 00000001 0000000000000005"),
            (lambda f: f.fstat(), "00000005 14 00000001"),
            (lambda f: f.names(300), "00000009 15 00000001 0000012c"),
        ]:
            with self.subTest(asked), self.file((asked, refused)) as file:
                with self.assertRaises(OSError) as raised:
                    use(file)
                self.assertEqual((raised.exception.errno, raised.exception.filename),
                                 (errno.EINVAL, "/f"))
                self.assertEqual(raised.exception.place, 9)


class Reading(FileCase):
    def test_bytes_that_are_there(self):
        with self.file(reading(9, b"old"), piece=1) as file:
            self.assertEqual(file.read(9), b"old")

    def test_no_bytes(self):
        with self.file(reading(0, b"")) as file:
            self.assertEqual(file.read(0), b"")

    def test_many_bytes_are_read_in_pieces(self):
        data = bytes(range(256)) * 400
        with self.file(reading(65_536, data[:65_536]), reading(34_464, data[65_536:100_000])) as f:
            self.assertEqual(f.read(100_000), data[:100_000])
        with self.file(reading(65_536, data[:65_536]), reading(65_536, b"end")) as f:
            self.assertEqual(f.read(200_000), data[:65_536] + b"end")
        with self.file(reading(65_536, data[:65_536])) as f:
            self.assertEqual(f.read(65_536), data[:65_536])

    def test_all_bytes(self):
        data = bytes(range(256)) * 300
        for size in ((), (-1,), (None,)):
            with self.file(reading(65_536, data[:65_536]), reading(65_536, data[65_536:])) as file:
                self.assertEqual(file.read(*size), data)
            with self.file(reading(65_536, data[:65_536]), reading(65_536, b"")) as file:
                self.assertEqual(file.read(*size), data[:65_536])
            with self.file(reading(65_536, b"")) as file:
                self.assertEqual(file.read(*size), b"")

    def test_into_a_buffer(self):
        with self.file(reading(5, b"abc"), reading(2, b"de")) as file:
            buffer = bytearray(b"-----")
            self.assertEqual(file.readinto(buffer), 3)
            self.assertEqual(buffer, b"abc--")
            self.assertEqual(file.readinto(memoryview(buffer)[3:]), 2)
            self.assertEqual(buffer, b"abcde")

    def test_the_names_of_a_directory(self):
        with self.file(
            ("00000009 15 00000001 00000001", "0000000e 00 0000000000000004 0001 0001 61"),
            ("00000009 15 00000001 00000100", "0000000b 00 0000000000000004 0000"),
        ) as file:
            self.assertEqual(file.names(1), ["a"])
            self.assertEqual(file.names(), [])


class Writing(FileCase):
    def test_bytes_that_fit(self):
        with self.file(writing(b"new", 3), writing(b"", 0)) as file:
            self.assertEqual(file.write(b"new"), 3)
            self.assertEqual(file.write(b""), 0)

    def test_other_buffers(self):
        with self.file(writing(b"ab", 2), writing(b"\1\0\2\0", 4)) as file:
            self.assertEqual(file.write(bytearray(b"ab")), 2)
            self.assertEqual(file.write(memoryview(b"\1\0\2\0").cast("H")), 4)

    def test_text_is_no_bytes(self):
        with self.file() as file:
            with self.assertRaises(TypeError):
                file.write("text")

    def test_many_bytes_are_written_in_pieces(self):
        data = bytes(range(256)) * 400
        with self.file(writing(data[:65_536], 65_536), writing(data[65_536:], 36_864)) as file:
            self.assertEqual(file.write(data), 102_400)

    def test_the_size_limit(self):
        data = bytes(70_000)
        with self.file(writing(data[:65_536], 5)) as file:
            self.assertEqual(file.write(data), 5)
        refused = "0000000a 01 0000000000000009 1b"
        with self.file(writing(data[:65_536], 65_536), (writing(data[65_536:], 0)[0], refused),
                       (writing(b"X", 0)[0], refused)) as file:
            self.assertEqual(file.write(data), 65_536)
            with self.assertRaises(OSError) as raised:
                file.write(b"X")
            self.assertEqual(raised.exception.errno, errno.EFBIG)

    def test_sizes(self):
        with self.file(("0000000d 13 00000001 00000000000ffffd", DONE), seeking(0, 1, 7),
                       ("0000000d 13 00000001 0000000000000007", DONE)) as file:
            self.assertEqual(file.truncate(1_048_573), 1_048_573)
            self.assertEqual(file.truncate(), 7)
            with self.assertRaises(ValueError):
                file.truncate(-1)

    def test_places(self):
        with self.file(seeking(-1, 2, 8191), seeking(5, 0, 5), seeking(2, 1, 7),
                       seeking(0, 1, 7)) as file:
            self.assertEqual(file.seek(-1, os.SEEK_END), 8191)
            self.assertEqual(file.seek(5), 5)
            self.assertEqual(file.seek(2, os.SEEK_CUR), 7)
            self.assertEqual(file.tell(), 7)

    def test_what_is_open(self):
        answer = ("00000022 00 0000000000000004 02 000001a4 00000001 00000002"
                  "0000000000000003 00000000")
        with self.file(("00000005 14 00000001", answer)) as file:
            self.assertEqual(file.fstat(), Stat(stat.S_IFREG | 0o644, 0, 1, 2, 3))


class Memory(threading.Thread):
    """A server with one file, descriptor 0: it reads, writes at most `limit` bytes, and seeks."""

    def __init__(self, link, data, limit):
        super().__init__(daemon=True)
        self.link = link
        self.file = io.BytesIO(data)
        self.limit = limit

    def run(self):
        with self.link:
            body = b"more"
            while body not in (b"", b"\x1a"):
                body = take(self.link, int.from_bytes(take(self.link, 4), "big"))
                if body:
                    answer = self.answer(body[0], body[5:])
                    self.link.sendall(len(answer).to_bytes(4, "big") + answer)

    def answer(self, op, fields):
        if op == 16:
            data = self.file.read(int.from_bytes(fields, "big"))
            return bytes(9) + len(data).to_bytes(4, "big") + data
        if op == 17:
            fitting = fields[4:][:self.limit - self.file.tell()]
            if not fitting:
                return h("01 0000000000000009 1b")
            return bytes(9) + self.file.write(fitting).to_bytes(4, "big")
        if op == 18:
            offset = int.from_bytes(fields[:8], "big", signed=True)
            return bytes(9) + self.file.seek(offset, fields[8]).to_bytes(8, "big")
        return bytes(13) if op == 11 else bytes(9)


class OverFiles(unittest.TestCase):
    """Buffers and texts of the module `io`."""

    @contextlib.contextmanager
    def memory(self, data=b"", limit=1 << 20):
        near, far = socket.socketpair()
        server = Memory(far, data, limit)
        server.start()
        with Client.from_socket(near, timeout=WAIT) as client:
            yield client.open("/f", os.O_RDWR), server.file
        server.join(WAIT)

    def test_a_buffered_reader(self):
        data = b"".join(b"%d\n" % number for number in range(20_000))
        with self.memory(data) as (file, _), io.BufferedReader(file, 100) as reader:
            self.assertEqual(reader.readline(), b"0\n")
            self.assertEqual(reader.peek(2)[:2], b"1\n")
            self.assertEqual(reader.read(4), b"1\n2\n")
            self.assertEqual(reader.tell(), 6)
            self.assertEqual(reader.seek(-6, os.SEEK_END), len(data) - 6)
            self.assertEqual(list(reader), [b"19999\n"])
            reader.seek(0)
            self.assertEqual(reader.read(), data)
            reader.seek(0)
            self.assertEqual(reader.read(100_000), data[:100_000])

    def test_a_text(self):
        with self.memory("ä\nb".encode()) as (file, _):
            with io.TextIOWrapper(io.BufferedReader(file), encoding="utf-8") as text:
                self.assertEqual(list(text), ["ä\n", "b"])

    def test_a_buffered_writer(self):
        with self.memory() as (file, stored), io.BufferedWriter(file, 16) as writer:
            for number in range(1000):
                writer.write(b"%d\n" % number)
            writer.write(bytes(100_000))
            writer.flush()
            self.assertEqual(stored.getvalue(), b"".join(b"%d\n" % number for number in range(1000))
                             + bytes(100_000))

    def test_a_buffered_writer_at_the_size_limit(self):
        with self.memory(limit=3) as (file, stored):
            writer = io.BufferedWriter(file, 16)
            writer.write(b"ABCDE")
            with self.assertRaises(OSError) as raised:
                writer.flush()
            self.assertEqual(raised.exception.errno, errno.EFBIG)
            self.assertEqual(stored.getvalue(), b"ABC")
            with self.assertRaises(OSError):
                writer.close()

    def test_both_ways(self):
        with self.memory(b"abcdef") as (file, stored), io.BufferedRandom(file) as both:
            self.assertEqual(both.read(2), b"ab")
            both.write(b"XY")
            both.flush()
            self.assertEqual(stored.getvalue(), b"abXYef")
            self.assertEqual(both.read(), b"ef")


class Listing(ScriptedCase):
    OPEN = ("0000000a 0b 40 000001a4 0002 2f64", "0000000d 00 0000000000000003 00000002")
    CLOSE = ("00000005 16 00000002", DONE)

    def names(self, names):
        answer = bytes(9) + len(names).to_bytes(2, "big")
        answer += b"".join(len(name).to_bytes(2, "big") + name.encode() for name in names)
        return "00000009 15 00000002 00000100", len(answer).to_bytes(4, "big") + answer

    def test_few_and_many_names(self):
        for count in (0, 1, 255):
            names = [f"{number:03}" for number in range(count)]
            with self.client(self.OPEN, self.names(names), self.CLOSE) as c:
                self.assertEqual(c.listdir("/d"), names)
        for count in (256, 300, 511):
            names = [f"{number:03}" for number in range(count)]
            steps = [self.names(names[:256]), self.names(names[256:])]
            with self.client(self.OPEN, *steps, self.CLOSE) as c:
                self.assertEqual(c.listdir("/d"), names)

    def test_the_root_by_default(self):
        with self.client(("00000009 0b 40 000001a4 0001 2f", self.OPEN[1]), self.names(["a"]),
                         self.CLOSE) as c:
            self.assertEqual(c.listdir(), ["a"])

    def test_what_is_no_directory(self):
        with self.client((self.OPEN[0], "0000000a 01 0000000000000003 14")) as c:
            with self.assertRaises(NotADirectoryError) as refused:
                c.listdir("/d")
            self.assertEqual(refused.exception.filename, "/d")

    def test_a_refusal_in_the_middle_closes_the_directory(self):
        with self.client(self.OPEN, (self.names([])[0], "00000002 02 0c"), self.CLOSE) as c:
            with self.assertRaises(OSError) as refused:
                c.listdir("/d")
            self.assertEqual(refused.exception.errno, errno.ENOMEM)


if __name__ == "__main__":
    unittest.main()
