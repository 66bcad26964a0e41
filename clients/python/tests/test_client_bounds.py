"""What a server that lies can't bring about: memory without end, and answers that nobody asked."""

import contextlib
import errno
import socket
import threading
import unittest

from overlayd import BadReply, Client, calls

from .scripted import ScriptedCase, WAIT, h, take

PIECE = 65_536
FILE = "02 000001a4 00000000 00000000"


def framed(answer):
    body = bytes(9) + answer
    return len(body).to_bytes(4, "big") + body


class Liar(threading.Thread):
    """Answers each op by a function of how often it was asked."""

    def __init__(self, link, answers):
        super().__init__(daemon=True)
        self.link, self.answers = link, answers
        self.asked = {op: 0 for op in range(1, 27)}

    def run(self):
        with self.link, contextlib.suppress(OSError):
            while True:
                length = take(self.link, 4)
                if len(length) < 4:
                    return
                op = take(self.link, int.from_bytes(length, "big"))[0]
                self.asked[op] += 1
                answer = self.answers.get(op, lambda count: b"")(self.asked[op])
                self.link.sendall(framed(answer))


class Endless(unittest.TestCase):
    OPENED = {11: lambda count: bytes(4)}

    def client(self, answers):
        near, far = socket.socketpair()
        liar = Liar(far, {**self.OPENED, **answers})
        client = Client.from_socket(near, timeout=WAIT)
        self.addCleanup(client.close)
        liar.start()
        return client, liar

    def size(self, number):
        return lambda count: h(FILE) + number.to_bytes(8, "big") + bytes((0, 0, 0, 1))

    def whole(self, count):
        return PIECE.to_bytes(4, "big") + bytes(PIECE)

    def test_a_file_that_has_no_end(self):
        client, liar = self.client({16: self.whole, 20: self.size(3 << 20)})
        with self.assertRaisesRegex(BadReply, "more of a file than it has"):
            client.open("/f").read()
        self.assertTrue(client.closed)
        self.assertLessEqual(liar.asked[16], 48 + 3)

    def test_a_file_that_grows_is_read_to_its_end(self):
        end = 40
        client, liar = self.client({
            16: lambda count: self.whole(count) if count < end else bytes(4),
            20: lambda count: self.size((16 + 8 * count) * PIECE)(count)})
        self.assertEqual(len(client.open("/f").read()), (end - 1) * PIECE)
        self.assertEqual(liar.asked[20], 3)

    def test_a_file_that_is_cut_meanwhile_is_read_to_its_end(self):
        client, _ = self.client({
            16: lambda count: self.whole(count) if count < 18 else bytes(4), 20: self.size(0)})
        self.assertEqual(len(client.open("/f").read()), 17 * PIECE)

    def names(self, first):
        names = [f"{number:08}".encode() for number in range(first, first + 256)]
        return b"\x01\x00" + b"".join(b"\0\x08" + name for name in names)

    def test_a_directory_that_has_no_end(self):
        client, liar = self.client({21: lambda count: self.names(256 * count)})
        client.names_limit = 1_000
        with self.assertRaises(OSError) as refused:
            client.listdir("/d")
        self.assertEqual((refused.exception.errno, refused.exception.filename),
                         (errno.EOVERFLOW, "/d"))
        self.assertFalse(client.closed)
        self.assertEqual((liar.asked[21], liar.asked[22]), (4, 1))

    def test_a_directory_that_begins_again(self):
        client, _ = self.client({21: lambda count: self.names(0)})
        with self.assertRaisesRegex(BadReply, "out of order"):
            client.listdir("/d")
        self.assertTrue(client.closed)


class Answers(ScriptedCase):
    def test_more_than_was_asked_for(self):
        two = "0002 0001 61 0001 62"
        notice = "00000001 00000100 00000000 0000"
        for call, asked, answer in [
            (calls.read(1, 2), "00000009 10 00000001 00000002", "00000003 616263"),
            (calls.write(1, b"a"), "0000000a 11 00000001 00000001 61", "00000002"),
            (calls.write(1, b"a"), "0000000a 11 00000001 00000001 61", "00000000"),
            (calls.names(1, 1), "00000009 15 00000001 00000001", two),
            (calls.notices(1), "00000005 19 00000001", f"0002 {notice} {notice}"),
        ]:
            with self.subTest(str(call)), self.client((asked, framed(h(answer)))) as c:
                with self.assertRaisesRegex(BadReply, "than was asked for"):
                    c.call(call.about("/f"))
                self.assertTrue(c.closed)

    def test_a_mode_that_nothing_has(self):
        status = "02 ffffffff 00000000 00000000 0000000000000000 00000001"
        with self.client(("00000005 01 0002 2f66", framed(h(status)))) as c:
            with self.assertRaises(BadReply):
                c.stat("/f")


class Texts(unittest.TestCase):
    def test_modes_that_there_are_not(self):
        near, far = socket.socketpair()
        with far, Client.from_socket(near, timeout=0.05) as c:
            for mode in ("", "rw", "rr", "b", "r+b+", "z", "rbt"):
                with self.subTest(mode), self.assertRaises(ValueError):
                    c.open("/f", mode)
            for words in ({"encoding": "utf-8"}, {"newline": "\n"}, {"errors": "strict"}):
                with self.subTest(words), self.assertRaises(ValueError):
                    c.open("/f", "rb", **words)
            with self.assertRaises(ValueError):
                c.open("/f", "r", buffering=0)
            far.setblocking(False)
            with self.assertRaises(BlockingIOError):
                far.recv(1)


if __name__ == "__main__":
    unittest.main()
