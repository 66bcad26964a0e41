"""Servers that go away, keep silent, refuse the client or send what is no reply."""

import errno
import os
import socket
import tempfile
import threading
import unittest
import warnings

from overlayd import BadReply, Client, Disconnected, Mask, NoReply, calls

from .scripted import DETACH, DETACHED, WAIT, ScriptedCase, h, take

DONE = h("00000009 00 0000000000000002")
OPENED = "0000000d 00 0000000000000003 00000000"

# Calls, their requests and replies, and how they are told to who lost the server.
CALLS = [
    (lambda c: c.stat("/"), "00000004 01 0001 2f",
     "00000022 00 0000000000000001 01 000001ed 00000000 00000000 0000000000000000 00000001",
     "stat('/')"),
    (lambda c: c.rename("/a", "/b"), "00000009 0f 0002 2f61 0002 2f62",
     "0000000a 01 0000000000000003 02", "rename('/a', '/b')"),
    (lambda c: c.mkdir("/d", 0o700), "00000009 09 000001c0 0002 2f64", "00000002 02 16",
     "mkdir('/d', 448)"),
    (lambda c: c.notices(9), "00000005 19 00000009",
     "00000019 00 0000000000000005 0001 00000001 00000010 00000000 0000", "notices(9)"),
    (lambda c: c.setxattr("/f", "user.a", b"1"),
     "00000010 05 0002 2f66 0006 757365722e61 0001 31", DONE, "setxattr('/f', 'user.a', b'1')"),
    (lambda c: c.detach(), DETACH, DETACHED, "detach()"),
]


class Gone(ScriptedCase):
    def lost(self, client, call, told):
        with self.assertRaises(ConnectionError) as lost:
            call(client)
        self.assertIs(type(lost.exception), Disconnected)
        self.assertIn(f"it was being asked: {told}", str(lost.exception))
        self.assertTrue(client.closed)

    def test_a_server_that_goes_away_at_each_byte_of_a_reply(self):
        for call, asked, answer, told in CALLS:
            whole = h(answer)
            for length in range(len(whole)):
                with self.subTest(told, length=length):
                    with self.client((asked, whole[:length]), leaves=True) as c:
                        self.lost(c, call, told)
                        self.lost(c, lambda c: c.unlink("/next"), "unlink('/next')")

    def test_a_server_that_goes_away_at_each_byte_of_a_request(self):
        for call, asked, _, told in CALLS:
            whole = h(asked)
            for length in range(len(whole)):
                with self.subTest(told, length=length):
                    with self.client((whole[:length], b""), leaves=True) as c:
                        self.lost(c, call, told)

    def test_a_server_that_goes_away_between_calls(self):
        with self.client(("00000005 0c 0002 2f66", DONE), leaves=True) as c:
            c.unlink("/f")
            self.lost(c, lambda c: c.rmdir("/d"), "rmdir('/d')")

    def test_what_descriptors_were_asked_for(self):
        with self.client(("0000000a 0b 02 000001a4 0002 2f66", OPENED), leaves=True) as c:
            file = c.open("/f", os.O_RDWR)
            self.lost(c, lambda _: file.write(b"12345"), "write(0, 5 bytes) on '/f'")
            file.close()
            self.assertTrue(file.closed)
        with self.client(("0000000a 0b 02 000001a4 0002 2f66", OPENED), leaves=True) as c:
            file = c.open("/f", os.O_RDWR)
            self.lost(c, lambda _: file.close(), "close(0) on '/f'")
            self.assertTrue(file.closed)

    def test_a_server_that_goes_away_between_the_pieces_of_a_write(self):
        piece = h("00010009 11 00000000 00010000") + bytes(65_536)
        with self.client(("0000000a 0b 02 000001a4 0002 2f66", OPENED),
                         (piece, "0000000d 00 0000000000000004 00010000"), leaves=True) as c:
            file = c.open("/f", os.O_RDWR)
            self.lost(c, lambda _: file.write(bytes(70_000)), "write(0, 4464 bytes) on '/f'")

    def test_a_socket_that_fails_is_no_refusal(self):
        near, far = socket.socketpair()
        with far, Client.from_socket(near) as c:
            near.close()
            self.lost(c, lambda c: c.unlink("/f"), "unlink('/f')")

    def test_closing_a_client_whose_server_is_gone_is_no_error(self):
        with self.client(leaves=True) as c:
            c.close()
            self.assertTrue(c.closed)
        with self.client((DETACH, "00000002 02 16"), leaves=True) as c:
            c.close()

    def test_a_detached_client_asks_nothing(self):
        with self.client((DETACH, DETACHED)) as c:
            c.detach()
            with self.assertRaises(Disconnected) as lost:
                c.stat("/")
            self.assertEqual(str(lost.exception), "nothing can be asked any more, since the client "
                             "is detached; it was being asked: stat('/')")

    def test_nothing_is_told_of_how_it_was_found(self):
        with self.client(leaves=True) as c:
            with self.assertRaises(Disconnected) as lost:
                c.stat("/")
            self.assertIsNone(lost.exception.__context__)

    def test_why_a_server_was_lost_is_told_later_too(self):
        with self.client(leaves=True) as c:
            self.lost(c, lambda c: c.unlink("/f"), "unlink('/f')")
            with self.assertRaisesRegex(Disconnected, "since the server went away; .*stat"):
                c.stat("/")

    def test_the_words_of_a_mask(self):
        with self.client(leaves=True) as c:
            with self.assertRaisesRegex(Disconnected, r"arm\(0, '/f', .*ACCESS.*\)$"):
                c.arm(0, "/f", Mask.ACCESS)

    def test_who_is_interrupted_in_a_call_loses_the_connection(self):
        def interrupt(_):
            raise KeyboardInterrupt

        with self.client(("00000005 0c 0002 2f66", DONE), leaves=True) as c:
            with self.assertRaises(KeyboardInterrupt):
                c.call(calls.unlink("/f").then(interrupt))
            with self.assertRaisesRegex(Disconnected, "since KeyboardInterrupt"):
                c.stat("/")


class Silent(ScriptedCase):
    def test_a_server_that_keeps_silent(self):
        near, far = socket.socketpair()
        with far, Client.from_socket(near, timeout=0.05) as c:
            with self.assertRaises(NoReply) as lost:
                c.stat("/")
            self.assertIsInstance(lost.exception, TimeoutError)
            self.assertIsInstance(lost.exception, ConnectionError)
            self.assertEqual(str(lost.exception), "no reply came within 0.05 seconds; the server "
                             "may have no free worker: each connection holds one until it ends "
                             "(`overlayd serve --workers N`); it was being asked: stat('/')")
            self.assertTrue(c.closed)
            self.assertEqual(take(far, 9), h("00000004 01 0001 2f"))

    def test_who_has_no_timeout_is_warned_and_waits(self):
        near, far = socket.socketpair()
        warned = threading.Event()

        def answer():
            warned.wait(WAIT)
            far.sendall(DONE)

        with far, Client.from_socket(near) as c, warnings.catch_warnings():
            warnings.simplefilter("always")
            told = []
            warnings.showwarning = lambda message, *_: (told.append(message), warned.set())
            c._stream.patience = 0.05
            answers = threading.Thread(target=answer)
            answers.start()
            c.unlink("/f")
            answers.join(WAIT)
            self.assertEqual([type(message) for message in told], [RuntimeWarning])
            self.assertRegex(str(told[0]), "within 0.05 seconds; the server may have no free worker")
            warned.clear()
            threading.Timer(0.2, far.sendall, (DONE,)).start()
            c.unlink("/f")
            self.assertFalse(warned.is_set())
            far.close()

    def test_a_server_that_has_answered_has_a_worker(self):
        near, far = socket.socketpair()
        with far, Client.from_socket(near, timeout=0.05) as c:
            far.sendall(DONE)
            c.unlink("/f")
            with self.assertRaises(NoReply) as lost:
                c.unlink("/f")
            self.assertNotIn("worker", str(lost.exception))

    def test_a_server_that_stops_within_a_reply(self):
        near, far = socket.socketpair()
        with far, Client.from_socket(near, timeout=0.05) as c:
            far.sendall(DONE[:5])
            with self.assertRaises(NoReply):
                c.unlink("/f")

    def test_a_server_that_reads_nothing(self):
        near, far = socket.socketpair()
        with far, Client.from_socket(near, timeout=0.05) as c:
            with self.assertRaises(NoReply):
                with c.pipeline() as batch:
                    for _ in range(100):
                        batch.write(0, bytes(65_536))


class Unattached(ScriptedCase):
    def refusing(self, number):
        """A client whose server refused it, and went away before anything was asked."""
        near, far = socket.socketpair()
        with far:
            far.sendall(h("00000002 02") + bytes((number,)))
        return Client.from_socket(near)

    def test_all_clients_are_attached_or_descriptors_are_out(self):
        for number in (errno.ENFILE, errno.EMFILE):
            with self.refusing(number) as c:
                with self.assertRaises(OSError) as refused:
                    c.stat("/x")
                self.assertEqual(refused.exception.errno, number)
                self.assertIn("the client wasn't attached", str(refused.exception))
                self.assertIsNone(refused.exception.filename)
                with self.assertRaisesRegex(Disconnected, "its first reply was: Too many open"):
                    c.stat("/x")

    def test_no_worker_is_free(self):
        with self.refusing(errno.EBUSY) as c:
            with self.assertRaisesRegex(OSError, "the server has no free worker") as refused:
                c.stat("/x")
            self.assertEqual(refused.exception.errno, errno.EBUSY)
            self.assertIsNone(refused.exception.filename)
            with self.assertRaisesRegex(Disconnected, "first reply was: the server has no free"):
                c.stat("/x")

    def test_the_history_is_full_or_memory_is_out(self):
        for number in (errno.ENOSPC, errno.ENOMEM):
            with self.refusing(number) as c:
                with self.assertRaises(OSError) as refused:
                    c.stat("/x")
                self.assertEqual(refused.exception.errno, number)
                with self.assertRaisesRegex(Disconnected, os.strerror(number)):
                    c.stat("/x")

    def test_the_rest_of_a_batch(self):
        with self.refusing(errno.ENFILE) as c:
            batch = c.pipeline()
            first, second = batch.stat("/x"), batch.stat("/y")
            with self.assertRaises(Disconnected):
                batch.flush()
            self.assertEqual(first.exception().errno, errno.ENFILE)
            with self.assertRaisesRegex(Disconnected, "Too many open files.*asked: stat.'/y'"):
                second.result()


class Wrong(ScriptedCase):
    def test_bytes_that_are_no_reply(self):
        for answer in ("00000000", "00011171", "48545450", "00000001 03", "00000002 00 00",
                       "00000009 03 0000000000000002", "0000000a 00 0000000000000002 00"):
            with self.subTest(answer), self.client(("00000005 0c 0002 2f66", answer)) as c:
                with self.assertRaises(BadReply) as lost:
                    c.unlink("/f")
                self.assertIn("it was being asked: unlink('/f')", str(lost.exception))
                self.assertTrue(c.closed)

    def test_a_reply_to_nothing(self):
        with self.client(("00000005 0c 0002 2f66", DONE + DONE[:1])) as c:
            with self.assertRaises(BadReply):
                c.unlink("/f")
            self.assertTrue(c.closed)

    def test_a_reply_before_its_request_was_sent(self):
        near, far = socket.socketpair()
        with far, Client.from_socket(near) as c:
            far.sendall(DONE + DONE)
            with self.assertRaises(BadReply):
                c.unlink("/f")


class Connecting(unittest.TestCase):
    def test_by_a_path(self):
        with tempfile.TemporaryDirectory() as folder, socket.socket(socket.AF_UNIX) as listening:
            path = os.path.join(folder, "socket")
            listening.bind(path)
            listening.listen()

            def serve():
                link, _ = listening.accept()
                with link:
                    link.sendall(DETACHED if take(link, 5) == DETACH else b"")

            server = threading.Thread(target=serve)
            server.start()
            with Client(path, timeout=WAIT) as c:
                self.assertFalse(c.closed)
            server.join(WAIT)
            self.assertEqual(c.last_place, 255)

    def test_where_no_server_is(self):
        with tempfile.TemporaryDirectory() as folder:
            missing = os.path.join(folder, "missing")
            with self.assertRaises(FileNotFoundError) as refused:
                Client(missing)
            self.assertEqual(refused.exception.filename, missing)
            plain = os.path.join(folder, "plain")
            with open(plain, "wb"):
                pass
            with self.assertRaises(ConnectionRefusedError) as refused:
                Client(plain)
            self.assertEqual(refused.exception.filename, plain)

    def test_a_server_that_takes_no_connection(self):
        with tempfile.TemporaryDirectory() as folder, socket.socket(socket.AF_UNIX) as listening:
            path = os.path.join(folder, "socket")
            listening.bind(path)
            listening.listen(0)
            with Client(path, timeout=0.05) as first:
                with self.assertRaises(NoReply) as lost:
                    for _ in range(10):
                        with Client(path, timeout=0.05):
                            pass
                self.assertIn(path, str(lost.exception))
                first._drop("the test is over")

    def test_a_timeout_is_positive(self):
        for timeout in (0, -1):
            with self.assertRaises(ValueError):
                Client("/missing", timeout=timeout)


if __name__ == "__main__":
    unittest.main()
