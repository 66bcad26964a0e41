"""Several calls in one write, and several threads on one client."""

import errno
import gc
import os
import socket
import stat
import threading
import unittest

from overlayd import Client, Disconnected, File, Mask, Stat, calls

from .scripted import DETACH, DETACHED, WAIT, ScriptedCase, h, take

DONE = h("00000009 00 0000000000000002")
ROOT = "00000022 00 0000000000000001 01 000001ed 00000000 00000000 0000000000000000 00000001"

# Each call of a pipeline, its request, its reply and its result.
CALLS = [
    (lambda b: b.stat("/"), "00000004 01 0001 2f", ROOT, Stat(stat.S_IFDIR | 0o755, 1, 0, 0, 0)),
    (lambda b: b.readlink("/s"), "00000005 02 0002 2f73", "0000000c 00 0000000000000002 0001 74",
     "t"),
    (lambda b: b.chmod("/f", 0o600), "00000009 03 00000180 0002 2f66", DONE, None),
    (lambda b: b.chown("/f", 1, 2), "0000000d 04 00000001 00000002 0002 2f66", DONE, None),
    (lambda b: b.setxattr("/f", "user.a", b"1"),
     "00000010 05 0002 2f66 0006 757365722e61 0001 31", DONE, None),
    (lambda b: b.getxattr("/f", "user.a"), "0000000d 06 0002 2f66 0006 757365722e61",
     "0000000c 00 0000000000000002 0001 31", b"1"),
    (lambda b: b.removexattr("/f", "user.a"), "0000000d 07 0002 2f66 0006 757365722e61", DONE,
     None),
    (lambda b: b.listxattr("/f"), "00000005 08 0002 2f66", "0000000b 00 0000000000000003 0000",
     []),
    (lambda b: b.mkdir("/a"), "00000009 09 000001ed 0002 2f61", DONE, None),
    (lambda b: b.symlink("t", "/s"), "00000008 0a 0001 74 0002 2f73", DONE, None),
    (lambda b: b.unlink("/f"), "00000005 0c 0002 2f66", DONE, None),
    (lambda b: b.rmdir("/a"), "00000005 0d 0002 2f61", DONE, None),
    (lambda b: b.link("/f", "/g"), "00000009 0e 0002 2f66 0002 2f67", DONE, None),
    (lambda b: b.rename("/a", "/b"), "00000009 0f 0002 2f61 0002 2f62", DONE, None),
    (lambda b: b.read(1, 9), "00000009 10 00000001 00000009",
     "00000010 00 0000000000000004 00000003 6f6c64", b"old"),
    (lambda b: b.write(1, b"new"), "0000000c 11 00000001 00000003 6e6577",
     "0000000d 00 0000000000000004 00000003", 3),
    (lambda b: b.seek(1, -1, os.SEEK_END), "0000000e 12 00000001 ffffffffffffffff 02",
     "00000011 00 0000000000000004 0000000000000007", 7),
    (lambda b: b.truncate(1, 9), "0000000d 13 00000001 0000000000000009", DONE, None),
    (lambda b: b.fstat(1), "00000005 14 00000001", ROOT, Stat(stat.S_IFDIR | 0o755, 1, 0, 0, 0)),
    (lambda b: b.names(1), "00000009 15 00000001 00000100",
     "00000011 00 0000000000000004 0002 0001 6d 0001 74", ["m", "t"]),
    (lambda b: b.close(1), "00000005 16 00000001", DONE, None),
    (lambda b: b.arm(0, "/f", Mask.MODIFY), "0000000a 17 00 00000002 0002 2f66",
     "0000000d 00 0000000000000001 00000001", 1),
    (lambda b: b.disarm(1), "00000005 18 00000001", DONE, None),
    (lambda b: b.notices(), "00000005 19 00000041", "0000000b 00 0000000000000005 0000", []),
]


class Pipelines(ScriptedCase):
    def test_all_calls_in_one_batch(self):
        asked = b"".join(h(request) for _, request, _, _ in CALLS)
        answers = b"".join(h(answer) for _, _, answer, _ in CALLS)
        for piece in (0, 1):
            with self.client((asked, answers), piece=piece) as c, c.pipeline() as batch:
                noted = [call(batch) for call, _, _, _ in CALLS]
                self.assertEqual(len(batch), len(CALLS))
                self.assertFalse(any(pending.done() for pending in noted))
            self.assertEqual([pending.result() for pending in noted],
                             [wanted for _, _, _, wanted in CALLS])
            self.assertEqual([pending.place for pending in noted],
                             [int.from_bytes(h(answer)[5:13], "big") for _, _, answer, _ in CALLS])

    def test_one_write(self):
        near, far = socket.socketpair()
        client = Client.from_socket(near)
        seen = []

        def serve():
            with far:
                seen.append(far.recv(1 << 20))
                far.sendall(DONE * 3)
                far.sendall(DETACHED if take(far, 5) == DETACH else b"")

        server = threading.Thread(target=serve)
        server.start()
        with client:
            with client.pipeline() as batch:
                for name in "abc":
                    batch.mkdir("/" + name)
        server.join(WAIT)
        self.assertEqual(seen, [h("00000009 09 000001ed 0002 2f61 00000009 09 000001ed 0002 2f62"
                                  "00000009 09 000001ed 0002 2f63")])

    def test_a_refusal_among_others(self):
        with self.client(("00000005 0c 0002 2f66" "00000005 0c 0002 2f67" "00000004 0c 0001 67",
                          DONE + h("0000000a 01 0000000000000003 02" "00000002 02 16"))) as c:
            with c.pipeline() as batch:
                first, second, third = batch.unlink("/f"), batch.unlink("/g"), batch.unlink("g")
            self.assertIsNone(first.result())
            self.assertIsNone(first.exception())
            with self.assertRaises(FileNotFoundError) as refused:
                second.result()
            self.assertIs(second.exception(), refused.exception)
            self.assertEqual((refused.exception.filename, second.place), ("/g", 3))
            self.assertEqual((third.exception().errno, third.place), (errno.EINVAL, None))

    def test_a_file_that_is_opened_and_closed(self):
        with self.client(
            ("0000000a 0b 00 000001a4 0002 2f66", "0000000d 00 0000000000000003 00000005"),
            ("00000009 10 00000005 00000009" "00000005 16 00000005",
             h("0000000a 01 0000000000000004 15") + DONE),
        ) as c:
            with c.pipeline() as batch:
                opened = batch.open("/f")
            file = opened.result()
            self.assertIsInstance(file, File)
            with c.pipeline() as batch:
                read = batch.read(file, 9)
                batch.close(file)
                self.assertFalse(file.closed)
            self.assertTrue(file.closed)
            self.assertIsInstance(read.exception(), IsADirectoryError)
            self.assertEqual(read.exception().filename, "/f")
            with self.assertRaises(ValueError):
                c.pipeline().read(file, 9)

    def test_results_before_the_batch_is_sent(self):
        with self.client() as c:
            pending = c.pipeline().stat("/")
            self.assertFalse(pending.done())
            for ask in (pending.result, pending.exception):
                with self.assertRaisesRegex(RuntimeError, r"stat\('/'\)"):
                    ask()

    def test_a_block_that_is_left_by_an_exception_sends_nothing(self):
        with self.client() as c:
            with self.assertRaises(ZeroDivisionError):
                with c.pipeline() as batch:
                    batch.unlink("/f")
                    raise ZeroDivisionError
            self.assertEqual(len(batch), 0)

    def test_an_empty_batch(self):
        with self.client() as c:
            with c.pipeline():
                pass

    def test_several_flushes(self):
        with self.client(("00000005 0c 0002 2f66", DONE), ("00000005 0c 0002 2f67", DONE)) as c:
            with c.pipeline() as batch:
                first = batch.unlink("/f")
                batch.flush()
                self.assertTrue(first.done())
                batch.unlink("/g")

    def test_a_server_that_goes_away_after_each_byte(self):
        asked = h("00000005 0c 0002 2f66" "00000005 0c 0002 2f67" "00000005 0d 0002 2f68")
        answers = DONE + h("0000000a 01 0000000000000003 02") + DONE
        for length in range(len(answers)):
            answered = (length >= 13) + (length >= 27)
            with self.client((asked, answers[:length]), leaves=True) as c:
                batch = c.pipeline()
                noted = [batch.unlink("/f"), batch.unlink("/g"), batch.rmdir("/h")]
                with self.assertRaises(Disconnected) as lost:
                    batch.flush()
                told = ["unlink('/f')", "unlink('/g')", "rmdir('/h')"]
                self.assertIn(f"it was being asked: {told[answered]}", str(lost.exception))
                for pending, call in list(zip(noted, told))[answered:]:
                    with self.assertRaises(Disconnected) as failed:
                        pending.result()
                    self.assertIn(call, str(failed.exception))
                self.assertEqual([pending.place for pending in noted],
                                 [2, 3][:answered] + [None] * (3 - answered))

    def test_a_detach_in_a_batch(self):
        with self.client(("00000005 0c 0002 2f66" "00000001 1a", DONE + DETACHED)) as c:
            with c.pipeline() as batch:
                batch.unlink("/f")
                batch.add(calls.detach())
            self.assertTrue(c.closed)

    def test_much_to_a_server_that_reads_all_before_it_answers(self):
        asked = (h("00010009 11 00000001 00010000") + bytes(65_536)) * 20
        answer = h("0000000d 00 0000000000000004 00010000") * 20
        with self.client((asked, answer)) as c:
            with c.pipeline() as batch:
                noted = [batch.write(1, bytes(65_536)) for _ in range(20)]
            self.assertEqual([pending.result() for pending in noted], [65_536] * 20)

    def test_much_in_both_directions(self):
        """More than the sockets hold, to a server that writes each reply before it reads on."""
        count = 60
        near, far = socket.socketpair()
        far.setsockopt(socket.SOL_SOCKET, socket.SO_SNDBUF, 4_096)

        def serve():
            with far:
                for _ in range(count):
                    length = int.from_bytes(take(far, 4), "big")
                    take(far, length)
                    far.sendall(h("0001000d 00 0000000000000001 00010000") + bytes(65_536))
                far.sendall(DETACHED if take(far, 5) == DETACH else b"")

        server = threading.Thread(target=serve)
        server.start()
        with Client.from_socket(near, timeout=WAIT) as client:
            with client.pipeline() as batch:
                # By its own request a write would be answered otherwise; only the bytes count.
                noted = [batch.add(calls.Call(calls.Op.READ, calls.write(0, bytes(65_536)).frame,
                                              (), "read", len)) for _ in range(count)]
        server.join(WAIT)
        self.assertEqual([pending.result() for pending in noted], [65_536] * count)


class Threads(ScriptedCase):
    def answer(self, far):
        """Answers each stat of `/N` by a file of N bytes, at the place N."""
        with far:
            while True:
                head = take(far, 4)
                body = take(far, int.from_bytes(head, "big"))
                if body in (b"", b"\x1a"):
                    far.sendall(DETACHED if body else b"")
                    return
                number = int(body[4:])
                far.sendall(h("00000022 00") + number.to_bytes(8, "big") + h("02 000001a4")
                            + bytes(8) + number.to_bytes(8, "big") + h("00000001"))

    def test_each_thread_gets_its_own_replies(self):
        near, far = socket.socketpair()
        server = threading.Thread(target=self.answer, args=(far,))
        server.start()
        wrong = []
        with Client.from_socket(near, timeout=WAIT) as client:
            def work(first):
                for number in range(first, first + 100):
                    size = client.stat(f"/{number}").st_size
                    if (size, client.last_place) != (number, number):
                        wrong.append((number, size, client.last_place))

            threads = [threading.Thread(target=work, args=(first,)) for first in range(0, 800, 100)]
            for thread in threads:
                thread.start()
            for thread in threads:
                thread.join(WAIT)
            self.assertIsNone(client.last_place)
        server.join(WAIT)
        self.assertEqual(wrong, [])


class Collected(ScriptedCase):
    OPEN = ("0000000a 0b 00 000001a4 0002 2f66", "0000000d 00 0000000000000003 00000007")

    def test_a_file_that_nobody_has_any_more_is_closed(self):
        with self.client(self.OPEN, ("00000005 16 00000007", DONE)) as c:
            file = c.open("/f")
            del file
            gc.collect()

    def test_a_close_in_the_middle_of_a_call_goes_with_the_next(self):
        with self.client(
            self.OPEN, ("00000005 0c 0002 2f66", DONE),
            ("00000005 16 00000007" "00000005 0c 0002 2f67", DONE + DONE),
        ) as c:
            file = c.open("/f")
            c.call(calls.unlink("/f").then(lambda _: file.close()))
            self.assertTrue(file.closed)
            c.unlink("/g")

    def test_a_call_in_the_middle_of_a_call_is_an_error(self):
        with self.client(("00000005 0c 0002 2f66", DONE)) as c:
            with self.assertRaisesRegex(RuntimeError, "inside another"):
                c.call(calls.unlink("/f").then(lambda _: c.stat("/")))
            self.assertFalse(c.closed)

    def test_refusals_leave_no_circles(self):
        with self.client(*[("00000005 0c 0002 2f66", "0000000a 01 0000000000000003 02")] * 5) as c:
            gc.collect()
            gc.disable()
            try:
                for _ in range(5):
                    try:
                        c.unlink("/f")
                    except FileNotFoundError:
                        pass
                self.assertEqual(gc.collect(), 0)
            finally:
                gc.enable()


if __name__ == "__main__":
    unittest.main()
