"""The frames, byte by byte: requests and replies as docs/FORMATS.md has them, written by hand."""

import stat
import unittest

from overlayd import Mask, Notice, Stat, frames
from overlayd.errors import BadReply
from overlayd.frames import Op


def h(text):
    """The bytes of hexadecimal digits with spaces."""
    return bytes.fromhex(text)


# An op, its fields, and the bytes of the request.
REQUESTS = [
    (Op.STAT, (b"/",), "00000004 01 0001 2f"),
    (Op.STAT, (b"/x",), "00000005 01 0002 2f78"),
    (Op.STAT, (b"x",), "00000004 01 0001 78"),
    (Op.STAT, (b"",), "00000003 01 0000"),
    (Op.READLINK, (b"/s",), "00000005 02 0002 2f73"),
    (Op.CHMOD, (0o600, b"/f"), "00000009 03 00000180 0002 2f66"),
    (Op.CHOWN, (1, 2, b"/f"), "0000000d 04 00000001 00000002 0002 2f66"),
    (Op.SETXATTR, (b"/f", b"user.a", b"1"),
     "00000010 05 0002 2f66 0006 757365722e61 0001 31"),
    (Op.GETXATTR, (b"/f", b"user.a"), "0000000d 06 0002 2f66 0006 757365722e61"),
    (Op.REMOVEXATTR, (b"/f", b"user.a"), "0000000d 07 0002 2f66 0006 757365722e61"),
    (Op.LISTXATTR, (b"/f",), "00000005 08 0002 2f66"),
    (Op.MKDIR, (0o755, b"/a"), "00000009 09 000001ed 0002 2f61"),
    (Op.SYMLINK, (b"t", b"/s"), "00000008 0a 0001 74 0002 2f73"),
    (Op.OPEN, (0, 0o644, b"/f"), "0000000a 0b 00 000001a4 0002 2f66"),
    (Op.OPEN, (127, 0o7777, b"/f"), "0000000a 0b 7f 00000fff 0002 2f66"),
    (Op.UNLINK, (b"/f",), "00000005 0c 0002 2f66"),
    (Op.RMDIR, (b"/a",), "00000005 0d 0002 2f61"),
    (Op.LINK, (b"/f", b"/g"), "00000009 0e 0002 2f66 0002 2f67"),
    (Op.RENAME, (b"/a", b"/b"), "00000009 0f 0002 2f61 0002 2f62"),
    (Op.READ, (1, 9), "00000009 10 00000001 00000009"),
    (Op.READ, (0, 65536), "00000009 10 00000000 00010000"),
    (Op.WRITE, (0, b"new"), "0000000c 11 00000000 00000003 6e6577"),
    (Op.WRITE, (0, b""), "00000009 11 00000000 00000000"),
    (Op.SEEK, (0, -1, 0), "0000000e 12 00000000 ffffffffffffffff 00"),
    (Op.SEEK, (1, 8192, 2), "0000000e 12 00000001 0000000000002000 02"),
    (Op.SEEK, (0, 2**63 - 1, 1), "0000000e 12 00000000 7fffffffffffffff 01"),
    (Op.SEEK, (0, -2**63, 255), "0000000e 12 00000000 8000000000000000 ff"),
    (Op.TRUNCATE, (0, 1048573), "0000000d 13 00000000 00000000000ffffd"),
    (Op.TRUNCATE, (0, 2**64 - 1), "0000000d 13 00000000 ffffffffffffffff"),
    (Op.FSTAT, (63,), "00000005 14 0000003f"),
    (Op.NAMES, (0, 256), "00000009 15 00000000 00000100"),
    (Op.CLOSE, (5,), "00000005 16 00000005"),
    (Op.ARM, (0, 0x18, b"/f"), "0000000a 17 00 00000018 0002 2f66"),
    (Op.ARM, (15, Mask.ONESHOT | Mask.ACCESS, b"/f"), "0000000a 17 0f 80000001 0002 2f66"),
    (Op.DISARM, (1,), "00000005 18 00000001"),
    (Op.DISARM, (-1,), "00000005 18 ffffffff"),
    (Op.NOTICES, (9,), "00000005 19 00000009"),
    (Op.DETACH, (), "00000001 1a"),
]

ROOT_REPLY = ("00000022 00 0000000000000001 01 000001ed 00000000 00000000"
              "0000000000000000 00000001")
ROOT = Stat(stat.S_IFDIR | 0o755, 1, 0, 0, 0)
FILE = Stat(stat.S_IFREG | 0o644, 2, 1, 3, 5)
LINK = Stat(stat.S_IFLNK | 0o777, 2**32 - 1, 0, 2**32 - 1, 1)

# An op, the bytes of the whole frame, the place, and the answer.
ANSWERS = [
    (Op.STAT, ROOT_REPLY, 1, ROOT),
    (Op.FSTAT, "00000022 00 00000000000f423f 02 000001a4 00000001 00000003"
     "0000000000000005 00000002", 999_999, FILE),
    (Op.STAT, "00000022 00 0000000000000001 03 000001ff 00000000 ffffffff"
     "0000000000000001 ffffffff", 1, LINK),
    (Op.READLINK, "0000000c 00 0000000000000002 0001 74", 2, b"t"),
    (Op.CHMOD, "00000009 00 0000000000000002", 2, None),
    (Op.CHOWN, "00000009 00 0000000000000002", 2, None),
    (Op.SETXATTR, "00000009 00 0000000000000002", 2, None),
    (Op.GETXATTR, "0000000b 00 0000000000000002 0000", 2, b""),
    (Op.REMOVEXATTR, "00000009 00 0000000000000002", 2, None),
    (Op.LISTXATTR, "0000001b 00 0000000000000003 0002 0006 757365722e61 0006 757365722e62",
     3, [b"user.a", b"user.b"]),
    (Op.MKDIR, "00000009 00 0000000000000002", 2, None),
    (Op.SYMLINK, "00000009 00 0000000000000002", 2, None),
    (Op.OPEN, "0000000d 00 0000000000000003 00000000", 3, 0),
    (Op.UNLINK, "00000009 00 0000000000000002", 2, None),
    (Op.RMDIR, "00000009 00 0000000000000002", 2, None),
    (Op.LINK, "00000009 00 0000000000000002", 2, None),
    (Op.RENAME, "00000009 00 0000000000000002", 2, None),
    (Op.READ, "00000010 00 0000000000000004 00000003 6f6c64", 4, b"old"),
    (Op.READ, "0000000d 00 0000000000000004 00000000", 4, b""),
    (Op.WRITE, "0000000d 00 0000000000000004 00000003", 4, 3),
    (Op.SEEK, "00000011 00 0000000000000004 7fffffffffffffff", 4, 2**63 - 1),
    (Op.TRUNCATE, "00000009 00 0000000000000002", 2, None),
    (Op.NAMES, "00000011 00 0000000000000004 0002 0001 6d 0001 74", 4, [b"m", b"t"]),
    (Op.NAMES, "0000000b 00 0000000000000004 0000", 4, []),
    (Op.CLOSE, "00000009 00 0000000000000002", 2, None),
    (Op.ARM, "0000000d 00 0000000000000001 00000001", 1, 1),
    (Op.DISARM, "00000009 00 0000000000000002", 2, None),
    (Op.NOTICES, "00000019 00 0000000000000005 0001 00000001 00000010 00000000 0000",
     5, [Notice(1, Mask.CLOSE_NOWRITE, 0, "")]),
    (Op.NOTICES,
     "00000037 00 0000000000000005 0003 00000001 40000040 00000001 0001 66"
     "00000002 40000080 00000001 0001 67 ffffffff 00004000 00000000 0000",
     5, [Notice(1, Mask.MOVED_FROM | Mask.ISDIR, 1, "f"),
         Notice(2, Mask.MOVED_TO | Mask.ISDIR, 1, "g"), Notice(-1, Mask.Q_OVERFLOW, 0, "")]),
    (Op.DETACH, "00000009 00 0000000000000004", 4, None),
]

# The replies of one session, in their order, and what each says.
SESSION = [
    (Op.STAT, ROOT_REPLY, (1, None, ROOT)),
    (Op.MKDIR, "00000009 00 0000000000000002", (2, None, None)),
    (Op.STAT, "0000000a 01 0000000000000003 02", (3, 2, None)),
    (Op.STAT, "00000002 02 16", (None, 22, None)),
    (Op.DETACH, "00000009 00 0000000000000004", (4, None, None)),
]


def bodies(splitter):
    """All whole bodies that are there."""
    found = []
    while True:
        body = splitter.body()
        if body is None:
            return found
        found.append(body)


class Requests(unittest.TestCase):
    def test_each_request_has_its_bytes(self):
        for op, values, wanted in REQUESTS:
            with self.subTest(wanted):
                self.assertEqual(frames.request(op, *values).hex(), h(wanted).hex())

    def test_all_ops_are_there(self):
        self.assertEqual({op for op, _, _ in REQUESTS}, set(Op))
        self.assertEqual(sorted(Op), list(range(1, 27)))

    def test_the_largest_texts_and_blocks(self):
        path = b"/" * 65_535
        self.assertEqual(frames.request(Op.STAT, path), h("00010002 01 ffff") + path)
        data = b"x" * 69_991
        self.assertEqual(frames.request(Op.WRITE, 0, data),
                         h("00011170 11 00000000 00011167") + data)

    def test_what_no_frame_carries(self):
        for op, values in [
            (Op.STAT, (b"/" * 65_536,)),
            (Op.WRITE, (0, b"x" * 69_992)),
            (Op.WRITE, (0, b"x" * 70_001)),
            (Op.RENAME, (b"/" * 35_000, b"/" * 34_996)),
            (Op.SETXATTR, (b"/" * 4_095, b"n" * 255, b"v" * 65_644)),
        ]:
            with self.subTest(op=op), self.assertRaises(frames.TooLong):
                frames.request(op, *values)
        self.assertEqual(len(frames.request(Op.RENAME, b"/" * 35_000, b"/" * 34_995)), 70_004)

    def test_numbers_that_their_fields_cannot_hold(self):
        for op, values in [
            (Op.CHMOD, (-1, b"/")), (Op.CHMOD, (2**32, b"/")), (Op.CHOWN, (-1, 0, b"/")),
            (Op.OPEN, (256, 0, b"/")), (Op.SEEK, (0, 2**63, 0)), (Op.SEEK, (0, -2**63 - 1, 0)),
            (Op.SEEK, (0, 0, -1)), (Op.TRUNCATE, (0, -1)), (Op.TRUNCATE, (0, 2**64)),
            (Op.DISARM, (2**31,)), (Op.ARM, (-1, 1, b"/")), (Op.READ, (2**32, 1)),
        ]:
            with self.subTest(op=op, values=values), self.assertRaises(ValueError):
                frames.request(op, *values)

    def test_fields_of_another_type_or_count(self):
        for op, values in [(Op.READ, (0, 1.5)), (Op.READ, (0, "1")), (Op.READ, (0,)),
                           (Op.DETACH, (0,)), (Op.STAT, ())]:
            with self.subTest(op=op, values=values), self.assertRaises(TypeError):
                frames.request(op, *values)


class Replies(unittest.TestCase):
    def test_each_answer_is_read(self):
        for op, frame, place, answer in ANSWERS:
            with self.subTest(op=op, frame=frame):
                data = h(frame)
                self.assertEqual(int.from_bytes(data[:4], "big"), len(data) - 4)
                reply = frames.reply(op, data[4:])
                self.assertEqual(reply, (place, None, answer))
                self.assertEqual(type(reply.answer), type(answer))

    def test_all_ops_are_answered(self):
        self.assertEqual({op for op, _, _, _ in ANSWERS}, set(Op))

    def test_refusals_of_each_op_and_number(self):
        for op in Op:
            for number in range(1, 256):
                taken = frames.reply(op, h("01 0000000000000007") + bytes((number,)))
                self.assertEqual(taken, (7, number, None))
                self.assertEqual(frames.reply(op, bytes((2, number))), (None, number, None))
            for body in (h("01 0000000000000007 00"), bytes((2, 0))):
                with self.assertRaises(BadReply):
                    frames.reply(op, body)

    def test_a_cut_body_is_no_reply(self):
        whole = [(op, h(frame)[4:]) for op, frame, _, _ in ANSWERS]
        whole += [(Op.STAT, h("01 0000000000000003 02")), (Op.STAT, h("02 16"))]
        for op, body in whole:
            for length in range(len(body)):
                with self.subTest(op=op, length=length), self.assertRaises(BadReply):
                    frames.reply(op, body[:length])

    def test_a_body_with_a_byte_more_is_no_reply(self):
        for op, frame, _, _ in ANSWERS:
            with self.subTest(op=op), self.assertRaises(BadReply):
                frames.reply(op, h(frame)[4:] + b"\0")
        for body in ("01 0000000000000003 02 00", "02 16 00"):
            with self.assertRaises(BadReply):
                frames.reply(Op.STAT, h(body))

    def test_unknown_statuses_and_kinds(self):
        for status in range(3, 256):
            with self.assertRaises(BadReply):
                frames.reply(Op.CLOSE, bytes((status,)) + bytes(8))
        for kind in [0, *range(4, 256)]:
            with self.assertRaises(BadReply):
                frames.reply(Op.STAT, bytes(9) + bytes((kind,)) + bytes(24))

    def test_modes_and_sizes_that_nothing_has(self):
        whole = h("00 0000000000000007 02 00000fff 00000000 00000000 7fffffffffffffff 00000001")
        self.assertEqual(frames.reply(Op.STAT, whole).answer.st_size, 2**63 - 1)
        for at, value in [(10, 0xff), (12, 0x10), (22, 0x80)]:
            body = bytearray(whole)
            body[at] = value
            with self.subTest(at), self.assertRaises(BadReply):
                frames.reply(Op.FSTAT, bytes(body))

    def test_names_that_no_directory_has(self):
        def listed(*names):
            body = h("00 0000000000000007") + len(names).to_bytes(2, "big")
            body += b"".join(len(name).to_bytes(2, "big") + name for name in names)
            return frames.reply(Op.NAMES, body).answer

        for names in [(), (b"...",), (b"a", b"b"), (b"n" * 255,), (b"a\xff",), (b"a", b"a.")]:
            self.assertEqual(listed(*names), list(names))
        for names in [(b"",), (b".",), (b"..",), (b"a/b",), (b"/",), (b"a\0",), (b"n" * 256,),
                      (b"a", b"a"), (b"b", b"a")]:
            with self.subTest(names), self.assertRaises(BadReply):
                listed(*names)

    def test_targets_attributes_and_notices_that_nothing_has(self):
        place, watch = h("00 0000000000000007"), h("00000001 00000100 00000000")
        forms = {Op.READLINK: (place, (b"/a", b"\xff", b"t" * 4_095),
                               (b"", b"a\0", b"t" * 4_096)),
                 Op.LISTXATTR: (place + h("0001"), (b"user.a", b"n" * 255),
                                (b"", b"\0", b"n" * 256)),
                 Op.NOTICES: (place + h("0001") + watch, (b"", b"a", b"..."),
                              (b".", b"..", b"a/b", b"a\0", b"n" * 256))}
        for op, (head, good, bad) in forms.items():
            for text in good:
                frames.reply(op, head + len(text).to_bytes(2, "big") + text)
            for text in bad:
                with self.subTest(op=op, text=text[:9]), self.assertRaises(BadReply):
                    frames.reply(op, head + len(text).to_bytes(2, "big") + text)

    def test_names_that_are_no_utf_8(self):
        body = h("00 0000000000000005 0001 00000001 00000100 00000000 0002 41ff")
        reply = frames.reply(Op.NOTICES, body)
        self.assertEqual(reply.answer, [Notice(1, Mask.CREATE, 0, "A\udcff")])

    def test_bits_without_a_name_are_kept(self):
        body = h("00 0000000000000005 0001 00000001 04002000 00000000 0000")
        self.assertEqual(int(frames.reply(Op.NOTICES, body).answer[0].mask), 0x04002000)


class Streams(unittest.TestCase):
    def setUp(self):
        self.stream = b"".join(h(frame) for _, frame, _ in SESSION)

    def check(self, found):
        self.assertEqual([frames.reply(op, body) for (op, _, _), body in zip(SESSION, found)],
                         [wanted for _, _, wanted in SESSION])
        self.assertEqual(len(found), len(SESSION))

    def test_a_session_at_every_cut(self):
        for cut in range(len(self.stream) + 1):
            splitter = frames.Splitter()
            found = []
            for piece in (self.stream[:cut], self.stream[cut:]):
                splitter.feed(piece)
                found += bodies(splitter)
            self.check(found)
            self.assertTrue(splitter.is_empty())

    def test_a_session_byte_by_byte(self):
        splitter = frames.Splitter()
        found = []
        for at in range(len(self.stream)):
            splitter.feed(self.stream[at:at + 1])
            found += bodies(splitter)
        self.check(found)

    def test_a_begun_frame_is_kept(self):
        splitter = frames.Splitter()
        splitter.feed(h("0000"))
        self.assertIsNone(splitter.body())
        self.assertFalse(splitter.is_empty())

    def test_lengths_that_no_frame_has(self):
        for length in ("00000000", "00011171", "ffffffff"):
            splitter = frames.Splitter()
            splitter.feed(h(length)[:3])
            self.assertIsNone(splitter.body())
            splitter.feed(h(length)[3:])
            with self.subTest(length), self.assertRaises(BadReply):
                splitter.body()

    def test_the_longest_reply(self):
        names = [bytes((97 + i // 26, 97 + i % 26)) + b"n" * 253 for i in range(256)]
        body = h("00 0000000000000001 0100") + b"".join(b"\0\xff" + name for name in names)
        self.assertEqual(len(body), 65_803)
        splitter = frames.Splitter()
        splitter.feed(h("0001010b") + body)
        self.assertEqual(frames.reply(Op.NAMES, splitter.body()).answer, names)


if __name__ == "__main__":
    unittest.main()
