"""The program's own server, byte by byte: the examples of docs/FORMATS.md, over its socket."""

import socket
import unittest

from . import real_server
from .real_server import Server
from .scripted import h, take

TWO_EMPTY = "[[layer]]\n[[layer]]\n"
ONE_FILE = "layer = [{}, {entry = [{path = '/f', kind = 'file'}]}]\n"

# The first client of a mount of two empty layers; its attach has place 0.
FIRST = [
    ("00000004 01 0001 2f", "00000022 00 0000000000000001 01 000001ed 00000000 00000000"
                            "0000000000000000 00000001"),
    ("00000009 09 000001ed 0002 2f61", "00000009 00 0000000000000002"),
    ("00000005 01 0002 2f78", "0000000a 01 0000000000000003 02"),
    ("00000004 01 0001 78", "00000002 02 16"),
    ("00000001 1a", "00000009 00 0000000000000004"),
]
WATCH, WATCHED = "0000000a 17 00 00000018 0002 2f66", "0000000d 00 0000000000000001 00000001"
OPEN, OPENED = "0000000a 0b 00 000001a4 0002 2f66", "0000000d 00 0000000000000003 00000000"
NOTICES = "00000005 19 00000009"
CLOSED = "00000019 00 0000000000000005 0001 00000001 00000010 00000000 0000"

# Streams that end a session, each alone: by the client's own end, and by a fault.
CUT = ["", "000000", "00000004 01 0001"]
FAULTS = ["00000000", "00011171", "00000001 1b", "00000005 01 0001 2f 00", "00000004 01 0002 2f"]


def setUpModule():
    reason = real_server.why_not()
    if reason:
        raise unittest.SkipTest(reason)


def rest(link):
    """All that comes until the server closes the stream."""
    return take(link, 1 << 20)


class Examples(unittest.TestCase):
    def setUp(self):
        self.links = []
        self.addCleanup(lambda: [link.close() for link in self.links])

    def start(self, manifest, workers=2):
        server = Server(manifest, workers=workers)
        self.addCleanup(server.__exit__, None, None, None)
        return server

    def connect(self, server):
        link = server.connected()
        self.links.append(link)
        return link

    def asked(self, link, request, reply):
        link.sendall(h(request))
        self.assertEqual(take(link, len(h(reply))), h(reply), request)

    def test_one_after_the_other(self):
        link = self.connect(self.start(TWO_EMPTY))
        for request, reply in FIRST:
            self.asked(link, request, reply)
        self.assertEqual(rest(link), b"")

    def test_in_pieces(self):
        stream = b"".join(h(request) for request, _ in FIRST)
        for size in (1, 2, 3, 7, len(stream)):
            with self.subTest(size=size):
                link = self.connect(self.start(TWO_EMPTY))
                for at in range(0, len(stream), size):
                    link.sendall(stream[at:at + size])
                self.assertEqual(rest(link), b"".join(h(reply) for _, reply in FIRST))

    def test_two_clients(self):
        server = self.start(ONE_FILE)
        watcher = self.connect(server)
        self.asked(watcher, WATCH, WATCHED)
        other = self.connect(server)
        self.asked(other, OPEN, OPENED)
        other.sendall(h("00011171"))
        self.assertEqual(rest(other), b"")
        self.asked(watcher, NOTICES, CLOSED)

    def test_streams_that_end_a_session(self):
        server = self.start(TWO_EMPTY, workers=1)
        for stream in CUT + FAULTS:
            with self.subTest(stream):
                link = self.connect(server)
                link.sendall(h(stream))
                if stream in CUT:
                    link.shutdown(socket.SHUT_WR)
                self.assertEqual(rest(link), b"")
        places = 2 * len(CUT + FAULTS)
        request, _ = FIRST[1]
        self.asked(self.connect(server), request, f"00000009 00 {places + 1:016x}")

    def test_what_comes_before_a_fault_is_served(self):
        link = self.connect(self.start(TWO_EMPTY))
        link.sendall(h(FIRST[0][0]) + h(FAULTS[0]) + h(FIRST[1][0]))
        self.assertEqual(rest(link), h(FIRST[0][1]))


if __name__ == "__main__":
    unittest.main()
