"""A stand-in of a server, which expects given bytes and answers given bytes."""

import contextlib
import socket
import threading
import unittest

from overlayd import Client

# How long an end waits for the other one, on a machine that may be busy; none is ever needed.
WAIT = 60.0
DETACH = bytes.fromhex("000000011a")
DETACHED = bytes.fromhex("00000009 00 00000000000000ff")


def h(text):
    """The bytes of hexadecimal digits with spaces; bytes as they are."""
    return text if isinstance(text, bytes) else bytes.fromhex(text)


def take(link, count):
    """So many bytes of a socket, or as many as come before its end."""
    data = b""
    while len(data) < count:
        piece = link.recv(count - len(data))
        if not piece:
            break
        data += piece
    return data


class Scripted(threading.Thread):
    """Plays steps, pairs of the bytes that are expected and the bytes that answer them.

    With `piece` each answer is sent so many bytes at a time. At the end it closes the connection
    if it is to (`leaves`); else it answers one detach, if one comes, and then waits for the
    client's end. `fault` is what came otherwise than expected.
    """

    def __init__(self, link, steps, piece=0, leaves=False):
        super().__init__(daemon=True)
        self.link = link
        self.steps = [(h(asked), h(answer)) for asked, answer in steps]
        self.piece = piece
        self.leaves = leaves
        self.fault = None

    def run(self):
        with self.link:
            for asked, answer in self.steps:
                got = take(self.link, len(asked))
                if got != asked:
                    self.fault = f"{got.hex()} instead of {asked.hex()}"
                    return
                self.answer(answer)
            if not self.leaves:
                self.end()

    def answer(self, data):
        step = self.piece or len(data) or 1
        for at in range(0, len(data), step):
            self.link.sendall(data[at:at + step])

    def end(self):
        rest = take(self.link, len(DETACH))
        if rest == DETACH:
            self.answer(DETACHED)
            rest = take(self.link, 1)
        if rest:
            self.fault = f"{rest.hex()} after the end"


class ScriptedCase(unittest.TestCase):
    """A test whose clients speak to such servers."""

    @contextlib.contextmanager
    def client(self, *steps, piece=0, leaves=False, timeout=WAIT):
        """A client; at its end the server must have seen all that it expected, and no more."""
        near, far = socket.socketpair()
        server = Scripted(far, steps, piece, leaves)
        client = Client.from_socket(near, timeout=timeout)
        server.start()
        try:
            yield client
        finally:
            client.close()
            server.join(WAIT)
        self.assertFalse(server.is_alive())
        self.assertIsNone(server.fault)
