"""A server that the test plays: small, right where it isn't told to be wrong."""

import os
import socket
import struct
import tempfile
import threading
import time

WAIT = 60.0
DIRECTORY, FILE, LINK = 1, 2, 3
STAT, READLINK, CHMOD, CHOWN, SETATTR, GETATTR, DELATTR, ATTRS = range(1, 9)
MKDIR, SYMLINK, OPEN, UNLINK, RMDIR, NAME, RENAME, READ, WRITE = range(9, 18)
SEEK, TRUNCATE, FSTAT, LIST, CLOSE = range(18, 23)
NOTHING = (MKDIR, SYMLINK, CHMOD, CHOWN, SETATTR, DELATTR, UNLINK, RMDIR, NAME, RENAME, TRUNCATE,
           CLOSE)


def frame(body):
    return len(body).to_bytes(4, "big") + body


def made(answer=b"", place=1):
    """A reply of status 0."""
    return frame(b"\0" + place.to_bytes(8, "big") + answer)


def refused(number, place=1):
    """A reply of status 1."""
    return frame(b"\1" + place.to_bytes(8, "big") + bytes((number,)))


def attr(kind=FILE, mode=0o644, uid=0, gid=0, size=4, links=1):
    return struct.pack(">BIIIQI", kind, mode, uid, gid, size, links)


def texts(*names):
    return struct.pack(">H", len(names)) + b"".join(
        struct.pack(">H", len(name)) + name for name in names)


class Session:
    """One connection: it has descriptors, and answers request by request."""

    def __init__(self, server, link):
        self.server, self.link, self.open = server, link, set()

    def take(self, count):
        data = b""
        while len(data) < count:
            piece = self.link.recv(count - len(data))
            if not piece:
                raise EOFError
            data += piece
        return data

    def run(self):
        with self.link:
            try:
                while self.step(self.take(int.from_bytes(self.take(4), "big"))):
                    pass
            except (EOFError, OSError):
                pass

    def step(self, body):
        """Answers a request, or lies; whether the session goes on."""
        self.server.asked.append(body)
        lie = self.server.lie(body)
        try:
            if lie is not None:
                return lie(self, body)
            self.link.sendall(self.answer(body[0], body[1:]))
            return True
        finally:
            self.server.answered.append(body)

    def answer(self, op, fields):
        if op == STAT and fields == b"\0\1x":
            return frame(b"\2\x16")
        if op in (STAT, FSTAT):
            is_root = op == STAT and fields == b"\0\1/"
            is_none = fields.endswith(b"/none")
            return refused(2) if is_none else made(attr(DIRECTORY, 0o755, size=0) if is_root
                                                   else attr(mode=self.server.mode))
        if op == OPEN:
            number = min(set(range(64)) - self.open)
            self.open.add(number)
            return made(struct.pack(">I", number))
        if op == CLOSE:
            self.open.discard(int.from_bytes(fields, "big"))
        if op in NOTHING:
            return made()
        count = min(4, int.from_bytes(fields[4:8], "big"))
        answers = {READLINK: b"\0\2to", GETATTR: b"\0\3one", ATTRS: texts(b"user.a"),
                   READ: count.to_bytes(4, "big") + b"four"[:count], LIST: texts(b"f", b"g"),
                   SEEK: fields[4:12], WRITE: max(0, len(fields) - 8).to_bytes(4, "big")}
        return made(answers[op])


class Played:
    """A server on a socket of its own.

    `lies` has, for an op, what is done in place of an answer the next time that it is asked:
    bytes that are sent, or a function of the session and the request that tells whether the
    session goes on. Connections over the number of sessions are taken and never answered, or turned
    away. All files have the mode `mode`.
    """

    def __init__(self, sessions=1 << 20, turns_away=False):
        self.folder = tempfile.TemporaryDirectory()
        self.path = os.path.join(self.folder.name, "s")
        self.lies, self.asked, self.answered, self.accepted = {}, [], [], 0
        self.sessions, self.turns_away, self.mode = sessions, turns_away, 0o644
        self.socket = None
        self.listen()

    def listen(self):
        self.socket = socket.socket(socket.AF_UNIX)
        self.socket.bind(self.path)
        self.socket.listen(64)
        self.links = []
        threading.Thread(target=self.accept, args=(self.socket,), daemon=True).start()

    def accept(self, listener):
        while True:
            try:
                link, _ = listener.accept()
            except OSError:
                return
            self.accepted += 1
            self.links.append(link)
            if len(self.links) <= self.sessions:
                threading.Thread(target=Session(self, link).run, daemon=True).start()
            elif self.turns_away:
                link.sendall(frame(b"\2\x10"))
                link.close()

    def has_answered(self, last):
        """Waits until a request is answered that ends so."""
        limit = time.monotonic() + WAIT
        while time.monotonic() < limit:
            if self.answered and self.answered[-1].endswith(last):
                return True
            time.sleep(0.005)
        return False

    def lie(self, body):
        lie = self.lies.pop(body[0], None)
        if isinstance(lie, bytes):
            def send(session, _, lie=lie):
                session.link.sendall(lie)
                return True
            return send
        return lie

    def stop(self):
        """As if it was killed: all connections end, and none is taken."""
        self.socket.shutdown(socket.SHUT_RDWR)
        self.socket.close()
        for link in self.links:
            try:
                link.shutdown(socket.SHUT_RDWR)
            except OSError:
                pass
            link.close()
        os.unlink(self.path)

    def __enter__(self):
        return self

    def __exit__(self, kind, error, trace):
        if os.path.exists(self.path):
            self.stop()
        self.folder.cleanup()
