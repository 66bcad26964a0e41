"""`overlayd serve` with requests for memory refused."""
import contextlib
import os
import signal
import socket
import time
from pathlib import Path

from framed import printed, request_of
from refusing import SECONDS, Wrong, expect
from rows import Line, made_at_once
from trials import Ended, Stage, Trial, texts_of_clients

NO_PATH = request_of("stat", "x")
NOT_A_PATH, NO_MEMORY = b"\x02\x16", b"\x02\x0c"
BEFORE, BEHIND = "ended the session in place of the call", "ended the session behind the call"


class Peer:
    """A connection."""

    def __init__(self, path):
        self.link = socket.socket(socket.AF_UNIX)
        self.link.settimeout(SECONDS)
        until = time.monotonic() + SECONDS
        while True:
            try:
                return self.link.connect(str(path))
            except (FileNotFoundError, ConnectionRefusedError):
                if time.monotonic() > until:
                    raise
                time.sleep(0.002)

    def take(self, count):
        data = b""
        while len(data) < count:
            piece = self.link.recv(count - len(data))
            if not piece:
                raise Ended("the session ended")
            data += piece
        return data

    def ask(self, request):
        """The body of the reply to a request. A refusal may have come before that is sent."""
        with contextlib.suppress(BrokenPipeError):
            self.link.sendall(request)
        try:
            return self.take(int.from_bytes(self.take(4), "big"))
        except ConnectionResetError:
            raise Ended("the session ended") from None

    def has_ended(self):
        """The stream ends here."""
        try:
            expect(self.link.recv(1), b"", "behind the end of a session")
        except ConnectionResetError:
            pass


def state_of(task):
    """The state of a thread, as the system tells it; None of one that has just ended."""
    with contextlib.suppress(OSError):
        return (task / "stat").read_text().rpartition(")")[2].split()[0]
    return None


class Service(Stage):
    """A server whose clients are those of a row. Of each reply the place in the history is that
    which `place` counts; where that isn't known the next reply tells it."""

    def __init__(self, program, library, manifest, workers, more=()):
        super().__init__(program, library, manifest,
                         ["serve", "manifest.toml", "socket", "--workers", str(workers), *more])
        self.path = Path(self.folder.name) / "socket"
        self.workers = workers
        self.peers = []
        self.place = 0

    def begin(self):
        until = time.monotonic() + SECONDS
        while not self.path.exists():
            self.runs_on(until)

    def runs_on(self, until):
        """The server has not ended, and what is waited for may still come."""
        if self.run.poll() is not None:
            raise Wrong(f"the server ended by itself: {self.run.returncode}")
        if time.monotonic() > until:
            raise Wrong("the server doesn't get on")
        time.sleep(0.001)

    def close(self):
        for peer in self.peers:
            peer.link.close()
        super().close()

    def attach(self):
        """A connection is attached once it is told that `x` is no path."""
        peer = Peer(self.path)
        self.peers.append(peer)
        body = peer.ask(NO_PATH)
        if body == NO_MEMORY:
            peer.has_ended()
            self.peers.pop().link.close()
            return "not attached ENOMEM"
        expect(body, NOT_A_PATH, "stat x")
        self.goes_on(self.place)
        return f"client {len(self.peers) - 1}"

    def goes_on(self, place):
        """The history has one entry more, at this place."""
        if self.place is not None:
            expect(place, self.place, "place in the history")
        self.place = None if place is None else place + 1

    def answer(self, line):
        if line.verb == "attach":
            return [self.attach()]
        words = line.words[1:]
        body = self.peers[line.client].ask(request_of(*words))
        text, place = printed(line.client, line.verb, body)
        if place is not None:
            self.goes_on(place)
        return [text]

    def refuse(self, line, nth):
        self.settle()
        return super().refuse(line, nth)

    def settle(self):
        """Waits until each thread of the server waits."""
        until = time.monotonic() + SECONDS
        asleep = 0
        while asleep < 2:
            self.runs_on(until)
            states = [state_of(task) for task in Path(f"/proc/{self.run.pid}/task").iterdir()]
            asleep = asleep + 1 if set(states) == {"S"} and len(states) >= self.workers else 0

    def descriptors(self):
        return len(os.listdir(f"/proc/{self.run.pid}/fd"))

    def end(self, *lines):
        """The server has told these lines, and goes on until a signal ends it."""
        wanted = "".join(f"overlayd: {line}\n" for line in lines)
        self.run.send_signal(signal.SIGTERM)
        out, told = self.run.communicate(timeout=SECONDS)
        expect((self.run.returncode, out, told.decode()), (-signal.SIGTERM, b"", wanted), "end")

    def tree(self, client, path="/"):
        """What is shown at a path and below it, and the bytes of each file."""
        (stat,), name = self.answer(Line(f"{client} stat {path}", [])), path.rstrip("/")
        yield f"stat {path}", stat
        opened = "rd" if stat.split(" ")[2] == "d" else "r"
        self.plays([Line(f"{client} open {opened} {path}", [f"{client} ok 0"])])
        asked = f"{client} list 0 256" if opened == "rd" else f"{client} read 0 65536"
        (inside,) = self.answer(Line(asked, []))
        self.plays([Line(f"{client} close 0", [f"{client} ok"])])
        yield f"what {path} holds", inside
        if opened == "rd":
            for below in inside.split(" ")[2:]:
                yield from self.tree(client, f"{name}/{below}")


class ServeTrial(Trial):
    """A row whose clients are served. Calls in steps are made at once."""

    def __init__(self, program, library, row):
        super().__init__(program, library, row._replace(lines=made_at_once(row)))
        self.without = {}

    def stage(self, places=None):
        manifest = self.row.text_of(places)
        return Service(self.program, self.library, manifest, self.row.clients + 1)

    def copies(self, line):
        return line.verb == "open"

    def look(self, stage, at, gone=()):
        """What a guest finds, after the clients but those that are gone."""
        attached = sum(line.verb == "attach" for line in self.row.lines[:at])
        clients = [client for client in range(attached) if client not in gone]
        seen = stage.looks(texts_of_clients(clients))
        open_now = stage.descriptors()
        guest = len(stage.peers)
        stage.attach()
        return [*seen, *stage.tree(guest), ("entries", stage.place), ("descriptors", open_now)]

    def look_without(self, at):
        with self.stage() as stage:
            stage.plays(self.row.lines[:at])
            return self.look(stage, at)

    def ended(self, _stage, at, nth):
        """A session that ended has left all as a detach does, be it in place of the call or, where
        only the frame of its reply found no memory, behind it. A client that is only just attached
        has made none of the row's calls."""
        line = self.row.lines[at]
        with self.stage() as stage:
            stage.plays(self.row.lines[:at])
            client = len(stage.peers) if line.client is None else line.client
            expect(stage.refuse(line, nth), None, line.text)
            stage.peers[client].has_ended()
            stage.place = None
            seen = self.look(stage, at, [client])
            stage.end()
        if line.client is not None and seen == self.look_left(at, client, True):
            return BEHIND
        self.is_as(seen, self.look_left(at, client, line.client is None), at)
        return BEFORE

    def look_left(self, at, client, made):
        """What is seen where a client leaves in place of a line, or where that was made before."""
        if (at, made) not in self.without:
            with self.stage() as stage:
                stage.plays(self.row.lines[:at + made])
                stage.plays([Line(f"{client} detach", [f"{client} detached"])])
                stage.peers[client].has_ended()
                self.without[at, made] = self.look(stage, at, [client])
        return self.without[at, made]
