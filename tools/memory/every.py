"""What needs no memory, with every request for memory refused."""
import socket
import time

from framed import request_of
from played import Play
from refusing import EACH, SECONDS, expect
from rows import Line
from served import Service

MANIFEST = """layer = [{}, {entry = [
  {path = "/f", kind = "file", zeros = 8193},
  {path = "/g", kind = "file", text = "ab"},
]}]
"""
MERGE = ["d 0755 0 0 0 1 /", "f 0644 0 0 8193 1 /f", "f 0644 0 0 2 1 /g"]
CLOSED = "1:00000010:0:\\-"
IGNORED = "1:00008000:0:\\-"


def line_of(text):
    """A line and what it prints, which stands behind an arrow."""
    asked, _, wanted = text.partition(" => ")
    return Line(asked, [wanted] if wanted else [])


def plays(stage, *texts):
    stage.plays(map(line_of, texts))


def without_memory(stage, *texts):
    """Each of these lines prints this with every request for memory refused."""
    for line in map(line_of, texts):
        expect(stage.refuse(line, EACH), line.wanted, f"{line.text}, without memory")


def begin(stage):
    """Client 0 has `/g` open twice and watches it, as client 1 does."""
    plays(stage, "attach => client 0", "attach => client 1", "0 open r /g => 0 ok 0",
          "0 open r /g => 0 ok 1", "0 arm 0 18 /g => 0 ok 1", "1 arm 0 18 /g => 1 ok 1")


def half_copied(play, client):
    """This client has begun to copy `/f` up."""
    plays(play, f"{client} start open w /f", f"{client} step => {client} more",
          f"{client} step => {client} more", "work => work 1")


def played(program, library):
    """A script's descriptors, watches and calls in steps are given up, and heard of."""
    with Play(program, library, MANIFEST) as play:
        begin(play)
        plays(play, f"# {'long ' * 40}")
        play.plays([Line("merge", MERGE)])
        without_memory(play, "0 seek 0 1 set => 0 ok 1", "0 close 0 => 0 ok", "0 disarm 1 => 0 ok")
        plays(play, "0 close 0 => 0 EBADF", "0 read 1 9 => 0 ok ab",
              f"0 notices 9 => 0 ok {CLOSED} {IGNORED}", f"1 notices 9 => 1 ok {CLOSED}")
        half_copied(play, 0)
        without_memory(play, "0 drop => 0 dropped", "work => work 0", "0 detach => 0 detached")
        plays(play, f"1 notices 9 => 1 ok {CLOSED}", "attach => client 2", "2 open r /g => 2 ok 0")
        half_copied(play, 2)
        without_memory(play, "2 detach => 2 detached", "work => work 0")
        plays(play, f"1 notices 9 => 1 ok {CLOSED}")
        play.plays([Line("merge", MERGE)])
        play.end()


def served(program, library):
    """A detach is answered and heard of. Another call is answered by 12, and made afterwards."""
    with Service(program, library, MANIFEST, 3) as service:
        begin(service)
        without_memory(service, "0 seek 0 1 set => 0 not taken ENOMEM",
                       "0 close 0 => 0 not taken ENOMEM", "0 disarm 1 => 0 not taken ENOMEM")
        plays(service, "0 seek 0 0 cur => 0 ok 0", "0 close 0 => 0 ok", "0 disarm 1 => 0 ok",
              f"0 notices 9 => 0 ok {CLOSED} {IGNORED}", f"1 notices 9 => 1 ok {CLOSED}")
        without_memory(service, "0 detach => 0 detached")
        service.peers[0].has_ended()
        plays(service, f"1 notices 9 => 1 ok {CLOSED}")
        service.end()


def refused(program, library):
    """Clients that can't be attached are told so, and with `--verbose` so is standard error."""
    with Service(program, library, MANIFEST, 2, ["--verbose"]) as service:
        plays(service, "attach => client 0")
        without_memory(service, *["attach => not attached ENOMEM"] * 2)
        plays(service, "attach => client 1", "1 stat / => 1 ok d 0755 0 0 0 1")
        service.settle()
        service.end("listening on socket, workers: 2", "session 1 begins as client 0",
                    "session 2 is not attached: ENOMEM", "session 3 is not attached: ENOMEM",
                    "session 4 begins as client 1")


def vanishing(program, library):
    """Clients that vanish, at once or once they have said that no more comes, between two requests
    or inside one, are detached and heard of."""
    ends = [(cut, seen) for cut in (b"", request_of("stat", "/g")[:3]) for seen in (False, True)]
    with Service(program, library, MANIFEST, 2) as service:
        plays(service, "attach => client 0", "0 arm 0 18 /g => 0 ok 1")
        for client, (cut, seen) in enumerate(ends, 1):
            before = service.descriptors()
            plays(service, f"attach => client {client}", f"{client} open r /g => {client} ok 0")
            service.settle()
            service.refusals.begin(EACH)
            vanish(service.peers[client], cut, seen)
            is_gone(service, before)
            service.refusals.end()
            service.goes_on(service.place)
            plays(service, f"0 notices 9 => 0 ok {CLOSED}")
        service.end()


def vanish(peer, cut, seen):
    peer.link.sendall(cut)
    if seen:
        peer.link.shutdown(socket.SHUT_WR)
        peer.has_ended()
    peer.link.close()


def is_gone(service, before):
    """The server has as few descriptors as before the client came."""
    until = time.monotonic() + SECONDS
    while service.descriptors() != before:
        service.runs_on(until)
    service.settle()


TESTS = {"play, nothing given": played, "serve, nothing given": served,
         "serve, nothing given, clients that are refused": refused,
         "serve, nothing given, clients that vanish": vanishing}
