"""Tests of a server that ends with its standard input."""
import contextlib
import subprocess
import time

from servers import (DONE, SECONDS, SHOWN_ROOT, STAT_ROOT, WORKED, Wrong, expect, frames,
                     serving)
from overlayd.frames import Op

# Names of a file of a lower layer, each of which is copied up for itself, in 257 steps.
FILES = 5_000
LARGE = "[[layer]]\n[[layer]]\n" + "".join(
    f'[[layer.entry]]\npath = "/{number}"\n' + (
        'kind = "link"\nto = "/0"\n' if number else 'kind = "file"\nzeros = 1048576\n')
    for number in range(FILES))
UNTIL_EOF = ["--until-eof"]


def close_input(server):
    server.run.stdin.close()
    server.run.stdin = None


def idle_clients(program):
    """When standard input ends, idle clients are detached, what waits for a worker is closed, and
    the server ends with status 0."""
    with serving(program, 3, None, more=[*UNTIL_EOF, "-v"], stdin=subprocess.PIPE) as server:
        asked, silent, begun = server.peer(), server.peer(), server.peer()
        asked.ask(STAT_ROOT, DONE, SHOWN_ROOT, "stat /")
        begun.send(STAT_ROOT[:3])
        waiting = server.peer()
        waiting.send(STAT_ROOT)
        server.run.stdin.write(b"what is written there is no end\n" * 100)
        time.sleep(0.2)
        asked.ask(STAT_ROOT, DONE, SHOWN_ROOT, "stat / before the end")
        close_input(server)
        for peer in (asked, silent, begun, waiting):
            peer.ended("when standard input has ended")
            peer.link.close()
        told = server.end()
        for _ in range(2):
            try:
                server.peer_at_once()
                raise Wrong("a connection to a server that has ended")
            except ConnectionRefusedError:
                pass
    expect(told.count(" begins as client "), 3, "sessions")
    expect(told.count(" ends after "), 3, "sessions that end")
    expect(told.splitlines()[-1][:28], "overlayd: served 3 sessions ", "summary")


def replies_in(data):
    """How many whole replies these bytes are."""
    count = 0
    while data:
        length = 4 + int.from_bytes(data[:4], "big")
        expect(len(data) >= length > 4, True, "a whole reply")
        data = data[length:]
        count += 1
    return count


def all_that_comes(link):
    """All bytes up to the end of a stream, of which more was asked than is answered."""
    data = b""
    with contextlib.suppress(ConnectionResetError):
        while piece := link.recv(65_536):
            data += piece
    return data


def wait_for_a_copy(peer):
    """Waits until the second name has a file of its own, which has that name alone."""
    until = time.monotonic() + SECONDS
    while time.monotonic() < until:
        peer.send(frames.request(Op.STAT, b"/1"))
        if peer.reply()[2].endswith(b"\0\0\0\1"):
            return
    raise Wrong("nothing is copied up")


def replies_before_the_end(program):
    """How many of many calls of many steps are answered when standard input ends meanwhile."""
    with serving(program, 2, None, manifest=LARGE, more=UNTIL_EOF, stdin=subprocess.PIPE) as server:
        with server.peer() as client, server.peer() as other:
            client.send(b"".join(frames.request(Op.OPEN, 1, 0, b"/%d" % number)
                                 + frames.request(Op.CLOSE, 0) for number in range(FILES)))
            wait_for_a_copy(other)
            close_input(server)
            count = replies_in(all_that_comes(client.link))
        expect(server.end(), "", "standard error")
    return count


def calls_on_their_way(program):
    """A call is stopped at its next step: each reply that comes is whole, and the last ones don't
    come, unless all were made before the end was seen."""
    if all(replies_before_the_end(program) == 2 * FILES for _ in range(5)):
        raise Wrong("all calls are made")


def fill(link):
    """Sends requests until none is taken for a second."""
    link.setblocking(False)
    last = time.monotonic()
    while time.monotonic() - last < 1:
        try:
            link.send(STAT_ROOT * 1_000)
            last = time.monotonic()
        except BlockingIOError:
            time.sleep(0.01)
    link.setblocking(True)


def a_client_that_does_not_read(program):
    """A client that reads nothing doesn't hold the server when standard input has ended."""
    with serving(program, 1, None, more=UNTIL_EOF, stdin=subprocess.PIPE) as server:
        with server.peer() as client:
            fill(client.link)
            close_input(server)
            expect(server.end(), "", "standard error")


def no_standard_input(program):
    """Without a standard input, or with one that has ended, the server ends at once."""
    for more in ({}, {"closed": (0,)}, {"closed": (0, 1, 2)}):
        with serving(program, 2, None, more=UNTIL_EOF, **more) as server:
            expect(server.end(), "", "standard error")


def sessions_that_are_over_before(program):
    """With `--sessions` the server may end before standard input does."""
    with serving(program, 1, 1, more=UNTIL_EOF, stdin=subprocess.PIPE) as server:
        with server.peer() as client:
            client.send(WORKED)
            client.answered(DONE, SHOWN_ROOT, "stat /")
        expect(server.run.wait(SECONDS), 0, "exit status")
        close_input(server)
        expect(server.end(), "", "standard error")


def a_connection_without_a_second_descriptor(program):
    """By what ends the server a connection has a descriptor more; where there is none, its client
    is refused with 24, and the server goes on."""
    with serving(program, 1, None, more=UNTIL_EOF, files=6, stdin=subprocess.PIPE) as server:
        for _ in range(2):
            with server.peer() as client:
                expect(client.take(100), bytes.fromhex("00000002 02 18"), "a refused attach")
        close_input(server)
        expect(server.end(), "", "standard error")


TESTS = [idle_clients, calls_on_their_way, a_client_that_does_not_read, no_standard_input,
         sessions_that_are_over_before, a_connection_without_a_second_descriptor]
