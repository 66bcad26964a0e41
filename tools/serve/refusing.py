"""Tests of a server that turns away whom no worker serves."""
import errno
import socket
import subprocess
import time

from ends import UNTIL_EOF, all_that_comes, close_input
from servers import (DETACH, DONE, SHOWN_ROOT, STAT_ROOT, Wrong, expect, serving, together)
from overlayd import Client

REFUSE = ["--refuse"]
# The frame of status 2 with EBUSY.
BUSY = bytes.fromhex("00000002 02 10")


def turned_away(peer, what):
    """A connection is told that no worker is free, and ended."""
    expect(peer.take(len(BUSY)), BUSY, what)
    peer.ended(what)


def no_worker_is_free(program):
    """Who finds no worker free is told so, whether it sends or is silent; who comes right behind one
    that left is served."""
    with serving(program, 2, None, more=[*UNTIL_EOF, *REFUSE, "-v"],
                 stdin=subprocess.PIPE) as server:
        with server.peer() as stays:
            stays.ask(STAT_ROOT, DONE, SHOWN_ROOT, "stat / of one that stays")
            for turn in range(20):
                with server.peer() as client:
                    client.ask(STAT_ROOT, DONE, SHOWN_ROOT, f"stat / of client {turn}")
                    if turn % 2:
                        client.ask(DETACH, DONE, b"", "detach")
            with server.peer() as other:
                other.ask(STAT_ROOT, DONE, SHOWN_ROOT, "stat / of the second")
                for sent in (b"", STAT_ROOT[:3], STAT_ROOT * 100):
                    began = time.monotonic()
                    with server.peer() as late:
                        late.send(sent)
                        turned_away(late, f"one too many that sends {len(sent)} bytes")
                    waited = time.monotonic() - began
                    expect(0.15 < waited < 10, True, f"whether {waited:.2f} s are a moment")
                with Client(str(server.socket)) as late:
                    try:
                        late.stat("/")
                        raise Wrong("a client too many is served")
                    except OSError as refused:
                        told = (refused.errno, refused.strerror)
                        expect(told, (errno.EBUSY, "the server has no free worker"), "Client")
                other.ask(STAT_ROOT, DONE, SHOWN_ROOT, "stat / of the second, still")
            stays.ask(STAT_ROOT, DONE, SHOWN_ROOT, "stat / of one that stays, still")
        close_input(server)
        told = server.end().splitlines()
    line = "overlayd: a connection is turned away: no worker is free"
    expect(told.count(line), 4, "lines of those that were turned away")
    expect(told[-2], "overlayd: turned away 4 connections, since no worker was free", "their sum")
    expect(told[-1][:29], "overlayd: served 22 sessions ", "summary")


def many_at_once(program):
    """A hundred that come at once are told so in a moment, and the one that was there goes on."""
    with serving(program, 1, None, more=[*UNTIL_EOF, *REFUSE], stdin=subprocess.PIPE) as server:
        with server.peer() as first:
            first.ask(STAT_ROOT, DONE, SHOWN_ROOT, "stat /")
            began = time.monotonic()
            peers = [server.peer() for _ in range(100)]
            together(100, lambda index: turned_away(peers[index], f"late client {index}"))
            expect(time.monotonic() - began < 20, True, "whether all are told in a moment")
            for peer in peers:
                peer.link.close()
            first.ask(STAT_ROOT, DONE, SHOWN_ROOT, "stat / of the first, still")
        close_input(server)
        expect(server.end(), "", "standard error")


def sessions_of_those_served(program):
    """Who is turned away counts as no session, and the server ends when its workers have ended."""
    with serving(program, 1, 2, more=REFUSE) as server:
        for _ in range(2):
            with server.peer() as first:
                first.ask(STAT_ROOT, DONE, SHOWN_ROOT, "stat /")
                with server.peer() as late:
                    turned_away(late, "one too many")
                first.ask(DETACH, DONE, b"", "detach")
        expect(server.end(), "", "standard error")


def an_end_with_one_that_waits(program):
    """When standard input ends, who waits for a moment is closed, told or untold, and all end."""
    with serving(program, 1, None, more=[*UNTIL_EOF, *REFUSE], stdin=subprocess.PIPE) as server:
        with server.peer() as first, server.peer() as waits:
            first.ask(STAT_ROOT, DONE, SHOWN_ROOT, "stat /")
            waits.send(STAT_ROOT)
            close_input(server)
            first.ended("when standard input has ended")
            expect(all_that_comes(waits.link) in (b"", BUSY), True, "one that waits at the end")
            expect(server.end(), "", "standard error")


def without_a_descriptor_to_tell_it(program):
    """Where no descriptor is left to tell it, who comes waits as without --refuse; with a worker
    that waits too, this one can't go on, as without it."""
    with serving(program, 1, 2, more=REFUSE, files=6) as server:
        with server.peer() as first, server.peer() as second:
            first.ask(STAT_ROOT, DONE, SHOWN_ROOT, "stat /")
            second.send(STAT_ROOT)
            second.link.settimeout(1)
            try:
                second.link.recv(1)
                raise Wrong("one that can't even be told is answered")
            except socket.timeout:
                second.link.settimeout(60)
            first.ask(DETACH, DONE, b"", "detach")
            second.answered(DONE, SHOWN_ROOT, "stat / of one that waited")
            second.ask(DETACH, DONE, b"", "detach of one that waited")
        expect(server.end(), "", "standard error")
    with serving(program, 3, 1, more=REFUSE, files=5) as server:
        expect(server.end(status=1), "overlayd: socket\n", "three workers without a descriptor")


TESTS = [no_worker_is_free, many_at_once, sessions_of_those_served, an_end_with_one_that_waits,
         without_a_descriptor_to_tell_it]
