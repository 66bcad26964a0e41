"""Tests of connections that do nothing, and of a standard error that nobody reads."""
import contextlib
import fcntl
import re
import struct
import time

from servers import (ARM_FILE, CLOSED, DETACH, DONE, NOTICES, OPEN_FILE, SHOWN_ROOT, STAT_ROOT,
                     expect, serving, together)

IDLE = 1
# Two lines each, which are more than a pipe of one page has room for and 1,024 that wait.
SESSIONS = 600
PAGE = 4_096
SET_PIPE_SIZE = 1031


def times_out(peer, began):
    """The server ends this connection, and not before it did nothing for so long."""
    peer.ended("a connection that does nothing")
    waited = time.monotonic() - began
    expect(waited > 0.9 * IDLE, True, f"whether {waited:.2f} s are long enough")


def reads_nothing(peer):
    """Sends requests without an end, and reads no reply, until its stream is closed."""
    with contextlib.suppress(BrokenPipeError, ConnectionResetError):
        while True:
            peer.send(STAT_ROOT * 1_000)


def goes_on(watcher):
    """Asks until it hears that a file is closed, and detaches."""
    watcher.ask_until(NOTICES, CLOSED)
    watcher.ask(DETACH, DONE, b"", "detach")


def idle_connections(program):
    """With `--idle` a connection that sends nothing, stops inside a frame, or reads nothing is
    ended, and its client detached; one that goes on is not."""
    with serving(program, 5, 1, more=["--idle", str(IDLE), "--verbose"]) as server:
        watcher, silent, begun, opened, greedy = peers = [server.peer() for _ in range(5)]
        watcher.ask(ARM_FILE, DONE, struct.pack(">i", 1), "arm")
        began = time.monotonic()
        begun.send(STAT_ROOT[:3])
        opened.ask(OPEN_FILE, DONE, struct.pack(">I", 0), "open")
        works = [lambda: goes_on(watcher), lambda: times_out(silent, 0),
                 lambda: times_out(begun, began), lambda: times_out(opened, began),
                 lambda: reads_nothing(greedy)]
        together(5, lambda index: works[index]())
        told = server.end()
        for peer in peers:
            peer.link.close()
    ends = re.findall(r" ends after (\d+) calls: (.*)\n", told)
    expect(sorted(end for _, end in ends), ["detached"] + ["timed out"] * 4, "ends")
    made = sorted(int(calls) for calls, end in ends if end == "timed out")
    expect(made[:3], [0, 0, 1], "calls of those that did nothing")


def drips(peer):
    """Sends a byte now and then of a frame that it never ends, until its stream is closed."""
    began = time.monotonic()
    with contextlib.suppress(BrokenPipeError, ConnectionResetError):
        for byte in struct.pack(">IB", 60_000, 17) + bytes(75):
            peer.send(bytes((byte,)))
            time.sleep(IDLE / 4)
    waited = time.monotonic() - began
    expect(0.9 * IDLE < waited < 10 * IDLE, True, f"whether it held its worker {waited:.2f} s")


def sends_in_time(peer):
    """Sends each request in three pieces within its time, as often as takes far longer."""
    for turn in range(6):
        for piece in (STAT_ROOT[:1], STAT_ROOT[1:5], STAT_ROOT[5:] + STAT_ROOT * (turn % 2)):
            time.sleep(IDLE / 4)
            peer.send(piece)
        for _ in range(1 + turn % 2):
            peer.answered(DONE, SHOWN_ROOT, f"stat / in pieces, turn {turn}")
    peer.ask(DETACH, DONE, b"", "detach")


def bytes_now_and_then(program):
    """With `--idle` a frame has its time from its first byte, however often a byte of it comes; a
    frame that comes in pieces, and in time, is answered."""
    with serving(program, 2, 1, more=["--idle", str(IDLE), "--verbose"]) as server:
        slow, steady = server.peer(), server.peer()
        works = [lambda: drips(slow), lambda: sends_in_time(steady)]
        together(2, lambda index: works[index]())
        slow.link.close()
        steady.link.close()
        told = server.end()
    ends = sorted(re.findall(r" ends after (\d+) calls: (.*)\n", told))
    expect(ends, [("0", "timed out"), ("9", "detached")], "ends")


def lines_that_nobody_reads(program):
    """Where nobody reads standard error, sessions go on; lines that are too many are counted."""
    with serving(program, 2, SESSIONS // 2, more=["--verbose"]) as server:
        fcntl.fcntl(server.run.stderr, SET_PIPE_SIZE, PAGE)
        for _ in range(SESSIONS):
            with server.peer() as client:
                client.ask(DETACH, DONE, b"", "detach")
        told = server.end().splitlines()
    lost = [int(line.rpartition(" ")[2]) for line in told if " lines lost: " in line]
    of_sessions = sum(line.startswith("overlayd: session ") for line in told)
    expect(bool(lost), True, "whether lines are lost")
    expect(of_sessions + sum(lost), 2 * SESSIONS, "lines of sessions, those that are lost too")
    expect(of_sessions > 1_024, True, "whether those that waited are told")
    summary = (f"overlayd: served {SESSIONS} sessions and 0 calls;"
               f" the history has {2 * SESSIONS} entries")
    expect(told[-1], summary, "summary")


TESTS = [idle_connections, bytes_now_and_then, lines_that_nobody_reads]
