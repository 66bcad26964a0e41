"""Tests of the lines that a server tells with `--verbose`."""
from servers import (DETACH, DONE, ENOSPC, MANIFEST, NOT_MADE, SHOWN_ROOT, STAT_ROOT, expect,
                     serving)

# More than there are addresses, so that no thread can be given a stack of so many bytes.
NO_STACK = 1 << 48


def lines(*told):
    return "".join(f"overlayd: {line}\n" for line in told)


def a_history_that_fills(program):
    """A line where nine tenths of the history are used, and one where it is full, each once; what
    is kept for the detach of a client is used."""
    with serving(program, 1, 2, manifest="history = 20\n" + MANIFEST, more=["-v"]) as server:
        with server.peer() as client:
            for _ in range(18):
                client.ask(STAT_ROOT, DONE, SHOWN_ROOT, "stat /")
            for _ in range(2):
                client.ask(STAT_ROOT, NOT_MADE, ENOSPC, "stat / in a full history")
            client.ask(DETACH, DONE, b"", "detach")
        with server.peer() as late:
            expect(late.take(100), bytes.fromhex("00000002 02 1c"), "a refused attach")
        expect(server.end(), lines(
            "listening on socket, workers: 1", "session 1 begins as client 0",
            "nine tenths of the history's 20 places are used",
            "the history is full: its 20 places are used",
            "session 1 ends after 20 calls: detached", "session 2 is not attached: ENOSPC",
            "served 2 sessions and 20 calls; the history has 20 entries"), "standard error")


def a_history_that_is_kept_for_detaches(program):
    """Two clients have four of six places: two calls use nine tenths, which are all of six."""
    with serving(program, 2, 1, more=["-v", "--history", "6"]) as server:
        with server.peer() as first, server.peer() as second:
            first.ask(STAT_ROOT, DONE, SHOWN_ROOT, "stat /")
            second.ask(STAT_ROOT, DONE, SHOWN_ROOT, "stat /")
            first.ask(STAT_ROOT, NOT_MADE, ENOSPC, "stat / in a full history")
            for client in (first, second):
                client.ask(DETACH, DONE, b"", "detach")
        told = server.end()
    for line in ("nine tenths of the history's 6 places are used",
                 "the history is full: its 6 places are used"):
        expect(told.count(lines(line)), 1, line)


def a_server_without_threads(program):
    """Where the system gives no thread more, one worker after the other serves, which is told."""
    with serving(program, 3, 1, stack=NO_STACK, more=["--verbose"]) as server:
        expect(server.first_line(), lines("listening on socket, workers: 3"), "first line")
        expect(server.first_line(),
               lines("1 of 3 workers serve: the system gives no more threads"), "second line")
        for _ in range(3):
            with server.peer() as client:
                client.ask(STAT_ROOT, DONE, SHOWN_ROOT, "stat /")
                client.ask(DETACH, DONE, b"", "detach")
        expect(server.end().count(" begins as client "), 3, "sessions")
    with serving(program, 2, 1, stack=NO_STACK) as server:
        for _ in range(2):
            with server.peer() as client:
                client.ask(DETACH, DONE, b"", "detach")
        expect(server.end(), "", "standard error without --verbose")


TESTS = [a_history_that_fills, a_history_that_is_kept_for_detaches, a_server_without_threads]
