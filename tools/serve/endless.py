"""Tests of a server whose history is kept nowhere."""
import os
import subprocess
from pathlib import Path

from servers import (DETACH, DONE, EINVAL, ENOENT, MANIFEST, MKDIR, NOT_MADE, REFUSED, SHOWN_ROOT,
                     STAT_ABSENT, STAT_NO_PATH, STAT_ROOT, expect, frames, runs, serving, together)
from overlayd.frames import Op
import ends

# A build without proofs keeps what is freed for a while, unless it is told not to.
os.environ.setdefault("ASAN_OPTIONS",
                      "quarantine_size_mb=0:thread_local_quarantine_size_kb=0")

NO_HISTORY = ["--no-history"]
# How many calls one client makes, and how many clients come, beyond the first ones.
CALLS = int(os.environ.get("OVERLAYD_ENDLESS_CALLS", "100000"))
CLIENTS = int(os.environ.get("OVERLAYD_ENDLESS_CLIENTS", "10000"))
FIRST, AT_ONCE = 1_000, 500
# What a program's allocator may take for itself.
GROWTH_KB = 384


def resident(server):
    """How much memory a server has, in units of 1,024 bytes."""
    status = Path("/proc", str(server.run.pid), "status").read_text()
    return next(int(line.split()[1]) for line in status.splitlines() if line.startswith("VmRSS"))


def make_calls(peer, count):
    """So many `stat`s, some at once; each is answered at the place behind that of the one before."""
    for begin in range(0, count, AT_ONCE):
        some = min(AT_ONCE, count - begin)
        peer.send(STAT_ROOT * some)
        for _ in range(some):
            peer.answered(DONE, SHOWN_ROOT, "stat /")
        expect(peer.places[-1] - peer.places[-some], some - 1, "places of one client's calls")
        del peer.places[:-1]


def come_and_go(server, count):
    """So many clients, one after the other, each of which makes a call; the place of the last."""
    for _ in range(count):
        with server.peer() as guest:
            guest.send(STAT_ROOT + DETACH)
            guest.answered(DONE, SHOWN_ROOT, "stat / of a guest")
            guest.answered(DONE, b"", "detach of a guest")
            last = guest.places[-1]
    return last


def a_session(program):
    """A session is answered as ever, byte for byte."""
    answers = []
    for more in ([], NO_HISTORY):
        with serving(program, 1, 1, more=more) as server, server.peer() as client:
            client.send(STAT_ROOT + MKDIR + STAT_ABSENT + STAT_NO_PATH + DETACH)
            answers.append(ends.all_that_comes(client.link))
            expect(server.end(), "", "standard error")
    expect(answers[1], answers[0], "what comes without a history")
    expect(ends.replies_in(answers[0]), 5, "replies")


def more_calls_than_a_history_has_places(program):
    """The length that a manifest tells isn't asked, and no line tells how much of it is used."""
    with serving(program, 2, 2, manifest="history = 3\n" + MANIFEST,
                 more=[*NO_HISTORY, "-v"]) as server:
        with server.peer() as client:
            client.ask(STAT_ROOT, DONE, SHOWN_ROOT, "stat /")
            make_calls(client, 2_000)
            client.ask(STAT_ABSENT, REFUSED, ENOENT, "stat /x")
            client.ask(STAT_NO_PATH, NOT_MADE, EINVAL, "stat x")
            for _ in range(2):
                with server.peer() as guest:
                    guest.ask(STAT_ROOT, DONE, SHOWN_ROOT, "stat / of a guest")
                    guest.ask(DETACH, DONE, b"", "detach of a guest")
            client.ask(DETACH, DONE, b"", "detach")
            expect(client.places[-1], 2_000 + 3 + 2 * 3, "the place of the detach")
        with server.peer() as late:
            late.ask(DETACH, DONE, b"", "detach of the last one")
        told = server.end()
    expect("places are used" in told, False, "lines of how much is used")
    summary = "overlayd: served 4 sessions and 2004 calls; the history has 2012 entries"
    expect(told.splitlines()[-1], summary, "summary")


def clients_at_once(program):
    """Eight clients at once: no place is told twice, and none is left out."""
    def work(peer):
        for _ in range(500):
            peer.ask(STAT_ROOT, DONE, SHOWN_ROOT, "stat /")
        peer.ask(DETACH, DONE, b"", "detach")
        return peer.places

    with serving(program, 8, 1, more=NO_HISTORY) as server:
        peers = [server.peer() for _ in range(8)]
        told = [place for places in together(8, lambda index: work(peers[index]))
                for place in places]
        expect(server.end(), "", "standard error")
        for peer in peers:
            peer.link.close()
    expect(len(set(told)), 8 * 501, "places that differ")
    expect(max(told), 8 * 502 - 1, "the last place, of eight attaches and all replies")


def what_is_saved(program):
    """The upper is saved, by `--sessions` and by the end of standard input."""
    for more, stdin in ((["--sessions", "1"], subprocess.DEVNULL),
                        (ends.UNTIL_EOF, subprocess.PIPE)):
        more = [*NO_HISTORY, *more, "--save", "out.toml"]
        with serving(program, 1, None, more=more, stdin=stdin) as server:
            with server.peer() as client:
                client.ask(MKDIR, DONE, b"", "mkdir /a")
                client.ask(DETACH, DONE, b"", "detach")
            if stdin == subprocess.PIPE:
                ends.close_input(server)
            expect(server.end(), "", "standard error")
            saved = (server.socket.parent / "out.toml").read_text()
        expect('path = "/a"' in saved, True, "the directory that was made is saved")


def a_call_on_its_way(program):
    """When standard input ends, an idle client is detached and a call of many steps is stopped."""
    with serving(program, 2, None, manifest=ends.LARGE, more=[*NO_HISTORY, *ends.UNTIL_EOF],
                 stdin=subprocess.PIPE) as server:
        with server.peer() as client, server.peer() as idle:
            client.send(frames.request(Op.OPEN, 1, 0, b"/0"))
            idle.ask(STAT_ROOT, DONE, SHOWN_ROOT, "stat /")
            ends.close_input(server)
            expect(ends.replies_in(ends.all_that_comes(client.link)) <= 1, True, "replies")
            idle.ended("when standard input has ended")
        expect(server.end(), "", "standard error")


def no_memory_for_calls(program):
    """So many calls of one client leave the memory as it is behind the first."""
    with serving(program, 1, 1, more=NO_HISTORY) as server, server.peer() as client:
        make_calls(client, FIRST)
        before = resident(server)
        make_calls(client, CALLS)
        grown = resident(server) - before
        expect(grown <= GROWTH_KB, True, f"whether {grown} KiB more are few")
        client.ask(DETACH, DONE, b"", "detach")
        expect(client.places[-1], FIRST + CALLS + 1, "the place of the detach")
        expect(server.end(), "", "standard error")


def no_memory_for_clients(program):
    """So many clients that come and go leave the memory as it is behind the first."""
    with serving(program, 2, None, more=[*NO_HISTORY, *ends.UNTIL_EOF],
                 stdin=subprocess.PIPE) as server:
        come_and_go(server, FIRST)
        before = resident(server)
        last = come_and_go(server, CLIENTS)
        grown = resident(server) - before
        expect(grown <= GROWTH_KB, True, f"whether {grown} KiB more are few")
        expect(last, 3 * (FIRST + CLIENTS) - 1, "the last place")
        ends.close_input(server)
        expect(server.end(), "", "standard error")


def a_length_of_no_history(program):
    """A history that is kept nowhere has no length."""
    with runs(program) as (folder, run):
        told = run("serve", "manifest.toml", "s", "--no-history", "--history", "5")
        expect(told, (2, "", "overlayd: --history does not go with --no-history\n"), "both")
        expect(run("serve", "manifest.toml", "s", "--no-history=yes")[0], 2, "a value")
        expect((folder / "s").exists(), False, "no socket is made")
        expect("--no-history" in run("serve", "--help")[1], True, "help")


TESTS = [a_length_of_no_history, a_session, more_calls_than_a_history_has_places, clients_at_once,
         what_is_saved, a_call_on_its_way, no_memory_for_calls, no_memory_for_clients]
