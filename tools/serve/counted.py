"""Tests of the file that has, second by second, what a server counts."""
import os
import subprocess
import threading
import time

from ends import UNTIL_EOF, close_input
from refusing import REFUSE, turned_away
from servers import (DETACH, DONE, EINVAL, MANIFEST, NOT_MADE, SECONDS, SHOWN_ROOT, STAT_NO_PATH,
                     STAT_ROOT, Wrong, expect, frames, runs, serving)
from overlayd.frames import Op  # noqa: E402

STATUS = ["--status", "status"]

# How many files are copied up until a temp is seen, and how many bytes the replies of one have.
COPIES, ANSWERED = 40_000, 17 + 13 + 13


def lines_of(path):
    """What the lines of a status say, by their words, in their order."""
    text = path.read_text()
    expect(text.endswith("\n"), True, "whether the last line ends")
    return dict(line.split(" ") for line in text.splitlines())


def wait_for(path, **wanted):
    """Waits until a status says all this."""
    until = time.monotonic() + SECONDS
    while time.monotonic() < until:
        found = lines_of(path)
        if all(found.get(word) == str(value) for word, value in wanted.items()):
            return found
        time.sleep(0.05)
    raise Wrong(f"the status says {found}, and not {wanted}")


def what_is_counted(program):
    """Clients, sessions, calls and places, while they change and in the end."""
    with serving(program, 2, None, manifest="history = 9\n" + MANIFEST, stdin=subprocess.PIPE,
                 more=[*UNTIL_EOF, *REFUSE, *STATUS]) as server:
        path = server.socket.parent / "status"
        found = wait_for(path, state="serves")
        expect(list(found), ["state", "workers", "clients", "sessions", "unattached",
                             "turned_away", "calls", "temps", "places", "places_used",
                             "room"], "words")
        wait_for(path, workers=2, clients=0, sessions=0, calls=0, places=9, places_used=0, room=9)
        with server.peer() as first, server.peer() as second:
            first.ask(STAT_ROOT, DONE, SHOWN_ROOT, "stat /")
            first.ask(STAT_NO_PATH, NOT_MADE, EINVAL, "stat x")
            second.ask(STAT_ROOT, DONE, SHOWN_ROOT, "stat / of the second")
            with server.peer() as late:
                turned_away(late, "one too many")
            second.ask(STAT_ROOT, DONE, SHOWN_ROOT, "stat / again")
            # Two attaches and three calls have places, the last of which is seen with the next call;
            # a call whose path text is refused is none.
            found = wait_for(path, clients=2, sessions=2, calls=3, turned_away=1)
            expect(found["places_used"] in ("4", "5"), True, f"places_used {found}")
            second.ask(DETACH, DONE, b"", "detach")
            wait_for(path, clients=1, sessions=2, places_used=6, room=2)
            first.ask(STAT_ROOT, DONE, SHOWN_ROOT, "stat / alone")
            first.ask(DETACH, DONE, b"", "detach of the first")
        wait_for(path, clients=0, places_used=8, room=1)
        with server.peer() as late:
            expect(late.take(100), bytes.fromhex("00000002 02 1c"), "a refused attach")
        wait_for(path, unattached=1, sessions=3)
        close_input(server)
        expect(server.end(), "", "standard error")
        wait_for(path, state="ended", clients=0, sessions=3, unattached=1, turned_away=1, calls=4)
        expect([name for name in os.listdir(path.parent) if ".part" in name], [], "what is left")


def without_a_history(program):
    """Where no history is kept there are no places."""
    with serving(program, 1, 1, more=["--no-history", *STATUS]) as server:
        path = server.socket.parent / "status"
        with server.peer() as client:
            for _ in range(3):
                client.ask(STAT_ROOT, DONE, SHOWN_ROOT, "stat /")
            found = wait_for(path, clients=1, calls=3)
            expect(list(found.items())[-1], ("places", "none"), "the last line")
            client.ask(DETACH, DONE, b"", "detach")
        expect(server.end(), "", "standard error")
        wait_for(path, state="ended", clients=0, sessions=1)


def files_that_are_copied_up(program):
    """While a client has one file after the other copied up in steps, a temp is seen, and none
    stands where it only waits, or is gone."""
    size = 256 << 20
    links = "".join(f'{{ path = "/{name}", kind = "link", to = "/0" }},\n'
                    for name in range(1, COPIES))
    manifest = f"""
file_limit = {size}
[[layer]]
[[layer]]
entry = [{{ path = "/0", kind = "file", zeros = {size} }},
{links}]
"""
    with serving(program, 1, 1, more=["--no-history", *STATUS], manifest=manifest) as server:
        path = server.socket.parent / "status"
        wait_for(path, state="serves", temps=0)
        with server.peer() as client:
            copying = [threading.Thread(target=client.send, args=(copies(),)),
                       threading.Thread(target=pass_over, args=(client, COPIES * ANSWERED))]
            for thread in copying:
                thread.start()
            wait_while(lambda: lines_of(path)["temps"] == "0", "no temp is seen")
            for thread in copying:
                thread.join()
            wait_for(path, clients=1, temps=0)
            client.ask(DETACH, DONE, b"", "detach")
        expect(server.end(), "", "standard error")
        wait_for(path, state="ended", temps=0)


def copies():
    """Requests that have the file of each name copied up, and remove the copy."""
    return b"".join(frames.request(Op.OPEN, 1, 0, b"/%d" % name) + frames.request(Op.CLOSE, 0)
                    + frames.request(Op.UNLINK, b"/%d" % name) for name in range(COPIES))


def pass_over(client, size):
    """Takes so many bytes of replies."""
    while size > 0:
        size -= len(client.take(min(size, 1 << 12)))


def a_status_that_cannot_be_written(program):
    """A link, a device, a fifo, a directory, the file of --save: refused before there is a socket,
    and left."""
    with runs(program) as (folder, run):
        (folder / "aim").write_text("aim")
        (folder / "link").symlink_to("aim")
        (folder / "directory").mkdir()
        os.mkfifo(folder / "fifo")
        words = ("serve", "manifest.toml", "s", "--sessions", "1", "--status")
        for place in ("link", "directory", "fifo", "/dev/null", "none/status"):
            expect(run(*words, place), (1, "", "overlayd: cannot write status\n"), place)
        told = run(*words, "link", "--explain")[2].splitlines()
        expect(told, ["overlayd: cannot write status",
                      "overlayd: link: is there and no regular file"], "the second line")
        told = run(*words, "one", "--save", "one", "--explain")[2].splitlines()
        expect(told, ["overlayd: cannot write status",
                      "overlayd: --save and --status name one file"], "the file of --save")
        expect(((folder / "aim").read_text(), (folder / "s").exists()), ("aim", False), "is left")
        expect((folder / "one").exists(), False, "nothing is made")


def a_status_that_is_lost(program):
    """While it serves, what can't be written any more stops nothing; what was there is replaced."""
    with serving(program, 1, 1, more=STATUS) as server:
        path = server.socket.parent / "status"
        wait_for(path, state="serves")
        path.unlink()
        path.mkdir()
        with server.peer() as client:
            client.ask(STAT_ROOT, DONE, SHOWN_ROOT, "stat /")
            time.sleep(1.5)
            path.rmdir()
            path.write_text("state of another time\n")
            wait_while(lambda: not path.read_text().startswith("state serves\n"),
                       "the status isn't written any more")
            client.ask(DETACH, DONE, b"", "detach")
        expect(server.end(), "", "standard error")
        wait_for(path, state="ended", sessions=1, calls=1)


def wait_while(is_so, fault):
    """Waits until something isn't so any more."""
    until = time.monotonic() + SECONDS
    while is_so():
        if time.monotonic() > until:
            raise Wrong(fault)
        time.sleep(0.05)


TESTS = [what_is_counted, without_a_history, files_that_are_copied_up,
         a_status_that_cannot_be_written, a_status_that_is_lost]
