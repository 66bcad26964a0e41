"""What opens and closes leave: no memory, however many there are."""
import os
import subprocess
import tempfile
from pathlib import Path

from refusing import expect

MANIFEST = """history = 1000000
layer = [{entry = [{path = "/g", kind = "file", text = "ab"}]}, {entry = [
  {path = "/d", kind = "dir"},
  {path = "/d/f", kind = "file", text = "ab"},
]}]
"""
# A file of a lower layer, one of the upper, a directory, and a file whose name goes while it is open.
ROUND = """0 open r /d/f
0 open r /g
0 open rd /d
0 open wc /n
0 unlink /n
0 close 0
0 close 1
0 close 2
0 close 3
"""
ANSWERS = b"0 ok 0\n0 ok 1\n0 ok 2\n0 ok 3\n" + b"0 ok\n" * 5
ROUNDS, FEW = 25_000, 250
# What a program's allocator may take for itself.
GROWTH_KB = 256


def resident(process):
    """How much memory the process has, in units of 1,024 bytes."""
    status = Path("/proc", str(process.pid), "status").read_text()
    return next(int(line.split()[1]) for line in status.splitlines() if line.startswith("VmRSS"))


def play(process, rounds):
    """Plays so many rounds, fifty at a time."""
    for _ in range(rounds // 50):
        process.stdin.write(ROUND.encode() * 50)
        process.stdin.flush()
        wanted = len(ANSWERS) * 50
        read = b""
        while len(read) < wanted:
            piece = os.read(process.stdout.fileno(), wanted - len(read))
            expect(bool(piece), True, "whether the program goes on")
            read += piece
        expect(read, ANSWERS * 50, "answers")


def opens(program, _):
    """100,000 opens and closes take no more memory than 1,000."""
    with tempfile.TemporaryDirectory(prefix="overlayd.") as folder:
        manifest = Path(folder, "manifest.toml")
        manifest.write_text(MANIFEST)
        with subprocess.Popen([program, "play", manifest], stdin=subprocess.PIPE,
                              stdout=subprocess.PIPE) as process:
            process.stdin.write(b"attach\n0 arm 0 fff /d\n")
            process.stdin.flush()
            expect(process.stdout.readline() + process.stdout.readline(),
                   b"client 0\n0 ok 1\n", "answers")
            play(process, FEW)
            before = resident(process)
            play(process, ROUNDS - FEW)
            grown = resident(process) - before
            expect(grown <= GROWTH_KB, True, f"whether {grown} KiB more are few")
            process.stdin.close()
            expect(process.wait(), 0, "status")


TESTS = {"play, 100,000 opens and closes": opens}
