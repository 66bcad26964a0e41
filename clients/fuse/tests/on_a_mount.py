"""Run in a folder of a mount: what programs of a build do that shell tools don't."""

import fcntl
import mmap
import os


def mappings():
    with open("m", "w+b") as file:
        file.truncate(10000)
        with mmap.mmap(file.fileno(), 0) as shared:
            shared[4094:4099] = b"hello"
            shared.flush()
            assert os.pread(file.fileno(), 5, 4094) == b"hello"
            os.pwrite(file.fileno(), b"J", 4094)
            assert shared[4094:4099] == b"Jello"
        with mmap.mmap(file.fileno(), 0, mmap.MAP_PRIVATE) as own:
            own[0] = 65
    with open("m", "rb") as file:
        data = file.read()
    assert data == bytes(4094) + b"Jello" + bytes(10000 - 4099)
    with open("ma", "ab+") as file:
        file.write(b"0123456789")
        file.flush()
        with mmap.mmap(file.fileno(), 0) as shared:
            shared[2:4] = b"xy"
    assert open("ma", "rb").read() == b"01xy456789"


def locks():
    with open("l", "w") as one:
        fcntl.flock(one, fcntl.LOCK_EX)
        fcntl.lockf(one, fcntl.LOCK_EX, 10, 0)
        child = os.fork()
        if child == 0:
            refusals = 0
            with open("l", "r+") as other:
                for lock in (fcntl.flock, lambda f, how: fcntl.lockf(f, how, 5, 5)):
                    try:
                        lock(other, fcntl.LOCK_EX | fcntl.LOCK_NB)
                    except BlockingIOError:
                        refusals += 1
                fcntl.lockf(other, fcntl.LOCK_EX | fcntl.LOCK_NB, 5, 10)
            os._exit(refusals)
        assert os.waitstatus_to_exitcode(os.waitpid(child, 0)[1]) == 2


def many_files():
    """As many as the four sessions of a bridge hold, less some for the shell around it."""
    files = [open(f"many{number}", "w+") for number in range(200)]
    for number, file in enumerate(files):
        file.write(str(number))
        file.flush()
    for number, file in enumerate(files):
        file.seek(0)
        assert file.read() == str(number)
        file.close()
        os.unlink(f"many{number}")


def removed():
    with open("r", "w+b") as file:
        file.write(b"abc")
        os.unlink("r")
        file.flush()
        file.seek(0)
        assert file.read() == b"abc"
        assert os.fstat(file.fileno()).st_nlink == 0
        os.ftruncate(file.fileno(), 1)
        os.fchmod(file.fileno(), 0o600)
        found = os.fstat(file.fileno())
        assert (found.st_size, found.st_mode & 0o7777) == (1, 0o600)
    os.mkdir("rd")
    folder = os.open("rd", os.O_DIRECTORY)
    os.rmdir("rd")
    assert os.listdir(folder) == []
    os.close(folder)


def appends():
    children = []
    for who in (b"a", b"b"):
        child = os.fork()
        if child == 0:
            with open("ap", "ab", buffering=0) as file:
                for _ in range(200):
                    file.write(who * 9 + b"\n")
            os._exit(0)
        children.append(child)
    for child in children:
        assert os.waitpid(child, 0)[1] == 0
    lines = open("ap", "rb").read().split(b"\n")
    assert len(lines) == 401 and set(lines) == {b"a" * 9, b"b" * 9, b""}
    with open("ap", "wb") as file:
        file.write(b"done")


def one_tick():
    """Files that are emptied and written again before the kernel's clock has gone on."""
    for number in range(20):
        for text in (b"first", b"again"):
            with open(f"tick{number}", "wb") as file:
                file.write(text)


def lower_files():
    """A file of the lower layer, read by one and written by another."""
    with open("../many/name006", "rb") as reader, open("../many/name006", "r+b") as writer:
        before = reader.read()
        writer.write(b"X")
        writer.flush()
        assert os.pread(reader.fileno(), 99, 0) == b"X" + before[1:]
        writer.seek(0)
        writer.write(before[:1])
    os.setxattr("../many/name006", "user.a", b"1")
    os.setxattr("../many/name006", "user.a", b"2", os.XATTR_REPLACE)
    assert os.getxattr("../many/name006", "user.a") == b"2"
    os.removexattr("../many/name006", "user.a")


def holes():
    with open("h", "w+b") as file:
        os.posix_fallocate(file.fileno(), 0, 5000)
        assert os.fstat(file.fileno()).st_size == 5000
        file.seek(9000)
        file.write(b"x")
        file.flush()
        assert os.pread(file.fileno(), 9001, 0) == bytes(9000) + b"x"


for step in (mappings, locks, many_files, removed, appends, one_tick, lower_files, holes):
    step()
    print(step.__name__)
print("done")
