"""How a mount begins and ends, and what its users can't do to each other, on a real kernel."""

import contextlib
import os
import shutil
import signal
import socket
import stat
import subprocess
import tempfile
import time
import unittest

import real_server

from .bridges import ENVIRONMENT, PROGRAM, of_sockets
from .kernel import WAIT
from .mounts import why_not

NOBODY = 65534
MANIFEST = """history = 1000000
redirect_dir = "on"
layer = [{}, { entry = [
{ path = "/s", kind = "file", mode = 0o6777, text = "old" },
{ path = "/t", kind = "file", mode = 0o6777, text = "old" },
{ path = "/f", kind = "file", uid = 5, gid = 6, text = "0123456789" },
{ path = "/d", kind = "dir", mode = 0o1777 },
] }]"""
CAPABILITY = bytes.fromhex("0100000200040000000000000000000000000000")


def as_nobody(*words):
    """What a program prints that nobody runs."""
    done = subprocess.run(["setpriv", f"--reuid={NOBODY}", f"--regid={NOBODY}", "--clear-groups",
                           *words], capture_output=True, text=True, timeout=WAIT, check=False)
    return done.returncode, done.stdout.strip(), done.stderr.strip()


@of_sockets
class Life(unittest.TestCase):
    def setUp(self):
        reason = why_not()
        if reason:
            self.skipTest(reason)
        self.folder = tempfile.mkdtemp()
        os.chmod(self.folder, 0o755)
        self.mount = os.path.join(self.folder, "mount")
        os.mkdir(self.mount)
        self.addCleanup(shutil.rmtree, self.folder)
        self.server = real_server.Server(MANIFEST)
        self.addCleanup(self.server.__exit__, None, None, None)
        self.client = self.server.client()
        self.addCleanup(self.client.close)
        self.addCleanup(subprocess.run, ["umount", "--lazy", self.mount], capture_output=True,
                        check=False)

    def wait_for(self, what):
        limit = time.monotonic() + WAIT
        while not what():
            self.assertLess(time.monotonic(), limit)
            time.sleep(0.02)

    def begun(self, *options, **environment):
        process = subprocess.Popen([PROGRAM, self.server.path, self.mount, "-f", *options],
                                   stdin=subprocess.DEVNULL, stderr=subprocess.PIPE, text=True,
                                   env=dict(ENVIRONMENT, **environment))
        self.addCleanup(process.stderr.close)
        self.addCleanup(process.kill)
        self.wait_for(lambda: os.path.ismount(self.mount) or process.poll() is not None)
        return process

    def path(self, name):
        return os.path.join(self.mount, name)

    def opened(self, name):
        """A descriptor, whose close may fail, since the mount has gone by then."""
        number = os.open(self.path(name), os.O_WRONLY | os.O_CREAT)

        def close():
            with contextlib.suppress(OSError):
                os.close(number)

        self.addCleanup(close)
        return number

    def ended(self, process):
        subprocess.run(["umount", self.mount], check=True)
        self.assertEqual(process.wait(WAIT), 0, process.stderr.read())

    def test_it_goes_into_the_background(self):
        done = subprocess.run([PROGRAM, os.path.relpath(self.server.path, self.folder), "mount"],
                              cwd=self.folder, stdin=subprocess.DEVNULL, capture_output=True,
                              text=True, timeout=WAIT, env=ENVIRONMENT, check=False)
        self.assertEqual((done.returncode, done.stdout, done.stderr), (0, "", ""))
        self.assertTrue(os.path.ismount(self.mount))
        with open(self.path("new"), "w", encoding="ascii") as file:
            file.write("new")
        subprocess.run(["umount", self.mount], check=True)
        self.assertEqual(self.client.open("/new").read(), b"new")

    def test_a_signal_ends_it_with_all_that_was_written(self):
        """Of files that are still open, which the kernel holds back."""
        for number in (signal.SIGTERM, signal.SIGINT):
            process = self.begun()
            name = f"open{number}"
            file = self.opened(name)
            for at in range(20):
                os.write(file, bytes((at,)) * 50000)
            process.send_signal(number)
            self.assertEqual(process.wait(WAIT), 0, process.stderr.read())
            self.assertFalse(os.path.ismount(self.mount))
            self.assertEqual(self.client.open("/" + name).read(),
                             b"".join(bytes((at,)) * 50000 for at in range(20)))

    def test_what_could_not_be_written_is_told(self):
        process = self.begun("--wait", "20")
        file = self.opened("lost")
        # A machine that is short of memory may have the kernel write it at once.
        self.server.process.send_signal(signal.SIGSTOP)
        os.write(file, bytes(50000))
        self.server.process.kill()
        self.server.process.wait()
        process.send_signal(signal.SIGTERM)
        self.assertEqual(process.wait(WAIT), 1)
        self.assertIn("what was written last may be lost", process.stderr.read())

    def test_systemd_is_told(self):
        told = socket.socket(socket.AF_UNIX, socket.SOCK_DGRAM)
        self.addCleanup(told.close)
        told.settimeout(WAIT)
        path = os.path.join(self.folder, "notify")
        told.bind(path)
        process = self.begun(NOTIFY_SOCKET=path)
        self.assertEqual(told.recv(999), b"MAINPID=%d\nREADY=1" % process.pid)
        process.send_signal(signal.SIGTERM)
        self.assertEqual(told.recv(999), b"STOPPING=1")
        self.assertEqual(process.wait(WAIT), 0)

    def test_nobody_gets_a_program_of_roots(self):
        """By new bytes in a file that is set-user-ID and may be written by all."""
        program = shutil.which("id")
        for options in ((), ("--shared",)):
            process = self.begun("-o", "suid", *options)
            for script in (f"cat {program} > {self.path('s')}",
                           f"dd if={program} of={self.path('t')} conv=notrunc status=none"):
                self.assertEqual(as_nobody("sh", "-c", script), (0, "", ""))
            for name in "st":
                self.assertEqual(os.stat(self.path(name)).st_mode & 0o7777, 0o777)
                self.assertEqual(as_nobody(self.path(name), "-u"), (0, str(NOBODY), ""))
                os.chmod(self.path(name), 0o6777)
                self.assertEqual(as_nobody(self.path(name), "-u"), (0, "0", ""))
                self.assertEqual(as_nobody("sh", "-c", f": > {self.path(name)}"), (0, "", ""))
                self.assertEqual(os.stat(self.path(name)).st_mode & 0o7777, 0o777)
                os.chmod(self.path(name), 0o6777)
            self.ended(process)

    def test_attributes_of_other_classes(self):
        process = self.begun()
        os.setxattr(self.path("f"), "security.capability", CAPABILITY)
        os.setxattr(self.path("f"), "trusted.t", b"T")
        self.ended(process)
        process = self.begun()
        self.assertEqual(os.getxattr(self.path("f"), "security.capability"), CAPABILITY)
        self.assertEqual(sorted(os.listxattr(self.path("f"))), ["security.capability", "trusted.t"])
        os.chmod(self.path("f"), 0o666)
        self.assertEqual(as_nobody("sh", "-c", f"echo x >> {self.path('f')}"), (0, "", ""))
        self.assertEqual(os.listxattr(self.path("f")), ["trusted.t"])
        self.ended(process)

    def test_attributes_by_a_descriptor_alone(self):
        process = self.begun()
        os.setxattr(self.path("f"), "user.a", b"one")
        with open(self.path("f"), "r+b", buffering=0) as file:
            os.unlink(self.path("f"))
            self.assertEqual(os.getxattr(file.fileno(), "user.a"), b"one")
            os.setxattr(file.fileno(), "user.b", b"two")
            self.assertEqual(sorted(os.listxattr(file.fileno())), ["user.a", "user.b"])
            os.removexattr(file.fileno(), "user.a")
            os.fchmod(file.fileno(), 0o600)
            os.fchown(file.fileno(), 7, 8)
            found = os.fstat(file.fileno())
            self.assertEqual((found.st_mode & 0o7777, found.st_uid, found.st_gid), (0o600, 7, 8))
            self.assertEqual(os.listxattr(file.fileno()), ["user.b"])
        self.ended(process)

    def test_a_mount_in_a_user_namespace(self):
        """The recipe of the README: an ordinary user writes to an image of root's."""
        os.chmod(self.server.path, 0o666)
        os.chmod(os.path.dirname(self.server.path), 0o755)
        os.chown(self.mount, NOBODY, NOBODY)
        device = os.path.join(self.folder, "fuse")  # as /dev/fuse is on most machines
        os.mknod(device, stat.S_IFCHR, os.stat("/dev/fuse").st_rdev)
        os.chmod(device, 0o666)
        script = (f"mount --bind {device} /dev/fuse &&"
                  f"{PROGRAM} {self.server.path} {self.mount} --squash && cd {self.mount} &&"
                  "echo new > new && echo more >> f && mkdir d/e && stat -c '%n %u:%g' new f d/e"
                  f" && chown 0:0 f && ! chown 5:5 f 2> /dev/null; cd / && umount {self.mount}")
        told = as_nobody("env", "ASAN_OPTIONS=detect_leaks=0", "unshare", "-rm", "sh", "-c",
                         script)
        self.assertEqual(told, (0, "new 0:0\nf 0:0\nd/e 0:0", ""))
        self.assertEqual(self.client.open("/f").read(), b"0123456789more\n")
        found = self.client.stat("/new")
        self.assertEqual((found.st_uid, found.st_gid), (0, 0))
        self.assertEqual(self.client.stat("/f").st_uid, 5)


if __name__ == "__main__":
    unittest.main()
