"""How a mount with the engine inside begins and ends, on a real kernel."""

import contextlib
import os
import pathlib
import resource
import shutil
import signal
import stat
import subprocess
import tempfile
import time
import unittest

from .bridges import ENGINE, ENVIRONMENT, of_engine, why_no_engine
from .kernel import WAIT
from .mounts import FUSE, times, tree

NOBODY = 65534
MANIFEST = """redirect_dir = "on"
file_limit = 1073741824
layer = [{}, { entry = [
{ path = "/d", kind = "dir" },
{ path = "/d/f", kind = "file", text = "lower\\n", attrs = [
  ["user.overlayd.meta", "1 - 0 5.000000007 6.000000008 7.000000009"]] },
{ path = "/d/g", kind = "link", to = "/d/f" },
{ path = "/large", kind = "file", zeros = 1000000 },
] }]
"""


def why_not():
    """Why nothing can be mounted here, or None."""
    if os.geteuid() != 0:
        return "not root"
    return why_no_engine() or (None if os.path.exists(FUSE) else f"no {FUSE}")


class Inside(unittest.TestCase):
    def setUp(self):
        reason = why_not()
        if reason:
            self.skipTest(reason)
        self.folder = tempfile.mkdtemp()
        self.addCleanup(shutil.rmtree, self.folder)
        os.chmod(self.folder, 0o755)
        self.mount = self.at("mount")
        os.mkdir(self.mount)
        self.saved = self.at("saved.toml")
        pathlib.Path(self.at("m.toml")).write_text(MANIFEST)
        self.addCleanup(subprocess.run, ["umount", "--lazy", self.mount], capture_output=True,
                        check=False)

    def at(self, name):
        return os.path.join(self.folder, name)

    def path(self, name):
        return os.path.join(self.mount, name)

    def wait_for(self, what):
        limit = time.monotonic() + WAIT
        while not what():
            self.assertLess(time.monotonic(), limit)
            time.sleep(0.02)

    def begun(self, *options):
        process = subprocess.Popen(
            [ENGINE, "--manifest", self.at("m.toml"), self.mount, "-f", *options],
            stdin=subprocess.DEVNULL, stderr=subprocess.PIPE, text=True, env=ENVIRONMENT)
        self.addCleanup(process.stderr.close)
        self.addCleanup(process.kill)
        self.wait_for(lambda: os.path.ismount(self.mount) or process.poll() is not None)
        self.assertIsNone(process.poll())
        return process

    def ended(self, process, status=0):
        subprocess.run(["umount", self.mount], check=True)
        self.assertEqual(process.wait(WAIT), status, process.stderr.read())

    def test_it_goes_into_the_background_and_is_saved(self):
        words = ["--manifest", "m.toml", "--save", "saved.toml", "--upper", "saved.toml", "mount"]
        for number in range(2):
            done = subprocess.run([ENGINE, *words], cwd=self.folder, stdin=subprocess.DEVNULL,
                                  capture_output=True, text=True, timeout=WAIT, env=ENVIRONMENT,
                                  check=False)
            self.assertEqual((done.returncode, done.stdout, done.stderr), (0, "", ""))
            self.assertTrue(os.path.ismount(self.mount))
            self.assertEqual(os.path.exists(self.path("new")), number > 0)
            pathlib.Path(self.path("new")).write_text("new")
            before = os.path.getmtime(self.saved) if number else 0
            subprocess.run(["umount", self.mount], check=True)
            self.wait_for(lambda before=before: os.path.exists(self.saved)
                          and os.path.getmtime(self.saved) > before)

    def test_a_signal_saves_what_is_written_still(self):
        for number in (signal.SIGTERM, signal.SIGINT):
            process = self.begun("--save", self.saved)
            file = os.open(self.path("open"), os.O_WRONLY | os.O_CREAT)
            for at in range(20):
                os.write(file, bytes((at,)) * 3000)
            process.send_signal(number)
            self.assertEqual(process.wait(WAIT), 0, process.stderr.read())
            with contextlib.suppress(OSError):  # its mount has gone
                os.close(file)
            self.assertFalse(os.path.ismount(self.mount))
            process = self.begun("--upper", self.saved)
            self.assertEqual(pathlib.Path(self.path("open")).read_bytes(),
                             b"".join(bytes((at,)) * 3000 for at in range(20)))
            self.ended(process)
            os.unlink(self.saved)

    def test_the_same_tree_and_times(self):
        process = self.begun("--save", self.saved)
        script = """cd "$M"; mkdir -p a/b; cp -a /etc/hostname a; echo more >> d/f
            touch -d '2001-02-03 04:05:06.789' d; ln a/hostname a/b/again; ln -s x a/l
            mv d moved; setfattr -n user.n -v value a 2>/dev/null || true; mkfifo a/fifo
            dd if=/dev/urandom of=a/random bs=10k count=30 status=none; rm large"""
        subprocess.run(["bash", "-euc", script], env=dict(os.environ, M=self.mount), check=True)
        before = tree(self.mount, link_owners=False), times(self.mount)
        self.ended(process)
        process = self.begun("--upper", self.saved)
        self.assertEqual((tree(self.mount, link_owners=False), times(self.mount)), before)
        self.ended(process)

    def test_what_cannot_be_saved_is_told(self):
        process = self.begun("--save", self.saved)
        pathlib.Path(self.path("new")).write_text("new")
        os.mkdir(self.saved)
        subprocess.run(["umount", self.mount], check=True)
        self.assertEqual(process.wait(WAIT), 1)
        told = process.stderr.read()
        self.assertIn("cannot save to", told)
        kept = told.partition("the upper layer is in ")[2].split("\n")[0]
        self.addCleanup(os.unlink, kept)
        self.assertIn('"/new"', pathlib.Path(kept).read_text())

    def test_a_helper_of_mount(self):
        """By its name; options that fstab has for others are passed over."""
        helper = self.at("mount.fuse.overlayd")
        os.symlink(ENGINE, helper)
        options = f"rw,noauto,nofail,x-test,save={self.saved},noatime,dev"
        done = subprocess.run([helper, self.at("m.toml"), self.mount, "-n", "-o", options],
                              stdin=subprocess.DEVNULL, capture_output=True, text=True,
                              timeout=WAIT, env=ENVIRONMENT, check=False)
        self.assertEqual((done.returncode, done.stdout, done.stderr), (0, "", ""))
        with open("/proc/self/mounts", encoding="ascii") as mounts:
            line = next(line.split() for line in mounts if line.split()[1] == self.mount)
        self.assertEqual(line[0], self.at("m.toml"))
        self.assertEqual(line[2], "fuse.overlayd")
        self.assertIn("noatime", line[3])
        pathlib.Path(self.path("new")).write_text("new")
        subprocess.run(["umount", self.mount], check=True)
        self.wait_for(lambda: os.path.exists(self.saved))
        self.assertIn('"/new"', pathlib.Path(self.saved).read_text())

    @of_engine
    def test_df_and_the_bound(self):
        process = self.begun("--size", str(8 << 20))
        told = os.statvfs(self.mount)
        self.assertEqual(told.f_blocks * told.f_frsize, 8 << 20)
        piece = os.urandom(1 << 16)
        written = 0
        with self.assertRaises(OSError) as full, open(self.path("f"), "wb", buffering=0) as file:
            while written < 1 << 28:
                written += file.write(piece)
        self.assertEqual(os.strerror(full.exception.errno), "No space left on device")
        self.assertGreater(written, 1 << 20)
        self.assertEqual(pathlib.Path(self.path("f")).read_bytes(),
                         piece * (written // len(piece)))
        self.assertLess(os.statvfs(self.mount).f_bavail, told.f_bavail)
        os.unlink(self.path("f"))
        pathlib.Path(self.path("g")).write_bytes(piece)
        self.ended(process)

    def test_times_come_from_the_manifest(self):
        process = self.begun()
        found = os.stat(self.path("d/f"))
        self.assertEqual((found.st_atime_ns, found.st_mtime_ns, found.st_ctime_ns),
                         (5000000007, 6000000008, 7000000009))
        self.assertEqual(os.listxattr(self.path("d/f")), [])
        self.ended(process)

    @of_engine
    def test_names_of_one_file(self):
        process = self.begun()
        self.assertTrue(os.path.samefile(self.path("d/f"), self.path("d/g")))
        os.chmod(self.path("d/f"), 0o600)
        self.assertFalse(os.path.samefile(self.path("d/f"), self.path("d/g")))
        self.ended(process)

    def test_many_open_files(self):
        process = self.begun()
        count = min(4000, resource.getrlimit(resource.RLIMIT_NOFILE)[0] - 100)
        files = []
        for number in range(count):
            files.append(open(self.path(str(number)), "w+b", buffering=0))
            files[-1].write(b"%d" % number)
            if number % 2:
                os.unlink(self.path(str(number)))
        for number, file in enumerate(files):
            file.seek(0)
            self.assertEqual(file.read(9), b"%d" % number)
            file.close()
        self.assertEqual(len(os.listdir(self.mount)), 2 + (count + 1) // 2)
        self.ended(process)

    def test_an_ordinary_user(self):
        """The recipe of the README: in a user namespace somebody writes to an image of root's."""
        os.chown(self.mount, NOBODY, NOBODY)
        place = self.at("own")
        os.mkdir(place)
        os.chown(place, NOBODY, NOBODY)
        device = self.at("fuse")
        os.mknod(device, stat.S_IFCHR, os.stat(FUSE).st_rdev)
        os.chmod(device, 0o666)
        words = f"--manifest {self.at('m.toml')} --save {place}/saved.toml {self.mount} --squash"
        script = (f"mount --bind {device} /dev/fuse && {ENGINE} {words} && cd {self.mount} &&"
                  "echo new > new && echo more >> d/f && stat -c '%n %u:%g' new d/f &&"
                  f"cd / && umount {self.mount} && while ! test -e {place}/saved.toml;"
                  "do sleep 0.1; done")
        done = subprocess.run(["setpriv", f"--reuid={NOBODY}", f"--regid={NOBODY}",
                               "--clear-groups", "env", "ASAN_OPTIONS=detect_leaks=0", "unshare",
                               "-rm", "sh", "-c", script], capture_output=True, text=True,
                              timeout=WAIT, env=ENVIRONMENT, check=False)
        self.assertEqual((done.returncode, done.stdout, done.stderr), (0, "new 0:0\nd/f 0:0\n", ""))
        self.assertIn('"/new"', pathlib.Path(place, "saved.toml").read_text())

    def test_a_signal_at_any_moment(self):
        """Between two requests, while one is made, and while none comes."""
        for number in range(24):
            process = self.begun()
            busy = subprocess.Popen(["sh", "-c", "while stat -f . > /dev/null; do :; done"],
                                    cwd=self.mount, stderr=subprocess.DEVNULL)
            time.sleep(number % 8 / 500)
            if number % 3 == 0:
                busy.kill()
                busy.wait()
            process.send_signal((signal.SIGTERM, signal.SIGINT, signal.SIGHUP)[number % 3])
            self.assertEqual(process.wait(WAIT), 0, process.stderr.read())
            busy.kill()
            busy.wait()

    def test_polling(self):
        """It is served, and hears signals, also while requests come all the time."""
        process = self.begun("--poll", "100", "--save", self.saved)
        busy = subprocess.Popen(["sh", "-c", "while stat -f . > /dev/null; do :; done"],
                                cwd=self.mount, stderr=subprocess.DEVNULL)
        self.addCleanup(busy.wait)
        self.addCleanup(busy.kill)
        pathlib.Path(self.path("new")).write_text("new")
        process.send_signal(signal.SIGTERM)
        self.assertEqual(process.wait(WAIT), 0, process.stderr.read())
        self.assertIn('"/new"', pathlib.Path(self.saved).read_text())

    def test_what_is_killed_was_not_saved(self):
        process = self.begun("--save", self.saved)
        pathlib.Path(self.path("new")).write_text("new")
        process.kill()
        process.wait()
        self.assertFalse(os.path.exists(self.saved))
        subprocess.run(["umount", "--lazy", self.mount], check=True)


if __name__ == "__main__":
    unittest.main()
