"""Real programs on a mount, and the same on the kernel's overlayfs beside it: the same output,
the same objects, bytes and attributes."""

import errno
import mmap
import os
import shutil
import struct
import subprocess
import sys
import unittest

from .kernel import WAIT
from .bridges import INSIDE, of_sockets
from .mounts import Mounted, MountedCase, times, tree, trips, why_not

OUTER = {name: value for name, value in os.environ.items() if not name.startswith("MAKE")}
ENVIRONMENT = dict(
    OUTER, LC_ALL="C", TZ="UTC", HOME="/nonexistent", GIT_CONFIG_NOSYSTEM="1",
    GIT_AUTHOR_NAME="a", GIT_AUTHOR_EMAIL="a@example", GIT_COMMITTER_NAME="a",
    GIT_COMMITTER_EMAIL="a@example", GIT_AUTHOR_DATE="2020-01-01T00:00:00Z",
    GIT_COMMITTER_DATE="2020-01-01T00:00:00Z", PYTHONDONTWRITEBYTECODE="1")

# Files in which numbers or times of the file system stand, or what chance decides.
LEAVES_OUT = (".tar", "index", ".pack", ".idx", ".rev", ".db", "-wal", "-shm")

HELLO = "#include <stdio.h>\n#include \"%s.h\"\nint %s(void) { return printf(\"%s\\n\"); }\n"
MAKEFILE = """OBJECTS = main.o a.o b.o c.o
hello: $(OBJECTS)
\tgcc -o $@ $(OBJECTS)
%.o: %.c all.h
\tgcc -O1 -c -o $@ $<
"""


def fill(base):
    """A source tree, many names, links, attributes, and the largest file that there may be."""
    source = base / "src"
    source.mkdir()
    (source / "all.h").write_text("int a(void), b(void), c(void);\n")
    for name in "abc":
        (source / f"{name}.c").write_text(HELLO % ("all", name, name))
    (source / "main.c").write_text(
        '#include "all.h"\nint main(void) { return a() + b() + c() == 6 ? 0 : 1; }\n')
    (source / "Makefile").write_text(MAKEFILE)
    many = base / "many"
    many.mkdir()
    for number in range(300):
        (many / f"name{number:03}").write_text(f"{number}\n" * (number % 7))
    (base / "links").mkdir()
    (base / "links" / "l").symlink_to("../src/all.h")
    (base / "links" / "up").symlink_to("..")
    (base / "large").write_bytes(bytes(range(256)) * 4096)
    (base / "run").write_text("#!/bin/sh\necho ran\n")
    (base / "run").chmod(0o755)
    os.setxattr(base / "many", "user.note", b"of many")
    (base / "anyone").mkdir()
    (base / "anyone").chmod(0o1777)
    (base / "group").mkdir()
    os.chown(base / "group", 0, 1234)
    (base / "group").chmod(0o2775)


class Programs(MountedCase):
    OPTIONS = ("--times", "--devices")
    fill = staticmethod(fill)

    def both(self, script, *needs):
        """Runs a script in both mounts; what it printed, and then the trees, are the same."""
        for need in needs:
            if shutil.which(need) is None:
                self.skipTest(f"no {need}")
        outputs = []
        for root in (self.mounted.here, self.mounted.there):
            done = subprocess.run(["bash", "-euc", script], cwd=root, env=ENVIRONMENT, text=True,
                                  stdout=subprocess.PIPE, stderr=subprocess.STDOUT,
                                  timeout=WAIT * 3)
            self.assertEqual(done.returncode, 0, f"{root}: {done.stdout}")
            outputs.append(done.stdout.replace(root, "ROOT"))
        self.assertEqual(*outputs)
        self.same()
        return outputs[0]

    def same(self):
        """Compares the mounts, and then what a new bridge shows of what the server has."""
        self.compare()
        before = times(self.mounted.here)
        self.mounted.remount()
        self.compare()
        after = times(self.mounted.here)
        changed = {path: (before[path], after[path]) for path in before
                   if path in after and before[path] != after[path]}
        self.assertEqual(changed, {})

    def compare(self):
        here, there = (tree(root, LEAVES_OUT, link_owners=False)
                       for root in (self.mounted.here, self.mounted.there))
        self.assertEqual(sorted(here), sorted(there))
        for path, told in there.items():
            self.assertEqual(here[path], told, path)

    def test_cp(self):
        self.both("mkdir cp; cp -a src many links large cp; diff -r --no-dereference src cp/src;"
                  "diff -r --no-dereference many cp/many; cmp large cp/large;"
                  "test cp/src/a.c -nt src/a.c && echo newer;"
                  "test cp/src/a.c -ot src/a.c && echo older;"
                  "cp -l cp/src/a.c cp/src/a2.c; stat -c %h cp/src/a.c")

    def test_tar(self):
        told = self.both("mkdir tar; tar cf tar/t.tar src links; cd tar; tar xf t.tar;"
                         "tar df t.tar; tar tf t.tar | sort")
        self.assertIn("src/main.c", told)

    def test_git(self):
        told = self.both(
            "mkdir git; cd git; cp -r ../src one; cd one; git init -q -b main;"
            "git config pack.threads 1; git add .; git commit -qm one; git mv a.c z.c;"
            "echo >> b.c; git commit -qam two; git checkout -qb side HEAD^; echo >> c.c;"
            "git commit -qam side; git checkout -q main; git merge -q -m merged side; git gc -q;"
            "git fsck --full; git status --short; git log --oneline --graph; cd ..;"
            "git clone -q one two; cd two; git log --oneline | wc -l; git status --short",
            "git")
        self.assertIn("merged", told)
        self.assertEqual(told.splitlines()[-1], "4")

    def test_make(self):
        told = self.both("cp -r src make; cd make; make -s; ./hello; make; sleep 1.1; touch b.c;"
                         "make; rm c.o; make -j4; sleep 1.1; touch all.h;"
                         "make -j4 > /dev/null; make", "make", "gcc")
        self.assertEqual(told.splitlines()[:3], ["a", "b", "c"])
        self.assertEqual(told.splitlines()[3:6], ["make: 'hello' is up to date.",
                                                  "gcc -O1 -c -o b.o b.c",
                                                  "gcc -o hello main.o a.o b.o c.o"])

    def test_sqlite(self):
        for mode in ("delete", "wal"):
            told = self.both(
                f"mkdir sqlite-{mode}; cd sqlite-{mode};"
                f"sqlite3 f.db 'pragma journal_mode={mode}; create table t(a, b);"
                "with recursive n(i) as (select 1 union all select i + 1 from n where i < 2000)"
                "insert into t select i, i from n;';"
                "for i in 1 2 3 4; do sqlite3 -cmd '.timeout 60000' f.db"
                " \"update t set b = b + $i where a % $i = 0\" & done; wait;"
                "sqlite3 f.db 'pragma integrity_check; select count(*), sum(b) from t;"
                "delete from t where a > 10; vacuum; select * from t'",
                "sqlite3")
            self.assertEqual(told.splitlines()[1], "ok")

    def test_rsync(self):
        told = self.both("mkdir rsync; cp -l run run2; rsync -aHX src many links run run2 rsync/;"
                         "rsync -aHX --itemize-changes src many links run run2 rsync/;"
                         "stat -c %h rsync/run; rm run2", "rsync")
        self.assertEqual(told, "2\n")

    def test_renames(self):
        self.both("mkdir mv; mkdir mv/d; cp -r links mv/links; mv mv/links mv/d/moved;"
                  "mv many mv/many2; ls mv/many2 | wc -l; mv mv/many2/name001 mv/many2/name002;"
                  "mv mv/many2 many; cat many/name002; find mv | sort")

    def test_text_tools(self):
        self.both("mkdir text; sed -i s/printf/puts/ src/a.c; grep -r puts src; sort -r many/* | "
                  "uniq -c > text/sorted; head -c 100000 large | tail -c 7 | od -c;"
                  "sed -i s/puts/printf/ src/a.c; ./run; cd links/up/links; cat l")

    def test_a_foreign_user(self):
        told = self.both(
            "as() { setpriv --reuid 1000 --regid 100 --clear-groups -- \"$@\"; };"
            "as mkdir anyone/mine; as touch anyone/mine/f; as ln -s f anyone/mine/l;"
            "as touch anyone/other; touch anyone/roots; as rm -f anyone/roots || echo refused;"
            "as touch src/x || echo refused; as sh -c 'echo x >> run' || echo refused;"
            "as chmod 600 run || echo refused; as cat run; as chmod 4755 anyone/mine/f;"
            "as mkfifo anyone/mine/p; chown 3:4 anyone/mine/f; stat -c '%A %u %g' anyone/mine/*;"
            "mkdir group/d; touch group/f; stat -c '%A %g' group/*", "setpriv")
        self.assertEqual(told.count("refused"), 4)

    def test_special_files(self):
        self.both("mkdir special; cd special; mkfifo p; mknod c c 1 3; mknod b b 7 0;"
                  "chmod 600 p c;"
                  "(echo through > p &); cat p; python3 -c 'import socket; "
                  "socket.socket(socket.AF_UNIX).bind(\"s\")'; stat -c '%F %t %T %n' *;"
                  "mv p q; rm b")

    def test_python(self):
        """Mappings, locks, many open files, removed files, appends of two processes."""
        script = os.path.join(os.path.dirname(__file__), "on_a_mount.py")
        told = self.both(f"mkdir python; cd python; {sys.executable} {script}")
        self.assertEqual(told.splitlines()[-1], "done")


class AloneCase(unittest.TestCase):
    """Tests on a mount through the bridge alone."""

    @classmethod
    def setUpClass(cls):
        reason = why_not()
        if reason:
            raise unittest.SkipTest(reason)


class Limits(AloneCase):
    def root(self, *options):
        """A mount on which there is a file."""
        mounted = Mounted(lambda base: (base / "f").write_bytes(bytes(9)), *options, overlay=False)
        self.addCleanup(mounted.end)
        return mounted.here

    def refused(self, number, call, *words):
        with self.assertRaises(OSError) as refusal:
            call(*words)
        self.assertEqual(refusal.exception.errno, number)

    def test_a_thousand_open_files(self):
        root = self.root("--sessions", "16")
        files = [open(os.path.join(root, f"n{number}"), "w+") for number in range(1000)]
        for number, file in enumerate(files):
            file.write(f"{number}")
            file.flush()
            os.fsync(file.fileno())
        for number, file in enumerate(files):
            self.assertEqual(os.pread(file.fileno(), 9, 0), str(number).encode())
            file.close()
        self.assertEqual(len(os.listdir(root)), 1001)

    def test_a_file_beyond_the_limit(self):
        for options in ((),) if INSIDE else ((), ("--shared",)):
            file = os.open(os.path.join(self.root(*options), "f"), os.O_WRONLY)
            self.addCleanup(os.close, file)
            os.pwrite(file, b"x", 1048575)
            if options:
                self.refused(errno.EFBIG, os.pwrite, file, b"x", 1048576)
            else:
                os.pwrite(file, b"x", 1048576)
                self.refused(errno.EFBIG, os.fsync, file)

    @of_sockets
    def test_mappings_where_nothing_is_kept(self):
        with open(os.path.join(self.root("--shared"), "f"), "r+b") as file:
            self.refused(errno.ENODEV, mmap.mmap, file.fileno(), 9)
            with mmap.mmap(file.fileno(), 9, mmap.MAP_PRIVATE) as own:
                self.assertEqual(own[:], bytes(9))

    def test_attributes_and_files_that_there_are_not(self):
        path = os.path.join(self.root(), "f")
        access_list = struct.pack("<I" + "HHI" * 3, 2, 1, 6, 0xffffffff, 4, 4, 0xffffffff, 32, 4,
                                  0xffffffff)
        for name, value in (("system.a", b"x"), ("system.posix_acl_access", access_list)):
            self.refused(errno.EOPNOTSUPP, os.setxattr, path, name, value)
        self.refused(errno.EOPNOTSUPP, os.open, os.path.dirname(path),
                     os.O_TMPFILE | os.O_RDWR)


@of_sockets
class RoundTrips(AloneCase):
    """With the kernel's own caching, nothing of it filled."""

    def taken(self, script):
        """The round trips of a script beyond those of a mount on which nothing is done."""
        def fill_deep(base):
            (base / "a" / "b" / "c").mkdir(parents=True)
            (base / "a" / "b" / "c" / "large").write_bytes(bytes(1048576))
            for number in range(200):
                (base / "a" / f"n{number}").write_text("x")
        counts = []
        for one in (script, "true"):
            mounted = Mounted(fill_deep, overlay=False)
            subprocess.run(["bash", "-euc", one], cwd="/", check=True, timeout=WAIT,
                           env=dict(os.environ, M=mounted.here), stdout=subprocess.DEVNULL)
            counts.append(trips(mounted.end()))
        return counts[0] - counts[1]

    def test_ls(self):
        self.assertLessEqual(self.taken("ls -l $M/a"), 5)

    def test_cat(self):
        self.assertLessEqual(self.taken("cat $M/a/b/c/large"), 14)

    def test_writing(self):
        script = "dd if=/dev/zero of=$M/a/b/c/new bs=4k count=256 status=none"
        self.assertLessEqual(self.taken(script), 8)


if __name__ == "__main__":
    unittest.main()
